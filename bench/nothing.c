/* A server that does nothing, for bench/loopback.py: it reads a request of each connection, writes the bytes of its argument, ends as
 * `desk serve` does (shuts its writing side, reads away what comes), and takes the next.
 *
 *     nothing REPLY
 */
#define _GNU_SOURCE
#include <arpa/inet.h>
#include <stdio.h>
#include <stdlib.h>
#include <string.h>
#include <strings.h>
#include <sys/socket.h>
#include <unistd.h>

enum { REQUEST_BYTES = 1 << 18 };

static void fail(const char *what)
{
    perror(what);
    exit(1);
}

static void check(int found, const char *what)
{
    if (found < 0)
        fail(what);
}

/* How many bytes a request has, by what was read of it; 0 while its head has no end. */
static size_t length_of(const char *request)
{
    const char *end = strstr(request, "\r\n\r\n");
    if (!end)
        return 0;
    const char *field = strcasestr(request, "\r\nContent-Length:");
    size_t body = field && field < end ? strtoul(field + strlen("\r\nContent-Length:"), NULL, 10) : 0;
    return (size_t)(end - request) + 4 + body;
}

static void read_request(int client)
{
    static char request[REQUEST_BYTES];
    size_t filled = 0, length = 0;
    while (length == 0 || filled < length) {
        ssize_t more = read(client, request + filled, sizeof request - 1 - filled);
        if (more <= 0)
            return;
        filled += (size_t)more;
        request[filled] = 0;
        length = length_of(request);
    }
}

static void serve(int client, const char *reply)
{
    char piece[4096];
    read_request(client);
    if (write(client, reply, strlen(reply)) < 0)
        return;
    shutdown(client, SHUT_WR);
    while (read(client, piece, sizeof piece) > 0)
        ;
}

int main(int count, char **words)
{
    if (count != 2) {
        fprintf(stderr, "usage: nothing REPLY\n");
        return 2;
    }
    struct sockaddr_in address = {.sin_family = AF_INET, .sin_addr.s_addr = htonl(INADDR_LOOPBACK)};
    socklen_t length = sizeof address;
    int listener = socket(AF_INET, SOCK_STREAM, 0);
    check(listener, "socket");
    check(bind(listener, (struct sockaddr *)&address, length), "bind");
    check(listen(listener, 128), "listen");
    check(getsockname(listener, (struct sockaddr *)&address, &length), "getsockname");
    printf("listening on 127.0.0.1:%d\n", ntohs(address.sin_port));
    fflush(stdout);
    for (;;) {
        int client = accept(listener, NULL, NULL);
        check(client, "accept");
        serve(client, words[1]);
        close(client);
    }
}
