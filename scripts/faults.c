/* What a machine may do to the program, for the scripts that try it. Preloaded; each part does nothing where its variable is not set, and a file
   that it names has numbers of 64 bits, which the script sets while the program runs.

   MACHINE     a file: the moment in seconds, below 0 where the clock fails; 0 where random bytes are zero, else they fail.
   SYNCS       a file that gets a byte at each sync.
   CONNECTION  a file: the read of an accepted connection that fails once, the write of it that fails (0: none), and how many bytes one of them moves
               at most (0: all).
   STOP_FILE   the path of a desk. The process ends before, or half way through (STOP_HALF is 1), write number STOP_AT (0: none) to it or its log; or,
               with STOP_FAILED, that call fails, a read, a write or a sync, the process goes on, and the file of this path is made. With STOP_SERVING
               calls are counted from the first connection on.
   STEP_AT     the process is killed before the call of this number that changes a file, its name, its owner or its mode, or syncs it.
   UNLINK      no name of a file can be removed.
   LOCK        a path: the first lock of a file makes a file of this path, and waits until that is gone, a minute at most.
   GROWTHS     a file, shared: the first growth of memory to refuse since a connection was accepted (0: none), the last one, how many there were, and how
               many were refused. GROWTHS_FROM says that they are counted from elsewhere: `start` from the program's start, `input` from its first read of
               standard input. */
#define _GNU_SOURCE
#include <dlfcn.h>
#include <errno.h>
#include <fcntl.h>
#include <limits.h>
#include <signal.h>
#include <stdarg.h>
#include <stdint.h>
#include <stdio.h>
#include <stdlib.h>
#include <string.h>
#include <sys/mman.h>
#include <sys/socket.h>
#include <sys/stat.h>
#include <sys/syscall.h>
#include <sys/types.h>
#include <sys/uio.h>
#include <time.h>
#include <unistd.h>

#define REAL(name)                                                                                                     \
    static __typeof__(&name) real;                                                                                     \
    if (!real)                                                                                                         \
    real = (__typeof__(&name))dlsym(RTLD_NEXT, #name)

/* Reads the numbers of the file that a variable names; returns whether they are there. */
static int has_numbers(const char *variable, int64_t *numbers, size_t count) {
    const char *path = getenv(variable);
    int file = path ? open(path, O_RDONLY) : -1;
    if (file < 0)
        return 0;
    ssize_t length = pread(file, numbers, count * sizeof *numbers, 0);
    close(file);
    return length == (ssize_t)(count * sizeof *numbers);
}

static int fails(int error) {
    errno = error;
    return -1;
}

/* ---- The clock and the random bytes. */

int clock_gettime(clockid_t clock, struct timespec *time) {
    int64_t machine[2];
    if (clock != CLOCK_REALTIME || !has_numbers("MACHINE", machine, 2))
        return (int)syscall(SYS_clock_gettime, clock, time);
    if (machine[0] < 0)
        return fails(EINVAL);
    time->tv_sec = machine[0];
    time->tv_nsec = 0;
    return 0;
}

ssize_t getrandom(void *bytes, size_t count, unsigned flags) {
    int64_t machine[2];
    if (!has_numbers("MACHINE", machine, 2))
        return syscall(SYS_getrandom, bytes, count, flags);
    if (machine[1])
        return fails(EIO);
    memset(bytes, 0, count);
    return (ssize_t)count;
}

int getentropy(void *bytes, size_t count) { return getrandom(bytes, count, 0) < 0 ? -1 : 0; }

/* ---- Steps. */

/* Kills the process where this step is the last. */
static void step(void) {
    static long seen;
    const char *at = getenv("STEP_AT");
    if (at && ++seen == atol(at))
        kill(getpid(), SIGKILL);
}

/* ---- Names, locks, owners and modes of files. */

int fcntl(int fd, int word, ...) {
    static int waited;
    const char *path = getenv("LOCK");
    va_list more;
    va_start(more, word);
    void *argument = va_arg(more, void *);
    va_end(more);
    REAL(fcntl);
    if (path && word == F_OFD_SETLK && !waited++) {
        close(open(path, O_CREAT | O_WRONLY, 0600));
        for (int waits = 0; waits < 60000 && access(path, F_OK) == 0; waits++)
            usleep(1000);
    }
    return real(fd, word, argument);
}

int unlink(const char *path) {
    REAL(unlink);
    step();
    return getenv("UNLINK") ? fails(EROFS) : real(path);
}

int link(const char *path, const char *to) {
    REAL(link);
    step();
    return real(path, to);
}

int rename(const char *path, const char *to) {
    REAL(rename);
    step();
    return real(path, to);
}

int fchown(int fd, uid_t user, gid_t group) {
    REAL(fchown);
    step();
    return real(fd, user, group);
}

int fchmod(int fd, mode_t mode) {
    REAL(fchmod);
    step();
    return real(fd, mode);
}

/* ---- Growths of memory. */

extern void *__libc_malloc(size_t);
extern void *__libc_calloc(size_t, size_t);
extern void *__libc_realloc(void *, size_t);
extern void *__libc_memalign(size_t, size_t);

/* The numbers; none are there before counting begins, so the program's start is let be. */
static volatile struct growths {
    int64_t first, last, seen, refused;
} *growths;

static void share_growths(void) {
    const char *path = getenv("GROWTHS");
    int file = path ? open(path, O_RDWR) : -1;
    if (file < 0)
        return;
    void *page = mmap(NULL, sizeof *growths, PROT_READ | PROT_WRITE, MAP_SHARED, file, 0);
    close(file);
    growths = page == MAP_FAILED ? NULL : page;
}

/* Counts growths again from one. */
static void count_growths(void) {
    if (!growths)
        share_growths();
    if (growths)
        growths->seen = growths->refused = 0;
}

static int are_counted_from(const char *place) {
    const char *from = getenv("GROWTHS_FROM");
    return from && strcmp(from, place) == 0;
}

__attribute__((constructor)) static void count_from_start(void) {
    if (are_counted_from("start"))
        count_growths();
}

static int is_refused(void) {
    if (!growths)
        return 0;
    int64_t at = ++growths->seen;
    if (!growths->first || at < growths->first || at > growths->last)
        return 0;
    growths->refused++;
    errno = ENOMEM;
    return 1;
}

void *malloc(size_t size) { return is_refused() ? NULL : __libc_malloc(size); }

void *calloc(size_t count, size_t size) { return is_refused() ? NULL : __libc_calloc(count, size); }

void *realloc(void *old, size_t size) { return is_refused() ? NULL : __libc_realloc(old, size); }

void *aligned_alloc(size_t alignment, size_t size) { return is_refused() ? NULL : __libc_memalign(alignment, size); }

int posix_memalign(void **found, size_t alignment, size_t size) {
    if (is_refused())
        return ENOMEM;
    *found = __libc_memalign(alignment, size);
    return *found ? 0 : ENOMEM;
}

/* ---- Connections. */

/* The accepted connection, and how many reads and writes there were. */
static int connection = -1;
static int64_t received, sent;

static int begin_connection(int accepted) {
    connection = accepted;
    received = sent = 0;
    count_growths();
    return accepted;
}

int accept(int socket, struct sockaddr *address, socklen_t *length) {
    REAL(accept);
    return begin_connection(real(socket, address, length));
}

int accept4(int socket, struct sockaddr *address, socklen_t *length, int flags) {
    REAL(accept4);
    return begin_connection(real(socket, address, length, flags));
}

/* How many of so many bytes the call of this number moves; below 0 where it fails. */
static ssize_t moved(size_t count, int64_t seen, int failing) {
    int64_t plan[3];
    if (!has_numbers("CONNECTION", plan, 3))
        return (ssize_t)count;
    if (seen == plan[failing])
        return fails(ECONNRESET);
    return plan[2] && count > (size_t)plan[2] ? (ssize_t)plan[2] : (ssize_t)count;
}

ssize_t recv(int fd, void *bytes, size_t count, int flags) {
    REAL(recv);
    ssize_t most = fd == connection ? moved(count, ++received, 0) : (ssize_t)count;
    return most < 0 ? -1 : real(fd, bytes, (size_t)most, flags);
}

ssize_t send(int fd, const void *bytes, size_t count, int flags) {
    REAL(send);
    ssize_t most = fd == connection ? moved(count, ++sent, 1) : (ssize_t)count;
    return most < 0 ? -1 : real(fd, bytes, (size_t)most, flags);
}

/* ---- The desk's file and its log. */

/* Whether the descriptor is that of the file or of its log, whose name begins with the file's. */
static int is_watched(int fd) {
    const char *file = getenv("STOP_FILE");
    char link[64], path[PATH_MAX];
    if (!file)
        return 0;
    snprintf(link, sizeof link, "/proc/self/fd/%d", fd);
    ssize_t length = readlink(link, path, sizeof path - 1);
    if (length < 0)
        return 0;
    path[length] = 0;
    return strncmp(path, file, strlen(file)) == 0;
}

/* Whether this call is the one to stop at. */
static int is_last(int fd) {
    static long seen, at = -1;
    if (at < 0)
        at = getenv("STOP_AT") ? atol(getenv("STOP_AT")) : 0;
    int is_counting = connection >= 0 || !getenv("STOP_SERVING");
    return at && is_counting && is_watched(fd) && ++seen == at;
}

/* Makes the file that says that a call failed. */
static void note_failure(void) {
    close(open(getenv("STOP_FAILED"), O_CREAT | O_WRONLY, 0600));
    errno = EIO;
}

/* Whether this read fails. */
static int is_failing(int fd) {
    int is = getenv("STOP_FAILED") && is_last(fd);
    if (is)
        note_failure();
    return is;
}

/* How much of a write is written before the process ends; -1 where it fails and the process goes on. */
static ssize_t written_last(size_t count) {
    if (getenv("STOP_FAILED")) {
        note_failure();
        return -1;
    }
    const char *half = getenv("STOP_HALF");
    return half && *half == '1' ? (ssize_t)(count / 2) : 0;
}

/* Ends the process, behind so much of a write, where the call is the last; fails where it does. */
#define STOP(fd, count, part)                                                                                          \
    if (is_last(fd)) {                                                                                                 \
        ssize_t left = written_last(count);                                                                            \
        if (left < 0)                                                                                                  \
            return -1;                                                                                                 \
        part;                                                                                                          \
        _exit(77);                                                                                                     \
    }

ssize_t write(int fd, const void *bytes, size_t count) {
    REAL(write);
    step();
    STOP(fd, count, real(fd, bytes, (size_t)left));
    return real(fd, bytes, count);
}

ssize_t __write(int fd, const void *bytes, size_t count) { return write(fd, bytes, count); }

ssize_t pwrite(int fd, const void *bytes, size_t count, off_t at) {
    REAL(pwrite);
    step();
    STOP(fd, count, real(fd, bytes, (size_t)left, at));
    return real(fd, bytes, count, at);
}

ssize_t pwrite64(int fd, const void *bytes, size_t count, off64_t at) {
    REAL(pwrite64);
    step();
    STOP(fd, count, real(fd, bytes, (size_t)left, at));
    return real(fd, bytes, count, at);
}

ssize_t writev(int fd, const struct iovec *parts, int count) {
    REAL(writev);
    step();
    STOP(fd, (size_t)count, real(fd, parts, (int)left));
    return real(fd, parts, count);
}

int ftruncate(int fd, off_t length) {
    REAL(ftruncate);
    step();
    STOP(fd, 0, );
    return real(fd, length);
}

int ftruncate64(int fd, off64_t length) {
    REAL(ftruncate64);
    step();
    STOP(fd, 0, );
    return real(fd, length);
}

ssize_t read(int fd, void *bytes, size_t count) {
    REAL(read);
    if (fd == 0 && !growths && are_counted_from("input"))
        count_growths();
    return is_failing(fd) ? -1 : real(fd, bytes, count);
}

ssize_t pread(int fd, void *bytes, size_t count, off_t at) {
    REAL(pread);
    return is_failing(fd) ? -1 : real(fd, bytes, count, at);
}

ssize_t pread64(int fd, void *bytes, size_t count, off64_t at) {
    REAL(pread64);
    return is_failing(fd) ? -1 : real(fd, bytes, count, at);
}

ssize_t readv(int fd, const struct iovec *parts, int count) {
    REAL(readv);
    return is_failing(fd) ? -1 : real(fd, parts, count);
}

/* Adds a byte to the file of syncs. */
static void note_sync(void) {
    const char *path = getenv("SYNCS");
    if (!path)
        return;
    int file = open(path, O_CREAT | O_WRONLY | O_APPEND, 0600);
    if (file < 0 || write(file, "s", 1) != 1)
        _exit(78);
    close(file);
}

int fsync(int fd) {
    REAL(fsync);
    step();
    STOP(fd, 0, );
    note_sync();
    return real(fd);
}

int fdatasync(int fd) {
    REAL(fdatasync);
    step();
    STOP(fd, 0, );
    note_sync();
    return real(fd);
}
