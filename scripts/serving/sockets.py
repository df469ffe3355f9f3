"""A desk that serves at a Unix socket, alone or beside a port: what stands in its place, and what is asked of it. A part of scripts/serving/serve.py."""
import os
import shutil
import socket
import stat
import tempfile
import time

from scripts.serving.operated import revocations_asked
from scripts.serving.served import DIRECTORY, NEW_NONCE, STOPPED, Client, Server, directory_reply, masked, nonce_reply, reached, received
from scripts.trying import fresh, put, run, see

# How long the desk waits for a client, in seconds, and how much later its end may be seen.
LIMIT, LATER = 10, 4
NOBODY = 65534


def at_socket(program, folder):
    """A desk at a socket serves as at a port; the socket is as the umask leaves it, stays at the end, and the next one replaces it."""
    path, place = fresh(program, folder, "at-socket"), f"{folder}/socket"
    for mask in (0o022, 0o007):
        server = Server(program, path, at=place, umask=mask)
        found = os.lstat(place).st_mode
        see(f"the socket by the umask {mask:o}", (stat.S_ISSOCK(found), stat.S_IMODE(found)), (True, 0o777 & ~mask))
        see("the directory at the socket", server.ask(DIRECTORY), directory_reply())
        Client(server).fetch()
        see("at the socket: the end", server.stop(), STOPPED)
    see("the socket, then", stat.S_ISSOCK(os.lstat(place).st_mode), True)
    server = Server(program, path, "--count", "1", at=place)
    see("counted", server.ask(DIRECTORY), directory_reply())
    see("a count of 1", server.ended(), (0, b"", b""))


def in_the_place(program, folder):
    """What stands at the path of a socket is replaced where it is a socket that nobody serves; else it stays, and a second line says why."""
    path, place = fresh(program, folder, "in-the-place"), f"{folder}/socket"

    def refused(at, cause):
        ended = run(program, "serve", path, "--socket", at, "--verbose")
        see(f"a socket at {at}", ended, (1, b"", f"desk: bind\ndesk: {at}: {cause}\n".encode()))

    server = Server(program, fresh(program, folder, "first"), at=place)
    refused(place, "another program has it")
    see("the desk that is served there", server.ask(DIRECTORY), directory_reply())
    see("the first: the end", server.stop(), (STOPPED[0], b"", b"desk: connection\n"))
    put(f"{folder}/file", b"kept")
    os.mkdir(f"{folder}/directory")
    os.symlink(place, f"{folder}/link")
    for name in ("file", "directory", "link"):
        refused(f"{folder}/{name}", "it is no socket, and it stays as it is")
    with open(f"{folder}/file", "rb") as kept:
        see("a file in the place of a socket", kept.read(), b"kept")
    see("a link in the place of a socket", os.readlink(f"{folder}/link"), place)
    refused(f"{folder}/none/socket", "its directory is missing")
    refused(f"{folder}/file/socket", "its directory is missing")
    for name in ("", f"{folder}/".ljust(108, "s")):
        refused(name, "no socket has this path: it is empty, or has more than 107 bytes")
    ended = run(program, "serve", path, "--port", "0", "--socket", f"{folder}/file", "--verbose")
    said = f"desk: bind\ndesk: {folder}/file: it is no socket, and it stays as it is\n"
    see("a file in the place of a socket, beside a port", ended, (1, b"", said.encode()))
    server = Server(program, path, at=f"{folder}/".ljust(107, "s"))
    see("the longest path", server.ask(DIRECTORY), directory_reply())
    see("the longest path: the end", server.stop(), STOPPED)


def at_both(program, folder):
    """A desk at a port and a socket takes connections in turn where they wait at both, and counts both."""
    place = f"{folder}/socket"
    server = Server(program, fresh(program, folder, "at-both"), "--socket", place, "--count", "9", "--log")
    see("the line of the socket", server.run.stdout.readline(), f"listening on {place}\n".encode())
    first, rest = server.connect(), []
    time.sleep(0.5)
    for _ in range(4):
        for client, data in ((server.connect(), DIRECTORY), (reached(place), NEW_NONCE)):
            client.sendall(data)
            rest.append(client)
    time.sleep(0.2)
    first.sendall(DIRECTORY)
    for client in (first, *rest):
        with client:
            see("a reply of either", received(client)[:9], b"HTTP/1.1 ")
    status, out, said = server.ended()
    asked = [line.split()[2] for line in out.decode().splitlines()]
    see("both: the end", (status, said), (0, b""))
    see("taken in turn", (asked[0], sorted(asked[1:3]), asked[1::2].count(asked[1]), asked[2::2].count(asked[2])),
        ("/directory", ["/directory", "/new-nonce"], 4, 4))


def asked_at_socket(program, folder):
    """The revocations, asked by a socket, and words that are wrong."""
    server = Server(program, fresh(program, folder, "asked"), at=f"{folder}/socket")
    revocations_asked(program, server, ("--socket", server.at))
    see("asked at a socket: the end", server.stop(), STOPPED)
    cause = f"desk: {server.at}: nobody took a connection there, and nothing was asked\n".encode()
    for place in (server.at, f"{folder}/none"):
        ended = run(program, "revoke-account", "1", "--socket", place, "--verbose")
        see("nobody at the socket", ended, (1, b"", b"desk: connection\n" + cause.replace(server.at.encode(), place.encode())))
    if os.getuid() == 0:
        denied(program, folder)
    wrong = {"no FILE stands before N: desk WORD N --socket PATH": ("revoke-account", server.path, "1", "--socket", server.at),
             "with --socket N stands in the place of FILE: a number": ("revoke-authz", "one", "--socket", server.at),
             "by --port or by --socket": ("revoke-account", "1", "--port", "1", "--socket", server.at),
             "--port <N>": ("serve", server.path), "<PATH>": ("serve", server.path, "--socket")}
    for text, words in wrong.items():
        ended, said, errors = run(program, *words)
        see(f"the words {words[:1]} that lack {text}", (ended, said, text in errors.decode()), (2, b"", True))


def denied(program, folder):
    """A user who may not write the socket is told so. Any user reaches the program here, and its folder."""
    server = Server(program, fresh(program, folder, "denied"), at=f"{folder}/denied")
    with tempfile.TemporaryDirectory() as place:
        os.chmod(place, 0o755)
        ended = run(shutil.copy(program, f"{place}/desk"), "revoke-account", "1", "--socket", server.at, "--verbose", user=NOBODY)
    see("who may not ask", ended, (1, b"", f"desk: connection\ndesk: {server.at}: this user may not ask there, and nothing was asked\n".encode()))
    see("denied: the end", server.stop(), STOPPED)


def silent_at_socket(program, folder):
    """A client at a socket that sends nothing is given up after the same time as one at a port."""
    server = Server(program, fresh(program, folder, "silent-at-socket"), at=f"{folder}/socket")
    begun = time.monotonic()
    with server.connect() as client:
        see("nothing for silence", received(client), b"")
    see("the patience at a socket", LIMIT <= time.monotonic() - begun <= LIMIT + LATER, True)
    with server.connect() as client:
        client.sendall(NEW_NONCE)
        client.shutdown(socket.SHUT_WR)
        see("the next one", masked(received(client)), nonce_reply(1))
    see("silent at a socket: the end", server.stop(), (STOPPED[0], b"", b"desk: connection\n"))


AT_SOCKETS = (at_socket, in_the_place, at_both, asked_at_socket)
