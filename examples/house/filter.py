#!/usr/bin/python3
"""The way to the desk, by roles: filter.py PATH

Hands a call at a role's socket, which is systemd's, on to the desk at its own socket if it is one that the role needs. Each role has one
call under way, and the desk sees a whole request or none: who stalls, stalls his own role.
"""
import re
import shutil
import socket
import socketserver
import sys
import tempfile
import threading
from os import environ

# What is let through of each role, by method and path.
ROLES = {
    "front": r"[A-Z]+ /(?!office).*|GET /office/key/[0-9]+",
    "validator": r"GET /office/challenges|POST /office/report/[0-9]+",
    "office": r"GET /office/orders|POST /office/(certify|fail)/[0-9]+",
    "operator": r".*",
    "monitor": r"GET /office/metrics",
}
LINE, LENGTH = re.compile(rb"([A-Z]{1,16} /[!-~]*) HTTP/1\.1\r\n"), re.compile(rb"\r\ncontent-length:[ \t]*([0-9]{1,9})[ \t]*\r\n")
# The bytes of a head and of a body, at most; how long a part may be silent, and the desk, in seconds.
HEAD, BODY, SILENCE, PATIENCE = 16384, 131072, 20, 60
REFUSED = b"HTTP/1.1 403 Forbidden\r\nConnection: close\r\nContent-Length: 0\r\n\r\n"


class Role(socketserver.UnixStreamServer):
    """What is let through of one role, one call after another, from those who reach its socket."""

    def __init__(self, role, listener, place):
        super().__init__(None, Call, bind_and_activate=False)
        self.socket.close()
        self.socket, self.role, self.allowed, self.place = listener, role, re.compile(ROLES[role]), place

    def handle_error(self, request, client_address):
        print(f"{self.role}: {sys.exc_info()[1]}", flush=True)


class Call(socketserver.StreamRequestHandler):
    timeout = SILENCE

    def handle(self):
        request = self._request()
        line = LINE.match(request)
        if not line or not self.server.allowed.fullmatch(line[1].decode()):
            print(f"{self.server.role}: refused: {request.partition(bytes([13]))[0][:200]!r}", flush=True)
            self.wfile.write(REFUSED)
            return
        with socket.socket(socket.AF_UNIX) as desk, tempfile.SpooledTemporaryFile(2**20) as reply:
            desk.settimeout(PATIENCE)
            desk.connect(self.server.place)
            desk.sendall(request)
            desk.shutdown(socket.SHUT_WR)
            shutil.copyfileobj(desk.makefile("rb"), reply)
            reply.seek(0)
            shutil.copyfileobj(reply, self.wfile)

    def _request(self):
        """The bytes of a request, of its body as many as it says."""
        head = line = self.rfile.readline(HEAD)
        while line not in (b"\r\n", b"") and len(head) < HEAD:
            head += (line := self.rfile.readline(HEAD))
        length = LENGTH.search(head.lower())
        return head + self.rfile.read(min(int(length[1]), BODY) if length else 0)


def main():
    roles = environ["LISTEN_FDNAMES"].split(":")
    for number, role in enumerate(roles, 3):
        threading.Thread(target=Role(role, socket.socket(fileno=number), sys.argv[1]).serve_forever).start()


if __name__ == "__main__":
    main()
