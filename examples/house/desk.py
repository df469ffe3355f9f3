"""The desk as the house calls it: one call at a time, each connection closed at once."""
import http.client
import os
import socket
import struct
import threading
import time
from collections import namedtuple

# How long a call waits for its reply, and how long in all it is sent again, in seconds.
TIMEOUT, PATIENCE = 20, 20

Reply = namedtuple("Reply", "status fields body")


class Down(Exception):
    """The desk does not answer, or who answers is not the desk."""


class Desk:
    """The desk at a socket of the file system, its own or that of a role; or, for trials, at a port of 127.0.0.1, which any user of the
    machine may take."""

    def __init__(self, place, base):
        self.place, self.base, self.turn = place, base, threading.Lock()

    def call(self, method, path, body=None, patience=None):
        """The reply to a call, which is sent again as it is while its reply is lost and the patience lasts. A request that was recorded
        has spent its nonce: sent again it is refused by badNonce, and does nothing twice. Reports may be repeated."""
        end, pause = time.monotonic() + (patience or PATIENCE), 0.05
        while True:
            try:
                return self._call_once(method, path, body)
            except (OSError, http.client.HTTPException) as fault:
                if time.monotonic() > end:
                    raise Down(f"the desk does not answer: {fault}") from None
            time.sleep(pause)
            pause = min(2 * pause, 0.2)

    def _call_once(self, method, path, body):
        with self.turn, self._reached() as channel:
            connection = http.client.HTTPConnection("127.0.0.1")
            connection.sock = channel
            connection.request(method, path, body)
            reply = connection.getresponse()
            return Reply(reply.status, reply.getheaders(), reply.read())

    def _reached(self):
        """A connection to the desk. Who listens at a socket is root, by systemd, or this user, or whose its folder is: anybody else has put
        his own there."""
        if self.place.isdigit():
            return socket.create_connection(("127.0.0.1", int(self.place)), TIMEOUT)
        channel = socket.socket(socket.AF_UNIX)
        channel.settimeout(TIMEOUT)
        channel.connect(self.place)
        _, user, _ = struct.unpack("3i", channel.getsockopt(socket.SOL_SOCKET, socket.SO_PEERCRED, 12))
        if user not in (0, os.getuid(), os.stat(os.path.dirname(self.place) or ".").st_uid):
            channel.close()
            raise PermissionError(f"{self.place} is served by user {user}, who is not the desk")
        return channel
