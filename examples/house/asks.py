"""How the parts of the house reach each other: a line of JSON there, and one back, over a socket of the file system."""
import contextlib
import json
import os
import socket
import socketserver

from desk import Down

# How long an answer is waited for, by who only wakes, too, and a question, in seconds; the bytes of a line.
TIMEOUT, SOON, SILENCE, LINE = 60, 1, 5, 2**18


class Asks(socketserver.UnixStreamServer):
    """Answers lines by a function, at a socket that the group of the process may connect to; systemd is told when it is there."""
    request_queue_size = 128

    def __init__(self, path, answer):
        self.answer = answer
        super().__init__(path, Asked)
        os.chmod(path, 0o660)
        with contextlib.suppress(OSError), socket.socket(socket.AF_UNIX, socket.SOCK_DGRAM) as manager:
            manager.sendto(b"READY=1", os.environ.get("NOTIFY_SOCKET", ""))


class Asked(socketserver.StreamRequestHandler):
    timeout = SILENCE

    def handle(self):
        self.wfile.write(json.dumps(self.server.answer(**json.loads(self.rfile.readline(LINE)))).encode() + b"\n")


def ask(path, timeout=TIMEOUT, **question):
    """The answer of who listens at a socket."""
    try:
        with socket.socket(socket.AF_UNIX) as channel:
            channel.settimeout(timeout)
            channel.connect(path)
            channel.sendall(json.dumps(question).encode() + b"\n")
            return json.loads(channel.makefile().readline())
    except (OSError, ValueError) as fault:
        raise Down(f"{path} does not answer: {fault}") from None


def wake(path, text=""):
    """Wakes who listens, and says why; where nobody does nothing is done, since who starts asks for work anyway."""
    with contextlib.suppress(Down):
        ask(path, SOON, wake=text)
