#!/usr/bin/env python3
"""Times `bin/desk serve` over loopback, and writes a paragraph of docs/PERFORMANCE.md to standard output.

One client, a connection for each request and each after the reply to the one before, asks in turns a desk over a file on
the disk, and bench/nothing.c, a server that reads a request and writes a reply of the same length. Where gcc or SQLite's
header is missing, that one is left out.

    python3 bench/loopback.py [--program bin/desk] [--turns 30] [--calls 50]
"""
import argparse
import json
import os
import socket
import statistics
import subprocess
import sys
import tempfile
import time

from bench import BASE, TOP, compiled, go_first, paragraph

KEY = {"crv": "P-256", "kty": "EC", "x": "AQ", "y": "Ag"}
NONCE = b"GET /new-nonce HTTP/1.1\r\nHost: 127.0.0.1\r\n\r\n"
# The kinds of requests, with the status of the reply.
KINDS = {"newNonce": 204, "newOrder": 201}


class Server:
    """A server that prints its address, and a client of it, whose requests carry the nonce of the reply before."""

    def __init__(self, *words):
        self.run = subprocess.Popen(words, stdin=subprocess.DEVNULL, stdout=subprocess.PIPE)
        self.address = ("127.0.0.1", int(self.run.stdout.readline().rsplit(b":", 1)[1]))
        self.nonce, self.orders, self.seconds = b"A" * 32, 0, {kind: [] for kind in KINDS}

    def ask(self, data):
        """The reply to a request, on a connection of its own."""
        with socket.create_connection(self.address) as client:
            client.sendall(data)
            parts = []
            while part := client.recv(65536):
                parts.append(part)
        return b"".join(parts)

    def signed(self, path, payload):
        """The bytes of a request of the account."""
        body = json.dumps({"jwk": KEY, "nonce": self.nonce.decode(), "payload": json.dumps(payload)}).encode()
        return b"POST %s HTTP/1.1\r\nHost: 127.0.0.1\r\nContent-Length: %d\r\n\r\n%s" % (path.encode(), len(body), body)

    def request(self, kind):
        """The bytes of a request of a kind."""
        if kind == "newNonce":
            return NONCE
        self.orders += 1
        return self.signed("/new-order", {"identifiers": [{"type": "dns", "value": f"n{self.orders:06}.example"}]})

    def call(self, data, status):
        """Asks, and takes up the nonce."""
        reply = self.ask(data)
        if not reply.startswith(b"HTTP/1.1 %d " % status):
            sys.exit(f"loopback.py: {data!r} is answered by {reply!r}")
        self.nonce = reply.partition(b"Replay-Nonce: ")[2][:32]
        return reply

    def turn(self, kind, calls):
        """Times a turn of calls: the mean of one, in seconds."""
        total = 0.0
        for _ in range(calls):
            data = self.request(kind)
            start = time.perf_counter()
            self.call(data, KINDS[kind])
            total += time.perf_counter() - start
        self.seconds[kind].append(total / calls)

    def median(self, kind):
        return statistics.median(self.seconds[kind])

    def close(self):
        self.run.terminate()
        self.run.wait()


def desk(program, folder):
    """A desk over a new file in a folder, with an account."""
    path = f"{folder}/desk.db"
    subprocess.run([program, "make", path, "--base", BASE], stdout=subprocess.DEVNULL, check=True)
    server = Server(program, "serve", path, "--port", "0")
    server.call(NONCE, 204)
    server.call(server.signed("/new-account", {}), 201)
    return server


def nothing(folder, replies):
    """The server that does nothing, once for each kind, by its replies."""
    program = compiled(folder, "nothing")
    return {kind: Server(program, reply) for kind, reply in replies.items()} if program else {}


def measure(program, turns, calls):
    """The median seconds of a call of each kind, by who was asked: a desk, and a server that does nothing."""
    with tempfile.TemporaryDirectory(dir=f"{TOP}/bin") as folder:
        served = desk(program, folder)
        idle = nothing(folder, {kind: served.call(served.request(kind), status) for kind, status in KINDS.items()})
        for _ in range(turns):
            for kind in KINDS:
                for server in [served, *([idle[kind]] if idle else [])]:
                    server.turn(kind, calls)
        found = {"desk": {kind: served.median(kind) for kind in KINDS}, "nothing": {kind: server.median(kind) for kind, server in idle.items()}}
        for server in [served, *idle.values()]:
            server.close()
    return found


def page(found):
    """The lines of the paragraph."""
    rates = {who: " or ".join(f"{1 / seconds[kind]:,.0f} {kind}" for kind in seconds) for who, seconds in found.items()}
    idle = f", and {rates['nothing']} from a server that does nothing (`bench/nothing.c`)" if rates["nothing"] else ""
    return paragraph(f"""Over loopback, with a connection for each request, one client in Python gets {rates['desk']} a second from a new desk with one
        account{idle}.""")


def main():
    parser = argparse.ArgumentParser()
    parser.add_argument("--program", default=f"{TOP}/bin/desk")
    parser.add_argument("--turns", type=int, default=30)
    parser.add_argument("--calls", type=int, default=50)
    words = parser.parse_args()
    go_first()
    os.makedirs(f"{TOP}/bin", exist_ok=True)
    print("\n".join(page(measure(os.path.abspath(words.program), words.turns, words.calls))))


if __name__ == "__main__":
    main()
