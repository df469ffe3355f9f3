"""Connections that fail once, at each of their reads and writes: a part of scripts/serving/serve.py."""
import os
import struct
from itertools import count

from scripts.serving.served import STOPPED, Client, Reply, Server, masked, refusal, serial_of
from scripts.trying import BASE, fresh, library, nonce_text, order_of, put, see, tables_of

# How many bytes a read or a write of the program moves at most, in turn; 0: all.
MOST = (0, 20)
SAID = b"desk: connection\n"
# The second line of each, of a connection whose read fails and of one whose write does.
CAUSES = {"reads": b"desk: the client broke off, or did not send its request within 10 seconds\n",
          "writes": b"desk: the client broke off, or did not take its reply within 10 seconds\n"}


class Broken:
    """A desk whose connections fail (scripts/faults.c), and an account's client."""

    def __init__(self, program, folder, name):
        self.file, self.folder = f"{folder}/connection-{name}", folder
        self.let_be()
        env = {**os.environ, "LD_PRELOAD": library(folder), "CONNECTION": self.file}
        self.said = SAID + CAUSES[name]
        self.server = Server(program, fresh(program, folder, f"broken-{name}"), "--verbose", env=env)
        self.client, self.failures = Client(self.server), 0
        self.client.open_account()

    def plan(self, read=0, write=0, most=0):
        """Plans the read and the write that fail, and how many bytes go at a time."""
        put(self.file, struct.pack("qqq", read, write, most))

    let_be = plan

    def tables(self):
        return tables_of(self.server.path, self.folder)

    def order(self):
        """The bytes of an order of a name, which makes an order whenever it is recorded."""
        self.client.fetch()
        return self.client.signed("/new-order", order_of("a.example"))

    def once(self, **planned):
        """An order over a connection that fails: its bytes, what came back, and by how many orders the desk has more."""
        data, before = self.order(), self.tables()
        self.plan(**planned)
        came = self.server.ask(data).removesuffix(b"(reset)")
        self.let_be()
        after = self.tables()
        see(f"{planned}: unchanged, or with an order", after == before or len(after["ord"]) == len(before["ord"]) + 1, True)
        return data, came, after != before

    def failed(self):
        """Whether the program said that one connection more failed."""
        said = self.server.said()
        self.failures, before = said.count(SAID), self.failures
        see("what is said of connections that fail", (said, self.failures - before in (0, 1)), (self.said * self.failures, True))
        return self.failures > before

    def end(self, name):
        """Ends the program, which went on after each connection that failed."""
        see(f"{name}: the end", self.server.stop(), (*STOPPED[:2], self.said * self.failures))
        see(f"{name}: how many", self.failures > len(MOST), True)
        print(f"{name}: {self.failures}")


def failing_writes(program, folder):
    """A write that fails cuts the reply, which was recorded: the request, sent again, is badNonce."""
    broken = Broken(program, folder, "writes")
    for most in MOST:
        for at in count(1):
            data, came, is_recorded = broken.once(write=at, most=most)
            said = f"a write that fails, number {at} of {most or 'all'} bytes"
            again = broken.server.ask(data)
            serial = serial_of(Reply(again).field("Replay-Nonce") or nonce_text(0))
            see(f"{said}: sent again", masked(again), refusal(4, "/new-order", nonce=nonce_text(serial)))
            see(f"{said}: recorded", is_recorded, True)
            if not broken.failed():
                see(f"{said}: none", Reply(came).field("Location"), f"{BASE}/order/{len(broken.tables()['ord'])}")
                break
            see(f"{said}: what came", (len(came), b"HTTP/1.1 201 "[:len(came)]), ((at - 1) * most, came[:13]))
    broken.end("connections whose write failed")


def failing_reads(program, folder):
    """A read that fails ends the connection, and nothing is recorded: the request, sent again, is served."""
    broken = Broken(program, folder, "reads")
    for most in MOST:
        for at in count(1):
            data, came, is_recorded = broken.once(read=at, most=most)
            said = f"a read that fails, number {at} of {most or 'all'} bytes"
            if is_recorded:
                # What fails after the reply is not told.
                see(f"{said}: after the reply", (Reply(came).status, broken.failed()), (201, False))
                break
            see(f"{said}: what came", came, b"")
            see(f"{said}: sent again", Reply(broken.server.ask(data)).status, 201)
            see(f"{said}: told", broken.failed(), True)
    broken.end("connections whose read failed")
