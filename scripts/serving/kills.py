"""Kills `serve` at random moments: python3 -m scripts.serving.kills PROGRAM [--times 200] [--seed N]

A client sends one request after the other, and the program is killed (SIGKILL) in the middle of it. Then `check` opens the
file, and says that no status is wrong; each order and nonce of a reply is there, no nonce of an answered request is open, the
account's key is the one that was acknowledged, and one request more at most is recorded. The last answered request, sent again
to the desk that is opened next, is refused. A name that was validated before is never given another authorization.

The opening of a file of format 1 is killed, too; the file holds the same desk in format 1 or 2 then.
"""
import random
import subprocess
import tempfile
import threading
import time

from scripts.files.first_format import restore, upgraded
from scripts.model.texts import canonical
from scripts.serving.served import NEW_NONCE, Client, Reply, Server, serial_of
from scripts.trying import BASE, begin, checked, faults, finish, fresh, key_of, order_of, see, tables_of

# How long the program serves, and how long it opens a file of format 1, before it is killed, in seconds, at most.
LONGEST, LONGEST_OPENING = 0.08, 0.1
# The name that is validated before the kills.
VALIDATED = "a.example"


class Stream(Client):
    """A client that asks for nonces and orders until the program is gone, and keeps what the replies acknowledged."""

    def __init__(self, chance):
        super().__init__(None)
        self.chance, self.answered = chance, 0
        # Numbers of orders; serials of nonces that are open and spent; what was sent last, and whether a reply came.
        self.orders, self.open, self.spent = set(), set(), set()
        self.asked, self.last, self.is_sent = None, None, False
        # The key that the request asks for, and how many were asked for.
        self.wanted, self.keys = None, 0

    def begin(self, server):
        """Opens an account and has a name validated."""
        self.server = server
        self.open_account()
        self.orders = {self.ready_order(VALIDATED)}
        self.open, self.spent = {serial_of(self.nonce)}, set(range(1, serial_of(self.nonce)))
        server.stop()

    def next_request(self):
        """The bytes of the next request, with the latest nonce; without one, or by chance, it asks for one."""
        self.asked = self.wanted = None
        if self.nonce is None or self.chance.random() < 0.2:
            return NEW_NONCE
        self.asked, kind = self.nonce, self.chance.random()
        if kind < 0.3:
            return self.signed(f"/order/{self.chance.choice(sorted(self.orders))}", "")
        if kind < 0.5:
            self.keys += 1
            self.wanted = key_of(self.keys)
            return self.signed("/key-change", {"account": f"{BASE}/account/1", "newKey": self.wanted, "oldKey": self.key})
        names = self.chance.sample((VALIDATED, "b.example", "*.a.example", "c.example"), self.chance.randint(1, 3))
        return self.signed("/new-order", order_of(*names))

    def note(self, reply):
        """Takes down what a reply acknowledged."""
        self.answered += 1
        if self.asked:
            self.open.discard(serial_of(self.asked))
            self.spent.add(serial_of(self.asked))
        self.key = self.wanted or self.key
        self.nonce = reply.field("Replay-Nonce")
        self.open.add(serial_of(self.nonce))
        if reply.status == 201:
            self.orders.add(int(reply.field("Location").rsplit("/", 1)[1]))

    def run(self, server):
        """Asks until the program is gone."""
        self.server, self.is_sent = server, False
        while True:
            data = self.next_request()
            self.is_sent = True
            try:
                reply = Reply(server.ask(data))
            except OSError:
                return
            if not reply.ended or len(reply.body) != int(reply.field("Content-Length") or 0):
                return
            see("a reply", reply.status in (200, 201, 204), True)
            self.last, self.is_sent = data if self.asked else self.last, False
            self.note(reply)


def look_at_key(name, stream, tables):
    """The account has the acknowledged key, or the one that the killed request asked for; that is known from now on."""
    known = [stream.key, stream.wanted] if stream.is_sent and stream.wanted else [stream.key]
    (found,) = {row[1] for row in tables["account"]}
    see(f"{name}: the account's key", found.decode() in map(canonical, known), True)
    stream.key = next((key for key in known if canonical(key) == found.decode()), stream.key)
    shared = [row[0] for row in tables["authz"] if (row[2], row[3]) == (VALIDATED.encode(), 0)]
    see(f"{name}: the authorizations of the validated name", shared, [1])


def look(name, stream, path, folder):
    """What the file holds after a kill: all that was acknowledged, and one request more at most."""
    tables = tables_of(path, folder)
    orders, serials, meta = {row[0] for row in tables["ord"]}, {row[0] for row in tables["nonce"]}, tables["meta"][0]
    flying = {serial_of(stream.asked)} if stream.is_sent and stream.asked else set()
    see(f"{name}: each order is there", stream.orders - orders, set())
    see(f"{name}: orders that nobody asked for", len(orders - stream.orders) <= len(flying), True)
    see(f"{name}: each nonce is open", stream.open - flying - serials, set())
    see(f"{name}: no spent nonce is open", stream.spent & serials, set())
    see(f"{name}: nonces that nobody asked for", len(serials - stream.open) <= stream.is_sent, True)
    see(f"{name}: the counters", (meta[7] >= max(stream.open | stream.spent), meta[9]), (True, len(orders)))
    look_at_key(name, stream, tables)
    # What the killed request recorded is known from now on.
    stream.orders |= orders
    stream.spent |= (stream.open | flying) - serials
    stream.open = serials
    if flying - serials:
        stream.nonce = None


def kill_once(name, program, path, folder, stream, chance):
    """Serves until the kill, and looks at what is left; the request that was answered last is refused afterwards."""
    server = Server(program, path)
    if stream.last:
        see(f"{name}: an answered request again", Reply(server.ask(stream.last)).status, 400)
        stream.open |= {max(stream.open | stream.spent) + 1}
    asking = threading.Thread(target=stream.run, args=(server,))
    asking.start()
    time.sleep(chance.uniform(0, LONGEST))
    server.kill()
    asking.join()
    see(f"{name}: check", checked(program, path), (0, b"no fault\n", b""))
    look(name, stream, path, folder)


def kill_opening(name, program, folder, chance):
    """Opens a file of format 1 until the kill, and looks at what is left, and once more at what is opened next."""
    path = restore("several", f"{folder}/first.db")
    before = tables_of(path, folder)
    with subprocess.Popen([program, "batch", "--file", path], stdin=subprocess.PIPE, stdout=subprocess.DEVNULL) as opening:
        time.sleep(chance.uniform(0, LONGEST_OPENING))
        opening.kill()
    left = tables_of(path, folder)
    see(f"{name}: format 1 or 2 of the same rows", left in (before, upgraded(before)), True)
    see(f"{name}: check", checked(program, path), (0, b"no fault\n", b""))
    see(f"{name}: opened again", tables_of(path, folder), upgraded(before))
    return left != before


def main(program, times, seed):
    chance = random.Random(seed)
    with tempfile.TemporaryDirectory(prefix="desk-") as folder:
        path = fresh(program, folder, "desk")
        stream = Stream(chance)
        stream.begin(Server(program, path))
        late = 0
        for at in range(times):
            kill_once(f"kill {at + 1}", program, path, folder, stream, chance)
            late += kill_opening(f"kill {at + 1} of an opening", program, folder, chance)
            if len(faults) > 9:
                break
    print(f"{times} kills, {stream.answered} requests answered between them, seed {seed}")
    print(f"{times} kills of the opening of a file of format 1, {late} of them after its commit")
    return finish("Kills")


if __name__ == "__main__":
    begin(main, __doc__, times=200, seed=20261124)
