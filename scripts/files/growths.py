"""Refuses growths of memory to the program: python3 -m scripts.files.growths PROGRAM [--step N]

Each kind of request is made to `serve` again and again, while its first growth of memory is refused, its second, and so on, until a
request ends without one; once that growth alone, once that growth and all after it. The reply is the one with ample memory,
refusal 15 without a nonce, or nothing; the tables are those before the request or those after it: the latter, where the reply
is the one with ample memory. The next request is served, or the program ended by a fault that closes the desk, and a new one
serves over its file; a request that records nothing never closes it. The same request, sent again with memory, has the reply that it
would have had.

Each growth of a `batch` of one call over a file is refused likewise from the first read of its input on (growths_of_batches.py),
and each growth of one without calls from the program's start on, over a desk with rows of each kind and over files of format 1,
which their opening makes format 2. It ends as with ample memory, or by fault 20 or 22 and with status 1; the tables are those
before the call or those after it, and `check` finds no fault. Fault 22 comes only where the batch commits something, of growths that
come one after the other, behind all with fault 20 that left the tables before and before all that left those after; and with all
after it refused, too, only where it comes of that growth alone, or none does. Where fault 20 left those before it, the same batch,
run again with memory, ends as with ample memory. A batch of several calls ends with that call not made, or with its line not printed. A moment
above the limit takes no more memory over a desk with many rows than over one with few, and a request of a long method no more than
one of a short method.

With a step only each N-th growth is refused, and of the batches without calls each N * N-th.
"""
import os
import signal
import tempfile
from functools import partial

from scripts.files.growths_of_batches import ALL, Growths, batches, tell
from scripts.serving.served import DIRECTORY, NEW_NONCE, Client, Reply, Server, refusal, request, signed
from scripts.trying import BASE, KEY, begin, finish, fresh, key_of, library, order_of, see, side_by_side, tables_of, workspace

# A request that reads rows and records nothing.
CHALLENGE_WORK = request("GET", "/office/challenges")
# The ends of the program that a refused growth may bring, by their line on standard error.
CLOSED = (b"desk: fault 22 reopen\n", b"desk: fault 21 device\n")


def counters(tables):
    """The numbers of nonces, accounts, orders, authorizations and challenges."""
    return tables["meta"][0][-5:]


def count_processing(tables):
    """How many orders are processing."""
    return sum(row[-1] == b"processing" for row in tables["ord"])


def has_other_key(before, after):
    """Whether an account has another key than before."""
    keys = {row[0]: row[1] for row in after["account"]}
    return any(keys[row[0]] != row[1] for row in before["account"])


class Kind:
    """A kind of request: the status of its reply, and how the counters move."""

    def __init__(self, name, status, moves):
        self.name, self.status, self.moves, self.records = name, status, moves, any(moves)

    def is_after(self, before, after):
        """Whether the tables have the request's entries, if it has some."""
        if not self.records:
            return False
        moved = tuple(new - old for old, new in zip(counters(before), counters(after)))
        finalized = count_processing(after) - count_processing(before)
        changed = (finalized, has_other_key(before, after))
        return moved == self.moves and changed == (self.name == "finalize", self.name == "keyChange")


KINDS = [
    Kind("challenge work", 200, (0, 0, 0, 0, 0)),
    Kind("newNonce", 204, (1, 0, 0, 0, 0)),
    Kind("newAccount", 201, (1, 1, 0, 0, 0)),
    Kind("keyChange", 200, (1, 0, 0, 0, 0)),
    Kind("newOrder", 201, (1, 0, 1, 1, 2)),
    Kind("renewal", 201, (1, 0, 1, 0, 0)),
    Kind("finalize", 200, (1, 0, 0, 0, 0)),
]


class Tries:
    """A desk whose memory is refused."""

    def __init__(self, program, preload, folder):
        self.program, self.folder, self.count = program, folder, 0
        # How many requests were prepared, the new key of the last one, and an order that is ready.
        self.prepared_count, self.key, self.order = 0, KEY, None
        self.env = {**os.environ, "LD_PRELOAD": preload, "GROWTHS": f"{folder}/growths"}
        self.growths = Growths(f"{folder}/growths")
        self.server = Server(program, fresh(program, folder, "desk"), env=self.env)
        self.client = Client(self.server)
        self.client.open_account()

    def prepared(self, kind):
        """The bytes of a request of a kind, which would be accepted."""
        self.client.fetch()
        if kind.name == "challenge work":
            return CHALLENGE_WORK
        if kind.name == "newNonce":
            return NEW_NONCE
        self.prepared_count += 1
        self.key = key_of(self.prepared_count)
        if kind.name == "newAccount":
            return signed("/new-account", self.client.nonce, {"contact": ["mailto:a@b.example"]}, self.key)
        if kind.name == "keyChange":
            return self.client.signed("/key-change", {"account": f"{BASE}/account/1", "newKey": self.key, "oldKey": self.client.key})
        if kind.name == "newOrder":
            return self.ordered(f"n{self.prepared_count}.example")
        if self.order is None:
            self.order = self.client.ready_order()
        if kind.name == "renewal":
            return self.ordered("a.example")
        return self.client.signed(f"/order/{self.order}/finalize", {"csr": "AQID"})

    def ordered(self, name):
        """The bytes of a newOrder of one name."""
        return self.client.signed("/new-order", order_of(name))

    def once(self, kind, first, last):
        """Refuses some growths of a request: what came of it, or None where none was refused."""
        data = self.prepared(kind)
        before = tables_of(self.server.path, self.folder)
        self.growths.refuse(first, last)
        try:
            came = self.server.ask(data)
        finally:
            self.growths.refuse(0, 0)
        self.count, refused = self.growths.counted()
        said = f"{kind.name} without growth {first}{' and those after it' if last == ALL else ''}"
        ended = self.closed(said)
        see(f"{said}: closed by a request that records nothing", ended and not kind.records, False)
        after = tables_of(self.server.path, self.folder)
        is_after = kind.is_after(before, after)
        see(f"{said}: the tables before or after", before == after or is_after, True)
        if refused:
            self.again(kind, said, data, is_after)
        self.taken(kind)
        if refused:
            return self.outcome(kind, said, came, is_after, ended)
        see(f"{said}: no growth", Reply(came).status, kind.status)
        return None

    def again(self, kind, said, data, is_after):
        """Sends a request again with memory: it has the reply that it would have had; its nonce is spent where it was recorded."""
        before = tables_of(self.server.path, self.folder)
        found = Reply(self.server.ask(data))
        after = tables_of(self.server.path, self.folder)
        has_entries = not is_after or kind.name == "newNonce"
        came = (found.status, bool(found.field("Replay-Nonce")), kind.is_after(before, after))
        see(f"{said}: made again", came, (kind.status if has_entries else 400, kind.records, kind.records and has_entries))

    def taken(self, kind):
        """Takes down what an accepted request did."""
        if kind.name == "finalize":
            self.order = None
        if kind.name == "keyChange":
            self.client.key = self.key

    def outcome(self, kind, said, came, is_after, ended):
        """What came: the reply, refusal 15 or nothing, and whether the request was recorded or closed the desk."""
        if came == b"":
            return "nothing, closed" if ended else "nothing, recorded" if is_after else "nothing"
        # A reply to an office has no link to the directory, but where memory was refused in reading its call.
        if came in (refusal(15, ""), refusal(15, "" if kind.records else "/office/challenges")):
            return "15, closed" if ended else "15, recorded" if is_after else "15"
        found = Reply(came)
        came_whole = (found.status, bool(found.field("Replay-Nonce")), is_after, ended)
        see(f"{said}: the reply", came_whole, (kind.status, kind.records, kind.records, False))
        return "the reply"

    def is_served(self):
        """Whether the next request is served; one that records nothing."""
        try:
            return Reply(self.server.ask(DIRECTORY)).status == 200
        except OSError:
            return False

    def closed(self, said):
        """Whether the request closed the desk, which ends the program; a new one is started."""
        if self.is_served():
            return False
        status, _, errors = self.server.ended()
        see(f"{said}: the end", (status, errors.splitlines(keepends=True)[-1:] in [[line] for line in CLOSED]), (1, True))
        self.server = self.client.server = Server(self.program, self.server.path, env=self.env)
        return True

    def every(self, kind, alone, step):
        """Refuses each growth in turn, alone or with those after it."""
        came, first = [], 1
        while found := self.once(kind, first, first if alone else ALL):
            came.append(found)
            first += step
        tell(f"{kind.name}, {self.count} growths", alone, came)


def served(program, preload, step, kind, alone, folder):
    """Refuses the growths of a kind of request to `serve`."""
    tries = Tries(program, preload, folder)
    tries.every(kind, alone, step)
    see(f"{kind.name}: the end", tries.server.stop()[0], -signal.SIGTERM)


def long_methods(program, preload, folder):
    """A head is read without memory, so a request of a long method takes no more growths than one of a short method."""
    tries, counts = Tries(program, preload, folder), []
    for length in (1, 15, 16, 200, 8000):
        see(f"a method of {length} bytes", Reply(tries.server.ask(request("X" * length, "/new-nonce"))).status, 405)
        counts.append(tries.growths.counted()[0])
    see("the growths of requests of short methods and of long ones", counts, counts[:1] * len(counts))
    see("long methods: the end", tries.server.stop()[0], -signal.SIGTERM)


def main(program, step):
    with workspace("growths") as folder, tempfile.TemporaryDirectory() as built:
        given = program, library(built), step
        tries = [partial(served, *given, kind, alone) for kind in KINDS for alone in (True, False)]
        side_by_side([*batches(*given), *tries, partial(long_methods, *given[:2])], folder)
    return finish("Growths")


if __name__ == "__main__":
    begin(main, __doc__, step=1)
