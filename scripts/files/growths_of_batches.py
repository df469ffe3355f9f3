"""Batches over files whose growths of memory are refused: a part of scripts/files/growths.py."""
import collections
import mmap
import os
import struct
from functools import partial

from scripts.files.first_format import RICH, restore
from scripts.files.stops import SCENARIOS, Desk, Whole, first_calls, shared_end
from scripts.trying import checked, copy, nonce_text, order_of, put, run, see, tables_of, terms_of

ALL = 2**62
# How a batch ends where a growth was refused, by its line on standard error: beside a commit, and in one.
MEMORY = b"desk: fault 20 memory\n"
REOPEN = b"desk: fault 22 reopen\n"
# A moment that is above the limit.
LATE = 250000000001


class Growths:
    """The numbers that the script and the program share."""

    def __init__(self, path):
        put(path, bytes(32))
        with open(path, "r+b") as file:
            self.page = mmap.mmap(file.fileno(), 32)

    def refuse(self, first, last):
        self.page[:16] = struct.pack("qq", first, last)

    def counted(self):
        """How many growths the last connection asked for, and how many of them were refused."""
        return struct.unpack("qq", self.page[16:])


# What comes of a refused growth that did no harm.
HARMLESS = "as with memory"


def tell(said, alone, came):
    """Prints what came of growths that were refused in turn."""
    counts = ", ".join(f"{what} {count}" for what, count in collections.Counter(came).most_common())
    print(f"{said}, {'each alone' if alone else 'each and all after it'}: {counts}", flush=True)
    see(f"{said}: growths refused", len(came) > 0, True)


def is_of_commit(what):
    """Whether a growth was refused to a commit, which closes the desk."""
    return "fault 22" in what


def place_of(what):
    """Where the growth of a fault was refused: before the commit, in it, or behind it."""
    return 1 if is_of_commit(what) else 2 if what.endswith("recorded") else 0


def look_at_order(said, came):
    """What closed the desk was refused a growth in the commit, and what was recorded without that one behind it: they come in turn."""
    places = [place_of(what) for what in came if what != HARMLESS]
    see(f"{said}: first what is not recorded, then the commit", (places[:1], places == sorted(places)), ([0], True))


def look_at_commits(said, alone, all_after):
    """With all that come after it refused, too, a growth closes the desk only where it does so alone or does no harm alone."""
    other = [at for at, what in all_after.items() if is_of_commit(what) and not (is_of_commit(alone[at]) or alone[at] == HARMLESS)]
    see(f"{said}: growths that close the desk beside a commit", other, [])


class Batch:
    """A batch over a file, whose growths are refused from a place on: the program's `start`, or its first read of its `input`."""

    def __init__(self, whole, preload, place):
        self.whole, self.growths = whole, Growths(f"{whole.folder}/growths")
        self.env = {**os.environ, "LD_PRELOAD": preload, "GROWTHS": f"{whole.folder}/growths", "GROWTHS_FROM": place}

    def run(self, first, last):
        """The end, the output and the errors without some growths; how many there were, and how many were refused."""
        self.whole.again()
        self.growths.refuse(first, last)
        return run(*self.whole.words, given=self.whole.call, env=self.env), *self.growths.counted()

    def check(self):
        """No status is wrong in the tables that the whole run left, nor in those before it."""
        for said in ("after it", "before it"):
            see(f"{self.whole.name}: checked {said}", checked(self.whole.program, self.whole.path), (0, b"no fault\n", b""))
            self.whole.again()

    def refuse(self, step):
        """Refuses each growth in turn, alone or with those after it."""
        self.check()
        came_of = {}
        for alone in (True, False):
            came = {}
            for first in range(1, ALL, step):
                ran, count, refused = self.run(first, first if alone else ALL)
                if not refused:
                    see(f"{self.whole.name}: no growth refused", ran, self.whole.ran)
                    break
                came[first] = self.outcome(f"{self.whole.name} without growth {first}{'' if alone else ' and those after it'}", ran)
            tell(f"{self.whole.name}, a batch with {count} growths", alone, list(came.values()))
            self.look_at_order(list(came.values()))
            came_of[alone] = came
        look_at_commits(self.whole.name, came_of[True], came_of[False])

    def look_at_order(self, came):
        look_at_order(self.whole.name, came)

    def faults(self):
        """The ends that a refused growth may bring: one that closes the desk only where the batch commits something."""
        return (MEMORY,) if self.whole.before == self.whole.after else (MEMORY, REOPEN)

    def outcome(self, said, ran):
        """How the batch ended; the tables are those before it or after it, and it is run again where fault 20 left those before."""
        left = self.whole.left()
        if ran[2] == MEMORY and left == self.whole.before:
            see(f"{said}: made again", run(*self.whole.words, given=self.whole.call), self.whole.ran)
            see(f"{said}: the tables, made again", self.whole.left(), self.whole.after)
        else:
            self.whole.look(said, bool(ran[1]))
        if ran == self.whole.ran:
            return HARMLESS
        status, out, errors = ran
        see(f"{said}: its end {ran!r}", status == 1 and out in (b"", self.whole.reply) and errors in self.faults(), True)
        return errors.decode()[6:-1] + (", recorded" if left == self.whole.after != self.whole.before else "")


class Run(Batch):
    """Several calls in one run over a desk's file, with the reply to each and the tables behind it."""

    def __init__(self, name, desk, calls, preload):
        program, folder, path = desk.program, desk.folder, f"{desk.folder}/stages.db"
        self.calls = calls
        super().__init__(Whole(name, program, desk.path, b"".join(calls), folder), preload, "input")
        copy(desk.path, path)
        self.replies, self.stages = [], [tables_of(path, folder)]
        for call in self.calls:
            self.replies.append(run(program, "batch", "--file", path, given=call)[1])
            self.stages.append(tables_of(path, folder))

    def outcome(self, said, ran):
        """What is answered is a beginning, and of the rest one call at most was made; without that the rest is answered in a run again."""
        answered = ran[1].count(b"\n")
        see(f"{said}: its end {ran!r}", ran == self.whole.ran or ran[0] == 1 and ran[2] in self.faults(), True)
        see(f"{said}: what is answered", ran[1], b"".join(self.replies[:answered]))
        left = self.whole.left()
        see(f"{said}: the calls that were made", left in self.stages[answered:answered + 2], True)
        if left == self.stages[answered]:
            rest = run(*self.whole.words, given=b"".join(self.calls[answered:]))
            see(f"{said}: the rest", (rest, self.whole.left()), ((0, b"".join(self.replies[answered:]), b""), self.whole.after))
        return HARMLESS if ran == self.whole.ran else f"{answered} answered{', fault 22' if ran[2] == REOPEN else ''}"

    def look_at_order(self, came):
        """Of the growths with as many answers, those of the commit come one after the other."""
        for answered in {what.split()[0] for what in came}:
            closed = [is_of_commit(what) for what in came if what.split()[0] == answered]
            see(f"{self.whole.name}: one commit behind {answered} answers", "".join("01"[is_closed] for is_closed in closed).strip("0").count("0"), 0)


def last_report(at):
    """What prepares a report at a moment, on a challenge of an authorization that lives to 100."""
    def prepared(desk):
        desk.open_account()
        desk.order("a.example")
        return desk.validate(1, at=10).replace(b'"at": 10', b'"at": %d' % at)
    return prepared


SHORT = terms_of((3600, 100, 100))
GROWN = [
    *(scenario[:3] for scenario in SCENARIOS),
    ("a report at the end of an authorization's life", last_report(100), SHORT),
    ("a report past the end of an authorization's life", last_report(101), SHORT),
    ("a moment above the limit", lambda desk: desk.line("GET", "/new-nonce", at=LATE, random="00" * 16), ()),
]


def scenario(program, preload, step, row, folder):
    """A call on a desk that is prepared for it."""
    name, prepared, terms = row
    desk = Desk(program, folder, terms)
    Batch(Whole(name, program, desk.path, prepared(desk), folder), preload, "input").refuse(step)


def first_requests(program, preload, step, folder):
    """The first calls on a new desk."""
    desk = Desk(program, folder)
    for name, call, _ in first_calls(desk):
        Batch(Whole(name, program, desk.path, call, folder), preload, "input").refuse(step)
        desk.answer(call)


def past_its_life(desk):
    """A report past the end of an order and of its authorization, and the order read then."""
    report = last_report(101)(desk)
    return [report, desk.signed("/order/1", "", at=101)]


def behind_an_end(desk):
    """The end of an account with a pending order, and its next requests, of a new account too."""
    desk.open_account()
    desk.order("a.example")
    nonces = [nonce_text(serial) for serial in (3, 4, 5)]
    return [desk.signed("/account/1", {"status": "deactivated"}, nonce=nonces[0]),
            desk.signed("/new-order", order_of("b.example"), nonce=nonces[1], random="00" * 48), desk.signed("/new-account", {}, nonce=nonces[2])]


def while_processing(desk):
    """An order from ready to processing, which is not finalized again, to its certificate, which is handed in twice."""
    desk.ready_order()
    nonces = [nonce_text(serial) for serial in (4, 5, 6)]
    finalized = [desk.signed("/order/1/finalize", {"csr": "AQID"}, nonce=nonce) for nonce in nonces[:2]]
    certified = [desk.line("POST", "/office/certify/1", "certificate")] * 2
    return [*finalized, desk.line("GET", "/office/orders"), *certified, desk.signed("/cert/1", "", nonce=nonces[2])]


# Calls in one run, with the terms of their desk and the statuses of their replies.
SCRIPTS = [
    ("the first calls in one run", lambda desk: [call for _, call, _ in first_calls(desk)], (), "204 201 400 200 400 201"),
    ("calls past the life of an order", past_its_life, SHORT, "409 200"),
    ("calls behind the end of an account", behind_an_end, (), "200 401 401"),
    ("calls on a processing order", while_processing, (), "200 403 200 200 200 200"),
]


def script(program, preload, step, row, folder):
    """Calls in one run over a desk that is prepared for them."""
    name, prepared, terms, statuses = row
    desk = Desk(program, folder, terms)
    tried = Run(name, desk, prepared(desk), preload)
    see(f"{name}: the replies", b" ".join(reply[:3] for reply in tried.replies).decode(), statuses)
    tried.refuse(step)


def opening(program, preload, step, folder):
    """The opening of a desk with rows of each kind."""
    desk = Desk(program, folder)
    desk.answer(shared_end(desk))
    Batch(Whole("the opening of a desk", program, desk.path, b"", folder), preload, "start").refuse(step * step)


def upgrade(program, preload, step, name, folder):
    """The opening of a file of format 1."""
    path = restore(name, f"{folder}/first.db")
    Batch(Whole(f"the upgrade of {name}", program, path, b"", folder), preload, "start").refuse(step * step)


def late_moments(program, preload, folder):
    """How many growths a moment above the limit takes does not hang on the rows that the call would read."""
    found = []
    for name, prepared in (("few", Desk.open_account), ("many", shared_end)):
        desk = Desk(program, f"{folder}/{name}")
        prepared(desk)
        late = desk.line("GET", "/office/challenges", at=LATE)
        counts = [Batch(Whole(name, program, desk.path, call, desk.folder), preload, "input").run(0, 0)[1] for call in (b"", late)]
        found.append(counts[1] - counts[0])
    see("the growths of a moment above the limit over few rows and many", (found[0] > 0, found[1]), (True, found[0]))


def batches(program, preload, step):
    """The tries of batches: the longest first."""
    given = program, preload, step
    tries = [partial(late_moments, program, preload), partial(opening, *given), *(partial(upgrade, *given, name) for name in RICH)]
    return [*tries, *(partial(script, *given, row) for row in SCRIPTS), partial(first_requests, *given), *(partial(scenario, *given, row) for row in GROWN)]
