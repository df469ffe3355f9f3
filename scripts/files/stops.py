"""Stops the program at each write to a desk's file and its log: python3 -m scripts.files.stops PROGRAM

Each scenario is a call that is made again and again on copies of one file, while the program is stopped before, or half way
through, its first write, its second, and so on, until a run ends by itself. Then the same with a disk that fails once: the first read,
write or sync fails, the second, and so on, and the program goes on. After each stop or failure the program opens the file
again, and its tables are those before the call or those after it: the latter, where the reply was printed. So it is with the
opening of files of format 1, which makes them format 2, and with calls that one run answers, synced once each or twice. How
often the program syncs for a call is counted, too.
"""
import collections
import json
import os
import subprocess
import tempfile
from functools import partial

from scripts.files.first_format import RICH, is_first, restore, upgraded
from scripts.serving.served import NEW_NONCE, Server, proof, refusal, request
from scripts.serving.stories import Machine
from scripts.trying import (BASE, KEY, NOT_A_DESK, answered, begin, checked, copy, faults, finish, fresh, library, line_of, nonce_text, order_of,
                            remove, run, see, side_by_side, tables_of, workspace)

STOPPED = 77
# How a command ends where a call to the disk failed.
FAILED = [(1, b"desk: fault %s\n" % text) for text in (b"21 device", b"22 reopen", b"23 not a desk")]
# How `serve` ends after one connection: well, or where a call to the disk failed.
ENDED = (0, b"", b"")
SERVED = [(0, b""), *FAILED[:2]]


class Desk:
    """A desk in a file, and calls on it by one account; each call carries the nonce of the reply before it."""

    def __init__(self, program, folder, terms=()):
        self.program, self.folder, self.path, self.nonce = program, folder, f"{folder}/desk.db", None
        os.makedirs(folder, exist_ok=True)
        fresh(program, folder, "desk", *terms)

    line = staticmethod(line_of)

    def signed(self, path, payload, at=0, random="00" * 16, key=None, nonce=None):
        """The line of a signed request."""
        body = {"jwk": key or KEY, "nonce": nonce or self.nonce, "payload": payload if isinstance(payload, str) else json.dumps(payload)}
        return self.line("POST", path, json.dumps(body), at, random)

    def answer(self, line):
        """The fields of the reply to a line."""
        ran = subprocess.run([self.program, "batch", "--file", self.path], input=line, stdout=subprocess.PIPE)
        fields = ran.stdout.decode().split(" ", 3)
        if ran.returncode or len(fields) < 4:
            faults.append(f"{line!r} is answered by {ran.stdout!r}, status {ran.returncode}")
            return ["", "", "-", ""]
        if fields[2] != "-":
            self.nonce = fields[2]
        return fields

    def fetch(self, at=0):
        see("a nonce", self.answer(self.line("GET", "/new-nonce", at=at, random="00" * 16))[0], "204")

    def open_account(self, at=0):
        self.fetch(at)
        see("an account", self.answer(self.signed("/new-account", {}, at=at))[0], "201")

    def order(self, *names, at=0):
        see("an order", self.answer(self.signed("/new-order", order_of(*names), at=at, random="00" * (16 + 32 * len(names))))[0], "201")

    def validate(self, challenge, at=0):
        """Answers an http-01 challenge and hands in the finding that proves it."""
        self.answer(self.signed(f"/chall/{challenge}", "{}", at=at))
        work = json.loads(self.answer(self.line("GET", "/office/challenges", at=at))[3])
        return self.line("POST", f"/office/report/{challenge}", proof(work, challenge), at)

    def ready_order(self):
        self.open_account()
        self.order("a.example")
        see("a report", self.answer(self.validate(1))[0], "200")


def stopped(preload, path, at, half, words, given):
    """A run of the program that is stopped at a write."""
    env = {**os.environ, "LD_PRELOAD": preload, "STOP_FILE": path, "STOP_AT": str(at), "STOP_HALF": "1" if half else "0"}
    return subprocess.run(words, input=given, stdout=subprocess.PIPE, stderr=subprocess.PIPE, env=env)


def failing(path, at):
    """The environment in which a call to the disk fails."""
    return {"STOP_FILE": path, "STOP_AT": str(at), "STOP_FAILED": f"{path}.failed"}


def has_failed(path):
    """Whether a call to the disk failed since this was asked."""
    mark = f"{path}.failed"
    found = os.path.exists(mark)
    if found:
        os.remove(mark)
    return found


def failed(preload, path, at, words, given):
    """A run of the program in which a call to the disk fails, and whether it did."""
    return run(*words, given=given, env={**os.environ, "LD_PRELOAD": preload, **failing(path, at)}), has_failed(path)


def stopped_runs(name, preload, path, words, given, wanted, again):
    """Each run that is stopped at a write, or half way through it: what is said of it, and what it printed. A run that is not stopped
    prints what is wanted."""
    count = 0
    for half in (False, True):
        for at in range(1, 10000):
            again()
            ran = stopped(preload, path, at, half, words, given)
            if ran.returncode != STOPPED:
                see(f"{name}: a run that is not stopped", (ran.returncode, ran.stdout), (0, wanted))
                break
            count += 1
            yield f"{name}, stopped at write {at}", ran.stdout
    print(f"{name}: stopped at {count} writes")


def failed_runs(name, attempt, wanted):
    """Each run in which a call to the disk fails: what is said of it, its status, what came of it, and its errors. Without a failure comes what
    is wanted."""
    ends = collections.Counter()
    for at in range(1, 10000):
        ran, is_failed = attempt(at)
        if not is_failed:
            see(f"{name}: a run that does not fail", ran, (0, wanted, b""))
            break
        ends[ran[2].decode().strip() or "no fault"] += 1
        yield f"{name}, call {at} failed", *ran
    print(f"{name}: {sum(ends.values())} calls to the disk failed: {', '.join(f'{end} {count}' for end, count in sorted(ends.items()))}")


class Whole:
    """A batch over a copy of a file, run to its end: how it ended, the reply, and the tables before it and after it."""

    def __init__(self, name, program, source, call, folder):
        self.name, self.program, self.source, self.call, self.folder = name, program, source, call, folder
        self.path = f"{folder}/copy-{os.path.basename(source)}"
        self.words = [program, "batch", "--file", self.path]
        self.again()
        self.before = tables_of(self.path, folder)
        self.ran = run(*self.words, given=call)
        self.status, self.reply, _ = self.ran
        self.after = tables_of(self.path, folder)

    def again(self):
        copy(self.source, self.path)

    def left(self):
        return tables_of(self.path, self.folder)

    def look(self, said, is_after):
        """The tables that are left are those after the batch, or else those before; the file is opened again, and is a desk."""
        allowed = (self.after,) if is_after else (self.before, self.after)
        if is_first(self.before):
            see(f"{said}: tables as before or after", self.left() in allowed, True)
            allowed = (self.after,)
        see(f"{said}: opened again", checked(self.program, self.path), (0, b"no fault\n", b""))
        see(f"{said}: tables as before or after, opened again", self.left() in allowed, True)


def try_stops(whole, preload):
    """Stops at each write of a batch, and half way through it."""
    for said, reply in stopped_runs(whole.name, preload, whole.path, whole.words, whole.call, whole.reply, whole.again):
        whole.look(said, bool(reply))


def try_failures(whole, preload):
    """Has each call to the disk fail in turn while the program answers a batch."""
    def attempt(at):
        whole.again()
        return failed(preload, whole.path, at, whole.words, whole.call)

    for said, status, reply, errors in failed_runs(whole.name, attempt, whole.reply):
        see(f"{said}: its end", (status, errors) in FAILED if errors else status == 0, True)
        see(f"{said}: the reply", reply in (b"", whole.reply), True)
        whole.look(said, bool(reply))


class Served:
    """A call that `serve` answers over the file of a whole run, at the moment and with the random bytes of that run."""

    def __init__(self, whole, preload):
        call = json.loads(whole.call)
        self.whole, self.path = whole, call["path"]
        self.request = request(call["method"], call["path"], call["body"].encode())
        self.machine = Machine(whole.folder, preload)
        self.machine.set(call["at"])

    def serve(self, count=1, **env):
        return Server(self.whole.program, self.whole.path, "--count", str(count), env={**self.machine.env, **env})

    def replies(self):
        """The replies to the call, and to the call sent again."""
        self.whole.again()
        server = self.serve(2)
        found = [server.ask(self.request) for _ in range(2)]
        see(f"{self.whole.name}, served: its end", server.ended(), ENDED)
        return found

    def fail(self, at):
        """The status, the reply and the errors where a call to the disk fails, and whether it did."""
        self.whole.again()
        server = self.serve(STOP_SERVING="1", **failing(self.whole.path, at))
        came = server.ask(self.request).removesuffix(b"(reset)")
        status, out, errors = server.ended()
        see(f"{self.whole.name}, served: its output", out, b"")
        return (status, came, errors), has_failed(self.whole.path)

    def again(self):
        """The reply to the call, sent again to the next program; or why that serves nothing."""
        try:
            server = self.serve()
        except RuntimeError as error:
            return str(error)
        found = server.ask(self.request)
        see(f"{self.whole.name}, served again: its end", server.ended(), ENDED)
        return found


def try_serving(whole, preload):
    """Has each call to the disk fail in turn while `serve` answers a call and ends."""
    served = Served(whole, preload)
    replies = served.replies()
    for said, status, came, errors in failed_runs(f"{whole.name}, served", served.fail, replies[0]):
        see(f"{said}: its end", (status, errors) in SERVED, True)
        see(f"{said}: the reply", came in (replies[0], refusal(15, served.path), b""), True)
        is_after = whole.left() == whole.after
        whole.look(said, came == replies[0])
        see(f"{said}: sent again", served.again(), replies[is_after])


def try_call(name, desk, call, statuses, preload, folder):
    """Stops and fails a call on a desk, whose orders have these statuses before it and after it."""
    whole = Whole(name, desk.program, desk.path, call, folder)
    see(f"{name}: the whole run", (whole.status, whole.reply[:2] in (b"20", b"40")), (0, True))
    found = tuple(" ".join(row[-1].decode() for row in tables["ord"]) for tables in (whole.before, whole.after))
    see(f"{name}: the orders", found, statuses)
    try_stops(whole, preload)
    try_failures(whole, preload)
    try_serving(whole, preload)


def try_upgrade(program, preload, name, folder):
    """Stops and fails the opening of a file of format 1."""
    whole = Whole(f"the upgrade of {name}", program, restore(name, f"{folder}/first.db"), b"", folder)
    see(f"{whole.name}: the whole run", (whole.status, whole.reply, whole.after), (0, b"", upgraded(whole.before)))
    try_stops(whole, preload)
    try_failures(whole, preload)


def try_make_failures(program, preload, folder):
    """Has each call to the disk fail in turn while a desk is made: what was begun is removed, and a desk can be made there."""
    room = f"{folder}/makings"
    os.mkdir(room)
    path = f"{room}/made.db"

    def attempt(at):
        remove(path)
        return failed(preload, path, at, [program, "make", path, "--base", BASE], b"")

    for said, status, out, errors in failed_runs("make", attempt, b"made\n"):
        if status == 0:
            see(f"{said}: its end", (out, errors), (b"made\n", b""))
            see(f"{said}: opened again", checked(program, path), (0, b"no fault\n", b""))
        else:
            see(f"{said}: its end", (status, errors) in FAILED, True)
            see(f"{said}: what is left", os.listdir(room), [])


def try_make(program, preload, folder):
    """Stops at each write of the making of a desk; where it left no table, or no database yet, there is no desk."""
    path = f"{folder}/made.db"
    words = [program, "make", path, "--base", BASE]
    run(*words)
    after = tables_of(path, folder)
    for said, _ in stopped_runs("make", preload, path, words, b"", b"made\n", lambda: remove(path)):
        left = tables_of(path, folder) if os.path.exists(path) and os.path.getsize(path) else {}
        see(f"{said}: opened again", checked(program, path), (0, b"no fault\n", b"") if left == after else NOT_A_DESK)
        see(f"{said}: nothing or the desk", left in ({}, "file is not a database", after), True)


def new_nonce(program, preload, folder):
    """newNonce stopped before its commit gives the same nonce again, which serves once."""
    desk = Desk(program, folder)
    call = desk.line("GET", "/new-nonce", random="00" * 16)
    path = f"{folder}/stopped.db"
    copy(desk.path, path)
    see("newNonce, stopped", stopped(preload, path, 1, False, [desk.program, "batch", "--file", path], call).stdout, b"")
    copy(path, desk.path)
    first = desk.answer(call)[2]
    see("newNonce, again", first, "AAAAAAAAAAEAAAAAAAAAAAAAAAAAAAAA")
    use = desk.signed("/new-account", {})
    see("the nonce, used", desk.answer(use)[0], "201")
    see("the nonce, used again", desk.answer(use)[0], "400")


def first_calls(desk):
    """The first requests on a new desk, each with the statuses of the orders before it and after it."""
    other = {**KEY, "x": "Aw"}
    spelled = {"y": "Ag", "alg": "ES256", "x": "AQ", "use": "sig", "kty": "EC", "crv": "P-256"}
    contact = {"contact": ["mailto:a@b.example"], "termsOfServiceAgreed": True}
    names = order_of("Example.ORG", "example.org", "*.example.org")
    nonces = [nonce_text(serial) for serial in range(1, 6)]
    return [
        ("a first nonce", desk.line("GET", "/new-nonce", random="00" * 16), ("", "")),
        ("a first account", desk.signed("/new-account", contact, nonce=nonces[0]), ("", "")),
        ("a nonce that is used twice", desk.signed("/new-account", contact, nonce=nonces[0]), ("", "")),
        ("the same key, spelled otherwise", desk.signed("/new-account", {}, key=spelled, nonce=nonces[1]), ("", "")),
        ("a key without an account", desk.signed("/new-account", {"onlyReturnExisting": True}, key=other, nonce=nonces[2]), ("", "")),
        ("a first order", desk.signed("/new-order", names, nonce=nonces[3], random="00" * 64), ("", "pending")),
    ]


def first_requests(program, preload, folder):
    """The first requests on a new desk, each stopped at each write."""
    desk = Desk(program, folder)
    for name, call, statuses in first_calls(desk):
        try_call(name, desk, call, statuses, preload, folder)
        desk.answer(call)


# The calls that one run answers: the first commit of a run always syncs twice.
TOGETHER = 4


def calls_together(desk):
    """The lines of a nonce, of an account, and of the account again, each by the nonce of the reply before it."""
    account = [desk.signed("/new-account", {}, nonce=nonce_text(serial)) for serial in range(1, TOGETHER)]
    return [desk.line("GET", "/new-nonce", random="00" * 16), *account]


class Together:
    """A batch of calls over a copy of a file: the tables after each number of them, and the replies."""

    def __init__(self, program, folder, syncs):
        desk = Desk(program, folder)
        self.program, self.folder, self.source, self.path = program, folder, desk.path, f"{folder}/copy.db"
        self.name, self.calls = f"calls that sync {syncs}", calls_together(desk)
        self.words = [program, "batch", "--sync", syncs, "--file", self.path]
        self.tables, self.replies = [], b""
        for count in range(TOGETHER + 1):
            self.again()
            status, self.replies, _ = run(*self.words, given=b"".join(self.calls[:count]))
            see(f"{self.name}: the replies of {count}", (status, self.replies.count(b"\n")), (0, count))
            self.tables.append(tables_of(self.path, folder))

    def again(self):
        copy(self.source, self.path)

    def look(self, said, replies):
        """The tables that are left are those after the calls that were replied to, or after one more; the file is a desk."""
        count = replies.count(b"\n")
        see(f"{said}: the replies", self.replies.startswith(replies), True)
        see(f"{said}: opened again", checked(self.program, self.path), (0, b"no fault\n", b""))
        see(f"{said}: tables of the calls", tables_of(self.path, self.folder) in self.tables[count:count + 2], True)


def try_together(program, preload, folder, syncs):
    """Stops at each write of a batch of calls, and half way through it."""
    together = Together(program, folder, syncs)
    calls = b"".join(together.calls)
    for said, replies in stopped_runs(together.name, preload, together.path, together.words, calls, together.replies, together.again):
        together.look(said, replies)


def syncs_of_batch(desk, env, counted, words):
    """How often a batch syncs for each of some calls, the first one left out, each asked after the reply to the one before."""
    counts = []
    with subprocess.Popen([desk.program, "batch", "--file", desk.path, *words], stdin=subprocess.PIPE, stdout=subprocess.PIPE, env=env) as ran:
        for call in calls_together(desk):
            see(f"a call with {words}", answered(ran, call)[:2], b"20")
            counts.append(os.path.getsize(counted))
    return [after - before for before, after in zip(counts, counts[1:])]


def syncs_of_serving(desk, env, counted, words):
    """How often `serve` syncs for each of some nonces, the first one left out; one more is asked, as the end of serving syncs, too."""
    server, counts = Server(desk.program, desk.path, "--count", str(TOGETHER + 1), *words, env=env), []
    for _ in range(TOGETHER):
        see(f"a nonce with {words}", server.ask(NEW_NONCE)[9:12], b"204")
        counts.append(os.path.getsize(counted))
    see(f"the nonce after those with {words}", server.ask(NEW_NONCE)[9:12], b"204")
    see(f"serving with {words}: its end", server.ended(), ENDED)
    return [after - before for before, after in zip(counts, counts[1:])]


def try_syncs(program, preload, folder):
    """Each commit but the first syncs as often as the words say, and twice where they don't."""
    for syncs, count in ((("--sync", "once"), 1), (("--sync", "twice"), 2), ((), 2)):
        for syncs_of in (syncs_of_batch, syncs_of_serving):
            with tempfile.TemporaryDirectory(dir=folder) as room:
                desk, counted = Desk(program, room), f"{room}/syncs"
                found = syncs_of(desk, {**os.environ, "LD_PRELOAD": preload, "SYNCS": counted}, counted, syncs)
                see(f"{syncs_of.__name__} {syncs}", found, [count] * (TOGETHER - 1))
    print(f"syncs of {TOGETHER - 1} calls counted, in batches and served")


def finalize(desk):
    desk.ready_order()
    return desk.signed("/order/1/finalize", {"csr": "AQID"})


def three_ends(desk):
    """A report at a moment past the end of three orders and of two nonces."""
    desk.open_account()
    for name in ("a.example", "b.example", "c.example"):
        desk.order(name)
    desk.answer(desk.line("GET", "/new-nonce", at=90, random="00" * 16))
    desk.order("d.example", at=90)
    report = desk.validate(7, at=95)
    desk.answer(desk.line("GET", "/new-nonce", at=95, random="00" * 16))
    return report.replace(b'"at": 95', b'"at": 110')


def account_end(desk):
    desk.ready_order()
    desk.order("b.example")
    return desk.signed("/account/1", {"status": "deactivated"})


def certificate(desk):
    desk.answer(finalize(desk))
    return desk.line("POST", "/office/certify/1", "A" * 65536)


def key_change(desk):
    """A key change while a challenge is answered."""
    desk.open_account()
    desk.order("a.example")
    desk.answer(desk.signed("/chall/1", "{}"))
    return desk.signed("/key-change", {"account": f"{BASE}/account/1", "newKey": {**KEY, "x": "Aw"}, "oldKey": KEY})


def renewal(desk):
    """An order of a name that was validated, and of another."""
    desk.answer(certificate(desk))
    return desk.signed("/new-order", order_of("a.example", "b.example"), random="00" * 48)


def shared_end(desk):
    """The end of an authorization that four orders list: one has its certificate, one is processing, and two are ready."""
    desk.answer(certificate(desk))
    for _ in range(3):
        desk.order("a.example")
    desk.answer(desk.signed("/order/2/finalize", {"csr": "AQID"}))
    return desk.signed("/authz/1", {"status": "deactivated"})


SCENARIOS = [
    ("finalize", finalize, (), ("ready", "processing")),
    ("a report past the end of three orders", three_ends, ("--order-life", "100", "--nonce-life", "10"),
     ("pending pending pending pending", "invalid invalid invalid ready")),
    ("the end of an account", account_end, (), ("ready pending", "invalid invalid")),
    ("a certificate of 65536 bytes", certificate, (), ("processing", "valid")),
    ("a key change", key_change, (), ("pending", "pending")),
    ("a renewal", renewal, (), ("valid", "valid pending")),
    ("the end of an authorization that three orders wait for", shared_end, (), ("valid processing ready ready", "valid invalid invalid invalid")),
]


def try_scenario(program, preload, scenario, folder):
    name, prepared, terms, statuses = scenario
    desk = Desk(program, folder, terms)
    try_call(name, desk, prepared(desk), statuses, preload, folder)


def main(program):
    with workspace("stops") as folder, tempfile.TemporaryDirectory() as built:
        given = program, library(built)
        tries = [partial(first_requests, *given), partial(try_make, *given), partial(try_make_failures, *given), partial(new_nonce, *given)]
        tries += [partial(try_scenario, *given, scenario) for scenario in SCENARIOS]
        tries += [partial(try_together, *given, syncs=syncs) for syncs in ("once", "twice")]
        tries += [partial(try_syncs, *given)]
        side_by_side([*tries, *(partial(try_upgrade, *given, name) for name in RICH)], folder)
    return finish("Stops")


if __name__ == "__main__":
    begin(main, __doc__)
