#!/usr/bin/env python3
"""Times durable calls of bin/desk against bench/desk.c, and writes the head of docs/PERFORMANCE.md and its first sections to standard output.

For each size a file with so many orders is written by Python's sqlite3, and copied for the program, for the program
with `--sync once`, and for C. All run at the same time, each over its own copy. They are asked the same calls, a few of
one kind by the one and then by the others, and must give the same lines. Where gcc or SQLite's header is missing, C is
left out.

    python3 bench/bench.py [--sizes 100,1000]
"""

import argparse
import base64
import functools
import hashlib
import json
import os
import re
import shutil
import sqlite3
import statistics
import subprocess
import sys
import tempfile
import textwrap
import time

HERE = os.path.dirname(os.path.abspath(__file__))
TOP = os.path.dirname(HERE)
SIZES = (100, 1000, 10000, 100000)
RUNS, TURNS, CALLS = 3, 10, 10
# The seconds of a sync on a slower disk.
SLOW_SYNC = 0.005
# The least rates by C's that were the goals, of some kinds of calls and of all others; and the greatest growth.
GOALS = {"once": ({"newNonce": 0.8, "newAccount, known": 0.8}, 0.6), "desk": ({}, 0.5)}
GROWTH = 1.2
BASE = "https://ca.example"
NONCE_LIFE, ORDER_LIFE, AUTHZ_LIFE = 3600, 604800, 2592000
OPENED, NOW = 1800000000, 1800086400
TOKEN = bytes(16)
ORDERS_OF_ACCOUNT = 10
# The orders of the one account of a file of its own.
ORDERS_OF_ONE = 10000


def base64url(data):
    return base64.urlsafe_b64encode(data).rstrip(b"=").decode()


def key(account, changes=0):
    """The key of an account after so many changes, with coordinates of 32 bytes."""
    return {
        "crv": "P-256",
        "kty": "EC",
        "x": base64url(account.to_bytes(32, "big")),
        "y": base64url((1 + changes).to_bytes(32, "big")),
    }


def canonical(jwk):
    return json.dumps(jwk, separators=(",", ":"), sort_keys=True)


def account_of(order, each=ORDERS_OF_ACCOUNT):
    """The account of an order, where each account has so many."""
    return (order - 1) // each + 1


def made_at(order, orders):
    """The orders were made one after the other in the day before the calls."""
    return OPENED + (NOW - OPENED) * (order - 1) // orders


@functools.cache
def definitions(form=2):
    """The statements that make the tables and indexes of a format, as a desk has them that the program makes."""
    with tempfile.TemporaryDirectory(prefix="desk-made-") as folder:
        path = f"{folder}/desk.db"
        subprocess.run([f"{TOP}/bin/desk", "make", path, "--base", BASE], check=True, stdout=subprocess.DEVNULL)
        database = sqlite3.connect(path)
        found = [text for (text,) in database.execute("SELECT sql FROM sqlite_master WHERE sql IS NOT NULL ORDER BY rowid")]
        database.close()
    return found if form > 1 else [text for text in found if "TABLE chall_key" not in text]


def make_file(path, orders, form=2, each=ORDERS_OF_ACCOUNT):
    """A desk's file with so many pending orders of one name each, and so many of each account."""
    accounts = account_of(orders, each)
    numbers = range(1, orders + 1)
    database = sqlite3.connect(path, isolation_level=None)
    database.execute("PRAGMA journal_mode = WAL")
    database.execute("BEGIN")
    for statement in definitions(form):
        database.execute(statement)
    counters = (0, accounts, orders, orders, 2 * orders)
    meta = (1, form, BASE, NONCE_LIFE, ORDER_LIFE, AUTHZ_LIFE, NOW) + counters
    database.execute(f"INSERT INTO meta VALUES ({','.join('?' * 12)})", meta)
    database.executemany(
        "INSERT INTO account VALUES (?, ?, '[]', ?, NULL, NULL, 'valid')",
        ((n, canonical(key(n)), OPENED) for n in range(1, accounts + 1)),
    )
    database.executemany(
        "INSERT INTO ord VALUES (?, ?, ?, ?, NULL, NULL, NULL, NULL, NULL, NULL, 'pending')",
        ((n, account_of(n, each), made_at(n, orders), made_at(n, orders) + ORDER_LIFE) for n in numbers),
    )
    database.executemany(
        "INSERT INTO authz VALUES (?, ?, ?, 0, ?, ?, NULL, NULL, 'pending')",
        (
            (n, account_of(n, each), f"n{n}.example", made_at(n, orders), made_at(n, orders) + AUTHZ_LIFE)
            for n in numbers
        ),
    )
    database.executemany("INSERT INTO ord_authz VALUES (?, 1, ?)", ((n, n) for n in numbers))
    database.executemany(
        "INSERT INTO chall VALUES (?, ?, ?, ?, NULL, NULL, NULL, 'pending')",
        (
            (2 * n - 1 + i, n, kind, TOKEN)
            for n in numbers
            for i, kind in enumerate(("http-01", "dns-01"))
        ),
    )
    database.execute("COMMIT")
    database.close()
    return path


class Lines:
    """The calls, as lines. All are made at one moment with random bytes that are zero."""

    def __init__(self, each=ORDERS_OF_ACCOUNT):
        self.nonces, self.changes, self.each = 0, {}, each

    def account_of(self, order):
        return account_of(order, self.each)

    def key(self, account):
        """The key that an account has after the lines so far."""
        return key(account, self.changes.get(account, 0))

    def line(self, method, path, body="", random=16):
        call = {"at": NOW, "body": body, "method": method, "path": path, "random": "00" * random}
        return json.dumps(call) + "\n"

    def nonce(self):
        self.nonces += 1
        return self.line("GET", "/new-nonce")

    def signed(self, account, path, payload, random=16):
        nonce = base64url(self.nonces.to_bytes(8, "big") + bytes(16))
        self.nonces += 1
        body = json.dumps({"jwk": self.key(account), "nonce": nonce, "payload": payload})
        return self.line("POST", path, body, random)

    def of_order(self, order, path, payload="", random=16):
        return self.signed(self.account_of(order), path.format(order), payload, random)

    def report(self, order):
        thumbprint = hashlib.sha256(canonical(self.key(self.account_of(order))).encode()).digest()
        found = base64url(TOKEN) + "." + base64url(thumbprint)
        return self.line("POST", f"/office/report/{2 * order - 1}", json.dumps({"body": base64url(found.encode())}))

    def new_order(self, order, name=None):
        name = name or f"m{self.nonces}.example"
        payload = json.dumps({"identifiers": [{"type": "dns", "value": name}]})
        return self.of_order(order, "/new-order", payload, 48)

    def renewal(self, order):
        return self.new_order(order, f"n{order}.example")

    def key_change(self, order):
        account = self.account_of(order)
        changes = 1 + self.changes.get(account, 0)
        keys = {"newKey": key(account, changes), "oldKey": self.key(account)}
        line = self.of_order(order, "/key-change", json.dumps({"account": f"{BASE}/account/{account}", **keys}))
        self.changes[account] = changes
        return line


CSR = base64url(bytes(range(256)) * 2)
CERTIFICATE = "-----BEGIN CERTIFICATE-----\n" + ("A" * 64 + "\n") * 46 + "-----END CERTIFICATE-----\n"

# Each kind of call, with the line that asks it of an order or of its account, in the order in which they may follow.
KINDS = (
    ("directory", lambda lines, n: lines.line("GET", "/directory")),
    ("newNonce", lambda lines, n: lines.nonce()),
    ("newAccount, known", lambda lines, n: lines.of_order(n, "/new-account", "{}")),
    ("newOrder", Lines.new_order),
    ("read an account", lambda lines, n: lines.of_order(n, f"/account/{lines.account_of(n)}")),
    (
        "replace its contacts",
        lambda lines, n: lines.of_order(n, f"/account/{lines.account_of(n)}", '{"contact":["mailto:a%d@b.example"]}' % n),
    ),
    ("its orders", lambda lines, n: lines.of_order(n, f"/account/{lines.account_of(n)}/orders")),
    ("its key", lambda lines, n: lines.line("GET", f"/office/key/{lines.account_of(n)}")),
    ("read an order", lambda lines, n: lines.of_order(n, "/order/{}")),
    ("read an authorization", lambda lines, n: lines.of_order(n, "/authz/{}")),
    ("answer a challenge", lambda lines, n: lines.of_order(n, f"/chall/{2 * n - 1}", "{}")),
    ("challenge work", lambda lines, n: lines.line("GET", "/office/challenges")),
    ("report", Lines.report),
    ("finalize", lambda lines, n: lines.of_order(n, "/order/{}/finalize", json.dumps({"csr": CSR}))),
    ("order work", lambda lines, n: lines.line("GET", "/office/orders")),
    ("certify", lambda lines, n: lines.line("POST", f"/office/certify/{n}", CERTIFICATE)),
    ("read a certificate", lambda lines, n: lines.of_order(n, "/cert/{}")),
    ("newOrder, its name validated", Lines.renewal),
    ("key change", Lines.key_change),
    ("end an authorization", lambda lines, n: lines.of_order(n, "/authz/{}", '{"status":"deactivated"}')),
)

# The calls of one order's life, with how often each is made.
LIFE = {
    "newNonce": 1,
    "newOrder": 1,
    "read an authorization": 1,
    "answer a challenge": 1,
    "report": 1,
    "read an order": 2,
    "finalize": 1,
    "certify": 1,
    "read a certificate": 1,
}


# What is asked of the account that has all orders of its file: calls that take as long for one of few.
OF_ONE = ("read an account", "replace its contacts")

# The lists of the whole desk.
WORK_LISTS = ("challenge work", "order work")


class Program:
    """A program that answers lines, over a file of its own."""

    def __init__(self, words):
        start = time.perf_counter()
        pipes = {"stdin": subprocess.PIPE, "stdout": subprocess.PIPE, "text": True}
        self.process = subprocess.Popen(words, bufsize=1 << 20, **pipes)
        self.turns = {name: [] for name, _ in KINDS}
        self.answer(Lines().line("GET", "/directory"))
        self.opening = time.perf_counter() - start

    def answer(self, line):
        self.process.stdin.write(line)
        self.process.stdin.flush()
        return self.process.stdout.readline()

    def answers(self, name, lines):
        """The replies to lines of one kind, each asked after the one before."""
        start = time.perf_counter()
        replies = [self.answer(line) for line in lines]
        self.turns[name].append((time.perf_counter() - start) / len(lines))
        return replies

    def add(self, later):
        """Adds the turns of a later run."""
        for name, turns in later.turns.items():
            self.turns[name] += turns

    def seconds(self):
        """The time of a call of each kind: the median of its turns."""
        return {name: statistics.median(turns) for name, turns in self.turns.items() if turns}

    def memory(self):
        """The most bytes of memory that the process has had."""
        with open(f"/proc/{self.process.pid}/status", encoding="ascii") as status:
            return 1024 * int(re.search(r"VmHWM:\s+(\d+)", status.read()).group(1))

    def close(self):
        self.process.stdin.close()
        if self.process.wait() != 0:
            sys.exit(f"{self.process.args[0]} ended with status {self.process.returncode}")


def compiled(folder, name="desk"):
    """A program in C, or None with a word on standard error."""
    path = os.path.join(folder, f"{name}_c")
    words = ["gcc", "-O2", "-o", path, os.path.join(HERE, f"{name}.c"), "-lsqlite3"]
    if shutil.which("gcc") and subprocess.run(words, check=False, stderr=subprocess.DEVNULL).returncode == 0:
        return path
    print("bench: the C program is left out: gcc or SQLite's header is missing", file=sys.stderr)
    return None


def commands(folder):
    """What is timed, by name: the words that a file's path follows."""
    batch, in_c = [f"{TOP}/bin/desk", "batch"], compiled(folder)
    found = {"desk": [*batch, "--file"], "once": [*batch, "--sync", "once", "--file"]}
    return found | ({"c": [in_c]} if in_c else {})


def check_replies(name, replies):
    """That all programs gave the same lines, and each of them a success."""
    for said in zip(*replies):
        if len(set(said)) != 1 or not said[0].startswith("2"):
            sys.exit(f"{name}: " + " / ".join(said))


def orders_of(size, turn):
    """The orders that a turn asks for: those of accounts that are spread over the file, as many of each at any size."""
    step = size // (TURNS * CALLS) * ORDERS_OF_ACCOUNT
    calls = range(turn * CALLS, (turn + 1) * CALLS)
    return [1 + call // ORDERS_OF_ACCOUNT * step + call % ORDERS_OF_ACCOUNT for call in calls]


def copy_of(path, to):
    """A copy of the file that is on the disk, so that no sync of a call waits for it."""
    shutil.copyfile(path, to)
    with open(to, "rb+") as copy:
        os.fsync(copy.fileno())
    return to


class Measured:
    """The programs over files of one size, and what was measured of them."""

    def __init__(self, size, found, folder, each=ORDERS_OF_ACCOUNT):
        path = make_file(os.path.join(folder, f"{size}.{each}.db"), size, each=each)
        self.size = size
        self.programs = {who: Program([*words, copy_of(path, f"{path}.{who}")]) for who, words in found.items()}
        self.lines = Lines(each)
        first = self.lines.nonce()
        check_replies("newNonce", [[program.answer(first)] for program in self.programs.values()])

    def ask(self, turn, name, line_of):
        """The calls of one kind in a turn, to each program."""
        lines = [line_of(self.lines, order) for order in orders_of(self.size, turn)]
        programs = list(self.programs.values())[:: 1 - 2 * (turn % 2)]
        check_replies(name, [program.answers(name, lines) for program in programs])

    def close(self):
        for program in self.programs.values():
            program.close()

    def add(self, later):
        """Adds what a later run measured over files of the same size."""
        for who, program in self.programs.items():
            program.add(later.programs[who])

    @property
    def seconds(self):
        """The time of a call of each kind, by the turns of all runs."""
        return {who: program.seconds() for who, program in self.programs.items()}


def sync_times(place):
    """The times of some syncs of 24 kB that are written over others."""
    times = []
    with tempfile.TemporaryFile(dir=place) as file:
        os.pwrite(file.fileno(), bytes(1 << 20), 0)
        os.fsync(file.fileno())
        for turn in range(CALLS):
            start = time.perf_counter()
            os.pwrite(file.fileno(), bytes([turn + 1]) * 24720, 24720 * turn)
            os.fdatasync(file.fileno())
            times.append(time.perf_counter() - start)
    return times


def ask(turn, sizes, of_one):
    """The calls of one turn, kind by kind, over each size, in two turns from the first on and in the next two from the last."""
    for name, line_of in KINDS:
        for measured in list(sizes.values())[:: 1 - 2 * (turn // 2 % 2)]:
            measured.ask(turn, name, line_of)
        if name in OF_ONE:
            of_one.ask(turn, name, line_of)


class Run:
    """What was measured over files in a folder, sizes taking turns as programs do, and the median time of a sync."""

    def __init__(self, place, sizes, without=None):
        self.syncs, self.sizes, self.of_one = [], {}, None
        for _ in range(RUNS):
            with tempfile.TemporaryDirectory(dir=place) as folder:
                found = commands(folder)
                found.pop(without, None)
                self.measure(folder, sizes, found)
        self.sync = statistics.median(self.syncs)

    def measure(self, folder, sizes, found):
        """One run over new files, whose turns are added to those of the runs before."""
        sizes = {size: Measured(size, found, folder) for size in sizes}
        of_one = Measured(ORDERS_OF_ONE, found, folder, ORDERS_OF_ONE)
        for turn in range(TURNS):
            self.syncs += sync_times(folder)
            ask(turn, sizes, of_one)
        for measured in (*sizes.values(), of_one):
            measured.close()
        if self.of_one is None:
            self.sizes, self.of_one = sizes, of_one
            return
        for size, measured in sizes.items():
            self.sizes[size].add(measured)
        self.of_one.add(of_one)

    def growth(self, name, who="desk"):
        """The time of a program's call at the largest size, by that at the smallest."""
        return self.sizes[max(self.sizes)].seconds[who][name] / self.sizes[min(self.sizes)].seconds[who][name]

    def growth_of_one(self, name):
        """The time of a call for the account that has all orders of its file, by that for one of few in the largest file."""
        return self.of_one.seconds["desk"][name] / self.sizes[max(self.sizes)].seconds["desk"][name]

    def ratio(self, size, name, who="desk"):
        """The rate of a call by C's."""
        return self.sizes[size].seconds["c"][name] / self.sizes[size].seconds[who][name]


def syncs_of_call(words, folder):
    """How often a program syncs for a newNonce, by strace."""
    log = os.path.join(folder, "syncs")
    path = make_file(os.path.join(folder, "traced.db"), 100)
    program = Program(["strace", "-f", "-e", "trace=fsync,fdatasync", "-o", log, *words, path])
    lines, counts = Lines(), []
    for _ in range(3):
        program.answer(lines.nonce())
        with open(log, encoding="utf-8") as traced:
            counts.append(len(traced.readlines()))
    program.close()
    os.remove(path)
    return counts[2] - counts[1]


def counted_syncs():
    """How often each program syncs for a call, where strace is there."""
    if not shutil.which("strace"):
        return {}
    with tempfile.TemporaryDirectory() as folder:
        return {who: syncs_of_call(words, folder) for who, words in commands(folder).items()}


# ---- the page


def table(titles, rows):
    """The lines of a table, and an empty one."""
    first, *lines = [f"| {' | '.join(cells)} |" for cells in (titles, *rows)]
    return [first, "|" + "---|" * len(titles), *lines, ""]


def paragraph(text):
    """The lines of a paragraph, and an empty one."""
    return [*textwrap.wrap(" ".join(text.split()), 118, break_long_words=False, break_on_hyphens=False), ""]


def figure(value):
    """A rate, a ratio or a growth, with about three digits."""
    digits = 0 if value >= 100 else 1 if value >= 10 else 2 if value >= 0.01 else 4
    return f"{value:,.{digits}f}"


def head(is_first):
    """What the page compares, where that was measured, and what writes it. The room is what all scripts take, /tmp for finished.py's largest file thrice."""
    before = "; the timed programs had real-time priority (SCHED_FIFO)" if is_first else ", and that work is in the times"
    return paragraph(
        f"""`bin/desk`, over the kit's crate `sqlite` (the engine), beside `bench/desk.c` (C), which makes the same writes by hand on SQLite
        {sqlite3.sqlite_version} and gives the same replies. C checks names, contacts and keys only as far as these calls need. In each call that needs them
        it looks up the desk's own row, the nonce and what has ended; the desk remembers these. Measured on {os.cpu_count()} processors that other work
        shared{before}. Times vary from run to run, instructions do not. `make bench` writes this page. It takes gcc, SQLite's header, valgrind, strace, and
        room in `bin/` (0.5 GB), `/tmp` (6.5 GB) and `/dev/shm` (2.5 GB)."""
    )


def synced(counts, sync):
    """The sentence on how often a call syncs, and how long that takes."""
    times = {1: "once", 2: "twice"}
    names = {"desk": "in the desk", "once": "with `--sync once`", "c": "in C"}
    counted = ", ".join(f"{times.get(count, f'{count} times')} {names[who]}" for who, count in counts.items())
    return f"{f'Each call syncs {counted}; a' if counted else 'A'} sync took {1e6 * sync:,.0f} microseconds here."


def carried(seconds, counts, sync):
    """The seconds of an order's calls, by where they are made."""
    life = {who: sum(found[name] * times for name, times in LIFE.items()) for who, found in seconds.items()}
    lists = sum(seconds["desk"][name] for name in WORK_LISTS)
    computed = f"computed for syncs of {1000 * SLOW_SYNC:.0f} ms"
    slower = {"desk": computed, "once": f"{computed}, `--sync once`"}
    more = {who: sum(LIFE.values()) * count * (SLOW_SYNC - sync) for who, count in counts.items()}
    here = {"on this disk": life["desk"], f"with both lists of work, {CALLS} items each": life["desk"] + lists}
    return here | {said: life[who] + more[who] for who, said in slower.items() if who in more}


def carries(disk, counts):
    """The section on what one desk carries."""
    largest = max(disk.sizes)
    calls = ", ".join(name if times == 1 else f"{name} {times} times" for name, times in LIFE.items())
    found = carried(disk.sizes[largest].seconds, counts, disk.sync)
    rows = [(said, f"{1000 * life:.{0 if life >= 0.01 else 1}f}", f"{86400 / life / 1e6:.2g}") for said, life in found.items()]
    computed = f"The last two rows are computed, with {1000 * SLOW_SYNC:.0f} ms for each of these syncs." if counts else ""
    text = f"""An order takes {sum(LIFE.values())} calls, each one transaction: {calls}. {synced(counts, disk.sync)} The times are medians through pipes, so
        neither the copying of the log into the file nor a connection for each call (below) is in them. {computed}"""
    limit = """Old orders stay: when opening takes too long, a house puts the file aside and makes a new one. A house that outgrows one desk runs
        several, each with its own file, base and accounts; the front tells them apart by host name."""
    titles = (f"an order's calls, in a file of {largest:,} orders", "ms", "million orders a day")
    return ["## What one desk carries", "", *paragraph(text), *table(titles, rows), *paragraph(limit)]


def beside(value, goal):
    """A value that misses a goal, told apart from it."""
    return figure(value) if figure(value) != figure(goal) else f"just {'below' if value < goal else 'above'} {figure(goal)}"


def listed(found):
    """Which kinds of calls miss a goal, by the values and the goals of those that do."""
    return "missed by " + ", ".join(f'"{name}" ({beside(*both)})' for name, both in found.items()) if found else "none misses it"


def slow(disk, who):
    """Which kinds of calls have a rate by C's below the goal at some size, each with the least one."""
    goals, others = GOALS[who]
    least = {name: (min(disk.ratio(size, name, who) for size in disk.sizes), goals.get(name, others)) for name, _ in KINDS}
    return listed({name: (value, goal) for name, (value, goal) in least.items() if value < goal})


def missed(disk):
    """The sentences on the goals."""
    grown = {name: disk.growth(name) for name, _ in KINDS} | {f"{name}, of {ORDERS_OF_ONE:,} orders": disk.growth_of_one(name) for name in OF_ONE}
    sizes = " and ".join(", ".join(f"{size:,}" for size in disk.sizes).rsplit(", ", 1))
    return f"""The goals are for files of {sizes} orders; where a call misses one, its least value is given. At least 0.5 of C's rate:
        {slow(disk, "desk")}. With `--sync once`, at least 0.8 of C's rate for newNonce and newAccount, 0.6 for others: {slow(disk, "once")}. Growth of at
        most {GROWTH} in time: {listed({name: (value, GROWTH) for name, value in grown.items() if value > GROWTH})}; growth in instructions is below."""


def rates(disk, memory):
    """The section on calls a second, with ratios where C is measured."""
    smallest, largest = min(disk.sizes), max(disk.sizes)
    has_c = "c" in disk.sizes[largest].seconds
    growths = {"growth": "desk", **({"C's growth": "c"} if has_c else {})}
    by_c = "of C's rate"
    in_memory = {f"{by_c}, in memory": (memory, "desk")} if memory else {}
    ratios = {by_c: (disk, "desk"), f"{by_c}, `--sync once`": (disk, "once"), **in_memory} if has_c else {}
    rows = []
    for name, _ in KINDS:
        rate = 1 / disk.sizes[largest].seconds["desk"][name]
        grown = (disk.growth(name, who) for who in growths.values())
        compared = (run.ratio(largest, name, who) for run, who in ratios.values())
        rows.append((name, *map(figure, (rate, *grown, *compared))))
    ways = f"as it is, with `--sync once`{', and over files in memory' if memory else ''}"
    text = f"""One call after the other through pipes, over {largest:,} pending orders of one name, {ORDERS_OF_ACCOUNT} to an account. Times are
        medians of {RUNS * TURNS} turns of {CALLS} calls; the calls of a turn are for the orders of one account. Growth is the time over {largest:,} orders
        divided by that over {smallest:,}. {f"The last columns are the desk's rate divided by C's: {ways}." if has_c else ""}"""
    read, replaced = (figure(disk.growth_of_one(name)) for name in OF_ONE)
    of_one = f"""An account with all {ORDERS_OF_ONE:,} orders of its file takes {read} times as long to read as one with {ORDERS_OF_ACCOUNT} in the file of
        {largest:,}, and its contacts {replaced} times as long to replace."""
    said = [*paragraph(of_one), *(paragraph(missed(disk)) if has_c else [])]
    return ["## Calls a second", "", *paragraph(text), *table(("call", "a second", *growths, *ratios), rows), *said]


def page(counts, disk, memory, is_first):
    """The lines of the page's head and of the sections that this script measures."""
    return ["# Performance", "", *head(is_first), *carries(disk, counts), *rates(disk, memory)]


def go_first():
    """Puts this program and those that it starts before others, and says whether it may: on busy processors a sync else waits for a turn, up to 4 ms."""
    try:
        os.sched_setscheduler(0, os.SCHED_FIFO, os.sched_param(1))
    except OSError as refused:
        print(f"bench: no SCHED_FIFO ({refused.strerror}): other work is in the times", file=sys.stderr)
        return False
    return True


def main():
    parser = argparse.ArgumentParser(description=__doc__.split("\n", maxsplit=1)[0])
    parser.add_argument("--sizes", default=",".join(map(str, SIZES)))
    sizes = [int(size) for size in parser.parse_args().sizes.split(",")]
    is_first = go_first()
    os.makedirs(f"{TOP}/bin", exist_ok=True)
    disk = Run(f"{TOP}/bin", sizes)
    memory = Run("/dev/shm", sizes, "once") if os.path.isdir("/dev/shm") else None
    print("\n".join(page(counted_syncs(), disk, memory, is_first)))


if __name__ == "__main__":
    main()
