#!/usr/bin/env python3
"""Times what an operator does with files of finished orders, and writes a section of docs/PERFORMANCE.md to standard output: openings, reports,
`backup` and `restore` over a file, and what a desk is asked that is served, with the longest wait of a client beside a backup. Of the first
file callgrind counts the instructions of an opening, which do not vary.

Each file is one of bench.py's, whose orders a batch then answers, reports, finalizes and certifies. Where gcc or SQLite's header is missing,
the opening in C (bench/opening.c) is left out.

    python3 bench/finished.py [--program bin/desk] [--sizes 10000,100000,300000] [--turns 3]
"""

import argparse
import contextlib
import json
import os
import shutil
import sqlite3
import statistics
import subprocess
import sys
import tempfile
import threading
import time

from bench import KINDS, TOP, Lines, base64url, compiled, go_first, make_file, paragraph, table
from instructions import counts_of
from loopback import NONCE, Server

SIZES = (10000, 100000, 300000)
TURNS = 3
# What each order has: a CSR of 1,024 bytes, and a chain of two certificates of 2,048 each.
CSR = bytes(range(256)) * 4
CHAIN = ("-----BEGIN CERTIFICATE-----\n" + ("A" * 64 + "\n") * 30 + "A" * 43 + "\n-----END CERTIFICATE-----\n") * 2
# The format of a desk, and a later one: a file of that is refused where the engine has audited it, before the desk reads its rows.
FORMAT, LATER = 2, 3
# The reports, with the end of what each prints of so many orders.
REPORTS = {"about": "log: ", "page": "</html>\n", "status": "orders {}\n", "check": "no fault\n"}
# An opening and its parts, and the one in C, as the page names them.
OPENINGS = ("opening", "the engine's audit", "the desk's part", "the desk's part in C")


def run(words, status=0):
    """The seconds and the most kilobytes that the program took, and what it printed."""
    begun = time.monotonic()
    process = subprocess.Popen(words, stdin=subprocess.DEVNULL, stdout=subprocess.PIPE, stderr=None if status == 0 else subprocess.DEVNULL, text=True)
    printed = process.stdout.read()
    _, ended, used = os.wait4(process.pid, 0)
    if os.waitstatus_to_exitcode(ended) != status:
        sys.exit(f"{' '.join(words)} ended with {ended}")
    return time.monotonic() - begun, used.ru_maxrss, printed


def finishing(lines, order):
    """The calls of an order that is there, from its challenge to its certificate."""
    kinds = dict(KINDS)
    yield kinds["answer a challenge"](lines, order)
    yield kinds["report"](lines, order)
    yield lines.of_order(order, "/order/{}/finalize", json.dumps({"csr": base64url(CSR)}))
    yield lines.line("POST", f"/office/certify/{order}", CHAIN)


def feed(calls, orders):
    """Writes what finishes each order of a file."""
    lines = Lines()
    with calls:
        calls.write(lines.nonce())
        for order in range(1, orders + 1):
            calls.writelines(finishing(lines, order))


def finish(program, path, orders):
    """Finishes each order of a file."""
    pipes = {"stdin": subprocess.PIPE, "stdout": subprocess.PIPE, "text": True}
    desk = subprocess.Popen([program, "batch", "--file", path, "--sync", "once"], bufsize=1 << 20, **pipes)
    threading.Thread(target=feed, args=(desk.stdin, orders), daemon=True).start()
    finished = [reply.startswith("2") for reply in desk.stdout]
    if desk.wait() != 0 or not all(finished) or len(finished) != 1 + 4 * orders:
        sys.exit("an order was not finished")


def make_finished(program, path, size):
    """A file with so many finished orders, made in the machine's memory, where a sync takes no time."""
    with tempfile.TemporaryDirectory(prefix="desk-finished-", dir="/dev/shm") as folder:
        made = f"{folder}/desk.db"
        make_file(made, size)
        finish(program, made, size)
        shutil.move(made, path)


def see_end(name, size, printed):
    """Ends the script where a report does not end as it should; of `about` it is the last line that is looked at."""
    end = REPORTS.get(name, "").format(size)
    if name in REPORTS and not (printed.endswith(end) or name == "about" and printed.splitlines()[-1].startswith(end)):
        sys.exit(f"{name} of {size} orders ended otherwise")


@contextlib.contextmanager
def of_later_format(path):
    """The file says meanwhile that it is of a later format."""
    for number in (LATER, FORMAT):
        with contextlib.closing(sqlite3.connect(path, isolation_level=None)) as database:
            database.execute("UPDATE meta SET format = ?", (number,))
        if number == LATER:
            yield


def counted(words, status):
    """The instructions that a program takes, but for those that copy or clear memory."""
    with tempfile.NamedTemporaryFile() as dump:
        run(["valgrind", "--tool=callgrind", "-q", f"--callgrind-out-file={dump.name}", *words], status)
        return counts_of(dump.name).own


def opening(program, in_c, path, take):
    """What is taken of an opening, of the engine's audit, of the rest, and of the opening in C where that is there."""
    words = [program, "batch", "--file", path]
    whole = take(words, 0)
    with of_later_format(path):
        audit = take(words, 1)
    return [whole, audit, whole - audit, *([take([in_c, path], 0)] if in_c else [])]


def measure_opening(program, in_c, path, turns):
    """The medians of the seconds of an opening, of its parts and of one in C, and the most kilobytes of the program."""
    kilobytes = []

    def seconds(words, status):
        taken, most, _ = run(words, status)
        kilobytes.append(most if words[0] == program else 0)
        return taken

    found = [opening(program, in_c, path, seconds) for _ in range(turns)]
    return dict(zip(OPENINGS, map(statistics.median, zip(*found)))), max(kilobytes)


def say_instructions(counts, size):
    """The sentence on the instructions of an opening, or nothing where there is none in C to compare with."""
    if len(counts) < len(OPENINGS):
        return ""
    whole, audit, own, in_c = (count / size / 1000 for count in counts)
    return f"""By callgrind, opening {size:,} orders takes {whole:,.0f} thousand instructions an order, copying left out: {audit:,.0f} are the audit's, the
        rest is {own / in_c:.2f} times C's."""


def measure(program, path, size, turns):
    """For each word over a file the median of its seconds, and the most kilobytes of all."""
    copy = f"{os.path.dirname(path)}/copy.db"
    words = {**{name: (name, path) for name in REPORTS}, "backup": ("backup", path, copy), "restore": ("restore", copy, path)}
    taken = {name: [] for name in words}
    for _ in range(turns):
        for name, word in words.items():
            *found, printed = run([program, *word])
            see_end(name, size, printed)
            taken[name].append(found)
        os.remove(copy)
    return {name: statistics.median(it[0] for it in found) for name, found in taken.items()}, max(it[1] for found in taken.values() for it in found)


class Waiting(threading.Thread):
    """A client that asks for one nonce after the other, and keeps the longest time that one took."""

    def __init__(self, desk):
        super().__init__(daemon=True)
        self.desk, self.over, self.longest = desk, threading.Event(), 0
        self.start()

    def run(self):
        while not self.over.is_set():
            start = time.monotonic()
            self.desk.ask(NONCE)
            self.longest = max(self.longest, time.monotonic() - start)

    def end(self):
        self.over.set()
        self.join()
        return self.longest


def measure_served(program, path, size, turns):
    """For each word asked of a desk that serves the file the median of its seconds, and of a client's longest wait beside a backup."""
    copy, backup, wait = f"{os.path.dirname(path)}/copy.db", "backup", "longest wait beside backup"
    taken = {name: [] for name in (*REPORTS, backup, wait)}
    desk = Server(program, "serve", path, "--port", "0")
    place = ("--port", str(desk.address[1]))
    for _ in range(turns):
        for name in REPORTS:
            seconds, _, printed = run([program, name, *place])
            see_end(name, size, printed)
            taken[name].append(seconds)
        client = Waiting(desk)
        taken[backup].append(run([program, backup, copy, *place])[0])
        taken[wait].append(client.end())
        os.remove(copy)
    desk.close()
    return {name: statistics.median(found) for name, found in taken.items()}


def shown(seconds):
    """Seconds, as the page has them."""
    return f"{seconds:,.{1 if seconds >= 0.1 else 2}f}"


def columns(program, in_c, size, turns, is_counted):
    """What a file of so many orders adds to the page: a column of the file, one of a desk that serves it, and, where they are counted, the
    instructions of its opening."""
    with tempfile.TemporaryDirectory(prefix="desk-finished-") as folder:
        path = f"{folder}/desk.db"
        make_finished(program, path, size)
        counts = opening(program, in_c, path, counted) if is_counted else []
        held = os.path.getsize(path)
        opened, before = measure_opening(program, in_c, path, turns)
        seconds, most = measure(program, path, size, turns)
        served = measure_served(program, path, size, turns)
    over = {name: shown(it) for name, it in (opened | seconds).items()}
    return over | megabytes(held, max(before, most)), {name: shown(it) for name, it in served.items()}, counts


def megabytes(held, kilobytes):
    """The cells of the size of a file, and of memory."""
    return {"file, MB": f"{held / 1e6:,.0f}", "most memory, MiB": f"{kilobytes / 1024:,.0f}"}


def by_size(found):
    """The lines of a table that has a column for each size."""
    rows = [(name, *(column[name] for column in found.values())) for name in next(iter(found.values()))]
    return table(("orders", *(f"{size:,}" for size in found)), rows)


def page(over, served, turns, said):
    """The lines of the section, by the columns of each size, with what is said of instructions."""
    has_c = OPENINGS[-1] in next(iter(over.values()))
    in_c = "C (`bench/opening.c`) does this without an audit, and fetches the bytes of CSR and chain, which the desk does not copy." if has_c else ""
    text = f"""Each finished order has a CSR of {len(CSR):,} bytes and a chain of {len(CHAIN):,}. At each opening the engine's own audit reads each table
        whole. So memory is what the largest table takes; short rows take more there than in the file. Then the desk reads and checks each row. {in_c} {said}"""
    rows = f"""The audit is timed by a file of a later format, which is refused right after it. The desk's part is the median of the differences, so rows do
        not add up, and a small difference says little. Each word opens the file first, `restore` both files. Seconds are medians of {turns} runs; memory
        is the most of all runs."""
    asked = """Asked of a desk that serves the file, in seconds as above. A report keeps all others waiting until it is taken. A backup does so only while the
        file and its log are sent; for the rest of its time the word checks the copy. The last row is a client's longest wait for a nonce meanwhile."""
    return ["## Files", "", *paragraph(text), *paragraph(rows), *by_size(over), *paragraph(asked), *by_size(served)]


def main():
    words = argparse.ArgumentParser(description="Times what an operator does with a desk of finished orders.")
    words.add_argument("--sizes", default=",".join(map(str, SIZES)))
    words.add_argument("--turns", type=int, default=TURNS)
    words.add_argument("--program", default=f"{TOP}/bin/desk")
    given = words.parse_args()
    go_first()
    sizes = [int(size) for size in given.sizes.split(",")]
    with tempfile.TemporaryDirectory() as folder:
        in_c = compiled(folder, "opening")
        is_counted = bool(in_c and shutil.which("valgrind"))
        over, served, counts = zip(*(columns(given.program, in_c, size, given.turns, is_counted and size == sizes[0]) for size in sizes))
    print("\n".join(page(dict(zip(sizes, over)), dict(zip(sizes, served)), given.turns, say_instructions(counts[0], sizes[0]))))


if __name__ == "__main__":
    main()
