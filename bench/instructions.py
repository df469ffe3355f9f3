#!/usr/bin/env python3
"""Counts the instructions of a call by callgrind, of bin/desk and of bench/desk.c, for a section of docs/PERFORMANCE.md.

Both answer the same lines over a file of 10,000 orders of their own, kind by kind, in turns of ten calls as bench.py's;
the first turn is not counted, and a figure is the median of the others: so the copying of the log into the file, which
comes with one kind of call or another in every turn, is in none. For the page the same is counted over the fewest and the
most orders of bench.py's. An instruction is counted once however long it takes, so the figures are the same on a machine
under any load. Copying and clearing memory is left out, as the C library does it by other instructions on other processors.

    python3 bench/instructions.py --into FILE       writes the section into the page, in the place of the one there, or behind all others
    python3 bench/instructions.py --against FILE    compares the desk with the section of the page, and ends with 1 where a call
                                                    takes a twentieth more than is written there
"""

import argparse
import os
import re
import shutil
import statistics
import subprocess
import sys
import tempfile
import typing

from bench import CALLS, GROWTH, KINDS, SIZES, TOP, Lines, check_replies, compiled, make_file, orders_of, paragraph, table

SIZE, TURNS = 10000, 8
HEAD = "## Instructions of a call"
ALLOWED = 1.05
MEMORY = re.compile(r"mem(cpy|move|set)")
# The functions of the engine.
ENGINE = re.compile(r"sqlite\w*::")
TITLES = ("call", "desk", "C", "times C's", "goal", "engine, %", "growth", "C's growth")
# What a call was to take at most of what C takes for it.
GOALS = {
    "newNonce": 1.35, "newAccount, known": 1.45, "newOrder": 2.0, "its orders": 1.8, "read an order": 1.65, "answer a challenge": 1.95,
    "challenge work": 2.4, "report": 2.2, "finalize": 1.4, "order work": 1.25, "certify": 1.25, "end an authorization": 2.0,
}


class Counts(typing.NamedTuple):
    """What a dump of callgrind counts: the instructions but for those of functions that copy or clear memory, all of them, and those of the
    engine with all that it calls."""

    own: int
    all: int
    engine: int


def counts_of(path):
    """The counts of a dump."""
    names, own, every, engine, caller, called, is_call = {}, 0, 0, 0, "", "", False
    with open(path, encoding="utf-8", errors="replace") as dump:
        for line in dump:
            if line.startswith(("fn=", "cfn=")):
                # A name is written where its number comes first, be it of the function whose costs follow or of one that is called.
                place, _, named = line.strip().partition("=")
                number, _, text = named.partition(" ")
                names.setdefault(number, text)
                caller, called = (names[number], called) if place == "fn" else (caller, names[number])
            elif line.startswith("calls="):
                is_call = True
            elif line[:1] in "0123456789+-*" and line.strip():
                cost = int(line.split()[1])
                if is_call:
                    engine += cost if ENGINE.match(called) and not ENGINE.match(caller) else 0
                else:
                    every += cost
                    own += 0 if MEMORY.search(caller) else cost
                is_call = False
    return Counts(own, every, engine)


class Figures(typing.NamedTuple):
    """What a call of a kind takes: instructions but for copying and clearing memory, the engine's per cent of all, and those that are not its."""

    own: float
    engine: float
    rest: float


class Counted:
    """A program under callgrind, which answers lines over a file of its own."""

    def __init__(self, words, folder, name):
        self.out, self.dumps = f"{folder}/{name}.callgrind", 0
        tool = ["valgrind", "--tool=callgrind", "-q", f"--callgrind-out-file={self.out}"]
        self.process = subprocess.Popen([*tool, *words], stdin=subprocess.PIPE, stdout=subprocess.PIPE, text=True, bufsize=1 << 20)

    def answer(self, line):
        self.process.stdin.write(line)
        self.process.stdin.flush()
        return self.process.stdout.readline()

    def counted(self):
        """The counts since this was asked last."""
        subprocess.run(["callgrind_control", "-d", str(self.process.pid)], stdout=subprocess.DEVNULL, stderr=subprocess.DEVNULL, check=True)
        self.dumps += 1
        return counts_of(f"{self.out}.{self.dumps}")

    def close(self):
        self.process.stdin.close()
        if self.process.wait() != 0:
            sys.exit(f"{self.process.args[-1]}: ended with status {self.process.returncode}")


def ask(programs, lines, orders, counts):
    """The calls of one turn, kind by kind; each is counted where there are counts to add to."""
    for name, line_of in KINDS:
        asked = [line_of(lines, order) for order in orders]
        check_replies(name, [[program.answer(line) for line in asked] for program in programs.values()])
        for who, program in programs.items():
            count = program.counted()
            if counts is not None:
                counts[who].setdefault(name, []).append(count)


def median(turns):
    """What a call takes, the medians of the turns with ten calls each."""
    return Figures(
        statistics.median(turn.own / CALLS for turn in turns),
        statistics.median(100 * turn.engine / turn.all for turn in turns),
        statistics.median((turn.all - turn.engine) / CALLS for turn in turns),
    )


def measure(size, with_c):
    """What a call of each kind takes of each program, over so many orders."""
    with tempfile.TemporaryDirectory(dir="/dev/shm" if os.path.isdir("/dev/shm") else None) as folder:
        return measured(folder, size, with_c)


def measured(folder, size, with_c):
    """The same over files in a folder."""
    path = make_file(f"{folder}/orders.db", size)
    words = {"desk": [f"{TOP}/bin/desk", "batch", "--file"]}
    in_c = compiled(folder) if with_c else None
    if in_c:
        words["c"] = [in_c]
    programs = {who: Counted([*said, shutil.copyfile(path, f"{path}.{who}")], folder, who) for who, said in words.items()}
    lines, counts = Lines(), {who: {} for who in programs}
    first = lines.nonce()
    check_replies("newNonce", [[program.answer(first)] for program in programs.values()])
    for program in programs.values():
        program.counted()
    for turn in range(TURNS):
        ask(programs, lines, orders_of(size, turn), counts if turn > 0 else None)
    for program in programs.values():
        program.close()
    return {who: {name: median(turns) for name, turns in found.items()} for who, found in counts.items()}


def growth(name, who, fewest, most):
    """What a call takes over the most orders, by what it takes over the fewest."""
    return most[who][name].own / fewest[who][name].own


def cells(name, counts, *ends):
    """The row of a call."""
    desk, in_c = counts["desk"][name], counts.get("c", {}).get(name)
    goal = f"{GOALS[name]:.2f}" if name in GOALS else ""
    by_c = (f"{in_c.own / 1000:.1f}", f"{desk.own / in_c.own:.2f}") if in_c else ("-", "-")
    grown = (f"{growth(name, who, *ends):.2f}" if who in counts else "-" for who in ("desk", "c"))
    return name, f"{desk.own / 1000:.1f}", *by_c, goal, f"{desk.engine:.0f}", *grown


def quoted(names):
    """The names of calls, or that there are none."""
    return ", ".join(f'"{name}"' for name in names) or "none"


def compared(desk, in_c):
    """What is said of the ratios and the goals."""
    ratios = {name: round(desk[name].own / count.own, 2) for name, count in in_c.items()}
    missed = quoted(name for name, goal in GOALS.items() if ratios[name] > goal)
    return f"A call takes {min(ratios.values()):.1f} to {max(ratios.values()):.1f} times C's. Goals missed: {missed}."


def section(counts, fewest, most):
    """The section of docs/PERFORMANCE.md."""
    in_c = counts.get("c", {})
    rest = max(most["desk"][name].rest / fewest["desk"][name].rest for name, _ in KINDS)
    share = statistics.median(figures.engine for figures in counts["desk"].values())
    grown = quoted(name for name, _ in KINDS if growth(name, "desk", fewest, most) > GROWTH)
    said = f"""Thousands of instructions, by callgrind, over {SIZE:,} orders, without copying and clearing memory and without the copying of the log into
        the file; a list of work has {CALLS} items. `make instructions` writes this section; `make test` fails where a call takes a twentieth more.
        {compared(counts["desk"], in_c) if in_c else ""} The engine's share is of all instructions, copying included; its median is {share:.0f} per cent.
        Growth is from {min(SIZES):,} to {max(SIZES):,} orders, where the trees of tables and indexes are deeper. It is the engine's: the rest grows at most
        {rest:.2f} times. Calls that grow more than {GROWTH} times: {grown}."""
    rows = [cells(name, counts, fewest, most) for name, _ in KINDS]
    return "\n".join([HEAD, "", *paragraph(said), *table(TITLES, rows)])


def written(path):
    """The thousands of instructions that a section has of the desk, by kinds of calls."""
    with open(path, encoding="utf-8") as page:
        part = page.read().partition(HEAD)[2].partition("\n## ")[0]
    rows = (line.strip("| ").split(" | ") for line in part.split("\n") if line.startswith("| "))
    return {cells[0]: float(cells[1]) for cells in rows if cells[0] != TITLES[0]}


def write_into(page, text):
    """Puts the section into the page, in the place of the one that is there, or behind all others."""
    with open(page, encoding="utf-8") as file:
        before, _, old = file.read().partition(HEAD)
    _, heading, behind = old.partition("\n## ")
    with open(page, "w", encoding="utf-8") as file:
        file.write(f"{before.rstrip()}\n\n{text}{heading}{behind}")


def compare(counts, path):
    """The lines that say which calls take a twentieth more than is written."""
    known = written(path)
    now = {name: count.own / 1000 for name, count in counts["desk"].items()}
    return [f"{name}: {now[name]:.1f} thousand instructions, {now[name] / known[name] - 1:.1%} more than the {known[name]:.1f} of {path}"
            for name in known if now[name] > ALLOWED * known[name]]


def check_calls(path):
    """Ends where the section of the page is missing, or has other calls than those that are counted."""
    known = written(path)
    if not known:
        sys.exit(f"instructions: {path} has no section {HEAD!r}; make instructions writes it")
    if set(known) != {name for name, _ in KINDS}:
        sys.exit(f"instructions: {path} has other calls than those that are counted; make instructions writes its section anew")


def main():
    parser = argparse.ArgumentParser(description=__doc__.split("\n", maxsplit=1)[0])
    page = parser.add_mutually_exclusive_group(required=True)
    page.add_argument("--into", metavar="FILE")
    page.add_argument("--against", metavar="FILE")
    words = parser.parse_args()
    if not shutil.which("callgrind_control"):
        sys.exit("instructions: valgrind is missing; scripts/setup.sh installs it")
    if words.against is None:
        write_into(words.into, section(*(measure(size, with_c=True) for size in (SIZE, min(SIZES), max(SIZES)))))
        return
    check_calls(words.against)
    more = compare(measure(SIZE, with_c=False), words.against)
    print("\n".join(more + [f"{len(KINDS)} kinds of calls, of which {len(more)} take a twentieth more instructions than {words.against} has"]))
    if more:
        print("Where that is meant, make instructions writes the figures of the program that is there.")
    sys.exit(1 if more else 0)


if __name__ == "__main__":
    main()
