#!/usr/bin/env python3
"""Times opening and three calls over a file of a million pending orders, and writes a paragraph of docs/PERFORMANCE.md.

The file is bench.py's. The calls are asked of the program and of bench/desk.c, each over a copy, in turns.

    python3 bench/million.py [--size 1000000] [--turns 10]
"""

import argparse
import os
import tempfile

from bench import KINDS, TOP, Lines, Program, check_replies, compiled, copy_of, go_first, make_file, orders_of, paragraph

SIZE, TURNS = 1000000, 10
ASKED = ("newNonce", "newOrder", "read an order")


def measure(path, size, turns, in_c):
    """The time of opening, the most bytes of memory by then, and the time of each kind of call: of the program, and of C."""
    words = {"desk": [f"{TOP}/bin/desk", "batch", "--file"], **({"c": [in_c]} if in_c else {})}
    programs = {who: Program([*said, copy_of(path, f"{path}.{who}")]) for who, said in words.items()}
    memory, lines = programs["desk"].memory(), Lines()
    check_replies("newNonce", [program.answers("newNonce", [first]) for first in [lines.nonce()] for program in programs.values()])
    for turn in range(turns):
        for name, line_of in KINDS:
            if name in ASKED:
                asked = [line_of(lines, order) for order in orders_of(size, turn)]
                check_replies(name, [program.answers(name, asked) for program in programs.values()])
    for program in programs.values():
        program.close()
    return programs["desk"].opening, memory, {who: program.seconds() for who, program in programs.items()}


def page(size, held, opening, memory, seconds):
    """The lines of the paragraph."""
    by_c = {name: f" ({seconds['c'][name] / seconds['desk'][name]:.2f})" if "c" in seconds else "" for name in ASKED}
    rates = ", ".join(f"{name} {1 / seconds['desk'][name]:,.0f}{by_c[name]}" for name in ASKED)
    said = "Calls a second (of C's rate)" if "c" in seconds else "Calls a second"
    return paragraph(f"""{size:,} pending orders (a file of {held / 1e6:,.0f} MB) open in {opening:,.1f} s with {memory / 2**20:,.0f} MiB of memory, in one
        run. {said}: {rates}.""")


def main():
    words = argparse.ArgumentParser(description=__doc__.split("\n", maxsplit=1)[0])
    words.add_argument("--size", type=int, default=SIZE)
    words.add_argument("--turns", type=int, default=TURNS)
    given = words.parse_args()
    go_first()
    with tempfile.TemporaryDirectory(prefix="desk-million-") as folder:
        path = make_file(f"{folder}/desk.db", given.size)
        found = measure(path, given.size, given.turns, compiled(folder))
        print("\n".join(page(given.size, os.path.getsize(path), *found)))


if __name__ == "__main__":
    main()
