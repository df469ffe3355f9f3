#!/usr/bin/env python3
"""Times the opening of a file of format 1, which becomes one of format 2, and writes a paragraph of docs/PERFORMANCE.md.

The file is one of bench.py's in either format, with an answered challenge for every second order. Opening is told by a
batch without lines.

    python3 bench/upgrade.py [--size 100000] [--turns 3]
"""

import argparse
import hashlib
import shutil
import sqlite3
import statistics
import tempfile

from bench import NOW, TOP, go_first, make_file, paragraph
from finished import run

SIZE, TURNS = 100000, 3


def answer_challenges(path, form):
    """Has the first challenge of every second order answered, by the key of its account."""
    database = sqlite3.connect(path)
    database.execute("UPDATE chall SET answered = ?, status = 'processing' WHERE num % 4 = 1", (NOW,))
    if form > 1:
        database.create_function("thumbprint", 1, lambda jwk: hashlib.sha256(jwk.encode()).digest(), deterministic=True)
        database.execute(
            "INSERT INTO chall_key SELECT chall.num, thumbprint(account.jwk) FROM chall JOIN authz ON authz.num = chall.authz "
            "JOIN account ON account.num = authz.account WHERE chall.answered IS NOT NULL ORDER BY chall.num"
        )
    database.commit()
    database.close()


def measure(program, size, turns, folder):
    """The median of the seconds of opening the file in each format; each time it is a new copy."""
    found = {}
    for form in (1, 2):
        path = make_file(f"{folder}/{form}.db", size, form)
        answer_challenges(path, form)
        seconds = []
        for _ in range(turns):
            shutil.copyfile(path, f"{folder}/copy.db")
            seconds.append(run([program, "batch", "--file", f"{folder}/copy.db"])[0])
        found[form] = statistics.median(seconds)
    return found


def page(found, size, turns):
    """The lines of the paragraph."""
    return paragraph(f"""{size:,} pending orders, every second one with an answered challenge, open in {found[1]:,.1f} s in format 1, with the upgrade, and
        in {found[2]:,.1f} s in format 2, which has one table more to audit (medians of {turns} runs).""")


def main():
    words = argparse.ArgumentParser(description="Times the opening of a file of format 1.")
    words.add_argument("--size", type=int, default=SIZE)
    words.add_argument("--turns", type=int, default=TURNS)
    given = words.parse_args()
    go_first()
    with tempfile.TemporaryDirectory(prefix="desk-upgrade-") as folder:
        found = measure(f"{TOP}/bin/desk", given.size, given.turns, folder)
    print("\n".join(page(found, given.size, given.turns)))


if __name__ == "__main__":
    main()
