"""The crates of crates.txt, and the table of them in docs/ARCHITECTURE.md.

  python3 -m scripts.gate.crates draw   prints each crate and what it stands on, without what follows from the rest; the longest chain is marked
  python3 -m scripts.gate.crates check  sees that each crate stands below its family's line of crates.txt with the family's word or as one of the heads, and
                                        that ARCHITECTURE's table has a row for each crate, in this order
"""
import os
import re
import sys

from scripts.repository import ROOT, read

# What a user of the library calls; each other crate begins with its family's word.
HEADS = {"desk_model", "identifiers", "keys", "moments", "json_texts", "desk_book", "desk_core", "desk_store", "desk", "desk_files", "desk_http", "desk_app"}


def families():
    """The families of crates.txt, bottom up, each with its crates; and what each crate stands on, the kit's crates left out."""
    found, below = [], {}
    for line in read("crates.txt").split("\n"):
        family = re.match(r"# (\w+): ", line)
        if family:
            found.append((family[1], []))
        elif ":" in line and not line.startswith("#"):
            name, _, words = line.partition(":")
            found[-1][1].append(name)
            below[name] = words.split()
    return found, {name: [it for it in words if it in below] for name, words in below.items()}


def picture():
    """What stands on what, top down; the longest chain is marked."""
    every, deps = families()
    below, depth = {}, {}
    while len(below) < len(deps):
        ready = [it for it in deps if it not in below and all(one in below for one in deps[it])]
        if not ready:
            sys.exit(f"crates.txt: a cycle among {', '.join(it for it in deps if it not in below)}")
        for crate in ready:
            below[crate] = set(deps[crate]).union(*(below[it] for it in deps[crate]))
            depth[crate] = 1 + max((depth[it] for it in deps[crate]), default=0)
    chain = [max(depth, key=depth.get)]
    while deps[chain[-1]]:
        chain.append(max(deps[chain[-1]], key=depth.get))
    rows, width = [], max(map(len, deps))
    for family, crates in reversed(every):
        for at, crate in enumerate(reversed(crates)):
            direct = sorted(it for it in deps[crate] if not any(it in below[other] for other in deps[crate]))
            rows.append(f"{'' if at else family:10}{'=' if crate in chain else ' '} {crate:{width}}  {' '.join(direct)}".rstrip())
    return "\n".join(rows)


def faults():
    """What is not as it should be, a line each."""
    every, deps = families()
    for family, crates in every:
        for crate in crates:
            if not os.path.isdir(f"{ROOT}/crates/{crate}"):
                yield f"crates.txt: there is no crates/{crate}"
            if crate not in HEADS and not crate.startswith(f"{family}_"):
                yield f"crates.txt: {crate} does not begin with the word of its family, {family}"
    table = read("docs/ARCHITECTURE.md").partition("\n| crate |")[2].partition("\n\n")[0]
    rows = re.findall(r"(?m)^\| `(\w+)` \|", table)
    if rows != list(deps):
        yield "docs/ARCHITECTURE.md: the rows of the table of crates are not the crates of crates.txt in their order"


def main(words):
    if words == ["draw"]:
        print(picture())
        return 0
    if words == ["check"]:
        found = list(faults())
        print("\n".join(found) or f"{len(families()[1])} crates, as docs/ARCHITECTURE.md lists them")
        return 1 if found else 0
    print(__doc__, file=sys.stderr)
    return 2


if __name__ == "__main__":
    sys.exit(main(sys.argv[1:]))
