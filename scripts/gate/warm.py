"""Gives this clone the libraries that the gate has proved on this machine from the same files, so that a check need not prove them again.

  python3 -m scripts.gate.warm         each crate whose files, and those of all crates below it, are as the gate proved them; says how many
  python3 -m scripts.gate.warm NAME    those below NAME alone, and then names the crates that a check of it proves first, and why

The gate (`rt ci`) keeps what it proved by the sums of all that it read, and puts no stamp beside a library; a check (`rt check`) takes a library by its stamp
alone. This asks the kit's own rt for the first, and writes the second. No verdict rests on it: the gate looks at neither. Where the kit's gate keeps nothing,
as that of 13b, a check proves what stands below it, once for each clone.
"""
import importlib.machinery
import importlib.util
import os
import shutil
import sys

from scripts.repository import ROOT, write


def kit():
    """The kit's rt as a module: its notion of a crate, of a stamp, and of what the gate kept."""
    path = os.path.realpath(shutil.which("rt") or sys.exit("desk: rt is not on PATH"))
    loader = importlib.machinery.SourceFileLoader("rt", path)
    module = importlib.util.module_from_spec(importlib.util.spec_from_loader("rt", loader))
    loader.exec_module(module)
    return module


def warm(rt, name=None):
    """Gives each library that can be given, below a crate where one is named; returns these libraries, lowest first."""
    keeps = hasattr(rt, "Kept")
    rt.Crate.allowed = rt.handles_of(ROOT)
    every = rt.crates_of(ROOT) if keeps else rt.rtlib.crates_below(ROOT)
    crates = next((it.below() for it in every if it.name == name), [it for it in every if it.makes_rlib()])
    if keeps:
        give(rt, crates)
    return crates


def give(rt, crates):
    """Gives each of these libraries that the gate kept, lowest first."""
    held, kept = rt.rtlib.lock(crates), rt.Kept(crates)
    for crate in crates:
        if not all(it.is_built() for it in crate.below()):
            continue
        if not crate.is_built():
            # What stands there may be linked to a kept library of another text, which would be written into.
            rt.clear(f"{crate.folder}/out/rlib")
            if not kept.give(crate, False, kept.key(crate)):
                continue
        kept.is_built(crate)
        write(f"{crate.folder}/out/rlib/stamp", crate.stamp())
    for it in held:
        os.close(it)


def proved_first(crates):
    """The lines on the crates that a check proves first: those that were never proved as they are, and those that stand on one of them."""
    cold = [it.name for it in crates if not it.is_built()]
    lines = []
    for it in (it for it in crates if it.name in cold):
        on = [dep.name for dep in it.deps if dep.name in cold]
        lines.append(f"  {it.name}: {'stands on ' + ' and '.join(on) if on else 'the gate has not proved its files as they are'}")
    return lines


def main(name=None):
    os.chdir(ROOT)
    crates = warm(kit(), name)
    print(f"{sum(it.is_built() for it in crates)} of {len(crates)} libraries are there as they were proved.")
    lines = proved_first(crates) if name else []
    print("\n".join([f"Before {name} these are proved:", *lines] if lines else []), end="\n" if lines else "", flush=True)


if __name__ == "__main__":
    main(*sys.argv[1:])
