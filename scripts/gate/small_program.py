"""A small program over the crates as they are, for `rt try`, which compiles it without proof."""
import os
import shutil

from scripts.repository import ROOT, read, write


def write_crates(room, name, below, main):
    """Copies the crates into a folder and writes a program among them, over some of them; gives the program's folder."""
    shutil.copytree(f"{ROOT}/crates", f"{room}/crates", ignore=shutil.ignore_patterns("out", "must-fail"))
    write(f"{room}/crates.txt", f"{read('crates.txt')}{name}: {below}\n")
    os.makedirs(f"{room}/crates/{name}/src")
    write(f"{room}/crates/{name}/src/main.rt", main)
    return f"{room}/crates/{name}"
