"""The repository as the scripts see it: its root, the files that git knows, and what its pages say and show."""
import os
import re
import subprocess

ROOT = os.path.dirname(os.path.dirname(os.path.abspath(__file__)))


def read(path):
    """The text of a file, by its path from the root, or by a whole one."""
    with open(os.path.join(ROOT, path), encoding="utf-8", errors="replace") as file:
        return file.read()


def write(path, text):
    with open(os.path.join(ROOT, path), "w", encoding="utf-8") as file:
        file.write(text)


def tracked(*paths):
    """The files that git knows, below these paths where some are given."""
    found = subprocess.run(["git", "-C", ROOT, "ls-files", *paths], stdout=subprocess.PIPE, text=True, check=True).stdout
    return [path for path in found.split("\n") if path and os.path.exists(f"{ROOT}/{path}")]


def crates():
    """The names of the crates, bottom up."""
    return re.findall(r"(?m)^(\w+):", read("crates.txt"))


def sections(page):
    """The text of each section of a page of docs/, by its heading."""
    parts = re.split(r"(?m)^## (.*)$", read(f"docs/{page}.md"))
    return dict(zip(parts[1::2], parts[2::2]))


def blocks(text):
    """The lines of each block of a page: of what stands between two lines of three backticks."""
    return [block.split("\n")[1:] for block in text.split("\n```")[1::2]]
