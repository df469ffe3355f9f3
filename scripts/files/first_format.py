"""Desks in files of format 1, which examples/format-1 keeps, and what the opening of one makes of it.

Those of bytes are what a program that knew no other format wrote: `made` by make alone, `first-order` by calls until a challenge
was answered, `killed` likewise and killed then, `several` with challenges, orders and accounts of each kind.
"""
import base64
import gzip
import hashlib
import os
import sqlite3

from scripts.repository import ROOT, read
from scripts.trying import put, remove

FOLDER = f"{ROOT}/examples/format-1"
# Those whose opening is stopped at each write: one has its log beside it, one has rows of each kind.
RICH = ("killed", "several")


def first_files():
    """The names of the files."""
    return sorted({file.split(".")[0] for file in os.listdir(FOLDER)})


def restore(name, path):
    """Writes a file of format 1 over another, with its log: by their bytes, or by the statements that make it."""
    remove(path)
    if os.path.exists(f"{FOLDER}/{name}.sql"):
        found = sqlite3.connect(path)
        found.executescript(read(f"{FOLDER}/{name}.sql"))
        found.close()
    for end in ("", "-wal"):
        if os.path.exists(f"{FOLDER}/{name}.db{end}.gz.base64"):
            put(path + end, gzip.decompress(base64.b64decode(read(f"{FOLDER}/{name}.db{end}.gz.base64"))))
    return path


def is_first(tables):
    """Whether these are the tables of format 1."""
    return "chall_key" not in tables


def upgraded(tables):
    """What opening makes of the tables of format 1: for each answered challenge the thumbprint of its account's key."""
    keys = {row[0]: hashlib.sha256(row[1]).digest() for row in tables["account"]}
    owners = {row[0]: row[1] for row in tables["authz"]}
    answers = [(row[0], keys[owners[row[1]]]) for row in tables["chall"] if row[4] is not None]
    (number, _, *rest), = tables["meta"]
    return {**tables, "meta": [(number, 2, *rest)], "chall_key": sorted(answers, key=repr)}
