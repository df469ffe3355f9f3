"""What the scripts that try the program share: what is not as it should be, runs of the program, and what a desk's file holds."""
import argparse
import base64
import json
import os
import re
import resource
import shutil
import signal
import socket
import sqlite3
import subprocess
import sys
import tempfile
from concurrent.futures import ThreadPoolExecutor

from scripts.repository import ROOT

BASE = "https://ca.example"
# What a check says of a desk whose clock is ahead of the machine's.
AHEAD = re.compile(rb"\Adesk: the desk's clock is \d+ seconds ahead of the machine's\n\Z")
KEY = {"crv": "P-256", "kty": "EC", "x": "AQ", "y": "Ag"}
TABLES = {
    "meta": "id format base nonce_life order_life authz_life clock nonces accounts orders authzs challs",
    "nonce": "serial random issued",
    "account": "num jwk contacts opened ended end_kind status",
    "ord": "num account made expires finalized csr certified cert failed problem status",
    "authz": "num account name wildcard made expires ended end_kind status",
    "ord_authz": "ord place authz",
    "chall": "num authz kind token answered reported outcome status",
    "chall_key": "chall thumb",
}
# The package of Debian that has a program.
PACKAGES = {"gcc": "gcc", "sqlite3": "sqlite3"}
# How the program ends without a desk; the fault of a file that can't be used.
NOT_A_DESK = (1, b"", b"desk: fault 23 not a desk\n")
DEVICE = b"desk: fault 21 device\n"
faults = []


def see(what, found, wanted):
    """Notes what is not as it should be."""
    if found != wanted:
        faults.append(f"{what}: {found!r}, not {wanted!r}")


def finish(name):
    """Prints the faults, and gives the exit status."""
    print("\n".join(faults + [f"{name}: {len(faults)} not as they should be."]))
    return 1 if faults else 0


def need(program):
    """Ends the script where a program is missing, and says which package has it."""
    if not shutil.which(program):
        sys.exit(f"{program} is missing: scripts/setup.sh installs it, by Debian's package {PACKAGES[program]}.")


def workspace(name):
    """A folder for desks, in the machine's memory where that has room: the scripts end the program, and never the machine."""
    has_room = os.access("/dev/shm", os.W_OK) and shutil.disk_usage("/dev/shm").free > 2**28
    return tempfile.TemporaryDirectory(prefix=f"desk-{name}-", dir="/dev/shm" if has_room else None)


def library(folder):
    """The library that is loaded before the program, compiled from scripts/faults.c into a folder."""
    need("gcc")
    built = f"{folder}/faults.so"
    subprocess.run(["gcc", "-O2", "-shared", "-fPIC", "-o", built, f"{ROOT}/scripts/faults.c", "-ldl"], check=True)
    return built


def free_port():
    """A port of 127.0.0.1 that nobody has at this moment."""
    with socket.create_server(("127.0.0.1", 0)) as taken:
        return taken.getsockname()[1]


def begin(main, doc, **options):
    """Ends the script by what `main` makes of the program that its word names, and of options, which have these defaults."""
    words = argparse.ArgumentParser(description=doc, formatter_class=argparse.RawDescriptionHelpFormatter)
    words.add_argument("program")
    for name, default in options.items():
        words.add_argument(f"--{name}", type=type(default), default=default)
    given = vars(words.parse_args())
    sys.exit(main(os.path.abspath(given.pop("program")), **given))


def run(program, *words, given=b"", **options):
    """The exit status, the output and the errors of the program."""
    ran = subprocess.run([program, *words], **{"input": given, "stdout": subprocess.PIPE, "stderr": subprocess.PIPE, **options})
    return ran.returncode, ran.stdout, ran.stderr


def see_wrong(program, begun, *many):
    """Words that begin so are wrong, by each of many ends: the program ends with 2, and has no output."""
    for words in many:
        see(f"{(*begun, *words)}", run(program, *begun, *words)[:2], (2, b""))


def side_by_side(tries, folder):
    """Makes tries in folders of their own, as many at a time as there are processors."""
    def make(tried):
        with tempfile.TemporaryDirectory(dir=folder) as room:
            tried(room)
    with ThreadPoolExecutor(os.cpu_count()) as pool:
        list(pool.map(make, tries))


def example(name):
    """The lines of a batch of examples/, and its replies."""
    with open(f"{ROOT}/examples/{name}.jsonl", "rb") as calls, open(f"{ROOT}/examples/{name}.expected", "rb") as replies:
        return calls.read().splitlines(keepends=True), replies.read()


def fresh(program, folder, name, *terms):
    """A file with a new desk."""
    path = f"{folder}/{name}.db"
    see(f"make {name}", run(program, "make", path, "--base", BASE, *terms), (0, b"made\n", b""))
    return path


def desk_with_calls(program, folder, name, calls):
    """A file with a desk that has answered these lines."""
    path = fresh(program, folder, name)
    see(f"{name}: its calls", run(program, "batch", "--file", path, given=b"".join(calls))[0], 0)
    return path


def run_on_full(*words):
    """The end of a program whose standard output is a disk that is full."""
    with open("/dev/full", "wb") as full:
        return run(*words, stdout=full)


def small_files(size):
    """Lets the program write files of so many bytes at most: what goes past it fails, as on a disk that is full."""
    signal.signal(signal.SIGXFSZ, signal.SIG_IGN)
    resource.setrlimit(resource.RLIMIT_FSIZE, (size, size))


def terms_of(lives):
    """The words of `make` that give the lives of nonces, orders and authorizations."""
    return [word for kind, life in zip(("nonce", "order", "authz"), lives) for word in (f"--{kind}-life", str(life))]


def checked(program, path):
    """The end, the output and the errors of a check of the stored statuses, which opens the file again; that a desk whose calls were at
    later moments than the machine's has its clock ahead is no error of it."""
    ended, said, errors = run(program, "check", path)
    return ended, said, AHEAD.sub(b"", errors)


def nonce_text(serial):
    """The text of the nonce of a serial, with zero random bytes."""
    return base64.urlsafe_b64encode(serial.to_bytes(8, "big") + bytes(16)).decode()


def key_of(number):
    """A key of its own for each number."""
    return {**KEY, "x": base64.urlsafe_b64encode(number.to_bytes(6, "big")).decode()}


def order_of(*names):
    """The payload of an order of names."""
    return {"identifiers": [{"type": "dns", "value": name} for name in names]}


def line_of(method, path, body="", at=0, random=""):
    """The line of a call of a batch."""
    return (json.dumps({"at": at, "body": body, "method": method, "path": path, "random": random}) + "\n").encode()


def answered(batch, line):
    """The reply of a batch that runs to one more line."""
    batch.stdin.write(line)
    batch.stdin.flush()
    return batch.stdout.readline()


def copy(path, to):
    """Copies a file and its log over another."""
    remove(to)
    for end in ("", "-wal"):
        if os.path.exists(path + end):
            shutil.copy(path + end, to + end)


def bytes_of(path):
    with open(path, "rb") as file:
        return file.read()


def put(path, data=b""):
    """Makes a file of these bytes."""
    with open(path, "wb") as file:
        file.write(data)


def remove(path):
    """Removes a file and its log, where they are there."""
    for end in ("", "-wal"):
        if os.path.exists(path + end):
            os.remove(path + end)


def change(path, *statements):
    """Changes a file by another program."""
    found = sqlite3.connect(path)
    for statement in statements:
        found.execute(statement)
    found.commit()
    found.close()


def tables_of(path, folder):
    """The rows of each table of the file and its log, read in a copy by SQLite."""
    with tempfile.TemporaryDirectory(dir=folder) as room:
        copy(path, f"{room}/copy.db")
        with sqlite3.connect(f"{room}/copy.db") as found:
            found.text_factory = bytes
            try:
                if found.execute("PRAGMA integrity_check").fetchone() != (b"ok",):
                    return "no sound database"
            except sqlite3.DatabaseError as error:
                return str(error)
            known = {name.decode() for (name,) in found.execute("SELECT name FROM sqlite_schema WHERE type = 'table'")}
            return {name: sorted(found.execute(f"SELECT * FROM {name}"), key=repr) for name in TABLES if name in known}


def stored(tables):
    """A model's tables as they are read from a file."""
    return {name: sorted((tuple(text.encode() if isinstance(text, str) else text for text in row) for row in rows), key=repr)
            for name, rows in tables.items()}
