"""Tries the program over files: python3 -m scripts.files.files PROGRAM

A desk in a file gives the replies of the batches in examples/, in one run and in two, cut at some lines; wrong words, files
and terms end as docs/SPECIFICATION.md says, section 14; files of format 1 become format 2 (upgrades.py); and where SQLite's own
shell is there, it reads the file.
"""
import json
import os
import socket
import sqlite3
import struct
import subprocess
import tempfile

from scripts.files.upgrades import cut_upgrades, later_calls, strange_upgrades, upgrades, without_room
from scripts.model.model import LIVES, Desk
from scripts.model.texts import canonical
from scripts.repository import ROOT
from scripts.trying import (BASE, KEY, NOT_A_DESK, TABLES, answered, begin, bytes_of, change, checked, copy, desk_with_calls, example, finish, fresh,
                            line_of, need, nonce_text, put, run, see, small_files, stored, tables_of, terms_of, workspace)


# The folders of batches below examples/, with the lives of nonces, orders and authorizations of the desks that answer them.
BATCHES = {"": LIVES, "short-lives": (3600, 100, 100)}
# The batches that have names and heads of which scripts/model/model.py knows nothing.
UNKNOWN = ("names", "limits")
# The orders of one account, with the bytes of the CSR of each, and how much memory more than an opening their list may take.
MANY_ORDERS, LONGEST_CSR, LIST_MEMORY = 4000, 8192, 10 << 20


def batches(program, folder):
    """Each batch of examples/ over a file, whole and in two runs; the model gives the same replies and tables."""
    for group, lives in BATCHES.items():
        room = f"{folder}/batches-{group}"
        os.mkdir(room)
        for file in sorted(os.listdir(f"{ROOT}/examples/{group}")):
            if file.endswith(".jsonl"):
                calls, wanted = example(f"{group}/{file[:-6]}")
                path = whole_and_cut(program, room, file[:-6], lives, calls, wanted)
                if file[:-6] not in UNKNOWN:
                    model = Desk(lives)
                    see(f"{file}: the model's replies", "".join(model.answer(json.loads(call)) + "\n" for call in calls).encode(), wanted)
                    see(f"{file}: the model's tables", tables_of(path, folder), stored(model.tables()))


def whole_and_cut(program, folder, name, lives, calls, wanted):
    """A batch over a file, whole and in two runs; the file of the whole one."""
    terms = terms_of(lives)
    whole = fresh(program, folder, name, *terms)
    see(f"{name} over a file", run(program, "batch", "--file", whole, given=b"".join(calls)), (0, wanted, b""))
    for cut in sorted({1, len(calls) // 3, len(calls) // 2, len(calls) - 1} - {0, len(calls)}):
        path = fresh(program, folder, f"{name}-{cut}", *terms)
        first = run(program, "batch", "--file", path, given=b"".join(calls[:cut]))
        second = run(program, "batch", "--file", path, given=b"".join(calls[cut:]))
        see(f"{name} cut at {cut}", (first[0], second[0], first[1] + second[1]), (0, 0, wanted))
    return whole


def synced(path, word):
    """The words of a batch and of serving over a file, with a word on how often a commit syncs."""
    return [["batch", "--file", path, "--sync", word], ["serve", path, "--port", "0", "--count", "0", "--sync", word]]


def ends(program, folder):
    """Wrong words, files and terms."""
    path = fresh(program, folder, "again")
    see("a file that holds bytes", run(program, "make", path, "--base", "https://ca.example"), NOT_A_DESK)
    see("a missing file", run(program, "batch", "--file", f"{folder}/none.db"), NOT_A_DESK)
    see("no file is made", os.path.exists(f"{folder}/none.db"), False)
    put(f"{folder}/empty.db")
    see("an empty file", run(program, "batch", "--file", f"{folder}/empty.db"), NOT_A_DESK)
    see("a bad base", run(program, "make", f"{folder}/bad.db", "--base", "ca"), (2, b"", b"desk: bad policy\n"))
    see("no file for a bad base", os.path.exists(f"{folder}/bad.db"), False)
    see("a life of 0", run(program, "make", f"{folder}/bad.db", "--base", "https://ca.example", "--order-life", "0")[::2], (2, b"desk: bad policy\n"))
    for words in ([], ["nothing"], ["make", path], ["make", path, "--base", "https://ca.example", "--nonce-life", "-1"], ["batch", "more"],
                  ["batch", "--sync", "once"], ["batch", "--sync", "twice"], *synced(path, "thrice"), *synced(path, ""), *synced(path, "Once"),
                  *(more + ["--sync", "once"] for more in synced(path, "once"))):
        status, out, errors = run(program, *words)
        see(f"words {words}", (status, out, errors != b""), (2, b"", True))
    see("help", (run(program, "--help")[0], run(program, "--help")[2]), (0, b""))


STRANGE = [
    ("a table is missing", ["PRAGMA foreign_keys = OFF", "DROP TABLE chall"], 23),
    ("an index is missing", ["DROP INDEX chall_authz"], 23),
    ("two rows of meta", ["INSERT INTO meta SELECT 2, format, base, nonce_life, order_life, authz_life, clock, nonces, accounts,"
                          " orders, authzs, challs FROM meta"], 23),
    ("a status that is none", ["UPDATE ord SET status = 'open'"], 23),
    ("a capital in a base name", ["UPDATE authz SET name = 'Example.org'"], 23),
    ("a number above its counter", ["UPDATE meta SET orders = 0"], 23),
    ("an order lists an authorization that is none", ["PRAGMA foreign_keys = OFF", "UPDATE ord_authz SET authz = 99"], 23),
    ("no key of an answered challenge", ["DELETE FROM chall_key"], 23),
    ("a key of a challenge that nobody answered", ["INSERT INTO chall_key VALUES (2, zeroblob(32))"], 23),
    ("a thumbprint of 31 bytes", ["UPDATE chall_key SET thumb = zeroblob(31)"], 23),
    ("another key's thumbprint", ["UPDATE chall_key SET thumb = zeroblob(32)"], None),
    ("format 1 with a table of keys", ["UPDATE meta SET format = 1"], 23),
    ("format 2 without its table of keys", ["DROP TABLE chall_key"], 23),
    ("a later format", ["UPDATE meta SET format = 3"], 27),
    ("a later format without a table of keys", ["DROP TABLE chall_key", "UPDATE meta SET format = 3"], 27),
    ("a later format with one table more", ["UPDATE meta SET format = 3", "CREATE TABLE later (num INTEGER PRIMARY KEY)"], 27),
    ("a status that is wrong", ["UPDATE ord SET status = 'ready'"], None),
]


def strange(program, folder):
    """Files that are no desk's, or a later one's, are refused and left as they are."""
    texts = {23: b"desk: fault 23 not a desk\n", 27: b"desk: fault 27 newer format\n", None: b""}
    calls = example("order")[0][:7]
    for at, (name, changes, fault) in enumerate(STRANGE):
        path = desk_with_calls(program, folder, f"strange-{at}", calls)
        change(path, *changes)
        before = bytes_of(path)
        see(name, run(program, "batch", "--file", path), (0 if fault is None else 1, b"", texts[fault]))
        see(f"{name}: nothing written", bytes_of(path) == before, True)


def alterations():
    """What takes a column of a table away, and what only takes its name."""
    for table, columns in TABLES.items():
        for column in columns.split():
            yield f"{table} with another name for {column}", f"ALTER TABLE {table} RENAME COLUMN {column} TO other"
            yield f"{table} without {column}", f"ALTER TABLE {table} DROP COLUMN {column}"


def missing_columns(program, folder):
    """A file that lacks a column is refused, and its bytes stay; SQLite doesn't drop keys and what an index has."""
    path, whole, dropped = f"{folder}/column.db", desk_with_calls(program, folder, "columns", example("order")[0][:7]), 0
    for said, statement in alterations():
        copy(whole, path)
        try:
            change(path, statement)
        except sqlite3.OperationalError:
            continue
        dropped += "DROP" in statement
        before = bytes_of(path)
        see(said, run(program, "batch", "--file", path), NOT_A_DESK)
        see(f"{said}: its bytes", bytes_of(path) == before, True)
    see("columns that were dropped", dropped > 20, True)


def reversed_tables(path, to):
    """A file with the rows of another, whose tables were made in the opposite order, each before the ones that it names."""
    with sqlite3.connect(path) as found, sqlite3.connect(to) as made:
        made.execute("PRAGMA journal_mode = WAL")
        made.execute("PRAGMA foreign_keys = OFF")
        texts = [text for kind in ("table", "index") for (text,) in found.execute(
            "SELECT sql FROM sqlite_schema WHERE type = ? AND sql IS NOT NULL ORDER BY rootpage DESC", (kind,))]
        for text in texts:
            made.execute(text)
        for table in TABLES:
            for row in found.execute(f"SELECT * FROM {table}"):
                made.execute(f"INSERT INTO {table} VALUES ({','.join('?' * len(row))})", row)
    found.close()
    made.close()
    return to


def other_schemas(program, folder):
    """Desks whose tables were made in another order, or beside a table, an index and a view of somebody else, are opened and answer on."""
    calls, wanted = example("order")
    whole = fresh(program, folder, "schema")
    first = run(program, "batch", "--file", whole, given=b"".join(calls[:7]))
    foreign = f"{folder}/foreign.db"
    copy(whole, foreign)
    change(foreign, "CREATE TABLE other (a, b)", "INSERT INTO other VALUES (1, 2)", "CREATE INDEX by_b ON other (b)",
           "CREATE VIEW names AS SELECT name FROM authz")
    for said, path in (("tables in the opposite order", reversed_tables(whole, f"{folder}/reversed.db")), ("a table of somebody else", foreign)):
        rows = tables_of(path, folder)
        see(f"{said}: opened", checked(program, path), (0, b"no fault\n", b""))
        see(f"{said}: its rows", tables_of(path, folder), rows)
        then = run(program, "batch", "--file", path, given=b"".join(calls[7:]))
        see(f"{said}: the calls", (first[1] + then[1], then[::2]), (wanted, (0, b"")))


def as_often(program, folder):
    """The replies to a batch, and the tables then, are the same however often a commit syncs."""
    calls, wanted = example("order")
    found = []
    for word in ("once", "twice"):
        path = fresh(program, folder, f"synced-{word}")
        for part in (calls[:3], calls[3:]):
            found.append(run(program, *synced(path, word)[0], given=b"".join(part)))
        see(f"served, synced {word}", run(program, *synced(path, word)[1])[::2], (0, b""))
        found.append(tables_of(path, folder))
    see("synced once and twice", found[:3], found[3:])
    see("synced once", (found[0][1] + found[1][1], found[1][::2]), (wanted, (0, b"")))


def first_rows(program, folder):
    """The rows of each table after a first nonce and a first account: those that the specification lists, and no others."""
    path = fresh(program, folder, "first-rows")
    see("the first account", run(program, "batch", "--file", path, given=b"".join(example("first")[0][:2]))[::2], (0, b""))
    meta = (1, 2, BASE.encode(), *LIVES, 0, 2, 1, 0, 0, 0)
    account = (1, canonical(KEY).encode(), b'["mailto:a@b.example"]', 0, None, None, b"valid")
    rows = {"meta": [meta], "nonce": [(2, bytes(16), 0)], "account": [account]}
    see("the rows of the first account", tables_of(path, folder), {name: rows.get(name, []) for name in TABLES})


def used_up(program, folder):
    """A desk whose nonces are used up opens, and gives no more of them."""
    path = fresh(program, folder, "used-up")
    change(path, f"UPDATE meta SET nonces = {1 << 62}")
    rows = tables_of(path, folder)
    call = example("first")[0][0]
    see("a nonce past the last", run(program, "batch", "--file", path, given=call), (1, b"", b"desk: fault 26 full\n"))
    see("a nonce past the last: nothing changed", tables_of(path, folder), rows)


def taken(program, path, calls=b""):
    """The output of a batch over a file, and the most bytes of memory that the program had."""
    with tempfile.TemporaryFile() as given:
        given.write(calls)
        given.seek(0)
        with subprocess.Popen([program, "batch", "--file", path], stdin=given, stdout=subprocess.PIPE) as batch:
            out = batch.stdout.read()
            _, batch.returncode, used = os.wait4(batch.pid, 0)
    return out, 1024 * used.ru_maxrss


def long_list(program, folder):
    """The list of an account with many orders, each with the longest CSR, takes little memory beside an opening."""
    path = desk_with_calls(program, folder, "long-list", example("renewal")[0][:3])
    others = f"WITH RECURSIVE other (num) AS (SELECT 2 UNION ALL SELECT num + 1 FROM other WHERE num < {MANY_ORDERS}) INSERT INTO"
    change(path, f"UPDATE ord SET finalized = 0, csr = zeroblob({LONGEST_CSR}), certified = 0, cert = x'41', status = 'valid'",
           f"{others} ord SELECT other.num, account, made, expires, finalized, csr, certified, cert, failed, problem, status FROM other, ord",
           f"{others} ord_authz SELECT other.num, place, authz FROM other, ord_authz WHERE ord = 1", f"UPDATE meta SET orders = {MANY_ORDERS}")
    see("a desk of many orders", checked(program, path), (0, b"no fault\n", b""))
    opened = taken(program, path)[1]
    asked = json.dumps({"jwk": KEY, "nonce": nonce_text(3), "payload": ""})
    out, memory = taken(program, path, line_of("POST", "/account/1/orders", asked, random="00" * 16))
    urls = [f"{BASE}/order/{order}" for order in range(1, MANY_ORDERS + 1)]
    see("the list of many orders", out, f"200 - {nonce_text(4)} {json.dumps({'orders': urls}, separators=(',', ':'))}\n".encode())
    see("the memory of the list of many orders", memory - opened if memory > opened + LIST_MEMORY else 0, 0)


def cut_short(program, folder):
    """A file that was cut ends a command by a fault, or holds a desk; nothing is written."""
    ends = {(1, b"", b"desk: fault %s\n" % text) for text in (b"20 memory", b"21 device", b"23 not a desk")} | {(0, b"", b"")}
    data = bytes_of(desk_with_calls(program, folder, "whole", example("order")[0]))
    for length in range(0, len(data), 512):
        path = f"{folder}/cut-{length}.db"
        put(path, data[:length])
        ended = run(program, "batch", "--file", path)
        see(f"cut after {length} bytes", ended if ended not in ends else None, None)
        see(f"cut after {length} bytes: nothing written", bytes_of(path) == data[:length], True)


def together(program, folder):
    """A second program on the file of a first one, which goes on."""
    path = fresh(program, folder, "together")
    calls, replies = example("first")
    wanted = replies.splitlines(keepends=True)
    with subprocess.Popen([program, "batch", "--file", path], stdin=subprocess.PIPE, stdout=subprocess.PIPE) as first:
        see("the first program", answered(first, calls[0]), wanted[0])
        see("a second program", run(program, "batch", "--file", path, given=calls[1]), (1, b"", b"desk: fault 21 device\n"))
        see("the first program, then", answered(first, calls[1]), wanted[1])


def shell(program, folder):
    """What SQLite's own shell makes of a file."""
    need("sqlite3")
    path = desk_with_calls(program, folder, "shell", example("order")[0])

    def ask(text):
        return subprocess.run(["sqlite3", path, text], stdout=subprocess.PIPE, stderr=subprocess.STDOUT, text=True).stdout.split()

    see("integrity_check", ask("PRAGMA integrity_check"), ["ok"])
    see("foreign_key_check", ask("PRAGMA foreign_key_check"), [])
    see("tables", sorted(ask("SELECT name FROM sqlite_schema WHERE type = 'table'")), sorted(TABLES))
    for table, columns in TABLES.items():
        see(f"columns of {table}", ask(f"SELECT name FROM pragma_table_info('{table}')"), columns.split())
    see("indexes", len(ask("SELECT name FROM sqlite_schema WHERE type = 'index' AND name NOT LIKE 'sqlite_%'")), 8)


def full_output(program, folder):
    """An output that takes so many bytes and no more ends a batch."""
    calls, wanted = example("first")
    for room in (0, 5, wanted.index(b"\n"), wanted.index(b"\n") + 1, len(wanted) - 1):
        with open(f"{folder}/full", "w+b") as out:
            ran = subprocess.run([program, "batch"], input=b"".join(calls), stdout=out, stderr=subprocess.PIPE, preexec_fn=lambda: small_files(room))
            see(f"an output of {room} bytes", (ran.returncode, ran.stderr), (1, b"desk: output\n"))
            out.seek(0)
            see(f"what an output of {room} bytes has", out.read(), wanted[:room])


def broken_input(program, _):
    """An input that fails after a line, or in a line, ends a batch; the lines before it are answered."""
    calls, replies = example("first")
    wanted = replies.splitlines(keepends=True)
    for part in (b"", calls[1][:9]):
        with socket.create_server(("127.0.0.1", 0)) as server:
            given = socket.create_connection(server.getsockname())
            taken, _ = server.accept()
        with taken, subprocess.Popen([program, "batch"], stdin=taken, stdout=subprocess.PIPE, stderr=subprocess.PIPE) as ran:
            given.sendall(calls[0] + part)
            see("the line before the input fails", ran.stdout.readline(), wanted[0])
            given.setsockopt(socket.SOL_SOCKET, socket.SO_LINGER, struct.pack("ii", 1, 0))
            given.close()
            see("an input that fails", (ran.stdout.read(), ran.stderr.read(), ran.wait()), (b"", b"desk: input\n", 1))


def main(program):
    with workspace("files") as folder:
        for tries in (batches, as_often, first_rows, ends, strange, missing_columns, other_schemas, used_up, long_list, cut_short, upgrades,
                      strange_upgrades, cut_upgrades, without_room, later_calls, full_output, broken_input, together, shell):
            tries(program, folder)
    return finish("Files")


if __name__ == "__main__":
    begin(main, __doc__)
