"""Files of format 1 are opened, which makes them format 2: a part of scripts/files/files.py."""
import hashlib
import json
import sqlite3

from scripts.files.first_format import first_files, restore, upgraded
from scripts.model.texts import canonical, spelled, thumbprint
from scripts.trying import BASE, KEY, NOT_A_DESK, TABLES, bytes_of, change, checked, fresh, line_of, nonce_text, put, run, see, small_files, tables_of

OPENINGS = ("batch --file FILE", "status FILE", "check FILE", "serve FILE --port 0 --count 0")
INDEXES = ("nonce_issued", "ord_account", "ord_status_expires", "authz_account_name", "authz_status_expires", "ord_authz_authz",
           "chall_authz", "chall_status")
NO_DESK, NEWER = NOT_A_DESK[2], b"desk: fault 27 newer format\n"
# What makes another file of one in format 1, and the fault of opening it; without one it is a desk.
STRANGE = [
    *((f"no table {name}", ["PRAGMA foreign_keys = OFF", f"DROP TABLE {name}"], NO_DESK) for name in list(TABLES)[:7]),
    *((f"no index {name}", [f"DROP INDEX {name}"], NO_DESK) for name in INDEXES),
    *((f"no column {columns.split()[-1]} of {name}", [f"ALTER TABLE {name} RENAME COLUMN {columns.split()[-1]} TO other"], NO_DESK)
      for name, columns in list(TABLES.items())[:7]),
    ("no row of meta", ["DELETE FROM meta"], NO_DESK),
    ("format 0", ["UPDATE meta SET format = 0"], NO_DESK),
    ("format 2 without its table", ["UPDATE meta SET format = 2"], NO_DESK),
    ("format 3", ["UPDATE meta SET format = 3"], NEWER),
    ("a status that is none", ["UPDATE ord SET status = 'open'"], NO_DESK),
    ("a capital in a base name", ["UPDATE authz SET name = 'Example.org'"], NO_DESK),
    ("a number above its counter", ["UPDATE meta SET orders = 0"], NO_DESK),
    ("a key that is none", ["UPDATE account SET jwk = '{}'"], NO_DESK),
    ("an answered challenge of no authorization", ["PRAGMA foreign_keys = OFF", "UPDATE chall SET authz = 99 WHERE answered >= 0"], NO_DESK),
    ("an empty table of keys", ["CREATE TABLE chall_key (chall INTEGER PRIMARY KEY REFERENCES chall (num), thumb BLOB NOT NULL) STRICT"], NO_DESK),
    ("another table of that name", ["CREATE TABLE chall_key (number INTEGER PRIMARY KEY) STRICT"], NO_DESK),
    ("an index of that name", ["CREATE INDEX chall_key ON chall (token)"], NO_DESK),
    ("a view of that name", ["CREATE VIEW chall_key AS SELECT num FROM chall"], NO_DESK),
    ("a status that is wrong", ["UPDATE ord SET status = 'ready'"], b""),
]


def upgrades(program, folder):
    """Each word that opens a file of format 1 makes it format 2 of the same rows; opened again, it stays as it is."""
    for name in first_files():
        for words in OPENINGS:
            path = restore(name, f"{folder}/{name}.db")
            before = tables_of(path, folder)
            said = f"{name}, opened by {words}"
            status, _, errors = run(program, *words.replace("FILE", path).split())
            see(said, (status, errors, tables_of(path, folder)), (0, b"", upgraded(before)))
            see(f"{said}: opened again", checked(program, path), (0, b"no fault\n", b""))
            see(f"{said}: its tables, opened again", tables_of(path, folder), upgraded(before))
        see(f"{name}: its tables and indexes", objects(path), objects(fresh(program, folder, f"{name}-beside")))


def objects(path):
    """The tables and indexes of a file with their columns, and what SQLite finds wrong in it."""
    found = sqlite3.connect(path)
    try:
        names = [row[0] for row in found.execute("SELECT name FROM sqlite_schema ORDER BY name")]
        columns = {name: found.execute(f"SELECT name, type, \"notnull\", pk FROM pragma_table_info('{name}')").fetchall() for name in TABLES}
        return names, columns, found.execute("PRAGMA integrity_check").fetchall(), found.execute("PRAGMA foreign_key_check").fetchall()
    finally:
        found.close()


def strange_upgrades(program, folder):
    """A file of format 1 that lacks something, or has rows that no desk has, is refused, and its bytes stay."""
    for said, statements, fault in STRANGE:
        path = restore("first-order", f"{folder}/strange.db")
        change(path, *statements)
        before = bytes_of(path)
        see(f"format 1, {said}", run(program, "batch", "--file", path), (1 if fault else 0, b"", fault))
        if fault:
            see(f"format 1, {said}: its bytes", bytes_of(path) == before, True)
        else:
            see(f"format 1, {said}: check", checked(program, path), (3, b"order 1: stored ready, derived pending\n", b""))


def cut_upgrades(program, folder):
    """A file of format 1 that was cut is refused and stays as it is, or holds a desk, which is upgraded."""
    whole, path = restore("several", f"{folder}/whole.db"), f"{folder}/cut.db"
    ends = {(1, b"", b"desk: fault %s\n" % text) for text in (b"20 memory", b"21 device", b"23 not a desk")}
    for length in range(0, len(bytes_of(whole)), 1024):
        put(path, bytes_of(whole)[:length])
        before, ended = tables_of(path, folder), run(program, "batch", "--file", path)
        if ended in ends:
            see(f"format 1 cut after {length} bytes: its bytes", bytes_of(path) == bytes_of(whole)[:length], True)
        else:
            see(f"format 1 cut after {length} bytes", (ended, tables_of(path, folder)), ((0, b"", b""), upgraded(before)))


def without_room(program, folder):
    """Without room for all that the upgrade writes, the file is of format 1 or 2 of the same rows; with room it is upgraded."""
    path, refused = f"{folder}/small.db", 0
    for room in (0, 1000, 10000, 20000, 40000, 100000):
        before = tables_of(restore("several", path), folder)
        status, _, said = run(program, "batch", "--file", path, preexec_fn=lambda: small_files(room))
        see(f"{room} bytes of room", (status, said) in ((0, b""), (1, b"desk: fault 21 device\n")), True)
        see(f"{room} bytes of room: its tables", tables_of(path, folder) in (before, upgraded(before)), True)
        see(f"{room} bytes of room, then more", checked(program, path), (0, b"no fault\n", b""))
        see(f"{room} bytes of room, then more: its tables", tables_of(path, folder), upgraded(before))
        refused += status
    see("an upgrade without room is refused", refused > 0, True)


def report(challenge, key, is_dns=False):
    """The report on a challenge, whose token is zero, with what proves it by a key."""
    text = f"{spelled(bytes(16))}.{spelled(thumbprint(canonical(key)))}".encode()
    body = {"records": [spelled(hashlib.sha256(text).digest())]} if is_dns else {"body": spelled(text)}
    return line_of("POST", f"/office/report/{challenge}", json.dumps(body))


def key_change(serial, old, new):
    """The change of the first account's key, with the nonce of a serial."""
    payload = json.dumps({"account": f"{BASE}/account/1", "newKey": new, "oldKey": old})
    return line_of("POST", "/key-change", json.dumps({"jwk": old, "nonce": nonce_text(serial), "payload": payload}), random="00" * 16)


def outcomes(program, path, lines):
    """The status and the document's status of the reply to each line."""
    ran = run(program, "batch", "--file", path, given=b"".join(lines))
    see(f"{path}: the later calls", ran[::2], (0, b""))
    return [(int(said[0]), json.loads(said[3])["status"]) for said in (reply.split(" ", 3) for reply in ran[1].decode().splitlines())]


def later_calls(program, folder):
    """A challenge that was answered in format 1 is proved by the key that its account had then, also after a key change."""
    other, fourth = {**KEY, "x": "Aw"}, {"e": "AQAB", "kty": "RSA", "n": "AQ"}
    for name in ("first-order", "killed"):
        path = restore(name, f"{folder}/{name}.db")
        see(f"{name}, then a report", outcomes(program, path, [report(1, KEY)]), [(200, "valid")])
        path = restore(name, f"{folder}/{name}.db")
        calls = [key_change(4, KEY, other), report(1, other)]
        see(f"{name}, then a key change and a report by the new key", outcomes(program, path, calls), [(200, "valid"), (200, "invalid")])
    path = restore("several", f"{folder}/several.db")
    serial = tables_of(path, folder)["nonce"][-1][0]
    other = {**KEY, "x": "BQ"}
    calls = [key_change(serial, KEY, other), report(6, KEY), report(3, other), report(20, fourth, is_dns=True), report(18, KEY)]
    wanted = [(200, "valid"), (200, "valid"), (200, "invalid"), (200, "valid"), (409, 409)]
    see("several, then a key change and reports", outcomes(program, path, calls), wanted)
    see("several, then checked", checked(program, path), (0, b"no fault\n", b""))
