"""Tries the operator's words on files: python3 -m scripts.files.words PROGRAM

`about`, `page`, `status`, `accounts`, `authorizations`, `check`, `revoke-authz` and `revoke-account` print what docs/SPECIFICATION.md
says, section 14, and end with the status that it gives; the reports change nothing, also where they are stopped after a line. Help
names the options of each word, their limits, and the exit statuses. What files and faults say, and copies of a desk, are in backups.py;
copies that take the place of a desk, in restores.py; whom the second line is for, in second_lines.py.
"""
import fcntl
import html
import json
import os
import re
import subprocess
import time

from scripts.files import backups, restores, second_lines
from scripts.files.stops import Desk
from scripts.model.texts import canonical, spelled, thumbprint
from scripts.repository import read
from scripts.serving.served import NEW_NONCE, Server
from scripts.specification import LAST
from scripts.trying import (BASE, KEY, NOT_A_DESK, begin, bytes_of, change, finish, nonce_text, order_of, run, run_on_full, see, see_wrong,
                            small_files, tables_of, workspace)

NO_FIT = (1, b"", b"desk: the report does not fit the records\n")
NO_NAME = (2, b"", b"desk: not a name that is served\n")
NOTHING_HERE = (1, b"", b"desk: there is nothing here\n")
FULL = (1, None, b"desk: output\n")
# The bytes of a page, the smallest room of a pipe.
PAGE = 4096
REPORTS = ("about", "page", "status", "accounts", "authorizations", "check")
OTHER_KEY = {"crv": "P-256", "kty": "EC", "x": "Aw", "y": "BA"}
LIFE = "1 to 315360000"
CAUSES = ("--verbose", "as at a terminal without it", "--quiet")
WAIT = ("--wait <SECONDS>", "as serve does while it runs", "0 to 86400", *CAUSES)
SYNCS = ("--sync", "once, twice", "default: twice", "loss of power", "the old or the new one")
HELP = {
    "make": ("FILE", *CAUSES, "mode 600", "--base", "8 to 256 bytes", "--nonce-life", "3600", "--order-life", "604800", "--authz-life", "2592000", LIFE),
    "serve": ("FILE", *CAUSES, "no other word works on the file", "--port", "0 to 65535", "--socket <PATH>", "--count", "2^64 - 1", "--log", "text, json", "microseconds",
              "--max-step <SECONDS>", "1 to 250000000000", "fault 24", "2592000 for 30 days", "once without --max-step",
              "--max-ahead <SECONDS>", "restore a backup", *SYNCS),
    "batch": ("--file", "in memory", *SYNCS, *WAIT),
    "status": ("FILE", "--account", "1 to 2^62", "--status", "pending, ready, processing, valid, invalid", "--name", "--json", *WAIT),
    "about": ("FILE", *WAIT),
    "page": ("FILE", "without scripts", "the first 50 rows", "> page.html", *WAIT),
    "accounts": ("FILE", "--json", *WAIT),
    "authorizations": ("FILE", "--account", "1 to 2^62", "--name", "--json", *WAIT),
    "check": ("FILE", "--json", "status 3", *WAIT),
    "backup": ("FILE", "TO", "not copied", "TO-part", *WAIT),
    "restore": ("COPY", "FILE", "Stop the desk first", "FILE-part", "the owner and the mode", *WAIT),
    "revoke-authz": ("FILE", "N", "1 to 2^62", "--port", "--socket", "desk: connection", *WAIT),
    "revoke-account": ("FILE", "N", "1 to 2^62", "--port", "--socket", "desk: connection", *WAIT),
}
# A contact of characters that a terminal obeys or turns round: a control of C0, DEL, one of C1, a bidirectional override; and one beyond U+FFFF.
UNSEEN = 'mailto:"x\\y\n\u001b\u007f\u009b\u202e\U0001f511~"@c.example'
# The fixed texts of the page behind its head.
PAGE_CLOCK = "</code></h1>\n<p>Its clock, the latest moment at which it recorded something: <b>"
PAGE_COUNTS = "</b></p>\n<p>A table shows the first 50 rows, by number.</p>\n<h2>Objects by status</h2>\n<pre>"
ORDER_COLUMNS = ("Order", "Account", "Status", "Ends", "Names", "Contacts")
AUTHORIZATION_COLUMNS = ("Authorization", "Account", "Status", "Ends", "Name", "Challenges")
PAGE_TABLES = (
    ("Waiting for the validator", "Authorizations that are pending, with a challenge that is processing.", AUTHORIZATION_COLUMNS),
    ("Waiting for the signing office", "Orders that are processing.", ORDER_COLUMNS),
    ("Orders that end within a day", "Pending, ready or processing, with an end less than 86400 seconds after the desk's clock.", ORDER_COLUMNS),
    ("Authorizations that end within a day", "Pending or valid, with an end less than 86400 seconds after the desk's clock.", AUTHORIZATION_COLUMNS),
    ("The last orders", "The 20 that were made last.", ORDER_COLUMNS),
)
# What help says of all words, below them.
FILES = ("One program at a time has a file: while serve runs", "--wait", "20 memory", "21 device", "hard link", "22 reopen", "23 not a desk", "24 moment",
         "25 short random", "26 full", "27 newer format")
EXITS = ("0  done", "1  a fault or a refusal", "2  wrong words, or a limit that is broken", "3  a stored status is wrong")


def desk_with_orders(program, folder, name, at=0):
    """A desk with an account and two orders of one name each, made at a moment."""
    desk = Desk(program, f"{folder}/{name}")
    desk.open_account(at)
    for wanted in ("a.example", "b.example"):
        desk.order(wanted, at=at)
    return desk


# What is listed of the objects of a kind: the word that lists them, a line of text and a document, by the columns of an object.
LISTED = {
    "orders": ("status", "{:>10} {:>10} {:<10} {}\n", '{{"number":{},"account":{},"status":"{}","expires":"{}"}}\n'),
    "accounts": ("accounts", "{:>10} {:<11} {} {}\n", '{{"number":{0},"status":"{1}","contact":{3},"thumbprint":"{2}"}}\n'),
    "authorizations": ("authorizations", "{0:>10} {1:>10} {3:<11} {4} {2}\n",
                       '{{"number":{},"account":{},"name":"{}","status":"{}","expires":"{}"}}\n'),
}


def see_listed(program, path, kind, rows, *words):
    """The objects of a kind that a word lists, by its further words, are these rows, as text and as JSON."""
    word, line, document = LISTED[kind]
    text, documents = ("".join(form.format(*row) for row in rows) for form in (line, document))
    see(f"{word} {words}", run(program, word, path, *words), (0, f"{text}{kind} {len(rows)}\n".encode(), b""))
    see(f"{word} {words} as JSON", run(program, word, path, *words, "--json"), (0, documents.encode(), b""))


def reports(program, folder):
    """Orders are listed, and stored statuses that are wrong."""
    empty = Desk(program, f"{folder}/empty").path
    see("check of an empty desk", run(program, "check", empty), (0, b"no fault\n", b""))
    for kind in LISTED:
        see_listed(program, empty, kind, [])
    desk = desk_with_orders(program, folder, "reports")
    before = tables_of(desk.path, folder)
    see_listed(program, desk.path, "orders", [(number, 1, "pending", "1970-01-08T00:00:00Z") for number in (1, 2)])
    see("check", run(program, "check", desk.path), (0, b"no fault\n", b""))
    see("reports change nothing", tables_of(desk.path, folder), before)
    for word in REPORTS:
        see(f"{word} on a full output", run_on_full(program, word, desk.path), FULL)
    reader, writer = os.pipe()
    os.close(reader)
    for word in REPORTS:
        see(f"{word} to a closed pipe", run(program, word, desk.path, stdout=writer), FULL)
    os.close(writer)


def wrong_statuses(program, folder):
    """Each kind of stored status that is wrong is named, and ends the check with status 3."""
    desk = desk_with_orders(program, folder, "wrong")
    change(desk.path, "UPDATE ord SET status = 'ready' WHERE num = 1")
    see("a wrong order", run(program, "check", desk.path), (3, b"order 1: stored ready, derived pending\n", b""))
    see("it opens", run(program, "status", desk.path)[0], 0)
    change(desk.path, "UPDATE ord SET status = 'pending'", "UPDATE account SET status = 'revoked'",
           "UPDATE chall SET status = 'processing' WHERE num = 4", "UPDATE authz SET status = 'expired' WHERE num = 2")
    ended, said, errors = run(program, "check", desk.path)
    see("several", (ended, errors), (3, b""))
    wanted = [b"account 1: stored revoked, derived valid", b"order 2: stored pending, derived invalid", b"authz 2: stored expired, derived pending",
              b"chall 4: stored processing, derived pending"]
    see("several, in order", said.splitlines(), wanted)


def interleaved(program, folder):
    """Challenges whose numbers interleave between authorizations, as a desk makes none, are checked by number, and saved where they stand."""
    desk = desk_with_orders(program, folder, "interleaved")
    change(desk.path, *(f"UPDATE chall SET num = {to} WHERE num = {number}" for number, to in ((2, 9), (3, 2), (9, 3))), "UPDATE chall SET status = 'valid'")
    lines = b"".join(b"chall %d: stored valid, derived pending\n" % number for number in (1, 2, 3, 4))
    see("interleaved challenges", run(program, "check", desk.path), (3, lines, b""))
    change(desk.path, "UPDATE chall SET status = 'pending'")
    see("an answer to one of them", desk.answer(desk.signed("/chall/2", {}))[0], "200")
    tables = tables_of(desk.path, folder)
    rows = [(1, 1, b"pending"), (2, 2, b"processing"), (3, 1, b"pending"), (4, 2, b"pending")]
    see("the interleaved rows", [(row[0], row[1], row[-1]) for row in tables["chall"]], rows)
    see("the keys of their answers", [row[0] for row in tables["chall_key"]], [2])
    see("their statuses", run(program, "check", desk.path), (0, b"no fault\n", b""))


def narrowed(program, folder):
    """Orders are listed by account, by status and by both, as text and as JSON."""
    desk = desk_with_orders(program, folder, "narrowed")
    see("a second account", desk.answer(desk.signed("/new-account", {}, key=OTHER_KEY))[0], "201")
    see("its order", desk.answer(desk.signed("/new-order", order_of("c.example"), key=OTHER_KEY, random="00" * 48))[0], "201")
    change(desk.path, "UPDATE ord SET status = 'ready' WHERE num = 2")
    end = "1970-01-08T00:00:00Z"
    orders = {1: (1, 1, "pending", end), 2: (2, 1, "ready", end), 3: (3, 2, "pending", end)}
    one, two, pending, ready = ("--account", "1"), ("--account", "2"), ("--status", "pending"), ("--status", "ready")
    rows = (((), (1, 2, 3)), (one, (1, 2)), (two, (3,)), (pending, (1, 3)), (ready, (2,)), (one + pending, (1,)), (ready + one, (2,)),
            (two + ready, ()), (("--account", str(LAST)), ()), (("--status", "processing"), ()), (("--status", "valid"), ()),
            (("--status", "invalid"), ()))
    for words, numbers in rows:
        see_listed(program, desk.path, "orders", [orders[number] for number in numbers], *words)
    see("JSON on a full output", run_on_full(program, "status", desk.path, "--json"), FULL)
    see("no JSON on a full output", run_on_full(program, "status", desk.path, "--json", *two, *ready), (0, None, b""))
    wrong = [("--account", number) for number in ("0", str(LAST + 1), "-1", "one", "", "+1", "01")]
    wrong += [("--status", word) for word in ("expired", "Pending", "pend", "")]
    wrong += [("--account",), ("--status",), one + two, pending + ready]
    see_wrong(program, ("status", desk.path), *wrong, ("--json", "--json"), ("--json=true",))
    see_wrong(program, ("check", desk.path), one, pending, ("--json", "--json"), ("--json=true",))


def named(program, folder):
    """Orders and authorizations are listed by name, with and without an account, as text and as JSON."""
    desk = desk_with_orders(program, folder, "named")
    desk.order("a.example", "c.example")
    see("an order of a wildcard", desk.answer(desk.signed("/new-order", order_of("*.a.example"), random="00" * 32))[0], "201")
    see("an order of a name that is not ASCII", desk.answer(desk.signed("/new-order", order_of("b\u00fccher.example"), random="00" * 48))[0], "201")
    see("a second account", desk.answer(desk.signed("/new-account", {}, key=OTHER_KEY))[0], "201")
    see("its order", desk.answer(desk.signed("/new-order", order_of("a.example"), key=OTHER_KEY, random="00" * 48))[0], "201")
    order_end, end = "1970-01-08T00:00:00Z", "1970-01-31T00:00:00Z"
    orders = {number: (number, 2 if number == 6 else 1, "pending", order_end) for number in range(1, 7)}
    # A name that is asked for again while its authorization is pending gets another one.
    names = ("a.example", "b.example", "a.example", "c.example", "*.a.example", "xn--bcher-kva.example", "a.example")
    authorizations = {number: (number, 2 if number == 7 else 1, name, "pending", end) for number, name in enumerate(names, 1)}
    one, two = ("--account", "1"), ("--account", "2")
    rows = (((), (1, 2, 3, 4, 5, 6), (1, 2, 3, 4, 5, 6, 7)), (("a.example",), (1, 3, 6), (1, 3, 7)), (("b.example",), (2,), (2,)),
            (("c.example",), (3,), (4,)), (("*.a.example",), (4,), (5,)), (("A.Example",), (1, 3, 6), (1, 3, 7)), (("b\u00fccher.example",), (5,), (6,)),
            (("xn--bcher-kva.example",), (5,), (6,)), (("d.example",), (), ()), (("*.b.example",), (), ()), (("www.a.example",), (), ()))
    for asked, listed, found in rows:
        words = tuple(word for name in asked for word in ("--name", name))
        see_listed(program, desk.path, "orders", [orders[number] for number in listed], *words)
        for account, number in ((one, 1), (two, 2), ((), None)):
            kept = [authorizations[place] for place in found if number in (None, authorizations[place][1])]
            see_listed(program, desk.path, "authorizations", kept, *words, *account)
    for status, listed in (("pending", [orders[6]]), ("valid", [])):
        see_listed(program, desk.path, "orders", listed, "--name", "a.example", *two, "--status", status)
    for word in ("status", "authorizations"):
        for name in ("", "example", "a..example", "*", "*.example", "a.*.example", "-a.example", "10.0.0.1", "a_b.example", "a example", "*.*.a.example"):
            see(f"{word} of {name!r}", run(program, word, desk.path, f"--name={name}"), NO_NAME)
        see_wrong(program, (word, desk.path, "--name"), (), ("a.example", "--name", "b.example"))
    see("a wrong status and a wrong name", run(program, "status", desk.path, "--status", "pending", "--name", ""), NO_NAME)
    see_wrong(program, ("authorizations", desk.path), ("--status", "pending"), ("--account", "0"), ("--account", "+1"))
    see("a wrong name of a missing file", run(program, "status", f"{folder}/none.db", "--name", ""), NO_NAME)


def accounts(program, folder):
    """Accounts are listed, with their contacts as a client gave them, escaped, and the thumbprints of their keys."""
    desk = Desk(program, f"{folder}/accounts")
    desk.fetch()
    see("an account with contacts", desk.answer(desk.signed("/new-account", {"contact": ["mailto:a@b.example", UNSEEN]}))[0], "201")
    see("an account without", desk.answer(desk.signed("/new-account", {}, key=OTHER_KEY))[0], "201")
    see("its end", desk.answer(desk.signed("/account/2", {"status": "deactivated"}, key=OTHER_KEY))[0], "200")
    contacts = json.dumps(["mailto:a@b.example", UNSEEN], separators=(",", ":"))
    thumbprints = [spelled(thumbprint(canonical(key))) for key in (KEY, OTHER_KEY)]
    see_listed(program, desk.path, "accounts", [(1, "valid", thumbprints[0], contacts), (2, "deactivated", thumbprints[1], "[]")])
    see("every byte of a contact is visible", all(32 <= byte < 127 for line in run(program, "accounts", desk.path)[1].splitlines() for byte in line), True)
    see_wrong(program, ("accounts", desk.path), ("--account", "1"), ("--name", "a.example"), ("--json", "--json"), ("1",))


def log_of(path):
    """How many bytes the log beside a file has."""
    return os.path.getsize(path + "-wal") if os.path.exists(path + "-wal") else 0


# The statuses of the objects of each kind, as `about` and the page count them; and what they say of a desk without objects.
STATUSES = {"accounts": ("valid", "deactivated", "revoked"),
            "authorizations": ("pending", "valid", "invalid", "deactivated", "expired", "revoked"),
            "challenges": ("pending", "processing", "valid", "invalid"), "orders": ("pending", "ready", "processing", "valid", "invalid")}
NONE = ((0,) * 3, (0,) * 6, (0,) * 4, (0,) * 5)


def counts_text(*counts):
    """The lines that count accounts, authorizations, challenges and orders, each by status."""
    shown = (", ".join(f"{number} {status}" for number, status in zip(*pair)) for pair in zip(counts, STATUSES.values()))
    return "".join(f"{kind}: {text}\n" for kind, text in zip(STATUSES, shown))


def about_text(path, clock, *counts, lives=(3600, 604800, 2592000)):
    """What `about` prints of the desk in a file."""
    lines = ["format: 2", f"base: {BASE}", *(f"{name} life: {life}" for name, life in zip(("nonce", "order", "authorization"), lives)), f"clock: {clock}"]
    return ("".join(f"{line}\n" for line in lines) + counts_text(*counts) + f"log: {log_of(path)}\n").encode()


def about(program, folder):
    """What a desk is, its clock, its objects by stored status, and the size of its log."""
    desk = Desk(program, f"{folder}/about", terms=("--nonce-life", "60", "--order-life", "1", "--authz-life", "315360000"))
    text = about_text(desk.path, "1970-01-01T00:00:00Z", *NONE, lives=(60, 1, 315360000))
    see("about a new desk", run(program, "about", desk.path), (0, text, b""))
    desk = desk_with_orders(program, folder, "told")
    text = about_text(desk.path, "1970-01-01T00:00:00Z", (1, 0, 0), (2, 0, 0, 0, 0, 0), (4, 0, 0, 0), (2, 0, 0, 0, 0))
    see("about two orders", run(program, "about", desk.path), (0, text, b""))
    before = files_of(desk)
    see("about: nothing is changed", (run(program, "about", desk.path)[0], files_of(desk)), (0, before))
    change(desk.path, "UPDATE chall SET status = 'processing' WHERE num = 1", "UPDATE chall SET status = 'valid' WHERE num = 2",
           "UPDATE chall SET status = 'invalid' WHERE num = 3", "UPDATE ord SET status = 'ready' WHERE num = 1",
           "UPDATE ord SET status = 'processing' WHERE num = 2", "UPDATE authz SET status = 'revoked' WHERE num = 1",
           "UPDATE authz SET status = 'expired' WHERE num = 2")
    text = about_text(desk.path, "1970-01-01T00:00:00Z", (1, 0, 0), (0, 0, 0, 0, 1, 1), (1, 1, 1, 1), (0, 1, 1, 0, 0))
    see("about stored statuses", run(program, "about", desk.path), (0, text, b""))
    change(desk.path, "UPDATE authz SET status = 'valid' WHERE num = 1", "UPDATE authz SET status = 'invalid' WHERE num = 2",
           "UPDATE ord SET status = 'valid' WHERE num = 1", "UPDATE ord SET status = 'invalid' WHERE num = 2",
           "UPDATE account SET status = 'revoked'")
    text = about_text(desk.path, "1970-01-01T00:00:00Z", (0, 0, 1), (0, 1, 1, 0, 0, 0), (1, 1, 1, 1), (0, 0, 0, 1, 1))
    see("about other stored statuses", run(program, "about", desk.path), (0, text, b""))
    change(desk.path, "UPDATE authz SET status = 'deactivated'", "UPDATE account SET status = 'deactivated'")
    text = about_text(desk.path, "1970-01-01T00:00:00Z", (0, 1, 0), (0, 0, 0, 2, 0, 0), (1, 1, 1, 1), (0, 0, 0, 1, 1))
    see("about the last stored statuses", run(program, "about", desk.path), (0, text, b""))
    see("about a missing file", run(program, "about", f"{folder}/none.db"), NOT_A_DESK)


def in_html(text):
    """A text as HTML shows it."""
    text = html.escape(text.replace("\\", "\\\\")).replace("&#x27;", "&#39;")
    return "".join(character if " " <= character <= "~" else "".join(f"\\u{unit:04x}" for unit in units_of(character)) for character in text)


def units_of(character):
    """Its units in UTF-16."""
    encoded = character.encode("utf-16-be")
    return [int.from_bytes(encoded[at:at + 2], "big") for at in range(0, len(encoded), 2)]


def order_row(number, account, status, end, names, contacts):
    """The row of an order on the page."""
    listed = ["".join(f"<code>{in_html(text)}</code> " for text in texts) for texts in (names, contacts)]
    return f'\n<tr><td>{number}</td><td>{account}</td><td class="{status}">{status}</td><td>{end}</td><td>{listed[0]}</td><td>{listed[1]}</td></tr>'


def authorization_row(number, account, status, end, name, challenges):
    """The row of an authorization on the page."""
    texts = "".join(f"<span>{challenge} {kind} {state}</span> " for challenge, kind, state in challenges)
    return (f'\n<tr><td>{number}</td><td>{account}</td><td class="{status}">{status}</td><td>{end}</td><td><code>{name}</code> </td>'
            f"<td>{texts}</td></tr>")


def page_text(base, clock, counts, tables):
    """The page of a desk, by the counts as `about` prints them, and by the rows of each table with how many there are in all."""
    head = read("examples/page.html").partition(BASE)[0]
    said = [head, in_html(base), PAGE_CLOCK, clock, PAGE_COUNTS, counts, "</pre>\n"]
    for (title, told, columns), (rows, count) in zip(PAGE_TABLES, tables):
        said += ["<h2>", title, "</h2>\n<p>", told, "</p>\n<table><thead><tr>", *(f"<th>{column}</th>" for column in columns), "</tr></thead><tbody>",
                 *rows, f"</tbody></table>\n<p>In all: {count}</p>\n"]
    return "".join([*said, "</body></html>\n"]).encode()


def based_desk(program, folder, name, base):
    """A desk with a base of its own."""
    desk = Desk(program, f"{folder}/{name}")
    desk.path = f"{desk.folder}/based.db"
    see(f"{name}: a desk", run(program, "make", desk.path, "--base", base), (0, b"made\n", b""))
    desk.fetch()
    return desk


def page(program, folder):
    """The page of a desk: what clients gave is text, what waits and what ends soon is there."""
    base, contacts = "https://ca.example/a&b'c", ["mailto:o'c@b.example", 'mailto:"<b>&amp;\u00fc"@c.example', UNSEEN]
    desk = based_desk(program, folder, "page", base)
    empty = page_text(base, "1970-01-01T00:00:00Z", counts_text(*NONE), [([], 0)] * 5)
    see("the page of an empty desk", run(program, "page", desk.path), (0, empty, b""))
    see("an account with contacts", desk.answer(desk.signed("/new-account", {"contact": contacts}))[0], "201")
    desk.order("a.example")
    see("a report", desk.answer(desk.validate(1))[0], "200")
    see("finalize", desk.answer(desk.signed("/order/1/finalize", {"csr": "AQID"}))[0], "200")
    see("an account without", desk.answer(desk.signed("/new-account", {}, key=OTHER_KEY))[0], "201")
    see("six days later", desk.answer(desk.line("GET", "/new-nonce", at=518400, random="00" * 16))[0], "204")
    wanted = desk.signed("/new-order", order_of("*.b.example", "c.example"), at=518400, key=OTHER_KEY, random="00" * 80)
    see("its order", desk.answer(wanted)[0], "201")
    see("its answer", desk.answer(desk.signed("/chall/4", {}, at=518400, key=OTHER_KEY))[0], "200")
    ends = {1: "1970-01-08T00:00:00Z", 2: "1970-01-14T00:00:00Z"}
    orders = {1: order_row(1, 1, "processing", ends[1], ["a.example"], contacts), 2: order_row(2, 2, "pending", ends[2], ["*.b.example", "c.example"], [])}
    waiting = authorization_row(3, 2, "pending", "1970-02-06T00:00:00Z", "c.example", [(4, "http-01", "processing"), (5, "dns-01", "pending")])
    counts = counts_text((2, 0, 0), (2, 1, 0, 0, 0, 0), (3, 1, 1, 0), (1, 0, 1, 0, 0))
    before = files_of(desk)
    text = page_text(base, "1970-01-07T00:00:00Z", counts, [([waiting], 1), ([orders[1]], 1), ([], 0), ([], 0), ([orders[1], orders[2]], 2)])
    see("the page", run(program, "page", desk.path), (0, text, b""))
    see("the page: nothing is changed", (run(program, "page", desk.path)[0], files_of(desk)), (0, before))
    see("a second later", desk.answer(desk.line("GET", "/new-nonce", at=518401, random="00" * 16))[0], "204")
    text = page_text(base, "1970-01-07T00:00:01Z", counts, [([waiting], 1), ([orders[1]], 1), ([orders[1]], 1), ([], 0), ([orders[1], orders[2]], 2)])
    see("the page once an order ends within a day", run(program, "page", desk.path), (0, text, b""))
    shown = based_desk(program, folder, "shown", BASE)
    see("the account of the example", shown.answer(shown.signed("/new-account", {"contact": ["mailto:o'c@b.example"]}))[0], "201")
    shown.order("www.example.org")
    see("the page that the specification shows", run(program, "page", shown.path), (0, read("examples/page.html").encode(), b""))
    see_wrong(program, ("page", desk.path), ("--json",), ("--account", "1"))


def long_page(program, folder):
    """Of many rows the page shows the first fifty, and says how many there are; of orders the last twenty, too."""
    desk = based_desk(program, folder, "long", BASE)
    see("an account", desk.answer(desk.signed("/new-account", {}))[0], "201")
    first = tables_of(desk.path, folder)["nonce"][0][0]
    names = [f"n{number}.example" for number in range(1, 61)]
    calls = [desk.signed("/new-order", order_of(name), random="00" * 48, nonce=nonce_text(first + at)) for at, name in enumerate(names)]
    calls.append(desk.line("GET", "/new-nonce", at=2505601, random="00" * 16))
    see("many orders", run(program, "batch", "--file", desk.path, given=b"".join(calls))[::2], (0, b""))
    change(desk.path, "UPDATE ord SET status = 'pending'")
    end, later = "1970-01-08T00:00:00Z", "1970-01-31T00:00:00Z"
    orders = [order_row(number, 1, "pending", end, [name], []) for number, name in enumerate(names, 1)]
    rows = [authorization_row(number, 1, "pending", later, name, [(2 * number - 1, "http-01", "pending"), (2 * number, "dns-01", "pending")])
            for number, name in enumerate(names, 1)]
    counts = counts_text((1, 0, 0), (60, 0, 0, 0, 0, 0), (120, 0, 0, 0), (60, 0, 0, 0, 0))
    text = page_text(BASE, "1970-01-30T00:00:01Z", counts, [([], 0), ([], 0), (orders[:50], 60), (rows[:50], 60), (orders[40:], 20)])
    see("a long page", run(program, "page", desk.path), (0, text, b""))


def log_left(program, folder):
    """`about` tells how many bytes the log has that a program left beside the file, also by a link to that, and then it has none."""
    desk = desk_with_orders(program, folder, "log")
    server = Server(program, desk.path)
    see("a nonce", server.ask(NEW_NONCE)[:12], b"HTTP/1.1 204")
    server.kill()
    see("a log is left", log_of(desk.path) > PAGE, True)
    linked = f"{folder}/log-linked.db"
    os.symlink(desk.path, linked)
    for what, path in (("that is left, by a link", linked), ("behind the closing", desk.path)):
        size = log_of(desk.path)
        see(f"about: the log {what}", run(program, "about", path)[1].splitlines()[-1], f"log: {size}".encode())
    see("no log is left", log_of(desk.path) < PAGE, True)


def clock_ahead(program, folder):
    """A desk's clock that is ahead of the machine's is told by `about`, and by `check` on standard error."""
    ahead = int(time.time()) + 7200
    desk = desk_with_orders(program, folder, "ahead", at=ahead)
    ended, said, errors = run(program, "about", desk.path)
    line = next(line.decode() for line in said.splitlines() if line.startswith(b"clock: "))
    moment = time.strftime("%Y-%m-%dT%H:%M:%SZ", time.gmtime(ahead))
    found = re.fullmatch(rf"clock: {moment}, (\d+) seconds ahead of the machine's", line)
    see("about: the clock is ahead", (ended, errors, bool(found) and 7100 < int(found[1]) <= 7200), (0, b"", True))
    ended, said, errors = run(program, "check", desk.path)
    found = re.fullmatch(rb"desk: the desk's clock is (\d+) seconds ahead of the machine's\n", errors)
    see("check: the clock is ahead", (ended, said, bool(found) and 7100 < int(found[1]) <= 7200), (0, b"no fault\n", True))
    see("status says nothing of it", run(program, "status", desk.path)[::2], (0, b""))
    behind = desk_with_orders(program, folder, "behind", at=int(time.time()) - 60)
    see("about: a clock behind", b"ahead" in run(program, "about", behind.path)[1], False)
    see("check: a clock behind", run(program, "check", behind.path), (0, b"no fault\n", b""))


def wrong_statuses_as_json(program, folder):
    """Each kind of stored status that is wrong is a document of its own."""
    desk = desk_with_orders(program, folder, "documents")
    check = (program, "check", desk.path, "--json")
    see("no document", run(*check), (0, b"", b""))
    see("no document on a full output", run_on_full(*check), (0, None, b""))
    change(desk.path, "UPDATE account SET status = 'revoked'", "UPDATE chall SET status = 'processing' WHERE num = 4",
           "UPDATE authz SET status = 'expired' WHERE num = 2")
    ended, said, errors = run(*check)
    see("documents", (ended, errors), (3, b""))
    wanted = [b'{"kind":"account","number":1,"stored":"revoked","derived":"valid"}', b'{"kind":"order","number":2,"stored":"pending","derived":"invalid"}',
              b'{"kind":"authz","number":2,"stored":"expired","derived":"pending"}', b'{"kind":"chall","number":4,"stored":"processing","derived":"pending"}']
    see("documents, in order", said.splitlines(), wanted)
    see("a last line end", said[-1:], b"\n")
    see("documents on a full output", run_on_full(*check), FULL)


def without_room(words, folder, room):
    """The end of a report to a file that takes so many bytes and no more, and what it has then; the desk's log has room beside."""
    with open(f"{folder}/report", "w+b") as out:
        out.seek(PAGE)
        ended = run(*words, stdout=out, preexec_fn=lambda: small_files(PAGE + room))
        out.seek(PAGE)
        return ended, out.read()


def without_reader(words, count):
    """The end of a report whose reader is gone after so many lines, while more of it is left than a pipe takes."""
    reader, writer = os.pipe()
    fcntl.fcntl(writer, fcntl.F_SETPIPE_SZ, PAGE)
    with subprocess.Popen(words, stdout=writer, stderr=subprocess.PIPE) as ran:
        os.close(writer)
        with open(reader, "rb", buffering=0) as lines:
            for _ in range(count):
                lines.readline()
        return ran.wait(), None, ran.stderr.read()


def files_of(desk):
    """The bytes of a desk's file, and how many its log has, whose head is another at each opening."""
    return bytes_of(desk.path), os.path.getsize(desk.path + "-wal")


def stopped_reports(program, folder):
    """A report that is stopped after each line in turn changes nothing, and is read again whole."""
    desk = desk_with_orders(program, folder, "stopped")
    change(desk.path, "UPDATE account SET status = 'revoked'", "UPDATE ord SET status = 'ready'",
           "UPDATE authz SET status = 'expired' WHERE num = 2", "UPDATE chall SET status = 'valid'")
    see("a report that is stopped: its opening", run(program, "status", desk.path)[0], 0)
    before = files_of(desk)
    for word, *more in (("status",), ("status", "--json"), ("status", "--name", "a.example"), ("about",), ("accounts",), ("authorizations",),
                        ("authorizations", "--json"), ("page",), ("check",), ("check", "--json")):
        words = (program, word, desk.path, *more)
        whole = run(*words)
        lines = whole[1].splitlines(keepends=True)
        see(f"{word} {more}: lines", len(lines) > 1, True)
        for count in range(len(lines)):
            wanted = b"".join(lines[:count])
            see(f"{word} {more}, stopped after line {count}", without_room(words, folder, len(wanted)), (FULL, wanted))
            see(f"{word} {more}, stopped after line {count}: the file", files_of(desk) == before, True)
            see(f"{word} {more}, stopped after line {count}: read again", run(*words), whole)


def readers_gone(program, folder):
    """A report whose reader is gone after each line in turn changes nothing, and is read again whole."""
    desk = desk_with_orders(program, folder, "gone")
    first = tables_of(desk.path, folder)["nonce"][0][0]
    calls = [desk.signed("/new-order", order_of("a.example"), random="00" * 48, nonce=nonce_text(first + at)) for at in range(200)]
    see("many orders", run(program, "batch", "--file", desk.path, given=b"".join(calls))[::2], (0, b""))
    change(desk.path, "UPDATE ord SET status = 'ready'")
    see("a reader that is gone: its opening", run(program, "status", desk.path)[0], 0)
    before = files_of(desk)
    for word in ("status", "check"):
        words = (program, word, desk.path)
        whole = run(*words)
        lines = whole[1].splitlines(keepends=True)
        counts = [count for count in range(len(lines)) if len(b"".join(lines[count:])) > PAGE]
        see(f"{word} of many orders: lines", len(counts) > 50, True)
        for count in counts:
            see(f"{word}, its reader gone after line {count}", without_reader(words, count), FULL)
            see(f"{word}, its reader gone after line {count}: the file", files_of(desk) == before, True)
        see(f"{word}, read again", run(*words), whole)


def revocations(program, folder):
    """What is revoked stays so; what can't be is refused."""
    desk = desk_with_orders(program, folder, "revoked", at=int(time.time()))
    authz = (program, "revoke-authz", desk.path)
    account = (program, "revoke-account", desk.path)
    see("an authorization", run(*authz, "1"), (0, b"authz 1 revoked\n", b""))
    once = tables_of(desk.path, folder)
    see("an authorization again", run(*authz, "1"), (0, b"authz 1 revoked\n", b""))
    see("an unknown authorization", run(*authz, "9"), NOTHING_HERE)
    see("an unknown account", run(*account, "2"), NOTHING_HERE)
    see("the last number", run(*account, str(LAST)), NOTHING_HERE)
    see("repeats and refusals change nothing", tables_of(desk.path, folder), once)
    see("an account", run(*account, "1"), (0, b"account 1 revoked\n", b""))
    see("an account again", run(*account, "1"), (0, b"account 1 revoked\n", b""))
    tables = tables_of(desk.path, folder)
    see("what falls with them", tuple([row[-1] for row in tables[name]] for name in ("account", "ord", "authz")),
        ([b"revoked"], [b"invalid", b"invalid"], [b"revoked", b"revoked"]))
    see("check after all", run(program, "check", desk.path), (0, b"no fault\n", b""))
    old = desk_with_orders(program, folder, "old")
    see("an authorization that expired", run(program, "revoke-authz", old.path, "1"), NO_FIT)
    see("an account of long ago", run(program, "revoke-account", old.path, "1"), (0, b"account 1 revoked\n", b""))
    ended = desk_with_orders(program, folder, "ended")
    see("the client's end", ended.answer(ended.signed("/account/1", {"status": "deactivated"}))[0], "200")
    see("an account that ended otherwise", run(program, "revoke-account", ended.path, "1"), NO_FIT)


def shared_revocation(program, folder):
    """The revocation of an authorization that orders share: the one with its certificate stays valid, the others are invalid."""
    now = int(time.time())
    desk = desk_with_orders(program, folder, "shared", at=now)
    see("a report", desk.answer(desk.validate(1, at=now))[0], "200")
    see("finalize", desk.answer(desk.signed("/order/1/finalize", {"csr": "AQID"}, at=now))[0], "200")
    see("certify", desk.answer(desk.line("POST", "/office/certify/1", "certificate", at=now))[0], "200")
    desk.order("a.example", "c.example", at=now)
    desk.order("a.example", at=now)
    listed = tables_of(desk.path, folder)["ord_authz"]
    see("what the orders list", sorted(listed), [(1, 1, 1), (2, 1, 2), (3, 1, 1), (3, 2, 3), (4, 1, 1)])
    see("the orders before", [row[-1] for row in tables_of(desk.path, folder)["ord"]], [b"valid", b"pending", b"pending", b"ready"])
    see("an authorization that is shared", run(program, "revoke-authz", desk.path, "1"), (0, b"authz 1 revoked\n", b""))
    see("the orders after", [row[-1] for row in tables_of(desk.path, folder)["ord"]], [b"valid", b"pending", b"invalid", b"invalid"])
    see("check after a shared end", run(program, "check", desk.path), (0, b"no fault\n", b""))


def wrong_words(program, folder):
    """Words that are wrong, and files that are missing."""
    desk = desk_with_orders(program, folder, "words")
    for word in ("revoke-authz", "revoke-account"):
        for number in ("0", str(LAST + 1), "-1", "one", "", "1.0", "0x1", "+1", "007", "00", " 1"):
            see(f"{word} {number!r}", run(program, word, desk.path, number)[::2][0], 2)
        see_wrong(program, (word, desk.path), ())
        see(f"{word} without a file", run(program, word, f"{folder}/none.db", "1"), NOT_A_DESK)
    for word in REPORTS:
        see(f"{word} without a file", run(program, word), (2, b"", run(program, word)[2]))
        see(f"{word} of a missing file", run(program, word, f"{folder}/none.db"), NOT_A_DESK)
        see_wrong(program, (word, desk.path), ("1",))
    no_text = (2, b"", b"error: a word is not UTF-8\n\nFor more information, try '--help'.\n")
    for words in ((b"\xff",), ("status", b"x\xff.db"), ("make", b"x\xff.db", "--base", BASE), ("--help", b"\xc0\x80")):
        see(f"{words}", run(program, *words), no_text)
    see("no file is made", os.path.exists(f"{folder}/none.db"), False)


def numbers_of_other_forms(program, folder):
    """A number with a sign or a zero in front is a wrong word wherever one is asked for, and nothing is done."""
    desk = desk_with_orders(program, folder, "numbers", at=int(time.time()))
    before, made = tables_of(desk.path, folder), f"{folder}/numbers.db"
    rows = [(word, desk.path, form) for word in ("revoke-authz", "revoke-account") for form in ("+1", "007", "01")]
    rows += [("status", desk.path, "--account", form) for form in ("+1", "01")]
    rows += [("serve", desk.path, "--port", form) for form in ("+0", "00", "08080")]
    rows += [("serve", desk.path, "--port", "0", "--count", form) for form in ("+0", "00", "01")]
    rows += [("serve", desk.path, "--port", "0", option, form) for option in ("--max-step", "--max-ahead") for form in ("+1", "01")]
    rows += [("make", made, "--base", BASE, f"--{life}-life", form) for life in ("nonce", "order", "authz") for form in ("+60", "060")]
    for words in rows:
        ended, said, errors = run(program, *words)
        see(f"{words}", (ended, said, b"written in decimal, without a sign and without a zero in front" in errors), (2, b"", True))
    see("numbers of other forms: nothing is done", (tables_of(desk.path, folder), os.path.exists(made)), (before, False))
    see("the number 0", run(program, "serve", desk.path, "--port", "0", "--count", "0")[::2], (0, b""))


def helps(program, folder):
    """The version, and what help says of each word."""
    see("version", run(program, "--version"), (0, b"desk 0.1.0\n", b""))
    see("no version of a word", run(program, "status", "--version")[:2], (2, b""))
    for word, texts in {"": (*HELP, *FILES), **HELP}.items():
        ended, said, errors = run(program, *word.split(), "--help")
        see(f"help of {word!r}", (ended, errors), (0, b""))
        for text in (*texts, f"Example:\n  desk {word or 'status'} ", *EXITS):
            see(f"{text!r} in the help of {word!r}", text in said.decode(), True)


def main(program):
    with workspace("words") as folder:
        for tries in (reports, wrong_statuses, interleaved, narrowed, named, accounts, about, page, long_page, log_left, clock_ahead,
                      wrong_statuses_as_json, stopped_reports, readers_gone, revocations, shared_revocation, wrong_words,
                      numbers_of_other_forms, helps, *backups.TRIES, *restores.TRIES, *second_lines.TRIES):
            tries(program, folder)
    return finish("Words")


if __name__ == "__main__":
    begin(main, __doc__)
