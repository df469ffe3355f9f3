"""What scripts/files/words.py tries of files that other programs have, of what faults say, of first starts, and of copies of a desk."""
import fcntl
import os
import random
import shutil
import sqlite3
import stat
import subprocess
import threading
import time
from contextlib import contextmanager

from scripts.serving.kills import Stream, look
from scripts.serving.served import DIRECTORY, STOPPED, Server, directory_reply, stranger
from scripts.trying import (BASE, DEVICE, NOT_A_DESK, answered, bytes_of, change, checked, desk_with_calls, example, fresh, put, run, run_on_full, see,
                            see_wrong, tables_of)

# The bytes on which SQLite's lock lies: how many, and from which on.
LOCK = (512, 1 << 30)
HELD = "another program has it; one that serves it is asked by --socket or --port, and --wait SECONDS tries again"
NO_ROOM = "no file can be made in its directory: this user may not, or that is read-only or full"
DISK = "its disk failed, or is full"
BESIDE = "a file that is there has its journal, its log or its part under this name"
LONG_NAME = "its name is too long: a desk's has 247 bytes at most"
LOG_ALONE = "the log of another desk stands there, the file -wal beside it"
JOURNAL_ALONE = "a rollback journal of another file stands there, the file -journal beside it"
TAKEN = "there is a file already, and it stays as it is"
# How late a word may be that waits, in seconds.
LATE = 20
# How often a desk that serves is copied at a random moment.
COPIES = 24
COPIED = (0, b"no fault\ncopied\n", b"")
BACKUP_HEAD = b"HTTP/1.1 200 OK\r\nConnection: close\r\nContent-Type: application/octet-stream\r\n\r\n"


@contextmanager
def held(path):
    """Another program that has the file, by SQLite's lock on it."""
    with open(path, "r+b", buffering=0) as file:
        fcntl.lockf(file, fcntl.LOCK_EX | fcntl.LOCK_NB, *LOCK)
        yield file


def because(path, cause):
    """The second line of a fault."""
    return f"desk: {path}: {cause}\n".encode()


def words_of(path, to):
    """The words that take `--wait`, on a file, with the exit status of each on a desk without accounts."""
    reports = [((word, path), 0) for word in ("status", "about", "page", "accounts", "authorizations", "check")]
    return [*reports, (("backup", path, to), 0), (("revoke-authz", path, "1"), 1), (("revoke-account", path, "1"), 1), (("batch", "--file", path), 0)]


def waits(program, folder):
    """A word with `--wait` tries again until another program gives the file up, so many seconds at most."""
    path = fresh(program, folder, "waits")
    for at, (words, ended) in enumerate(words_of(path, f"{folder}/waited.db")):
        with held(path) as file:
            see(f"{words} while another has the file", run(program, *words), (1, b"", DEVICE))
            see(f"{words}, which waits no second", run(program, *words, "--wait", "0"), (1, b"", DEVICE))
            if not at:
                start = time.monotonic()
                see(f"{words}, which waits for nothing", run(program, *words, "--wait", "1"), (1, b"", DEVICE))
                see("a second is waited", 1 <= time.monotonic() - start < 1 + LATE, True)
            freed = threading.Timer(0.5, lambda: fcntl.lockf(file, fcntl.LOCK_UN, *LOCK))
            freed.start()
            start = time.monotonic()
            see(f"{words}, which waits", run(program, *words, "--wait", "60")[0], ended)
            see(f"{words}: no longer than it has to", 0.4 <= time.monotonic() - start < 0.5 + LATE, True)
            freed.join()
    see("a free file is not waited for", run(program, "check", path, "--wait", "86400"), (0, b"no fault\n", b""))
    see("nor is one that is missing", run(program, "check", f"{folder}/none.db", "--wait", "86400"), NOT_A_DESK)
    wrong = [("check", path, "--wait", number) for number in ("86401", "-1", "+1", "01", "one", "")]
    see_wrong(program, (), *wrong, ("check", path, "--wait"), ("batch", "--wait", "1"), ("serve", path, "--port", "0", "--count", "0", "--wait", "1"),
              ("make", f"{folder}/waiting.db", "--base", BASE, "--wait", "1"))


def served(program, folder):
    """While `serve` has a desk every other word is refused, and says why; one that waits has it afterwards."""
    path = fresh(program, folder, "served")
    server = Server(program, path)
    for words, _ in words_of(path, f"{folder}/none.db"):
        see(f"{words} while it is served", run(program, *words, "--verbose"), (1, b"", DEVICE + because(path, HELD)))
    see("no copy of it", os.path.exists(f"{folder}/none.db"), False)
    with subprocess.Popen([program, "check", path, "--wait", "60"], stdout=subprocess.PIPE) as waiting:
        time.sleep(0.3)
        see("it waits", waiting.poll(), None)
        see("served: the end", server.stop(), STOPPED)
        see("it has the desk once that is stopped", (waiting.communicate()[0], waiting.returncode), (b"no fault\n", 0))


def causes(program, folder):
    """Behind a fault, `--verbose` says the file and the cause."""
    room = f"{folder}/causes"
    os.mkdir(room)
    path = fresh(program, room, "whole")
    file, none = f"{room}/file.db", f"{room}/none/file.db"

    def refused(words, cause, fault=DEVICE, of=None):
        see(f"{words}: its fault", run(program, *words), (1, b"", fault))
        see(f"{words}: its cause", run(program, *words, "--verbose"), (1, b"", fault + because(of or words[1], cause)))

    no_desk = NOT_A_DESK[2]
    refused(("status", file), "there is no such file", no_desk)
    refused(("status", none), "its directory is missing", no_desk)
    refused(("make", none, "--base", BASE), "its directory is missing")
    refused(("make", path, "--base", BASE), TAKEN, no_desk)
    refused(("status", room), "it is no regular file")
    refused(("status", f"{path}/file.db"), "its directory is missing")
    os.symlink(f"{room}/loop.db", f"{room}/loop.db")
    refused(("status", f"{room}/loop.db"), "its path leads to no file")
    put(file)
    refused(("check", file), "it is empty", no_desk)
    refused(("backup", path, file), TAKEN, b"desk: there is a file already\n", file)
    put(file, b"no database at all, but bytes")
    refused(("check", file), "it holds something else than a desk", no_desk)
    os.link(path, f"{room}/linked.db")
    refused(("check", path), "it has a second name, by a hard link")
    os.remove(f"{room}/linked.db")
    put(f"{path}-journal", b"a journal")
    refused(("check", path), "SQLite's rollback journal stands beside it: open it by sqlite3 first")
    os.remove(f"{path}-journal")
    change(path, "UPDATE meta SET format = 3")
    refused(("check", path), "a newer program wrote it", b"desk: fault 27 newer format\n")
    change(path, "UPDATE meta SET format = 2, nonces = 4611686018427387904")
    see("it is a desk", run(program, "check", path, "--verbose"), (0, b"no fault\n", b""))


def rights(ours, folder):
    """What a user may not read or write is told, and a file system that is read-only, where the machine can try this."""
    room, other = f"{folder}/rights", {"user": 65534, "group": 65534, "extra_groups": []} if os.getuid() == 0 else {}
    os.mkdir(room)
    for way in (folder, room):
        os.chmod(way, 0o755)
    program = shutil.copy(ours, f"{room}/desk")
    os.mkdir(f"{room}/own")
    path = fresh(program, f"{room}/own", "closed")
    os.remove(f"{path}-wal")
    os.chmod(path, 0o444)
    said = run(program, "status", path, "--verbose", **other)
    see("a file of another user", said, (1, b"", DEVICE + because(path, "this user may not read and write it")))
    os.chmod(path, 0o666)
    os.chmod(f"{room}/own", 0o555)
    see("a directory of another user", run(program, "status", path, "--verbose", **other), (1, b"", DEVICE + because(path, NO_ROOM)))
    made = f"{room}/own/made.db"
    see("a file that can't be made", run(program, "make", made, "--base", BASE, "--verbose", **other), (1, b"", DEVICE + because(made, NO_ROOM)))
    theirs, copied = fresh(program, room, "theirs"), f"{room}/own/copied.db"
    if other:
        for file in (room, theirs, f"{theirs}-wal"):
            os.chown(file, 65534, 65534)
    see("a copy that can't be made", run(program, "backup", theirs, copied, "--verbose", **other),
        (1, b"no fault\n", b"desk: copy\n" + because(copied, NO_ROOM)))
    os.chmod(f"{room}/own", 0o755)
    mounted = "mount --bind {0} {0} && mount -o remount,ro,bind {0}".format(f"{room}/own")
    if run("unshare", "--mount", "sh", "-c", mounted)[0] == 0:
        said = run("unshare", "--mount", "sh", "-c", f'{mounted} && exec "$@"', "sh", program, "status", path, "--verbose")
        see("a file system that is read-only", said, (1, b"", DEVICE + because(path, "its file system is read-only")))


def limits(program, folder):
    """The limit that a policy breaks is named."""
    path, life = f"{folder}/limits.db", "is 1 to 315360000 seconds"
    base = '--base begins with http:// or https://, has 8 to 256 bytes of ASCII, no space, none of " < > \\, and no / at its end'
    rows = [(("--base", "ca.example"), base), (("--base", f"{BASE}/"), base), (("--base", BASE, "--nonce-life", "0"), f"--nonce-life {life}")]
    rows += [(("--base", BASE, f"--{kind}-life", number), f"--{kind}-life {life}") for kind in ("order", "authz") for number in ("0", "315360001")]
    rows += [(("--base", "", "--order-life", "0", "--authz-life", "0"), f"--order-life {life}")]
    for terms, limit in rows:
        see(f"make {terms}", run(program, "make", path, *terms), (2, b"", b"desk: bad policy\n"))
        see(f"make {terms}: the limit", run(program, "make", path, *terms, "--verbose"), (2, b"", f"desk: bad policy\ndesk: {limit}\n".encode()))
    see("no file for a bad policy", os.path.exists(path), False)


def mode_of(path):
    return stat.S_IMODE(os.stat(path).st_mode)


def first_starts(program, folder):
    """A new desk is its user's alone, and a file that is refused has no log afterwards that it had not before."""
    path, text, other = (f"{folder}/{name}" for name in ("first.db", "text.db", "other.db"))
    see("make with no mask", run(program, "make", path, "--base", BASE, preexec_fn=lambda: os.umask(0)), (0, b"made\n", b""))
    see("modes of the file and its log", [mode_of(f"{path}{end}") for end in ("", "-wal")], [0o600, 0o600])
    put(f"{folder}/given.db")
    os.chmod(f"{folder}/given.db", 0o640)
    see("make in an empty file", run(program, "make", f"{folder}/given.db", "--base", BASE)[0], 0)
    see("its mode stays", mode_of(f"{folder}/given.db"), 0o640)
    put(text, b"no database at all, but bytes")
    with sqlite3.connect(other) as found:
        found.execute("CREATE TABLE nonce (serial INTEGER PRIMARY KEY)")
    found.close()
    for foreign in (text, other):
        before = bytes_of(foreign)
        for words in (("status", foreign), ("check", foreign), ("batch", "--file", foreign), ("serve", foreign, "--port", "0", "--count", "0")):
            see(f"{words}", run(program, *words), NOT_A_DESK)
            see(f"{words}: what is there then", (bytes_of(foreign) == before, os.path.exists(f"{foreign}-wal")), (True, False))
    put(f"{text}-wal")
    see("a file with an empty log", run(program, "status", text), NOT_A_DESK)
    see("its log stays", os.path.exists(f"{text}-wal"), True)


def backups(program, folder):
    """A copy is the desk, in one file that its user alone may read, and is served like it; nothing is written over."""
    path, to = desk_with_calls(program, folder, "original", example("order")[0]), f"{folder}/copy.db"
    tables = tables_of(path, folder)
    see("a backup", run(program, "backup", path, to, preexec_fn=lambda: os.umask(0)), (0, b"no fault\ncopied\n", b""))
    see("its mode, and no log", (mode_of(to), os.path.exists(f"{to}-wal")), (0o600, False))
    see("its tables", tables_of(to, folder), tables)
    see("the tables of the original", tables_of(path, folder), tables)
    see("its bytes", bytes_of(to) == bytes_of(path), True)
    see("it is served", run(program, "serve", to, "--port", "0", "--count", "0")[::2], (0, b""))
    see("it answers", run(program, "check", to), (0, b"no fault\n", b""))
    os.symlink(f"{folder}/nowhere.db", f"{folder}/link.db")
    taken = (1, b"", b"desk: there is a file already\n")
    for there in (to, path, folder, f"{folder}/link.db"):
        see(f"a backup over {there}", run(program, "backup", path, there), taken)
    see("what is there stays", (tables_of(to, folder), tables_of(path, folder), os.path.exists(f"{folder}/nowhere.db")), (tables, tables, False))
    beside_logs(program, path, folder)
    none = f"{folder}/none/copy.db"
    see("a backup without a directory", run(program, "backup", path, none, "--verbose"),
        (1, b"no fault\n", b"desk: copy\n" + because(none, "its directory is missing")))
    see("a backup on a full output", run_on_full(program, "backup", path, f"{folder}/full.db"), (1, None, b"desk: output\n"))
    see("no copy that nobody was told of", os.path.exists(f"{folder}/full.db"), False)
    see("a backup of nothing", run(program, "backup", f"{folder}/gone.db", f"{folder}/full.db"), NOT_A_DESK)
    see("no copy of nothing", os.path.exists(f"{folder}/full.db"), False)
    see_wrong(program, ("backup",), (), (path,), (path, to, to), (path, to, "--json"))
    change(path, "UPDATE account SET status = 'revoked'")
    wrong = (3, b"account 1: stored revoked, derived deactivated\n", b"")
    see("a backup of a wrong status", run(program, "backup", path, f"{folder}/wrong.db"), wrong)
    see("no copy of a wrong status", os.path.exists(f"{folder}/wrong.db"), False)


def beside_logs(program, path, folder):
    """No copy is made beside the log of another desk; one that holds nothing is no such log."""
    alone, log = f"{folder}/alone.db", fresh(program, folder, "logged")
    with subprocess.Popen([program, "batch", "--file", log], stdin=subprocess.PIPE, stdout=subprocess.PIPE) as batch:
        for call in example("order")[0][:3]:
            answered(batch, call)
        batch.kill()
    shutil.copy(f"{log}-wal", f"{alone}-wal")
    taken, stands = b"desk: there is a file already\n", "the log of another desk stands there, the file -wal beside it"
    see("a backup beside the log of another desk", run(program, "backup", path, alone, "--verbose"), (1, b"", taken + because(alone, stands)))
    see("that log stays, alone", (bytes_of(f"{alone}-wal") == bytes_of(f"{log}-wal"), os.path.exists(alone)), (True, False))
    put(f"{alone}-wal")
    see("a backup beside an empty log", run(program, "backup", path, alone), (0, b"no fault\ncopied\n", b""))
    see("its tables beside that", tables_of(alone, folder), tables_of(path, folder))


def copies_by_hand(program, folder):
    """While a program has a desk some of it is in the log alone, and a copy of the file lacks that; a backup has it once the program is gone."""
    path, to, calls = fresh(program, folder, "by-hand"), f"{folder}/whole.db", example("order")[0]
    with subprocess.Popen([program, "batch", "--file", path], stdin=subprocess.PIPE, stdout=subprocess.PIPE) as batch:
        for call in calls:
            answered(batch, call)
        put(f"{folder}/by-hand-copy.db", bytes_of(path))
        batch.kill()
    tables = tables_of(path, folder)
    see("a copy by hand lacks what was answered", tables_of(f"{folder}/by-hand-copy.db", folder) == tables, False)
    see("a backup behind a stop", run(program, "backup", path, to), (0, b"no fault\ncopied\n", b""))
    see("it has what was answered", tables_of(to, folder), tables)


def small_disk(program, folder):
    """A copy that a full disk cuts off is removed, where the machine can make a disk."""
    path, disk = desk_with_calls(program, folder, "large", example("order")[0]), f"{folder}/disk"
    os.mkdir(disk)
    mounted = f"mount -t tmpfs -o size=16k tmpfs {disk}"
    if run("unshare", "--mount", "sh", "-c", mounted)[0] == 0:
        said = run("unshare", "--mount", "sh", "-c", f'{mounted} && "$@"; ended=$?; ls {disk}; exit $ended', "sh", program, "backup", path, f"{disk}/copy.db",
                   "--verbose")
        see("a backup to a disk that is full", said, (1, b"no fault\n", b"desk: copy\n" + because(f"{disk}/copy.db", "its disk is full")))


def parts_of(to):
    """What stands under the names of the part of a copy."""
    return [name for name in (f"{to}-part", f"{to}-part-wal", f"{to}-wal") if os.path.exists(name)]


def see_refused_names(program, folder, to, place):
    """A copy is not made beside what another file left there, which stays, nor where its name is too long."""
    put(f"{to}-journal", b"what another left")
    see("a backup beside a journal", run(program, "backup", to, *place, "--verbose"),
        (1, b"", b"desk: there is a file already\n" + because(to, JOURNAL_ALONE)))
    see("a copy beside a journal", run(program, "backup", fresh(program, folder, "closed"), to), (1, b"", b"desk: there is a file already\n"))
    os.remove(f"{to}-journal")
    put(f"{to}-part-wal", b"what another left")
    see("a backup beside the log of a part", run(program, "backup", to, *place, "--verbose"),
        (1, b"", b"desk: copy\n" + because(to, "another program copies there, or the file -part or -part-wal beside it is to be removed")))
    see("that log", (parts_of(to), bytes_of(f"{to}-part-wal")), ([f"{to}-part-wal"], b"what another left"))
    os.remove(f"{to}-part-wal")
    for size, ended in ((242, COPIED), (243, (1, b"", b"desk: copy\n")), (256, (1, b"", b"desk: copy\n"))):
        name = f"{folder}/{'n' * size}"
        see(f"a backup whose name has {size} bytes", run(program, "backup", name, *place), ended)
        see(f"{size} bytes: it opens", os.path.exists(name) and checked(program, name)[0] != 0, False)
    said = run(program, "backup", name, *place, "--verbose")[2]
    see("why not", said, b"desk: copy\n" + because(name, "its name is too long: a copy's has 242 bytes at most"))


def of_served(program, folder):
    """A copy of a desk that serves is the desk as it is between two calls, in one file that its user alone may read; nothing is written over."""
    path, to = desk_with_calls(program, folder, "asked", example("order")[0]), f"{folder}/sent.db"
    tables = tables_of(path, folder)
    server = Server(program, path, "--socket", f"{folder}/asked.socket")
    places = (("--port", str(server.port)), ("--socket", f"{folder}/asked.socket"))
    for place in places:
        see(f"a backup by {place[0]}", run(program, "backup", to, *place, preexec_fn=lambda: os.umask(0)), COPIED)
        see("its mode, and nothing beside it", (mode_of(to), parts_of(to)), (0o600, []))
        see("its tables", tables_of(to, folder), tables)
        see("a backup over it", run(program, "backup", to, *place), (1, b"", b"desk: there is a file already\n"))
        os.remove(to)
    put(f"{to}-part", b"what a stop left")
    put(f"{to}-part-wal", b"and its log")
    see("a backup where a stop left its part", run(program, "backup", to, *places[0]), COPIED)
    see("that part", parts_of(to), [])
    see_refused_names(program, folder, f"{folder}/refused.db", places[0])
    none = f"{folder}/none/sent.db"
    see("a backup without a directory", run(program, "backup", none, *places[0], "--verbose"),
        (1, b"", b"desk: copy\n" + because(none, "its directory is missing")))
    see("the desk behind that", server.ask(DIRECTORY), directory_reply())
    server.stop()
    gone = f"{folder}/gone.db"
    see("a backup of nobody", run(program, "backup", gone, *places[0]), (1, b"", b"desk: connection\n"))
    whole = BACKUP_HEAD + b"5 3\n" + b"bytes" + b"log" + b"end\n"
    for said in (b"", BACKUP_HEAD, whole[:-1], whole + b"end\n", whole.replace(b"5 3", b"5 4"), whole.replace(b"5 3", b"4 3"), whole.replace(b"5 3", b"05 3"),
                 whole.replace(b"5 3", b"5  3"), whole.replace(b"5 3", b"-5 3"), whole.replace(b"5 3\n", b"5" * 60), BACKUP_HEAD + b"end\n"):
        with stranger(said) as (port, heard):
            see(f"a backup of {said!r}", run(program, "backup", gone, "--port", str(port)), (1, b"", b"desk: connection\n"))
        see("what was asked", heard[0].split(b"\r\n")[0], b"GET /office/backup HTTP/1.1")
        see("nothing of it", (os.path.exists(gone), parts_of(gone)), (False, []))
    with stranger(whole) as (port, _):
        said = run(program, "backup", gone, "--port", str(port), "--verbose")
        see("a backup of what is no desk", said, (*NOT_A_DESK[:2], NOT_A_DESK[2] + because(gone, "it holds something else than a desk")))
    see("nothing of that", (os.path.exists(gone), parts_of(gone)), (False, []))


def at_random_moments(program, folder):
    """A desk is copied while a client asks it, and the word or the desk is killed in the middle of that: a copy that is there opens, has no wrong
    status, and holds each order that was acknowledged before the word began; what a killed word leaves is in no later word's way."""
    chance = random.Random(7)
    path, stream = fresh(program, folder, "busy"), Stream(chance)
    stream.begin(Server(program, path))
    for turn in range(COPIES):
        name, to, killed = f"copy {turn}", f"{folder}/busy-{turn}.db", (None, "word", "desk")[turn % 3]
        server = Server(program, path)
        client = threading.Thread(target=stream.run, args=(server,))
        client.start()
        time.sleep(chance.uniform(0, 0.08))
        known = set(stream.orders)
        with subprocess.Popen([program, "backup", to, "--port", str(server.port)], stdout=subprocess.PIPE, stderr=subprocess.PIPE) as word:
            if killed:
                time.sleep(chance.uniform(0, 0.05))
                (word.kill if killed == "word" else server.kill)()
            said = word.communicate()
        if killed != "desk":
            see(f"{name}: {killed} is killed, and behind it", run(program, "backup", f"{to}-again", "--port", str(server.port)), COPIED)
        server.kill()
        client.join()
        look(name, stream, path, folder)
        if not killed:
            see(name, (word.returncode, *said), COPIED)
        if killed != "word":
            see(f"{name}: what is beside it", parts_of(to), [])
            see(f"{name}: it is there where the word says so", os.path.exists(to), word.returncode == 0)
        for copy in (to, f"{to}-again"):
            if os.path.exists(copy):
                see(f"{copy}: its statuses", run(program, "check", copy)[:2], (0, b"no fault\n"))
                see(f"{copy}: orders that it lacks", known - {row[0] for row in tables_of(copy, folder)["ord"]}, set())


def side_files(program, folder):
    """No copy gets the name of a journal, a log or a part of a file that is there, which would keep words from that file."""
    path = desk_with_calls(program, folder, "beside", example("order")[0])
    server = Server(program, fresh(program, folder, "giving"))
    os.remove(f"{path}-wal")
    said = b"desk: a file that is there has its journal, its log or its part under this name\n"
    for ending in ("-journal", "-wal", "-part"):
        for words in ((path, f"{path}{ending}"), (f"{path}{ending}", "--port", str(server.port))):
            see(f"a backup to {words}", run(program, "backup", *words), (1, b"", said))
        see(f"nothing at {ending}", os.path.exists(f"{path}{ending}"), False)
    server.stop()
    see("the desk beside them", run(program, "check", path), (0, b"no fault\n", b""))


TRIES = (waits, served, causes, rights, limits, first_starts, backups, copies_by_hand, small_disk, of_served, at_random_moments, side_files)
