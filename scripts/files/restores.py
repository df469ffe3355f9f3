"""What scripts/files/words.py tries of copies that take the place of a desk, and of kills at each step of that and of a backup."""
import os
import subprocess
import time

from scripts.files.backups import BESIDE, DISK, HELD, JOURNAL_ALONE, LOG_ALONE, LONG_NAME, because, held, mode_of
from scripts.files.stops import failed
from scripts.serving.served import STOPPED, Server
from scripts.trying import (DEVICE, NOT_A_DESK, answered, bytes_of, change, checked, copy, desk_with_calls, example, fresh, library, put, remove, run,
                            run_on_full, see, see_wrong, tables_of)

RESTORED, COPIED = (0, b"no fault\nrestored\n", b""), (0, b"no fault\ncopied\n", b"")
KILLED = -9
NOBODY = 65534
# The most steps that are tried.
MOST = 10000


class Restoring:
    """A desk with calls in its log, behind a kill, and a copy of another desk, in a folder of their own."""

    def __init__(self, program, folder, name):
        self.program, self.folder, self.room = program, folder, f"{folder}/{name}"
        os.mkdir(self.room)
        calls = example("order")[0]
        self.source = fresh(program, folder, f"{name}-source")
        with subprocess.Popen([program, "batch", "--file", self.source], stdin=subprocess.PIPE, stdout=subprocess.PIPE) as batch:
            for call in calls[:3]:
                answered(batch, call)
            batch.kill()
        self.copy = f"{folder}/{name}-copy.db"
        see("a copy", run(program, "backup", desk_with_calls(program, folder, f"{name}-other", calls), self.copy), COPIED)
        self.path = f"{self.room}/desk.db"
        self.again()
        self.old, self.new = tables_of(self.path, folder), tables_of(self.copy, folder)
        see("two desks", self.old == self.new, False)

    def again(self):
        """Both as they were: nothing else stands beside the desk."""
        for name in os.listdir(self.room):
            os.remove(f"{self.room}/{name}")
        copy(self.source, self.path)

    def restore(self, *more, **options):
        return run(self.program, "restore", self.copy, self.path, *more, **options)

    def tables(self):
        return tables_of(self.path, self.folder)

    def names(self):
        return sorted(os.listdir(self.room))

    def see_stays(self, said):
        """The desk is the old one."""
        see(f"{said}: the desk", self.tables(), self.old)
        see(f"{said}: nothing else stands there", set(self.names()) <= {"desk.db", "desk.db-wal"}, True)

    def see_restored(self, said):
        """The desk is the copy, and its own log alone may stand beside it."""
        see(f"{said}: the desk", self.tables(), self.new)
        see(f"{said}: a check", checked(self.program, self.path), (0, b"no fault\n", b""))
        see(f"{said}: nothing else stands there", self.names(), ["desk.db", "desk.db-wal"])


def restored(program, folder):
    """The copy takes the place of a desk, with its owner and its mode, and the log of that is gone; the copy stays."""
    it = Restoring(program, folder, "restored")
    os.chmod(it.path, 0o640)
    owner = NOBODY if os.getuid() == 0 else os.getuid()
    os.chown(it.path, owner, -1)
    bytes_before = bytes_of(it.copy)
    see("a restoring", it.restore(), RESTORED)
    see("what stands there", it.names(), ["desk.db"])
    see("its owner and its mode", (os.stat(it.path).st_uid, mode_of(it.path)), (owner, 0o640))
    see("its bytes", bytes_of(it.path) == bytes_of(it.copy) == bytes_before, True)
    it.see_restored("restored")
    it.again()
    os.symlink(it.path, f"{folder}/to-restored.db")
    see("by a link", run(program, "restore", it.copy, f"{folder}/to-restored.db"), RESTORED)
    see("the link stays", os.path.islink(f"{folder}/to-restored.db"), True)
    it.see_restored("by a link")
    see("restored again", it.restore(), RESTORED)
    it.see_restored("restored again")
    it.again()
    put(f"{it.path}-part", b"a part that a stop left")
    see("over a part that a stop left", it.restore(), RESTORED)
    it.see_restored("over a part that a stop left")


def restored_to_nothing(program, folder):
    """Where no desk stands, or an empty file, the copy is put there; a log that holds something is not passed over."""
    it = Restoring(program, folder, "nothing")
    remove(it.path)
    see("to nothing", it.restore(preexec_fn=lambda: os.umask(0)), RESTORED)
    see("its mode", mode_of(it.path), 0o600)
    it.see_restored("to nothing")
    if os.getuid() == 0:
        remove(it.path)
        os.chown(it.room, NOBODY, NOBODY)
        see("in a directory of another user", it.restore(), RESTORED)
        see("its owner", (os.stat(it.path).st_uid, os.stat(it.path).st_gid), (NOBODY, NOBODY))
        it.see_restored("in a directory of another user")
    remove(it.path)
    put(it.path)
    os.chmod(it.path, 0o640)
    see("to an empty file", it.restore(), RESTORED)
    see("its mode stays", mode_of(it.path), 0o640)
    it.see_restored("to an empty file")
    it.again()
    os.remove(it.path)
    log = bytes_of(f"{it.path}-wal")
    see("beside the log of another desk", it.restore("--verbose"), (1, b"", NOT_A_DESK[2] + because(it.path, LOG_ALONE)))
    see("it stays", (it.names(), bytes_of(f"{it.path}-wal") == log), (["desk.db-wal"], True))
    remove(it.path)
    put(f"{it.path}-journal", b"what another left")
    see("beside a journal", it.restore("--verbose"), (1, b"", DEVICE + because(it.path, JOURNAL_ALONE)))
    see("it stays", it.names(), ["desk.db-journal"])
    os.remove(f"{it.path}-journal")
    for ending in ("-journal", "-wal", "-part"):
        to = f"{it.copy}{ending}"
        see(f"to the name of the {ending} of another", run(program, "restore", it.source, to, "--verbose"), (1, b"", NOT_A_DESK[2] + because(to, BESIDE)))
    long = f"{it.room}/{'n' * 248}"
    see("to a name that is too long", run(program, "restore", it.copy, long, "--verbose"), (1, b"", DEVICE + because(long, LONG_NAME)))
    see("nothing is left", it.names(), [])
    none = f"{it.room}/none/desk.db"
    see("without a directory", run(program, "restore", it.copy, none, "--verbose"), (1, b"", DEVICE + because(none, "its directory is missing")))
    remove(it.path)
    see("a copy that is none", run(program, "restore", f"{folder}/none.db", it.path, "--verbose"),
        (1, b"", NOT_A_DESK[2] + because(f"{folder}/none.db", "there is no such file")))
    see("no file is left that was made", it.names(), [])


def not_restored(program, folder):
    """A desk that is served stays, one that is no desk or a newer one, and each where the copy is not well."""
    it = Restoring(program, folder, "stays")
    server = Server(program, it.path)
    see("while it is served", it.restore("--verbose"), (1, b"", DEVICE + because(it.path, HELD)))
    with subprocess.Popen([program, "restore", it.copy, it.path, "--wait", "60"], stdout=subprocess.PIPE) as waiting:
        see("served: the end", server.stop(), STOPPED)
        see("one that waits", (waiting.communicate()[0], waiting.returncode), RESTORED[1::-1])
    it.see_restored("one that waited")
    it.again()
    with held(it.copy):
        see("a copy that another program has", it.restore("--verbose"), (1, b"", DEVICE + because(it.copy, HELD)))
    it.see_stays("a copy that another program has")
    see("the file itself", run(program, "restore", it.path, it.path, "--verbose"), (1, b"", b"desk: the copy is the file itself\n"))
    it.see_stays("the file itself")
    wrong = f"{folder}/wrong-copy.db"
    put(wrong, bytes_of(it.copy))
    change(wrong, "UPDATE account SET status = 'revoked'")
    see("a copy with a wrong status", run(program, "restore", wrong, it.path), (3, b"account 1: stored revoked, derived deactivated\n", b""))
    it.see_stays("a copy with a wrong status")
    see("on a full output", run_on_full(program, "restore", it.copy, it.path), (1, None, b"desk: output\n"))
    it.see_stays("on a full output")
    see_wrong(program, ("restore",), (), (it.copy,), (it.copy, it.path, it.path), (it.copy, it.path, "--json"))
    put(f"{folder}/text.db", b"no database at all, but bytes")
    for name, data, said in (("text.db", b"no database at all, but bytes", NOT_A_DESK[2] + because(f"{folder}/text.db", "it holds something else than a desk")),
                             ("newer.db", bytes_of(it.copy), b"desk: fault 27 newer format\n" + because(f"{folder}/newer.db", "a newer program wrote it"))):
        put(f"{folder}/{name}", data)
        if name == "newer.db":
            change(f"{folder}/{name}", "UPDATE meta SET format = 3")
        before = bytes_of(f"{folder}/{name}")
        see(f"over {name}", run(program, "restore", it.copy, f"{folder}/{name}", "--verbose"), (1, b"", said))
        see(f"{name} stays", bytes_of(f"{folder}/{name}") == before, True)
    with held(it.path):
        see("a desk that another program has", it.restore(), (1, b"", DEVICE))


def failing_place(program, folder):
    """Where a call to the disk of the desk fails whose place the copy is to take, the second line says so of that desk, and it stays."""
    it, preload = Restoring(program, folder, "failing"), library(folder)
    run(program, "check", it.source)
    os.remove(f"{it.source}-wal")
    opened, copied = (1, b"", DEVICE + because(it.path, DISK)), (1, b"no fault\n", b"desk: copy\n" + because(it.path, DISK))
    for at in range(1, MOST):
        it.again()
        ran, is_failed = failed(preload, it.path, at, (program, "restore", it.copy, it.path, "--verbose"), b"")
        if not is_failed:
            see("a restoring without a failure", (ran, at > 1), (RESTORED, True))
            break
        see(f"call {at} to the disk failed", ran, opened if not ran[1] else copied)
        it.see_stays(f"call {at} to the disk failed")


def killed_at_each_step(said, preload, words, again):
    """Each run that is killed before a step that changes a file: what is said of it. A run that is not killed ends with 0."""
    for at in range(1, MOST):
        again()
        ended = run(*words, env={**os.environ, "LD_PRELOAD": preload, "STEP_AT": str(at)})[0]
        if ended != KILLED:
            see(f"{said}: a run that is not killed", ended, 0)
            print(f"{said}: killed before {at - 1} steps")
            return
        yield f"{said}, killed before step {at}"


def restorings_killed(program, folder):
    """Whenever a restoring is killed there is the old desk, or the copy, and the next one goes through."""
    it, preload = Restoring(program, folder, "killed"), library(folder)
    words = [program, "restore", it.copy, it.path]
    found = []
    for said in killed_at_each_step("restore", preload, words, it.again):
        has_log = os.path.exists(f"{it.path}-wal")
        left = it.tables()
        found.append(left == it.new)
        see(f"{said}: the old desk, or the copy", left in (it.old, it.new), True)
        see(f"{said}: no log beside the copy", has_log and left == it.new, False)
        see(f"{said}: a check", checked(program, it.path), (0, b"no fault\n", b""))
        see(f"{said}: again", it.restore(), RESTORED)
        it.see_restored(said)
    see("kills before the rename, and behind it", (found == sorted(found), set(found)), (True, {False, True}))

    def nothing():
        it.again()
        remove(it.path)

    if os.getuid() == 0:
        os.chown(it.room, NOBODY, NOBODY)
    owner = os.stat(it.room).st_uid
    for said in killed_at_each_step("restore to nothing", preload, words, nothing):
        whole = os.path.exists(it.path) and os.path.getsize(it.path) > 0
        see(f"{said}: nothing, or the copy", not whole or it.tables() == it.new, True)
        see(f"{said}: what is there has the owner of its directory", os.path.exists(it.path) and os.stat(it.path).st_uid, os.path.exists(it.path) and owner)
        see(f"{said}: again", it.restore(), RESTORED)
        it.see_restored(said)


def backups_killed(program, folder):
    """Whenever a backup is killed nothing stands at its path, or the whole copy, of whose two names the next word takes one away."""
    path, to, preload = desk_with_calls(program, folder, "backed-up", example("order")[0]), f"{folder}/killed-copy.db", library(folder)
    tables, found, pairs = tables_of(path, folder), [], 0

    def again():
        remove(to)

    for said in killed_at_each_step("backup", preload, [program, "backup", path, to], again):
        found.append(os.path.exists(to))
        if os.path.exists(to):
            see(f"{said}: the whole copy", tables_of(to, folder), tables)
            if os.path.exists(f"{to}-part"):
                see(f"{said}: its two names", os.path.samefile(to, f"{to}-part"), True)
                pairs += 1
        else:
            see(f"{said}: again", run(program, "backup", path, to), COPIED)
        see(f"{said}: a check", checked(program, to), (0, b"no fault\n", b""))
        see(f"{said}: nothing else is left", os.path.exists(f"{to}-part"), False)
    see("kills before the link, and behind it", (found == sorted(found), set(found)), (True, {False, True}))
    see("a kill between the link and the removal", pairs, 1)
    to, other = f"{folder}/other-part.db", f"{folder}/other-part.db-part"
    see("a copy beside another part", run(program, "backup", path, to), COPIED)
    put(other, b"a part of another copy")
    see("a check beside it", checked(program, to), (0, b"no fault\n", b""))
    see("it stays", bytes_of(other), b"a part of another copy")
    os.remove(other)
    os.link(to, other)
    with held(to):
        see("a copy of two names that another program has", run(program, "check", to)[0], 1)
    see("it keeps both", os.path.samefile(to, other), True)


def served_backups_killed(program, folder):
    """The same of a desk that serves: what a kill leaves of the part and of its log is in no later word's way."""
    path, to, preload = desk_with_calls(program, folder, "outlived", example("order")[0]), f"{folder}/outlived-copy.db", library(folder)
    tables, server, found = tables_of(path, folder), Server(program, path), []
    words, parts = [program, "backup", to, "--port", str(server.port)], (f"{to}-part", f"{to}-part-wal")

    def again():
        remove(to)

    for said in killed_at_each_step("backup of a desk that serves", preload, words, again):
        found.append(os.path.exists(to))
        if os.path.exists(to):
            see(f"{said}: the whole copy", tables_of(to, folder), tables)
        else:
            see(f"{said}: again", run(*words), COPIED)
        see(f"{said}: a check", checked(program, to), (0, b"no fault\n", b""))
        see(f"{said}: nothing else is left", [part for part in parts if os.path.exists(part)], [])
        remove(f"{to}-wal")
    see("kills before the link, and behind it", (found == sorted(found), set(found)), (True, {False, True}))
    status, _, said = server.stop()
    see("the desk behind them, some of whose clients broke off", (status, said.replace(b"desk: connection\n", b"")), STOPPED[::2])
    see("its tables", tables_of(path, folder), tables)


def backups_together(program, folder):
    """Of two backups to one path one is made, whole, and the other says that it is none."""
    to, sources = f"{folder}/together-copy.db", [desk_with_calls(program, folder, f"together{at}", example("order")[0][:at]) for at in (1, 4)]
    tables = [tables_of(path, folder) for path in sources]
    for _ in range(20):
        runs = [subprocess.Popen([program, "backup", path, to], stdout=subprocess.PIPE, stderr=subprocess.PIPE) for path in sources]
        ends = [(ran.wait(), ran.stdout.read(), ran.stderr.read()) for ran in runs]
        made = [at for at, end in enumerate(ends) if end == COPIED]
        see(f"how many of two copies are made: {ends}", len(made) <= 1, True)
        see("the copy that one made", [tables_of(to, folder)] if made else os.path.exists(to), [tables[at] for at in made] if made else False)
        see("no part is left", os.path.exists(f"{to}-part"), False)
        remove(to)


def until(is_so):
    """Waits until something is so, for a minute at most."""
    for _ in range(6000):
        if is_so():
            return
        time.sleep(0.01)
    raise RuntimeError("it is not so after a minute")


def opened_meanwhile(program, folder):
    """A word that found the desk before a restoring, and locks it behind that, has a file without a name: it ends, and does nothing."""
    it, preload, lock = Restoring(program, folder, "meanwhile"), library(folder), f"{folder}/lock"
    call = example("first")[0][0]
    words = {"serve": ("serve", it.path, "--port", "0"), "check": ("check", it.path), "batch": ("batch", "--file", it.path),
             "restore": ("restore", it.copy, it.path), "backup": ("backup", it.path, f"{folder}/meanwhile-backup.db")}
    for name, word in words.items():
        it.again()
        remove(lock)
        with subprocess.Popen([program, *word, "--verbose"], stdin=subprocess.PIPE, stdout=subprocess.PIPE, stderr=subprocess.PIPE,
                              env={**os.environ, "LD_PRELOAD": preload, "LOCK": lock}) as waiting:
            until(lambda: os.path.exists(lock))
            see(f"{name}, and a restoring meanwhile", it.restore(), RESTORED)
            os.remove(lock)
            found = waiting.communicate(call)
        see(f"{name}: how it ends", (waiting.returncode, found[0], found[1].startswith(DEVICE)), (1, b"", True))
        see(f"{name}: no backup", os.path.exists(f"{folder}/meanwhile-backup.db"), False)
        it.see_restored(name)


TRIES = (restored, restored_to_nothing, not_restored, failing_place, restorings_killed, opened_meanwhile, backups_killed, served_backups_killed, backups_together)
