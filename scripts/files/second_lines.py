"""What scripts/files/words.py tries of the second line of standard error: who gets it, what it says, and what a making that fails leaves."""
import contextlib
import os
import pty
import shutil
import socket
import subprocess
import threading
import tty

from scripts.files.backups import BESIDE, DISK, HELD, JOURNAL_ALONE, LOG_ALONE, LONG_NAME, TAKEN, because, held, mode_of
from scripts.files.stops import Desk
from scripts.repository import read
from scripts.serving.served import Server, stranger
from scripts.trying import (BASE, DEVICE, NOT_A_DESK, answered, bytes_of, example, free_port, fresh, library, put, remove, run, see, see_wrong,
                            small_files)

CONNECTION, BIND = b"desk: connection\n", b"desk: bind\n"
REMOVE = "; what was begun is left: remove it, and the file -wal beside it"
EMPTY = "; an empty file stands there, which may be removed"
UNREACHED = "nobody took a connection there, and nothing was asked"
UNANSWERED = "no reply of a desk came, or none within 60 seconds: it may be done or not, and asking again is safe"
NO_LOG_FILE = "its log, the file -wal beside it, is no regular file"
LINKED_LOG = "its log, the file -wal beside it, has a second name, by a hard link"
ENDED = "it has ended already, otherwise than by being revoked"
# How many bytes more a file may have at each try.
STEP = 1000
NOBODY = {"user": 65534, "group": 65534, "extra_groups": []}


@contextlib.contextmanager
def terminal():
    """A terminal that changes no byte: the side of its user, and that of the program."""
    ours, theirs = pty.openpty()
    tty.setraw(theirs)
    try:
        yield ours, theirs
    finally:
        for side in (ours, theirs):
            with contextlib.suppress(OSError):
                os.close(side)


def shown(ours):
    """What a terminal shows until no program has it."""
    parts = []
    with contextlib.suppress(OSError):
        while part := os.read(ours, 65536):
            parts.append(part)
    return b"".join(parts)


def at_terminal(program, *words, given=b"", **options):
    """The exit status and the output of the program, and what it shows at the terminal that is its standard error."""
    with terminal() as (ours, theirs):
        with subprocess.Popen([program, *words], stdin=subprocess.PIPE, stdout=subprocess.PIPE, stderr=theirs, **options) as ran:
            os.close(theirs)
            said = []
            reader = threading.Thread(target=lambda: said.append(shown(ours)))
            reader.start()
            out = ran.communicate(given)[0]
            reader.join()
        return ran.returncode, out, said[0]


def by_all(program, words, status, first, second, out=b""):
    """A fault's first line is the same to everybody; the second is for a terminal, and for `--verbose`, but not beside `--quiet`."""
    for at, way in ((run, "piped"), (at_terminal, "at a terminal")):
        for more, line in (((), second if at is at_terminal else b""), (("--verbose",), second), (("--quiet",), b"")):
            see(f"{words} {more} {way}", at(program, *words, *more), (status, out, first + line))


def terminals(program, folder):
    """The second line is there at a terminal without a word, and `--quiet` leaves it out."""
    path, none = fresh(program, folder, "terminal"), f"{folder}/no-terminal.db"
    by_all(program, ("status", none), 1, NOT_A_DESK[2], because(none, "there is no such file"))
    by_all(program, ("make", path, "--base", BASE), 1, NOT_A_DESK[2], because(path, TAKEN))
    by_all(program, ("make", none, "--base", BASE, "--order-life", "0"), 2, b"desk: bad policy\n", b"desk: --order-life is 1 to 315360000 seconds\n")
    by_all(program, ("backup", path, path), 1, b"desk: there is a file already\n", because(path, TAKEN))
    by_all(program, ("backup", path, f"{none}/to.db"), 1, b"desk: copy\n", because(f"{none}/to.db", "its directory is missing"), b"no fault\n")
    by_all(program, ("check", path), 0, b"", b"", b"no fault\n")
    by_all(program, ("status", path, "--name", ""), 2, b"desk: not a name that is served\n", b"")
    with held(path):
        by_all(program, ("about", path), 1, DEVICE, because(path, HELD))
    see_wrong(program, ("check", path), ("--verbose", "--quiet"), ("--quiet", "--verbose"), ("--quiet", "--quiet"), ("--quiet=yes",))
    see_wrong(program, ("--quiet",), (), ("check", path))
    wrong = run(program, "check")
    see("wrong words at a terminal", at_terminal(program, "check"), wrong)
    for place in (0, 1):
        see(f"a terminal as stream {place} alone", with_terminal_as(place, program, "status", none), (1, NOT_A_DESK[2]))


def with_terminal_as(place, *words):
    """The exit status and the errors of a program whose standard input or output is a terminal, and whose errors are not."""
    with terminal() as (_, theirs):
        streams = {"stdin": subprocess.DEVNULL, "stdout": subprocess.DEVNULL, ("stdin", "stdout")[place]: theirs}
        ran = subprocess.run(words, stderr=subprocess.PIPE, **streams)
    return ran.returncode, ran.stderr


# ---- ports and connections


def serving(path, port, *more):
    return ("serve", path, "--port", str(port), "--count", "0", *more)


def ports(program, folder):
    """Why a port is not taken is said."""
    path = fresh(program, folder, "ports")
    with socket.create_server(("127.0.0.1", 0)) as server:
        port = server.getsockname()[1]
        by_all(program, serving(path, port), 1, BIND, f"desk: port {port}: another program has it\n".encode())
    see("the port afterwards", run(program, *serving(path, port, "--quiet")), (0, f"listening on 127.0.0.1:{port}\n".encode(), b""))
    is_kept = int(read("/proc/sys/net/ipv4/ip_unprivileged_port_start")) > 80
    if os.getuid() == 0 and is_kept:
        room = f"{folder}/ports"
        os.mkdir(room)
        for way in (folder, room):
            os.chmod(way, 0o755)
        ours = shutil.copy(program, f"{room}/desk")
        theirs = fresh(program, room, "theirs")
        for file in (theirs, f"{theirs}-wal", room):
            os.chown(file, 65534, 65534)
        see("a port of root's", run(ours, *serving(theirs, 80, "--verbose"), **NOBODY), (1, b"", BIND + b"desk: port 80: this user may not take it\n"))


def unheard(program, folder):
    """What is known of a revocation that no desk answered is said: whether anybody was asked."""
    path = f"{folder}/unheard.db"
    port = free_port()
    words = ("revoke-authz", "7", "--port", str(port))
    by_all(program, words, 1, CONNECTION, f"desk: port {port}: {UNREACHED}\n".encode())
    for reply in (b"", b"HTTP/1.1 302 ", b"HTTP/1.1 20", b"SSH-2.0-OpenSSH_9.2p1\r\n"):
        with stranger(reply) as (port, sent):
            said = run(program, "revoke-account", "7", "--port", str(port), "--verbose")
        see(f"a reply {reply!r}", said, (1, b"", CONNECTION + f"desk: port {port}: {UNANSWERED}\n".encode()))
        see("what was asked", sent[0].startswith(b"POST /office/revoke-account/7 HTTP/1.1\r\n"), True)
    see("no file is made", os.path.exists(path), False)


def broken(program, folder):
    """Why a connection failed is said by `serve --verbose`, and at a terminal; not beside `--quiet`."""
    line = b"desk: the client broke off, or did not send its request within 10 seconds\n"
    for more, wanted in (((), CONNECTION + line), (("--quiet",), CONNECTION)):
        path = fresh(program, folder, f"broken{len(more)}")
        with terminal() as (ours, theirs):
            words = [program, "serve", path, "--port", "0", "--count", "2", *more]
            with subprocess.Popen(words, stdout=subprocess.PIPE, stderr=theirs) as server:
                os.close(theirs)
                port = int(server.stdout.readline().rsplit(b":", 1)[1])
                with socket.create_connection(("127.0.0.1", port)) as client:
                    client.sendall(b"GET /directory HTTP/1.1\r\n")
                    client.setsockopt(socket.SOL_SOCKET, socket.SO_LINGER, b"\1\0\0\0\0\0\0\0")
                with socket.create_connection(("127.0.0.1", port)) as client:
                    client.sendall(b"GET /directory HTTP/1.1\r\n\r\n")
                    see("the next client", client.makefile("rb").read()[:15], b"HTTP/1.1 200 OK")
                see(f"a client that broke off {more}", (server.wait(), shown(ours)), (0, wanted))


# ---- revocations of what has ended


def ended(program, folder):
    """Behind a refusal it is said in words that what is to be revoked has ended, or is not there."""
    desk = Desk(program, f"{folder}/ended-words")
    desk.open_account(at=1)
    desk.order("a.example", at=1)
    see("the client's end", desk.answer(desk.signed("/account/1", {"status": "deactivated"}, at=1))[0], "200")
    no_fit, nothing = b"desk: the report does not fit the records\n", b"desk: there is nothing here\n"
    rows = (("revoke-authz", "1", no_fit, f"authz 1: {ENDED}"), ("revoke-account", "1", no_fit, f"account 1: {ENDED}"),
            ("revoke-authz", "9", nothing, "authz 9: the desk has none of this number"),
            ("revoke-account", "9", nothing, "account 9: the desk has none of this number"))
    for word, number, first, second in rows:
        by_all(program, (word, desk.path, number), 1, first, f"desk: {second}\n".encode())
    server = Server(program, desk.path)
    for word, number, first, second in rows:
        by_all(program, (word, number, "--port", str(server.port)), 1, first, f"desk: {second}\n".encode())
    server.stop()
    server = Server(program, desk.path, "--max-step", "1")
    by_all(program, ("revoke-account", "9", "--port", str(server.port)), 1, b"desk: the desk could not act\n",
           b"desk: account 9: the desk met a fault: see its log, and what it wrote on standard error\n")
    server.stop()


# ---- what a making that fails leaves


def making(path):
    return ("make", path, "--base", BASE, "--verbose")


def see_gone(said, path, ran, more=""):
    """A making that failed on its disk says so, and leaves nothing."""
    see(f"{said}: what is said", ran, (1, b"", DEVICE + because(path, DISK + more)))
    see(f"{said}: what is left", sorted(os.listdir(os.path.dirname(path))), [])


def full_files(program, folder):
    """A making that meets the end of its room leaves nothing, and a file that was there before stays as it was."""
    room = f"{folder}/full-files"
    os.mkdir(room)
    path, count = f"{room}/made.db", 0
    for size in range(0, 10**7, STEP):
        ran = run(program, *making(path), preexec_fn=lambda: small_files(size))
        if not ran[0]:
            break
        see_gone(f"a file of {size} bytes at most", path, ran)
        count += 1
        put(path)
        os.chmod(path, 0o640)
        said = f"an empty file that is there, of {size} bytes at most"
        see(said, run(program, *making(path), preexec_fn=lambda: small_files(size)), (1, b"", DEVICE + because(path, DISK + EMPTY)))
        see(f"{said}: it stays", (os.listdir(room), os.path.getsize(path), mode_of(path)), (["made.db"], 0, 0o640))
        os.remove(path)
    see("with enough room", (ran, count > 5), ((0, b"made\n", b""), True))
    see("and afterwards", run(program, "check", path), (0, b"no fault\n", b""))


def full_disks(program, folder):
    """So does a disk that is full, of whatever size, where the machine can make one; it takes a desk once there is room."""
    disk = f"{folder}/full-disk"
    os.mkdir(disk)
    for pages in range(1, 60):
        words = ("unshare", "--mount", "sh", "-c", 'mount -t tmpfs -o "size=$0" tmpfs "$DISK" || exit 99; "$@"; ended=$?; ls -A "$DISK"; exit $ended',
                 f"{4 * pages}k", program, *making(f"{disk}/made.db"))
        said = run(*words, env={**os.environ, "DISK": disk})
        if said[0] == 99 or said[0] == 1 and b"unshare" in said[2]:
            return
        if said[0] == 0:
            see(f"a disk of {pages} pages", said, (0, b"made\nmade.db\nmade.db-wal\n", b""))
            break
        see(f"a disk of {pages} pages", said, (1, b"", DEVICE + because(f"{disk}/made.db", DISK)))
    see("a disk was too small", pages > 1, True)


def kept(program, folder):
    """What can't be removed is named; what another program made, or has, is left alone."""
    room = f"{folder}/kept"
    os.mkdir(room)
    path = f"{room}/made.db"
    env = {**os.environ, "LD_PRELOAD": library(folder), "UNLINK": "1"}
    ends = set()
    for size in range(0, 10**7, STEP):
        ran = run(program, *making(path), preexec_fn=lambda: small_files(size), env=env)
        if not ran[0]:
            break
        ends.add(ran[2].removeprefix(DEVICE).removeprefix(f"desk: {path}: ".encode()).strip().decode())
        see(f"what stays of {size} bytes is named", ran[2] in {DEVICE + because(path, DISK + more) for more in (REMOVE, EMPTY)}, True)
        for name in os.listdir(room):
            os.remove(f"{room}/{name}")
    see("what is said of what stays", ends, {DISK + REMOVE, DISK + EMPTY})
    said = run(program, "backup", path, f"{room}/copy.db", "--verbose", preexec_fn=lambda: small_files(9000), env=env)
    stays = because(f"{room}/copy.db", f"{DISK}; a part of it is left: remove it, the file -part beside it")
    see("a copy that stays in part", said, (1, b"no fault\n", b"desk: copy\n" + stays))


def stood_there(program, folder):
    """A making over what stands at its path leaves it as it is, byte for byte, and says what it is."""
    room = f"{folder}/stood"
    os.mkdir(room)

    def refused(path, cause, fault=NOT_A_DESK[2]):
        before = sorted((name, os.lstat(f"{room}/{name}")[:9]) for name in os.listdir(room))
        see(f"make over {os.path.basename(path)}", run(program, *making(path)), (1, b"", fault + because(path, cause)))
        see(f"make over {os.path.basename(path)}: what is there", sorted((name, os.lstat(f"{room}/{name}")[:9]) for name in os.listdir(room)), before)

    text = f"{room}/text.db"
    put(text, b"no database at all, but bytes")
    refused(text, TAKEN)
    see("its bytes", bytes_of(text), b"no database at all, but bytes")
    os.symlink(text, f"{room}/link.db")
    refused(f"{room}/link.db", TAKEN)
    os.symlink(f"{room}/nowhere.db", f"{room}/dangling.db")
    refused(f"{room}/dangling.db", "its path leads to no file", DEVICE)
    os.symlink("loop.db", f"{room}/loop.db")
    refused(f"{room}/loop.db", "its path leads to no file", DEVICE)
    os.mkdir(f"{room}/folder.db")
    refused(f"{room}/folder.db", "it is no regular file")
    os.mkfifo(f"{room}/pipe.db")
    refused(f"{room}/pipe.db", "it is no regular file", DEVICE)
    with socket.socket(socket.AF_UNIX) as server:
        server.bind(f"{room}/socket.db")
    refused(f"{room}/socket.db", "it is no regular file", DEVICE)
    put(f"{room}/journal.db-journal", b"a journal")
    refused(f"{room}/journal.db", JOURNAL_ALONE, DEVICE)
    os.mkdir(f"{room}/log.db-wal")
    refused(f"{room}/log.db", NO_LOG_FILE, DEVICE)
    refused(f"{room}/none/file.db", "its directory is missing", DEVICE)
    put(f"{room}/empty.db")
    put(f"{room}/empty.db-journal", b"a journal")
    refused(f"{room}/empty.db", JOURNAL_ALONE, DEVICE)
    for ending in ("-journal", "-wal", "-part"):
        refused(f"{text}{ending}", BESIDE)
    refused(f"{room}/{'n' * 248}", LONG_NAME, DEVICE)
    see("the longest name", run(program, *making(f"{room}/{'n' * 247}")), (0, b"made\n", b""))
    refused("", "its path leads to no file", DEVICE)
    unseen = "a\x1b[31m\n\u2028\u202e\u009b\u00e9\U0001f511b.db"
    escaped = r"a\u001b[31m\u000a\u2028\u202e\u009b\u00e9\ud83d\udd11b.db"
    see("a path with characters that are not to be seen", run(program, "status", f"{room}/{unseen}", "--verbose"),
        (1, b"", NOT_A_DESK[2] + because(f"{room}/{escaped}", "there is no such file")))
    for words in ((unseen,), ("status", room, unseen), ("status", room, "--status", unseen), ("serve", room, "--port", unseen)):
        ended, said, errors = run(program, *words)
        shown = escaped.replace(r"\u000a", "\n").encode()
        see(f"wrong words {words}", (ended, said, shown in errors, set(errors) <= {10, *range(32, 127)}), (2, b"", True, True))


def logs_that_are_none(program, folder):
    """What stands in the place of a log and is none is told as such, and stays."""
    path, log = fresh(program, folder, "logs"), f"{folder}/logs.db-wal"
    os.rename(log, f"{folder}/log-kept")

    def link():
        os.symlink(f"{folder}/log-kept", log)

    def pipe():
        os.mkfifo(log)

    def directory():
        os.mkdir(log)

    def bound():
        with socket.socket(socket.AF_UNIX) as server:
            server.bind(log)

    def hard_link():
        os.link(f"{folder}/log-kept", log)

    for stand, cause in ((link, NO_LOG_FILE), (pipe, NO_LOG_FILE), (directory, NO_LOG_FILE), (bound, NO_LOG_FILE), (hard_link, LINKED_LOG)):
        stand()
        before = os.lstat(log)[:6]
        see(f"a log that is a {stand.__name__}", run(program, "check", path, "--verbose"), (1, b"", DEVICE + because(path, cause)))
        see(f"it stays: {stand.__name__}", os.lstat(log)[:6], before)
        (os.rmdir if stand is directory else os.remove)(log)
    os.rename(f"{folder}/log-kept", log)
    see("the log itself", run(program, "check", path), (0, b"no fault\n", b""))


def log_alone(program, folder):
    """Where the log of a desk stands without its file, no desk is made, and the log stays."""
    path = fresh(program, folder, "log-alone")
    with subprocess.Popen([program, "batch", "--file", path], stdin=subprocess.PIPE, stdout=subprocess.PIPE) as batch:
        answered(batch, example("first")[0][0])
        batch.kill()
    log = bytes_of(f"{path}-wal")
    for said, is_there in (("no file", False), ("an empty one", True)):
        os.remove(path)
        if is_there:
            put(path)
        see(f"make beside the log of another desk, {said}", run(program, *making(path)), (1, b"", NOT_A_DESK[2] + because(path, LOG_ALONE)))
        see(f"what stands there then, {said}", (os.path.exists(path), bytes_of(f"{path}-wal") == log), (is_there, True))
        put(path)


def together(program, folder):
    """Of several that make a desk at one path one does, and that desk stays, also where the others meet a full disk."""
    room = f"{folder}/together-made"
    os.mkdir(room)
    path = f"{room}/made.db"
    for room_of_others in (10**9, 9000, 0):
        for _ in range(5):
            sizes = [10**9, room_of_others, room_of_others, room_of_others]
            runs = [subprocess.Popen([program, *making(path)], stdout=subprocess.PIPE, stderr=subprocess.PIPE,
                                     preexec_fn=lambda size=size: small_files(size)) for size in sizes]
            ends = [(ran.wait(), ran.stdout.read(), ran.stderr.read()) for ran in runs]
            made = [end for end in ends if end[0] == 0]
            see("how many make a desk at one path", len(made) <= 1, True)
            if made:
                see("the desk that one of them made", run(program, "check", path), (0, b"no fault\n", b""))
            remove(path)


TRIES = (terminals, ports, unheard, broken, ended, full_files, full_disks, kept, stood_there, logs_that_are_none, log_alone, together)
