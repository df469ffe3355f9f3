"""A house around a desk, for a while: the desk served, front, validator and offices running, and all of them ended by their ids."""
import re
import socket
import subprocess
import sys
import tempfile
import threading
import time
import traceback

from scripts.repository import ROOT
from scripts.trying import checked, faults, free_port, see

# How long a program has to say that it is there, and how long to end, in seconds. A desk that nobody proved opens its file in some seconds of
# a processor, which it may share with proofs.
STARTING, PATIENCE = 180, 20


def see_free(port):
    """Says that a port was taken by another program, where it was."""
    try:
        socket.create_server(("127.0.0.1", port)).close()
    except OSError:
        raise RuntimeError(f"port {port} was taken by another program: type the same again") from None


class Run:
    """A program whose lines are said as they come, each with its name; `awaited` is what it says when it is there."""

    def __init__(self, name, words, say, awaited, **options):
        self.name, self.say, self.awaited, self.found = name, say, re.compile(awaited), None
        self.there = threading.Event()
        # Control C is for the script alone, which then ends what it started.
        self.run = subprocess.Popen(words, text=True, process_group=0, **{
            "stdin": subprocess.DEVNULL, "stdout": subprocess.PIPE, "stderr": subprocess.STDOUT, **options})
        self.reader = threading.Thread(target=self._read, daemon=True)
        self.reader.start()

    def _read(self):
        for line in self.run.stdout:
            self.say(f"{self.name}: {line.rstrip()}")
            self.found = self.found or self.awaited.search(line)
            if self.found:
                self.there.set()
        self.there.set()

    def wait(self, patience=STARTING):
        """Waits until the program is there, and gives what it said."""
        self.there.wait(patience)
        if not self.found:
            self.stop()
            raise RuntimeError(f"{self.name} did not say that it is there")
        return self.found

    def stop(self):
        self.run.terminate()
        try:
            self.run.wait(PATIENCE)
        except subprocess.TimeoutExpired:
            self.run.kill()
        self.reader.join(PATIENCE)


class House:
    """A desk of a program in a folder, and the house around it, which calls it by `called`, a socket or a port; `web` and `names` are ports for
    trials of challenges, `more` are further words of the house, and `errors` is where its standard error goes. `binding` is the identifier
    and the key by which accounts are bound to an external one, where they are to be."""

    binding = None

    def __init__(self, program, folder, say, web=None, names=None, requests=False, errors=subprocess.STDOUT, port=None, more=()):
        self.program, self.folder, self.say, self.errors, self.runs, self.port = program, folder, say, errors, [], port or free_port()
        self.base, self.root = f"https://localhost:{self.port}", f"{folder}/ca/root.pem"
        self.options = [f"--{name}=127.0.0.1:{port}" for name, port in (("web", web), ("resolver", names)) if port]
        self.options += [*more, *(["--requests"] if requests else [])]

    def make_desk(self):
        """Makes the desk and serves it."""
        path = f"{self.folder}/ca.db"
        made = subprocess.run([self.program, "make", path, "--base", self.base], stdout=subprocess.PIPE, text=True)
        if made.returncode:
            raise RuntimeError("the desk was not made")
        self.say(f"desk: {made.stdout.rstrip()}")
        self.called = self.desk_socket = f"{self.folder}/desk.socket"
        self.serve()

    def serve(self):
        """Serves the desk at its socket."""
        words = [self.program, "serve", f"{self.folder}/ca.db", "--socket", self.desk_socket]
        self.desk = Run("desk", words, self.say, f"listening on {re.escape(self.desk_socket)}")
        self.runs.append(self.desk)
        self.desk.wait()

    def kill_desk(self):
        """Kills the desk, and serves its file again at the same socket, which the one that was killed left there."""
        self.desk.run.kill()
        self.desk.run.wait()
        self.serve()

    def start(self):
        """Starts the house around the desk."""
        words = [sys.executable, "-B", f"{ROOT}/examples/house/house.py", f"{self.folder}/ca", f"--desk={self.called}",
                 f"--port={self.port}", *self.options]
        self.house = Run("house", words, self.say, "the front serves", stderr=self.errors)
        self.runs.append(self.house)
        try:
            self.house.wait()
        except RuntimeError:
            see_free(self.port)
            raise

    def kill(self):
        """Kills the house, and starts it again over the same authority and desk."""
        self.house.run.kill()
        self.house.run.wait()
        self.start()

    def __enter__(self):
        try:
            self.make_desk()
            self.start()
        except BaseException:
            self.__exit__()
            raise
        return self

    def __exit__(self, *_):
        for run in reversed(self.runs):
            run.stop()


def in_house(program, work, make=House, **options):
    """Has work done on a house in a folder of its own, which has the lines that it says; where something is not as it should be, they are
    printed at the end."""
    lines = []
    with tempfile.TemporaryDirectory(prefix="desk-house-") as folder:
        try:
            with make(program, folder, lines.append, **options) as house:
                house.lines = lines
                work(house)
        except Exception:
            faults.append(traceback.format_exc())
        see("the check of the desk", checked(program, f"{folder}/ca.db")[:2], (0, b"no fault\n"))
    print("\n".join(lines if faults else []), end="\n" if faults else "")


def try_each(trials, *given):
    """Makes trials one after the other, and says how long each took."""
    for trial in trials:
        start = time.monotonic()
        trial(*given)
        print(f"house: {trial.__name__}, {time.monotonic() - start:.1f} s", flush=True)
