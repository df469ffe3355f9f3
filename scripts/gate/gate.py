"""Runs the proofs of the gate, and beside them what a newcomer types first, and says how far they are.

  python3 -m scripts.gate.gate           `rt ci`, with scripts/gate/newcomer.sh beside it where memory allows, otherwise after it
  python3 -m scripts.gate.gate WORD..    another run of `rt` in crates/desk_app, such as `rt run`, alone

What `rt` prints is printed as it comes, and at the end what it took; what the newcomer's run printed, when that has ended.
"""
import contextlib
import os
import queue
import re
import resource
import signal
import subprocess
import sys
import tempfile
import threading
import time

from scripts.gate.progress import Progress, below, end_by_signals
from scripts.repository import ROOT, crates

# What `rt` says of a crate that is done: under `rt ci` by its name, otherwise by what its check counted.
DONE_IN_GATE, DONE = re.compile(r"rt: (\w+) (proved|NOT PROVED|is kept)\b"), re.compile(r"logic=proved ()")
# What it says of an edit that shows nothing, as what it leaves out is named elsewhere. It fails nothing there.
BAD = re.compile(r"rt: must-fail (\S+): BAD EDIT")
# The memory in GB that the newcomer's run takes at its most, and a check of `rt ci` at the same time.
NEWCOMER, CHECK = 8, 2.5


def at_work(process):
    """What the processes that `rt` started work on, by the names of the crates."""
    found = set()
    for words in below(process).values():
        if "--crate-name" in words:
            name = words[words.index("--crate-name") + 1]
            found.add(f"{name} (edits)" if any("/rt-edits-" in word for word in words) else name)
        elif words and words[0].endswith("_tests"):
            found.add(os.path.basename(words[0]))
    return ", ".join(sorted(found)) or "the tests"


class Proofs:
    """A run of `rt`, whose lines are printed as they come."""

    def __init__(self, words, done, progress, of="", folder=ROOT):
        self.done, self.progress, self.of, self.count, self.lines = done, progress, of, 0, queue.Queue()
        self.bad = []
        self.start = time.monotonic()
        self.run = subprocess.Popen(["rt", *words], cwd=folder, stdin=subprocess.DEVNULL, stdout=subprocess.PIPE, stderr=subprocess.STDOUT, text=True,
                                    encoding="utf-8", errors="replace")
        threading.Thread(target=self._read, daemon=True).start()

    def _read(self):
        for line in self.run.stdout:
            self.lines.put(line)
        self.lines.put(None)

    def say(self):
        return f"{self.count}{self.of} crates are proved; at work: {at_work(self.run.pid)}"

    def wait(self, beside=None):
        """Prints what the run says until its end, and what a run beside it has said when that has ended; gives the exit status."""
        line = ""
        try:
            while line is not None:
                with contextlib.suppress(queue.Empty):
                    line = self.lines.get(timeout=0.5)
                    self.progress.clear()
                    print(line or "", end="", flush=True)
                    self.count += bool(line and self.done.match(line))
                    self.bad += BAD.findall(line or "")
                self.progress.show(self.say)
                if beside:
                    beside.tell()
            return self.run.wait()
        finally:
            self.run.terminate()
            self.progress.clear()

    def took(self):
        used = resource.getrusage(resource.RUSAGE_CHILDREN)
        return f"{time.monotonic() - self.start:.0f} seconds, and with what ran beside them {used.ru_utime + used.ru_stime:.0f} of processors"


class Newcomer:
    """The newcomer's run, which gives way to the proofs; what it prints is kept for its end."""

    def __init__(self, progress):
        self.progress, self.is_told = progress, False
        self.output = tempfile.TemporaryFile("w+", encoding="utf-8", errors="replace")
        self.run = subprocess.Popen(["nice", "-n", "5", f"{ROOT}/scripts/gate/newcomer.sh"], stdin=subprocess.DEVNULL, stdout=self.output,
                                    stderr=subprocess.STDOUT, process_group=0)

    def tell(self):
        """Prints what the run said, once it has ended."""
        if self.is_told or self.run.poll() is None:
            return
        self.is_told = True
        self.progress.clear()
        self.output.seek(0)
        print(f"---- What a newcomer types:\n{self.output.read()}---- It ended with status {self.run.returncode}.", flush=True)

    def wait(self):
        """Waits for the run's end, and gives its exit status."""
        while not self.is_told:
            self.progress.show(lambda: "what a newcomer types is tried")
            time.sleep(0.2)
            self.tell()
        return self.run.returncode

    def stop(self):
        with contextlib.suppress(ProcessLookupError):
            os.killpg(self.run.pid, signal.SIGTERM)
        self.run.wait()


def is_room():
    """Whether there is memory for the newcomer's run beside the checks."""
    free = int(subprocess.run([f"{ROOT}/scripts/setup.sh", "memory"], stdout=subprocess.PIPE, check=True).stdout)
    return free >= NEWCOMER + CHECK * int(os.environ.get("RT_JOBS") or os.cpu_count())


def gate():
    """Returns the exit status."""
    progress = Progress()
    beside = Newcomer(progress) if is_room() else None
    try:
        proofs = Proofs(["ci"], DONE_IN_GATE, progress, f" of {len(crates())}")
        status = proofs.wait(beside)
        print(f"The proofs took {proofs.took()}.", flush=True)
        if status:
            return fail("rt ci did not pass")
        if proofs.bad:
            return fail(f"{', '.join(proofs.bad)} could not be tried")
        beside = beside or Newcomer(progress)
        if beside.wait():
            return fail("what a newcomer types did not end well")
        return 0
    finally:
        if beside:
            beside.stop()


def fail(why):
    print(f"The gate failed: {why}; what it said stands above.", flush=True)
    return 1


def main():
    end_by_signals()
    words = sys.argv[1:]
    return Proofs(words, DONE, Progress(), folder=f"{ROOT}/crates/desk_app").wait() if words else gate()


if __name__ == "__main__":
    sys.exit(main())
