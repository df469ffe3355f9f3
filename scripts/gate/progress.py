"""The line that says how far a long run is: in its place on a terminal, otherwise a line each 20 seconds."""
import contextlib
import os
import shutil
import signal
import sys
import time

# How many seconds lie between two lines, on a terminal and elsewhere.
ON_TERMINAL, ELSEWHERE = 1, 20


class Progress:
    """What is said of a run since it began; each line has something before it."""

    def __init__(self, before=""):
        self.in_place = sys.stdout.isatty() and os.environ.get("TERM", "dumb") != "dumb"
        self.before, self.start, self.is_shown = before, time.monotonic(), False
        self.last = self.start

    def show(self, text):
        """Says how far the run is, where it is time for it; `text` gives that."""
        now = time.monotonic()
        if now - self.last < (ON_TERMINAL if self.in_place else ELSEWHERE):
            return
        self.last, minutes = now, int(now - self.start) // 60
        line = f"{self.before}... {minutes}:{int(now - self.start) % 60:02}, {text()}"
        if self.in_place:
            print(f"\r{line[:shutil.get_terminal_size().columns - 1]}\033[K", end="", flush=True)
        else:
            print(line, flush=True)
        self.is_shown = self.in_place

    def clear(self):
        """Takes the line away, for what is printed next."""
        if self.is_shown:
            print("\r\033[K", end="")
        self.is_shown = False


def end_by_signals():
    """Has the signals that end a script end all that it started: it leaves by SystemExit."""
    for end in (signal.SIGINT, signal.SIGTERM, signal.SIGHUP):
        signal.signal(end, lambda number, _: sys.exit(128 + number))


def below(process):
    """The processes that a process started, and those that they started, each by its number with its words."""
    parents = {}
    for name in filter(str.isdigit, os.listdir("/proc")):
        with contextlib.suppress(OSError), open(f"/proc/{name}/stat", encoding="utf-8", errors="replace") as stat:
            parents[int(name)] = int(stat.read().rpartition(")")[2].split()[1])
    found, new = {}, {process}
    while new:
        new = {number for number, parent in parents.items() if parent in new}
        found.update((number, words_of(number)) for number in new)
    return found


def words_of(process):
    with contextlib.suppress(OSError), open(f"/proc/{process}/cmdline", "rb") as words:
        return [os.fsdecode(word) for word in words.read().split(b"\0")[:-1]]
    return []
