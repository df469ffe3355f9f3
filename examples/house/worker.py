"""What the processes of the house share: lines for a log, and work that somebody else wakes."""
import threading
import traceback

# How long after a fault its work is tried again, in seconds.
AGAIN = 5


def log(text):
    """Prints one line, of characters that no terminal acts upon."""
    print("".join(letter if " " <= letter <= "~" else ascii(letter)[1:-1] for letter in text), flush=True)


def log_fault(what):
    """Prints what failed, and where."""
    for line in (what, *traceback.format_exc().splitlines()):
        log(line)


class Worker(threading.Thread):
    """Does its work at the start, as an earlier life may have left some, when it is woken, after a fault, and every so many seconds."""

    def __init__(self, work, hear=None, every=None):
        super().__init__(daemon=True)
        self.work, self.hear, self.every, self.called = work, hear, every, threading.Event()
        self.wake()
        self.start()

    def wake(self, text=""):
        """Has the work done, once what is said of it was heard."""
        if text and self.hear:
            self.hear(text)
        self.called.set()

    def run(self):
        pause = self.every
        while True:
            self.called.wait(pause)
            self.called.clear()
            try:
                self.work()
                pause = self.every
            except Exception:
                log_fault("work that is tried again")
                pause = AGAIN
