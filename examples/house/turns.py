"""Jobs that are done side by side, few of one owner's at one time, and owners in turn: nobody's many keep another's one waiting."""
import collections
import threading
from concurrent.futures import ThreadPoolExecutor


class Turns:
    """Does jobs, `most` of them at one time, and of these `each` of one owner."""

    def __init__(self, most, each):
        self.most, self.each, self.pool = most, each, ThreadPoolExecutor(most)
        self.lock, self.running, self.waiting = threading.Lock(), collections.Counter(), {}

    def add(self, owner, job, *given):
        with self.lock:
            self.waiting.setdefault(owner, collections.deque()).append((job, given))
            self._start()

    def _start(self):
        """Starts what may start: of the owners that wait, and may have one more, the one whose turn was longest ago."""
        while self.running.total() < self.most:
            owner = next((owner for owner in self.waiting if self.running[owner] < self.each), None)
            if owner is None:
                return
            jobs = self.waiting.pop(owner)
            self.running[owner] += 1
            self.pool.submit(self._do, owner, *jobs.popleft())
            if jobs:
                self.waiting[owner] = jobs

    def _do(self, owner, job, given):
        try:
            job(*given)
        finally:
            with self.lock:
                self.running[owner] -= 1
                self.running += collections.Counter()  # Owners that have none are forgotten.
                self._start()
