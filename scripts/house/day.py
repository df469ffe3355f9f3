"""Does what an operator does in a day while one desk serves, with a house around it that gives certificates all the while:
python3 -m scripts.house.day PROGRAM

Nothing is stopped: the desk is looked at by each word, its page and its metrics are read, it is backed up, the copy is checked, restored
to another path and served there, and what a client holds is revoked. Beside each of these clients get certificates, and none is refused one.
"""
import json
import re
import threading
import time

from scripts.house.client import Client, Names, Web
from scripts.house.housed import Run, in_house
from scripts.house.trials import Trial
from scripts.serving.served import reached, received, request
from scripts.trying import begin, checked, finish, run, see

# How long a client has for a certificate, in seconds.
PATIENCE = 120


class Renewing(threading.Thread):
    """A client that gets one certificate after the other, and counts them."""

    def __init__(self, house, web, names):
        super().__init__(daemon=True)
        self.trial, self.count, self.over, self.failed = Trial(house, web, names), 0, threading.Event(), []

    def run(self):
        try:
            while not self.over.is_set():
                names = [f"n{self.count}.house.test"]
                self.trial.certified(*self.trial.ordered(*names), names)
                self.count += 1
        except Exception as failure:
            self.failed.append(repr(failure))

    def wait(self, count):
        """Waits until there are so many certificates."""
        end = time.monotonic() + PATIENCE
        while self.count < count and not self.failed and time.monotonic() < end:
            time.sleep(0.05)
        see(f"{count} certificates", self.count >= count, True)


class Day:
    """What the operator of a house does by the program, at the socket of its desk."""

    def __init__(self, house):
        self.house, self.at = house, ("--socket", house.desk_socket)

    def say(self, *words, status=0):
        """What the program prints by these words at the socket."""
        found = run(self.house.program, *words, *self.at)
        see(f"{words}", (found[0], found[2]), (status, b""))
        return found[1]

    def look(self):
        """Each report, as text and as JSON, and the page."""
        for word in ("status", "accounts", "authorizations"):
            rows = [json.loads(line) for line in self.say(word, "--json").splitlines()]
            see(f"{word}: the numbers", [row["number"] for row in rows], list(range(1, len(rows) + 1)))
            see(f"{word}: a first row", len(rows) > 0, True)
            see(f"{word}: its last line", re.search(rb"(\w+) (\d+)\n\Z", self.say(word)) is not None, True)
        see("status of a name", self.say("status", "--name", "n0.house.test").endswith(b"orders 1\n"), True)
        see("check", (self.say("check"), self.say("check", "--json")), (b"no fault\n", b""))
        see("about", self.house.base.encode() in self.say("about"), True)
        see("the page", self.say("page").endswith(b"</html>\n"), True)

    def watch(self):
        """The metrics, as a program that reads them regularly gets them."""
        with reached(self.house.desk_socket) as desk:
            desk.sendall(request("GET", "/office/metrics"))
            head, _, shown = received(desk).partition(b"\r\n\r\n")
        see("the type of metrics", b"application/openmetrics-text" in head, True)
        see("the end of metrics", shown.endswith(b"# EOF\n"), True)

    def back_up(self):
        """A copy, which is checked, restored to another path, and served there beside the desk."""
        first, again, other = (f"{self.house.folder}/{name}.db" for name in ("first", "again", "restored"))
        see("backup", self.say("backup", first), b"no fault\ncopied\n")
        see("a second backup", self.say("backup", again), b"no fault\ncopied\n")
        see("the check of a copy", checked(self.house.program, first)[:2], (0, b"no fault\n"))
        orders = [run(self.house.program, "status", path, "--json")[1].splitlines() for path in (first, again)]
        see("what a second copy has beside the first", len(orders[1]) >= len(orders[0]) > 0, True)
        see("restore", run(self.house.program, "restore", first, other), (0, b"no fault\nrestored\n", b""))
        place = f"{self.house.folder}/restored.socket"
        served = Run("restored", [self.house.program, "serve", other, "--socket", place], self.house.say, "listening on")
        served.wait()
        see("the orders of what was restored", run(self.house.program, "status", "--json", "--socket", place)[1].splitlines(), orders[0])
        served.stop()

    def revoke(self):
        """An authorization and an account that a client holds, by the numbers that the reports tell."""
        other = Client(self.house.base, self.house.root)
        other.open_account()
        see("an order", other.order("revoked.house.test").status, 201)
        [row] = [json.loads(line) for line in self.say("authorizations", "--json", "--name", "revoked.house.test").splitlines()]
        number, account = str(row["number"]), str(row["account"])
        see("revoke-authz", self.say("revoke-authz", number), f"authz {number} revoked\n".encode())
        see("revoke-account", self.say("revoke-account", account), f"account {account} revoked\n".encode())
        [row] = [json.loads(line) for line in self.say("authorizations", "--json", "--account", account).splitlines()]
        see("the authorization that was revoked", row["status"], "revoked")


def work(house, web, names):
    """A day: beside each part of it at least one more certificate is given, by the desk that served at its beginning."""
    renewing, day, pid = Renewing(house, web, names), Day(house), house.desk.run.pid
    renewing.start()
    renewing.wait(1)
    for part in (day.look, day.watch, day.back_up, day.revoke, day.look):
        before, start = renewing.count, time.monotonic()
        part()
        renewing.wait(before + 1)
        print(f"day: {part.__name__}, {time.monotonic() - start:.1f} s, {renewing.count - before} certificates", flush=True)
    renewing.over.set()
    renewing.join(PATIENCE)
    see("the client", (renewing.is_alive(), renewing.failed), (False, []))
    see("the desk", (house.desk.run.pid, house.desk.run.poll()), (pid, None))


def main(program):
    web, names = Web(), Names()
    in_house(program, lambda house: work(house, web, names), web=web.server_port, names=names.server_address[1])
    return finish("day")


if __name__ == "__main__":
    begin(main, __doc__)
