"""Tries the numbers by which a desk that is served is watched: python3 -B -m scripts.serving.watched PROGRAM

What comes from /office/metrics is read by a strict reader of OpenMetrics 1.0. Behind requests of all routes each number is what the log of the
calls, the files and the lists of work say: calls by route and class of status, microseconds to the last one, faults, the last numbers given, the
clock, the sizes, and what waits. The slowest call is that since the reading before. A restart counts from nothing, but for what the file has.
"""
import json
import os
import re
import time
from collections import Counter

from scripts.serving.served import NEW_NONCE, Client, Server, request
from scripts.trying import begin, change, finish, fresh, see, tables_of, workspace

HEAD = (b"HTTP/1.1 200 OK\r\nConnection: close\r\nContent-Type: application/openmetrics-text; version=1.0.0; charset=utf-8\r\n\r\n")
METRICS = request("GET", "/office/metrics")
NAME = "[a-z][a-z_]*"
ABOUT = re.compile(rf"# (TYPE|UNIT|HELP) ({NAME}) (.*)")
SAMPLE = re.compile(rf'({NAME})(?:\{{({NAME}="[^"\\\n]*"(?:,{NAME}="[^"\\\n]*")*)\}})? ([0-9]+(?:e-6)?)')
# The routes of which calls are counted, in their order.
ROUTES = ("/directory", "/new-nonce", "/new-account", "/key-change", "/new-order", "/account/N", "/account/N/orders", "/order/N", "/order/N/finalize",
          "/cert/N", "/authz/N", "/chall/N", "/office/key/N", "/office/challenges", "/office/orders", "/office/report/N", "/office/certify/N",
          "/office/fail/N", "/office/revoke-authz/N", "/office/revoke-account/N", "/office/page", "/office/look", "/office/metrics", "/office/backup",
          "other")
CLASSES = ("2xx", "4xx", "5xx", "none")
FAULTS = tuple(str(number) for number in range(20, 28))
# The families, with the type of each, and its labels.
FAMILIES = {
    "desk_connections": ("counter", None),
    "desk_calls": ("counter", [(route, status) for route in ROUTES for status in CLASSES]),
    "desk_call_seconds": ("counter", [(route,) for route in ROUTES]),
    "desk_slowest_call_seconds": ("gauge", None),
    "desk_faults": ("counter", [(number,) for number in FAULTS]),
    "desk_accounts": ("counter", None),
    "desk_orders": ("counter", None),
    "desk_authorizations": ("counter", None),
    "desk_challenges": ("counter", None),
    "desk_clock_timestamp_seconds": ("gauge", None),
    "desk_clock_ahead_seconds": ("gauge", None),
    "desk_file_bytes": ("gauge", None),
    "desk_log_bytes": ("gauge", None),
    "desk_waiting_challenges": ("gauge", None),
    "desk_waiting_orders": ("gauge", None),
}
LABELS = {"desk_calls": ("route", "status"), "desk_call_seconds": ("route",), "desk_faults": ("number",)}
UNITS = ("seconds", "bytes")


def counted(number):
    """A number of the text: seconds as a whole number of microseconds."""
    return int(number.removesuffix("e-6"))


def read(text):
    """What a text of OpenMetrics says: by each family its type, and its samples by their labels. Each line is of the family before it."""
    see("the text ends with the line that says so", text.endswith("\n# EOF\n"), True)
    families, family = {}, None
    for line in text.removesuffix("# EOF\n").splitlines():
        about, sample = ABOUT.fullmatch(line), SAMPLE.fullmatch(line)
        if about and about[1] == "TYPE":
            see(f"one family {about[2]}", about[2] in families, False)
            family = families[about[2]] = {"name": about[2], "type": about[3], "about": {}, "samples": {}}
        elif about:
            see(f"{line!r}: once, and before the samples of its family",
                (about[2], about[1] in family["about"], family["samples"]), (family["name"], False, {}))
            family["about"][about[1]] = about[3]
        elif sample:
            labels = tuple(tuple(label.split("=", 1)) for label in sample[2].split(",")) if sample[2] else ()
            ending = "_total" if family["type"] == "counter" else ""
            see(f"{line!r}: its name", sample[1], family["name"] + ending)
            see(f"{line!r}: its labels", tuple(name for name, _ in labels), LABELS.get(family["name"], ()))
            values = tuple(value.strip('"') for _, value in labels) or None
            see(f"{line!r}: once", values in family["samples"], False)
            family["samples"][values] = counted(sample[3])
        else:
            see(f"{line!r}", "no line of OpenMetrics", "one")
    for name, found in families.items():
        unit = next((unit for unit in UNITS if name.endswith(f"_{unit}")), None)
        see(f"{name}: its unit and its help", (found["about"].get("UNIT"), bool(found["about"].get("HELP"))), (unit, True))
    return families


def metrics(server):
    """The samples of a reading, by family."""
    said = server.ask(METRICS)
    see("the head of the metrics", said[:len(HEAD)], HEAD)
    families = read(said[len(HEAD):].decode())
    see("the families", {name: (found["type"], list(found["samples"])) for name, found in families.items()},
        {name: (kind, labels or [None]) for name, (kind, labels) in FAMILIES.items()})
    return {name: found["samples"] for name, found in families.items()}


# ---- what the log says


def label_of(line):
    """The route of a call that the log tells."""
    route = re.sub(r"/[1-9][0-9]*(?=/|$)", "/N", line["path"])
    return route if route in ROUTES else "other"


def class_of(status):
    return "none" if status is None else "2xx" if status < 400 else "4xx" if status < 500 else "5xx"


class Told:
    """What the lines of a log say together."""

    def __init__(self):
        self.connections, self.calls, self.micros, self.faults, self.slowest = 0, Counter(), Counter(), Counter(), 0

    def add(self, line):
        self.connections += 1
        if line["microseconds"] is not None:
            self.calls[label_of(line), class_of(line["status"])] += 1
            self.micros[(label_of(line),)] += line["microseconds"]
            self.slowest = max(self.slowest, line["microseconds"])
        if (line["number"] or 0) >= 20:
            self.faults[(str(line["number"]),)] += 1

    def see(self, name, found):
        """Each counter of a reading is what the lines before it say."""
        see(f"{name}: connections", found["desk_connections"], {None: self.connections})
        see(f"{name}: calls", +Counter(found["desk_calls"]), self.calls)
        see(f"{name}: microseconds", +Counter(found["desk_call_seconds"]), +self.micros)
        see(f"{name}: the slowest", found["desk_slowest_call_seconds"], {None: self.slowest})
        see(f"{name}: faults", +Counter(found["desk_faults"]), self.faults)
        self.slowest = 0


def heard(server, told, connections):
    """Takes so many lines of the log."""
    for _ in range(connections):
        told.add(json.loads(server.run.stdout.readline()))


# ---- the tries


def asked(server):
    """Requests of all routes, of which some are refused and some lead nowhere; a client that sends half of one; and how many came."""
    client, asks = Client(server), []
    plain = server.ask
    server.ask = lambda *given, **options: asks.append(given) or plain(*given, **options)
    client.open_account()
    number = client.ready_order()
    client.certify(number, b"a certificate")
    client.order("b.example")
    for path in ("/account/1", "/account/1/orders", "/order/2", "/authz/2", "/order/99"):
        client.post(path, "", 404 if path == "/order/99" else 200)
    client.post("/chall/3", "{}")
    for method, path in (("GET", "/directory"), ("GET", "/nothing"), ("PUT", "/new-order"), ("GET", "/office/key/1"), ("GET", "/office/orders"),
                         ("POST", "/office/fail/2"), ("POST", "/office/revoke-authz/9"), ("GET", "/office/page"), ("HEAD", "/new-nonce")):
        plain(request(method, path))
        asks.append(path)
    server.ask = plain
    with server.connect() as gone:
        gone.sendall(b"GET /dir")
    return len(asks) + 1


def counters(program, folder):
    """Each counter is what the log says, and each gauge what the files and the lists of work say."""
    path = fresh(program, folder, "watched")
    server, told = Server(program, path, "--log", "json"), Told()
    told.see("at the start", metrics(server))
    heard(server, told, 1)
    heard(server, told, asked(server))
    told.see("behind requests", found := metrics(server))
    heard(server, told, 1)
    work = [len(json.loads(server.ask(request("GET", f"/office/{kind}")).partition(b"\r\n\r\n")[2])[kind]) for kind in ("challenges", "orders")]
    see("what waits", [found[f"desk_waiting_{kind}"][None] for kind in ("challenges", "orders")], work)
    see("a challenge waits", work[0] > 0, True)
    heard(server, told, 2)
    sizes = [os.path.getsize(path), os.path.getsize(f"{path}-wal")]
    told.see("at the end", found := metrics(server))
    see("the sizes", [found["desk_file_bytes"][None], found["desk_log_bytes"][None]], sizes)
    server.stop()
    meta = tables_of(path, folder)["meta"][0]
    see("the last numbers and the clock", [found[f"desk_{name}"][None] for name in (
        "accounts", "orders", "authorizations", "challenges", "clock_timestamp_seconds")], [*meta[8:12], meta[6]])
    see("the clock is not ahead", found["desk_clock_ahead_seconds"], {None: 0})
    again = Server(program, path)
    Told().see("behind a restart", found := metrics(again))
    see("the last numbers stay", [found[f"desk_{name}"][None] for name in ("accounts", "orders", "authorizations", "challenges")], [*meta[8:12]])
    again.stop()


def ended(program, folder):
    """A challenge that was answered waits for as long as its authorization is pending."""
    server = Server(program, fresh(program, folder, "ended"))
    client = Client(server)
    client.open_account()
    client.order("a.example")
    client.post("/chall/1", "{}")
    see("a challenge that was answered waits", metrics(server)["desk_waiting_challenges"], {None: 1})
    client.post("/authz/1", '{"status":"deactivated"}')
    see("one of an authorization that ended does not", metrics(server)["desk_waiting_challenges"], {None: 0})
    see("nobody is asked for it", server.ask(request("GET", "/office/challenges")).endswith(b'{"challenges":[]}'), True)
    server.stop()


def faults_and_clock(program, folder):
    """Calls that are refused for their moment are counted by their fault; a clock that is ahead is told."""
    path, told = fresh(program, folder, "bounded"), Told()
    change(path, "UPDATE meta SET clock = 1000000000")
    server = Server(program, path, "--log", "json", "--max-step", "60")
    for _ in range(3):
        server.ask(NEW_NONCE)
    heard(server, told, 3)
    see("faults 24", told.faults, Counter({("24",): 3}))
    told.see("behind faults", metrics(server))
    server.stop()
    ahead = int(time.time()) + 5000
    change(path, f"UPDATE meta SET clock = {ahead}")
    server = Server(program, path)
    before = int(time.time())
    found = metrics(server)
    see("how far the clock is ahead", before <= ahead - found["desk_clock_ahead_seconds"][None] <= time.time(), True)
    see("the clock", found["desk_clock_timestamp_seconds"], {None: ahead})
    server.stop()


def main(program):
    with workspace("watched") as folder:
        for tries in (counters, ended, faults_and_clock):
            tries(program, folder)
    return finish("Watched")


if __name__ == "__main__":
    begin(main, __doc__)
