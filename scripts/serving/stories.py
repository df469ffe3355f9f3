"""The batches of examples/ as HTTP requests: a part of scripts/serving/serve.py."""
import base64
import calendar
import hashlib
import json
import os
import re
import resource
import struct
import time

from scripts.model.texts import moment_text, spelled
from scripts.repository import ROOT
from scripts.serving.served import (DIRECTORY, NEW_NONCE, NONCE, STOPPED, Server, directory_reply, masked, nonce_reply, refusal, reply, request,
                                    route_of, serial_of)
from scripts.specification import LAST, ROUTES
from scripts.trying import BASE, example, fresh, library, nonce_text, put, run, see, tables_of


ZERO_TOKEN = spelled(bytes(16)).encode()


def seconds_of(moment):
    return calendar.timegm(time.strptime(moment, "%Y-%m-%dT%H:%M:%SZ"))


MOMENT = re.compile(rb"\d{4}-\d\d-\d\dT\d\d:\d\d:\d\dZ")


def digest(text):
    return spelled(hashlib.sha256(text).digest()).encode()


def part_of(text):
    """The base64url of a text up to a third byte, as it stands in that of each longer text."""
    return base64.urlsafe_b64encode(text[:len(text) // 3 * 3])


class Story:
    """A batch of calls at the moment 0 with random bytes that are zero, sent to a desk that has the machine's clock and random
    bytes. Nonces, tokens and moments of its replies are put back to those of the batch, and then they must be the same."""

    def __init__(self, server, folder):
        self.server, self.folder, self.start = server, folder, int(time.time())
        # From the batch's text to the served one.
        self.nonces, self.proofs = {}, {}
        self.uses, self.thumbprints = {}, set()

    def learn(self):
        """The tokens of the challenges, and what proves them by each key that an account has or had."""
        tables = tables_of(self.server.path, self.folder)
        self.thumbprints |= {digest(row[1]) for row in tables["account"]}
        self.uses = {row[0]: row[1] for row in tables["chall"]}
        self.proofs = {row[0]: list(self.proofs_by(spelled(row[3]).encode())) for row in tables["chall"]}

    def proofs_by(self, token):
        """The texts that prove a challenge: that of the batch, whose token is zero, and the served one."""
        for thumbprint in sorted(self.thumbprints):
            zero, served = (text + b"." + thumbprint for text in (ZERO_TOKEN, token))
            yield from ((zero, served), (digest(zero), digest(served)))
        yield ZERO_TOKEN, token

    def bytes_of(self, call):
        """The bytes of the request of a line."""
        body = call["body"].encode()
        for old, new in self.nonces.items():
            body = body.replace(old, new)
        report = re.fullmatch(r"/office/report/([1-9][0-9]*)", call["path"])
        if report:
            body = self.report(body, self.proofs.get(int(report[1]), ()))
        return request(call["method"], call["path"], body if body or call["method"] == "POST" else None)

    def report(self, body, proofs):
        """The body of a report, with the served proof in place of the batch's."""
        for zero, served in proofs:
            body = body.replace(zero, served).replace(part_of(zero), part_of(served))
        return body

    def restored(self, data, wanted):
        """A reply with the batch's nonce, tokens and moments."""
        for found in NONCE.findall(data):
            self.nonces[nonce_text(serial_of(found)).encode()] = found
        data = masked(data)
        for proofs in self.proofs.values():
            for zero, served in proofs:
                data = data.replace(served, zero)
        moments, last = MOMENT.findall(wanted), int(time.time())
        if len(MOMENT.findall(data)) == len(moments):
            told = iter(moments)
            data = MOMENT.sub(lambda found: self.moment(found[0], next(told), last), data)
        return data

    def moment(self, found, wanted, last):
        """The batch's moment, where the one that was found is as long after a moment of the story as it is after 0."""
        made = seconds_of(found.decode()) - seconds_of(wanted.decode())
        return wanted if self.start <= made <= last else found

    def wanted(self, call, line):
        """The bytes of the reply of a line."""
        status, location, nonce, body = line.split(" ", 3)
        status, path = int(status), call["path"]
        body = None if body == "-" else bytes.fromhex(body[4:]) if body.startswith("hex:") else body.encode()
        kind = "pem-certificate-chain" if path.startswith("/cert/") else "json"
        kind = f"application/{'problem+json' if status >= 400 else kind}"
        challenge = re.fullmatch(r"/chall/([1-9][0-9]*)", path) if status == 200 else None
        fields = {
            "allow": ROUTES[route_of(path)] if status == 405 else None,
            "fresh": path == "/new-nonce" and status < 300,
            "up": f"{BASE}/authz/{self.uses[int(challenge[1])]}" if challenge else None,
            "location": None if location == "-" else location,
            "nonce": None if nonce == "-" else nonce,
        }
        return reply(status, body, kind, path, head=call["method"] == "HEAD", **fields)

    def tell(self, name, number, call, line):
        data = self.server.ask(self.bytes_of(call))
        if call["path"] in ("/new-order", "/new-account", "/key-change"):
            self.learn()
        wanted = self.wanted(call, line)
        see(f"{name}, line {number}: {call['method']} {call['path']}", self.restored(data, wanted), wanted)


class Machine:
    """The clock and the random bytes of a program, which the script sets (by scripts/faults.c, compiled into `preload`)."""

    def __init__(self, folder, preload):
        self.file = f"{folder}/moment"
        self.env = {**os.environ, "LD_PRELOAD": preload, "MACHINE": self.file}
        self.set(0)

    def set(self, moment, fails=False):
        """Sets the moment, below 0 for a clock that fails; random bytes are zero or fail."""
        put(self.file, struct.pack("qq", moment, fails))


class SetStory(Story):
    """A batch sent to a desk whose machine has the moments and the random bytes of the batch: the replies are the same."""

    def __init__(self, server, folder, machine):
        super().__init__(server, folder)
        self.machine = machine

    def bytes_of(self, call):
        self.machine.set(min(call["at"], LAST))
        return request(call["method"], call["path"], call["body"].encode())

    def restored(self, data, wanted):
        return data


def set_machine(program, folder):
    """Batches at moments of their own; a clock past the last moment; a machine that fails."""
    machine = Machine(folder, library(folder))
    for name in ("clock", "moments", "order", "renewal"):
        calls, lines = batch_of(name)
        story = SetStory(Server(program, fresh(program, folder, name), env=machine.env), folder, machine)
        for number, (call, line) in enumerate(zip(calls, lines), 1):
            story.tell(name, number, call, line)
        see(f"{name} at its moments: the end", story.server.stop(), STOPPED)
    path = fresh(program, folder, "machine")
    server = Server(program, path, env=machine.env)
    before = tables_of(path, folder)
    machine.set(250000000001)
    see("a clock past the last moment", server.ask(NEW_NONCE), refusal(15, "/new-nonce"))
    see("its tables", tables_of(path, folder), before)
    machine.set(250000000000)
    see("a clock at the last moment", server.ask(NEW_NONCE), nonce_reply(1))
    for said, moment, fails in (("clock", -1, False), ("random", 0, True)):
        server = server if server.run.poll() is None else Server(program, path, env=machine.env)
        before = tables_of(path, folder)
        machine.set(moment, fails)
        see(f"no {said}", server.ask(NEW_NONCE) in (b"", b"(reset)"), True)
        see(f"no {said}: the end", server.ended(), (1, b"", f"desk: {said}\n".encode()))
        see(f"no {said}: the tables", tables_of(path, folder), before)
    machine.set(250000000000)
    few = Server(program, path, env=machine.env, preexec_fn=lambda: resource.setrlimit(resource.RLIMIT_NOFILE, (6, 6)))
    see("no room for a connection", few.ended(), (1, b"", b"desk: accept\n"))


# A moment of November 2025; 30 days; the year 2099.
TODAY, STEP, WRONG = 1764547200, 2592000, 4070908800
# What is said where the desk's clock is ahead of the machine's, and where it is too far ahead.
LEAD = b"desk: the desk's clock is %d seconds ahead of the machine's\n"
TOO_FAR = b"desk: that is more than --max-ahead allows: set the machine's clock, or restore a backup from before the wrong reading\n"


def stepped(server, machine, moments):
    """Asks for a nonce at each moment: whether it was refused as it should be, and what the log says of it."""
    for moment, is_refused in moments:
        machine.set(moment)
        found = server.ask(NEW_NONCE)
        see(f"a nonce at {moment_text(moment)}", found == refusal(15, "/new-nonce"), is_refused)
        line = server.run.stdout.readline().decode()
        said = f"{moment_text(moment)} GET /new-nonce {'500 24' if is_refused else '204 -'} - "
        see(f"the log at {moment_text(moment)}: {line!r}", line.startswith(said), True)


def max_step(program, folder):
    """A machine's clock that is wrong: by --max-step a call is refused, and nothing changes, whose moment is too far above the latest."""
    machine = Machine(folder, library(folder))
    path, words = fresh(program, folder, "bounded"), ("--log", "--max-step", str(STEP))

    def served(*more):
        return Server(program, path, *more, env=machine.env)

    # The clock of a desk that was just made bounds nothing but what is past the last moment.
    server = served(*words)
    stepped(server, machine, [(250000000001, True), (TODAY, False)])
    before = tables_of(path, folder)
    stepped(server, machine, [(WRONG, True), (TODAY + STEP + 1, True), (250000000000, True)])
    see("a directory at a wrong moment", server.ask(DIRECTORY), refusal(15, "/directory"))
    see("what is no call at a wrong moment", server.ask(request("GET", "/nothing")), refusal(2, "/nothing"))
    server.run.stdout.readline(), server.run.stdout.readline()
    see("the tables after wrong moments", tables_of(path, folder), before)
    stepped(server, machine, [(TODAY - STEP, False), (TODAY + STEP, False), (TODAY + 2 * STEP + 1, True), (TODAY + 2 * STEP, False)])
    # A look at the directory is a moment that is known, and moves no clock.
    machine.set(TODAY + 3 * STEP)
    see("the directory at the step", server.ask(DIRECTORY), directory_reply())
    server.run.stdout.readline()
    see("bounded: the end", server.stop(), STOPPED)
    silent = TODAY + 4 * STEP
    server = served(*words)
    stepped(server, machine, [(silent, True), (TODAY + 3 * STEP, False)])
    see("bounded again: the end", server.stop(), STOPPED)
    late = TODAY + 365 * 86400
    server = served(*words)
    stepped(server, machine, [(late, True), (late + 1, True)])
    see("a silent desk: the end", server.stop(), STOPPED)
    server = served("--log")
    stepped(server, machine, [(late, False)])
    see("once without the option: the end", server.stop(), STOPPED)
    server = served(*words)
    stepped(server, machine, [(late + 1, False), (WRONG, True), (late + 2, False)])
    see("a desk that is bounded again: the end", server.stop(), STOPPED)


def max_ahead(program, folder):
    """A desk whose clock is ahead of the machine's is served with a line that says so, and by --max-ahead only where it is not too far ahead."""
    machine = Machine(folder, library(folder))
    path = fresh(program, folder, "lead")
    machine.set(TODAY + STEP)
    server = Server(program, path, "--max-ahead", "1", env=machine.env)
    see("a new desk: a nonce", server.ask(NEW_NONCE), nonce_reply(1))
    see("a new desk: the end", server.stop(), STOPPED)
    for moment, said in ((TODAY + STEP, b""), (TODAY + 2 * STEP, b""), (TODAY, LEAD % STEP)):
        machine.set(moment)
        for words in ((), ("--max-ahead", str(STEP)), ("--max-ahead", "250000000000")):
            server = Server(program, path, *words, env=machine.env)
            see(f"a machine at {moment}, {words}: the end", server.stop(), (*STOPPED[:2], said))
    machine.set(-1)
    see("a machine before 1970: the end", Server(program, path, env=machine.env).stop(), STOPPED)
    found = run(program, "serve", path, "--port", "0", "--max-ahead", "250000000000", env=machine.env)
    see("a machine before 1970, --max-ahead", found, (1, b"", b"desk: clock\n"))
    before = tables_of(path, folder)
    for moment, most in ((TODAY, "1"), (TODAY, str(STEP - 1)), (TODAY + STEP - 2, "1"), (0, "86400")):
        machine.set(moment)
        found = run(program, "serve", path, "--port", "0", "--max-ahead", most, env=machine.env)
        see(f"a machine at {moment}, --max-ahead {most}", found, (1, b"", LEAD % (TODAY + STEP - moment) + TOO_FAR))
    see("the tables of a desk that is not served", tables_of(path, folder), before)


def batch_of(name):
    """The calls of a batch of examples/, and the lines of its replies."""
    calls, replies = example(name)
    return [json.loads(call) for call in calls], replies.decode().splitlines()


def is_sendable(call):
    """Whether the method and the path can stand in a head, if only as nothing."""
    return all(all("!" <= letter <= "~" for letter in call[part]) for part in ("method", "path"))


def stories(program, folder):
    """Each batch of examples/ whose calls are at the moment 0; each route is reached by each of its methods."""
    reached, names, sent = set(), [], 0
    known = {file.removesuffix(".jsonl") for file in os.listdir(f"{ROOT}/examples") if file.endswith(".jsonl")}
    # The limits of a batch count the head that it makes of a line; bad_requests.py tries those of a connection.
    for name in sorted(known - {"limits"}):
        calls, lines = batch_of(name)
        if any(call["at"] for call in calls):
            continue
        names.append(name)
        story = Story(Server(program, fresh(program, folder, name)), folder)
        for number, (call, line) in enumerate(zip(calls, lines), 1):
            if is_sendable(call):
                story.tell(name, number, call, line)
                sent += 1
                if not line.startswith(("404", "405")):
                    reached.add((call["method"], route_of(call["path"])))
        see(f"{name}: the end", story.server.stop(), STOPPED)
    served = {(method, path) for path, allowed in ROUTES.items() for method in allowed.split(", ")}
    see("each route by each method", served - reached, set())
    print(f"stories: {sent} requests of {', '.join(names)}")
