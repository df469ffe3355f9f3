"""Sends hostile requests to `serve`: python3 -m scripts.serving.hostile PROGRAM [--seconds 300] [--seed N]

Good requests are changed in many ways, or bytes are made up, and the desk must go on answering: each reply is one that
docs/SPECIFICATION.md has, a good newNonce is answered after each hundred, and a whole order after each thousand. At the end
the file is sound, its statuses are those that RFC 8555 gives to its facts, and it holds what was acknowledged and nothing else,
but for requests whose client was gone before the reply. The same seed makes the same choices; nonces and tokens differ.
"""
import collections
import json
import os
import random
import re
import signal
import socket
import sqlite3
import tempfile
import time

from scripts.model.texts import canonical
from scripts.serving.served import NEW_NONCE, Client, Reply, Server, envelope, received, request, reset, serial_of
from scripts.specification import BODY, HEAD, PHRASES, ROUTES
from scripts.trying import BASE, begin, faults, finish, fresh, key_of, order_of, run, see, tables_of

# The desk is asked for so many orders at most: the offices' lists grow with them.
ORDERS = 400
FIELDS = ("Connection", "Allow", "Cache-Control", "Content-Length", "Content-Type", "Link", "Location", "Replay-Nonce")
# How many faults are told before the run is given up.
ENOUGH = 20


def is_in_order(names):
    """Whether the fields of a reply stand in the order of the specification."""
    places = [FIELDS.index(name) if name in FIELDS else -1 for name in names]
    return places == sorted(places) and -1 not in places and names[:1] == ["Connection"]


def flaw(found, sent):
    """What is wrong with a reply, or None."""
    if PHRASES.get(found.status) != found.phrase or not found.ended or found.status == 500:
        return "status"
    if not is_in_order([pair[0] for pair in found.fields]):
        return "fields"
    is_fresh = found.field("Replay-Nonce") is not None and found.field("Content-Length") is None
    if is_fresh != (found.field("Cache-Control") == "no-store"):
        return "Cache-Control"
    length = int(found.field("Content-Length") or 0)
    if len(found.body) != length and (found.body or not sent.lstrip(b"\r\n").startswith(b"HEAD ")):
        return "length"
    if found.body and found.field("Content-Type") != "application/pem-certificate-chain":
        try:
            document = json.loads(found.body)
        except ValueError:
            return "document"
        if (found.status >= 400) != ("status" in document and document["status"] == found.status):
            return "problem"
    return None


# ---- good requests

ACCOUNTS = ({}, {"contact": ["mailto:a@b.example"]}, {"onlyReturnExisting": True})
REPORTS = (b'{"body":"eA"}', b'{"error":"connection"}', b'{"error":"dns"}', b'{"records":["x"]}')
PAYLOADS = ("",) * 50 + ({}, {"csr": "AQID"}, {"contact": []}) * 10 + ({"status": "deactivated"},)


class Requests:
    """Good requests by some accounts, as bytes; the nonces of the replies are taken up."""

    def __init__(self, server, told, chance):
        self.server, self.told, self.chance = server, told, chance
        self.keys, self.first, self.nonce, self.orders = 1, 1, None, 0
        # The number of the key that the last request was signed by, and of the one that its account is to have.
        self.key, self.wanted = 1, None

    def signed(self, path, payload):
        self.key = self.chance.choice((self.first,) * 3 + (self.chance.randint(1, self.keys),))
        return self.signed_again(path, payload)

    def signed_again(self, path, payload):
        return request("POST", path, envelope(self.nonce or "AAAA", payload, key_of(self.key)))

    def new_account(self):
        self.keys += self.chance.random() < 0.2
        return self.signed("/new-account", self.chance.choice(ACCOUNTS))

    def key_change(self):
        """The change of a key to a new one or to one that an account may have."""
        self.keys += self.chance.random() < 0.5
        self.key = self.chance.choice((self.first,) * 3 + (self.chance.randint(1, self.keys),))
        self.wanted = self.chance.choice((self.keys, self.keys, self.chance.randint(1, self.keys)))
        account = self.told.account_of(self.key) or self.chance.randint(1, self.told.accounts.last + 1)
        payload = {"account": f"{BASE}/account/{account}", "newKey": key_of(self.wanted), "oldKey": key_of(self.key)}
        return self.signed_again("/key-change", payload)

    def move_on(self):
        """Asks by another account, as the first has ended."""
        self.keys += 1
        self.first = self.keys

    def name(self):
        return f"{self.chance.choice(('', '', '', '*.'))}n{self.chance.randint(1, 99)}.example"

    def new_order(self):
        if self.orders >= ORDERS:
            return self.signed("/new-order", {"identifiers": []})
        self.orders += 1
        names = [self.name() for _ in range(self.chance.choice((1, 1, 1, 2, 5)))]
        return self.signed("/new-order", order_of(*names))

    def of_office(self, path):
        """The body that an office sends to a path."""
        if path.startswith("/office/report/"):
            return self.chance.choice(REPORTS)
        if path.startswith("/office/certify/"):
            return self.chance.randbytes(99)
        return json.dumps({"type": self.chance.choice(("badCSR", "serverInternal")), "detail": "no"}).encode()

    def one(self):
        """A request of any route."""
        self.key, self.wanted = None, None
        route = self.chance.choice([*ROUTES, "/new-account", "/new-order", "/new-order"])
        number = self.chance.choice((1, 2, self.chance.randint(1, self.told.orders.last + 3), self.chance.randint(1, 10**6)))
        path = route.replace("{n}", str(number))
        if route == "/new-account":
            return self.new_account()
        if route == "/new-order":
            return self.new_order()
        if route == "/key-change":
            return self.key_change()
        if "GET" in ROUTES[route]:
            return request(self.chance.choice(ROUTES[route].split(", ")), path)
        if route.startswith("/office/"):
            return request("POST", path, self.of_office(path))
        return self.signed(path, self.chance.choice(PAYLOADS))


# ---- what is done to them

LENGTHS = (b"", b"+1", b"-1", b"0", b"1", b"00009", b"131072", b"131073", b"65537", b"18446744073709551616", b"9" * 60, b"1 1",
           b"\t7")
LINES = (b"Transfer-Encoding: chunked", b"Content-Length: 3", b"X:", b": x", b"X", b" X: a", b"X: \xff", b"Expect: 100-continue",
         b"X: " + b"a" * 20000)
WORDS = (b"", b"GET", b"HEAD", b"POST", b"*", b"/", b"/order/1?x", b"HTTP/1.0", b"HTTP/2.0", b"\xc3\xa9", b"/" + b"a" * 17000)
VALUES = (b"null", b"[]", b"{}", b"1e999", b"-0", b'"\\ud800"', b'"\\u0000"', b"[" * 200, b'{"a":' * 130, b"\xff", b'""',
          b'"' + b"a" * 9000 + b'"')
TEXT = b"GETPOSTHEAD /\r\n:{}[]\",0123456789abc"


class Changes:
    """Ways to change a request."""

    def __init__(self, chance):
        self.chance = chance

    def place(self, data):
        return self.chance.randint(0, len(data))

    def whole(self, data):
        return data

    def other_bytes(self, data):
        changed = bytearray(data)
        for _ in range(self.chance.choice((1, 1, 2, 8))):
            changed[self.chance.randrange(len(changed))] = self.chance.randrange(256)
        return bytes(changed)

    def more_bytes(self, data):
        at = self.place(data)
        return data[:at] + self.chance.randbytes(self.chance.choice((1, 2, 50, 5000))) + data[at:]

    def fewer_bytes(self, data):
        first, last = sorted((self.place(data), self.place(data)))
        return data[:first] + data[last:]

    def cut(self, data):
        return data[:self.place(data)]

    def other_length(self, data):
        length = self.chance.choice((*LENGTHS, str(self.chance.randint(0, 500)).encode()))
        return re.sub(rb"(?i)(content-length:)[^\r]*", lambda found: found[1] + b" " + length, data, count=1)

    def doubled_field(self, data):
        head, end, body = data.partition(b"\r\n\r\n")
        lines = head.split(b"\r\n")
        more = self.chance.choices(lines[1:] or [b"X: a"], k=self.chance.choice((1, 2, 61, 70)))
        return b"\r\n".join([*lines, *more]) + end + body

    def other_field(self, data):
        first, end, rest = data.partition(b"\r\n")
        return first + end + self.chance.choice(LINES) + b"\r\n" + rest

    def huge_head(self, data):
        size = self.chance.choice((HEAD - 1, HEAD, HEAD + 1, 40000))
        head, end, body = data.partition(b"\r\n\r\n")
        return head + b"\r\nX: " + b"a" * max(0, size - len(head) - 9) + end + body

    def other_first_line(self, data):
        first, end, rest = data.partition(b"\r\n")
        words = first.split(b" ")
        words[self.chance.randrange(len(words))] = self.chance.choice(WORDS)
        return b" ".join(words) + end + rest

    def other_json(self, data):
        """A changed body, whose length is said right."""
        head, _, body = data.partition(b"\r\n\r\n")
        parts = [found.span() for found in re.finditer(rb'"(?:[^"\\]|\\.)*"|\d+|[\[\]{}:,]', body)] or [(0, len(body))]
        first, last = self.chance.choice(parts)
        method, path = (head.split(b" ") + [b"", b""])[:2]
        return request(method.decode(), path.decode(), body[:first] + self.chance.choice(VALUES) + body[last:])

    def random_bytes(self, data):
        return self.chance.randbytes(self.chance.choice((0, 1, 10, 300, HEAD - 1, HEAD, 20000)))

    def text(self, data):
        return bytes(self.chance.choices(TEXT, k=self.chance.choice((5, 50, 2000))))

    def swapped(self, data):
        """The second half before the first."""
        at = self.place(data)
        return data[at:] + data[:at]

    def large_body(self, data):
        size = self.chance.choice((0, 1000, BODY - 1, BODY, BODY + 5000))
        return data.partition(b"\r\n")[0] + b"\r\nContent-Length: %d\r\n\r\n" % BODY + b" " * size

    def twice(self, data):
        return data + data


KINDS = ["whole"] * 5 + [name for name in vars(Changes) if not name.startswith("_") and name not in ("place", "whole")]
# What a client does: how it sends, and whether it waits for the reply.
MANNERS = ("half closes",) * 9 + ("sends in pieces", "is gone", "resets")


# ---- what was acknowledged


class Numbers:
    """The numbers of a kind that replies told, in their order, and the requests since the last one whose reply nobody saw."""

    def __init__(self, name):
        self.name, self.last, self.unseen = name, 0, 0

    def hear(self, number):
        """Takes a number: those that it passes over were given to requests whose reply nobody saw."""
        skipped = number - self.last - 1
        see(f"{self.name}: {number} after {self.last}, {self.unseen} replies unseen", 0 <= skipped <= self.unseen, True)
        self.last, self.unseen = number, 0

    def end(self, counter):
        """The counter at the end."""
        see(f"{self.name}: {counter} at the end, {self.last} told", self.last <= counter <= self.last + self.unseen, True)


class Told:
    """What replies said: the nonces, the accounts and the orders."""

    def __init__(self):
        self.nonces, self.accounts, self.orders = map(Numbers, ("nonces", "accounts", "orders"))
        self.documents, self.unseen, self.statuses = {}, 0, collections.Counter()
        # The numbers of the accounts' keys, where they are known.
        self.keys = {}

    def miss(self, sent):
        """Counts a request whose reply nobody sees, by what it may make."""
        self.unseen += 1
        self.nonces.unseen += 1
        self.accounts.unseen += b"new-account" in sent
        self.orders.unseen += b"new-order" in sent

    def account_of(self, key):
        """The account that is known to have a key, by their numbers, or None."""
        return next((account for account, known in self.keys.items() if known == key), None)

    def hear_key(self, key, wanted, found):
        """Takes in what a reply says of the key of its request; whether the account has the key that was asked for now."""
        location = (found.field("Location") or "").rsplit("/account/", 1)
        account, is_changed = self.account_of(key), wanted is not None and found.status == 200
        if wanted is None and found.status in (200, 201) and len(location) == 2:
            self.keys[int(location[1])] = key
        elif is_changed and account:
            self.keys[account] = wanted
        return is_changed

    def doubt_key(self, key):
        """Forgets whose key this is: nobody knows whether its account has another one now."""
        self.keys.pop(self.account_of(key), None)

    def hear(self, found):
        """Takes a reply in, and gives its nonce."""
        self.statuses[found.status] += 1
        nonce = found.field("Replay-Nonce")
        if nonce:
            self.nonces.hear(serial_of(nonce))
        if found.status == 201:
            kind, number = found.field("Location")[len(BASE) + 1:].split("/")
            (self.accounts if kind == "account" else self.orders).hear(int(number))
            self.documents[kind, int(number)] = found.document()
        return nonce

    def compare(self, tables):
        """The file holds what was told, and no more than the requests with unseen replies can have made."""
        counters = tables["meta"][0][-5:]
        for numbers, counter in zip((self.nonces, self.accounts, self.orders), counters):
            numbers.end(counter)
        see("the rows by the counters", [len(tables[name]) for name in ("account", "ord", "authz", "chall")], list(counters[1:]))
        keys = {row[0]: row[1].decode() for row in tables["account"]}
        for account, key in self.keys.items():
            see(f"the key of account {account}", keys[account], canonical(key_of(key)))
        names = {row[0]: (b"*." if row[3] else b"") + row[2] for row in tables["authz"]}
        listed = collections.defaultdict(list)
        for order, _, authz in sorted(tables["ord_authz"]):
            listed[order].append({"type": "dns", "value": names[authz].decode()})
        for (kind, number), document in self.documents.items():
            if kind == "order":
                see(f"the names of order {number}", listed[number], document["identifiers"])


def order_status(row, authzs):
    """The status of an order by section 7, before anything is past its life."""
    if row[6] is not None:
        return b"valid"
    if row[8] is not None or {b"invalid", b"deactivated", b"revoked", b"expired"} & set(authzs):
        return b"invalid"
    return b"processing" if row[4] is not None else b"ready" if set(authzs) == {b"valid"} else b"pending"


def see_statuses(tables):
    authzs, listed = {row[0]: row[-1] for row in tables["authz"]}, collections.defaultdict(list)
    for order, _, authz in tables["ord_authz"]:
        listed[order].append(authzs[authz])
    wrong = [row[0] for row in tables["ord"] if row[-1] != order_status(row, listed[row[0]])]
    see("orders whose status is another", wrong, [])


def see_shared(tables):
    """An authorization that several orders list was validated, is of the account of each, and stands in none of them twice."""
    orders, authzs = ({row[0]: row[1] for row in tables[name]} for name in ("ord", "authz"))
    good = {row[1] for row in tables["chall"] if row[6] == b"good"}
    uses = collections.Counter(authz for _, _, authz in tables["ord_authz"])
    see("authorizations of several orders that were not validated", {authz for authz, count in uses.items() if count > 1} - good, set())
    see("orders with another account's authorization", [row for row in tables["ord_authz"] if orders[row[0]] != authzs[row[2]]], [])
    see("orders that list one twice", len({(order, authz) for order, _, authz in tables["ord_authz"]}), len(tables["ord_authz"]))
    return sum(count > 1 for count in uses.values())


# ---- the run


class Run:
    """A run of hostile requests."""

    def __init__(self, server, chance):
        self.server, self.chance, self.told = server, chance, Told()
        self.requests, self.changes = Requests(server, self.told, chance), Changes(chance)
        self.counts, self.count = collections.Counter(), 0

    def heard(self, data, sent):
        """Takes a reply in."""
        found = Reply(data)
        wrong = flaw(found, sent)
        if wrong:
            faults.append(f"{wrong}: {sent[:3000]!r} is answered by {data[:600]!r}")
        else:
            self.requests.nonce = self.told.hear(found) or self.requests.nonce
            if found.status == 401:
                self.requests.move_on()
        return found

    def send(self, data, manner):
        """Sends bytes as a client of some manner does."""
        with self.server.connect() as client:
            if manner in ("is gone", "resets"):
                client.sendall(data)
                self.told.miss(data)
                return reset(client) if manner == "resets" else None
            size = self.chance.randint(1, 400) if manner == "sends in pieces" else len(data)
            for at in range(0, min(len(data), 20 * size), size or 1):
                client.sendall(data[at:at + size])
            client.sendall(data[20 * size:])
            client.shutdown(socket.SHUT_WR)
            came = received(client)
        return self.heard(came, data)

    def good(self, data, status):
        found = self.heard(self.server.ask(data), data)
        see(f"a good request is answered, {data[:40]!r}", found.status, status)
        return found

    def order(self):
        """A whole order by an account of its own, from its nonce to its certificate; and the same name again, by another key."""
        client = Client(self.server, key_of(10**6 + self.count))
        client.heard = lambda data: self.taken(client, data)
        account = int(client.open_account().field("Location").rsplit("/", 1)[1])
        client.certify(client.ready_order("whole.example"), self.chance.randbytes(500))
        client.change_key(account, key_of(2 * 10**6 + self.count))
        number = client.order("whole.example")
        see("a renewal", client.post(f"/order/{number}", "").document()["status"], "ready")
        client.certify(number, self.chance.randbytes(500))
        self.told.keys[account] = 2 * 10**6 + self.count

    def taken(self, client, data):
        found = self.heard(self.server.ask(data), data)
        client.nonce = found.field("Replay-Nonce") or client.nonce
        return found

    def one(self):
        kind, manner = self.chance.choice(KINDS), self.chance.choice(MANNERS)
        data = getattr(self.changes, kind)(self.requests.one())
        found, key, wanted = self.send(data, manner), self.requests.key, self.requests.wanted
        if kind == "whole" and found and key:
            is_changed = self.told.hear_key(key, wanted, found)
            self.requests.first = wanted if is_changed and key == self.requests.first else self.requests.first
        elif wanted:
            self.told.doubt_key(key)
        self.counts[kind] += 1
        self.count += 1

    def go_on(self, until):
        while time.monotonic() < until and len(faults) < ENOUGH and self.server.run.poll() is None:
            try:
                if self.count % 100 == 0:
                    self.good(NEW_NONCE, 204)
                if self.count % 1000 == 0:
                    self.order()
                self.one()
            except (OSError, ValueError, KeyError, StopIteration) as error:
                faults.append(f"request {self.count}: {error!r}")

    def tell(self, seed, said, tables):
        """Prints what was sent and what came."""
        replies = ", ".join(f"{status}: {count}" for status, count in sorted(self.told.statuses.items()))
        nonces, accounts, orders = tables["meta"][0][-5:-2]
        print(f"hostile: seed {seed}, {self.count} requests, {self.told.unseen} of them without a reader of the reply;")
        print(f"  {said.count(b'desk: connection')} connections failed; replies by status: {replies};")
        print(f"  recorded: {nonces} nonces, {accounts} accounts, {orders} orders")


def see_file(program, path):
    """The file is sound, and a desk."""
    see("the file, opened again", run(program, "batch", "--file", path), (0, b"", b""))
    with sqlite3.connect(f"file:{path}?mode=ro", uri=True) as found:
        see("integrity_check", found.execute("PRAGMA integrity_check").fetchall(), [("ok",)])
        see("foreign_key_check", found.execute("PRAGMA foreign_key_check").fetchall(), [])
    found.close()


def main(program, seconds, seed):
    print(f"hostile: seed {seed}, {seconds} seconds", flush=True)
    with tempfile.TemporaryDirectory(prefix="desk-hostile-") as folder:
        run = Run(Server(program, fresh(program, folder, "desk")), random.Random(seed))
        run.go_on(time.monotonic() + seconds)
        see("the program still runs", run.server.run.poll(), None)
        run.good(NEW_NONCE, 204)
        status, _, said = run.server.stop()
        tables = tables_of(run.server.path, folder)
        see("the end", (status, set(said.splitlines()) - {b"desk: connection"}), (-signal.SIGTERM, set()))
        run.told.compare(tables)
        see_statuses(tables)
        shared = see_shared(tables)
        see_file(program, run.server.path)
        run.tell(seed, said, tables)
        print(f"  {len(run.told.keys)} keys of accounts known; {shared} authorizations of several orders")
    return finish("Hostile")


if __name__ == "__main__":
    begin(main, __doc__, seconds=300, seed=int.from_bytes(os.urandom(4), "big"))
