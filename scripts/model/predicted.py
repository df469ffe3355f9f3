"""Compares random batches with a model of the specification: python3 -m scripts.model.predicted PROGRAM [--batches 100] [--seed N]

Each batch is answered over a file of its own, by a desk of long or short lives: accounts, key changes, orders of few names, so
that authorizations are used again, challenges, reports by the right key and by others, certificates, ends, revocations, all at moments
that rise and fall. Each reply is the one that scripts/model/model.py gives, and the file has its tables then. The same seed makes the same
batches.
"""
import json
import os
import random
import tempfile

from scripts.model import model
from scripts.trying import BASE, begin, checked, faults, finish, fresh, order_of, run, see, stored, tables_of, terms_of

KEYS = [
    *({"crv": "P-256", "kty": "EC", "x": text, "y": "Ag"} for text in ("AQ", "Aw", "BQ")),
    {"e": "AQAB", "kty": "RSA", "n": "AQ"},
    {"crv": "Ed25519", "kty": "OKP", "x": "AQ"},
]
NAMES = ("a.example", "b.example", "A.example", "*.a.example", "*.b.example")
LIVES = (model.LIVES, (50, 100, 100), (200, 60, 150), (3600, 100, 300))
CALLS = 150
# How many faults are told before the run is given up.
ENOUGH = 10


class Calls:
    """A random batch, and the replies that the model gives."""

    def __init__(self, chance, lives):
        self.chance, self.desk, self.at = chance, model.Desk(lives), 0
        self.lines, self.replies, self.nonce, self.fault = [], [], None, b""

    def number(self, objects):
        """The number of an object, mostly of one that is there."""
        return self.chance.randint(1, max(1, len(objects) + self.chance.choice((0, 0, 0, 1))))

    def key(self):
        """A key, mostly one that an account has."""
        known = [json.loads(found.key) for found in self.desk.accounts]
        return self.chance.choice(known) if known and self.chance.random() < 0.85 else self.chance.choice([*KEYS, {"kty": "oct"}])

    def call(self, method, path, body=""):
        """Takes a call up; whether it was answered."""
        self.at = max(0, self.at + self.chance.choice((0,) * 8 + (1, 10, 40, 101, -50)))
        random_bytes = self.chance.randbytes(16 * self.chance.choice((40,) * 300 + (0, 1, 2)))
        call = {"at": self.at, "body": body, "method": method, "path": path, "random": random_bytes.hex()}
        self.lines.append(json.dumps(call) + "\n")
        try:
            reply = self.desk.answer(call)
        except model.Fault as fault:
            self.fault = f"desk: {fault}\n".encode()
            return False
        self.replies.append(reply + "\n")
        nonce = reply.split(" ", 3)[2]
        self.nonce = nonce if nonce != "-" else self.nonce
        return True

    def signed(self, path, payload, key=None):
        nonce = self.chance.choice((self.nonce,) * 30 + (None, "AAAA"))
        text = payload if isinstance(payload, str) else json.dumps(payload)
        body = {"jwk": key or self.key(), "payload": text, **({"nonce": nonce} if nonce else {})}
        return self.call("POST", path, json.dumps(body))

    # ---- one call of each kind

    def new_nonce(self):
        return self.call(self.chance.choice(("GET", "HEAD")), "/new-nonce")

    def new_account(self):
        payload = self.chance.choice(({}, {"contact": ["mailto:a@b.example"]}, {"onlyReturnExisting": True}, {"contact": ["tel:1"]}))
        return self.signed("/new-account", payload, self.chance.choice(KEYS))

    def key_change(self):
        old = self.key()
        owner = self.desk.account_of(model.canonical(old)) if self.chance.random() < 0.9 else None
        account = owner or self.number(self.desk.accounts)
        new = self.chance.choice([*KEYS, *KEYS, {"kty": "oct"}, "AQ"])
        claimed = old if self.chance.random() < 0.9 else self.key()
        return self.signed("/key-change", {"account": f"{BASE}/account/{account}", "newKey": new, "oldKey": claimed}, old)

    def account(self):
        payload = self.chance.choice(("", "", {}, {"contact": []}, {"contact": ["mailto:"]}) * 4 + ({"status": "deactivated"},))
        return self.signed(f"/account/{self.number(self.desk.accounts)}{self.chance.choice(('', '/orders'))}", payload)

    def new_order(self):
        names = self.chance.choices((*NAMES, *NAMES, "a..b"), k=self.chance.randint(1, 3))
        return self.signed("/new-order", order_of(*names))

    def order(self):
        number = self.number(self.desk.orders)
        path, payload = self.chance.choice(((f"/order/{number}", ""), (f"/cert/{number}", ""), (f"/order/{number}/finalize", {"csr": "AQID"})))
        return self.signed(path, payload, self.owner_of(self.desk.orders, number))

    def authorization(self):
        number = self.number(self.desk.authorizations)
        payload = self.chance.choice(("",) * 12 + ({"status": "deactivated"}, "{}"))
        return self.signed(f"/authz/{number}", payload, self.owner_of(self.desk.authorizations, number))

    def challenge(self):
        number = self.number(self.desk.challenges)
        authorization = self.desk.challenges[number - 1].authorization if number <= len(self.desk.challenges) else 0
        return self.signed(f"/chall/{number}", self.chance.choice(("{}", "{}", "")), self.owner_of(self.desk.authorizations, authorization))

    def owner_of(self, objects, number):
        """The key of the account of an object, mostly."""
        if not 1 <= number <= len(objects) or self.chance.random() < 0.05:
            return None
        return json.loads(self.desk.accounts[objects[number - 1].account - 1].key)

    def report(self):
        """A report, mostly on a challenge that is tried and with what proves it."""
        tried = [at for at, found in enumerate(self.desk.challenges, 1) if found.status() == "processing"]
        number = self.chance.choice(tried) if tried and self.chance.random() < 0.9 else self.number(self.desk.challenges)
        error = {"error": self.chance.choice(("connection", "dns"))}
        if number > len(self.desk.challenges) or self.chance.random() < 0.08:
            return self.call("POST", f"/office/report/{number}", json.dumps(error))
        found = self.desk.challenges[number - 1]
        thumbprint = found.answered[1] if found.answered else bytes(32)
        if self.chance.random() < 0.15:
            thumbprint = model.thumbprint(model.canonical(self.chance.choice(KEYS)))
        text = self.desk.proof(number, thumbprint)
        body = {"body": model.spelled(text.encode() + b"\r\n")} if found.kind == "http-01" else {"records": ["x", text]}
        return self.call("POST", f"/office/report/{number}", json.dumps(body))

    def office(self):
        number = self.number(self.desk.orders)
        method, path, body = self.chance.choice((
            ("POST", f"/office/certify/{number}", self.chance.choice(("one", "two"))),
            ("POST", f"/office/certify/{number}", self.chance.choice(("one", "two", ""))),
            ("POST", f"/office/fail/{number}", json.dumps({"type": "badCSR", "detail": "no"})),
            ("GET", f"/office/key/{self.number(self.desk.accounts)}", ""), ("GET", "/office/challenges", ""), ("GET", "/office/orders", "")))
        return self.call(method, path, body)

    def revocation(self):
        """Of an authorization, now and then of an account."""
        if self.chance.random() < 0.1:
            return self.call("POST", f"/office/revoke-account/{self.number(self.desk.accounts)}")
        return self.call("POST", f"/office/revoke-authz/{self.number(self.desk.authorizations)}", self.chance.choice(("", "{}", "no body")))

    def all(self):
        """A batch; it ends early where a call ends in a fault."""
        kinds = (self.new_nonce, self.key_change, self.account, self.authorization, self.revocation, *(self.new_account, self.office) * 2,
                 *(self.new_order, self.order, self.challenge, self.report) * 4)
        is_going = self.call("GET", "/new-nonce")
        while is_going and len(self.lines) < CALLS:
            is_going = self.chance.choice(kinds)()


def compare(name, program, folder, chance):
    """One batch over a file, beside the model; how many of its calls were answered, and how many authorizations are shared."""
    lives = chance.choice(LIVES)
    path, calls = fresh(program, folder, name, *terms_of(lives)), Calls(chance, lives)
    calls.all()
    status, said, errors = run(program, "batch", "--file", path, given="".join(calls.lines).encode())
    see(f"{name}: its end", (status, errors), (1 if calls.fault else 0, calls.fault))
    replies = said.decode().splitlines(keepends=True)
    wrong = next((at for at, pair in enumerate(zip(replies, calls.replies)) if pair[0] != pair[1]), None)
    if wrong is not None:
        faults.append(f"{name}, line {wrong + 1}, {calls.lines[wrong]} is answered by {replies[wrong]}, not {calls.replies[wrong]}")
    see(f"{name}: how many replies", len(replies), len(calls.replies))
    see(f"{name}: its tables", tables_of(path, folder) == stored(calls.desk.tables()), True)
    see(f"{name}: check", checked(program, path), (0, b"no fault\n", b""))
    os.remove(path)
    listed = [authz for order in calls.desk.orders for authz in order.authorizations]
    return len(replies), len(listed) - len(set(listed))


def main(program, batches, seed):
    chance, answered, shared = random.Random(seed), 0, 0
    with tempfile.TemporaryDirectory(prefix="desk-predicted-") as folder:
        for at in range(1, batches + 1):
            counts = compare(f"batch {at} of seed {seed}", program, folder, chance)
            answered, shared = answered + counts[0], shared + counts[1]
            if len(faults) >= ENOUGH:
                break
    print(f"{answered} replies of {at} batches as predicted; authorizations were used again {shared} times")
    return finish("Predicted")


if __name__ == "__main__":
    begin(main, __doc__, batches=100, seed=20261127)
