"""A second desk, written from docs/SPECIFICATION.md alone: it says how a line of a batch is answered, and what the file has then.

It keeps facts with their dates, and finds each status afresh from them. Of the names it knows those of ASCII, and of the
heads those that httparse reads.
"""
import dataclasses
import hashlib

from scripts.model.requests import UNSIGNED, read
from scripts.model.texts import (OUTCOMES, PROBLEMS, Refused, bytes_of, canonical, compact, is_all, is_texts, moment_text, read_contacts, read_name,
                                 read_object, shown, spelled, thumbprint)
from scripts.specification import LAST, REFUSALS
from scripts.trying import BASE

# Lives of nonces, orders and authorizations, in seconds.
LIVES = (3600, 604800, 2592000)
# The last moment.
LATEST = 250000000000


class Fault(Exception):
    """A fault by the text of the program."""


@dataclasses.dataclass
class Account:
    key: str
    contacts: list
    opened: int
    end: tuple | None = None

    def status(self):
        return self.end[0] if self.end else "valid"


@dataclasses.dataclass
class Challenge:
    authorization: int
    kind: str
    token: bytes
    # The date of the answer, and the thumbprint of the key that the account had then.
    answered: tuple | None = None
    # The outcome and the date of the report.
    reported: tuple | None = None

    def status(self):
        if self.reported:
            return "valid" if self.reported[0] == "good" else "invalid"
        return "processing" if self.answered else "pending"


@dataclasses.dataclass
class Authorization:
    account: int
    base: str
    wildcard: bool
    made: int
    expires: int
    challenges: list
    # The first end that is dated no later than `expires`: its kind and its date.
    end: tuple | None = None


@dataclasses.dataclass
class Order:
    account: int
    made: int
    expires: int
    names: list
    authorizations: list
    # Bytes and a date.
    csr: tuple | None = None
    certificate: tuple | None = None
    # The type and the detail, and the date.
    problem: tuple | None = None


def dated(fact):
    """The date and the content of a fact, as two columns."""
    return (fact[1], fact[0]) if fact else (None, None)


class Desk:
    """A desk: what was recorded, and how a line is answered."""

    def __init__(self, lives=LIVES, base=BASE):
        self.base, (self.nonce_life, self.order_life, self.authz_life) = base, lives
        self.clock, self.m, self.random = 0, 0, b""
        # Of a nonce: its 16 bytes, its date, and whether it was spent; serial 1 first.
        self.nonces, self.accounts, self.orders, self.authorizations, self.challenges = [], [], [], [], []

    # ---- statuses at m

    def authorization_status(self, number):
        found = self.authorizations[number - 1]
        if found.end:
            return found.end[0]
        if self.m > found.expires:
            return "expired"
        is_valid = any(self.challenges[at - 1].status() == "valid" for at in found.challenges)
        return "valid" if is_valid else "pending"

    def order_status(self, number):
        found = self.orders[number - 1]
        statuses = {self.authorization_status(at) for at in found.authorizations}
        if found.certificate:
            return "valid"
        if found.problem or self.m > found.expires or statuses & {"invalid", "expired", "deactivated", "revoked"}:
            return "invalid"
        return "processing" if found.csr else "ready" if statuses == {"valid"} else "pending"

    def is_open(self, text):
        data = bytes_of(text) if text is not None else None
        if data is None or len(data) != 24:
            return False
        serial = int.from_bytes(data[:8], "big")
        if not 1 <= serial <= len(self.nonces):
            return False
        random, issued, spent = self.nonces[serial - 1]
        return random == data[8:] and not spent and self.m <= issued + self.nonce_life

    def account_of(self, key):
        """The number of the account that has a key, or None."""
        return next((number for number, found in enumerate(self.accounts, 1) if found.key == key), None)

    # ---- the tables

    def tables(self, form=2):
        """The rows of each table of the file, with the statuses at the clock."""
        self.m = self.clock
        tables = {
            "meta": [(1, form, self.base, self.nonce_life, self.order_life, self.authz_life, self.clock, *map(len, (
                self.nonces, self.accounts, self.orders, self.authorizations, self.challenges)))],
            "nonce": [(serial, random, issued) for serial, (random, issued, spent) in enumerate(self.nonces, 1)
                      if not spent and self.clock <= issued + self.nonce_life],
            "account": [(number, found.key, compact(found.contacts), found.opened, *dated(found.end), found.status())
                        for number, found in enumerate(self.accounts, 1)],
            "ord": [self.order_row(number, found) for number, found in enumerate(self.orders, 1)],
            "authz": [(number, found.account, found.base, int(found.wildcard), found.made, found.expires, *dated(found.end),
                       self.authorization_status(number)) for number, found in enumerate(self.authorizations, 1)],
            "ord_authz": [(number, place, at) for number, found in enumerate(self.orders, 1)
                          for place, at in enumerate(found.authorizations, 1)],
            "chall": [(number, found.authorization, found.kind, found.token, found.answered and found.answered[0],
                       *dated(found.reported), found.status()) for number, found in enumerate(self.challenges, 1)],
        }
        keys = [(number, found.answered[1]) for number, found in enumerate(self.challenges, 1) if found.answered]
        return {**tables, "chall_key": keys} if form > 1 else tables

    def order_row(self, number, found):
        problem = found.problem and compact({"detail": found.problem[0][1], "type": found.problem[0][0]})
        return (number, found.account, found.made, found.expires, *dated(found.csr), *dated(found.certificate),
                found.problem and found.problem[1], problem, self.order_status(number))

    # ---- documents

    def url(self, *parts):
        return "/".join((self.base, *map(str, parts)))

    def account_document(self, number):
        found = self.accounts[number - 1]
        return {"contact": found.contacts, "orders": self.url("account", number, "orders"), "status": found.status()}

    def order_document(self, number):
        found = self.orders[number - 1]
        document = {
            "authorizations": [self.url("authz", at) for at in found.authorizations],
            "expires": moment_text(found.expires),
            "finalize": self.url("order", number, "finalize"),
            "identifiers": [{"type": "dns", "value": shown(name)} for name in found.names],
            "status": self.order_status(number),
        }
        if found.certificate:
            document["certificate"] = self.url("cert", number)
        if found.problem:
            kind, detail = found.problem[0]
            document["error"] = {"detail": detail, "status": PROBLEMS[kind], "type": f"urn:ietf:params:acme:error:{kind}"}
        return document

    def authorization_document(self, number):
        found = self.authorizations[number - 1]
        reported = [at for at in found.challenges if self.challenges[at - 1].reported]
        document = {
            "challenges": [self.challenge_document(at) for at in reported or found.challenges],
            "expires": moment_text(found.expires),
            "identifier": {"type": "dns", "value": found.base},
            "status": self.authorization_status(number),
        }
        return {**document, "wildcard": True} if found.wildcard else document

    def challenge_document(self, number):
        found = self.challenges[number - 1]
        document = {"status": found.status(), "token": spelled(found.token), "type": found.kind, "url": self.url("chall", number)}
        if found.status() == "valid":
            document["validated"] = moment_text(found.reported[1])
        if found.status() == "invalid":
            status, detail = OUTCOMES[found.reported[0]]
            document["error"] = {"detail": detail, "status": status, "type": f"urn:ietf:params:acme:error:{found.reported[0]}"}
        return document

    def expected(self, number):
        """What proves a challenge: by the key that its account had when it was answered."""
        return self.proof(number, self.challenges[number - 1].answered[1])

    def proof(self, number, thumbprint):
        """What would prove a challenge by the key of a thumbprint."""
        found = self.challenges[number - 1]
        text = f"{spelled(found.token)}.{spelled(thumbprint)}"
        return text if found.kind == "http-01" else spelled(hashlib.sha256(text.encode()).digest())

    # ---- a line

    def answer(self, call):
        """The line of the reply to a call."""
        if call["at"] > LATEST:
            if self.is_call(call):
                raise Fault("fault 24 moment")
        self.m, self.random = max(call["at"], self.clock), bytes.fromhex(call["random"])
        try:
            status, location, nonce, body = self.told(call)
        except Refused as refused:
            status, location, nonce, body = self.problem(refused)
        return f"{status} {location or '-'} {nonce or '-'} {body or '-'}"

    def is_call(self, call):
        """Whether a line can be read as a call."""
        try:
            read(call)
        except Refused:
            return False
        return True

    def problem(self, refused, nonce=None):
        name, status, detail = REFUSALS[refused.number]
        document = {"detail": detail, "status": status, "type": f"urn:ietf:params:acme:error:{name}"}
        if refused.subproblems:
            document["subproblems"] = [self.subproblem(*found) for found in refused.subproblems]
        return status, refused.location, nonce, compact(document)

    def subproblem(self, number, kind, value):
        name, _, detail = REFUSALS[number]
        return {"detail": detail, "identifier": {"type": kind, "value": value}, "type": f"urn:ietf:params:acme:error:{name}"}

    def told(self, call):
        name, numbers, said = read(call)
        if name in UNSIGNED:
            return getattr(self, name)(*numbers, said)
        return self.signed(name, numbers, said)

    # ---- signed requests

    def take(self, at):
        """The random bytes of the nonce, at 0, or of a token."""
        data = self.random[16 * at:16 * at + 16]
        if len(data) < 16:
            raise Fault("fault 25 short random")
        return data

    def issue(self):
        """Issues a nonce, which sets the clock."""
        if len(self.nonces) >= LAST:
            raise Fault("fault 26 full")
        random = self.take(0)
        self.nonces.append((random, self.m, False))
        self.clock = self.m
        return spelled(len(self.nonces).to_bytes(8, "big") + random)

    def signed(self, name, numbers, envelope):
        """A signed request: its nonce, its key, its account, and what it asks."""
        nonce = envelope.get("nonce")
        if not self.is_open(nonce):
            return self.problem(Refused(4), self.issue())
        try:
            account = self.checked(name, envelope["jwk"])
            reply = getattr(self, name)(*numbers, account, envelope["payload"])
        except Refused as refused:
            self.spend(nonce)
            return self.problem(refused, self.issue())
        self.spend(nonce)
        status, location, body = reply
        return status, location, self.issue(), body if isinstance(body, str) else compact(body())

    def spend(self, nonce):
        self.take(0)
        serial = int.from_bytes(bytes_of(nonce)[:8], "big")
        random, issued, _ = self.nonces[serial - 1]
        self.nonces[serial - 1] = (random, issued, True)

    def checked(self, name, key):
        """The number of the account of a request's key; that of a new account has the text of its key beside it."""
        text = canonical(key)
        if text is None:
            raise Refused(5)
        number = self.account_of(text)
        if number is None and name != "new_account":
            raise Refused(6)
        if number is not None and self.accounts[number - 1].status() != "valid":
            raise Refused(7)
        return (number, text) if name == "new_account" else number

    def new_account(self, account, payload):
        number, key = account
        wanted = read_object(payload)
        is_all(is_texts(wanted.get("contact", [])), isinstance(wanted.get("onlyReturnExisting", False), bool))
        if number is not None:
            return 200, self.url("account", number), lambda: self.account_document(number)
        if wanted.get("onlyReturnExisting"):
            raise Refused(6)
        contacts = read_contacts(wanted.get("contact", []))
        self.take(0)
        self.accounts.append(Account(key, contacts, self.m))
        made = len(self.accounts)
        return 201, self.url("account", made), lambda: self.account_document(made)

    def key_change(self, account, payload):
        wanted = read_object(payload)
        is_all(isinstance(wanted.get("account"), str), *(isinstance(wanted.get(name), dict) for name in ("newKey", "oldKey")))
        old, new = canonical(wanted["oldKey"]), canonical(wanted["newKey"])
        is_all(wanted["account"] == self.url("account", account), old == self.accounts[account - 1].key)
        if new is None:
            raise Refused(5)
        owner = self.account_of(new)
        if owner is not None:
            raise Refused(17, self.url("account", owner))
        self.take(0)
        self.accounts[account - 1].key = new
        return 200, None, lambda: self.account_document(account)

    def account(self, number, account, payload):
        if number != account:
            raise Refused(2)
        wanted = read_object(payload) if payload else {}
        if wanted.get("status") == "deactivated":
            self.take(0)
            self.end_account(account, "deactivated")
        else:
            is_all(is_texts(wanted.get("contact", [])))
            contacts = read_contacts(wanted.get("contact", self.accounts[account - 1].contacts))
            self.take(0)
            self.accounts[account - 1].contacts = contacts
        return 200, None, lambda: self.account_document(account)

    def end_account(self, account, kind):
        for number, found in enumerate(self.authorizations, 1):
            if found.account == account and self.authorization_status(number) in ("pending", "valid"):
                found.end = (kind, self.m)
        self.accounts[account - 1].end = (kind, self.m)

    def account_orders(self, number, account, payload):
        if number != account:
            raise Refused(2)
        is_all(not payload)
        numbers = [at for at, found in enumerate(self.orders, 1) if found.account == account and self.order_status(at) != "invalid"]
        return 200, None, lambda: {"orders": [self.url("order", at) for at in numbers]}

    # ---- orders

    def new_order(self, account, payload):
        names = self.kept_names(read_object(payload))
        expires = self.m + self.order_life
        serving = [self.serving(account, name, expires) for name in names]
        tokens = sum(1 if name[1] else 2 for name, found in zip(names, serving) if found is None)
        drawn = [self.take(at) for at in range(1 + tokens)][1:]
        listed = [found or self.make_authorization(account, name, drawn) for name, found in zip(names, serving)]
        self.orders.append(Order(account, self.m, expires, names, listed))
        made = len(self.orders)
        return 201, self.url("order", made), lambda: self.order_document(made)

    @staticmethod
    def kept_names(wanted):
        """The names of a newOrder, each once."""
        identifiers = wanted.get("identifiers")
        is_all("notBefore" not in wanted, "notAfter" not in wanted, isinstance(identifiers, list) and 1 <= len(identifiers) <= 50)
        is_all(*(isinstance(found, dict) and is_texts([found.get("type"), found.get("value")]) for found in identifiers))
        faulty = []
        for found in identifiers:
            number = 10 if found["type"] != "dns" else 11 if read_name(found["value"]) is None else None
            if number:
                faulty.append((number, found["type"], found["value"]))
        if faulty:
            raise Refused(faulty[0][0], None, faulty)
        return list(dict.fromkeys(read_name(found["value"]) for found in identifiers))

    def serving(self, account, name, expires):
        """The least authorization that a name of a new order uses again, or None."""
        for number, found in enumerate(self.authorizations, 1):
            is_same = (found.account, found.base, found.wildcard) == (account, *name)
            if is_same and self.authorization_status(number) == "valid" and expires <= found.expires:
                return number
        return None

    def make_authorization(self, account, name, drawn):
        made, numbers = len(self.authorizations) + 1, []
        for kind in ("dns-01",) if name[1] else ("http-01", "dns-01"):
            self.challenges.append(Challenge(made, kind, drawn.pop(0)))
            numbers.append(len(self.challenges))
        self.authorizations.append(Authorization(account, *name, self.m, self.m + self.authz_life, numbers))
        return made

    @staticmethod
    def numbered(objects, number, account=None):
        """The object of a number, of one account where one is named; refusal 2 where there is none."""
        if not 1 <= number <= len(objects) or account and objects[number - 1].account != account:
            raise Refused(2)
        return objects[number - 1]

    def order(self, number, account, payload):
        self.numbered(self.orders, number, account)
        is_all(not payload)
        return 200, None, lambda: self.order_document(number)

    def finalize(self, number, account, payload):
        found = self.numbered(self.orders, number, account)
        wanted = read_object(payload)
        is_all(isinstance(wanted.get("csr"), str))
        if self.order_status(number) != "ready":
            raise Refused(12)
        csr = bytes_of(wanted["csr"])
        if csr is None or not 1 <= len(csr) <= 8192:
            raise Refused(13)
        self.take(0)
        found.csr = (csr, self.m)
        return 200, self.url("order", number), lambda: self.order_document(number)

    def certificate(self, number, account, payload):
        found = self.numbered(self.orders, number, account)
        is_all(not payload)
        if self.order_status(number) != "valid":
            raise Refused(2)
        return 200, None, f"hex:{found.certificate[0].hex()}"

    # ---- authorizations and challenges

    def authorization(self, number, account, payload):
        found = self.numbered(self.authorizations, number, account)
        is_all(not payload or read_object(payload).get("status") == "deactivated")
        if payload and self.authorization_status(number) in ("pending", "valid"):
            self.take(0)
            found.end = ("deactivated", self.m)
        return 200, None, lambda: self.authorization_document(number)

    def challenge(self, number, account, payload):
        found = self.numbered(self.challenges, number)
        self.numbered(self.authorizations, found.authorization, account)
        if payload:
            read_object(payload)
            if found.status() == self.authorization_status(found.authorization) == "pending":
                self.take(0)
                found.answered = (self.m, thumbprint(self.accounts[account - 1].key))
        return 200, None, lambda: self.challenge_document(number)

    # ---- what is not signed

    def directory(self, _):
        names = {"keyChange": "key-change", "newAccount": "new-account", "newNonce": "new-nonce", "newOrder": "new-order"}
        return 200, None, None, compact({name: self.url(path) for name, path in names.items()})

    def new_nonce(self, method):
        return 200 if method == "HEAD" else 204, None, self.issue(), None

    def key_of(self, number, _):
        return 200, None, None, self.numbered(self.accounts, number).key

    def challenge_work(self, _):
        listed = []
        for number, found in enumerate(self.challenges, 1):
            if found.status() == "processing" and self.authorization_status(found.authorization) == "pending":
                name = self.authorizations[found.authorization - 1].base
                listed.append({"challenge": number, "expected": self.expected(number), "name": name, "token": spelled(found.token), "type": found.kind})
        return 200, None, None, compact({"challenges": listed})

    def order_work(self, _):
        listed = []
        for number, found in enumerate(self.orders, 1):
            if self.order_status(number) == "processing":
                listed.append({"csr": spelled(found.csr[0]), "names": [shown(name) for name in found.names], "order": number})
        return 200, None, None, compact({"orders": listed})

    def outcome(self, number, kind, value):
        """The outcome of a finding."""
        if kind == "error":
            return value
        if not self.challenges[number - 1].answered:
            return None
        expected = self.expected(number)
        if kind == "records":
            return "good" if expected in value else "incorrectResponse"
        return "good" if bytes_of(value).rstrip(b" \t\r\n") == expected.encode() else "incorrectResponse"

    def report(self, number, said):
        kind, value = said
        found = self.numbered(self.challenges, number)
        is_all(kind != "body" or found.kind == "http-01", kind != "records" or found.kind == "dns-01")
        outcome = self.outcome(number, kind, value)
        if not (found.reported and found.reported[0] == outcome):
            if found.status() != "processing" or self.authorization_status(found.authorization) != "pending":
                raise Refused(14)
            found.reported, self.clock = (outcome, self.m), self.m
            if outcome != "good":
                self.authorizations[found.authorization - 1].end = ("invalid", self.m)
        return 200, None, None, compact(self.challenge_document(number))

    def certify(self, number, data):
        self.numbered(self.orders, number)
        is_all(data)
        return self.sign("certificate", number, data)

    def fail(self, number, problem):
        self.numbered(self.orders, number)
        is_all(problem[0] in PROBLEMS, 1 <= len(problem[1].encode()) <= 256)
        return self.sign("problem", number, problem)

    def sign(self, name, number, content):
        """Records what the signing office hands in of an order, where it doesn't stand already."""
        found = self.orders[number - 1]
        fact = getattr(found, name)
        if not (fact and fact[0] == content):
            if self.order_status(number) != "processing":
                raise Refused(14)
            setattr(found, name, (content, self.m))
            self.clock = self.m
        return 200, None, None, compact(self.order_document(number))

    # ---- what the operator ends

    def revoke_authorization(self, number, _):
        found = self.numbered(self.authorizations, number)
        status = self.authorization_status(number)
        if status not in ("pending", "valid", "revoked"):
            raise Refused(14)
        if status != "revoked":
            found.end, self.clock = ("revoked", self.m), self.m
        return 200, None, None, compact(self.authorization_document(number))

    def revoke_account(self, number, _):
        status = self.numbered(self.accounts, number).status()
        if status not in ("valid", "revoked"):
            raise Refused(14)
        if status != "revoked":
            self.end_account(number, "revoked")
            self.clock = self.m
        return 200, None, None, compact(self.account_document(number))
