"""The validator: tries challenges over the network, and reports what it found (RFC 8555, 8.3 and 8.4)."""
import hashlib
import http.client
import json
import math
import time

import dns.exception
import dns.resolver

from addresses import is_name
from bounded import left
from fetch import Network
from keys import encoded
from turns import Turns
from worker import log, log_fault

# Seconds of a try, and before each; the challenges that are tried at one time, in all and of one account; those told that are remembered.
TIMEOUT, PAUSES, SIDE_BY_SIDE, OF_ONE, TOLD = 10, (0, 1, 2), 32, 4, 10000
# The TXT records that are reported, and the characters of each: one that fits has 43.
RECORDS, CHARACTERS = 64, 255


class Validator:
    """Tries challenges, some side by side, and accounts in turn."""

    def __init__(self, desk, web=None, names=None, allow_private=False, allow_loopback=False):
        self.desk, self.resolver = desk, dns.resolver.Resolver(configure=not names)
        if names:
            self.resolver.nameservers, self.resolver.port = [names[0]], names[1]
        self.network = Network(self.resolver, web, allow_private, allow_loopback)
        self.turns, self.taken, self.told = Turns(SIDE_BY_SIDE, OF_ONE), set(), {}

    def hear(self, text):
        """Notes what the front tells of an answer that it has passed on: the challenge, and the thumbprint of the account's key."""
        challenge, _, thumbprint = text[:99].partition(" ")
        if len(self.told) == TOLD:
            self.told.clear()
        self.told[challenge] = thumbprint

    def work(self):
        """Takes each challenge that is to be tried and that nobody tries yet."""
        for challenge in json.loads(self.desk.call("GET", "/office/challenges").body)["challenges"]:
            if challenge["challenge"] not in self.taken:
                self.taken.add(challenge["challenge"])
                self.turns.add(self._account(challenge), self._try, challenge)

    def _account(self, challenge):
        """The thumbprint that the expected text has; for dns-01, where that is hashed, the one that was told, or none."""
        told = self.told.pop(str(challenge["challenge"]), "")
        if challenge["type"] == "http-01":
            return challenge["expected"].rpartition(".")[2]
        digest = hashlib.sha256(f"{challenge['token']}.{told}".encode()).digest()
        return told if encoded(digest) == challenge["expected"] else ""

    def _try(self, challenge):
        """Tries a challenge, and reports what is found, however long the desk is down."""
        number, found = challenge["challenge"], json.dumps(self._find(challenge)).encode()
        reply = self.desk.call("POST", f"/office/report/{number}", found, math.inf)
        self.taken.discard(number)
        log(f"challenge {number}, {challenge['type']} of {challenge['name']}: {json.loads(reply.body)['status']}")

    def _find(self, challenge):
        """What is found at once, or a little later where there is nothing; whatever fails is a report."""
        look = self._look_http if challenge["type"] == "http-01" else self._look_dns
        for pause in PAUSES:
            time.sleep(pause)
            try:
                found = look(challenge, time.monotonic() + TIMEOUT)
            except Exception:
                log_fault(f"challenge {challenge['challenge']} of {challenge['name']}")
                return {"error": "connection"}
            if "error" not in found:
                break
        return found

    def _look_http(self, challenge, end):
        """The body at the well-known URL."""
        try:
            body = self.network.fetch(f"http://{challenge['name']}/.well-known/acme-challenge/{challenge['token']}", end)
        except (OSError, http.client.HTTPException) as why:
            log(f"challenge {challenge['challenge']}: {why}")
            return {"error": "connection"}
        return {"body": encoded(body)}

    def _look_dns(self, challenge, end):
        """The TXT records of the name; aliases are followed."""
        try:
            if not is_name(challenge["name"]):
                return {"error": "dns"}
            answer = self.resolver.resolve(f"_acme-challenge.{challenge['name']}", "TXT", lifetime=left(end))
        except dns.exception.DNSException:
            return {"error": "dns"}
        return {"records": [b"".join(record.strings)[:CHARACTERS].decode("latin-1") for record in answer][:RECORDS]}
