"""Sends random signed requests to the house, over loopback, and compares each verdict with what the packages' own verification says:

  python3 -m scripts.house.random_signatures PROGRAM [--times 100] [--seed N]

Each request is of a random algorithm, key, header, spelling and signature. Where `josepy` or `cryptography` verifies the signature
and nothing of the request is of a form that ACME forbids, the house must accept it, and it must refuse all others.
"""
import collections
import json
import random

import josepy
from cryptography.exceptions import InvalidSignature
from cryptography.hazmat.primitives.asymmetric import ed25519, padding
from cryptography.hazmat.primitives.asymmetric.utils import encode_dss_signature
from cryptography.hazmat.primitives.hashes import SHA256

from scripts.house.client import Client
from scripts.house.housed import in_house
from scripts.house.trials import signers
from scripts.trying import begin, finish, see

# The algorithms of the house by the kind of their keys, and others.
KINDS = {"RS256": "RSA", "PS256": "RSA", "ES256": "P-256", "ES384": "P-384", "ES512": "P-521", "EdDSA": "Ed25519"}
OTHERS = "none", "HS256", "HS512", "RS384", "RS512", "ES256K", "es256", "EdDSA ", "", None, 5


def kind_of(jwk):
    return jwk.get("crv") or jwk["kty"]


def is_verified(algorithm, jwk, data, signature):
    """Whether the packages verify a signature by a key, whose kind is that of the algorithm (RFC 7518, 3.1)."""
    if KINDS.get(algorithm) != kind_of(jwk):
        return False
    try:
        if algorithm == "EdDSA":
            ed25519.Ed25519PublicKey.from_public_bytes(josepy.decode_b64jose(jwk["x"])).verify(signature, data)
        elif algorithm == "PS256":
            josepy.JWK.from_json(jwk).key.verify(signature, data, padding.PSS(padding.MGF1(SHA256()), 32), SHA256())
        else:
            return josepy.JWASignature.from_json(algorithm).verify(josepy.JWK.from_json(jwk).key, data, signature)
        return True
    except InvalidSignature:
        return False


# ---- Random parts: each gives the part, and whether ACME allows its form; what is wrong in a signature the packages say.


def any_signature(choose, sign, other, data):
    """A signature of these bytes, which is often not theirs."""
    good = sign(data)
    half = len(good) // 2
    return choose.choice((lambda: good,) * 20 + (
        lambda: other(data), lambda: sign(data + b" "), lambda: good[:-1], lambda: good + b"\0",
        lambda: b"", lambda: bytes(len(good)), lambda: good[half:] + good[:half], lambda: b"\0" + good,
        lambda: bytes([good[0] ^ 1]) + good[1:], lambda: good[:-1] + bytes([good[-1] ^ 128]),
        lambda: encode_dss_signature(int.from_bytes(good[:half], "big"), int.from_bytes(good[half:], "big")),
    ))()


def any_header(choose, algorithm, url, named, nonce):
    """The members of a header, and whether they are those that a request is to have."""
    header = {"alg": algorithm, "url": url, "nonce": nonce, **named}
    changes = [({}, True)] * 20 + [
        ({"typ": "JOSE"}, True), ({"other": {"a": [1]}}, True), ({"crit": ["exp"]}, False), ({"b64": True}, False), ({"url": url + "/"}, False),
        ({"url": url.upper()}, False), ({"url": None}, False), ({"url": [url]}, False), ({"url": url.replace("https", "http")}, False),
        ({"jwk": {"kty": "RSA"}, "kid": "x"}, False),
    ]
    change, is_allowed = choose.choice(changes)
    return {**header, **change}, is_allowed


def any_spelling(choose, header):
    """The text of a header by another spelling of JSON, which says the same."""
    members = list(header.items())
    choose.shuffle(members)
    text = json.dumps(dict(members), indent=choose.choice((None, None, 2)))
    return text.replace("alg", "\\u0061lg") if choose.random() < 0.2 else text


def any_document(choose, parts):
    """The body of a request, and whether its form is a flattened JWS of strict base64url."""
    name, text = choose.choice(list(parts.items()))
    changes = [({}, True)] * 25 + [
        ({"more": 1}, True), ({"header": {}}, False), ({"signatures": []}, False), ({name: text + "="}, False), ({name: text + "\n"}, False),
        ({name: " " + text}, False), ({name: text + "A" * (4 - len(text) % 4 + 1)}, False), ({name: None}, False), ({name: [text]}, False),
    ]
    change, is_allowed = choose.choice(changes)
    return json.dumps({**parts, **change}), is_allowed


def any_jwk(choose, jwk):
    """A key in its one spelling, or in another one."""
    name = choose.choice([name for name in ("x", "y", "n", "e") if name in jwk])
    longer = josepy.encode_b64jose(b"\0" + josepy.decode_b64jose(jwk[name]))
    changes = [({}, True)] * 15 + [({"use": "sig", "alg": "x"}, True)]
    changes += [({name: longer}, False), ({name: jwk[name] + "="}, False), ({name: ""}, False), ({name: 5}, False)]
    change, is_spelled = choose.choice(changes)
    return {**jwk, **change}, is_spelled


class Sender:
    """Sends random requests, some by keys that they show and some by those of accounts."""

    def __init__(self, choose, client):
        self.choose, self.client, self.verdicts = choose, client, collections.Counter()
        self.pairs = [(*made, wrong[1]) for made, wrong in zip(signers().values(), signers().values())]
        self.kids = {}

    def send(self):
        """Sends a request, and compares the verdict; gives what was sent."""
        choose, client = self.choose, self.client
        jwk, sign, other = choose.choice(self.pairs)
        algorithm = choose.choice([name for name, kind in KINDS.items() if kind == kind_of(jwk)] * 40 + list(KINDS) + list(OTHERS))
        number = json.dumps(jwk, sort_keys=True)
        is_account = number in self.kids and choose.random() < 0.5
        shown, is_spelled = (jwk, True) if is_account else any_jwk(choose, jwk)
        url = self.kids[number] if is_account else client.directory["newAccount"]
        client.ask("HEAD", client.directory["newNonce"])
        header, has_members = any_header(choose, algorithm, url, {"kid": url} if is_account else {"jwk": shown}, client.nonce)
        parts = {"protected": josepy.encode_b64jose(any_spelling(choose, header).encode()), "payload": josepy.encode_b64jose(b"{}")}
        data = "{protected}.{payload}".format(**parts).encode()
        signature = any_signature(choose, sign, other, data)
        body, is_flattened = any_document(choose, {**parts, "signature": josepy.encode_b64jose(signature)})
        reply = client.ask("POST", url, body.encode())
        is_right = all((is_spelled, has_members, is_flattened)) and is_verified(algorithm, jwk, data, signature)
        see(f"{body} by {header}", (reply.status in (200, 201), 400 <= reply.status < 500), (is_right, not is_right))
        self.verdicts[is_right] += 1
        if reply.status == 201:
            self.kids[number] = reply.fields["Location"]


def main(program, times, seed):
    def send(house):
        sender = Sender(random.Random(seed), Client(house.base, house.root))
        for _ in range(times):
            sender.send()
        see("both verdicts", min(sender.verdicts[True], sender.verdicts[False]) * 20 >= times, True)
        see("faults that the house shows", [line for line in house.lines if "Traceback" in line], [])
        print(f"house: {times} random signed requests, {sender.verdicts[True]} of them right")

    in_house(program, send)
    return finish("house")


if __name__ == "__main__":
    begin(main, __doc__, times=100, seed=8555)
