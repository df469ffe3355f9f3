"""Texts, keys and names as docs/SPECIFICATION.md says: a part of scripts/model/model.py."""
import base64
import hashlib
import json
import re
import time

# What the error of a challenge says after an outcome, and that of an order after a type.
OUTCOMES = {
    "incorrectResponse": (403, "the response did not match"),
    "connection": (400, "the validator could not connect"),
    "dns": (400, "the validator found no records"),
}
PROBLEMS = {"badCSR": 400, "serverInternal": 500}


class Refused(Exception):
    """A refusal by its number, with a Location or subproblems where it has them."""

    def __init__(self, number, location=None, subproblems=()):
        super().__init__(number)
        self.number, self.location, self.subproblems = number, location, subproblems


def spelled(data):
    """The base64url of some bytes."""
    return base64.urlsafe_b64encode(data).rstrip(b"=").decode()


def bytes_of(text):
    """The bytes that a base64url text spells, or None."""
    if not re.fullmatch(r"[A-Za-z0-9_-]*", text) or len(text) % 4 == 1:
        return None
    data = base64.urlsafe_b64decode(text + "=" * (-len(text) % 4))
    return data if spelled(data) == text else None


def moment_text(moment):
    return time.strftime("%Y-%m-%dT%H:%M:%SZ", time.gmtime(moment)).zfill(20)


def compact(document):
    return json.dumps(document, separators=(",", ":"), sort_keys=True, ensure_ascii=False)


KEYS = {"EC": ("crv", "kty", "x", "y"), "RSA": ("e", "kty", "n"), "OKP": ("crv", "kty", "x")}
CURVES = {"EC": ("P-256", "P-384", "P-521"), "OKP": ("Ed25519",), "RSA": (None,)}


def canonical(key):
    """The canonical text of a key, or None where it is not accepted."""
    kind = key.get("kty") if isinstance(key, dict) else None
    if not isinstance(kind, str) or kind not in KEYS:
        return None
    members = {name: key.get(name) for name in KEYS[kind]}
    if members.get("crv") not in CURVES[kind]:
        return None
    numbers = [members[name] for name in KEYS[kind] if name not in ("crv", "kty")]
    good = all(isinstance(number, str) and re.fullmatch(r"[A-Za-z0-9_-]{1,4096}", number) for number in numbers)
    return compact(members) if good else None


def thumbprint(key):
    return hashlib.sha256(key.encode()).digest()


def read_name(text):
    """The base and the wildcard flag of a name, or None."""
    wildcard = text.startswith("*.")
    base = (text[2:] if wildcard else text).lower()
    labels = base.split(".")
    good = all(re.fullmatch(r"(?!-)[a-z0-9-]{1,63}(?<!-)", label) and not label.startswith("xn--") for label in labels)
    return (base, wildcard) if good and len(labels) > 1 and len(base) <= 253 and not labels[-1].isdigit() else None


def shown(name):
    return ("*." if name[1] else "") + name[0]


def is_texts(value):
    return isinstance(value, list) and all(isinstance(text, str) for text in value)


def read_contacts(contacts):
    """The contacts, where they pass."""
    if len(contacts) > 10:
        raise Refused(9)
    for contact in contacts:
        scheme, colon, rest = contact.partition(":")
        if len(contact.encode()) > 320 or not colon:
            raise Refused(9)
        if scheme.lower() != "mailto":
            raise Refused(8)
        if not rest or "?" in rest or "," in rest:
            raise Refused(9)
    return contacts


def read_object(text):
    """The JSON object of a text, else refusal 1."""
    try:
        value = json.loads(text)
    except ValueError:
        value = None
    if not isinstance(value, dict):
        raise Refused(1)
    return value


def is_all(*tests):
    """Refusal 1 where a test fails."""
    if not all(tests):
        raise Refused(1)
