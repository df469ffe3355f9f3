"""What a line of a batch asks, by docs/SPECIFICATION.md: a part of scripts/model/model.py."""
import re

from scripts.model.texts import Refused, bytes_of, is_all, is_texts, read_object
from scripts.specification import BODY, CERTIFICATE, HEAD, LAST, ROUTES

# The model's names of the calls, in the order of the specification's routes.
CALLS = """directory new_nonce new_account key_change new_order account account_orders order finalize certificate authorization challenge
key_of challenge_work order_work report certify fail revoke_authorization revoke_account""".split()
PATTERNS = [(re.compile(path.replace("{n}", "([1-9][0-9]*)")), methods.split(", "), call)
            for (path, methods), call in zip(ROUTES.items(), CALLS, strict=True)]
UNSIGNED = {"directory", "new_nonce", "key_of", "challenge_work", "order_work", "report", "certify", "fail", "revoke_authorization", "revoke_account"}


def route(call):
    """The name of a call and the number in its path."""
    method, path, body = call["method"], call["path"], call["body"].encode()
    if any(not "!" <= letter <= "~" for letter in method + path):
        raise Refused(1)
    if not method or not path:
        raise Refused(1)
    if len(f"{method} {path} HTTP/1.1\r\nContent-Length: {len(body)}\r\n\r\n") > HEAD:
        raise Refused(16)
    for pattern, methods, name in PATTERNS:
        found = pattern.fullmatch(path)
        if found and all(int(number) <= LAST for number in found.groups()):
            if method not in methods:
                raise Refused(3)
            if method == "POST" and len(body) > (CERTIFICATE if name == "certify" else BODY):
                raise Refused(16)
            return name, [int(number) for number in found.groups()]
    raise Refused(2)


def read(call):
    """A call: its name, the number in its path, and what its body says."""
    name, numbers = route(call)
    if name not in UNSIGNED:
        return name, numbers, read_envelope(call["body"])
    if name == "report":
        return name, numbers, read_report(call["body"])
    if name == "fail":
        problem = read_object(call["body"])
        is_all(isinstance(problem.get("type"), str), isinstance(problem.get("detail"), str))
        return name, numbers, (problem["type"], problem["detail"])
    return name, numbers, call["method"] if name == "new_nonce" else call["body"].encode()


def read_envelope(body):
    envelope = read_object(body)
    nonce = envelope.get("nonce", "AAAA")
    is_all("jwk" in envelope, isinstance(envelope.get("payload"), str), isinstance(nonce, str))
    is_all(re.fullmatch(r"[A-Za-z0-9_-]+", nonce), len(nonce) % 4 != 1)
    return envelope


def read_report(body):
    report = read_object(body)
    kinds = [name for name in ("body", "records", "error") if name in report]
    is_all(len(kinds) == 1)
    kind, value = kinds[0], report[kinds[0]]
    if kind == "body":
        is_all(isinstance(value, str) and bytes_of(value) is not None)
    is_all(kind != "records" or is_texts(value), kind != "error" or value in ("connection", "dns"))
    return kind, value
