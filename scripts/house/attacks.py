"""Attacks the house of examples/house, over loopback alone, and says how many attacks it tried: python3 -m scripts.house.attacks PROGRAM

Who is not the desk; servers that stall and steer the validator, and accounts that fill it; a root that is half there; keys of other
spellings and weak ones; weak CSRs; clients that are silent, many, gone, or nest their JSON; and a desk that is down.
"""
import collections
import contextlib
import hashlib
import http.client
import io
import json
import math
import os
import random
import resource
import select
import socket
import ssl
import struct
import subprocess
import sys
import tempfile
import threading
import time
import tracemalloc
import warnings
from types import SimpleNamespace

import josepy
from cryptography import x509
from cryptography.hazmat.primitives import hashes
from cryptography.hazmat.primitives.asymmetric import dsa, ec, ed25519, rsa
from cryptography.hazmat.primitives.serialization import Encoding, PublicFormat, load_pem_private_key

from scripts.house.client import Names, Web
from scripts.house.housed import in_house, try_each
from scripts.house.trials import ERROR, Trial, account_by
from scripts.repository import ROOT
from scripts.trying import begin, bytes_of, finish, free_port, put, see

sys.path.insert(0, f"{ROOT}/examples/house")
import addresses
import authority
import desk
import factors
import fetch
import front
import keys
import ledger
import office
import policy
import revocation
import turns
import validator

NOBODY = 65534
counts = {}


def tried(what, found, wanted=True):
    """Notes an attack by its first word, and whether it ended as it should."""
    counts[what.split()[0]] = counts.get(what.split()[0], 0) + 1
    see(what, found, wanted)


def tried_refused(what, reply, status, kind):
    tried(what, (reply.status, json.loads(reply.body).get("type")), (status, ERROR + kind))


def raised(kind, call, *given):
    """The text of an exception of a kind that a call ends by; None where it ends well."""
    try:
        call(*given)
    except kind as fault:
        return str(fault) or kind.__name__
    return None


# ---- Who is the desk.


def as_nobody(folder):
    """A process of another user that serves a desk of its own at FOLDER/socket, in a folder where any user may make files, and writes each
    call that it gets to FOLDER/calls."""
    os.chmod(folder, 0o1777)
    program = ("import os, socket, sys\n"
               f"os.setgroups([]); os.setgid({NOBODY}); os.setuid({NOBODY}); os.chdir({folder!r})\n"
               "s = socket.socket(socket.AF_UNIX); s.bind('socket'); os.chmod('socket', 0o666); s.listen(); print('there', flush=True)\n"
               "while True:\n"
               "    c, _ = s.accept(); data = c.recv(9999)\n"
               "    if data: open('calls', 'ab').write(data); c.sendall(b'HTTP/1.1 200 OK\\r\\nContent-Length: 13\\r\\n\\r\\n{\"orders\":[]}')\n"
               "    c.close()\n")
    run = subprocess.Popen([sys.executable, "-c", program], stdout=subprocess.PIPE)
    run.stdout.readline()
    return run


def impostors(_):
    """A desk of another user is told nothing, and nothing is taken from it."""
    if os.getuid():
        print("house: another user's desk was not tried: that takes root")
        return
    desk.PATIENCE = 0.3
    with tempfile.TemporaryDirectory(prefix="desk-house-") as folder:
        run = as_nobody(folder)
        for method, path in (("GET", "/office/orders"), ("GET", "/office/key/1"), ("POST", "/office/certify/1")):
            why = raised(desk.Down, desk.Desk(f"{folder}/socket", "").call, method, path)
            tried(f"impostor {path}", "who is not the desk" in (why or ""))
        see("what the impostor heard", os.path.exists(f"{folder}/calls"), False)
        run.kill()
        run.wait()


# ---- Servers that stall and steer the validator.


class Raw:
    """A server on the loopback that answers each request by what a function sends, and counts requests and bytes."""

    def __init__(self, answer):
        self.answer, self.requests, self.sent = answer, [], 0
        self.listener = socket.create_server(("127.0.0.1", 0))
        self.address = self.listener.getsockname()
        threading.Thread(target=self._serve, daemon=True).start()

    def _serve(self):
        with contextlib.suppress(OSError):
            while True:
                threading.Thread(target=self._answer, args=self.listener.accept()[:1], daemon=True).start()

    def _answer(self, connection):
        with connection, contextlib.suppress(OSError):
            self.requests.append(connection.recv(4096))
            for data in self.answer(self):
                connection.sendall(data)
                self.sent += len(data)

    def close(self):
        with contextlib.suppress(OSError):
            self.listener.shutdown(socket.SHUT_RDWR)
        self.listener.close()


@contextlib.contextmanager
def reached(answer, seconds=1):
    """What the validator fetches from a server, as (body or None, seconds, server); `asked` is by the name a.example."""
    server = Raw(answer)
    network, start = fetch.Network(None, web=server.address), time.monotonic()
    try:
        body = network.fetch("http://a.example/x", start + seconds)
    except (OSError, http.client.HTTPException):
        body = None
    try:
        yield body, time.monotonic() - start, server
    finally:
        server.close()


def slowly(data, rest):
    def answer(_):
        yield data
        for _ in range(100):
            time.sleep(0.05)
            yield rest
    return answer


def endless(head, block, most=600 * 2**20):
    def answer(_):
        yield head
        for _ in range(most // len(block)):
            yield block
    return answer


def stalls(_):
    """Servers that never end: each try is over in its time, and reads no more than its bytes."""
    ok, moved = b"HTTP/1.1 200 OK\r\n", b"HTTP/1.1 302 Found\r\nLocation: ftp://a.example/\r\n"
    for what, answer in (
        ("status line", slowly(b"HTTP/1.1 2", b"0")),
        ("head", slowly(ok, b"A")),
        ("body of known length", slowly(ok + b"Content-Length: 4000\r\n\r\n", b"x")),
        ("body in chunks", slowly(ok + b"Transfer-Encoding: chunked\r\n\r\n", b"1\r\nx\r\n")),
        ("body until the end", slowly(ok + b"\r\n", b"x")),
        ("100s, slowly", slowly(b"", b"HTTP/1.1 100 Continue\r\n\r\n")),
        ("silence", slowly(b"", b"")),
    ):
        with reached(answer) as (body, seconds, _):
            tried(f"stall by {what}", (body, seconds < 5), (None, True))
    before = resource.getrusage(resource.RUSAGE_SELF).ru_maxrss
    block = bytes(2**16)
    for what, answer in (
        ("100s", endless(b"", b"HTTP/1.1 100 Continue\r\n\r\n" * 1000)),
        ("fields", endless(ok, b"A: b\r\n" * 1000)),
        ("one field", endless(ok, b"A" * 2**16)),
        ("body", endless(ok + b"Content-Length: 629145600\r\n\r\n", block)),
        ("body of no length", endless(ok + b"\r\n", block)),
        ("body in chunks", endless(ok + b"Transfer-Encoding: chunked\r\n\r\n", b"10000\r\n" + block + b"\r\n")),
        ("chunk's head", endless(ok + b"Transfer-Encoding: chunked\r\n\r\n", b"0" * 2**16)),
        ("body of a redirect", endless(moved + b"Content-Length: 629145600\r\n\r\n", block)),
    ):
        with reached(answer, 20) as (body, seconds, server):
            tried(f"flood of {what}", (len(body or b"") <= fetch.BODY, seconds < 10, server.sent < 2**25), (True, True, True))
    grown = resource.getrusage(resource.RUSAGE_SELF).ru_maxrss - before
    see(f"the memory of floods, {grown} KB", grown < 65536, True)


PLACES = """ftp://a.example/x file:///etc/passwd file://a.example/etc/passwd gopher://a.example/x javascript:1 data:,x
//127.0.0.1/x http://127.0.0.1/ http://127.1/ http://2130706433/ http://0x7f.0x1/ http://0x7f000001/ http://10.0.0.0x1/
http://017700000001/ http://[::1]/ http://[::ffff:127.0.0.1]/ http://[fe80::1%25lo]/ http://localhost/ http://a/ http://a.example./
http://a.example:22/ http://a.example:8555/office/orders https://a.example:8443/ http://a.example:0/ http://a.example:99999/
http://a.example:x/ http://root@a.example/ http://127.0.0.1@a.example/ http://a.example%2f@b/ http://a%00.example/ http://%31.1.1.1/
http://\u2460.1.1.1/ http://a_b.example/""".split()


def steering(_):
    """Redirects to where none is followed, too many of them, and names that lead into the house."""
    for place in PLACES:
        head = b"HTTP/1.1 302 Found\r\nLocation: " + place.encode() + b"\r\nContent-Length: 0\r\n\r\n"
        with reached(lambda _, head=head: [head]) as (body, _, server):
            tried(f"redirect to {place}", (body, len(server.requests)), (None, 1))
    around = b"HTTP/1.1 307 Temporary\r\nLocation: /again\r\n\r\n"
    with reached(lambda _: [around], 5) as (body, _, server):
        tried("redirect without end", (body, len(server.requests)), (None, 11))
    split = b"HTTP/1.1 302 Found\r\nLocation: /x y\tz\r\n\r\n"
    with reached(lambda server: [split if len(server.requests) == 1 else b"HTTP/1.1 200 OK\r\n\r\nhere"]) as (body, _, server):
        tried("redirect with a space", (body, server.requests[1].split(b"\r\n")[0]), (b"here", b"GET /x%20y%09z HTTP/1.1"))
    good = b"HTTP/1.1 301 Moved\r\nLocation: http://b.example:80/there?a=b#c\r\n\r\n"
    with reached(lambda server: [good if len(server.requests) == 1 else b"HTTP/1.1 200 OK\r\n\r\nhere"]) as (body, _, server):
        see("a redirect that is followed", (body, server.requests[1].split(b"\r\n")[:2]), (b"here", [b"GET /there?a=b HTTP/1.1", b"Host: b.example"]))
    inside = "127.0.0.1 127.8.8.8 0.0.0.0 10.1.2.3 172.16.0.1 192.168.1.1 169.254.169.254 168.63.129.16 100.64.0.1 224.0.0.1 255.255.255.255 "
    inside += "::1 :: fe80::1 fd00::1 fec0::1 ff02::1 ::ffff:127.0.0.1 ::127.0.0.1 64:ff9b::7f00:1 2002:7f00:1::1"
    for address in inside.split():
        resolver = SimpleNamespace(resolve=lambda name, kind, lifetime, address=address: [SimpleNamespace(address=address)])
        why = raised(OSError, fetch.Network(resolver).fetch, "http://a.example/x", time.monotonic() + 2)
        tried(f"address {address}", "no address that may be reached" in (why or ""))
        for option, private in (("allow_private", "10. 172. 192. fd"), ("allow_loopback", "127.0 127.8 ::1")):
            is_meant = address.startswith(tuple(private.split())) and not address.startswith("::127")
            found = fetch.Network(resolver, **{option: True})._addresses("a.example", time.monotonic() + 2)
            tried(f"address {address} by {option}", found, [address] * 2 * is_meant)
    see("addresses of the Internet", [addresses.may_be_reached(text) for text in ("198.41.0.4", "2001:503:ba3e::2:30")], [True, True])


def crowds(_):
    """Accounts whose challenges are tried at silent servers: few of one account's at one time, whatever their type, and each in its turn."""
    begun, over = collections.Counter(), threading.Event()

    class Silent:
        def fetch(self, url, end):
            begun["http-01"] += 1
            over.wait()
            return b""

        def resolve(self, name, kind, lifetime):
            begun[name.split(".")[1]] += 1
            over.wait()
            return []

    def challenge(number, thumbprint, kind="http-01"):
        expected = f"{'A' * 22}.{thumbprint}"
        if kind == "dns-01":
            expected = keys.encoded(hashlib.sha256(expected.encode()).digest())
        return {"challenge": number, "type": kind, "name": f"{thumbprint}.example", "token": "A" * 22, "expected": expected}

    overheard = Overheard([challenge(number, "one") for number in range(150)] + [challenge(number, "two", "dns-01") for number in range(200, 350)])
    judge = validator.Validator(overheard, ("127.0.0.1", 1), ("127.0.0.1", 1))
    judge.network = judge.resolver = Silent()
    for number in range(200, 350):
        judge.hear(f"{number} two")
    with contextlib.redirect_stdout(io.StringIO()):
        judge.work()
        overheard.challenges += [challenge(999, "three", "dns-01")]
        start = time.monotonic()
        judge.hear("999 three")
        judge.work()
        while not begun["three"] and time.monotonic() < start + 60:
            time.sleep(0.001)
        waited, wanted = time.monotonic() - start, {"http-01": 4, "two": 4, "three": 1}
        wait_for(lambda: dict(begun) == wanted)
        tried("crowd: 300 challenges of two accounts are silent, and one of a third begins", dict(begun), wanted)
        over.set()
        while len(overheard.reports) < 301 and time.monotonic() < start + 60:
            time.sleep(0.01)
    see("the reports of crowds", len(overheard.reports), 301)
    print(f"house: beside 300 silent challenges of two accounts one of a third began after {waited:.3f} s")
    order, lasts = [], turns.Turns(1, 1)
    over.clear()
    lasts.add("first", over.wait)
    for owner in "aaaabbc":
        lasts.add(owner, order.append, owner)
    over.set()
    wait_for(lambda: len(order) == 7)
    tried("crowd: accounts take turns", "".join(order), "abcabaa")


def wait_for(holds, seconds=60):
    """Waits until something holds, and gives whether it does."""
    end = time.monotonic() + seconds
    while not holds() and time.monotonic() < end:
        time.sleep(0.005)
    return holds()


class Overheard:
    """In the place of the desk: it has one list of work, and keeps what is reported."""

    def __init__(self, challenges=()):
        self.challenges, self.reports, self.over = list(challenges), [], threading.Event()

    def call(self, method, path, body=None, patience=None):
        if method == "GET":
            return desk.Reply(200, [], json.dumps({"challenges": self.challenges}).encode())
        self.reports.append(json.loads(body))
        self.over.set()
        return desk.Reply(200, [], b'{"status":"invalid"}')


def reported(challenge, change=lambda judge: None):
    """What the validator reports of a challenge, and what it logs, once `change` was done to it."""
    overheard = Overheard([{"challenge": 1, "token": "A" * 22, "expected": "", **challenge}])
    judge = validator.Validator(overheard, ("127.0.0.1", 1), ("127.0.0.1", 1))
    change(judge)
    with contextlib.redirect_stdout(io.StringIO()) as lines:
        judge.work()
        overheard.over.wait(20)
        judge.turns.pool.shutdown()
    return overheard.reports, lines.getvalue()


def reports(_):
    """Whatever goes wrong within the validator is a report and a line, and never a challenge that stays processing."""
    validator.PAUSES = (0,)

    def breaks(judge):
        judge.network = SimpleNamespace(fetch=lambda url, end: [][0])
        judge.resolver = SimpleNamespace(resolve=lambda name, kind, lifetime: [][0])

    for kind in ("http-01", "dns-01"):
        found, lines = reported({"type": kind, "name": "a.example"}, breaks)
        tried(f"exception in {kind}", (found, "IndexError" in lines), ([{"error": "connection"}], True))
    for name in ("0x7f.0x1", "10.0.0.0x1", "a.0XfF", "a.0x", "1.2.3", f"{'a' * 64}.example", "a..example"):
        for kind, error in (("http-01", "connection"), ("dns-01", "dns")):
            def looks_up(judge):
                judge.resolver.resolve = lambda *_, **__: [][0]
            found, lines = reported({"type": kind, "name": name}, looks_up)
            tried(f"name {name} by {kind}", (found, "IndexError" in lines), ([{"error": error}], False))
    records = [SimpleNamespace(strings=[b"\xff" * 255] * 200)] * 200
    found, _ = reported({"type": "dns-01", "name": "a.example"},
                        lambda judge: setattr(judge, "resolver", SimpleNamespace(resolve=lambda *_, **__: records)))
    tried("records of ten MB", len(json.dumps(found[0])) < 131072)


# ---- The root.


def roots(_):
    """A root that is half there, of another key, or unreadable: the house ends with a word, and writes nothing over."""
    with tempfile.TemporaryDirectory(prefix="desk-house-") as folder:
        for name in "ab":
            authority.opened(f"{folder}/{name}", "")
        names = "root.key", "root.pem", "ca/intermediate.key", "ca/intermediate.pem"
        (key, root, below_key, below), (_, other, other_key, other_below) = made = [[bytes_of(f"{folder}/{name}/{file}") for file in names] for name in "ab"]
        authority.opened(f"{folder}/a", "")
        see("the same authority again", [bytes_of(f"{folder}/a/{file}") for file in names], made[0])
        for what, left in (("key alone", [key]), ("certificate alone", [b"", root]), ("intermediate alone", [b"", b"", below_key, below]),
                           ("certificate of another key", [key, other]), ("certificate cut off", [key, root[:100]]),
                           ("key cut off", [key[:50], root]), ("intermediate of another root", [b"", root, other_key, other_below]),
                           ("intermediate cut off", [b"", root, below_key, below[:-100]]), ("intermediate without its key", [b"", root, b"", below]),
                           ("intermediate of another key", [b"", root, other_key, below])):
            path, left = f"{folder}/{what}", dict(filter(lambda file: file[1], zip(names, left)))
            os.makedirs(f"{path}/ca", 0o700)
            for name, data in left.items():
                put(f"{path}/{name}", data)
            with contextlib.redirect_stderr(io.StringIO()) as said:
                status = raised(SystemExit, authority.opened, path, "")
            found = {name: bytes_of(f"{path}/{name}") for name in names if os.path.exists(f"{path}/{name}")}
            if what in ("certificate of another key", "certificate cut off", "key cut off"):
                # The key of an intermediate that was not made.
                found.pop(names[2], None)
            tried(f"root: {what}", (status, said.getvalue().startswith("no authority: "), said.getvalue().count("\n"), found),
                  (str(os.EX_CONFIG), True, 1, left))
        ran = subprocess.run([sys.executable, "-B", f"{ROOT}/examples/house/house.py", path, "--desk=1", "--port=1"], capture_output=True, text=True)
        tried("root: the house over it", (ran.returncode, ran.stderr), (os.EX_CONFIG, said.getvalue()))
        words = [sys.executable, "-B", f"{ROOT}/examples/house/authority.py", "--offline-root", f"{folder}/away"]
        for name in ("a", "new"):
            ran = subprocess.run([*words, f"{folder}/{name}"], capture_output=True, text=True)
            tried(f"root: put away, of {name}", (ran.returncode, os.path.exists(f"{folder}/{name}/root.key"), os.stat(f"{folder}/away").st_mode & 0o777), (0, False, 0o600))
            authority.opened(f"{folder}/{name}", "")
            os.unlink(f"{folder}/{name}/ca/intermediate.pem")
            with contextlib.redirect_stderr(io.StringIO()):
                see("a new intermediate without the root's key", raised(SystemExit, authority.opened, f"{folder}/{name}", ""), str(os.EX_CONFIG))
            see("a new intermediate by it", subprocess.run([*words, f"{folder}/{name}"], capture_output=True).returncode, 0)
            authority.opened(f"{folder}/{name}", "")
            os.unlink(f"{folder}/away")


# ---- Keys and CSRs.


def spelled(number, length):
    return keys.encoded(number.to_bytes(length, "big"))


def looser(text):
    """Another spelling of the same bytes: with one of the bits set that the last character has too many."""
    letters = "ABCDEFGHIJKLMNOPQRSTUVWXYZabcdefghijklmnopqrstuvwxyz0123456789-_"
    return text[:-1] + letters[letters.index(text[-1]) + 1]


def spellings(key, jwk):
    """Other spellings of a key, by what they are."""
    yield from ((f"unused bits of {name}", {**jwk, name: looser(jwk[name])}) for name in "xyne" if len(jwk.get(name, "")) % 4)
    yield from ((f"padding of {name}", {**jwk, name: jwk[name] + "="}) for name in "xyn" if name in jwk)
    yield from ((f"zeros before {name}", {**jwk, name: keys.encoded(b"\0" + keys.decoded(jwk[name]))}) for name in "xyne" if name in jwk)
    yield from ((f"standard alphabet of {name}", {**jwk, name: jwk[name][:-1] + "+"}) for name in "xn" if name in jwk)


def key_spellings(trial):
    """One key has one account: each other spelling of it is no key, though its signature is right."""
    signers = {"ES256": ec.generate_private_key(ec.SECP256R1()), "RS256": rsa.generate_private_key(65537, 2048)}
    for algorithm, key in signers.items():
        wrapped = josepy.JWKEC(key=key) if algorithm == "ES256" else josepy.JWKRSA(key=key)
        jwk, sign = wrapped.public_key().to_json(), lambda data, key=key, algorithm=algorithm: josepy.JWASignature.from_json(algorithm).sign(key, data)
        see(f"a key of {algorithm}", account_by(trial.client, algorithm, jwk, sign).status, 201)
        see("the same with another member", account_by(trial.client, algorithm, {**jwk, "use": "sig"}, sign).status, 200)
        for what, other in spellings(key, jwk):
            tried_refused(f"spelling: {what}, {algorithm}", account_by(trial.client, algorithm, other, sign), 400, "badPublicKey")
    edwards = ed25519.Ed25519PrivateKey.generate()
    jwk = {"kty": "OKP", "crv": "Ed25519", "x": keys.encoded(edwards.public_key().public_bytes(Encoding.Raw, PublicFormat.Raw))}
    for what, other in spellings(edwards, jwk):
        tried_refused(f"spelling: {what}, EdDSA", account_by(trial.client, "EdDSA", other, edwards.sign), 400, "badPublicKey")


def leading_zeros(_):
    """Coordinates that begin by a zero: without it the key is not read. Such keys are one of 128, so they are made until there is one."""
    while True:
        numbers = ec.generate_private_key(ec.SECP256R1()).public_key().public_numbers()
        if numbers.x < 2**248:
            break
    jwk = {"kty": "EC", "crv": "P-256", "x": spelled(numbers.x, 32), "y": spelled(numbers.y, 32)}
    see("a coordinate with its zero", keys.read_key(jwk)[1], {name: jwk[name] for name in ("crv", "kty", "x", "y")})
    tried("spelling: a coordinate without its zero", raised(keys.BadKey, keys.read_key, {**jwk, "x": spelled(numbers.x, 31)}) is not None)
    prime = 2**256 - 2**224 + 2**192 + 2**96 - 1
    tried("spelling: a coordinate above the prime", raised(keys.BadKey, keys.read_key, {**jwk, "x": spelled(prime + 5, 32)}) is not None)
    ed = {"kty": "OKP", "crv": "Ed25519"}
    for y in (*keys.SMALL_ORDER, *(keys.PRIME + more for more in range(19))):
        for sign in (0, 2**255):
            point = keys.encoded((y + sign).to_bytes(32, "little"))
            tried(f"spelling: the point {y + sign:x} of Ed25519", raised(keys.BadKey, keys.read_key, {**ed, "x": point}) is not None)


def weak_keys(trial):
    """Keys of accounts that are too weak."""
    for what, exponent in (("exponent 3", 3), ("exponent 1", 1), ("even exponent", 65538), ("long exponent", 2**300 + 1)):
        numbers = rsa.generate_private_key(65537, 2048).public_key().public_numbers()
        jwk = {"kty": "RSA", "n": spelled(numbers.n, 256), "e": spelled(exponent, (exponent.bit_length() + 7) // 8)}
        tried_refused(f"weak key: {what}", account_by(trial.client, "RS256", jwk, lambda data: bytes(256)), 400, "badPublicKey")
    for bits in (1024, 8200, 60000):
        jwk = {"kty": "RSA", "n": spelled(2**bits - 1, bits // 8), "e": "AQAB"}
        tried_refused(f"weak key: {bits} bits", account_by(trial.client, "RS256", jwk, lambda data: bytes(256)), 400, "badPublicKey")
    for what, modulus in weak_moduli():
        jwk = {"kty": "RSA", "n": spelled(modulus, (modulus.bit_length() + 7) // 8), "e": "AQAB"}
        reply = account_by(trial.client, "RS256", jwk, lambda data: bytes(256))
        tried_refused(f"weak key: {what}", reply, 400, "badPublicKey")
        tried(f"weak key: what is said of {what}", what in json.loads(reply.body)["detail"])
    long_prime()


def long_prime():
    """A prime of 8192 bits, whose test to the end takes minutes of processor: it is refused after few seconds."""
    ran = subprocess.run(["openssl", "genpkey", "-algorithm", "DH", "-pkeyopt", "group:ffdhe8192"], capture_output=True, check=True)
    prime = load_pem_private_key(ran.stdout, None).parameters().parameter_numbers().p
    before = resource.getrusage(resource.RUSAGE_CHILDREN).ru_utime
    tried("weak key: a prime of 8192 bits", factors.weakness_of(prime), "the modulus of the RSA key is prime")
    taken = resource.getrusage(resource.RUSAGE_CHILDREN).ru_utime - before
    tried("weak key: the processor that a prime of 8192 bits takes", taken < 2 * factors.SECONDS)
    see("a product of 8192 bits", factors.weakness_of(unlike_others(8192)), None)
    print(f"house: a prime of 8192 bits was refused after {taken:.1f} s of processor")


def weak_moduli():
    """Moduli whose factors can be found, by a word of what is said of them."""
    yield "is prime", 2**2203 - 1
    yield "a small factor", 65521 * unlike_others(2040)
    half = unlike_others(1040)
    yield "close to each other", half * next(other for other in range(half + 2, half + 10000, 2) if math.gcd(other, factors.SMALL) == 1)
    most = math.prod(factors.PRIMES)
    yield "of a form", next(number for power in range(1000, 9000) if math.gcd(number := pow(65537, power, most) + most * unlike_others(1900), factors.SMALL) == 1)


def unlike_others(bits):
    """A random odd number without small factors, which is hardly prime."""
    while True:
        number = random.getrandbits(bits) | 1 | 1 << bits - 1
        if math.gcd(number, factors.SMALL) == 1:
            return number


def close_key():
    """A key whose two primes are close to each other."""
    primes = []
    number = unlike_others(1024) | 3 << 1022
    while len(primes) < 2:
        number += 2
        if math.gcd(number, factors.SMALL) == 1 and pow(2, number - 1, number) == 1 and math.gcd(number - 1, 65537) == 1:
            primes.append(number)
    p, q = primes
    d = pow(65537, -1, (p - 1) * (q - 1))
    public = rsa.RSAPublicNumbers(65537, p * q)
    return rsa.RSAPrivateNumbers(p, q, d, d % (p - 1), d % (q - 1), pow(q, -1, p), public).private_key()


def csr_of(key, name, hashed=hashes.SHA256()):
    csr = x509.CertificateSigningRequestBuilder().subject_name(x509.Name([]))
    with warnings.catch_warnings():
        warnings.simplefilter("ignore")
        return csr.add_extension(x509.SubjectAlternativeName([x509.DNSName(name)]), False).sign(key, hashed)


def finalized(trial, csr):
    """The reply to a finalize of a new order by a CSR, and the order once it is decided."""
    order, url = trial.ordered("csr.house.test")
    data = csr if isinstance(csr, bytes) else csr.public_bytes(Encoding.DER)
    return trial.client.post(order["finalize"], {"csr": josepy.encode_b64jose(data)}), trial.settled(url)


def weak_csrs(trial):
    """CSRs by weak keys, curves and hashes have no certificate."""
    name, good, rsa_key = "csr.house.test", ec.generate_private_key(ec.SECP256R1()), rsa.generate_private_key(65537, 2048)
    order, _ = trial.ordered(name)
    reply = trial.client.finalize(order, [name], trial.client.key.key.private_numbers().private_key())
    tried_refused("CSR of the account's own key", reply, 400, "badCSR")
    broken = bytearray(csr_of(good, name).public_bytes(Encoding.DER))
    broken[-1] ^= 1
    for what, csr in (
        ("an exponent of 3", csr_of(rsa.generate_private_key(3, 2048), name)),
        ("1024 bits", csr_of(rsa.generate_private_key(65537, 1024), name)),
        ("primes that are close", csr_of(close_key(), name)),
        ("version 2", csr_of(good, name).public_bytes(Encoding.DER).replace(b"\x02\x01\0", b"\x02\x01\1", 1)),
        ("MD5", csr_of(rsa_key, name, hashes.MD5())),
        ("SHA-1", csr_of(rsa_key, name, hashes.SHA1())),
        ("SHA-1 by a curve", csr_of(good, name, hashes.SHA1())),
        ("SHA-224", csr_of(rsa_key, name, hashes.SHA224())),
        ("secp256k1", csr_of(ec.generate_private_key(ec.SECP256K1()), name)),
        ("P-224", csr_of(ec.generate_private_key(ec.SECP224R1()), name)),
        ("Brainpool", csr_of(ec.generate_private_key(ec.BrainpoolP256R1()), name)),
        ("Ed25519", csr_of(ed25519.Ed25519PrivateKey.generate(), name, None)),
        ("DSA", csr_of(dsa.generate_private_key(2048), name)),
        ("another signature", bytes(broken)),
        ("no ASN.1", b"0" * 100),
        ("a certificate", bytes_of(trial.house.root)),
    ):
        reply, found = finalized(trial, csr)
        tried(f"CSR of {what}", (reply.status, found["status"], found.get("error", {}).get("type")), (200, "invalid", f"{ERROR}badCSR"))
    for key in (ec.generate_private_key(ec.SECP521R1()), ec.generate_private_key(ec.SECP384R1()), rsa_key):
        see(f"a CSR of {key.key_size} bits", finalized(trial, csr_of(key, name))[1]["status"], "valid")


# ---- Limits.


def nested(depth=10000):
    return "[" * depth + "]" * depth


def nesting(trial):
    """JSON that is nested deep: a 400 wherever it stands."""
    client, url = trial.client, trial.client.directory["newOrder"]
    tried_refused("nesting of the body", client.ask("POST", url, nested().encode()), 400, "malformed")

    def signed(header, payload="{}", to=url):
        parts = {"protected": keys.encoded(header.encode()), "payload": keys.encoded(payload.encode())}
        signature = josepy.ES256.sign(client.key.key, "{protected}.{payload}".format(**parts).encode())
        return client.ask("POST", to, json.dumps({**parts, "signature": keys.encoded(signature)}).encode())

    for depth in (700, 950, 10000):
        for member in ("alg", "kid", "url", "nonce", "other"):
            given = {"alg": '"ES256"', "kid": json.dumps(client.kid), "url": json.dumps(url), "nonce": '"AA"', member: nested(depth)}
            reply = signed("{" + ",".join(f'"{name}":{text}' for name, text in given.items()) + "}")
            tried(f"nesting of {member}, {depth}", reply.status in (400, 401))
        accounts = client.directory["newAccount"]
        reply = signed(f'{{"alg":"ES256","url":{json.dumps(accounts)},"jwk":{nested(depth)}}}', to=accounts)
        tried(f"nesting of jwk, {depth}", reply.status, 400)
        change = client.directory["keyChange"]
        inner = client.signed(change, f'{{"account":"{client.kid}","oldKey":{nested(depth)}}}', key=josepy.JWKEC(key=ec.generate_private_key(ec.SECP256R1())))
        tried_refused(f"nesting of an old key, {depth}", client.post(change, inner), 400, "malformed")
    tried_refused("nesting of a payload", client.post(url, f'{{"identifiers":{nested()}}}'), 400, "malformed")
    for name in ("0x7f.0x1", "*.10.0.0.0x1", "a.0XFF", "a.\uff10\uff581", "\u2460.1.1.1", "\u212a.example", "b\xfccher.example"):
        tried_refused(f"name {name} in an order", client.order("a.house.test", name), 400, "rejectedIdentifier")


class Down:
    """In the place of the desk, which gives a nonce for each request."""

    base = "https://localhost"

    def call(self, method, path, body=None, patience=None):
        return desk.Reply(404 if path.startswith("/office") else 200, [("Replay-Nonce", "AAAA"), ("Content-Length", "2")], b"{}")


@contextlib.contextmanager
def fronted(folder, called, address="127.0.0.1", wake=None, policy=policy.Policy()):
    """A front of its own before a desk; its address, and the lines that it logs."""
    made = office.Office(called, authority.opened(folder, "https://localhost"), ledger.Ledger(f"{folder}/ledger.db"), folder)
    made.certify_front("localhost")
    server = front.Server((address, 0), f"{folder}/front.pem", called, policy, revocation.Revocation(called, made.answer, ""), wake, wake, True)
    threading.Thread(target=server.serve_forever, daemon=True).start()
    try:
        with contextlib.redirect_stdout(io.StringIO()) as lines, contextlib.redirect_stderr(lines):
            yield server.server_address, lines
    finally:
        server.shutdown()
        server.server_close()


def secured(address, ciphers=None, source="127.0.0.1"):
    context = ssl.create_default_context()
    context.check_hostname, context.verify_mode = False, ssl.CERT_NONE
    if ciphers:
        context.maximum_version = ssl.TLSVersion.TLSv1_2
        context.set_ciphers(ciphers)
    source = (source, 0) if address[0] == "127.0.0.1" else None
    return context.wrap_socket(socket.create_connection(address[:2], 20, source), server_hostname="localhost")


def heard(connection):
    """All that comes of a connection until its end."""
    data = b""
    with contextlib.suppress(OSError):
        while more := connection.recv(65536):
            data += more
    return data


GET_DIRECTORY = b"GET /directory HTTP/1.1\r\n\r\n"


def fetched(address, request=GET_DIRECTORY, **given):
    """All that comes for a request over TLS."""
    with secured(address, **given) as client:
        client.sendall(request)
        return heard(client)


def posted(path, body):
    """The bytes of a signed request."""
    return f"POST {path} HTTP/1.1\r\nContent-Type: application/jose+json\r\nContent-Length: {len(body)}\r\n\r\n".encode() + body


def limits(trial):
    """Clients that are silent, slow or many, words for a log, weak suites, and a desk that is down."""
    folder = f"{trial.house.folder}/front"
    front.HANDSHAKE, front.LINE, front.PART, front.REPLY, front.WHOLE, front.CONNECTIONS, desk.PATIENCE = 1, 1, 1, 1, 2, 16, 0.3
    head = b"POST /new-order HTTP/1.1\r\nContent-Type: application/jose+json\r\nContent-Length: 100\r\n\r\n"
    with fronted(folder, Down()) as (address, lines):
        for what, sent in (("nothing", b""), ("half a line", b"GET /dir"), ("half a head", GET_DIRECTORY[:-2] + b"A: b\r\n"),
                           ("half a body", head + b"{")):
            with secured(address) as client:
                client.sendall(sent)
                start = time.monotonic()
                tried(f"silence after {what}", (heard(client), time.monotonic() - start < 10), (b"", True))
        with secured(address) as client:
            start = time.monotonic()
            with contextlib.suppress(OSError):
                client.sendall(head)
                for _ in range(100):
                    time.sleep(0.2)
                    client.sendall(b" ")
            tried("silence between bytes", time.monotonic() - start < 10)
        said = crowded(address)
        for text in (b"\x1b[2Jx", b"a\rb", b"\x9b31m", b"\x07", b"%s%n\\x", b"\xe2\x80\xae"):
            lines.truncate(lines.seek(0))
            fetched(address, b"GET /" + text + b" HTTP/1.1\r\n\r\n")
            found = lines.getvalue().removesuffix("\n").split("\n")
            tried(f"log of {text}", all(line.startswith("127.0.0.1 ") and line.isascii() and line.isprintable() for line in found))
        for suite in ("ECDHE-ECDSA-AES128-SHA", "ECDHE-ECDSA-AES256-SHA384", "ECDHE-ECDSA-AES128-SHA256", "AES128-SHA"):
            tried(f"suite {suite}", raised(OSError, secured, address, f"{suite}:@SECLEVEL=0") is not None)
        with secured(address, "ECDHE+AESGCM") as client:
            see("TLS 1.2", client.version(), "TLSv1.2")
    print(said)
    with fronted(folder, desk.Desk(str(free_port()), "https://localhost")) as (address, lines):
        for request in (GET_DIRECTORY, b"GET /office/orders HTTP/1.1\r\n\r\n", head + bytes(100)):
            top, _, body = fetched(address, request).partition(b"\r\n\r\n")
            found = (top.split(b" ")[1], b"Retry-After: 10" in top, b"application/problem+json" in top, json.loads(body)["type"])
            tried(f"down: {request[:20]}", found, (b"503", True, True, f"{ERROR}serverInternal"))


def connected():
    """How many connections have a thread of a server."""
    return sum("process_request_thread" in thread.name for thread in threading.enumerate())


def crowded(address):
    """400 silent connections of one client, of which few are held, and of many clients; others are answered beside them."""
    front.HANDSHAKE = 60
    wait_for(lambda: connected() == 0, 5)
    threads = connected()
    held = [socket.create_connection(address, 5, ("127.0.0.1", 0)) for _ in range(400)]
    is_few = wait_for(lambda: connected() - threads == front.OF_ONE and len(ended(held)) == 400 - front.OF_ONE)
    tried("connections of one client, 400 of them silent", is_few)
    start = time.monotonic()
    see("another client beside them", fetched(address, source="127.0.0.2")[:15], b"HTTP/1.1 200 OK")
    said = f"house: {len(ended(held))} of 400 connections of one client were refused, and another was answered in {time.monotonic() - start:.2f} s"
    held += [socket.create_connection(address, 5, (f"127.0.1.{number}", 0)) for number in range(1, 40)]
    tried("connections at one time", wait_for(lambda: connected() - threads == front.CONNECTIONS))
    front.HANDSHAKE = 1
    for connection in held:
        connection.close()
    see("a client after them", fetched(address)[:15], b"HTTP/1.1 200 OK")
    return said


def ended(connections):
    """Those of some connections whose other end has closed them."""
    ready = select.poll()
    for connection in connections:
        ready.register(connection, select.POLLIN)
    return ready.poll(0)


class Held(Down):
    """In the place of the desk, which answers a signed request when its client is gone."""

    def __init__(self, jwk):
        self.jwk, self.called, self.gone = json.dumps(jwk).encode(), threading.Event(), threading.Event()

    def call(self, method, path, body=None, patience=None):
        if method == "GET":
            return desk.Reply(200, [], self.jwk)
        self.called.set()
        self.gone.wait(20)
        return desk.Reply(200, [("Replay-Nonce", "AAAA"), ("Content-Length", "21")], b'{"status":"processing"}')


def gone(trial):
    """A client that is gone before its reply is read: validator and office are woken all the same."""
    woken, called = [], Held(trial.client.key.public_key().to_json())
    with fronted(f"{trial.house.folder}/gone", called, wake=lambda *said: woken.append(said)) as (address, _):
        for path, said in [("/chall/7", (f"7 {josepy.encode_b64jose(trial.client.key.thumbprint())}",)), ("/order/7/finalize", ())] * 20:
            woken.clear(), called.called.clear(), called.gone.clear()
            body = trial.client.signed(f"https://localhost{path}", {}, kid="https://localhost/account/1").encode()
            client = secured(address)
            client.sendall(posted(path, body))
            called.called.wait(20)
            client.setsockopt(socket.SOL_SOCKET, socket.SO_LINGER, struct.pack("ii", 1, 0))
            client.close()
            called.gone.set()
            tried(f"gone client of {path}", wait_for(lambda: woken, 20) and woken, [said])
        woken.clear(), called.gone.set()
        called.call = lambda method, path, body=None, patience=None: desk.Reply(200 if method == "GET" else 404, [], called.jwk)
        body = trial.client.signed("https://localhost/chall/7", {}, kid="https://localhost/account/1").encode()
        fetched(address, posted("/chall/7", body))
        tried("gone client, and what is said of another account's challenge", woken, [()])
    print("house: 40 clients were gone before their reply, and woke validator and office all the same")


def families(trial):
    """The front at addresses of IPv6, and at both families by one."""
    if not socket.has_dualstack_ipv6():
        print("house: IPv6 was not tried: this machine has none")
        return
    for address, reached in (("::1", ["::1"]), ("::", ["::1", "127.0.0.1"])):
        with fronted(f"{trial.house.folder}/family", Down(), address) as (place, lines):
            for end in reached:
                see(f"the front at {address}, reached at {end}", fetched((end, place[1]))[:15], b"HTTP/1.1 200 OK")
                see(f"the address in the log of {end}", lines.getvalue().split("\n")[-2].split(" ")[0], end)
    see("who counts as one client", [front.client_of("2001:db8::1") == front.client_of(other) for other in ("2001:db8::ffff:1:2", "2001:db8:0:1::1")],
        [True, False])


def chunks(trial):
    """Bodies in chunks: read as others are, and bounded."""
    client, url = trial.client, trial.client.directory["newOrder"]

    def sent(rest, coding=b"chunked"):
        with secured(("127.0.0.1", trial.house.port)) as connection, contextlib.suppress(OSError):
            connection.sendall(b"POST /new-order HTTP/1.1\r\nContent-Type: application/jose+json\r\nTransfer-Encoding: " + coding + b"\r\n" + rest)
            return int(heard(connection)[9:12] or 0)
        return 0

    client.ask("HEAD", client.directory["newNonce"])
    text = client.signed(url, {"identifiers": [{"type": "dns", "value": "chunks.house.test"}]}, kid=client.kid,
                         nonce=josepy.decode_b64jose(client.nonce)).encode()
    whole = b"".join(b"%x;a=b\r\n%s\r\n" % (len(part), part) for part in (text[:1], text[1:500], text[500:]))
    see("an order in chunks", sent(b"\r\n" + whole + b"0\r\nA: b\r\n\r\n"), 201)
    for what, body, status in (("a size that is none", b"\r\nx\r\n", 400), ("a size below zero", b"\r\n-1\r\n", 400), ("no size", b"\r\n\r\n", 400),
                               ("another length than it says", b"\r\n1\r\nab\r\n0\r\n\r\n", 400), ("no end", b"\r\n2\r\n{}\r\n", 0),
                               ("a length, too", b"Content-Length: 2\r\n\r\n2\r\n{}\r\n0\r\n\r\n", 411),
                               ("70 KB", b"\r\n11170\r\n" + bytes(70000) + b"\r\n0\r\n\r\n", 413), ("4 GB", b"\r\nffffffff\r\n" + bytes(2**20), 0)):
        tried(f"chunks with {what}", sent(body), status)
    tried("chunks of another coding", sent(b"\r\n0\r\n\r\n", b"gzip, chunked"), 411)
    small_chunks()


def small_chunks():
    """A body in as many chunks as there may be takes no more memory than its bytes."""
    called = SimpleNamespace(headers={"Transfer-Encoding": "chunked"}, rfile=io.BytesIO(b"2\r\n{}\r\n" * (front.REQUEST // 7) + b"0\r\n\r\n"))
    called._chunks = lambda: front.Front._chunks(called)
    tracemalloc.start()
    tried("chunks of two bytes", raised(front.Refused, front.Front._body, called), "the request is too large")
    most = tracemalloc.get_traced_memory()[1]
    tracemalloc.stop()
    tried("chunks of two bytes: their memory", most < front.REQUEST)
    print(f"house: {front.REQUEST // 7} chunks took {most >> 10} KB")


def stalled(trial):
    """A challenge at a server that sends a byte every three seconds is decided all the same, and others meanwhile."""
    order = json.loads(trial.client.order("slow.house.test").body)
    start, found = time.monotonic(), trial.answer(order["authorizations"][0], "http-01", "slow")
    tried("stall of a whole challenge", (found["status"], found["challenges"][0]["error"]["type"], time.monotonic() - start < 55),
          ("invalid", f"{ERROR}connection", True))


class SlowWeb(Web):
    """Answers challenges, those whose text is `slow` by a byte every three seconds."""

    def finish_request(self, request, client_address):
        asked = request.recv(4096, socket.MSG_PEEK).split(b" ", 2)
        if len(asked) > 1 and self.bodies.get(asked[1].decode().rsplit("/", 1)[-1]) == "slow":
            with contextlib.suppress(OSError):
                for _ in range(100):
                    request.sendall(b"H")
                    time.sleep(3)
            return
        super().finish_request(request, client_address)


def attacked(program, web, attacks, beside=None):
    """Makes these attacks on a house around the desk of the program, one after the other, and one more beside them; says how many were tried, and
    gives the exit status."""
    names = Names()

    def attack(house):
        slow = threading.Thread(target=beside, args=[Trial(house, web, names)])
        slow.start()
        try_each(attacks, Trial(house, web, names))
        slow.join()
        see("faults that the house shows", [line for line in house.lines if "Traceback" in line], [])

    in_house(program, attack, web=web.server_port, names=names.server_address[1])
    kinds = ", ".join(f"{word.rstrip(':')} {count}" for word, count in counts.items())
    print(f"house: {sum(counts.values())} attacks tried: {kinds}")
    return finish("house")


def main(program):
    attacks = (impostors, stalls, steering, crowds, reports, roots, leading_zeros, key_spellings, weak_keys, weak_csrs, nesting, chunks, families,
               gone, limits)
    return attacked(program, SlowWeb(), attacks, stalled)


if __name__ == "__main__":
    begin(main, __doc__)
