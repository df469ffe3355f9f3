"""Tries what a firm asks of the house of examples/house, over loopback: python3 -m scripts.house.firm PROGRAM

An office that is killed between signing and handing in; a firm's own authority in place of the built-in one, and what it may get wrong;
revocation by clients, and the list of it; the names, keys and external accounts that are allowed; and what each role reaches of the desk.
"""
import contextlib
import datetime
import hmac
import http.server
import io
import ipaddress
import json
import os
import re
import signal
import socket
import stat
import subprocess
import sys
import tempfile
import threading
import time
from types import SimpleNamespace

import josepy
from cryptography import x509
from cryptography.hazmat.primitives import hashes
from cryptography.hazmat.primitives.asymmetric import ec
from cryptography.hazmat.primitives.serialization import Encoding, load_pem_private_key

from scripts.house.attacks import Down, attacked, csr_of, fetched, fronted, heard, posted, raised, tried, tried_refused, wait_for
from scripts.house.client import Web, new_key
from scripts.house.housed import Run
from scripts.house.trials import ERROR, other_client
from scripts.repository import ROOT
from scripts.trying import begin, bytes_of, put, see

import authority
import command
import desk
import filter
import keys
import ledger
import office
import policy

NAME = "a.house.test"


# ---- The ledger.


class OneOrder(http.server.ThreadingHTTPServer):
    """In the place of a desk that has one order to sign; `certify` is what is done when its certificate is handed in, and gives a status."""

    def __init__(self, certify):
        self.csr, self.certify, self.handed, self.is_signed = csr_of(ec.generate_private_key(ec.SECP256R1()), NAME), certify, [], False
        super().__init__(("127.0.0.1", 0), OneOrderHandler)
        threading.Thread(target=self.serve_forever, daemon=True).start()


class OneOrderHandler(http.server.BaseHTTPRequestHandler):
    def do_GET(self):
        order = {"order": 5, "names": [NAME], "csr": keys.encoded(self.server.csr.public_bytes(Encoding.DER))}
        self.reply(200, {"orders": [] if self.server.is_signed else [order]})

    def do_POST(self):
        self.server.handed.append((self.path, self.rfile.read(int(self.headers["Content-Length"]))))
        self.reply(self.server.certify(), {"status": "valid"})

    def reply(self, status, document):
        with contextlib.suppress(OSError):
            self.send_response(status)
            self.end_headers()
            self.wfile.write(json.dumps(document).encode())

    def log_message(self, form, *words):
        pass


def killed(_):
    """An office that is killed when the desk gets its certificate hands the same one in at its next start, and says what became of it."""
    with tempfile.TemporaryDirectory(prefix="desk-house-") as folder:
        lines, ends = [], []

        def certify():
            if len(called.handed) == 1:
                ends[0].run.send_signal(signal.SIGKILL)
            # The order has ended meanwhile, and is listed no more.
            called.is_signed = True
            return 409

        called = OneOrder(certify)
        words = [sys.executable, "-B", f"{ROOT}/examples/house/house.py", f"{folder}/ca", "--part=office", f"--desk={called.server_port}",
                 "--base=https://localhost", f"--office={folder}/asks"]
        for _ in range(2):
            ends.append(Run("office", words, lines.append, "never said"))
            wait_for(lambda: len(called.handed) == len(ends) and (len(ends) == 1 or any("409" in line for line in lines)))
            if len(ends) == 1:
                ends[0].run.wait()
            with contextlib.suppress(FileNotFoundError):
                os.unlink(f"{folder}/asks")
        ends[1].stop()
        rows = ledger.Ledger(f"{folder}/ca/ledger.db")._do("SELECT number, names, taken, serial FROM certificate WHERE number > 0").fetchall()
        tried("killed office: certificates signed, and handed in", ([row[:3] for row in rows], len(called.handed), len(set(called.handed))),
              ([(5, f'["{NAME}"]', 409)], 2, 1))
        said = f"order 5: the desk does not take certificate {rows[0][3]} (409), as the order has ended since it was signed"
        tried("killed office: what is said of an order that has ended", [said in line for line in lines].count(True), 1)
        see("the key of a ledger", rows[0][3] in subprocess.run(["openssl", "x509", "-noout", "-serial"], input=called.handed[0][1], capture_output=True)
            .stdout.decode(), True)
        for path, wanted in ((f"{folder}/ca", 0o711), (f"{folder}/ca/root.pem", 0o644), (f"{folder}/ca/crl.der", 0o644)):
            see(f"the mode of {os.path.basename(path)}", stat.S_IMODE(os.stat(path).st_mode), wanted)
        put(f"{folder}/ca/ledger.db", b"x" * 5000)
        ran = subprocess.run(words, capture_output=True, text=True)
        tried("killed office: a ledger that can not be read", (ran.returncode, ran.stderr.startswith("no authority: ledger.db")), (os.EX_CONFIG, True))
        print("house: an office killed before its certificate was taken handed the same one in, and signed once")


# ---- A firm's own authority.


def signed(folder, named, key, days, is_authority):
    """A certificate by the intermediate of a folder, and that's."""
    signer, below = load_pem_private_key(bytes_of(f"{folder}/ca/intermediate.key"), None), bytes_of(f"{folder}/ca/intermediate.pem")
    now = datetime.datetime.utcnow()
    built = x509.CertificateBuilder().issuer_name(x509.load_pem_x509_certificate(below).subject).subject_name(x509.Name([])).public_key(key)
    built = built.serial_number(x509.random_serial_number()).not_valid_before(now - datetime.timedelta(1)).not_valid_after(now + datetime.timedelta(days))
    for extension in (x509.SubjectAlternativeName(named), x509.BasicConstraints(is_authority, None), x509.SubjectKeyIdentifier.from_public_key(key),
                      x509.AuthorityKeyIdentifier.from_issuer_public_key(signer.public_key())):
        built = built.add_extension(extension, isinstance(extension, (x509.SubjectAlternativeName, x509.BasicConstraints)))
    return built.sign(signer, hashes.SHA256()).public_bytes(Encoding.PEM) + below


def signed_by(folder, sign):
    """What the office does with one order by an authority, as (path, body) of each call, what it raises, and what it logs."""
    calls, signer = [], sign if hasattr(sign, "sign") else command.Command(sign)

    def call(method, path, body=None, patience=None):
        if method == "GET":
            return desk.Reply(200, [], json.dumps({"orders": [{"order": 5, "names": [NAME], "csr": csr}]}).encode())
        calls.append((path, body))
        return desk.Reply(200, [], b'{"status":"valid"}')

    csr = keys.encoded(csr_of(ec.generate_private_key(ec.SECP256R1()), NAME).public_bytes(Encoding.DER))
    with contextlib.redirect_stdout(io.StringIO()) as lines:
        why = raised(desk.Down, office.Office(SimpleNamespace(call=call), signer, ledger.Ledger(":memory:"), folder).work)
    return calls, why, lines.getvalue()


def failed(folder, sign):
    """The type and the detail by which an order fails that an authority does not sign well; else what happened."""
    calls, why, lines = signed_by(folder, sign)
    if why or [path for path, _ in calls] != ["/office/fail/5"]:
        return calls, why, lines
    return tuple(json.loads(calls[0][1])[name] for name in ("type", "detail"))


def commands(_):
    """Commands that sign: those that fail, take too long, write too much, or write what is not the order's certificate."""
    command.SECONDS = 1
    with tempfile.TemporaryDirectory(prefix="desk-house-") as folder:
        authority.opened(folder, ""), authority.opened(f"{folder}/other", "")
        for what, text, detail in (
            ("fails", "echo 'not by us\x1b[2J\nmore' >&2; exit 1", "not by us?[2J"), ("says nothing", "exit 3", "the authority ended with status 3"),
            ("never ends", "sleep 1000 & sleep 1000", "the authority took too long"), ("never stops", "yes", "the authority wrote too much"),
            ("never stops its errors", "yes >&2", "the authority wrote too much"), ("writes nothing", "exit 0", "what the authority wrote is no chain of certificates"),
            ("writes no chain", "echo -----BEGIN CERTIFICATE-----", "what the authority wrote is no chain of certificates"),
            ("writes a key before its chain", f"cat {folder}/root.key {folder}/root.pem", "what the authority wrote is no chain of certificates"),
        ):
            tried(f"command that {what}", failed(folder, ["sh", "-c", text, "sign"]), ("serverInternal", detail))
        for what, words in (("has failed for now", ["sh", "-c", "echo busy >&2; exit 75"]), ("is not there", [f"{folder}/none"])):
            calls, why, _ = signed_by(folder, words)
            tried(f"command that {what}: the order waits", (calls, "orders wait" in (why or "")), ([], True))

        def wrong(change):
            """An authority that signs by the keys of the built-in one, but for what is changed of names, key, signer, days and rights."""
            def sign(names, csr):
                given = {"names": names, "key": csr.public_key(), "signer": folder, "days": 90, "ca": False, **change}
                return signed(given["signer"], given.get("other") or [x509.DNSName(name) for name in given["names"]], given["key"], given["days"], given["ca"])
            return SimpleNamespace(sign=sign, revoking=())

        key, address = ec.generate_private_key(ec.SECP256R1()).public_key(), x509.IPAddress(ipaddress.ip_address("192.0.2.1"))
        for what, change, why in (("other names", {"names": ["b.house.test"]}, "has other names than the order"),
                                  ("one name more", {"names": [NAME, "b.house.test"]}, "has other names than the order"),
                                  ("an address", {"other": [x509.DNSName(NAME), address]}, "has other names than the order"), ("another key", {"key": key}, "has another key than the CSR"),
                                  ("no time", {"days": 0}, "is over"), ("a right to sign", {"ca": True}, "is an authority's"),
                                  ("another root", {"signer": f"{folder}/other"}, "is not verified by the root")):
            found = failed(folder, wrong(change))
            tried(f"certificate of {what}", (found[0], re.sub("[0-9A-F]{20,}", "N", found[1])), ("serverInternal", f"the certificate N of the authority {why}"))
        see("the same without a change", [path for path, _ in signed_by(folder, wrong({}))[0]], ["/office/certify/5"])
        repeats(folder, wrong({}))
    command.SECONDS = 60


def repeats(folder, authority):
    """An authority that gives one certificate for two orders, and one that can not revoke a certificate: the others go on."""
    csr, given, failed, told = csr_of(ec.generate_private_key(ec.SECP256R1()), NAME), [], [], []

    def call(method, path, body=None, patience=None):
        if method == "GET":
            orders = [{"order": number, "names": [NAME], "csr": keys.encoded(csr.public_bytes(Encoding.DER))} for number in (5, 6)]
            return desk.Reply(200, [], json.dumps({"orders": orders}).encode())
        failed.append(path)
        return desk.Reply(200, [], b'{"status":"valid"}')

    def revoke(certificate, reason):
        told.append(reason)
        if reason == "superseded":
            raise command.NotSigned("unknown")

    given.append(authority.sign([NAME], csr))
    signer = SimpleNamespace(sign=lambda names, csr: given[0], revoke=revoke, list_revoked=lambda: b"list", revoking=())
    made = office.Office(SimpleNamespace(call=call), signer, ledger.Ledger(":memory:"), folder)
    with contextlib.redirect_stdout(io.StringIO()):
        made.work()
        tried("command that signs twice alike", failed, ["/office/certify/5", "/office/fail/6"])
        given[0] = authority.sign([NAME], csr)
        made._signed(7, [NAME], csr)
        for chain, reason in (*((chain, "superseded") for _, chain in made.ledger._do("SELECT number, chain FROM certificate WHERE number = 5")), (given[0], "keyCompromise")):
            made.ledger.revoke(x509.load_pem_x509_certificate(chain), reason)
        made.list_revoked()
    tried("command that can not revoke one of two", (told, len(made.ledger.untold())), (["superseded", "keyCompromise"], 1))


# ---- Revocation.


def chain_of(trial, names, key=None):
    """A new certificate of names with its key, as x509 has it, and the chain."""
    order, url = trial.ordered(*names)
    key = key or ec.generate_private_key(ec.SECP256R1())
    trial.client.finalize(order, names, key)
    chain = trial.client.post(trial.settled(url)["certificate"]).body
    return x509.load_pem_x509_certificate(chain), key, chain


def verified(trial, chain):
    """What OpenSSL says of a chain by the list of what is revoked that its certificate names."""
    points = x509.load_pem_x509_certificate(chain).extensions.get_extension_for_class(x509.CRLDistributionPoints).value
    found = trial.client.ask("GET", points[0].full_name[0].value)
    with tempfile.TemporaryDirectory(dir=trial.house.folder) as folder:
        for name, data in (("chain.pem", chain), ("crl.pem", x509.load_der_x509_crl(found.body).public_bytes(Encoding.PEM))):
            put(f"{folder}/{name}", data)
        words = ["openssl", "verify", "-x509_strict", "-crl_check", "-CRLfile", f"{folder}/crl.pem", "-CAfile", trial.house.root, "-untrusted"]
        ran = subprocess.run([*words, f"{folder}/chain.pem", f"{folder}/chain.pem"], capture_output=True, text=True)
    said = re.search("certificate revoked", ran.stderr)
    return "revoked" if said and ran.returncode else "good" if ran.returncode == 0 else ran.stderr


def number_of(data):
    """The number of a list of what is revoked."""
    return x509.load_der_x509_crl(data).extensions.get_extension_for_class(x509.CRLNumber).value.crl_number


def revocations(trial):
    """A certificate revoked by its account, and by its own key; not by others, not twice, and not for any reason."""
    client, url = trial.client, trial.client.directory.get("revokeCert")
    see("the directory's revokeCert", url, f"{trial.house.base}/revoke-cert")
    (first, first_key, chain), (second, second_key, second_chain) = chain_of(trial, ["r.house.test"]), chain_of(trial, ["r.house.test", "s.house.test"])

    def payload(certificate, **more):
        return {"certificate": josepy.encode_b64jose(certificate.public_bytes(Encoding.DER)), **more}

    see("a certificate and the first list", verified(trial, chain), "good")
    foreign = x509.load_pem_x509_certificate(bytes_of(trial.house.root))
    other = other_client(trial)
    for what, reply, status, kind in (
        ("by another account", other.post(url, payload(first)), 403, "unauthorized"),
        ("by another key", client.post(url, payload(first), key=new_key(), kid=None), 403, "unauthorized"),
        ("by the account's key as the certificate's", client.post(url, payload(first), kid=None), 403, "unauthorized"),
        ("by a nonce that is spent", client.post(url, payload(first), nonce=b"0" * 24), 400, "badNonce"),
        ("by its key and a nonce that is spent", client.post(url, payload(first), key=josepy.JWKEC(key=first_key), kid=None, nonce=b"0" * 24), 400, "badNonce"),
        ("for another reason", client.post(url, payload(first, reason=2)), 400, "badRevocationReason"),
        ("for a reason that is none", client.post(url, payload(first, reason=[1])), 400, "badRevocationReason"),
        ("of a certificate of others", client.post(url, payload(foreign)), 404, "malformed"),
        ("of no certificate", client.post(url, {"certificate": "AAAA"}), 400, "malformed"), ("of nothing", client.post(url), 400, "malformed"),
    ):
        tried_refused(f"revocation {what}", reply, status, kind)
    see("the certificate after them", verified(trial, chain), "good")
    see("a revocation by its account", (reply := client.post(url, payload(first, reason=4))) and (reply.status, reply.body), (200, b""))
    see("the nonce after it", client.post(client.kid, nonce=josepy.decode_b64jose(client.nonce)).status, 200)
    tried_refused("revocation twice", client.post(url, payload(first, reason=1)), 400, "alreadyRevoked")
    tried("revocation that OpenSSL sees", wait_for(lambda: verified(trial, chain) == "revoked"))
    see("another certificate", verified(trial, second_chain), "good")
    see("a revocation by its own key", other.post(url, payload(second, reason=1), key=josepy.JWKEC(key=second_key), kid=None).status, 200)
    tried("revocation by its key that OpenSSL sees", wait_for(lambda: verified(trial, second_chain) == "revoked"))
    found = x509.load_der_x509_crl(client.ask("GET", f"{trial.house.base}/crl").body)
    reasons = {entry.serial_number: entry.extensions.get_extension_for_class(x509.CRLReason).value.reason.value for entry in found}
    see("the list", reasons, {first.serial_number: "superseded", second.serial_number: "keyCompromise"})
    number = number_of(client.ask("GET", f"{trial.house.base}/crl").body)
    trial.house.kill()
    tried("revocation list that is signed anew at a start", wait_for(lambda: number_of(client.ask("GET", f"{trial.house.base}/crl").body) > number))
    see("a revoked certificate after a start", verified(trial, chain), "revoked")
    left = found.next_update - datetime.datetime.utcnow()
    print(f"house: revoked by account and by key; OpenSSL refuses both; the list was number {number} and holds for {left.days + 1} days")


# ---- What a firm allows.


class Passed(Down):
    """In the place of the desk, which notes what is passed on to it, and has one key."""

    def __init__(self, jwk):
        self.jwk, self.passed = json.dumps(jwk).encode(), []

    def call(self, method, path, body=None, patience=None):
        if path.startswith("/office/key"):
            return desk.Reply(200, [], self.jwk)
        if method == "POST":
            self.passed.append(json.loads(body)["payload"])
        return super().call(method, path, body)


def bound(client, kid, mac, url, key=None, **more):
    """An external account binding, made by hand (RFC 8555, 7.3.4)."""
    header = {"alg": "HS256", "kid": kid, "url": url, **more}
    parts = {"protected": keys.encoded(json.dumps(header).encode()), "payload": keys.encoded(json.dumps((key or client.key).public_key().to_json()).encode())}
    return {**parts, "signature": keys.encoded(hmac.digest(mac, "{protected}.{payload}".format(**parts).encode(), "sha256"))}


def policies(trial):
    """Names, keys and external accounts that are not allowed are refused before the desk sees them."""
    folder, client, mac = trial.house.folder, trial.client, os.urandom(32)
    url, other = "https://localhost/new-account", new_key()
    paths = {name: f"{folder}/{name}" for name in ("accounts", "bindings")}

    def write(name, *lines):
        put(paths[name], "".join(f"{line}\n" for line in lines).encode())

    def sent(address, path, payload, key=None):
        """The status, type and document of the reply to a request."""
        shown = {} if path == "/new-account" else {"kid": "https://localhost/account/1"}
        body = client.signed(f"https://localhost{path}", payload, key=key, **shown).encode()
        head, _, text = fetched(address, posted(path, body)).partition(b"\r\n\r\n")
        document = json.loads(text)
        return int(head.split(b" ")[1]), document.get("type", "").removeprefix(ERROR), document

    def order(*names):
        return {"identifiers": [{"type": "dns", "value": name} for name in names]}

    called = Passed(client.key.public_key().to_json())
    with fronted(f"{folder}/firm", called, policy=policy.Policy(["corp.example", "lab.example"])) as (address, _):
        for names in (["corp.example"], ["a.corp.example", "*.b.lab.example"], ["A.CORP.example"]):
            see(f"an order of {names}", sent(address, "/new-order", order(*names))[0], 200)
        see("what is passed on", len(called.passed), 3)
        for names, bad in ((["a.corp.example", "a.example"], ["a.example"]), (["xcorp.example"], ["xcorp.example"]), (["*.example"], ["*.example"]),
                           (["corp.example.evil"], ["corp.example.evil"]), (["corp.example."], ["corp.example."]), (["a.0x7f", "b.example"], ["a.0x7f", "b.example"]),
                           (["\u212a.corp.example"], ["\u212a.corp.example"]), (["a.\uff10\uff581"], ["a.\uff10\uff581"])):
            status, kind, document = sent(address, "/new-order", order(*names))
            found = [(part["identifier"]["value"], part["type"].removeprefix(ERROR)) for part in document.get("subproblems", [])]
            tried(f"policy: an order of {names}", (status, kind, found), (400, "rejectedIdentifier", [(name, "rejectedIdentifier") for name in bad]))
        for what, text in (("a number of 5000 digits", f'{{"identifiers":[{{"type":"dns","value":"evil.example"}}],"x":{"1" * 5000}}}'),
                           ("deep nesting", f'{{"identifiers":[{{"type":"dns","value":"evil.example"}}],"x":{"[" * 5000}{"]" * 5000}}}'),
                           ("an odd identifier", '{"identifiers":[{"type":"dns","value":"evil.example"},{}]}')):
            tried(f"policy: {what}", sent(address, "/new-order", text)[:2], (400, "malformed"))
        see("what is passed on then", len(called.passed), 3)
    for path in ("accounts", "bindings"):
        with fronted(f"{folder}/firm", called, policy=policy.Policy((), **{path: ""})) as (address, _):
            tried(f"policy: an empty path of {path}", sent(address, "/new-account", {"externalAccountBinding": {}})[:2], (503, "serverInternal"))
    with fronted(f"{folder}/firm", called, policy=policy.Policy((), **paths)) as (address, _):
        thumbprint = josepy.encode_b64jose(client.key.thumbprint())
        tried("policy: files that are not there", sent(address, "/new-account", {})[:2], (503, "serverInternal"))
        write("accounts", thumbprint), write("bindings", f"one {keys.encoded(mac)}", "", "odd")
        good = bound(client, "one", mac, url)
        see("a key that is allowed and bound", sent(address, "/new-account", {"externalAccountBinding": good})[0], 200)
        tried("policy: another key", sent(address, "/new-account", {"externalAccountBinding": bound(client, "one", mac, url, other)}, other)[:2], (403, "unauthorized"))
        see("another key that looks for its account", sent(address, "/new-account", {"onlyReturnExisting": True}, other)[0], 200)
        for what, binding in (("no binding", None), ("one of another key", bound(client, "one", mac, url, other)), ("one by another MAC key", bound(client, "one", bytes(32), url)),
                              ("an unknown identifier", bound(client, "two", mac, url)), ("an identifier without a key", bound(client, "odd", b"", url)),
                              ("another URL", bound(client, "one", mac, f"{url}x")), ("another algorithm", bound(client, "one", mac, url, alg="none")),
                              ("a nonce", bound(client, "one", mac, url, nonce="AAAA")), ("a cut signature", {**good, "signature": good["signature"][:-4]}),
                              ("no signature", {**good, "signature": ""}), ("an odd one", [])):
            status, kind = (403, "externalAccountRequired") if binding is None else (403, "unauthorized")
            tried(f"binding: {what}", sent(address, "/new-account", {"externalAccountBinding": binding})[:2], (status, kind))
        write("accounts", josepy.encode_b64jose(other.thumbprint()))
        see("a file that is read at each use", sent(address, "/new-account", {"externalAccountBinding": good})[:2], (403, "unauthorized"))
        see("the directory's meta", b'"meta":{"externalAccountRequired":true}' in fetched(address), True)


# ---- Roles.


def roles(trial):
    """Each role reaches what it needs of the desk, and nothing else."""
    folder, requests = tempfile.mkdtemp(dir=trial.house.folder), {
        "GET /directory": "front operator", "HEAD /new-nonce": "front operator", "POST /new-order": "front operator", "GET /office/key/1": "front operator",
        "GET /office/challenges": "validator operator", "POST /office/report/99": "validator operator", "GET /office/orders": "office operator",
        "POST /office/certify/99": "office operator", "POST /office/fail/99": "office operator", "POST /office/revoke-account/99": "operator",
        "POST /office/revoke-authz/99": "operator", "GET /office/nothing": "operator", "GET /office/key/1?x": "operator", "POST /office/key/1": "operator",
        "GET /office/page": "operator", "POST /office/look": "operator", "GET /office/metrics": "operator monitor", "GET /office/backup": "operator",
        "GET /office": "operator", "GET /officers": "operator"}
    servers = {}
    for role in filter.ROLES:
        listener = socket.socket(socket.AF_UNIX)
        listener.bind(f"{folder}/{role}")
        listener.listen()
        servers[role] = filter.Role(role, listener, trial.house.desk_socket)
        threading.Thread(target=servers[role].serve_forever, daemon=True).start()

    def status(role, request):
        with socket.socket(socket.AF_UNIX) as channel:
            channel.settimeout(20)
            channel.connect(f"{folder}/{role}")
            channel.sendall(request)
            channel.shutdown(socket.SHUT_WR)
            return int(heard(channel)[9:12] or 0)

    with contextlib.redirect_stdout(io.StringIO()) as lines:
        for request, allowed in requests.items():
            for role in filter.ROLES:
                found = status(role, f"{request} HTTP/1.1\r\nContent-Length: 2\r\n\r\n{{}}".encode())
                tried(f"role {role}: {request}", found != 403, role in allowed.split())
        for what, line in (("an empty line before it", b"\r\nGET /office/orders HTTP/1.1"), ("a lone line end before it", b"\nGET /office/orders HTTP/1.1"),
                           ("two spaces", b"GET  /office/orders HTTP/1.1"), ("a tab", b"GET\t/office/orders HTTP/1.1"), ("no version", b"GET /office/orders"),
                           ("another version", b"GET /office/orders HTTP/1.0"), ("another form", b"GET http://x/office/orders HTTP/1.1"),
                           ("a lone line end", b"GET /office/orders HTTP/1.1\nA: b"), ("a null byte", b"GET /\x00/office/orders HTTP/1.1"), ("nothing", b"")):
            tried(f"role front: {what}", status("front", line + b"\r\n\r\n"), 403)
        second = b"GET /directory HTTP/1.1\r\nContent-Length: 0\r\n\r\nPOST /office/revoke-account/1 HTTP/1.1\r\nContent-Length: 0\r\n\r\n"
        tried("role front: a second request behind the first", status("front", second), 200)
        see("the account after it", trial.client.post(trial.client.kid).status, 200)
        filter.Call.timeout = 2
        with socket.socket(socket.AF_UNIX) as silent:
            silent.connect(f"{folder}/front")
            silent.sendall(b"GET /dir")
            start = time.monotonic()
            tried("role validator: beside a front that is silent", (status("validator", b"GET /office/challenges HTTP/1.1\r\n\r\n"), time.monotonic() - start < 20), (200, True))
        called = desk.Desk(f"{folder}/office", "")
        see("a call of a part", called.call("GET", "/office/orders").status, 200)
        see("a large body", called.call("POST", "/office/certify/99", bytes(65536)).status, 404)
    for server in servers.values():
        server.shutdown()
    said = lines.getvalue()
    see("a refusal in the log", "front: refused: b'POST /office/revoke-account/99 HTTP/1.1'" in said, True)
    print(f"house: {len(requests)} requests by {len(servers)} roles: {said.count('refused')} were refused before the desk")


def main(program):
    return attacked(program, Web(), (killed, commands, policies, roles, revocations))


if __name__ == "__main__":
    begin(main, __doc__)
