"""Tries the house of examples/house around a desk, over loopback: python3 -m scripts.house.trials PROGRAM

An account, a change of its key, names by http-01, a wildcard by dns-01, what the desk, the front and the signing office
refuse, a failed validation, a renewal that uses authorizations again, and requests that are sent again while `serve` is killed
and started. Signatures of each algorithm that the front reads are tried, and of those that it does not; and what is said where
another program has the port.
"""
import collections
import contextlib
import hashlib
import json
import socket
import socketserver
import subprocess
import tempfile
import threading
import time

import josepy
from cryptography.hazmat.primitives.asymmetric import ec, ed25519, padding, rsa
from cryptography.hazmat.primitives import hashes
from cryptography.hazmat.primitives.serialization import Encoding, PublicFormat

from scripts.house.client import Client, Names, Web, new_key
from scripts.house.housed import House, in_house, try_each
from scripts.trying import begin, finish, see

# How long a test waits for an office of the house, in seconds.
PATIENCE = 60
ERROR = "urn:ietf:params:acme:error:"


def refused(what, reply, status, kind):
    see(what, (reply.status, json.loads(reply.body).get("type")), (status, ERROR + kind))


class Trial:
    """A house, a client of it, and what answers the client's challenges."""

    def __init__(self, house, web, names):
        self.house, self.web, self.names = house, web, names
        self.client = Client(house.base, house.root)
        see("a new account", self.client.open_account().status, 201)

    def settled(self, url):
        """What a URL shows once nothing of it is pending or processing."""
        end = time.monotonic() + PATIENCE
        while True:
            found = self.client.read(url)
            if found["status"] not in ("pending", "processing") or time.monotonic() > end:
                return found
            time.sleep(0.1)

    def answer(self, authorization, kind, text=None):
        """Answers the challenge of a kind, by another text where one is given, and gives the authorization when it is decided."""
        found = self.client.read(authorization)
        challenge = next(challenge for challenge in found["challenges"] if challenge["type"] == kind)
        text = self.client.key_authorization(challenge["token"]) if text is None else text
        if kind == "http-01":
            self.web.bodies[challenge["token"]] = text
        elif text:
            digest = josepy.encode_b64jose(hashlib.sha256(text.encode()).digest())
            self.names.texts.setdefault(f"_acme-challenge.{found['identifier']['value']}", []).append(digest)
        see("an answer", self.client.post(challenge["url"], {}).status, 200)
        return self.settled(authorization)

    def ordered(self, *names, kind="http-01"):
        """An order of names that are all validated, and its URL."""
        reply = self.client.order(*names)
        see(f"an order of {names}", reply.status, 201)
        for authorization in json.loads(reply.body)["authorizations"]:
            if self.client.read(authorization)["status"] == "pending":
                see(f"an authorization of {names}", self.answer(authorization, kind)["status"], "valid")
        return self.client.read(reply.fields["Location"]), reply.fields["Location"]

    def certified(self, order, url, names):
        """Finalizes an order, and verifies the chain that comes of it."""
        again = self.client.again
        status = self.client.finalize(order, names).status
        # Asked again after a reply that was lost, the order is not ready any more, but processing.
        see(f"finalize {names}", status == 200 or status == 403 and again < self.client.again, True)
        found = self.settled(url)
        see(f"the order of {names}", found["status"], "valid")
        chain = self.client.post(found["certificate"])
        see("its type", chain.fields.get_content_type(), "application/pem-certificate-chain")
        with tempfile.NamedTemporaryFile(dir=self.house.folder) as file:
            file.write(chain.body)
            file.flush()
            words = ["openssl", "verify", "-x509_strict", "-CAfile", self.house.root, "-verify_hostname", names[0], "-untrusted", file.name, file.name]
            see(f"openssl verifies {names}", subprocess.run(words, capture_output=True).returncode, 0)


def certificates(trial):
    """Names by http-01, a wildcard by dns-01, and a renewal, which needs no validation."""
    for names, kind in ((["a.house.test", "b.house.test"], "http-01"), (["*.house.test"], "dns-01")):
        trial.certified(*trial.ordered(*names, kind=kind), names)
    again = trial.client.order("b.house.test", "a.house.test")
    order = json.loads(again.body)
    see("a renewal", (again.status, order["status"]), (201, "ready"))
    trial.certified(order, again.fields["Location"], ["b.house.test", "a.house.test"])


def key_change(trial):
    """A new key in the place of the old one, which is then no account's; and changes that are refused."""
    client, old, other = trial.client, trial.client.key, Client(trial.house.base, trial.house.root)
    other.open_account()
    refused("the key of another account", client.change_key(other.key), 409, "malformed")
    url, inner = client.directory["keyChange"], {"account": client.kid, "oldKey": old.public_key().to_json()}
    refused("an inner JWS of another key", client.post(url, client.signed(url, inner, key=old, kid=client.kid)), 400, "malformed")
    refused("an inner JWS for another URL", client.post(url, client.signed(f"{url}x", inner, key=new_key())), 401, "unauthorized")
    broken = json.loads(client.signed(url, inner, key=new_key()))
    broken["signature"] = json.loads(client.signed(url, inner, key=new_key()))["signature"]
    refused("an inner JWS with another signature", client.post(url, json.dumps(broken)), 400, "malformed")
    refused("another old key", client.post(url, client.signed(url, {**inner, "oldKey": other.key.public_key().to_json()}, key=new_key())),
            400, "malformed")
    see("a change of the key", client.change_key(new_key()).status, 200)
    see("the account by its new key", client.post(client.kid).status, 200)
    refused("the account by its old key", client.post(client.kid, key=old), 400, "malformed")


def refusals(trial):
    """What the front refuses of itself, and what it hands on."""
    client, base = trial.client, trial.house.base
    new_order, text = client.directory["newOrder"], json.dumps({"identifiers": []})
    refused("a name that is none", client.order("no_name.house.test"), 400, "rejectedIdentifier")
    asked, nothing = {"identifiers": [{"type": "dns", "value": "null.house.test"}]}, {"notBefore": None, "notAfter": None}
    refused("a date for a certificate", client.post(new_order, {**asked, "notBefore": "2027-01-01T00:00:00Z"}), 400, "malformed")
    see("dates that are null", client.post(new_order, {**asked, **nothing}).status, 201)
    used = josepy.decode_b64jose(client.nonce)
    see("a nonce", client.post(client.kid, nonce=used).status, 200)
    refused("a nonce twice", client.post(client.kid, nonce=used), 400, "badNonce")
    see("the nonce of that refusal", client.post(client.kid, nonce=josepy.decode_b64jose(client.nonce)).status, 200)
    refused("another content type", client.ask("POST", new_order, text.encode(), "application/json"), 415, "malformed")
    reply = client.ask("POST", new_order, text.encode())
    refused("no JWS", reply, 400, "malformed")
    see("its link", reply.fields["Link"], f'<{base}/directory>;rel="index"')
    refused("a body that is too large", client.ask("POST", new_order, bytes(200000)), 413, "malformed")
    for path in ("/office/orders", "/office/key/1", "//office/orders", "/nothing"):
        refused(f"GET {path}", client.ask("GET", base + path), 404, "malformed")
    refused("POST to an office", client.post(f"{base}/office/fail/1", {"type": "badCSR", "detail": "no"}), 404, "malformed")
    see("GET where a POST belongs", (client.ask("GET", new_order).status, client.ask("PUT", new_order, b"x").status), (405, 405))
    other = client.signed(client.kid, text, kid=client.kid).encode()
    refused("a request for another URL", client.ask("POST", new_order, other), 401, "unauthorized")
    refused("a key where an account belongs", client.post(new_order, text, kid=None), 400, "malformed")
    refused("an account where a key belongs", client.post(client.directory["newAccount"], {}), 400, "malformed")
    refused("no account", client.post(new_order, text, kid=f"{base}/account/99"), 400, "accountDoesNotExist")
    refused("another key", client.post(new_order, text, key=new_key()), 400, "malformed")
    refused("the order of another account", other_client(trial).post(f"{base}/order/1"), 404, "malformed")
    see("a date", "Date" in client.ask("GET", client.directory["newNonce"]).fields, True)
    paths = trial.house.losing.paths
    asked = [paths[path] for path in ("/office/challenges", "/office/orders", "/office/fail/1")]
    see("what the offices asked for, which nobody woke since their start", asked, [1, 1, 0])


def other_client(trial):
    client = Client(trial.house.base, trial.house.root)
    client.open_account()
    return client


def failures(trial):
    """CSRs that the office refuses, and validations that fail."""
    for names in (["c.house.test", "d.house.test"], ["d.house.test"]):
        order, url = trial.ordered("c.house.test")
        trial.client.finalize(order, names)
        found = trial.settled(url)
        see(f"a CSR of {names}", (found["status"], found.get("error", {}).get("type")), ("invalid", f"{ERROR}badCSR"))
    for kind, text, error in (("http-01", "else", "incorrectResponse"), ("http-01", "", "connection"),
                              ("dns-01", "else", "incorrectResponse"), ("dns-01", "", "dns")):
        order = json.loads(trial.client.order(f"{error}.{kind}.test").body)
        found = trial.answer(order["authorizations"][0], kind, text)
        shown = found["status"], found["challenges"][0].get("error", {}).get("type")
        see(f"{kind}, {text or 'nothing'}", shown, ("invalid", ERROR + error))


def signers():
    """For each algorithm its public key as JSON, and how its private key signs bytes."""
    rsa_key, edwards = rsa.generate_private_key(65537, 2048), ed25519.Ed25519PrivateKey.generate()
    rsa_json = josepy.JWKRSA(key=rsa_key).public_key().to_json()
    made = {"RS256": (rsa_json, lambda data: josepy.RS256.sign(rsa_key, data)),
            "PS256": (rsa_json, lambda data: rsa_key.sign(data, padding.PSS(padding.MGF1(hashes.SHA256()), 32), hashes.SHA256()))}
    for algorithm, curve in ((josepy.ES256, ec.SECP256R1()), (josepy.ES384, ec.SECP384R1()), (josepy.ES512, ec.SECP521R1())):
        key = ec.generate_private_key(curve)
        made[algorithm.name] = josepy.JWKEC(key=key).public_key().to_json(), lambda data, key=key, sign=algorithm.sign: sign(key, data)
    raw = edwards.public_key().public_bytes(Encoding.Raw, PublicFormat.Raw)
    made["EdDSA"] = {"kty": "OKP", "crv": "Ed25519", "x": josepy.encode_b64jose(raw)}, edwards.sign
    return made


def account_by(client, algorithm, jwk, sign):
    """The reply to a newAccount whose signature is made by hand."""
    url, nonce = client.directory["newAccount"], client.ask("HEAD", client.directory["newNonce"]).fields["Replay-Nonce"]
    header = json.dumps({"alg": algorithm, "jwk": jwk, "nonce": nonce, "url": url})
    parts = {"protected": josepy.encode_b64jose(header.encode()), "payload": josepy.encode_b64jose(b"{}")}
    signature = sign("{protected}.{payload}".format(**parts).encode())
    return client.ask("POST", url, json.dumps({**parts, "signature": josepy.encode_b64jose(signature)}).encode())


def signatures(trial):
    """Each algorithm by its own keys alone, and none of another key's signatures."""
    made, wrong = signers(), signers()
    for algorithm, (jwk, sign) in made.items():
        refused(f"{algorithm} by another key", account_by(trial.client, algorithm, jwk, wrong[algorithm][1]), 400, "malformed")
        for other, (other_jwk, _) in made.items():
            if other_jwk != jwk:
                reply = account_by(trial.client, algorithm, other_jwk, sign)
                refused(f"{algorithm} with a key of {other}", reply, 400, "badSignatureAlgorithm")
        see(f"{algorithm}", account_by(trial.client, algorithm, jwk, sign).status, 200 if algorithm == "PS256" else 201)
    jwk, sign = made["ES256"]
    for algorithm in ("none", "HS256", "RS512"):
        refused(algorithm, account_by(trial.client, algorithm, jwk, sign), 400, "badSignatureAlgorithm")
    weak = rsa.generate_private_key(65537, 1024)
    reply = account_by(trial.client, "RS256", josepy.JWKRSA(key=weak).public_key().to_json(), lambda data: josepy.RS256.sign(weak, data))
    refused("a short RSA key", reply, 400, "badPublicKey")
    refused("a point on no curve", account_by(trial.client, "ES256", {**jwk, "x": jwk["y"]}, sign), 400, "badPublicKey")


def restarts(trial):
    """The house is killed when it has work: what is left it does at its next start, with the same authority."""
    reply = trial.client.order("left.house.test")
    order, url = json.loads(reply.body), reply.fields["Location"]
    challenge = trial.client.read(order["authorizations"][0])["challenges"][0]
    trial.web.bodies[challenge["token"]] = trial.client.key_authorization(challenge["token"])
    trial.client.post(challenge["url"], {})
    trial.house.kill()
    see("an answer before a kill", trial.settled(order["authorizations"][0])["status"], "valid")
    trial.client.finalize(order, ["left.house.test"])
    trial.house.kill()
    see("a finalize before a kill", trial.settled(url)["status"], "valid")


class Losing(socketserver.ThreadingTCPServer):
    """Hands calls on to a desk, and counts them by path; while `is_on` each fourth reply is lost."""

    daemon_threads = True

    def __init__(self, place):
        self.place, self.is_on, self.count, self.lost, self.paths = place, False, 0, 0, collections.Counter()
        super().__init__(("127.0.0.1", 0), LosingHandler)
        threading.Thread(target=self.serve_forever, daemon=True).start()

    def loses(self):
        """Whether this reply is lost."""
        self.count += self.is_on
        is_lost = self.is_on and self.count % 4 == 0
        self.lost += is_lost
        return is_lost


class LosingHandler(socketserver.BaseRequestHandler):
    def handle(self):
        with contextlib.suppress(OSError), socket.socket(socket.AF_UNIX) as desk:
            desk.connect(self.server.place)
            asked = self.request.recv(65536)
            self.server.paths[asked.split(b" ", 2)[1].decode()] += 1
            desk.sendall(asked)
            threading.Thread(target=self.hand_on, args=[desk], daemon=True).start()
            reply = desk.makefile("rb").read()
            if not self.server.loses():
                self.request.sendall(reply)

    def hand_on(self, desk):
        with contextlib.suppress(OSError):
            while data := self.request.recv(65536):
                desk.sendall(data)


class LosingHouse(House):
    """A house that calls its desk by way of what may lose replies."""

    def make_desk(self):
        super().make_desk()
        self.losing = Losing(self.desk_socket)
        self.called = self.losing.server_address[1]


def lost(trial):
    """An order and its certificate while replies are lost and `serve` is killed and started: all is asked again, nothing is lost."""
    over, killed, names, losing = threading.Event(), 0, ["lost.house.test"], trial.house.losing

    def kill():
        nonlocal killed
        while not over.wait(0.01):
            if losing.count > 5 * killed:
                trial.house.kill_desk()
                killed += 1

    killer, again = threading.Thread(target=kill), trial.client.again
    losing.is_on = True
    killer.start()
    try:
        for _ in range(2):
            trial.certified(*trial.ordered(*names), names)
    finally:
        over.set()
        killer.join()
        losing.is_on = False
    see("what was lost, killed, and asked again", min(losing.lost, killed, trial.client.again - again) > 0, True)
    print(f"house: lost {losing.lost} replies of the desk, killed it {killed} times, asked {trial.client.again - again} times again")


TRIALS = signatures, refusals, key_change, certificates, failures, restarts, lost


def taken_port(program):
    """A house whose port another program has."""
    with socket.create_server(("127.0.0.1", 0)) as taken, tempfile.TemporaryDirectory(prefix="desk-house-") as folder:
        house, said = House(program, folder, lambda text: None, errors=subprocess.DEVNULL, port=taken.getsockname()[1]), "nothing"
        try:
            with house:
                pass
        except RuntimeError as failure:
            said = str(failure)
        see("a port that is taken", said, f"port {house.port} was taken by another program: type the same again")


def main(program):
    web, names = Web(), Names()
    in_house(program, lambda house: try_each(TRIALS, Trial(house, web, names)), LosingHouse, web=web.server_port, names=names.server_address[1])
    taken_port(program)
    return finish("house")


if __name__ == "__main__":
    begin(main, __doc__)
