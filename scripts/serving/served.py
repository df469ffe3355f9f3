"""A desk that is served over loopback: what the scripts that try `serve` share."""
import atexit
import base64
import contextlib
import json
import re
import select
import signal
import socket
import struct
import subprocess
import tempfile
import threading
import time

from scripts.model.texts import spelled
from scripts.specification import LAST, PHRASES, REFUSALS, ROUTES
from scripts.trying import BASE, KEY, nonce_text, order_of, see

# How long a script waits for a reply, in seconds: longer than the desk waits for a client.
PATIENCE = 20


def route_of(path):
    """The route that a path is of, if there is one."""
    numbers = re.findall(r"/([1-9][0-9]*)(?=/|$)", path)
    route = re.sub(r"/[1-9][0-9]*(?=/|$)", "/{n}", path)
    return route if route in ROUTES and all(int(number) <= LAST for number in numbers) else None


# ---- requests and replies


def request(method, path, body=None, fields=()):
    """The bytes of a request, with the length of its body where it has one."""
    length = [] if body is None else [("Content-Length", len(body))]
    lines = [f"{method} {path} HTTP/1.1", *(f"{name}: {value}" for name, value in [*fields, *length])]
    return "".join(line + "\r\n" for line in [*lines, ""]).encode() + (body or b"")


def envelope(nonce, payload, key=KEY):
    """The body of a signed request."""
    text = payload if isinstance(payload, str) else json.dumps(payload)
    return json.dumps({"jwk": key, "nonce": nonce, "payload": text}).encode()


# Requests that are asked again and again; the first records nothing.
DIRECTORY, NEW_NONCE = request("GET", "/directory"), request("GET", "/new-nonce")


def signed(path, nonce, payload, key=KEY):
    """The bytes of a signed request."""
    return request("POST", path, envelope(nonce, payload, key))


def compact(document):
    """The bytes of a document."""
    return json.dumps(document, separators=(",", ":")).encode()


def reply(status, body=None, kind="application/json", path=None, head=False, **fields):
    """The bytes of a reply by section 12; without a path the head was not read. `fields`: allow, fresh, up, location, nonce."""
    lines = [f"HTTP/1.1 {status} {PHRASES[status]}", "Connection: close"]
    lines += [f"Allow: {fields['allow']}"] if fields.get("allow") else []
    lines += ["Cache-Control: no-store"] if fields.get("fresh") else []
    lines += [] if body is None else [f"Content-Length: {len(body)}", f"Content-Type: {kind}"]
    has_index = path is None or path != "/directory" and not path.startswith("/office/")
    lines += [f'Link: <{BASE}/directory>;rel="index"'] if has_index else []
    lines += [f'Link: <{fields["up"]}>;rel="up"'] if fields.get("up") else []
    lines += [f"Location: {fields['location']}"] if fields.get("location") else []
    lines += [f"Replay-Nonce: {fields['nonce']}"] if fields.get("nonce") else []
    return "".join(line + "\r\n" for line in [*lines, ""]).encode() + (b"" if head or body is None else body)


def refusal(number, path=None, **fields):
    """The bytes of a refusal's reply."""
    name, status, detail = REFUSALS[number]
    document = {"detail": detail, "status": status, "type": f"urn:ietf:params:acme:error:{name}"}
    return reply(status, compact(document), "application/problem+json", path, **fields)


def nonce_reply(serial):
    """The bytes of the reply to newNonce, with random bytes that are zero."""
    return reply(204, fresh=True, path="/new-nonce", nonce=nonce_text(serial))


def directory_reply():
    """The bytes of the reply to the directory."""
    names = {"keyChange": "key-change", "newAccount": "new-account", "newNonce": "new-nonce", "newOrder": "new-order"}
    return reply(200, compact({name: f"{BASE}/{path}" for name, path in names.items()}), path="/directory")


class Reply:
    """The parts of a reply."""

    def __init__(self, data):
        head, self.ended, self.body = data.partition(b"\r\n\r\n")
        first, *lines = head.decode("latin-1").split("\r\n")
        found = re.fullmatch(r"HTTP/1\.1 (\d{3}) (.*)", first)
        self.status = int(found[1]) if found else 0
        self.phrase = found[2] if found else ""
        self.fields = [tuple(line.split(": ", 1)) for line in lines]

    def field(self, name):
        """The value of a field, or None."""
        return next((pair[1] for pair in self.fields if pair[0] == name and len(pair) == 2), None)

    def document(self):
        return json.loads(self.body)


NONCE = re.compile(rb"(?<=\r\nReplay-Nonce: )([A-Za-z0-9_-]{32})(?=\r\n)")


def serial_of(nonce):
    """The serial of a nonce's text."""
    return int.from_bytes(base64.urlsafe_b64decode(nonce)[:8], "big")


def masked(data):
    """A reply's bytes, with the random bytes of its nonce put to zero."""
    return NONCE.sub(lambda found: nonce_text(serial_of(found[1])).encode(), data)


def reset(client):
    """Closes a connection by a reset."""
    client.setsockopt(socket.SOL_SOCKET, socket.SO_LINGER, struct.pack("ii", 1, 0))
    client.close()


# ---- the program


# How a program ends that the script ended, when it said nothing.
STOPPED = (-signal.SIGTERM, b"", b"")


class Server:
    """A run of `serve` over a file, on a port that the machine chose; or at a Unix socket."""

    def __init__(self, program, path, *words, at=None, **options):
        self.path, self.at, self.errors = path, at, tempfile.TemporaryFile()
        words = [program, "serve", path, *(("--socket", at) if at else ("--port", "0")), *words]
        self.run = subprocess.Popen(words, stdin=subprocess.DEVNULL, stdout=subprocess.PIPE, stderr=self.errors, **options)
        # A script that breaks leaves no program behind.
        atexit.register(self.run.kill)
        said = self.run.stdout.readline()
        found = re.fullmatch(rb"listening on (?:127\.0\.0\.1:([1-9][0-9]*)|.*)\n", said)
        if not found or (found[1] is None) != bool(at) or at and said != f"listening on {at}\n".encode():
            raise RuntimeError(f"serve said {said!r}, and on standard error {self.said()!r}")
        self.port = None if at else int(found[1])

    def connect(self):
        if self.at:
            return reached(self.at)
        client = socket.create_connection(("127.0.0.1", self.port), timeout=PATIENCE)
        client.setsockopt(socket.IPPROTO_TCP, socket.TCP_NODELAY, 1)
        return client

    def ask(self, data, end=False, piece=None):
        """What comes back for some bytes: `end` shuts the writing side after them, `piece` sends so many at a time."""
        with self.connect() as client:
            for at in range(0, len(data), piece or len(data) or 1):
                client.sendall(data[at:at + (piece or len(data))])
                if piece:
                    time.sleep(0.0005)
            if end:
                client.shutdown(socket.SHUT_WR)
            return received(client)

    def said(self):
        """What the program wrote to standard error."""
        self.errors.seek(0)
        return self.errors.read()

    def ended(self):
        """Waits for the end: the exit status, and what else was written to standard output and to standard error."""
        with self.run.stdout as out:
            select.select([out], [], [], PATIENCE)
            status = self.run.wait(timeout=PATIENCE)
            atexit.unregister(self.run.kill)
            return status, out.read(), self.said()

    def kill(self):
        """Ends the program by SIGKILL."""
        self.run.kill()
        self.run.wait()

    def stop(self):
        """Ends the program by SIGTERM, where it still runs."""
        if self.run.poll() is None:
            self.run.send_signal(signal.SIGTERM)
        return self.ended()


def reached(place):
    """A connection to who listens at a Unix socket."""
    client = socket.socket(socket.AF_UNIX)
    client.settimeout(PATIENCE)
    client.connect(place)
    return client


def received(client):
    """All that comes until the other side ends; what was there before a connection that is reset."""
    parts = []
    try:
        while part := client.recv(65536):
            parts.append(part)
    except ConnectionResetError:
        parts.append(b"(reset)")
    return b"".join(parts)


@contextlib.contextmanager
def stranger(said):
    """The port of what is no desk, where one connection gets these bytes behind the first that it sends; and a list of what it sent."""
    heard = []

    def answer():
        with server.accept()[0] as client:
            heard.append(client.recv(4096))
            client.sendall(said)

    with socket.create_server(("127.0.0.1", 0)) as server:
        thread = threading.Thread(target=answer)
        thread.start()
        yield server.getsockname()[1], heard
        thread.join()


def proof(work, challenge):
    """The body of the report that proves a challenge, by the list of those that are tried."""
    expected = next(found["expected"] for found in work["challenges"] if found["challenge"] == challenge)
    return json.dumps({"body": spelled(expected.encode())})


class Client:
    """An account's client: each of its requests carries the nonce of the reply before it."""

    def __init__(self, server, key=KEY):
        self.server, self.key, self.nonce = server, key, None

    def heard(self, data):
        found = Reply(self.server.ask(data))
        self.nonce = found.field("Replay-Nonce") or self.nonce
        return found

    def fetch(self):
        """Asks for a nonce, and gives it."""
        see("newNonce", self.heard(NEW_NONCE).status, 204)
        return self.nonce

    def signed(self, path, payload):
        """The bytes of a signed request with the latest nonce."""
        return signed(path, self.nonce, payload, self.key)

    def post(self, path, payload, status=200):
        found = self.heard(self.signed(path, payload))
        see(f"POST {path}", found.status, status)
        return found

    def open_account(self):
        self.fetch()
        return self.post("/new-account", {}, 201)

    def change_key(self, account, key, status=200):
        """Asks for another key for an account, which has it from then on where the reply says so."""
        wanted = {"account": f"{BASE}/account/{account}", "newKey": key, "oldKey": self.key}
        found = self.post("/key-change", wanted, status)
        if found.status == 200:
            self.key = key
        return found

    def order(self, *names):
        """Orders names, and gives the number of the order."""
        found = self.post("/new-order", order_of(*names), 201)
        return int((found.field("Location") or "0").rsplit("/", 1)[1])

    def ready_order(self, name="a.example"):
        """An order of one name that is ready, by its number; the name is validated where it wasn't before."""
        number = self.order(name)
        found = self.post(f"/order/{number}", "").document()
        if found["status"] == "ready":
            return number
        authz = found["authorizations"][0]
        challenges = self.post(authz[len(BASE):], "").document()["challenges"]
        challenge = int(challenges[0]["url"].rsplit("/", 1)[1])
        self.post(f"/chall/{challenge}", "{}")
        work = self.heard(request("GET", "/office/challenges")).document()
        report = self.heard(request("POST", f"/office/report/{challenge}", proof(work, challenge).encode()))
        see("a report", report.status, 200)
        return number

    def certify(self, number, certificate):
        """Finalizes an order that is ready, has it certified, and fetches the certificate."""
        self.post(f"/order/{number}/finalize", {"csr": "AQID"})
        see("a certificate", self.heard(request("POST", f"/office/certify/{number}", certificate)).status, 200)
        see("the certificate, fetched", self.post(f"/cert/{number}", "").body, certificate)
