"""The front: TLS, signatures, and plain requests to the desk. Nothing under /office/ is ever passed on."""
import collections
import http.server
import ipaddress
import json
import re
import socket
import socketserver
import ssl
import sys
import threading
import time
from functools import partial

from bounded import Lines, Reader
from desk import Down, Reply
from keys import thumbprint
from payloads import looked_at
from signatures import Jws, Refused
from worker import log, log_fault

# The bytes of a body, at most; those that are read of one that is larger, and of a whole request.
BODY, MOST, REQUEST = 65536, 2**19, 2**20
# Seconds of a handshake, a line of the head, a body, a reply, and a whole request; after which one that waits asks again.
HANDSHAKE, LINE, PART, REPLY, WHOLE, WAIT, WAIT_DOWN = 10, 5, 20, 20, 40, 1, 10
# The connections at one time: in all, where one more waits to be taken, and of one client, where one more is refused.
CONNECTIONS, OF_ONE = 128, 8
# Suites of TLS 1.2 with a key of the session's own, and no CBC.
SUITES = "ECDHE+AESGCM:ECDHE+CHACHA20"
REVOKE, CHUNK = "/revoke-cert", re.compile(rb"([0-9A-Fa-f]{1,8})[ \t]*(;[^\r\n]*)?\r\n")


class Front(http.server.BaseHTTPRequestHandler):
    """Answers one request of a client, and closes the connection."""
    protocol_version = "HTTP/1.1"
    wake = None  # What wakes the office that has work once this request was answered.

    def setup(self):
        super().setup()
        self.rfile = Lines(Reader(self.connection, time.monotonic() + WHOLE, REQUEST), LINE, PART)

    def relay(self):
        """Answers by the desk's reply, or refuses; the office that has work now is woken before, as the client may be gone."""
        self.close_connection = True
        reply = self._answer()
        if self.wake:
            self.wake()
        self.connection.settimeout(REPLY)
        self._send(reply)

    do_GET = do_HEAD = do_POST = do_PUT = do_DELETE = do_PATCH = do_OPTIONS = relay

    def _answer(self):
        try:
            try:
                return self._hand_on()
            except Refused as refused:
                # With a fresh nonce for the next request.
                return problem(refused, self.server.desk.call("HEAD", "/new-nonce").fields)
        except Down as down:
            log(str(down))
            return problem(Refused("serverInternal", "the house can not act now", 503), [("Retry-After", str(WAIT_DOWN)), ("Connection", "close")])

    def _hand_on(self):
        # A connection that is closed with bytes unread may lose the reply: the body comes first.
        body = self._body()
        if self.path.startswith("/office") or not re.fullmatch("/[!-~]*", self.path):
            raise Refused("malformed", "there is nothing here", 404)
        if self.command != "POST":
            return self._read_only()
        if self.headers.get_content_type() != "application/jose+json":
            raise Refused("malformed", "the content type is not application/jose+json", 415)
        return self._signed(Jws(body))

    def _read_only(self):
        """The reply to a request without a signature: the front's own list of what is revoked, and what it adds to the directory."""
        revoked = self.server.revocation.list()
        if revoked and self.command in ("GET", "HEAD") and self.path == "/crl":
            return revoked
        reply = self.server.desk.call(self.command, self.path)
        if self.path != "/directory" or reply.status != 200:
            return reply
        more = {"revokeCert": self.server.desk.base + REVOKE} if revoked else {}
        body = json.dumps({**json.loads(reply.body), **more, **self.server.policy.meta}, sort_keys=True, separators=(",", ":")).encode()
        return Reply(200, [(name, value) for name, value in reply.fields if name != "Content-Length"] + [("Content-Length", str(len(body)))], body)

    def _body(self):
        """The body, of a length that is given or in chunks; what is behind a body that is too large is not read."""
        coded, length = self.headers.get("Transfer-Encoding"), self.headers.get("Content-Length")
        if coded is None and re.fullmatch("[0-9]{1,9}", length or "0"):
            body = self.rfile.read(min(int(length or 0), MOST))
        elif length is None and coded.lower() == "chunked":
            body = bytes(byte for chunk in self._chunks() for byte in chunk)  # Not a list of the chunks, which takes much memory.
        else:
            raise Refused("malformed", "the length of the body is not given", 411)
        if len(body) > BODY:
            raise Refused("malformed", "the request is too large", 413)
        return body

    def _chunks(self):
        """The chunks of a body (RFC 9112, 7.1); what is behind them is not looked at."""
        while (size := CHUNK.fullmatch(self.rfile.readline(1024))) and int(size[1], 16):
            yield self.rfile.read(int(size[1], 16))
            if self.rfile.readline(3) != b"\r\n":
                raise Refused("malformed", "a chunk has another length than it says")
        if not size:
            raise Refused("malformed", "the size of a chunk is not given")
        while self.rfile.readline(MOST) not in (b"\r\n", b"\n", b""):
            pass

    def _signed(self, jws):
        """The reply to a signed request, once its signature was checked."""
        url = self.server.desk.base + self.path
        key, spelling = jws.check(url, self._key(jws.header))
        if self.path == REVOKE and self.server.revocation.list():
            return self.server.revocation.reply(jws, key, spelling)
        payload = looked_at(self.path, jws, url, key, spelling, self.server.policy)
        if payload and self.path.startswith("/chall/"):
            self.wake = self.server.wake_validator
        elif payload and self.path.endswith("/finalize"):
            self.wake = self.server.wake_office
        reply = self.server.desk.call("POST", self.path, jws.envelope(spelling, payload))
        if self.wake and reply.status == 200 and self.path.startswith("/chall/"):
            self.wake = partial(self.wake, f"{self.path.removeprefix('/chall/')} {thumbprint(spelling)}")
        return reply

    def _key(self, header):
        """The key that a request is to be signed by: the one that a newAccount shows, or a revocation, or that of the account it names."""
        shows, names = "jwk" in header, "kid" in header
        if shows == names or shows != (self.path == "/new-account") and self.path != REVOKE:
            raise Refused("malformed", "the request is to have a jwk or a kid, by its path")
        if "jwk" in header:
            return header["jwk"]
        account = re.fullmatch(re.escape(self.server.desk.base) + "/account/([1-9][0-9]{0,18})", header["kid"])
        found = self.server.desk.call("GET", f"/office/key/{account[1]}") if account else None
        if not found or found.status != 200:
            raise Refused("accountDoesNotExist", "the kid names no account")
        return json.loads(found.body)

    def _send(self, reply):
        """The desk's reply, with `Date` (by send_response) and, for what is not done yet, `Retry-After`."""
        self.send_response(reply.status)
        for name, value in reply.fields:
            self.send_header(name, value)
        if re.search(rb'"status":"(pending|processing)"', reply.body):
            self.send_header("Retry-After", str(WAIT))
        self.end_headers()
        if self.command != "HEAD":
            self.wfile.write(reply.body)

    def log_message(self, form, *words):
        if self.server.says_requests:
            log(f"{self.client_address[0]} {form % words}")


def problem(refused, fields):
    """A refusal of the front's own, behind these fields."""
    body = json.dumps(refused.document).encode()
    return Reply(refused.status, [*fields, ("Content-Type", "application/problem+json"), ("Content-Length", str(len(body)))], body)


def client_of(text):
    """Who counts as one client: an address, of IPv6 all that begin by the same 64 bits."""
    address = ipaddress.ip_address(text)
    return address if address.version == 4 else int(address) >> 64


class Server(socketserver.ThreadingTCPServer):
    """A port with TLS. Each connection has a thread of its own, its handshake too; `::` is reached by both families."""
    request_queue_size, daemon_threads, allow_reuse_address = CONNECTIONS, True, True

    def __init__(self, address, certificate, desk, policy, revocation, wake_validator, wake_office, says_requests):
        self.tls = ssl.create_default_context(ssl.Purpose.CLIENT_AUTH)
        self.tls.load_cert_chain(certificate)
        self.tls.set_ciphers(SUITES)
        self.desk, self.policy, self.revocation = desk, policy, revocation
        self.wake_validator, self.wake_office, self.says_requests = wake_validator, wake_office, says_requests
        self.room, self.lock, self.held = threading.Semaphore(CONNECTIONS), threading.Lock(), collections.Counter()
        if address[0] == "::" and not socket.has_dualstack_ipv6():
            address = "0.0.0.0", address[1]
        self.address_family = socket.AF_INET6 if ":" in address[0] else socket.AF_INET
        super().__init__(address, Front)

    def server_bind(self):
        if self.address_family == socket.AF_INET6:
            self.socket.setsockopt(socket.IPPROTO_IPV6, socket.IPV6_V6ONLY, self.server_address[0] != "::")
        super().server_bind()

    def get_request(self):
        """A connection and where it comes from, an address of IPv4 in its own spelling."""
        request, (host, *rest) = super().get_request()
        return request, (host.removeprefix("::ffff:"), *rest)

    def verify_request(self, request, client_address):
        """Whether a client may have one connection more, which is then counted."""
        client = client_of(client_address[0])
        with self.lock:
            may_have = self.held[client] < OF_ONE
            self.held[client] += may_have
        return may_have

    def process_request(self, request, client_address):
        """Takes no further connection before one has ended, where there are as many as may be."""
        self.room.acquire()
        super().process_request(request, client_address)

    def process_request_thread(self, request, client_address):
        try:
            super().process_request_thread(request, client_address)
        finally:
            self.room.release()
            with self.lock:
                self.held[client_of(client_address[0])] -= 1
                self.held += collections.Counter()

    def finish_request(self, request, client_address):
        request.settimeout(HANDSHAKE)
        with self.tls.wrap_socket(request, server_side=True) as connection:
            super().finish_request(connection, client_address)

    def handle_error(self, request, client_address):
        """A client that is gone, or speaks no TLS, is nobody's fault; all else is shown, and a program that is missing."""
        fault = sys.exc_info()[1]
        if not isinstance(fault, OSError) or isinstance(fault, FileNotFoundError):
            log_fault(f"{client_address[0]}: a request that was not answered")
