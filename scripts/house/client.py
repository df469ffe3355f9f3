"""A client of ACME for the tests of the house, over the signatures of `acme` and `josepy`; and what it answers challenges by."""
import http.server
import json
import socketserver
import ssl
import threading
import urllib.error
import urllib.request
from collections import namedtuple

import dns.message
import dns.rdatatype
import dns.rrset
import josepy
from acme import jws
from cryptography import x509
from cryptography.hazmat.primitives import hashes
from cryptography.hazmat.primitives.asymmetric import ec
from cryptography.hazmat.primitives.serialization import Encoding

Reply = namedtuple("Reply", "status fields body")


def new_key():
    return josepy.JWKEC(key=ec.generate_private_key(ec.SECP256R1()))


class Client:
    """An account's client: each of its requests carries the nonce of the reply before it."""

    def __init__(self, base, root):
        self.key, self.kid, self.nonce, self.again = new_key(), None, None, 0
        self.opener = urllib.request.build_opener(urllib.request.HTTPSHandler(context=ssl.create_default_context(cafile=root)))
        self.directory = json.loads(self.ask("GET", f"{base}/directory").body)

    def ask(self, method, url, body=None, kind="application/jose+json"):
        """The reply to a request, whatever its status."""
        asked = urllib.request.Request(url, body, {"Content-Type": kind} if body else {}, method=method)
        try:
            reply = self.opener.open(asked, timeout=180)
        except urllib.error.HTTPError as refused:
            reply = refused
        with reply:
            self.nonce = reply.headers["Replay-Nonce"] or self.nonce
            return Reply(reply.status, reply.headers, reply.read())

    def signed(self, url, payload, key=None, kid=None, nonce=None):
        """The text of a request, signed by a key; the key is shown where no account is named."""
        text = payload if isinstance(payload, str) else json.dumps(payload)
        return jws.JWS.sign(text.encode(), key or self.key, josepy.ES256, nonce, url, kid).json_dumps()

    def post(self, url, payload="", **given):
        """The reply to a request signed by the account's key, asked again after badNonce; or by the key or nonce that is given."""
        if not self.nonce:
            self.ask("HEAD", self.directory["newNonce"])
        nonce = josepy.decode_b64jose(self.nonce)
        reply = self.ask("POST", url, self.signed(url, payload, **{"kid": self.kid, "nonce": nonce, **given}).encode())
        if b":badNonce" not in reply.body or "nonce" in given:
            return reply
        self.again += 1
        return self.post(url, payload, **given)

    def read(self, url):
        return json.loads(self.post(url).body)

    def open_account(self):
        reply = self.post(self.directory["newAccount"], {"contact": ["mailto:a@b.example"]}, kid=None)
        self.kid = reply.fields["Location"]
        return reply

    def change_key(self, key):
        """Asks for a new key of the account (RFC 8555, 7.3.5)."""
        url = self.directory["keyChange"]
        inner = {"account": self.kid, "oldKey": self.key.public_key().to_json()}
        reply = self.post(url, self.signed(url, inner, key=key))
        self.key = key if reply.status == 200 else self.key
        return reply

    def order(self, *names):
        return self.post(self.directory["newOrder"], {"identifiers": [{"type": "dns", "value": name} for name in names]})

    def key_authorization(self, token):
        return f"{token}.{josepy.encode_b64jose(self.key.thumbprint())}"

    def finalize(self, order, names, key=None):
        """Finalizes an order by a CSR for these names."""
        key = key or ec.generate_private_key(ec.SECP256R1())
        csr = x509.CertificateSigningRequestBuilder().subject_name(x509.Name([]))
        csr = csr.add_extension(x509.SubjectAlternativeName([x509.DNSName(name) for name in names]), False).sign(key, hashes.SHA256())
        return self.post(order["finalize"], {"csr": josepy.encode_b64jose(csr.public_bytes(Encoding.DER))})


class Web(http.server.ThreadingHTTPServer):
    """Answers http-01 challenges by what `bodies` has for their tokens; where that is empty the connection is closed."""

    def __init__(self, port=0):
        self.bodies = {}
        super().__init__(("127.0.0.1", port), WebHandler)
        threading.Thread(target=self.serve_forever, daemon=True).start()


class WebHandler(http.server.BaseHTTPRequestHandler):
    def do_GET(self):
        body = self.server.bodies.get(self.path.rsplit("/", 1)[1])
        if body == "":
            return
        self.send_response(404 if body is None else 200)
        self.end_headers()
        self.wfile.write((body or "").encode())

    def log_message(self, form, *words):
        pass


class Names(socketserver.ThreadingUDPServer):
    """Answers questions for TXT records by what `texts` has for their names, and those for addresses by one address, where there is one."""

    def __init__(self, port=0, texts=None, at="127.0.0.1", address=None):
        self.texts, self.address = {} if texts is None else texts, address
        super().__init__((at, port), NamesHandler)
        threading.Thread(target=self.serve_forever, daemon=True).start()


class NamesHandler(socketserver.BaseRequestHandler):
    def handle(self):
        data, socket = self.request
        asked = dns.message.from_wire(data)
        reply, name = dns.message.make_response(asked), asked.question[0].name
        texts = self.server.texts.get(name.to_text(omit_final_dot=True).lower(), [])
        if self.server.address and asked.question[0].rdtype == dns.rdatatype.A:
            reply.answer.append(dns.rrset.from_text(name, 60, "IN", "A", self.server.address))
        elif texts:
            reply.answer.append(dns.rrset.from_text(name, 60, "IN", "TXT", *(f'"{text}"' for text in texts)))
        socket.sendto(reply.to_wire(), self.client_address)
