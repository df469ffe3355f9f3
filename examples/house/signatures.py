"""Signed requests of ACME: a flattened JWS and its check (RFC 8555, 6.2; RFC 7515), by algorithm and curve."""
import json

import josepy
from cryptography.exceptions import InvalidSignature
from cryptography.hazmat.primitives.asymmetric.padding import MGF1, PSS
from cryptography.hazmat.primitives.hashes import SHA256

from keys import BadKey, decoded, read_key

ERROR = "urn:ietf:params:acme:error:"
# The type and the curve of the keys of each algorithm (RFC 7518, 3.1; RFC 8037, 3.1).
KEYS = {"RS256": ("RSA", None), "PS256": ("RSA", None), "ES256": ("EC", "P-256"), "ES384": ("EC", "P-384"),
        "ES512": ("EC", "P-521"), "EdDSA": ("OKP", "Ed25519")}


class Refused(Exception):
    """A request that the front refuses, by a type of RFC 8555, 6.7."""

    def __init__(self, kind, detail, status=400, **members):
        super().__init__(detail)
        self.status = status
        self.document = {"type": ERROR + kind, "detail": detail, "status": status, **members}


class Jws:
    """A flattened JWS: its protected header, its payload as a text, and its signature, not yet checked."""

    def __init__(self, text):
        try:
            document = json.loads(text)
            protected, payload, signature = (document[part] for part in ("protected", "payload", "signature"))
            self.signed = f"{protected}.{payload}".encode()
            self.header, self.payload = json.loads(decoded(protected)), decoded(payload).decode()
            self.signature = decoded(signature)
            is_plain = not {"header", "signatures"} & set(document) and not {"crit", "b64"} & set(self.header)
            is_plain &= all(isinstance(self.header.get(name, ""), str) for name in ("alg", "kid", "nonce", "url"))
        except (ValueError, KeyError, TypeError, AttributeError, RecursionError):
            raise Refused("malformed", "the body is no flattened JWS") from None
        if not is_plain:
            raise Refused("malformed", "the JWS has members that are not accepted here")
        self.algorithm = self.header.get("alg")
        if self.algorithm not in KEYS:
            raise Refused("badSignatureAlgorithm", "the algorithm is not accepted", algorithms=list(KEYS))

    def check(self, url, jwk):
        """The signing key and its one spelling; a request for another URL or by another key is refused."""
        if self.header.get("url") != url:
            raise Refused("unauthorized", "the url of the JWS is not that of the request", 401)
        try:
            key, spelling = read_key(jwk)
        except BadKey as bad:
            raise Refused("badPublicKey", str(bad)) from None
        if KEYS[self.algorithm] != (spelling["kty"], spelling.get("crv")):
            raise Refused("badSignatureAlgorithm", "the algorithm is not one of the key's", algorithms=list(KEYS))
        if not self._is_signed_by(key):
            raise Refused("malformed", "the signature is not that of the key")
        return key, spelling

    def envelope(self, spelling, payload):
        """What the desk reads of the request: the key that signed, a payload, and the nonce as it stands."""
        nonce = {"nonce": self.header["nonce"]} if "nonce" in self.header else {}
        return json.dumps({"jwk": spelling, "payload": payload, **nonce}).encode()

    def _is_signed_by(self, key):
        try:
            if self.algorithm == "EdDSA":
                return key.verify(self.signature, self.signed) is None
            if self.algorithm == "PS256":
                # josepy asks for the longest salt here, RFC 7518 for one as long as the hash.
                return key.verify(self.signature, self.signed, PSS(MGF1(SHA256()), SHA256.digest_size), SHA256()) is None
            return josepy.JWASignature.from_json(self.algorithm).verify(key, self.signed, self.signature)
        except InvalidSignature:
            return False
