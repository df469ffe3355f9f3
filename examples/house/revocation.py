"""Revocation by a client (RFC 8555, 7.6): the front's part, by one call to the desk for nonce and owner, and by the office."""
import json

from cryptography import x509

from desk import Reply
from keys import decoded
from signatures import Refused

# What the desk says of a key that has no account, once it took the nonce; the fields of its reply that are handed on.
STRANGER, KEPT = ("accountDoesNotExist", "unauthorized", "badPublicKey"), ("Connection", "Link", "Replay-Nonce")


class Revocation:
    """Asks the office, and serves its list of what is revoked; where it signs none, nothing is offered."""

    def __init__(self, desk, ask, path):
        self.desk, self.ask, self.path = desk, ask, path

    def list(self):
        """The list as a reply; None where there is none."""
        try:
            with open(self.path, "rb") as file:
                data = file.read()
        except OSError:
            return None
        return Reply(200, [("Connection", "close"), ("Content-Type", "application/pkix-crl"), ("Content-Length", str(len(data)))], data)

    def reply(self, jws, key, spelling):
        """The reply to a request whose signature was checked, by an account's key or by the certificate's own."""
        try:
            asked = json.loads(jws.payload)
            certificate, reason = x509.load_der_x509_certificate(decoded(asked["certificate"])), asked.get("reason") or 0
            is_own = "jwk" in jws.header and certificate.public_key().public_numbers() == key.public_numbers()
        except Exception:
            raise Refused("malformed", "the payload is to have a certificate") from None
        number = self.ask(certificate=asked["certificate"])["order"]
        if number is None:
            raise Refused("malformed", "the certificate is not of this authority", 404)
        if "jwk" in jws.header and not is_own:
            raise Refused("unauthorized", "the key is not the certificate's", 403)
        path, payload = ("/new-account", '{"onlyReturnExisting":true}') if is_own else (f"/order/{number}", "")
        reply = self.desk.call("POST", path, jws.envelope(spelling, payload))
        kind = "" if reply.status == 200 else json.loads(reply.body)["type"].rpartition(":")[2]
        if not is_own and reply.status == 404:
            raise Refused("unauthorized", "the certificate is another account's", 403)
        if kind and not (is_own and kind in STRANGER):
            return reply
        if refused := self.ask(certificate=asked["certificate"], reason=reason if isinstance(reason, int) else -1).get("refused"):
            raise Refused(refused, "the certificate is revoked already, or not for this reason")
        return Reply(200, [(name, value) for name, value in reply.fields if name in KEPT] + [("Content-Length", "0")], b"")
