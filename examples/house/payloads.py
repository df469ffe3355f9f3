"""What the front looks at in the payload of a request whose signature was checked, before the desk gets it."""
import json

from cryptography import x509

from desk import Down
from keys import decoded, thumbprint
from signatures import Jws, Refused


def looked_at(path, jws, url, key, spelling, policy):
    """The payload for the desk, which is the client's but for a change of keys, and for members that are null; what the desk does not look
    at is refused here."""
    if path == "/key-change":
        return key_change(jws, url)
    try:
        asked = json.loads(jws.payload)
        if path == "/new-account":
            policy.check_account(asked, spelling, thumbprint(spelling), url)
        if None in asked.values():
            jws.payload = json.dumps({name: value for name, value in asked.items() if value is not None})
        if path == "/new-order":
            policy.check_order(asked["identifiers"])
        if path.endswith("/finalize"):
            csr = x509.load_der_x509_csr(decoded(asked["csr"]))
            if csr.public_key().public_numbers() == key.public_numbers():
                raise Refused("badCSR", "the key of the CSR is that of the account")
    except (Down, Refused):
        raise
    except Exception:
        # What a firm allows is not left to how the desk reads it; all else the desk or the signing office refuses.
        if path in ("/new-account", "/new-order"):
            raise Refused("malformed", "the payload can not be read") from None
    return jws.payload


def key_change(jws, url):
    """The desk's payload for a key change: the inner JWS, checked by the new key that it shows (RFC 8555, 7.3.5)."""
    inner = Jws(jws.payload)
    if "nonce" in inner.header or "jwk" not in inner.header:
        raise Refused("malformed", "the inner JWS is to have a jwk, and no nonce")
    _, new_key = inner.check(url, inner.header["jwk"])
    try:
        asked = json.loads(inner.payload)
        return json.dumps({"account": asked["account"], "oldKey": asked["oldKey"], "newKey": new_key})
    except Exception:
        raise Refused("malformed", "the inner payload is to name an account and its old key") from None
