"""Public keys: a JWK in its one spelling (RFC 7518, 6; RFC 8037, 2), and which keys are strong enough."""
import base64
import hashlib
import json
import re

from cryptography.hazmat.primitives.asymmetric import ec, rsa
from cryptography.hazmat.primitives.asymmetric.ed25519 import Ed25519PublicKey
from cryptography.hazmat.primitives.serialization import Encoding, PublicFormat

import factors

CURVES = {"P-256": ec.SECP256R1(), "P-384": ec.SECP384R1(), "P-521": ec.SECP521R1()}
CURVE_NAMES = {curve.name for curve in CURVES.values()}
# The bits of an RSA key: fewer are too weak, and more take too long. Its exponent: odd, and 65537 or above.
RSA_BITS, RSA_EXPONENTS = range(2048, 8193), range(65537, 2**256, 2)
# The prime of Ed25519, and the points of small order by their y, whose signatures fit every message.
PRIME, EIGHTH = 2**255 - 19, 0x7A03AC9277FDC74EC6CC392CFA53202A0F67100D760B3CBA4FD84D3D706A17C7
SMALL_ORDER = {0, 1, PRIME - 1, EIGHTH, PRIME - EIGHTH}


class BadKey(Exception):
    """Why a key is not accepted."""


def decoded(text):
    """The bytes of base64url without padding; nothing else is read."""
    if not re.fullmatch("[A-Za-z0-9_-]*", text) or len(text) % 4 == 1:
        raise ValueError("no base64url")
    return base64.urlsafe_b64decode(text + "=" * (-len(text) % 4))


def encoded(data):
    return base64.urlsafe_b64encode(data).rstrip(b"=").decode()


def thumbprint(spelling):
    """The thumbprint of a key in its one spelling (RFC 7638)."""
    return encoded(hashlib.sha256(json.dumps(spelling, sort_keys=True, separators=(",", ":")).encode()).digest())


def read_key(jwk):
    """The key of a JWK, and its one spelling; another is no key, as the desk tells keys by their texts, and would have two accounts."""
    try:
        key, spelling = READERS[jwk["kty"]](jwk)
        is_spelled = all(jwk[name] == text for name, text in spelling.items())
    except (ValueError, KeyError, TypeError):
        raise BadKey("the key can not be read") from None
    if (weakness := weakness_of(key)) or not is_spelled:
        raise BadKey(weakness or "the key is not in its one spelling: coordinates of the curve's length, numbers without leading zeros")
    return key, spelling


def _read_ec(jwk):
    """A point by its bytes: of the curve's length, below its prime, and on the curve."""
    key = ec.EllipticCurvePublicKey.from_encoded_point(CURVES[jwk["crv"]], b"\4" + decoded(jwk["x"]) + decoded(jwk["y"]))
    point = key.public_bytes(Encoding.X962, PublicFormat.UncompressedPoint)[1:]
    x, y = point[: len(point) // 2], point[len(point) // 2 :]
    return key, {"crv": jwk["crv"], "kty": "EC", "x": encoded(x), "y": encoded(y)}


def _read_rsa(jwk):
    e, n = (int.from_bytes(decoded(jwk[name]), "big") for name in "en")
    minimal = {name: encoded(number.to_bytes((number.bit_length() + 7) // 8, "big")) for name, number in (("e", e), ("n", n))}
    return rsa.RSAPublicNumbers(e, n).public_key(), {**minimal, "kty": "RSA"}


def _read_okp(jwk):
    point = decoded(jwk["x"])
    y = int.from_bytes(point, "little") % 2**255
    if jwk["crv"] != "Ed25519" or y >= PRIME or y in SMALL_ORDER:
        raise ValueError("no point of Ed25519")
    return Ed25519PublicKey.from_public_bytes(point), {"crv": "Ed25519", "kty": "OKP", "x": encoded(point)}


READERS = {"EC": _read_ec, "RSA": _read_rsa, "OKP": _read_okp}


def weakness_of(key):
    """Why a key is too weak or of no kind that is used here; None where it is good."""
    if isinstance(key, rsa.RSAPublicKey):
        if key.key_size not in RSA_BITS:
            return "the RSA key has too few bits or too many"
        if key.public_numbers().e not in RSA_EXPONENTS:
            return "the exponent of the RSA key is below 65537, or not odd"
        return factors.weakness_of(key.public_numbers().n)
    is_used = isinstance(key, Ed25519PublicKey) or isinstance(key, ec.EllipticCurvePublicKey) and key.curve.name in CURVE_NAMES
    return None if is_used else "the key is of no kind that is used here"
