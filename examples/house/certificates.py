"""What an authority gives for an order, before the desk has it: looked at (the client gets each byte of it), and verified by OpenSSL."""
import datetime
import re
import tempfile

from cryptography import x509

from authority import openssl
from command import CHAIN, NotSigned

BLOCKS = re.compile(rb"(-----BEGIN CERTIFICATE-----[A-Za-z0-9+/=\s]+-----END CERTIFICATE-----\s*)+")


def accepted(chain, names, key, roots):
    """The first certificate of a chain: for exactly these names and this key, not over, no authority's, and verified by a file of roots."""
    try:
        certificate = x509.load_pem_x509_certificate(BLOCKS.fullmatch(chain)[0])
        extensions = {type(extension.value): extension.value for extension in certificate.extensions}
        named, constraints = extensions.get(x509.SubjectAlternativeName, []), extensions.get(x509.BasicConstraints)
        is_named = sorted(str(name.value).lower() for name in named) == sorted(names) and all(isinstance(name, x509.DNSName) for name in named)
        is_keyed = certificate.public_key() and certificate.public_key().public_numbers() == key.public_numbers()
    except Exception:
        raise NotSigned("what the authority wrote is no chain of certificates") from None
    for is_good, why in ((len(chain) <= CHAIN, "is too large"), (is_named, "has other names than the order"), (is_keyed, "has another key than the CSR"),
                         (certificate.not_valid_after > datetime.datetime.utcnow(), "is over"), (not (constraints and constraints.ca), "is an authority's"),
                         (is_verified(chain, roots), "is not verified by the root")):
        if not is_good:
            raise NotSigned(f"the certificate {certificate.serial_number:X} of the authority {why}")
    return certificate


def is_verified(chain, roots):
    """Whether OpenSSL verifies a chain for a server."""
    with tempfile.NamedTemporaryFile() as file:
        file.write(chain)
        file.flush()
        return openssl("verify", "-x509_strict", "-purpose", "sslserver", "-CAfile", roots, "-untrusted", file.name, file.name) is None
