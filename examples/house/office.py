"""The signing office: the CSR of an order against its names, and then a certificate, or the reason why there is none."""
import json
import os

from cryptography import x509
from cryptography.hazmat.primitives.asymmetric import ec, rsa
from cryptography.hazmat.primitives.hashes import SHA256
from cryptography.hazmat.primitives.serialization import Encoding, NoEncryption, PrivateFormat

from addresses import is_name
from certificates import accepted
from command import NotNow, NotSigned
from desk import Down
from keys import decoded, weakness_of
from worker import Worker, log, log_fault

# The kinds of keys that are certified, and the hashes by which a CSR may be signed.
CERTIFIED, HASHES = (rsa.RSAPublicKey, ec.EllipticCurvePublicKey), {"sha256", "sha384", "sha512"}
# The seconds after which a list of what is revoked is signed anew; the reasons that are taken, by their codes (RFC 5280, 5.3.1).
LIST_EVERY, REASONS = 86400, {0: "unspecified", 1: "keyCompromise", 3: "affiliationChanged", 4: "superseded", 5: "cessationOfOperation"}


class BadCsr(NotSigned):
    """Why a CSR has no certificate."""
    kind = "badCSR"


def read_csr(der, names):
    """A CSR that is signed by its key, names exactly the names of the order, and has a key of a good kind."""
    try:
        csr = x509.load_der_x509_csr(der)
        asked, key, hashed = names_in(csr), csr.public_key(), csr.signature_hash_algorithm
        weakness = weakness_of(key) if isinstance(key, CERTIFIED) else "the key of the CSR is of no kind that is certified here"
        if not weakness and (hashed is None or hashed.name not in HASHES):
            weakness = "the CSR is signed by a hash that is too weak"
        is_signed = not weakness and csr.is_signature_valid
    except Exception as fault:
        raise BadCsr("the CSR can not be read") from fault
    if not is_signed:
        raise BadCsr(weakness or "the CSR is not signed by its key")
    if asked != set(names):
        raise BadCsr("the names of the CSR are not those of the order")
    if not all(is_name(name.removeprefix("*.")) for name in names):
        raise BadCsr("a name of the order reads as an address")
    return csr


def names_in(csr):
    """The names of a CSR, in lower case: those of its subject and of its extension (RFC 8555, 7.4)."""
    named = [extension.value for extension in csr.extensions if isinstance(extension.value, x509.SubjectAlternativeName)]
    named += [csr.subject.get_attributes_for_oid(x509.NameOID.COMMON_NAME)]
    return {text.lower() if text.isascii() else text for names in named for text in (str(name.value) for name in names)}


class Office:
    """Certifies orders by an authority, records what it signed, and revokes."""

    def __init__(self, desk, authority, ledger, folder):
        self.desk, self.authority, self.ledger, self.folder = desk, authority, ledger, folder
        if authority.revoking:
            self.wake_list = Worker(self.list_revoked, every=LIST_EVERY).wake
        elif os.path.exists(f"{folder}/crl.der"):
            os.unlink(f"{folder}/crl.der")

    def work(self):
        """Hands in what an earlier life has signed, and certifies each order that is to be, or says why not; none keeps others waiting."""
        for number, chain in self.ledger.untaken():
            self._hand_in(number, chain)
        later = None
        for order in json.loads(self.desk.call("GET", "/office/orders").body)["orders"]:
            try:
                self._settle(order["order"], order["names"], decoded(order["csr"]))
            except NotNow as why:
                later = why
                log(f"order {order['order']} waits: {why}")
            except (ValueError, TypeError):
                log_fault(f"order {order['order']} is left as it is")
        if later:
            raise Down(f"orders wait: {later}")

    def _settle(self, number, names, der):
        try:
            chain = self.ledger.chain_of(number, der) or self._signed(number, names, read_csr(der, names))
        except NotSigned as bad:
            reply = self.desk.call("POST", f"/office/fail/{number}", json.dumps({"type": bad.kind, "detail": str(bad)}).encode())
            log(f"order {number}: {json.loads(reply.body)['status']}, {bad}")
        else:
            self._hand_in(number, chain)

    def _signed(self, number, names, csr, taken=None):
        """The chain of a new certificate, which the ledger has then."""
        chain = self.authority.sign(names, csr)
        certificate = accepted(chain, names, csr.public_key(), f"{self.folder}/root.pem")
        if self.ledger.order_of(certificate) is not None:
            raise NotSigned(f"the certificate {certificate.serial_number:X} of the authority is another order's")
        self.ledger.add(number, names, csr.public_bytes(Encoding.DER), certificate, chain, taken)
        return chain

    def _hand_in(self, number, chain):
        """Hands in a chain that the ledger has."""
        reply = self.desk.call("POST", f"/office/certify/{number}", chain)
        if reply.status >= 500:
            raise Down(f"the desk could not act on order {number}")
        self.ledger.note_taken(number, chain, reply.status)
        if reply.status == 200:
            log(f"order {number}: {json.loads(reply.body)['status']}, certified")
        else:
            serial = x509.load_pem_x509_certificate(chain).serial_number
            log(f"order {number}: the desk does not take certificate {serial:X} ({reply.status}), as the order has ended since it was signed")

    def certify_front(self, host):
        """Makes a new key and certificate for the front, which take the place of the last ones in front.pem."""
        key, named = ec.generate_private_key(ec.SECP256R1()), x509.SubjectAlternativeName([x509.DNSName(host)])
        csr = x509.CertificateSigningRequestBuilder().subject_name(x509.Name([])).add_extension(named, False).sign(key, SHA256())
        chain = self._signed(0, [host], csr, taken=200)
        write_over(f"{self.folder}/front.pem", key.private_bytes(Encoding.PEM, PrivateFormat.PKCS8, NoEncryption()) + chain)

    def answer(self, certificate, reason=None):
        """What the front asks: the order of a certificate that was signed here; and, by the code of a reason, that it be revoked."""
        try:
            certificate = x509.load_der_x509_certificate(decoded(certificate))
            number = self.ledger.order_of(certificate)
        except Exception:
            number = None
        if reason is None or number is None:
            return {"order": number}
        if reason not in REASONS:
            return {"refused": "badRevocationReason"}
        if not self.ledger.revoke(certificate, REASONS[reason]):
            return {"refused": "alreadyRevoked"}
        log(f"order {number}: certificate {certificate.serial_number:X} is revoked, {REASONS[reason]}")
        self.wake_list()
        return {"order": number}

    def list_revoked(self):
        """Has the authority know each revocation, and sign a new list of them, which the front serves."""
        for chain, reason in self.ledger.untold():
            try:
                self.authority.revoke(x509.load_pem_x509_certificate(chain), reason)
                self.ledger.note_told(chain)
            except NotSigned:
                log_fault("a revocation that is tried again with the next list")
        write_over(f"{self.folder}/crl.der", self.authority.list_revoked(), 0o644)


def write_over(path, data, mode=0o600):
    """Writes a file in the place of what is there, of which either the old or the new one is there at each moment."""
    with open(f"{path}.new", "wb", opener=lambda name, flags: os.open(name, flags, mode)) as file:
        os.fchmod(file.fileno(), mode)
        file.write(data)
        file.flush()
        os.fsync(file.fileno())
    os.rename(f"{path}.new", path)
