"""What the office has signed, in a file of its folder: each certificate before the desk has it, and what became of it."""
import json
import sqlite3
import threading
import time
from datetime import timezone

from cryptography.hazmat.primitives.hashes import SHA256
from cryptography.hazmat.primitives.serialization import Encoding, PublicFormat

DER = Encoding.DER, PublicFormat.SubjectPublicKeyInfo
# A certificate by its fingerprint, with its order, names, keys and chain; the status by which the desk took it or not; its revocation.
TABLES = """CREATE TABLE IF NOT EXISTS certificate (
    fingerprint BLOB PRIMARY KEY, serial TEXT NOT NULL, number INTEGER NOT NULL, names TEXT NOT NULL, csr BLOB NOT NULL, key BLOB NOT NULL,
    ends INTEGER NOT NULL, chain BLOB NOT NULL, taken INTEGER, reason TEXT, revoked INTEGER, told INTEGER);
CREATE INDEX IF NOT EXISTS by_order ON certificate (number);"""


class Ledger:
    """The certificates that were signed; what a method has recorded is on the disk when it returns."""

    def __init__(self, path):
        self.lock, self.file = threading.Lock(), sqlite3.connect(path, isolation_level=None, check_same_thread=False)
        self.file.executescript(TABLES)

    def _do(self, statement, *values):
        with self.lock:
            return self.file.execute(statement, values)

    def add(self, number, names, csr, certificate, chain, taken=None):
        """Records a certificate of an order that was signed; of the front's own the number is 0."""
        self._do("INSERT INTO certificate VALUES (?, ?, ?, ?, ?, ?, ?, ?, ?, NULL, NULL, NULL)", certificate.fingerprint(SHA256()),
                 f"{certificate.serial_number:X}", number, json.dumps(names), csr, certificate.public_key().public_bytes(*DER),
                 int(certificate.not_valid_after.replace(tzinfo=timezone.utc).timestamp()), chain, taken)

    def chain_of(self, number, csr):
        """The chain that was signed for the CSR of an order, or None; one that is over or revoked counts as none."""
        found = self._do("SELECT chain FROM certificate WHERE number = ? AND csr = ? AND revoked IS NULL AND ends > ? ORDER BY ends DESC",
                         number, csr, time.time()).fetchone()
        return found and found[0]

    def untaken(self):
        """The order and the chain of each certificate of which it is not known whether the desk has it."""
        return self._do("SELECT number, chain FROM certificate WHERE taken IS NULL ORDER BY number").fetchall()

    def note_taken(self, number, chain, status):
        """Records the status by which the desk answered a chain."""
        self._do("UPDATE certificate SET taken = ? WHERE number = ? AND chain = ?", status, number, chain)

    def order_of(self, certificate):
        """The order of a certificate that was signed here, or None."""
        found = self._do("SELECT number FROM certificate WHERE fingerprint = ?", certificate.fingerprint(SHA256())).fetchone()
        return found and found[0]

    def revoke(self, certificate, reason):
        """Records that a certificate is revoked; whether it was not before."""
        return self._do("UPDATE certificate SET reason = ?, revoked = ? WHERE fingerprint = ? AND revoked IS NULL", reason, int(time.time()),
                        certificate.fingerprint(SHA256())).rowcount == 1

    def untold(self):
        """Each certificate that is revoked and of which the authority may not know it, as a chain, and the reason."""
        return self._do("SELECT chain, reason FROM certificate WHERE revoked IS NOT NULL AND told IS NULL").fetchall()

    def note_told(self, chain):
        """Records that the authority knows of a revocation."""
        self._do("UPDATE certificate SET told = 1 WHERE chain = ?", chain)
