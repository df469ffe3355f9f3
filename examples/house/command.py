"""A firm's own authority, called by commands: one that signs, and one that revokes (docs/HOUSE.md)."""
import os
import re
import subprocess
import tempfile

from cryptography import x509
from cryptography.hazmat.primitives.serialization import Encoding

# How long a command may take, in seconds; the bytes of a chain, and those of a list and of any file that it writes; those that are shown
# of a fault.
SECONDS, CHAIN, LIST, LINE = 60, 65536, 2**26, 200
# The status of timeout(1); and those after which a command is called again: of sysexits.h, and where it can not be run.
LATE, AGAIN = 124, (os.EX_TEMPFAIL, 126, 127)


class NotSigned(Exception):
    """Why there is no certificate."""
    kind = "serverInternal"


class NotNow(Exception):
    """Why there is none for a while."""


class Command:
    """Signs by the words of a command, with the names behind them and the CSR on its standard input; and revokes by those of another."""

    def __init__(self, sign, revoke=(), environment=()):
        self.signing, self.revoking, self.environment = sign, revoke, {**os.environ, **dict(environment)}

    def sign(self, names, csr):
        """The chain that the command writes."""
        return self._called([*self.signing, *names], csr.public_bytes(Encoding.PEM), CHAIN)

    def revoke(self, certificate, reason):
        """Has a certificate revoked: it is on standard input, its serial and the reason are behind the words."""
        self._called([*self.revoking, f"{certificate.serial_number:X}", reason], certificate.public_bytes(Encoding.PEM), LIST)

    def list_revoked(self):
        """The list of what is revoked, as DER, by the command without more words."""
        return x509.load_pem_x509_crl(self._called(self.revoking, b"", LIST)).public_bytes(Encoding.DER)

    def _called(self, words, given, most):
        """What a command writes to its output; where it fails it is refused by its first line of standard error, or called again."""
        with tempfile.TemporaryFile() as asked, tempfile.TemporaryFile() as said, tempfile.TemporaryFile() as errors:
            asked.write(given)
            asked.seek(0)
            bounds = ["timeout", "--kill-after=5", str(SECONDS), "prlimit", f"--fsize={LIST + 1}"]
            status = subprocess.run([*bounds, *words], stdin=asked, stdout=said, stderr=errors, env=self.environment).returncode
            is_large = any(os.fstat(file.fileno()).st_size > most for file in (said, errors))
            said.seek(0)
            errors.seek(0)
            data = said.read(most)
            line = re.sub("[^ -~]", "?", errors.read(LINE).decode("latin-1").strip().partition("\n")[0])
        if status in AGAIN:
            raise NotNow(line or f"{words[0]} failed for now")
        if status == LATE:
            raise NotSigned("the authority took too long")
        if is_large:
            raise NotSigned("the authority wrote too much")
        if status:
            raise NotSigned(line or f"the authority ended with status {status}")
        return data
