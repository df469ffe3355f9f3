"""What a firm allows: which names are certified, and whose keys open accounts. Its files are read at each use."""
import hmac
import json

from addresses import ends_in_number
from desk import Down
from keys import decoded, read_key
from signatures import ERROR, Refused


class Policy:
    """The names below these domains are certified. Accounts are opened by the keys whose thumbprints a file has, a line each, and that are
    bound to an external account (RFC 8555, 7.3.4), of which a file has key identifier and MAC key, a line each."""

    def __init__(self, domains=(), accounts=None, bindings=None):
        self.domains, self.accounts, self.bindings = domains, accounts, bindings
        self.meta = {"meta": {"externalAccountRequired": True}} if bindings is not None else {}

    def check_order(self, identifiers):
        """Refuses the names that are not certified here, with a subproblem each."""
        refused = [(named, why) for named in identifiers if named["type"] == "dns" and (why := self._fault_of(named["value"]))]
        if refused:
            subproblems = [{"type": f"{ERROR}rejectedIdentifier", "detail": why, "identifier": named} for named, why in refused]
            raise Refused("rejectedIdentifier", "a name is not certified here", subproblems=subproblems)

    def _fault_of(self, name):
        """Why a name is not certified here; None where it may be."""
        if not name.isascii():
            return "a name is to be in ASCII, by A-labels"
        if ends_in_number(name):
            return "a name that reads as an address is not certified here"
        is_allowed = not self.domains or f".{name.lower().removeprefix('*.')}".endswith(tuple(f".{domain}" for domain in self.domains))
        return None if is_allowed else "the name is not one that is certified here"

    def check_account(self, asked, spelling, thumbprint, url):
        """Refuses a key that may not open an account; an account that is there is found by any key."""
        if asked.get("onlyReturnExisting") is True:
            return
        if self.accounts is not None and [thumbprint] not in words_of(self.accounts):
            raise Refused("unauthorized", f"the key {thumbprint} is not one that opens accounts here", 403)
        if self.bindings is not None and asked.get("externalAccountBinding") is None:
            raise Refused("externalAccountRequired", "an account is to be bound to an external one", 403)
        if self.bindings is not None and not self._is_bound(asked["externalAccountBinding"], spelling, url):
            raise Refused("unauthorized", "the external account binding is not by a key that is known here", 403)

    def _is_bound(self, binding, spelling, url):
        """Whether a binding is of this key, for this URL, and by a known MAC key."""
        macs = {words[0]: words[1] for words in words_of(self.bindings) if len(words) == 2}
        try:
            header, bound = (json.loads(decoded(binding[name])) for name in ("protected", "payload"))
            signed = f"{binding['protected']}.{binding['payload']}".encode()
            mac = hmac.digest(decoded(macs[header["kid"]]), signed, "sha256")
            is_signed = header["alg"] == "HS256" and hmac.compare_digest(mac, decoded(binding["signature"]))
            return is_signed and header["url"] == url and "nonce" not in header and read_key(bound)[1] == spelling
        except Exception:
            return False


def words_of(path):
    """The words of each line of a file."""
    try:
        with open(path, encoding="ascii") as file:
            return [line.split() for line in file]
    except (OSError, ValueError) as fault:
        raise Down(f"{path} can not be read: {fault}") from None
