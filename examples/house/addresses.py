"""Which names are looked up, and which addresses are reached."""
import ipaddress
import re

LABEL = "[a-z0-9]([a-z0-9-]{0,61}[a-z0-9])?"
NAME, NUMBER = re.compile(rf"({LABEL}\.)+{LABEL}"), re.compile("[0-9]+|0x[0-9a-f]*")
# The addresses of IPv6 that lead over the Internet, and those of them that stand for an address of IPv4 (6to4).
GLOBAL, SIX_TO_FOUR = ipaddress.ip_network("2000::/3"), ipaddress.ip_network("2002::/16")
# The private addresses (RFC 1918, RFC 4193); and one that looks like an address of the Internet, and is the host of a cloud's machines.
PRIVATE = [ipaddress.ip_network(text) for text in ("10.0.0.0/8", "172.16.0.0/12", "192.168.0.0/16", "fc00::/7")]
OF_THE_CLOUD = [ipaddress.ip_address("168.63.129.16")]


def ends_in_number(name):
    """Whether resolvers may read an address where a name stands, as inet_aton does: 127.0.0.1, 0x7f.0x1, 10.0.0.0x1."""
    return NUMBER.fullmatch(name.lower().rpartition(".")[2]) is not None


def is_name(text):
    """Whether a text is a name to look up: of two labels or more, in lower case, and nothing that reads as an address."""
    return len(text) <= 253 and NAME.fullmatch(text) is not None and not ends_in_number(text)


def may_be_reached(text, allow_private=False, allow_loopback=False):
    """Whether an address is of the Internet: no loopback, link-local, private, reserved or multicast one; or of a kind that is allowed."""
    address = ipaddress.ip_address(text)
    if allow_private and any(address in network for network in PRIVATE) or allow_loopback and address.is_loopback:
        return True
    if address in OF_THE_CLOUD or address.version == 6 and (address not in GLOBAL or address in SIX_TO_FOUR):
        return False
    return address.is_global and not address.is_multicast and not address.is_reserved
