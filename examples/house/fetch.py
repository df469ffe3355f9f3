"""One GET over the network for http-01, within bounds: of time, of bytes, of redirects, and of where they lead (RFC 8555, 8.3)."""
import contextlib
import http.client
import socket
import ssl
import string
import urllib.parse

import dns.exception

from addresses import is_name, may_be_reached
from bounded import Reader, left

# The redirects that are followed; the bytes that are read of a response with its head, and of its body; the addresses of a name.
REDIRECTS, BYTES, BODY, ADDRESSES = 10, 32768, 4096, 4
PORTS = {"http": 80, "https": 443}
# A site that asks for its first certificate has none yet: nothing is concluded from the one that it shows.
TLS = ssl.create_default_context()
TLS.check_hostname, TLS.verify_mode = False, ssl.CERT_NONE


class Network:
    """Where a name leads: its own addresses, if they may be reached, or for trials one address and port whatever it names."""

    def __init__(self, resolver, web=None, allow_private=False, allow_loopback=False):
        self.resolver, self.web, self.allowed = resolver, web, (allow_private, allow_loopback)

    def fetch(self, url, end):
        """The first bytes of the body at a URL, or none where the status is not 200. Redirects are followed. It ends by OSError or
        HTTPException where there is no response, or none that is looked at."""
        for _ in range(REDIRECTS + 1):
            body, place = self._ask(url, end)
            if place is None:
                return body
            url = urllib.parse.urljoin(url, urllib.parse.quote(place, string.punctuation, "iso-8859-1"))
        raise OSError("more redirects than are followed")

    def _ask(self, url, end):
        """The body at a URL, and where it redirects to; nothing is read behind a redirect's head."""
        scheme, host, port, target = parts(url)
        with contextlib.ExitStack() as opened:
            channel = opened.enter_context(self._connect(host, port, end))
            channel.settimeout(left(end))
            if scheme == "https":
                channel = opened.enter_context(TLS.wrap_socket(channel, server_hostname=host))
            channel.sendall(f"GET {target} HTTP/1.1\r\nHost: {host}\r\nUser-Agent: house\r\nConnection: close\r\n\r\n".encode())
            response = opened.enter_context(http.client.HTTPResponse(Reader(channel, end, BYTES), method="GET"))
            response.begin()
            place = response.getheader("Location") if response.status in (301, 302, 303, 307, 308) else None
            return response.read(BODY) if response.status == 200 else b"", place

    def _connect(self, host, port, end):
        """A connection to the first address that takes one; each has half of the time that is left."""
        fault = OSError("no address that may be reached")
        for address in [self.web] if self.web else [(address, port) for address in self._addresses(host, end)]:
            try:
                return socket.create_connection(address, left(end) / 2)
            except OSError as refused:
                fault = refused
        raise fault

    def _addresses(self, host, end):
        """The addresses of a name that may be reached, some of them. The connection is to one of these, not to the name again."""
        found = []
        for kind in ("AAAA", "A"):
            with contextlib.suppress(dns.exception.DNSException):
                found += [record.address for record in self.resolver.resolve(host, kind, lifetime=left(end) / 2)]
        return [address for address in found if may_be_reached(address, *self.allowed)][:ADDRESSES]


def parts(url):
    """The scheme, host, port and target of a URL that may be asked for."""
    try:
        split = urllib.parse.urlsplit(url)
        host, port = split.hostname or "", PORTS.get(split.scheme) if split.port is None else split.port
    except ValueError:
        raise OSError("a redirect to no URL") from None
    if split.scheme not in PORTS or port not in PORTS.values() or "@" in split.netloc or not is_name(host):
        raise OSError(f"a redirect to {url[:100]!r}, which is not followed")
    return split.scheme, host, port, (split.path or "/") + (f"?{split.query}" if split.query else "")
