"""Requests that are none, and those just within the limits: a part of scripts/serving/serve.py."""
import json

from scripts.serving.served import DIRECTORY, STOPPED, Client, Reply, Server, envelope, masked, refusal, request, signed
from scripts.specification import BODY, CERTIFICATE, FIELDS, HEAD, LAST
from scripts.trying import KEY, fresh, nonce_text, see, tables_of


def padded(size, method="GET", path="/directory"):
    """The head of a request, of so many bytes."""
    bare = len(request(method, path, fields=[("X", "")]))
    return request(method, path, fields=[("X", "a" * (size - bare))])


def fields_of(count):
    return request("GET", "/directory", fields=[(f"X{number}", "a") for number in range(count)])


def nested(depth):
    """An envelope that is nested so deep."""
    return b'{"jwk":' + b"[" * (depth - 1) + b"]" * (depth - 1) + b',"payload":"{}"}'


def post(path, body=b"", *fields):
    """The bytes of a POST with other fields than the length of its body."""
    return request("POST", path, fields=fields) + body


def lengths(nonce):
    """Lengths of bodies: the fields, and the number of the refusal."""
    body = envelope(nonce, {})
    fit = str(len(body))
    length = "Content-Length"
    for said, fields, number in [
        ("two lengths that are the same", [(length, fit), (length, fit)], 1),
        ("two lengths", [(length, fit), ("content-length", "1")], 1),
        ("a length with a sign", [(length, "+5")], 1),
        ("a length below 0", [(length, "-1")], 1),
        ("an empty length", [(length, "")], 1),
        ("a length in hexadecimal digits", [(length, "0x10")], 1),
        ("a list of lengths", [(length, f"{fit}, {fit}")], 1),
        ("a fraction", [(length, f"{fit}.0")], 1),
        ("no length", [], 1),
        ("a length of 0", [(length, "0")], 1),
        ("a length that is too long by one", [(length, str(len(body) + 1))], 1),
        ("a body that is cut by one", [(length, str(len(body) - 1))], 1),
        ("a body above the limit", [(length, str(BODY + 1))], 16),
        ("a length of many digits", [(length, "9" * 400)], 16),
        ("a length of 2^64 and a bit", [(length, str(2**64 + len(body)))], 16),
        ("chunks", [("Transfer-Encoding", "chunked")], 1),
        ("chunks and a length", [("Transfer-Encoding", "chunked"), (length, fit)], 1),
        ("an encoding before a length above the limit", [("transfer-encoding", "identity"), (length, str(BODY + 1))], 1),
    ]:
        yield said, post("/new-account", body, *fields), refusal(number, "/new-account")


def heads():
    """Heads: the bytes and the reply."""
    malformed, large = refusal(1), refusal(16)
    yield "no bytes", b"", malformed
    yield "an empty line", b"\r\n\r\n", malformed
    yield "a head of 16385 bytes", padded(HEAD + 1), large
    yield "a head of 16385 bytes, of a path that is none", padded(HEAD + 1, path="/nothing"), large
    yield "a head without an end", padded(HEAD + 3)[:-2], large
    yield "a head of 16384 bytes without its last line", padded(HEAD + 2)[:HEAD], large
    yield "a head that ends early", padded(HEAD)[:-1], malformed
    yield "65 fields", fields_of(FIELDS + 1), malformed
    yield "66 fields and no end", fields_of(FIELDS + 2)[:-2], malformed
    for said, data in [
        ("a byte that is none", b"\0" + DIRECTORY),
        ("a byte above 127 before the method", b"\xff" + DIRECTORY),
        ("a line that is none", b"GET\r\n\r\n"),
        ("a line without a version", b"GET /directory\r\n\r\n"),
        ("HTTP/2.0", b"GET /directory HTTP/2.0\r\n\r\n"),
        ("HTTP/1.2", b"GET /directory HTTP/1.2\r\n\r\n"),
        ("a version in small letters", b"GET /directory http/1.1\r\n\r\n"),
        ("a method that is no token", b"G@T /directory HTTP/1.1\r\n\r\n"),
        ("a space before a field", b"GET /directory HTTP/1.1\r\n X: a\r\n\r\n"),
        ("a space after a field's name", b"GET /directory HTTP/1.1\r\nX : a\r\n\r\n"),
        ("a field without a name", b"GET /directory HTTP/1.1\r\n: a\r\n\r\n"),
        ("a field without a colon", b"GET /directory HTTP/1.1\r\nX\r\n\r\n"),
        ("a zero in a field", b"GET /directory HTTP/1.1\r\nX: a\0b\r\n\r\n"),
        ("a CR alone", b"GET /directory HTTP/1.1\rX: a\r\n\r\n"),
    ]:
        yield said, data, malformed


def bodies(nonce):
    """Bodies that are no envelopes."""
    key = json.dumps(KEY).encode()
    good = envelope(nonce, {})
    for said, body in [
        ("bytes that are not UTF-8", good.replace(b'"payload": "{}"', b'"payload": "\xff"')),
        ("bytes that are not UTF-8, in a member that nobody reads", good[:-1] + b', "x": "\xc3\x28"}'),
        ("JSON nested 128 deep", nested(128)),
        ("JSON nested a hundred thousand deep", b"[" * 100000),
        ("an empty body", b""),
        ("a body that is a list", b"[]"),
        ("a body that is null", b"null"),
        ("two bodies", good + good),
        ("a comma at the end", good[:-1] + b",}"),
        ("no jwk", b'{"nonce":"' + nonce.encode() + b'","payload":"{}"}'),
        ("no payload", b'{"jwk":' + key + b',"nonce":"' + nonce.encode() + b'"}'),
        ("a payload that is an object", b'{"jwk":' + key + b',"nonce":"' + nonce.encode() + b'","payload":{}}'),
        ("a nonce that is a number", b'{"jwk":' + key + b',"nonce":1,"payload":"{}"}'),
        ("a nonce that is null", b'{"jwk":' + key + b',"nonce":null,"payload":"{}"}'),
        ("half of a surrogate pair", good[:-1] + b', "x": "\\ud800"}'),
        ("a zero in a text", good[:-1] + b', "x": "\0"}'),
    ]:
        yield said, request("POST", "/new-account", body), refusal(1, "/new-account")
    for text in ("=", "", "A", nonce + "=", nonce[:-1] + "+", "A" * 33, "é" * 4, nonce + " "):
        yield f"the nonce {text!r}", signed("/new-account", text, {}), refusal(1, "/new-account")
    for path, body in [
        ("/office/report/1", b"{}"),
        ("/office/report/1", b'{"body":"","error":"dns"}'),
        ("/office/report/1", b'{"body":"A"}'),
        ("/office/report/1", b'{"records":[1]}'),
        ("/office/report/1", b'{"error":"other"}'),
        ("/office/report/1", b"\xff"),
        ("/office/fail/1", b'{"type":"badCSR"}'),
        ("/office/fail/1", b'{"type":1,"detail":""}'),
        ("/office/fail/1", b""),
    ]:
        yield f"{path} {body!r}", request("POST", path, body), refusal(1, path)


PATHS = f"""
    /order/1?x /order/{LAST + 1} /order/99999999999999999999 /Order/1 /order/01 /order/0 /order/ /order /order/+1 /order/1/
    //order/1 /order/1/finalize/ /order/1/finalize?x /order/1/x /order/%31 /order/1#x /order/1;x /new-order? /new-order/ / *
    /directory?x http://ca.example/new-order /directory/../new-order /office /office/ /office/order /office/report /key/1 /account/1/order
    /revoke-cert /keyChange /key-change/ /key-change/1
"""


def paths(nonce):
    """Paths that are none."""
    for path in PATHS.split():
        yield f"the path {path}", signed(path, nonce, ""), refusal(2, path)
    path = f"/office/certify/{LAST + 1}"
    yield "a number past the last, in an office's path", request("POST", path, b"A"), refusal(2, path)


def cuts(nonce):
    """A good request, cut after each of its bytes but the last."""
    whole = signed("/new-account", nonce, {"contact": ["mailto:a@b.example"], "termsOfServiceAgreed": True})
    for at in range(len(whole)):
        yield f"a request cut after {at} bytes", whole[:at], refusal(1, "/new-account")


def certificates():
    """Certificates, and other bodies, that are too large or too short."""
    path = "/office/certify/1"
    yield "a certificate above the limit", post(path, b"", ("Content-Length", CERTIFICATE + 1)), refusal(16, path)
    yield "a certificate above the limit, with its bytes", request("POST", path, b"A" * (CERTIFICATE + 1)), refusal(16, path)
    yield "a certificate that ends early", request("POST", path, b"A" * CERTIFICATE)[:-1], refusal(1, path)
    path = "/new-account"
    yield "a body above the limit, with its bytes", request("POST", path, b" " * (BODY + 1)), refusal(16, path)
    yield "a body that ends early", request("POST", path, b" " * BODY)[:-1], refusal(1, path)


def bad_requests(program, folder):
    """The table of bad requests: each has its reply, and none records anything; the nonce that they carried serves then."""
    server = Server(program, fresh(program, folder, "bad"))
    nonce = Client(server).fetch()
    before, count = tables_of(server.path, folder), 0
    for group in (heads(), lengths(nonce), bodies(nonce), paths(nonce), certificates(), cuts(nonce)):
        for said, data, wanted in group:
            see(said, server.ask(data, end=True), wanted)
            see(f"{said}: nothing recorded", tables_of(server.path, folder) == before, True)
            count += 1
    see("the nonce, then", Reply(server.ask(signed("/new-account", nonce, {}))).status, 201)
    see("bad requests: the end", server.stop(), STOPPED)
    print(f"bad requests: {count} refused, nothing recorded")


UNREAD = [("Content-Length", "+5"), ("Content-Length", ""), ("Transfer-Encoding", "x")]


def limits(program, folder):
    """What is just within a limit is read."""
    server = Server(program, fresh(program, folder, "limits"))
    client = Client(server)
    directory = server.ask(DIRECTORY)
    see("the directory", Reply(directory).status, 200)
    for said, data in [
        ("a head of 16384 bytes", padded(HEAD)),
        ("64 fields", fields_of(FIELDS)),
        ("HTTP/1.0", b"GET /directory HTTP/1.0\r\n\r\n"),
        ("lines that end with LF", b"GET /directory HTTP/1.1\nX: a\n\n"),
        ("an empty line first", b"\r\n" + DIRECTORY),
        ("fields of a GET that are not looked at", request("GET", "/directory", fields=UNREAD)),
        ("a GET whose body is not there", request("GET", "/directory", fields=[("Content-Length", "9")])),
        ("a GET with a body", request("GET", "/directory", b"x" * 1000)),
        ("a GET with a length above the limit", request("GET", "/directory", fields=[("Content-Length", "9" * 30)])),
        ("a field above 127", request("GET", "/directory", fields=[("X", "\u00e9")])),
    ]:
        see(said, server.ask(data), directory)
    client.fetch()
    body = envelope(client.nonce, {})
    see("a body of 131072 bytes", client.heard(request("POST", "/new-account", body.ljust(BODY))).status, 201)
    body = envelope(client.nonce, {})
    see("zeros before a length", client.heard(post("/new-account", body, ("content-LENGTH", f"000{len(body)}"))).status, 200)
    deep = server.ask(request("POST", "/new-account", nested(127)))
    see("JSON nested 127 deep", masked(deep), refusal(4, "/new-account", nonce=nonce_text(4)))
    see("a nonce with unused bits", Reply(server.ask(signed("/new-account", "AB", {}))).document()["type"][-8:], "badNonce")
    see("the last number", client.post(f"/order/{LAST}", "", 404).field("Replay-Nonce") is None, False)
    number = client.ready_order()
    client.post(f"/order/{number}/finalize", {"csr": "AQID"})
    path, certificate = f"/office/certify/{number}", bytes(range(256)) * (CERTIFICATE // 256)
    see("no certificate", server.ask(request("POST", path, b"")), refusal(1, path))
    see("a certificate of 65536 bytes", Reply(server.ask(request("POST", path, certificate))).status, 200)
    found = client.post(f"/cert/{number}", "")
    see("its bytes", (found.body == certificate, found.field("Content-Type")), (True, "application/pem-certificate-chain"))
    see("limits: the end", server.stop(), STOPPED)
