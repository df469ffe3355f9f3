"""A desk that serves, as its operator sees it: the log of calls, revocations by its port, and its file taken away. A part of scripts/serving/serve.py."""
import json
import os
import re
import shutil
import time

from scripts.serving.served import (DIRECTORY, NEW_NONCE, STOPPED, Client, Reply, Server, compact, directory_reply, refusal, reply, request, reset,
                                    stranger)
from scripts.trying import DEVICE, fresh, run, run_on_full, see, tables_of

# What is said of a file beside the port, and of what is no number in its place.
BESIDE, PLACE = b"no FILE stands before N: desk WORD N --port P", b"with --port N stands in the place of FILE: a number, 1 to 2^62"
# What is told of a client that broke off.
BROKEN_OFF = b"desk: connection\ndesk: the client broke off, or did not send its request within 10 seconds\n"
# So many nonces that the engine copies its log of 1000 pages into the file at least once.
CALLS = 600
LINE = re.compile(r"(\d{4}-\d\d-\d\dT\d\d:\d\d:\d\dZ) (\S+) (\S+) (\d+|-) (\d+|-) (\d+|-) (\d+|-)")


def asked(server):
    """Calls of many kinds, and what a log says of each: method, path, status, number, object."""
    client = Client(server)
    client.open_account()
    client.order("a.example")
    client.post("/order/1", "")
    client.post("/order/1/finalize", {"csr": "AQID"}, 403)
    client.post("/order/9", "", 404)
    for method, path in (("GET", "/directory"), ("GET", "/nothing"), ("PUT", "/new-order"), ("GET", "/office/key/1"),
                         ("POST", "/office/revoke-authz/1"), ("POST", "/office/revoke-authz/7"), ("HEAD", "/new-nonce")):
        server.ask(request(method, path))
    server.ask(b'GET /a"b\\c HTTP/1.1\r\n\r\n')
    server.ask(b"\x00\xff\n\r\n")
    server.ask(b"\r\n" + DIRECTORY)
    server.ask(b"\r\n\n\r\n" + request("GET", "/nothing"))
    with server.connect() as gone:
        gone.sendall(b"GET /dir")
    server.ask(DIRECTORY)
    return [
        ("GET", "/new-nonce", 204, None, None), ("POST", "/new-account", 201, None, 1), ("POST", "/new-order", 201, None, 1),
        ("POST", "/order/1", 200, None, 1), ("POST", "/order/1/finalize", 403, 12, 1), ("POST", "/order/9", 404, 2, 9),
        ("GET", "/directory", 200, None, None), ("GET", "/nothing", 404, 2, None), ("PUT", "/new-order", 405, 3, None),
        ("GET", "/office/key/1", 200, None, 1), ("POST", "/office/revoke-authz/1", 200, None, 1),
        ("POST", "/office/revoke-authz/7", 404, 2, 7), ("HEAD", "/new-nonce", 200, None, None), ("GET", "/a?b?c", 404, 2, None),
        ("??", "-", 400, 1, None), ("GET", "/directory", 200, None, None), ("GET", "/nothing", 404, 2, None),
        ("GET", "/dir", 400, 1, None), ("GET", "/directory", 200, None, None),
    ]


def logged(program, folder):
    """A line for each connection, as text and as JSON; none without the option."""
    for words, is_json in ((("--log",), False), (("--log", "text"), False), (("--log", "json"), True)):
        server = Server(program, fresh(program, folder, "-".join(words)), *words)
        start = int(time.time())
        wanted = asked(server)
        for said in wanted:
            see(f"{words}: the line of {said}", told(server.run.stdout.readline().decode().rstrip("\n"), is_json, start), said)
        see(f"{words}: the end", server.stop(), STOPPED)
    server = Server(program, fresh(program, folder, "silent"))
    asked(server)
    see("without --log", server.stop(), STOPPED)


def told(line, is_json, start):
    """What a line of a log says, where its moment is one since the start, and it took less than a minute."""
    if is_json:
        found = json.loads(line)
        parts = [found[name] for name in ("moment", "method", "path", "status", "number", "object", "microseconds")]
        if len(found) != 7 or line != json.dumps(found, separators=(",", ":")):
            return line
    else:
        found = LINE.fullmatch(line)
        if not found:
            return line
        parts = [*found.groups()[:3], *(None if part == "-" else int(part) for part in found.groups()[3:])]
    last = time.strftime("%Y-%m-%dT%H:%M:%SZ", time.gmtime())
    first = time.strftime("%Y-%m-%dT%H:%M:%SZ", time.gmtime(start))
    if not first <= parts[0] <= last or (parts[3] is not None and parts[6] is not None and parts[6] > 60 * 10**6):
        return line
    return tuple(parts[1:6])


def log_that_fails(program, folder):
    """A log that can't be written ends the program, behind the reply; the file has the call."""
    path = fresh(program, folder, "unlogged")
    server = Server(program, path, "--log")
    see("a log that is read", server.ask(DIRECTORY), directory_reply())
    server.run.stdout.close()
    server.run.stdout = open(os.devnull, "rb")
    found = Reply(server.ask(NEW_NONCE))
    see("a log that nobody reads: the reply", found.status, 204)
    see("a log that nobody reads: the end", server.ended(), (1, b"", b"desk: output\n"))
    see("a log that nobody reads: the file", len(tables_of(path, folder)["nonce"]), 1)


def replaced(program, folder):
    """A file that is replaced, cut or unlinked while it is served ends the program before the next call, and so does its log."""
    def unlink(path):
        os.remove(path)

    def replace(path):
        shutil.copy(path, f"{path}.copy")
        os.rename(f"{path}.copy", path)

    def cut(path):
        os.truncate(path, os.path.getsize(path) // 2)

    def cut_log(path):
        os.truncate(f"{path}-wal", 0)

    def link_to_new_place(path):
        os.mkdir(f"{path}.place")
        os.rename(path, f"{path}.place/desk.db")
        os.symlink(f"{path}.place/desk.db", path)

    def unlink_log(path):
        unlink(f"{path}-wal")

    def replace_log(path):
        replace(f"{path}-wal")

    for change in (unlink, replace, cut, unlink_log, replace_log, cut_log, link_to_new_place):
        server = Server(program, fresh(program, folder, change.__name__), "--verbose")
        see(f"{change.__name__}: before", server.ask(DIRECTORY), directory_reply())
        change(server.path)
        see_ended(change.__name__, server)
    server = Server(program, fresh(program, folder, "beside"))
    shutil.copy(server.path, f"{server.path}.copy")
    os.rename(server.path, f"{server.path}.moved")
    os.rename(f"{server.path}.moved", server.path)
    see("a file that was copied, moved and moved back", server.ask(DIRECTORY), directory_reply())
    see("beside: the end", server.stop(), STOPPED)
    os.mkdir(f"{folder}/linked")
    os.symlink(fresh(program, folder, "linked/desk"), f"{folder}/linked.db")
    server = Server(program, f"{folder}/linked.db")
    see("a link that was there before", Reply(server.ask(NEW_NONCE)).status, 204)
    see("a link that was there before: the end", server.stop(), STOPPED)


def see_ended(what, server, told=b""):
    """The next call has no reply, and ends the program, which has told this before."""
    see(f"{what}: no reply", server.ask(NEW_NONCE) in (b"", b"(reset)"), True)
    cause = f"desk: {server.path}: it or its log was replaced, cut or removed while it was served\n".encode()
    see(f"{what}: the end", server.ended(), (1, b"", told + DEVICE + cause))


def shortened(program, folder):
    """A log or a file that is shorter than the latest call left it ends the program, though it is longer than it was; what the engine does with them does not."""
    server = Server(program, fresh(program, folder, "shortened-log"), "--verbose")
    begun = os.path.getsize(f"{server.path}-wal")
    see("shortened-log: a call", Reply(server.ask(NEW_NONCE)).status, 204)
    os.truncate(f"{server.path}-wal", begun)
    with server.connect() as gone:
        reset(gone)
    see_ended("shortened-log", server, BROKEN_OFF)
    server = Server(program, fresh(program, folder, "shortened"), "--verbose")
    begun = os.path.getsize(server.path)
    for _ in range(CALLS):
        see("shortened: a call", Reply(server.ask(NEW_NONCE)).status, 204)
    see("the engine has made its file longer", os.path.getsize(server.path) > begun, True)
    os.truncate(server.path, begun)
    see_ended("shortened", server)


def revocations_asked(program, server, place):
    """The two revocations, asked of a desk that serves at a place: what the words say of a file, they say of it."""
    client = Client(server)
    client.open_account()
    client.order("a.example")

    def words(word, number):
        return run(program, word, str(number), *place)

    see("an authorization", words("revoke-authz", 1), (0, b"authz 1 revoked\n", b""))
    see("an authorization again", words("revoke-authz", 1), (0, b"authz 1 revoked\n", b""))
    nothing = (1, b"", b"desk: there is nothing here\n")
    see("no authorization", words("revoke-authz", 2), nothing)
    see("an account", words("revoke-account", 1), (0, b"account 1 revoked\n", b""))
    see("an account again", words("revoke-account", 1), (0, b"account 1 revoked\n", b""))
    see("no account", words("revoke-account", 2**62), nothing)
    client.post("/order/1", "", 401)
    other = Client(server, {"crv": "P-256", "kty": "EC", "x": "Aw", "y": "BA"})
    other.open_account()
    other.post("/account/2", {"status": "deactivated"})
    see("an account that has ended otherwise", words("revoke-account", 2), (1, b"", b"desk: the report does not fit the records\n"))
    see("without a place", run(program, "revoke-account", server.path, "1"), (1, b"", DEVICE))
    see("a full standard output", run_on_full(program, "revoke-account", "1", *place)[::2], (1, b"desk: output\n"))


def revoked(program, folder):
    """The two revocations by a port; wrong words, nobody there, and strangers."""
    server = Server(program, fresh(program, folder, "revoked"))
    port = ("--port", str(server.port))
    revocations_asked(program, server, port)
    for place in ((), ("--wait", "1"), ("--verbose",)):
        ended, said, errors = run(program, "revoke-account", server.path, "1", *port, *place)
        see("a file beside the port", (ended, said, BESIDE in errors), (2, b"", True))
    for number in ("0", str(2**62 + 1), "+1", "01", "one", ""):
        ended, said, errors = run(program, "revoke-account", number, *port)
        see(f"the number {number!r} by the port", (ended, said, PLACE in errors), (2, b"", True))
    see("revoked: the end", server.stop(), STOPPED)
    gone = (1, b"", b"desk: connection\n")
    see("nobody at the port", run(program, "revoke-account", "1", *port), gone)
    for said in (b"", b"HTTP/1.1 20", b"SSH-2.0-x\r\n", b"HTTP/1.1 405 Method Not Allowed\r\n\r\n", *strange()):
        see(f"what says {said[:200]}", ended_by(program, said), gone)
    for said in (b"{}", compact({"identifier": {"type": "dns", "value": "a.example"}, "status": "revoked"}), compact(account_document(7))):
        see(f"an authorization: what says {said}", ended_by(program, reply(200, said, "application/json"), "authz"), gone)
    see("the document of the account", ended_by(program, reply(200, compact(account_document(7)), "application/json")), (0, b"account 7 revoked\n", b""))
    name = {"type": "dns", "value": "a.example"}
    for identifier in (None, {}, "a.example", [name], {**name, "type": "ip"}, {**name, "type": None}, {**name, "value": 7}, {"type": "dns"}):
        said = compact({"challenges": [], "expires": "1970-01-31T00:00:00Z", "identifier": identifier, "status": "revoked"})
        see(f"an authorization: what says {said}", ended_by(program, reply(200, said, "application/json"), "authz"), gone)
    for expires in (None, 7, ["1970-01-31T00:00:00Z"]):
        said = compact({"challenges": [], "expires": expires, "identifier": name, "status": "revoked"})
        see(f"an authorization: what says {said}", ended_by(program, reply(200, said, "application/json"), "authz"), gone)
    see("the longest reply", ended_by(program, longest()), (0, b"account 7 revoked\n", b""))
    document = {"challenges": [], "expires": "1970-01-31T00:00:00Z", "identifier": {"type": "dns", "value": "a.example"}, "status": "revoked"}
    see("the document of an authorization", ended_by(program, reply(200, compact(document), "application/json"), "authz"), (0, b"authz 7 revoked\n", b""))
    see("a desk that could not act", ended_by(program, refusal(15, "/office/revoke-account/1")), (1, b"", b"desk: the desk could not act\n"))


def account_document(number, status="revoked", **members):
    """The document of an account."""
    return {"contact": [], "orders": f"https://ca.example/account/{number}/orders", "status": status, **members}


def longest():
    """The longest reply to a revocation of the account 7: 32768 bytes, of which the last are spaces."""
    whole = reply(200, compact(account_document(7)), "application/json")
    return whole + b" " * (32768 - len(whole))


def strange():
    """Replies that no desk gives to a revocation of the account 7."""
    documents = ({}, [], "revoked", {"status": "revoked"}, account_document(7, "valid"), account_document(8), account_document(17), account_document(70),
                 account_document(7, orders=7), account_document(7, status=["revoked"]))
    whole = reply(200, compact(account_document(7)), "application/json")
    longer = [reply(200, compact(account_document(7, contact=["mailto:" + "a" * 32768])), "application/json"), longest() + b" ", longest() + b"x" * 32768]
    return [*(reply(200, compact(it), "application/json") for it in documents), whole[:-1], whole.replace(b"\r\n\r\n", b"\r\n"),
            whole.replace(b" 200 ", b" 201 "), whole[:-2] + b"\xff" + whole[-2:], *longer,
            *(refusal(number).replace(b"detail", b"Detail") for number in (2, 14, 15)), refusal(14).replace(b" 409 ", b" 404 ")]


def ended_by(program, said, kind="account"):
    """How a revocation ends that a stranger answers, and what it is asked."""
    with stranger(said) as (port, heard):
        found = run(program, f"revoke-{kind}", "7", "--port", str(port))
    see("what is asked", heard, [f"POST /office/revoke-{kind}/7 HTTP/1.1\r\nHost: 127.0.0.1\r\nContent-Length: 0\r\n\r\n".encode()])
    return found


OPERATED = (logged, log_that_fails, replaced, shortened, revoked)
