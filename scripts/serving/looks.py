"""Tries the words that ask a desk that is served: python3 -B -m scripts.serving.looks PROGRAM

`about`, `page`, `status`, `accounts`, `authorizations` and `check`, in each form and with each filter, write over a socket and a port what they
write over the file, and end with the same status, also where a status is wrong. Who breaks off its reply at any byte, begins it otherwise, leaves
out its last line or stops in it, is told as desk: connection; the words that are wrong end with 2 before anything is asked. The desk goes on
behind a client that breaks off, or reads slowly. A place whose queue is full is given up after ten seconds. A body that asks for no report, and
each other method, is refused.
"""
import contextlib
import json
import os
import re
import socket
import threading
import time

from scripts.files.stops import Desk
from scripts.serving.served import DIRECTORY, Server, directory_reply, reached, received, refusal, request, reset, stranger
from scripts.trying import begin, change, finish, put, run, run_on_full, see, workspace

# The words, each with the options that it is tried with.
ACCOUNTS = [("--account", number) for number in ("1", "3", str(2**62))]
NAMES = [("--name", name) for name in ("a.example", "*.b.example", "BÜCHER.example", "none.example")]
STATUSES = [("--status", status) for status in ("pending", "ready", "processing", "valid", "invalid")]
WORDS = {
    "about": [()],
    "page": [()],
    "status": [(), *ACCOUNTS, *STATUSES, *NAMES, (*ACCOUNTS[0], *STATUSES[0], *NAMES[0])],
    "accounts": [()],
    "authorizations": [(), *ACCOUNTS, *NAMES, (*ACCOUNTS[0], *NAMES[1])],
    "check": [()],
}
JSON = ("status", "accounts", "authorizations", "check")
KINDS = {"page": "text/html; charset=utf-8", "text": "text/plain; charset=utf-8", "json": "application/jsonl"}
GONE = (1, b"", b"desk: connection\n")
# The line of `about` that tells the size of the log, which a file that is closed has none of.
PASSING = re.compile(rb"(?m)^log: .*\n")


def forms(word):
    """The words of a report, each with its form."""
    return [(word, *options, *form) for options in WORDS[word] for form in (((), ("--json",)) if word in JSON else ((),))]


def desk_of_all(program, folder, name):
    """A desk with orders of two accounts, names of all kinds and every status that requests give."""
    desk = Desk(program, f"{folder}/{name}")
    desk.open_account()
    for wanted in ("a.example", "*.b.example", "xn--bcher-kva.example"):
        desk.order(wanted)
    return desk


def at_places(program, path, folder, name, *words):
    """A desk that is served at a port and a socket, and the options that ask it at each."""
    server = Server(program, path, *words, "--socket", f"{folder}/{name}.socket")
    see(f"{name}: the line of the socket", server.run.stdout.readline(), f"listening on {folder}/{name}.socket\n".encode())
    return server, (("--port", str(server.port)), ("--socket", f"{folder}/{name}.socket"))


def same(said):
    """The end of a word, without what passes."""
    return (said[0], PASSING.sub(b"", said[1]), said[2])


def see_same(program, folder, path, name):
    """Each word says of a desk that is served what it says of its file."""
    wanted = {words: same(run(program, words[0], path, *words[1:])) for word in WORDS for words in forms(word)}
    server, places = at_places(program, path, folder, name)
    for words, ended in wanted.items():
        for place in places:
            see(f"{name}: {words} {place[0]}", same(run(program, *words, *place)), (ended[0], ended[1], b""))
    see(f"{name}: a wait beside a place", same(run(program, "check", *places[0], "--wait", "5")), (*wanted["check",][:2], b""))
    for word in WORDS:
        see(f"{name}: {word} on a full output", run_on_full(program, word, *places[1]), (1, None, b"desk: output\n"))
    see(f"{name}: a desk behind them", server.ask(DIRECTORY), directory_reply())
    server.stop()
    return wanted


def served(program, folder):
    """What is written of a desk that is served is what is written of its file; where a status is wrong, check ends with 3."""
    desk = desk_of_all(program, folder, "served")
    wanted = see_same(program, folder, desk.path, "served")
    see("the orders are some", wanted["status",][1].count(b"\n") > 3, True)
    empty = Desk(program, f"{folder}/empty")
    see_same(program, folder, empty.path, "empty")
    change(desk.path, "UPDATE ord SET status = 'ready' WHERE num = 1")
    found = see_same(program, folder, desk.path, "wrong")
    see("a wrong status", (found["check",][0], found["check", "--json"][0]), (3, 3))


def whole(word, form, shown):
    """The reply that shows something."""
    kind, last = KINDS["page" if word == "page" else form], b"<!-- end -->\n" if word == "page" else b"end\n"
    return f"HTTP/1.1 200 OK\r\nConnection: close\r\nContent-Type: {kind}\r\n\r\n".encode() + shown + last


def told(program, said, *words):
    """How a word ends that a stranger answers, and what it asked."""
    with stranger(said) as (port, heard):
        return run(program, *words, "--port", str(port)), heard[0]


def asked(program, folder):
    """What is asked, and what a stranger's whole replies and others are taken for."""
    get = b"GET /office/page HTTP/1.1\r\nHost: 127.0.0.1\r\n\r\n"
    see("the page", told(program, whole("page", "text", b"<p>"), "page"), ((0, b"<p>", b""), get))
    for words, members in (
            (("about",), {"report": "about"}), (("check",), {"form": "text", "report": "check"}), (("accounts", "--json"), {"form": "json", "report": "accounts"}),
            (("status", "--account", "7", "--status", "valid", "--name", "a.example", "--json"),
             {"account": 7, "form": "json", "name": "a.example", "report": "orders", "status": "valid"}),
            (("authorizations", "--name", "BÜCHER.example"), {"form": "text", "name": "BÜCHER.example", "report": "authorizations"})):
        ended, heard = told(program, whole(words[0], "json" if "--json" in words else "text", b"x\n"), *words)
        head, _, body = heard.partition(b"\r\n\r\n")
        see(f"{words}: the end", ended, (3 if words[0] == "check" else 0, b"x\n", b""))
        see(f"{words}: the head", head, f"POST /office/look HTTP/1.1\r\nHost: 127.0.0.1\r\nContent-Length: {len(body)}".encode())
        see(f"{words}: the body", json.loads(body), members)
    for shown, form, status in ((b"no fault\n", "text", 0), (b"no fault", "text", 3), (b"", "text", 3), (b"no fault\nno fault\n", "text", 3), (b"", "json", 0),
                                (b"{}\n", "json", 3), (b"no fault\n" * 9000, "text", 3), (b"{}\n" * 30000, "json", 3)):
        words = ("check", "--json") if form == "json" else ("check",)
        see(f"a check that shows {shown[:20]} as {form}", told(program, whole("check", form, shown), *words)[0], (status, shown, b""))
    for size in (*range(32760, 32776), 65532, 65536, 200000):
        shown = os.urandom(size)
        see(f"{size} bytes", told(program, whole("about", "text", shown), "about")[0], (0, shown, b""))


def broken(program, folder):
    """Replies that are not whole: what was shown is written, and the word ends with desk: connection."""
    for word, shown in (("about", b"a desk\n"), ("page", b"<p>end\n</p>\n")):
        said = whole(word, "text", shown)
        head = said.index(b"\r\n\r\n") + 4
        for at in range(len(said)):
            ended = told(program, said[:at], word)[0]
            see(f"{word} cut at {at}", (ended[0], shown.startswith(ended[1]), len(ended[1]) <= max(0, at - head), ended[2]), (1, True, True, GONE[2]))
        see(f"{word} with more behind it", told(program, said + b"x", word)[0][::2], GONE[::2])
    body = whole("about", "text", b"x\n")
    for said in (b"SSH-2.0-x\r\n", body.replace(b" 200 ", b" 404 "), body.replace(b"1.1", b"1.0"), body.replace(b"plain", b"html"),
                 body.replace(b"close", b"Close"), body.replace(b"\r\nConnection", b"\r\nServer: x\r\nConnection"), body.replace(b"\r\n\r\n", b"\n\n"), body[1:],
                 whole("page", "text", b"x\n"), whole("check", "json", b"x\n")):
        see(f"what says {said[:80]}", told(program, said, "about")[0], GONE)
    said = told(program, body.replace(b" 200 ", b" 404 "), "about", "--verbose")[0][2]
    cause = b"what replies there does not show this: a filter, an older program, another one, or a desk that met a fault"
    see("why nothing is shown", said.splitlines()[1].endswith(cause), True)
    said = told(program, body[:-1], "about", "--verbose")[0][2]
    see("why it is not whole", said.splitlines()[1].endswith(b"no more of it came for 60 seconds: what was written is not all of it"), True)


@contextlib.contextmanager
def full_queue(family, address):
    """Somebody who listens there, takes nobody, and has no room for one more."""
    with socket.socket(family) as listener, contextlib.ExitStack() as others:
        listener.bind(address)
        listener.listen(0)
        for _ in range(4):
            other = others.enter_context(socket.socket(family))
            other.setblocking(False)
            with contextlib.suppress(BlockingIOError):
                other.connect(listener.getsockname())
        time.sleep(0.5)
        yield listener.getsockname()


def crowded(program, folder):
    """A place with a full queue is given up after ten seconds, and said to be one that nobody took a connection at."""
    cause = b"nobody took a connection there, and nothing was asked\n"
    with full_queue(socket.AF_UNIX, f"{folder}/full") as at, full_queue(socket.AF_INET, ("127.0.0.1", 0)) as bound:
        for place in (("--socket", at), ("--port", str(bound[1]))):
            for words in (("about",), ("revoke-account", "1")):
                start = time.monotonic()
                ended, said, errors = run(program, *words, *place, "--verbose")
                see(f"{words} at {place[0]} with a full queue", (ended, said, errors.endswith(cause)), (1, b"", True))
                see(f"{words} at {place[0]}: how long", 9 < time.monotonic() - start < 20, True)


def silent(program, folder):
    """A desk that stops in its reply is given up after a minute; one that goes on slowly is not."""
    body = whole("about", "text", b"x\n" * 3)

    def dripping(server, parts, pause):
        with server.accept()[0] as client:
            client.recv(4096)
            for part in parts:
                client.sendall(part)
                time.sleep(pause)

    with socket.create_server(("127.0.0.1", 0)) as slow, socket.create_server(("127.0.0.1", 0)) as still:
        threads = [threading.Thread(target=dripping, args=(slow, (body[:40], body[40:-3], body[-3:]), 25)),
                   threading.Thread(target=dripping, args=(still, (body[:-3],), 70))]
        for thread in threads:
            thread.start()
        ended = {}

        def ask(name, server):
            start = time.monotonic()
            ended[name] = (run(program, "about", "--port", str(server.getsockname()[1])), time.monotonic() - start)

        threads += [threading.Thread(target=ask, args=it) for it in (("slow", slow), ("still", still))]
        for thread in threads[2:]:
            thread.start()
        for thread in threads:
            thread.join()
    see("a slow reply", ended["slow"][0], (0, b"x\n" * 3, b""))
    see("a reply that stops", (ended["still"][0][0], ended["still"][0][2], 58 < ended["still"][1] < 68), (1, GONE[2], True))


def behind(program, folder):
    """The desk goes on behind a client that breaks off, and one that reads slowly."""
    desk = desk_of_all(program, folder, "behind")
    for number in range(6):
        desk.order(*(f"n{number}-{place}.example" for place in range(50)))
    server, places = at_places(program, desk.path, folder, "behind")
    look = request("POST", "/office/look", b'{"report":"authorizations"}')
    for data in (look, request("GET", "/office/page"), look[:30]):
        with server.connect() as gone:
            gone.sendall(data)
            if data != look[:30]:
                gone.recv(10)
            reset(gone)
        see(f"behind a client that broke off {data[:20]}", run(program, "check", *places[0]), (0, b"no fault\n", b""))
    with reached(places[1][1]) as slow:
        slow.sendall(look)
        parts = []
        for _ in range(3):
            time.sleep(0.5)
            parts.append(slow.recv(1000))
        parts.append(received(slow))
    see("a client that reads slowly", b"".join(parts).endswith(b"authorizations 303\nend\n"), True)
    see("a desk behind it", server.ask(DIRECTORY), directory_reply())
    server.stop()


# Bodies that ask for a report in other words than those of the program, each with the words that print it.
ASKED = (
    (b'{"report":"orders"}', ("status",)), (b' {"name":"A.Example" , "report":"orders","status":"pending","form":"json","account":1}\n',
                                            ("status", "--json", "--account", "1", "--status", "pending", "--name", "a.example")),
    (b'{"form":"text","report":"accounts"}', ("accounts",)), (b'{"report":"authorizations","account":1}', ("authorizations", "--account", "1")),
    (b'{"report":"authorizations","name":"*.b.example"}', ("authorizations", "--name", "*.b.example")), (b'{"report":"check"}', ("check",)),
    (b'{"report":"about"}', ("about",)), (b'{"report":"\\u0061bout"}', ("about",)), (b'{"report":"check","report":"accounts"}', ("accounts",)))
# Bodies that ask for no report.
UNASKED = (
    b"", b"{}", b"[]", b"null", b'"about"', b"about", b'{"report":"about"', b'{"report":"about"}{}', b'{"report":"about","\xff":1}', b'{"report":null}',
    b'{"report":["about"]}', b'{"report":"About"}', b'{"report":"order"}', b'{"report":"page"}', b'{"report":"orders","form":"html"}',
    b'{"report":"orders","form":null}', b'{"report":"orders","account":0}', b'{"report":"orders","account":"1"}', b'{"report":"orders","account":1.0}',
    b'{"report":"orders","account":-1}', b'{"report":"orders","account":4611686018427387905}', b'{"report":"orders","status":"good"}',
    b'{"report":"orders","status":1}', b'{"report":"orders","name":"a b"}', b'{"report":"orders","name":""}', b'{"report":"orders","names":"a.example"}',
    b'{"report":"authorizations","status":"valid"}', b'{"report":"accounts","account":1}', b'{"report":"check","name":"a.example"}',
    b'{"report":"about","form":"text"}', b'{"report":"about","account":1}', b"[" * 3000)


def bodies(program, folder):
    """What a body asks for is what the words of the report print; whatever asks for no report, and each other method, is refused."""
    server = Server(program, desk_of_all(program, folder, "bodies").path)
    for body, words in ASKED:
        ended, wanted, _ = run(program, *words, "--port", str(server.port))
        see(f"{words}: its end", ended, 0)
        see(f"what is shown by {body}", server.ask(request("POST", "/office/look", body)), whole(words[0], "json" if "--json" in words else "text", wanted))
    for body in UNASKED:
        see(f"what asks for no report: {body[:60]}", server.ask(request("POST", "/office/look", body)), refusal(1, "/office/look"))
    for path, allow in (("/office/look", "POST"), ("/office/page", "GET"), ("/office/metrics", "GET"), ("/office/backup", "GET")):
        for method in ("GET", "POST", "HEAD", "PUT"):
            if method != allow:
                see(f"{method} {path}", server.ask(request(method, path)), refusal(3, path, allow=allow, head=method == "HEAD"))
        see(f"{path}/", server.ask(request(allow, f"{path}/")), refusal(2, f"{path}/"))
        see(f"{path}?x", server.ask(request(allow, f"{path}?x")), refusal(2, f"{path}?x"))
    see("a desk behind them", server.ask(DIRECTORY), directory_reply())
    server.stop()


def wrong(program, folder):
    """Words that are wrong end with 2, and nobody is asked."""
    path = Desk(program, f"{folder}/wrong").path
    for word in WORDS:
        for place, name in ((("--port", "1"), b"--port N"), (("--socket", f"{folder}/none"), b"--socket PATH")):
            for words in ((word, path, *place), (word, *place, path), (word, path, "--wait", "1", *place)):
                ended, said, errors = run(program, *words)
                see(f"a file beside {place[0]}: {words}", (ended, said, b"no FILE is given: desk WORD " + name in errors), (2, b"", True))
        ended, said, errors = run(program, word, "--port", "1", "--socket", "x")
        see(f"{word}: two places", (ended, said, b"by --port or by --socket: desk WORD --port N, or desk WORD --socket PATH" in errors), (2, b"", True))
        ended, said, errors = run(program, word)
        see(f"{word}: no place", (ended, said, b"<FILE>" in errors), (2, b"", True))
        for port in ("65536", "-1", "+1", "01", "", "x"):
            see(f"{word}: the port {port!r}", run(program, word, f"--port={port}")[:2], (2, b""))
        see(f"{word}: nobody there", run(program, word, "--socket", f"{folder}/none"), GONE)
    for words, text in ((("status", "--name", "a b"), b"desk: not a name that is served\n"), (("authorizations", "--name", ""), b"desk: not a name that is served\n")):
        see(f"{words}", run(program, *words, "--socket", f"{folder}/none"), (2, b"", text))
    see("no status", run(program, "status", "--status", "done", "--socket", f"{folder}/none")[:2], (2, b""))
    for place in (("--port", "1"), ("--socket", "x")):
        ended, said, errors = run(program, "backup", path, f"{folder}/to", *place)
        see("backup: a file beside a place", (ended, said, b"no FILE stands before TO: desk WORD TO " + place[0].encode() in errors), (2, b"", True))
    put(f"{folder}/file")
    see("no socket", run(program, "about", "--socket", f"{folder}/file"), GONE)


GROUPS = (served, asked, bodies, broken, crowded, silent, behind, wrong)


def main(program):
    with workspace("looks") as folder:
        for group in GROUPS:
            os.mkdir(f"{folder}/{group.__name__}")
            group(program, f"{folder}/{group.__name__}")
    return finish("Looks")


if __name__ == "__main__":
    begin(main, __doc__)
