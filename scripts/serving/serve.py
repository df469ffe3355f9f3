"""Tries `serve` from outside, over loopback: python3 -m scripts.serving.serve PROGRAM [GROUP..]

The worked replies and the refusals of docs/SPECIFICATION.md byte for byte, the batches of examples/ as HTTP requests
(stories.py), requests that are none (bad_requests.py), connections that fail (broken_connections.py), the log, revocations by
the port and a file that is taken away (operated.py), a Unix socket (sockets.py), clients that are slow, silent, or gone, and
what ends the program. The clients that wait for the desk's patience to end are tried beside the rest. With groups only these are
tried.
"""
import os
import signal
import socket
import sys
import tempfile
import threading
import time

from scripts.serving.bad_requests import bad_requests, limits, padded
from scripts.serving.broken_connections import failing_reads, failing_writes
from scripts.serving.operated import OPERATED
from scripts.serving.served import (DIRECTORY, NEW_NONCE, STOPPED, Client, Reply, Server, compact, directory_reply, masked, nonce_reply, received,
                                    refusal, reply, request, reset, serial_of, signed)
from scripts.serving.sockets import AT_SOCKETS, silent_at_socket
from scripts.serving.stories import max_ahead, max_step, set_machine, stories
from scripts.specification import BODY, HEAD, ROUTES, WORKED
from scripts.trying import (BASE, DEVICE, KEY, NOT_A_DESK, faults, finish, fresh, nonce_text, order_of, put, run, run_on_full, see, small_files,
                            tables_of)

# How long the desk waits for a client, in seconds, and how much later its end may be seen.
LIMIT, LATER = 10, 4
METHODS = ("GET", "HEAD", "POST", "PUT", "DELETE", "OPTIONS", "PATCH", "CONNECT", "TRACE", "get", "POST-AS-GET", "A" * 40)


# ---- replies byte for byte


def bytes_of(text):
    """The bytes of a worked reply: its lines end with CR LF, its body has no line end."""
    head, _, body = text.partition("\n\n")
    return head.replace("\n", "\r\n").encode() + b"\r\n\r\n" + body.rstrip("\n").encode()


def worked(program, folder):
    """The worked replies of section 12, and what makes them."""
    see("the worked replies of the specification", len(WORKED), 4)
    for name, line, text in WORKED:
        server = Server(program, fresh(program, folder, name), "--count", "1")
        found = server.ask(f"{line}\r\n\r\n".encode())
        see(name, masked(found), bytes_of(text))
        see(f"{name}: the end", server.ended(), (0, b"", b""))


def methods(program, folder):
    """Each path with each method: those that are not its own are refused with `Allow`."""
    server = Server(program, fresh(program, folder, "methods"))
    before = tables_of(server.path, folder)
    for route, allowed in ROUTES.items():
        path = route.replace("{n}", "7")
        for method in METHODS:
            if method in allowed.split(", "):
                continue
            wanted = refusal(3, path, allow=allowed, head=method == "HEAD")
            see(f"{method} {path}", server.ask(request(method, path)), wanted)
    see("methods: nothing recorded", tables_of(server.path, folder), before)
    wanted = reply(200, fresh=True, path="/new-nonce", nonce=nonce_text(1))
    see("HEAD of a nonce", masked(server.ask(request("HEAD", "/new-nonce"))), wanted)
    see("HEAD of a path that is none", server.ask(request("HEAD", "/nothing")), refusal(2, "/nothing", head=True))
    see("methods: the end", server.stop()[0], -signal.SIGTERM)


def key_changes(program, folder):
    """A key change, and one to a key that has an account; the directory names the path."""
    server = Server(program, fresh(program, folder, "keys"))
    found = server.ask(DIRECTORY)
    see("the directory", (found, Reply(found).field("Content-Length")), (directory_reply(), "175"))
    client = Client(server)
    client.open_account()
    other, account = {**KEY, "x": "Aw"}, {"contact": [], "orders": f"{BASE}/account/1/orders", "status": "valid"}
    for said, key, wanted in (
        ("a key change", KEY, lambda nonce: reply(200, compact(account), path="/key-change", nonce=nonce)),
        ("a key that has an account", other, lambda nonce: refusal(17, "/key-change", location=f"{BASE}/account/1", nonce=nonce)),
        ("a key that was given up", KEY, lambda nonce: refusal(6, "/key-change", nonce=nonce)),
    ):
        payload = {"account": f"{BASE}/account/1", "newKey": other, "oldKey": key}
        data = server.ask(signed("/key-change", client.nonce, payload, key))
        client.nonce = Reply(data).field("Replay-Nonce")
        see(said, masked(data), wanted(nonce_text(serial_of(client.nonce))))
    see("keys: the end", server.stop(), STOPPED)


def renewed(program, folder):
    """A name that was validated is ordered again: the order is ready in its 201, and certified without a challenge."""
    server = Server(program, fresh(program, folder, "renewed"))
    client = Client(server)
    client.open_account()
    client.certify(client.ready_order(), b"certificate")
    challenges = tables_of(server.path, folder)["chall"]
    found = client.post("/new-order", order_of("A.example"), 201)
    document = found.document()
    see("a renewal", (found.field("Location"), document["status"], document["authorizations"]), (f"{BASE}/order/2", "ready", [f"{BASE}/authz/1"]))
    client.certify(2, b"another certificate")
    see("a renewal: the challenges", tables_of(server.path, folder)["chall"], challenges)
    see("a renewal: nothing to try", Reply(server.ask(request("GET", "/office/challenges"))).document(), {"challenges": []})
    see("renewed: the end", server.stop(), STOPPED)


# ---- clients


def slow(program, folder):
    """A client that sends a byte at a time gets the same reply; so do clients that send in pieces."""
    server = Server(program, fresh(program, folder, "slow"))
    for serial, piece in enumerate((1, 2, 7, 100), 1):
        see(f"a nonce, {piece} bytes at a time", masked(server.ask(NEW_NONCE, piece=piece)), nonce_reply(serial))
    client = Client(server)
    client.fetch()
    account = compact({"contact": [], "orders": f"{BASE}/account/1/orders", "status": "valid"})
    for status, piece in ((201, 1), (200, 3), (200, 50)):
        data = server.ask(client.signed("/new-account", {}), piece=piece)
        client.nonce = Reply(data).field("Replay-Nonce")
        serial = serial_of(client.nonce) if client.nonce else 0
        wanted = reply(status, account, path="/new-account", location=f"{BASE}/account/1", nonce=nonce_text(serial))
        see(f"an account, {piece} bytes at a time", masked(data), wanted)
    see("a head of 16385 bytes in pieces", server.ask(padded(HEAD + 1), piece=1000), refusal(16))
    see("slow: the end", server.stop(), STOPPED)


def pipelined(program, folder):
    """What follows a request is read away, and its reply arrives whole; nothing of it is answered."""
    server = Server(program, fresh(program, folder, "pipelined"))
    directory = server.ask(DIRECTORY)
    second = NEW_NONCE
    before = tables_of(server.path, folder)
    follow = {"a request": second, "a thousand requests": second * 1000, "bytes": os.urandom(100000), "zeros": bytes(200000)}
    for said, more in follow.items():
        for _ in range(5):
            see(f"{said} after a request", server.ask(DIRECTORY + more), directory)
    see("requests that follow: nothing recorded", tables_of(server.path, folder), before)
    client = Client(server)
    client.fetch()
    found = Reply(server.ask(client.signed("/new-account", {}) + second * 50))
    see("requests after a body", (found.status, len(tables_of(server.path, folder)["nonce"])), (201, 1))
    large = request("POST", "/new-account", b" " * (BODY + 1))
    for _ in range(5):
        see("a body above the limit that is sent whole", server.ask(large), refusal(16, "/new-account"))
    see("pipelined: the end", server.stop(), STOPPED)


def gone(program, folder):
    """Clients that close early, half close, or reset: the next one is served, and at most `desk: connection` is said."""
    server = Server(program, fresh(program, folder, "gone"))
    whole, short = DIRECTORY, request("POST", "/new-account", b" " * 50)[:-9]
    count = 0
    for end in (socket.socket.close, reset):
        for data in (b"", whole[:1], whole[:20], whole, whole + b"x" * 100000, short, padded(HEAD + 1)):
            for pause in (0, 0.01):
                client = server.connect()
                client.sendall(data)
                time.sleep(pause)
                end(client)
                count += 1
                see(f"after a client that was gone after {len(data)} bytes", server.ask(whole), directory_reply())
    see("a client that half closes", server.ask(whole, end=True), directory_reply())
    status, _, said = server.stop()
    lines = said.splitlines()
    see("clients that were gone: the end", status, -signal.SIGTERM)
    see("clients that were gone: what is said", (set(lines) <= {b"desk: connection"}, len(lines) <= count), (True, True))


def waiting(program, folder):
    """Clients together: each is served in its turn, with random bytes of its own."""
    server = Server(program, fresh(program, folder, "waiting"))
    clients = [server.connect() for _ in range(20)]
    for client in clients:
        client.sendall(NEW_NONCE)
    nonces = []
    for client in clients:
        nonces.append(Reply(received(client)).field("Replay-Nonce"))
        client.close()
    see("twenty clients at once", [serial_of(nonce) for nonce in nonces], list(range(1, 21)))
    see("their random bytes", len({nonce[11:] for nonce in nonces} | {nonce_text(1)[11:]}), 21)
    see("waiting: the end", server.stop(), STOPPED)


# ---- clients that use the desk's patience up: each waits for ten seconds, beside the others


def see_dropped(said, server, start):
    """A client is dropped after ten seconds, and the next is served."""
    took = time.monotonic() - start
    see(f"{said}, dropped after {took:.1f} seconds", LIMIT - 1 <= took <= LIMIT + LATER, True)
    see(f"after {said}", server.ask(DIRECTORY), directory_reply())
    see(f"{said}: the end", server.ended(), (0, b"", b"desk: connection\n"))


def see_end(said, server):
    """A program has ended well, and told of one connection at most."""
    status, out, errors = server.ended()
    see(f"{said}: the end", (status, out, errors in (b"", b"desk: connection\n")), (0, b"", True))


def silent(program, folder):
    """A client that sends nothing is dropped after ten seconds, and the next is served."""
    server = Server(program, fresh(program, folder, "silent"), "--count", "2")
    start = time.monotonic()
    with server.connect() as client:
        see("a silent client", received(client) in (b"", b"(reset)"), True)
    see_dropped("a silent client", server, start)


def dripping(program, folder):
    """A client that sends a byte now and then has ten seconds in all."""
    server = Server(program, fresh(program, folder, "dripping"), "--count", "2")
    start, data = time.monotonic(), request("POST", "/new-account", b" " * 100)
    with server.connect() as client:
        client.settimeout(0.7)
        found = None
        for at in range(len(data)):
            try:
                client.sendall(data[at:at + 1])
                found = client.recv(100)
                break
            except TimeoutError:
                continue
            except (ConnectionResetError, BrokenPipeError):
                found = b""
                break
    see("a client that drips", found, b"")
    see_dropped("a client that drips", server, start)


def staying(program, folder):
    """A client that stays after its reply holds up the next for ten seconds at most."""
    server = Server(program, fresh(program, folder, "staying"), "--count", "2")
    with server.connect() as client:
        client.sendall(DIRECTORY)
        see("a client that stays", received(client), directory_reply())
        start = time.monotonic()
        see("after a client that stays", server.ask(DIRECTORY), directory_reply())
        took = time.monotonic() - start
    see(f"the next client waits for {took:.1f} seconds", took <= LIMIT + LATER, True)
    see_end("a client that stays", server)


def flooding(program, folder):
    """A client that sends without an end is cut off, and the next is served."""
    server = Server(program, fresh(program, folder, "flooding"), "--count", "2")
    start = time.monotonic()
    with server.connect() as client:
        try:
            client.sendall(DIRECTORY)
            while time.monotonic() < start + 3 * LIMIT:
                client.sendall(b"x" * 65536)
        except (ConnectionResetError, BrokenPipeError):
            pass
    took = time.monotonic() - start
    see(f"a client that floods, cut off after {took:.1f} seconds", took <= LIMIT + LATER, True)
    see("after a client that floods", server.ask(DIRECTORY), directory_reply())
    see_end("a client that floods", server)


# ---- what ends the program


def counts(program, folder):
    """`--count` ends the program with status 0; a connection that fails counts."""
    path = fresh(program, folder, "counts")
    see("a count of 0", Server(program, path, "--count", "0").ended(), (0, b"", b""))
    server = Server(program, path, "--count", "3")
    for _ in range(2):
        see("counted", server.ask(DIRECTORY), directory_reply())
    reset(server.connect())
    see_end("a count of 3", server)
    see("the file, then", run(program, "batch", "--file", path), (0, b"", b""))


def words(program, folder):
    """Wrong words; and faults in the order words, file, port."""
    path = fresh(program, folder, "words")
    missing = f"{folder}/missing.db"
    wrong = ("", "--port", "--port 65536", "--port -1", "--port x", "--port 0 --count -1", "--port 0 --count x",
             "--port 0 --count", "--port 0 --max-step 0", "--port 0 --max-step 250000000001", "--port 0 --max-step x", "--port 0 --max-step",
             "--port 0 --max-ahead 0", "--port 0 --max-ahead 250000000001", "--port 0 --max-ahead",
             "--port 0 --log xml", "--port 0 --log text json", "--port 0 more", f"--port 0 --base {BASE}")
    for more in [*map(str.split, wrong), ["--port", ""]]:
        status, out, said = run(program, "serve", missing, *more)
        see(f"serve with the words {more}", (status, out, said != b""), (2, b"", True))
    status, out, said = run(program, "serve", "--port", "0")
    see("serve without a file", (status, out, said != b""), (2, b"", True))
    with socket.create_server(("127.0.0.1", 0)) as other:
        port = str(other.getsockname()[1])
        see("a missing file", run(program, "serve", missing, "--port", port), NOT_A_DESK)
        see("no file is made", os.path.exists(missing), False)
        see("a port that is taken", run(program, "serve", path, "--port", port, "--count", "0"), (1, b"", b"desk: bind\n"))
    put(f"{folder}/empty.db")
    see("an empty file", run(program, "serve", f"{folder}/empty.db", "--port", "0"), NOT_A_DESK)


def together(program, folder):
    """A second program on the file of one that serves; two that serve two files."""
    path = fresh(program, folder, "together")
    server = Server(program, path)
    see("a second serve on the file", run(program, "serve", path, "--port", "0"), (1, b"", DEVICE))
    other = Server(program, fresh(program, folder, "other-desk"))
    third = run(program, "serve", fresh(program, folder, "third"), "--port", str(other.port))
    see("the port of another desk", third, (1, b"", b"desk: bind\n"))
    for found in (server, other):
        see("the first, then", found.ask(DIRECTORY), directory_reply())
        see("together: the end", found.stop(), STOPPED)


def outputs(program, folder):
    """A standard output that can't be written ends the program."""
    path = fresh(program, folder, "outputs")
    ended = (1, b"desk: output\n")
    see("a full standard output", run_on_full(program, "serve", path, "--port", "0")[::2], ended)
    reader, writer = os.pipe()
    os.close(reader)
    status, _, said = run(program, "serve", path, "--port", "0", stdout=writer)
    os.close(writer)
    see("a standard output that nobody reads", (status, said), ended)
    see("a closed standard output", run(program, "serve", path, "--port", "0", preexec_fn=lambda: os.close(1))[::2], ended)
    see("a closed standard output: the file, then", run(program, "batch", "--file", path), (0, b"", b""))


def terminated(program, folder):
    """SIGTERM ends the program as a stop does: what was replied to is there."""
    path = fresh(program, folder, "terminated")
    server = Server(program, path)
    client = Client(server)
    client.open_account()
    before = tables_of(path, folder)
    see("SIGTERM", server.stop(), STOPPED)
    see("the file after SIGTERM", tables_of(path, folder), before)
    client.server = Server(program, path)
    see("the nonce after SIGTERM", client.post("/new-account", {}).field("Location"), f"{BASE}/account/1")
    see("terminated: the end", client.server.stop(), STOPPED)


def full_disk(program, folder):
    """A fault that closes the desk is answered by 15 and ends the program; the file is as before the request or as after it."""
    path = fresh(program, folder, "full")
    size = max(os.path.getsize(path + end) for end in ("", "-wal") if os.path.exists(path + end))
    server = Server(program, path, restore_signals=False, preexec_fn=lambda: small_files(size + 60000))
    serial = 0
    while server.run.poll() is None and serial < 1000:
        before = tables_of(path, folder)
        data = server.ask(NEW_NONCE)
        if data[9:12] != b"204":
            break
        serial += 1
        see("a nonce before the disk is full", masked(data), reply(204, fresh=True, path="", nonce=nonce_text(serial)))
    see("the reply when the disk is full", data, refusal(15, "/new-nonce"))
    see("the end when the disk is full", server.ended(), (1, b"", b"desk: fault 21 device\n"))
    again = Server(program, path, "--count", "1")
    after = tables_of(path, folder)
    see("the file when the disk was full", after == before or len(after["nonce"]) == serial + 1, True)
    found = serial_of(Reply(again.ask(NEW_NONCE)).field("Replay-Nonce"))
    see("the next nonce", found in (serial + 1, serial + 2), True)
    see("full disk: the end", again.ended(), (0, b"", b""))


PATIENT = (silent, silent_at_socket, dripping, staying, flooding)
PROMPT = (worked, methods, key_changes, renewed, stories, set_machine, max_step, max_ahead, bad_requests, limits, slow, pipelined, gone, failing_reads,
          failing_writes, waiting, counts, words, together, outputs, terminated, full_disk, *OPERATED, *AT_SOCKETS)


def tried(group, program, folder):
    """Tries a group in a folder of its own; what breaks it is a fault."""
    room = f"{folder}/{group.__name__}"
    os.mkdir(room)
    try:
        group(program, room)
    except Exception as error:  # a group that breaks is a fault, and the others go on
        faults.append(f"{group.__name__} broke: {error!r}")


def main(program, only):
    start = time.monotonic()
    with tempfile.TemporaryDirectory(prefix="desk-serve-") as folder:
        patient, prompt = ([group for group in groups if not only or group.__name__ in only] for groups in (PATIENT, PROMPT))
        threads = [threading.Thread(target=tried, args=(group, program, folder)) for group in patient]
        for thread in threads:
            thread.start()
        for group in prompt:
            tried(group, program, folder)
        for thread in threads:
            thread.join()
    print(f"serve: tried in {time.monotonic() - start:.0f} seconds")
    return finish("Serving")


if __name__ == "__main__":
    if len(sys.argv) < 2:
        sys.exit(__doc__)
    sys.exit(main(os.path.abspath(sys.argv[1]), sys.argv[2:]))
