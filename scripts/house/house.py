"""The house of examples/house around a desk, tried by clients of Debian's packages.

  python3 -m scripts.house.house run PROGRAM
      makes a desk, starts the house, has certbot get a certificate, and verifies it
  python3 -m scripts.house.house serve PROGRAM [--port PORT] [--web PORT] [--names PORT] [WORDS..]
      makes a desk and starts the house, says what to type, and waits for control C; the front, http-01 challenges and a name server have these
      ports, and the house further words of its own
  python3 -m scripts.house.house clients PROGRAM
      has clients get a certificate each, where they are installed, and serve it; then two of them with an external account
  python3 -m scripts.house.house packages [MORE..]
      says which packages are missing for the house itself, or these programs, and ends with 1 where some are

Everything is on the loopback and in a folder of its own, which is removed at the end. Around the program that scripts/gate/unproved.py compiled,
each line says so. Where something fails, a line says what, and where all is that was said.
"""
import argparse
import base64
import contextlib
import functools
import http.server
import importlib.util
import os
import shlex
import shutil
import signal
import ssl
import subprocess
import sys
import tempfile
import threading
import time

from scripts.gate.progress import end_by_signals
from scripts.house.clients import NAME, apache2, caddy, certbot, certbot_words, haproxy, lego, uacme
from scripts.house.housed import House, Run
from scripts.repository import ROOT, write
from scripts.trying import free_port

# The packages of Debian that the house needs, by what is looked for in its Python.
PACKAGES = {"acme": "python3-acme", "cryptography": "python3-cryptography", "dns": "python3-dnspython", "josepy": "python3-josepy"}
# How long a client may take to get its certificate, and a server to serve by it, in seconds.
PATIENCE = 300


class Talk:
    """What is said: printed line by line, each with something before it, and written to a log of bin/, which has what is only noted, too,
    and stays where something failed."""

    def __init__(self, before):
        os.makedirs(f"{ROOT}/bin", exist_ok=True)
        self.before, self.has_failed = before, False
        log, self.log = tempfile.mkstemp(prefix="house-", suffix=".log", dir=f"{ROOT}/bin")
        self.file = open(log, "w", encoding="utf-8")

    def note(self, text):
        print(text, file=self.file, flush=True)

    def say(self, text):
        self.note(text)
        for line in text.splitlines():
            print(self.before + line, flush=True)

    def __enter__(self):
        return self

    def __exit__(self, *_):
        self.file.close()
        if not self.has_failed:
            os.remove(self.log)

    def fail(self, failure):
        """Says what failed, and gives the exit status."""
        self.has_failed = True
        self.say(f"{' '.join(str(failure).split())}: the whole output is in {self.log}")
        return 1


def call(talk, words, **environment):
    """The status of a program, whose lines are noted, standard error too; a program that does not end has the status of timeout(1)."""
    try:
        ran = subprocess.run(words, stdin=subprocess.DEVNULL, stdout=subprocess.PIPE, stderr=subprocess.STDOUT, text=True, timeout=PATIENCE,
                             env={**os.environ, **environment})
    except subprocess.TimeoutExpired as late:
        talk.note((late.output or b"").decode(errors="replace") + f"{words[0]} did not end in {late.timeout} s")
        return 124
    talk.note(ran.stdout.rstrip("\n"))
    return ran.returncode


def is_installed(client):
    """Whether the machine has a client; where it has not, that is said."""
    if not shutil.which(client.__name__):
        print(f"{client.__name__}: not installed", flush=True)
        return False
    return True


def failure_of(client, house, port, talk):
    """Has a client get a certificate, says in a line what came of it, and gives what failed, if something did."""
    folder, start = f"{house.folder}/{client.__name__}", time.monotonic()
    os.makedirs(folder)
    words, environment, *made = client(house, folder, port)
    if len(made) == 1:
        return failure_of_server(client, house, words, environment, made[0], talk)
    status = call(talk, words, **environment)
    if status:
        return f"{client.__name__} ended with status {status}"
    talk.say(f"{client.__name__}: a certificate of {NAME} after {time.monotonic() - start:.1f} s")
    chain, key = made
    if call(talk, ["openssl", "verify", "-x509_strict", "-CAfile", house.root, "-verify_hostname", NAME, "-untrusted", chain, chain]):
        return f"openssl does not verify the chain of {client.__name__}"
    talk.say("openssl: the chain is verified")
    with serving(chain, key) as tls:
        return None if is_served(house, tls, talk) else f"the certificate of {client.__name__} serves nothing"


def failure_of_server(client, house, words, environment, tls, talk):
    """Runs a server until it serves by its certificate, starting it again now and then, as one of them takes a new one so."""
    start, name = time.monotonic(), client.__name__
    while time.monotonic() - start < PATIENCE:
        run = Run(name, words, talk.note, "never said", env={**os.environ, **environment})
        try:
            for _ in range(10):
                if is_served(house, tls, talk):
                    talk.say(f"{name}: {NAME} is served by its certificate after {time.monotonic() - start:.1f} s")
                    return None
                time.sleep(1)
        finally:
            run.stop()
    return f"{name} does not serve {NAME}"


def is_served(house, tls, talk):
    """Whether the name is served at a port, by a certificate that is verified."""
    words = ["curl", "-sS", "--max-time", "10", "--cacert", house.root, "--resolve", f"{NAME}:{tls}:127.0.0.1", "-o", "/dev/null"]
    return call(talk, [*words, f"https://{NAME}:{tls}/"]) == 0


class Files(http.server.SimpleHTTPRequestHandler):
    def log_message(self, form, *words):
        pass


@contextlib.contextmanager
def serving(chain, key):
    """Serves by a certificate, and gives the port."""
    context = ssl.SSLContext(ssl.PROTOCOL_TLS_SERVER)
    context.load_cert_chain(chain, key)
    with http.server.ThreadingHTTPServer(("127.0.0.1", 0), functools.partial(Files, directory=os.path.dirname(chain))) as server:
        server.socket = context.wrap_socket(server.socket, server_side=True)
        threading.Thread(target=server.serve_forever, daemon=True).start()
        yield server.server_port
        server.shutdown()


def run(talk, start, clients=(certbot,), more=""):
    """Starts a house, has each client get a certificate, and gives the exit status."""
    with tempfile.TemporaryDirectory(prefix="desk-house-") as folder:
        # Some clients are another user's.
        os.chmod(folder, 0o711)
        failures = []
        port = free_port()
        with start(folder, talk.say, web=port, errors=talk.file) as house:
            for client in clients:
                failures += filter(None, [failure_of(client, house, port, talk)])
    if failures:
        return talk.fail(", ".join(failures))
    talk.say(more or "All has ended, and nothing is left." + (" Nobody proved the program that ran." if talk.before else ""))
    return 0


def bind(program, folder, *given, **options):
    """A house whose accounts are to be bound to an external one."""
    binding, path = ("team-one", base64.urlsafe_b64encode(os.urandom(32)).decode().rstrip("=")), f"{folder}/bindings"
    write(path, f"{' '.join(binding)}\n")
    house = House(program, folder, *given, more=[f"--bindings={path}", "--names=house.test"], **options)
    house.binding = binding
    return house


class Texts:
    """What a name server answers: the lines of the files of a folder, by their names."""

    def __init__(self, folder):
        self.folder = folder
        os.mkdir(folder)

    def get(self, name, none):
        try:
            with open(f"{self.folder}/{name.replace('/', '_')}", encoding="ascii") as file:
                return file.read().split()
        except (OSError, ValueError):
            return none


def serve(talk, program, *given):
    """Starts a house, says what to type, and waits."""
    from scripts.house.client import Names

    parser = argparse.ArgumentParser(prog="house.py serve")
    for word in ("port", "web", "names"):
        parser.add_argument(f"--{word}", type=int, default=free_port())
    ports, more = parser.parse_known_args(given)
    with tempfile.TemporaryDirectory(prefix="desk-house-") as folder:
        Names(ports.names, Texts(f"{folder}/txt"))
        with House(program, folder, talk.say, web=ports.web, names=ports.names, requests=True, port=ports.port, more=more) as house:
            words, environment, *_ = certbot(house, f"{folder}/certbot", ports.web)
            before = " ".join(f"{name}={value}" for name, value in environment.items())
            talk.say(f"Challenges by http-01 are tried at 127.0.0.1:{ports.web}, whatever their name. In another terminal:")
            talk.say(f"  {before} {shlex.join(words)}")
            hook = f"echo $CERTBOT_VALIDATION >> {folder}/txt/_acme-challenge.$CERTBOT_DOMAIN"
            by_name = "--manual", "--preferred-challenges", "dns", "--manual-auth-hook", hook
            talk.say(f"The name server at 127.0.0.1:{ports.names} answers by the files of {folder}/txt. For a wildcard:")
            talk.say(f"  {before} {shlex.join(certbot_words(house, f'{folder}/certbot', '*.house.test', *by_name))}")
            talk.say("Control C ends it, and removes all of it.")
            with contextlib.suppress(SystemExit):
                signal.pause()
    return 0


def are_there(programs):
    """Whether the packages for the house and these programs are there; the missing ones are named."""
    missing = [package for module, package in PACKAGES.items() if not importlib.util.find_spec(module)]
    missing += [program for program in programs if not shutil.which(program)]
    if missing:
        print(f"The house lacks {', '.join(missing)}; scripts/setup.sh installs them from Debian's packages.", flush=True)
    return not missing


def do(word, given, talk):
    """Does what a word asks for, and gives the exit status."""
    if word == "serve":
        return serve(talk, *given)
    if word == "run":
        return run(talk, functools.partial(House, *given))
    clients = [client for client in (certbot, lego, uacme, apache2, caddy, haproxy) if is_installed(client)]
    bound = [client for client in (certbot, lego) if client in clients]
    return run(talk, functools.partial(House, *given), clients, "Now with accounts that are bound to an external one.") or run(
        talk, functools.partial(bind, *given), bound)


def main():
    word, *given = sys.argv[1:]
    if word == "packages":
        return 0 if are_there(("openssl", *given)) else 1
    if not are_there(("openssl", "curl") if word == "clients" else ("openssl", "curl", "certbot")):
        return 1
    # What ends the script ends all that it started.
    end_by_signals()
    with Talk("UNPROVED: " if "unproved" in given[0].split("/") else "") as talk:
        try:
            return do(word, given, talk)
        except (OSError, RuntimeError, subprocess.SubprocessError) as failure:
            return talk.fail(failure)


if __name__ == "__main__":
    sys.exit(main())
