#!/usr/bin/python3
"""A small house around a desk: front, validator, signing office and an authority on disk. Nothing of it is proved (docs/HOUSE.md).

  house.py FOLDER --desk PORT|SOCKET [--base URL] [--part front|validator|office --validator SOCKET --office SOCKET]
    front:      --port PORT [--bind ADDRESS] [--names DOMAIN,..] [--accounts FILE] [--bindings FILE] [--crl FILE] [--requests]
    validator:  [--web ADDRESS:PORT] [--resolver ADDRESS:PORT] [--allow-private] [--allow-loopback]
    office:     [--sign COMMAND [--revoke COMMAND]]

FOLDER keeps the authority, the ledger, and the front's certificate. The front is at 127.0.0.1, by `--bind ::` at all addresses; its base is
the desk's. For trials, challenges are tried at --web whatever their name is, and names are asked at --resolver.
"""
import argparse
import os
import shlex
import signal
import sqlite3
import sys
import urllib.parse
from functools import partial

from asks import Asks, ask, wake
from authority import end, opened
from command import Command, NotNow, NotSigned
from desk import Desk
from front import Server
from ledger import Ledger
from office import Office
from policy import Policy
from revocation import Revocation
from validator import Validator
from worker import Worker, log

def address(text):
    host, _, port = text.rpartition(":")
    return host, int(port)


def words():
    parser = argparse.ArgumentParser(description=__doc__, formatter_class=argparse.RawDescriptionHelpFormatter)
    parser.add_argument("folder")
    parser.add_argument("--part", choices=("front", "validator", "office"))
    kinds = {"port": int, "web": address, "resolver": address, "names": lambda text: text.lower().split(","), "sign": shlex.split, "revoke": shlex.split}
    for word in (*"desk base bind accounts bindings crl validator office".split(), *kinds):
        parser.add_argument(f"--{word}", type=kinds.get(word), required=word == "desk", default="127.0.0.1" if word == "bind" else None)
    for word in ("allow-private", "allow-loopback", "requests"):
        parser.add_argument(f"--{word}", action="store_true")
    return parser.parse_args()


def open_office(given, desk, base):
    """The office over its authority and ledger, once it has certified the front; without them the process ends with a word."""
    authority = Command(given.sign, given.revoke or ()) if given.sign else opened(given.folder, base)
    if not os.path.exists(f"{given.folder}/root.pem"):
        end(f"{given.folder} has no root.pem, by which is verified what {given.sign[0]} signs")
    try:
        office = Office(desk, authority, Ledger(f"{given.folder}/ledger.db"), given.folder)
        office.certify_front(urllib.parse.urlsplit(base).hostname)
    except sqlite3.Error as fault:
        end(f"ledger.db of {given.folder} can not be read: {fault}")
    except (NotSigned, NotNow) as why:
        sys.exit(f"no certificate for the front: {why}")
    return office


def main():
    given = words()
    signal.signal(signal.SIGTERM, lambda *_: sys.exit(0))
    base = given.base or f"https://localhost:{given.port}"
    desk, wake_validator, wake_office = Desk(given.desk, base), partial(wake, given.validator), partial(wake, given.office)
    asked, crl = partial(ask, given.office), given.crl or f"{given.folder}/crl.der"
    if given.part in (None, "office"):
        office = open_office(given, desk, base)
        worker, asked = Worker(office.work), office.answer
        wake_office, answer = worker.wake, lambda wake=None, **question: office.answer(**question) if wake is None else worker.wake(wake)
    if given.part in (None, "validator"):
        validator = Validator(desk, given.web, given.resolver, given.allow_private, given.allow_loopback)
        worker = Worker(validator.work, validator.hear)
        wake_validator, answer = worker.wake, lambda wake: worker.wake(wake)
    if given.part in (None, "front"):
        policy, revocation = Policy(given.names or (), given.accounts, given.bindings), Revocation(desk, asked, crl)
        server = Server((given.bind, given.port), f"{given.folder}/front.pem", desk, policy, revocation, wake_validator, wake_office, given.requests)
        log(f"the front serves {base}/directory")
        server.serve_forever()
    Asks(given.validator if given.part == "validator" else given.office, answer).serve_forever()


if __name__ == "__main__":
    main()
