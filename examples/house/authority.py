#!/usr/bin/python3
"""An authority on disk: a root, and below it an intermediate, by which openssl/sign and openssl/revoke sign certificates and lists.

  authority.py --offline-root KEY FOLDER    makes the authority of FOLDER with its root's key in the file KEY, which is put away; or moves
                                            that key there. Where FOLDER has no ca/intermediate.pem, a new one is made by that key.
"""
import contextlib
import os
import shutil
import subprocess
import sys

from cryptography import x509
from cryptography.hazmat.primitives.serialization import load_pem_private_key

from command import Command

OPENSSL = f"{os.path.dirname(os.path.abspath(__file__))}/openssl"
# The days of the root and of the intermediate, and how a key of either is made.
ROOT_DAYS, INTERMEDIATE_DAYS, NEW_KEY = "3650", "1825", ["-newkey", "ec", "-pkeyopt", "ec_paramgen_curve:P-256", "-noenc"]


def opened(folder, base, root_key=None):
    """The commands of the authority of a folder: root and intermediate, made once and never written again. The root's key may be elsewhere
    once the intermediate is there. Without an authority the process ends with a word."""
    for path, mode in ((folder, 0o711), (f"{folder}/ca", 0o700), (f"{folder}/ca/signed", 0o700)):
        os.makedirs(path, mode, exist_ok=True)
    key, root, below = root_key or f"{folder}/root.key", f"{folder}/root.pem", f"{folder}/ca/intermediate"
    if not any(map(os.path.lexists, (key, root, f"{below}.pem", f"{below}.key"))):
        fault = openssl("req", "-x509", "-extensions", "root", "-days", ROOT_DAYS, *NEW_KEY, "-keyout", key, "-out", root, "-subj", "/CN=A root for trials")
        if fault:
            end(f"{key} and {root} can not be made: {fault}")
        os.chmod(root, 0o644)
    if not os.path.lexists(root):
        end(f"{folder} has no root.pem, but {key} or an intermediate: bring it back, or begin in a new folder")
    if not os.path.lexists(f"{below}.pem"):
        make_intermediate(key, root, below)
    try:
        with open(f"{below}.pem", "rb") as certificate, open(f"{below}.key", "rb") as secret:
            public = x509.load_pem_x509_certificate(certificate.read()).public_key().public_numbers()
            is_good = public == load_pem_private_key(secret.read(), None).public_key().public_numbers()
    except (OSError, ValueError) as fault:
        end(f"intermediate.pem and intermediate.key of {folder}/ca can not be read: {fault}")
    if not is_good or openssl("verify", "-x509_strict", "-CAfile", root, f"{below}.pem"):
        end(f"intermediate.pem of {folder}/ca is not of its key, or not verified by root.pem: bring what belongs together back")
    if not os.path.lexists(f"{folder}/ca/index.txt"):
        end(f"{folder}/ca has no index.txt, which says what is revoked: bring it back")
    return Command([f"{OPENSSL}/sign"], [f"{OPENSSL}/revoke"], {"CA": f"{folder}/ca", "BASE": base})


def make_intermediate(key, root, below):
    """Makes an intermediate by the root's key; its own key is kept where there is one."""
    if not os.path.lexists(key):
        end(f"there is neither {below}.pem nor {key}, by which one is made: bring one of them back")
    made = ["-new", "-key", f"{below}.key"] if os.path.lexists(f"{below}.key") else [*NEW_KEY, "-keyout", f"{below}.key"]
    fault = openssl("req", *made, "-out", f"{below}.csr", "-subj", "/CN=An intermediate for trials")
    fault = fault or openssl("x509", "-req", "-in", f"{below}.csr", "-CA", root, "-CAkey", key, "-days", INTERMEDIATE_DAYS, "-extensions", "intermediate",
                             "-out", f"{below}.new")
    if fault:
        end(f"{root} and {key} make no intermediate: {fault}")
    for path, text in ((f"{os.path.dirname(below)}/index.txt", ""), (f"{os.path.dirname(below)}/crlnumber", "01\n")):
        with contextlib.suppress(FileExistsError), open(path, "x", encoding="ascii") as file:
            file.write(text)
    os.sync()
    os.rename(f"{below}.new", f"{below}.pem")


def openssl(word, *words):
    """What OpenSSL says where it fails; None where it does not."""
    given = {"req": ["-config", f"{OPENSSL}/ca.cnf"], "x509": ["-extfile", f"{OPENSSL}/ca.cnf"]}.get(word, [])
    ran = subprocess.run(["openssl", word, *given, *words], stdin=subprocess.DEVNULL, stdout=subprocess.PIPE, stderr=subprocess.STDOUT)
    return ran.stdout.decode("latin-1") if ran.returncode else None


def end(why):
    """Ends the program, which has no authority, with a word, and the status by which systemd does not start it again."""
    print("no authority:", *why.split(), file=sys.stderr, flush=True)
    sys.exit(os.EX_CONFIG)


def main():
    if len(sys.argv) != 4 or sys.argv[1] != "--offline-root":
        sys.exit(__doc__)
    key, folder = sys.argv[2:]
    here = f"{folder}/root.key"
    try:
        if os.path.lexists(here):
            end(f"{key} and {here} are both there") if os.path.lexists(key) else shutil.move(here, key)
        opened(folder, "", key)
    except OSError as fault:
        end(f"{folder} and {key} are to be written by this user: {fault}")
    print(f"the root's key is in {key} alone: put it away; {folder} signs by its intermediate")


if __name__ == "__main__":
    main()
