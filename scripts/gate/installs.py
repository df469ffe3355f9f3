"""Tries what `make install-house` installs below a folder of a name with a space: python3 -m scripts.gate.installs PROGRAM"""
import os
import subprocess

from scripts.repository import ROOT, read
from scripts.trying import begin, finish, see, workspace

# What is installed.
FILES = {"bin/desk", "lib/systemd/system/desk.service", "lib/systemd/system/desk-front.service", "lib/sysusers.d/desk.conf",
         "share/bash-completion/completions/desk", "share/desk/house/house.py", "share/man/man1/desk.1"}
# Words that are typed, the last one in part, and those that complete it.
COMPLETED = {("desk", "se"): ["serve"], ("desk", "revoke-a"): ["revoke-authz", "revoke-account"], ("desk", "serve", "ca.db", "--max"): ["--max-step", "--max-ahead"],
             ("desk", "batch", "--sync", ""): ["once", "twice"], ("desk", "status", "--status", "p"): ["pending", "processing"], ("desk", "make", ""): [],
             ("desk", "check", "ca.db", "--q"): ["--quiet"]}


def completed(file, words):
    """What completes the last of the words."""
    script = 'source "$0"; COMP_WORDS=("$@"); COMP_CWORD=$(($# - 1)); _desk; printf "%s\\n" "${COMPREPLY[@]}"'
    ran = subprocess.run(["bash", "-c", script, file, *words], stdout=subprocess.PIPE, check=True, text=True)
    return ran.stdout.split()


def main(program):
    see("what is installed", os.path.realpath(program), f"{ROOT}/bin/desk")
    with workspace("installs") as folder:
        tree = f"{folder}/a b"
        ran = subprocess.run(["make", "--silent", "install-house", f"DESTDIR={tree}"], cwd=ROOT, stdout=subprocess.DEVNULL, stderr=subprocess.PIPE)
        see("the install", (ran.returncode, ran.stderr), (0, b""))
        see("files that are lacking", sorted(name for name in FILES if not os.path.isfile(f"{tree}/usr/local/{name}")), [])
        manual = read(f"{tree}/usr/local/share/man/man1/desk.1")
        see("lines of the manual page that are not filled", ".nf" in manual, False)
        see("an option of the manual page", "\n.TP\n\\fB\\-\\-port <N>\\fR\n" in manual, True)
        for words, wanted in COMPLETED.items():
            see(f"what completes {' '.join(words)}", completed(f"{tree}/usr/local/share/bash-completion/completions/desk", words), wanted)
    return finish("installs")


if __name__ == "__main__":
    begin(main, __doc__)
