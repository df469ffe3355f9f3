"""Compiles the program from the crates as they are, WITHOUT PROOF: python3 -m scripts.gate.unproved

bin/unproved/desk is the program, and bin/desk-unproved runs it, after a line on standard error that nobody proved it. `rt try` keeps no
file: what it compiled is copied while it runs. Where something fails, a line says what, and where all is that `rt try` said.
"""
import os
import shutil
import subprocess
import sys
import tempfile
import time

from scripts.gate.progress import Progress, below, end_by_signals
from scripts.repository import ROOT, read, write

PROGRAM, COMMAND = f"{ROOT}/bin/unproved/desk", f"{ROOT}/bin/desk-unproved"
SAYS = """\
#!/bin/sh
echo 'UNPROVED: nobody proved this program; make bin/desk proves and builds it.' >&2
exec "$(dirname "$(readlink -f "$0")")/unproved/desk" "$@"
"""
# How long the program may take to be compiled, in seconds.
PATIENCE = 3600


def write_case(path, *words):
    """Writes a case of `rt try`: no standard input, and the words of the command line, one a line."""
    write(path, "")
    write(f"{path}.args", "".join(f"{word}\n" for word in words))


def program_of(run, desk):
    """The path of the program that serves a desk, among what a run of `rt try` started, where it is there by now."""
    words = next((words for words in below(run.pid).values() if words[-4:-2] == ["serve", desk]), None)
    return words[-5] if words else None


def compile_in(room, log):
    """Has `rt try` make a desk in a folder and serve it, copies the program while it does, and gives whether it came to that."""
    cases, desk, progress = f"{room}/cases", f"{room}/ca.db", Progress("UNPROVED: ")
    os.mkdir(cases)
    write_case(f"{cases}/1-make", "make", desk, "--base", "https://ca.example")
    write_case(f"{cases}/2-serve", "serve", desk, "--port", "0")
    run = subprocess.Popen(["rt", "try", "--seconds", "60", "--cases", cases], cwd=f"{ROOT}/crates/desk_app", stdin=subprocess.DEVNULL,
                           stdout=log, stderr=log, env={**os.environ, "TMPDIR": room})
    try:
        while run.poll() is None and time.monotonic() < progress.start + PATIENCE:
            program = program_of(run, desk)
            if program:
                shutil.copyfile(program, f"{room}/desk")
                return True
            progress.show(lambda: "compiling the program")
            time.sleep(1)
        return False
    finally:
        progress.clear()
        run.terminate()
        run.wait()


def install(program, moment):
    """Puts the program and the command into their places, with the moment at which the sources were read as theirs."""
    os.makedirs(os.path.dirname(PROGRAM), exist_ok=True)
    write(f"{program}.command", SAYS)
    for made, place in ((program, PROGRAM), (f"{program}.command", COMMAND)):
        os.chmod(made, 0o755)
        os.utime(made, (moment, moment))
        os.replace(made, place)


def main():
    """Returns the exit status."""
    end_by_signals()
    print("UNPROVED: The program is compiled as it is, WITHOUT PROOF: some minutes.", flush=True)
    moment, kept = time.time(), f"{ROOT}/bin/unproved-{os.getpid()}.log"
    with tempfile.TemporaryDirectory(prefix="unproved-", dir=f"{ROOT}/bin") as room:
        with open(f"{room}/log", "wb") as log:
            is_compiled = compile_in(room, log)
        if is_compiled:
            install(f"{room}/desk", moment)
            print(f"UNPROVED: It is bin/desk-unproved, {time.time() - moment:.0f} s later.")
            return 0
        shutil.copyfile(f"{room}/log", kept)
    print(f"UNPROVED: rt try compiled no program: all that it said is in {kept}, and ends so:")
    print(read(kept)[-400:])
    return 1


if __name__ == "__main__":
    sys.exit(main())
