"""Compares what documents show of commands with what these print.

  python3 -m scripts.gate.readme run PROGRAM FILE..           runs the commands of each block, in a folder with the program as its bin/desk
  python3 -m scripts.gate.readme said COMMAND OUTPUT FILE..   compares what a command printed, which the file OUTPUT has, with what the blocks show

A block is what stands between two lines of three backticks, and has lines `$ COMMAND`, each before what the command prints. Ports, times,
folders of a house and numbers of bytes are not compared. Blocks with a command of ELSEWHERE are left to `said`, where that command is run.
"""
import difflib
import os
import re
import signal
import subprocess
import sys
import tempfile
import time

from scripts.repository import ROOT, blocks, read, tracked
from scripts.trying import free_port

# What installs packages, compiles or wants a house, and is run elsewhere.
ELSEWHERE = ("./try", "./test", "make house")
MASKS = [
    (re.compile(r"\b(127\.0\.0\.1|localhost):\d+"), r"\1:PORT"),
    (re.compile(r"/tmp/desk-house-\w+/"), "FOLDER/"),
    (re.compile(r"\b\d+(\.\d+)? (s|ms|seconds|minutes)\b"), r"TIME \2"),
    (re.compile(r"\b\d+(\.\d+)? (bytes|kB|MB|GB)\b"), r"SIZE \2"),
]
PORT = re.compile(r"--port[ =]([1-9]\d*)")
# Lines that are not compared: what the shell itself says of a program in the background that was ended by a signal; how far a long run is;
# that a program is not proved, on its standard error.
PASSED_OVER = re.compile(r"bash: line \d+: +\d+ (Terminated|Killed)\b.*|(UNPROVED: )?\.\.\. .*|UNPROVED: nobody proved this program; .*")
# How long a command may take, and what it leaves in the background to say what is shown of it, in seconds.
PATIENCE = 180
MARK = "\n---- this command has ended ----\n"


class Shown:
    """A command of a document, and the lines that are shown of it."""

    def __init__(self, command):
        self.command, self.lines = re.sub(r"\s+# .*", "", command).strip(), []


def shown_blocks(file):
    """The commands of each block of a document that shows what one of them prints."""
    for block in blocks(read(file)):
        shown = []
        for line in block:
            if line.startswith("$ "):
                shown.append(Shown(line[2:]))
            elif shown:
                shown[-1].lines.append(line)
        if any(command.lines for command in shown):
            yield shown


def compared(text):
    """The lines of what was printed that are compared."""
    return [line for line in text.splitlines() if not PASSED_OVER.fullmatch(line)]


def masked(lines):
    """The lines without what is not compared."""
    lines = "\n".join(lines)
    for mask, word in MASKS:
        lines = mask.sub(word, lines)
    return lines.split("\n")


def is_as_shown(file, shown, said):
    """Whether a command printed what is shown of it; where it did not, the lines that differ are printed."""
    wanted, found = masked(shown.lines), masked(said)
    if wanted == found:
        return True
    print(f"{file}: what `{shown.command}` prints is not what is shown:")
    print("\n".join(difflib.unified_diff(wanted, found, "shown", "printed", lineterm="")))
    return False


class Shell:
    """A shell in a folder, which is told one command after the other; what it prints goes to a file."""

    def __init__(self, folder, output):
        # What reads the file has a place of its own in it; each write goes to its end.
        with open(output, "ab") as printed:
            self.run = subprocess.Popen(["bash"], cwd=folder, stdin=subprocess.PIPE, stdout=printed, stderr=subprocess.STDOUT, text=True,
                                        process_group=0, env={**os.environ, "TMPDIR": os.path.dirname(folder)})
        self.output = open(output, encoding="utf-8")

    def say(self, command, is_enough):
        """Runs a command, and gives the lines that it printed; of one in the background when they are enough."""
        start, before = time.monotonic(), os.path.getsize(self.output.name)
        self.run.stdin.write(f"{command}\nprintf %s '{MARK}'\n")
        self.run.stdin.flush()
        while True:
            self.output.seek(before)
            said = self.output.read()
            ended, waited = MARK in said, time.monotonic() - start
            lines = compared(said.replace(MARK, ""))
            if ended and (not command.endswith("&") or is_enough(lines)) or waited > PATIENCE:
                return lines
            time.sleep(0.05)

    def __enter__(self):
        return self

    def __exit__(self, *_):
        os.killpg(self.run.pid, signal.SIGKILL)
        self.run.communicate()
        self.output.close()


def furnish(folder, program):
    """Gives a folder what git knows of the repository, and the program as its bin/desk."""
    for name in {path.split("/")[0] for path in tracked()}:
        os.symlink(f"{ROOT}/{name}", f"{folder}/{name}")
    os.mkdir(f"{folder}/bin")
    os.symlink(program, f"{folder}/bin/desk")


def run_block(program, file, block):
    """How many commands of a block print what is shown, each port of theirs being a free one of the machine."""
    ports, well = {port: str(free_port()) for shown in block for port in PORT.findall(shown.command)}, 0
    with tempfile.TemporaryDirectory(prefix="desk-readme-") as room:
        folder = f"{room}/desk"
        os.mkdir(folder)
        furnish(folder, program)
        with Shell(folder, f"{room}/output") as shell:
            for shown in block:
                command = re.sub(r"\b\d+\b", lambda number: ports.get(number[0], number[0]), shown.command)
                said = shell.say(command, lambda lines: len(lines) >= len(shown.lines))
                well += is_as_shown(file, shown, said)
    return well


def run(program, *files):
    """Runs the blocks of documents, and gives the exit status."""
    here = [(file, block) for file in files for block in shown_blocks(file) if not any(shown.command in ELSEWHERE for shown in block)]
    well, count = sum(run_block(os.path.abspath(program), file, block) for file, block in here), sum(len(block) for _, block in here)
    print(f"Of {count} commands {well} print what is shown.")
    return 0 if well == count else 1


def said(command, output, *files):
    """Compares what a command printed with what documents show of it, and gives the exit status."""
    found = compared(read(output))
    wanted = [(file, shown) for file in files for block in shown_blocks(file) for shown in block if shown.command == command]
    well = all([is_as_shown(file, shown, found) for file, shown in wanted])
    if well:
        print(f"`{command}` prints what is shown." if wanted else f"No document shows what `{command}` prints.")
    return 0 if well else 1


def main():
    words = {"run": run, "said": said}
    if len(sys.argv) < 4 or sys.argv[1] not in words:
        sys.exit(__doc__)
    return words[sys.argv[1]](*sys.argv[2:])


if __name__ == "__main__":
    sys.exit(main())
