"""Types each line of "The first hour" of docs/USING.md on a machine with systemd, as units.py makes it: python3 -m scripts.house.first_hour PROGRAM

The program is the bin/desk of a clone there. Both names of the page lead to that machine.
"""
import os
import shutil
import signal
import sys
import tempfile
import time

from scripts.house.client import Names
from scripts.house.units import PYTHON, on_machine, well
from scripts.repository import ROOT, blocks, sections
from scripts.trying import finish, see

# Where the machine has what `make install-house` needs of a clone, and an address of that machine alone, which a validator takes for one
# of the Internet.
CLONE, ADDRESS = "/root/desk", "9.9.9.10"
NETWORK = (f"ip address add {ADDRESS}/32 dev lo; ip link set lo up; rm -f /etc/resolv.conf; echo nameserver {ADDRESS} > /etc/resolv.conf; "
           f"echo {ADDRESS} ca.example >> /etc/hosts; systemd-run --quiet --working-directory={CLONE} {PYTHON} -B -m scripts.house.first_hour names")
# What a line prints that says more than its exit status.
SHOWN = {"systemctl is-active": "active\n" * 5, "curl": "https://ca.example/new-order", "certbot": "Successfully received certificate",
         "desk backup": "no fault\ncopied\n", "desk status": "valid", "journalctl": "POST /cert/1 200"}
# What looks whether all is well, which it is some seconds after its start; how often that is typed, at most, once a second.
LOOKS, TIMES = ("systemctl is-active", "curl"), 30


def lines():
    """The lines that the page has an operator type."""
    return [line for block in blocks(sections("USING")["The first hour"]) for line in block]


def type_lines(machine):
    """Types each line on the machine, which gets a network, and sees that it ends well and prints what it is there for."""
    well(machine, "sh", "-c", NETWORK)
    for line in lines():
        for _ in range(TIMES if line.startswith(LOOKS) else 1):
            status, said = machine.call("sh", "-c", f"cd {CLONE} && {line}")
            if status == 0:
                break
            time.sleep(1)
        see(line, (status, said if status else ""), (0, ""))
        for shown in (text for word, text in SHOWN.items() if word in line and not status):
            see(f"{line}: what it prints", shown in said or said, True)


def clone(program, tree):
    """Puts into a tree what the machine needs of this clone, and the program as its bin/desk."""
    for name in ("examples", "packaging", "scripts"):
        shutil.copytree(f"{ROOT}/{name}", f"{tree}{CLONE}/{name}", ignore=shutil.ignore_patterns("__pycache__"))
    os.mkdir(f"{tree}{CLONE}/bin")
    os.mkdir(f"{tree}{CLONE}/crates")
    shutil.copy(f"{ROOT}/Makefile", f"{tree}{CLONE}")
    shutil.copy(program, f"{tree}{CLONE}/bin/desk")


def main():
    if sys.argv[1:] == ["names"]:
        Names(53, at=ADDRESS, address=ADDRESS)
        return signal.pause()
    with tempfile.TemporaryDirectory(prefix="desk-hour-") as tree:
        os.chmod(tree, 0o755)
        clone(sys.argv[1], tree)
        on_machine(tree, "first hour: not typed", type_lines)
    return finish("first hour")


if __name__ == "__main__":
    sys.exit(main())
