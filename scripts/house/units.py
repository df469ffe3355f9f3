"""Tries the units of desk and house as `make install-house` installs them: python3 -m scripts.house.units PROGRAM

systemd-analyze verifies them, and says how much each is exposed. Then, for root where the kernel allows it, systemd is started in name
spaces of its own, over this machine's files and without its network: there the units run, a client gets a certificate by them, and users
of that machine attack the desk's port and socket. All of it ends with the script; nothing of this machine is changed.
"""
import contextlib
import json
import os
import re
import shutil
import socket
import ssl
import subprocess
import sys
import tempfile
import time
import traceback
from types import SimpleNamespace

from scripts.repository import ROOT, blocks, read, sections, write
from scripts.trying import faults, finish, see

# The exposure that systemd-analyze may find, in tenths; how long systemd and what is asked of it may take, in seconds.
EXPOSURE = {"desk": 10, "desk-filter": 12, "desk-office": 10, "desk-validator": 15, "desk-front": 20, "desk-metrics": 12}
PATIENCE = 60
# The orders of an account whose list is in the memory that is measured.
ORDERS = 4000
SPACES = "--mount", "--pid", "--net", "--uts", "--ipc", "--cgroup"
PYTHON, TRIAL = "/usr/bin/python3", "/usr/local/share/desk/trial"
# This script, as it is run on the machine.
HERE = "env", f"PYTHONPATH={TRIAL}", PYTHON, "-B", "-m", "scripts.house.units"
# Makes the root of a machine from this one's files and what is installed, in a mount name space of its own, and starts systemd there.
BOOT = r"""
set -e
mount --make-rprivate /
mount -t tmpfs tmpfs "$1"
mkdir "$1/upper" "$1/work" "$1/root"
mount -t overlay overlay -o "lowerdir=/,upperdir=$1/upper,workdir=$1/work" "$1/root"
cp -a "$2/." "$1/root/"
cd "$1/root"
mount -t proc proc proc
mount -t sysfs sysfs sys
mount -t cgroup2 cgroup2 sys/fs/cgroup
mount -t tmpfs tmpfs dev -o mode=755
for device in null zero full random urandom tty; do touch "dev/$device"; mount --bind "/dev/$device" "dev/$device"; done
mkdir dev/pts dev/shm
mount -t devpts devpts dev/pts -o newinstance,ptmxmode=0666
ln -s pts/ptmx dev/ptmx
for folder in dev/shm run tmp; do mount -t tmpfs tmpfs "$folder" -o mode=1777; done
chmod 755 run
rm -rf etc/systemd/system/*.wants
: > etc/machine-id
mkdir -p before
pivot_root . before
exec chroot . sh -c 'umount -l before; rmdir before; mount --make-rshared /
    exec env -i container=trial PATH=/usr/sbin:/usr/bin:/sbin:/bin /lib/systemd/systemd --unit=basic.target'
"""


def installed(program, tree):
    """Installs all below a folder, as for a machine of its own, and gives what the install says."""
    if os.path.realpath(program) != f"{ROOT}/bin/desk":
        sys.exit("the units are tried with bin/desk")
    return subprocess.run(["make", "--silent", "install-house", f"DESTDIR={tree}"], cwd=ROOT, stdout=subprocess.PIPE, text=True, check=True).stdout


def verify(tree):
    """What systemd-analyze says of the units."""
    units = f"{tree}/usr/local/lib/systemd/system"
    # The programs of the units are looked for in this machine's root: those that are installed below the folder are there by their paths.
    copies = tempfile.mkdtemp(dir=tree)
    for name in os.listdir(units):
        write(f"{copies}/{name}", read(f"{units}/{name}").replace("/usr/local/bin/desk", f"{tree}/usr/local/bin/desk"))
    ran = subprocess.run(["systemd-analyze", "verify", "--man=no", *(f"{copies}/{name}" for name in os.listdir(copies))],
                         stdout=subprocess.PIPE, stderr=subprocess.STDOUT, text=True)
    see("systemd-analyze verify", (ran.returncode, ran.stdout), (0, ""))
    for name, most in EXPOSURE.items():
        words = ["systemd-analyze", "security", "--offline=yes", "--no-pager", f"--threshold={most}", f"{copies}/{name}.service"]
        ran = subprocess.run(words, stdout=subprocess.PIPE, stderr=subprocess.STDOUT, text=True)
        see(f"systemd-analyze security {name}", (ran.returncode, ran.stdout.splitlines()[-1:] if ran.returncode else []), (0, []))
    shutil.rmtree(copies)


class NoMachine(Exception):
    """Why systemd can not be started here."""


class Machine:
    """systemd in name spaces of its own, over this machine's files and a tree of what is installed."""

    def __init__(self, tree):
        if os.getuid() or not shutil.which("unshare") or not shutil.which("nsenter"):
            raise NoMachine("that takes root, unshare and nsenter")
        mounts = [line.split() for line in open("/proc/self/mounts", encoding="utf-8")]
        groups = [words[1] for words in mounts if words[2] == "cgroup2"]
        if not groups:
            raise NoMachine("there is no cgroup2")
        self.group, self.room = f"{groups[0]}/desk-house-{os.getpid()}", tempfile.mkdtemp(prefix="desk-machine-")
        os.mkdir(self.group)
        words = ["setpriv", "--pdeathsig=KILL", "unshare", "--fork", "--kill-child", *SPACES, "sh", "-c", BOOT, "boot", self.room, tree]
        join = f"echo $$ > {self.group}/cgroup.procs && exec \"$@\""
        self.log = open(f"{self.room}.log", "w+b")
        self.run = subprocess.Popen(["sh", "-c", join, "join", *words], stdin=subprocess.DEVNULL, stdout=self.log, stderr=subprocess.STDOUT)

    def first(self):
        """The number of the process that is the first of the machine."""
        return read(f"/proc/{self.run.pid}/task/{self.run.pid}/children").split()[0]

    def started(self):
        """Waits until systemd answers."""
        end = time.monotonic() + PATIENCE
        while self.run.poll() is None and time.monotonic() < end:
            with contextlib.suppress(OSError, IndexError):
                if self.call("systemctl", "is-system-running")[1].strip() in ("running", "degraded"):
                    return
            time.sleep(0.3)
        self.log.seek(0)
        raise NoMachine(f"systemd did not start: {self.log.read().decode(errors='replace')[-300:]}")

    def call(self, *words, user=None):
        """The status and the output of a program on the machine, of root or of another user with the groups of his unit."""
        groups = {"nobody": ("nogroup", "nogroup"), "desk-front": ("desk-house", "desk-front,desk-asks"), "desk-office": ("desk-asks", user)}.get(
            user, ("desk-house", user))
        as_user = ["setpriv", f"--reuid={user}", f"--regid={groups[0]}", f"--groups={groups[1]}"] if user else []
        ran = subprocess.run(["nsenter", f"--target={self.first()}", *SPACES, "--root", "--wd", *as_user, *words],
                             stdin=subprocess.DEVNULL, stdout=subprocess.PIPE, stderr=subprocess.STDOUT, text=True, timeout=PATIENCE * 5)
        return ran.returncode, ran.stdout

    def stop(self):
        """Ends the first process, and by it all of the machine."""
        with contextlib.suppress(OSError, IndexError):
            os.kill(int(self.first()), 9)
        self.run.kill()
        self.run.wait()
        self.log.close()
        os.unlink(f"{self.room}.log")
        os.rmdir(self.room)
        for folder, _, _ in os.walk(self.group, topdown=False):
            for _ in range(50):
                with contextlib.suppress(OSError):
                    os.rmdir(folder)
                    break
                time.sleep(0.1)


def well(machine, *words, **given):
    status, said = machine.call(*words, **given)
    see(" ".join(words), (status, said if status else ""), (0, ""))
    return said


def see_state(machine, name, wanted):
    """Waits until a unit is in a state, and notes where it does not come to it."""
    end = time.monotonic() + PATIENCE
    while (found := machine.call("systemctl", "is-active", name)[1].strip()) != wanted and time.monotonic() < end:
        time.sleep(0.5)
    see(f"the state of {name}", found, wanted)


def status_of(machine, *words, user=None):
    """The status of what curl asks for by these words, once who is asked listens."""
    patient = ["--retry", str(PATIENCE), "--retry-delay", "1", "--retry-all-errors"]
    return well(machine, "curl", "-s", "-o", "/dev/null", "-w", "%{http_code}", *patient, *words, user=user)


def asked(machine, role, method, path, user=None):
    """The status of what a role asks of the desk by its socket."""
    return status_of(machine, "-X", method, "--unix-socket", f"/run/desk/{role}", f"http://desk/{path}", user=user)


def prepare(machine):
    """The lines of docs/HOUSE.md as they stand, typed, with the names of the machine answered at an address that is not loopback's."""
    well(machine, "sh", "-c", "rm -f /etc/resolv.conf; echo nameserver 10.8.5.55 > /etc/resolv.conf; ip addr add 10.8.5.55/32 dev lo; ip link set lo up")
    well(machine, "systemctl", "start", "desk")
    see_state(machine, "desk", "inactive")
    lines = [line.replace("ca.example", "localhost") for block in blocks(sections("HOUSE")["On a machine of its own"]) for line in block]
    well(machine, "bash", "-e", "-c", "\n".join(lines))
    for name in ("desk", "desk-office", "desk-validator", "desk-front", "desk-filter"):
        see_state(machine, name, "active")
    see("the directory by the front", status_of(machine, "--cacert", "/var/lib/desk-office/root.pem", "https://localhost/directory"), "200")
    print(f"units: {len(lines)} lines of docs/HOUSE.md typed, from none to units that sign by `openssl ca`")


def attack(machine):
    """What users of the machine try at the port that the desk had before and at its sockets, and how the units stand what happens to them."""
    at_own_socket(machine)
    for user in ("nobody", "desk-front", None):
        said = machine.call(PYTHON, "-c", "import socket; socket.create_connection(('127.0.0.1', 8555))", user=user)[1]
        see(f"{user or 'root'} at port 8555", "ConnectionRefusedError" in said, True)
    for user in ("nobody", "desk-front", "desk-validator", "desk-office"):
        for role in ("front", "validator", "office", "operator", "monitor"):
            reach = f"import socket; socket.socket(socket.AF_UNIX).connect('/run/desk/{role}')"
            see(f"{user} at the socket of the {role}", "PermissionError" in machine.call(PYTHON, "-c", reach, user=user)[1], user != f"desk-{role}")
    for user, part, can in (("desk-front", "office", True), ("desk-front", "validator", True), ("desk-validator", "office", False), ("nobody", "office", False)):
        reach = f"import socket; socket.socket(socket.AF_UNIX).connect('/run/desk-{part}/asks')"
        see(f"{user} asks the {part}", "PermissionError" not in machine.call(PYTHON, "-c", reach, user=user)[1], can)
    for role, user, method, path, status in (
        ("front", "desk-front", "GET", "office/key/1", "404"), ("front", "desk-front", "POST", "office/revoke-account/1", "403"),
        ("validator", "desk-validator", "GET", "office/orders", "403"), ("operator", None, "POST", "office/revoke-account/1", "404"),
        ("operator", None, "GET", "office/page", "200"), ("front", "desk-front", "GET", "office/page", "403"),
        ("monitor", None, "GET", "office/metrics", "200"), ("monitor", None, "GET", "office/page", "403"),
    ):
        see(f"{method} /{path} by the {role}", asked(machine, role, method, path, user), status)
    for path, user in (("/run/desk/front", "nobody"), ("/run/desk/front", "desk-front"), ("/run/desk/other", "desk-front")):
        words = f"import os, socket; os.path.exists('{path}') and os.unlink('{path}'); socket.socket(socket.AF_UNIX).bind('{path}')"
        see(f"{user} puts a socket at {path}", "PermissionError" in machine.call(PYTHON, "-c", words, user=user)[1], True)
    for path, user, status in (("ca/intermediate.key", "desk-front", 1), ("ledger.db", "nobody", 1), ("root.pem", "nobody", 0), ("crl.der", "nobody", 0)):
        see(f"{path} for {user}", machine.call("test", "-r", f"/var/lib/desk-office/{path}", user=user)[0], status)
    see("the file of the desk for the office", machine.call("cat", "/var/lib/desk/desk.db", user="desk-office")[0], 1)
    well(machine, *HERE, "client")
    well(machine, "systemctl", "kill", "--signal=KILL", "desk")
    # The unit keeps the validator from the loopback where its own option lets it go there.
    well(machine, "sh", "-c", "echo VALIDATOR=--allow-private >> /etc/default/desk-house; systemctl restart desk-validator")
    see_state(machine, "desk", "active")
    see("the desk after a kill", asked(machine, "operator", "GET", "directory"), "200")
    well(machine, *HERE, "client")
    journal(machine)
    at_metrics(machine)
    measure(machine)
    well(machine, "mv", "/var/lib/desk-office/root.pem", "/root")
    machine.call("systemctl", "restart", "desk-office")
    see_state(machine, "desk-office", "failed")
    said = machine.call("systemctl", "show", "--property=ActiveState,ExecMainStatus", "desk-office")[1].split()
    see("an office without its certificate", sorted(said), ["ActiveState=failed", f"ExecMainStatus={os.EX_CONFIG}"])


def at_own_socket(machine):
    """What users of the machine try at the desk's own socket: the desk's group alone may enter its directory, and the desk alone write there."""
    place = "/run/desk-serve/socket"
    for user in ("nobody", "desk-front", "desk-validator", "desk-office"):
        for words in (f"import socket; socket.socket(socket.AF_UNIX).connect('{place}')", f"import os; os.unlink('{place}')",
                      f"import socket; socket.socket(socket.AF_UNIX).bind('{place}.other')"):
            see(f"{user}: {words}", "PermissionError" in machine.call(PYTHON, "-c", words, user=user)[1], True)
    found = well(machine, "stat", "--format=%A %U %G", "/run/desk-serve", place).splitlines()
    see("the desk's own socket and its directory", found, ["drwxr-x--- desk desk", "srwxrwx--- desk desk"])
    see("the mode of its file", well(machine, "stat", "--format=%a", "/var/lib/desk/desk.db"), "600\n")
    for place, said in ((place, "desk: there is nothing here\n"), ("/run/desk/operator", "desk: there is nothing here\n")):
        ended = machine.call("/usr/local/bin/desk", "revoke-account", "4611686018427387904", "--socket", place)
        see(f"a revocation at {place}", (ended[0], ended[1].splitlines()[:1]), (1, [said.rstrip()]))


def at_metrics(machine):
    """The port of the metrics, once it is asked for: any user reads these there, and nothing else."""
    well(machine, "systemctl", "start", "desk-metrics.socket")
    for path, status in (("office/metrics", "200"), ("office/page", "403"), ("directory", "403")):
        see(f"/{path} at the port of the metrics", status_of(machine, f"http://127.0.0.1:9855/{path}", user="nobody"), status)


def journal(machine):
    """What the journal says of a desk that is not served: the fault, and its cause."""
    well(machine, "bash", "-e", "-c", "systemctl stop desk; mv /var/lib/desk/desk.db /root; mkdir /var/lib/desk/desk.db; systemctl start desk")
    wanted, end, said = ["desk: fault 21 device", "desk: /var/lib/desk/desk.db: it is no regular file"], time.monotonic() + PATIENCE, []
    while said[-2:] != wanted and time.monotonic() < end:
        time.sleep(0.5)
        lines = machine.call("journalctl", "--unit=desk", "--output=cat", "--no-pager")[1].splitlines()
        said = [line for line in lines if line.startswith("desk: ")]
    see("the journal of a desk that is not served", said[-2:], wanted)
    well(machine, "bash", "-e", "-c", "systemctl stop desk; rmdir /var/lib/desk/desk.db; mv /root/desk.db /var/lib/desk; systemctl start desk")
    see("the desk with its file again", asked(machine, "operator", "GET", "directory"), "200")


def measure(machine):
    """The memory that each part has used, and the desk with the list of an account of so many orders in it: at most half of its limit."""
    well(machine, "bash", "-e", "-c", f"""systemctl stop desk; rm -f /var/lib/desk/desk.db*; install -o desk -m 600 {TRIAL}/list.db /var/lib/desk/desk.db
        systemctl start desk""")
    see("the desk with a long list", asked(machine, "operator", "GET", "directory"), "200")
    see("the orders of its account", well(machine, *HERE, "list"), f"{ORDERS}\n")
    for name in EXPOSURE:
        words = f"grep VmHWM /proc/$(systemctl show --property=MainPID --value {name})/status; systemctl show --property=MemoryMax --value {name}"
        used, limit = (int(number) for number in re.findall("[0-9]+", well(machine, "sh", "-c", words)))
        see(f"half of the limit of {name} for {used} KB", 2 * used * 1024 <= limit, True)
        print(f"units: {name} has used {used // 1024} MB of {limit // 2**20}")


def list_orders():
    """On the machine: how many orders an account has, as the desk lists them; its key is that of bench/bench.py."""
    sys.path.insert(0, "/usr/local/share/desk/house")
    import bench
    import desk

    operator = desk.Desk("/run/desk/operator", "")
    nonce = dict(operator.call("GET", "/new-nonce").fields)["Replay-Nonce"]
    reply = operator.call("POST", "/account/1/orders", json.dumps({"jwk": bench.key(1), "nonce": nonce, "payload": ""}))
    print(len(json.loads(reply.body)["orders"]))


def client():
    """On the machine: a certificate by dns-01, while somebody else listens at port 8555; and a name that leads to its loopback, where
    the right answer is."""
    import josepy

    from scripts.house.client import Names, Web
    from scripts.house.trials import Trial

    taken = socket.create_server(("127.0.0.1", 8555))
    house = SimpleNamespace(base="https://localhost", root="/var/lib/desk-office/root.pem", folder="/tmp")
    trial = Trial(house, Web(80), Names(53, at="10.8.5.55", address="127.0.0.1"))
    order, url = trial.ordered("a.house.test", kind="dns-01")
    trial.certified(order, url, ["a.house.test"])
    chain = trial.client.post(trial.client.read(url)["certificate"]).body
    issued = subprocess.run(["openssl", "x509", "-noout", "-issuer", "-serial"], input=chain, capture_output=True, check=True).stdout.decode()
    see("who signed", "Example intermediate" in issued, True)
    revoked = {"certificate": josepy.encode_b64jose(ssl.PEM_cert_to_DER_cert(chain.decode().partition("-----\n-----BEGIN")[0] + "-----\n")), "reason": 1}
    see("a revocation", trial.client.post(trial.client.directory["revokeCert"], revoked).status, 200)
    serial = issued.partition("serial=")[2].strip()
    for _ in range(PATIENCE):
        listed = subprocess.run(["openssl", "crl", "-inform", "DER", "-noout", "-text"], input=trial.client.ask("GET", "https://localhost/crl").body,
                                capture_output=True, check=True).stdout.decode()
        if serial in listed:
            break
        time.sleep(1)
    see("the list that openssl ca signed", (serial in listed, "Example intermediate" in listed), (True, True))
    order = json.loads(trial.client.order("inside.house.test").body)
    found = trial.answer(order["authorizations"][0], "http-01")
    see("a name that leads into the machine", found["challenges"][0]["error"]["type"], "urn:ietf:params:acme:error:connection")
    taken.close()
    print("\n".join(faults))
    return 1 if faults else 0


def on_machine(tree, untried, work):
    """Has work done on a machine over a tree of what is installed; where none can be started, that is said."""
    try:
        machine = Machine(tree)
    except (NoMachine, OSError) as why:
        return print(f"{untried}: {why}")
    try:
        machine.started()
        work(machine)
    except NoMachine as why:
        print(f"{untried}: {why}")
    except Exception:
        faults.append(traceback.format_exc())
    finally:
        machine.stop()


def run(machine):
    """Has the units run."""
    prepare(machine)
    attack(machine)
    if faults:
        print(machine.call("journalctl", "--no-pager", "--lines=150")[1])
    print("units: verified, and run by a systemd of their own")


def main():
    if sys.argv[1:] == ["client"]:
        return client()
    if sys.argv[1:] == ["list"]:
        return list_orders()
    if not shutil.which("systemd-analyze"):
        sys.exit("systemd-analyze is missing: scripts/setup.sh installs it, by Debian's package systemd.")
    with tempfile.TemporaryDirectory(prefix="desk-units-") as tree:
        os.chmod(tree, 0o755)
        said = installed(sys.argv[1], tree)
        see("what the install says of the port", "open to every user" in said, True)
        verify(tree)
        shutil.copytree(f"{ROOT}/scripts", f"{tree}{TRIAL}/scripts", ignore=shutil.ignore_patterns("__pycache__"))
        shutil.copy(f"{ROOT}/bench/bench.py", f"{tree}{TRIAL}")
        sys.path.insert(0, f"{ROOT}/bench")
        import bench

        # a unit serves no desk whose clock is ahead of the machine's
        bench.NOW = int(time.time())
        bench.OPENED = bench.NOW - 86400
        bench.make_file(f"{tree}{TRIAL}/list.db", ORDERS, each=ORDERS)
        on_machine(tree, "units: verified; they were not run", run)
    return finish("units")


if __name__ == "__main__":
    sys.exit(main())
