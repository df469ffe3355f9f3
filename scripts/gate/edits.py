"""The edits that the prover must refuse: those of the gate (crates/NAME/must-fail) and the planted ones (planted/NAME).

  python3 -m scripts.gate.edits check
      sees that each edit still applies: its old texts stand once, it says what it gets wrong, and where; a crate has one edit of the gate at most.
      It names the crates that changed since their planted edits were last tried (planted/tried.txt)
  python3 -m scripts.gate.edits try [NAME..]
      tries the planted edits of these crates, or of all, crates side by side; the prover must refuse each. Edits of different functions are made
      together and told apart by what it says of each function; what this leaves open is tried alone. A crate whose edits were refused, and which
      is as it is committed, gets that commit in planted/tried.txt
  python3 -m scripts.gate.edits uncovered [NAME..]
      prints the public functions of these crates, or of all, that no edit changes

The edits of src/MODULE.rt are planted/NAME/MODULE.edits, those of a file of specs/ or proofs/ stand under the name of that folder. Each is

  edit: its name
  in: the function that it makes wrong (Type::name of a method), or the item
  wrong: what is wrong then
  old: a line, or a part of one, that stands once in the file
  new: what stands there instead

with further pairs of the last two, and a line `file: src/OTHER.rt` before those of another file. An edit of the gate is a file of its own, as rt wants it.
It leaves out what its wrong body does not need, so that it is tried in less time: it puts #[cfg(test)] before items of src/, and makes a comment of a file of
specs/ or proofs/, by its first line and its last. That the crate is proved without these, so that it is refused for its wrong body alone, is tried with the
planted edits.
"""
import contextlib
import os
import re
import shutil
import subprocess
import sys
import tempfile
import threading
import time
from concurrent.futures import ThreadPoolExecutor

from scripts.repository import ROOT, read, write

MEMORY = 4 << 30  # what one crate's edits take at most, in bytes
LEFT_OUT = "#[cfg(test)] "  # before an item; a file of definitions or lemmas becomes a comment
TRIED = f"{ROOT}/planted/tried.txt"
LOST = re.compile(r"has no field|is not in scope|has no `|was not admitted")  # of a proof that names what an edit took away
UNPROVED = re.compile(r"\berror: |: not proved|: no proof")  # what the prover says of what it refuses
SPARE = re.compile(r"has no function `[^`]+` for this file to be the proof of")  # of a proof whose method an edit leaves out


class Edit:
    """An edit: where it stands, its name, what it says of itself, and the pairs of texts that it replaces, each with its file."""

    def __init__(self, crate, where, name):
        self.crate, self.where, self.name = crate, where, name
        self.item = self.wrong = ""
        self.pairs = []

    def text(self):
        """The edit as a file of its own, as rt reads it."""
        lines = [f"wrong: {self.wrong}"]
        for at, (path, old, new) in enumerate(self.pairs):
            lines += [f"file: {path}"] if at == 0 or path != self.pairs[at - 1][0] else []
            lines += [f"old: {old}", f"new: {new}"]
        return "\n".join(lines) + "\n"


def read_edits(crate, where, path, name=""):
    """The edits of a file: the one that is its own, of the file's name, or those of a module's file, each after its line `edit:`."""
    lines = read(where).split("\n")
    found = [Edit(crate, where, name)] if name else []
    now, old = path, None
    for line in lines:
        word, _, text = line.partition(": ") if not line.startswith("new:") else ("new", "", line[4:].removeprefix(" "))
        if word == "edit" and not name:
            found.append(Edit(crate, where, text))
            now = path
        elif not found:
            continue
        elif word == "in":
            found[-1].item = text
        elif word == "wrong":
            found[-1].wrong = text
        elif word == "file":
            now = text.strip()
        elif word == "old":
            old = text
        elif word == "new":
            found[-1].pairs.append((now, old, text))
            old = None
    return found


def gate_edits(crate):
    """A crate's edits of the gate, by name."""
    folder = f"{ROOT}/crates/{crate}/must-fail"
    names = sorted(it for it in os.listdir(folder) if it.endswith(".edit")) if os.path.isdir(folder) else []
    return [edit for name in names for edit in read_edits(crate, f"{folder}/{name}", None, name.removesuffix(".edit"))]


def planted_edits(crate):
    """A crate's planted edits, module by module."""
    top = f"{ROOT}/planted/{crate}"
    files = sorted(f"{where}/{name}" for where, _, names in os.walk(top) for name in names if name.endswith(".edits"))
    return [edit for where in files for edit in read_edits(crate, where, source_of(os.path.relpath(where, top)))]


def source_of(edits):
    """The file of a crate whose edits a file of its planted folder has."""
    module = edits.removesuffix(".edits")
    return f"{module}.antt" if module.startswith(("specs/", "proofs/")) else f"src/{module}.rt"


def crates_with(folder):
    """The crates that have a folder of planted edits."""
    return sorted(name for name in os.listdir(folder) if os.path.isdir(f"{folder}/{name}"))


def leaves_out(old, new):
    """Whether a line is not changed but left out."""
    return new in (LEFT_OUT + old, f"{{- {old}", f"{old} -}}") or old.startswith("ghost use ") and new == f"// {old}"


def fault_of(edit):
    """Why an edit does not apply to its crate, or nothing."""
    if not edit.wrong:
        return "it does not say what it gets wrong"
    if not re.fullmatch(r"[a-z0-9_]+", edit.name):
        return "its name has other characters than letters, digits and _"
    texts, changes = {}, 0
    for path, old, new in edit.pairs:
        if path is None or not old:
            return "a new text stands before any file or old text"
        source = f"{ROOT}/crates/{edit.crate}/{path}"
        if not os.path.isfile(source):
            return f"there is no file {path}"
        text = texts.get(path) or read(source)
        if text.count(old) != 1:
            return f"{old.strip()!r} stands {text.count(old)} times in {path}"
        if LEFT_OUT in new and not leaves_out(old, new):
            return f"{old.strip()!r} is left out and changed"
        texts[path], changes = text.replace(old, new), changes + (not leaves_out(old, new))
    return None if changes else "it changes nothing"


def named_by_specs(edit):
    """A module that an edit leaves out and a definition of its crate names, which the prover then cannot read, or nothing."""
    left_out = [re.fullmatch(r"(?:pub )?mod (\w+);", old) for _, old, new in edit.pairs if leaves_out(old, new)]
    specs, gone = f"{ROOT}/crates/{edit.crate}/specs", {path for path, old, new in edit.pairs if leaves_out(old, new)}
    names = os.listdir(specs) if os.path.isdir(specs) else []
    texts = [read(f"{specs}/{name}") for name in names if name.endswith(".antt") and f"specs/{name}" not in gone]
    for module in (it[1] for it in left_out if it):
        if any(f"Rattle.{edit.crate}.specs.declared.{module}." in text for text in texts):
            return f"it leaves out {module}, which specs/ names"
    return None


def misplaced(edit):
    """Why a planted edit does not stand where it belongs, or nothing."""
    items = items_changed(edit)
    if edit.item in items:
        return None
    return f"it says that it is in {edit.item or 'nothing'}, and changes {', '.join(items) or 'no item'}"


def check():
    """Prints the edits that do not apply; returns whether all do."""
    faults, found = [], 0
    for crate in sorted(os.listdir(f"{ROOT}/crates")):
        gate, planted = gate_edits(crate), planted_edits(crate)
        names = [it.name for it in planted]
        found += len(gate) + len(planted)
        for edit in gate + planted:
            why = fault_of(edit) or named_by_specs(edit)
            if edit in planted:
                why = why or misplaced(edit) or ("its name stands twice" if names.count(edit.name) > 1 else None)
            if why:
                faults.append(f"{os.path.relpath(edit.where, ROOT)}: {edit.name}: {why}")
        if len(gate) > 1:
            faults.append(f"crates/{crate}/must-fail: {len(gate)} edits: the gate tries one a crate, planted/ has the others")
    for crate in crates_with(f"{ROOT}/planted"):
        if not os.path.isdir(f"{ROOT}/crates/{crate}"):
            faults.append(f"planted/{crate}: there is no such crate")
    print("\n".join(faults + [f"{found} edits, {len(faults)} that do not apply"]))
    stale = [crate for crate in crates_with(f"{ROOT}/planted") if not is_as_at(crate, tried().get(crate))]
    print(f"Changed since their planted edits were last tried: {' '.join(stale) or 'no crate'}.")
    return not faults


def tried():
    """The commit at which each crate's planted edits were last tried, each of them refused."""
    return dict(line.split() for line in read(TRIED).splitlines() if not line.startswith("#")) if os.path.isfile(TRIED) else {}


def is_as_at(crate, commit):
    """Whether a crate and its planted edits stand as they did at a commit."""
    parts = [f"crates/{crate}/{part}" for part in ("src", "specs", "proofs", "must-fail")] + [f"planted/{crate}"]
    asked = ["git", "diff", "--quiet", commit or "", "--", *parts]
    return bool(commit) and not subprocess.run(asked, cwd=ROOT, stderr=subprocess.DEVNULL).returncode


def note_tried(crate):
    """Writes down that a crate's planted edits were refused at the commit that stands here, if the crate is as it is there."""
    commit = subprocess.run(["git", "rev-parse", "--short=12", "HEAD"], cwd=ROOT, stdout=subprocess.PIPE, text=True).stdout.strip()
    if is_as_at(crate, commit):
        lines = [f"{name} {at}" for name, at in sorted({**tried(), crate: commit}.items())]
        write(TRIED, "\n".join(["# crate, and the commit at which the prover last refused each of its planted edits (scripts/gate/edits.py)", *lines]) + "\n")


def lanes():
    """How many crates are tried side by side, by processors and memory."""
    free = next(int(line.split()[1]) << 10 for line in read("/proc/meminfo").split("\n") if line.startswith("MemAvailable"))
    return max(1, min(len(os.sched_getaffinity(0)), free // MEMORY))


class Function:
    """A function of a source: its file, its name, that with its type's, its lines, from 0, and whether no other in the file has its name."""

    def __init__(self, path, head, owner, first, last):
        self.path, self.first, self.last = path, first, last
        self.name, self.is_public = head[3], head[2] == "pub "
        self.owner = owner
        self.is_only = True
        self.key = path, first

    def holds(self, path, line):
        return path == self.path and self.first <= line <= self.last

    def is_proved_in(self, folder, name):
        """Whether the proof files of this name in a folder of proofs/ are this function's, and no other's. Those of a method stand in the folder of its
        type and trait, wherever the impl does."""
        if self.owner and folder.rpartition("/")[2] == self.folder():
            return self.name == name
        return self.is_only and self.name == name and f"{folder}/".startswith(self.path[len("src/") : -len(".rt")] + "/")

    def folder(self):
        """What the folder of its type's proofs is called: the type, and behind it the trait, both without what stands in <>."""
        trait, _, of = self.owner.rpartition(" for ")
        return re.sub(r"<.*|\W", "", of) + re.sub(r"<.*|\W", "", trait)

    def item(self):
        """How an edit names it: by its type, and by its trait, too, where the type has others of this name."""
        if not self.owner:
            return self.name
        trait, _, of = self.owner.rpartition(" for ")
        return f"{of}::{self.name}" if self.is_only or not trait else f"<{of} as {trait}>::{self.name}"


FUNCTION = re.compile(r"( *)(pub |pub\([a-z]+\) )?(?:const )?fn (\w+)")
OWNER = re.compile(r"impl(?:<[^{]*?>)? (?:([\w<>', &()\[\];:]+) for )?([^{]+?)(?: where .*)?(?: \{|$)|(?:pub )?trait (\w+)")
ITEM = re.compile(r"(?:pub(?:\([a-z]+\))? )?(?:(?:struct|enum|trait|const|type|static|ghost|abbrev|unfoldable|data|record) )+(?:pub )?([\w-]+)|([\w-]+)")


def functions_of(path, text):
    """The functions of a formatted source; each ends at the brace that stands as deep as it begins, or on its own line."""
    lines, found, owner = text.split("\n"), [], ""
    for first, line in enumerate(lines):
        if re.match(r"\S", line) and not line.startswith(("}", "#", "/", ")")):
            head = OWNER.match(line)
            owner = (f"{head[1]} for " if head[1] else "") + re.sub(r"<.*>$", "", head[2] or head[3]) if head else ""
        head = FUNCTION.match(line)
        if head:
            closed = (head[1] + "}", head[1] + "{}")
            ends = (at for at in range(first, len(lines)) if lines[at] in closed or lines[at].endswith(("{}", ";")) and at == first)
            found.append(Function(path, head, owner if head[1] else "", first, next(ends, len(lines) - 1)))
    names = [it.name for it in found]
    for it in found:
        it.is_only = names.count(it.name) == 1
    return found


def messages(said):
    """The prover's messages, each in one line with those that are set in below it."""
    return re.sub(r"\n  +", " ", said).split("\n")


def functions_changed(edit):
    """The functions of src/ that an edit changes, none where it changes more than functions."""
    found = []
    for path, old, _ in edit.pairs:
        inside = functions_at(edit.crate, path, old)
        if not inside:
            return []
        found.append(inside[-1])
    return found


def functions_at(crate, path, old):
    """The functions of a source in which a text stands, the innermost last."""
    if not path.startswith("src/"):
        return []
    text = read(f"{ROOT}/crates/{crate}/{path}")
    line = text[: text.index(old)].count("\n")
    return [it for it in functions_of(path, text) if it.holds(path, line)]


def items_changed(edit):
    """What an edit may say that it is in: the functions that it changes, or the items in which its texts stand."""
    found = []
    for path, old, new in edit.pairs:
        inside = functions_at(edit.crate, path, old)
        if inside:
            found.append(inside[-1].item())
        elif not leaves_out(old, new):
            before = read(f"{ROOT}/crates/{edit.crate}/{path}").partition(old)
            lines = (before[0] + old).split("\n")
            heads = (ITEM.match(line) for line in reversed(lines) if re.match(r"\w", line))
            found += [next((it[1] or it[2] for it in heads if it), "")]
    return list(dict.fromkeys(it for it in found if it))


def is_refused(functions, said):
    """Whether the prover's words refuse a function that an edit changes, for what stands in it and not for a name that it lost."""
    for line in messages(said):
        at = re.match(r"(?:note: )?(?:\./)?(src/\S+?):(\d+):\d+: (?:error: |it is not proved)", line)
        if at and any(it.holds(at[1], int(at[2]) - 1) for it in functions):
            return True
        at = re.match(r"(?:\./)?proofs/(\S+)/(\w+)/\w+\.antt:\d+:\d+: error: (.*)", line)
        if at and not LOST.search(at[3]) and any(it.is_proved_in(at[1], at[2]) for it in functions):
            return True
    return False


@contextlib.contextmanager
def made(folder, pairs):
    """Has a crate's texts replaced for a while."""
    sources = {path: read(f"{folder}/{path}") for path, _, _ in pairs}
    texts = dict(sources)
    for path, old, new in pairs:
        texts[path] = texts[path].replace(old, new)
    try:
        write_all(folder, texts)
        yield
    finally:
        write_all(folder, sources)


def write_all(folder, texts):
    for path, text in texts.items():
        write(f"{folder}/{path}", text)


def linked(folder, to, *without):
    """Copies a folder without what has one of these names; by links what rt replaces and never writes into: what it proved, and libraries."""

    def copy(one, other):
        try:
            if one.endswith(".oantt") or "/out/rlib/" in one:
                return os.link(one, other)
        except OSError:
            pass
        return shutil.copy2(one, other)

    shutil.copytree(folder, to, symlinks=True, ignore=shutil.ignore_patterns(*without), copy_function=copy)


def copy_for(crate, copy):
    """Makes a copy of the crates in which one is tried: rt keeps two checks of one copy apart."""
    for name in ("HANDLES", "crates.txt"):
        shutil.copy2(f"{ROOT}/{name}", copy)
    for name in os.listdir(f"{ROOT}/crates"):
        linked(f"{ROOT}/crates/{name}", f"{copy}/crates/{name}", "must-fail", "*.tmp-*", *([] if name == crate else ["incremental"]))


def run(folder, *words):
    """Runs rt in a folder of the copy; returns its status and what it said."""
    ran = subprocess.run(["rt", *words], cwd=folder, stdin=subprocess.DEVNULL, stdout=subprocess.PIPE, stderr=subprocess.STDOUT, text=True, errors="replace")
    return ran.returncode, ran.stdout


def refused_together(folder, edits):
    """The edits that are refused when they are made together. The prover takes a function by the contracts of those that it calls, so what it says of one
    function is what it says without the edits of others; it leaves one that calls a refused one open, which the next round tries."""
    seed, kept = f"{folder}/out/seed", f"{folder}/out/incremental"
    taken, chosen = set(), []
    for edit in edits:
        keys = {it.key for it in functions_changed(edit)}
        if keys and not keys & taken:
            taken |= keys
            chosen.append(edit)
    shutil.rmtree(kept, ignore_errors=True)
    linked(seed, kept)
    with made(folder, [pair for edit in chosen for pair in edit.pairs]):
        status, said = run(folder, "check", "--jobs", "1")
    is_verdict = status == 1 and "logic=not-proved" in said
    return [it for it in chosen if is_verdict and is_refused(functions_changed(it), said)]


def unproved_without(crate, folder):
    """The lines on the gate's edits of a crate that leave out what it is not proved without; the proof of a method that is left out may lie idle."""
    bad = []
    for edit in gate_edits(crate):
        without = [(path, old, new) for path, old, new in edit.pairs if leaves_out(old, new)]
        if without:
            with made(folder, without):
                status, said = run(folder, "check", "--jobs", "1")
            open_ones = [line for line in said.split("\n") if UNPROVED.search(line) and not SPARE.search(line)]
            if status and (open_ones or not SPARE.search(said)):
                bad += [f"{edit.name}: {crate} is not proved without what it leaves out", *open_ones, said[-2000:]]
    return bad


def try_alone(copy, crate, edits):
    """Tries edits one by one; returns the lines on those that are not refused, and what rt said where it tried too few."""
    if not edits:
        return []
    folder = f"{copy}/crates/{crate}/must-fail"
    os.mkdir(folder)
    for edit in edits:
        write(f"{folder}/{edit.name}.edit", edit.text())
    status, said = run(copy, "must-fail", crate)
    lines = [line for line in said.splitlines() if line.startswith("rt: must-fail ")]
    bad = [line for line in lines if ": refused" not in line or "names what the edit took away" in line]
    if len(lines) != len(edits) or status and not bad:
        bad.append(said[-2000:])
    return bad


def try_crate(copy, crate):
    """Tries a crate's planted edits; returns how many were tried alone, and the lines on those that are not refused."""
    folder = f"{copy}/crates/{crate}"
    left = planted_edits(crate)
    status, said = run(folder, "check", "--jobs", "1")
    if status:
        return 0, [f"{crate} is not proved as it stands", said[-2000:]]
    bad = unproved_without(crate, folder)
    os.rename(f"{folder}/out/incremental", f"{folder}/out/seed")
    while left:
        refused = refused_together(folder, left)
        if not refused:
            break
        left = [it for it in left if it not in refused]
    shutil.rmtree(f"{folder}/out/incremental", ignore_errors=True)
    os.rename(f"{folder}/out/seed", f"{folder}/out/incremental")
    return len(left), bad + try_alone(copy, crate, left)


def try_planted(names):
    """Tries the planted edits of these crates, each on a copy; returns whether each was refused."""
    printing, failed, tried, start = threading.Lock(), [], [], time.monotonic()

    def one(name):
        with tempfile.TemporaryDirectory(prefix="planted-") as copy:
            copy_for(name, copy)
            alone, bad = try_crate(copy, name)
        with printing:
            tried.append(len(planted_edits(name)))
            print(f"{name}: {tried[-1]} edits, {alone} of them alone, {len(bad)} not refused", *bad, sep="\n  ", flush=True)
            if bad:
                failed.append(name)
            else:
                note_tried(name)

    names = sorted(names, key=lambda it: -len(planted_edits(it)))
    with ThreadPoolExecutor(lanes()) as pool:
        list(pool.map(one, names))
    print(f"{sum(tried)} planted edits tried, in {time.monotonic() - start:.0f} seconds; {'crates with one that was not refused: ' + ' '.join(sorted(failed)) if failed else 'each was refused'}")
    return not failed


def public_functions(crate):
    """The public functions of a crate that have a body: a law has none, and a test is none."""
    for where, _, names in sorted(os.walk(f"{ROOT}/crates/{crate}/src")):
        for name in sorted(it for it in names if it.endswith(".rt")):
            text = read(f"{where}/{name}")
            lines = text.split("\n")
            path = os.path.relpath(f"{where}/{name}", f"{ROOT}/crates/{crate}")
            for it in functions_of(path, text):
                if it.is_public and not lines[it.last].endswith(("{}", ";")):
                    yield it


def uncovered(crates):
    """Prints the public functions that no edit changes, and how many there are of how many."""
    all_, lacking = 0, 0
    for crate in crates:
        changed = set()
        for edit in gate_edits(crate) + planted_edits(crate):
            for path, old, new in edit.pairs:
                changed |= set() if leaves_out(old, new) else {it.key for it in functions_at(crate, path, old)[-1:]}
        for it in public_functions(crate):
            all_ += 1
            if it.key not in changed:
                lacking += 1
                print(f"{crate}/{it.path}:{it.first + 1}: {it.item()}")
    print(f"{all_} public functions, {lacking} that no edit changes")


def main(words):
    if words[:1] == ["uncovered"]:
        uncovered(words[1:] or sorted(os.listdir(f"{ROOT}/crates")))
        return 0
    if words[:1] == ["check"] and len(words) == 1:
        return 0 if check() else 1
    if words[:1] == ["try"]:
        known = crates_with(f"{ROOT}/planted")
        unknown = [name for name in words[1:] if name not in known]
        if unknown:
            print(f"no planted edits: {' '.join(unknown)}", file=sys.stderr)
            return 2
        return 0 if try_planted(words[1:] or known) else 1
    print(__doc__, file=sys.stderr)
    return 2


if __name__ == "__main__":
    sys.exit(main(sys.argv[1:]))
