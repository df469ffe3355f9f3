"""The clauses of the crates, and whether documents and the review (scripts/gate/review.txt) name what is there.

  python3 -m scripts.gate.promises clauses [CRATE..]
      prints, of each function of these crates, or of all, that others may call and that has a clause: what it does, its clauses, the definitions
      that these cite, and the edits that make it wrong
  python3 -m scripts.gate.promises check
      sees that each clause and definition that docs/PROMISES.md names is there; that the review has each definition of desk_model, and sentences
      of docs/SPECIFICATION.md, examples and laws that are there; that names in the guides stand somewhere else, too

In PROMISES `f.c` is the clause c of the function f, and `.c` alone a clause of the function named last; a law's clauses may be the fields of its statement.
"""
import os
import re
import sys

from scripts.repository import crates, read, sections, tracked

OWNER = re.compile(r"^(?:pub )?(?:unsafe )?(?:impl(?:<.*?>)? (?:(?P<of>[\w:]+)(?:<.*>)? for )?(?P<type>\w+)|trait (?P<own>\w+))")
FUNCTION = re.compile(r"^( *)(pub(?:\(crate\))? )?(?:const )?fn (\w+)")
CLAUSE = re.compile(r"^\s*ensures (?:(\w+) )?\{")
PUBLIC = re.compile(r"(?m)^(?:abbrev |unfoldable |opaque )*pub (?!use |mod )(?:record |data )?([\w?']+)")
ITEM = re.compile(r"\b(?:fn|struct|enum|trait|type|const) (\w+)")
TICKED = re.compile(r"`([^`]+)`")
GUIDES = ("ARCHITECTURE", "COSTS", "DECISIONS", "PROVING")


# ---- functions


def brought(text, before=""):
    """The names that a `use` brings in, each with its module: `a.{B.{c, d as e}, F.g}` gives c: B, e: B, g: F."""
    parts, depth, part = [], 0, ""
    for letter in text:
        depth += (letter == "{") - (letter == "}")
        if letter == "," and not depth:
            parts.append(part)
            part = ""
        else:
            part += letter
    for part in [*parts, part]:
        inside = re.fullmatch(r"(?s)(.*?)\.?\{(.*)\}", part.strip())
        if inside:
            yield from brought(inside[2], f"{before}.{inside[1]}")
        elif part.strip():
            path, _, name = part.strip().partition(" as ")
            whole = f"{before}.{path}".split(".")
            yield (name or whole[-1]).strip(), whole[-2]


def first_sentence(lines):
    text = " ".join(" ".join(line or "\n" for line in lines).partition("\n")[0].split())
    return re.split(r"(?<=\.) ", text)[0]


def functions(crate):
    """The functions of a crate that have a clause: owner, name, whether others may call it, first sentence, and the text of each clause."""
    for path in tracked(f"crates/{crate}/src/*.rt"):
        text = read(path)
        names = dict(name for use in re.findall(r"(?m)^\s*ghost use Rattle\.([^;]*);", text) for name in brought(use))
        owner, is_trait, said, current, is_header = "", False, [], None, False
        for line in text.split("\n"):
            found = OWNER.match(line)
            if found:
                owner, is_trait = found["own"] or found["type"], bool(found["own"] or found["of"])
            elif line.startswith("}"):
                owner, is_trait = "", False
            if re.match(r"\s*//[/ ]?", line):
                said.append(line.strip().lstrip("/ "))
                continue
            begun = FUNCTION.match(line)
            if begun:
                current = {"path": path, "owner": owner if begun[1] else "", "name": begun[3], "public": begun[2] == "pub " or is_trait, "names": names,
                           "says": first_sentence(said), "clauses": []}
                is_header = True
            clause = CLAUSE.match(line)
            if current and is_header and clause:
                current["clauses"].append([clause[1] or "", line])
                if len(current["clauses"]) == 1:
                    yield current
            elif current and is_header and current["clauses"]:
                current["clauses"][-1][1] += line
            if line.strip() in ("{", "{}") or line.rstrip().endswith("};"):
                is_header = False
            if line.strip() and not line.strip().startswith("#["):
                said = []


def cited(function):
    words = set(re.findall(r"[A-Za-z_]\w*", " ".join(text for _, text in function["clauses"])))
    known = {word: function["names"][word] for word in words & set(function["names"])}
    return sorted(word if module == word else f"{module}.{word}" for word, module in known.items() if module not in ("Prelude", "List", "TheVariants"))


def full_name(function):
    return f"{function['owner']}::{function['name']}" if function["owner"] else function["name"]


def edits():
    """The edits by the module and the function that they make wrong."""
    found = {}
    for path in tracked("planted/*.edits"):
        _, crate, *rest = path.split("/")
        for name, function in re.findall(r"(?m)^edit: (\w+)\nin: (.+)$", read(path)):
            found.setdefault((crate, function.strip()), []).append(name)
    return found


def print_clauses(wanted):
    planted = edits()
    for crate in wanted or crates():
        print(f"## {crate}\n")
        for function in list(functions(crate)):
            if function["public"]:
                own = ", ".join(name or "(one)" for name, _ in function["clauses"])
                wrong = ", ".join(planted.get((crate, full_name(function)), [])) or "none"
                print(f"- `{full_name(function)}`: {function['says']}\n  clauses: {own}\n  cites: {', '.join(cited(function)) or 'nothing'}\n  edits: {wrong}")
        print()


# ---- what the documents name


class Known:
    """What is there: functions with their clauses, definitions by module, and the fields of records."""

    def __init__(self):
        self.clauses, self.definitions, self.fields, self.items, self.words = {}, {}, set(), set(), set()
        for crate in crates():
            for function in list(functions(crate)):
                for name in {function["name"], full_name(function)}:
                    self.clauses.setdefault(name, set()).update(clause for clause, _ in function["clauses"])
        for path in tracked("crates/*/src/*.rt"):
            self.items.update(ITEM.findall(read(path)))
        for path in tracked("crates/*/specs/*.antt", "crates/*/proofs/*.antt"):
            text = read(path)
            self.definitions.setdefault(os.path.basename(path)[:-5], set()).update(re.findall(r"[\w?'-]+", text))
            self.fields.update(re.findall(r"(?m)^\s+pub (\w+) :", text))
        for path in tracked("crates", "planted", "scripts", "bench", "examples/*.sql", "Makefile", "packaging"):
            self.words.update(re.findall(r"\w+", path + " " + read(path)))

    def lacks(self, function, clause):
        """Whether a function has no such clause, nor a statement with such a field."""
        have = self.clauses.get(function, self.clauses.get(function.split("::")[-1], set()))
        return clause not in have and not ("" in have and clause in self.fields)

    def lacks_definition(self, module, name):
        return module not in self.definitions or name not in self.definitions[module]


def page_faults(known):
    last = ""
    for number, line in enumerate(read("docs/PROMISES.md").split("\n"), 1):
        cells = re.split(r"(?<!\\)\|", line)[1:-1]
        for text in TICKED.findall(cells[1] if len(cells) > 1 else ""):
            name, _, clause = text.partition(".")
            if re.fullmatch(r"[\w:]*\.\w+|[\w:]+", text) and clause not in ("rt", "py"):
                last = name or last
                bare = last.split("::")[-1]
                if clause and known.lacks(last, clause) and not (bare in known.definitions and clause in known.definitions[bare]):
                    yield f"docs/PROMISES.md:{number}: {last} has no clause {clause}"
                elif not clause and bare not in known.items and not any(bare in names for names in known.definitions.values()):
                    yield f"docs/PROMISES.md:{number}: there is no {last}"
        for module, name in re.findall(r"`([A-Z]\w+)\.([\w?']+)`", line):
            if known.lacks_definition(module, name):
                yield f"docs/PROMISES.md:{number}: {module} does not define {name}"
        for name in re.findall(r"`(\w+)`", cells[2] if len(cells) == 3 else ""):
            if name not in known.words:
                yield f"docs/PROMISES.md:{number}: there is no {name}"


def guide_faults(known):
    """Names in the guides that stand nowhere else."""
    for guide in GUIDES:
        for number, line in enumerate(re.sub(r"(?s)```.*?```", lambda block: "\n" * block[0].count("\n"), read(f"docs/{guide}.md")).split("\n"), 1):
            for name in re.findall(r"[A-Za-z]\w*(?:_\w+|[a-z][A-Z]\w+)", " ".join(TICKED.findall(line))):
                if name not in known.words:
                    yield f"docs/{guide}.md:{number}: there is no {name}"


def review_faults(known):
    said = {int(heading.partition(". ")[0]): " ".join(text.split()) for heading, text in sections("SPECIFICATION").items()}
    reviewed, modules, last, where = {}, [], "", ""
    for line in read("scripts/gate/review.txt").replace("\n    ", " ").split("\n"):
        if line.startswith("  says: "):
            for section, text in re.findall(r"§(\d+) ([^§]*?)(?=; §|$)", line):
                for quoted in re.findall(r'"([^"]+)"', text):
                    if quoted not in said[int(section)]:
                        yield f"{where}: section {section} does not say \"{quoted}\""
                if '"' not in text and f"### {text}" not in said[int(section)]:
                    yield f"{where}: section {section} has no heading {text}"
        elif line.startswith("  seen: "):
            for text in line[8:].split():
                name, _, clause = text.partition(".")
                last = name or last
                if text != "-" and (last not in known.clauses or clause and known.lacks(last, clause)):
                    yield f"{where}: there is no {last}.{clause}"
        elif line and not line.startswith("#"):
            modules, where = re.findall(r"[A-Z]\w+", line.partition(":")[0]), f"scripts/gate/review.txt, {line[:60]}"
            for name in line.partition(": ")[2].split():
                if name != "*" and all(known.lacks_definition(module, name) for module in modules):
                    yield f"{where}: {', '.join(modules)} does not define {name}"
                for module in modules:
                    reviewed.setdefault(module, set()).add(name)
    for path in tracked("crates/desk_model/specs/*.antt"):
        module = os.path.basename(path)[:-5]
        for name in PUBLIC.findall(read(path)):
            if not reviewed.get(module, set()) & {name, "*"}:
                yield f"scripts/gate/review.txt: {module}.{name} is not reviewed"


def main(words):
    if words[:1] == ["clauses"]:
        print_clauses(words[1:])
        return 0
    if words == ["check"]:
        known = Known()
        found = [*page_faults(known), *review_faults(known), *guide_faults(known)]
        print("\n".join(found) or "The documents and the review name what is there.")
        return 1 if found else 0
    print(__doc__, file=sys.stderr)
    return 2


if __name__ == "__main__":
    sys.exit(main(sys.argv[1:]))
