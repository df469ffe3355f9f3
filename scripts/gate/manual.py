"""Writes from the program's own help its manual page, or its completion for bash: python3 -m scripts.gate.manual page|completion PROGRAM"""
import re
import subprocess
import sys

EXITS = "Exit statuses:"
# A line of help with a term and what is said of it, and one that goes on.
ENTRY, MORE = re.compile(r" {2,6}(\S.*?) {2,}(\S.*)"), re.compile(r" {7,}(\S.*)")
# The completion: the words, and of a word its options, and the values of an option that has a few.
COMPLETION = """\
# Completes the words of desk; made from its help.
_desk() {
    local now=${COMP_WORDS[COMP_CWORD]} words=
    case $COMP_CWORD:${COMP_WORDS[1]}:${COMP_WORDS[COMP_CWORD - 1]}:$now in
        1:*) words='%s' ;;
%s    esac
    mapfile -t COMPREPLY < <(compgen -W "$words" -- "$now")
}
complete -o default -F _desk desk
"""


def said_by(program, *words):
    """The lines that the program writes."""
    ran = subprocess.run([program, *words], stdout=subprocess.PIPE, check=True, text=True)
    return ran.stdout.rstrip("\n").split("\n")


def help_of(program, *words):
    """The lines of the program's help, without the exit statuses, and those of the exit statuses."""
    lines = said_by(program, *words, "--help")
    place = lines.index(EXITS)
    return lines[:place - 1], lines[place + 1:]


def entries(lines, heading):
    """The terms below a heading of help, each with what is said of it."""
    below = lines[lines.index(heading) + 1:]
    return dict(ENTRY.fullmatch(line).groups() for line in below[:below.index("") if "" in below else None] if ENTRY.fullmatch(line))


def words_of(program):
    return [word for word in entries(help_of(program)[0], "Commands:") if word != "help"]


# ---- the manual page


def roff(line):
    """A line as roff takes it."""
    line = line.replace("\\", "\\e").replace("-", "\\-")
    return f"\\&{line}" if line[:1] in (".", "'") else line


def term(name, text):
    return [".TP", f"\\fB{roff(name)}\\fR", roff(text)]


def filled(lines):
    """Lines of help as paragraphs and terms, which man fills to its width."""
    made, is_new = [], True
    for line in lines:
        entry, more = ENTRY.fullmatch(line), MORE.fullmatch(line)
        if entry:
            made += term(*entry.groups())
        elif more:
            made += [".br"] * more[1].startswith("desk ") + [roff(more[1])]
        elif line:
            made += [".PP"] * is_new + [roff(line.strip())]
        is_new = not line or line.endswith(":")
    return made


def page(program):
    """The lines of the manual page."""
    said, exits = help_of(program)
    lines = [f'.TH DESK 1 "" "{roff(said_by(program, "--version")[0])}" "User Commands"', ".nh", ".ad l", ".SH NAME",
             "desk \\- the order desk of an ACME certificate authority", ".SH SYNOPSIS",
             "\\fBdesk\\fR \\fIWORD\\fR [\\fIARGUMENT\\fR ...]", ".SH DESCRIPTION", *filled(said)]
    for word in words_of(program):
        lines += [f".SS {roff(word)}", *filled(help_of(program, word)[0])]
    lines += [".SH EXIT STATUS"]
    for line in exits:
        lines += term(*line.split(None, 1))
    lines += [".SH FILES", *term("FILE", "the desk; one of an earlier format is brought into today's when it is opened"),
              *term("FILE-wal", "the engine's log, until the file is closed"), ".SH SEE ALSO", "RFC 8555"]
    if any(re.search(r"[\x00-\x08\x0b-\x1f\x7f-\uffff]", line) for line in lines):
        sys.exit("the help has a character that a manual page can't show")
    return lines


# ---- the completion


def completion(program):
    """The lines of the completion."""
    cases = []
    for word in words_of(program):
        options = entries(help_of(program, word)[0], "Options:")
        names = {re.search(r"--[\w-]+", name)[0]: text for name, text in options.items()}
        for name, text in names.items():
            values = re.search(r"\[possible values: (.*?)\]", text)
            cases += [f"        *:{word}:{name}:*) words='{values[1].replace(',', '')}' ;;"] if values else []
        cases.append(f"        *:{word}:*:-*) words='{' '.join(names)}' ;;")
    return (COMPLETION % (" ".join([*words_of(program), "--help", "--version"]), "".join(f"{case}\n" for case in cases))).rstrip("\n").split("\n")


if __name__ == "__main__":
    KINDS = {"page": page, "completion": completion}
    if len(sys.argv) != 3 or sys.argv[1] not in KINDS:
        sys.exit(__doc__)
    print("\n".join(KINDS[sys.argv[1]](sys.argv[2])))
