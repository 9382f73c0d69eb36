"""The repository as the proof tools read it: crates.txt, the crates' files, and what a file of antt or Rattle declares and names.

The readers go by layout, which `rt fmt` fixes, and not by a grammar: a declaration begins where a signature stands at the
indentation of its block. They do not know what a clause binds, so a variable that is named like a law counts as citing it.
"""
import argparse
import os
import re
import sys
from dataclasses import dataclass, field

# A name of antt is any run of characters but these, or anything between « and ».
NAME = r'(?:«[^»\n]*»|[^\s(){}.;,@"«»]+)'
PATH = rf"{NAME}(?:\.{NAME})*"
# A name or a path that stands by itself; what comes behind a term in parentheses, as `.field` in `(f x).field`, cites nothing.
WORD = re.compile(rf'(?<![^\s(){{}};,@"«»]){PATH}')
USE = re.compile(rf"^[ \t]*(?:unfoldable[ \t]+)?(pub[ \t]+)?(?:ghost[ \t]+)?use[ \t]+({PATH})(?:\.\{{([^}}]*)\}}|[ \t]+as[ \t]+({NAME}))?", re.M)
SIGNATURE = re.compile(rf"((?:(?:unfoldable|abbrev|axiom|pub)[ \t]+)*)({NAME})(?:[ \t]*\{{[^}}\n]*\}})?[ \t]*:(?=\s|$)(.*)")
DECLARED = re.compile(rf"(pub[ \t]+)?(record|data|ruleset)[ \t]+({NAME})(.*)")
MEMBER = re.compile(rf"[ \t]+(?:pub[ \t]+)?({NAME})[ \t]*:(?=\s|$)", re.M)
HEADER = re.compile(r"(?:(?:unfoldable[ \t]+)?(?:pub[ \t]+)?(?:use|mod)|infix[lr]?|open)(?=\s)")
OURS = re.compile(r"Rattle\.(\w+)\.(specs|proofs)(?:\.(.+))?$")
CITED_CRATE = re.compile(r"(?<![\w.])Rattle\.(\w+)\.(?:specs|proofs)\b")


class Trouble(Exception):
    """What stops a tool, in words for whoever called it."""


class Parser(argparse.ArgumentParser):
    """Wrong arguments are told like any other fault; the help is the script's docstring."""

    def __init__(self, about, **more):
        super().__init__(description=about, formatter_class=argparse.RawDescriptionHelpFormatter, allow_abbrev=False, **more)

    def error(self, message):
        raise Trouble(f"{message}\n{self.format_usage().rstrip()}")


def run(main):
    """Runs a tool and exits with what it returns; a fault is told on standard error, with status 2."""
    name = os.path.basename(sys.argv[0])
    try:
        sys.exit(main(sys.argv[1:]))
    except Trouble as fault:
        print(f"{name}: {fault}", file=sys.stderr)
    except BrokenPipeError:
        # The reader of our output has gone; keep the interpreter from writing to it once more.
        os.dup2(os.open(os.devnull, os.O_WRONLY), sys.stdout.fileno())
    except KeyboardInterrupt:
        sys.exit(130)
    sys.exit(2)


def told(text):
    """A word on what is going on, beside the output."""
    print(text, file=sys.stderr, flush=True)


# ---- the repository

@dataclass
class Crate:
    name: str
    needs: list
    line: int
    marks: list  # what stands behind its name, as `staticlib`


def root():
    """The repository that we stand in, as `rt` finds it: the first folder upwards that has a crates.txt."""
    folder = os.getcwd()
    while not os.path.isfile(os.path.join(folder, "crates.txt")):
        above = os.path.dirname(folder)
        if above == folder:
            raise Trouble("no crates.txt in this folder or above it")
        folder = above
    return folder


def listed(base):
    """The crates of crates.txt by name, in its order."""
    crates = {}
    for number, line in enumerate(read(os.path.join(base, "crates.txt")).split("\n"), 1):
        line = line.split("#")[0].strip()
        if not line:
            continue
        name, colon, needs = line.partition(":")
        if not colon:
            raise Trouble(f"crates.txt:{number}: expected NAME: DEP DEP ..")
        name, *marks = name.split()
        crates[name] = Crate(name, needs.split(), number, marks)
    return crates


def crate(base, name):
    found = listed(base).get(name)
    if found is None:
        raise Trouble(f"{name} is not listed in crates.txt")
    return found


def reached(base, name):
    """The crates of this repository that a crate's lines lead to, itself left out."""
    crates, seen, left = listed(base), [], [name]
    while left:
        for need in crates[left.pop()].needs:
            if need in crates and need not in seen and need != name:
                seen.append(need)
                left.append(need)
    return seen


PARTS = ("src", "specs", "proofs")  # of a crate's folder, what is written by hand; its out/ is the toolchain's


def files(folder, *suffixes):
    """The files below a folder with one of these endings, sorted."""
    return sorted(os.path.join(place, name) for place, _, names in os.walk(folder) for name in names if name.endswith(suffixes))


def written(base, crate, *suffixes):
    """The files of a crate's src, specs and proofs with one of these endings, sorted."""
    return sorted(path for part in PARTS for path in files(os.path.join(base, "crates", crate, part), *suffixes))


def read(path):
    try:
        with open(path, encoding="utf-8") as file:
            return file.read()
    except (OSError, ValueError) as fault:
        raise Trouble(f"cannot read {path}: {getattr(fault, 'strerror', None) or fault}") from None


def line_of(text, offset):
    return text.count("\n", 0, offset) + 1


# ---- antt

def blank(match):
    return re.sub(r"[^\n]", " ", match.group())


def bare(text):
    """A text of antt with comments and quoted texts blanked, each other character where it was."""
    text = re.sub(r'"(?:\\.|[^"\\\n])*"|(?<![^\s(){}.;,@"«»])--[^\n]*', blank, text)
    return re.sub(r"\{-.*?-\}", blank, text, flags=re.S)


@dataclass
class Declaration:
    name: str
    kind: str  # record, data, ruleset, or the marks of a signature
    public: bool
    start: int
    end: int
    top: bool  # in no `module _` block
    type: str  # what stands on the signature's line
    members: list = field(default_factory=list)  # fields of a record, constructors of a data type

    def words(self, text):
        return cited(word.group() for word in WORD.finditer(text, self.start, self.end) if not label(text, word))


def label(text, word):
    """Whether a word is the name of a field in `record { name = .. }` or `record { name : .. }`."""
    return text[:word.start()].rstrip()[-1:] in ("{", ";") and re.match(r"\s*[=:](?!\S)", text[word.end():word.end() + 40]) is not None


def cited(words):
    """The names that words cite: of `a.b.c`, which may be a module's name or a term with its fields, `a`, `a.b` and `a.b.c`."""
    return {".".join(parts[:end]) for word in words for parts in [word.split(".")] for end in range(1, len(parts) + 1)}


def declarations(text):
    """What a bare text of antt declares: signatures, records and data types, those in `module _` blocks too."""
    found, blocks, header, offset = [], [0], False, 0
    current = None
    opened = False  # the line before ended a block's header
    for line in text.split("\n"):
        start, offset = offset, offset + len(line) + 1
        if not line.strip():
            continue
        indent = len(line) - len(line.lstrip())
        if header:
            header = not line.rstrip().endswith("where")
            opened = not header
            continue
        if opened:
            opened = False
            if indent > blocks[-1]:
                blocks.append(indent)
        while indent < blocks[-1]:
            blocks.pop()
        if indent > blocks[-1]:
            continue
        head = line.strip()
        ended = None
        if re.match(r"module\b|(?:\w+ )*mutual$", head):
            ended, header = "block", head.startswith("module") and not head.endswith("where")
            opened = not header
        elif HEADER.match(head):
            ended = "header"
        elif match := DECLARED.match(head):
            ended = Declaration(match[3], match[2], bool(match[1]), start, len(text), blocks[-1] == 0, match[4].strip())
        elif match := SIGNATURE.match(head):
            marks = match[1].split()
            kind = " ".join(mark for mark in marks if mark != "pub")
            ended = Declaration(match[2], kind, "pub" in marks, start, len(text), blocks[-1] == 0, match[3].strip())
        if ended is None:
            continue
        if current is not None:
            current.end = start
        current = ended if isinstance(ended, Declaration) else None
        if current is not None:
            found.append(current)
    for one in found:
        if one.kind in ("record", "data"):
            one.members = [(m[1], m.start(1)) for m in MEMBER.finditer(text, text.find("\n", one.start), one.end)]
    return found


@dataclass
class Use:
    module: str
    items: list  # (name there, name here)
    alias: str
    passed_on: bool
    start: int
    end: int


def uses(text):
    """The `use` and `ghost use` lines of a bare text."""
    found = []
    for match in USE.finditer(text):
        items = []
        for item in (match[3] or "").split(","):
            words = item.split()
            if words and words[0] != "syntax":
                items.append((words[0], words[-1]))
        alias = match[4] or ("" if match[3] is not None else match[2].split(".")[-1])
        found.append(Use(match[2], items, alias, bool(match[1]), match.start(), match.end()))
    return found


def module(path):
    """A module of a crate as (crate, specs or proofs, dotted path below it), or None."""
    match = OURS.match(path)
    return match and (match[1], match[2], match[3] or "")


# ---- Rattle

def bare_source(text):
    """A text of Rattle with comments, strings and characters blanked."""
    return re.sub(r"""//[^\n]*|/\*.*?\*/|b?"(?:\\.|[^"\\])*"|b'(?:\\.|[^'\\])'""", blank, text, flags=re.S)


@dataclass
class Function:
    name: str
    owner: str  # the type whose `impl` it stands in, or ""
    public: bool
    start: int
    clauses: list  # of its contract: (requires or ensures, start, end)
    body: int  # where its body begins


IMPL = re.compile(r"^impl(?:<[^>]*>)?[ \t]+(?:[^{\n]*[ \t]for[ \t]+)?(\w+)[^{\n]*\{", re.M)
FUNCTION = re.compile(r"^[ \t]*(pub(?:\([^)]*\))?[ \t]+)?(?:const[ \t]+)?(?:extern[ \t]+)?fn[ \t]+(\w+)", re.M)


def closing(text, at):
    """Where the bracket that opens at `at` is closed."""
    depth = 0
    for place in range(at, len(text)):
        if text[place] in "([{":
            depth += 1
        elif text[place] in ")]}":
            depth -= 1
            if depth == 0:
                return place
    return len(text)


def functions(text):
    """The functions of a bare text of Rattle, each with the clauses of its contract."""
    owners = [(m.start(), closing(text, m.end() - 1), m[1]) for m in IMPL.finditer(text)]
    found = []
    for match in FUNCTION.finditer(text):
        owner = next((name for start, end, name in owners if start < match.start() < end), "")
        place, clauses = closing(text, text.find("(", match.end())), []
        while (bracket := re.compile(r"[\[{;]").search(text, place + 1)) and bracket.group() != ";":
            end = closing(text, bracket.start())
            if bracket.group() == "{":
                clause = re.search(r"\b(requires|ensures|ghost)\b\*?(?:\s+\w+)?\s*$", text[place + 1:bracket.start()])
                if clause is None:  # the body
                    break
                clauses.append((clause[1], place + 1 + clause.start(), end))
            place = end
        body = bracket.start() if bracket else len(text)
        found.append(Function(match[2], owner, match[1] is not None and match[1].strip() == "pub", match.start(), clauses, body))
    return found
