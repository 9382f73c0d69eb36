"""Running the prover and reading what it prints: errors, goals, the functions that it proved."""
import os
import re
import shutil
import subprocess
import tempfile
import time
from contextlib import contextmanager
from dataclasses import dataclass

import tree
from tree import Trouble

PLACE = re.compile(r"(?:\./)?(\S+?\.(?:rt|antt)):(\d+):(\d+): (.*)", re.S)
FUNCTION = re.compile(r"fn (\S+): (.*)", re.S)
DECLARED = re.compile(r"(?:struct|enum|impl|trait|const|static|union) (.+?): (?!proved$|no holes$)", re.S)
OPEN = re.compile(r"note: `(\S+)` of (\S+) must prove: (.*)", re.S)
WARNED = re.compile(r"warning: |rt: warning: |rt: note: (?=\S*must-fail/)")
# What is said of a declaration only because one below it was refused.
FOLLOWS = re.compile(r"was not admitted \(it has holes|cannot be unfolded because it was not admitted|declarations? that depends? on `[^`]*`, which was not")
# Whose lines follow: rt checks what a crate depends on first, where that has changed.
TURN = re.compile(r"rt: chose --jobs \d+ for (\w+)$")
DOTTED = re.compile(r"(?<![^\s(){};,@`«»])[A-Za-z][\w'-]+(?:\.[^\s(){}.;,@`«»]+)+")


@dataclass
class Said:
    """What the prover said: its status, its words in blocks (a line and the indented ones below it), and how long it took."""
    status: int
    blocks: list
    seconds: float

    def functions(self):
        """Each function by name, with what is said of it."""
        return {match[1]: match[2] for block in self.blocks if (match := FUNCTION.match(block))}

    def findings(self):
        """What there is to mend, in the prover's order: (kind, block), where the kind is `error`, `goal` (of a hole), `open` (a goal that is
        not proved) or `warning`. What only follows from an error is left out, and so are the names that an open goal can use."""
        found, stated = [], {}
        for block in self.blocks:
            if match := OPEN.match(block):
                stated[match[1]] = match[3].split("\n")[0]
        for block in self.blocks:
            note = block.startswith("note: ")
            match = PLACE.match(block[len("note: "):] if note else block)
            if match is None:
                if re.match(r"error\b|rt: .*did not build|rattle: no verdict", block) or DECLARED.match(block):
                    found.append(("error", block))
                elif WARNED.match(block):
                    found.append(("warning", block[len("rt: note: "):] if block.startswith("rt: note: ") else block))
                continue
            said = match[4]
            if said.startswith("it is not proved that"):
                name = re.search(r"\(`([^`]+)`\)", said)
                goal = stated.get(name[1]) if name else None
                found.append(("open", block[len("note: "):] + (f"\n  ⊢ {goal}" if goal else "")))
            elif note or said.startswith("note: ") or FOLLOWS.search(said) or "is not admitted: has-holes" in said:
                continue
            elif said.startswith("goal "):
                found.append(("goal", "\n".join(line for line in block.split("\n") if "Rattle's own names, which may change" not in line)))
            else:
                found.append(("error", block))
        return found

    def errors(self):
        """The findings that a proof owes: no hole's goal and no warning."""
        return [block for kind, block in self.findings() if kind in ("error", "open")]


def blocks(text):
    """Lines gathered with the indented ones that follow them."""
    found = []
    for line in text.split("\n"):
        if found and (line[:1].isspace() or not line):
            found[-1] += "\n" + line
        elif line:
            found.append(line)
    return [block.rstrip() for block in found]


def placed(found, crate):
    """The blocks with each place given from the repository's root."""
    whose, said = crate, []
    for block in found:
        if turn := TURN.match(block):
            whose = turn[1]
        said.append(re.sub(r"(^|^note: |^rt: note: | in |^wrote )(?:\./)?((?:src|specs|proofs|must-fail)/)", rf"\1crates/{whose}/\2", block))
    return said


def short(path):
    """A path without the modules before its name, which say where the name comes from; their names begin with a capital."""
    parts = path.split(".")
    modules = [index for index, part in enumerate(parts[:-1]) if part[:1].isupper()]
    if not modules or parts[-1] in ("antt", "rt", "md"):
        return path
    return ".".join(parts[modules[-1] + 1:]) if modules[-1] else parts[-1]


def shown(block, cut):
    """A block for a reader: names without their modules, and lines cut at so many characters (0: as the prover said it)."""
    if cut == 0:
        return block
    lines = []
    for line in block.split("\n"):
        match = PLACE.match(line)
        start, text = (f"{match[1]}:{match[2]}:{match[3]}: ", match[4]) if match else ("", line)
        line = start + DOTTED.sub(lambda found: short(found.group()), text)
        lines.append(line if len(line) <= cut else line[:cut] + f" .. ({len(line) - cut} more)")
    return "\n".join(lines)


def rt(base, crate, *words):
    """Runs `rt` in a crate's folder and reads all that it prints."""
    began = time.monotonic()
    try:
        ran = subprocess.run(["rt", *words], cwd=os.path.join(base, "crates", crate), stdin=subprocess.DEVNULL, stdout=subprocess.PIPE,
                             stderr=subprocess.STDOUT, check=False)
    except FileNotFoundError:
        raise Trouble("there is no `rt` on PATH: install the Rattle toolchain") from None
    said = placed(blocks(ran.stdout.decode(errors="replace")), crate)
    return Said(ran.returncode, said, time.monotonic() - began)


@contextmanager
def copy(base, crate):
    """A copy of a crate and of what it depends on in a repository of its own, below TMPDIR. It is removed at the end. `rt` goes by content and
    not by place: a check there begins with what one in the tree has kept."""
    folder = os.path.realpath(tempfile.mkdtemp(prefix="proof-"))
    try:
        crates = tree.listed(base)
        wanted = (crate, *tree.reached(base, crate))
        with open(os.path.join(folder, "crates.txt"), "w", encoding="utf-8") as file:
            file.writelines(f"{' '.join((name, *crates[name].marks))}: {' '.join(crates[name].needs)}\n" for name in wanted)
        bring(os.path.join(base, "HANDLES"), os.path.join(folder, "HANDLES"))
        for name in wanted:
            for part in tree.PARTS:
                bring(os.path.join(base, "crates", name, part), os.path.join(folder, "crates", name, part))
        yield folder
    finally:
        shutil.rmtree(folder, ignore_errors=True)


def bring(source, place):
    if os.path.isdir(source):
        shutil.copytree(source, place, symlinks=True)
    elif os.path.exists(source):
        os.makedirs(os.path.dirname(place), exist_ok=True)
        shutil.copy2(source, place)


def known(base, crate, wanted):
    """Refuses a function that no file of the crate declares, before the prover is run for it."""
    name = re.split(r"::|/", wanted)[-1]
    for path in tree.files(os.path.join(base, "crates", crate, "src"), ".rt"):
        if any(one.name == name for one in tree.functions(tree.bare_source(tree.read(path)))):
            return
    raise Trouble(f"{crate} has no function {wanted}")


def function_folder(folders, wanted):
    """The one folder among these, given from proofs/ down, that a function's name means: `f`, `module::f` or `Type::f`, or with slashes."""
    parts = [part for part in re.split(r"::|/", wanted) if part]
    found = sorted(folder for folder in folders if folder.replace("+", "").split("/")[-len(parts):] == parts)
    exact = [folder for folder in found if folder.replace("+", "").split("/") == parts]
    if len(found) > 1 and not exact:
        raise Trouble(f"{wanted} may be {', '.join(name.replace('/', '::') for name in found)}")
    return (exact or found or [None])[0]
