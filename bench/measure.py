"""What bench/count and bench/beside share: the program of bench.rs with a library, the calls it is asked for, and their counting."""
import collections
import os
import re
import shutil
import signal
import subprocess
import sys
import tempfile

HERE = os.path.dirname(os.path.abspath(__file__))
OWN = "target/staticlib/libjadurphen.a"
KINDS = {
    "questions": "questions 1 to 6", "circle": "single circle", "search": "search", "smallest": "smallest radius",
    "again": "smallest radius again", "put": "put",
}
FUNCTIONS = {
    "questions": "jadurphen_search", "circle": "jadurphen_circle", "search": "jadurphen_search", "smallest": "jadurphen_smallest",
    "again": "jadurphen_smallest", "put": "jadurphen_put",
}
WHICH = {"questions": "refused at the {} angle", "smallest": "share {}", "again": "share {}"}
# Bytes that memcpy moves with `rep movsb` would count as an instruction each.
PLAIN = {"GLIBC_TUNABLES": "glibc.cpu.hwcaps=-ERMS"}
PART = re.compile(r"^desc: Trigger: (.*)$|^totals: ([0-9]+)$", re.MULTILINE)


class Trouble(Exception):
    """What is wrong, in words."""


def say(text):
    print(text, file=sys.stderr, flush=True)


def main(name, run):
    """Runs a script: a fault is told and gives the status 1. A signal too lets it remove what it made and end what it started."""
    signal.signal(signal.SIGTERM, lambda *_: sys.exit(1))
    try:
        run()
    except Trouble as trouble:
        say(f"{name}: {trouble}")
        sys.exit(1)
    except KeyboardInterrupt:
        sys.exit(1)


def folder():
    """A folder for programs and counts, removed at the end."""
    place = os.path.join(os.path.dirname(HERE), "target", "bench")
    os.makedirs(place, exist_ok=True)
    return tempfile.TemporaryDirectory(dir=place)


# ---- calls

class Call(collections.namedtuple("Call", "size spread kind which")):
    """A call as `bench list` names it: which is a radius, a share or the spoilt angle of the sheet, or nothing."""

    @classmethod
    def of(cls, line):
        return cls(*(line.split() + [""])[:4])

    def line(self):
        return " ".join(self).rstrip()

    def name(self):
        words = [KINDS[self.kind], self.size.replace("x", " × ")]
        if self.kind in ("search", "smallest", "again"):
            words.append(self.spread)
        if self.which:
            words.append(WHICH.get(self.kind, "{} km").format(self.which))
        return ", ".join(words)


# ---- libraries and their programs

class Library:
    """A static library, and the program that is linked with it."""

    def __init__(self, path, name, place):
        self.name, self.program = name, os.path.join(place, "bench")
        say(f"building with {name}")
        if subprocess.run([os.path.join(HERE, "build"), place] + ([path] if path else [])).returncode:
            raise Trouble(f"no program with {name}")

    def calls(self):
        run = subprocess.run([self.program, "list"], stdout=subprocess.PIPE, text=True)
        if run.returncode:
            raise Trouble(f"the program with {self.name} lists no calls")
        return [Call.of(line) for line in run.stdout.splitlines()]


def linked(paths, place):
    """The libraries with their programs; None is the module's own. Those of one file name go by their paths."""
    for path in paths:
        if path and not os.path.isfile(path):
            raise Trouble(f"{path}: no such file")
    names = [os.path.basename(path or OWN) for path in paths]
    names = [path or OWN if names.count(name) > 1 else name for path, name in zip(paths, names)]
    return [Library(path, name, os.path.join(place, str(i))) for i, (path, name) in enumerate(zip(paths, names))]


class Asked:
    """A running program that answers each line with a line."""

    def __init__(self, name, command, **more):
        self.name = name
        self.process = subprocess.Popen(
            command + ["ask"], stdin=subprocess.PIPE, stdout=subprocess.PIPE, text=True, bufsize=1, env=dict(os.environ, **more))

    def __enter__(self):
        return self

    def __exit__(self, kind, *_):
        if kind:
            self.process.kill()
        try:
            self.process.stdin.close()
        except OSError:
            pass
        self.process.stdout.close()
        if self.process.wait() and not kind:
            raise Trouble(f"the program with {self.name} ended with {self.process.returncode}")

    def ask(self, request):
        try:
            self.process.stdin.write(request + "\n")
            answer = self.process.stdout.readline()
        except OSError:
            answer = ""
        if not answer:
            raise Trouble(f"the program with {self.name} gave no answer: {request}")
        return answer.rstrip("\n")

    def once(self, call):
        return self.ask(f"once {call.line()}")

    def time(self, call):
        return float(self.ask(f"time {call.line()}"))


def hold_equal(call, libraries, answers):
    """Ends the run where the libraries' answers to a call differ, and tells where."""
    if len(set(answers)) > 1:
        start = max(len(os.path.commonprefix(answers)) - 60, 0)
        told = "".join(
            f"\n  {library.name}: {'..' if start else ''}{answer[start:start + 120]}" for library, answer in zip(libraries, answers))
        raise Trouble(f"the answers differ: {call.name()}{told}")


# ---- counting

def parts(path, function):
    """The instructions of each part of callgrind's file: a part a call, and one without any for the end of the program."""
    with open(path, encoding="utf-8", errors="replace") as file:
        found = PART.findall(file.read())
    triggers, totals = [trigger for trigger, _ in found[::2]], [int(total or -1) for _, total in found[1::2]]
    if set(triggers[:-1]) - {f"--dump-after={function}"} or totals[-1:] != [0]:
        raise Trouble(f"callgrind's parts are not those of {function}")
    return totals[:-1]


def counted(library, calls, place):
    """Each call made once: answers and instructions inside the library. One that asks again stands after its first.

    Each function has a run of its own: of settings for several functions callgrind heeds only some.
    """
    valgrind = shutil.which("valgrind")
    if valgrind is None:
        raise Trouble("valgrind is not on the path")
    answers, counts = {}, {}
    for function in dict.fromkeys(FUNCTIONS[call.kind] for call in calls):
        made = [call for call in calls if FUNCTIONS[call.kind] == function]
        out = os.path.join(place, function)
        command = [
            valgrind, "-q", "--tool=callgrind", f"--toggle-collect={function}", f"--dump-after={function}", "--combine-dumps=yes",
            f"--callgrind-out-file={out}", library.program,
        ]
        say(f"counting {len(made)} calls of {function} with {library.name}")
        with Asked(library.name, command, **PLAIN) as program:
            answers.update((call, program.once(call)) for call in made)
        found = parts(out, function)
        os.remove(out)
        if len(found) != len(made):
            raise Trouble(f"callgrind counted {len(found)} calls of {function}, not {len(made)}")
        counts.update(zip(made, found))
    return answers, counts


def counts_of(libraries, calls, place):
    """The instructions of each call by library, the answers held equal."""
    results = [counted(library, calls, place) for library in libraries]
    for call in calls:
        hold_equal(call, libraries, [answers[call] for answers, _ in results])
    return [counts for _, counts in results]


# ---- tables

def ratio(first, second):
    """Nothing where one of them is nothing."""
    if first <= 0 or second <= 0:
        return ""
    times = first / second
    return f"{times:.2f}" if times < 9.995 else f"{times:.1f}" if times < 99.95 else f"{times:.0f}"


def table(heads, rows):
    print(f"| {' | '.join(heads)} |\n|{'---|' * len(heads)}")
    for row in rows:
        print(f"| {' | '.join(row)} |")
