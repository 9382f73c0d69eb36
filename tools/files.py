"""Whole files in and out, and faults told in one line: what the tools share."""
import argparse
import os
import stat
import sys


class Trouble(Exception):
    """What is wrong, in words for whoever wrote the file."""


class Parser(argparse.ArgumentParser):
    """Wrong arguments are told like any other fault."""

    def error(self, message):
        raise Trouble(f"{message}\n{self.format_usage().rstrip()}")


def load(path):
    """All bytes of a file; `-` is standard input."""
    try:
        if path == "-":
            return sys.stdin.buffer.read()
        with open(path, "rb") as file:
            return file.read()
    except (OSError, ValueError) as fault:
        raise Trouble(f"cannot read {path}: {reason(fault)}") from None


def save(path, data):
    """Writes a file whole or not at all: beside its place first, then renamed. `-` is standard output."""
    if path == "-":
        sys.stdout.buffer.write(data)
        sys.stdout.buffer.flush()
        return
    beside = None
    try:
        place = os.path.realpath(path)
        if os.path.lexists(place) and not stat.S_ISREG(os.stat(place).st_mode):
            raise Trouble(f"cannot write {path}: it is there and is no regular file")
        name = f"{place}.{os.getpid()}.part"
        with open(name, "xb") as file:
            beside = name
            file.write(data)
        os.replace(beside, place)
        beside = None
    except (OSError, ValueError) as fault:
        raise Trouble(f"cannot write {path}: {reason(fault)}") from None
    finally:
        if beside is not None:
            os.unlink(beside)


def reason(fault):
    return getattr(fault, "strerror", None) or str(fault)


def run(name, main):
    """Runs a tool; a fault is one line on standard error and status 1."""
    try:
        main(sys.argv[1:])
    except Trouble as fault:
        print(f"{name}: {fault}", file=sys.stderr)
        sys.exit(1)
    except BrokenPipeError:
        # The reader of our output has gone; keep the interpreter from writing to it once more.
        os.dup2(os.open(os.devnull, os.O_WRONLY), sys.stdout.fileno())
        sys.exit(1)
    except KeyboardInterrupt:
        sys.exit(130)
