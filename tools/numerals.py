"""Numbers as a map's text spells them. A binary64 number is carried as its 64 bits, so that every one of them survives."""
import math
import re
import struct

from files import Trouble

NUMBER = re.compile(r"[+-]?(?:[0-9]+\.?[0-9]*|\.[0-9]+)(?:[eE][+-]?[0-9]+)?|[+-]?inf")
BITS = re.compile(r"bits:[0-9a-fA-F]{16}")
COUNT = re.compile(r"([0-9]{1,20})(?:\.([0-9]+)(?=[kM]))?([kM])?")
COUNT_MOST = 2**32 - 1


def value(bits):
    return struct.unpack("<d", struct.pack("<Q", bits))[0]


def bits_of(number):
    return struct.unpack("<Q", struct.pack("<d", number))[0]


def spelled(bits):
    """A text that gives these bits back."""
    number = value(bits)
    return f"bits:{bits:016x}" if math.isnan(number) else repr(number)


def read_float(word, what):
    """The bits of a binary64 number."""
    if BITS.fullmatch(word):
        return int(word[5:], 16)
    if not NUMBER.fullmatch(word):
        raise Trouble(f"{what}: {word} is no number")
    number = float(word)
    if math.isinf(number) and "inf" not in word:
        raise Trouble(f"{what}: {word} is too large for a binary64 number")
    return bits_of(number)


def read_step(word, what):
    """As read_float; a quotient such as 360/7 too."""
    above, slash, below = word.partition("/")
    if not slash:
        return read_float(word, what)
    top, bottom = value(read_float(above, what)), value(read_float(below, what))
    if bottom == 0 or not math.isfinite(top) or not math.isfinite(bottom):
        raise Trouble(f"{what}: {word} is no number")
    return bits_of(top / bottom)


def read_whole(word, what, most):
    """A whole number from 0 to `most`."""
    if not re.fullmatch(r"[0-9]+", word):
        raise Trouble(f"{what}: {word} is no whole number from 0 up")
    digits = word.lstrip("0") or "0"
    if len(digits) > 10 or int(digits) > most:
        raise Trouble(f"{what}: {word} is above {most:,}")
    return int(digits)


def read_count(word):
    """People of a cell; `k` and `M` stand for thousands and millions: 350k, 1.2M."""
    form = COUNT.fullmatch(word)
    if not form:
        raise Trouble(f"a count: {word} is no whole number from 0 up")
    whole, part, letter = form.groups()
    zeros = {"k": 3, "M": 6}.get(letter, 0)
    if len(part or "") > zeros:
        raise Trouble(f"a count: {word} is no whole number of people")
    people = int(whole + (part or "").ljust(zeros, "0"))
    if people > COUNT_MOST:
        raise Trouble(f"a count: {word} is above {COUNT_MOST:,}")
    return people


def spelled_count(people):
    """Thousands, and tenths of a million, where they are exact."""
    if people >= 1_000_000 and people % 100_000 == 0:
        return f"{people / 1_000_000:.1f}M".replace(".0M", "M")
    if people >= 1_000 and people % 1_000 == 0:
        return f"{people // 1_000}k"
    return str(people)
