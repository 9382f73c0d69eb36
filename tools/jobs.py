"""A job: its bytes, the map it builds up, and the text that says the same.

The text has one setting or question a line; `#` starts a comment, blank lines are skipped.

  grid WIDTH HEIGHT origin LAT steps LON LAT   first, once: columns and rows, the latitude of row 0's edge, and the degrees
                                               from column to column and from row to row (negative southward); 360/7 is a step too
  counts                                       then HEIGHT lines of WIDTH words, the map as a picture: a count, or `.` for a cell
                                               that is left as it is; 350k is 350,000 and 1.2M is 1,200,000
  count ROW COLUMN PEOPLE                      the people of one cell
  sheet haversine                              angles and cosines of the grid on a sphere
  cosine ROW VALUE                             the cosine of a row
  angle CENTRE ROW OFFSET VALUE                the angle, in radians, from a centre row to a row so many columns away
  most KM spacing CELLS|automatic              asks for the fullest circle of a radius
  least SHARE spacing CELLS|automatic          asks for the smallest radius that holds a share of all people

Counts and angles that are not set are 0, cosines 1. A binary64 number may stand as its bits, `bits:7ff8000000000000`, which is the
only way to write a NaN. A line with a number that the program will refuse (a radius above 20,016 km, a share outside 0 to 1, a
cosine or an angle out of range) must end with the word `anyway`.
"""
import struct

from files import Trouble
from numerals import read_count, read_float, read_step, read_whole, spelled, spelled_count, value
from world import CEILING_KM, HALF_TURN, World

LONGEST = 65_536
# A letter, then these operands, little-endian; a binary64 number as its bits.
OPERANDS = {"G": "<BBQQQ", "C": "<BBI", "K": "<BQ", "A": "<BBBQ", "M": "<HH", "R": "<HQ"}
AUTOMATIC = 0
BOM = b"\xef\xbb\xbf"


def judge_number(letter, operands):
    """What M or R will refuse in one number, or nothing. The order of the angles is left to the program."""
    last = operands[-1]
    if letter == "M" and last > CEILING_KM:
        return f"radius {last} is above {CEILING_KM:,} km (refusal 8)"
    if letter == "R" and not 0 < value(last) <= 1:
        return f"share {spelled(last)} is not above 0 and at most 1 (refusal 9)"
    if letter == "K" and not 0 < value(last) <= 1:
        return f"cosine {spelled(last)} is not above 0 and at most 1 (refusal 6)"
    if letter == "A" and not 0 <= value(last) <= HALF_TURN:
        return f"angle {spelled(last)} is not from 0 to {HALF_TURN} (refusal 6)"
    return None


# ---- bytes

def pack(letter, *operands):
    return letter.encode() + struct.pack(OPERANDS[letter], *operands)


def decoded(data):
    """Each command of a job's bytes with the place of its letter, the E left off."""
    if len(data) > LONGEST:
        raise Trouble(f"{len(data):,} bytes: a job has at most {LONGEST:,} (refusal 13)")
    place = 0
    while place < len(data):
        letter = chr(data[place])
        if letter == "E":
            if place + 1 < len(data):
                raise Trouble(f"byte {place + 1}: {len(data) - place - 1} bytes after E (refusal 13)")
            return
        if letter not in OPERANDS:
            raise Trouble(f"byte {place}: {data[place]:#04x} is no command (refusal 13)")
        size = struct.calcsize(OPERANDS[letter])
        if len(data) < place + 1 + size:
            raise Trouble(f"byte {place}: {letter} wants {size} bytes, {len(data) - place - 1} are left (refusal 13)")
        yield place, (letter, *struct.unpack_from(OPERANDS[letter], data, place + 1))
        place += 1 + size
    raise Trouble("the job has no E at its end (refusal 13)")


def after(world, commands):
    """The map after more commands; none stands before the first."""
    for command in commands:
        if world is not None:
            world.apply(*command)
        elif command[0] == "G":
            world = World(*command[1:])
        else:
            raise Trouble("the grid must come first (refusal 14)")
    return world


def unpacked(data):
    """The commands of a job's bytes, run in turn, so that the first fault is told."""
    world, commands = None, []
    for place, command in decoded(data):
        try:
            world = after(world, [command])
        except Trouble as fault:
            raise Trouble(f"byte {place}: {fault}") from None
        commands.append(command)
    if world is None:
        raise Trouble("no grid (refusal 14)")
    return commands


def question(commands, number):
    """The map at a question, counted from 1, and the question; neither where fewer are asked."""
    world = None
    for command in commands:
        number -= command[0] in "MR"
        if number == 0:
            return world, command
        world = after(world, [command])
    return None, None


# ---- from text

def expect(words, form):
    """The operands of a line, which must be as many as the form's."""
    if len(words) != len(form.split()):
        raise Trouble(f"write `{form}`")
    return words[1:]


def read_index(word, what):
    """Any number that could be meant; the map says whether it is on the grid."""
    return read_whole(word, what, 2**32 - 1)


def read_grid(words):
    form = "grid WIDTH HEIGHT origin LAT steps LON LAT"
    width, height, origin, lat, steps, lon_step, lat_step = expect(words, form)
    if (origin, steps) != ("origin", "steps"):
        raise Trouble(f"write `{form}`")
    return (
        "G", read_index(width, "the width"), read_index(height, "the height"), read_float(lat, "the origin"),
        read_step(lon_step, "the longitude step"), read_step(lat_step, "the latitude step"),
    )


def read_question(words):
    """A line `most` or `least`."""
    what = {"most": "most KM", "least": "least SHARE"}[words[0]]
    if len(words) != 4 or words[2] != "spacing":
        raise Trouble(f"write `{what} spacing CELLS` or `{what} spacing automatic`")
    spacing = AUTOMATIC
    if words[3] != "automatic":
        spacing = read_whole(words[3], "the spacing", 65_535)
        if spacing == AUTOMATIC:
            raise Trouble("a spacing is at least 1; write `automatic` to let the module choose")
    if words[0] == "most":
        return ("M", spacing, read_whole(words[1], "the radius", 65_535))
    return ("R", spacing, read_float(words[1], "the share"))


def read_setting(words):
    """A line of one command, but `grid`."""
    if words[0] == "count":
        row, col, people = expect(words, "count ROW COLUMN PEOPLE")
        return ("C", read_index(row, "the row"), read_index(col, "the column"), read_count(people))
    if words[0] == "cosine":
        row, cosine = expect(words, "cosine ROW VALUE")
        return ("K", read_index(row, "the row"), read_float(cosine, "the cosine"))
    if words[0] == "angle":
        centre, row, offset, angle = expect(words, "angle CENTRE ROW OFFSET VALUE")
        places = read_index(centre, "the centre row"), read_index(row, "the row"), read_index(offset, "the offset")
        return ("A", *places, read_float(angle, "the angle"))
    if words[0] in ("most", "least"):
        return read_question(words)
    raise Trouble(f"{words[0]} is no word of a map")


def read_line(words, world):
    """The commands of a line other than a picture's."""
    if words == ["sheet", "haversine"]:
        if world is None:
            raise Trouble("the grid must come first")
        return world.haversine()
    if words[0] == "sheet":
        raise Trouble("write `sheet haversine`")
    if words[0] == "grid":
        return [read_grid(words)]
    anyway = len(words) > 1 and words[-1] == "anyway"
    command = read_setting(words[:-1] if anyway else words)
    fault = judge_number(command[0], command[1:])
    if fault and not anyway:
        raise Trouble(f"{fault}; end the line with `anyway` to write it all the same")
    return [command]


def read_picture(words, world, row):
    if len(words) != world.width:
        raise Trouble(f"row {row} of the picture has {len(words)} cells, the grid {world.width} columns")
    return [("C", row, col, read_count(word)) for col, word in enumerate(words) if word != "."]


def parsed(data):
    """The commands of a text."""
    world, commands, length, row = None, [], 1, None
    for number, line in enumerate(data.removeprefix(BOM).split(b"\n"), 1):
        try:
            words = line.decode().partition("#")[0].split()
            if not words:
                continue
            if row is not None:
                new = read_picture(words, world, row)
                row = row + 1 if row + 1 < world.height else None
            elif words[0] == "counts":
                expect(words, "counts")
                if world is None:
                    raise Trouble("the grid must come first")
                new, row = [], 0
            else:
                new = read_line(words, world)
            world = after(world, new)
            commands += new
            length += sum(1 + struct.calcsize(OPERANDS[command[0]]) for command in new)
            if length > LONGEST:
                raise Trouble(f"here the job grows beyond {LONGEST:,} bytes (refusal 13)")
        except UnicodeDecodeError:
            raise Trouble(f"line {number}: not UTF-8 text") from None
        except Trouble as fault:
            raise Trouble(f"line {number}: {fault}") from None
    if row is not None:
        raise Trouble(f"line {number}: the text ends in a picture, after {row} of {world.height} rows")
    if world is None:
        raise Trouble("the text has no grid")
    return commands


def written(text):
    """The bytes of a text's job."""
    return b"".join(pack(*command) for command in parsed(text)) + b"E"


# ---- to text

KINDS = {"G": "grid", "C": "counts", "K": "sheet", "A": "sheet", "M": "questions", "R": "questions"}


def told(data, angles=False):
    """A text whose job is these bytes. The sphere's sheet stands as `sheet haversine`, unless every angle is asked for."""
    commands = unpacked(data)
    lines, world, kind, at = [], None, None, 0
    while at < len(commands):
        before, kind = kind, KINDS[commands[at][0]]
        if kind != before and before is not None:
            lines.append("")
        sheet = kind == "sheet" != before and not angles
        part, run = told_next(world, commands[at:], sheet)
        lines += part
        world = after(world, run)
        at += len(run)
    text = ("\n".join(lines) + "\n").encode()
    assert written(text) == data, "the text would write another job"
    return text


def told_next(world, commands, sheet):
    """The next lines, and the commands that they stand for. Counts are a picture where that is shorter."""
    filled = world.haversine() if sheet else []
    if filled and commands[:len(filled)] == filled:
        return ["sheet haversine"], filled
    run = rising_counts(commands)
    if not run:
        return [line_of(commands[0])], commands[:1]
    if len(run) > world.height:
        return picture(world, run), run
    return [line_of(command) for command in run], run


def rising_counts(commands):
    """The counts that these begin with, as far as row and column rise."""
    run = []
    for command in commands:
        if command[0] != "C" or run and command[1:3] <= run[-1][1:3]:
            break
        run.append(command)
    return run


def picture(world, run):
    people = {command[1:3]: spelled_count(command[3]) for command in run}
    rows = [[people.get((row, col), ".") for col in range(world.width)] for row in range(world.height)]
    size = max(len(word) for words in rows for word in words)
    return ["counts"] + ["  " + " ".join(word.rjust(size) for word in words) for words in rows]


def line_of(command):
    letter, *operands = command
    if letter == "G":
        width, height, origin, lon_step, lat_step = operands
        return f"grid {width} {height} origin {spelled(origin)} steps {spelled(lon_step)} {spelled(lat_step)}"
    if letter == "C":
        row, col, people = operands
        return f"count {row} {col} {spelled_count(people)}"
    end = " anyway" if judge_number(letter, operands) else ""
    if letter in "MR":
        spacing, asked = operands
        spacing = "automatic" if spacing == AUTOMATIC else spacing
        question = f"most {asked}" if letter == "M" else f"least {spelled(asked)}"
        return f"{question} spacing {spacing}{end}"
    name = "cosine" if letter == "K" else "angle"
    return " ".join([name, *map(str, operands[:-1]), spelled(operands[-1])]) + end
