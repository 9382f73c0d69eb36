"""The lines that `circles` prints, and the circles that they name."""
import jobs
from files import Trouble
from numerals import value

FIELDS = {"most": 11, "least": 8}
REFUSALS = {
    1: "width 1 to 180, height 1 to 90", 2: "latitudes", 3: "the columns make no full turn", 4: "the number of counts",
    5: "the size of the sheet", 6: "the sheet's numbers or their order", 7: "the buffers", 8: "the radius", 9: "the share",
    10: "the spacing", 11: "the ledger", 12: "no free ledger places", 13: "bytes that are no command, or no E at the end",
    14: "a command before the grid, a second grid, or a grid too large for a job", 15: "an index off the grid",
}


class Circle:
    """A circle on a map: its cells and people, and the question that it answers, if one."""

    def __init__(self, km, row, col, world):
        self.km, self.row, self.col = km, row, col
        self.cells = world.circle(km, row, col)
        self.people = world.people(self.cells)
        self.total = sum(world.counts)
        self.asked, self.share, self.short = None, None, None


def answered(commands, data, number):
    """The map at the question that a line of the program answers, and the line's circle."""
    lines = [line for line in data.decode(errors="replace").split("\n") if line.strip()]
    if not 1 <= number <= len(lines):
        raise Trouble(f"no line {number}: the program printed {len(lines)}")
    words = lines[number - 1].split()
    try:
        world, asked = jobs.question(commands, number)
        return world, named(world, asked, fields(words))
    except Trouble as fault:
        raise Trouble(f"line {number} ({' '.join(words)[:60]}): {fault}") from None


def fields(words):
    """A line's first word, then its numbers, none for a `-`."""
    numbers = [int(word) if word.isascii() and word.isdigit() else None for word in words[1:]]
    if words[0] == "refused" and len(numbers) == 1:
        raise Trouble(f"no circle to draw, the program refused: {REFUSALS.get(numbers[0], 'an unknown number')}")
    if len(numbers) != FIELDS.get(words[0]) or None in numbers[:4]:
        raise Trouble("no line that the program prints")
    return [words[0], *numbers]


def named(world, asked, line):
    """The circle that a line names, held against the map."""
    name, km, row, col, people, *more = line
    if asked is None:
        raise Trouble("the map asks no such question")
    letter, _, operand = asked
    if name != {"M": "most", "R": "least"}[letter] or letter == "M" and km != operand:
        raise Trouble(f"the map asks something else there: {jobs.line_of(asked)}")
    circle = Circle(km, row, col, world)
    if circle.people != people:
        raise Trouble(f"on this map that circle holds {circle.people:,} people; are these the lines of another map?")
    circle.asked = name
    if name == "least":
        circle.share = value(operand)
        circle.short = None if None in more[:2] else (more[0], more[1])
    return circle
