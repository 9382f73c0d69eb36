"""The map that a job's commands build up: a grid with its counts and its sheet, and the circles on it."""
import math

from files import Trouble
from numerals import bits_of, value

COLUMNS, ROWS = 24, 12
EARTH_RADIUS_KM = 6371.0088
CEILING_KM = 20_016
HALF_TURN = 3.141592653589793
RADIAN = 0.017453292519943295
NEAR = 1e-9
ONE = bits_of(1.0)


class World:
    """Angles and cosines are kept as bits. What is not set is 0, a cosine 1."""

    def __init__(self, width, height, origin, lon_step, lat_step):
        self.width, self.height = width, height
        self.origin, self.lon_step, self.lat_step = value(origin), value(lon_step), value(lat_step)
        self.closing = width // 2
        judge_grid(self)
        self.counts = [0] * (width * height)
        self.angles = [0] * (height * height * (self.closing + 1))
        self.cosines = [ONE] * height
        self.sphere = None

    def cell(self, row, col):
        if row >= self.height or col >= self.width:
            raise Trouble(f"cell ({row}, {col}) is off the grid of {self.height} rows and {self.width} columns (refusal 15)")
        return row * self.width + col

    def row(self, row):
        if row >= self.height:
            raise Trouble(f"row {row} is off the grid of {self.height} rows (refusal 15)")
        return row

    def place(self, centre, row, offset):
        """Where the sheet has an angle."""
        if offset > self.closing:
            raise Trouble(f"offset {offset} is above {self.closing}, half the columns (refusal 15)")
        return (self.row(centre) * self.height + self.row(row)) * (self.closing + 1) + offset

    def centre_lat(self, row):
        return self.origin + (row + 0.5) * self.lat_step

    def apply(self, letter, *operands):
        """What a command does to the map; questions do nothing."""
        if letter == "C":
            self.counts[self.cell(*operands[:2])] = operands[2]
        elif letter == "K":
            self.cosines[self.row(operands[0])] = operands[1]
        elif letter == "A":
            self.angles[self.place(*operands[:3])] = operands[3]
        elif letter == "G":
            raise Trouble("a second grid (refusal 14)")

    def haversine(self):
        """The commands that make this the sheet of a sphere: cosines, then angles, where they differ from what is set."""
        if self.sphere is None:
            self.sphere = sphere(self)
        cosines, angles = self.sphere
        places = ((c, r, k) for c in range(self.height) for r in range(self.height) for k in range(self.closing + 1))
        commands = [("K", row, new) for row, (new, old) in enumerate(zip(cosines, self.cosines)) if new != old]
        return commands + [("A", *place, new) for place, new, old in zip(places, angles, self.angles) if new != old]

    def circle(self, km, row, col):
        """The cells of a circle: their angle, by rows and distance around the ring, does not exceed the radius's."""
        self.cell(row, col)
        reach = min(km / EARTH_RADIUS_KM, HALF_TURN)
        cells = set()
        for r in range(self.height):
            for c in range(self.width):
                apart = abs(c - col)
                offset = min(apart, self.width - apart)
                if km != 0 and value(self.angles[self.place(row, r, offset)]) <= reach:
                    cells.add((r, c))
        return cells

    def people(self, cells):
        return sum(self.counts[self.cell(*cell)] for cell in cells)


def judge_grid(grid):
    """What a job's G is refused for, in the program's order."""
    if grid.width > COLUMNS or grid.height > ROWS:
        raise Trouble(f"a grid of {grid.width} columns and {grid.height} rows: a job has at most {COLUMNS} and {ROWS} (refusal 14)")
    if grid.width < 1 or grid.height < 1:
        raise Trouble("a grid has at least one column and one row (refusal 1)")
    if not all(map(math.isfinite, (grid.origin, grid.lon_step, grid.lat_step))):
        raise Trouble("origin and steps must be finite (refusal 2)")
    if grid.lat_step == 0:
        raise Trouble("the latitude step is 0 (refusal 2)")
    for edge in (grid.origin, grid.origin + grid.height * grid.lat_step):
        if not abs(edge) <= 90 + NEAR:
            raise Trouble(f"the rows reach latitude {edge!r}, past a pole (refusal 2)")
    if not abs(grid.width * abs(grid.lon_step) - 360) <= NEAR:
        raise Trouble(f"{grid.width} columns of {grid.lon_step!r} degrees make no full turn (refusal 3)")


def sphere(grid):
    """Cosines and angles of the grid by the haversine formula, in the order of operations in which the original fills its sheet.

    Sine, cosine and arctangent are the C library's: another library may give another last bit.
    """
    lats = [grid.centre_lat(row) * RADIAN for row in range(grid.height)]
    turns = [k * grid.lon_step * RADIAN for k in range(grid.closing + 1)]

    def angle(start, end, turn):
        across, along = math.sin((end - start) / 2), math.sin(turn / 2)
        h = across * across + math.cos(start) * math.cos(end) * (along * along)
        h = min(max(h, 0.0), 1.0)
        return 2 * math.atan2(math.sqrt(h), math.sqrt(1 - h))

    angles = [bits_of(angle(start, end, turn)) for start in lats for end in lats for turn in turns]
    return [bits_of(math.cos(lat)) for lat in lats], angles
