"""A map and a circle on it as an SVG picture."""
import math
from xml.sax.saxutils import escape, quoteattr

MAP_WIDTH, CELL_LEAST, CELL_MOST = 1008, 42, 150
LEFT, RIGHT, TOP, NARROWEST, EDGE = 88, 62, 128, 1000, 44
BAR = 236
INK, SOFT, PAPER, MARK = "#22303c", "#6b7a86", "#fbfaf6", "#0e3a5d"
SEA, SEA_INSIDE = "#dfe9ee", "#bfd6e2"
RAMP = ("#fdf1c4", "#fbcd74", "#f2934a", "#cf4b45", "#8d2150", "#4c1149")


# ---- words

def short(people):
    """A count in at most four or five letters."""
    for scale, letter in ((10**9, "B"), (10**6, "M"), (10**3, "k")):
        if people >= 0.9995 * scale:
            number = people / scale
            return f"{number:.1f}{letter}" if number < 9.95 and people % scale else f"{number:.0f}{letter}"
    return str(people)


def percent(share):
    number = f"{100 * share:.4g}"
    return "over 99.99%" if share < 1 and number == "100" else f"{number}%"


def degrees(angle, step):
    """An angle exactly, if few digits do; else in as many as tell one step from the next."""
    most = min(max(2, math.ceil(-math.log10(abs(step))) + 1), 6)
    exact = [digits for digits in range(most + 1) if abs(angle - round(angle, digits)) < 1e-6]
    return f"{angle + 0.0:.{exact[0] if exact else most - 1}f}"


def latitude(angle, step):
    text = degrees(abs(angle), step)
    return f"{text}°" if not text.strip("0.") else f"{text}° {'N' if angle > 0 else 'S'}"


def longitude(angle, step, west):
    """East and west only where the map's own longitude is known."""
    if west is None:
        return f"{degrees(angle, step)}°"
    turned = (west + angle + 180) % 360 - 180
    text = degrees(abs(turned), step)
    return f"{text}°" if not text.strip("0.") or text.startswith("180") else f"{text}° {'E' if turned > 0 else 'W'}"


def sentence(world, circle):
    """What the picture shows."""
    if circle is None:
        return f"{sum(world.counts):,} people on {world.height} rows and {world.width} columns"
    if circle.asked == "most":
        return f"The fullest circle of {circle.km:,} km"
    if circle.asked == "least":
        return f"The smallest radius whose fullest circle holds {percent(circle.share)} of all people: {circle.km:,} km"
    return f"The circle of {circle.km:,} km around row {circle.row}, column {circle.col}"


def facts(world, circle, west):
    """Name, value and a remark for each fact of the legend."""
    if circle is None:
        return []
    lat = latitude(world.centre_lat(circle.row), world.lat_step / 2)
    lon = longitude((circle.col + 0.5) * world.lon_step, world.lon_step / 2, west)
    share = f"{percent(circle.people / circle.total)} of {circle.total:,}" if circle.total else "nobody lives here"
    found = [
        ("Radius", f"{circle.km:,} km", f"{len(circle.cells)} of {world.width * world.height} cells"),
        ("Centre", f"row {circle.row}, column {circle.col}", f"{lat}, {lon}"),
        ("People in the circle", f"{circle.people:,}", share),
    ]
    if circle.share is not None:
        found.append(("Share asked for", percent(circle.share), f"{circle.share * circle.total:,.15g} people"))
    if circle.short is not None:
        km, people = circle.short
        found.append(("One kilometre less", f"{people:,}", f"in the fullest circle of {km:,} km"))
    return found


# ---- colours

def scale_of(counts):
    """The powers of ten below the least and above the greatest count that is not 0."""
    people = [n for n in counts if n] or [1]
    low = len(str(min(people))) - 1
    high = len(str(max(people) - 1)) if max(people) > 1 else 0
    return low, max(high, low + 1)


def mixed(part):
    """The ramp's colour at a part of it, 0 to 1."""
    place = min(max(part, 0.0), 1.0) * (len(RAMP) - 1)
    at = min(int(place), len(RAMP) - 2)
    ends = [[int(RAMP[at + i][1 + 2 * j:3 + 2 * j], 16) for j in range(3)] for i in (0, 1)]
    return "#" + "".join(f"{round(a + (b - a) * (place - at)):02x}" for a, b in zip(*ends))


def part_of(people, scale):
    low, high = scale
    return (math.log10(people) - low) / (high - low)


# ---- the frame: where things stand

class Frame:
    """North is up and east is right, whichever way rows and columns are counted."""

    def __init__(self, world):
        self.world = world
        self.cell_width = min(max(MAP_WIDTH / world.width, CELL_LEAST), CELL_MOST)
        self.cell_height = min(max(self.cell_width * abs(world.lat_step / world.lon_step), 24), CELL_MOST)
        self.map_width, self.map_height = self.cell_width * world.width, self.cell_height * world.height
        self.width = max(NARROWEST, LEFT + self.map_width + RIGHT)
        self.left = LEFT + (self.width - LEFT - RIGHT - self.map_width) / 2
        self.bottom = TOP + self.map_height

    def seen(self, row, col):
        """Row from the north and column from the west."""
        world = self.world
        return row if world.lat_step < 0 else world.height - 1 - row, col if world.lon_step > 0 else world.width - 1 - col

    def x(self, place):
        return self.left + place * self.cell_width

    def y(self, place):
        return TOP + place * self.cell_height


def clean(words):
    """Without what XML cannot hold."""
    return "".join(letter for letter in words if letter.isprintable())


def text(x, y, words, size, colour=INK, anchor="start", weight="normal"):
    return f'<text x="{x:.1f}" y="{y:.1f}" font-size="{size}" fill="{colour}" text-anchor="{anchor}" font-weight="{weight}">{escape(words)}</text>'


# ---- parts of the picture

def cells(frame, circle, scale):
    """Each cell with its people; those outside the circle are pale."""
    inside = circle.cells if circle is not None else set()
    for row in range(frame.world.height):
        for col in range(frame.world.width):
            held = (row, col) in inside
            yield from cell(frame, row, col, scale, held, 0.45 if circle is not None and not held else 1)


def cell(frame, row, col, scale, held, strength):
    people = frame.world.counts[frame.world.cell(row, col)]
    part = part_of(people, scale) if people else None
    fill = mixed(part) if people else SEA_INSIDE if held else SEA
    y, x = frame.seen(row, col)
    tip = f"row {row}, column {col}: {people:,} people{', in the circle' if held else ''}"
    yield (f'<rect x="{frame.x(x):.1f}" y="{frame.y(y):.1f}" width="{frame.cell_width:.1f}" height="{frame.cell_height:.1f}" '
           f'fill="{fill}" fill-opacity="{strength}" stroke="#ffffff" stroke-width="0.8"><title>{escape(tip)}</title></rect>')
    if people:
        colour = "#ffffff" if part > 0.55 and strength == 1 else INK
        yield text(frame.x(x + 0.5), frame.y(y + 0.5) + 4, short(people), 11, colour, "middle")


def outline(frame, circle):
    """The edge between the circle's cells and the others, and where the circle goes on across the seam."""
    world = frame.world
    held = {frame.seen(*cell) for cell in circle.cells}
    solid, seam = [], []
    for y in range(world.height + 1):
        for x in range(world.width):
            if ((y - 1, x) in held) != ((y, x) in held):
                solid.append(f"M{frame.x(x):.1f} {frame.y(y):.1f}H{frame.x(x + 1):.1f}")
    for y in range(world.height):
        for x in range(1, world.width):
            if ((y, x - 1) in held) != ((y, x) in held):
                solid.append(f"M{frame.x(x):.1f} {frame.y(y):.1f}V{frame.y(y + 1):.1f}")
        ends = [(x, (y, at) in held) for x, at in ((0, 0), (world.width, world.width - 1))]
        for x, at_end in ends:
            if at_end:
                across = all(other for _, other in ends)
                (seam if across else solid).append(f"M{frame.x(x):.1f} {frame.y(y):.1f}V{frame.y(y + 1):.1f}")
    common = 'fill="none" stroke-linecap="square"'
    if solid:
        yield f'<path d="{"".join(solid)}" {common} stroke="#ffffff" stroke-width="6" stroke-opacity="0.8"/>'
        yield f'<path d="{"".join(solid)}" {common} stroke="{MARK}" stroke-width="2.6"/>'
    if seam:
        yield f'<path d="{"".join(seam)}" fill="none" stroke="{MARK}" stroke-width="2" stroke-dasharray="2 5"/>'


def centre(frame, circle):
    """A ring about the centre's people, flat in a flat cell."""
    y, x = (place + 0.5 for place in frame.seen(circle.row, circle.col))
    width, height = min(frame.cell_width, 60) - 7, min(frame.cell_height, 60) - 7
    at = (f'x="{frame.x(x) - width / 2:.1f}" y="{frame.y(y) - height / 2:.1f}" width="{width:.1f}" height="{height:.1f}" '
          f'rx="{min(width, height) / 2:.1f}" fill="none"')
    yield f'<rect {at} stroke="#ffffff" stroke-width="5.5"/>'
    yield f'<rect {at} stroke="{MARK}" stroke-width="2.6"/>'


def axes(frame, west):
    """Degrees at the edges of rows and columns; the numbers of rows and columns, as answers name them, at their middles."""
    world = frame.world
    yield text(frame.left - 10, TOP - 12, "latitude", 11, SOFT, "end")
    for row in range(world.height + 1):
        y = row if world.lat_step < 0 else world.height - row
        yield text(frame.left - 10, frame.y(y) + 4, latitude(world.origin + row * world.lat_step, world.lat_step), 11, INK, "end")
        if row < world.height:
            yield text(frame.left + frame.map_width + 12, frame.y(frame.seen(row, 0)[0] + 0.5) + 4, str(row), 11, SOFT)
    yield text(frame.left + frame.map_width + 12, TOP - 12, "row", 11, SOFT)
    stride = max(1, math.ceil((50 if west is not None else 40) / frame.cell_width))
    for col in range(0, world.width + 1, stride):
        x = col if world.lon_step > 0 else world.width - col
        yield text(frame.x(x), frame.bottom + 18, longitude(col * world.lon_step, world.lon_step, west), 11, INK, "middle")
    for col in range(world.width):
        yield text(frame.x(frame.seen(0, col)[1] + 0.5), TOP - 12, str(col), 11, SOFT, "middle")
    yield text(frame.left, TOP - 28, "column", 11, SOFT)
    yield text(frame.left, frame.bottom + 36, "longitude" if west is not None else "longitude, counted from the edge of column 0", 11, SOFT)


def legend(frame, found, scale, top):
    """The facts, three to a line, and the colours beside them."""
    wide = (frame.width - 2 * EDGE - BAR) / 3
    for at, (name, told, more) in enumerate(found):
        x, y = EDGE + wide * (at % 3), top + 62 * (at // 3)
        yield text(x, y, name, 12, SOFT)
        yield text(x, y + 21, told, 18, INK, weight="bold")
        yield text(x, y + 37, more, 12, SOFT)
    yield from colour_bar(frame, scale, top)


def colour_bar(frame, scale, top):
    low, high = scale
    x, wide = frame.width - EDGE - BAR, BAR
    yield text(x, top, "People in a cell", 12, SOFT)
    yield f'<rect x="{x:.1f}" y="{top + 10:.1f}" width="{wide}" height="14" fill="url(#ramp)"/>'
    stride = math.ceil((high - low) / 6)
    for power in range(low, high + 1, stride):
        at = x + wide * (power - low) / (high - low)
        yield f'<path d="M{at:.1f} {top + 24:.1f}v5" stroke="{SOFT}"/>'
        yield text(at, top + 41, short(10**power), 11, INK, "middle")
    yield f'<rect x="{x:.1f}" y="{top + 56:.1f}" width="14" height="14" fill="{SEA}" stroke="{SOFT}" stroke-width="0.5"/>'
    yield text(x + 22, top + 67, "nobody", 11)


def svg(world, circle, title, west):
    title = clean(title)
    frame, scale, found = Frame(world), scale_of(world.counts), facts(world, circle, west)
    top = frame.bottom + 74
    height = top + max(1, math.ceil(len(found) / 3)) * 62 + 26
    words = sentence(world, circle)
    lines = [
        f'<svg xmlns="http://www.w3.org/2000/svg" width="{frame.width:.0f}" height="{height:.0f}" viewBox="0 0 {frame.width:.0f} {height:.0f}" '
        f'font-family="Helvetica, Arial, \'DejaVu Sans\', sans-serif" role="img" aria-label={quoteattr(title + ": " + words)}>',
        f"<title>{escape(title)}: {escape(words)}</title>",
        '<defs><linearGradient id="ramp">'
        + "".join(f'<stop offset="{at / (len(RAMP) - 1):.3f}" stop-color="{colour}"/>' for at, colour in enumerate(RAMP))
        + "</linearGradient></defs>",
        f'<rect width="100%" height="100%" fill="{PAPER}"/>',
        text(EDGE, 46, title, 26, weight="bold"),
        text(EDGE, 72, words, 15, SOFT),
        *axes(frame, west),
        *cells(frame, circle, scale),
    ]
    if circle is not None:
        lines.append(f'<g id="circle" data-km="{circle.km}" data-row="{circle.row}" data-col="{circle.col}" data-people="{circle.people}">')
        lines += [*outline(frame, circle), *centre(frame, circle), "</g>"]
    lines += [*legend(frame, found, scale, top), "</svg>"]
    return "\n".join(lines) + "\n"
