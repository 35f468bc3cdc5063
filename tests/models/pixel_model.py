"""A model of pictures, small and slow, pixel by pixel, and of what the commands of a script print.

A picture is a dictionary of pixels with their weights. A contour is filled by adding up, for each pixel, the quarter turns of the
path around its centre. The model shares nothing with the program but the rules of docs/user/LANGUAGE.md and
docs/user/PICTURES.md. It keeps the characters that are shipped, which `font_model.py` makes a font file of, and never answers
FileTooLong.
"""

from models.font_model import Character

FIELD = range(-4095, 4095)
WEIGHTS = (-3, -2, -1, 1, 2, 3)
MAX_COORDINATE = 4095
MAX_FACTOR = 4095
MAX_LINE = 65536
MAX_OPERATIONS = 1_000_000
MAX_POINTS = 4096
MAX_PROOF = 128
MAX_WEIGHT = 32767
PRINTED = bytes([9, *range(32, 127)])
# With more pixels than this the model would be too slow.
MAX_PIXELS = 20_000


class TooSlow(Exception):
    """A picture would have more pixels than the model can handle in time."""


def fault_of_bytes(line):
    """Why the bytes of a line, without its line end, are refused before they are read as tokens, if they are."""
    if len(line) > MAX_LINE:
        return "LineTooLong"
    return "NotAscii" if line.translate(None, PRINTED) else None


def edges(points):
    return [(a, points[(i + 1) % len(points)]) for i, a in enumerate(points)]


def corner(points, i):
    """The edge that arrives at a vertex, and the one that leaves it, as vectors."""
    (x, y), (u, v), (s, t) = points[i - 1], points[i], points[(i + 1) % len(points)]
    return (u - x, v - y), (s - u, t - v)


def turning(points):
    turns = 0
    for i in range(len(points)):
        (a, b), (c, d) = corner(points, i)
        turns += (a * d > b * c) - (a * d < b * c)
    return turns // 4


def path_fault(points):
    """Why the points are not a rectilinear cycle, if they are not."""
    if len(points) < 2:
        return "TooFewPoints"
    if len(points) > MAX_POINTS:
        return "TooManyPoints"
    for i, (x, y) in enumerate(points):
        if abs(x) > MAX_COORDINATE or abs(y) > MAX_COORDINATE:
            return f"PointOutOfRange {i}"
    for i, ((x, y), (u, v)) in enumerate(edges(points)):
        if (x != u) == (y != v):
            return f"NotRectilinear {i}"
    return None


def turning_fault(points):
    """Why the turning check refuses a rectilinear cycle, if it does."""
    for i in range(len(points)):
        (a, b), (c, d) = corner(points, i)
        if a * d == b * c and a * c + b * d < 0:
            return f"Backtracks {i}"
    return "TurningZero" if turning(points) == 0 else None


def winding(points, column, row):
    """The number of quarter turns of a rectilinear cycle around the centre of a pixel, divided by 4."""
    quadrants = [(3 if x > column else 2) if y <= row else (0 if x > column else 1) for x, y in points]
    turns = ((after - before + 1) % 4 - 1 for before, after in zip(quadrants, [*quadrants[1:], quadrants[0]]))
    return sum(turns) // 4


def windings(points):
    """The pixels around which a cycle winds, with their winding numbers."""
    columns, rows = (sorted(set(places)) for places in zip(*points))
    counts = {}
    # For all pixels between two neighbouring columns and two neighbouring rows of points, the points are in the same quadrants.
    for left, right in zip(columns, columns[1:]):
        for low, high in zip(rows, rows[1:]):
            if count := winding(points, left, low):
                counts |= {(x, y): count for x in range(left, right) for y in range(low, high)}
    return counts


def run_text(picture):
    by_row = {}
    for column, row in sorted(picture):
        by_row.setdefault(row, []).append(column)
    lines = []
    for row, columns in sorted(by_row.items(), reverse=True):
        first = columns[0]
        for column, after in zip(columns, [*columns[1:], None]):
            weight = picture[column, row]
            if after != column + 1 or picture[after, row] != weight:
                lines.append(f"{row} {first} {column} {weight}\n")
                first = after
    return "".join(lines) or "blank\n"


def character(weight):
    if weight == 0:
        return "."
    if abs(weight) > 9:
        return "+" if weight > 0 else "-"
    return str(weight) if weight > 0 else "abcdefghi"[-weight - 1]


def grid_text(picture):
    if not picture:
        return "blank\n"
    columns, rows = zip(*picture)
    if max(columns) - min(columns) >= MAX_PROOF or max(rows) - min(rows) >= MAX_PROOF:
        return "refused ProofTooLarge\n"
    lines = (
        "".join(character(picture.get((x, y), 0)) for x in range(min(columns), max(columns) + 1))
        for y in range(max(rows), min(rows) - 1, -1)
    )
    return "".join(line + "\n" for line in lines)


def leaves_field(picture):
    return any(x not in FIELD or y not in FIELD for x, y in picture)


def stretch(place, factor):
    """The columns that a column becomes under a scale, or the rows that a row becomes."""
    return range(min(place * factor, (place + 1) * factor), max(place * factor, (place + 1) * factor))


def ends(places):
    return places[0], places[-1]


class Model:
    """The pictures of a script, the number of operations that `currentpicture` has accepted, the shipped characters in order, their
    weights, and whether the turning check is on."""

    def __init__(self, accepted=0):
        self.pictures = {}
        self.accepted = accepted
        self.shipped, self.weights = [], []
        self.checks = True

    def copy(self):
        other = Model(self.accepted)
        other.pictures, other.shipped, other.checks = dict(self.pictures), list(self.shipped), self.checks
        other.weights = list(self.weights)
        return other

    def picture(self, name):
        return self.pictures.get(name, {})

    def is_full(self, name):
        return name == "currentpicture" and self.accepted == MAX_OPERATIONS

    def becomes(self, name, weights):
        if self.is_full(name):
            return "refused TooManyOperations\n"
        new = {pixel: weight for pixel, weight in weights.items() if weight != 0}
        if leaves_field(new):
            return "refused OutOfField\n"
        if any(abs(weight) > MAX_WEIGHT for weight in new.values()):
            return "refused WeightTooLarge\n"
        self.pictures[name] = new
        self.accepted += name == "currentpicture"
        return ""

    def turningcheck(self, value):
        self.checks = value > 0
        return ""

    def contour(self, name, points, weight):
        fault = path_fault(points) or (None if weight in WEIGHTS else "BadWeight")
        if fault is None and self.is_full(name):
            fault = "TooManyOperations"
        if fault is None and self.checks:
            fault = turning_fault(points)
        if fault:
            return f"refused {fault}\n"
        sign = -1 if self.checks and turning(points) < 0 else 1
        new = dict(self.picture(name))
        for pixel, count in windings(points).items():
            new[pixel] = new.get(pixel, 0) + weight * sign * count
        return self.becomes(name, new)

    def also(self, name, source, sign):
        new = dict(self.picture(name))
        for pixel, weight in self.picture(source).items():
            new[pixel] = new.get(pixel, 0) + sign * weight
        return self.becomes(name, new)

    def cull(self, name, keeps, least, greatest, weight):
        if weight not in WEIGHTS:
            return "refused BadWeight\n"
        if least > greatest or keeps == (least <= 0 <= greatest):
            return "refused BadCull\n"
        old = self.picture(name)
        return self.becomes(
            name, {p: weight if (least <= w <= greatest) == keeps else 0 for p, w in old.items()}
        )

    def shift(self, name, right, up):
        return self.becomes(name, {(x + right, y + up): w for (x, y), w in self.picture(name).items()})

    def scale(self, name, across, upwards):
        if not all(0 < abs(factor) <= MAX_FACTOR for factor in (across, upwards)):
            return "refused BadScale\n"

        def scaled(part):
            return {
                (u, v): w
                for (x, y), w in self.picture(name).items()
                for u in part(stretch(x, across))
                for v in part(stretch(y, upwards))
            }

        corners = scaled(ends)
        if leaves_field(corners):
            return self.becomes(name, corners)
        if len(self.picture(name)) * abs(across * upwards) > MAX_PIXELS:
            raise TooSlow
        return self.becomes(name, scaled(list))

    def turn(self, name, degrees):
        if degrees not in (90, 180, 270):
            return "refused BadTurn\n"
        new = self.picture(name)
        for _ in range(degrees // 90):
            new = {(-y - 1, x): w for (x, y), w in new.items()}
        return self.becomes(name, new)

    def total(self, source):
        return f"totalweight {sum(self.picture(source).values())}\n"

    def show(self, source):
        return run_text(self.picture(source))

    def proof(self, source):
        return grid_text(self.picture(source))

    def ship(self, source, code, dx, width):
        black = frozenset(pixel for pixel, weight in self.picture(source).items() if weight > 0)
        self.shipped.append(Character(code, dx, width, black))
        self.weights.append(self.picture(source))
        return f"[{code}]\n"

    def publish(self):
        return f"published {self.accepted}\n"
