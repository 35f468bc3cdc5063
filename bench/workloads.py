"""Scripts for measuring, each made from a seed and a size.

A script is a list of lines of docs/user/LANGUAGE.md. METAFONT reads the same lines once `metafont` below has translated them, one
by one.
"""

import random

HEAD = """delimiters ();
def --={curl 1}..{curl 1}enddef;
autorounding:=0; smoothing:=0; granularity:=1; turningcheck:=1;
picture currentpicture,a,b,c,d,e,f;
path refused;
currentpicture:=nullpicture; a:=nullpicture; b:=nullpicture; c:=nullpicture; d:=nullpicture; e:=nullpicture; f:=nullpicture;
"""


def metafont(lines):
    """The same script for METAFONT.

    METAFONT's numbers are below 4096, so the greatest weight that a cull keeps, 32767, becomes 4095. No pixel here has a greater
    weight. METAFONT would fill a contour of weight 4 with weight 1, and report an error. So it only reads the path of such a
    contour, and assigns it to a variable.
    """
    out = [HEAD]
    for line in lines:
        words = line.split()
        if not words or words[0] == "publish":
            out.append("\n")
        elif is_refused(line):
            out.append(f"refused:={words[3]};\n")
        elif words[0] == "shipout":
            source, code, dx = words[1], words[3], words[5]
            out.append(f"charcode:={code};chardx:={int(dx) // 65536};shipout {source};\n")
        else:
            out.append(line.replace(",32767)", ",4095)") + ";\n")
    out.append("end.\n")
    return "".join(out)


def is_refused(line):
    """Whether the line is refused for its weight, as a contour of weight 4 is."""
    return line.endswith(" withweight 4")


def contour(name, points, weight=1):
    path = "--".join(f"({x},{y})" for x, y in points)
    tail = "" if weight == 1 else f" withweight {weight}"
    return f"addto {name} contour {path}--cycle{tail}"


def rectangle(x, y, width, height):
    return [(x, y), (x + width, y), (x + width, y + height), (x, y + height)]


def total(name="currentpicture"):
    return f"show totalweight {name}"


def one_line(seed, size):
    return [contour("currentpicture", rectangle(0, 0, 3, 2)), total()]


def random_rectangles(seed, size, columns, rows, name="currentpicture"):
    """Rectangles with sides of 1 to 30 and weights of -3 to 3, with uniformly random sizes and places."""
    draw = random.Random(seed)
    lines = []
    for _ in range(size):
        width, height = draw.randint(1, 30), min(rows, draw.randint(1, 30))
        x, y = draw.randint(0, columns - width), draw.randint(0, rows - height)
        shape = rectangle(x - columns // 2, y - rows // 2, width, height)
        lines.append(contour(name, shape, draw.choice((-3, -2, -1, 1, 2, 3))))
    return lines


def culled_rectangles(seed, size, columns, rows, name="currentpicture"):
    """Such rectangles, and a cull."""
    return random_rectangles(seed, size, columns, rows, name) + [total(name), f"cull {name} keeping (1,32767)", total(name)]


def publishes(seed, size, every):
    """Rectangles on 4,000 by 4,000 pixels, with a publish after each `every` of them, and no cull."""
    lines = []
    for number, line in enumerate(random_rectangles(seed, size, 4000, 4000), 1):
        lines += [line, "publish"] if number % every == 0 else [line]
    return lines + [total()]


def published_each(seed, size):
    return publishes(seed, size, 1)


def published_tenth(seed, size):
    return publishes(seed, size, 10)


def rectangles(seed, size):
    return culled_rectangles(seed, size, 4000, 4000)


def rectangles_of_register(seed, size):
    """In a register there may be more than a million operations."""
    return culled_rectangles(seed, size, 4000, 4000, "a")


def flat_rectangles(seed, size):
    return culled_rectangles(seed, size, 8000, 200)


def staircase(x, y, steps):
    """A triangle with this many steps. It has 2 points, and 2 more for each step."""
    points = [(x, y), (x + steps, y)]
    for i in range(1, steps + 1):
        points += [(x + steps - i + 1, y + i), (x + steps - i, y + i)]
    return points


def stairs(seed, size, steps, highest, weights=(-1, 1)):
    """`size` staircases with these weights, at uniformly random places, whose first corners are at most at `highest`."""
    draw = random.Random(seed)
    lines = []
    for _ in range(size):
        shape = staircase(draw.randint(-4000, highest), draw.randint(-4000, highest), steps)
        lines.append(contour("currentpicture", shape, draw.choice(weights)))
    return lines + [total()]


def staircases(seed, size):
    return stairs(seed, size, 2047, 2000)


def comb(teeth, rows):
    """A comb, from right to left, with `teeth` teeth, each `rows` rows high and one pixel wide, with one pixel between them."""
    points = [(0, 0), (2 * teeth - 1, 0)]
    for i in range(teeth - 1, -1, -1):
        points += [(2 * i + 1, rows), (2 * i, rows)]
        if i > 0:
            points += [(2 * i, 1), (2 * i - 1, 1)]
    return points


def culled_comb(points):
    return [contour("currentpicture", points), total(), "cull currentpicture keeping (1,1)", total()]


def comb_from_right(seed, size):
    """METAFONT's worst order: it finds the place of each edge of a row by passing all edges before it."""
    return culled_comb(comb(size, 300))


def comb_from_left(seed, size):
    """METAFONT's best order, with as many edges as its memory holds."""
    return culled_comb(comb(size, 1000)[::-1])


def rounds(seed, size):
    """A picture is copied, the copy is moved and added, and the sum is culled, `size` times."""
    lines = culled_rectangles(seed, 1500, 2000, 2000)
    for _ in range(size):
        lines += [
            "a := nullpicture",
            "addto a also currentpicture",
            "a := a shifted (1,1)",
            "addto currentpicture also a",
            "cull currentpicture keeping (1,3)",
        ]
    return lines + [total()]


def double(name, other, right, up):
    return [
        f"{other} := nullpicture",
        f"addto {other} also {name}",
        f"{other} := {other} shifted ({right},{up})",
        f"addto {name} also {other}",
    ]


def checkerboard(seed, size):
    """A checkerboard with sides of 2 ** size pixels, which is then moved, reflected, stretched and turned."""
    lines = [contour("a", rectangle(0, 0, 1, 1)), contour("a", rectangle(1, 1, 1, 1))]
    for k in range(1, size):
        lines += double("a", "b", 2**k, 0) + double("a", "b", 0, 2**k)
    lines += [total("a")]
    for _ in range(4):
        lines += ["a := a shifted (3,-5)", "a := a xscaled -1", "a := a yscaled -1", "a := a rotated 90", total("a")]
    return lines + ["a := a xscaled 2", total("a")]


def copies(source, target, count, right, up):
    """`count` copies of a picture, each moved from the one before.

    The source is doubled again and again, and added for each bit of the count.
    """
    lines, placed = [f"{target} := nullpicture"], 0
    for k in range(count.bit_length()):
        if count >> k & 1:
            move = f"b := b shifted ({right * placed},{up * placed})"
            lines += ["b := nullpicture", f"addto b also {source}", move, f"addto {target} also b"]
            placed += 1 << k
        if count >> k + 1:
            lines += double(source, "b", right << k, up << k)
    return lines


def page(seed, size):
    """A page like text: 100 lines of 131 letters, each of 32 runs, which is shipped `size` times."""
    letter = [rectangle(0, 0, 4, 28), rectangle(14, 4, 4, 4), rectangle(4, 12, 12, 4), rectangle(4, 0, 12, 4)]
    lines = [contour("a", part) for part in letter]
    lines += copies("a", "c", 131, 30, 0) + copies("c", "d", 100, 0, 40) + [total("d")]
    return lines + [f"shipout d code {code} dx 0 width 0" for code in range(size)]


def ships(lines):
    """Whether a script ships characters."""
    return any(line.startswith("shipout ") for line in lines)


def trivial_lines(seed, size):
    """By turns an empty line, a comment, an operation that changes nothing, and a command that prints a line."""
    lines = ["", "% a comment", "addto a also nullpicture", total("a")]
    return lines * (size // 4) + [total()]


def contours(seed, size):
    return stairs(seed, size, 199, 3700)


def refused_contours(seed, size):
    """The points are read and checked, and nothing is filled."""
    return stairs(seed, size, 199, 3700, (4,))


def contours_of_points(seed, size):
    """200 contours of `size` points each; none where that is 0."""
    return stairs(seed, 200 if size else 0, size // 2 - 1, 2000)


def pixels_on_rows(seed, size):
    """10,000 pixels at random places of 15 rows, each of which has `size` edges before."""
    draw = random.Random(seed)
    lines = []
    for first in range(0, size // 2, 1000):
        teeth = comb(min(1000, size // 2 - first), 16)
        lines.append(contour("currentpicture", [(x + 2 * first - 4000, y) for x, y in teeth]))
    for _ in range(10_000):
        lines.append(contour("currentpicture", rectangle(draw.randint(-4000, 3999), draw.randint(1, 15), 1, 1)))
    return lines + [total()]


# The name of each workload, what makes it, and its size.
WORKLOADS = {
    "one line": (one_line, 1),
    "10,000 rectangles": (rectangles, 10_000),
    "100,000 rectangles": (rectangles, 100_000),
    "10,000 rectangles on 200 rows": (flat_rectangles, 10_000),
    "10,000 rectangles, a publish after each": (published_each, 10_000),
    "10,000 rectangles, a publish after each tenth": (published_tenth, 10_000),
    "200 staircases of 4,096 points": (staircases, 200),
    "a comb of 4,092 points, from the right": (comb_from_right, 1023),
    "a comb of 4,092 points, from the left": (comb_from_left, 1023),
    "150 rounds of copy, shift, add, cull": (rounds, 150),
    "a checkerboard, moved and turned": (checkerboard, 10),
    "a page, shipped ten times": (page, 10),
    "1,000,000 trivial lines": (trivial_lines, 1_000_000),
    "2,000 contours of 400 points": (contours, 2_000),
    "2,000 contours of 400 points, refused for their weights": (refused_contours, 2_000),
}

# Workloads whose times are compared at several sizes; at size 0 they have what does not grow. A page takes 838,624 bytes of the font file,
# which may have 16,777,216, so it has room for 20 pages at most.
GROWING = {
    "rectangles": (rectangles_of_register, (1_000, 10_000, 100_000, 1_000_000)),
    "rectangles on 200 rows": (flat_rectangles, (1_000, 10_000, 100_000)),
    "rectangles, a publish after each": (published_each, (1_000, 10_000, 100_000)),
    "edges of rows to which 10,000 pixels are added": (pixels_on_rows, (10, 100, 1_000, 8_000)),
    "points of each of 200 contours": (contours_of_points, (64, 256, 1_024, 4_096)),
    "contours of 400 points": (contours, (250, 1_000, 4_000)),
    "rounds of copy, shift, add, cull": (rounds, (75, 150, 300)),
    "pages shipped": (page, (5, 10, 20)),
    "trivial lines": (trivial_lines, (10_000, 100_000, 1_000_000)),
}
