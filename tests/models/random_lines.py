"""Random input: lines, in the grammar of docs/user/LANGUAGE.md and not, each with a function that performs it on `pixel_model.py`."""

import typing

from models.font_model import PIXEL
from models.pixel_model import MAX_WEIGHT
from models.random_cycles import NEAR, Cycles
from models.reading_model import refused_place

NAMES = ["currentpicture", "a", "b", "z"]
# Absolute values of the weights that bound the range of a cull.
SIZES = [1, 1, 2, 3, 4, 9, MAX_WEIGHT - 1, MAX_WEIGHT, MAX_WEIGHT + 1, 999999999]
# Tokens that are in no command.
FOREIGN = [*"!\"#$&'*+./:<=>?@[\\]^_`{|}~", "contur", "Show", "A", "aa", "cyclewithweight", "withweigh", "x" * 300]
FOREIGN += ["0000000001", "1234567890", "9" * 30]
# Words that start a line, and occur nowhere else.
BEGINNINGS = ["turningcheck"] * 6 + ["addto", "cull", "show", "proof", "shipout", "publish"]
# Where strokes are: a first column and row, and how far to the right of it and below it a stroke starts. Together with the
# lengths, these reach the numbers at which a font needs another command, and go past them.
CORNERS = [(0, 255), (0, 255), (0, 3), (1, 0), (-1, 2), (-300, -20), (-4095, 4094), (3000, 300)]
ACROSS = [0, 1, 3, 63, 64, 65, 163, 164, 165, 255, 256, 257, 400]
DOWN = [0, 0, 1, 1, 1, 2, 3, 255, 256, 257, 258]
LENGTHS = [1, 1, 1, 1, 1, 1, 2, 2, 62, 63, 64, 255, 256]
# Ways to write 0.
ZEROS = [["0"], ["0"], ["-", "0"], ["000"], ["0" * 9], ["-", "00"]]


class Line(typing.NamedTuple):
    """A command and its tokens, a function that performs it on the model, the place of the token that is refused, if one is, and
    the points if it is a contour."""

    command: str
    tokens: list
    perform: typing.Callable
    refused: int | None = None
    points: list | None = None


class Chance(Cycles):
    """Random lines."""

    def script(self, is_late, wrong):
        """The lines of a script. `wrong` is the share of them that are not in the grammar. In a late script `currentpicture` is
        soon full."""
        turns, lines = self.choice([0, 0, 0.03, 0.2]), []
        if turns < 0.2 and self.happens(0.6):
            lines.append(self.turningcheck())
        if is_late:
            lines += self.full()
        for _ in range(self.place(3, 25)):
            for line in self.lines():
                lines += [self.turningcheck(), line] if self.happens(turns) else [line]
        lines = [self.end(line) for line in [*lines, *map(self.show_of, NAMES), self.publish()]]
        inserted = wrong / (1 - wrong)
        return [other for line in lines for other in ([self.wrong(line), line] if self.happens(inserted) else [line])]

    def name(self):
        return self.choice(NAMES)

    def source(self):
        return self.choice([*NAMES, "nullpicture"])

    def weight(self):
        return self.number([1, 1, 1, 1, 2, 3, -1, -2, -3, self.choice([1, 1, 0, 4, -4])])

    def kinds(self):
        """The functions that make a line."""
        kinds = [self.contour] * 4 + [self.also] * 2 + [self.cull] * 2 + [self.shift] * 2
        kinds += [self.clear, self.scale, self.turn, self.total, self.show, self.proof, self.publish]
        return [*kinds, self.ship, self.ship, self.nothing]

    def lines(self):
        """One random line, or several that belong together."""
        several = [self.double, self.frame, self.scatter]
        kind = self.choice([*self.kinds(), *several])
        return kind() if kind in several else [kind()]

    def end(self, line):
        return line._replace(tokens=[*line.tokens, ";"]) if self.happens(0.15) else line

    def turningcheck(self):
        """A line that turns the turning check on or off."""
        value = self.choice([0, 0, 0, 0, -1, -2, 1, 1, 1, 2, 3, self.number([self.choice([-1, 1]) * 999999999])])
        operand = self.integer(value) if value else self.choice(ZEROS)
        kind = "turningcheck on" if value > 0 else "turningcheck off"
        return Line(kind, ["turningcheck", ":=", *operand], lambda m: m.turningcheck(value))

    def contour(self):
        return self.contour_of(self.name(), self.points(), self.weight())

    def contour_of(self, name, points, weight):
        tokens = ["addto", name, "contour", *self.path(points), *self.withweight(weight)]
        return Line("contour", tokens, lambda m: m.contour(name, points, weight), points=points)

    def full(self):
        """Contours of `currentpicture`, with the check on or off: more than it may still accept."""
        lines = [self.turningcheck()]
        for _ in range(self.place(6, 15)):
            points = self.choice([self.points, self.square, self.flat, lambda: self.eight(self.square())])()
            lines.append(self.contour_of("currentpicture", points, self.weight()))
            if self.happens(0.3):
                lines.append(self.turningcheck())
        return lines

    def also(self):
        return self.also_of(self.name(), self.source(), self.choice([1, -1]))

    def also_of(self, name, source, sign):
        words = ["also"] if sign > 0 else ["also", "-"]
        return Line(" ".join(words), ["addto", name, *words, source], lambda m: m.also(name, source, sign))

    def double(self):
        """A picture that is doubled again and again, with a contour each time, so that weights reach the limit or exceed it."""
        name, square, weight = self.name(), self.square(), self.choice([1, 1, -1, -1, 2, -3])
        lines = [self.clear_of(name)] if self.happens(0.5) else []
        adds, turns = self.happens(0.7), self.happens(0.3)
        for _ in range(self.choice([2, 3, 4, 8, 13, 14, 15, 15, 16])):
            lines.append(self.also_of(name, name, 1))
            if adds:
                points = self.round_pixel(square) if turns else square
                lines.append(self.contour_of(name, points, weight))
        others = [self.contour_of(name, self.round_pixel(square), self.weight()) for _ in range(self.place(0, 3))]
        return [*lines, *others, self.proof_of(name)]

    def frame(self):
        """A contour whose box or weights may be too large for a grid text, and a line that prints its grid text."""
        name, points = self.name(), self.thin(NEAR) if self.happens(0.5) else self.walk()
        return [self.contour_of(name, points, self.choice([1, 1, -1, 2])), self.proof_of(name)]

    def range_of(self, keeps):
        """The range of a cull, which is usually accepted."""
        if self.happens(0.25):
            return self.number(range(-4, 4)), self.number(range(-3, 6))
        small, large = sorted(self.random.sample(SIZES, 2))
        if not keeps:
            return self.choice([-small, 0]), self.choice([large, 0])
        return (small, large) if self.happens(0.5) else (-large, -small)

    def cull(self):
        name, weight, keeps = self.name(), self.weight(), self.happens(0.5)
        least, greatest = self.range_of(keeps)
        kind = "keeping" if keeps else "dropping"
        tokens = ["cull", name, kind, *self.pair(least, greatest), *self.withweight(weight)]
        return Line(kind, tokens, lambda m: m.cull(name, keeps, least, greatest, weight))

    def clear(self):
        return self.clear_of(self.name())

    def clear_of(self, name):
        return Line(":=", [name, ":=", "nullpicture"], lambda m: m.becomes(name, {}))

    def transform(self, name, word, operand, perform):
        return Line(word, [name, ":=", name, word, *operand], perform)

    def shift(self):
        name, far = self.name(), self.choice([-128, 4090, -4090, 4095, -4095, 8189, -8189, 8190])
        right, up = self.number([0, 1, -1, 3, -5, 5, far]), self.number([0, 1, -1, 3, -5, 5, far])
        return self.transform(name, "shifted", self.pair(right, up), lambda m: m.shift(name, right, up))

    def scale(self):
        name, word = self.name(), self.choice(["scaled", "xscaled", "yscaled"])
        factor = self.number([-1, -1, 2, -2, 3, 1, self.choice([0, 4095, -4095, 4096, -4096])])
        across = 1 if word == "yscaled" else factor
        upwards = 1 if word == "xscaled" else factor
        return self.transform(name, word, self.integer(factor), lambda m: m.scale(name, across, upwards))

    def turn(self):
        name, degrees = self.name(), self.number([90, 180, 270, 90, 180, 270, 45, 0, 360, -90])
        return self.transform(name, "rotated", self.integer(degrees), lambda m: m.turn(name, degrees))

    def total(self):
        source = self.source()
        return Line("show totalweight", ["show", "totalweight", source], lambda m: m.total(source))

    def show(self):
        return self.show_of(self.source())

    def show_of(self, source):
        return Line("show", ["show", source], lambda m: m.show(source))

    def proof(self):
        return self.proof_of(self.source())

    def proof_of(self, source):
        return Line("proof", ["proof", source], lambda m: m.proof(source))

    def ship(self):
        return self.ship_of(self.source(), self.code())

    def code(self):
        """A code, often one of a few, so that these are shipped again and again."""
        return self.choice([0, 0, 0, 0, 1, 65, 255, self.place(0, 255)])

    def escapement(self):
        """A dx: a whole number of pixels, one unit more or less, or any other."""
        whole = PIXEL * self.choice([0, 0, 1, 5, 254, 255, 256, -1, self.place(0, 255)])
        return self.number([whole, whole, whole - 1, whole + 1, self.place(-99999, 99999)])

    def ship_of(self, source, code):
        dx, width = self.escapement(), self.number([0, self.place(-99999, 99999)])
        operands = ["code", *self.integer(code), "dx", *self.integer(dx), "width", *self.integer(width)]
        return Line("shipout", ["shipout", source, *operands], lambda m: m.ship(source, code, dx, width))

    def scatter(self):
        """Strokes with gaps between them, some with negative weights, which are shipped again and again while more are added."""
        name, (column, row) = self.name(), self.choice(CORNERS)
        lines = [self.clear_of(name)] if self.happens(0.8) else []
        for _ in range(self.place(1, 5)):
            left, top = column + self.choice(ACROSS), row - self.choice(DOWN)
            points = self.rectangle((left, left + self.choice(LENGTHS)), (top, top + 1))
            lines.append(self.contour_of(name, points, self.choice([1, 1, 1, 2, -1])))
            if self.happens(0.6):
                lines.append(self.ship_of(name, self.code()))
        return lines

    def publish(self):
        return Line("publish", ["publish"], lambda m: m.publish())

    def nothing(self):
        return Line("no command", [], lambda m: "")

    def wrong(self, line):
        """A line that is not in the grammar, made from this line or another, and the place of the token that is refused."""
        if len(line.tokens) > 1000 or self.happens(0.5):
            line = self.end(self.choice([*self.kinds(), self.turningcheck, self.turningcheck])())
        ways = [self.foreign, self.overlong, self.repeat, self.cut, self.part, self.follow, self.begin]
        others = [self.mix, self.mix, self.rename, self.recode, self.assign, self.misname]
        tokens, refused = self.choice([*ways, *ways, *others])(line)
        return line._replace(tokens=tokens, refused=refused)

    def foreign(self, line):
        """A line with a token that is in no command."""
        place = self.place(0, len(line.tokens))
        return line.tokens[:place] + [self.choice(FOREIGN)] + line.tokens[place:], place

    def overlong(self, line):
        """A line with a number of more than nine digits."""
        places = [place for place, token in enumerate(line.tokens) if token.isdigit()]
        if not places:
            return self.foreign(line)
        place = self.choice(places)
        digits = self.choice([line.tokens[place].zfill(self.place(10, 30)), line.tokens[place].ljust(10, "0")])
        return [*line.tokens[:place], digits, *line.tokens[place + 1 :]], place

    def repeat(self, line):
        """A line with a token that is repeated."""
        tokens = line.tokens or [";"]
        place = self.place(0, len(tokens) - 1)
        return tokens[: place + 1] + tokens[place:], place + 1

    def within(self, line):
        """A place in a line at which the line cannot end, if there is one."""
        places = [place for place, token in enumerate(line.tokens) if place > 0 and token not in ("withweight", ";")]
        return self.choice(places) if places else None

    def cut(self, line):
        place = self.within(line)
        return (line.tokens[:place], place) if place else self.foreign(line)

    def part(self, line):
        """A line with a `;` in the middle."""
        place = self.within(line)
        return ([*line.tokens[:place], ";", *line.tokens[place:]], place) if place else self.foreign(line)

    def follow(self, line):
        """A line with something after its `;`."""
        tokens = line.tokens if line.tokens[-1:] == [";"] else [*line.tokens, ";"]
        return [*tokens, self.choice(["a", "show", "1", "(", "-", ";", "cycle", *FOREIGN])], len(tokens)

    def begin(self, line):
        """A line in which another one starts."""
        place = self.place(1, max(len(line.tokens), 1))
        after = place if self.happens(0.5) else place + 1
        return [*(line.tokens[:place] or [";"]), self.choice(BEGINNINGS), *line.tokens[after:]], place

    def mix(self, line):
        """The first tokens of a line and the last ones of another, or a line with one token left out, or with one replaced."""
        other = self.choice([*self.kinds(), self.turningcheck])().tokens or [";"]
        first, after = line.tokens[: self.place(0, len(line.tokens))], other[self.place(0, len(other)) :]
        rest = line.tokens[len(first) + 1 :]
        tokens = self.choice([first + after, first + rest, [*first, self.choice(other), *rest]])
        refused = refused_place(tokens)
        return self.foreign(line) if refused is None else (tokens, refused)

    def assign(self, _):
        """An assignment of something else."""
        name, number = self.name(), self.integer(self.number(range(-2, 3)))
        check, others = ["turningcheck", ":="], ["nullpicture", name, "(", ")", ",", ";", "--", ":=", "cycle"]
        if self.happens(0.4):
            return [*check, self.choice(others), *self.choice([[], number, ["shifted", *self.pair(1, 0)]])], 2
        lines = [([name, ":=", *number], 2), (["turningcheck", *number], 1), ([*check, "-", "-", *number], 3)]
        lines += [([*check, *number, word], 2 + len(number)) for word in ("withweight", "-", ",", "--", name, ":=")]
        return self.choice(lines)

    def misname(self, _):
        """A line with something that is not the name of a picture, or with a picture that cannot be changed."""
        word = self.choice(["nullpicture", "turningcheck", "cycle", "1", ","])
        lines = [["addto", word, "also", "a"], ["cull", word, "keeping", *self.pair(1, 2)]]
        sources = [["show", word], ["proof", word], ["show", "totalweight", word], ["addto", "b", "also", word]]
        if word == "nullpicture" or self.happens(0.5):
            return self.choice(lines), 1
        line = self.choice(sources)
        return line, len(line) - 1

    def rename(self, _):
        """A transform whose second name differs from the first."""
        line = self.choice([self.shift, self.scale, self.turn, self.clear])()
        others = [name for name in [*NAMES, "c"] if name != line.tokens[0]]
        return [*line.tokens[:2], self.choice(others), *line.tokens[3:]], 2

    def recode(self, _):
        """A shipout whose code is out of range."""
        code = self.choice([256, 257, 512, 65536, 999999999, -1, -5, -255, -256, -999999999])
        return self.ship_of(self.source(), code).tokens, 3
