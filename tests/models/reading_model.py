"""A model: a small reader that goes from token to token, to find where a line leaves the grammar of docs/user/LANGUAGE.md."""

NAMES = {"currentpicture", *"abcdefghijklmnopqrstuvwxyz"}
SOURCES = NAMES | {"nullpicture"}
SCALES = {"scaled", "xscaled", "yscaled"}


class Refused(Exception):
    """No line of the grammar begins with the tokens up to this one, or the line ends too early."""


class Reader:
    """Takes the tokens of a line, one by one."""

    def __init__(self, tokens):
        self.tokens, self.place = tokens, 0

    def next(self, ahead=0):
        place = self.place + ahead
        return self.tokens[place] if place < len(self.tokens) else None

    def take(self, allowed):
        token = self.next()
        if token not in allowed:
            raise Refused
        self.place += 1
        return token

    def has_number(self, ahead=0):
        token = self.next(ahead)
        return token is not None and token.isdigit() and len(token) <= 9

    def integer(self):
        if self.next() == "-":
            self.place += 1
        if not self.has_number():
            raise Refused
        self.place += 1

    def code(self):
        is_negative = self.next() == "-"
        if self.has_number(is_negative) and int(self.next(is_negative)) > (0 if is_negative else 255):
            raise Refused
        self.integer()

    def pair(self):
        self.take({"("})
        self.integer()
        self.take({","})
        self.integer()
        self.take({")"})

    def point(self):
        self.pair()
        self.take({"--"})

    def weight(self):
        if self.next() == "withweight":
            self.place += 1
            self.integer()

    def addto(self):
        self.take(NAMES)
        if self.take({"contour", "also"}) == "also":
            self.place += self.next() == "-"
            self.take(SOURCES)
            return
        self.point()
        while self.next() != "cycle":
            self.point()
        self.place += 1
        self.weight()

    def cull(self):
        self.take(NAMES)
        self.take({"keeping", "dropping"})
        self.pair()
        self.weight()

    def show(self):
        self.place += self.next() == "totalweight"
        self.take(SOURCES)

    def proof(self):
        self.take(SOURCES)

    def shipout(self):
        self.take(SOURCES)
        self.take({"code"})
        self.code()
        self.take({"dx"})
        self.integer()
        self.take({"width"})
        self.integer()

    def publish(self):
        pass

    def turningcheck(self):
        self.take({":="})
        self.integer()

    def assignment(self, name):
        self.take({":="})
        if self.take({name, "nullpicture"}) == name:
            word = self.take({"shifted", "rotated"} | SCALES)
            self.pair() if word == "shifted" else self.integer()

    def line(self):
        words = {"addto", "cull", "show", "proof", "shipout", "publish", "turningcheck"}
        if self.next() not in (None, ";"):
            first = self.take(words | NAMES)
            getattr(self, first)() if first in words else self.assignment(first)
        self.place += self.next() == ";"
        if self.next() is not None:
            raise Refused


def refused_place(tokens):
    """The place of the token that is refused, which is the place after the last token if the line ends too early. None for a line
    of the grammar."""
    reader = Reader(tokens)
    try:
        reader.line()
    except Refused:
        return reader.place
    return None
