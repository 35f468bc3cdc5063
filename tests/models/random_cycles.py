"""Random input: lists of points. Most are cycles, and many of these turn back, go around clockwise, or have turning number 0."""

from models.pixel_model import MAX_COORDINATE, MAX_POINTS, MAX_PROOF
from models.random_spelling import Spelling

# Coordinates at the limits of points and just beyond, and coordinates with 127 to 129 pixels between them.
FAR = [-MAX_COORDINATE - 1, -MAX_COORDINATE, MAX_COORDINATE, MAX_COORDINATE + 1]
NEAR = [-MAX_PROOF // 2, 1 - MAX_PROOF // 2, MAX_PROOF // 2, MAX_PROOF // 2 + 1]


class Cycles(Spelling):
    """Random lists of points."""

    def rectangle(self, columns, rows):
        (x, u), (y, v) = columns, rows
        points = [(x, y), (u, y), (u, v), (x, v)]
        return points if self.happens(0.5) else points[::-1]

    def thin(self, ends):
        """A rectangle of one or two rows, or columns, that reaches from one of these ends to another."""
        along = self.random.sample(ends, 2)
        start = self.choice([*[self.place(-5, 5)] * 4, *FAR])
        across = (start, start + self.choice([-1, 1, 1, 2]))
        return self.rectangle(along, across) if self.happens(0.5) else self.rectangle(across, along)

    def square(self):
        x, y = (self.place(-4, 4) if self.happens(0.9) else self.choice([-4095, 4094]) for _ in range(2))
        return self.rectangle((x, x + 1), (y, y + 1))

    def walk(self):
        """A square that is walked many times, up to the greatest number of points. Some have a point too many, some turn back."""
        times = self.choice([*range(2, 12), *range(2, 12), 250, MAX_POINTS // 4])
        points = self.square()
        if self.happens(0.15):
            return points * (times - 1) + self.spike(points)
        return points * times + points[: self.choice([0, 0, 0, 1])]

    def polygon(self):
        x, y = first = self.place(-4, 4), self.place(-4, 4)
        points = []
        for _ in range(self.place(1, 4)):
            points.append((x, y))
            x = self.choice([column for column in range(-5, 6) if column != x])
            points.append((x, y))
            y = self.choice([row for row in range(-5, 6) if row != y])
        points.append((x, y))
        return points + ([(first[0], y)] if x != first[0] and y != first[1] else [])

    def eight(self, square):
        """A cycle with turning number 0, which goes once around the pixel of a square and once, the other way, around another."""
        (x, y), (u, v) = min(square), max(square)
        right, top = u + self.choice([1, 1, 2, 5]), v + self.choice([1, 1, 3])
        points = [(x, y), (u, y), (u, top), (right, top), (right, v), (x, v)]
        start = self.place(0, 5)
        points = points[start:] + points[:start]
        return points if self.happens(0.5) else points[::-1]

    def spike(self, points):
        """A cycle with another point on one of its edges, or before or after the edge, where it then turns back."""
        place = self.place(0, len(points) - 1)
        (x, y), (u, v) = points[place], points[(place + 1) % len(points)]
        ends = sorted((x, u) if y == v else (y, v))
        along = self.choice([ends[0] - 1, ends[1] + 1, *range(ends[0] + 1, ends[1])[:2]])
        return points[: place + 1] + [(along, y) if y == v else (x, along)] + points[place + 1 :]

    def flat(self):
        """A cycle on a straight line, which winds around no pixel."""
        along, across = [self.place(-4, 4)], self.place(-4, 4)
        for _ in range(self.place(1, 4)):
            along.append(self.choice([place for place in range(-5, 6) if place != along[-1]]))
        points = [(place, across) for place in (along[:-1] if along[-1] == along[0] else along)]
        return points if self.happens(0.5) else [(y, x) for x, y in points]

    def retrace(self):
        """A cycle that goes along a path and back, and so winds around no pixel."""
        points = self.polygon()
        return points + points[:1] + points[:0:-1]

    def round_pixel(self, square):
        """A cycle around the pixel of a square, which the turning check may refuse."""
        way = self.random.random()
        return square if way < 0.6 else self.spike(square) if way < 0.8 else self.eight(square)

    def points(self):
        way = self.random.random()
        if way < 0.08:
            return self.thin(self.choice([FAR, NEAR])) if way < 0.06 else self.walk()
        if way < 0.18:
            return [(self.place(-3, 3), self.place(-3, 3)) for _ in range(self.place(1, 5))]
        if way < 0.28:
            return self.choice([self.flat, self.retrace, lambda: self.eight(self.square())])()
        points = self.polygon()
        if way < 0.32:
            moved = self.place(0, len(points) - 1)
            x, y = points[moved]
            points[moved] = self.choice([(self.number(FAR), y), (x, self.number(FAR))])
        return self.spike(points) if way > 0.8 else points
