"""Glyphs of every kind for outlines, the same for the same seed; a glyph is its contours and the points behind them, a point x, y and flag in 64ths."""

import collections
import itertools
import random

Glyph = collections.namedtuple("Glyph", "contours loose")
# Document 02, K13: no coordinate is further from 0.
MOST = 4_194_304
LONGEST_PATTERN = 6


def points_of(glyph):
    return [point for contour in glyph.contours for point in contour] + glyph.loose


def ends_of(glyph):
    return list(itertools.accumulate(map(len, glyph.contours), initial=-1))[1:]


def is_refused(glyph):
    """19, by document 02: FreeType has no such limit."""
    return any(abs(number) > MOST for x, y, _ in points_of(glyph) for number in (x, y))


class Maker:
    """Makes glyphs; each way to draw a number is there for a fault that it would show."""

    def __init__(self, seed):
        self.dice = random.Random(seed)
        self.ways = {
            "near": lambda: self.dice.randint(-40, 40),
            # sums that are odd and below 0: a middle that is rounded, or cut to the wrong side
            "below": lambda: -self.dice.randint(1, 99),
            # middles at 0, from both sides: a zero with a sign
            "about 0": lambda: self.dice.choice((-3, -2, -1, 0, 0, 1, 2, 3)),
            "furthest": lambda: self.dice.choice((-1, 1)) * (MOST - self.dice.choice((0, 0, 1, 2, 63, 64))),
            "anywhere": lambda: self.dice.randint(-MOST, MOST),
        }

    def point(self, way, on):
        """Only bit 0 of the flag says whether it is on the curve."""
        draw = self.ways[way]
        return draw(), draw(), self.dice.getrandbits(7) << 1 | on

    def contour(self, way, pattern):
        return [self.point(way, on) for on in pattern]

    def loose(self):
        return [self.point("anywhere", self.dice.getrandbits(1)) for _ in range(self.dice.choice((0, 0, 1, 4)))]

    def patterns(self):
        """Every pattern of on and off of up to six points, in each way; a glyph to a pattern."""
        for size in range(1, LONGEST_PATTERN + 1):
            for pattern in itertools.product((0, 1), repeat=size):
                yield Glyph([self.contour(way, pattern) for way in self.ways], self.loose())

    def alone(self):
        """A glyph of one contour for each pattern of up to three points, with nothing behind it."""
        for size in range(1, 4):
            for pattern in itertools.product((0, 1), repeat=size):
                yield Glyph([self.contour("near", pattern)], [])

    def empty(self):
        yield Glyph([], [])
        for count in (1, 4):
            yield Glyph([], [self.point("anywhere", 1) for _ in range(count)])

    def flat(self):
        """Points in one place, and lines that go back: steps of no length are steps."""
        for pattern in itertools.product((0, 1), repeat=4):
            x, y, _ = self.point("near", 1)
            yield Glyph([[(x, y, on) for on in pattern], [(x + k % 2, y, on) for k, on in enumerate(pattern)]], self.loose())

    def refused(self):
        """A coordinate a step too far, or the furthest that there is, on a contour or behind the last one."""
        for far, axis, behind in itertools.product((MOST + 1, -MOST - 1, 2**31 - 1, -(2**31)), (0, 1), (False, True)):
            glyph = Glyph([self.contour("near", (1, 0, 1)), self.contour("furthest", (0, 0))], [self.point("near", 1)])
            points = glyph.loose if behind else self.dice.choice(glyph.contours)
            place = self.dice.randrange(len(points))
            points[place] = tuple(far if k == axis else number for k, number in enumerate(points[place]))
            yield glyph

    def several(self, longest):
        """Some contours, mostly short."""
        while True:
            sizes = [self.dice.choice((1, 2, 3, 4, 5, 9, self.dice.randint(1, longest))) for _ in range(self.dice.randint(1, 7))]
            contours = [self.contour(self.dice.choice(list(self.ways)), self.pattern(size)) for size in sizes]
            yield Glyph(contours, self.loose())

    def pattern(self, size):
        """On and off by chance, or much more of one."""
        chance = self.dice.choice((0, 0.1, 0.5, 0.5, 0.9, 1))
        return [int(self.dice.random() < chance) for _ in range(size)]


def made(contours, seed, longest):
    """Glyphs of every kind, and as many of several contours as it takes to have so many contours."""
    maker = Maker(seed)
    found = list(itertools.chain(maker.empty(), maker.alone(), maker.patterns(), maker.flat(), maker.refused()))
    count = sum(len(glyph.contours) for glyph in found if not is_refused(glyph))
    for glyph in maker.several(longest):
        if count >= contours:
            return found
        found.append(glyph)
        count += len(glyph.contours)
    return found
