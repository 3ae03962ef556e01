"""The rules of knot tables once more, by other methods than a program would take.

The piece under an argument is found by a linear scan. A line is the mean of the two end values, weighted by the
distances to the ends. A cubic is a sum of the four Hermite basis polynomials in t = u / h, with the slopes m for E and
M / 2048 for V; the slope at an interior knot is a weighted harmonic mean of the two secants. V is rounded by walking.
A load gathers all faults of all knots and tells the first; put and drop edit a dictionary and look at the sorted list
that results. A table has V, E, S and R as the curves have. An edit returns None, or the number that refuses it and the
index of the knot or None.
"""
from fractions import Fraction

from curves import FURTHEST, down, hold, is_coordinate, nearest, up

NEW = [(-8192, -8192), (-4096, -4096), (0, 0), (4096, 4096), (8191, 8191)]
SIZES = range(2, 97)
WIDEST = 4096
STEP, LINE, CUBIC = KINDS = (0, 1, 2)

# the Hermite basis by its coefficients of 1, t, t², t³: start value, start slope, end value, end slope
BASIS = [(1, 0, -3, 2), (0, 1, -2, 1), (0, 0, 3, -2), (0, 0, -1, 1)]


class Table:
    slope_rounding = staticmethod(down)

    def __init__(self, kind=LINE, knots=NEW):
        self.k, self.knots = kind, list(knots)
        self.settle()

    def settle(self):
        """Works out the rise, the radius and, for a cubic, the slopes; the cubic of a piece waits for its first use."""
        pairs = list(zip(self.knots, self.knots[1:]))
        self.widths = [z - x for (x, _), (z, _) in pairs]
        self.secants = [Fraction(w - y, z - x) for (x, y), (z, w) in pairs]
        self.m = self.M = None
        self.cubics = {}
        if self.k == STEP:
            self.S, self.R = max(w - y for (_, y), (_, w) in pairs), 0
        elif self.k == LINE:
            self.S, self.R = up(max(self.secants)), 1
        else:
            self.S, self.R = hold(up(3 * max(self.secants)), 0, FURTHEST), 1
            self.m = [self.secants[0], *map(self.inner_slope, range(1, len(pairs))), self.secants[-1]]
            self.M = [self.slope_rounding(2048 * m) for m in self.m]

    def inner_slope(self, i):
        """The slope at the interior knot i: 0 beside a flat piece, and otherwise the harmonic mean."""
        (a, b), (c, d) = self.widths[i - 1:i + 1], self.secants[i - 1:i + 1]
        return 3 * (a + b) / ((2 * b + a) / c + (b + 2 * a) / d) if c and d else Fraction(0)

    def cubic(self, i, stored):
        """The coefficients of 1, t, t², t³ in piece i, with the slopes m or the stored ones; kept for the next time."""
        if (i, stored) not in self.cubics:
            start, end = (Fraction(M, 2048) for M in self.M[i:i + 2]) if stored else self.m[i:i + 2]
            weights = self.knots[i][1], self.widths[i] * start, self.knots[i + 1][1], self.widths[i] * end
            self.cubics[i, stored] = [sum(w * b for w, b in zip(weights, column)) for column in zip(*BASIS)]
        return self.cubics[i, stored]

    def place(self, q):
        """The index of the last knot at or below q, or -1."""
        n, found = down(q), -1
        for x, _ in self.knots:
            if x > n:
                break
            found += 1
        return found

    def curve(self, q, stored):
        """The value at the fraction q, with the slopes m or the stored ones."""
        i = self.place(q)
        x, y = self.knots[max(i, 0)]
        if self.k == STEP or i < 0 or i + 1 == len(self.knots):
            return Fraction(y)
        z, w = self.knots[i + 1]
        if self.k == LINE:
            return (y * (z - q) + w * (q - x)) / (z - x)
        t = (q - x) / (z - x)
        a, b, c, d = self.cubic(i, stored)
        return a + t * (b + t * (c + t * d))

    def V(self, x):
        return nearest(self.curve(Fraction(x), True))

    def E(self, q):
        return self.curve(Fraction(q), False)

    def load(self, knots):
        order = [1, 3, 5, 4]
        if len(knots) not in SIZES:
            return 2, None
        faults = [(i, 1) for i, (x, y) in enumerate(knots) if not is_coordinate(x) or not is_coordinate(y)]
        for i, ((x, y), (z, w)) in enumerate(zip(knots, knots[1:]), 1):
            faults += [(i, number) for number, wrong in ((3, z <= x), (5, z - x > WIDEST), (4, w < y)) if wrong]
        if faults:
            i, number = min(faults, key=lambda fault: (fault[0], order.index(fault[1])))
            return number, i
        self.knots = list(knots)
        self.settle()

    def put(self, x, y):
        if not is_coordinate(x) or not is_coordinate(y):
            return 1, None
        return self.take(dict(self.knots) | {x: y})

    def drop(self, x):
        left = dict(self.knots)
        if x not in left:
            return 6, None
        del left[x]
        return self.take(left)

    def take(self, heights):
        """Takes the knots given as a dictionary from x to y, unless 2, 5 or 4 refuses them."""
        knots = sorted(heights.items())
        if len(knots) not in SIZES:
            return 2, None
        if any(z - x > WIDEST for (x, _), (z, _) in zip(knots, knots[1:])):
            return 5, None
        if [y for _, y in knots] != sorted(heights.values()):
            return 4, None
        self.knots = knots
        self.settle()

    def kind(self, k):
        if k not in KINDS:
            return 7, None
        self.k = k
        self.settle()

    def is_lawful(self):
        """Whether the table is one that the rules allow."""
        xs, ys = map(list, zip(*self.knots))
        near = all(z in range(x + 1, x + WIDEST + 1) for x, z in zip(xs, xs[1:]))
        return self.k in KINDS and len(xs) in SIZES and all(map(is_coordinate, xs + ys)) and near and ys == sorted(ys)
