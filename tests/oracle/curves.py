"""The rules of docs/curves.md once more, in exact integers and fractions.

Where the library computes, this looks: rounding walks to the whole number that its words name, the entries of root are
counted up one by one, and the rules are tried out over all coordinates. The layers are the formulas of the rules.
Each curve has V (whole value at a coordinate), E (exact value at a fraction), S (rise) and R (radius).
"""
from fractions import Fraction

LOWEST, HIGHEST = -8192, 8191
FURTHEST = 16383


def hold(v, a, b):
    """v held to a..b."""
    return a if v < a else b if v > b else v


def down(v):
    """The greatest whole number not above v."""
    n = int(v)
    while n > v:
        n -= 1
    while n + 1 <= v:
        n += 1
    return n


def up(v):
    """The least whole number not below v."""
    n = int(v)
    while n < v:
        n += 1
    while n - 1 >= v:
        n -= 1
    return n


def nearest(v):
    """The greatest whole number not above v + 1/2."""
    return down(v + Fraction(1, 2))


def is_coordinate(x):
    return x in range(LOWEST, HIGHEST + 1)


def band(a, b):
    """The band (a, b), or the number that refuses it."""
    if not is_coordinate(a) or not is_coordinate(b):
        return 1
    return (a, b) if a <= b else 11


class Bare:
    S, R = 1, 0

    def V(self, x):
        return x

    def E(self, q):
        return q


class Loose(Bare):
    """The bare curve, told with a radius that is wider than it need be."""

    def __init__(self, radius):
        self.R = hold(radius, 0, FURTHEST)


def root_entries():
    """The 1024 entries of the root curve, each found by counting up from the one before."""
    entries, s = [], 0
    for i in range(1024):
        while (s + 1) * (s + 1) <= 65536 * i:
            s += 1
        entries.append(s)
    return entries


class Root:
    S, R = 256, 0
    entries = root_entries()

    def V(self, x):
        return self.entries[hold(x, 0, 1023)]

    def E(self, q):
        q = hold(Fraction(q), 0, 1023)
        i = min(down(q), 1022)
        y, z = self.entries[i], self.entries[i + 1]
        return y + (z - y) * (q - i)


class Chain:
    """g after f."""

    def __init__(self, g, f):
        self.g, self.f = g, f
        self.S = hold(g.S * f.S, 0, FURTHEST)
        self.R = hold(g.R + g.S * f.R, 0, FURTHEST)

    def V(self, x):
        return self.g.V(self.f.V(x))

    def E(self, q):
        return self.g.E(self.f.E(q))


class Offset:
    def __init__(self, below, c):
        self.below, self.c = below, hold(c, -FURTHEST, FURTHEST)
        self.S, self.R = below.S, below.R

    def V(self, x):
        return hold(self.below.V(x) + self.c, LOWEST, HIGHEST)

    def E(self, q):
        return hold(self.below.E(q) + self.c, LOWEST, HIGHEST)


class Clamp:
    def __init__(self, below, a, b):
        self.below, self.a, self.b = below, a, b
        self.S, self.R = below.S, below.R

    def V(self, x):
        return hold(self.below.V(x), self.a, self.b)

    def E(self, q):
        return hold(self.below.E(q), self.a, self.b)


def value(curve, x):
    """What the question for a value answers at any whole number x."""
    return curve.V(hold(x, LOWEST, HIGHEST))


def breaches(curve):
    """Where the curve breaks a rule, tried at each coordinate x and, for the exact value, at x + 2/7 and x + 6/7."""
    found = []

    def rule(kept, what):
        if not kept:
            found.append(what)

    rule(0 <= curve.S <= FURTHEST and 0 <= curve.R <= FURTHEST, "rise or radius out of range")
    exact = []
    for x in range(LOWEST, HIGHEST + 1):
        v, e = curve.V(x), curve.E(Fraction(x))
        rule(is_coordinate(v), f"value at {x} is no coordinate")
        rule(x == LOWEST or curve.V(x - 1) <= v, f"value falls at {x}")
        rule(abs(v - e) <= curve.R, f"value at {x} outside the radius")
        exact += [(x + q, curve.E(x + q)) for q in (Fraction(0), Fraction(2, 7), Fraction(6, 7)) if x + q <= HIGHEST]
    for (p, e), (q, f) in zip(exact, exact[1:]):
        rule(LOWEST <= f <= HIGHEST, f"exact value at {q} out of range")
        rule(e <= f, f"exact value falls at {q}")
    # the rise over a width of 1 from every place, and over a width of 50; shorter widths rise less, as nothing falls
    for n in (1, 50):
        for (p, e), (q, f) in zip(exact, exact[3 * n:]):
            rule(q == p + n and f <= e + curve.S * n, f"exact value rises too much from {p} to {q}")
    return found
