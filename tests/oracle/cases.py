"""Cases for knot tables: a script of calls, one a line, and the answers that a program owes to it.

    python3 tests/oracle/cases.py script     prints the script
    python3 tests/oracle/cases.py answers    reads a script and prints its answers

First come the named cases, then random tables and random edits. Chance comes from a generator of this file's own, so
a seed gives the same script everywhere. Answering also tries the rules: the table stays lawful, every value lies within
the radius of the exact value, and no value falls along a line.
"""
import sys

from curves import FURTHEST, HIGHEST, LOWEST, hold, value
from tables import KINDS, NEW, WIDEST, Table

SEED = 1
TABLES = 2000
EDITS = 3000

LEAST, GREATEST = -2**31, 2**31 - 1
ODD = [LOWEST - 1, HIGHEST + 1, LEAST, GREATEST]
K = [(0, 0), (10, 10), (20, 40)]
SLOPES = [(-8192, -8192), (-8189, -8190), (-4094, -8189), (-4093, -8184)]


def row(n, start=0):
    """n knots, one at each whole number from the start, each y its x."""
    return [(x, x) for x in range(start, start + n)]


def uneven():
    """96 knots over most of the coordinates, in narrow and wide pieces, flat and steep."""
    knots = [(LOWEST, LOWEST)]
    for i in range(95):
        (x, y), n = knots[-1], i % 5
        knots.append((x + (1, 2, 170, 340, 171)[n], y + (0, 1, 170, 3, 600)[n]))
    return knots


def load(knots):
    """The line that loads the knots, each number held to 32 bits."""
    return " ".join(map(str, ["load", len(knots), *(hold(n, LEAST, GREATEST) for knot in knots for n in knot)]))


# The answers.

def answer(table, line):
    """The answer to a line, which edits the table where it says so."""
    if line.startswith("#"):
        return line
    call, *words = line.split(" ")
    numbers = [int(word) for word in words]
    if call == "knots":
        return load(table.knots).removeprefix("load ")
    if call == "tell":
        return f"rise {table.S} radius {table.R}"
    if call == "values":
        return " ".join(map(str, values(table, *numbers)))
    if call == "new":
        table.__init__()
        refused = None
    elif call == "load":
        assert len(numbers) == 1 + 2 * numbers[0], line
        refused = table.load(list(zip(numbers[1::2], numbers[2::2])))
    else:
        refused = {"put": table.put, "drop": table.drop, "kind": table.kind}[call](*numbers)
    assert table.is_lawful(), line
    if refused is None:
        return "ok"
    number, index = refused
    return f"refused {number}" if index is None else f"refused {number} index {index}"


def values(table, first, last, step):
    """The values at first, first + step and so on, not above last."""
    found = []
    for x in range(first, last + 1, step):
        v = value(table, x)
        assert abs(v - table.E(hold(x, LOWEST, HIGHEST))) <= table.R, (table.k, table.knots, x)
        assert not found or found[-1] <= v, (table.k, table.knots, x)
        found.append(v)
    return found


def answers(script):
    table = Table()
    return "".join(answer(table, line) + "\n" for line in script.splitlines())


# The named cases: pairs of a name and the lines that follow it.

def fresh(knots):
    """The lines that load the knots, which have to be lawful, in a new table."""
    assert Table().load(knots) is None, knots
    return ["new", load(knots)]


def every_kind(knots, *stretches):
    """The lines that read the stretches of a new table with these knots in each kind."""
    lines = fresh(knots)
    for k in KINDS:
        lines += [f"kind {k}", "tell", *(f"values {stretch}" for stretch in stretches)]
    return lines


def after(knots, *calls):
    """The lines that make the calls one after another on a new table with these knots, and show the knots then."""
    return [*fresh(knots), *calls, "knots"]


def each_alone(knots, *calls):
    """The same with a new table for each call."""
    return [line for call in calls for line in after(knots, call)]


def value_cases():
    yield "a new table", ["new", "knots", *every_kind(NEW, "-8192 8191 1489"), "new", "tell", "values -4097 -4094 1",
                          "kind 2", "tell", "values -4097 -4094 1", "kind 0", "tell", "values -4097 -4094 1"]
    yield "new takes the line again", ["new", "kind 2", "tell", "new", "tell", *fresh(K), "kind 0", "tell",
                                       "new", "tell", "knots", "values 0 20 1"]
    yield "readings beyond the coordinates", every_kind(
        NEW, "-8195 -8190 1", "8188 8194 1", "-20000 20000 5000", f"{LEAST} {LEAST} 1", f"{GREATEST} {GREATEST} 1")
    yield "K as step, line and cubic", every_kind(K, "-1 21 1", "-1 9 10", "5 15 10", "8191 8191 1", "-8192 -8192 1")
    for k in KINDS:
        yield f"load keeps kind {k}", ["new", f"kind {k}", load(K), "tell", "values 0 20 1"]
    yield "pieces of two widths", every_kind([(0, 0), (10, 10), (40, 100)], "-1 41 1")
    yield "a half goes up, below zero too", [*every_kind([(-3, -1), (-1, 0)], "-4 0 1"),
                                             *every_kind([(-4, -3), (0, 3)], "-5 1 1")]
    for knots in [(0, 0), (2, 1)], [(0, 0), (2, 3)], [(0, 0), (3, 1)], [(0, 0), (3, 4)], [(0, 0), (9, 4), (10, 4)]:
        yield "the rise is rounded up", every_kind(knots, "0 3 1")
    yield "two knots", [*every_kind([(-8192, -8192), (-4096, 8191)], "-8192 -4000 372"),
                        *every_kind([(8190, 8190), (8191, 8191)], "8188 8192 1"),
                        *every_kind([(5, 7), (9, 7)], "3 11 1")]
    yield "96 knots", [*every_kind(row(96), "-2 97 1"), *every_kind(row(96, 8096), "8090 8193 1"),
                       *every_kind(uneven(), "-8192 8191 171", "-8192 -7500 13")]
    yield "flat pieces", [
        *every_kind([(-50, 3), (-40, 3), (-30, 9), (-20, 9), (-10, 9), (-5, 12), (0, 12)], "-55 5 1"),
        *every_kind([(0, -8192), (4096, -8192), (8191, -8192)], "-100 8191 900")]
    yield "a piece of width 1 that rises by 16383", [
        *every_kind([(0, -8192), (1, 8191)], "-2 3 1"),
        *every_kind([(-9, -8192), (0, -8192), (1, 8191), (9, 8191)], "-2 3 1")]
    for h, rise in (1, 5461), (1, 5462), (2, 10922), (2, 10923), (3, 16383):
        yield "the rise of a cubic is held to 16383", every_kind([(0, -8192), (h, rise - 8192)], "-1 4 1")
    yield "values that would fall if stored slopes were rounded up", every_kind(
        SLOPES, "-8193 -4090 241", "-6150 -6135 1", "-6900 -5400 100")
    yield "wide pieces that hardly rise", [
        *every_kind([(0, 0), (4096, 1), (8191, 2)], "0 8191 273"),
        *every_kind([(-8192, 0), (-4096, 1), (-4095, 3), (1, 4), (4097, 8)], "-8192 4200 410")]
    yield "wide pieces that rise much", [
        *every_kind([(-1, -8192), (0, -7192), (4096, 7191), (4097, 8191)], "-2 4098 205", "4085 4098 1"),
        *every_kind([(-4096, -8192), (0, 0), (4096, 8191)], "-4097 4097 331")]


def load_cases():
    yield "a gap of 4096 loads", every_kind([(0, 0), (4096, 1)], "-1 4097 256", "4094 4097 1")
    yield "a gap of 4097 is refused", after(K, "load 2 0 0 4097 1", "load 3 0 0 1 1 4098 1", "load 2 -8192 0 8191 1")
    yield "load refuses a list of 0, 1, 97 or 98 knots", after(K, "load 0", "load 1 0 0", load(row(97)), load(row(98)))
    yield "load checks 2 before 1", after(K, "load 1 8192 0", load(row(96) + [(96, 8192)]), load([(0, LEAST)] * 97))
    yield "load takes 2 and 96 knots", after(K, load(row(2)), "knots", load(row(96)), "knots", load(row(96, 8096)))
    yield "load refuses what is no coordinate, at the first knot", after(
        K, *(load([(x, 0), (1, 1)]) for x in ODD), *(load([(0, y), (1, 1)]) for y in ODD),
        "load 2 8192 8192 -9000 0", "load 2 -8193 8191 -8192 0")
    yield "load refuses what is no coordinate, at a later knot", after(
        K, *(load([(0, 0), (x, 1)]) for x in ODD), *(load([(0, 0), (1, y)]) for y in ODD),
        *(load([(0, 0), (1, 1), (x, 2)]) for x in ODD), *(load([(0, 0), (1, 1), (2, y), (3, 3)]) for y in ODD),
        load(row(95) + [(95, 8192)]), load(row(96, 8097)))
    yield "load refuses what is far from its neighbour", after(
        K, load([(LOWEST, LOWEST), (GREATEST, 0)]), load([(HIGHEST, HIGHEST), (LEAST, 0)]),
        load([(0, HIGHEST), (1, LEAST)]), load([(0, LOWEST), (1, GREATEST)]))
    yield "load takes the ends of the coordinates", after(
        K, "load 2 -8192 -8192 -8191 8191", "knots", "load 2 8190 -8192 8191 8191", "knots",
        "load 2 -8192 8191 -8191 8191", "knots", "load 2 8190 -8192 8191 -8192")
    yield "load refuses an x not above the x before", after(
        K, "load 2 0 0 0 0", "load 2 0 0 -1 0", "load 3 0 0 1 1 1 2", "load 3 0 0 5 1 4 1", "load 2 8191 0 -8192 0",
        load(row(95) + [(94, 95)]))
    yield "load refuses a gap above 4096", after(
        K, "load 2 -2048 0 2049 0", "load 3 0 0 1 1 4098 2", "load 4 0 0 1 1 2 2 4099 3", load(row(95) + [(4191, 95)]),
        load(row(95) + [(4190, 95)]))
    yield "load refuses a y below the y before", after(
        K, "load 2 0 0 1 -1", "load 3 0 0 1 1 2 0", "load 2 0 8191 1 -8192", load(row(95) + [(95, 93)]),
        load(row(95) + [(95, 94)]))
    yield "load checks 1 before 3, 5 and 4", after(
        K, "load 2 0 0 0 8192", "load 2 0 0 -8193 0", "load 2 -8192 0 8192 0", "load 2 0 0 4097 8192",
        "load 2 0 0 1 -8193", "load 3 0 0 1 1 1 -8193", "load 3 0 0 1 1 8192 0", "load 3 0 0 1 1 0 8192")
    yield "load checks 3 before 4", after(K, "load 2 0 0 0 -1", "load 2 0 0 -1 -1", "load 3 0 0 1 1 1 0")
    yield "load checks 5 before 4", after(K, "load 2 0 0 4097 -1", "load 3 0 0 1 1 4098 0")
    yield "load names the first of two faulty knots", after(
        K, "load 3 0 0 1 -1 8192 0", "load 3 0 0 4097 1 4097 1", "load 4 0 0 1 1 1 2 2 1", "load 3 8192 0 0 0 0 0",
        "load 3 0 0 1 -1 2 -2", "load 4 0 0 0 0 9000 0 1 -1", "load 4 0 0 1 1 2 0 6099 1", "load 4 0 0 1 1 2 0 1 1")
    yield "a refused load leaves the kind and the values", [
        *fresh(K), "kind 2", "load 2 0 0 0 0", "tell", "values 0 20 1"]


def put_cases():
    yield "put of 10 40 on K is honoured", [*after(K, "put 10 40"), "tell", "kind 2", "tell", "values -1 21 1"]
    yield "put of 10 41 on K is refused", [*after(K, "put 10 41"), "tell", "kind 2", "tell", "values -1 21 1"]
    yield "put replaces", each_alone(K, "put 10 0", "put 10 -1", "put 10 10", "put 0 10", "put 0 11", "put 20 10",
                                     "put 20 9", "put 0 -8192", "put 20 8191")
    yield "put adds between", each_alone(K, "put 5 0", "put 5 10", "put 5 -1", "put 5 11", "put 1 3", "put 19 40",
                                         "put 19 41")
    yield "put adds before", each_alone(K, "put -1 0", "put -1 1", "put -4096 0", "put -4097 0", "put -5 -8192")
    yield "put adds after", each_alone(K, "put 21 40", "put 21 39", "put 4116 40", "put 4117 40", "put 30 8191")
    yield "put after put", after(K, "put 15 20", "put 30 50", "put -9 -3", "put 16 20", "put 15 19", "put 0 9",
                                 "put 16 18")
    yield "put of a 96th knot and of a 97th", after(row(95), "put 95 95", "put 96 96", "put -1 -1", "put 95 96")
    yield "put replaces one of 96 knots", after(
        row(96), "put 0 -1", "put 50 50", "put 95 8191", "put 50 51", "put 50 52")
    yield "put of a 97th knot between", after(
        [(2 * x, x) for x in range(96)], "put 3 1", "put 4 3", "put 4 4", "put 190 96")
    yield "put refuses what is no coordinate", after(
        NEW, *(f"put {x} 0" for x in ODD), *(f"put 0 {y}" for y in ODD), *(f"put 7 {y}" for y in ODD),
        "put 8192 8192", "put -8193 -8193", f"put {GREATEST} {LEAST}")
    yield "put at the ends of the coordinates", [
        *after(NEW, "put -8192 -8192", "put 8191 8191", "put -8192 -4097", "put 8191 4096", "put -8192 8191",
               "put 8191 -8192", "put 0 -8192", "put 0 8191", "put -8191 -4097", "put 8190 4096"),
        *after([(-8191, 0), (-4096, 0)], "put -8192 -8192"), *after([(8189, 0), (8190, 0)], "put 8191 8191")]
    yield "put checks 1 before 2", after(
        row(96), "put 8192 0", "put 96 8192", "put -8193 9000", "put 50 8192", "put 96 96")
    yield "put checks 1 before 5 and 4", after(K, "put 8192 0", "put 5000 -8193", "put 5 8192")
    yield "put checks 2 before 5 and 4", after(row(96), "put 5000 95", "put 5000 0", "put 96 0", "put -5000 0")
    yield "put checks 5 before 4", after(K, "put 5000 0", "put 5000 40", "put 4117 39", "put -4097 1", "put 4116 39",
                                         "put -4096 1")


def drop_cases():
    yield "drop refuses where no knot is", after(K, "drop 5", "drop -1", "drop 21", "drop 9", "drop 11",
                                                 *(f"drop {x}" for x in [LOWEST, HIGHEST, *ODD]))
    yield "drop at the ends of the coordinates", after(NEW, "drop -8192", "drop 8191", "drop -8192", "drop 8191")
    yield "drop down to two knots, and no further", [
        *after(K, "drop 10", "drop 0", "drop 20", "drop 10"), *after(K, "drop 0", "drop 10", "drop 20"),
        *after(K, "drop 20", "drop 0", "drop 10"), *after(NEW, "drop 8191", "drop -8192", "drop 4096", "drop 0")]
    yield "drop that would leave a gap too wide", [
        *after([(0, 0), (4000, 10), (4097, 20)], "drop 4000"), *after(NEW, "drop -4096", "drop 0", "drop 4096")]
    yield "drop that leaves a gap of 4096", after([(0, 0), (4000, 10), (4096, 20)], "drop 4000")
    yield "drop checks 6 before 2", after(NEW[:2], "drop 0", "drop -8191", f"drop {GREATEST}", "drop -8192")
    yield "drop out of 96 knots", after(row(96), "drop 0", "drop 95", "drop 47", "drop 47", "put 96 96", "put 97 97")


def kind_cases():
    yield "kind takes 0, 1 and 2 alone", fresh(K) + [
        line for k in (-1, 3, 0, -1, 3, 1, -1, 3, 2, -1, 3, 4, 256, *ODD) for line in (f"kind {k}", "tell")]
    yield "put and drop keep the kind", [
        *fresh(K), "kind 2", "put 10 25", "tell", "values 0 20 1", "put 5 9", "tell", "values 0 20 1",
        "drop 10", "tell", "values 0 20 1", "kind 0", "put 10 20", "tell", "values 0 20 1", "drop 0", "tell",
        "values 0 20 1"]


def named():
    cases = [*value_cases(), *load_cases(), *put_cases(), *drop_cases(), *kind_cases()]
    return [line for name, lines in cases for line in (f"# {name}", *lines)]


# The random cases.

class Dice:
    """Numbers by chance, the same for the same seed."""

    def __init__(self, seed):
        self.state = seed

    def below(self, n):
        """A number from 0 to n - 1."""
        self.state = (self.state * 6364136223846793005 + 1442695040888963407) % 2**64
        return (self.state >> 33) % n

    def among(self, a, b):
        """A number from a to b."""
        return a + self.below(b - a + 1)

    def pick(self, options):
        return options[self.below(len(options))]


def amounts(dice, n, least, most):
    """n amounts from least to most, which sum up to at most 16383: all drawn in one way, or each in any way."""
    def draw(way):
        return dice.pick([least, 1, most]) if way == 0 else dice.among(least, [9, 300, most, FURTHEST // n][way - 1])

    one_way, way = dice.below(2), dice.among(1, 4)
    drawn = [hold(draw(way if one_way else dice.below(4)), least, most) for _ in range(n)]
    while sum(drawn) > FURTHEST:
        drawn[dice.below(n)] = dice.among(least, 5)
    if dice.below(8) == 0:
        drawn[dice.below(n)] += min(most - max(drawn), FURTHEST - sum(drawn))
    return drawn


def pile(dice, steps):
    """The sums of the first 0, 1, 2 .. steps, from a start that keeps them coordinates."""
    room = FURTHEST - sum(steps)
    sums = [LOWEST + dice.pick([0, room, *(dice.among(0, room) for _ in range(4))])]
    for step in steps:
        sums.append(sums[-1] + step)
    return sums


def some_knots(dice, n):
    """n lawful knots."""
    if dice.below(40) == 0:
        gaps = [1] * (n - 1)
    elif n < 9 and dice.below(6) == 0:
        gaps = [dice.among(2047, 2050) for _ in range(n - 1)] if n > 2 else [WIDEST]
    else:
        gaps = amounts(dice, n - 1, 1, WIDEST)
    rises = [0] * (n - 1) if dice.below(30) == 0 else amounts(dice, n - 1, 0, FURTHEST)
    return list(zip(pile(dice, gaps), pile(dice, rises)))


def some_size(dice):
    """2 to 96, small ones more often."""
    a, b = dice.pick([(2, 2), (3, 8), (3, 8), (3, 8), (9, 30), (9, 30), (9, 30), (31, 96), (31, 96), (94, 96)])
    return dice.among(a, b)


def some_stretch(dice, knots):
    """About 12 readings of these knots, sometimes beyond their ends."""
    i = dice.below(len(knots) - 1)
    if dice.below(2):
        i = max(range(len(knots) - 1), key=lambda j: (knots[j + 1][0] - knots[j][0]) * (1 + (i + j) % 3))
    (a, _), (b, _) = knots[i], knots[i + 1]
    first, last = [
        (a - dice.below(4), b + dice.below(4)),
        (a - dice.below(4), b + dice.below(4)),
        (knots[0][0] - dice.below(60), knots[-1][0] + dice.below(60)),
        (a - dice.below(12), a + 6),
        (dice.among(a, b), dice.among(b, b + 3000)),
        (dice.among(-9000, LOWEST), dice.among(HIGHEST, 9000)),
    ][dice.below(6)]
    step = max(1, (last - first) // 11)
    return f"values {first} {max(last, first + 11 * step)} {step}"


def random_tables(dice):
    lines = []
    for n in range(TABLES):
        if n % 100 == 0:
            lines.append(f"# random tables from {n}")
        knots = some_knots(dice, some_size(dice))
        assert Table().load(knots) is None, knots
        lines.append(load(knots))
        turn = dice.below(3)
        for k in range(turn, turn + 3):
            lines += [f"kind {k % 3}", "tell", some_stretch(dice, knots)]
    return lines


def some_fault(dice, knots):
    """The knots changed at one place, mostly into a fault."""
    i = dice.below(len(knots))
    (x, y), (a, b) = knots[i], knots[max(i - 1, 0)]
    faulty = dice.pick([(dice.pick(ODD), y), (x, dice.pick(ODD)), (a, y), (a - dice.below(3), y), (a + WIDEST + 1, y),
                        (a + WIDEST, y), (x, b - 1), (x, b), (a + WIDEST + 1, b - 1), (a, b - 1)])
    return knots[:i] + [faulty] + knots[i + 1:]


def some_load(dice):
    """A load of a few knots or, rarely, of 95 to 97, mostly with faults at one place or two."""
    knots = some_knots(dice, dice.among(2, 8) if dice.below(12) else dice.among(95, 97))
    for _ in range(dice.pick([0, 1, 1, 1, 2])):
        knots = some_fault(dice, knots)
    return load(knots)


def some_put(dice, knots):
    """A put at a knot, between two, or before or after all; lawful more often than not."""
    i = dice.below(len(knots) - 1)
    (a, _), (b, _), (first, _), (last, _) = knots[i], knots[i + 1], knots[0], knots[-1]
    x = dice.pick([a, b, first, last, dice.among(a, b), dice.among(a, b), a + 1, b - 1,
                   dice.among(max(first - WIDEST, LOWEST), first), dice.among(last, min(last + WIDEST, HIGHEST)),
                   first - 1, last + 1, first - WIDEST - dice.below(2), last + WIDEST + dice.below(2),
                   dice.pick([LOWEST, HIGHEST, *ODD]), dice.among(LOWEST, HIGHEST)])
    low = max([y for z, y in knots if z < x], default=LOWEST)
    high = min([y for z, y in knots if z > x], default=HIGHEST)
    y = dice.pick([low, high, *(dice.among(low, high) for _ in range(6)), low - 1, high + 1,
                   dice.pick([LOWEST, HIGHEST, *ODD]), dice.among(LOWEST, HIGHEST)])
    return f"put {x} {y}"


def some_edit(dice, knots):
    """An edit of a table with these knots, lawful or not."""
    call = dice.below(20)
    if call < 10:
        return some_put(dice, knots)
    if call < 15:
        (x, _), (first, _), (last, _) = dice.pick(knots), knots[0], knots[-1]
        return f"drop {dice.pick([x, x, x, x, first, last, x + 1, x - 1, dice.pick([LOWEST, HIGHEST, *ODD])])}"
    if call < 17:
        return f"kind {dice.pick([0, 1, 2, 0, 1, 2, -1, 3, dice.pick(ODD)])}"
    return some_load(dice) if dice.below(8) else "new"


def random_edits(dice):
    """Edits in spells of 30, each of which starts with a lawful load; now and then the knots or values are shown."""
    table, lines = Table(), []

    def add(line):
        lines.append(line)
        answer(table, line)

    for n in range(EDITS):
        if n % 300 == 0:
            add(f"# random edits from {n}")
        if n % 30:
            add(some_edit(dice, table.knots))
        else:
            add(load(some_knots(dice, dice.pick([2, 3, 3, 4, 6, 9, 20, 94, 95, 96]))))
        look = dice.below(16)
        if look == 0:
            add("knots")
        elif look == 1:
            add("tell")
            add(some_stretch(dice, table.knots))
    add("knots")
    return lines


def script(seed=SEED):
    dice = Dice(seed)
    return "".join(line + "\n" for line in [*named(), *random_tables(dice), *random_edits(dice)])


if __name__ == "__main__":
    if sys.argv[1:] == ["script"]:
        sys.stdout.write(script())
    elif sys.argv[1:] == ["answers"]:
        sys.stdout.write(answers(sys.stdin.read()))
    else:
        sys.exit("cases.py script, or cases.py answers with a script on standard input")
