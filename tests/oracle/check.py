"""Shows the oracle on figures worked by hand, then compares the outputs stored in crates/ with the oracle's.

Run it anywhere: python3 tests/oracle/check.py
"""
import re
import sys
from fractions import Fraction
from itertools import zip_longest
from pathlib import Path

import cases
import tabulate
from cases import K, SLOPES, uneven
from curves import (Bare, Chain, Clamp, Loose, Offset, Root, band, breaches, down, hold, is_coordinate, nearest, up,
                    value)
from tables import CUBIC, KINDS, LINE, STEP, Table

REPOSITORY = Path(__file__).resolve().parents[2]
failures = []


def equal(found, expected, what):
    if found != expected:
        failures.append(f"{what}: {found}, not {expected}")


def same(found, expected, what):
    """The same for long texts, of which only the first line that differs is told."""
    for n, (a, b) in enumerate(zip_longest(found.split("\n"), expected.split("\n")), 1):
        if a != b:
            failures.append(f"{what}, line {n}: {a}, not {b}")
            return


def head_rows():
    """The head's rows as the tests of crates/tabulate have them."""
    text = (REPOSITORY / "crates" / "tabulate" / "src" / "tests.rt").read_text()
    rows = text.split("const HEAD_ROWS")[1].split("= [")[1].split("];")[0]
    return [tuple(map(int, row)) for row in re.findall(r"\((-?\d+), (-?\d+)\)", rows)]


def figures():
    """Worked by hand from docs/curves.md."""
    for v, low, high, near in [(Fraction(5, 2), 2, 3, 3), (Fraction(-5, 2), -3, -2, -2), (Fraction(-1, 2), -1, 0, 0),
                               (Fraction(7, 3), 2, 3, 2), (Fraction(-7, 3), -3, -2, -2), (4, 4, 4, 4)]:
        equal((down(v), up(v), nearest(v)), (low, high, near), f"rounding {v}")
    equal([hold(v, 3, 8) for v in (2, 3, 5, 8, 9)], [3, 3, 5, 8, 8], "holding")
    equal([is_coordinate(x) for x in (-8193, -8192, 8191, 8192)], [False, True, True, False], "coordinates")
    equal([band(*ab) for ab in [(-8193, 0), (0, 8192), (8192, -8193), (7, 6), (7, 7), (-8192, 8191)]],
          [1, 1, 1, 11, (7, 7), (-8192, 8191)], "bands")
    ends = [-2**31, -8193, -8192, 8191, 8192, 2**31 - 1]
    equal([value(Bare(), x) for x in ends], [-8192, -8192, -8192, 8191, 8191, 8191], "bare")
    root = Root()
    equal([value(root, x) for x in (-1, 0, 1, 2, 1023, 1024)], [0, 0, 256, 362, 8187, 8187], "root")
    equal([value(root, x) for x in (-2**31, 2**31 - 1)], [0, 8187], "root beyond the coordinates")
    equal([root.E(q) for q in (Fraction(-1, 2), Fraction(1, 2), Fraction(3, 2), Fraction(2047, 2))],
          [0, 128, 309, 8187], "root between entries")
    equal(max(b - a for a, b in zip(root.entries, root.entries[1:])), 256, "the greatest step of root")
    loose = {r: Loose(r) for r in (1, 5, 7, 9, 63, 64)}
    equal([Chain(root, loose[r]).R for r in (1, 63, 64)], [256, 16128, 16383], "the radius of root after a loose curve")
    equal(Chain(loose[7], loose[5]).R, 12, "the radius of two loose curves")
    equal((Offset(loose[9], 3).R, Clamp(loose[9], -8192, 8191).R), (9, 9), "the radius under an offset and a clamp")
    twice = Chain(root, root)
    equal((value(twice, 2), value(twice, 16), twice.S, twice.R), (4870, 8187, 16383, 0), "root after root")
    equal(value(Offset(Bare(), 2**31 - 1), -8192), 8191, "a shift held")
    equal([value(Offset(Bare(), -5), x) for x in (-8190, 8191)], [-8192, 8186], "a value held")
    pile = Clamp(Offset(Chain(Clamp(root, 256, 8000), Offset(Bare(), -40)), -300), -20, 7600)
    equal([value(pile, x) for x in (-9000, 41, 42, 900, 1063)], [-20, -20, 62, 7207, 7600], "a pile of five layers")
    equal((pile.S, pile.R), (256, 0), "rise and radius of the pile")
    settings = [(0, 1, 2, 3, 1), (1, 0, 9000, 8, 0), (0, 9000, 1, 0, 1), (0, 1, 9000, 0, 0), (0, 1, 3, 2, 0),
                (0, 1, 2, 3, 0), (0, 1, 2, 3, 16384)]
    equal([tabulate.refusal(0, 0, *s) for s in settings], [0, 11, 1, 1, 11, 11, 11], "refused settings")
    equal(tabulate.tabulate(0, 0, 0, 500, 0, 5, 2), ([(0, 0), (2, 362), (4, 500)], 256, 0), "a small table")
    equal(tabulate.reflectance(400, 2000, 1300), ([(400, 2840), (1700, 4100)], 4, 1), "a small table of the head")
    equal([tabulate.reflectance(*s) for s in [(0, 8192, 1), (1, 0, 1), (0, 1, 0)]], [1, 11, 11], "refused spans")
    equal(tabulate.reflectance(-7000, 8191, 700), (head_rows(), 4, 1), "the rows that crates/tabulate tests")


def table_figures():
    """Knot tables, worked by hand."""
    new = Table()
    equal(([value(new, x) for x in (-2**31, -8193, -5000, 8191, 2**31 - 1)], new.S, new.R),
          ([-8192, -8192, -5000, 8191, 8191], 1, 1), "a new table")
    step, line, cubic = (Table(k, K) for k in KINDS)
    equal(([value(step, x) for x in (-1, 9, 10, 19, 20, 8191)], step.S, step.R), ([0, 0, 10, 10, 40, 40], 30, 0),
          "step K")
    equal([step.E(q) for q in (Fraction(-1, 2), Fraction(19, 2), Fraction(39, 2))], [0, 0, 10], "step K between knots")
    equal(([value(line, x) for x in (-1, 9, 10, 11, 20, 21)], line.S, line.R), ([0, 9, 10, 13, 40, 40], 3, 1), "line K")
    equal(line.E(Fraction(31, 3)), 11, "line K at 31/3")
    equal((cubic.m, cubic.M), ([1, Fraction(3, 2), 3], [2048, 3072, 6144]), "the slopes of cubic K")
    equal(([value(cubic, x) for x in (-1, 0, 5, 10, 15, 20, 21)], cubic.S, cubic.R), ([0, 0, 4, 10, 23, 40, 40], 9, 1),
          "cubic K")
    equal([cubic.E(q) for q in (5, 15, Fraction(5, 2))], [Fraction(35, 8), Fraction(185, 8), Fraction(145, 64)],
          "cubic K between knots")
    widths = Table(CUBIC, [(0, 0), (10, 10), (40, 100)])
    equal((widths.m[1], widths.M), (Fraction(18, 13), [2048, 2835, 6144]), "the slopes of pieces of two widths")
    half = Table(LINE, [(-3, -1), (-1, 0)])
    equal((half.E(-2), half.V(-2), half.S), (Fraction(-1, 2), 0, 1), "a half below zero")
    flat = Table(CUBIC, [(0, 0), (10, 0), (20, 10)])
    equal((flat.M, flat.E(15), flat.V(15), flat.S), ([0, 0, 2048], Fraction(15, 4), 4, 3), "beside a flat piece")
    equal(Table(CUBIC, SLOPES).M, [1365, 1, 1, 10240], "slopes that are stored below themselves")
    for k, middle in (STEP, -8192), (LINE, Fraction(-1, 2)), (CUBIC, Fraction(-1, 2)):
        steep = Table(k, [(0, -8192), (1, 8191)])
        equal((steep.S, steep.E(Fraction(1, 2))), (16383, middle), f"a rise of 16383 in kind {k}")
    equal([Table(k, [(0, 0), (2, 3)]).S for k in KINDS], [3, 2, 5], "rises rounded up")
    equal([Table(k, [(5, 7), (9, 7)]).S for k in KINDS], [0, 0, 0], "the rises of a flat table")
    chain = Chain(Table(LINE, [(0, 0), (100, 50)]), cubic)
    equal((value(chain, 15), chain.S, chain.R), (12, 9, 2), "a line after cubic K")


def edit_figures():
    """Edits of knot tables, worked by hand."""
    told = [
        ("new", "ok"), ("knots", "5 -8192 -8192 -4096 -4096 0 0 4096 4096 8191 8191"),
        ("load 2 0 0 4096 1", "ok"), ("load 2 0 0 4097 1", "refused 5 index 1"), ("knots", "2 0 0 4096 1"),
        ("load 3 0 0 10 10 20 40", "ok"), ("put 10 41", "refused 4"), ("tell", "rise 3 radius 1"),
        ("put 10 40", "ok"), ("knots", "3 0 0 10 40 20 40"), ("tell", "rise 4 radius 1"), ("put 10 10", "ok"),
        ("kind 3", "refused 7"), ("kind 2", "ok"), ("tell", "rise 9 radius 1"), ("values 5 20 10", "4 23"),
        ("kind -1", "refused 7"), ("kind 0", "ok"), ("tell", "rise 30 radius 0"), ("values -9000 9000 9000", "0 0 40"),
        ("load 0", "refused 2"), ("load 1 8192 0", "refused 2"), ("load 2 8192 0 0 0", "refused 1 index 0"),
        ("load 3 0 0 1 1 1 8192", "refused 1 index 2"), ("load 3 0 0 1 1 1 0", "refused 3 index 2"),
        ("load 3 0 0 1 1 4098 0", "refused 5 index 2"), ("load 3 0 0 1 -1 8192 0", "refused 4 index 1"),
        ("put 8192 0", "refused 1"), ("put 4117 0", "refused 5"), ("put 4116 39", "refused 4"), ("put 4116 40", "ok"),
        ("drop 20", "refused 5"), ("drop 21", "refused 6"), ("drop 4116", "ok"), ("drop 10", "ok"),
        ("drop 10", "refused 6"), ("drop 0", "refused 2"), ("knots", "2 0 0 20 40"), ("new", "ok"),
        ("tell", "rise 1 radius 1"), ("drop 0", "refused 5"), ("drop -8192", "ok"), ("put -8192 -4096", "ok"),
        ("values -8193 -8193 1", "-4096"),
    ]
    same(cases.answers("".join(line + "\n" for line, _ in told)), "".join(answer + "\n" for _, answer in told), "edits")
    full = Table()
    equal(full.load([(x, x) for x in range(96)]), None, "96 knots")
    equal([full.put(*knot) for knot in [(96, 96), (5000, 0), (96, 8192), (95, 96)]],
          [(2, None), (2, None), (1, None), None], "puts on 96 knots")
    equal(full.load([(x, x) for x in range(97)]), (2, None), "97 knots")
    equal(full.knots, [(x, x) for x in range(95)] + [(95, 96)], "the knots after refusals")


def rules():
    """The curves keep the rules, and the trial of the rules finds curves that do not."""
    root = Root()
    pile = Clamp(Offset(Chain(Clamp(root, 256, 8000), Offset(Bare(), -40)), -300), -20, 7600)
    for name, curve in [("bare", Bare()), ("root", root), ("root after root", Chain(root, root)), ("the pile", pile)]:
        equal(breaches(curve), [], f"the rules of {name}")
    flat = Root()
    flat.S = 255
    equal(breaches(flat), ["exact value rises too much from 0 to 1"], "root with a rise of 255")
    low = Offset(Bare(), 1)
    low.E = lambda q: q
    equal(len(breaches(low)), 16383, "a value off by one, with a radius of 0")


def table_rules():
    """Tables at the corners of the rules keep them in every kind, and the trial finds tables that do not."""
    corners = [
        ("gaps of 4096", [(-8192, -8192), (-4096, -8000), (0, 8000), (4096, 8001), (8191, 8191)]),
        ("flat pieces", [(-8000, -90), (-7000, -90), (-6900, 70), (-6000, 70), (-5000, 70), (-4999, 71), (-903, 71)]),
        ("a steep piece of width 1", [(0, -8192), (1, 8191)]),
        ("a steep piece between flat ones", [(-9, -8192), (0, -8192), (1, 8191), (9, 8191)]),
        ("a wide steep piece between narrow ones", [(-1, -8192), (0, -7192), (4096, 7191), (4097, 8191)]),
        ("two knots", [(-8192, -8192), (-4096, 8191)]),
        ("96 knots", uneven()),
        ("stored slopes", SLOPES),
    ]
    for name, knots in corners:
        equal(Table().load(knots), None, f"the load of {name}")
        for k in KINDS:
            equal(breaches(Table(k, knots)), [], f"the rules of {name} in kind {k}")

    class Raised(Table):
        slope_rounding = staticmethod(up)

    equal(breaches(Raised(CUBIC, SLOPES)), ["value falls at -6141"], "stored slopes rounded up")
    low = Table(LINE, K)
    low.S = 2
    # over a width of 1 from 9 6/7, from all places tried in 10 to 18 6/7, from 19 and from 19 2/7
    equal(len(breaches(low)), 1 + 27 + 2, "line K with a rise of 2")


def stored():
    """Each stored output is the oracle's for the stored input, and the stored cases are those of the seed."""
    crate = REPOSITORY / "crates" / "tabulate"
    equal((crate / "stdout").read_text(), tabulate.written((crate / "stdin").read_text()), "crates/tabulate/stdout")
    script = cases.script()
    answers = cases.answers(script)
    every_answer(script, answers)
    crate = REPOSITORY / "crates" / "table_cases"
    same((crate / "stdin").read_text(), script, "crates/table_cases/stdin")
    same((crate / "stdout").read_text(), answers, "crates/table_cases/stdout")


def every_answer(script, answers):
    """The script draws from each edit every answer that the rules have for it."""
    drawn = {}
    for line, answer in zip(script.splitlines(), answers.splitlines()):
        drawn.setdefault(line.split()[0], set()).add(answer.split()[1] if answer.startswith("refused") else answer)
    for call, numbers in [("new", ""), ("load", "12345"), ("put", "1245"), ("drop", "256"), ("kind", "7")]:
        equal(sorted(drawn[call]), sorted(["ok", *numbers]), f"the answers to {call}")


figures()
table_figures()
edit_figures()
rules()
table_rules()
stored()
for line in failures:
    print(f"oracle: {line}", file=sys.stderr)
if failures:
    sys.exit(1)
print("oracle: worked figures and stored outputs agree")
