"""What the program `tabulate` writes, from its standard input; and the table of the head."""
import sys

from curves import Bare, Chain, Clamp, Offset, Root, band, value
from tables import CUBIC, Table

# what the head read off twelve grey tiles, from docs/tabulate.md
HEAD = [(-6200, 0), (-5100, 210), (-3900, 490), (-2500, 980), (-1000, 1750), (400, 2840), (1700, 4100), (2900, 5360),
        (4100, 6420), (5300, 7150), (6500, 7600), (7900, 7600)]


def table(curve, first, last, step):
    """The rows, the rise and the radius; or the number that refuses the span or the step."""
    span = band(first, last)
    if isinstance(span, int):
        return span
    if step not in range(1, 16384):
        return 11
    rows = [(x, value(curve, x)) for x in range(first, last + 1) if (x - first) % step == 0]
    return rows, curve.S, curve.R


def tabulate(zero, trim, low, high, first, last, step):
    """The table of a nozzle row's flow, or the number that refuses the settings."""
    limit = band(low, high)
    if isinstance(limit, int):
        return limit
    return table(Clamp(Offset(Chain(Root(), Offset(Bare(), zero)), trim), low, high), first, last, step)


def reflectance(first, last, step):
    """The table of the head's reflectance, or the number that refuses the span or the step."""
    return table(Table(CUBIC, HEAD), first, last, step)


def refusal(*settings):
    """The number that refuses the settings, or 0."""
    answer = tabulate(*settings)
    return answer if isinstance(answer, int) else 0


def written(text):
    """The output for the settings in the text, which have to be lawful."""
    rows, rise, radius = tabulate(*map(int, text.split()))
    lines = [f"{x} {v}\n" for x, v in rows]
    return "".join(lines) + f"{len(rows)} readings, rise {rise}, radius {radius}\n"


if __name__ == "__main__":
    sys.stdout.write(written(sys.stdin.read()))
