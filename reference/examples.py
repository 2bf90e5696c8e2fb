"""The worked static examples of two design manuals, put into certificates and jobs.

    python3 reference/examples.py CASES ANSWERS    write them as cases, as `vectors.py` does
    python3 reference/examples.py --tables         print the manuals' figures beside ours (docs/EXAMPLES.md has them)
    python3 reference/examples.py --inputs         print each certificate's numbers and each job

Both manuals use the rules of edition 1. In the tables a concrete resistance is meant as the manuals mean it: with the influence
of the neighbouring anchors on its side. Ours has that influence in the effect, so that it is R·(own force)/(effect) here.
"""

import sys
from fractions import Fraction
from typing import NamedTuple

import rating
import rules
from build import FIELDS, RATE, Setting, case_line, lift, places
from rules import SHEAR, TENSION

FAR = 30_000  # tenths: a corner that is not there
NOT_GIVEN = 500_000  # N: a value that a manual does not give since it does not govern
CONCRETE = (7, 12, 13)
NAMES = dict(
    enumerate(
        ["anchor", "connection", "lip", "bolt", "flexure", "pull-out", "cone", "bolt in shear", "lip in shear"]
        + ["anchor in shear", "connection in shear", "pry-out", "edge"],
        1,
    )
)


class Row(NamedTuple):
    """What a manual prints of a line at a place: effect, resistance in kN or kNm (None where it prints none), utilisation."""

    line: int
    place: int
    effect: str
    resistance: str
    utilisation: str
    why: str = ""  # letters of the notes on differences
    position: int = 0  # which of the example's bolt positions


class Sum(NamedTuple):
    """A combined check as a manual prints it: two utilisations, each raised to a power, added and divided."""

    what: str
    printed: str
    power: float
    tension: tuple  # line and place
    shear: tuple
    divisor: float = 1


class Example(NamedTuple):
    name: str
    setting: Setting
    positions: list  # lists of bolts
    rows: list
    sums: list
    lengths: tuple  # as printed, in mm: influence length, spacing and edge distance of the cone


def numbers(geometry, values, factors):
    return dict(zip(FIELDS, geometry + values + factors, strict=True))


def maker_channel(bolt, bolt_factor, bolt_shear, bolt_shear_factor):
    """The channel of the manufacturer's manual; k of the cone 8.5·0.903 = 7.68, of the edge 4.8 = 4.0·1.2."""
    geometry = [910, 409, 280, 77, 77, 40, 40, 20, 818, 818, 21_452]
    values = [33_000, 25_000, 25_000, bolt, 1013, 10_300, bolt_shear, 35_000, 0, 0]
    factors = [180, 180, 180, bolt_factor, 115, bolt_shear_factor, 180, 180, 180, 150]
    return numbers(geometry, values, factors)


def maker_first():
    channel = maker_channel(125_600, 150, 62_700, 125)
    where = dict(f=37, cracked=1, c1=1900, left=FAR, right=2250, thickness=2500, dense=0, p=120, n=2, s=1500)
    rows = [
        Row(1, 1, "2.09", "18.3", "11 %"),
        Row(1, 2, "1.28", "18.3", "7 %"),
        Row(2, 1, "2.09", "13.9", "15 %"),
        Row(2, 2, "1.28", "13.9", "10 %", "u"),
        Row(3, 1, "3.38", "13.9", "24 %"),
        Row(4, 1, "3.38", "83.7", "4 %"),
        Row(5, 1, "0.081", "0.881", "9 %"),
        Row(6, 1, "2.09", "16.96", "12 %"),
        Row(6, 2, "1.28", "16.96", "8 %"),
        Row(7, 1, "2.09", "20.6", "10 %", "k"),
        Row(7, 2, "1.28", "14.9", "9 %", "k"),
        Row(8, 1, "4.35", "50.2", "9 %"),
        Row(9, 1, "4.35", "19.4", "23 %", "u"),
        Row(12, 1, "2.69", "41.2", "7 %", "k"),
        Row(12, 2, "1.65", "29.9", "6 %", "k"),
        Row(13, 1, "2.69", "26.5", "10 %", "c"),
        Row(13, 2, "1.65", "12.7", "13 %"),
    ]
    strengths = [(37, 247)], [(37, 247)]
    sums = [
        Sum("lip, squared", "0.12", 2, (3, 1), (9, 1)),
        Sum("anchor 1: connection and edge, to the power 1.5", "0.09", 1.5, (2, 1), (13, 1)),
        Sum("anchor 2: connection and edge, to the power 1.5", "0.08", 1.5, (2, 2), (13, 2)),
    ]
    setting = Setting(channel, 1, strengths, **where)
    return Example("maker 1", setting, [[(300, 3375, 4350)]], rows, sums, ("262", "390", "195"))


def maker_second():
    channel = maker_channel(62_800, 200, 37_680, 167)
    where = dict(f=25, cracked=1, c1=1000, left=FAR, right=1750, thickness=1500, dense=0, p=120, n=3, s=1500)
    rows = [
        Row(1, 1, "1.92", "18.3", "10 %"),
        Row(1, 2, "3.64", "18.3", "20 %"),
        Row(2, 1, "1.92", "13.9", "14 %"),
        Row(2, 2, "3.64", "13.9", "26 %"),
        Row(3, 1, "3.75", "13.9", "27 %"),
        Row(4, 1, "3.75", "31.4", "12 %"),
        Row(5, 1, "0.125", "0.881", "14 %"),
        Row(6, 1, "1.92", "11.5", "17 %"),
        Row(6, 2, "3.64", "11.5", "32 %"),
        Row(7, 1, "1.92", "6.63", "29 %", "k n"),
        Row(7, 2, "3.64", "10.54", "35 %", "k"),
        Row(7, 3, "1.92", "6.28", "31 %", "k n"),
        Row(8, 1, "5.00", "22.61", "22 %", "g"),
        Row(9, 1, "5.00", "19.4", "26 %"),
        Row(12, 1, "2.57", "13.3", "19 %", "k n"),
        Row(12, 2, "4.86", "21.1", "23 %", "k"),
        Row(12, 3, "2.57", "12.6", "20 %", "k n"),
        Row(13, 1, "2.57", "4.61", "56 %", "n"),
        Row(13, 2, "4.86", "7.63", "64 %"),
        Row(13, 3, "2.57", "3.93", "66 %", "n"),
    ]
    strengths = [(25, 167)], [(25, 167)]
    bolts = [(1000, 3750, 5000), (2000, 3750, 5000)]
    sums = [Sum("lip, squared", "0.14", 2, (3, 1), (9, 1))] + [
        Sum(f"anchor {k}: cone and edge, to the power 1.5", printed, 1.5, (7, k), (13, k))
        for k, printed in ((1, "0.58"), (2, "0.72"), (3, "0.71"))
    ]
    return Example("maker 2", Setting(channel, 1, strengths, **where), [bolts], rows, sums, ("262", "390", "195"))


def guide_first():
    """k of the cone 8.5·0.88 = 7.48, of the edge 3.0."""
    geometry = [790, 400, 250, 75, 75, 30, 30, 20, 650, 650, 20_570]
    values = [NOT_GIVEN, 20_000, 20_000, 33_700, 1099, 10_800, 20_200, 20_000, 0, 20_000]
    factors = [180, 180, 180, 200, 115, 167, 180, 180, 180, 150]
    where = dict(f=37, cracked=1, c1=750, left=2000, right=FAR, thickness=1500, dense=0, p=100, n=2, s=1000)
    rows = [
        Row(2, 1, "3.26", "11.11", "0.29"),
        Row(3, 1, "5.00", "11.11", "0.45"),
        Row(4, 1, "5.00", "16.85", "0.30"),
        Row(5, 1, "0.125", "0.9557", "0.13", position=1),
        Row(6, 1, "3.26", "17.78", "0.18"),
        Row(7, 1, "3.26", "10.52", "0.31", "k"),
        Row(8, 1, "5.50", "12.10", "0.45"),
        Row(9, 1, "5.50", "11.11", "0.50"),
        Row(11, 1, "3.59", "11.11", "0.32"),
        Row(12, 1, "3.59", "21.04", "0.17", "k"),
        Row(13, 1, "3.59", "4.98", "0.72", "t"),
    ]
    strengths = [(37, 247)], [(37, 247)]
    positions = [[(0, 5000, 5500)], [(500, 5000, 5500)]]
    sums = [
        Sum("bolt, squared", "0.29", 2, (4, 1), (8, 1)),
        Sum("lip, squared", "0.45", 2, (3, 1), (9, 1)),
        Sum("anchor 1: connection, squared", "0.19", 2, (2, 1), (11, 1)),
        Sum("anchor 1: cone and edge, to the power 1.5", "0.78", 1.5, (7, 1), (13, 1)),
    ]
    setting = Setting(numbers(geometry, values, factors), 1, strengths, **where)
    return Example("guide 1", setting, positions, rows, sums, ("214", "352", "176"))


def guide_second():
    """k of the cone 8.5·0.91 = 7.74, of the edge 3.5."""
    geometry = [940, 490, 300, 77, 77, 35, 35, 20, 810, 810, 51_904]
    values = [NOT_GIVEN, 31_000, 31_000, 62_800, 2038, 15_900, 37_700, 40_300, 0, 31_000]
    factors = [180, 180, 180, 200, 115, 167, 180, 180, 180, 150]
    where = dict(f=30, cracked=1, c1=1500, left=2500, right=FAR, thickness=2000, dense=1, p=100, n=3, s=1500)
    rows = [
        Row(2, 1, "2.96", "17.2", "0.170"),
        Row(3, 1, "3.2", "17.2", "0.186"),
        Row(4, 1, "3.2", "31.4", "0.102"),
        Row(5, 1, "0.120", "1.772", None, position=1),
        Row(6, 1, "2.96", "21.2", "0.140"),
        Row(7, 1, "2.96", "14.67", "0.202", "k"),
        Row(8, 1, "8.3", "22.6", "0.367"),
        Row(9, 1, "8.3", "22.4", "0.371"),
        Row(11, 1, "7.69", "17.2", "0.447"),
        Row(12, 2, "7.39", "26.84", "0.275", "k", position=1),
        Row(13, 1, "7.69", "7.72", "0.996", "t"),
    ]
    strengths = [(30, 200)], [(30, 200)]
    positions = [[(0, 3200, 8300), (1500, 3200, 8300)], [(750, 3200, 8300), (2250, 3200, 8300)]]
    sums = [
        Sum("bolt, squared", "0.145", 2, (4, 1), (8, 1)),
        Sum("lip, squared", "0.172", 2, (3, 1), (9, 1)),
        Sum("anchor 1: connection, squared", "0.172", 2, (2, 1), (11, 1)),
        Sum("anchor 1: cone and edge, added, over 1.2", "0.998", 1, (7, 1), (13, 1), 1.2),
    ]
    setting = Setting(numbers(geometry, values, factors), 1, strengths, **where)
    return Example("guide 2", setting, positions, rows, sums, ("274", "399", "199"))


EXAMPLES = (maker_first, maker_second, guide_first, guide_second)


def job(example):
    """Each position placed, rated and lifted in turn."""
    text = example.setting.line()
    for bolts in example.positions:
        text += places(bolts) + RATE + b"".join(lift(bolt[0]) for bolt in bolts)
    return text


def our_figures(example, row):
    """Our effect (for concrete the anchor's own force), resistance and utilisation of a row."""
    setting = example.setting
    bolts = example.positions[row.position]
    verdict = setting.verdict(bolts)
    line = verdict.lines[row.line - 1]
    effect, resistance = line.effects[row.place - 1], Fraction(line.resistances[row.place - 1])
    if row.line in CONCRETE:
        force = rules.forces(setting.case(bolts), TENSION if row.line == 7 else SHEAR)[row.place - 1]
        resistance *= Fraction(force, effect)
        effect = force
    return effect, resistance, verdict.rows[row.line - 1][row.place - 1]


def table(example):
    yield "| line | place | effect, manual | ours | resistance, manual | ours | ratio | utilisation, manual | ours | note |"
    yield "|---|---|---|---|---|---|---|---|---|---|"
    for row in example.rows:
        effect, resistance, utilisation = our_figures(example, row)
        place = f"{row.place}" if row.position == 0 else f"{row.place} (second position)"
        ratio = float(resistance / 10**6 / Fraction(row.resistance))
        ours = f"{float(effect / 10**6):.3f}", f"{float(resistance / 10**6):.3f}", f"{utilisation / 10_000:.4f}"
        yield (
            f"| {row.line} {NAMES[row.line]} | {place} | {row.effect} | {ours[0]} | {row.resistance} | {ours[1]} "
            f"| {ratio:.3f} | {row.utilisation or '-'} | {ours[2]} | {row.why} |"
        )


def lengths(example):
    h, where = example.setting.numbers["embedment_depth"], example.setting.site_numbers
    ours = (
        rules.influence_length(example.setting.numbers["moment_of_inertia"], where["s"]),
        rules.cone_spacing(h),
        rules.cone_edge(h),
    )
    names = ("influence length", "spacing of the cone", "edge distance of the cone")
    for name, printed, length in zip(names, example.lengths, ours):
        yield f"{name}: manual {printed}, ours {length / 1000:.3f} mm"


def sums(example):
    """The manual's own combined checks, with our utilisations of the first position in them."""
    rows = example.setting.verdict(example.positions[0]).rows
    yield "| combined check of the manual | manual | with our utilisations |"
    yield "|---|---|---|"
    for check in example.sums:
        terms = [rows[line - 1][place - 1] / 10_000 for line, place in (check.tension, check.shear)]
        yield f"| {check.what} | {check.printed} | {sum(x**check.power for x in terms) / check.divisor:.4f} |"


def checks(example):
    """Both sides of our combined checks: the largest sum of each, and the verdict."""
    for position, bolts in enumerate(example.positions, 1):
        v = example.setting.verdict(bolts)
        row = [[]] + v.rows
        squares = max((a * a + b * b for a, b in zip(row[4], row[8])), default=0)
        lips = max((max(a, b) + c for a, b, c in zip(row[3], row[5], row[9])), default=0)
        anchors = [max(a, b) for a, b in zip(row[1], row[2])]
        shears = [max(u(10, k, v), u(11, k, v)) for k in range(len(anchors))]
        yield f"position {position}: {v}; check 1 {squares / 10**8:.4f}, check 2 {lips / 10**4:.4f}, check 3 " + (
            f"{max(a + b for a, b in zip(anchors, shears)) / 10**4:.4f}, check 4 "
            f"{(max(row[6] + row[7]) + max(row[12] + row[13])) / 10**4:.4f}"
        )
        greatest = [f"{n} {NAMES[n]} {max(row[n], default=0)}" for n in range(1, 14)]
        yield "  largest: " + ", ".join(greatest)


def u(number, place, verdict):
    row = verdict.rows[number - 1]
    return row[place] if place < len(row) else 0


def inputs(example):
    yield "certificate, edition 1: " + ", ".join(f"{name} {number}" for name, number in example.setting.numbers.items())
    yield f"lists {example.setting.strengths}"
    yield job(example).decode()


def main():
    examples = [make() for make in EXAMPLES]
    if sys.argv[1] in ("--tables", "--inputs"):
        parts = (lengths, table, sums, checks) if sys.argv[1] == "--tables" else (inputs,)
        for example in examples:
            print("\n" + example.name)
            for part in parts:
                print("\n".join(part(example)))
        return
    cases = [(example.setting.cert(), job(example)) for example in examples]
    with open(sys.argv[1], "w") as file:
        file.writelines(case_line(*case) for case in cases)
    with open(sys.argv[2], "w") as file:
        file.writelines(rating.rate(*case) + ".\n" for case in cases)


if __name__ == "__main__":
    main()
