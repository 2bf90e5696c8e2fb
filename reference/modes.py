"""Single failure modes for `crates/mode_values`, and what it must print of them.

    python3 reference/modes.py                       write its input and expected output
    python3 reference/modes.py --examples PROGRAM    print the manuals' numbers beside the reference's and the program's

The numbers come from `rules.py`, a second implementation made from the rules alone. Ranges are those of docs/RULES.md.
"""

import random
import subprocess
import sys
from inspect import signature
from pathlib import Path

import mode_examples
import rules
from rules import SHEAR, TENSION

FOLDER = Path(__file__).resolve().parent.parent / "crates" / "mode_values"
NO_PLACE, OUT_OF_RANGE, NOT_UNDERSTOOD, NO_CASE = "no place", "out of range", "not understood", "no case"
OPENING, REDUCTION = "refused 5", "refused 14"
WORDS = (
    "open place anchor_tension anchor_shear bolt_tension bolt_shear lip_tension lip_shear pull_out flexure cone pry_out"
    " first_edge second_edge root straight anchor_corner bolt_corner"
).split()

VALUE, MOMENT = (1_000, 500_000), (100, 10_000)
GAMMA, STRENGTH_FACTOR, LIP = (100, 300), (20, 400), (200, 3_000)
STRENGTH, DEPTH, CONE_K, MULTIPLE = (12, 75), (400, 2_500), (30, 130), (10, 20)
EDGE_K, EDGE, WIDTH, P = (10, 110), (250, 5_000), (150, 800), (100, 140)
ANCHORS, SPACING, INERTIA = (2, 12), (500, 2_500), (4_000, 200_000)
ACTUAL, CHARACTERISTIC = (25_000, 10_000_000), (25_000, 2_500_000)


def lawful(*pairs):
    return all(low <= number <= high for number, (low, high) in pairs)


class Session:
    """Answers one line after another, as the program must."""

    def __init__(self):
        self.case = None

    def take(self, line):
        word, *numbers = line.split(" ")
        if word not in WORDS or not all(number.isdigit() and len(number) <= 9 for number in numbers):
            return NOT_UNDERSTOOD
        call = getattr(self, word)
        if len(numbers) != len(signature(call).parameters):
            return NOT_UNDERSTOOD
        if self.case is None and word != "open":
            return NO_CASE
        if word not in ("open", "place") and int(numbers[0]) == 0:
            return NO_PLACE
        return call(*map(int, numbers))

    def open(self, n, s, inertia):
        if not lawful((n, ANCHORS), (s, SPACING), (inertia, INERTIA)):
            return OPENING
        self.case = rules.Case(n, s, inertia, [])

    def place(self, position, tension, shear):
        self.case.bolts.append(rules.Bolt(position, tension, shear))
        self.case.bolts.sort()

    def show(self, place, effects, resistances):
        """At a place from 1."""
        return f"{effects[place - 1]} {resistances[place - 1]}" if place <= len(effects) else NO_PLACE

    def on_anchors(self, place, direction, resistance):
        return self.show(place, rules.forces(self.case, direction), [resistance] * self.case.n)

    def on_bolts(self, place, direction, resistances):
        return self.show(place, [bolt.load(direction) for bolt in self.case.bolts], resistances)

    def on_groups(self, place, direction, spacing_um, resistance):
        effects = rules.group_effects(rules.forces(self.case, direction), self.case.s, spacing_um)
        return self.show(place, effects, [resistance] * self.case.n)

    # Modes

    def anchor(self, place, direction, value, gamma):
        if not lawful((gamma, GAMMA)) or not (value == 0 or lawful((value, VALUE))):
            return OUT_OF_RANGE
        if value == 0:
            return NO_PLACE
        return self.on_anchors(place, direction, rules.steel_resistance(value, gamma))

    def bolt(self, place, direction, value, gamma):
        if not lawful((value, VALUE), (gamma, GAMMA)):
            return OUT_OF_RANGE
        return self.on_bolts(place, direction, [rules.steel_resistance(value, gamma)] * len(self.case.bolts))

    def lip(self, place, direction, value, gamma, spacing):
        if not lawful((value, VALUE), (gamma, GAMMA), (spacing, LIP)):
            return OUT_OF_RANGE
        nearest = [rules.nearest_spacing(self.case, i) for i in range(len(self.case.bolts))]
        return self.on_bolts(place, direction, [rules.lip_resistance(value, gamma, spacing, d) for d in nearest])

    def anchor_tension(self, place, value, gamma):
        return self.anchor(place, TENSION, value, gamma)

    def anchor_shear(self, place, value, gamma):
        return self.anchor(place, SHEAR, value, gamma)

    def bolt_tension(self, place, value, gamma):
        return self.bolt(place, TENSION, value, gamma)

    def bolt_shear(self, place, value, gamma):
        return self.bolt(place, SHEAR, value, gamma)

    def lip_tension(self, place, value, gamma, spacing):
        return self.lip(place, TENSION, value, gamma, spacing)

    def lip_shear(self, place, value, gamma, spacing):
        return self.lip(place, SHEAR, value, gamma, spacing)

    def pull_out(self, place, value, gamma, factor):
        if not lawful((value, VALUE), (gamma, GAMMA), (factor, STRENGTH_FACTOR)):
            return OUT_OF_RANGE
        return self.on_anchors(place, TENSION, rules.pull_out_resistance(value, factor, gamma))

    def flexure(self, place, value, gamma):
        if not lawful((value, MOMENT), (gamma, GAMMA)):
            return OUT_OF_RANGE
        moments = rules.flexure_moments(self.case)
        return self.show(place, moments, [rules.steel_resistance(value, gamma)] * len(moments))

    def cone_in(self, place, direction, k, f, h, m, gamma):
        if not lawful((k, CONE_K), (f, STRENGTH), (h, DEPTH), (m, MULTIPLE), (gamma, GAMMA)):
            return OUT_OF_RANGE
        return self.on_groups(place, direction, rules.cone_spacing(h), rules.cone_resistance(k, f, h, m, gamma))

    def cone(self, place, k, f, h, gamma):
        return self.cone_in(place, TENSION, k, f, h, 10, gamma)

    def pry_out(self, place, k, f, h, m, gamma):
        return self.cone_in(place, SHEAR, k, f, h, m, gamma)

    def edge(self, place, rule, k, f, c1, b, p, gamma):
        if not lawful((k, EDGE_K), (f, STRENGTH), (c1, EDGE), (b, WIDTH), (p, P), (gamma, GAMMA)):
            return OUT_OF_RANGE
        return self.on_groups(place, SHEAR, rules.edge_spacing(c1, b), rule(k, f, c1, p, gamma))

    def first_edge(self, place, k, f, c1, b, p, gamma):
        return self.edge(place, rules.edge_first, k, f, c1, b, p, gamma)

    def second_edge(self, place, k, f, c1, b, p, gamma):
        return self.edge(place, rules.edge_second, k, f, c1, b, p, gamma)

    # Reductions, of the steel in tension

    def reduced(self, basic, distances, reduction):
        """`basic` is what the mode itself prints; `reduction` makes a resistance of its resistance."""
        if basic == OUT_OF_RANGE:
            return basic
        if not lawful(*distances):
            return REDUCTION
        if basic == NO_PLACE:
            return NO_PLACE
        effect, resistance = map(int, basic.split())
        return f"{effect} {reduction(resistance)}"

    def root(self, place, value, gamma, a, b):
        basic = self.anchor_tension(place, value, gamma)
        return self.reduced(basic, [(a, ACTUAL), (b, CHARACTERISTIC)], lambda r: rules.root_reduction(r, a, b))

    def straight(self, place, value, gamma, a, b):
        basic = self.anchor_tension(place, value, gamma)
        return self.reduced(basic, [(a, ACTUAL), (b, CHARACTERISTIC)], lambda r: rules.straight_reduction(r, a, b))

    def corner(self, place, basic, position, first, last, b):
        distances = [(first, ACTUAL), (last, ACTUAL), (b, CHARACTERISTIC)]

        def reduction(r):
            return rules.corner_reduction(r, self.case.n, self.case.s, first, last, position(place - 1), b)

        return self.reduced(basic, distances, reduction)

    def anchor_corner(self, place, value, gamma, first, last, b):
        basic = self.anchor_tension(place, value, gamma)
        return self.corner(place, basic, lambda k: self.case.anchor(k), first, last, b)

    def bolt_corner(self, place, value, gamma, first, last, b):
        basic = self.bolt_tension(place, value, gamma)
        return self.corner(place, basic, lambda k: self.case.bolts[k].position, first, last, b)


# Input lines


def around(*numbers):
    return sorted({n + d for n in numbers for d in (-1, 0, 1)})


def each(word, numbers, *ranges):
    """A line with these numbers, and lines with one of them at and past each end of its range."""
    yield " ".join(map(str, [word, 1, *numbers]))
    for k, (low, high) in enumerate(ranges):
        for edge in (low - 1, low, high, high + 1):
            yield " ".join(map(str, [word, 1, *numbers[:k], edge, *numbers[k + 1 :]]))


def boundaries():
    yield from ["anchor_tension 1 20000 180", "place 0 5000 0", "open 2 1000 59049"]
    yield from ["open 1 1000 59049", "open 13 1000 59049", "open 2 499 59049", "open 2 2501 59049", "open 2 1000 3999"]
    yield from ["nothing 1 2 3", "cone 1 80 25 1000", "cone 1 80 25 1000 150 1", "cone one 80 25 1000 150"]
    yield "flexure 1 1000000000 115"
    # no bolt yet
    yield from ["bolt_tension 1 20000 180", "lip_shear 1 20000 180 800", "flexure 1 1099 115", "anchor_shear 1 20000 180"]
    yield from ["place 0 5000 0", "anchor_tension 0 20000 180", "anchor_tension 2 20000 180", "anchor_tension 3 20000 180"]
    yield from each("anchor_tension", [20_000, 180], VALUE, GAMMA)
    yield from ["anchor_tension 1 0 180", "anchor_shear 1 0 100", "root 1 0 100 25000 100000"]
    yield from each("bolt_tension", [33_700, 200], VALUE, GAMMA)
    yield from each("lip_tension", [20_000, 180, 800], VALUE, GAMMA, LIP)
    yield from each("pull_out", [26_680, 150, 247], VALUE, GAMMA, STRENGTH_FACTOR)
    yield from each("flexure", [1_099, 115], MOMENT, GAMMA)
    yield from each("cone", [80, 25, 1_000, 150], CONE_K, STRENGTH, DEPTH, GAMMA)
    yield from (f"cone 1 80 25 {h} 150" for h in around(790, 1_800))
    yield from each("root", [10_000, 100, 25_000, 100_000], VALUE, GAMMA, ACTUAL, CHARACTERISTIC)
    yield from each("straight", [10_000, 100, 25_000, 100_000], VALUE, GAMMA, ACTUAL, CHARACTERISTIC)
    for word in ("root", "straight"):
        yield from (f"{word} 1 499999 100 {a} 700000" for a in around(700_000))
        yield f"{word} 1 500000 100 25000 2500000"
        yield f"{word} 1 1000 300 2499999 2500000"
    yield from each("anchor_corner", [10_000, 100, 80_000, 90_000, 200_000], VALUE, GAMMA, ACTUAL, ACTUAL, CHARACTERISTIC)
    yield from each("bolt_corner", [10_000, 100, 80_000, 90_000, 200_000], VALUE, GAMMA, ACTUAL, ACTUAL, CHARACTERISTIC)


def sheared():
    """Modes in shear, and the exact cubes and squares of the edge."""
    yield from ["open 2 1300 59049", "place 0 5000 7000"]
    yield from each("anchor_shear", [20_000, 180], VALUE, GAMMA)
    yield from each("bolt_shear", [20_200, 167], VALUE, GAMMA)
    yield from each("lip_shear", [20_000, 180, 800], VALUE, GAMMA, LIP)
    yield from each("pry_out", [80, 25, 1_000, 20, 150], CONE_K, STRENGTH, DEPTH, MULTIPLE, GAMMA)
    for word in ("first_edge", "second_edge"):
        yield from each(word, [75, 25, 1_250, 400, 140, 150], EDGE_K, STRENGTH, EDGE, WIDTH, P, GAMMA)
        yield from (f"{word} 1 75 25 {c1} 400 140 150" for c1 in around(270, 640, 1_250, 2_160, 3_430))
        yield from (f"{word} 1 110 {f} 5000 800 140 100" for f in around(16, 25, 36, 49))
    # anchors as far apart as the characteristic spacing, a tenth less and a tenth more
    for s in (1_299, 1_300, 1_301):
        yield from [f"open 3 {s} 59049", f"place {s} 0 200000"]
        yield from (f"{word} {k} 10 12 250 150 100 300" for word in ("first_edge", "second_edge") for k in (1, 2, 3))


def neighbours():
    """Lips and spans: alone, with a neighbour on one side and on both, over an anchor and beside it."""
    yield from ["open 4 1000 20570", "place 1000 4000 3000"]
    yield from ["lip_tension 1 20000 180 800", "flexure 1 1099 115"]
    yield from ["place 1301 5000 0", "place 1999 1 200000", "place 2300 200000 1"]
    for k in (1, 2, 3, 4, 5):
        yield from (f"lip_tension {k} 20000 180 {sl}" for sl in around(301, 302, 698))
        yield from [f"lip_shear {k} 499999 101 3000", f"flexure {k} 1099 115", f"bolt_tension {k} 1000 300"]
        yield from [f"bolt_corner {k} 10000 100 25000 25000 2500000", f"bolt_corner {k} 10000 100 180000 25000 200000"]
    corners = ((25_000, 25_000), (25_000, 10_000_000), (100_000, 30_000))
    yield from (f"anchor_corner {k} 10000 100 {first} {last} 150000" for k in (1, 2, 3, 4) for first, last in corners)
    # one span full to its ends, and bolts over both of its anchors
    yield from ["open 3 2500 20570", "place 2501 9999 1", "place 4999 9998 1", "place 3750 9997 1", "place 0 9996 1"]
    yield from (f"flexure {k} 100 300" for k in (1, 2, 3, 4))
    yield from ["open 2 600 200000", "place 0 200000 0", "place 300 200000 0", "place 600 200000 0"]
    yield from (f"flexure {k} 10000 100" for k in (1, 2, 3))


def drawn(count):
    """Cases and modes at random numbers in range."""
    draw = random.Random(1)

    def some(*ranges):
        return " ".join(str(draw.randint(*r)) for r in ranges)

    for _ in range(count):
        n, s = draw.randint(*ANCHORS), draw.randint(*SPACING)
        yield f"open {n} {s} {draw.randint(*INERTIA)}"
        position = draw.randint(0, 400)
        bolts = 0
        while position <= (n - 1) * s and bolts < 16:
            yield f"place {position} {draw.choice([0, 1, draw.randint(0, 200_000)])} {draw.randint(1, 200_000)}"
            position += draw.randint(300, 900)
            bolts += 1
        anchor, bolt = draw.randint(1, n), draw.randint(1, max(1, bolts))
        yield f"anchor_tension {anchor} {some(VALUE, GAMMA)}"
        yield f"bolt_shear {bolt} {some(VALUE, GAMMA)}"
        yield f"lip_tension {bolt} {some(VALUE, GAMMA, LIP)}"
        yield f"pull_out {anchor} {some(VALUE, GAMMA, STRENGTH_FACTOR)}"
        yield f"flexure {bolt} {some(MOMENT, GAMMA)}"
        yield f"cone {anchor} {some(CONE_K, STRENGTH, DEPTH, GAMMA)}"
        yield f"pry_out {anchor} {some(CONE_K, STRENGTH, DEPTH, MULTIPLE, GAMMA)}"
        yield f"first_edge {anchor} {some(EDGE_K, STRENGTH, EDGE, WIDTH, P, GAMMA)}"
        yield f"second_edge {anchor} {some(EDGE_K, STRENGTH, EDGE, WIDTH, P, GAMMA)}"
        yield f"root {anchor} {some(VALUE, GAMMA, (25_000, 3_000_000), CHARACTERISTIC)}"
        yield f"straight {anchor} {some(VALUE, GAMMA, (25_000, 3_000_000), CHARACTERISTIC)}"
        yield f"anchor_corner {anchor} {some(VALUE, GAMMA, (25_000, 1_000_000), (25_000, 1_000_000), CHARACTERISTIC)}"
        yield f"bolt_corner {bolt} {some(VALUE, GAMMA, (25_000, 1_000_000), (25_000, 1_000_000), CHARACTERISTIC)}"


def manuals():
    for setting in mode_examples.SETTINGS:
        yield from setting.calls
        yield from (example.line for example in setting.examples)


def lines():
    yield from boundaries()
    yield from sheared()
    yield from neighbours()
    yield from drawn(25)
    yield from manuals()


# The manuals' numbers side by side


def meant(example, answer, own):
    """What of an answer the manual prints; `own` is the anchor's own force."""
    effect, resistance = map(int, answer.split())
    if example.read == mode_examples.NEIGHBOURS:
        return f"{own / effect:.4f}"
    if example.read == mode_examples.PART:
        return f"{resistance / 10**7:.4f}"
    return f"{(effect if example.read == mode_examples.EFFECT else resistance):,}"


def own_line(example):
    """Asks for the force on the anchor alone, in the direction of the example's mode."""
    word, place, *_ = example.line.split()
    return f"anchor_{'shear' if word.endswith('edge') else 'tension'} {place} 1000 100"


def answers(program, asked):
    run = subprocess.run([program], input="\n".join(asked) + "\n", capture_output=True, text=True, check=True)
    return run.stdout.split("\n")


def print_examples(program):
    for setting in mode_examples.SETTINGS:
        session = Session()
        for call in setting.calls:
            session.take(call)
        asked = [line for e in setting.examples for line in (e.line, own_line(e))]
        by_program = iter(answers(program, setting.calls + asked))
        print(f"\n### {setting.name}\n\n| what | from | manual | reference | program | why |\n|---|---|---|---|---|---|")
        for e in setting.examples:
            columns = [session.take(e.line), next(by_program)]
            owns = [int(session.take(own_line(e)).split()[0]), int(next(by_program).split()[0])]
            shown = [meant(e, answer, own) for answer, own in zip(columns, owns)]
            print(f"| {e.what} | {e.inputs} | {e.printed} | {shown[0]} | {shown[1]} | {e.why} |")


def main():
    if sys.argv[1:2] == ["--examples"]:
        print_examples(sys.argv[2])
        return
    session = Session()
    table = [(line, session.take(line)) for line in lines()]
    (FOLDER / "stdin").write_text("".join(f"{line}\n" for line, _ in table))
    (FOLDER / "stdout").write_text("".join(f"{answer}\n" for _, answer in table if answer is not None))
    print(f"{len(table)} lines, {sum(answer is not None for _, answer in table)} answers")


if __name__ == "__main__":
    main()
