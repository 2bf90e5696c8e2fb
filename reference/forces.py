"""Anchor forces of load cases, reckoned by whole numbers and fractions.

    python3 reference/forces.py    write the input and the expected output of `crates/anchor_forces`

It is a second implementation, made from the rules below alone, by other means than the proved code: roots by `math.isqrt`
and digit by digit, shares by fractions. Besides, it holds every force that it prints against the exact one.

The influence length L of a channel with inertia I (mm⁴) and spacing s (tenths of a millimetre) is a whole number of µm.
Each of a, b, c, q is the greatest whole number that fits:

    a² ≤ I·10^12    b² ≤ a·10^6    c4·c ≤ b·10^7    q² ≤ s·10^9    L = 13·c·q/10^7 rounded down

where c2 = c²/100 and c4 = c2²/10^8, each rounded up. A load of F mN at a distance of d µm from an anchor gives it
F·(H − d)/S rounded up, and 0 where d ≥ H; H = L + 5, and S is the sum of L − d over the anchors with d < L. The forces of
several bolts add. The exact length is 13·I^(1/20)·√s, with s in mm, for both L and H.
"""

import re
from fractions import Fraction
from math import ceil, isqrt
from pathlib import Path
from typing import NamedTuple

from force_cases import DONE, NOT_UNDERSTOOD, cases

FOLDER = Path(__file__).resolve().parent.parent / "crates" / "anchor_forces"
TENTH = 100  # µm
NEWTON = 1000  # mN
SLACK = 5  # µm, from L to H
MOST_BOLTS = 16
MOST_LOAD = 200_000  # N
LEAST_GAP = 300  # tenths
TENSION, SHEAR = 0, 1
PLACES = 40  # decimals of the exact length

OPENING, POSITION, LOADS, FULL, NEAR, NO_BOLT = 5, 7, 8, 9, 10, 11


def fifth_fits(c, bound):
    c2 = ceil(Fraction(c * c, 100))
    c4 = ceil(Fraction(c2 * c2, 10**8))
    return c4 * c <= bound


def greatest_fifth(bound):
    """The greatest number that fits, found digit by digit from the highest place."""
    place = 1
    while fifth_fits(10 * place, bound):
        place *= 10
    found = 0
    while place:
        while fifth_fits(found + place, bound):
            found += place
        place //= 10
    assert fifth_fits(found, bound) and not fifth_fits(found + 1, bound)
    return found


def influence_length(inertia, spacing):
    a = isqrt(inertia * 10**12)
    b = isqrt(a * 10**6)
    c = greatest_fifth(b * 10**7)
    q = isqrt(spacing * 10**9)
    return 13 * c * q // 10**7


class Bracket(NamedTuple):
    """Two fractions: a number lies at the first or between the two."""

    low: Fraction
    high: Fraction


def root_bracket(value, degree):
    """A root to PLACES decimals, by halving the gap between two whole numbers."""
    scaled = value * 10 ** (PLACES * degree)
    low, high = 0, 1
    while high**degree <= scaled:
        high *= 2
    while high - low > 1:
        middle = (low + high) // 2
        if middle**degree <= scaled:
            low = middle
        else:
            high = middle
    return Bracket(Fraction(low, 10**PLACES), Fraction(high, 10**PLACES))


def exact_length(inertia, spacing):
    """The exact influence length in µm."""
    twentieth = root_bracket(Fraction(inertia), 20)
    square = root_bracket(Fraction(spacing, 10), 2)
    return Bracket(13_000 * twentieth.low * square.low, 13_000 * twentieth.high * square.high)


class Worst:
    """The largest excess of a force over the exact one, seen so far."""

    def __init__(self):
        self.checked = 0
        self.share = Fraction(0)  # of the whole load
        self.share_past_newton = Fraction(0)  # of the whole load, once 1 N is taken off
        self.heavy = Fraction(0)  # of the whole load, where that is 1,000 N or more

    def take(self, excess, load):
        self.checked += 1
        if load:
            self.share = max(self.share, excess / load)
            self.share_past_newton = max(self.share_past_newton, (excess - NEWTON) / load)
            if load >= 1000 * NEWTON:
                self.heavy = max(self.heavy, excess / load)


class Case:
    """A load case: its anchors in µm, and the loads in N by position in tenths."""

    def __init__(self, anchors, spacing, inertia):
        self.last = (anchors - 1) * spacing
        self.anchors = [k * spacing * TENTH for k in range(anchors)]
        self.length = influence_length(inertia, spacing)
        self.exact = exact_length(inertia, spacing)
        self.bolts = {}

    def place(self, position, tension, shear):
        if position > self.last:
            return POSITION
        if max(tension, shear) > MOST_LOAD or tension == shear == 0:
            return LOADS
        if len(self.bolts) >= MOST_BOLTS:
            return FULL
        if any(abs(position - other) < LEAST_GAP for other in self.bolts):
            return NEAR
        self.bolts[position] = (tension, shear)
        return DONE

    def lift(self, position):
        if position not in self.bolts:
            return NO_BOLT
        del self.bolts[position]
        return DONE

    def distances(self, position):
        return [abs(position * TENTH - anchor) for anchor in self.anchors]

    def forces(self, direction):
        """The force in mN on each anchor."""
        total = [0] * len(self.anchors)
        high = self.length + SLACK
        for position, loads in self.bolts.items():
            distances = self.distances(position)
            spread = sum(self.length - d for d in distances if d < self.length)
            for k, d in enumerate(distances):
                if d < high:
                    total[k] += ceil(Fraction(loads[direction] * NEWTON * (high - d), spread))
        return total

    def exact_forces(self, direction):
        """A bracket of the exact force in mN on each anchor."""
        low, high = [Fraction(0)] * len(self.anchors), [Fraction(0)] * len(self.anchors)
        for position, loads in self.bolts.items():
            distances = self.distances(position)
            load = loads[direction] * NEWTON
            least = [max(self.exact.low - d, Fraction(0)) for d in distances]
            most = [max(self.exact.high - d, Fraction(0)) for d in distances]
            for k in range(len(distances)):
                low[k] += load * least[k] / sum(most)
                high[k] += load * most[k] / sum(least)
        return [Bracket(a, b) for a, b in zip(low, high)]

    def check(self, direction, worst):
        """Each force is at least the exact one, and at most a thousandth of the load and 1 N above it."""
        load = sum(loads[direction] for loads in self.bolts.values()) * NEWTON
        for force, exact in zip(self.forces(direction), self.exact_forces(direction)):
            assert force >= exact.high, (force, exact)
            assert force <= exact.low + Fraction(load, 1000) + NEWTON, (force, exact)
            worst.take(force - exact.low, load)


class Session:
    """What the program is to print, line by line."""

    FORMS = re.compile(rb"(?:open|place)(?: [0-9]{1,9}){3}|lift [0-9]{1,9}|forces")

    def __init__(self):
        self.case = None
        self.number = 0
        self.worst = Worst()
        self.output = []

    def open(self, anchors, spacing, inertia):
        if not (2 <= anchors <= 12 and 500 <= spacing <= 2500 and 4000 <= inertia <= 200_000):
            return OPENING
        self.case = Case(anchors, spacing, inertia)
        return DONE

    def print_forces(self):
        self.output.append(f"influence {self.case.length}")
        rows = zip(self.case.forces(TENSION), self.case.forces(SHEAR))
        for k, (tension, shear) in enumerate(rows, 1):
            self.output.append(f"anchor {k} {tension} {shear}")
        for direction in (TENSION, SHEAR):
            self.case.check(direction, self.worst)
        return DONE

    def call(self, line):
        """Makes the call of a line, whose line feed may be missing at the end of the input: DONE, NOT_UNDERSTOOD or the number of a refusal."""
        if not self.FORMS.fullmatch(line.removesuffix(b"\n")):
            return NOT_UNDERSTOOD
        word, *numbers = line.split()
        numbers = [int(number) for number in numbers]
        if word == b"open":
            return self.open(*numbers)
        if self.case is None:
            return NOT_UNDERSTOOD
        if word == b"place":
            return self.case.place(*numbers)
        return self.case.lift(*numbers) if word == b"lift" else self.print_forces()

    def take(self, line):
        self.number += 1
        answer = self.call(line)
        if answer == NOT_UNDERSTOOD:
            self.output.append(f"line {self.number} is not understood")
        elif answer != DONE:
            self.output.append(f"refused {answer} {self.number}")
        return answer


def main():
    session = Session()
    lines = []
    table = cases(influence_length)
    for case in table:
        for step in case.steps:
            answer = session.take(step.line)
            assert step.answer in (None, answer), (case.name, step, answer)
            lines.append(step.line)
    worked = ["influence 225166", "anchor 1 3213681 0", "anchor 2 1786463 0"]
    assert any(session.output[k : k + 3] == worked for k in range(len(session.output)))
    (FOLDER / "stdin").write_bytes(b"".join(lines))
    (FOLDER / "stdout").write_text("\n".join(session.output) + "\n")
    worst = session.worst
    print(f"{len(table)} cases, {len(lines)} lines, {worst.checked} forces held against the exact ones")
    print(f"largest excess: {float(worst.share):.3e} of the load; of loads from 1,000 N: {float(worst.heavy):.3e};")
    print(f"once 1 N is taken off: {float(worst.share_past_newton):.3e} of the load")


if __name__ == "__main__":
    main()
