"""The whole rating: a certificate and a job, and what is printed.

    python3 reference/rating.py channel.cert < job

It is a second implementation, made from docs/ and the rules of the rating alone; `rules.py` has the single rules and
`certificate.py` the certificate. `rate` answers any bytes whatever:

- A certificate that is refused prints `refused NUMBER BYTE` and ends it, whatever the job.
- A job is lines that end in a line feed, which the last may lack; no bytes are no lines, and a lone line feed is one empty line.
- The first line is `site`, and no other is; a first line that is refused ends it. Of each line question 16 is asked first.
- A later line that is refused prints `refused NUMBER LINE` and changes nothing.

No lawful site meets question 14: in µm the distances A are c1 25,000 to 500,000, the corners 25,000 to 3,000,000, the member's
thickness 60,000 to 2,000,000 and, for dense reinforcement, 140,000 to 199,900; the distances B are ccr 100,445 to 375,000,
2·c1 + bch 65,000 to 1,080,000, 2·c1 + 2·hch 70,000 to 1,120,000, and 200,000. All lie within 25,000 to 10,000,000 and 25,000
to 2,500,000. Nor does one meet question 13: the allowances are 0; 100 of lines 7 and 12, with dense reinforcement 150; and
110 of line 13. `lines` asks both all the same.
"""

import re
import sys
from typing import NamedTuple

import certificate as certificates
import rules
from rules import SHEAR, TENSION, TENTH, Bolt, Case

NUMBERS_OUT_OF_RANGE, NO_SUCH_STRENGTH = 5, 6
POSITION, LOADS, FULL, NEAR, NO_BOLT = 7, 8, 9, 10, 11
ALLOWANCES, REDUCTION, NOT_UNDERSTOOD = 13, 14, 16

MOST_BOLTS = 16
MOST_LOAD = 200_000  # N
LEAST_GAP = 300  # tenths
WHOLE = 10_000  # a utilisation of one
WHOLE_CONCRETE = 12_000
STEP = 50  # of allowance, for each reduction
MOST_ALLOWANCE = 2000
LARGEST_RATED_ALLOWANCE = 600
STRENGTHS = {1: range(15, 76), 2: range(12, 61)}  # of each edition
BOLTS, ANCHORS, NOTHING = "bolts", "anchors", "nothing"


class Refused(Exception):
    """The number of the first question answered no."""


class Site(NamedTuple):
    f: int
    cracked: int
    c1: int
    left: int
    right: int
    thickness: int
    dense: int
    p: int
    n: int
    s: int


SITE_RANGES = {
    "cracked": range(0, 2),
    "c1": range(250, 5001),
    "left": range(250, 30_001),
    "right": range(250, 30_001),
    "thickness": range(600, 20_001),
    "dense": range(0, 2),
    "p": (100, 120, 140),
    "n": range(2, 13),
    "s": range(500, 2501),
}


class Channel:
    """The numbers of a lawful certificate, by name."""

    def __init__(self, read):
        self.edition = read.edition
        self.lists = {1: read.cracked, 0: read.uncracked}
        fields = certificates.GEOMETRY + certificates.RESISTANCE
        for field, number in zip(fields, read.geometry + read.resistance, strict=True):
            setattr(self, field.name, number)

    def pull_out_factor(self, strength, cracked):
        return dict(self.lists[cracked]).get(strength)


class Line:
    """One of the thirteen: its places, its effects by place, its resistances by place, its allowance."""

    def __init__(self, kind, effects, resistances, allowance=0):
        assert len(effects) == len(resistances)
        self.kind, self.effects, self.resistances, self.allowance = kind, effects, resistances, allowance

    def reduced(self, reduce, pairs):
        """The line under a reduction, `reduce(r, A, B)`, whose A and B at each place `pairs` has."""
        self.resistances = [reduce(r, A, B) for r, (A, B) in zip(self.resistances, pairs, strict=True)]
        self.allowance = min(self.allowance + STEP, MOST_ALLOWANCE)
        return self

    def utilisations(self):
        return [rules.utilisation(e, r) for e, r in zip(self.effects, self.resistances)]


class Sheet:
    """A channel on a site."""

    def __init__(self, channel, site):
        self.channel, self.site = channel, site
        self.factor = ask_site(channel, site)
        self.ask_reductions()

    def ask_reductions(self):
        """Question 14, of every reduction that stands over a line."""
        ch, site = self.channel, self.site
        ccr = rules.cone_edge(ch.embedment_depth)
        edge_corner = TENTH * (2 * site.c1 + ch.channel_width)
        edge_depth = TENTH * (2 * site.c1 + 2 * ch.channel_height)
        actual = [TENTH * x for x in (site.c1, site.left, site.right, site.thickness)]
        if self.dense():
            actual.append(self.dense_distance())
        if not all(map(rules.distance_lawful, actual)):
            raise Refused(REDUCTION)
        if not all(map(rules.characteristic_lawful, (ccr, edge_corner, edge_depth))):
            raise Refused(REDUCTION)

    def dense(self):
        return self.site.dense == 1 and self.channel.embedment_depth < rules.DENSE_BELOW

    def dense_distance(self):
        return TENTH * (1000 + self.channel.embedment_depth)

    def corner_pairs(self, B_um):
        """A and B of the corner reduction at each anchor."""
        site = self.site
        left, right = TENTH * site.left, TENTH * site.right
        return [(rules.corner_distance(site.n, site.s, left, right, k * site.s), B_um) for k in range(site.n)]

    def lines(self, bolts):
        """The thirteen lines of a closed case with these bolts."""
        case = Case(self.site.n, self.site.s, self.channel.moment_of_inertia, bolts)
        pulls, shears = rules.forces(case, TENSION), rules.forces(case, SHEAR)
        ch = self.channel
        return [
            anchor_line(pulls, ch.value_anchor, ch.factor_anchor),
            anchor_line(pulls, ch.value_connection, ch.factor_connection),
            lip_line(case, TENSION, ch.value_lip, ch.factor_lip, ch.lip_spacing_tension),
            bolt_line(case, TENSION, ch.value_bolt, ch.factor_bolt),
            self.flexure_line(case),
            self.pull_out_line(pulls),
            self.cone_line(pulls, 10),
            bolt_line(case, SHEAR, ch.value_bolt_shear, ch.factor_bolt_shear),
            lip_line(case, SHEAR, ch.value_lip_shear, ch.factor_lip_shear, ch.lip_spacing_shear),
            anchor_line(shears, ch.value_anchor_shear, ch.factor_anchor_shear),
            anchor_line(shears, ch.value_connection_shear, ch.factor_connection_shear),
            self.cone_line(shears, ch.pryout_factor),
            self.edge_line(shears),
        ]

    def flexure_line(self, case):
        r = rules.steel_resistance(self.channel.value_flexure, self.channel.factor_flexure)
        return Line(BOLTS, rules.flexure_moments(case), [r] * len(case.bolts))

    def pull_out_line(self, pulls):
        r = rules.pull_out_resistance(self.channel.value_pullout, self.factor, self.channel.factor_concrete)
        return Line(ANCHORS, pulls, [r] * len(pulls))

    def cone_line(self, forces, m):
        """Line 7 with m = 10, line 12 with the pry-out factor."""
        ch, site = self.channel, self.site
        h = ch.embedment_depth
        k = ch.cone_factor_cracked if site.cracked else ch.cone_factor_uncracked
        basic = rules.cone_resistance(k, site.f, h, m, ch.factor_concrete)
        ccr = rules.cone_edge(h)
        line = Line(ANCHORS, rules.group_effects(forces, site.s, rules.cone_spacing(h)), [basic] * site.n)
        line.reduced(rules.root_reduction, [(TENTH * site.c1, ccr)] * site.n)
        line.reduced(rules.root_reduction, self.corner_pairs(ccr))
        if self.dense():
            line.reduced(rules.straight_reduction, [(self.dense_distance(), 200_000)] * site.n)
        return line

    def edge_line(self, forces):
        ch, site = self.channel, self.site
        k = ch.edge_factor_cracked if site.cracked else ch.edge_factor_uncracked
        edge = rules.edge_first if ch.edition == 1 else rules.edge_second
        basic = edge(k, site.f, site.c1, site.p, ch.factor_concrete)
        effects = rules.group_effects(forces, site.s, rules.edge_spacing(site.c1, ch.channel_width))
        line = Line(ANCHORS, effects, [basic] * site.n, allowance=10)
        line.reduced(rules.root_reduction, self.corner_pairs(TENTH * (2 * site.c1 + ch.channel_width)))
        depth = TENTH * (2 * site.c1 + 2 * ch.channel_height)
        return line.reduced(rules.root_reduction, [(TENTH * site.thickness, depth)] * site.n)

    def verdict(self, bolts):
        lines = self.lines(bolts)
        if any(line.allowance > LARGEST_RATED_ALLOWANCE for line in lines):
            raise Refused(ALLOWANCES)
        return Verdict(lines)


def ask_site(channel, site):
    """Questions 5 and 6 of a site; the factor on the pull-out value of its strength class."""
    numbers = site._asdict()
    ranges = dict(SITE_RANGES, f=STRENGTHS[channel.edition])
    if not all(numbers[name] in lawful for name, lawful in ranges.items()):
        raise Refused(NUMBERS_OUT_OF_RANGE)
    if site.thickness < channel.embedment_depth:
        raise Refused(NUMBERS_OUT_OF_RANGE)
    factor = channel.pull_out_factor(site.f, site.cracked)
    if factor is None:
        raise Refused(NO_SUCH_STRENGTH)
    return factor


def anchor_line(forces, value, gamma):
    """A line of the anchors' own forces; a value of 0 has no place."""
    if value == 0:
        return Line(NOTHING, [], [])
    return Line(ANCHORS, forces, [rules.steel_resistance(value, gamma)] * len(forces))


def bolt_line(case, direction, value, gamma):
    loads = [bolt.load(direction) for bolt in case.bolts]
    return Line(BOLTS, loads, [rules.steel_resistance(value, gamma)] * len(loads))


def lip_line(case, direction, value, gamma, sl):
    loads = [bolt.load(direction) for bolt in case.bolts]
    resistances = [
        rules.lip_resistance(value, gamma, sl, rules.nearest_spacing(case, i)) for i in range(len(loads))
    ]
    return Line(BOLTS, loads, resistances)


class Verdict:
    """What `rate` says of thirteen lines."""

    def __init__(self, lines):
        self.lines = lines
        self.rows = [line.utilisations() for line in lines]
        self.largest, self.line, self.place = self.greatest()
        holds = [self.bolts_squared(), self.lips(), self.anchors(), self.concrete()]
        self.failed = holds.index(False) + 1 if False in holds else 0
        self.accepted = self.largest <= WHOLE and self.failed == 0

    def greatest(self):
        """The largest utilisation with its line and place: the lowest ones on a tie, 0 0 if there is no place."""
        best = (0, 0, 0)
        for number, row in enumerate(self.rows, 1):
            for place, u in enumerate(row, 1):
                if best[1] == 0 or u > best[0]:
                    best = (u, number, place)
        return best

    def at(self, number, kind, place):
        """The utilisation of a line at a place, from 0; 0 where the line has no such place of this kind."""
        row = self.rows[number - 1]
        return row[place] if self.lines[number - 1].kind == kind and place < len(row) else 0

    def places(self, kind, numbers):
        return range(max(len(self.rows[n - 1]) if self.lines[n - 1].kind == kind else 0 for n in numbers))

    def bolts_squared(self):
        def u(number, place):
            return self.at(number, BOLTS, place)

        return all(rules.squares_hold(u(4, i), u(8, i)) for i in self.places(BOLTS, (4, 8)))

    def lips(self):
        def u(number, place):
            return self.at(number, BOLTS, place)

        return all(max(u(3, i), u(5, i)) + u(9, i) <= WHOLE for i in self.places(BOLTS, (3, 5, 9)))

    def anchors(self):
        def u(number, place):
            return self.at(number, ANCHORS, place)

        return all(
            max(u(1, k), u(2, k)) + max(u(10, k), u(11, k)) <= WHOLE for k in self.places(ANCHORS, (1, 2, 10, 11))
        )

    def concrete(self):
        def largest(*numbers):
            return max((u for n in numbers for u in self.rows[n - 1]), default=0)

        return largest(6, 7) + largest(12, 13) <= WHOLE_CONCRETE

    def __str__(self):
        word = "accepted" if self.accepted else "rejected"
        return f"{word} {self.largest} {self.line} {self.place} {self.failed}"


class Job:
    """A job on a lawful certificate: the lines that it prints."""

    FORM = re.compile(rb"site(?: [0-9]{1,9}){10}|place(?: [0-9]{1,9}){3}|lift [0-9]{1,9}|rate")

    def __init__(self, channel):
        self.channel = channel
        self.sheet = None
        self.bolts = {}  # by position
        self.printed = []

    def run(self, text):
        for number, line in enumerate(lines_of(text), 1):
            try:
                self.take(line, first=number == 1)
            except Refused as refusal:
                self.printed.append(f"refused {refusal.args[0]} {number}")
                if number == 1:
                    return

    def take(self, line, first):
        if not self.FORM.fullmatch(line) or line.startswith(b"site") != first:
            raise Refused(NOT_UNDERSTOOD)
        word, *digits = line.split(b" ")
        numbers = [int(number) for number in digits]
        if word == b"site":
            self.sheet = Sheet(self.channel, Site(*numbers))
        elif word == b"place":
            self.place(*numbers)
        elif word == b"lift":
            self.lift(*numbers)
        else:
            self.printed.append(str(self.sheet.verdict(self.held())))

    def held(self):
        return [Bolt(position, *loads) for position, loads in sorted(self.bolts.items())]

    def place(self, position, tension, shear):
        site = self.sheet.site
        if position > (site.n - 1) * site.s:
            raise Refused(POSITION)
        if tension > MOST_LOAD or shear > MOST_LOAD or tension + shear == 0:
            raise Refused(LOADS)
        if len(self.bolts) >= MOST_BOLTS:
            raise Refused(FULL)
        if any(abs(position - other) < LEAST_GAP for other in self.bolts):
            raise Refused(NEAR)
        self.bolts[position] = (tension, shear)

    def lift(self, position):
        if position not in self.bolts:
            raise Refused(NO_BOLT)
        del self.bolts[position]


def lines_of(text):
    """The lines of a job, without their line feeds."""
    lines = text.split(b"\n")
    return lines[:-1] if lines[-1] == b"" else lines


def rate(certificate_bytes, job_bytes):
    """What is printed of a certificate and a job."""
    read = certificates.read(certificate_bytes)
    if isinstance(read, certificates.Fault):
        return f"refused {read.question} {read.byte}\n"
    job = Job(Channel(read))
    job.run(job_bytes)
    return "".join(line + "\n" for line in job.printed)


def main():
    with open(sys.argv[1], "rb") as file:
        data = file.read()
    sys.stdout.write(rate(data, sys.stdin.buffer.read()))


if __name__ == "__main__":
    main()
