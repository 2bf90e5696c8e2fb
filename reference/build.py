"""Certificates and jobs to rate: built by name, or drawn by a generator of our own, so that a seed gives the same everywhere.

A case is two byte strings; written down it is one line, `HEXCERT HEXJOB`, lowercase hex digits, a dash for no bytes. Its answer is
the printed text and a line with a full stop.
"""

import certificate as certificates
import rating
import rules
from certificate import GEOMETRY, RESISTANCE, Certificate

RATE = b"rate\n"
EVERY_STRENGTH = range(12, 76)
SITE_ORDER = ("f", "cracked", "c1", "left", "right", "thickness", "dense", "p", "n", "s")
FIELDS = {field.name: field for field in GEOMETRY + RESISTANCE}
PLAIN_SITE = dict(zip(SITE_ORDER, (30, 1, 750, 2000, 2000, 1500, 1, 100, 2, 1000)))

# The worked certificate.
WORKED = dict(
    zip(
        FIELDS,
        [790, 400, 250, 75, 105, 60, 84, 20, 800, 800, 59_049]
        + [20_000, 20_000, 20_000, 33_700, 1099, 26_680, 20_200, 20_000, 20_000, 20_000]
        + [180, 180, 180, 200, 115, 167, 180, 180, 180, 150],
        strict=True,
    )
)

# Every value of steel as large as may be: a line made weak then governs.
STRONG = dict(WORKED, moment_of_inertia=100_000, value_flexure=10_000)
STRONG.update({name: 500_000 for name in FIELDS if name.startswith("value_") and name != "value_flexure"})
STRONG.update({name: 100 for name in FIELDS if name.startswith("factor_")})

# The value and the partial factor of each line of steel, and of pull-out.
VALUES = {
    1: ("value_anchor", "factor_anchor"),
    2: ("value_connection", "factor_connection"),
    3: ("value_lip", "factor_lip"),
    4: ("value_bolt", "factor_bolt"),
    5: ("value_flexure", "factor_flexure"),
    6: ("value_pullout", "factor_concrete"),
    8: ("value_bolt_shear", "factor_bolt_shear"),
    9: ("value_lip_shear", "factor_lip_shear"),
    10: ("value_anchor_shear", "factor_anchor_shear"),
    11: ("value_connection_shear", "factor_connection_shear"),
}
SHEAR_LINES = (8, 9, 10, 11, 12, 13)


class Draw:
    """Numbers that look random and depend on the seed alone (the generator known as splitmix64)."""

    def __init__(self, seed):
        self.state = seed % 2**64

    def next(self):
        self.state = (self.state + 0x9E3779B97F4A7C15) % 2**64
        z = self.state
        z = (z ^ (z >> 30)) * 0xBF58476D1CE4E5B9 % 2**64
        z = (z ^ (z >> 27)) * 0x94D049BB133111EB % 2**64
        return z ^ (z >> 31)

    def below(self, count):
        return self.next() % count

    def between(self, least, most):
        return least + self.below(most - least + 1)

    def pick(self, choices):
        return choices[self.below(len(choices))]

    def chance(self, percent):
        return self.below(100) < percent

    def near_ends(self, least, most):
        """Either end, a number next to one, or any between."""
        if self.chance(70):
            return self.between(least, most)
        return min(max(self.pick((least, least + 1, most - 1, most)), least), most)


def document(numbers, edition=2, cracked=((30, 100),), uncracked=((30, 140),)):
    """A `Certificate` of numbers by name."""
    geometry = [numbers[field.name] for field in GEOMETRY]
    resistance = [numbers[field.name] for field in RESISTANCE]
    return Certificate(edition, geometry, resistance, list(cracked), list(uncracked))


def channel(numbers, **rest):
    """The bytes of a certificate."""
    return certificates.write(document(numbers, **rest))


def site(**changes):
    """A `site` line: the worked one, changed."""
    numbers = dict(PLAIN_SITE, **changes)
    assert len(numbers) == len(SITE_ORDER)
    return b"site " + b" ".join(b"%d" % numbers[name] for name in SITE_ORDER) + b"\n"


def place(position, tension, shear):
    return b"place %d %d %d\n" % (position, tension, shear)


def places(bolts):
    return b"".join(place(*bolt) for bolt in bolts)


def lift(position):
    return b"lift %d\n" % position


def case_line(cert, job):
    return f"{cert.hex() or '-'} {job.hex() or '-'}\n"


def case_parts(line):
    return [b"" if part == "-" else bytes.fromhex(part) for part in line.split(" ")]


# Drawn channels, sites and bolts


def drawn_geometry(draw):
    h = draw.near_ends(400, 2500)
    numbers = {
        "embedment_depth": h,
        "channel_width": draw.near_ends(150, min(800, 7 * h // 10)),
        "channel_height": draw.near_ends(100, min(600, 4 * h // 10)),
    }
    for field in GEOMETRY[3:]:
        numbers[field.name] = draw.near_ends(field.least, field.most)
    return numbers


def drawn_resistance(draw):
    """Values over the whole range, small ones as often as large ones."""
    numbers = {}
    for field in RESISTANCE:
        most = field.least + (field.most - field.least) // draw.pick((1, 4, 16, 64))
        numbers[field.name] = draw.near_ends(field.least, most)
        if field.or_zero and draw.chance(10):
            numbers[field.name] = 0
    return numbers


def drawn_list(draw, strength):
    """A short list of strength classes, this one among them."""
    strengths = {strength} | {draw.between(12, 75) for _ in range(draw.below(3))}
    return [(f, draw.near_ends(20, 400)) for f in sorted(strengths)]


def drawn_site(draw, edition, h):
    least, most = (15, 75) if edition == 1 else (12, 60)
    return {
        "f": draw.near_ends(least, most),
        "cracked": draw.below(2),
        "c1": draw.near_ends(250, draw.pick((1500, 5000))),
        "left": draw.near_ends(250, draw.pick((2000, 30_000))),
        "right": draw.near_ends(250, draw.pick((2000, 30_000))),
        "thickness": draw.near_ends(max(h, 600), draw.pick((2600, 20_000))),
        "dense": draw.below(2),
        "p": draw.pick((100, 120, 140)),
        "n": draw.near_ends(2, 12),
        "s": draw.near_ends(500, 2500),
    }


def drawn_position(draw, n, s):
    """Over an anchor, in the middle of a span, or anywhere."""
    if draw.chance(25):
        return s * draw.below(n)
    if draw.chance(10):
        return s * draw.below(n - 1) + s // 2
    return draw.between(0, (n - 1) * s)


def drawn_bolts(draw, n, s, count, most=20_000):
    """At most `count` bolts that may be placed one after the other."""
    bolts = []
    for _ in range(4 * count):
        position = drawn_position(draw, n, s)
        loads = [draw.pick((0, draw.between(1, most), draw.between(1, most))) for _ in range(2)]
        if len(bolts) < count and any(loads) and all(abs(position - other[0]) >= 300 for other in bolts):
            bolts.append((position, *loads))
    return bolts


def weaken(draw, numbers, line):
    """Turns the strong channel so that this line is likely to govern."""
    if line in VALUES:
        value, factor = VALUES[line]
        field = FIELDS[value]
        numbers[value] = draw.between(field.least, field.least + (field.most - field.least) // 20)
        numbers[factor] = draw.between(100, 300)
    if line in (7, 12):
        numbers.update(cone_factor_cracked=30, cone_factor_uncracked=draw.between(30, 60), pryout_factor=10)
    else:
        numbers.update(cone_factor_cracked=130, cone_factor_uncracked=130, pryout_factor=20)
    edge = draw.between(10, 40) if line == 13 else 110
    numbers.update(edge_factor_cracked=edge, edge_factor_uncracked=edge)


class Setting:
    """A channel on a site: its certificate, its `site` line, its verdict on bolts."""

    def __init__(self, numbers, edition=2, strengths=None, **site_changes):
        self.numbers, self.edition = numbers, edition
        self.site_numbers = dict(PLAIN_SITE, **site_changes)
        self.strengths = strengths or ([(self.site_numbers["f"], 100)], [(self.site_numbers["f"], 140)])

    def cert(self):
        cracked, uncracked = self.strengths
        return channel(self.numbers, edition=self.edition, cracked=cracked, uncracked=uncracked)

    def line(self):
        return site(**self.site_numbers)

    def case(self, bolts):
        """The load case with these bolts."""
        held = [rules.Bolt(*bolt) for bolt in sorted(bolts)]
        return rules.Case(self.site_numbers["n"], self.site_numbers["s"], self.numbers["moment_of_inertia"], held)

    def verdict(self, bolts):
        made = rating.Sheet(rating.Channel(certificates.read(self.cert())), rating.Site(**self.site_numbers))
        return made.verdict(self.case(bolts).bolts)

    def job(self, bolts):
        """Places these bolts and rates them."""
        return self.line() + places(bolts) + RATE


def drawn_setting(draw, edition=None):
    """Any lawful channel on any lawful site."""
    edition = edition or draw.between(1, 2)
    numbers = drawn_geometry(draw) | drawn_resistance(draw)
    where = drawn_site(draw, edition, numbers["embedment_depth"])
    strengths = drawn_list(draw, where["f"]), drawn_list(draw, where["f"])
    return Setting(numbers, edition, strengths, **where)


def weak_setting(draw, edition, line):
    """A strong channel with one weak line, on any lawful site."""
    numbers = dict(STRONG, **drawn_geometry(draw))
    if line not in (7, 12, 13):
        numbers["embedment_depth"] = draw.between(2000, 2500)
    weaken(draw, numbers, line)
    where = drawn_site(draw, edition, numbers["embedment_depth"])
    if line == 13:
        where["c1"] = draw.between(250, 2000)
    elif line not in (7, 12):
        where.update(c1=draw.between(2500, 5000), left=draw.between(2000, 9000), right=draw.between(2000, 9000))
        where.update(thickness=draw.between(9000, 20_000), f=draw.between(40, 60))
    strengths = [(where["f"], draw.between(200, 400))], [(where["f"], draw.between(200, 400))]
    return Setting(numbers, edition, strengths, **where)


def drawn_calls(draw, setting, count):
    """Lines of a job: places and lifts, refused ones among them, and verdicts, the last line always one."""
    n, s = setting.site_numbers["n"], setting.site_numbers["s"]
    most = draw.pick((400, 3000, 3000, 20_000, 200_000))
    job, known = b"", [0]
    for _ in range(count):
        turn = draw.below(100)
        if turn < 50:
            known.append(drawn_position(draw, n, s))
            job += place(known[-1], draw.between(0, most), draw.pick((0, draw.between(0, most))))
        elif turn < 53:
            job += place(draw.between(0, (n - 1) * s + 100), draw.between(0, 200_100), draw.between(0, 200_100))
        elif turn < 68:
            job += lift(draw.pick(known))
        elif turn < 70:
            job += draw.pick((b"\n", b"rate \n", b"lift\n", site(), b"place 1 2\n"))
        else:
            job += RATE
    return job + RATE
