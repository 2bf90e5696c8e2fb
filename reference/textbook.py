"""The design rules as a handbook has them, in mm, N and floating point, held against `rating.py`.

    python3 reference/textbook.py [CASES]

On drawn channels, sites and bolts, no effect of `rating.py` may lie below the handbook's and no resistance above it, up to the
floating point's own error. Prints the largest excess of an effect, as a share of the whole load past a few hundredths of a
newton, and the largest shortfall of a resistance, as a share of it. A slip of scale or of a factor in either would show here.
"""

import sys

from build import Draw, drawn_bolts, drawn_setting

NOISE = 1e-9  # of floating point
ROUNDED = 0.02  # N: sums of some tens of numbers rounded up to mN
SHEAR_FROM = 8  # the first line in shear


class Handbook:
    """A channel on a site under bolts, in mm and N."""

    def __init__(self, setting, bolts):
        numbers, site = setting.numbers, setting.site_numbers
        self.setting, self.site, self.numbers = setting, site, numbers
        self.bolts = [(position / 10, *loads) for position, *loads in sorted(bolts)]
        self.over = [position % site["s"] == 0 for position, *_ in sorted(bolts)]
        self.n, self.s = site["n"], site["s"] / 10
        self.h, self.c1 = numbers["embedment_depth"] / 10, site["c1"] / 10
        self.concrete = numbers["factor_concrete"] / 100

    def design(self, name):
        return self.numbers[f"value_{name}"] / (self.numbers[f"factor_{name}"] / 100)

    def forces(self, direction):
        reach = 13 * self.numbers["moment_of_inertia"] ** 0.05 * self.s**0.5
        total = [0.0] * self.n
        for bolt in self.bolts:
            shares = [max(0.0, reach - abs(bolt[0] - k * self.s)) for k in range(self.n)]
            total = [t + bolt[direction] * share / sum(shares) for t, share in zip(total, shares)]
        return total

    def anchors(self, forces, name):
        return ([], []) if self.numbers[f"value_{name}"] == 0 else (forces, [self.design(name)] * self.n)

    def loads(self, direction):
        return [bolt[direction] for bolt in self.bolts]

    def steel(self, direction, name):
        return self.loads(direction), [self.design(name)] * len(self.bolts)

    def lips(self, direction, name, spacing):
        sl = self.numbers[spacing] / 10
        factors = []
        for i, bolt in enumerate(self.bolts):
            near = min((abs(bolt[0] - other[0]) for j, other in enumerate(self.bolts) if j != i), default=sl)
            factors.append(min(1.0, 0.5 * (1 + near / sl)))
        return self.loads(direction), [self.design(name) * factor for factor in factors]

    def flexure(self):
        """Each span is a beam on two supports."""
        moments = []
        for bolt, over in zip(self.bolts, self.over):
            left = bolt[0] // self.s * self.s
            moment = 0.0
            for other, other_over in zip(self.bolts, self.over):
                x, y = bolt[0] - left, other[0] - left
                if not over and not other_over and 0 < y < self.s:
                    moment += other[1] * min(x, y) * (self.s - max(x, y)) / self.s / 1000
            moments.append(moment)
        return moments, [self.design("flexure")] * len(self.bolts)

    def pull_out(self, forces):
        strengths = dict(self.setting.strengths[1 - self.site["cracked"]])
        resistance = self.numbers["value_pullout"] * strengths[self.site["f"]] / 100 / self.concrete
        return forces, [resistance] * self.n

    def group(self, forces, scr):
        def weight(k, j):
            return max(0.0, 1 - abs(j - k) * self.s / scr) ** 1.5

        return [sum(weight(k, j) * force for j, force in enumerate(forces)) for k in range(self.n)]

    def corner(self, k, characteristic):
        left, right = self.site["left"] / 10, self.site["right"] / 10
        return root(min(left + k * self.s, right + (self.n - 1 - k) * self.s), characteristic)

    def factor(self, what):
        return self.numbers[what + ("_factor_cracked" if self.site["cracked"] else "_factor_uncracked")] / 10

    def cone(self, forces, multiple):
        scr = max(2 * (2.8 - 1.3 * self.h / 180) * self.h, 3 * self.h)
        basic = multiple * self.factor("cone") * self.site["f"] ** 0.5 * self.h**1.5 / self.concrete
        basic *= root(self.c1, scr / 2)
        if self.site["dense"] and self.h < 100:
            basic *= 0.5 + self.h / 200
        return self.group(forces, scr), [basic * self.corner(k, scr / 2) for k in range(self.n)]

    def edge(self, forces):
        width, height = self.numbers["channel_width"] / 10, self.numbers["channel_height"] / 10
        exponent = 1.5 if self.setting.edition == 1 else 4 / 3
        basic = self.factor("edge") * self.site["f"] ** 0.5 * self.c1**exponent * self.site["p"] / 100 / self.concrete
        basic *= root(self.site["thickness"] / 10, 2 * self.c1 + 2 * height)
        resistances = [basic * self.corner(k, 2 * self.c1 + width) for k in range(self.n)]
        return self.group(forces, 4 * self.c1 + 2 * width), resistances

    def lines(self):
        """Effects and resistances of the thirteen lines."""
        pulls, shears = self.forces(1), self.forces(2)
        return [
            self.anchors(pulls, "anchor"),
            self.anchors(pulls, "connection"),
            self.lips(1, "lip", "lip_spacing_tension"),
            self.steel(1, "bolt"),
            self.flexure(),
            self.pull_out(pulls),
            self.cone(pulls, 1),
            self.steel(2, "bolt_shear"),
            self.lips(2, "lip_shear", "lip_spacing_shear"),
            self.anchors(shears, "anchor_shear"),
            self.anchors(shears, "connection_shear"),
            self.cone(shears, self.numbers["pryout_factor"] / 10),
            self.edge(shears),
        ]


def root(actual, characteristic):
    return min(1.0, (actual / characteristic) ** 0.5)


class Worst:
    """The largest excess and shortfall of a line, seen so far."""

    def __init__(self):
        self.places, self.excess, self.shortfall = 0, 0.0, 0.0

    def take(self, ours, handbook, load):
        effect, resistance = (x / 1000 for x in ours)
        exact_effect, exact_resistance = handbook
        assert effect >= exact_effect * (1 - NOISE) - NOISE, (ours, handbook)
        assert resistance <= exact_resistance * (1 + NOISE), (ours, handbook)
        self.places += 1
        self.excess = max(self.excess, (effect - exact_effect - ROUNDED) / max(load, 1))
        self.shortfall = max(self.shortfall, (exact_resistance - resistance) / exact_resistance)


def main():
    count = int(sys.argv[1]) if len(sys.argv) > 1 else 1000
    draw = Draw(31)
    worst = [Worst() for _ in range(13)]
    for _ in range(count):
        setting = drawn_setting(draw)
        where = setting.site_numbers
        bolts = drawn_bolts(draw, where["n"], where["s"], draw.between(0, 10), draw.pick((100, 20_000, 200_000)))
        ours = setting.verdict(bolts).lines
        for number, (line, handbook) in enumerate(zip(ours, Handbook(setting, bolts).lines(), strict=True), 1):
            load = sum(bolt[2 if number >= SHEAR_FROM else 1] for bolt in bolts)
            for place in zip(zip(line.effects, line.resistances, strict=True), zip(*handbook), strict=True):
                worst[number - 1].take(*place, load)
    for number, seen in enumerate(worst, 1):
        print(f"line {number:2}: {seen.places} places, excess {seen.excess:.1e}, shortfall {seen.shortfall:.1e}")


if __name__ == "__main__":
    main()
