"""The rules of the rating, one small function each, in whole numbers.

    python3 reference/rules.py    hold the worked figures

It is a second implementation, made from docs/RULES.md and the rules of the rating alone. Lengths named `_um` are in µm, the
others in tenths of a millimetre (n, s, positions, h, c1, spacings of lips); loads of bolts are in N; forces, effects and
resistances in mN (for bending in thousandths of a newton-metre); k in tenths, partial factors and p in hundredths.
"""

from functools import lru_cache
from math import isqrt
from typing import NamedTuple, Optional

TENTH = 100  # µm
NEWTON = 1000  # mN
MILLION = 10**6
SLACK = 5  # µm, from L to H
TENSION, SHEAR = 0, 1
CAP = 999_999  # the largest utilisation that is shown
DENSE_BELOW = 1000  # tenths: an embedment from which dense reinforcement does no harm


class Bolt(NamedTuple):
    position: int  # tenths from the first anchor
    tension: int  # N
    shear: int  # N

    def load(self, direction):
        """The load in mN."""
        return NEWTON * (self.tension if direction == TENSION else self.shear)


class Case(NamedTuple):
    n: int  # anchors
    s: int  # tenths
    inertia: int  # mm⁴
    bolts: list  # of Bolt, in rising position

    def anchor(self, k):
        """The position of anchor k, from 0, in tenths."""
        return k * self.s


# Roots and rounding


def down(a, b):
    return a // b


def up(a, b):
    return -(-a // b)


def root_down(x):
    """The greatest r with r² ≤ x."""
    return isqrt(x)


def root_up(x):
    """The least r with r² ≥ x."""
    return isqrt(x - 1) + 1 if x > 0 else 0


def greatest(fits):
    """The greatest number that fits, of a property that holds of 0 and, once lost, stays lost."""
    high = 1
    while fits(high):
        high *= 2
    low = high // 2
    while high - low > 1:
        middle = (low + high) // 2
        low, high = (middle, high) if fits(middle) else (low, middle)
    return low


def cube_root_down(x):
    """The greatest t with t³ ≤ x."""
    return greatest(lambda t: t**3 <= x)


# The influence length and the forces on the anchors


def twentieth_root(inertia):
    """c, the twentieth root of the moment of inertia in hundred-thousandths."""
    a = root_down(inertia * 10**12)
    b = root_down(a * 10**6)

    def fits(c):
        c2 = up(c * c, 100)
        c4 = up(c2 * c2, 10**8)
        return c4 * c <= b * 10**7

    return greatest(fits)


@lru_cache(maxsize=100_000)
def influence_length(I, s):
    """L in µm."""
    q = root_down(s * 10**9)
    return down(13 * twentieth_root(I) * q, 10**7)


def reach_sum(L, distances):
    """S, from the distances in µm of all anchors."""
    return sum(L - d for d in distances if d < L)


def share(F, L, d, S):
    """What a load of F mN gives to the anchor at distance d."""
    return 0 if d >= L + SLACK else up(F * (L + SLACK - d), S)


def forces(case, direction):
    """The force in mN on each anchor."""
    L = influence_length(case.inertia, case.s)
    total = [0] * case.n
    for bolt in case.bolts:
        distances = [TENTH * abs(bolt.position - case.anchor(k)) for k in range(case.n)]
        S = reach_sum(L, distances)
        for k, d in enumerate(distances):
            total[k] += share(bolt.load(direction), L, d, S)
    return total


def nearest_spacing(case, i) -> Optional[int]:
    """The distance in tenths from bolt i, from 0, to the nearest other one; a single bolt has none."""
    others = [abs(case.bolts[i].position - b.position) for j, b in enumerate(case.bolts) if j != i]
    return min(others, default=None)


# Reductions of a resistance in mN


def root_ratio(A_um, B_um):
    """The greatest r with r²·B ≤ A·10^12."""
    return root_down(A_um * 10**12 // B_um)


def root_reduction(r, A_um, B_um):
    """A resistance r under the root reduction A over B."""
    return r if A_um >= B_um else down(r * root_ratio(A_um, B_um), MILLION)


def straight_reduction(r, A_um, B_um):
    """A resistance r under the straight reduction A over B."""
    return r if A_um >= B_um else down(r * A_um, B_um)


def corner_distance(n, s, left_um, right_um, position):
    """The distance in µm from a place to the nearer corner; the corners are given from the first and the last anchor."""
    last = (n - 1) * s
    return min(left_um + TENTH * position, right_um + TENTH * (last - position))


def corner_reduction(r, n, s, left_um, right_um, position, B_um):
    return root_reduction(r, corner_distance(n, s, left_um, right_um, position), B_um)


def distance_lawful(A_um):
    return 25_000 <= A_um <= 10_000_000


def characteristic_lawful(B_um):
    return 25_000 <= B_um <= 2_500_000


# Groups of anchors


@lru_cache(maxsize=100_000)
def weight(scr_um, d_um):
    """w in millionths, for a distance below the characteristic spacing."""
    r = root_up(up((scr_um - d_um) * 10**12, scr_um))
    return up((scr_um - d_um) * r, scr_um)


def group_effect(forces_mn, s, scr_um, k):
    """The effect in mN on anchor k, from 0: its own force and the weighted forces of the others."""
    effect = forces_mn[k]
    for j, force in enumerate(forces_mn):
        d = TENTH * s * abs(j - k)
        if j != k and d < scr_um:
            effect += up(weight(scr_um, d) * force, MILLION)
    return effect


def group_effects(forces_mn, s, scr_um):
    return [group_effect(forces_mn, s, scr_um, k) for k in range(len(forces_mn))]


# Basic resistances


def steel_resistance(value, gamma):
    return down(value * 100_000, gamma)


def lip_resistance(value, gamma, sl, sc):
    """`sc` is the nearest spacing, or None for a single bolt."""
    if sc is None or sc >= sl:
        return steel_resistance(value, gamma)
    return down(value * 100_000 * (sl + sc), gamma * 2 * sl)


def pull_out_resistance(value, factor, gamma):
    return down(value * 1000 * factor, gamma)


def cone_value(k, f, h, m):
    """The greatest x with 10·x² ≤ k²·f·h³·m²."""
    return root_down(k * k * f * h**3 * m * m // 10)


def cone_resistance(k, f, h, m, gamma):
    return down(cone_value(k, f, h, m) * 100, gamma)


def cone_spacing(h):
    """scr in µm."""
    return max(up(h * (50_400 - 13 * h), 90), 300 * h)


def cone_edge(h):
    """ccr in µm."""
    return up(cone_spacing(h), 2)


def edge_spacing(c1, bch):
    """The characteristic spacing of the edge in µm."""
    return TENTH * (4 * c1 + 2 * bch)


def edge_first_value(k, f, c1):
    """Edition 1: the greatest x with x² ≤ k²·f·c1³·10; k·√f·c1^(3/2) in mN."""
    return root_down(k * k * f * c1**3 * 10)


def edge_second_value(k, f, c1):
    """Edition 2: k·√f·c1^(4/3) in mN."""
    g = root_down(f * 10**12)
    t = cube_root_down(c1 * 10**14)
    return down(k * g * c1 * t, 10**10)


def edge_first(k, f, c1, p, gamma):
    return down(edge_first_value(k, f, c1) * p, gamma)


def edge_second(k, f, c1, p, gamma):
    return down(edge_second_value(k, f, c1) * p, gamma)


# Bending of the channel


def flexure_term(F, s_um, x_um, y_um):
    """What a load of F mN at y adds to the bending at x, both from the span's left anchor."""
    return up(F * min(x_um, y_um) * (s_um - max(x_um, y_um)), s_um * MILLION)


def flexure_moment(case, i):
    """The bending in thousandths of a newton-metre at bolt i, from 0."""
    here = case.bolts[i]
    span, x = divmod(here.position, case.s)
    if x == 0:
        return 0  # over an anchor
    total = 0
    for bolt in case.bolts:
        its_span, y = divmod(bolt.position, case.s)
        if its_span == span and y != 0:
            total += flexure_term(bolt.load(TENSION), TENTH * case.s, TENTH * x, TENTH * y)
    return total


def flexure_moments(case):
    return [flexure_moment(case, i) for i in range(len(case.bolts))]


# The verification of one place, and check 1


def utilisation(effect, resistance):
    """In ten-thousandths."""
    if effect == 0:
        return 0
    if resistance == 0:
        return CAP
    return min(up(10_000 * effect, resistance), CAP)


def squares_hold(tension, shear):
    return tension**2 + shear**2 <= 10**8


def figures():
    """The worked figures: each a name, the value reckoned and the value wanted."""
    worked = Case(2, 1000, 59_049, [Bolt(0, 5000, 0)])
    yield "c", twentieth_root(59_049), 173_205
    yield "L", influence_length(59_049, 1000), 225_166
    yield "forces", forces(worked, TENSION), [3_213_681, 1_786_463]
    yield "no shear", forces(worked, SHEAR), [0, 0]
    yield "scr", cone_spacing(790), 352_253
    yield "root reduction", root_reduction(10_000_000, 25_000, 100_000), 5_000_000
    yield "weight", weight(400_000, 300_000), 125_000
    yield "cone", cone_resistance(80, 25, 1000, 10, 150), 26_666_666
    yield "edge, edition 2", edge_second(75, 25, 1250, 140, 150), 21_875_000
    yield "check 1 holds", squares_hold(6000, 8000), True
    yield "check 1 fails", squares_hold(6001, 8000), False
    # the sheet's first verdict: a bolt of 5,000 N over an anchor, alone, on lips of 20,000 N
    yield "lip", utilisation(5_000_000, lip_resistance(20_000, 180, 800, None)), 4501
    yield "lip at 12,000 N", utilisation(12_000_000, lip_resistance(20_000, 180, 800, None)), 10_801


def check_roots():
    for x in list(range(300)) + [10**24 - 1, 10**24, 10**24 + 1]:
        r, u, t = root_down(x), root_up(x), cube_root_down(x)
        assert r * r <= x < (r + 1) ** 2 and u * u >= x and (u == 0 or (u - 1) ** 2 < x)
        assert t**3 <= x < (t + 1) ** 3


def main():
    check_roots()
    count = 0
    for name, got, wanted in figures():
        assert got == wanted, (name, got, wanted)
        count += 1
    print(f"{count} figures hold")


if __name__ == "__main__":
    main()
