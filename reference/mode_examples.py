"""Numbers of single failure modes that two design manuals print in their worked examples.

Both manuals use the rules of edition 1. A channel is 40/25 or 50/30 in the first, one of 40.9 mm width in the second. `line`
asks `crates/mode_values` for the same; `read` says what of its answer is meant: the effect, the resistance, the part of the
10,000 N that a reduction leaves, or, as the factor for neighbouring anchors, an anchor's own force over its effect.
"""

from typing import NamedTuple

EFFECT, RESISTANCE, PART, NEIGHBOURS = "effect", "resistance", "part", "neighbours"


class Example(NamedTuple):
    what: str
    inputs: str
    printed: str  # by the manual: kN, Nm or a plain factor
    line: str
    read: str = RESISTANCE
    why: str = ""  # the letters of the notes on differences


class Setting(NamedTuple):
    """An example of a manual: its channel and loads, as calls that make the case."""

    name: str
    calls: list
    examples: list


# Lines that ask for a basic value, with the partial factor 1.00, or for the part that is left of 10,000 N; distances in mm


def cone(place, k, f, h):
    return f"cone {place} {k} {f} {h} 100"


def edge(place, k, f, c1, b):
    return f"first_edge {place} {k} {f} {c1} {b} 100 100"


def root(a, b):
    return f"root 1 10000 100 {a}000 {b}000"


def corner(place, first, last, b):
    return f"anchor_corner {place} 10000 100 {first}000 {last}000 {b}000"


A = Setting(
    "A: two anchors 100 mm apart on a channel of 20,570 mm⁴, a bolt of 5.00 kN tension and 5.50 kN shear over the first",
    ["open 2 1000 20570", "place 0 5000 5500"],
    [
        Example("connection", "20.00 kN over 1.80", "11.11", "anchor_tension 1 20000 180"),
        Example("lips", "20.00 kN over 1.80, one bolt", "11.11", "lip_tension 1 20000 180 650"),
        Example("bolt", "33.70 kN over 2.00", "16.85", "bolt_tension 1 33700 200"),
        Example("bolt in shear", "20.20 kN over 1.67", "12.10", "bolt_shear 1 20200 167"),
        Example("bending", "1,099 Nm over 1.15", "955.7", "flexure 1 1099 115"),
        Example("pull-out", "10.8 kN · 2.47 over 1.50", "17.78", "pull_out 1 10800 150 247"),
        Example("cone, basic", "7.4 for 8.5 · 0.88, f 37, hef 79 mm", "31.94", cone(1, 74, 37, 790), why="a"),
        Example("cone, basic", "7.5 for it", "31.94", cone(1, 75, 37, 790), why="a"),
        Example("cone, neighbours", "the forces of this case, scr 352 mm", "0.76", cone(1, 75, 37, 790), NEIGHBOURS),
        Example("cone, edge", "c1 75 mm, ccr 176 mm", "0.65", root(75, 176), PART),
        Example("edge, basic", "3.0, f 37, c1 75 mm", "11.85", edge(1, 30, 37, 750, 400)),
        Example("edge, neighbours", "the forces of this case, 380 mm", "0.75", edge(1, 30, 37, 750, 400), NEIGHBOURS),
        Example("edge, thickness", "150 mm, characteristic 196 mm", "0.84", root(150, 196), PART, "b"),
    ],
)

A_BENT = Setting(
    "A, bending: the same channel, a bolt of 5.00 kN midway between the anchors",
    ["open 2 1000 20570", "place 500 5000 0"],
    [Example("moment", "5.00 kN · 100 mm / 4", "125.0", "flexure 1 1099 115", EFFECT)],
)

B = Setting(
    "B: three anchors 150 mm apart on a channel of 51,904 mm⁴, bolts of 3.2 kN tension and 8.3 kN shear over the first two",
    ["open 3 1500 51904", "place 0 3200 8300", "place 1500 3200 8300"],
    [
        Example("connection", "31.0 kN over 1.80", "17.2", "anchor_tension 1 31000 180"),
        Example("lips", "31.0 kN over 1.80, bolts 150 mm apart, own spacing 81 mm", "17.2", "lip_tension 1 31000 180 810"),
        Example("lips in shear", "40.3 kN over 1.80", "22.4", "lip_shear 2 40300 180 810"),
        Example("bolt", "62.8 kN over 2.00", "31.4", "bolt_tension 1 62800 200"),
        Example("bolt in shear", "37.7 kN over 1.67", "22.6", "bolt_shear 1 37700 167"),
        Example("bending", "2,038 Nm over 1.15", "1772", "flexure 1 2038 115"),
        Example("pull-out", "31.8 kN over 1.50", "21.2", "pull_out 1 31800 150 100"),
        Example("cone, basic", "7.7 for 8.5 · 0.91, f 30, hef 94 mm", "38.6", cone(1, 77, 30, 940), why="a"),
        Example("cone, basic", "7.8 for it", "38.6", cone(1, 78, 30, 940), why="a"),
        Example("cone, edge", "c1 150 mm, ccr 200 mm", "0.867", root(150, 200), PART, "c"),
        Example("cone, dense reinforcement", "hef 94 mm", "0.97", "straight 1 10000 100 194000 200000", PART),
        Example("edge, basic", "3.5, f 30, c1 150 mm", "35.22", edge(1, 35, 30, 1500, 490)),
        Example("edge, neighbours", "the forces of this case, 698 mm", "0.575", edge(1, 35, 30, 1500, 490), NEIGHBOURS),
        Example("edge, corner", "250 mm from the first anchor, characteristic 349 mm", "0.846", corner(1, 250, 3000, 349), PART),
        Example("edge, thickness", "200 mm, characteristic 360 mm", "0.676", root(200, 360), PART, "b"),
    ],
)

C = Setting(
    "C: two anchors 150 mm apart on a channel of 21,452 mm⁴, a bolt of 3.375 kN tension and 4.35 kN shear 30 mm from the first",
    ["open 2 1500 21452", "place 300 3375 4350"],
    [
        Example("anchor", "33.0 kN over 1.80", "18.3", "anchor_tension 1 33000 180"),
        Example("connection", "25.0 kN over 1.80", "13.9", "anchor_tension 1 25000 180"),
        Example("lips", "25.0 kN over 1.80, one bolt", "13.9", "lip_tension 1 25000 180 800"),
        Example("lips in shear", "35.0 kN over 1.80", "19.4", "lip_shear 1 35000 180 800"),
        Example("bolt", "125.6 kN over 1.50", "83.7", "bolt_tension 1 125600 150"),
        Example("bolt in shear", "62.7 kN over 1.25", "50.2", "bolt_shear 1 62700 125"),
        Example("bending", "1,013 Nm over 1.15", "881", "flexure 1 1013 115"),
        Example("moment", "3.375 kN, 30 mm and 120 mm from the anchors", "81", "flexure 1 1013 115", EFFECT),
        Example("pull-out", "10.3 kN · 2.47 over 1.50", "16.96", "pull_out 1 10300 150 247"),
        Example("cone, basic", "7.6 for 8.5 · 0.903, f 37, hef 91 mm", "40.5", cone(1, 76, 37, 910), why="a"),
        Example("cone, basic", "7.7 for it", "40.5", cone(1, 77, 37, 910), why="a"),
        Example("cone, neighbours, first anchor", "the forces of this case, scr 390 mm", "0.772", cone(1, 77, 37, 910), NEIGHBOURS),
        Example("cone, neighbours, second anchor", "the same", "0.560", cone(2, 77, 37, 910), NEIGHBOURS, "c"),
        Example("cone, edge", "c1 190 mm, ccr 195 mm", "0.987", root(190, 195), PART),
        Example("edge, basic", "4.8, f 37, c1 190 mm", "76.5", edge(1, 48, 37, 1900, 409)),
        Example("edge, neighbours, first anchor", "the forces of this case, 842 mm", "0.686", edge(1, 48, 37, 1900, 409), NEIGHBOURS, "c"),
        Example("edge, neighbours, second anchor", "the same", "0.451", edge(2, 48, 37, 1900, 409), NEIGHBOURS),
        Example("edge, corner", "225 mm from the second anchor, characteristic 421 mm", "0.731", corner(2, 3000, 225, 421), PART),
        Example("edge, thickness", "250 mm, characteristic 436 mm", "0.757", root(250, 436), PART),
    ],
)

D = Setting(
    "D: three anchors 150 mm apart on the same channel, bolts of 3.75 kN tension and 5.00 kN shear 100 mm and 200 mm from the first",
    ["open 3 1500 21452", "place 1000 3750 5000", "place 2000 3750 5000"],
    [
        Example("bolt", "62.8 kN over 2.00", "31.4", "bolt_tension 1 62800 200"),
        Example("pull-out", "10.3 kN · 1.67 over 1.50", "11.47", "pull_out 1 10300 150 167"),
        Example("moment", "3.75 kN, 100 mm and 50 mm from the anchors", "125", "flexure 1 1013 115", EFFECT),
        Example("cone, basic", "7.6 for 8.5 · 0.903, f 25, hef 91 mm", "33.31", cone(2, 76, 25, 910), why="a"),
        Example("cone, basic", "7.7 for it", "33.31", cone(2, 77, 25, 910), why="a"),
        Example("cone, neighbours, first anchor", "the forces of this case, scr 390 mm", "0.417", cone(1, 77, 25, 910), NEIGHBOURS, "d"),
        Example("cone, neighbours, second anchor", "the same", "0.663", cone(2, 77, 25, 910), NEIGHBOURS, "c"),
        Example("cone, edge", "c1 100 mm, ccr 195 mm", "0.716", root(100, 195), PART),
        Example("cone, corner", "175 mm from the third anchor, ccr 195 mm", "0.947", corner(3, 3000, 175, 195), PART),
        Example("edge, basic", "4.8, f 25, c1 100 mm", "24.0", edge(2, 48, 25, 1000, 409)),
        Example("edge, neighbours, first anchor", "the forces of this case, 482 mm", "0.377", edge(1, 48, 25, 1000, 409), NEIGHBOURS, "d"),
        Example("edge, neighbours, second anchor", "the same", "0.623", edge(2, 48, 25, 1000, 409), NEIGHBOURS),
        Example("edge, corner", "175 mm from the third anchor, characteristic 241 mm", "0.852", corner(3, 3000, 175, 241), PART),
        Example("edge, thickness", "150 mm, characteristic 256 mm", "0.765", root(150, 256), PART),
        Example("edge, basic, of another example", "4.8, f 25, c1 190 mm", "62.86", edge(1, 48, 25, 1900, 409)),
    ],
)

SETTINGS = [A, A_BENT, B, C, D]
