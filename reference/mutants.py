"""Which wrong rules the cases of `vectors.py` would find.

    python3 reference/mutants.py CASES ANSWERS

Each edit turns one rule of `rules.py`, `rating.py` or `certificate.py`; with it, at least one answer has to come out otherwise.
Prints how many do, and fails where an edit is not found. There is no edit of the embedment from which dense reinforcement does
no harm to a larger one: from 1,000 tenths on the straight reduction has A ≥ B and leaves the resistance, so none could be found.
"""

import sys
import types
from pathlib import Path

from build import case_parts
from fuzz import answers_of

FOLDER = Path(__file__).resolve().parent
MODULES = ("certificate", "rules", "rating")

EDITS = [
    # certificate
    ("certificate", "MOST = 4096", "MOST = 4095"),
    ("certificate", "MOST = 4096", "MOST = 4097"),
    ("certificate", "not in (1, 2)", "not in (1, 2, 3)"),
    ("certificate", "data[1] != 4", "data[1] < 4"),
    ("certificate", "offset < end_before", "offset <= end_before"),
    ("certificate", "offset < end_before or ", "offset < HEAD or "),
    ("certificate", "end > len(data)", "end >= len(data)"),
    ("certificate", "range(ENTRY, ENTRY * MOST_ENTRIES + 1, ENTRY)", "range(ENTRY, ENTRY * MOST_ENTRIES, ENTRY)"),
    ("certificate", "range(ENTRY, ENTRY * MOST_ENTRIES + 1, ENTRY)", "range(0, ENTRY * MOST_ENTRIES + 1, ENTRY)"),
    ("certificate", "range(ENTRY, ENTRY * MOST_ENTRIES + 1, ENTRY)", "range(ENTRY, 261, ENTRY)"),
    ("certificate", "10 * height > 4 * depth", "10 * height >= 4 * depth"),
    ("certificate", "10 * width > 7 * depth", "10 * width >= 7 * depth"),
    ("certificate", "Fault(3, start + 4)", "Fault(3, start + 2)"),
    ("certificate", "strength <= before", "strength < before"),
    ("certificate", "not 12 <= strength <= 75", "not 12 <= strength <= 76"),
    ("certificate", "not 20 <= factor <= 400", "not 19 <= factor <= 401"),
    ("certificate", "Fault(4, at + 2)", "Fault(4, at)"),
    # influence length and forces
    ("rules", "SLACK = 5", "SLACK = 4"),
    ("rules", "SLACK = 5", "SLACK = 0"),
    ("rules", "if d < L)", "if d < L + SLACK)"),
    ("rules", "0 if d >= L + SLACK else", "0 if d >= L else"),
    ("rules", "c2 = up(c * c, 100)", "c2 = down(c * c, 100)"),
    ("rules", "c4 = up(c2 * c2, 10**8)", "c4 = down(c2 * c2, 10**8)"),
    ("rules", "root_down(s * 10**9)", "root_up(s * 10**9)"),
    ("rules", "a = root_down(inertia * 10**12)", "a = root_up(inertia * 10**12)"),
    ("rules", "else up(F * (L + SLACK - d), S)", "else down(F * (L + SLACK - d), S)"),
    # reductions
    ("rules", "return root_down(A_um * 10**12 // B_um)", "return root_up(A_um * 10**12 // B_um)"),
    ("rules", "down(r * root_ratio(A_um, B_um), MILLION)", "up(r * root_ratio(A_um, B_um), MILLION)"),
    ("rules", "r if A_um >= B_um else down(r * root_ratio", "r if A_um < B_um else down(r * root_ratio"),
    ("rules", "r if A_um >= B_um else down(r * A_um, B_um)", "r"),
    ("rules", "down(r * A_um, B_um)", "up(r * A_um, B_um)"),
    ("rules", "return min(left_um", "return max(left_um"),
    ("rules", "right_um + TENTH * (last - position)", "right_um + TENTH * position"),
    ("rules", "DENSE_BELOW = 1000", "DENSE_BELOW = 999"),
    # groups
    ("rules", "r = root_up(up(", "r = root_down(up("),
    ("rules", "return up((scr_um - d_um) * r, scr_um)", "return down((scr_um - d_um) * r, scr_um)"),
    ("rules", "return up((scr_um - d_um) * r, scr_um)", "return r"),
    ("rules", "effect += up(weight", "effect += down(weight"),
    ("rules", "if j != k and d < scr_um", "if j != k and d < scr_um // 2"),
    # resistances
    ("rules", "if sc is None or sc >= sl:", "if sc is None or sc >= sl - 1:"),
    ("rules", "gamma * 2 * sl)", "gamma * sl)"),
    ("rules", "gamma * 2 * sl)", "gamma * 2 * sl - 1)"),
    ("rules", "return down(value * 100_000, gamma)", "return up(value * 100_000, gamma)"),
    ("rules", "return down(value * 1000 * factor, gamma)", "return up(value * 1000 * factor, gamma)"),
    ("rules", "return root_down(k * k * f * h**3 * m * m // 10)", "return root_up(k * k * f * h**3 * m * m // 10)"),
    ("rules", "max(up(h * (50_400 - 13 * h), 90), 300 * h)", "max(down(h * (50_400 - 13 * h), 90), 300 * h)"),
    ("rules", "max(up(h * (50_400 - 13 * h), 90), 300 * h)", "up(h * (50_400 - 13 * h), 90)"),
    ("rules", "return up(cone_spacing(h), 2)", "return down(cone_spacing(h), 2)"),
    ("rules", "TENTH * (4 * c1 + 2 * bch)", "TENTH * (4 * c1 + bch)"),
    ("rules", "return root_down(k * k * f * c1**3 * 10)", "return root_up(k * k * f * c1**3 * 10)"),
    ("rules", "t = cube_root_down(c1 * 10**14)", "t = cube_root_down(c1 * 10**14) + 1"),
    ("rules", "g = root_down(f * 10**12)", "g = root_up(f * 10**12)"),
    ("rules", "return down(edge_first_value(k, f, c1) * p, gamma)", "return up(edge_first_value(k, f, c1) * p, gamma)"),
    ("rules", "return down(edge_second_value(k, f, c1) * p, gamma)", "return up(edge_second_value(k, f, c1) * p, gamma)"),
    # bending
    ("rules", "return up(F * min(x_um, y_um)", "return down(F * min(x_um, y_um)"),
    ("rules", "(s_um - max(x_um, y_um))", "(s_um - x_um)"),
    ("rules", "if its_span == span and y != 0:", "if y != 0:"),
    ("rules", "if its_span == span and y != 0:", "if bolt == here:"),
    # utilisation and verdict
    ("rules", "CAP = 999_999", "CAP = 1_000_000"),
    ("rules", "return min(up(10_000 * effect, resistance), CAP)", "return min(down(10_000 * effect, resistance), CAP)"),
    ("rules", "tension**2 + shear**2 <= 10**8", "tension**2 + shear**2 < 10**8"),
    ("rules", "tension**2 + shear**2 <= 10**8", "tension + shear <= 10**4"),
    ("rating", "if best[1] == 0 or u > best[0]:", "if best[1] == 0 or u >= best[0]:"),
    ("rating", "if best[1] == 0 or u > best[0]:", "if u > best[0]:"),
    ("rating", "self.largest <= WHOLE and", "self.largest < WHOLE and"),
    ("rating", "self.largest <= WHOLE and ", ""),
    ("rating", "max(u(3, i), u(5, i)) + u(9, i) <= WHOLE", "max(u(3, i), u(5, i)) + u(9, i) < WHOLE"),
    ("rating", "max(u(3, i), u(5, i)) + u(9, i)", "u(3, i) + u(9, i)"),
    ("rating", "max(u(3, i), u(5, i)) + u(9, i)", "u(5, i) + u(9, i)"),
    ("rating", "max(u(1, k), u(2, k)) + max", "u(1, k) + max"),
    ("rating", "max(u(1, k), u(2, k)) + max", "u(2, k) + max"),
    ("rating", "+ max(u(10, k), u(11, k)) <= WHOLE", "+ u(10, k) <= WHOLE"),
    ("rating", "+ max(u(10, k), u(11, k)) <= WHOLE", "+ u(11, k) <= WHOLE"),
    ("rating", "+ max(u(10, k), u(11, k)) <= WHOLE", "+ max(u(10, k), u(11, k)) < WHOLE"),
    ("rating", "largest(6, 7) + largest(12, 13)", "largest(7) + largest(12, 13)"),
    ("rating", "largest(6, 7) + largest(12, 13)", "largest(6) + largest(12, 13)"),
    ("rating", "largest(6, 7) + largest(12, 13)", "largest(6, 7) + largest(13)"),
    ("rating", "largest(6, 7) + largest(12, 13)", "largest(6, 7) + largest(12)"),
    ("rating", "largest(12, 13) <= WHOLE_CONCRETE", "largest(12, 13) < WHOLE_CONCRETE"),
    ("rating", "holds = [self.bolts_squared(), self.lips(),", "holds = [self.lips(), self.bolts_squared(),"),
    # the lines
    ("rating", "self.cone_line(shears, ch.pryout_factor)", "self.cone_line(shears, 10)"),
    ("rating", "ch.lip_spacing_shear", "ch.lip_spacing_tension"),
    ("rating", "ch.value_anchor_shear, ch.factor_anchor_shear", "ch.value_anchor_shear, ch.factor_anchor"),
    ("rating", "k = ch.cone_factor_cracked if site.cracked", "k = ch.cone_factor_cracked if not site.cracked"),
    ("rating", "k = ch.edge_factor_cracked if site.cracked", "k = ch.edge_factor_cracked if not site.cracked"),
    ("rating", "rules.edge_first if ch.edition == 1", "rules.edge_first if ch.edition == 2"),
    ("rating", "{1: read.cracked, 0: read.uncracked}", "{0: read.cracked, 1: read.uncracked}"),
    ("rating", "line.reduced(rules.root_reduction, [(TENTH * site.c1, ccr)] * site.n)", "pass"),
    ("rating", "line.reduced(rules.root_reduction, self.corner_pairs(ccr))", "pass"),
    ("rating", "self.corner_pairs(TENTH * (2 * site.c1 + ch.channel_width))", "self.corner_pairs(TENTH * 2 * site.c1)"),
    ("rating", "2 * site.c1 + 2 * ch.channel_height)\n        return line", "2 * site.c1 + ch.channel_height)\n        return line"),
    ("rating", "if value == 0:", "if value < 0:"),
    # site, bolts and lines of the job
    ("rating", "1: range(15, 76), 2: range(12, 61)", "1: range(12, 76), 2: range(12, 61)"),
    ("rating", "1: range(15, 76), 2: range(12, 61)", "1: range(15, 76), 2: range(12, 76)"),
    ("rating", "range(600, 20_001)", "range(601, 20_001)"),
    ("rating", "site.thickness < channel.embedment_depth", "site.thickness <= channel.embedment_depth"),
    ("rating", "position > (site.n - 1) * site.s", "position >= (site.n - 1) * site.s"),
    ("rating", "tension > MOST_LOAD or shear > MOST_LOAD", "tension > MOST_LOAD"),
    ("rating", "or tension + shear == 0", "or tension * shear == 0"),
    ("rating", "MOST_BOLTS = 16", "MOST_BOLTS = 15"),
    ("rating", "MOST_BOLTS = 16", "MOST_BOLTS = 17"),
    ("rating", "LEAST_GAP = 300", "LEAST_GAP = 299"),
    ("rating", "LEAST_GAP = 300", "LEAST_GAP = 301"),
    ("rating", "line.startswith(b\"site\") != first", "False"),
    ("rating", "if number == 1:", "if number == 0:"),
    ("rating", "|rate\")", "|rate ?\")"),
    ("rating", "lift [0-9]{1,9}|", "lift [0-9]{1,10}|"),
    ("rating", "place(?: [0-9]{1,9}){3}", "place(?: +[0-9]{1,9}){3}"),
    ("rating", "return lines[:-1] if lines[-1] == b\"\" else lines", "return [x for x in lines if x]"),
    ("rating", "return lines[:-1] if lines[-1] == b\"\" else lines", "return lines[:-1]"),
]  # fmt: skip


def edited(module, old, new):
    """`rate` of the three modules, one of them edited."""
    made = {}
    for name in MODULES:
        text = (FOLDER / f"{name}.py").read_text()
        if name == module:
            assert text.count(old) == 1, (module, old, text.count(old))
            text = text.replace(old, new)
        made[name] = types.ModuleType(name)
        kept = {other: sys.modules.get(other) for other in made}
        sys.modules.update(made)
        exec(compile(text, name, "exec"), made[name].__dict__)
        sys.modules.update({other: was for other, was in kept.items() if was})
    return made["rating"].rate


def differs(rate, case, answer):
    try:
        return rate(*case) != answer
    except Exception:  # an edited rule may also break down
        return True


def main():
    with open(sys.argv[1]) as file:
        cases = [case_parts(line.rstrip("\n")) for line in file]
    with open(sys.argv[2]) as file:
        answers = answers_of(file.read())
    missed = 0
    for module, old, new in EDITS:
        rate = edited(module, old, new)
        found = sum(differs(rate, case, answer) for case, answer in zip(cases, answers, strict=True))
        missed += found == 0
        print(f"{found:5} {module}: {old!r} -> {new!r}", flush=True)
    print(f"{len(EDITS)} edits, {missed} not found")
    sys.exit(1 if missed else 0)


if __name__ == "__main__":
    main()
