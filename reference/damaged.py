"""Makes the table of lawful and damaged certificates that `crates/certificate_table` runs.

    python3 reference/damaged.py            write the table's two files
    python3 reference/damaged.py --names    print the number, name and answer of each line

Each case is a line of hex digits in `stdin` (a dash for an empty file), and the answer of
`certificate.read` is the line of the same number in `stdout`. Where the answer is plain from
the way that a case is made, the case states it, and a reference that answers otherwise is an error.
"""

import random
import sys
from pathlib import Path

from certificate import GEOMETRY, HEAD, MOST, RESISTANCE, Certificate, Fault, number, pairs, places, read, write

FOLDER = Path(__file__).resolve().parent.parent / "crates" / "certificate_table"
PAIRS = (2, 6, 10, 14)  # where the pairs begin
LARGEST = 65535  # of two bytes
LAWFUL = "lawful"

WORKED = Certificate(
    edition=2,
    geometry=[790, 400, 250, 75, 105, 60, 84, 20, 800, 800, 59049],
    resistance=[20000, 20000, 20000, 33700, 1099, 26680, 20200, 20000, 20000, 20000]
    + [180, 180, 180, 200, 115, 167, 180, 180, 180, 150],
    cracked=[(30, 100)],
    uncracked=[(30, 140)],
)

LONGER = Certificate(
    edition=1,
    geometry=[1550, 523, 341, 81, 113, 45, 63, 15, 1250, 980, 123456],
    resistance=[65537, 70001, 81234, 99999, 4321, 131072, 55555, 44444, 0, 333333]
    + [150, 151, 162, 173, 184, 195, 206, 217, 228, 239],
    cracked=[(16, 80), (20, 100), (25, 122), (40, 160), (60, 201)],
    uncracked=[(14, 110), (20, 140), (28, 171), (35, 190), (45, 222), (55, 256), (70, 301)],
)

FULL = LONGER._replace(
    cracked=[(strength, 20 + strength) for strength in range(12, 76)],
    uncracked=[(strength, 400 - strength) for strength in range(12, 76)],
)


class Table:
    """The cases, each set of bytes once, in the order in which they were added."""

    def __init__(self):
        self.cases = {}

    def add(self, name, data, expected=None):
        """Adds a case. `expected` is LAWFUL, or a question and a byte, where that is known."""
        answer = read(bytes(data))
        if expected == LAWFUL:
            assert isinstance(answer, Certificate), (name, answer)
        elif expected is not None:
            assert answer == Fault(*expected), (name, answer, expected)
        if isinstance(answer, Certificate):
            assert read(write(answer)) == answer, name
        self.cases.setdefault(bytes(data), (name, answer))


def shown(answer):
    """The line of an answer."""
    if isinstance(answer, Fault):
        return f"refused {answer.question} {answer.byte}"
    parts = [answer.edition, *answer.geometry, *answer.resistance]
    for classes in (answer.cracked, answer.uncracked):
        parts += [len(classes), *(part for entry in classes for part in entry)]
    return " ".join(["ok", *map(str, parts)])


def put(data, *changes):
    """The bytes with numbers written over them, each a place, a width and a value."""
    changed = bytearray(data)
    for at, width, value in changes:
        changed[at : at + width] = value.to_bytes(width, "little")
    return bytes(changed)


def spread(data, gaps, filler=0xAA):
    """The file with bytes put before each section and after the last: five lengths of gaps."""
    head, body, tail = data[:2], b"", bytes([filler]) * gaps[4]
    for (offset, length), gap in zip(pairs(data), gaps):
        body += bytes([filler]) * gap
        head += (HEAD + len(body)).to_bytes(2, "little") + length.to_bytes(2, "little")
        body += data[offset : offset + length]
    return head + body + tail


def fields_of(data):
    """The place and the rule of every field of sections 1 and 2."""
    (first, _), (second, _) = pairs(data)[:2]
    return [*places(first, GEOMETRY), *places(second, RESISTANCE)]


def add_heads(table, name, data):
    """Lengths of the file, editions and numbers of sections."""
    table.add(f"{name}: as it is", data, LAWFUL)
    for length in (0, 1, 17):
        table.add(f"{name}: {length} bytes", data[:length], (1, 0))
    table.add(f"{name}: head only", data[:HEAD], (2, 2))
    for cut in range(HEAD + 1, len(data)):
        table.add(f"{name}: cut to {cut} bytes", data[:cut])
    for edition in (0, 1, 2, 3, 255):
        table.add(f"{name}: edition {edition}", put(data, (0, 1, edition)), LAWFUL if edition in (1, 2) else (1, 0))
    for count in (0, 1, 3, 5, 255):
        table.add(f"{name}: {count} sections", put(data, (1, 1, count)), (1, 1))


def add_gaps(table, name, data):
    """Gaps between the sections and after them, up to the longest file and past it."""
    for place in range(5):
        for gap in (1, 7):
            gaps = [gap if k == place else 0 for k in range(5)]
            table.add(f"{name}: gap {gap} at {place}", spread(data, gaps), LAWFUL)
    room = MOST - len(data)
    for place in (0, 3, 4):
        gaps = [room if k == place else 0 for k in range(5)]
        table.add(f"{name}: {MOST} bytes, gap at {place}", spread(data, gaps, 0), LAWFUL)
    table.add(f"{name}: {MOST + 1} bytes", spread(data, [0, 0, 0, 0, room + 1], 0), (1, 0))
    table.add(f"{name}: gaps everywhere", spread(data, [3, 1, 4, 2, 5], 0xFF), LAWFUL)


def add_offsets(table, name, data):
    """Each pair with an offset that is not where its section may begin."""
    found = pairs(data)
    for index, at in enumerate(PAIRS):
        offset, length = found[index]
        end_before = HEAD if index == 0 else sum(found[index - 1])
        for low in (0, 1, 16, 17, end_before - 1):
            table.add(f"{name}: pair {index + 1} at {low}", put(data, (at, 2, low)), (2, at))
        past = len(data) + 1 - length
        for high in (past, len(data), len(data) + 1, LARGEST + 1 - length, LARGEST):  # the last two wrap in 16 bits
            table.add(f"{name}: pair {index + 1} at {high}", put(data, (at, 2, high)), (2, at))
        table.add(f"{name}: pair {index + 1} up to the end", put(data, (at, 2, past - 1)))
        table.add(f"{name}: pair {index + 1} one later", put(data, (at, 2, offset + 1)))
        table.add(f"{name}: pair {index + 1} high byte", put(data, (at + 1, 1, 1)))
        for other in range(index):
            swapped = put(data, (PAIRS[other], 4, number(data, at, 4)), (at, 4, number(data, PAIRS[other], 4)))
            table.add(f"{name}: pairs {other + 1} and {index + 1} swapped", swapped)
    table.add(f"{name}: cut one byte before the end of the last section", data[: sum(found[3]) - 1], (2, 14))


def add_lengths(table, name, data, roomy):
    """Each pair with a length that its section may not have; where it is roomy only the length can be wrong."""
    for index, at in enumerate(PAIRS):
        length = pairs(data)[index][1]
        wrong = {length - 1, length + 1, length + 2, 0, 1, 2, 3, 257, 258, 260, LARGEST - 3, LARGEST}
        wrong |= {4, 24, 60, 256} - {length} if index < 2 else set()
        for value in sorted(wrong - {length}):
            table.add(f"{name}: pair {index + 1} length {value}", put(data, (at + 2, 2, value)), (2, at))
        for value in (4, 256, length + 4, 4 * (length // 4) - 4):
            expected = (2, at) if index < 2 and value != length else None
            table.add(f"{name}: pair {index + 1} length {value}", put(data, (at + 2, 2, value)), expected)
    if roomy:
        for index, at in ((2, 10), (3, 14)):
            offset, length = pairs(data)[index]
            table.add(f"{name}: list {index + 1} of 64 entries, not all lawful", put(data, (at + 2, 2, 256)), (4, offset + length))


def add_fields(table, name, data):
    """Every field of sections 1 and 2 at, below and above its range, and two bad neighbours at once."""
    fields = fields_of(data)
    for at, field in fields:
        most = 256**field.width - 1
        for value in (field.least - 1, field.most + 1, 1, most, most // 2 + 1):
            table.add(f"{name}: {field.name} {value}", put(data, (at, field.width, value)), (3, at))
        table.add(f"{name}: {field.name} 0", put(data, (at, field.width, 0)), LAWFUL if field.or_zero else (3, at))
        for value in (field.least, field.most, field.least + 1, field.most - 1):
            table.add(f"{name}: {field.name} {value}", put(data, (at, field.width, value)))
    for (at, field), (later, following) in zip(fields, fields[1:]):
        two = put(data, (at, field.width, field.most + 1), (later, following.width, following.least - 1))
        table.add(f"{name}: {field.name} and {following.name}", two, (3, at))
    least = put(data, *((at, field.width, field.least) for at, field in fields))
    table.add(f"{name}: every field at its least", least, LAWFUL)
    most = put(data, *((at, field.width, field.most) for at, field in fields))
    table.add(f"{name}: every field at its most", most, LAWFUL)


def add_ratios(table, name, data):
    """The height and the width of the channel at the limit that the embedment depth sets, and one above."""
    first = pairs(data)[0][0]
    for depth in (400, 401, 790, 791, 792, 793, 794, 796, 797, 799, 1000, 1001, 1142, 1143, 1499, 1500):
        height, width = 4 * depth // 10, 7 * depth // 10
        for tall, wide in ((height, 150), (100, width), (height, width), (height + 1, 150), (100, width + 1), (height + 1, width + 1)):
            changed = put(data, (first, 2, depth), (first + 2, 2, wide), (first + 4, 2, tall))
            expected = None
            if tall <= 600 and wide <= 800:
                expected = (3, first + 4) if tall > height else (3, first + 2) if wide > width else LAWFUL
            table.add(f"{name}: depth {depth}, width {wide}, height {tall}", changed, expected)


def add_lists(table, name, data):
    """Strengths and factors at the first, a middle and the last entry of each list."""
    for offset, length in pairs(data)[2:]:
        count = length // 4
        for entry in sorted({0, count // 2, count - 1}):
            at = offset + 4 * entry
            for factor, lawful in ((0, 0), (19, 0), (20, 1), (400, 1), (401, 0), (20 * 256, 0), (LARGEST, 0)):
                table.add(f"{name}: factor {factor} at {at + 2}", put(data, (at + 2, 2, factor)), LAWFUL if lawful else (4, at + 2))
            for strength in (0, 11, 76, 30 * 256, LARGEST):
                table.add(f"{name}: strength {strength} at {at}", put(data, (at, 2, strength)), (4, at))
            for strength in (12, 75):
                table.add(f"{name}: strength {strength} at {at}", put(data, (at, 2, strength)))
            table.add(f"{name}: strength and factor at {at}", put(data, (at, 2, 11), (at + 2, 2, 401)), (4, at))
            if entry > 0:
                before = number(data, at - 4, 2)
                table.add(f"{name}: equal to the one before at {at}", put(data, (at, 2, before)), (4, at))
                table.add(f"{name}: below the one before at {at}", put(data, (at, 2, before - 1)), (4, at))
                table.add(f"{name}: one above the one before at {at}", put(data, (at, 2, before + 1)))
                table.add(f"{name}: equal, and the factor, at {at}", put(data, (at, 2, before), (at + 2, 2, 19)), (4, at))
                table.add(f"{name}: equal at {at}, and the factor before", put(data, (at - 2, 2, 401), (at, 2, before)), (4, at - 2))
            if entry < count - 1:
                after = number(data, at + 4, 2)
                table.add(f"{name}: equal to the one after at {at}", put(data, (at, 2, after)), (4, at + 4))
                table.add(f"{name}: above the one after at {at}", put(data, (at, 2, after + 1)), (4, at + 4))
                table.add(f"{name}: factor at {at}, and the next strength", put(data, (at + 2, 2, 19), (at + 4, 2, 76)), (4, at + 2))


def add_orders(table, name, data):
    """Faults of several kinds at once: the first question of the order refuses."""
    (first, _), (second, _), (cracked, long), (uncracked, _) = pairs(data)
    faults = [  # in the order of the questions
        ("edition", (1, 0), [(0, 1, 3)]),
        ("sections", (1, 1), [(1, 1, 5)]),
        ("pair 1", (2, 2), [(2, 2, 17)]),
        ("pair 2", (2, 6), [(8, 2, 61)]),
        ("pair 3", (2, 10), [(12, 2, 3)]),
        ("pair 4", (2, 14), [(14, 2, LARGEST)]),
        ("edge factor", (3, first + 10), [(first + 10, 2, 9)]),
        ("inertia", (3, first + 20), [(first + 20, 4, 200001)]),
        ("anchor", (3, second), [(second, 4, 999)]),
        ("concrete", (3, second + 58), [(second + 58, 2, 301)]),
        ("height ratio", (3, first + 4), [(first, 2, 500), (first + 4, 2, 201)]),
        ("width ratio", (3, first + 2), [(first, 2, 500), (first + 2, 2, 351)]),
        ("cracked strength", (4, cracked), [(cracked, 2, 11)]),
        ("cracked factor", (4, cracked + long - 2), [(cracked + long - 2, 2, 401)]),
        ("uncracked strength", (4, uncracked), [(uncracked, 2, 76)]),
        ("uncracked factor", (4, uncracked + 2), [(uncracked + 2, 2, 19)]),
    ]
    for place, (kind, expected, changes) in enumerate(faults):
        mild = [(first + 4, 2, 200), (first + 2, 2, 200)] if kind in ("height ratio", "width ratio") else []
        table.add(f"{name}: {kind}", put(data, *mild, *changes), expected)
        for later, _, more in faults[place + 1 :]:
            table.add(f"{name}: {kind} and {later}", put(data, *mild, *more, *changes), expected)
    every = [change for _, _, changes in faults for change in changes]
    table.add(f"{name}: every fault", put(data, *every), (1, 0))
    table.add(f"{name}: every fault but the head's", put(data, *every[2:]), (2, 2))
    table.add(f"{name}: too long, and sections", put(data, (1, 1, 3)) + bytes(MOST + 1 - len(data)), (1, 0))
    table.add(f"{name}: too short, and sections", put(data, (1, 1, 3))[:17], (1, 0))
    depth = put(data, (first, 2, 399), (first + 2, 2, 800), (first + 4, 2, 600))
    table.add(f"{name}: depth, and both ratios", depth, (3, first))
    wide = put(data, (first, 2, 400), (first + 2, 2, 801), (first + 4, 2, 600))
    table.add(f"{name}: width's range, and the height's ratio", wide, (3, first + 2))


def drawn(rng, count):
    """A number below `count`. It comes from `random()`, which is the same in every version of Python."""
    return int(rng.random() * count)


def random_certificate(rng):
    """A certificate whose fields are in range; a ratio may be broken."""

    def values(fields):
        return [0 if field.or_zero and drawn(rng, 4) == 0 else field.least + drawn(rng, field.most - field.least + 1) for field in fields]

    def classes():
        share = rng.random()
        strengths = [strength for strength in range(12, 76) if rng.random() < share] or [12 + drawn(rng, 64)]
        return [(strength, 20 + drawn(rng, 381)) for strength in strengths]

    return Certificate(1 + drawn(rng, 2), values(GEOMETRY), values(RESISTANCE), classes(), classes())


def mutated(rng, data):
    """The bytes with one to three mutations: a byte changed, shifted by one or doubled, a bit turned, a cut, a padding."""
    changed = bytearray(data)
    for _ in range(1 + drawn(rng, 3)):
        kind = drawn(rng, 8)
        limit = min(len(changed), HEAD) if drawn(rng, 4) == 0 else len(changed)
        at = drawn(rng, limit)
        if kind == 0 or not changed:
            changed += bytes([drawn(rng, 256)]) * (1 + drawn(rng, 20))
        elif kind == 1:
            changed[at] = drawn(rng, 256)
        elif kind <= 3:
            changed[at] = (changed[at] + (1, 255)[drawn(rng, 2)]) & 255
        elif kind == 4:
            changed[at] ^= 1 << drawn(rng, 8)
        elif kind == 5:
            changed.insert(at, changed[at])
        elif kind == 6:
            at &= ~1
            changed[at : at + 2] = (drawn(rng, 600)).to_bytes(2, "little")
        elif drawn(rng, 3) == 0:
            del changed[at:]
        else:
            del changed[at]
    return bytes(changed)


def add_random(table):
    """Random lawful certificates, and random mutations of those above, the same ones at every run."""
    rng = random.Random(20)
    for k in range(100):
        gaps = [drawn(rng, 9) if drawn(rng, 3) == 0 else 0 for _ in range(5)]
        table.add(f"random certificate {k}", spread(write(random_certificate(rng)), gaps, drawn(rng, 256)))
    bases = [write(WORKED), write(LONGER), spread(write(LONGER), [2, 3, 1, 4, 6])]
    for k in range(600):
        table.add(f"random mutation {k}", mutated(rng, bases[k % 3]))


def table():
    """The whole table."""
    made = Table()
    worked, longer, full = write(WORKED), write(LONGER), write(FULL)
    gapped = spread(longer, [5, 2, 9, 3, 8])
    roomy = spread(longer, [0, 260, 260, 260, 260], 0)
    for name, data in (("worked", worked), ("longer", longer)):
        add_heads(made, name, data)
        add_gaps(made, name, data)
        add_offsets(made, name, data)
        add_lengths(made, name, data, roomy=False)
        add_fields(made, name, data)
        add_ratios(made, name, data)
        add_lists(made, name, data)
        add_orders(made, name, data)
    add_offsets(made, "gapped", gapped)
    add_fields(made, "gapped", gapped)
    add_lists(made, "gapped", gapped)
    add_orders(made, "gapped", gapped)
    add_lengths(made, "roomy", roomy, roomy=True)
    made.add("full lists", full, LAWFUL)
    add_lists(made, "full", full)
    add_random(made)
    return made.cases


def main():
    cases = table()
    if sys.argv[1:] == ["--names"]:
        for line, (name, answer) in enumerate(cases.values(), start=1):
            print(line, f"{name}:", shown(answer))
        return
    (FOLDER / "stdin").write_text("".join(f"{data.hex() or '-'}\n" for data in cases))
    (FOLDER / "stdout").write_text("".join(f"{shown(answer)}\n" for _, answer in cases.values()))
    print(len(cases), "cases")


if __name__ == "__main__":
    main()
