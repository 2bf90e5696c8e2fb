"""Cases on which the proved program is held against `rating.py`.

    python3 reference/vectors.py CASES ANSWERS    write the cases and their answers, and print which lines are of which family

A case is a line of CASES; ANSWERS has for each the printed text and a line with a full stop. All is made with fixed seeds, so
that the files come out the same everywhere. Where the answer is plain from the way that a case is made, the case states it, and
a reference that answers otherwise is an error.
"""

import sys
from itertools import combinations

import certificate as certificates
import examples
import rating
import rules
from build import (
    EVERY_STRENGTH,
    FIELDS,
    PLAIN_SITE,
    RATE,
    SHEAR_LINES,
    SITE_ORDER,
    STRONG,
    VALUES,
    WORKED,
    Draw,
    Setting,
    case_line,
    channel,
    drawn_bolts,
    drawn_calls,
    drawn_position,
    drawn_setting,
    lift,
    place,
    places,
    site,
    weak_setting,
)
from certificate import GEOMETRY, RESISTANCE

SEED = 47
EDITIONS = (1, 2)
GOOD = channel(WORKED)
GOOD_JOB = site() + place(0, 5000, 0) + RATE
GOOD_ANSWER = "accepted 4501 3 1 0\n"
PAIRS = (2, 6, 10, 14)  # where the pairs begin
SECTIONS = (18, 42, 102, 106)  # where the sections of GOOD begin
LARGEST_WRITTEN = 999_999_999
STRONG_SITE = dict(n=2, s=2500, c1=5000, left=9000, right=9000, thickness=9000)


def put(data, at, width, number):
    """The bytes with a number written over them."""
    return data[:at] + number.to_bytes(width, "little") + data[at + width :]


# The certificate, questions 1 to 4. A refusal ends it before any line of the job.


def head_cases():
    """Question 1: length, edition, count; the longest lawful file; what a job says does not matter."""
    for data in (b"", b"\x02", GOOD[:17], GOOD.ljust(4097, b"\0")):
        yield data, GOOD_JOB, "refused 1 0\n"
    yield GOOD[:18], GOOD_JOB, "refused 2 2\n"
    yield GOOD.ljust(4096, b"\0"), GOOD_JOB, GOOD_ANSWER
    for edition in (0, 3, 255):
        yield put(GOOD, 0, 1, edition), GOOD_JOB, "refused 1 0\n"
        yield put(put(GOOD, 0, 1, edition), 1, 1, 3), GOOD_JOB, "refused 1 0\n"
    for count in (0, 3, 5, 255):
        yield put(GOOD, 1, 1, count), GOOD_JOB, "refused 1 1\n"
    for job in (b"", b"\n", b"rate\n", b"\xff"):
        yield put(GOOD, 0, 1, 9), job, "refused 1 0\n"
        yield put(GOOD, 18, 2, 399), job, "refused 3 18\n"


def pair_cases():
    """Question 2, at each pair: too early, past the end of the file, of a wrong length."""
    for index, at in enumerate(PAIRS):
        offset, length = certificates.pairs(GOOD)[index]
        answer = f"refused 2 {at}\n"
        for early in (0, 17, offset - 1):
            yield put(GOOD, at, 2, early), GOOD_JOB, answer
        for late in (len(GOOD) - length + 1, len(GOOD), 4096, 65_535):
            yield put(GOOD, at, 2, late), GOOD_JOB, answer
        for wrong in (0, length - 1, length + 1, length + 2, 65_535):
            yield put(GOOD.ljust(400, b"\0"), at + 2, 2, wrong), GOOD_JOB, answer
        if index >= 2:
            yield put(GOOD.ljust(400, b"\0"), at + 2, 2, 260), GOOD_JOB, answer
        yield put(put(GOOD, at, 2, offset - 1), 18, 2, 399), GOOD_JOB, answer  # before question 3
    yield GOOD[:-1], GOOD_JOB, "refused 2 14\n"
    yield put(put(GOOD, 6, 2, 0), 10, 2, 0), GOOD_JOB, "refused 2 6\n"


def gap_cases():
    """Sections need not touch: a gap before each, the bytes of a refusal move with them; lists as long as may be."""
    head = bytearray(GOOD[:18])
    body = b""
    starts = []
    for index, at in enumerate(PAIRS):
        offset, length = certificates.pairs(GOOD)[index]
        body += b"\xee" * (3 + index)
        starts.append(18 + len(body))
        head[at : at + 2] = starts[-1].to_bytes(2, "little")
        body += GOOD[offset : offset + length]
    spread = bytes(head) + body
    yield spread, GOOD_JOB, GOOD_ANSWER
    yield spread + b"tail", GOOD_JOB, GOOD_ANSWER
    for start, width, number, question in ((0, 2, 399, 3), (1, 4, 999, 3), (2, 2, 11, 4), (3, 2, 76, 4)):
        at = starts[start]
        yield put(spread, at, width, number), GOOD_JOB, f"refused {question} {at}\n"
    full = [(f, 20 + f) for f in EVERY_STRENGTH]
    for edition in EDITIONS:
        yield channel(WORKED, edition=edition, cracked=full, uncracked=full), GOOD_JOB, None


def field_place(name):
    """Where the field of GOOD begins, and how wide it is."""
    for start, fields in ((SECTIONS[0], GEOMETRY), (SECTIONS[1], RESISTANCE)):
        for at, field in certificates.places(start, fields):
            if field.name == name:
                return at, field.width
    raise KeyError(name)


def field_cases():
    """Question 3, at each field: one off each end and far off; at each end the sheet is rated."""
    wide = dict(WORKED, embedment_depth=1500, channel_width=150, channel_height=100)
    job = site(thickness=2500) + place(300, 4000, 3000) + RATE
    for number, (name, field) in enumerate(FIELDS.items()):
        at, width = field_place(name)
        outside = {field.least - 1, field.most + 1, 256**width - 1}
        outside |= set() if field.or_zero else {0}
        for wrong in sorted(outside):
            yield put(GOOD, at, width, wrong), GOOD_JOB, f"refused 3 {at}\n"
        for right in (field.least, field.most) + ((0,) if field.or_zero else ()):
            numbers = dict(wide, **{name: right})
            yield channel(numbers, edition=1 + number % 2), job, None
    for name in ("value_anchor_shear", "value_connection_shear"):
        at, width = field_place(name)
        yield put(GOOD, at, width, 1), GOOD_JOB, f"refused 3 {at}\n"


def ratio_cases():
    """Question 3's ratios: height before width, both after every field and before the lists."""
    for h in (400, 790, 1001, 1500):
        for height, width in ((4 * h // 10, 7 * h // 10), (4 * h // 10 + 1, 7 * h // 10), (4 * h // 10, 7 * h // 10 + 1)):
            if height > 600 or width > 800:
                continue
            numbers = dict(WORKED, embedment_depth=h, channel_height=height, channel_width=width)
            job = site(thickness=1500) + place(0, 5000, 0) + RATE
            answer = "refused 3 22\n" if 10 * height > 4 * h else "refused 3 20\n" if 10 * width > 7 * h else None
            yield channel(numbers), job, answer
    both = dict(WORKED, channel_height=317, channel_width=554)
    yield channel(both), GOOD_JOB, "refused 3 22\n"
    yield channel(dict(both, factor_concrete=99)), GOOD_JOB, "refused 3 100\n"
    yield channel(dict(WORKED, channel_height=317, channel_width=801)), GOOD_JOB, "refused 3 20\n"
    yield channel(both, cracked=[(11, 100)]), GOOD_JOB, "refused 3 22\n"


def list_cases():
    """Question 4, in both lists: range, order, factor; the first entry that is wrong, the cracked list first."""
    right = [(20, 20), (30, 400), (60, 100)]
    wrong = [
        ([(11, 100)], 0),
        ([(76, 100)], 0),
        ([(0, 0)], 0),
        ([(65_535, 100)], 0),
        ([(30, 19)], 2),
        ([(30, 401)], 2),
        ([(30, 0)], 2),
        ([(30, 100), (30, 110)], 4),
        ([(30, 100), (29, 19)], 4),
        ([(20, 100), (30, 19), (25, 100)], 6),
        ([(20, 100), (30, 100), (76, 401)], 8),
        ([(12, 100), (75, 100), (75, 100)], 8),
    ]
    for entries, byte in wrong:
        yield channel(WORKED, cracked=entries), GOOD_JOB, f"refused 4 {102 + byte}\n"
        yield channel(WORKED, cracked=right, uncracked=entries), GOOD_JOB, f"refused 4 {114 + byte}\n"
        yield channel(WORKED, cracked=entries, uncracked=entries), GOOD_JOB, f"refused 4 {102 + byte}\n"
    yield channel(WORKED, cracked=right, uncracked=[(12, 20), (75, 400)]), GOOD_JOB, GOOD_ANSWER


def two_fault_cases():
    """Two fields wrong: the one earlier in the file is named."""
    draw = Draw(SEED)
    names = list(FIELDS)
    for _ in range(40):
        first, second = sorted((draw.below(len(names)), draw.below(len(names))))
        data = GOOD
        for name in (names[first], names[second]):
            at, width = field_place(name)
            data = put(data, at, width, draw.pick((FIELDS[name].least - 1, FIELDS[name].most + 1)))
        yield data, GOOD_JOB, f"refused 3 {field_place(names[first])[0]}\n"


# The first line, questions 16, 5 and 6. A refusal ends it.

SITE_ENDS = {
    "cracked": (0, 1),
    "c1": (250, 5000),
    "left": (250, 30_000),
    "right": (250, 30_000),
    "thickness": (790, 20_000),  # the worked channel's embedment depth
    "dense": (0, 1),
    "n": (2, 12),
    "s": (500, 2500),
}
REST = place(0, 5000, 4000) + RATE


def site_range_cases():
    """Question 5: each number one off each end and far off; at each end the sheet is rated, in both editions."""
    for edition in EDITIONS:
        cert = channel(WORKED, edition=edition)
        for name, (least, most) in SITE_ENDS.items():
            for wrong in [most + 1, LARGEST_WRITTEN] + [least - 1] * (least > 0):
                yield cert, site(**{name: wrong}) + REST, "refused 5 1\n"
            for right in (least, most):
                yield cert, site(**{name: right}) + REST, None
        for p in (0, 99, 101, 119, 121, 139, 141, 14):
            yield cert, site(p=p) + REST, "refused 5 1\n"
        for p in (100, 120, 140):
            yield cert, site(p=p) + REST, None


def thickness_cases():
    """Question 5: the thickness is at least 600 and at least the embedment depth."""
    for h in (400, 599, 600, 601, 2500):
        cert = channel(dict(WORKED, embedment_depth=h, channel_width=150, channel_height=100))
        for thickness in sorted({599, 600, 601, h - 1, h, h + 1}):
            lawful = thickness >= max(h, 600)
            yield cert, site(thickness=thickness) + REST, None if lawful else "refused 5 1\n"


def strength_cases():
    """Questions 5 and 6: the range of the edition, then the list of cracked or uncracked concrete."""
    every = [(f, 100 + f) for f in EVERY_STRENGTH]
    lists = [(12, 70), (15, 80), (30, 100), (60, 150), (75, 160)]
    for edition, (least, most) in ((1, (15, 75)), (2, (12, 60))):
        full = channel(WORKED, edition=edition, cracked=every, uncracked=every)
        short = channel(WORKED, edition=edition, cracked=lists, uncracked=[(25, 100), (31, 120)])
        for f in (0, 11, 12, 14, 15, 60, 61, 75, 76, LARGEST_WRITTEN):
            answer = None if least <= f <= most else "refused 5 1\n"
            yield full, site(f=f) + REST, answer
            yield short, site(f=f) + REST, answer
            yield short, site(f=f, cracked=0) + REST, answer or "refused 6 1\n"
        for f, cracked in ((25, 1), (31, 1), (29, 1), (30, 0), (32, 0), (26, 0)):
            yield short, site(f=f, cracked=cracked) + REST, "refused 6 1\n"
            yield short, site(f=f, cracked=cracked, p=110) + REST, "refused 5 1\n"
        for f in (25, 31):
            yield short, site(f=f, cracked=0) + REST, None


def broken(line):
    """A line, written wrongly in every way that we could think of; each is refused by question 16."""
    line = line.rstrip(b"\n")
    word, _, numbers = line.partition(b" ")
    yield from (b" " + line, line + b" ", line + b"\t", b"\t" + line, line + b"\r", line + b"\0", b"\xef\xbb\xbf" + line)
    yield from (line + b" 1", line + b" x", line + b"\xff", line + b"1x", line + b";", b"x" + line, line + b"\x0b")
    yield from (word.upper() + line[len(word) :], word.title() + line[len(word) :], word[:-1] + line[len(word) :])
    yield from (word + b"s" + line[len(word) :], word + b":" + line[len(word) :], b"")
    if numbers:
        parts = numbers.split(b" ")
        last = parts[-1]
        stem = line[: -len(last)]
        yield from (word, word + b" ", word + numbers, line.replace(b" ", b"  ", 1), line.replace(b" ", b"\t", 1))
        yield from (stem[:-1], stem, stem + b" " + last, stem[:-1] + b"\t" + last, line.replace(b" ", b"\xc2\xa0", 1))
        for wrong in (b"+", b"-", b"0x", b"\xd9\xa1", b"1e", b"_", b"'"):
            yield stem + wrong + last
        for wrong in (b".", b".0", b"L", b"_0", b","):
            yield stem + last + wrong
        for wrong in (b"0000000001", b"1000000000", b"99999999999999999999", b"18446744073709551616", b"-0", b"x"):
            yield stem + wrong


def site_form_cases():
    """Question 16 of the first line: it comes before 5, and ends it."""
    for wrong in broken(site()):
        yield GOOD, wrong + b"\n" + REST, "refused 16 1\n"
    for wrong in (site(p=110)[:-1] + b" 1\n", site(s=9)[:-1] + b" \n", b"site" + b" 0" * 9 + b"\n", b"site\n"):
        yield GOOD, wrong + REST, "refused 16 1\n"
    for first in (place(0, 5000, 0), lift(0), RATE, b"\n", b"\r\n", b"x\n", b"\0\n"):
        yield GOOD, first, "refused 16 1\n"
        yield GOOD, first + site() + REST, "refused 16 1\n"
        yield GOOD, first.rstrip(b"\n"), "refused 16 1\n" if first != b"\n" else ""
    nine = b"site " + b" ".join(b"%09d" % PLAIN_SITE[name] for name in SITE_ORDER)
    yield GOOD, nine + b"\n" + place(0, 5000, 0) + RATE, GOOD_ANSWER
    for missing in range(10):
        numbers = [b"%d" % PLAIN_SITE[name] for name in SITE_ORDER]
        del numbers[missing]
        yield GOOD, b"site " + b" ".join(numbers) + b"\n" + REST, "refused 16 1\n"


def line_end_cases():
    """No bytes print nothing; the last line feed may be missing, whatever the last line is; a carriage return is a fault."""
    yield GOOD, b"", ""
    yield GOOD, b"\n", "refused 16 1\n"
    yield GOOD, b"\n\n\n", "refused 16 1\n"
    yield GOOD, site(), ""
    yield GOOD, site()[:-1], ""
    yield GOOD, GOOD_JOB[:-1], GOOD_ANSWER
    yield GOOD, GOOD_JOB + b"\n", GOOD_ANSWER + "refused 16 4\n"
    yield GOOD, GOOD_JOB + b"\n\n", GOOD_ANSWER + "refused 16 4\nrefused 16 5\n"
    yield GOOD, GOOD_JOB + b" ", GOOD_ANSWER + "refused 16 4\n"
    yield GOOD, GOOD_JOB + b"lift 1", GOOD_ANSWER + "refused 11 4\n"
    yield GOOD, GOOD_JOB + b"place 299 1 0", GOOD_ANSWER + "refused 10 4\n"
    yield GOOD, GOOD_JOB + b"rate", GOOD_ANSWER * 2
    yield GOOD, GOOD_JOB.replace(b"\n", b"\r\n"), "refused 16 1\n"
    yield GOOD, GOOD_JOB.replace(b"\n", b"\r"), "refused 16 1\n"
    yield GOOD, site() + (place(0, 5000, 0) + RATE).replace(b"\n", b"\r\n"), "refused 16 2\nrefused 16 3\n"
    yield GOOD, site() + b"\n" * 30 + b"rate", "".join(f"refused 16 {k}\n" for k in range(2, 32)) + "accepted 0 1 1 0\n"
    yield GOOD, bytes(range(256)), "refused 16 1\n"
    yield GOOD, site() + bytes(range(256)), None
    yield GOOD, site() + bytes(range(255, -1, -1)) * 2 + b"\n" + RATE, None


def long_cases():
    """Long lines, long numbers, many lines: numbers of lines past 255."""
    yield GOOD, b"a" * 5000, "refused 16 1\n"
    yield GOOD, site()[:-1] + b" " * 3000 + b"\n" + RATE, "refused 16 1\n"
    yield GOOD, site() + b"lift " + b"0" * 2000 + b"\n" + b"place 0 " + b"9" * 1000 + b" 0\n" + RATE, None
    yield GOOD, site() + b"\n" * 300 + place(1001, 1, 1) + place(0, 5000, 0) + RATE, None
    yield GOOD, site() + RATE * 300 + lift(0), "accepted 0 1 1 0\n" * 300 + "refused 11 302\n"


def later_form_cases():
    """Question 16 of later lines: each is refused, and nothing has changed."""
    start = site() + place(300, 4000, 3000)
    for line in (place(0, 5000, 0), lift(300), RATE):
        wrongs = list(broken(line))
        for k in range(0, len(wrongs), 5):
            some = wrongs[k : k + 5]
            yield GOOD, start + b"".join(wrong + b"\n" for wrong in some) + RATE, None
    for wrong in (site(), site(n=3), b"site\n", site(n=1), b"close\n", b"show 1 1\n", b"reopen\n", b"open 2 1000 59049\n"):
        yield GOOD, start + wrong + RATE, None
    for line in (b"place 000000700 000004000 000003000\n", b"lift 000000300\n", b"lift 300\n", b"place 700 04000 3000\n"):
        yield GOOD, start + line + RATE, None


# Place and lift, questions 7 to 11. A refusal changes nothing: a verdict follows each.


def position_cases():
    """Question 7: the last anchor's position and one past it."""
    for n, s in ((2, 500), (2, 1000), (3, 777), (12, 2500), (7, 501)):
        last = (n - 1) * s
        job = site(n=n, s=s) + place(last, 3000, 2000) + RATE + place(last + 1, 3000, 2000) + RATE
        job += place(LARGEST_WRITTEN, 0, 0) + place(last + 1, 0, 0) + place(last - 300, 1, 1) + RATE
        yield GOOD, job, None


def load_cases():
    """Question 8: each load at its end and one past it, both 0; 7 comes before it, 10 after it."""
    at_ends = [(0, 1), (1, 0), (200_000, 0), (0, 200_000), (200_000, 200_000)]
    for tension, shear in at_ends:
        yield GOOD, site() + place(400, tension, shear) + RATE, None
    for tension, shear in ((0, 0), (200_001, 0), (0, 200_001), (200_001, 200_001), (LARGEST_WRITTEN, 1), (1, LARGEST_WRITTEN)):
        job = site() + place(0, 5000, 0) + place(500, tension, shear) + place(0, tension, shear) + place(1001, tension, shear)
        yield GOOD, job + RATE, "refused 8 3\nrefused 8 4\nrefused 7 5\n" + GOOD_ANSWER


def full_cases():
    """Question 9: sixteen bolts, one more in each way, and again after one was lifted."""
    draw = Draw(SEED + 1)
    for n, s in ((12, 2500), (12, 500), (4, 1500), (6, 901)):
        for edition in EDITIONS:
            last = (n - 1) * s
            step = last // 15
            order = list(range(16))
            for k in range(16):
                order.insert(draw.below(16), order.pop())
            job = site(n=n, s=s) + b"".join(place(k * step, draw.between(1, 900), draw.between(1, 700)) for k in order)
            job += RATE + place(last + 1, 1, 1) + place(0, 0, 0) + place(0, 1, 1) + place(last, 1, 1) + RATE
            job += lift(step) + place(1, 1, 1) + place(step, 2, 900) + place(step, 1, 1) + RATE
            yield channel(WORKED, edition=edition), job, None


def gap_to_bolt_cases():
    """Question 10: 299 and 300 tenths on either side, the same position, between two."""
    start = site(n=4) + place(1500, 2000, 1000)
    for other in (1201, 1200, 1499, 1500, 1501, 1799, 1800):
        yield GOOD, start + place(other, 1000, 2000) + RATE, None
    for gap in (598, 599, 600, 601):
        job = start + place(1500 + gap, 1000, 1000)
        yield GOOD, job + b"".join(place(1500 + k, 1, 1) for k in (299, 300, 301)) + RATE, None


def lift_cases():
    """Question 11: nothing there, one off, twice, far off; placing again where a bolt was lifted."""
    start = site(n=3) + place(700, 4000, 2000) + place(0, 3000, 1000)
    for position in (1, 699, 701, 300, 2000, 2001, LARGEST_WRITTEN):
        yield GOOD, start + lift(position) + RATE, None
    yield GOOD, start + RATE + lift(0) + RATE + lift(0) + lift(700) + RATE + lift(700) + place(1, 9000, 1) + RATE, None
    yield GOOD, start + lift(700) + place(700, 1, 8000) + RATE + lift(700) + place(999, 1, 1) + RATE, None
    yield GOOD, site() + lift(0) + RATE, "refused 11 2\naccepted 0 1 1 0\n"


# Verdicts


def no_bolt_cases():
    """Without bolts every utilisation is 0: line 1, place 1, also where lines 10 and 11 have no places."""
    for edition in EDITIONS:
        for n in (2, 12):
            yield channel(WORKED, edition=edition), site(n=n) + RATE + RATE, "accepted 0 1 1 0\n" * 2
    nothing = dict(WORKED, value_anchor_shear=0, value_connection_shear=0)
    yield channel(nothing), site() + RATE, "accepted 0 1 1 0\n"


# Moments of inertia at which a root rounded otherwise in one of the first three steps gives another influence length.
TELLING_INERTIAS = (20_781, 134_710, 139_645, 189_061, 32_592, 51_449, 84_800, 175_518, 4842, 5204, 11_059, 34_398)


def fine_setting(draw, edition, line):
    """A channel with one line so weak that its utilisation shows six figures."""
    setting = weak_setting(draw, edition, line)
    numbers, where = setting.numbers, setting.site_numbers
    numbers["factor_concrete"] = draw.between(100, 300)
    if line in VALUES:
        field = FIELDS[VALUES[line][0]]
        numbers[field.name] = draw.between(field.least, 4 * field.least)
    elif line in (7, 12):
        h = draw.between(400, 1100)
        numbers.update(embedment_depth=h, channel_width=draw.between(150, 280), channel_height=draw.between(100, 160))
        where.update(c1=draw.between(250, 900), left=draw.between(250, 900), f=draw.between(15, 40))
        where["thickness"] = draw.between(1100, 2000)
    else:
        numbers.update(edge_factor_cracked=draw.between(10, 20), edge_factor_uncracked=draw.between(10, 20))
        where.update(c1=draw.between(250, 700), left=draw.between(250, 900), f=draw.between(15, 40))
    if line in (1, 2, 6, 10, 11):
        numbers["moment_of_inertia"] = draw.pick(TELLING_INERTIAS)
    return Setting(numbers, edition, ([(where["f"], 150)], [(where["f"], 200)]), **where)


def fine_cases():
    """Each line at utilisations of six figures, in both editions: a step rounded otherwise shows in the last one."""
    for edition in EDITIONS:
        for line in range(1, 14):
            draw = Draw(5000 * edition + line)
            left = 8
            while left:
                setting = fine_setting(draw, edition, line)
                n, s = setting.site_numbers["n"], setting.site_numbers["s"]
                bolts = drawn_bolts(draw, n, s, draw.between(1, 4), 200_000)
                verdict = setting.verdict(bolts) if bolts else None
                if verdict and verdict.line == line and 300_000 < verdict.largest < rules.CAP:
                    left -= 1
                    yield setting.cert(), setting.job(bolts), None


def inertia_cases():
    """The telling moments of inertia, at the largest utilisations that are shown."""
    draw = Draw(SEED + 7)
    for inertia in TELLING_INERTIAS * 3:
        numbers = dict(STRONG, value_anchor=1000, factor_anchor=draw.between(100, 300), moment_of_inertia=inertia)
        n, s = draw.between(2, 5), draw.between(500, 2500)
        setting = Setting(numbers, **dict(STRONG_SITE, n=n, s=s))
        below, _ = tuned(setting, drawn_position(draw, n, s), [], AtMost(1, rules.CAP - 1))
        yield setting.cert(), setting.job(below), None


def no_place_cases():
    """A value of 0 in lines 10 and 11: no places, and check 3 without them."""
    draw = Draw(SEED + 2)
    for anchor, connection in ((0, 0), (0, 2000), (2000, 0), (2000, 2000), (1000, 1500), (1500, 1000)):
        for edition in EDITIONS:
            numbers = dict(STRONG, value_anchor_shear=anchor, value_connection_shear=connection, value_anchor=6000)
            setting = Setting(numbers, edition, n=draw.between(2, 5), s=draw.between(500, 2500), c1=3000, left=4000, right=4000)
            bolts = drawn_bolts(draw, setting.site_numbers["n"], setting.site_numbers["s"], 3, 3000)
            yield setting.cert(), setting.job(bolts), None


def governing_cases():
    """Each line as the one that governs, accepted and rejected, in both editions, on drawn sites under drawn bolts."""
    for edition in EDITIONS:
        for line in range(1, 14):
            draw = Draw(1000 * edition + line)
            left = {True: 9, False: 9}
            while any(left.values()):
                setting = weak_setting(draw, edition, line)
                where = setting.site_numbers
                bolts = drawn_bolts(draw, where["n"], where["s"], draw.between(1, 5))
                verdict = setting.verdict(bolts) if bolts else None
                if verdict and verdict.line == line and 0 < verdict.largest and left[verdict.accepted]:
                    left[verdict.accepted] -= 1
                    job = setting.line() + b"".join(place(*bolt) + RATE for bolt in bolts)
                    yield setting.cert(), job, None


def tuned(setting, position, other, wanted):
    """The largest load at a position, in the wanted direction, for which `wanted` holds of the verdict."""

    def bolts(load):
        here = (position, load, 0) if wanted.tension else (position, 0, load)
        return [here] + other

    load = rules.greatest(lambda x: x == 0 or (x <= 200_000 and wanted.holds(setting.verdict(bolts(x)))))
    return bolts(load), bolts(load + 1)


class AtMost:
    """The largest utilisation of a line stays at or below a limit."""

    def __init__(self, line, limit):
        self.line, self.limit = line, limit
        self.tension = line not in SHEAR_LINES

    def holds(self, verdict):
        return max(verdict.rows[self.line - 1], default=0) <= self.limit


def threshold_cases():
    """The utilisation of each line exactly 10,000, or the last below, and one newton more."""
    for edition in EDITIONS:
        for line in range(1, 14):
            draw = Draw(2000 * edition + line)
            for _ in range(3):
                setting = weak_setting(draw, edition, line)
                where = setting.site_numbers
                position = drawn_position(draw, where["n"], where["s"])
                if line == 5:
                    position = where["s"] // 2
                below, above = tuned(setting, position, [], AtMost(line, 10_000))
                if above[0][1] + above[0][2] <= 200_000 and below[0][1] + below[0][2] > 0:
                    yield setting.cert(), setting.job(below) + lift(position) + places(above) + RATE, None


def exact_whole_cases():
    """Loads equal to the design value: 10,000 is accepted, one newton more is not."""
    for line in (3, 4, 8, 9):
        value, factor = VALUES[line]
        for load in (1000, 1001, 9999):
            numbers = dict(STRONG, **{value: load, factor: 100})
            setting = Setting(numbers, n=2, s=2500, c1=5000, left=9000, right=9000, thickness=9000)
            loads = [(load, 0), (load + 1, 0)] if line < 8 else [(0, load), (0, load + 1)]
            yield setting.cert(), setting.job([(1250, *loads[0])]) + lift(1250) + place(1250, *loads[1]) + RATE, None


def check_limit_cases():
    """Checks 1 and 2 at their limits, reached exactly and passed by one: 6,000 with 8,000 and with 8,001, and so on."""
    for names, pairs in (
        (("value_bolt", "value_bolt_shear"), ((6000, 8000), (8000, 6000), (2800, 9600), (10_000, 0), (0, 10_000), (7071,) * 2)),
        (("value_lip", "value_lip_shear"), ((4000, 6000), (1, 9999), (10_000, 0), (0, 10_000), (5000, 5000))),
    ):
        numbers = dict(STRONG, **{name: 10_000 for name in names})
        setting = Setting(numbers, **STRONG_SITE)
        for tension, shear in pairs:
            for more, most in ((0, 0), (1, 0), (0, 1)):
                yield setting.cert(), setting.job([(1250, tension + more, shear + most)]), None


def check_cases():
    """Every set of checks that can fail together, with and without a utilisation past 10,000: the first is named."""
    seen = {}
    for edition in EDITIONS:
        draw = Draw(3000 + edition)
        for _ in range(2500):
            setting = check_setting(draw, edition)
            where = setting.site_numbers
            bolts = drawn_bolts(draw, where["n"], where["s"], draw.between(1, 3), 12_000)
            if not bolts:
                continue
            verdict = setting.verdict(bolts)
            held = (verdict.bolts_squared(), verdict.lips(), verdict.anchors(), verdict.concrete())
            kind = (edition, held, verdict.largest <= 10_000)
            if seen.get(kind, 0) < 4:
                seen[kind] = seen.get(kind, 0) + 1
                yield setting.cert(), setting.job(bolts), None


def check_setting(draw, edition):
    """A channel with one to four checks' lines near their limits."""
    numbers = dict(STRONG, embedment_depth=2000, cone_factor_cracked=110, edge_factor_cracked=110)
    checks = [k for k in range(1, 5) if draw.chance(50)]
    if 1 in checks:
        numbers.update(value_bolt=draw.between(4000, 14_000), value_bolt_shear=draw.between(4000, 14_000))
    if 2 in checks:
        numbers.update(value_lip=draw.between(6000, 24_000), value_lip_shear=draw.between(6000, 24_000))
        numbers["value_flexure"] = draw.between(200, 2000)
    if 3 in checks:
        numbers.update(value_anchor=draw.between(4000, 20_000), value_connection=draw.between(4000, 20_000))
        numbers.update(value_anchor_shear=draw.between(4000, 20_000), value_connection_shear=draw.between(4000, 20_000))
    where = dict(c1=4000, left=8000, right=8000, thickness=12_000)
    if 4 in checks:
        numbers.update(embedment_depth=draw.between(650, 1000), value_pullout=draw.between(5000, 30_000))
        numbers.update(cone_factor_cracked=draw.between(60, 90), edge_factor_cracked=draw.between(20, 60))
        where.update(c1=draw.between(700, 2000), left=draw.between(500, 3000))
    return Setting(numbers, edition, n=draw.between(2, 4), s=draw.between(800, 2500), **where)


class Accepted:
    """The whole verdict, under a load of one direction."""

    def __init__(self, tension):
        self.tension = tension

    def holds(self, verdict):
        return verdict.accepted


def check_edge_cases():
    """The largest load that is accepted beside a bolt of the other direction, and one newton more: the check that binds fails."""
    for edition in EDITIONS:
        draw = Draw(3500 + edition)
        for _ in range(24):
            setting = check_setting(draw, edition)
            n, s = setting.site_numbers["n"], setting.site_numbers["s"]
            position = drawn_position(draw, n, s)
            tension = draw.chance(50)
            load = draw.between(1000, 8000)
            far = position + 300 if position + 300 <= (n - 1) * s else position - 300
            other = [(far, 0, load) if tension else (far, load, 0)]
            if not setting.verdict(other).accepted:
                continue
            below, above = tuned(setting, position, other, Accepted(tension))
            if below[0][1] + below[0][2] and above[0][1] + above[0][2] <= 200_000:
                yield setting.cert(), setting.job(below) + lift(position) + place(*above[0]) + RATE, None


def tie_cases():
    """Equal utilisations: the lowest line, then the lowest place."""
    even = dict(STRONG, value_anchor=9000, value_connection=9000, value_anchor_shear=9000, value_connection_shear=9000)
    for n, bolts in ((2, [(0, 3000, 0), (2500, 3000, 0)]), (3, [(2500, 4000, 4000)]), (3, [(0, 0, 500), (5000, 0, 500)])):
        setting = Setting(even, **dict(STRONG_SITE, n=n))
        yield setting.cert(), setting.job(bolts), None
    for equal in combinations((3, 4, 8, 9), 2):
        for load in (2500, 12_000):
            numbers = dict(STRONG, **{VALUES[line][0]: 10_000 for line in equal})
            setting = Setting(numbers, **dict(STRONG_SITE, n=3))
            bolts = [(0, load, load), (2500, load, load), (5000, load, load)]
            yield setting.cert(), setting.job(bolts), None
            yield setting.cert(), setting.job(bolts[1:] + [(400, load - 1, load - 1)]), None
    weak = {VALUES[line][0]: 100_000 for line in (1, 2, 3, 4, 8, 9)}
    for rest in ({}, {"value_anchor": 99_999}, {"value_connection": 99_999}, {"value_bolt": 99_999}, {"value_lip_shear": 99_999}):
        setting = Setting(dict(STRONG, **(weak | rest)), **STRONG_SITE)
        yield setting.cert(), setting.job([(0, 50_000, 50_000)]), None


def capped_cases():
    """Utilisations at their cap of 999,999: the lowest line and place again, all checks failed; and just below the cap."""
    least = {name: field.least for name, field in FIELDS.items() if name.startswith("value_")}
    most = {name: 300 for name in FIELDS if name.startswith("factor_")}
    weak = dict(STRONG, **least, **most)
    for edition in EDITIONS:
        for n, bolts in ((2, [(0, 200_000, 0)]), (2, [(1000, 0, 200_000)]), (12, [(k * 400, 200_000, 200_000) for k in range(16)])):
            setting = Setting(weak, edition, n=n, s=1000)
            yield setting.cert(), setting.job(bolts), None
    for line in (3, 4, 8, 9):
        setting = Setting(dict(STRONG, **{VALUES[line][0]: 1000, VALUES[line][1]: 300}), **STRONG_SITE)
        for load in (33_332, 33_333, 33_334, 33_335):
            bolt = (1250, load, 0) if line < 8 else (1250, 0, load)
            yield setting.cert(), setting.job([bolt]), None


def lip_cases():
    """Lips: the nearest other bolt at sl − 1, sl and sl + 1, on either side, loaded in this direction or not; one bolt alone."""
    for line in (3, 9):
        tension = line == 3
        for sl in (200, 300, 301, 800, 3000):
            spacing = "lip_spacing_tension" if tension else "lip_spacing_shear"
            numbers = dict(STRONG, **{VALUES[line][0]: 7000, spacing: sl})
            setting = Setting(numbers, **dict(STRONG_SITE, n=5))
            load = (4000, 0) if tension else (0, 4000)
            idle = (0, 1) if tension else (1, 0)
            for gap in sorted({max(300, gap) for gap in (sl - 1, sl, sl + 1, sl // 2)}):
                job = setting.line() + place(4000, *load) + RATE + place(4000 + gap, *idle) + RATE
                job += place(4000 - gap - 1, *load) + RATE + lift(4000 + gap) + RATE
                yield setting.cert(), job, None


def flexure_cases():
    """Bending: bolts of one span, of two, over an anchor, in the middle, at the ends; drawn loads."""
    draw = Draw(SEED + 3)
    for _ in range(40):
        s = draw.near_ends(500, 2500)
        n = draw.between(2, 6)
        numbers = dict(STRONG, value_flexure=draw.between(100, 800), factor_flexure=draw.between(100, 300))
        setting = Setting(numbers, draw.between(1, 2), **dict(STRONG_SITE, n=n, s=s))
        bolts = drawn_bolts(draw, n, s, draw.between(2, 8), 4000)
        over = [(k * s, 5000, 0) for k in range(n) if all(abs(k * s - bolt[0]) >= 300 for bolt in bolts)]
        yield setting.cert(), setting.line() + b"".join(place(*bolt) + RATE for bolt in (bolts + over)[:12]), None


def edge_of_reach_cases():
    """An anchor whose distance lies at L or up to 4 µm beyond: it has a share, and adds nothing to the sum."""
    draw = Draw(SEED + 4)
    found = 0
    while found < 24:
        s, inertia = draw.between(500, 1200), draw.between(4000, 200_000)
        length = rules.influence_length(inertia, s)
        if length % 100 not in (0, 96, 97, 98, 99):
            continue
        found += 1
        line = draw.pick((1, 7, 10, 12, 13))
        setting = weak_setting(draw, draw.between(1, 2), line)
        setting.numbers["moment_of_inertia"] = inertia
        setting.site_numbers.update(n=12, s=s, left=250, right=30_000)
        far = -(-length // 100)  # tenths
        job = setting.line()
        for position in (far, far - 1, far + 1, 2 * s + far):
            job += place(position, 200_000, 200_000) + RATE + lift(position)
        yield setting.cert(), job + place(0, 20_000, 20_000) + place(far, 150_000, 150_000) + RATE, None


def dense_cases():
    """Dense reinforcement below, at and above an embedment of 1,000, with and without."""
    for h in (400, 700, 998, 999, 1000, 1001, 1500):
        for dense in (0, 1):
            for load in ((9000, 0), (0, 9000)):
                numbers = dict(STRONG, embedment_depth=h, channel_width=150, channel_height=100, pryout_factor=10)
                setting = Setting(numbers, 1 + h % 2, n=3, s=1200, dense=dense, c1=4000, left=6000, right=6000, thickness=2000)
                yield setting.cert(), setting.job([(700, *load)]), None


def edge_distance_cases():
    """c1, corners and thickness at, one below and one above their characteristic distances, and as small as may be."""
    for h in (400, 790, 1000, 1800, 1801, 2500):
        ccr = rules.cone_edge(h)
        numbers = dict(STRONG, embedment_depth=h, channel_width=150, channel_height=100, cone_factor_cracked=40, pryout_factor=11)
        for near in (250, ccr // 100 - 1, ccr // 100, ccr // 100 + 1):
            for changes in ({"c1": near}, {"left": near}, {"right": near}, {"c1": near, "left": near, "right": near}):
                where = dict(n=3, s=800, c1=4900, left=9000, right=9000, thickness=20_000) | changes
                setting = Setting(numbers, 1 + near % 2, **where)
                bolts = [(0, 9000, 0), (1600, 9001, 0)] if near % 3 else [(0, 0, 9000), (1600, 0, 9001)]
                yield setting.cert(), setting.job(bolts), None


def concrete_edge_cases():
    """The edge alone, in both editions: each p, corner and thickness around 2·c1 + bch and 2·c1 + 2·hch."""
    for edition in EDITIONS:
        for c1 in (250, 300, 799, 1250, 2501, 5000):
            numbers = dict(STRONG, embedment_depth=2500, edge_factor_cracked=10 + c1 // 100, cone_factor_cracked=130)
            corner, depth = 2 * c1 + 400, 2 * c1 + 500
            base = dict(n=4, s=900, c1=c1, left=corner, right=corner, thickness=max(2500, depth))
            for changes in (
                {"left": corner - 1},
                {"left": corner + 1, "p": 120},
                {"right": corner - 1, "p": 140},
                {"left": max(250, corner - 900), "right": max(250, corner - 1800)},
                {"left": 250, "right": 250},
                {"thickness": max(2500, depth - 1)},
                {"thickness": max(2500, depth + 1)},
                {"thickness": 2500, "p": 140},
            ):
                setting = Setting(numbers, edition, **(base | changes))
                bolts = [(position, 0, 7000) for position in (0, 1300, 2700)]
                yield setting.cert(), setting.line() + b"".join(place(*bolt) + RATE for bolt in bolts), None


def spacing_cases():
    """Neighbours exactly at the characteristic spacing, one tenth nearer and one further."""
    for h, k in ((2500, 3), (2000, 3), (2100, 4), (1900, 5)):
        s = 3 * h // k
        for near in (s - 1, s, s + 1):
            numbers = dict(STRONG, embedment_depth=h, cone_factor_cracked=30, pryout_factor=10)
            setting = Setting(numbers, 1, n=k + 2, s=near, c1=5000, left=9000, right=9000, thickness=12_000)
            for load in ((50_000, 0), (0, 50_000)):
                bolts = [(0, *load), (k * near, *load)]
                yield setting.cert(), setting.job(bolts), None
    for c1, bch in ((250, 400), (400, 150), (500, 800), (1000, 400)):
        spread = 4 * c1 + 2 * bch
        for s in sorted({min(max(spread // part + more, 500), 2500) for part in (1, 2, 3) for more in (-1, 0, 1)}):
            numbers = dict(STRONG, embedment_depth=2500, channel_width=bch, edge_factor_cracked=30)
            setting = Setting(numbers, 1 + s % 2, n=5, s=s, c1=c1, left=9000, right=9000, thickness=12_000)
            yield setting.cert(), setting.job([(0, 0, 20_000), (s, 0, 20_000), (3 * s, 0, 20_000)]), None


def full_load_cases():
    """Sixteen bolts on twelve anchors, drawn loads, both editions, each line weak in turn; a verdict after each eighth bolt."""
    for edition in EDITIONS:
        draw = Draw(4000 + edition)
        for line in range(1, 14):
            setting = weak_setting(draw, edition, line)
            setting.site_numbers.update(n=12, s=draw.between(600, 2500))
            bolts = drawn_bolts(draw, 12, setting.site_numbers["s"], 16, draw.pick((300, 3000, 200_000)))
            job = setting.line()
            for k, bolt in enumerate(bolts, 1):
                job += place(*bolt) + (RATE if k % 8 == 0 else b"")
            yield setting.cert(), job, None


def single_bolt_cases():
    """One bolt at each place of a span, over both ends and in the middle, on drawn channels and sites."""
    draw = Draw(SEED + 5)
    for _ in range(120):
        setting = drawn_setting(draw)
        n, s = setting.site_numbers["n"], setting.site_numbers["s"]
        job = setting.line()
        for position in (0, (n - 1) * s, drawn_position(draw, n, s)):
            job += place(position, draw.between(0, 30_000), draw.between(1, 30_000)) + RATE + lift(position)
        yield setting.cert(), job, None


def sequence_cases():
    """Drawn places, lifts and verdicts on drawn channels and sites, refused ones among them."""
    draw = Draw(SEED + 6)
    for _ in range(420):
        setting = drawn_setting(draw)
        yield setting.cert(), setting.line() + drawn_calls(draw, setting, draw.between(4, 14)), None


FAMILIES = [
    head_cases, pair_cases, gap_cases, field_cases, ratio_cases, list_cases, two_fault_cases,
    site_range_cases, thickness_cases, strength_cases, site_form_cases, line_end_cases, long_cases, later_form_cases,
    position_cases, load_cases, full_cases, gap_to_bolt_cases, lift_cases,
    no_bolt_cases, no_place_cases, fine_cases, inertia_cases, governing_cases, threshold_cases, exact_whole_cases,
    check_limit_cases, check_cases, check_edge_cases, tie_cases, capped_cases, lip_cases, flexure_cases,
    edge_of_reach_cases, dense_cases, edge_distance_cases, concrete_edge_cases, spacing_cases,
    full_load_cases, single_bolt_cases, sequence_cases,
]  # fmt: skip


def worked_case():
    """The worked certificate and job."""
    job = site() + place(0, 5000, 0) + RATE + place(299, 1, 0) + lift(0) + place(0, 12_000, 0) + RATE
    yield GOOD, job, "accepted 4501 3 1 0\nrefused 10 4\nrejected 10801 3 1 2\n"


def manual_cases():
    """The worked static examples of two design manuals, as edition 1."""
    for make in examples.EXAMPLES:
        example = make()
        yield example.setting.cert(), examples.job(example), None


def vectors():
    """Each case once: its family, its two byte strings, its answer."""
    seen = set()
    for family in [worked_case, manual_cases] + FAMILIES:
        for cert, job, stated in family():
            if (cert, job) in seen:
                continue
            seen.add((cert, job))
            answer = rating.rate(cert, job)
            assert stated in (None, answer), (family.__name__, job, stated, answer)
            yield family, cert, job, answer


def main():
    cases, answers, lines = [], [], {}
    for number, (family, cert, job, answer) in enumerate(vectors(), 1):
        cases.append(case_line(cert, job))
        answers.append(answer + ".\n")
        first, _ = lines.get(family, (number, number))
        lines[family] = (first, number)
    with open(sys.argv[1], "w") as file:
        file.writelines(cases)
    with open(sys.argv[2], "w") as file:
        file.writelines(answers)
    for family, (first, last) in lines.items():
        print(f"{first:5}-{last:<5} {family.__name__}: {family.__doc__}")
    print(f"{len(cases)} cases, {sum(map(len, cases))} and {sum(map(len, answers))} bytes")


if __name__ == "__main__":
    main()
