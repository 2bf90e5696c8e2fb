"""The load cases that `crates/anchor_forces` is run on: lines of input, made with a fixed seed.

Where the answer to a line is plain from the way that a case is made, the line states it, and a reference that
answers otherwise is an error. No figure is reckoned here.
"""

import random
from typing import NamedTuple

DONE, NOT_UNDERSTOOD = "done", "not understood"
SEED = 2027
RANDOM_CASES = 120
LARGEST = 999_999_999  # of nine digits
GAP = 300  # tenths between bolts
MOST_BOLTS = 16
MOST_LOAD = 200_000

SMALLEST_CHANNEL = (2, 500, 4000)
WORKED_CHANNEL = (2, 1000, 59049)
LARGEST_CHANNEL = (12, 2500, 200_000)
CHANNELS = [(n, s, i) for n in (2, 3, 12) for s in (500, 1000, 2500) for i in (4000, 59049, 200_000)]


class Step(NamedTuple):
    line: bytes
    answer: object = None


class LoadCase(NamedTuple):
    name: str
    steps: list


def call(word, *numbers, answer=None):
    return Step(" ".join([word, *map(str, numbers)]).encode() + b"\n", answer)


def opened(channel):
    return call("open", *channel, answer=DONE)


def placed(position, tension, shear):
    return call("place", position, tension, shear, answer=DONE)


def lifted(position):
    return call("lift", position, answer=DONE)


FORCES = call("forces", answer=DONE)


def before_any_case():
    """Calls with no open case; they have to stand first, since no call takes an opened case away."""
    calls = [("forces",), ("place", 0, 5000, 0), ("lift", 0)]
    yield LoadCase("no case", [call(*words, answer=NOT_UNDERSTOOD) for words in calls])
    refused = call("open", 1, 1000, 59049, answer=5)
    yield LoadCase("no case after a refusal", [refused, call("forces", answer=NOT_UNDERSTOOD)])


def worked():
    yield LoadCase("worked", [opened(WORKED_CHANNEL), placed(0, 5000, 0), FORCES])


def openings():
    """Each number of an opening at both sides of its limits; a refused one leaves the case before it."""
    limits = [(0, (2, 12)), (1, (500, 2500)), (2, (4000, 200_000))]
    for middle in [(5, 1200, 59049), SMALLEST_CHANNEL, LARGEST_CHANNEL]:
        for place, (least, most) in limits:
            for number in (0, least - 1, least, least + 1, most - 1, most, most + 1, LARGEST):
                channel = middle[:place] + (number,) + middle[place + 1 :]
                if least <= number <= most:
                    yield LoadCase("opening", [opened(channel), placed(100, 1234, 567), FORCES])
                else:
                    refused = call("open", *channel, answer=5)
                    yield LoadCase("refused opening", [opened(middle), placed(0, 1000, 1), refused, FORCES])
    yield LoadCase("all out of range", [call("open", 0, 0, 0, answer=5), FORCES])


def positions():
    for channel in CHANNELS:
        last = (channel[0] - 1) * channel[1]
        refused = [call("place", p, 100, 100, answer=7) for p in (last + 1, last + GAP, LARGEST)]
        lawful = [placed(last, 100, 100), FORCES]
        worse = [call("place", last + 1, 0, 0, answer=7)]
        yield LoadCase("past the last anchor", [opened(channel), *refused, FORCES, *lawful, *worse])


def loads():
    lawful = [(1, 0), (0, 1), (1, 1), (MOST_LOAD, 0), (0, MOST_LOAD), (MOST_LOAD, MOST_LOAD), (MOST_LOAD - 1, 1)]
    over = MOST_LOAD + 1
    refused = [(0, 0), (over, 0), (0, over), (over, over), (over, 1), (1, over), (LARGEST, LARGEST)]
    for channel in [SMALLEST_CHANNEL, WORKED_CHANNEL, LARGEST_CHANNEL]:
        for tension, shear in lawful:
            yield LoadCase("loads", [opened(channel), placed(250, tension, shear), FORCES])
        for tension, shear in refused:
            step = call("place", 250, tension, shear, answer=8)
            near = [placed(250, 10, 10), step]
            yield LoadCase("refused loads", [opened(channel), step, FORCES, *near, FORCES])


def gaps():
    for channel in [(2, 1500, 4000), (3, 1000, 59049), (12, 2500, 200_000)]:
        for gap in (0, 1, 150, 299, 300, 301):
            for position in (700 - gap, 700 + gap):
                steps = [opened(channel), placed(700, 900, 90)]
                steps += [placed(position, 800, 80) if gap >= GAP else call("place", position, 800, 80, answer=10)]
                yield LoadCase("gap", steps + [FORCES])
        between = [opened(channel), placed(300, 5, 0), placed(900, 0, 7), call("place", 601, 1, 1, answer=10)]
        between += [call("place", 599, 1, 1, answer=10), placed(600, 1, 1), FORCES]
        yield LoadCase("between two", between)


def full_steps(channel, load):
    last = (channel[0] - 1) * channel[1]
    apart = last // (MOST_BOLTS - 1)
    return [opened(channel)] + [placed(k * apart, *load(k)) for k in range(MOST_BOLTS)]


def full():
    """Sixteen bolts, and a seventeenth that the questions are asked of in their order."""
    kinds = [lambda k: (MOST_LOAD, MOST_LOAD), lambda k: (1, 1), lambda k: (1000 * k + 1, 7 * (16 - k))]
    for channel in [c for c in CHANNELS if c[0] == 12]:
        last = 11 * channel[1]
        for load in kinds:
            steps = full_steps(channel, load) + [FORCES]
            steps += [call("place", last + 1, 0, 0, answer=7), call("place", last, 0, 0, answer=8)]
            steps += [call("place", 150, 1, 1, answer=9), call("place", 0, 1, 1, answer=9), FORCES]
            steps += [lifted(0), call("place", 10, MOST_LOAD + 1, 0, answer=8), placed(0, 3, 2), FORCES]
            yield LoadCase("full", steps)
    tight = [opened((12, 500, 59049))] + [placed(k * GAP, 10 * k + 1, 0) for k in reversed(range(MOST_BOLTS))]
    yield LoadCase("full and tight", tight + [call("place", 16 * GAP, 1, 1, answer=9), FORCES])


def lifts():
    for channel in CHANNELS:
        steps = [opened(channel), call("lift", 0, answer=11), placed(200, 1500, 20), call("lift", 199, answer=11)]
        steps += [call("lift", 201, answer=11), call("lift", 0, answer=11), call("lift", LARGEST, answer=11), FORCES]
        steps += [placed(500, 10, 2500), FORCES, lifted(200), call("lift", 200, answer=11), FORCES]
        steps += [call("place", 201, 1, 1, answer=10), placed(200, 3, 4), FORCES, lifted(500), lifted(200), FORCES]
        yield LoadCase("lifts", steps)


def anchors():
    """A bolt exactly over each anchor, just beside it and midway."""
    for channel in CHANNELS:
        count, spacing, _ = channel
        for k in range(count):
            over = k * spacing
            spots = {over, over + 1, over - 1, over + spacing // 2, over + spacing // 3}
            steps = [opened(channel)]
            for spot in sorted(s for s in spots if 0 <= s <= (count - 1) * spacing):
                steps += [placed(spot, 9999, 101), FORCES, lifted(spot)]
            if count < 12 or k in (0, 1, 5, 11):
                yield LoadCase("over and beside an anchor", steps)


def edges(length, rng):
    """A bolt whose distance from the first anchor is at, just within or just past the influence length."""
    wanted = {residue: 3 for residue in (0, 1, 2, 50, 93, 94, 95, 96, 97, 98, 99)}
    while any(wanted.values()):
        spacing, inertia = rng.randint(500, 2500), rng.randint(4000, 200_000)
        reckoned = length(inertia, spacing)
        if not wanted.get(reckoned % 100):
            continue
        wanted[reckoned % 100] -= 1
        near = reckoned // 100
        steps = [opened((12, spacing, inertia))]
        for position in (near - 1, near, near + 1, near + 2):
            steps += [placed(position, MOST_LOAD, 3), FORCES, lifted(position)]
        yield LoadCase("at the influence length", steps)


def anew():
    """A case opened anew has no bolts and its own numbers."""
    for channel in [SMALLEST_CHANNEL, (4, 777, 12_345), LARGEST_CHANNEL]:
        steps = [opened(channel), placed(0, 50, 60), FORCES, opened(channel), FORCES, placed(0, 60, 50), FORCES]
        steps += [opened(WORKED_CHANNEL), placed(1000, 0, 5000), FORCES, FORCES]
        yield LoadCase("opened anew", steps)


def strange_lines():
    """Lines that are not understood. They leave the case as it was."""
    open_line, place_line, lift_line = b"open 2 1000 59049", b"place 400 100 10", b"lift 0"
    for line in (open_line, place_line, lift_line, b"forces"):
        first, *rest = line.split(b" ")
        yield from (line + end for end in (b" ", b"\t", b"\r", b" 1", b",", b";", b"\0", b"  1", "\u00a0".encode()))
        yield from (b" " + line, b"\t" + line, line.upper(), line.capitalize(), first[:-1], first + b"s", b"x " + line)
        if rest:
            numbers = b" ".join(rest)
            yield from (first, b" ".join([first, *rest[:-1]]), line + b" " + rest[0], first + b"  " + numbers)
            yield from (first + b"\t" + numbers, first + numbers, first + b" +" + numbers, first + b" -" + numbers)
            yield from (line + b"x", line + b".0", line[:-1] + b"-", first + b" 0x" + numbers)
            yield from (first + b" " + b"0" * 10, b" ".join([first, b"1000000000", *rest[1:]]))
            yield from (b" ".join([first, b"0000000000", *rest[1:]]), b" ".join([first, b"4294967296", *rest[1:]]))
            yield from (b" ".join([first, *rest[:-1], b""]), b" ".join([first, *rest[:-1], b"", rest[-1]]))
    yield from (b"", b" ", b"\t", b"\r", b"\0", b"0", b"1 2 3", b"close", b"reopen", b"# forces", b"forces forces")
    yield from ("öffne 2 1000 59049".encode(), b"\xff\xfe", b"lift \xc3", b"lift \xd9\xa1", b"lift " + b"1" * 5000)
    yield from (b"open 2 1000", b"open 2", b"place 1", b"place 1 2", b"place 1 2 3 4 5", b"lift 1 2", b"lift 0 forces")


def not_understood():
    for k, line in enumerate(dict.fromkeys(strange_lines())):
        steps = [Step(line + b"\n", NOT_UNDERSTOOD)]
        if k % 10 == 0:
            steps = [opened((2, 600, 5000)), placed(0, 77, 7)] + steps + [FORCES]
        yield LoadCase("not understood", steps)
    zeros = [Step(b"open 000000003 000000900 000059049\n", DONE), Step(b"place 00 007 0\n", DONE)]
    yield LoadCase("leading zeros", zeros + [FORCES, Step(b"lift 000000000\n", DONE), FORCES])


def random_channel(rng):
    return (rng.randint(2, 12), rng.randint(500, 2500), rng.randint(4000, 200_000))


def random_load(rng):
    most = rng.choice([10, 1000, 30_000, MOST_LOAD, MOST_LOAD + 5000])
    return rng.choice([0, rng.randint(0, most), rng.randint(0, most)])


def random_steps(rng):
    channel = random_channel(rng)
    last = (channel[0] - 1) * channel[1]
    placed_at = [0]
    yield opened(channel)
    for _ in range(rng.choice([1, 3, 8, 20, 40])):
        kind = rng.random()
        if kind < 0.70:
            placed_at.append(rng.randint(0, last + last // 20))
            yield call("place", placed_at[-1], random_load(rng), random_load(rng))
        elif kind < 0.80:
            position = rng.choice(placed_at) + rng.choice([-GAP, 1 - GAP, GAP - 1, GAP])
            yield call("place", max(position, 0), 100, 0)
        elif kind < 0.95:
            yield call("lift", rng.choice(placed_at))
        else:
            yield FORCES
    yield FORCES


def last_line():
    """The last line may lack its line feed."""
    yield LoadCase("no line feed", [opened(WORKED_CHANNEL), FORCES, Step(b"forces", DONE)])


def cases(length):
    """All the cases in their order; `length` tells the influence length of an inertia and a spacing."""
    rng = random.Random(SEED)
    parts = [before_any_case(), worked(), openings(), positions(), loads(), gaps(), full(), lifts(), anchors()]
    parts += [edges(length, rng), anew(), not_understood()]
    table = [case for part in parts for case in part]
    table += [LoadCase("random", list(random_steps(rng))) for _ in range(RANDOM_CASES)]
    return table + list(last_line())
