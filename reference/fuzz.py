"""Holds a program against `rating.py` on drawn and damaged cases.

    python3 reference/fuzz.py [-n CASES] [-s SEED] PROGRAM [ARGUMENT...]
    python3 reference/fuzz.py --answer < cases

PROGRAM reads cases on standard input and prints their answers, both as `build.py` says. It is run once for each batch; the
first differences are printed with the case in full. With `--answer` this script is itself such a program, by `rating.py`.
"""

import argparse
import subprocess
import sys
from multiprocessing import Pool
from typing import NamedTuple

import certificate as certificates
import rating
from build import (
    FIELDS,
    RATE,
    Draw,
    case_line,
    case_parts,
    channel,
    drawn_bolts,
    drawn_calls,
    drawn_setting,
    lift,
    place,
    weak_setting,
)

BATCH = 500  # cases for one run of the program
SHOWN = 5  # differences
PATIENCE = 600  # seconds for one run
WORDS = (b"site", b"place", b"lift", b"rate", b" ", b"\n", b"0", b"999999999", b"1000000000", b"-1", b"\r", b"\t", b"\xff")


# Cases


def drawn_case(draw):
    """A certificate and a job: mostly lawful, often with one or a few damages."""
    kind = draw.below(100)
    if kind < 35:
        setting = drawn_setting(draw)
    else:
        setting = weak_setting(draw, draw.between(1, 2), draw.between(1, 13))
    cert = setting.cert()
    job = setting.line() + (crowd(draw, setting) if kind % 10 == 0 else drawn_calls(draw, setting, draw.between(1, 16)))
    if draw.chance(10):
        cert = spread(draw, cert)
    if draw.below(1000) == 0:
        job += b"\n" * draw.between(1, 70_000) + RATE
    if 40 <= kind < 55:
        cert = damaged(draw, cert, certificate_damage)
    if 50 <= kind < 70:
        job = damaged(draw, job, job_damage)
    return cert, job


def crowd(draw, setting):
    """As many bolts as there is room for, then one more, with verdicts between."""
    n, s = setting.site_numbers["n"], setting.site_numbers["s"]
    job = b""
    bolts = drawn_bolts(draw, n, s, 16, draw.pick((500, 5000, 200_000)))
    for bolt in bolts:
        job += place(*bolt) + (RATE if draw.chance(30) else b"")
    job += place(draw.between(0, (n - 1) * s), 1, 1) + RATE
    return job + lift(draw.pick(bolts)[0]) + place(draw.between(0, (n - 1) * s), 1, 1) + RATE if bolts else job


def spread(draw, cert):
    """The certificate with gaps between its sections."""
    head, body = bytearray(cert[:18]), b""
    for index, (offset, length) in enumerate(certificates.pairs(cert)):
        body += bytes([draw.below(256)]) * draw.pick((0, 1, 7, draw.below(500)))
        head[2 + 4 * index : 4 + 4 * index] = (18 + len(body)).to_bytes(2, "little")
        body += cert[offset : offset + length]
    return bytes(head) + body


def damaged(draw, data, damage):
    for _ in range(draw.pick((1, 1, 1, 2, 4))):
        data = damage(draw, data)
    return data


def certificate_damage(draw, data):
    kind = draw.below(6)
    at = draw.below(len(data) + 1)
    if kind == 0:  # a byte of the head or of anywhere
        at = draw.pick((draw.below(18), at))
        return data[:at] + bytes([draw.pick((0, 1, 2, 3, 4, 18, 24, 60, draw.below(256)))]) + data[at + 1 :]
    if kind == 1:  # two bytes by a small step
        at = min(at, max(len(data) - 2, 0))
        number = int.from_bytes(data[at : at + 2], "little") + draw.between(-2, 2)
        return data[:at] + (number % 65_536).to_bytes(2, "little") + data[at + 2 :]
    if kind == 2:
        return data[:at]
    if kind == 3:
        return data[:at] + bytes(draw.below(256) for _ in range(draw.between(1, 8))) + data[at:]
    if kind == 4:
        return data + bytes(draw.pick((1, 3, 100, max(0, 4096 - len(data)), max(0, 4097 - len(data)))))
    return end_of_field(draw)


def end_of_field(draw):
    """A lawful channel with one number at an end of its range or one off it."""
    setting = drawn_setting(draw)
    name = draw.pick(list(FIELDS))
    field = FIELDS[name]
    number = draw.pick((field.least - 1, field.least, field.most, field.most + 1, 0))
    return channel(dict(setting.numbers, **{name: number}), edition=setting.edition)


def job_damage(draw, data):
    kind = draw.below(6)
    at = draw.below(len(data) + 1)
    to = min(len(data), at + draw.between(1, 6))
    if kind == 0:
        return data[:at] + data[to:]
    if kind == 1:
        return data[:at] + draw.pick(WORDS) + data[at:]
    if kind == 2:
        return data[:at] + bytes([draw.below(256)]) + data[at + 1 :]
    if kind == 3:
        return data[:at]
    lines = data.split(b"\n")
    one, other = draw.below(len(lines)), draw.below(len(lines))
    if kind == 4:
        lines[one], lines[other] = lines[other], lines[one]
    else:
        lines.insert(one, lines[other])
    return b"\n".join(lines)


# Comparison


class Difference(NamedTuple):
    case: str
    wanted: str
    got: str


def answers_of(text):
    """The answers in what a program printed, without their full stops."""
    answers, lines = [], []
    for line in text.splitlines(keepends=True):
        if line == ".\n":
            answers.append("".join(lines))
            lines = []
        else:
            lines.append(line)
    return answers


def compare(work):
    """The differences in one batch."""
    program, seed, count = work
    draw = Draw(seed)
    cases = [drawn_case(draw) for _ in range(count)]
    lines = [case_line(*case) for case in cases]
    run = subprocess.run(
        program, input="".join(lines).encode(), stdout=subprocess.PIPE, stderr=subprocess.PIPE, timeout=PATIENCE
    )
    got = answers_of(run.stdout.decode("utf-8", "backslashreplace"))
    failed = f"(no answer; exit {run.returncode}; {run.stderr[-500:]!r})"
    got += [failed] * (count - len(got))
    wanted = [rating.rate(*case) for case in cases]
    return [Difference(c, w, g) for c, w, g in zip(lines, wanted, got) if w != g]


def fuzz(program, count, seed):
    """Compares all batches; the differences found."""
    sizes = [min(BATCH, count - start) for start in range(0, count, BATCH)]
    work = [(program, seed * 10**6 + number, size) for number, size in enumerate(sizes)]
    found = []
    with Pool() as pool:
        for number, differences in enumerate(pool.imap(compare, work), 1):
            for difference in differences[: max(0, SHOWN - len(found))]:
                show(difference)
            found += differences
            if number % 20 == 0 or number == len(work):
                print(f"{min(number * BATCH, count)} cases, {len(found)} differences", flush=True)
    return found


def show(difference):
    cert, job = case_parts(difference.case.rstrip("\n"))
    print("difference in the case", difference.case, end="")
    print("certificate", list(cert))
    print("job", job)
    print("wanted", repr(difference.wanted))
    print("got   ", repr(difference.got), flush=True)


def answer():
    for line in sys.stdin:
        sys.stdout.write(rating.rate(*case_parts(line.rstrip("\n"))) + ".\n")


def main():
    parser = argparse.ArgumentParser()
    parser.add_argument("-n", "--count", type=int, default=100_000)
    parser.add_argument("-s", "--seed", type=int, default=1)
    parser.add_argument("--answer", action="store_true")
    parser.add_argument("program", nargs=argparse.REMAINDER)
    options = parser.parse_args()
    if options.answer:
        return answer()
    sys.exit(1 if fuzz(options.program, options.count, options.seed) else 0)


if __name__ == "__main__":
    main()
