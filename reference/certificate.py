"""The channel certificate, read and written from docs/FORMAT.md and docs/REFUSALS.md.

It is a second implementation, made from the two documents alone. `damaged.py` has it
answer a table of certificates, and the gate compares those answers with the proved reader's.
"""

from typing import NamedTuple

HEAD = 18  # bytes before the first section
MOST = 4096  # bytes of the longest file
ENTRY = 4  # bytes of a strength class
MOST_ENTRIES = 64


class Field(NamedTuple):
    """A number of section 1 or 2: how wide it is, and which values are lawful."""

    name: str
    width: int
    least: int
    most: int
    or_zero: bool = False

    def allows(self, number):
        return self.least <= number <= self.most or (self.or_zero and number == 0)


class Fault(NamedTuple):
    """A refusal: the number of the question, and where the failing pair or field begins."""

    question: int
    byte: int


class Certificate(NamedTuple):
    """The numbers of a certificate, in file order; a list holds pairs of strength and factor."""

    edition: int
    geometry: list
    resistance: list
    cracked: list
    uncracked: list


GEOMETRY = [
    Field("embedment_depth", 2, 400, 2500),
    Field("channel_width", 2, 150, 800),
    Field("channel_height", 2, 100, 600),
    Field("cone_factor_cracked", 2, 30, 130),
    Field("cone_factor_uncracked", 2, 30, 130),
    Field("edge_factor_cracked", 2, 10, 110),
    Field("edge_factor_uncracked", 2, 10, 110),
    Field("pryout_factor", 2, 10, 20),
    Field("lip_spacing_tension", 2, 200, 3000),
    Field("lip_spacing_shear", 2, 200, 3000),
    Field("moment_of_inertia", 4, 4000, 200000),
]

RESISTANCE = [
    Field("value_anchor", 4, 1000, 500000),
    Field("value_connection", 4, 1000, 500000),
    Field("value_lip", 4, 1000, 500000),
    Field("value_bolt", 4, 1000, 500000),
    Field("value_flexure", 4, 100, 10000),
    Field("value_pullout", 4, 1000, 500000),
    Field("value_bolt_shear", 4, 1000, 500000),
    Field("value_lip_shear", 4, 1000, 500000),
    Field("value_anchor_shear", 4, 1000, 500000, or_zero=True),
    Field("value_connection_shear", 4, 1000, 500000, or_zero=True),
    Field("factor_anchor", 2, 100, 300),
    Field("factor_connection", 2, 100, 300),
    Field("factor_lip", 2, 100, 300),
    Field("factor_bolt", 2, 100, 300),
    Field("factor_flexure", 2, 100, 300),
    Field("factor_bolt_shear", 2, 100, 300),
    Field("factor_lip_shear", 2, 100, 300),
    Field("factor_anchor_shear", 2, 100, 300),
    Field("factor_connection_shear", 2, 100, 300),
    Field("factor_concrete", 2, 100, 300),
]

LIST_LENGTHS = range(ENTRY, ENTRY * MOST_ENTRIES + 1, ENTRY)
LENGTHS = [[24], [60], LIST_LENGTHS, LIST_LENGTHS]


def number(data, at, width):
    """The unsigned number of `width` bytes at `at`, lowest byte first."""
    return int.from_bytes(data[at : at + width], "little")


def read(data):
    """The `Certificate` in these bytes, or the `Fault` of the first question answered no."""
    fault = ask_head(data) or ask_pairs(data)
    if fault:
        return fault
    (first, _), (second, _), cracked, uncracked = pairs(data)
    geometry = numbers(data, first, GEOMETRY)
    resistance = numbers(data, second, RESISTANCE)
    fault = (
        ask_ranges(first, GEOMETRY, geometry)
        or ask_ranges(second, RESISTANCE, resistance)
        or ask_ratios(first, geometry)
        or ask_strengths(cracked[0], entries(data, *cracked))
        or ask_strengths(uncracked[0], entries(data, *uncracked))
    )
    if fault:
        return fault
    return Certificate(data[0], geometry, resistance, entries(data, *cracked), entries(data, *uncracked))


def write(certificate):
    """The bytes of these numbers, lawful or not, with no byte between the sections or after them."""
    sections = [
        packed(GEOMETRY, certificate.geometry),
        packed(RESISTANCE, certificate.resistance),
        packed_entries(certificate.cracked),
        packed_entries(certificate.uncracked),
    ]
    head = bytes([certificate.edition, len(sections)])
    at = HEAD
    for section in sections:
        head += at.to_bytes(2, "little") + len(section).to_bytes(2, "little")
        at += len(section)
    return head + b"".join(sections)


def packed(fields, values):
    """The bytes of a section of fields."""
    return b"".join(value.to_bytes(field.width, "little") for field, value in zip(fields, values, strict=True))


def packed_entries(pairs_of_list):
    """The bytes of a list of strength classes."""
    return b"".join(part.to_bytes(2, "little") for entry in pairs_of_list for part in entry)


def pairs(data):
    """The four sections' offsets and lengths, as the head gives them."""
    return [(number(data, at, 2), number(data, at + 2, 2)) for at in (2, 6, 10, 14)]


def places(start, fields):
    """Each field with the byte where it begins."""
    for field in fields:
        yield start, field
        start += field.width


def numbers(data, start, fields):
    """The values of a section's fields."""
    return [number(data, at, field.width) for at, field in places(start, fields)]


def entries(data, offset, length):
    """The strengths and factors of a list."""
    return [(number(data, at, 2), number(data, at + 2, 2)) for at in range(offset, offset + length, ENTRY)]


def ask_head(data):
    """Question 1: the length of the file, the edition, the number of sections."""
    if not HEAD <= len(data) <= MOST or data[0] not in (1, 2):
        return Fault(1, 0)
    if data[1] != 4:
        return Fault(1, 1)
    return None


def ask_pairs(data):
    """Question 2, pair by pair: where the section begins and ends, and how long it is."""
    end_before = HEAD
    for index, (offset, length) in enumerate(pairs(data)):
        end = offset + length
        if offset < end_before or end > len(data) or length not in LENGTHS[index]:
            return Fault(2, 2 + 4 * index)
        end_before = end
    return None


def ask_ranges(start, fields, values):
    """Question 3, field by field: is the number lawful?"""
    for (at, field), value in zip(places(start, fields), values):
        if not field.allows(value):
            return Fault(3, at)
    return None


def ask_ratios(start, geometry):
    """Question 3, after every range: the height against the embedment depth, then the width."""
    depth, width, height = geometry[:3]
    if 10 * height > 4 * depth:
        return Fault(3, start + 4)
    if 10 * width > 7 * depth:
        return Fault(3, start + 2)
    return None


def ask_strengths(start, classes):
    """Question 4, entry by entry: the strength, its order, the factor."""
    before = None
    for index, (strength, factor) in enumerate(classes):
        at = start + ENTRY * index
        if not 12 <= strength <= 75 or (before is not None and strength <= before):
            return Fault(4, at)
        if not 20 <= factor <= 400:
            return Fault(4, at + 2)
        before = strength
    return None
