#!/usr/bin/env python3
"""Writes crates/sheet/stdin and stdout: gauge input, the sheets that it gives read back, other sheets, damaged ones and lines that can't be
followed; and what is to be printed, by the exact reference of the gauge (oracle/gauge.py) and docs/SHEET.md (oracle/sheet.py).
Run from the repository's root: python3 tools/make_sheet_vectors.py

    make_sheet_vectors.py answer < INPUT        prints what the program is to print for an input
"""

import re
import sys
from pathlib import Path

ROOT = Path(__file__).resolve().parent.parent
sys.path.insert(0, str(ROOT / "oracle"))

import gauge  # noqa: E402
import gauge_inputs  # noqa: E402
from bits import CANONICAL_NAN, INFINITY, SIGN, to_bits, to_float  # noqa: E402
from points import ExplicitPoint, ExponentialPoint  # noqa: E402
from reference import Reference  # noqa: E402
from script import Unreadable, split_lines, unreadable, write_point  # noqa: E402
from selftest import WORKED_RUN  # noqa: E402
from sheet import BUCKETS, EXAMPLES, INDICES, RECORD, RECORDS_MOST, RUN, Explicit, Exponential, Header, Row, decode, encode  # noqa: E402

NUMBER = re.compile("0|[1-9][0-9]*", re.ASCII)
DIGITS = re.compile("[0-9A-F]{64}")


# What the program is to print.


def as_listed(point):
    """A point of the reference, in the sheet's terms."""
    extremes = None if point.min is None else (to_bits(point.min), to_bits(point.max))
    rows = Row(*point.positive), Row(*point.negative)
    return Exponential(point.set, point.count, point.zeros, point.scale, *rows, point.switch, extremes, to_bits(point.sum))


def as_collected(point):
    """A point of a sheet, in the reference's terms."""
    extremes = map(to_float, point.extremes) if point.extremes else (None, None)
    held = (*extremes, to_float(point.sum))
    if isinstance(point, Explicit):
        return ExplicitPoint(point.set, "f", point.switch, point.count, *held, point.buckets, point.bounds)
    return ExponentialPoint(point.set, "f", point.switch, 0.0, point.count, point.zeros, point.scale, *held, point.positive, point.negative)


def sheet_lines(data):
    return [f"s {len(data) // RECORD}", *(data[at : at + RECORD].hex().upper() for at in range(0, len(data), RECORD))]


def list_lines(data):
    """What the gauge prints of the list in a sheet."""
    found = decode(data)
    if found is None:
        return ["! 15"]
    header, points = found
    return [f"c {header.start} {header.time} {len(points)}", *(write_point(as_collected(point)) for point in points)]


def records_in(line):
    """The number of records in a line `s RECORDS`; None where it is none."""
    letter, _, number = line.partition(" ")
    if letter != "s" or not NUMBER.fullmatch(number) or int(number) > RECORDS_MOST:
        return None
    return int(number)


class Program:
    """What each line prints."""

    def __init__(self):
        self.reference, self.left, self.data = Reference(), 0, b""

    def line(self, number, line):
        if self.left:
            return self.record(number, line)
        records = records_in(line)
        if records is None:
            return self.call(number, line)
        self.left, self.data = records, b""
        return [] if records else list_lines(b"")

    def record(self, number, line):
        if not DIGITS.fullmatch(line):
            self.left = 0
            return [unreadable(number)]
        self.left, self.data = self.left - 1, self.data + bytes.fromhex(line)
        return [] if self.left else list_lines(self.data)

    def call(self, number, line):
        try:
            answers, refusal = self.reference.line(number, gauge.as_script(line))
        except Unreadable:
            answers, refusal = [], None
        if refusal != 0:
            return [unreadable(number)]
        if not answers:
            return []
        _, start, time, _ = answers[0].split(" ")
        return sheet_lines(encode(Header(int(start), int(time), True), [as_listed(point) for point in self.reference.collected]))


def answer(text):
    """All that the program prints for an input; bytes are read as Latin-1, so that each is one character."""
    program = Program()
    answers = (program.line(number, line) for number, line in enumerate(split_lines(text), 1))
    return "".join(f"{line}\n" for lines in answers for line in lines)


# The stored input.

ONE = gauge_inputs.ONE
ONE_BITS = to_bits(1.0)
EXAMPLE = encode(*EXAMPLES[0])

# Lines `s` that can't be followed, and those at the ends: the last begins a sheet, which the next line ends.
OPENINGS = ["s", "s ", "s  1", " s 1", "s 1 ", "s 1 1", "ss 1", "S 1", "s1", "s\t1", "s 1\r", "s 01", "s 00", "s -1", "s -0", "s +1", "s A", "s 1:", "s -"]
OPENINGS += ["s 7298", "s 65536", "s 18446744073709551616", "s 18446744073709551617", "s " + "1" * 254, "s 0", "s 0", "s 7297", "s 7297"]

# Lines that are no record; each ends the sheet, whose other lines then are none of the program's.
ZEROS = "0" * 64
NO_RECORDS = [ZEROS[1:], ZEROS + "0", ZEROS[2:], "", " " + ZEROS[1:], ZEROS[1:] + " ", ZEROS + "\r", ZEROS + " ", "0" * 128, "0" * 255, "0" * 256, "0" * 300]
NO_RECORDS += [ZEROS[1:] + mark for mark in "afgG/:@`\x00\xff\xb0"] + ["G" + ZEROS[1:], "0x" + ZEROS[2:], "s 1", "s 0", "c 7", f"r {ONE} 1:1", "e 4 10 2 0"]


def edges():
    """Those lines in a sheet: before its first record, behind one, and where the last should be; a line of the gauge behind it."""
    rows = sheet_lines(EXAMPLE)
    for place, line in enumerate(NO_RECORDS):
        at = (1, 2, len(rows) - 1)[place % 3]
        yield from [*rows[:at], line, f"r {ONE} 9:{place}"]
    yield from [*rows[:5], "", *rows[5:], "c 8"]
    yield from [*rows[:-1], "c 9", rows[-1], *rows]


def wide():
    """Rows of 160 counts of either sign; sets of 0 to 8 attributes; overflow; a collection without points."""
    rows = [f"r {gauge_inputs.bits(sign * 2.0**k)} 1:1" for k in range(160) for sign in (1, -1)]
    sets = ["-", *(",".join(f"{key}:{4294967295 - key}" for key in range(size)) for size in range(1, 9))]
    far = [f"r {value} 7:7" for value in ("0000000000000001", "7FEFFFFFFFFFFFFF", "FFEFFFFFFFFFFFFF")]
    several = [*far, *(f"r {value} {attributes}" for attributes in sets for value in ("8000000000000000", gauge_inputs.bits(-0.125)))]
    over = [f"r {gauge_inputs.bits(float(key))} {key}:1" for key in range(1, 13)]
    times = ["c 18446744073709551615", "c 0", "c 1"]
    return ["e 160 3 9 18446744073709551614", *rows, "c 5", *several, *times, *over, "c 2", "c 3", *several, "e 3 -10 30 7", *several, "c 8"]


def shifts():
    example = (ROOT / "examples/shift.txt").read_text()
    return [*split_lines(WORKED_RUN), *split_lines(example), *split_lines(gauge_inputs.shift_of("sheet", 80))]


def printed(lines):
    """The sheets that the lines print."""
    return [line for line in split_lines(answer("\n".join(lines))) if not line.startswith("?")]


# Sheets that are read.


def good_sheets():
    """The page's examples; no points; every sort of point; 64 points of both kinds; 159 bounds and 160 buckets beside two rows of 160."""
    odd = [*map(named, range(1, len(ODD) + 1), ODD), RUN._replace(set=tuple((2**32 - 9 + key, 2**32 - 1 - key) for key in range(8)))]
    many = [named(key, (RUN, BUCKETS._replace(bounds=(), buckets=()), NOTHING)[key % 3]) for key in range(64)]
    bounds = BUCKETS._replace(count=160, bounds=tuple(to_bits(float(number)) for number in range(159)), buckets=(1,) * 160)
    rows = RUN._replace(count=2**64 - 1, zeros=2**64 - 1 - 320, positive=Row(-80, (1,) * 160), negative=Row(7, (1,) * 160))
    lists = [*EXAMPLES, (Header(0, 0, False), []), (Header(2**64 - 1, 2**64 - 1, True), []), (Header(1, 2, False), odd)]
    return [encode(*one) for one in (*lists, (Header(3, 4, True), many), (Header(4, 3, False), [bounds, named(1, rows)]))]


def named(key, point):
    return point._replace(set=((key, 0),))


NOTHING = Exponential((), 0, 0, 10, Row(0, ()), Row(0, ()), True, None, 0)
LOW, HIGH = (tuple(INDICES[scale][end] for scale in (-10, 10)) for end in (0, 1))
ODD = [NOTHING, NOTHING._replace(switch=False), RUN._replace(switch=False, extremes=None), RUN._replace(positive=Row(-1, (1, 0, 2)))]
ODD += [RUN._replace(sum=bits) for bits in (SIGN, INFINITY, CANONICAL_NAN)]
ODD += [RUN._replace(scale=scale, positive=Row(high - 2, (1, 1, 1)), negative=Row(high, (1,))) for scale, high in zip((-10, 10), HIGH) if high > 1]
ODD += [RUN._replace(scale=scale, positive=Row(low, (3,)), negative=Row(low, (1,))) for scale, low in zip((-10, 10), LOW)]
ODD += [BUCKETS._replace(count=0, buckets=(0, 0, 0, 0), extremes=None), BUCKETS._replace(bounds=(), buckets=(), count=2**64 - 1)]
ODD += [BUCKETS._replace(bounds=(INFINITY | SIGN, SIGN, INFINITY)), BUCKETS._replace(bounds=(ONE_BITS,), buckets=(2**32, 4), count=2**32 + 4)]


# Sheets that are none. PAIR has twenty records: the header, ten of an explicit point, nine of an exponential one.

PAIR = [BUCKETS, RUN]
HEADER = Header(5, 6, True)
FIRST, SECOND = 3, 33  # where the points begin, in words of payload


def with_word(data, place, number):
    """Any word, the links among them."""
    return data[: 8 * place] + number.to_bytes(8, "little") + data[8 * place + 8 :]


def with_cell(data, place, number):
    """A word of payload."""
    return with_word(data, place // 3 * 4 + 1 + place % 3, number)


def with_byte(data, place, byte):
    return data[:place] + bytes([byte]) + data[place + 1 :]


def bad_bytes():
    """Header, links, filling, words that no point has; records missing, twice, exchanged and added."""
    data = encode(HEADER, PAIR)
    yield from (with_byte(data, place, byte) for place, byte in ((0, 0), (0, 2), (1, 1), (2, 1), (3, 1), (4, 1), (5, 2), (6, 1), (6, 3), (6, 65), (7, 1)))
    yield from (with_cell(data, 2, bits) for bits in (1, SIGN, ONE_BITS))
    yield from (with_word(data, 4 * record, link) for record in (1, 10, 19) for link in {0, record, record + 1, record + 2} - {(record + 1) % 20})
    yield from (with_byte(data, RECORD * record + place, 1) for record in (1, 19) for place in (2, 4, 7))
    yield from (with_cell(data, place, 1) for place in (FIRST, FIRST + 7, SECOND + 1, SECOND + 7, FIRST + 28, FIRST + 29, SECOND + 25, SECOND + 26))
    yield from (with_cell(data, SECOND + 8, size) for size in (0, 2, 9, 2**64 - 1))
    yield from (with_cell(data, begin + 9, kind) for begin in (FIRST, SECOND) for kind in (0, 1, 2, 2**32) if kind != (begin == FIRST))
    yield from (with_cell(data, FIRST + place, 1) for place in (11, 12, 13, 15, 16))
    yield from (with_cell(data, begin + 17, flags) for begin in (FIRST, SECOND) for flags in (0, 1, 2, 4, 7))
    rows = [data[at : at + RECORD] for at in range(0, len(data), RECORD)]
    exchanged = rows[:5] + [rows[6], rows[5]] + rows[7:]
    yield from (b"".join(other) for other in (rows[:-1], rows[1:], rows[:1], rows[:10] + rows[11:], rows[:2] + rows[1:], exchanged))
    yield from (data + more for more in (bytes(RECORD), rows[-1], data))
    yield with_word(data, 4 * 19, 20) + bytes(RECORD)


def bad_lists():
    """Sets that do not ascend or have keys that do not; points that disagree with themselves."""
    yield from ([RUN, BUCKETS], [RUN, RUN], [RUN, RUN._replace(set=((1, 4),))], [RUN._replace(set=((1, 5), (2, 1))), RUN])
    yield from ([RUN._replace(set=keys)] for keys in (((2, 1), (1, 1)), ((1, 1), (1, 2)), ((1, 1), (1, 1))))
    yield from ([point._replace(count=point.count + more)] for point in PAIR for more in (-1, 1))
    yield from ([point._replace(extremes=pair)] for point in PAIR for pair in ((0, INFINITY), (CANONICAL_NAN, 0)))
    yield from ([point._replace(sum=bits)] for point in PAIR for bits in (CANONICAL_NAN | 1, CANONICAL_NAN | SIGN))
    yield from ([RUN._replace(zeros=0)], [RUN._replace(scale=11)], [RUN._replace(count=0, zeros=2**64 - 4, extremes=None)])
    for row in (Row(-1, (0, 2, 1)), Row(-1, (2, 1, 0)), Row(INDICES[0][0] - 1, (3,)), Row(INDICES[0][1], (2, 1)), Row(-80, (1,) * 161), Row(2048, ())):
        yield [RUN._replace(positive=row, count=2 + sum(row.counts))]
    for numbers in ((0.0, 0.0, 1.0), (-0.0, 0.0, 1.0), (1.0, 0.5, 2.0), (0.0, 1.0, float("nan"))):
        yield [BUCKETS._replace(bounds=tuple(map(to_bits, numbers)))]
    yield [BUCKETS._replace(count=0, buckets=(1, 2**64 - 1, 0, 0), extremes=None)]
    yield [BUCKETS._replace(count=160, bounds=tuple(to_bits(float(number)) for number in range(160)), buckets=(1,) * 160 + (0,))]


def bad_sheets():
    sheets = [*bad_bytes(), *(encode(HEADER, points) for points in bad_lists())]
    assert not any(map(decode, sheets)) and all(map(decode, good_sheets()))
    return sheets


def text():
    """The whole input; it ends in a sheet, with a record that has no newline."""
    before = [f"r {ONE} -", "c 1", *sheet_lines(EXAMPLE), "c 1"]
    gauged = [*shifts(), *wide()]
    marks = [line for line in (*gauge_inputs.MARKS, *gauge_inputs.EDGES, *gauge_inputs.ANEW) if len(line) < 1000]
    sheets = [line for data in (*good_sheets(), *bad_sheets()) for line in sheet_lines(data)]
    behind = [*OPENINGS, *edges(), *sheet_lines(EXAMPLE), "c 10"]
    return "\n".join([*before, *gauged, *printed(gauged), *marks, *sheets, *behind, *sheet_lines(EXAMPLE)[:-1]])


def main():
    if sys.argv[1:] == ["answer"]:
        sys.stdout.buffer.write(answer(sys.stdin.buffer.read().decode("latin-1")).encode("latin-1"))
        return
    stored = text()
    (ROOT / "crates/sheet/stdin").write_bytes(stored.encode("latin-1"))
    (ROOT / "crates/sheet/stdout").write_bytes(answer(stored).encode("latin-1"))


if __name__ == "__main__":
    main()
