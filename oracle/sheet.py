"""The shift sheet of docs/SHEET.md: its bytes for a header and a list of points, and whether bytes are such a sheet.

    sheet.py example            prints the page's examples, a line a record
    sheet.py selftest           prints one line a check and fails on the first that does not hold

Written from that page and document 01 alone. An f64 is its bits everywhere.
"""

import struct
import sys
from functools import lru_cache
from pathlib import Path
from typing import NamedTuple, Optional

from bits import CANONICAL_NAN, GREATEST, INFINITY, SIGN, has_index, index, is_finite, is_nan, to_bits

RECORD = 32
POINTS_MOST, COUNTS_MOST, BOUNDS_MOST, ATTRIBUTES_MOST = 64, 160, 159, 8
RECORDS_MOST = 1 + POINTS_MOST * 114
SCALES = range(-10, 11)
HEAD = 21  # words


class Header(NamedTuple):
    start: int
    time: int
    delta: bool


class Row(NamedTuple):
    offset: int  # the index of its first count; 0 where it is empty
    counts: tuple


class Exponential(NamedTuple):
    set: tuple  # of pairs, key and value
    count: int
    zeros: int
    scale: int
    positive: Row
    negative: Row
    switch: bool
    extremes: Optional[tuple]  # minimum and maximum; None: not shown
    sum: int


class Explicit(NamedTuple):
    set: tuple
    count: int
    bounds: tuple
    buckets: tuple
    switch: bool
    extremes: Optional[tuple]
    sum: int


# Writing. Nothing is judged here: a list that the page does not take gets bytes too, as long as its words are u64.


def encode(header, points):
    payload = [header.start, header.time, 0]
    for point in points:
        payload += point_words(point)
    return chained(header_info(header, len(points)), payload)


def header_info(header, many, form=0):
    """Bytes 4 to 7 of record 0, as a number."""
    return form | header.delta << 8 | many << 16


def chained(info, payload):
    """Words in linked records, three each."""
    n = len(payload) // 3
    words = [0] * (4 * n)
    words[0::4] = [*range(1, n), 0]
    words[0] |= info << 32
    for place in range(3):
        words[place + 1 :: 4] = payload[place::3]
    return struct.pack(f"<{4 * n}Q", *words)


def point_words(point):
    parts = [set_words(point.set) + head_words(point), bounds_of(point), counts_of(point)]
    return [word for part in parts for word in (*part, *[0] * (-len(part) % 3))]


def set_words(attributes):
    words = [key << 32 | value for key, value in attributes]
    return words + [0] * (ATTRIBUTES_MOST - len(words)) + [len(words)]


def head_words(point, start=0):
    """The twelve words of a point; `start` is where an explicit one's bounds begin, in a list's store of bounds."""
    held = [point.switch + 2 * (point.extremes is not None), *(point.extremes or (0, 0)), point.sum]
    if isinstance(point, Explicit):
        return [1, point.count, 0, 0, start, len(point.bounds), 0, 0, *held]
    rows = [*row_words(point.positive, point.scale), *row_words(point.negative, point.scale)]
    return [0, point.count, point.zeros, point.scale + 10, *rows, *held]


def row_words(row, scale):
    """Start and length. An empty row's start is its offset, 0 but where it is meant to be wrong; so is a start below 0."""
    return (row.offset + bias(scale) if row.counts else row.offset) % 2**64, len(row.counts)


def bias(scale):
    return 2 ** (scale + 11)


def bounds_of(point):
    return point.bounds if isinstance(point, Explicit) else ()


def counts_of(point):
    return point.buckets if isinstance(point, Explicit) else point.positive.counts + point.negative.counts


# Accepting: each sentence of the page is asked of the bytes themselves, and only at the end they are compared with what is written.


class NoSheet(Exception):
    """Bytes that are no sheet."""


def decode(data):
    """(header, points), or None where the bytes are no sheet."""
    try:
        header, points = read(data)
    except NoSheet:
        return None
    assert encode(header, points) == data, data.hex()
    return header, points


def require(holds):
    if not holds:
        raise NoSheet


def read(data):
    header, many, payload = framed(data)
    points, at = [], 3
    for _ in range(many):
        point, at = point_at(payload, at)
        require(not points or points[-1].set < point.set)
        points.append(point)
    require(at == len(payload))
    return header, points


def framed(data):
    """The header, how many points it says, and the payload of all records."""
    require(len(data) % RECORD == 0 and 0 < len(data) <= RECORD * RECORDS_MOST)
    next_record, gap, form, temporality, many, start, time, last = struct.unpack_from("<HHBBH3Q", data)
    require(gap == form == last == 0 and temporality <= 1 and many <= POINTS_MOST)
    n = len(data) // RECORD
    words = list(struct.unpack(f"<{4 * n}Q", data))
    require(next_record == (n > 1) and words[4::4] == links_behind(n))
    del words[0::4]
    return Header(start, time, temporality == 1), many, words


@lru_cache(maxsize=256)
def links_behind(n):
    """The links of records 1 to n - 1."""
    return [*range(2, n), 0][: n - 1]


def point_at(payload, at):
    """The point whose head begins at a word, and where the next one's does."""
    head = payload[at : at + HEAD]
    require(len(head) == HEAD and head[9] <= 1)
    attributes = set_in(head)
    point_in = explicit_in if head[9] else exponential_in
    return point_in(attributes, head, payload, at + HEAD)


def set_in(head):
    size = head[8]
    require(size <= ATTRIBUTES_MOST and not any(head[size:8]))
    attributes = tuple((word >> 32, word % 2**32) for word in head[:size])
    require(all(first[0] < second[0] for first, second in zip(attributes, attributes[1:])))
    return attributes


def part_at(payload, at, length):
    """So many words, zeros behind them up to a whole record, and where the next part begins."""
    end = at + length + -length % 3
    require(end <= len(payload) and not any(payload[at + length : end]))
    return tuple(payload[at : at + length]), end


def exponential_in(attributes, head, payload, at):
    _, count, zeros, level, start, length, second, second_length, *held = head[9:]
    require(level - 10 in SCALES and length <= COUNTS_MOST and second_length <= COUNTS_MOST)
    counts, end = part_at(payload, at, length + second_length)
    positive = row_in(start, counts[:length], level - 10)
    negative = row_in(second, counts[length:], level - 10)
    require(count == zeros + sum(counts))
    return Exponential(attributes, count, zeros, level - 10, positive, negative, *held_in(count, *held)), end


def row_in(start, counts, scale):
    if not counts:
        require(start == 0)
        return Row(0, ())
    offset = start - bias(scale)
    lowest, highest = INDICES[scale]
    require(lowest <= offset and offset + len(counts) - 1 <= highest and counts[0] > 0 and counts[-1] > 0)
    return Row(offset, counts)


# "every index lies from that of 2^-1074 to that of the greatest f64 at that scale"
INDICES = {scale: (index(1, scale), index(GREATEST, scale)) for scale in SCALES}


def explicit_in(attributes, head, payload, at):
    _, count, zeros, level, start, length, second, second_length, *held = head[9:]
    require(zeros == level == start == second == second_length == 0 and length <= BOUNDS_MOST)
    bounds, at = part_at(payload, at, length)
    buckets, end = part_at(payload, at, length + 1 if length else 0)
    require(rising(bounds))
    require(not bounds or count == sum(buckets))
    return Explicit(attributes, count, bounds, buckets, *held_in(count, *held)), end


def rising(bounds):
    """Number 3: no NaN, and strictly rising as numbers."""
    numbers = [bits if bits < SIGN else SIGN - bits for bits in bounds]  # in the order of the numbers, both zeros 0
    return not any(map(is_nan, bounds)) and all(first < second for first, second in zip(numbers, numbers[1:]))


def held_in(count, flags, low, high, total):
    """The switch, the extremes, the sum. Request L4: extremes are shown where the switch is on and the count above 0, and there only."""
    require(flags <= 3)
    switch, shown = flags % 2 == 1, flags >= 2
    require(shown == (switch and count > 0))
    require(is_finite(low) and is_finite(high) if shown else low == high == 0)
    require(not is_nan(total) or total == CANONICAL_NAN)
    return switch, (low, high) if shown else None, total


# The page's examples.

ONE, TWO, THREE, FIVE = map(to_bits, (1.0, 2.0, 3.0, 5.0))
RUN = Exponential(((1, 5),), 5, 1, 0, Row(-1, (1, 1, 1)), Row(-1, (1,)), True, (ONE | SIGN, THREE), FIVE)
BOUNDS = tuple(map(to_bits, (0.0, 0.5, 1.0)))
BUCKETS = Explicit((), 4, BOUNDS, (1, 2, 0, 1), True, (ONE | SIGN, TWO), to_bits(1.75))
EXAMPLES = [(Header(100, 200, True), [RUN]), (Header(0, 60, False), [BUCKETS])]


def lines(data):
    """A sheet as the page shows it."""
    for r in range(0, len(data), RECORD):
        words = [data[r + at : r + at + 8].hex(" ").upper() for at in range(0, RECORD, 8)]
        yield f"{r // RECORD:2}  " + "  ".join(words)


# Checks of this file.


def check(what, holds):
    print(("ok   " if holds else "FAIL ") + what)
    if not holds:
        raise SystemExit(1)


def taken(*points, header=Header(7, 2**64 - 1, True)):
    """Whether the list has a sheet, and comes back from it."""
    return decode(encode(header, points)) == (header, list(points))


def changed(data, place, byte):
    return data[:place] + bytes([byte]) + data[place + 1 :]


def others(data, places):
    """With one byte at one of the places changed to any other."""
    return (changed(data, place, byte) for place in places for byte in range(256) if data[place] != byte)


def check_examples():
    page = (Path(__file__).resolve().parent.parent / "docs/SHEET.md").read_text()
    for header, points in EXAMPLES:
        data = encode(header, points)
        check(f"the page has the example of {len(data)} bytes", "".join(f"    {line}\n" for line in lines(data)) in page)
        check("  which is a sheet", decode(data) == (header, points))


def check_points():
    """The examples are the points of their values."""
    from points import explicit_point, exponential_point
    from reference import Config

    def held(point):
        return point.switch, (to_bits(point.min), to_bits(point.max)), to_bits(point.sum)

    settings = ("f", 4, 10, 0.0, 2, "d", True, True)
    run = exponential_point(((1, 5),), [1.0, 2.0, 3.0, 0.0, -1.0], Config("e", *settings))
    made = Exponential(run.set, run.count, run.zeros, run.scale, Row(*run.positive), Row(*run.negative), *held(run))
    check("the first is the point of document 01's run", made == RUN)
    other = explicit_point((), [0.25, 0.5, 2.0, -1.0], Config("x", *settings, BOUNDS))
    check("the second is the point of its values", Explicit(other.set, other.count, other.bounds, other.buckets, *held(other)) == BUCKETS)


def check_indices():
    """The page's figures, and the definition at both ends of every scale."""
    ends = [(low + bias(scale), high + bias(scale)) for scale, (low, high) in INDICES.items()]
    of_page = [(997375 >> (20 - level), 3 * 2**level - 1) for level in range(21)]
    check("the first and the last place of rows at every level are the page's", ends == of_page)
    holds = all(has_index(bits, scale, i) for scale, pair in INDICES.items() for bits, i in zip((1, GREATEST), pair))
    check("the least and the greatest index at every scale are the definition's", holds)


def row_at_end(scale, by, low):
    """RUN with its positive row at the low or the high end of the indices, moved by so much."""
    end = INDICES[scale][0] if low else INDICES[scale][1] - 2
    return RUN._replace(scale=scale, positive=Row(end + by, (1, 1, 1)), negative=Row(-1, (1,)))


def check_exponential():
    check("rows at both ends of every scale", all(taken(row_at_end(s, 0, low)) for s in SCALES for low in (True, False)))
    check("  and none outside", not any(taken(row_at_end(s, -1 if low else 1, low)) for s in SCALES for low in (True, False)))
    full = RUN._replace(count=321, positive=Row(-80, (1,) * 160), negative=Row(800, (1,) * 160))
    check("two rows of 160", taken(full))
    check("  and none of 161", not taken(full._replace(count=322, positive=Row(-80, (1,) * 161))))
    bad = [RUN._replace(count=6), RUN._replace(zeros=2), RUN._replace(scale=11), RUN._replace(count=4, negative=Row(2047, ()))]
    bad += [RUN._replace(positive=Row(-1, counts)) for counts in ((0, 2, 1), (1, 2, 0))]
    bad += [RUN._replace(zeros=2**64 - 4, count=0, extremes=None)]
    check("points that disagree are none", not any(map(taken, bad)))
    check("a count of 2^64 - 1", taken(RUN._replace(count=2**64 - 1, zeros=2**64 - 5)))
    check("zeros within a row", taken(RUN._replace(positive=Row(-1, (1, 0, 2)))))


def check_explicit():
    def with_bounds(*numbers, count=4, buckets=None):
        bounds = tuple(map(to_bits, numbers))
        return BUCKETS._replace(bounds=bounds, count=count, buckets=buckets or (count, *[0] * len(bounds)))

    endless, no_number = float("inf"), float("nan")
    check("infinite bounds, and -0.0", taken(with_bounds(-endless, -0.0, endless)))
    bad = [(-0.0, 0.0), (0.0, -0.0), (2.0, 1.0), (1.0, 1.0), (endless, no_number), (no_number,)]
    check("  but not 0.0 behind it, nor bounds that fall, are equal or a NaN", not any(taken(with_bounds(*numbers)) for numbers in bad))
    check("159 bounds, and not 160", taken(with_bounds(*range(159))) and not taken(with_bounds(*range(160))))
    check("buckets that total another count", not taken(with_bounds(1.0, count=3, buckets=(2, 2))))
    check("  by 2^64 too", not taken(with_bounds(1.0, count=3, buckets=(2**64 - 1, 4))))
    none = BUCKETS._replace(bounds=(), buckets=())
    check("no bounds and no buckets, with any count", taken(none) and taken(none._replace(count=2**64 - 1)))


def check_held():
    for point in (RUN, BUCKETS):
        empty = {"count": 0, "extremes": None}
        empty |= {"zeros": 0, "positive": Row(0, ()), "negative": Row(0, ())} if point is RUN else {"buckets": (0, 0, 0, 0)}
        nothing, off = point._replace(**empty), {"switch": False, "extremes": None}
        check("no extremes at count 0, nor with the switch off", all(map(taken, (nothing, nothing._replace(**off), point._replace(**off)))))
        wrong = [nothing._replace(extremes=(0, 0)), point._replace(extremes=None), point._replace(switch=False)]
        wrong += [point._replace(extremes=(0, bits)) for bits in (INFINITY, CANONICAL_NAN, INFINITY | SIGN)]
        check("extremes against request L4 or not finite", not any(map(taken, wrong)))
        check("any sum", all(taken(point._replace(sum=bits)) for bits in (0, SIGN, INFINITY, INFINITY | SIGN, CANONICAL_NAN, 1)))
        other_nans = (CANONICAL_NAN | 1, CANONICAL_NAN | SIGN, INFINITY | 1)
        check("  but for other NaNs", not any(taken(point._replace(sum=bits)) for bits in other_nans))


def check_sets():
    def named(*sets):
        return [RUN._replace(set=attributes) for attributes in sets]

    good = [(), ((0, 0),), ((0, 0), (1, 0)), ((0, 1),), ((1, 0),), tuple((key, 9) for key in range(1, 9)), ((2**32 - 1, 2**32 - 1),)]
    check("sets that ascend", taken(*named(*good)))
    bad = [good[::-1], [(), ()], [good[1], good[1]], [((2, 0), (1, 0))], [((1, 0), (1, 1))]]
    check("  but not the other way or twice, nor keys that fall or are equal", not any(taken(*named(*sets)) for sets in bad))
    many = named(*(((key, 0),) for key in range(65)))
    check("64 points, and not 65", taken(*many[:64]) and not taken(*many))


def check_bytes():
    data = encode(*EXAMPLES[0])
    check("no points, either temporality", all(taken(header=Header(0, 0, delta)) for delta in (True, False)))
    pieces = [data[:n] for n in range(len(data))] + [data + data[:n] for n in range(1, 65)]
    check("no bytes, bytes cut short, bytes behind", not any(map(decode, pieces)))
    check("other links", not any(map(decode, others(data, (r * RECORD + at for r in range(10) for at in range(4))))))
    accepted = [other for other in others(data, range(4, 8)) if decode(other)]
    check("other forms, temporalities and numbers of points, but for cumulative", accepted == [changed(data, 5, 0)])
    check("a zero threshold", not any(map(decode, others(data, range(24, 32)))))
    behind_set = [RECORD * (1 + word // 3) + 8 * (1 + word % 3) + at for word in range(1, 8) for at in range(8)]
    left_over = range(9 * RECORD + 16, 10 * RECORD)
    check("words behind a set and behind counts that are not zero", not any(map(decode, others(data, [*behind_set, *left_over]))))


def selftest():
    for checks in (check_examples, check_points, check_indices, check_exponential, check_explicit, check_held, check_sets, check_bytes):
        checks()


def example():
    print("\n\n".join("\n".join(lines(encode(*pair))) for pair in EXAMPLES))


def main():
    commands = {("example",): example, ("selftest",): selftest}
    commands.get(tuple(sys.argv[1:]), lambda: sys.exit(__doc__))()


if __name__ == "__main__":
    main()
