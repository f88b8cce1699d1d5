"""Random lists of points for shift sheets, lists that are wrong in one thing, and damage to the bytes of sheets (docs/SHEET.md)."""

import struct
from itertools import islice
from typing import NamedTuple

from bits import CANONICAL_NAN, GREATEST, INFINITY, SIGN, is_nan, to_bits
from sheet import (
    ATTRIBUTES_MOST,
    BOUNDS_MOST,
    COUNTS_MOST,
    EXAMPLES,
    INDICES,
    POINTS_MOST,
    RECORD,
    SCALES,
    Explicit,
    Exponential,
    Header,
    Row,
    chained,
    encode,
    header_info,
    point_words,
)

MOST = 2**64 - 1
NUMBERS = (0, 1, 2, 2**32 - 1, 2**32, 2**63, MOST - 1, MOST)
ONE = to_bits(1.0)
FINITE = (0, SIGN, 1, SIGN | 1, ONE, ONE | SIGN, to_bits(-0.125), GREATEST, GREATEST | SIGN)
ENDLESS = (INFINITY, INFINITY | SIGN)
OTHER_NANS = (CANONICAL_NAN | 1, CANONICAL_NAN | SIGN, INFINITY | 1, MOST)
KEYS = (0, 1, 2, 3, 4, 5, 6, 7, 2**31, 2**32 - 2, 2**32 - 1)
VALUES = (0, 1, 2, 2**32 - 1)
SMALL = 20 * RECORD  # up to here every byte is changed


class Made(NamedTuple):
    header: Header
    points: list
    data: bytes


def made_of(header, points):
    return Made(header, points, encode(header, points))


# Lists that have a sheet.


def anything(draw):
    return draw.choice((draw.choice(NUMBERS), draw.getrandbits(64), draw.getrandbits(draw.randint(1, 64))))


def some_header(draw):
    return Header(anything(draw), anything(draw), draw.random() < 0.5)


def some_set(draw):
    keys = sorted(draw.sample(KEYS, draw.choice((0, 1, 1, 1, 2, 2, 3, ATTRIBUTES_MOST))))
    return tuple((key, draw.choice((draw.choice(VALUES), draw.getrandbits(32)))) for key in keys)


def some_sets(draw, many):
    """Strictly ascending."""
    sets = set()
    while len(sets) < many:
        sets.add(some_set(draw))
    return sorted(sets)


def some_finite(draw):
    return draw.choice((draw.choice(FINITE), draw.getrandbits(1) << 63 | draw.randint(0, GREATEST)))


def some_sum(draw):
    bits = draw.choice((some_finite(draw), draw.choice((CANONICAL_NAN, *ENDLESS)), draw.getrandbits(64)))
    return CANONICAL_NAN if is_nan(bits) else bits


def held_for(draw, count):
    """Switch, extremes and sum of a point of so many values."""
    switch = draw.random() < 0.75
    return switch, (some_finite(draw), some_finite(draw)) if switch and count else None, some_sum(draw)


def some_row(draw, scale):
    lowest, highest = INDICES[scale]
    length = draw.choice((0, 1, 1, 2, 3, draw.randint(4, 8), COUNTS_MOST if draw.random() < 0.1 else 1))
    length = min(length, highest - lowest + 1)
    if not length:
        return Row(0, ())
    last = highest - length + 1
    offset = draw.choice((lowest, last, draw.randint(lowest, last), max(lowest, min(last, draw.randint(-3, 2)))))
    inner = [draw.choice((0, 1, draw.getrandbits(draw.randint(1, 40)))) for _ in range(length)]
    inner[0], inner[-1] = inner[0] or 1, inner[-1] or 1
    return Row(offset, tuple(inner))


def filled_up(draw, counts, room):
    """With so much more in one of them."""
    place = draw.randrange(len(counts))
    return counts[:place] + ((counts[place] + room) % 2**64,) + counts[place + 1 :]


def some_exponential(draw, attributes):
    scale, zeros = draw.choice(SCALES), draw.choice((0, 0, 1, draw.getrandbits(30)))
    rows = [some_row(draw, scale), some_row(draw, scale)] if draw.random() < 0.9 else [Row(0, ())] * 2
    room = MOST - zeros - sum(sum(row.counts) for row in rows)
    if draw.random() < 0.1:  # the greatest count
        side = draw.randrange(3)
        if side < 2 and rows[side].counts:
            rows[side] = Row(rows[side].offset, filled_up(draw, rows[side].counts, room))
        else:
            zeros += room
    count = zeros + sum(sum(row.counts) for row in rows)
    return Exponential(attributes, count, zeros, scale, *rows, *held_for(draw, count))


def some_bounds(draw):
    """Strictly rising; of the two zeros one."""
    many = draw.choice((0, 1, 1, 2, 3, draw.randint(4, 8), BOUNDS_MOST if draw.random() < 0.1 else 2))
    bounds = {}
    while len(bounds) < many:
        bits = draw.choice((some_finite(draw), some_finite(draw), draw.choice(ENDLESS)))
        bounds[bits if bits < SIGN else SIGN - bits] = bits
    return tuple(bits for _, bits in sorted(bounds.items()))


def some_explicit(draw, attributes):
    bounds = some_bounds(draw)
    if not bounds:
        count = draw.choice((0, anything(draw)))
        return Explicit(attributes, count, (), (), *held_for(draw, count))
    empty = draw.random() < 0.1
    buckets = tuple(0 if empty else draw.choice((0, 1, draw.getrandbits(draw.randint(1, 40)))) for _ in range(len(bounds) + 1))
    if draw.random() < 0.1:
        buckets = filled_up(draw, buckets, MOST - sum(buckets))
    return Explicit(attributes, sum(buckets), bounds, buckets, *held_for(draw, sum(buckets)))


def some_list(draw):
    many = draw.choice((1, 1, 1, 2, 2, 3, 3, draw.randint(0, 6), POINTS_MOST if draw.random() < 0.05 else 1))
    points = [draw.choice((some_exponential, some_explicit))(draw, attributes) for attributes in some_sets(draw, many)]
    return made_of(some_header(draw), points)


def full_list(kind):
    """The largest sheet: 64 points of 114 records."""
    row, bounds = (1,) * COUNTS_MOST, tuple(map(to_bits, map(float, range(BOUNDS_MOST))))
    held, sets = (True, (0, ONE), 0), [((key, 0),) for key in range(POINTS_MOST)]
    if kind is Explicit:
        return made_of(Header(0, MOST, False), [Explicit(s, COUNTS_MOST, bounds, row, *held) for s in sets])
    return made_of(Header(MOST, 0, True), [Exponential(s, 2 * COUNTS_MOST, 0, 0, Row(-80, row), Row(7, row), *held) for s in sets])


def ends_of(scale):
    """A point with a row at either end of the indices."""
    lowest, highest = INDICES[scale]
    return Exponential((), 3, 0, scale, Row(lowest, (1,)), Row(highest - 1, (1, 1)), True, (GREATEST | SIGN, 1), 0)


def with_bounds(*bounds):
    """A point with one value in each bucket."""
    buckets = (1,) * (len(bounds) + 1)
    return Explicit(((2, 7),), len(buckets), bounds, buckets, False, None, CANONICAL_NAN)


def fixed_lists():
    """Those of every run: the page's examples, no points, the largest, both ends of every scale, bounds that leave words over."""
    lists = [*EXAMPLES, (Header(0, 0, False), []), (Header(MOST, MOST, True), [])]
    lists += [(Header(1, 2, True), [ends_of(scale)]) for scale in SCALES]
    lists += [(Header(2, 1, False), [with_bounds(*bounds)]) for bounds in ((SIGN,), (INFINITY | SIGN, SIGN))]
    return [full_list(Explicit), full_list(Exponential), *(made_of(*pair) for pair in lists)]


# Lists that are wrong in one thing, or would be if it were a little more; each is a list of points whose words are u64.


def wrong_lists(draw, points):
    for at, point in enumerate(points):
        for other in wrong_points(draw, point):
            yield points[:at] + [other] + points[at + 1 :]
    yield from wrong_orders(draw, points)


def wrong_orders(draw, points):
    if points:
        at = draw.randrange(len(points))
        yield points[: at + 1] + points[at:]
        yield points[::-1]
        yield points[:at] + points[at + 1 :]
        yield points[1:] + points[:1]
        yield many_points(points[-1])
    if len(points) > 1:
        at = draw.randrange(len(points) - 1)
        first, second = points[at : at + 2]
        yield points[:at] + [second, first] + points[at + 2 :]
        yield points[:at] + [first._replace(set=second.set), second] + points[at + 2 :]
        yield points[:at] + [first._replace(set=second.set), second._replace(set=first.set)] + points[at + 2 :]


def many_points(point):
    """65 that ascend."""
    return [point._replace(set=((key, 0),)) for key in range(POINTS_MOST + 1)]


def wrong_points(draw, point):
    yield from wrong_held(draw, point)
    yield from wrong_sets(draw, point)
    yield from (wrong_buckets if isinstance(point, Explicit) else wrong_rows)(draw, point)


def wrong_held(draw, point):
    """Extremes and sums; a switch."""
    finite = some_finite(draw), some_finite(draw)
    yield point._replace(switch=not point.switch)
    yield point._replace(extremes=None if point.extremes else finite)
    yield point._replace(switch=True, extremes=finite)
    yield point._replace(switch=False, extremes=None)
    for bits in (*ENDLESS, CANONICAL_NAN, draw.choice(OTHER_NANS)):
        yield point._replace(switch=True, extremes=(bits, finite[0]))
        yield point._replace(switch=True, extremes=(finite[0], bits))
        yield point._replace(sum=bits)


def wrong_sets(draw, point):
    """Keys that fall or are equal; other sets."""
    first, second = sorted(draw.sample(KEYS, 2))
    value = draw.choice(VALUES)
    for keys in ((second, first), (first, first), (first, second), (first,), ()):
        yield point._replace(set=tuple((key, value) for key in keys))
    yield point._replace(set=point.set[::-1])
    yield point._replace(set=point.set[:-1])


def wrong_rows(draw, point):
    """Counts and zero counts, rows at the ends of the indices, empty rows, rows too long, other scales."""
    for by in (-1, 1):
        yield point._replace(count=(point.count + by) % 2**64)
        yield point._replace(zeros=(point.zeros + by) % 2**64)
        yield point._replace(zeros=(point.zeros + by) % 2**64, count=(point.count + by) % 2**64)
        yield point._replace(scale=max(-10, point.scale + by))
    yield point._replace(scale=draw.choice((11, 12, 21, 22, 54)))
    yield point._replace(scale=draw.choice(SCALES))
    for name in ("positive", "negative"):
        for row in wrong_row(draw, getattr(point, name), point.scale):
            rest = point.zeros + sum(getattr(point, "negative" if name == "positive" else "positive").counts)
            yield point._replace(**{name: row}, count=(rest + sum(row.counts)) % 2**64)
            yield point._replace(**{name: row})


def wrong_row(draw, row, scale):
    lowest, highest = INDICES[scale]
    counts = row.counts or (1,)
    last = highest - len(counts) + 1
    for offset in (lowest - 1, lowest, last, last + 1, row.offset - 1, row.offset + 1):
        yield Row(offset, counts)
    for offset in (0, 1, 2 ** (scale + 11), MOST):
        yield Row(offset, ())
    for ended in ((0, *counts), (*counts, 0), counts[1:], counts[:-1], (*counts[:-1], 0), (MOST, *counts), (*counts, 1)):
        yield Row(row.offset if ended else 0, tuple(ended))
    for length in (COUNTS_MOST, COUNTS_MOST + 1):
        yield Row(max(lowest, -length), (1,) * length)


def wrong_buckets(draw, point):
    """Counts, bounds that do not rise, too many of either."""
    for by in (-1, 1):
        yield point._replace(count=(point.count + by) % 2**64)
    for bounds in wrong_bounds(draw, point.bounds):
        buckets = (point.count, *[0] * len(bounds)) if bounds else ()
        yield point._replace(bounds=bounds, buckets=buckets)
    for buckets in (point.buckets[:-1], (*point.buckets, 0), (*point.buckets, 1), (MOST, *point.buckets[1:])):
        yield point._replace(buckets=tuple(buckets))
        yield point._replace(buckets=tuple(buckets), count=sum(buckets) % 2**64)
    if point.buckets:
        yield point._replace(buckets=point.buckets[::-1])
        yield point._replace(buckets=filled_up(draw, point.buckets, 1))


def wrong_bounds(draw, bounds):
    low, high = sorted(map(float, draw.sample(range(-9, 9), 2)))
    for pair in ((low, high), (high, low), (high, high), (-0.0, 0.0), (0.0, -0.0), (-0.0, high + 9), (low - 9, -0.0)):
        yield tuple(map(to_bits, pair))
    for bits in (CANONICAL_NAN, *ENDLESS, draw.choice(OTHER_NANS), SIGN):
        yield (bits,)
        yield (*bounds, bits)
        yield (bits, *bounds)
    yield ()
    yield bounds[::-1]
    for many in (BOUNDS_MOST, BOUNDS_MOST + 1):
        yield tuple(to_bits(float(number)) for number in range(many))


# Damage: each takes a made sheet and gives bytes, which may be the same ones.


def is_small(made):
    return len(made.data) <= SMALL


def some_of(draw, places, most):
    places = list(places)
    return places if len(places) <= most else draw.sample(places, most)


def with_byte(data, place, byte):
    return data[:place] + bytes((byte,)) + data[place + 1 :]


def with_word(data, place, word):
    return data[:place] + struct.pack("<Q", word) + data[place + 8 :]


def payload_of(data):
    words = list(struct.unpack(f"<{len(data) // 8}Q", data))
    del words[0::4]
    return words


def info_of(data):
    return struct.unpack_from("<I", data, 4)[0]


def bytes_changed(draw, made):
    """Every byte of a small sheet."""
    data = made.data
    for place in range(len(data)) if is_small(made) else some_of(draw, range(len(data)), 100):
        byte = data[place]
        for other in {(byte + 1) % 256, byte ^ 0x80, 0, 255, draw.randrange(256)} - {byte}:
            yield with_byte(data, place, other)


def words_set(draw, made):
    """Payload words, to what is near them or at a limit."""
    limits = (3, 8, 9, 20, 21, 64, 65, 159, 160, 161, 997374, 997375, *NUMBERS, *ENDLESS, CANONICAL_NAN, *OTHER_NANS, *FINITE)
    places = [r + at for r in range(0, len(made.data), RECORD) for at in (8, 16, 24)]
    for place in some_of(draw, places, 60):
        word = struct.unpack_from("<Q", made.data, place)[0]
        for other in {(word + 1) % 2**64, (word - 1) % 2**64, word ^ SIGN, *draw.sample(limits, 4)} - {word}:
            yield with_word(made.data, place, other)


def cut_short(draw, made):
    """Every length of a small sheet; ends of records and others of a large one. Links and number of points as they are, or put right."""
    data = made.data
    lengths = range(len(data)) if is_small(made) else some_of(draw, range(0, len(data), RECORD), 30) + some_of(draw, range(len(data)), 30)
    for length in lengths:
        yield data[:length]
    for r in some_of(draw, range(RECORD, len(data), RECORD), 10):
        yield chained(info_of(data), payload_of(data[:r]))


def added(draw, made):
    """Bytes and records behind, before and between; the links as they are, or put right."""
    data, n = made.data, len(made.data) // RECORD
    for more in (b"\0", b"\xff", bytes(31), bytes(RECORD), bytes(2 * RECORD), data[-RECORD:], data[RECORD : 2 * RECORD], data, data[RECORD:]):
        yield data + more
        yield more + data
        if len(more) % RECORD == 0:
            yield chained(info_of(data), payload_of(data + more))
    for r in some_of(draw, range(1, n + 1), 5):
        for record in (bytes(RECORD), data[(r - 1) * RECORD : r * RECORD]):
            yield chained(info_of(data), payload_of(data[: r * RECORD] + record + data[r * RECORD :]))


def links_changed(draw, made):
    """Cycles, skipped records, ends before the end, numbers that no record has, the upper half of a u32."""
    data, n = made.data, len(made.data) // RECORD
    for r in some_of(draw, range(n), 40):
        for number in {0, 1, r, r - 1, r + 1, r + 2, n - 1, n, 65535, draw.randrange(65536), draw.randrange(n)}:
            yield data[: r * RECORD] + struct.pack("<H", number % 65536) + data[r * RECORD + 2 :]
        for place in range(2, 8 if r else 4):
            yield with_byte(data, r * RECORD + place, draw.randrange(1, 256))
    for by in (-1, 1):
        words = list(struct.unpack(f"<{4 * n}Q", data))
        words[4::4] = [(link + by) % 2**64 for link in words[4::4]]
        yield struct.pack(f"<{4 * n}Q", *words)


def header_changed(draw, made):
    """Other forms, temporalities, numbers of points and zero thresholds, one by one and together."""
    data, many = made.data, len(made.points)
    for number in {0, 1, many - 1, many + 1, 63, 64, 65, 255, 256, many + 256, 65535}:
        yield data[:6] + struct.pack("<H", number % 65536) + data[8:]
    for bits in (1, SIGN, ONE, to_bits(0.02), GREATEST, INFINITY, CANONICAL_NAN, draw.getrandbits(64)):
        yield with_word(data, 24, bits)
        yield with_word(with_byte(data, 4, 1), 24, bits)
    for place in (8, 16):
        yield with_word(data, place, anything(draw))
    for byte in {0, 1, 2, 3, 4, 128, 255, *draw.sample(range(256), 12)}:
        yield with_byte(data, 4, byte)
        yield with_byte(data, 5, byte)


def records_moved(draw, made):
    """Two exchanged, one twice, one left out; the links moved along, left, or put right."""
    data, n = made.data, len(made.data) // RECORD
    records = [data[r * RECORD : (r + 1) * RECORD] for r in range(n)]
    for _ in range(10):
        a, b = draw.randrange(n), draw.randrange(n)
        moved = records[:]
        moved[a], moved[b] = moved[b], moved[a]
        for others in (moved, records[:a] + records[b:], records[:a] + [records[b]] + records[a + 1 :], records[:a] + records[a + 1 :]):
            yield b"".join(others)
            if others:
                yield chained(info_of(data), payload_of(b"".join(others)))


def points_moved(draw, made):
    """Exchanged, twice, left out, turned round: in right records, the number of points put right or left."""
    words = [point_words(point) for point in made.points]
    start = [made.header.start, made.header.time, 0]
    for _ in range(4 if words else 0):
        a, b = draw.randrange(len(words)), draw.randrange(len(words))
        moved = words[:]
        moved[a], moved[b] = moved[b], moved[a]
        for others in (moved, words[: a + 1] + words[a:], words[:a] + words[a + 1 :], words[::-1], words[b:] + words[:b], words[a:], words[:a]):
            payload = start + [word for point in others for word in point]
            yield chained(header_info(made.header, len(others)), payload)
            yield chained(header_info(made.header, len(words)), payload)


def kind_changed(draw, made):
    """A point's kind word, alone and with the words set to 0 that the explicit kind has as 0."""
    payload = payload_of(made.data)
    at = 3
    for point in made.points:
        for kind in (0, 1, 2, MOST, SIGN):
            yield chained(info_of(made.data), payload[: at + 9] + [kind] + payload[at + 10 :])
        for kind, length in ((0, 0), (1, 0), (1, payload[at + 14]), (1, max(0, payload[at + 14] - 1))):
            middle = [kind, payload[at + 10], 0, 0, 0, length, 0, 0]
            yield chained(info_of(made.data), payload[: at + 9] + middle + payload[at + 17 :])
        at += len(point_words(point))


def several_changed(draw, made):
    """Up to eight bytes anywhere; a run of bytes."""
    for _ in range(60):
        data = bytearray(made.data)
        for _ in range(draw.randint(2, 8)):
            data[draw.randrange(len(data))] = draw.choice((0, 1, 255, draw.randrange(256)))
        yield bytes(data)
    for _ in range(20):
        at, length = draw.randrange(len(made.data)), draw.randint(2, 40)
        run = made.data[at : at + length]
        other = draw.choice((bytes(len(run)), draw.randbytes(len(run)), bytes(byte ^ 255 for byte in run), run[::-1]))
        yield made.data[:at] + other + made.data[at + length :]


def wrong_written(draw, made):
    """Wrong lists in right records."""
    lists = wrong_lists(draw, made.points) if is_small(made) else wrong_lists(draw, made.points[:2])
    for points in lists:
        yield encode(made.header, points)


DAMAGES = {
    "one byte changed": bytes_changed,
    "one word set": words_set,
    "cut short": cut_short,
    "something added": added,
    "links changed": links_changed,
    "header changed": header_changed,
    "records moved": records_moved,
    "points moved": points_moved,
    "kind changed": kind_changed,
    "several bytes changed": several_changed,
    "wrong points in right records": wrong_written,
}


def damaged(draw, made):
    """(kind of damage, bytes other than the sheet's); of a large sheet fewer of each kind"""
    most = None if is_small(made) else max(40, 3_000_000 // len(made.data))
    for kind, damage in DAMAGES.items():
        for data in islice(damage(draw, made), most):
            if data != made.data:
                yield kind, data
