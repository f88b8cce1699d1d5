"""Points as document 01 defines them: of lists of values, and of two points merged. Nothing here is incremental."""

from collections import Counter
from dataclasses import dataclass, replace

from bits import FINEST, index, to_bits, to_float
from script import write_bits, write_held, write_list, write_row

EMPTY_ROW = (0, ())
COUNT_MOST = 2**64 - 1


class Refused(Exception):
    """A refusal by its number in document 01."""

    def __init__(self, number):
        super().__init__(number)
        self.number = number


@dataclass(frozen=True)
class Numbers:
    """What is particular to f64 or to i64 values."""

    zero: object
    least: object
    greatest: object
    parse: object  # from what a script holds
    nearest: object  # the nearest f64, of two the one with the even mantissa
    add: object


def add_whole(a, b):
    total = a + b
    if not -(2**63) <= total < 2**63:
        raise Refused(16)
    return total


NUMBERS = {
    "f": Numbers(0.0, to_float(0xFFEFFFFFFFFFFFFF), to_float(0x7FEFFFFFFFFFFFFF), to_float, float, lambda a, b: a + b),
    "i": Numbers(0, -(2**63), 2**63 - 1, int, float, add_whole),
}


@dataclass(frozen=True)
class ExponentialPoint:
    set: tuple
    number: str
    switch: bool  # of min and max
    threshold: float
    count: int
    zeros: int
    scale: int
    min: object
    max: object
    sum: object
    positive: tuple  # (offset, counts)
    negative: tuple

    letter = "p"
    kind = "e"

    def fields(self):
        head = [str(self.count), str(self.zeros), str(self.scale)]
        held = [write_held(self.min), write_held(self.max), write_held(self.sum)]
        band = [write_held(self.threshold)] if self.threshold > 0 else []
        return head + held + [write_row(self.positive), write_row(self.negative)] + band

    def counts(self):
        """The counts in the positive and in the negative store."""
        return len(self.positive[1]), len(self.negative[1])


@dataclass(frozen=True)
class ExplicitPoint:
    set: tuple
    number: str
    switch: bool
    count: int
    min: object
    max: object
    sum: object
    buckets: tuple
    bounds: tuple  # bits

    letter = "q"
    kind = "x"
    threshold = 0.0

    def fields(self):
        held = [write_held(self.min), write_held(self.max), write_held(self.sum)]
        lists = [write_list(map(str, self.buckets)), write_list(map(write_bits, self.bounds))]
        return [str(self.count)] + held + lists

    def counts(self):
        return len(self.buckets), 0


@dataclass(frozen=True)
class SinglePoint:
    """A sum or a last value (request L1)."""

    set: tuple
    value: object

    letter = "v"

    def fields(self):
        return [write_held(self.value)]

    def counts(self):
        return 0, 0


# The point of a list of values.


def extremes(values, numbers):
    """From the greatest and the least number; equal numbers leave the one held."""
    low, high = numbers.greatest, numbers.least
    for value in values:
        low = value if value < low else low
        high = value if value > high else high
    return low, high


def total(values, numbers):
    result = numbers.zero
    for value in values:
        result = numbers.add(result, value)
    return result


def shown(low, high, switch, count):
    """The extremes that a point has: none with the switch off, and none at count 0 (request L4)."""
    return (low, high) if switch and count else (None, None)


def held(values, config):
    """min, max and sum as handed out under the switches."""
    numbers = NUMBERS[config.number]
    low, high = shown(*extremes(values, numbers), config.extremes, len(values))
    return low, high, total(values, numbers) if config.sum else numbers.zero


def fits(indices, drop, size):
    return not indices or (max(indices) >> drop) - (min(indices) >> drop) < size


def drop_needed(rows, size):
    """How many scales down all rows fit: the least number."""
    drop = 0
    while not all(fits(row, drop, size) for row in rows):
        drop += 1
    return drop


def row_of(counted, drop):
    """The row from the lowest to the highest used index, of a Counter of indices."""
    if not counted:
        return EMPTY_ROW
    coarse = Counter()
    for i, n in counted.items():
        coarse[i >> drop] += n
    low, high = min(coarse), max(coarse)
    return low, tuple(coarse[i] for i in range(low, high + 1))


def exponential_point(attributes, values, config):
    nearest = NUMBERS[config.number].nearest
    outside = [v for v in values if abs(nearest(v)) > config.threshold]
    top = min(config.scale, FINEST)
    rows = [Counter(), Counter()]
    for value in outside:
        rows[value < 0][index(to_bits(nearest(value)), top)] += 1
    drop = drop_needed(rows, config.size)
    low, high, sum_ = held(values, config)
    zeros = len(values) - len(outside)
    figures = (len(values), zeros, top - drop, low, high, sum_, row_of(rows[0], drop), row_of(rows[1], drop))
    return ExponentialPoint(attributes, config.number, config.extremes, config.threshold, *figures)


def explicit_point(attributes, values, config):
    bounds, nearest = [to_float(b) for b in config.bounds], NUMBERS[config.number].nearest
    low, high, sum_ = held(values, config)
    buckets = Counter(sum(b < nearest(v) for b in bounds) for v in values)
    counts = tuple(buckets[i] for i in range(len(bounds) + 1)) if bounds else ()
    figures = (len(values), low, high, sum_, counts, config.bounds)
    return ExplicitPoint(attributes, config.number, config.extremes, *figures)


def sum_point(attributes, values, config):
    return SinglePoint(attributes, total(values, NUMBERS[config.number]))


def last_point(attributes, values, config):
    return SinglePoint(attributes, values[-1] if values else NUMBERS[config.number].zero)


POINT_OF = {"e": exponential_point, "x": explicit_point, "s": sum_point, "l": last_point}


# Merging. Order of refusals: 1, 8, 11, 9, 16, 10.


def merged(a, b, size, room, sizes):
    check_merge(a, b, size, sizes)
    join = join_explicit if a.kind == "x" else join_exponential
    point = replace(a, count=a.count + b.count, **join_held(a, b), **join(a, b, size))
    if room is not None and max(point.counts()) > room:
        raise Refused(10)
    return point


def check_merge(a, b, size, sizes):
    if not (a.kind == b.kind == "x") and size not in sizes:
        raise Refused(1)
    if not (rows_within(a, size) and rows_within(b, size)):
        raise Refused(8)
    if mark(a) != mark(b):
        raise Refused(11)
    if a.count + b.count > COUNT_MOST:
        raise Refused(9)


def rows_within(point, size):
    """Points come from collections and merges: only a smaller max_size can make them disagree."""
    return point.kind == "x" or max(len(point.positive[1]), len(point.negative[1])) <= size


def mark(point):
    """What two points must share; bounds compare as numbers."""
    bounds = [to_float(b) for b in point.bounds] if point.kind == "x" else None
    return point.kind, point.number, point.switch, point.threshold, bounds


def join_held(a, b):
    """The smaller min and the larger max, equal: the first's, one that is there before none; the sums added once."""
    low = b.min if a.min is None or (b.min is not None and b.min < a.min) else a.min
    high = b.max if a.max is None or (b.max is not None and b.max > a.max) else a.max
    return {"min": low, "max": high, "sum": NUMBERS[a.number].add(a.sum, b.sum)}


def join_explicit(a, b, _size):
    return {"buckets": tuple(x + y for x, y in zip(a.buckets, b.buckets))}


def join_exponential(a, b, size):
    scale = min(a.scale, b.scale)
    rows = []
    for row in ("positive", "negative"):
        rows.append(counted(getattr(a, row), a.scale - scale) + counted(getattr(b, row), b.scale - scale))
    drop = drop_needed(rows, size)
    made = {"positive": row_of(rows[0], drop), "negative": row_of(rows[1], drop)}
    return {"scale": scale - drop, "zeros": a.zeros + b.zeros, **made}


def counted(row, drop):
    """How often each index of a row is counted, `drop` scales further down."""
    offset, counts = row
    result = Counter()
    for place, n in enumerate(counts):
        result[(offset + place) >> drop] += n
    return +result
