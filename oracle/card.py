"""The blade card of request L2 by exact fractions: the mean of a point in whole hundredths, or the number that refuses it.

    card.py < INPUT             prints exactly what the program card prints for an input of the gauge program's language

The numbers are, in this order, 8 (the point disagrees under size 160 and scale 10), 11 (it is a point over i64), 13 (count 0) and 14 (the sum is
not a whole number of 1/1024, or its magnitude is above 2^43).
"""

import sys
from fractions import Fraction

import gauge
import script
from bits import GREATEST, index, is_finite, to_bits, to_float
from points import Refused
from reference import Reference, Rules
from words import buckets_agree, shown_agrees

SIZE_MOST = max(Rules().sizes)
SUM_MOST = 2**43


# The mean of a count and a sum.


def half(q):
    """THE ROUNDING RULE: where a magnitude halfway between q and q + 1 goes. Request L2: away from zero; L9 replaces this."""
    return q + 1


def nearest(x):
    """The whole number nearest to a fraction that is not negative."""
    q, rest = divmod(x, 1)
    return half(q) if rest == Fraction(1, 2) else q + (rest > Fraction(1, 2))


def mean(count, bits):
    """Of so many values whose sum has these bits: "taken as an exact fraction, times 100, and rounded"."""
    if count == 0:
        raise Refused(13)
    if not is_finite(bits):
        raise Refused(14)
    total = Fraction(to_float(bits))
    if (total * 1024).denominator != 1 or abs(total) > SUM_MOST:
        raise Refused(14)
    size = nearest(abs(total) / count * 100)
    return -size if total < 0 else size


# Agreement, in document 01's words, over signed indices.


def row_agrees(row, scale):
    offset, counts = row
    if not counts:
        return offset == 0
    inside = index(1, scale) <= offset and offset + len(counts) - 1 <= index(GREATEST, scale)
    return inside and len(counts) <= SIZE_MOST and counts[0] > 0 and counts[-1] > 0


def rows_agree(point):
    if point.scale not in Rules().scales:
        return False
    rows = point.positive, point.negative
    return all(row_agrees(row, point.scale) for row in rows) and point.count == point.zeros + sum(sum(counts) for _, counts in rows)


def agrees(point):
    counts = buckets_agree(point.count, point.buckets, point.bounds) if point.kind == "x" else rows_agree(point)
    return counts and shown_agrees(point)


# The card.


def card(point):
    """Of a point of points.py."""
    if not agrees(point):
        raise Refused(8)
    if point.number != "f":
        raise Refused(11)
    return mean(point.count, to_bits(point.sum))


def shown(point):
    """As it is printed: the mean, or the refusal's number behind `!`."""
    try:
        return str(card(point))
    except Refused as refused:
        return f"! {refused.number}"


class Cards(Reference):
    """The reference, but that a collection's points are shown by their sets and cards."""

    def collect(self, call):
        head, *_ = super().collect(call)
        return [head, *(f"{script.write_set(point.set)} {shown(point)}" for point in self.collected)]


def answer(text):
    """All that the program card prints for an input."""
    return gauge.answer(text, Cards)


def main():
    sys.stdout.write(answer(sys.stdin.buffer.read().decode("latin-1")))


if __name__ == "__main__":
    main()
