"""Rescales by one level and by many at once, of either sign, in rows of 3 and of 160; rows at all sizes and scales."""

import random

from bits import GREATEST, SIGN
from cases.lines import TINY, inside, negative

ENDS = TINY, GREATEST


def pair_for(scale):
    """Two values that a row of 3 holds at this scale and at no finer one: their indices there are -1 and 1, one finer -1 and 3."""
    return ENDS if scale == -10 else (1.0, inside(1, scale))


def rows_of_three(book):
    """From scale 10 to each other scale at once: one sign, the other, and both rows with only one that needs it."""
    for scale in range(9, -11, -1):
        s = book.new(f"rescale_3_from_10_to_{scale}")
        s.exponential(size=3, limit=5)
        near, far = pair_for(scale)
        s.record("1:1", near, far)
        s.record("2:1", negative(near), negative(far))
        s.record("3:1", *map(inside, (-9, -8, -7)), negative(near), negative(far))
        s.record("4:1", *(inside(i) | SIGN for i in (-9, -8, -7, -9)), far, near)
        s.record("5:1", 0.0, near, -0.0, far, near, far)
        s.collect()


def rows_of_160(book):
    """Two full rows, then a value far away: all levels at once."""
    for name, far in (("least", TINY), ("greatest", GREATEST), ("minus_least", TINY | SIGN), ("minus_greatest", GREATEST | SIGN), ("near", inside(171))):
        s = book.new(f"rescale_160_by_{name}")
        s.exponential(size=160, temporality="c")
        s.record("1:1", *(inside(i - 81) | SIGN * (i % 2) for i in range(0, 160, 3)), inside(-81), inside(78), negative(inside(-81)), negative(inside(78)))
        s.collect()
        s.record("1:1", far, far ^ SIGN)
        s.collect(2)


def level_by_level(book):
    """From scale 10 down to the last, one level at each value."""
    for size, last in ((3, -9), (160, -3)):
        s = book.new(f"rescale_{size}_level_by_level")
        s.exponential(size=size, temporality="c")
        s.record("1:1", inside(-1), negative(inside(-2)))
        for scale in range(9, last - 1, -1):
            s.record("1:1", inside(size - 2, scale) if inside_range(size - 2, scale) else GREATEST)
            s.collect(20 - scale)
        s.record("1:1", TINY, negative(TINY), negative(GREATEST))
        s.collect(50)


def inside_range(index, scale):
    return (index + 1) << (10 - scale) <= 1024 << 10


def offsets(book):
    """Rows that start at odd and even, negative and positive indices, halved once and twice."""
    s = book.new("rescale_offsets")
    for start in range(-6, 6):
        s.exponential(size=4, temporality="c")
        s.record("1:1", *(inside(start + i) for i in (0, 1, 3)))
        s.record("2:1", *(negative(inside(start + i)) for i in (0, 2, 2, 3)))
        for far in (4, 9):
            s.record("1:1", inside(start + far))
            s.record("2:1", negative(inside(start - far)))
            s.collect(far)


def some_value(draw):
    """Of either sign, near 1.0, far away, subnormal or zero."""
    kind = draw.random()
    exponent = draw.randint(1021, 1025) if kind < 0.7 else draw.randint(0, 2046)
    bits = 0 if kind > 0.93 else exponent << 52 | draw.getrandbits(52)
    return bits | draw.getrandbits(1) << 63


def all_settings(book):
    """Values under all scales and several sizes; each point merged with the one before it."""
    for size in (3, 5, 20, 160):
        draw = random.Random(f"rows of {size}")
        s = book.new(f"rows_of_{size}_at_all_scales")
        for place, scale in enumerate(range(10, -11, -1)):
            s.exponential(size=size, scale=scale)
            s.record("-", *(some_value(draw) for _ in range(9)))
            s.collect()
            s.append(f"k {place % 2} 0")
            s.merge(2, 0, 1, draw.choice((size, 160, 3)), draw.choice((None, size, 160, 2)))


def write(book):
    for part in (rows_of_three, rows_of_160, level_by_level, offsets, all_settings):
        part(book)
