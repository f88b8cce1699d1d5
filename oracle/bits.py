"""Bits of f64 and the exact bucket index: whole-number arithmetic only, no logarithms.

From document 01, "Bucket, scale and point": at scale s a magnitude v > 0 has the index i with
2^(i/2^s) < v <= 2^((i+1)/2^s); for s < 0 the index is that of scale 0 shifted right, rounding down.
"""

import struct
from bisect import bisect_left
from functools import lru_cache
from math import isqrt

FINEST = 10  # the scale of the table; request L13 adds a definition above it
SIGN = 1 << 63
INFINITY = 0x7FF0000000000000
GREATEST = 0x7FEFFFFFFFFFFFFF
CANONICAL_NAN = 0x7FF8000000000000


def to_float(bits):
    return struct.unpack(">d", struct.pack(">Q", bits))[0]


def to_bits(value):
    """The bits of a float, every NaN as the one that document 01 hands out."""
    if value != value:
        return CANONICAL_NAN
    return struct.unpack(">Q", struct.pack(">d", value))[0]


def is_finite(bits):
    return bits & ~SIGN < INFINITY


def is_nan(bits):
    return bits & ~SIGN > INFINITY


def magnitude(bits):
    """(m, e) with |x| = m * 2^e, both whole, for a finite x."""
    exponent = (bits >> 52) & 0x7FF
    fraction = bits & ((1 << 52) - 1)
    if exponent == 0:
        return fraction, -1074
    return fraction + (1 << 52), exponent - 1075


def bound(k):
    """The largest m with m^1024 <= 2^(k + 53248): ten whole square roots, each rounded down."""
    power = 1 << (k + 53248)
    for _ in range(10):
        power = isqrt(power)
    return power


BOUNDS = [bound(k) for k in range(1 << FINEST)]
INNER_BOUNDS = frozenset(BOUNDS[1:])


def normalised(bits):
    """(m, e) as `magnitude`, a subnormal's mantissa brought up to a leading bit of 2^52."""
    m, e = magnitude(bits)
    lift = 53 - m.bit_length()
    return m << lift, e - lift


@lru_cache(maxsize=1 << 20)
def finest_index(bits):
    """The index at scale 10 of a finite f64 other than zero, of either sign."""
    m, e = normalised(bits)
    rank = bisect_left(BOUNDS, m)  # how many bounds lie below
    return ((e + 52) << FINEST) + rank - 1


def beside_bound(bits):
    """Whether a value is a rounded bound other than a power of two, or the next value above one."""
    m, _ = normalised(bits)
    return m in INNER_BOUNDS or m - 1 in INNER_BOUNDS


def index(bits, scale):
    """The index at a scale up to 10. Each lower scale is a shift, rounding down."""
    if scale > FINEST:
        raise NotImplementedError("scales above 10 wait for the definition of request L13")
    return finest_index(bits) >> (FINEST - scale)


def has_index(bits, scale, i):
    """The definition itself, for checking `index`: from scale 0 up over whole numbers, below it by the shift."""
    if scale < 0:
        return any(has_index(bits, 0, j) for j in range(i << -scale, (i + 1) << -scale))
    m, e = magnitude(bits)
    power, shift = m ** (1 << scale), e << scale  # v^(2^s) = power * 2^shift
    return exceeds(power, shift, i) and not exceeds(power, shift, i + 1)


def exceeds(power, shift, i):
    """Whether power * 2^shift > 2^i."""
    if i <= shift:
        return power << (shift - i) > 1
    return power > 1 << (i - shift)
