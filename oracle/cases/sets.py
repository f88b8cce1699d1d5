"""Sets under limits, filters and overflow, keys given twice, the order of points; values and bounds at their limits."""

from bits import GREATEST, INFINITY, SIGN
from cases.lines import NAN, OVERFLOW

KEY = 2**32 - 1  # of the overflow set


def small_limits(book):
    for kind in "ex":
        s = book.new(f"limits_0_1_2_{kind}")
        for limit in (0, 1, 2):
            s.configure(kind, limit=limit)
            for value, key in zip((1.0, 2.5, -3.0, 0.0, 1e300, -1e-300, 7.25, -0.0), ("1:5", "-", "1:6", "1:5", "2:5", "-", "1:5,2:5", "1:5")):
                s.record(key, value)
            s.collect()
            s.collect(2)
            s.record("9:9", 1.0)
            s.collect(3)


def filters(book):
    for kind in "ex":
        s = book.new(f"filters_{kind}")
        s.filter()
        s.configure(kind, limit=5)
        s.record("1:1", 1.0)
        s.bind(0, "1:1,2:2")
        s.by(0, 2.0)
        s.collect()
        s.filter(0, KEY)
        s.configure(kind, limit=5)
        s.record(f"{KEY}:{KEY},0:0,1:1", 1.0)
        s.record(f"1:1,{OVERFLOW}", 2.0)
        s.collect()
        s.filter(2)
        s.configure(kind, limit=1)
        s.record("1:5,2:9,1:6,2:8", 1.0)
        s.record("2:9,3:1", 1.0)
        s.record("1:5", 1.0)
        s.record("2:8", 1.0)
        s.collect()
        s.configure(kind)
        s.record("2:8,1:5", 1.0)
        s.collect()


def repeated_keys(book):
    for kind in "ex":
        s = book.new(f"repeated_keys_{kind}")
        s.configure(kind, limit=7)
        for given in ("1:5,1:6", "1:6,1:5", "2:1,1:5,2:0,1:6,2:2", "1:5,2:1", "0:1,0:0", f"{KEY}:1,{KEY}:0", f"{KEY}:0,{KEY}:1", f"3:{KEY},3:0"):
            s.record(given, 1.0)
        s.bind(0, ",".join(["1:6"] * 7 + ["1:5"]))
        s.by(0, 2.0)
        s.collect()


def overflow_as_a_set(book):
    """Recorded or bound under the limit it is counted, made by a value sent there it is not; deltas never remove it."""
    for kind in "ex":
        for name, first in (("recorded", "r 3FF0000000000000"), ("bound", "b 5")):
            s = book.new(f"overflow_{name}_as_a_set_{kind}")
            s.configure(kind)
            s.append(f"{first} {OVERFLOW}")
            for key in ("1:1", "2:1", "3:1"):
                s.record(key, 1.0)
            for time in (1, 2, 3):
                s.collect(time)
            for key in ("4:1", "5:1", "6:1", OVERFLOW):
                s.record(key, 2.0)
            s.collect(4)
            s.configure(kind)
            for key in ("1:1", "2:1", OVERFLOW, "3:1"):
                s.record(key, 1.0)
            for time in (1, 2, 3):
                s.collect(time)
            for key in ("4:1", OVERFLOW, "5:1", "6:1"):
                s.record(key, 1.0)
            s.collect(4)


def beside_overflow(book):
    """Sets that only look like the overflow set."""
    s = book.new("beside_the_overflow_set")
    s.exponential(limit=4)
    for key in (f"{KEY}:0", f"{KEY}:2", f"{KEY - 1}:1,{KEY}:1", OVERFLOW, f"{KEY - 1}:1", f"{OVERFLOW},{KEY - 1}:1"):
        s.record(key, 1.0)
    s.collect()
    s.collect(2)
    s.record("1:1", 1.0)
    s.collect(3)


def orders(book):
    """Points ascend by key, value, then the shorter first, whatever came first."""
    keys = ["1:5", "1:6", "2:5", "1:5,2:5", "1:5,2:4", "1:5,2:4,3:0", "0:9", "1:4,9:9", "1:5,1000000:0", f"{KEY}:0"]
    for kind in "ex":
        s = book.new(f"points_ascend_{kind}")
        for step, temporality in ((1, "d"), (3, "c"), (7, "l"), (9, "d")):
            s.configure(kind, limit=12, temporality=temporality)
            s.record("-", 1.0)
            for i in range(10):
                s.record(keys[i * step % 10], float(i))
            s.collect()


def far_settings(book):
    """Settings far outside; what was configured before stays."""
    s = book.new("settings_far_outside")
    s.exponential()
    s.record("1:1", 1.0)
    for size in (0, 1, 2, 161, 2**32 - 1):
        s.exponential(size=size)
    for scale in (-128, -11, 11, 20, 21, 127):
        s.exponential(scale=scale)
    for limit in (63, 64, 2**32 - 1):
        s.exponential(limit=limit)
        s.explicit(0.0, limit=limit)
    s.exponential(size=2, scale=11, limit=63)
    s.explicit(1.0, 1.0, limit=63)
    s.collect()


def refused_bounds(book):
    s = book.new("bounds_refused_and_accepted")
    refused = [(NAN,), (0.0, NAN), (INFINITY, NAN), (0.0, -0.0), (-0.0, 0.0), (1.0, 1.0), (1.0, 0.0), (INFINITY, INFINITY), (NAN | SIGN, 1.0)]
    accepted = [(INFINITY | SIGN, INFINITY), (1, 2, 3), (GREATEST | SIGN, GREATEST), (-1.0, -0.0, 1.0), (SIGN | 1, 0.0, 1)]
    for bounds in refused + accepted:
        s.explicit(*bounds)
        s.record("-", *bounds[:3], 0.0, -0.0, 1.0, GREATEST, GREATEST | SIGN, 5.0)
        s.collect()


def refused_values(book):
    for kind in "ex":
        s = book.new(f"values_not_finite_{kind}")
        s.configure(kind)
        s.bind(0, "2:2")
        for bits in (INFINITY, INFINITY | SIGN, NAN, NAN | SIGN, INFINITY + 1, 2**64 - 1):
            s.record("1:1", bits)
            s.by(0, bits)
        s.collect()
        s.record("1:1", GREATEST, GREATEST | SIGN, 1, SIGN | 1)
        s.collect(2)


def first_zero(book):
    """Zeros are equal, so the zero held first stays an extreme."""
    for kind in "ex":
        s = book.new(f"zeros_held_first_{kind}")
        s.configure(kind)
        s.record("1:1", -0.0, 0.0)
        s.record("2:1", 0.0, -0.0)
        s.collect()


def beside_a_bound(book):
    """Values next to bounds of scale 10, where the Rust's index is another."""
    s = book.new("beside_a_bound")
    s.exponential(size=160, limit=62)
    for key, bits in enumerate((0x3FF0058C86DA1C09, 0x3FF0058C86DA1C0A, 0x3FF067E197E26C14)):
        s.record(f"1:{key}", bits)
    s.collect()


def switches(book):
    for kind in "ex":
        s = book.new(f"switches_{kind}")
        for extremes in (0, 1):
            for sums in (0, 1):
                s.configure(kind, temporality="c", extremes=extremes, sums=sums)
                s.bind(0, "1:1")
                s.record("2:1", 1.0, 2.5, -4.0)
                s.collect()


def write(book):
    for part in (small_limits, filters, repeated_keys, overflow_as_a_set, beside_overflow, orders, far_settings):
        part(book)
    for part in (refused_bounds, refused_values, first_zero, beside_a_bound, switches):
        part(book)
