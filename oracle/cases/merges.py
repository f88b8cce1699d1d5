"""Merges: levels apart, rows apart, either kind, bounds alike and not, zeros, switches, sums that are not finite, counts near 2^64, room."""

from bits import GREATEST, INFINITY, SIGN
from cases.lines import MOST, TINY, inside, negative


def kept(s, *lists, **settings):
    """Points 0, 1 and so on of these lists of values, of the exponential kind."""
    s.exponential(**({"size": 160, "limit": 8} | settings))
    for key, values in enumerate(lists):
        s.record(f"{key}:1", *values)
    s.collect()
    s.keep(*range(len(lists)))


def both_ways(s, first, second, sizes=(160, 3), point=7):
    for size in sizes:
        s.merge(point, first, second, size)
        s.merge(point, second, first, size)


def levels_apart(book):
    """Scales 10, 4, -4 and -10, each with each."""
    s = book.new("merge_levels_apart")
    near = [1.0, 1.0, inside(3)]
    lists = (near, [1.0, inside(5, 4), negative(inside(-3, 4))], [1.0, inside(7, -4)], [TINY, GREATEST, negative(TINY), -1.0, 0.0])
    for place, (scale, values) in enumerate(zip((10, 4, -4, -10), lists)):
        s.exponential(size=3, scale=scale)
        s.record(f"{place}:1", *values)
        s.collect()
        s.append(f"k {place} 0")
    for first in range(4):
        for second in range(4):
            s.merge(7, first, second, 160)
            s.merge(6, first, second, 3)
    s.merge(5, 7, 6, 160)


def rows_apart(book):
    s = book.new("merge_rows_apart")
    kept(s, [TINY], [GREATEST], [negative(TINY)], [negative(GREATEST)], [1.0], [inside(159), inside(-1)], [0.0])
    for first, second in ((0, 1), (2, 3), (0, 3), (4, 5), (4, 1), (6, 6), (6, 0), (5, 3)):
        both_ways(s, first, second, (160, 20, 3))


def overlapping_rows(book):
    """Rows that share buckets, lie within each other, touch, or leave a gap."""
    s = book.new("merge_overlapping_rows")
    rows = ((0, 1, 2), (1, 2, 2), (1,), (3, 4), (9, 11), (-1, 3), (-3, -2))
    kept(s, *([inside(i) for i in row] + [negative(inside(i)) for i in row[:2]] for row in rows), size=8)
    for first in range(7):
        for second in range(first, 7):
            both_ways(s, first, second, (8,))
        s.merge(7, first, 0, 2 + first)


def empty_points(book):
    """A bound set that was never recorded has a point of count 0, without extremes, in a cumulative collection."""
    for kind in "ex":
        s = book.new(f"merge_empty_points_{kind}")
        s.configure(kind, temporality="c")
        s.bind(0, "1:1")
        s.record("2:1", 3.0, -3.0)
        s.collect()
        s.keep(0, 1)
        for first, second in ((0, 0), (0, 1), (1, 0)):
            s.merge(2, first, second, 160, 3)
        s.merge(3, 2, 0)


def empty_points_and_switches(book):
    """The switch is compared as configured, though a point of count 0 shows no extremes either way: points 0 and 2 are empty, 1 and 3 are not."""
    for kind in "ex":
        s = book.new(f"merge_empty_points_and_switches_{kind}")
        for extremes, point in ((True, 0), (False, 2)):
            s.configure(kind, temporality="c", extremes=extremes)
            s.bind(0, "1:1")
            s.record("2:1", 3.0, -0.0)
            s.collect()
            s += [f"k {point} 0", f"k {point + 1} 1"]
        for first in range(4):
            for second in range(4):
                s.merge(7, first, second)


BOUNDS = {
    "none": (),
    "zero": (0.0,),
    "minus_zero": (-0.0,),
    "one": (1.0,),
    "both": (0.0, 1.0),
    "infinite": (INFINITY | SIGN, 0.0, INFINITY),
    "many": tuple(float(i) for i in range(159)),
}


def explicit_bounds(book):
    """Points of each list of bounds, each merged with each: bounds are compared as numbers, and the first's stay."""
    s = book.new("merge_bounds")
    for place, bounds in enumerate(BOUNDS.values()):
        s.explicit(*bounds)
        s.record(f"{place}:1", -1.0, 0.0, 0.5, 7.0)
        s.collect()
        s.append(f"k {place} 0")
    for first in range(len(BOUNDS)):
        for second in range(len(BOUNDS)):
            if first < 6 or second == 6:
                s.merge(7, first, second, 0)
    s.exponential()
    s.record("1:1", 1.0)
    s.collect()
    s.append("k 7 0")
    for size in (2, 160):
        both_ways(s, 7, 0, (size,), 6)


def signed_zeros(book):
    """Zeros are equal: the extremes are the first's."""
    for kind in "ex":
        s = book.new(f"merge_signed_zeros_{kind}")
        s.configure(kind)
        s.record("1:1", 0.0)
        s.record("2:1", -0.0)
        s.collect()
        s.keep(0, 1)
        both_ways(s, 0, 1, (3,))
        s.merge(7, 1, 1)


def switches(book):
    for kind in "ex":
        s = book.new(f"merge_switches_{kind}")
        for place, (extremes, sums) in enumerate(((1, 1), (0, 1), (1, 0), (0, 0))):
            s.configure(kind, extremes=extremes, sums=sums)
            s.record(f"{place}:1", 1.0, -3.0)
            s.collect()
            s.append(f"k {place} 0")
        for first in range(4):
            for second in range(4):
                s.merge(7, first, second)


def sums_not_finite(book):
    """Infinite sums of both signs; infinity less infinity is a NaN, handed out as 7FF8000000000000; a NaN stays."""
    s = book.new("merge_sums_not_finite")
    kept(s, [GREATEST, GREATEST], [negative(GREATEST)] * 2, [1.0], [negative(GREATEST)], scale=0, size=4)
    for first, second in ((0, 0), (0, 2), (2, 1), (1, 1), (0, 3), (0, 1), (1, 0)):
        s.merge(7, first, second)
    s.merge(7, 7, 2)
    s.merge(7, 2, 7)
    s.explicit(0.0)
    s.record("1:1", GREATEST, GREATEST)
    s.record("2:1", negative(GREATEST), negative(GREATEST))
    s.collect()
    s.keep(0, 1)
    both_ways(s, 0, 1, (0,))


def counts_near_the_most(book):
    """Counts that add up to 2^64 - 1, and to one more; a zero count, a row's count and the count itself."""
    s = book.new("merge_counts_near_the_most")
    kept(s, [1.0], [1.0], [0.0])
    for number in (MOST - 1, MOST, 2**63, 2**63 - 1):
        s.damage("w", 0, 1, number)
        s.damage("P", 0, 0, number)
        both_ways(s, 0, 1, (160,))
        both_ways(s, 0, 2, (160,))
        both_ways(s, 0, 0, (160,))
    s.damage("w", 2, 1, MOST - 1)
    s.damage("w", 2, 2, MOST - 1)
    s.merge(7, 2, 1)
    s.merge(7, 2, 0)
    s.merge(7, 7, 1)
    s.explicit(0.0)
    s.record("1:1", 1.0, -1.0)
    s.collect()
    s.keep(0, 0)
    for total, first, second in ((MOST - 2, 2**63, 2**63 - 3), (MOST - 1, 1, MOST - 2), (0, 2**63, 2**63), (MOST, MOST, 0)):
        s.damage("w", 0, 1, total)
        s.damage("P", 0, 0, first)
        s.damage("P", 0, 1, second)
        both_ways(s, 0, 1, (0,))


def doubled(book):
    """A point merged with itself 64 times: the last would pass 2^64 - 1."""
    s = book.new("merge_doubled_64_times")
    kept(s, [1.0])
    for _ in range(64):
        s.merge(0, 0, 0)


def rooms(book):
    """Room for the counts of the longer row: none, one short, exact, more."""
    s = book.new("merge_room")
    kept(s, [inside(0), inside(4), negative(inside(0))], [negative(inside(i)) for i in (0, 6)], [0.0])
    for first, second, need in ((0, 0, 5), (0, 1, 7), (1, 1, 7), (2, 2, 0), (2, 0, 5)):
        for counts in sorted({0, max(0, need - 1), need, need + 1, 161}):
            s.merge(7, first, second, 160, counts)
    s.merge(7, 0, 1, 3, 2)
    s.merge(7, 0, 1, 7, 7)
    for bounds in ((), (0.0,), BOUNDS["many"]):
        s.explicit(*bounds)
        s.record("-", 1.0)
        s.collect()
        s.keep(0)
        need = len(bounds) + 1 if bounds else 0
        for counts in sorted({0, max(0, need - 1), need}):
            s.merge(1, 0, 0, 0, counts)


def places(book):
    """The result may be kept in the place of either; its set is the first's; places of nothing can't be read."""
    s = book.new("merge_places")
    s.merge(0, 0, 0)
    s.append("k 0 0")
    kept(s, [1.0], [2.0])
    s.merge(0, 0, 2)
    s.merge(0, 2, 0)
    s.merge(0, 0, 1)
    s.merge(1, 0, 1)
    s.merge(1, 1, 0)
    s.merge(7, 1, 1, 161)
    s.merge(7, 1, 1)
    s.exponential()
    s.merge(6, 7, 7)
    s.append("k 0 1")
    s.append("k 1 2")
    s.collect()
    s.append("k 0 0")
    s.merge(5, 0, 7)


def write(book):
    for part in (levels_apart, rows_apart, overlapping_rows, empty_points, empty_points_and_switches, explicit_bounds, signed_zeros, switches):
        part(book)
    for part in (sums_not_finite, counts_near_the_most, doubled, rooms, places):
        part(book)
