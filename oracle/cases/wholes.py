"""Histograms over i64 (request L6): buckets by the nearest f64, exact extremes and sums, number 16, points beside those of f64, damaged cells."""

from bits import INFINITY
from cases.damaged_series import BUCKETS, SERIES
from cases.lines import MOST, NAN, NINE, OVERFLOW
from cases.orders import ARGUMENT, BOUND_FULL, DIRECTORY, FULL, SHORT, UNBOUND, binding, collecting, explicit, exponential, merging, releasing, tried
from cases.orders import SERIES as SERIES_8

GREATEST, LEAST, HALF = 2**63 - 1, -(2**63), 2**62


def each(book, name, **settings):
    """A script for either kind, configured over i64."""
    for kind in "ex":
        s = book.new(f"whole_{name}_{kind}")
        s.configure(kind, number="i", **settings)
        yield kind, s


# Values and their buckets. From 2^53 on f64s lie 2 apart, from 2^54 on 4, from 2^62 on 1024, below 2^63 too.

ABOUT = {
    "0": [0, 1, 2, 3, 5, 1000, 10**6],
    "2^53": [2**53 + k for k in range(-2, 8)],
    "2^54": [2**54 + k for k in range(-3, 8)],
    "2^62": [HALF + k for k in (-257, -256, -255, 0, 511, 512, 513, 1535, 1536, 1537)],
    "2^63": [2**63 - k for k in (1537, 1536, 1535, 1024, 513, 512, 511, 1)],
}


def signs(values):
    """Each with its opposite, so that their sum stays in i64."""
    return [signed for value in values for signed in (value, -value)]


def values(book):
    """A set for each neighbourhood, and the two ends of i64 alone."""
    s = book.new("whole_values_e")
    s.exponential(size=160, limit=20, number="i")
    x = book.new("whole_values_x")
    between = [float(value) for values in ABOUT.values() for value in values]
    x.explicit(*sorted({*between, *(-b for b in between), 0.5, -0.5}), limit=20, number="i")
    for script in (s, x):
        for key, values in enumerate(ABOUT.values()):
            script.record(f"{key}:1", *signs(values))
        script.record("7:1", GREATEST)
        script.record("8:1", LEAST)
        script.record("9:1", 2**53, 1, 1, 1)
        script.collect()


def rescales(book):
    """Rows that don't fit at scale 10: from 1 to 2^63 down to scale -5, and values that only ties keep together."""
    s = book.new("whole_rescales")
    for lists in (([1, GREATEST - 1], [-1, LEAST + 1], [1, 2, -1, -3]), ([2**53, 2**53 + 1], [2**53, 2**53 + 3], [1 - 2**54, -(2**54) - 2, -(2**54) - 3])):
        s.exponential(size=3, limit=5, number="i")
        for key, values in enumerate(lists):
            s.record(f"{key}:1", *values)
        s.record("9:1", *(value for pair in zip(*lists) for value in pair))
        s.collect()


# The sum.


def sums(book):
    """Up to both ends of i64 and no further, by set and by handle; a refused value changes nothing; a delta starts anew, a cumulative collection doesn't."""
    for temporality in "dc":
        for kind, s in each(book, f"sums_{temporality}", temporality=temporality, limit=3):
            s.bind(0, "2:1")
            s.record("1:1", GREATEST, 1, 0, -1, 1, 1, GREATEST, LEAST, LEAST, GREATEST, 2, 1)
            s.by(0, LEAST, -1, 0, 1, -1, -1, LEAST, GREATEST, GREATEST, LEAST)
            s.record("2:1", -HALF, -HALF)
            s.record("-", HALF, HALF, HALF - 1, 1, -HALF, -HALF, -HALF, -HALF, -HALF)
            s.collect(1)
            s.record("1:1", 1)
            s.by(0, -1)
            s.record("-", -1)
            s.collect(2)


def corner(book):
    """What the tally can't know: a set over the limit shares the overflow series' sum."""
    for kind, s in each(book, "sum_of_overflow", limit=1):
        s.record(OVERFLOW, GREATEST)
        s.record("1:5", 1)
        s.bind(0, "1:5")
        s.by(0, 1, -1, 1, 1)
        s.record("-", 1)
        s.collect()
        s.record("1:5", 1)
        s.collect(2)


def switches(book):
    """With the sum off none is kept and no value refused; a bound set without values has no extremes, under either switch."""
    for kind in "ex":
        s = book.new(f"whole_switches_{kind}")
        for extremes in (0, 1):
            for sums in (0, 1):
                s.configure(kind, temporality="c", extremes=extremes, sums=sums, number="i")
                s.bind(0, "1:1")
                s.record("2:1", GREATEST, GREATEST, LEAST, LEAST, LEAST, -5)
                s.collect()
                s.by(0, LEAST, LEAST)
                s.collect(2)


def cells(book):
    """What the calls leave in every cell: refused ones nothing, and with the sum off a sum of 0."""
    for kind in "ex":
        s = book.new(f"whole_cells_after_calls_{kind}")
        for sums in (True, False):
            s.configure(kind, sums=sums, number="i")
            s.bind(0, "1:1")
            s.record("2:1", GREATEST, -5)
            s.show()
            s.record("2:1", 6, 5)
            s.by(0, LEAST, -1)
            s.show()
            s.collect()
            s.show()
            s.by(0, 7)
            s.show()


def map_calls(book):
    """The map of either kind: a filter, the limit, overflow, handles, removals, room for points and counts, short stores."""
    for kind in "ex":
        s = book.new(f"whole_map_{kind}")
        s.filter(1, 2, 3, 4)
        s.configure(kind, number="i", start=7)
        s.bind(0, "2:2,1:1,9:9")
        s.record("1:1,2:2", 5, -6)
        s.by(0, 7)
        for key in ("3:3", "4:4", "9:9", NINE):
            s.record(key, 1, 2**60)
        s.collect(8, 1)
        s.collect(8, 4, 1)
        s.collect(8)
        s.collect(9)
        s.record("4:4", 3)
        s.collect(10)
        s.release(0)
        s.release(0)
        s.by(0, 1)
        s.by(99, 1)
        for lent in ((0, None), (None, 3), (11, 4), (16, 4)):
            s.lend(*lent)
            s.configure(kind, number="i")
            s.record("1:1", 1)
            s.by(0, 1)
            s.collect(11)
        s.lend()
        s.collect(12)


# Every number in its order.

FULL_SUM = [f"d m 1 2 {GREATEST}"], ["d m 1 2 1"]
POINTS = {
    "e": {8: (["d w 0 3 21"], ["d w 0 3 20"]), 9: ([f"d w 0 1 {MOST}", f"d w 0 2 {MOST - 1}"], ["d w 0 1 1", "d w 0 2 0"])},
    "x": {8: ([f"d B 0 0 {NAN:016X}"], ["d B 0 0 0000000000000000"]), 9: ([f"d w 0 1 {MOST}", f"d P 0 1 {MOST}"], ["d w 0 1 1", "d P 0 1 1"])},
}
FULL_SUMS = [f"d w 0 11 {HALF}", f"d w 1 11 {HALF}"], ["d w 0 11 1", "d w 1 11 1"]
UNLIKE = {
    "switch": (["d w 1 8 0", "d w 1 9 0", "d w 1 10 0"], ["d w 1 8 3", "d w 1 9 1", "d w 1 10 1"]),
    "first_number": (["d w 0 0 {}"], ["d w 0 0 {}"]),
    "second_number": (["d w 1 0 {}"], ["d w 1 0 {}"]),
}


def recording(active):
    return [f"r 1 {NINE if 5 in active else '1:1'}"]


def by_handle(_active):
    return ["h 0 1"]


def orders_of(kind):
    """Each call of the map with its numbers in order; the map holds one set, in slot 1, with a binding and the value 1."""
    for name, eight in (("", DIRECTORY), ("_series", SERIES_8[kind])):
        yield f"recording{name}", recording, {12: SHORT, 5: ARGUMENT, 8: eight, 9: FULL[kind], 16: FULL_SUM}
        yield f"by_handle{name}", by_handle, {12: SHORT, 8: eight} | ({} if name else {7: UNBOUND}) | {9: FULL[kind], 16: FULL_SUM}
        yield f"collecting{name}", collecting, {12: SHORT, 8: eight, 10: ARGUMENT}
    yield "binding", binding, {12: SHORT, 5: ARGUMENT, 8: DIRECTORY, 9: BOUND_FULL}
    yield "releasing", releasing, {12: SHORT, 8: DIRECTORY, 7: UNBOUND}


def named(name, kind, numbers):
    return f"order_whole_{name}_{kind}_{'_'.join(map(str, numbers))}"


def orders(book):
    for kind in "ex":
        for name, call, applies in orders_of(kind):
            s = book.new(named(name, kind, applies))
            s.configure(kind, number="i")
            s.bind(0, "1:1")
            s.by(0, 1)
            tried(s, call, applies, list(applies))
            s.show()


def configurings(book):
    for kind, call, numbers in (("e", exponential, (1, 2, 4, 12)), ("x", explicit, (3, 4, 12))):
        s = book.new(named("configuring", kind, numbers))
        tried(s, lambda active: [line.replace(" f ", " i ") for line in call(active)], dict.fromkeys(numbers, ARGUMENT) | {12: SHORT}, list(numbers))
        s.number = "i"
        s.record("-", 1)
        s.collect()


def merging_orders(book):
    """11 is given for the switch, and for either point's being one of f64: word 0 says which it is, and 1 and 2^62 are the bits of f64s too."""
    for kind, own in POINTS.items():
        for name, (done, undone) in UNLIKE.items():
            unlike = [line.format("ex".index(kind)) for line in done], [line.format(2 + "ex".index(kind)) for line in undone]
            applies = ({1: ARGUMENT} if kind == "e" else {}) | {8: own[8], 11: unlike, 9: own[9], 16: FULL_SUMS, 10: ARGUMENT}
            s = book.new(named(f"merging_{name}", kind, applies))
            s.configure(kind, number="i")
            s.record("1:1", 1)
            s.record("2:1", 1)
            s.collect()
            s.keep(0, 1)
            tried(s, merging, applies, list(applies))


# Merges.


def merged_sums(book):
    """Sums at both ends, each with each: 16, also where the room is short; 1 before it."""
    for kind, s in each(book, "merge_sums", limit=8):
        for key, value in enumerate((GREATEST, 1, 0, -1, LEAST)):
            s.record(f"{key}:1", value)
        s.collect()
        s.keep(*range(5))
        for first in range(5):
            for second in range(5):
                s.merge(7, first, second)
        s.merge(7, 0, 1, 160, 0)
        s.merge(7, 0, 1, 2, 0)
        s.merge(7, 0, 4, 160, 0)
        s.merge(7, 7, 7)


def merged_without_sums(book):
    """A point of a map with the sum off holds 0; beside one with a sum it is merged all the same."""
    for kind, s in each(book, "merge_without_sums", sums=False):
        s.record("1:1", GREATEST, GREATEST)
        s.collect()
        s.keep(0)
        s.merge(1, 0, 0)
        s.configure(kind, number="i")
        s.record("2:1", GREATEST)
        s.collect()
        s.append("k 2 0")
        s.merge(3, 0, 2)
        s.merge(3, 2, 1)
        s.merge(3, 3, 2)


def doubled(book):
    """A point merged with itself, until the sum is 2^63, which is one too much, or -2^63, which is the least."""
    s = book.new("whole_merge_doubled")
    s.exponential(number="i")
    s.record("1:1", 2**57)
    s.record("2:1", -(2**57))
    s.collect()
    s.keep(0, 1)
    for point in (0, 1):
        for _ in range(7):
            s.merge(point, point, point)


def merged_rows(book):
    """Scales apart, rows apart, extremes that differ by less than their f64s do."""
    s = book.new("whole_merge_rows")
    s.exponential(size=3, limit=8, number="i")
    for key, values in enumerate(([1, 1, 2], [3, -(2**40)], [2**53 + 1, -(2**53) - 1], [2**53, -(2**53)], [0], [GREATEST - 1], [LEAST])):
        s.record(f"{key}:1", *values)
    s.collect()
    s.keep(*range(7))
    for first in range(7):
        for second in range(7):
            if first != second and {first, second} & {0, 2, 4}:
                s.merge(7, first, second, 160 if second % 2 else 3)


def empty_points(book):
    """Points 0 and 2 are of a bound set without values, 1 and 3 of values, 2 and 3 with min/max off."""
    for kind in "ex":
        s = book.new(f"whole_merge_empty_points_{kind}")
        for extremes, point in ((True, 0), (False, 2)):
            s.configure(kind, temporality="c", extremes=extremes, number="i")
            s.bind(0, "1:1")
            s.record("2:1", 3, LEAST)
            s.collect()
            s += [f"k {point} 0", f"k {point + 1} 1"]
        for first in range(4):
            for second in range(4):
                if (first, second) not in ((1, 1), (3, 3)):
                    s.merge(7, first, second)


def beside_f64(book):
    """Points of both kinds and both numbers, kept while the configuration changes, each with each: 1 unless both are explicit, then 11."""
    s = book.new("whole_points_beside_f64")
    for point, (kind, number) in enumerate((kind, number) for kind in "ex" for number in "fi"):
        s.configure(kind, number=number)
        s.record("1:1", 1.0 if number == "f" else 1)
        s.collect()
        s.append(f"k {point} 0")
    for size in (160, 2):
        for first in range(4):
            for second in range(4):
                s.merge(7, first, second, size, 0 if size == 2 else None)
    s.merge(7, 7, 3)


# Damage.


def damaged_held(book):
    """Any i64 is a minimum, a maximum and a sum, if the entry is updated; with the sum off it stays as it lies there."""
    for sums in (True, False):
        for kind, s in each(book, f"held_damaged_{'on' if sums else 'off'}", temporality="c", sums=sums):
            s.bind(0, "1:1")
            for slot in (0, 1, 2):
                s.damage("m", slot, 2, GREATEST)
            s.by(0, 1)
            s.record("-", 1)
            for cells in ((5, -5, 0), (GREATEST, LEAST, GREATEST), (LEAST, GREATEST, LEAST), (0, 0, -1)):
                for cell, number in enumerate(cells):
                    s.damage("m", 1, cell, number)
                s.by(0, 2, -2)
                s.collect()
            s.damage("e", 1, 2, 0)
            s.collect(2)
            s.by(0, 3)
            s.collect(3)
            s.show()


def held_stores(book):
    """A map over i64 has its own store of minimum, maximum and sum: its cells are written as u64, those over f64 as bits, before any configuration too."""
    s = book.new("whole_held_stores")
    s += ["d m 1 0 3FF0000000000000", "d m 1 0 7"]
    s.show()
    for number in "ififi":
        s.exponential(number=number)
        s += ["d m 1 1 4000000000000000", "d m 1 1 1000000000000000", "d m 1 1 18446744073709551615", "d m 1 1 18446744073709551616", "d m 1 1 -1"]
        s += ["d m 0 3 0", "d m 66 0 0", "d m 65 2 9223372036854775808", "d i 0 0 0", "d l 0 0 5"]
        s.show()
        s.record("1:1", 7 if number == "i" else 7.0)
        s.collect()
        s.append("k 0 0")
        s.show()


AGREEMENT = "count_less", "level_over_the_configured", "first_count_zero", "total_wraps", "empty_row", "count_most", "count_most_less_one"
AGREEMENT += "total_less", "count_more", "total_most", "total_most_less_one"


def damaged_series(book):
    """Counts and rows agree as over f64, whatever the three numbers are; 9 where the count is full."""
    for kind, damages in (("e", SERIES), ("x", BUCKETS)):
        s = book.new(f"whole_series_damaged_{kind}")
        for name in AGREEMENT:
            if name in damages:
                s.configure(kind, number="i", temporality="c", **({"size": 3} if kind == "e" else {}))
                s.bind(0, "1:5")
                s.by(0, 1, 2, 2, -3, 0)
                for cell in damages[name]:
                    s.damage(*cell)
                s.record("1:5", 1)
                s.by(0, 2)
                s.collect()
                s.damage("e", 1, 2, 0)
                s.collect(2)
        s.show()


# Words (docs/LIST.md) of kept point 0, the point of 1, 2, 2, -3 and 0 under size 3, or under bounds 0 and 2.
KINDS = [(0, kind) for kind in (0, 1, 2, 3, 4, MOST)]
HELD = [(8, flags) for flags in (0, 1, 2, 4)]
HELD += [(9, number) for number in (0, INFINITY, NAN | 1, 2**63, MOST)] + [(10, number) for number in (0, 2**63, MOST - 2)]
HELD += [(11, number) for number in (0, NAN | 1, 2**63 - 1, 2**63 - 7, 2**63 - 6, 2**63)]
COUNTS = {"e": [(1, 4), (2, 0), (3, 21), (3, 2**32), (4, 2**32), (5, 4), (5, 161), (7, 0)], "x": [(1, 4), (2, 1), (3, 1), (5, 1), (5, 160), (6, 1), (7, 1)]}


def damaged_points(book):
    """Words that are no point's can't be read; of a point that disagrees 8; else any minimum, maximum and sum is one."""
    for kind, counts in COUNTS.items():
        s = book.new(f"whole_kept_point_damaged_{kind}")
        s.configure(kind, number="i", **({"size": 3, "scale": 0} if kind == "e" else {}))
        s.record("1:1", 1, 2, 2, -3, 0)
        s.record("2:1", 2, 4)
        s.collect()
        s.append("k 1 1")
        for word, number in KINDS + counts + HELD:
            s.keep(0)
            s.damage("w", 0, word, number)
            s.merge(2, 0, 1, 3)
            s.merge(2, 1, 0)
        s.show()


# Reading.

UNREAD = """\
n s i - - - 2 d 1 1 0
n l i - - - 2 d 1 1 0
n e I 4 10 - 2 d 1 1 0
n e - 4 10 - 2 d 1 1 0
n x i 4 10 - 2 d 1 1 0
n e i - - - 2 d 1 1 0
r 9223372036854775808 1:1
r -9223372036854775809 1:1
r 18446744073709551616 1:1
r -18446744073709551616 1:1
r 99999999999999999999999 1:1
r 3FF0000000000000 1:1
r 000000000000001 1:1
r -0 1:1
r +1 1:1
r 01 1:1
r -01 1:1
r 1.0 1:1
r - 1:1
r -- 1:1
r 1- 1:1
r  1:1
h 0 9223372036854775808
h 0 -9223372036854775809
h 0 -0
h 0 -
h 0 1 1
""".split("\n")[:-1]


def unread(book):
    """Nothing changes; a value is read by the number that is configured, so that 16 digits may be either."""
    for kind, s in each(book, "lines_that_cannot_be_read", temporality="c"):
        s.bind(0, "1:1")
        s += UNREAD
        s += ["r 1000000000000000 1:1", "r -1000000000000000 2:1", "h 0 4614253070214989087"]
        s.configure(kind, number="f")
        s += ["r 5 1:1", "r -1000000000000000 1:1", "r 1000000000000000 1:1", "h 0 0", "r 9223372036854775807 1:1"]
        s.collect()
        s.show()


def in_turn(book):
    """One kind behind another in the same stores, what lies in them from before being nobody's; what waits is kept by a line that can't be read."""
    s = book.new("whole_kinds_in_turn")
    for kind, number in ("ei", "ef", "xi", "xf", "ei", "sf", "xi", "lf", "ei"):
        s.filter(1, 2)
        s.append("n l i - - - 2 d 1 1 0")
        s.single(kind) if kind in "sl" else s.configure(kind, number=number)
        one, more = (2, LEAST) if number == "i" else (2.0, -1e300)
        s.record("2:2,1:1,3:3", one, more)
        s.bind(0, "3:3")
        s.by(0, one)
        s.collect()
        s.show()


def write(book):
    for part in (values, rescales, sums, corner, switches, cells, map_calls, orders, configurings, merging_orders):
        part(book)
    for part in (merged_sums, merged_without_sums, doubled, merged_rows, empty_points, beside_f64):
        part(book)
    for part in (damaged_held, held_stores, damaged_series, damaged_points, unread, in_turn):
        part(book)
