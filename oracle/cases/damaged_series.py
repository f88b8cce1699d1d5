"""Damaged series: refused by the calls that touch them, in nobody's way otherwise."""

from bits import GREATEST, INFINITY, SIGN, index
from cases.lines import MOST, NAN, TINY, inside
from words import bias

WORD = 2**32

# Cells of a series in slot 1 under size 3: values 1.0, 2.0, 2.0, -3.0 and 0.0, positive counts 1, 0, 2, negative 1, one zero.


def figure(cell, number):
    return "f", 1, cell, number


def extreme(cell, number):
    return "m", 1, cell, number


def count(place, number, store="p"):
    return store, 3 + place, 0, number


def lone_row(level, start, number=3, sign=0):
    """One count in a row of one sign, nothing in the other."""
    cells = [(0, number), (1, 0), (2, level), (3, 0), (4, 0), (5, 0), (6, 0), (3 + 2 * sign, start), (4 + 2 * sign, 1)]
    return [*(figure(*cell) for cell in cells), count(0, number, "pn"[sign])]


def range_ends():
    """Rows at both ends of the range of indices, and one beyond."""
    for level in (20, 13, 10, 9, 3, 1, 0):
        for name, end, beyond in (("least", index(TINY, level - 10), -1), ("greatest", index(GREATEST, level - 10), 1)):
            for off in (0, beyond):
                start = end + off + bias(level)
                if start >= 0:
                    yield f"row_{'beyond' if off else 'at'}_{name}_at_{level - 10}", lone_row(level, start)


SERIES = {
    "none": [],
    "count_less": [figure(0, 4)],
    "count_more": [figure(0, 6)],
    "count_zero": [figure(0, 0)],
    "zeros_less": [figure(1, 0)],
    "zeros_most": [figure(1, MOST)],
    "level_over_the_configured": [figure(2, 21)],
    "level_2_32": [figure(2, WORD)],
    "level_most": [figure(2, MOST)],
    "row_longer_than_size": [figure(4, 4)],
    "row_of_most": [figure(4, MOST)],
    "empty_row_with_a_start": [figure(4, 0)],
    "empty_row_count_wrong": [figure(4, 0), figure(3, 0)],
    "empty_row": [figure(4, 0), figure(3, 0), figure(0, 2)],
    "empty_negative_row_with_a_start": [figure(6, 0), figure(0, 4)],
    "empty_negative_row": [figure(6, 0), figure(5, 0), figure(0, 4)],
    "negative_row_ends_in_zero": [figure(6, 2)],
    "first_count_zero": [count(0, 0), figure(0, 4)],
    "last_count_zero": [count(2, 0), figure(0, 3)],
    "row_shorter": [count(2, 0), figure(4, 1), figure(0, 3)],
    "count_in_a_row_more": [count(0, 2)],
    "total_wraps": [count(0, MOST, "n"), figure(0, 3)],
    "row_total_wraps": [count(0, 2**63), count(1, 2**63), figure(0, 4)],
    "counts_behind_the_row": [count(1, 9, "n"), count(2, 9, "n")],
    "start_zero": [figure(3, 0)],
    "start_2_32": lone_row(20, WORD),
    "start_most": [figure(3, MOST)],
    **dict(range_ends()),
    "negative_row_at_greatest": lone_row(20, index(GREATEST, 10) + bias(20), sign=1),
    "negative_row_beyond_greatest": lone_row(20, index(GREATEST, 10) + bias(20) + 1, sign=1),
    "min_infinite": [extreme(0, INFINITY)],
    "min_nan": [extreme(0, NAN)],
    "max_infinite": [extreme(1, INFINITY | SIGN)],
    "max_nan": [extreme(1, NAN)],
    "sum_nan": [extreme(2, NAN)],
    "sum_infinite": [extreme(2, INFINITY)],
    "min_above_max": [extreme(0, 1e300), extreme(1, -40.0)],
    "spare_word": [figure(7, 9)],
    "count_most": lone_row(20, bias(20), MOST),
    "count_most_less_one": lone_row(20, bias(20), MOST - 1),
    "zeros_of_most": [figure(0, MOST), figure(1, MOST), figure(3, 0), figure(4, 0), figure(5, 0), figure(6, 0)],
    "count_and_zeros_of_most": [figure(0, MOST), figure(1, MOST - 4)],
    "configured_level_zero": [("v", 0, 5, 0)],
}


def total(number):
    return "t", 1, 0, number


# The same values under bounds 0 and 2: counts 2, 3, 0.
BUCKETS = {
    "none": [],
    "total_less": [total(4)],
    "total_more": [total(6)],
    "count_less": [count(0, 0)],
    "count_more": [count(2, 1)],
    "total_wraps": [count(1, MOST), total(1)],
    "total_wraps_in_three": [count(0, 2**63), count(1, 2**63), count(2, 5), total(5)],
    "total_most": [count(0, 0), count(1, MOST), total(MOST)],
    "total_most_less_one": [count(0, 0), count(1, MOST - 1), total(MOST - 1)],
    "min_infinite": [extreme(0, INFINITY | SIGN)],
    "min_nan": [extreme(0, NAN)],
    "max_infinite": [extreme(1, INFINITY)],
    "max_nan": [extreme(1, NAN)],
    "sum_nan": [extreme(2, NAN)],
    "cells_of_the_other_kind": [figure(0, 9), count(0, 9, "n")],
}


def damaged_series(s, cells):
    """It is touched by recording and collecting, not by calls beside it; in an entry that is not updated it is no series."""
    s.bind(0, "1:5")
    s.by(0, 1.0, 2.0, 2.0, -3.0, 0.0)
    for cell in cells:
        s.damage(*cell)
    s.record("2:5", 1.0)
    s.bind(1, "1:5")
    s.release(1)
    s.record("1:5", 1.0)
    s.by(0, 2.0)
    s.record("1:5", NAN)
    s.by(9, 2.0)
    s.collect(1)
    s.show()
    s.damage("e", 1, 2, 0)
    s.collect(2)
    s.record("1:5", 7.25)
    s.collect(3)


def series(book):
    for name, cells in SERIES.items():
        s = book.new(f"series_{name}")
        s.exponential(size=3, temporality="c")
        damaged_series(s, cells)
    for name, cells in BUCKETS.items():
        s = book.new(f"buckets_{name}")
        s.explicit(0.0, 2.0, temporality="c")
        damaged_series(s, cells)


NO_VALUES = {"e": [figure(cell, 0) for cell in (0, 3, 4)], "x": [total(0), count(1, 0)]}


def shown(book):
    """Request L4: an updated series shows the extremes that it holds, the starting ones too, if it counts a value, and else none; numbers they
    must be at any count and under either switch."""
    for kind, cells in NO_VALUES.items():
        for switch in (True, False):
            s = book.new(f"series_shown_{kind}_{'on' if switch else 'off'}")
            s.configure(kind, temporality="c", extremes=switch, **({"size": 3} if kind == "e" else {}))
            s.record("1:5", 1.0)
            starts = [extreme(0, GREATEST), extreme(1, GREATEST | SIGN)]
            for damage in (starts, [extreme(0, NAN)], [extreme(0, 1.0)], cells, [extreme(1, INFINITY)], [extreme(1, 1.0)]):
                for cell in damage:
                    s.damage(*cell)
                s.collect()
            s.record("1:5", 0.5)
            s.collect()


ROWS = {
    "20_of_2_32": [2**32] * 20,
    "15_of_2_60": [2**60] * 15,
    "16_of_2_60": [2**60] * 16,
    "most": [2**63, 2**63 - 1],
    "two_of_2_63": [2**63, 2**63],
    "one_and_most": [1, MOST],
}


def full_rows(book):
    """Rows whose counts total near 2^64 or more, with a count that is the total, or the total modulo 2^64."""
    for name, counts in ROWS.items():
        s = book.new(f"series_counts_{name}")
        s.exponential(size=20, temporality="c")
        s.record("1:5", inside(0), inside(len(counts) - 1))
        for zeros in (0, 1):
            for place, number in enumerate(counts):
                s.damage("p", 20 + place, 0, number)
            s.damage(*figure(0, (sum(counts) + zeros) % 2**64))
            s.damage(*figure(1, zeros))
            s.record("1:5", inside(0))
            s.collect()


def empty_slot(book):
    """The series of the empty set, in slot 0."""
    for kind, cell in (("e", ("f", 0, 0, 9)), ("x", ("t", 0, 0, 9))):
        s = book.new(f"series_of_the_empty_set_{kind}")
        s.configure(kind)
        s.record("-", 1.0)
        s.damage(*cell)
        s.record("-", 1.0)
        s.record("1:1", 1.0)
        s.collect()
        s.damage("e", 0, 2, 0)
        s.collect(2)
        s.record("-", 5.0)
        s.collect(3)


def idle_damage(book):
    """A damaged series that is not updated: neither refused nor listed, bound or not, and fresh when recorded into again."""
    for kind, cells in (("e", (figure(0, 9), figure(2, 21), count(0, 5))), ("x", (total(9), count(1, 77)))):
        for temporality in "dc":
            s = book.new(f"idle_damage_{kind}_{temporality}")
            s.configure(kind, temporality=temporality, **({"size": 3} if kind == "e" else {}))
            s.bind(0, "1:5")
            for cell in (*cells, extreme(0, NAN)):
                s.damage(*cell)
            s.record("2:5", 1.0)
            s.collect()
            s.by(0, 2.0)
            s.collect(2)
            s.show()


def no_buckets(book):
    """Without bounds the total is free."""
    s = book.new("total_without_bounds")
    s.explicit()
    s.record("1:1", 1.0)
    for number in (0, 7, MOST - 1):
        s.damage("t", 1, 0, number)
        s.record("1:1", 1.0)
    s.record("1:1", 1.0)
    s.collect()


def write(book):
    for part in (series, shown, full_rows, empty_slot, idle_damage, no_buckets):
        part(book)
