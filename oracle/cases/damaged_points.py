"""Damaged words, counts and bounds of kept points: which are no points, and which a merge refuses with number 8."""

from bits import GREATEST, INFINITY, SIGN, index
from cases.lines import MOST, NAN, TINY
from words import bias

WORD = 2**32

# Words (docs/LIST.md) and counts of kept point 0, the point of 1.0, 2.0, 2.0, -3.0 and 0.0 under size 3: positive counts 1, 0, 2, negative 1.
LOW, HIGH = index(TINY, 0) + bias(10), index(GREATEST, 0) + bias(10)
WORDS = [(0, 1), (0, 2), (1, 4), (1, 6), (1, MOST), (2, 0), (2, MOST), (3, 21), (3, WORD - 1), (3, WORD), (4, LOW - 1), (4, LOW), (4, HIGH), (4, HIGH - 2)]
WORDS += [(4, 0), (4, WORD), (5, 0), (5, 2), (5, 4), (5, 160), (5, 161), (5, MOST), (6, 0), (6, LOW - 1), (6, HIGH), (6, HIGH + 1), (7, 0), (7, 2), (7, 161)]
WORDS += [(8, 0), (8, 1), (8, 2), (8, 4), (9, INFINITY), (9, NAN), (9, NAN | 1), (10, INFINITY | SIGN), (10, NAN), (11, INFINITY), (11, NAN), (11, NAN | 1)]
CELLS = [("P", 0, 0), ("P", 1, 7), ("P", 2, 0), ("P", 2, MOST), ("P", 3, 9), ("N", 0, 0), ("N", 0, MOST), ("N", 1, 5)]

# The same values under bounds 0 and 2: counts 2, 3, 0.
EXPLICIT_WORDS = [(0, 0), (1, 4), (1, MOST), (2, 1), (3, 1), (5, 0), (5, 1), (5, 160), (5, MOST), (6, 1), (7, 1), (8, 1), (8, 2), (10, NAN)]
EXPLICIT_CELLS = [("P", 0, 0), ("P", 1, MOST), ("P", 3, 9), ("N", 0, 9), ("B", 0, NAN), ("B", 0, 2.0), ("B", 0, -0.0), ("B", 1, INFINITY), ("B", 2, NAN)]


def each_damaged(s, words, cells):
    """Points 0 and 1 kept, the first damaged in each way, and merged both ways."""
    s.record("1:1", 1.0, 2.0, 2.0, -3.0, 0.0)
    s.record("2:1", 2.0, 4.0)
    s.collect()
    for store, cell, number in [("w", *word) for word in words] + cells:
        s.keep(0, 1)
        s.damage(store, 0, cell, number)
        s.merge(2, 0, 1, 3)
        s.merge(2, 1, 0, 160)
    s.show()


# Flags (1: the switch is on; 2 more: extremes are shown), minimum and maximum of a kept point; and of an explicit one without bounds, whose
# count nothing else tells, the count.
STARTS = GREATEST, GREATEST | SIGN
SHOWN = [(flags, 0, 0) for flags in (0, 1)] + [(flags, *pair) for flags in (2, 3) for pair in ((0, 0), STARTS, (0, INFINITY))]
COUNTS = (None, 0, 1, MOST)


def shown_damaged(s, counts=(None,)):
    """Request L4: point 0 of a bound set without a value, point 1 of values; each with other flags, extremes and counts, merged with both."""
    s.bind(0, "1:1")
    s.record("2:1", 3.0, -3.0)
    s.collect()
    for place in (0, 1):
        for held in SHOWN:
            for count in counts:
                s.keep(0, 1)
                for cell, number in zip((8, 9, 10), held):
                    s.damage("w", place, cell, number)
                if count is not None:
                    s.damage("w", place, 1, count)
                s.merge(2, place, 1 - place)
                s.merge(2, 1 - place, place)
                s.merge(2, place, place)
    s.show()


def write(book):
    for kind in "ex":
        s = book.new(f"kept_point_shown_{kind}")
        s.configure(kind, temporality="c")
        shown_damaged(s)
    s = book.new("kept_point_shown_without_bounds")
    s.explicit(temporality="c")
    shown_damaged(s, COUNTS)
    s = book.new("kept_point_damaged")
    s.exponential(size=3, scale=0)
    each_damaged(s, WORDS, CELLS)
    s = book.new("kept_explicit_point_damaged")
    s.explicit(0.0, 2.0)
    each_damaged(s, EXPLICIT_WORDS, EXPLICIT_CELLS)
