"""Sums and last values (request L1): what they come to, what refuses them, and what their points can't be used for."""

from bits import GREATEST, INFINITY, SIGN
from cases.damaged import KEYS, LIMIT, every_call, state
from cases.lines import MOST, NAN, NINE, negative

KINDS = {"s": "sum", "l": "last"}
OTHER_NAN = 0x7FF0000000000001


def each(book, name, **settings):
    """A script for either kind, configured."""
    for kind, what in KINDS.items():
        s = book.new(f"{what}_{name}")
        s.single(kind, **settings)
        yield s


def idle(book):
    """Bound and never recorded: 0.0 at a cumulative collection, nothing at a delta; the empty set is listed once it is updated."""
    for temporality in "dcl":
        for s in each(book, f"bound_and_never_recorded_{temporality}", temporality=temporality, start=7):
            s.bind(0, "1:1")
            s.bind(1, "-")
            s.collect(8)
            s.by(0, 0.1, 0.2)
            s.by(1, 0.3)
            s.collect(9)
            s.release(0)
            s.release(1)
            s.collect(10)
            s.collect(11)
            s.by(0, 1.0)
            s.show()


def resets(book):
    """After a delta a series starts anew, whatever lies in its slot; slots move down when sets before them go."""
    for s in each(book, "reset_after_a_delta", limit=3):
        for time, sets in enumerate((("1:1", "2:2", "3:3"), ("2:2", "3:3"), ("3:3", "1:1"), ("4:4", "5:5", "6:6", "7:7"), ("7:7",), ())):
            for place, attributes in enumerate(sets):
                s.record(attributes, 10.0 * time + place, 0.25)
            s.collect(time)
            s.show()


def values(book):
    """Every value alone in its set, then the sum of all, rounded once for each: -0.0 added to 0.0 is 0.0, and is a last value."""
    ordinary = (-0.0, 0.1, 0.2, 1e16, 1.0, -1e16, 5e-324, GREATEST, negative(GREATEST))
    for temporality in "dc":
        for s in each(book, f"values_{temporality}", limit=62, temporality=temporality):
            for key, value in enumerate(ordinary):
                s.record(f"{key}:1", value)
                s.record("-", value)
            s.record("20:1", 1.0, -1.0)
            s.record("21:1", -0.0, -0.0)
            s.record("22:1", *ordinary)
            s.record("23:1", *reversed(ordinary))
            s.collect()
            s.collect(2)


def overflows(book):
    """A sum may overflow, stays infinite whatever is added, and starts anew after a delta; a last value is as it was given."""
    for temporality in "dc":
        for s in each(book, f"overflows_{temporality}", temporality=temporality):
            s.record("1:1", GREATEST, GREATEST)
            s.record("2:2", negative(GREATEST), negative(GREATEST))
            s.collect()
            s.record("1:1", negative(GREATEST), negative(GREATEST), negative(GREATEST))
            s.record("2:2", 1.0)
            s.collect(2)


def refusals(book):
    """Numbers 4 and 12 of configuring, 6, 5, 7, 10 and 12 of the other calls; what was lent for counts says nothing."""
    for s in each(book, "refused", limit=1):
        s.record("1:1", 1.0)
        s.record("1:1", INFINITY, INFINITY | SIGN, NAN, OTHER_NAN)
        s.record(NINE, 1.0, NAN)
        s.by(0, 1.0, NAN)
        s.bind(0, "1:1")
        s.by(0, 3.0, INFINITY, NAN)
        s.record("2:2", 2.0)
        s.collect(1, 1, 0)
        s.collect(1, 2, 0)
        s.collect(2, 0, 0)
    for kind, what in KINDS.items():
        s = book.new(f"{what}_stores_of_every_length")
        for counts, entries in ((0, None), (0, 2), (None, 3), (0, 4), (0, 0), (None, None)):
            s.lend(counts, entries)
            s.single(kind, limit=63)
            s.single(kind, limit=1)
            s.record("1:1", 1.0, NAN)
            s.bind(0, "1:1")
            s.by(0, 2.0)
            s.release(0)
            s.collect()


def unusual_values(book):
    """Values that no call leaves: any f64 is a sum, a NaN handed out as 7FF8000000000000; a last value that isn't finite is 8 where updated."""
    for name, bits in (("nan", NAN), ("other_nan", OTHER_NAN | SIGN), ("infinite", INFINITY | SIGN), ("finite", negative(0))):
        for s in each(book, f"holds_{name}", temporality="c"):
            s.bind(0, "1:1")
            s.damage("l", 1, 0, bits)
            s.record("2:2", 1.0)
            s.collect(1)
            s.by(0, 2.0)
            s.damage("l", 1, 0, bits)
            s.damage("l", 0, 0, bits)
            s.damage("l", 3, 0, bits)
            s.show()
            s.collect(2, 2)
            s.by(0, 2.0)
            s.by(0, INFINITY)
            s.by(9, 2.0)
            s.record("2:2", 1.0)
            s.collect(3)
            s.damage("e", 1, 2, 0)
            s.by(0, 4.0)
            s.collect(4)
            s.show()


def damaged_series(book):
    """8 of the empty set's series and of overflow's, where a recording ends in them and where they are collected; of no other's recording."""
    for s in each(book, "empty_set_and_overflow_damaged", limit=0):
        s.record("-", 1.0)
        s.record("1:1", 2.0)
        for slot, key, other in ((0, "-", "2:2"), (1, "3:3", "-")):
            s.damage("l", slot, 0, INFINITY)
            s.record(key, 3.0)
            s.record(other, 4.0)
            s.collect(1, 1)
            s.damage("l", slot, 0, 5.0)
            s.record(key, 6.0)
        s.collect(2)


def damaged_settings(book):
    """A limit and a filter that no accepted configuring leaves."""
    for kind, what in KINDS.items():
        s = book.new(f"{what}_settings_damaged")
        for cell, number in ((LIMIT, 0), (LIMIT, 62), (LIMIT, 63), (LIMIT, MOST), (KEYS, 16), (KEYS, 17)):
            s.filter(1, 2)
            s.single(kind, limit=1)
            s.bind(0, "1:5")
            s.by(0, 1.0)
            s.damage(*state(cell, number))
            every_call(s)
            s.show()


def kept(book):
    """A point that is one value can't be kept, also after another configuration; points kept before it stay."""
    for kind, what in KINDS.items():
        s = book.new(f"{what}_not_kept")
        for other in "ex":
            s.configure(other)
            s.record("1:1", 1.0)
            s.collect()
            s.keep(0)
            s.single(kind)
            s.keep(0)
            s.record("3:3", 2.0)
            s.record("4:4", 3.0)
            s.collect(1, 1)
            s.keep(0)
            s.collect(2)
            s.keep(0, 1)
            s.configure(other)
            s.keep(0)
            s.merge(1, 0, 0)
            s.collect(3)
            s.keep(0)
            s.show()


def other_kinds(book):
    """One kind behind another in the same stores; bounds and a filter that wait are gone behind any readable configuration."""
    s = book.new("kinds_in_turn")
    s.append("g 3FF0000000000000")
    for kind in "slxsellxe":
        s.filter(1, 2)
        s.single(kind) if kind in KINDS else s.configure(kind) if kind == "e" else s.explicit()
        s.record("2:2,1:1,3:3", 1.5, 2.5)
        s.bind(0, "3:3")
        s.by(0, 7.0)
        s.collect()
        s.show()


UNREAD = """\
n s f 3 - - 2 d 1 1 0
n l f - 4 - 2 d 1 1 0
n S f - - - 2 d 1 1 0
n s f - - - 2 d 1 1
d l 66 0 3FF0000000000000
d l 0 1 3FF0000000000000
d l 0 0 1
d l 0 0 7ff8000000000000
d L 0 0 3FF0000000000000
""".split("\n")[:-1]


def unread(book):
    for s in each(book, "lines_that_cannot_be_read", temporality="c"):
        s.record("1:1", 1.0)
        s += UNREAD
        s.damage("l", 65, 0, 2.0)
        s.damage("b", 0, 0, NAN)
        s.damage("v", 0, 6, 9)
        s.collect()
        s.show()


def write(book):
    for part in (idle, resets, values, overflows, refusals, unusual_values, damaged_series, damaged_settings, kept, other_kinds, unread):
        part(book)
