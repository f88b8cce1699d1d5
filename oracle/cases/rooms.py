"""Lent memory of every size: output for collections (number 10), stores of the map (number 12)."""

from bits import INFINITY
from cases.lines import NINE, inside, negative


def output(book):
    """Two points with 3 positive and 4 negative counts in all, then the empty list."""
    for temporality in "dcl":
        s = book.new(f"room_for_points_{temporality}")
        s.exponential(temporality=temporality, limit=5)
        s.record("1:1", inside(0), inside(2))
        s.record("2:1", *(negative(inside(i)) for i in (5, 8)))
        s.bind(0, "3:1")
        listed = 2 if temporality == "d" else 3
        for points, counts in ((0, None), (listed - 1, None), (listed, 0), (listed, 3), (0, 0), (1, 4), (listed, 4)):
            s.collect(1, points, counts)
        s.collect(2, 0, 0)
        s.collect(3, 66, 10560)
        s.collect(4, 4294967295, 4294967295)


def each_store(book):
    """Room is asked of each count store on its own: the other sign's counts don't count."""
    s = book.new("room_of_each_store")
    for sign in (0, 1):
        s.exponential()
        s.record("-", *(inside(i) | sign << 63 for i in range(4)))
        s.record("1:1", *(inside(i) | (1 - sign) << 63 for i in (1, 3)))
        for counts in (3, 4):
            s.collect(1, 2, counts)


def buckets(book):
    for bounds in ((), (0.0,), (0.0, 1.0, 2.0)):
        s = book.new(f"room_for_buckets_of_{len(bounds)}_bounds")
        s.explicit(*bounds)
        s.record("-", 1.0)
        s.record("1:1", 1.0, 5.0)
        need = 2 * len(bounds) + 2 if bounds else 0
        for points, counts in ((1, None), (2, 0), (2, max(need - 1, 0)), (2, need)):
            s.collect(1, points, counts)


def calls_in(s, kind, counts, entries):
    """Every call under stores of these lengths, with other reasons to be refused; then accepted ones."""
    s.lend(counts, entries)
    s.record(NINE, INFINITY)
    s.record("1:1", 1.0)
    s.by(0, 2.0)
    s.bind(1, "1:1")
    s.release(1)
    s.collect(1, 0)
    s.collect(1)
    s.configure(kind, limit=1)
    s.lend()
    s.configure(kind, limit=1)
    s.bind(0, "1:1")


def stores(book):
    """Limit 1: three entries, and in each count store 12 counts (explicit: 9 in one). None, one short, exact, one more."""
    for kind, counts in (("e", 12), ("x", 9)):
        s = book.new(f"stores_of_every_length_{kind}")
        s.configure(kind, limit=1)
        s.bind(0, "1:1")
        for lent in ((0, None), (counts - 1, None), (counts, 3), (counts + 1, 4), (counts, 2), (None, 0), (0, 0)):
            calls_in(s, kind, *lent)


def largest_stores(book):
    """The most that any configuration needs: 64 entries and 64 rows of 160."""
    s = book.new("stores_of_the_largest_configuration")
    for counts, entries in ((10239, 64), (10240, 63), (10240, 64)):
        s.lend(counts, entries)
        s.exponential(size=160, limit=62)
        s.explicit(*(float(i) for i in range(159)), limit=62)
        s.record("1:1", 1.0)
        s.collect()
    s.lend(0, 2)
    s.explicit(limit=0)
    s.record("1:1", 1.0)
    s.record("-", 1.0)
    s.collect()


def before_configuring(book):
    """Before an accepted configuration no call can be read, whatever is lent; a refused one changes nothing."""
    calls = ("r 3FF0000000000000 -", "b 0 -", "h 0 3FF0000000000000", "u 0", "c 1 - -", "k 0 0", "j 0 0 0 4 -")
    s = book.new("calls_before_any_configuration")
    for refused in (None, "n e f 2 10 - 2 d 1 1 0", "n e f 4 10 - 63 d 1 1 0", "m 0 0", "n e f 4 10 - 2 d 1 1 0"):
        s += [refused] if refused else []
        s += calls
    s.lend()
    s.exponential(start=5)
    s.record("1:1", 1.0)
    s.bind(0, "2:2")
    for refused in ("n e f 2 10 - 2 d 1 1 0", "n x f - - - 63 d 1 1 0", "n e f 3 -11 - 2 c 1 1 9"):
        s.append(refused)
        s.by(0, 1.0)
    s.collect(7)


def write(book):
    for part in (output, each_store, buckets, stores, largest_stores, before_configuring):
        part(book)
