"""Many values in one call, by set (`R`) and by handle (`H`): taken up to the first that is refused, and nothing asked of an empty list."""

from bits import GREATEST, INFINITY, SIGN
from cases.damaged import COUNT, LAST, SIZE, state
from cases.damaged_series import count, figure, total
from cases.lines import MOST, NAN, NINE, OVERFLOW, TINY

FLOATS, WHOLES = ("ef", "xf", "sf", "lf"), ("ei", "xi")
MOST_I, LEAST_I = 2**63 - 1, -(2**63)


def each(book, name, kinds=FLOATS + WHOLES, **settings):
    """A script for each kind, configured."""
    for kind in kinds:
        s = book.new(f"batch_{name}_{kind}")
        begin(s, kind, **settings)
        yield kind, s


def begin(s, kind, **settings):
    s.configure(kind[0], **settings, **({"number": "i"} if kind[1] == "i" else {}))


def values(kind, *numbers):
    """Numbers of a kind."""
    return [int(n) if kind[1] == "i" else float(n) for n in numbers]


# Without damage.


def taken(book):
    """None, one and more, with zeros and both signs; into the empty set, a set that is there, and by handle, between single recordings."""
    for kind, s in each(book, "taken", limit=4):
        some = values(kind, 1, -2, 0, 3, 3, -7)
        s.bind(0, "2:1")
        for attributes in ("-", "1:1", "1:1"):
            for n in (0, 1, 6):
                s.all(attributes, *some[:n])
            s.record(attributes, some[0])
        for n in (6, 0, 2):
            s.all_by(0, *some[:n])
        s.record("2:1", some[3])
        s.all("1:2,2:1,1:3", *some)
        s.collect(1)
        s.collect(2)


REFUSED = NAN, INFINITY, INFINITY | SIGN


def refused_values(book):
    """At the first place, in the middle and at the last: what lies before is taken, nothing behind. A set whose first value is refused is not made."""
    for kind, s in each(book, "refused_values", FLOATS, limit=9, temporality="c"):
        s.bind(0, "2:1")
        for key, bad in enumerate(REFUSED):
            for place in range(3):
                some = [1.0, 2.0, -4.0]
                some[place] = bad
                s.all(f"1:{key}", *some)
                s.all_by(0, *some)
            s.all(f"1:{key}", 1.0, bad, bad)
        s.all("3:1", NAN, 1.0)
        s.all("3:1", NAN)
        s.all("4:1", 1.0, NAN)
        s.collect(1)


def lowered(book):
    """Rows that must be lowered within a batch, by one level and by twenty."""
    s = book.new("batch_lowered")
    for size in (3, 4, 160):
        s.exponential(size=size, limit=4)
        s.bind(0, "2:1")
        s.all("1:1", 1.0, 1.001, 1.002, 1.003, 2.0, -2.0, 0.0)
        s.all("1:1", GREATEST, TINY, GREATEST | SIGN, TINY | SIGN)
        s.all_by(0, 1.0, GREATEST, 1.0, TINY, 2.0)
        s.all("3:1", *[GREATEST] * 14)
        s.collect(1)


def sums_left(book):
    """16 at the first place, in the middle and at the last, though the whole list would add up; with the sum off none; a delta starts anew."""
    for sums in (True, False):
        for kind, s in each(book, f"sum_{'on' if sums else 'off'}", WHOLES, limit=2, sums=sums):
            s.bind(0, "2:1")
            s.all("1:1", MOST_I, 1, -1)
            s.all("1:1", 1, -1)
            s.all("1:1", -1, 1, 1)
            s.all("1:1", LEAST_I, LEAST_I, MOST_I)
            s.all_by(0, LEAST_I, -1)
            s.all_by(0, -1, 5)
            s.all_by(0, 5, -4, -1, -1)
            s.all("3:1", MOST_I - 1, 2)  # overflow's
            s.all("4:1", 1, 1)
            s.all("4:1", 1)
            s.collect(1)
            s.all("1:1", MOST_I)
            s.all_by(0, LEAST_I, MOST_I, 1, LEAST_I)
            s.collect(2)


def handles(book):
    """7 by a place that holds none, by a released handle, and by one whose set is gone."""
    for kind, s in each(book, "handles"):
        some = values(kind, 1, 2)
        s.all_by(5, *some)
        s.bind(5, "-")
        s.all_by(5, *some)
        s.all_by(6, *some)  # holds 0 too
        s.bind(0, "1:1")
        s.bind(1, "1:1")
        s.release(0)
        s.all_by(0, *some)
        s.release(1)
        s.all_by(1, *some)
        s.collect(1)
        s.collect(2)
        s.all_by(1, *some)
        s.all_by(1)
        s.bind(2, "1:1")
        s.all_by(1, *some)
        s.all_by(2, *some)
        s.collect(3)


def made(book):
    """A batch makes its set once, and overflow where the limit is reached; each spends one birth number."""
    for kind, s in each(book, "made", limit=1, temporality="c"):
        some = values(kind, 1, 2, 3)
        s.all("1:1", *some)
        s.all("1:2", *some)
        s.all("1:3", *some)
        s.all(OVERFLOW, *some)
        s.all("1:1", *some)
        s.bind(0, "1:9")
        s.all_by(0, *some)
        s.collect(1)
        begin(s, kind, limit=0)
        s.all("1:1", *some)
        s.all("-", *some)
        s.collect(2)
        begin(s, kind, limit=3)
        s.all(OVERFLOW, *some)
        s.all("1:1", *some)
        s.collect(3)
    s = book.new("batch_filtered")
    s.filter(1, 2)
    s.exponential()
    s.all("3:1,2:5", 1.0, 2.0)
    s.all("3:1", 3.0, NAN)
    s.all("2:5,3:7,1:1", 4.0)
    s.collect()


def last_slot(book):
    """Under the greatest limit: the last set that may be made, and overflow in the last slot."""
    for kind, s in each(book, "last_slot", ("ef", "xi", "sf"), limit=62):
        some = values(kind, 1, 2, 3)
        for key in range(61):
            s.all(f"1:{key}", *some[: key % 4])
        for key in (0, 4, 8, *range(100, 113)):
            s.record(f"1:{key}", some[0])
        for key in range(61, 70):
            s.all(f"1:{key}", *some)
        s.collect(1)
        s.all("1:5", *some)
        s.collect(2)
        s.all("1:100", *some)
        s.all("2:100", *some)
        s.collect(3)


def between_collections(book):
    for temporality in "dc":
        for kind, s in each(book, f"between_{temporality}", temporality=temporality, limit=2):
            some = values(kind, 5, -1, 2)
            s.bind(0, "1:1")
            for time in range(1, 6):
                s.all("1:2", *some[: time % 3])
                s.all_by(0, *some[: (time + 1) % 4])
                s.all("-", *some[: time % 2])
                s.collect(time, 0 if time == 3 else None)
                s.record("1:1", some[0])


def lent(book):
    """12 where stores are short; by an empty list nothing is asked."""
    for kind, s in each(book, "lent", limit=2):
        some = values(kind, 1, 2)
        s.bind(0, "1:1")
        for counts, entries in ((None, 4), (None, 3), (None, 0), (12, None), (11, None), (0, None), (0, 0)):
            s.lend(counts, entries)
            s.all("1:1", *some)
            s.all_by(0, *some)
            s.all("1:1")
            s.all(NINE)
            s.all_by(9)
        s.lend()
        s.collect()


UNREAD = """\
R
R 
R -
R - 
R  -
R - - -
R , -
R -, -
R -,3FF0000000000000 -
R 3FF0000000000000
R 3FF0000000000000, -
R ,3FF0000000000000 -
R 3FF0000000000000,,3FF0000000000000 -
R 3FF0000000000000,- -
R 3FF0000000000000,3FF -
R 3FF0000000000000,3ff0000000000000 -
R 3FF00000000000003FF0000000000000 -
R 3FF0000000000000;3FF0000000000000 -
R 3FF0000000000000,1 -
R 3FF0000000000000 1
R 3FF0000000000000 1:1,
R - 1:
R 1,2 -
R -- -
H
H 0
H 0 
H - -
H 100 -
H 00 -
H 0 3FF0000000000000,
H 0 3FF0000000000000 -
H 0 1
H 3FF0000000000000 0
""".split("\n")[:-1]
UNREAD_WHOLE = ["R 1,-0 -", "R 01 -", "R 1,+2 -", "R 1, -", "R 9223372036854775808 -", "R 1,-9223372036854775809 -", "R 3FF0000000000000 -", "H 0 1,,2"]


def lines(book):
    """What can't be read changes nothing, and a list is read as a whole before any of it is asked; 100 values can be, and 255 bytes."""
    s = book.new("batch_lines")
    s += ["R - -", "H 0 -", "R 3FF0000000000000 -", "H 0 3FF0000000000000"]
    s.exponential(limit=1)
    s.bind(0, "1:1")
    s += UNREAD
    s.all("1:1", *[1.0] * 14)
    s.all("1:1", *[1.0] * 15)
    full = "R " + ",".join(["3FF0000000000000"] * 14) + " 10000:1000"
    s += [full + "0" * (most - len(full)) for most in (255, 256)]
    s.all_by(0, *[1.0] * 14)
    s.collect()
    s = book.new("batch_lines_whole")
    s.explicit(number="i")
    s += UNREAD + UNREAD_WHOLE
    for n in (99, 100, 101, 120):
        s.all("1:1", *[7] * n)
        s.all_by(0, *[7] * n)
    s.bind(0, "1:1")
    s.all_by(0, *range(10, 82), *[-3] * 12)
    s.all("1:1", *[LEAST_I, MOST_I] * 6, 1)
    s.collect()


# With damage.

FULL = {
    "e": [figure(0, MOST - 2), figure(1, MOST - 6)],  # five values, one of them zero, in slot 1 under size 3
    "x": [total(MOST - 2), count(0, MOST - 5)],
}


def five(s, kind, **settings):
    """Five values in slot 1, bound in place 0, as damaged_series.py has them."""
    begin(s, kind, **settings, **({"size": 3} if kind[0] == "e" else {}))
    s.bind(0, "1:5")
    s.all_by(0, *values(kind, 1, 2, 2, -3, 0))


def full_counts(book):
    """9 in mid-batch, by set and by handle: two values are counted, the third is not."""
    for kind in ("ef", "xf", "ei", "xi"):
        for by_set in (True, False):
            s = book.new(f"batch_full_{'set' if by_set else 'handle'}_{kind}")
            five(s, kind)
            for cell in FULL[kind[0]]:
                s.damage(*cell)
            some = values(kind, 1, 0, 2, 4)
            ask = (lambda *given: s.all("1:5", *given)) if by_set else (lambda *given: s.all_by(0, *given))
            ask(some[0])
            ask(*some)
            s.show()
            ask(*some)
            ask()
            s.all("2:5", *some)
            s.show()
            s.collect()


def spent_births(book):
    """9 for a set that can't be made; one birth number serves a whole batch."""
    for kind, s in each(book, "spent_births"):
        some = values(kind, 1, 2, 3)
        s.damage(*state(LAST, MOST - 1))
        s.all("1:1", *some)
        s.all("1:2", *some)
        s.all("1:1", *some)
        s.all("-", *some)
        s.all("1:2")
        s.show()
        s.collect()


def every_batch(s, kind):
    """With a value, a set or a handle to be refused, and without; a value that isn't finite behind one that is refused for the map is not looked at."""
    some = values(kind, 1, 2)
    bad = [NAN] if kind[1] == "f" else []
    for attributes in (NINE, "1:5", "2:5", "-", "9:9"):
        s.all(attributes, *bad, *some)
        s.all(attributes, *some, *bad)
        s.all(attributes)
    for handle in (0, 9):
        s.all_by(handle, *bad, *some)
        s.all_by(handle, *some, *bad)
        s.all_by(handle)
    s.show()


DIRECTORY = {
    "slot_twice": ("o", 0, 0, 2),
    "nine_attributes": ("s", 1, 8, 9),
    "birth_of_the_next": ("e", 1, 0, 2),
    "birth_most": ("e", 2, 0, MOST),
    "count_most": state(COUNT, MOST),
    "slots_most": state(0, MOST),
    "last_too_low": state(LAST, 1),
    "limit_63": state(3, 63),
    "limit_most": state(3, MOST),
}


def damaged_directories(book):
    for place, (name, cell) in enumerate(DIRECTORY.items()):
        kinds = FLOATS + WHOLES
        for kind in (kinds[place % 6], kinds[(place + 3) % 6]):
            s = book.new(f"batch_directory_{name}_{kind}")
            five(s, kind)
            s.all("2:5", *values(kind, 1, 2))
            s.damage(*cell)
            every_batch(s, kind)
            s.collect()


SERIES = {"e": (figure(0, 9), count(0, 5), ("f", 1, 2, 21)), "x": (total(9), count(0, 5)), "l": (("l", 1, 0, NAN),), "s": (("l", 1, 0, NAN),)}


def damaged_series(book):
    """8 by the series that is recorded into, not by one beside it, and not by what lies in a slot that is not updated. A sum may be a NaN."""
    for kind in FLOATS + WHOLES:
        for place, cell in enumerate(SERIES[kind[0]]):
            s = book.new(f"batch_series_{place}_{kind}")
            five(s, kind)
            s.damage(*cell)
            every_batch(s, kind)
            s.damage("e", 1, 2, 0)
            every_batch(s, kind)
            s.collect()


def damaged_settings(book):
    s = book.new("batch_setting_size")
    for size in (0, 2, 161, 4, 3):
        five(s, "ef")
        s.damage(*state(SIZE, size))
        every_batch(s, "ef")
    s = book.new("batch_setting_bounds")
    for bound in (NAN, 5.0, -1.0):
        five(s, "xi")
        s.damage("b", 0, 0, bound)
        every_batch(s, "xi")


def nothing_asked(book):
    """An empty list with everything wrong at once: the stores short, the directory and the series damaged, the set too long, the handle released."""
    for kind in FLOATS + WHOLES:
        s = book.new(f"batch_nothing_asked_{kind}")
        five(s, kind)
        s.release(0)
        for cell in (*SERIES[kind[0]], *DIRECTORY.values()):
            s.damage(*cell)
        s.lend(0, 0)
        s.show()
        s.all(NINE)
        s.all("1:5")
        s.all_by(0)
        s.all_by(9)
        s.show()
        s.all(NINE, *values(kind, 1))
        s.all_by(0, *values(kind, 1))
        s.show()


def write(book):
    for part in (taken, refused_values, lowered, sums_left, handles, made, last_slot, between_collections, lent, lines):
        part(book)
    for part in (full_counts, spent_births, damaged_directories, damaged_series, damaged_settings, nothing_asked):
        part(book)
