"""Document 01's gauge marks that are run, by name, its miscuts, and its worked run."""

from bits import GREATEST, SIGN
from cases.lines import NINE, TINY, inside, negative

EIGHT = NINE.rsplit(",", 1)[0]


def worked_run(book):
    s = book.new("worked_run")
    s.exponential(start=100)
    s.record("1:5", 1.0, 2.0, 3.0, 0.0, -1.0)
    s.collect(200)


def sizes(book):
    """A row of exactly max_size counts of either sign, then one value more."""
    for size in (2, 3, 160, 161):
        s = book.new(f"mark_size_{size}")
        s.exponential(size=size)
        for sign in (0, 1):
            row = [inside(i - 7) for i in range(size)] if size in range(3, 161) else [1.0]
            s.record("-", *(map(negative, row) if sign else row))
        s.collect()
        s.record("-", *(inside(i - 7) for i in range(3)), inside(size - 7))
        s.collect(2)


def scales(book):
    for scale in (-11, -10, 10, 11):
        s = book.new(f"mark_scale_{scale}")
        s.exponential(size=4, scale=scale, limit=62)
        for key, value in enumerate((1.0, 2.0, 0x4000000000000001, 3.0, 1.5, TINY, GREATEST, 2.0**-1024, 0x0004000000000001)):
            s.record(f"{key}:1", value, negative(value))
        s.collect()


def attributes(book):
    for count, given in ((8, EIGHT), (9, NINE)):
        for kind in "ex":
            s = book.new(f"mark_attributes_{count}_{kind}")
            s.filter(1, 2)
            s.configure(kind)
            s.record(given, 1.0)
            s.bind(0, given)
            s.by(0, 2.0)
            s.configure(kind)
            s.record(given, 1.0)
            s.record(",".join(reversed(given.split(","))), 2.0)
            s.bind(0, given)
            s.record(",".join(["1:1"] * count), 1.0)
            s.collect()


def limits(book):
    """Sets of 1 to 8 attributes up to the limit, given in an order that scatters them; then two more."""
    for limit in (0, 62, 63):
        for kind in "ex":
            s = book.new(f"mark_limit_{limit}_{kind}")
            s.configure(kind, limit=limit)
            for i in range(limit if limit < 63 else 3):
                j = i * 37 % 62
                s.record(",".join(f"{j // 8 + k}:{1000 - j}" for k in range(1 + j % 8)), inside(j))
            s.record("77:1", 1.0)
            s.record("-", 1.0)
            s.bind(0, "78:1")
            s.collect()
            s.by(0, 2.0)
            s.record("77:1", 1.0)
            s.collect(2)


def filter_keys(book):
    for count in (16, 17):
        for kind in "ex":
            s = book.new(f"mark_filter_{count}_{kind}")
            s.filter(*range(100, 100 + count))
            s.configure(kind)
            s.record("115:1,116:2,99:3", 1.0)
            s.bind(0, "100:4,115:1")
            s.record("116:1", 1.0)
            s.collect()
            s.filter(*[7] * count)
            s.configure(kind)
            s.record("8:1,7:2,6:3", 1.0)
            s.collect()


def bound_counts(book):
    for count in (159, 160):
        s = book.new(f"mark_bounds_{count}")
        s.explicit(*(float(i) for i in range(count)))
        s.record("-", *(float(i) for i in range(-1, count, 5)), 158.0, 158.5, 5e-324, -0.0)
        s.collect()


def value_on_a_bound(book):
    s = book.new("mark_bounds_0_and_5")
    s.explicit(0.0, 5.0)
    s.record("-", 5.0)
    s.collect()


# Each script here answers otherwise under its miscut: oracle/mutants.py shows it.


def power_of_two_above(book):
    s = book.new("miscut_power_of_two")
    for scale in (10, 3, 0, -1, -10):
        s.exponential(size=160, scale=scale, limit=62)
        for key, exponent in enumerate((-1074, -1073, -1023, -1022, -1, 0, 1, 2, 512, 1023)):
            s.record(f"{key}:1", 2.0**exponent)
        s.collect()


def halved_toward_zero(book):
    s = book.new("miscut_offset_halved_toward_zero")
    for offset in (-1, -2, -3, -5, -7, -8):
        s.exponential(size=3)
        s.record("1:1", inside(offset), inside(offset + 4))
        s.record("2:1", *(negative(inside(i)) for i in (offset, offset + 2, offset + 20)))
        s.collect()


def one_row_rescaled(book):
    s = book.new("miscut_one_row_rescaled")
    for far in (3, 5, 1000, 100000):
        for sign in (0, SIGN):
            s.exponential(size=3)
            s.record("-", *(inside(i) ^ sign for i in (1, 2, 3)), *(inside(i) ^ sign ^ SIGN for i in (-9, -9 + far)))
            s.collect()


def idle_bound_removed(book):
    for kind in "ex":
        s = book.new(f"miscut_idle_bound_removed_{kind}")
        s.configure(kind)
        s.bind(0, "1:1")
        s.record("2:2", 1.0)
        for time in (1, 2, 3):
            s.collect(time)
        s.by(0, 1.0)
        s.bind(1, "1:1")
        s.record("3:3", 1.0)
        s.record("4:4", 1.0)
        s.collect(4)
        s.release(0)
        s.collect(5)
        s.release(1)
        s.collect(6)
        s.by(1, 1.0)
        s.bind(2, "1:1")
        s.by(0, 1.0)


def overflow_counted(book):
    """Overflow made by a value sent there, two sets removed after it: as many new ones fit as before."""
    for kind in "ex":
        s = book.new(f"miscut_overflow_counted_{kind}")
        s.configure(kind)
        for key in (1, 2, 3):
            s.record(f"{key}:1", 1.0)
        for time in (1, 2):
            s.collect(time)
        for key in (4, 5, 6):
            s.record(f"{key}:1", 1.0)
        s.collect(3)


def write(book):
    for part in (worked_run, sizes, scales, attributes, limits, filter_keys, bound_counts, value_on_a_bound):
        part(book)
    for part in (power_of_two_above, halved_toward_zero, one_row_rescaled, idle_bound_removed, overflow_counted):
        part(book)
