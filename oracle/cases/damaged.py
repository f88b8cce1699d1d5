"""Damaged directories and settings: what every call answers, and what it leaves."""

from bits import INFINITY, SIGN
from cases.lines import MOST, NAN, NINE

WORD = 2**32
OVERFLOW_WORD = MOST - WORD + 2  # of attribute 4294967295:1
USED, COUNT, LAST, LIMIT, SIZE, LEVEL, BOUNDS, KEYS = range(8)  # cells of the state


def state(cell, number):
    return "v", 0, cell, number


OVERFLOW_HELD = ("s", 2, 0, OVERFLOW_WORD), ("o", 0, 0, 3), ("o", 1, 0, 1), ("o", 2, 0, 2)

# Of sets 1:5, 2:5 and 1:4,2:5, in slots 1, 2 and 3; limit 4.
DIRECTORIES = {
    "none": (),
    "not_ascending": (("o", 0, 0, 2), ("o", 1, 0, 1)),
    "slot_twice": (("o", 2, 0, 1),),
    "slot_twice_and_none": (("o", 0, 0, 1),),
    "slot_of_the_empty_set": (("o", 0, 0, 0),),
    "slot_beyond": (("o", 1, 0, 4),),
    "slot_far_beyond": (("o", 1, 0, WORD - 1),),
    "equal_sets": (("s", 2, 0, WORD + 5),),
    "no_attribute": (("s", 1, 8, 0),),
    "nine_attributes": (("s", 1, 8, 9),),
    "most_attributes": (("s", 1, 8, MOST),),
    "keys_of_zero": (("s", 3, 8, 8),),
    "equal_keys": (("s", 3, 1, WORD + 9),),
    "falling_keys": (("s", 3, 1, 5),),
    "another_set_in_its_place": (("s", 3, 1, 3 * WORD),),
    "words_behind_a_set": (("s", 1, 7, 77),),
    "set_of_the_empty_slot": (("s", 0, 8, 99),),
    "birth_of_the_empty_slot": (("e", 0, 0, 99),),
    "birth_zero": (("e", 1, 0, 0),),
    "birth_twice": (("e", 2, 0, 1),),
    "birth_of_the_next": (("e", 2, 0, 3),),
    "birth_not_spent": (("e", 3, 0, 4),),
    "birth_most": (("e", 3, 0, MOST),),
    "last_too_low": (state(LAST, 2),),
    "last_higher": (state(LAST, 100),),
    "one_slot_less": (state(USED, 2),),
    "one_slot_and_count_less": (state(USED, 2), state(COUNT, 2)),
    "one_slot_more": (state(USED, 4),),
    "slots_over_the_limit": (state(USED, 6),),
    "slots_most": (state(USED, MOST),),
    "count_less": (state(COUNT, 2),),
    "count_more": (state(COUNT, 4),),
    "count_most": (state(COUNT, MOST),),
    "count_over_the_limit": (state(LIMIT, 2),),
    "overflow_counted": OVERFLOW_HELD,
    "overflow_not_counted": (*OVERFLOW_HELD, state(COUNT, 2)),
    "overflow_count_less": (*OVERFLOW_HELD, state(COUNT, 1)),
}


def every_call(s):
    """With a value, a set or a handle to be refused, and without."""
    s.record(NINE, NAN)
    s.record(NINE, 1.0)
    s.record("1:5", 1.0)
    s.record("-", 2.0)
    s.by(0, 2.0)
    s.by(9, 2.0)
    s.bind(1, "1:6")
    s.bind(2, NINE)
    s.release(0)
    s.release(9)
    s.collect(5, 0)
    s.collect(5)


def directories(book):
    for place, (name, cells) in enumerate(DIRECTORIES.items()):
        for kind in "ex" if place % 6 == 0 else "e":
            s = book.new(f"directory_{name}_{kind}")
            s.configure(kind, limit=4)
            s.bind(0, "1:5")
            s.record("2:5", 1.0)
            s.record("1:4,2:5", 2.0)
            for cell in cells:
                s.damage(*cell)
            every_call(s)
            s.show()


SETTINGS = [(SIZE, n) for n in (0, 2, 3, 161, 176, 177, 2**31, 2**32 - 1)] + [(LEVEL, n) for n in (0, 21, 2**32 - 1)]
SETTINGS += [(LIMIT, n) for n in (0, 62, 63, 64, 65, 2**32 - 2, 2**63, MOST - 2, MOST - 1, MOST)]


def settings(book):
    """Settings that no accepted configuring leaves, and other ones than the series were made under."""
    for cell, number in SETTINGS:
        s = book.new(f"setting_{('size', 'level', 'limit')[(SIZE, LEVEL, LIMIT).index(cell)]}_{number}")
        s.exponential(limit=1)
        s.bind(0, "1:5")
        s.by(0, 1.0)
        s.damage(*state(cell, number))
        every_call(s)
        s.show()


def bounds(book):
    s = book.new("setting_bounds")
    for place, number in ((0, NAN), (1, 1.0), (1, 0.5), (1, INFINITY), (0, INFINITY | SIGN), (2, NAN), (2, INFINITY)):
        s.explicit(1.0, 2.0, 3.0, limit=1)
        s.bind(0, "1:5")
        s.by(0, 1.0)
        s.damage("b", place, 0, number)
        every_call(s)
    for number in (0, 2, 160):
        s.explicit(1.0, 2.0, 3.0, limit=1)
        s.damage(*state(BOUNDS, number))
        every_call(s)


def filter_keys(book):
    s = book.new("setting_filter_keys")
    for number in (0, 1, 17, 33):
        s.filter(1, 2)
        s.exponential()
        s.bind(0, "1:5,2:5")
        s.damage(*state(KEYS, number))
        every_call(s)


def spent(book):
    """Number 9: birth numbers and binding counts."""
    for kind in "exsl":
        s = book.new(f"spent_numbers_{kind}")
        s.configure(kind)
        s.bind(0, "1:5")
        s.damage(*state(LAST, MOST - 1))
        s.record("1:6", 1.0)
        for key in ("2:5", "-", "1:5", "1:6"):  # overflow would be new
            s.record(key, 1.0)
            s.bind(3, key)
        s.by(3, 1.0)
        s.release(3)
        for slot, key, handle in ((1, "1:5", 0), (0, "-", 9)):
            s.damage("e", slot, 1, MOST)
            s.bind(handle, key)
            s.release(handle)
            s.bind(handle, key)
            s.bind(handle, key)
        s.damage("e", 1, 2, 7)  # updated is zero or not
        s.by(0, 1.0)
        s.collect()
        s.show()


def shown(book):
    """Before and after calls of either kind, refused ones too: a refused call leaves every cell."""
    for kind in "ex":
        s = book.new(f"cells_after_calls_{kind}")
        s.show()
        s.configure(kind, limit=3, start=100)
        s.show()
        s.record("2:1,1:5", 1.0)
        s.record("2:1", -1.0, 7.0)
        s.bind(0, "7:7")
        s.show()
        s.record("2:1", INFINITY)
        s.record(NINE, 1.0)
        s.by(5, 1.0)
        s.collect(150, 1)
        s.configure(kind, limit=63)
        s.show()
        s.collect(200)
        s.show()
        s.collect(300)
        s.show()
        s.configure(kind, limit=3)
        s.show()


NOT_THERE = ["d q 0 0 0", "d s 66 0 0", "d s 0 9 0", "d e 0 3 0", "d o 0 0 4294967296", "d o 0 1 0", "d p 10560 0 0", "d n 0 1 0", "d t 0 1 0", "d f 0 8 0"]
NOT_THERE += ["d b 200 0 0000000000000000", "d b 0 0 0", "d m 0 0 0", "d m 0 3 0000000000000000", "d v 0 8 0", "d w 8 0 0", "d w 0 12 0"]
NOT_THERE += ["d P 0 160 0", "d P 8 0 0"]
NOT_THERE += ["d B 0 200 0000000000000000", "d B 8 0 0000000000000000", "d s 0 0", "d s 0 0 -1", "d s 0 0 18446744073709551616", "d s 00 0 0", "s 1", "s "]


def not_there(book):
    s = book.new("damage_that_is_not_there")
    s += NOT_THERE
    s.show()


def write(book):
    for part in (directories, settings, bounds, filter_keys, spent, shown, not_there):
        part(book)
