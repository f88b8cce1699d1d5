"""Bindings and handles, and what collections do to entries: removals, moves of slots, resets, starts."""

from cases.lines import NAN, OVERFLOW


def handles(book):
    for kind in "ex":
        s = book.new(f"handles_{kind}")
        s.configure(kind, limit=3)
        s.release(0)
        s.by(0, 1.0)
        s.bind(1, "1:1")
        s.bind(0, "-")
        s.by(1, 1.0)
        s.by(0, 2.0)
        s.release(1)
        s.release(1)
        s.by(1, 1.0)
        s.bind(1, "1:1")
        s.bind(2, "1:1")
        for _ in range(3):  # the second release of one handle takes the other's binding
            s.release(1)
        s.by(2, 1.0)
        for _ in range(2):
            s.release(0)
        s.record("1:1", 2.0)
        for handle, key in ((3, "2:1"), (4, "3:1"), (5, "4:1"), (6, "5:1")):  # two go to overflow
            s.bind(handle, key)
            s.by(handle, float(handle))
        s.by(6, NAN)
        for _ in range(3):
            s.release(5)
        s.by(6, 1.0)
        s.collect()
        s.show()


def new_configuration(book):
    """It empties all places: they hold 0 again."""
    s = book.new("handles_after_a_new_configuration")
    s.exponential()
    s.bind(1, "1:1")
    s.bind(2, "-")
    s.exponential(scale=0)
    s.by(1, 1.0)
    s.by(2, 1.0)
    s.bind(3, "-")
    s.by(1, 1.0)
    s.release(99)
    s.release(3)
    s.collect()


def bound_through_deltas(book):
    """Bound and idle: it stays, keeps its number, counts against the limit, and goes when it was released."""
    for kind in "ex":
        s = book.new(f"bound_idle_through_deltas_{kind}")
        s.configure(kind)
        s.bind(0, "1:1")
        s.bind(1, "2:2")
        s.bind(2, "3:3")
        for time in range(1, 4):
            s.collect(time)
            s.bind(2 + time, "1:1")
        s.by(0, 1.0)
        s.by(2, 2.0)
        s.collect(4)
        for handle in (1, 2, 0):
            s.release(handle)
            s.collect(5 + handle)
            s.record("7:7", 1.0)
        s.by(1, 1.0)
        s.by(2, 1.0)
        s.by(3, 1.0)
        s.collect(9)
        s.show()


def spent_handles(book):
    """A set that was removed and comes again has another number."""
    s = book.new("handles_of_removed_sets")
    s.exponential(limit=3)
    for handle, key in enumerate(("1:1", "2:2", "1:1", "2:2")):
        s.bind(handle, key)
        s.release(handle)
        s.collect()
        s.by(handle, 1.0)
    for handle in range(4):
        s.by(handle, 1.0)
        s.release(handle)
    s.bind(4, "2:2")
    s.bind(5, "1:1")
    s.by(3, 1.0)
    s.by(4, 2.0)
    s.collect()
    s.show()


def overflow_bound(book):
    for kind in "ex":
        s = book.new(f"overflow_bound_{kind}")
        s.configure(kind, limit=0)
        s.bind(0, "1:1")
        s.bind(1, OVERFLOW)
        s.bind(2, "-")
        s.by(0, 1.0)
        s.record("9:9", 3.0)
        s.collect()
        for handle in (0, 1, 2, 0):
            s.release(handle)
        s.collect(2)
        s.by(0, 1.0)
        s.bind(3, "2:2")
        s.by(0, 1.0)
        s.collect(3)


def bound_never_recorded(book):
    """Cumulative: every named entry is listed, one without a value with no extremes; the empty series only if recorded into."""
    for temporality in "cl":
        for kind in "ex":
            s = book.new(f"bound_never_recorded_{temporality}_{kind}")
            s.configure(kind, temporality=temporality, start=7)
            s.bind(0, "2:1")
            s.bind(1, "-")
            s.record("3:1", 1.0)
            s.bind(2, "1:1")
            s.collect(9)
            s.release(0)
            s.collect(8)
            s.by(1, -1.0)
            s.by(2, 5.0)
            s.collect(10)
            s.collect(10)
            s.show()


def removals(book):
    """Slots that stay move down in the order of birth; the freed ones serve new sets, with fresh series."""
    for kind in "ex":
        s = book.new(f"delta_removals_{kind}")
        s.configure(kind, limit=5)
        for key in (5, 3, 1, 4, 2):
            s.record(f"{key}:1", float(key), -float(key))
        s.collect()
        s.show()
        s.record("4:1", 40.0)
        s.bind(0, "2:1")
        s.collect(2)
        s.show()
        for key in (9, 0, 5):
            s.record(f"{key}:1", float(key))
        s.by(0, 7.0)
        s.record("8:1", 1.0)
        s.collect(3)
        s.show()
        s.collect(4)
        s.collect(5)
        s.show()


def overflow_stays(book):
    """The overflow entry moves but is never removed; the count falls by those removed only."""
    s = book.new("delta_overflow_stays")
    s.exponential(limit=2)
    for key in ("1:1", OVERFLOW, "2:2", "3:3"):
        s.record(key, 1.0)
    for time in range(1, 4):
        s.collect(time)
        s.show()
    for key in ("4:4", "5:5", "6:6"):
        s.record(key, 1.0)
    s.collect(4)
    s.show()


def starts(book):
    """A delta hands out the held start and holds its own time; a cumulative collection leaves it; a refused one too; times may go back."""
    for temporality in "dcl":
        s = book.new(f"starts_{temporality}")
        s.exponential(temporality=temporality, start=100)
        s.record("-", 1.0)
        for time, points in ((200, 0), (150, None), (2**64 - 1, None), (0, None), (5, None)):
            s.collect(time, points)
            s.record("1:1", 1.0)


def idle_empty_set(book):
    """The empty series is listed only if updated; without bindings it stays all the same."""
    for temporality in "dc":
        s = book.new(f"idle_empty_set_{temporality}")
        s.exponential(temporality=temporality)
        s.record("1:1", 1.0)
        s.collect()
        s.bind(0, "-")
        s.collect(2)
        s.by(0, 2.0)
        s.collect(3)
        s.collect(4)
        s.release(0)
        s.collect(5)


def write(book):
    for part in (handles, new_configuration, bound_through_deltas, spent_handles, overflow_bound, bound_never_recorded):
        part(book)
    for part in (removals, overflow_stays, starts, idle_empty_set):
        part(book)
