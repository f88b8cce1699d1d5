"""The scripts that crates/replay is held to, made by small functions, one subject a file."""

from cases import batches, bindings, damaged, damaged_points, damaged_series, marks, merges, orders, rescales, rooms, sets, singles, unread, wholes
from cases.lines import Book

PARTS = (marks, sets, unread, bindings, rooms, rescales, merges, orders, damaged, damaged_series, damaged_points, singles, wholes, batches)


def scripts():
    book = Book()
    for part in PARTS:
        part.write(book)
    return dict(book)


def is_damaged(lines):
    """Whether only the model of the stores can answer: the reference, over lists of values, knows no cells."""
    return any(line[:2] == "d " or line == "s" for line in lines)
