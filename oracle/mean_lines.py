"""The lines of the program mean_run: a point by few fields, and what is printed for it.

    mean_lines.py < LINES       prints exactly what mean_run prints

    x COUNT SWITCH MIN MAX SUM BOUND FIRST SECOND           explicit: one bound, two buckets
    e COUNT SWITCH MIN MAX SUM SCALE ZEROS FIRST LEN NEG    exponential: LEN positive counts from index 0 on, FIRST and then ones;
                                                            NEG counts at the negative index 0, none if it is 0

SWITCH is 0 or 1; MIN and MAX are bits or `-` for none, SUM and BOUND bits. SCALE is -10 to 20: above 10 a point disagrees. LEN is at most
200: above 160 it disagrees. With LEN 0 FIRST is the offset, which is 0 of an empty row that agrees.
"""

import sys

from bits import to_float
from card import shown
from points import EMPTY_ROW, ExplicitPoint, ExponentialPoint
from script import LINE_MOST, Unreadable, optional, read_bits, read_number, read_switch, split_lines, u64

UNREAD = "?"
SCALES = range(-10, 21)
LENGTHS = range(0, 201)


def read_float(field):
    return to_float(read_bits(field))


def read_in(numbers):
    return read_number(min(numbers), max(numbers))


def explicit(count, switch, low, high, total, bound, first, second):
    return ExplicitPoint((), "f", switch, count, low, high, total, (first, second), (bound,))


def exponential(count, switch, low, high, total, scale, zeros, first, length, negative):
    rows = [(0, (first, *[1] * (length - 1))) if length else (first, ()), (0, (negative,)) if negative else EMPTY_ROW]
    return ExponentialPoint((), "f", switch, 0.0, count, zeros, scale, low, high, total, *rows)


HELD = [u64, read_switch, optional(read_float), optional(read_float), read_float]
READERS = {
    "x": (explicit, [*HELD, read_bits, u64, u64]),
    "e": (exponential, [*HELD, read_in(SCALES), u64, u64, read_in(LENGTHS), u64]),
}


def point_of(line):
    letter, *parts = line.split(" ")
    if len(line) > LINE_MOST or letter not in READERS or len(parts) != len(READERS[letter][1]):
        raise Unreadable(line)
    made, readers = READERS[letter]
    return made(*(read(part) for read, part in zip(readers, parts)))


def answered(line):
    try:
        return shown(point_of(line))
    except Unreadable:
        return UNREAD


def answer(text):
    """All that the program prints for an input; bytes are read as Latin-1, so that each is one character."""
    return "".join(f"{answered(line)}\n" for line in split_lines(text))


def main():
    sys.stdout.write(answer(sys.stdin.buffer.read().decode("latin-1")))


if __name__ == "__main__":
    main()
