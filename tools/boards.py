#!/usr/bin/env python3
"""Boards in millimetres to the gauge program's lines, and back.

    boards.py [FILE]         rows of blade, species, deviation in decimal millimetres to the gauge's input
    boards.py --back [FILE]  the gauge's input to such rows; what the gauge printed to rows of points

FILE is CSV, or standard input if absent:

    blade,species,deviation               a first row that is no board and names these three is passed over
    1,2,-0.131                            a board: blade 1, species 2, 0.131 mm below the mark
    collect,36000                         a collection at that time
    configure,160,10,30,21600             max_size, max_scale, limit and start; without it in front of all boards: 160, 10, 30, 0

A deviation becomes the f64 nearest to it, as every program reads a decimal; back, an f64 becomes all its decimal digits, so that nothing is
rounded on the way. Back, a collection's points are rows point,BLADE,SPECIES,BOARDS,AT ZERO,SCALE,LEAST,GREATEST,SUM. A row that can't be
taken is named on standard error and left out, and the exit status is then 1.
"""
import argparse
import csv
import re
import struct
import sys
from decimal import Decimal
from math import isfinite

DEFAULT = "e 160 10 30 0"
STEP = 100_000  # rows between two lines of progress
NATURAL, INTEGER = "0|[1-9][0-9]*", "0|-?[1-9][0-9]*"
DECIMAL = r"[+-]?([0-9]+\.?[0-9]*|\.[0-9]+)([eE][+-]?[0-9]+)?"
HEADING = ["blade", "species", "deviation"]


def whole(text, most, what, form=NATURAL):
    if not re.fullmatch(form, text) or int(text) > most:
        raise ValueError(f"{what} {text!r} is no whole number up to {most}, written without a plus sign or leading zeros")
    return text


def bits(text):
    """The bits of the f64 nearest to a decimal number."""
    if not re.fullmatch(DECIMAL, text):
        raise ValueError(f"the deviation {text!r} is no decimal number")
    if not isfinite(float(text)):
        raise ValueError(f"the deviation {text!r} is above every f64")
    return struct.pack(">d", float(text)).hex().upper()


def decimal(text):
    """All digits of the f64 that has these bits."""
    if not re.fullmatch("[0-9A-F]{16}", text):
        raise ValueError(f"{text!r} is not the bits of an f64")
    number = struct.unpack(">d", bytes.fromhex(text))[0]
    if not isfinite(number):
        return str(number)
    return f"{Decimal(number):f}"


def line_of(row):
    """The gauge's line of a row."""
    if row[0] == "configure" and len(row) == 5:
        size, scale, limit, start = row[1:]
        parts = (whole(size, 160, "max_size"), whole(scale, 10, "max_scale", INTEGER), whole(limit, 30, "the limit"), whole(start, 2**64 - 1, "the start"))
        return "e " + " ".join(parts)
    if row[0] == "collect" and len(row) == 2:
        return "c " + whole(row[1], 2**64 - 1, "the time")
    if len(row) != 3:
        raise ValueError(f"{len(row)} fields, where a board has 3: blade, species, deviation")
    return f"r {bits(row[2])} 1:{whole(row[0], 2**32 - 1, 'blade')},2:{whole(row[1], 2**32 - 1, 'species')}"


def lines(file):
    """The gauge's lines of a file, and for each row that can't be taken its number and why."""
    begun = False
    for number, row in enumerate(csv.reader(file, skipinitialspace=True), 1):
        row = [field.strip() for field in row]
        if not row or (number == 1 and [field.lower() for field in row] == HEADING):
            continue
        try:
            line = line_of(row)
        except ValueError as why:
            yield number, None, why
            continue
        if not begun and not line.startswith("e "):
            yield number, DEFAULT, None
        begun = True
        yield number, line, None


def set_of(text):
    found = re.fullmatch("1:([0-9]+),2:([0-9]+)", text)
    if not found:
        raise ValueError(f"the set {text} is not a blade and a species (1:BLADE,2:SPECIES)")
    return ",".join(found.groups())


def row_of(text):
    """The row of a line that the gauge reads or prints."""
    letter, *fields = text.split(" ")
    if letter == "e" and len(fields) == 4:
        return "configure," + ",".join(fields)
    if letter == "r" and len(fields) == 2:
        return f"{set_of(fields[1])},{decimal(fields[0])}"
    if letter == "c" and len(fields) in (1, 3):
        return f"collect,{fields[0] if len(fields) == 1 else fields[1]}"
    if letter == "p" and len(fields) == 9:
        shown = (text if text == "-" else decimal(text) for text in fields[4:7])
        return ",".join(["point", set_of(fields[0]), *fields[1:4], *shown])
    raise ValueError(f"{text[:60]!r} is no line of the gauge")


def rows(file):
    for number, text in enumerate(file, 1):
        try:
            yield number, row_of(text.rstrip("\n")), None
        except ValueError as why:
            yield number, None, why


def main():
    parser = argparse.ArgumentParser(description=__doc__, formatter_class=argparse.RawDescriptionHelpFormatter)
    parser.add_argument("file", nargs="?", help="standard input if absent")
    parser.add_argument("--back", action="store_true", help="from the gauge's lines to rows")
    given = parser.parse_args()
    file = open(given.file, newline="", encoding="utf-8-sig") if given.file else sys.stdin
    lost, told = 0, 0
    for number, text, why in (rows if given.back else lines)(file):
        if why:
            lost += 1
            print(f"boards: row {number}: {why}", file=sys.stderr)
        else:
            print(text)
        if number >= told + STEP:
            told = number - number % STEP
            print(f"boards: {told:,} rows", file=sys.stderr)
    if lost:
        print(f"boards: {lost} rows left out", file=sys.stderr)
    sys.exit(1 if lost else 0)


if __name__ == "__main__":
    try:
        main()
    except BrokenPipeError:  # whoever reads this wants no more
        sys.stderr.close()
