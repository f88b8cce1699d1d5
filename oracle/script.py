"""The language of the call scripts and of their answers (docs/REPLAY.md), shared by all programs of this directory."""

import re
import sys
from dataclasses import dataclass, fields
from typing import Optional

from bits import to_bits

LINE_MOST = 255
HANDLES = 100
KEPT = 8
WAITING_BOUNDS = 200
WAITING_KEYS = 32
VALUES_MOST = 100  # of one line
OVERFLOW = ((4294967295, 1),)
FLOAT_STORES = "mbBl"
HELD_STORE = "m"  # min, max and sum: of f64, or of i64 where that is configured
SINGLE_KINDS = "sl"  # a series is one value


class Unreadable(Exception):
    """A line that is not of the language."""


@dataclass(frozen=True)
class Bounds:
    bounds: tuple  # bits


@dataclass(frozen=True)
class Filter:
    keys: tuple


@dataclass(frozen=True)
class Stores:
    counts: Optional[int]
    entries: Optional[int]


@dataclass(frozen=True)
class Configure:
    kind: str
    number: str
    size: Optional[int]
    scale: Optional[int]
    threshold: Optional[int]  # bits
    limit: int
    temporality: str
    extremes: bool
    sum: bool
    start: int


@dataclass(frozen=True)
class Record:
    value: str  # as written: its form depends on the number kind configured
    set: tuple


@dataclass(frozen=True)
class Bind:
    handle: int
    set: tuple


@dataclass(frozen=True)
class RecordBound:
    handle: int
    value: str


@dataclass(frozen=True)
class RecordAll:
    """Many values recorded one after another, up to the first that is refused."""

    values: tuple  # as written
    set: tuple


@dataclass(frozen=True)
class RecordAllBound:
    handle: int
    values: tuple


@dataclass(frozen=True)
class Release:
    handle: int


@dataclass(frozen=True)
class Collect:
    time: int
    points: Optional[int]
    counts: Optional[int]


@dataclass(frozen=True)
class Keep:
    point: int
    place: int


@dataclass(frozen=True)
class Merge:
    point: int
    first: int
    second: int
    size: int
    counts: Optional[int]


@dataclass(frozen=True)
class NewSettings:
    size: int
    scale: int


@dataclass(frozen=True)
class Damage:
    store: str
    place: int
    cell: int
    number: str  # as written: its form depends on the store, and on the number kind configured


@dataclass(frozen=True)
class Show:
    """The map's state, and a checksum of every cell of each store."""


# Reading and writing single fields.

DECIMAL = re.compile(r"0|-?[1-9][0-9]*")
BITS = re.compile(r"[0-9A-F]{16}")


def read_number(low, high):
    def read(field):
        if not DECIMAL.fullmatch(field) or not low <= int(field) <= high:
            raise Unreadable(field)
        return int(field)

    return read


def read_bits(field):
    if not BITS.fullmatch(field):
        raise Unreadable(field)
    return int(field, 16)


def read_word(*words):
    def read(field):
        if field not in words:
            raise Unreadable(field)
        return field

    return read


def read_switch(field):
    return read_word("0", "1")(field) == "1"


def optional(read):
    return lambda field: None if field == "-" else read(field)


def read_list(item):
    return lambda field: () if field == "-" else tuple(item(part) for part in field.split(","))


def read_attribute(field):
    parts = field.split(":")
    if len(parts) != 2:
        raise Unreadable(field)
    return u32(parts[0]), u32(parts[1])


def read_plain(field):
    return field


def read_values(field):
    values = read_list(read_plain)(field)
    if len(values) > VALUES_MOST:
        raise Unreadable(field)
    return values


u32 = read_number(0, 2**32 - 1)
u64 = read_number(0, 2**64 - 1)
i8 = read_number(-128, 127)
i64 = read_number(-(2**63), 2**63 - 1)
handle = read_number(0, HANDLES - 1)
kept = read_number(0, KEPT - 1)
read_set = read_list(read_attribute)


def write_bits(bits):
    return f"{bits:016X}"


def write_list(items, none="-"):
    return ",".join(items) or none


def write_set(attributes):
    return write_list(f"{key}:{value}" for key, value in attributes)


def write_number(number):
    return "-" if number is None else str(int(number))


def write_threshold(bits):
    return "-" if bits is None else write_bits(bits)


# One entry a kind of line: its letter, its class, and how each field is read and written.

READERS = {
    "g": (Bounds, [read_list(read_bits)]),
    "f": (Filter, [read_list(u32)]),
    "m": (Stores, [optional(u64), optional(u64)]),
    "n": (
        Configure,
        [
            read_word("e", "x", "s", "l"),
            read_word("f", "i"),
            optional(u32),
            optional(i8),
            optional(read_bits),
            u32,
            read_word("d", "c", "l"),
            read_switch,
            read_switch,
            u64,
        ],
    ),
    "r": (Record, [read_plain, read_set]),
    "b": (Bind, [handle, read_set]),
    "h": (RecordBound, [handle, read_plain]),
    "R": (RecordAll, [read_values, read_set]),
    "H": (RecordAllBound, [handle, read_values]),
    "u": (Release, [handle]),
    "c": (Collect, [u64, optional(u32), optional(u32)]),
    "k": (Keep, [kept, u32]),
    "j": (Merge, [kept, kept, kept, u32, optional(u32)]),
    "t": (NewSettings, [u32, i8]),
    "d": (Damage, [read_word(*"seofmpntbvwPNBl"), u32, u32, read_plain]),
    "s": (Show, []),
}

BATCHES = RecordAll, RecordAllBound
LETTERS = {made: letter for letter, (made, _) in READERS.items()}
WRITERS = {
    "set": write_set,
    "bounds": lambda bounds: write_list(map(write_bits, bounds)),
    "keys": lambda keys: write_list(map(str, keys)),
    "threshold": write_threshold,
    "kind": str,
    "number": str,
    "temporality": str,
    "value": str,
    "values": write_list,
    "store": str,
}


def read_line(line):
    """The call of a line, None for a comment."""
    if line.startswith("#"):
        return None
    if len(line) > LINE_MOST or not line.isascii():
        raise Unreadable(line)
    letter, *parts = line.split(" ")
    if letter not in READERS or len(parts) != len(READERS[letter][1]):
        raise Unreadable(line)
    made, readers = READERS[letter]
    call = made(*(read(part) for read, part in zip(readers, parts)))
    if isinstance(call, Configure):
        check_form(call)
    return call


def check_form(configure):
    """Size and scale are given for the exponential kind and for no other; a threshold is allowed there."""
    exponential = configure.kind == "e"
    given = [configure.size is not None, configure.scale is not None]
    if given != [exponential, exponential] or (configure.threshold is not None and not exponential):
        raise Unreadable(configure)


def write_line(call):
    parts = (WRITERS.get(f.name, write_number)(getattr(call, f.name)) for f in fields(call))
    return " ".join([LETTERS[type(call)], *parts])


def read_value(field, number):
    """The value of a field as bits (number kind f) or as a whole number (i)."""
    return read_bits(field) if number == "f" else i64(field)


def holds_bits(store, number):
    """Whether a cell of a store is written as bits, under a number kind."""
    return store in FLOAT_STORES and (store, number) != (HELD_STORE, "i")


def read_cell(call, number):
    """What a cell is set to: the bits of an f64, or a u64; an i64 by its two's complement."""
    return read_bits(call.number) if holds_bits(call.store, number) else u64(call.number)


def damage(store, place, cell, number, kind="f"):
    """The line that sets a cell, under a number kind."""
    return Damage(store, place, cell, write_bits(number) if holds_bits(store, kind) else str(number % 2**64))


def split_lines(text):
    """Lines end with a newline, which may be missing at the end; no other character parts them."""
    lines = text.split("\n")
    return lines[:-1] if lines[-1] == "" else lines


def split_scripts(text):
    """The scripts, or the answers, of a file: a dict from name to lines."""
    scripts = {}
    for line in split_lines(text):
        if line.startswith("= "):
            lines = scripts.setdefault(line[2:], [])
        else:
            lines.append(line)
    return scripts


def join_scripts(scripts):
    return "".join(f"= {name}\n" + "".join(f"{line}\n" for line in lines) for name, lines in scripts.items())


def answer_file(answers):
    """Prints what a function of a script's lines answers to the scripts of the input."""
    scripts = split_scripts(sys.stdin.read())
    sys.stdout.write(join_scripts({name: answers(lines) for name, lines in scripts.items()}))


# Answers.


def refusal(line, number):
    return f"! {line} {number}"


def unreadable(line):
    return f"? {line}"


def write_taken(taken, number):
    """Of many values: how many were taken, and the number that refused the next one, 0 if none did."""
    return f"a {taken} {number}"


def read_taken(answer):
    return tuple(map(int, answer.split(" ")[1:]))


def write_held(value):
    """A minimum, maximum, sum or last value: a float as bits, a whole number as decimals, an extreme not kept as `-`."""
    if value is None:
        return "-"
    return write_bits(to_bits(value)) if isinstance(value, float) else str(value)


def write_row(row):
    offset, counts = row
    return f"{offset}:{write_list(map(str, counts), '')}"


def write_point(point):
    """The line of a point (points.py)."""
    return point.letter + " " + " ".join([write_set(point.set), *point.fields()])
