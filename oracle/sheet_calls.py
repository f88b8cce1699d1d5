"""Our calls sheet_write and sheet_read, by a shared library made of the static one, over lists of points in lent stores (docs/LIST.md)."""

import ctypes
import struct
import subprocess
from pathlib import Path
from typing import NamedTuple

from sheet import BOUNDS_MOST, COUNTS_MOST, POINTS_MOST, RECORD, RECORDS_MOST, Explicit, Header, bounds_of, head_words, set_words

ROOT = Path(__file__).resolve().parent.parent
ARCHIVE = ROOT / "target/staticlib/libsheet_exports.a"
SHARED = ROOT / "target/oracle/libsheet_exports.so"

GAP = 64  # bytes between two stores, which nobody may write
ELEMENT = (72, 96, 8, 8, 8)  # bytes
PLACES = POINTS_MOST + 1
LENGTHS = (PLACES, PLACES, PLACES * (COUNTS_MOST + 2), PLACES * (COUNTS_MOST + 2), PLACES * (BOUNDS_MOST + 3))  # room for wrong lists too


# Lists.


class List(NamedTuple):
    """What five stores hold: sets and words are rows of numbers, the others numbers; bounds are bits."""

    sets: list
    words: list
    pos: list
    neg: list
    bounds: list

    def lengths(self):
        return tuple(map(len, self))

    def parts(self):
        """The bytes of each store."""
        flat = [[word for row in rows for word in row] for rows in self[:2]] + list(self[2:])
        return [struct.pack(f"<{len(words)}Q", *words) for words in flat]


def rows_of(point):
    """Its counts in the two stores."""
    return (point.buckets, ()) if isinstance(point, Explicit) else (point.positive.counts, point.negative.counts)


def listed(points):
    """The list that a reader leaves: counts and bounds one point's behind the other's."""
    starts, bounds = [], []
    for point in points:
        starts.append(len(bounds))
        bounds += bounds_of(point)
    return list_with(points, starts, bounds)


def list_with(points, starts, bounds):
    """A list whose points' bounds lie where the starts say."""
    words = [head_words(point, start) for point, start in zip(points, starts)]
    pos, neg = ([count for point in points for count in rows_of(point)[side]] for side in (0, 1))
    return List([set_words(point.set) for point in points], words, pos, neg, bounds)


def scattered(draw, points):
    """A list whose bounds lie in any order, with others between, and shared where one point's are all of another's."""
    starts, bounds = {}, []
    for at in draw.sample(range(len(points)), len(points)):
        own = bounds_of(points[at])
        shared = next((starts[other] for other in starts if bounds_of(points[other])[: len(own)] == own), None)
        if shared is None or draw.random() < 0.5:
            bounds += [draw.getrandbits(64) for _ in range(draw.randrange(3))]
            shared = len(bounds)
            bounds += own
        starts[at] = shared
    return list_with(points, [starts[at] for at in range(len(points))], bounds)


# Lent memory.


class Block:
    """Bytes by chance that are lent, and what they were before."""

    def __init__(self, size, draw):
        self.before = draw.randbytes(size)
        self.block = bytearray(self.before)
        self.view = (ctypes.c_char * size).from_buffer(self.block)
        self.address = ctypes.addressof(self.view)
        assert self.address % 8 == 0

    def laid(self, pieces):
        """What they were, with (place, bytes) over it."""
        block = bytearray(self.before)
        for place, data in pieces:
            block[place : place + len(data)] = data
        return block

    def put(self, block):
        self.block[:] = block


class Bytes(Block):
    """The writer's output."""

    def __init__(self, draw):
        super().__init__(RECORDS_MOST * RECORD + 2 * GAP, draw)

    def with_sheet(self, data):
        return self.laid([(GAP, data)])


class Stores(Block):
    """The five stores of a list."""

    def __init__(self, draw):
        self.starts, end = [], GAP
        for length, size in zip(LENGTHS, ELEMENT):
            self.starts.append(end)
            end += length * size + GAP
        super().__init__(end, draw)

    def with_list(self, list_):
        return self.laid(zip(self.starts, list_.parts()))

    def lent(self, lengths):
        return [word for start, length in zip(self.starts, lengths) for word in (self.address + start, length)]


# The library.


def shared(archive):
    """The shared library of a static one. A shared one is taken as it is."""
    if not archive.exists():
        raise SystemExit(f"{archive} is not there: tools/build sheet_exports")
    if archive.suffix == ".so":
        return archive
    SHARED.parent.mkdir(parents=True, exist_ok=True)
    words = ["gcc", "-shared", "-o", str(SHARED), "-Wl,-Bsymbolic", "-Wl,--no-undefined"]
    subprocess.run([*words, "-Wl,--whole-archive", str(archive), "-Wl,--no-whole-archive"], check=True)
    return SHARED


class Library:
    """A slice is passed as where it begins and how long it is; an array as where it begins."""

    def __init__(self, archive):
        library = ctypes.CDLL(str(shared(archive)))
        slice_, number = [ctypes.c_void_p, ctypes.c_size_t], ctypes.c_uint64
        self.sheet_write, self.sheet_read = library.sheet_write, library.sheet_read
        self.sheet_write.argtypes = [number, number, number, ctypes.c_size_t, *slice_ * 6, ctypes.c_void_p]
        self.sheet_read.argtypes = [ctypes.c_char_p, ctypes.c_size_t, *slice_ * 5, ctypes.c_void_p]
        self.sheet_write.restype = self.sheet_read.restype = number
        self.size, self.header = (number * 1)(), (number * 4)()

    def write(self, header, many, stores, lengths, out, room):
        """The number, and how many bytes were written."""
        lent = [*stores.lent(lengths), out.address + GAP, room]
        number = self.sheet_write(header.start, header.time, int(header.delta), many, *lent, ctypes.addressof(self.size))
        return number, self.size[0]

    def read(self, data, stores, lengths):
        """The number, the header, and how many points there are."""
        number = self.sheet_read(data, len(data), *stores.lent(lengths), ctypes.addressof(self.header))
        start, time, delta, many = self.header
        return number, Header(start, time, delta), many
