"""Reading what the gauge program prints, for picture.py: collections of points, each of bins in millimetres."""

import re
import struct
from dataclasses import dataclass, field
from decimal import Context, Decimal, getcontext

getcontext().prec = 60  # of which at most 6 digits are shown

INFINITY = Decimal("Infinity")
OVERFLOW = "4294967295:1"
NAMES = {"1": "blade", "2": "species"}
TOLD = 10  # so many lines that can't be read are named


# ---- numbers


def f64(bits):
    """The exact value of 16 hexadecimal digits; infinite and NaN as Decimal has them."""
    if not re.fullmatch("[0-9A-F]{16}", bits):
        raise ValueError(bits)
    return Decimal(struct.unpack(">d", bytes.fromhex(bits))[0])


def bound(index, scale):
    """2^(index / 2^scale) to 60 digits, by square roots and products; no logarithm and no float is taken."""
    if scale <= 0:
        return Decimal(2) ** (index << -scale)
    result, root = Decimal(2) ** (index >> scale), Decimal(2)
    for bit in reversed(range(scale)):
        root = root.sqrt()
        if index >> bit & 1:
            result *= root
    return result


def shown(number, digits=4):
    """A number rounded to some digits. Trailing zeros tell that it was rounded: 1.000 is near 1, and 1 is 1."""
    if not number.is_finite():
        return {"Infinity": "∞", "-Infinity": "−∞"}.get(str(number), "not a number")
    rounded = Context(prec=digits).plus(number)
    rounded = rounded.normalize() if rounded == number else rounded
    if number == 0 or -5 <= rounded.adjusted() < 6:
        return f"{rounded:f}".replace("-", "−")
    power = str(rounded.adjusted()).translate(str.maketrans("-0123456789", "⁻⁰¹²³⁴⁵⁶⁷⁸⁹"))
    return f"{rounded.scaleb(-rounded.adjusted()):f}·10{power}".replace("-", "−")


def power_of_two(exponent):
    """2 to the exponent, exactly: its digits while they are few, else as a power."""
    if exponent < 20:
        return str(1 << exponent)
    return "2" + str(exponent).translate(str.maketrans("0123456789", "⁰¹²³⁴⁵⁶⁷⁸⁹"))


def spaced(count):
    return f"{count:,}".replace(",", "\u202f")


def round_step(width):
    """The largest of 1, 2, 5, 10, 20, .. (also 0.1, 0.2, ..) that is not above a width."""
    power = Decimal(1).scaleb(width.adjusted())
    return next(step * power for step in (5, 2, 1) if step * power <= width)


# ---- points


@dataclass(frozen=True)
class Bin:
    """What is drawn as one bar: neighbouring buckets, mostly one."""

    low: Decimal
    high: Decimal
    count: int
    buckets: int = 1

    def width(self):
        return self.high - self.low

    def join(self, other):
        return Bin(min(self.low, other.low), max(self.high, other.high), self.count + other.count, self.buckets + other.buckets)

    def hides(self, exponential):
        """Whether it is several buckets that tell more apart than together: of an exponential point over two doublings."""
        near, far = sorted((abs(self.low), abs(self.high)))
        return self.buckets > 1 and (not exponential or far > 4 * near)

    def text(self, digits=6):
        """The bound farther from zero belongs to a bucket of an exponential point, the higher one to an explicit one."""
        return f"{shown(self.low, digits)} to {shown(self.high, digits)} mm"


@dataclass(frozen=True)
class Point:
    title: str
    count: int
    least: object  # None: not kept
    greatest: object
    total: Decimal
    sides: tuple  # lists of bins, each from its outer end inwards; those of an explicit point are one list
    zeros: int = 0
    scale: object = None  # None: explicit
    threshold: Decimal = Decimal(0)

    def bins(self):
        return sorted((b for side in self.sides for b in side), key=lambda b: (b.low, b.high))

    def drawn(self):
        """The bins with boards that have two ends."""
        return [b for b in self.bins() if b.count and b.width().is_finite()]

    def whole(self):
        """Whether the counts add up; an explicit point without bounds has none."""
        bins = self.bins()
        return self.count == self.zeros + sum(b.count for b in bins) or (self.scale is None and not bins)

    def mean(self):
        """None where there is none: no boards, no number, or a sum that was evidently not kept."""
        one_sign = self.least is not None and (self.least > 0 or self.greatest < 0)
        known = self.count and self.total.is_finite() and (self.total != 0 or not one_sign)
        return self.total / self.count if known else None


def title_of(text):
    if text == "-":
        return "No label"
    if text == OVERFLOW:
        return "Overflow: all sets beyond the limit"
    pairs = [pair.split(":") for pair in text.split(",")]
    if not all(len(pair) == 2 and all(re.fullmatch("[0-9]+", n) for n in pair) for pair in pairs):
        raise ValueError(text)
    title = ", ".join(f"{NAMES[key]} {value}" if key in NAMES else f"{key}:{value}" for key, value in pairs)
    return title[0].upper() + title[1:]


def held(text):
    return None if text == "-" else f64(text)


def row_of(text, scale, sign):
    """The bins of a row, from the outermost inwards."""
    offset, counts = text.split(":")
    counts = [int(n) for n in counts.split(",")] if counts else []
    bounds = [sign * bound(int(offset) + i, scale) for i in range(len(counts) + 1)]
    bins = [Bin(*sorted(pair), n) for pair, n in zip(zip(bounds, bounds[1:]), counts)]
    return bins[::-1]


def exponential(fields):
    attributes, count, zeros, scale, least, greatest, total, positive, negative, *band = fields
    scale = int(scale)
    if not -10 <= scale <= 20 or len(band) > 1:
        raise ValueError(scale)
    sides = (row_of(negative, scale, -1), row_of(positive, scale, 1))
    threshold = f64(band[0]) if band else Decimal(0)
    return Point(title_of(attributes), int(count), held(least), held(greatest), f64(total), sides, int(zeros), scale, threshold)


def explicit(fields):
    attributes, count, least, greatest, total, buckets, bounds = fields
    counts = [] if buckets == "-" else [int(n) for n in buckets.split(",")]
    ends = [] if bounds == "-" else [-INFINITY, *map(f64, bounds.split(",")), INFINITY]
    if len(ends) != len(counts) + bool(counts):
        raise ValueError("bounds")
    bins = [Bin(low, high, n) for low, high, n in zip(ends, ends[1:], counts) if low < high or n]
    return Point(title_of(attributes), int(count), held(least), held(greatest), f64(total), (bins,))


# ---- reading


@dataclass
class Section:
    """A collection, or (without times) points between two, as a merge prints them."""

    heading: str = ""
    due: int = 0
    points: list = field(default_factory=list)
    refused: list = field(default_factory=list)  # what was refused after it
    faults: list = field(default_factory=list)

    def close(self):
        if len(self.points) < self.due:
            self.faults.append(f"{self.due} points were announced, {len(self.points)} came")
        for point in self.points:
            if not point.whole():
                self.faults.append(f"{point.title}: the buckets do not add up to the count")


def collection(start, time, points):
    return Section(f"Collection from {int(start)} to {int(time)}", int(points))


class Reader:
    def __init__(self):
        self.sections, self.unread = [Section()], 0

    def line(self, number, text):
        letter, *fields = text.split(" ")
        try:
            self.take(letter, fields)
        except (ValueError, TypeError, ArithmeticError):
            self.unread += 1
            if self.unread <= TOLD:
                self.sections[-1].faults.append(f"line {number} can't be read: {text[:60]}")

    def take(self, letter, fields):
        last = self.sections[-1]
        if letter == "c":
            self.sections.append(collection(*fields))
        elif letter in ("p", "q"):
            point = exponential(fields) if letter == "p" else explicit(fields)
            if len(last.points) == last.due and last.heading != "Merged":
                self.sections.append(Section("Merged"))
            self.sections[-1].points.append(point)
        elif letter in ("?", "!"):
            last.refused.append(f"line {int(fields[0])}" + (f" (number {int(fields[1])})" if letter == "!" else ""))
        elif letter == "=":
            self.sections.append(Section(" ".join(fields)))
        elif letter not in ("b", "v"):  # bindings, sums and last values have no histogram
            raise ValueError(letter)


def read(text):
    """The sections of a text; those that say nothing are left out."""
    reader = Reader()
    for number, line in enumerate(text.split("\n"), 1):
        if line:
            reader.line(number, line)
    if reader.unread > TOLD:
        reader.sections[-1].faults.append(f"{reader.unread - TOLD} more lines can't be read")
    for section in reader.sections:
        section.close()
    return [s for s in reader.sections if s.heading or s.refused or s.faults]
