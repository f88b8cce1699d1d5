"""Writing scripts (docs/REPLAY.md) line by line: a value is a float or bits, over i64 a whole number; a set is text as a script has it."""

import script
from bits import BOUNDS, FINEST, SIGN, to_bits

MOST = 2**64 - 1
NAN = 0x7FF8000000000000
TINY = 1  # the least magnitude, 2^-1074
NINE = ",".join(f"{key}:1" for key in range(1, 10))
OVERFLOW = script.write_set(script.OVERFLOW)
IN_A_LINE = 12  # bounds or keys


def bits_of(value):
    return to_bits(value) if isinstance(value, float) else value


def inside(index, scale=FINEST):
    """Bits of a value well inside the bucket of an index: no bound is near, so that the Rust's logarithm is right too."""
    finest = index if scale == FINEST else (index << (FINEST - scale)) + (1 << (FINEST - 1 - scale))
    octave, k = finest >> FINEST, finest % (1 << FINEST)
    above = BOUNDS[k + 1] if k + 1 < len(BOUNDS) else 1 << 53
    return ((octave + 1023) << 52) + (BOUNDS[k] + above) // 2 - (1 << 52)


def negative(value):
    return bits_of(value) | SIGN


class Script(list):
    """The lines of one script."""

    number = "f"  # the number kind of the configuration written last

    def call(self, made):
        if isinstance(made, script.Configure):
            self.number = made.number
        self.append(script.write_line(made))

    def exponential(self, size=4, scale=10, limit=2, temporality="d", extremes=True, sums=True, start=0, number="f"):
        self.call(script.Configure("e", number, size, scale, None, limit, temporality, extremes, sums, start))

    def explicit(self, *bounds, limit=2, temporality="d", extremes=True, sums=True, start=0, number="f"):
        self.waiting(script.Bounds, [bits_of(bound) for bound in bounds])
        self.call(script.Configure("x", number, None, None, None, limit, temporality, extremes, sums, start))

    def single(self, kind, limit=2, temporality="d", start=0):
        """Sums (s) or last values (l)."""
        self.call(script.Configure(kind, "f", None, None, None, limit, temporality, True, True, start))

    def written(self, value):
        return str(value) if self.number == "i" else script.write_bits(bits_of(value))

    def configure(self, kind, **settings):
        """Any kind: the explicit one with bounds 0 and 2."""
        if kind == "e":
            self.exponential(**settings)
        elif kind == "x":
            self.explicit(0.0, 2.0, **settings)
        else:
            self.single(kind, **settings)

    def filter(self, *keys):
        self.waiting(script.Filter, keys)
        if not keys:
            self.call(script.Filter(()))

    def waiting(self, made, items):
        for start in range(0, len(items), IN_A_LINE):
            self.call(made(tuple(items[start : start + IN_A_LINE])))

    def lend(self, counts=None, entries=None):
        self.call(script.Stores(counts, entries))

    def record(self, attributes, *values):
        self += [f"r {self.written(value)} {attributes}" for value in values]

    def bind(self, handle, attributes):
        self.append(f"b {handle} {attributes}")

    def by(self, handle, *values):
        self += [f"h {handle} {self.written(value)}" for value in values]

    def all(self, attributes, *values):
        """Many values in one call."""
        self.append(f"R {self.list(values)} {attributes}")

    def all_by(self, handle, *values):
        self.append(f"H {handle} {self.list(values)}")

    def list(self, values):
        return script.write_list(map(self.written, values))

    def release(self, handle):
        self.append(f"u {handle}")

    def collect(self, time=1, points=None, counts=None):
        self.call(script.Collect(time, points, counts))

    def keep(self, *places):
        """The points at these places of the last collection as points 0, 1 and so on."""
        self += [f"k {point} {place}" for point, place in enumerate(places)]

    def merge(self, point, first, second, size=160, counts=None):
        self.call(script.Merge(point, first, second, size, counts))

    def damage(self, store, place, cell, number):
        self.call(script.damage(store, place, cell, bits_of(number), self.number))

    def show(self):
        self.append("s")


class Book(dict):
    """Scripts by name."""

    def new(self, name):
        assert name not in self, name
        self[name] = Script()
        return self[name]
