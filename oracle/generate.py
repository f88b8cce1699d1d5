"""Random call scripts.

    generate.py COUNT [--seed WORD] [OPTIONS]       prints scripts named WORD.0, WORD.1, ..; --help lists the options

A script is settled by its name and the options alone. Kinds: e, x, s, l (docs/REPLAY.md) with f or i.
"""

import argparse
import random
import sys
from dataclasses import dataclass, replace

import script
from bits import BOUNDS, GREATEST, INFINITY, SIGN, to_bits
from reference import Rules

BASE_KINDS = ("ef", "ef", "ef", "xf", "xf")
NAN = 0x7FF8000000000001
REFUSED_BOUNDS = ([NAN], [0, 0], [0, SIGN], [5, 4], [1, NAN, 2], range(160), [NAN, 5, 4])


@dataclass(frozen=True)
class Options:
    """What requests widen: kinds (L1, L6), bound sets in cumulative collections (L4), `rules` (limits L12, scales L13), thresholds (L7), new
    settings (L10); batches, many values in one call."""

    kinds: tuple = BASE_KINDS
    rules: Rules = Rules()
    thresholds: bool = False
    new_settings: bool = False
    cumulative: bool = False
    batches: bool = False


# Values. Each kind of value is a function of the source and of the script's middle exponent.


def normal(draw, _middle):
    return to_bits(draw.gauss(0, 10 ** draw.uniform(-3, 3)))


def grid(draw, _middle):
    return to_bits(draw.randint(-4096, 4096) / 1024)


def octaves(draw, middle):
    exponent = min(2046, max(0, middle + draw.randint(-12, 12)))
    return signed(draw, (exponent << 52) + draw.getrandbits(52))


def wide(draw, _middle):
    return signed(draw, (draw.randrange(0, 2047) << 52) + draw.getrandbits(52))


def random_bits(draw, _middle):
    return draw.getrandbits(64)


def subnormal(draw, _middle):
    return signed(draw, draw.getrandbits(draw.randint(1, 52)))


def power_of_two(draw, middle):
    return signed(draw, (near(draw, middle) << 52) + draw.choice((-1, 0, 0, 1)))


def subnormal_power(draw, _middle):
    return signed(draw, (1 << draw.randrange(52)) + draw.choice((-1, 0, 0, 1)))


def beside_bound(draw, middle):
    """A bound of the finest scale or a neighbour of it: random values never hit these."""
    mantissa = draw.choice(BOUNDS) + draw.choice((-1, 0, 0, 1, 1, 2))
    return signed(draw, (near(draw, middle) << 52) + mantissa - (1 << 52))


def zero(draw, _middle):
    return draw.choice((0, SIGN))


def greatest(draw, _middle):
    """Of either sign alike: two of one sign have an infinite sum, and such sums of both signs merge to a NaN."""
    return GREATEST - draw.choice((0, 0, 1, 1 << 40)) | draw.choice((0, SIGN))


def not_finite(draw, _middle):
    return draw.choice((INFINITY, INFINITY | SIGN, NAN, NAN | SIGN, INFINITY + 1))


def near(draw, middle):
    return min(2046, max(1, middle + draw.randint(-6, 6)))


def signed(draw, bits):
    return bits | SIGN if draw.random() < 0.3 else bits


VALUES = [normal, grid, octaves, wide, random_bits, subnormal, power_of_two, subnormal_power, beside_bound, zero, greatest]


def value_source(draw):
    """One to three kinds of value for a script, with zeros and values that are not finite among them."""
    kinds = draw.sample(VALUES, draw.choice((1, 1, 2, 3)))
    middle = draw.choice((1023, 1023, 1023, draw.randrange(1, 2047)))
    pool = []

    def value():
        rare = draw.random()
        if rare < 0.04:
            return zero(draw, middle)
        if rare < 0.06:
            return not_finite(draw, middle)
        if rare < 0.2 and pool:
            return draw.choice(pool)
        pool.append(draw.choice(kinds)(draw, middle))
        return pool[-1]

    return value


# Whole numbers (request L6). Each kind of them is a function of the source and of the script's width.


def narrow(draw, width):
    """Sums of these stay in i64 in any script of ours."""
    return draw.randint(-(2**width), 2**width)


def few(draw, _width):
    return draw.randint(-3, 3)


def whole_power(draw, _width):
    return either(draw, 2 ** draw.choice((53, 62, 63, draw.randint(1, 63))) + draw.choice((-1, 0, 0, 1)))


def halfway(draw, _width):
    """Between two f64, from 2^53 on, where the even mantissa is nearest; or a neighbour of that."""
    drop = draw.choice((1, 1, 2, draw.randint(1, 10)))
    mantissa = draw.choice((1 << 52, (1 << 53) - 1, (1 << 52) + draw.randint(0, 3), (1 << 52) + draw.getrandbits(52)))
    return either(draw, (mantissa << drop) + (1 << drop - 1) + draw.choice((-1, 0, 0, 1)))


def whole_beside_bound(draw, _width):
    """Nearest to it, or to a neighbour, is a bound of the finest scale."""
    drop = draw.randint(0, 10)
    mantissa = draw.choice(BOUNDS) + draw.choice((-1, 0, 0, 1, 1, 2))
    return either(draw, (mantissa << drop) + draw.randint(-(1 << drop) // 2, (1 << drop) // 2))


def giant(draw, _width):
    """Two of one sign have no sum."""
    return either(draw, draw.choice((2**63, 2**63 - 1, 2**62, 2**62 - 1, 2**63 - draw.getrandbits(11))))


def either(draw, magnitude):
    return max(-(2**63), -magnitude) if draw.random() < 0.4 else min(2**63 - 1, magnitude)


WHOLES = [narrow, narrow, few, whole_power, halfway, whole_beside_bound, giant]


def whole_source(draw, wanted):
    """One to three kinds of whole number, with zeros, opposites and what is left up to an end of i64 among them; unless none is wanted."""
    width = draw.randint(1, 55)
    kinds = draw.sample(WHOLES, draw.choice((1, 1, 2, 3))) if wanted else []
    pool = [1]

    def value():
        rare = draw.random()
        if rare < 0.04:
            return 0
        if rare < 0.10:
            last = draw.choice(pool)
            return -(2**63) - last if last < 0 else 2**63 - 1 - last
        if rare < 0.20:
            last = draw.choice(pool)
            return draw.choice((last, min(2**63 - 1, -last)))
        pool.append(draw.choice(kinds)(draw, width))
        return pool[-1]

    return value


# Sets.


def key_source(draw):
    """The keys of a script's world."""
    return draw.sample(range(1, 40), draw.randint(1, 9)) + [draw.randrange(2**32)]


def set_source(draw, keys, limit):
    """Sets from a small world, given in any order, now and then with a key twice, too long, or the overflow set."""
    values = draw.randint(1, 4)
    known = [some_set(draw, keys, values) for _ in range(draw.randint(1, max(3, min(limit + 4, 40))))]

    def attributes():
        rare = draw.random()
        if rare < 0.05:
            return ()
        if rare < 0.10:
            return script.OVERFLOW
        if rare < 0.13:
            return shuffled(draw, script.OVERFLOW + draw.choice(known)[:6])
        if rare < 0.15:
            return ((script.OVERFLOW[0][0], 2),)
        if rare < 0.16:
            return tuple((key, 1) for key in range(100, 109 + draw.randint(0, 3)))
        if rare < 0.18:
            return twice(draw, draw.choice(known))
        return shuffled(draw, draw.choice(known))

    return attributes


def some_set(draw, keys, values):
    chosen = draw.sample(keys, min(len(keys), draw.choice((1, 1, 2, 2, 3, draw.randint(1, 8)))))
    return tuple((key, draw.randint(1, values)) for key in chosen)


def shuffled(draw, attributes):
    return tuple(draw.sample(attributes, len(attributes)))


def twice(draw, attributes):
    """One key given twice: judged by the definition."""
    if not 1 <= len(attributes) < 8:
        return attributes
    key, value = draw.choice(attributes)
    return shuffled(draw, attributes + ((key, value + draw.randint(0, 1)),))


# Configuration.


def bounds_of(draw, value):
    """Rising bounds from the script's own values, so that values lie on them; infinite ones."""
    count = draw.choice((0, 1, 2, 5, 15, draw.randint(0, 40), 159 if draw.random() < 0.1 else 3))
    finite = {bits for bits in (value() for _ in range(count)) if bits & ~SIGN < INFINITY}
    if draw.random() < 0.2:
        finite.add(INFINITY)
    if draw.random() < 0.1:
        finite.add(INFINITY | SIGN)
    if {0, SIGN} <= finite:
        finite.discard(SIGN)
    return sorted(finite, key=order)[:159]


def order(bits):
    return -(bits & ~SIGN) if bits & SIGN else bits


def in_pieces(made, items, most):
    return [made(tuple(items[i : i + most])) for i in range(0, len(items), most)]


def filter_lines(draw, world):
    """Keys that sets have and, mostly, others."""
    chance = draw.random()
    if chance < 0.6:
        return []
    if chance < 0.65:
        return [script.Filter(())]
    keys = draw.sample(world, draw.randint(1, len(world))) + draw.sample(range(40, 80), draw.choice((0, 1, 5, 15)))
    if draw.random() < 0.3:
        keys[-1] = script.OVERFLOW[0][0]
    return in_pieces(script.Filter, keys[:16], 12)


def within(draw, allowed):
    """A number of the range, often an end of it."""
    return draw.choice((allowed[0], allowed[-1], draw.choice(allowed), draw.choice(allowed)))


def outside(draw, allowed):
    """A number next to the range; below 0 there is none for a size or a limit."""
    return draw.choice([n for n in (allowed[0] - 1, allowed[-1] + 1) if allowed[0] < 0 or n >= 0])


def configure_line(draw, options, kind, limit):
    """A configuration that is accepted."""
    size = scale = threshold = None
    if kind[0] == "e":
        size = draw.choice((3, 4, 8, 20, 160, within(draw, options.rules.sizes)))
        scale = draw.choice((options.rules.scales[-1], draw.choice(options.rules.scales)))
        if options.thresholds and draw.random() < 0.5:
            threshold = normal(draw, 0) & ~SIGN
    switches = draw.random() < 0.85, draw.random() < 0.85
    return script.Configure(
        kind[0], kind[1], size, scale, threshold, limit, draw.choice("cl" if options.cumulative else "ddddcl"), *switches, draw.randrange(2**32)
    )


def refused(draw, options, configure):
    """The lines of a configuration that is refused for one reason or for two."""
    lines = []
    for reason in draw.sample(("settings", "limit", "filter"), draw.choice((1, 1, 2))):
        if reason == "limit":
            configure = replace(configure, limit=outside(draw, options.rules.limits))
        elif reason == "filter":
            lines += [script.Filter((7,) * (options.rules.filter_most + 1))]
        elif configure.kind == "x":
            lines += in_pieces(script.Bounds, draw.choice(REFUSED_BOUNDS), 12)
        elif configure.kind == "e" and draw.random() < 0.5:
            configure = replace(configure, size=outside(draw, options.rules.sizes))
        elif configure.kind == "e":
            configure = replace(configure, scale=draw.choice((-128, 20, 21, 127, outside(draw, options.rules.scales))))
    return lines + [configure]


# Scripts.


class Maker:
    """Makes one script."""

    def __init__(self, name, options=Options()):
        self.draw = draw = random.Random(name)
        self.options = options
        self.kind = draw.choice(options.kinds)
        self.limit = within(draw, options.rules.limits) if draw.random() < 0.3 else draw.randint(0, 6)
        self.bits = value_source(draw)
        self.wholes = self.kind[1] == "i"  # then now and then f64 beside them, so that points of both meet
        self.whole = whole_source(draw, self.wholes)
        self.keys = key_source(draw)
        self.set = set_source(draw, self.keys, self.limit)
        self.handles = draw.sample(range(script.HANDLES), 6)
        self.bound, self.kept, self.bounds = [], set(), []
        self.time = draw.randrange(2**32)

    def value(self):
        return script.write_bits(self.bits()) if self.kind[1] == "f" else str(self.whole())

    def values(self):
        """None, a few or many; among f64s now and then one more that isn't finite, at the first place, at the last or between."""
        draw = self.draw
        values = [self.value() for _ in range(draw.choice((0, 1, 2, 3, 5, draw.randint(0, 14), 14 if self.kind[1] == "f" else 40)))]
        if self.kind[1] == "f" and values and draw.random() < 0.1:
            values[draw.choice((0, draw.randrange(len(values)), -1))] = script.write_bits(not_finite(draw, 0))
        return tuple(values)

    def in_batches(self):
        return self.options.batches and self.draw.random() < 0.5

    def recording(self):
        if self.in_batches():
            return fitted(script.RecordAll(self.values(), self.set()))
        return script.Record(self.value(), self.set())

    def script(self):
        calls = self.early() + self.configuration()
        if self.options.cumulative:
            calls.append(script.Bind(self.handles[0], self.set()[: self.options.rules.attributes_most]))  # never refused
        lively = self.draw.random() < 0.5 or self.options.cumulative  # with bindings
        for _ in range(self.draw.choice((2, 5, 10, 20, 40, 80))):
            calls += self.step(lively)
        return [script.write_line(call) for call in calls + self.collection()]

    def early(self):
        """Now and then calls before any accepted configuration: they can't be read."""
        if self.draw.random() > 0.03:
            return []
        return [script.Configure("e", "f", 2, 0, None, 0, "d", True, True, 0), self.binding(), self.recording(), *self.collection()]

    def configuration(self, same_number=False):
        if self.wholes and not same_number:
            self.kind = self.kind[0] + self.draw.choice("iiiif")
        waiting = filter_lines(self.draw, self.keys)
        if self.kind[0] == "x":
            waiting += in_pieces(script.Bounds, self.some_bounds(), 12)
        configure = configure_line(self.draw, self.options, self.kind, self.limit)
        before = refused(self.draw, self.options, configure) if self.draw.random() < 0.1 else []
        return before + waiting + [configure]

    def some_bounds(self):
        """Of whole numbers those from before now and then, so that points of either number have like bounds."""
        if not (self.wholes and self.bounds and self.draw.random() < 0.5):
            self.bounds = bounds_of(self.draw, self.near_whole if self.wholes else self.bits)
        return self.bounds

    def near_whole(self):
        """Bits of an f64 nearest to a whole number, or beside that."""
        return max(0, to_bits(float(self.whole())) + self.draw.choice((-1, 0, 0, 0, 1)))

    def step(self, lively):
        chance = self.draw.random()
        if chance < 0.10:
            return self.collection()
        if chance < 0.13:
            return self.merging()
        if chance < 0.145:
            return self.short_stores()
        if chance < 0.155:
            return self.configuration()
        if chance < 0.165 and self.options.new_settings:
            return [script.NewSettings(self.draw.choice((3, 20, 160)), self.draw.randint(-10, 10))]
        if lively and chance < 0.45:
            return [self.binding()]
        return [self.recording()]

    def binding(self):
        handle = self.draw.choice(self.handles)
        chance = self.draw.random()
        if chance < 0.3 or not self.bound:
            self.bound.append(handle)
            return script.Bind(handle, self.set())
        if self.draw.random() < 0.9:
            handle = self.draw.choice(self.bound)
        if chance < 0.5:
            return script.Release(handle)
        if self.in_batches():
            return fitted(script.RecordAllBound(handle, self.values()))
        return script.RecordBound(handle, self.value())

    def collection(self):
        """Mostly with room enough; times mostly rise. Two in a row, so that idle entries go."""
        draw = self.draw
        self.time = max(0, self.time + draw.randint(-10, 1000))
        points = draw.choice((0, 1, 3, 64)) if draw.random() < 0.1 else None
        counts = draw.choice((0, 5, 100, 20000)) if draw.random() < 0.1 else None
        call = script.Collect(self.time, points, counts)
        return [call, call] if draw.random() < 0.3 else [call]

    def merging(self):
        """Two kept points merged; mostly points of a new collection, of a few more values, are kept before."""
        draw = self.draw
        lines = []
        if len(self.kept) < 2 or draw.random() < 0.7:
            new = draw.sample(range(5), draw.choice((1, 2)))
            lines = self.configuration() if self.wholes and draw.random() < 0.3 else []
            lines += [self.recording() for _ in range(draw.choice((1, 2, 4)))]
            lines += [script.Collect(self.time, None, None), *(script.Keep(point, place) for place, point in enumerate(new))]
            self.kept |= set(new)
        kept = sorted(self.kept)
        pair = draw.sample(kept, 2) if len(kept) > 1 and draw.random() < 0.8 else [draw.choice(kept)] * 2
        size = draw.choice((3, 20, 160, 160, 160, 160, 2, 161))
        counts = draw.choice((None, None, None, 1, 4, 40))
        return [*lines, script.Merge(draw.randrange(5), *pair, size, counts)]

    def short_stores(self):
        """Calls with stores of some length, perhaps too short. A configuration that is refused must not change the number of the values."""
        draw = self.draw
        lent = script.Stores(draw.choice((None, 0, 100)), draw.choice((None, 2, 8)))
        by_set = [self.binding()], [self.recording()]
        calls = draw.choice((*by_set, self.collection(), self.configuration(same_number=True)))
        return [lent, *calls, script.Stores(None, None)]


def fitted(call):
    """A batch with as many of its values as a line has place for."""
    while len(script.write_line(call)) > script.LINE_MOST:
        call = replace(call, values=call.values[:-1])
    return call


def make(name, options=Options()):
    return Maker(name, options).script()


def read_arguments(about, *more):
    """The names of the scripts wanted, the options they are made with, and all arguments, `more` of them named by the caller."""
    parser = argparse.ArgumentParser(description=about)
    parser.add_argument("count", type=int)
    parser.add_argument("--seed", default="a")
    parser.add_argument("--kinds", default=",".join(BASE_KINDS), help="of ef,xf,sf,lf,ei,xi,si,li")
    parser.add_argument("--limit", type=int, default=Rules().limits[-1], help="the greatest limit (request L12)")
    parser.add_argument("--thresholds", action="store_true", help="zero thresholds (request L7)")
    parser.add_argument("--new-settings", action="store_true", help="new settings (request L10)")
    parser.add_argument("--cumulative", action="store_true", help="cumulative collections only, and bindings in every script (request L4)")
    parser.add_argument("--batches", action="store_true", help="many values in one call beside single recordings")
    for name in more:
        parser.add_argument(name)
    given = parser.parse_args()
    rules = Rules(limits=range(0, given.limit + 1))
    options = Options(tuple(given.kinds.split(",")), rules, given.thresholds, given.new_settings, given.cumulative, given.batches)
    return [f"{given.seed}.{i}" for i in range(given.count)], options, given


def main():
    names, options, _ = read_arguments(__doc__.splitlines()[0])
    sys.stdout.write(script.join_scripts({name: make(name, options) for name in names}))


if __name__ == "__main__":
    main()
