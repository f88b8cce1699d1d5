"""The exact reference: the calls of document 01 over lists of values.

    reference.py < SCRIPTS      prints the answers that the definition gives

Each entry of the map holds the values recorded into it since its last reset, and every point is computed from such a list.
"""

from dataclasses import dataclass, field, replace

import script
from bits import is_finite, is_nan, to_float
from points import NUMBERS, POINT_OF, Refused, merged
from script import OVERFLOW, Unreadable


@dataclass(frozen=True)
class Rules:
    """The figures of document 01 that later requests move."""

    sizes: range = range(3, 161)
    scales: range = range(-10, 11)  # request L13
    limits: range = range(0, 63)  # request L12
    filter_most: int = 16
    bounds_most: int = 159
    attributes_most: int = 8


@dataclass
class Config:
    kind: str
    number: str
    size: int
    scale: int
    threshold: float
    limit: int
    temporality: str
    extremes: bool
    sum: bool
    bounds: tuple = ()
    filter: object = None  # a set of keys, None: all are kept

    def keeps_sum(self):
        """The switch is a histogram's; a last value has none."""
        return self.kind == "s" or (self.kind != "l" and self.sum)

    def buckets(self):
        """Counts needed for one entry in each count store."""
        if self.kind == "e":
            return self.size
        return len(self.bounds) + 1 if self.kind == "x" and self.bounds else 0


@dataclass
class Entry:
    birth: int
    bindings: int = 0
    values: list = field(default_factory=list)


@dataclass
class Map:
    """Sets to entries; the empty set is there from the start and is never counted."""

    start: int
    entries: dict = field(default_factory=lambda: {(): Entry(0)})
    count: int = 0
    births: int = 0

    def named(self, birth):
        return next((e for e in self.entries.values() if e.birth == birth), None)

    def find_or_make(self, attributes, limit):
        if attributes in self.entries:
            return self.entries[attributes]
        if self.count < limit:
            self.count += 1
            return self.make(attributes)
        return self.entries.get(OVERFLOW) or self.make(OVERFLOW)

    def ends_in(self, attributes, limit):
        """The entry that `find_or_make` would find, None if it would make one."""
        if attributes in self.entries or self.count < limit:
            return self.entries.get(attributes)
        return self.entries.get(OVERFLOW)

    def make(self, attributes):
        self.births += 1
        self.entries[attributes] = Entry(self.births)
        return self.entries[attributes]

    def listed(self, delta):
        """The sets that a collection lists, ascending, with their values: a delta the updated ones; the empty set only if it is."""
        entries = sorted(self.entries.items())
        return [(attributes, entry.values) for attributes, entry in entries if entry.values or (attributes and not delta)]

    def reset(self):
        """After a delta collection: updated entries begin anew, idle ones without bindings go."""
        for attributes, entry in list(self.entries.items()):
            if entry.values:
                entry.values = []
            elif attributes not in ((), OVERFLOW) and not entry.bindings:
                del self.entries[attributes]
                self.count -= 1


class Reference:
    """Answers the lines of one script."""

    def __init__(self, rules=Rules()):
        self.rules = rules
        self.bounds, self.filter = (), None
        self.stores = script.Stores(None, None)
        self.config, self.map = None, None
        self.handles = [0] * script.HANDLES
        self.collected, self.kept = [], {}
        self.calls = {
            script.Bounds: self.add_bounds,
            script.Filter: self.add_filter,
            script.Stores: self.lend,
            script.Configure: self.configure,
            script.Record: self.record,
            script.Bind: self.bind,
            script.RecordBound: self.record_bound,
            script.RecordAll: self.record_all,
            script.RecordAllBound: self.record_all_bound,
            script.Release: self.release,
            script.Collect: self.collect,
            script.Keep: self.keep,
            script.Merge: self.merge,
            script.NewSettings: self.new_settings,
        }

    def line(self, number, text):
        """The answer lines of a line, and the refusal's number (0: accepted, None: unreadable)."""
        try:
            call = script.read_line(text)
            return (self.calls[type(call)](call) or [], 0) if call else ([], 0)
        except Unreadable:
            return [script.unreadable(number)], None
        except Refused as refused:
            return [script.refusal(number, refused.number)], refused.number

    def answers(self, lines):
        return [answer for number, line in enumerate(lines, 1) for answer in self.line(number, line)[0]]

    # What waits for the next configuration.

    def add_bounds(self, call):
        if len(self.bounds) + len(call.bounds) > script.WAITING_BOUNDS:
            raise Unreadable
        self.bounds += call.bounds

    def add_filter(self, call):
        if len(self.filter or ()) + len(call.keys) > script.WAITING_KEYS:
            raise Unreadable
        self.filter = (self.filter or ()) + call.keys

    def lend(self, call):
        self.stores = call

    # Configuring: 1, 2, 17, 3, 4, 12.

    def configure(self, call):
        bounds, keys = self.bounds, self.filter
        self.bounds, self.filter = (), None
        if call.kind == "e":
            self.check_settings(call)
        if call.kind == "x" and not rising(bounds, self.rules.bounds_most):
            raise Refused(3)
        if call.limit not in self.rules.limits or len(keys or ()) > self.rules.filter_most:
            raise Refused(4)
        config = Config(
            call.kind,
            call.number,
            call.size,
            call.scale,
            abs(to_float(call.threshold or 0)),
            call.limit,
            call.temporality,
            call.extremes,
            call.sum,
            bounds if call.kind == "x" else (),
            None if keys is None else frozenset(keys),
        )
        self.check_stores(config)
        self.config, self.map = config, Map(call.start)
        self.handles = [0] * script.HANDLES

    def check_settings(self, call):
        self.check_scales(call)
        threshold = call.threshold or 0
        if not is_finite(threshold) or to_float(threshold) < 0:
            raise Refused(17)

    def check_scales(self, call):
        if call.size not in self.rules.sizes:
            raise Refused(1)
        if call.scale not in self.rules.scales:
            raise Refused(2)

    def check_stores(self, config, directory=False):
        """Number 12: stores as lent by the script's last `m` line, by default long enough. Bindings are lent the directory's alone."""
        entries = config.limit + 2
        counts = self.stores.counts
        if not directory and counts is not None and counts < entries * config.buckets():
            raise Refused(12)
        if self.stores.entries is not None and self.stores.entries < entries:
            raise Refused(12)

    # Recording: 12, 6, 5, 8, 9, 16. By handle: 12, 6, 8, 7, 9, 16. Binding: 12, 5, 8, 9. Releasing: 12, 8, 7.
    # Numbers 8 and 9 cannot be met by a script here: it cannot damage a store or count to 2^64.

    def running(self, directory=False):
        if self.config is None:
            raise Unreadable
        self.check_stores(self.config, directory)

    def value(self, field):
        raw = script.read_value(field, self.config.number)
        if self.config.number == "f" and not is_finite(raw):
            raise Refused(6)
        return NUMBERS[self.config.number].parse(raw)

    def own_filter(self):
        return self.config.filter

    def canonical(self, attributes):
        """Filtered, sorted by key, of equal keys the first given."""
        if len(attributes) > self.rules.attributes_most:
            raise Refused(5)
        keys, first = self.own_filter(), {}
        for key, value in attributes:
            if keys is None or key in keys:
                first.setdefault(key, value)
        return tuple(sorted(first.items()))

    def readable(self, *values):
        """The form of values is settled before anything is refused."""
        if self.config is None:
            raise Unreadable
        for value in values:
            script.read_value(value, self.config.number)

    def check_sum(self, entry, value):
        """Number 16, for whole numbers whose sum is kept."""
        if self.config.number == "i" and self.config.keeps_sum() and entry is not None:
            NUMBERS["i"].add(sum(entry.values), value)

    def record(self, call):
        self.readable(call.value)
        self.running()
        value = self.value(call.value)
        attributes = self.canonical(call.set)
        self.check_sum(self.map.ends_in(attributes, self.config.limit), value)
        self.map.find_or_make(attributes, self.config.limit).values.append(value)

    def bind(self, call):
        self.running(directory=True)
        entry = self.map.find_or_make(self.canonical(call.set), self.config.limit)
        entry.bindings += 1
        self.handles[call.handle] = entry.birth
        return [f"b {call.handle} {self.handles.index(entry.birth)}"]

    def bound(self, handle):
        entry = self.map.named(self.handles[handle])
        if entry is None or not entry.bindings:
            raise Refused(7)
        return entry

    def record_bound(self, call):
        self.readable(call.value)
        self.running()
        value = self.value(call.value)
        entry = self.bound(call.handle)
        self.check_sum(entry, value)
        entry.values.append(value)

    # Many values: the single calls one after another, up to the first that is refused. No value, no call.

    def record_all(self, call):
        return self.each(call.values, lambda value: self.record(script.Record(value, call.set)))

    def record_all_bound(self, call):
        return self.each(call.values, lambda value: self.record_bound(script.RecordBound(call.handle, value)))

    def each(self, values, recorded):
        self.readable(*values)
        for taken, value in enumerate(values):
            try:
                recorded(value)
            except Refused as refused:
                return [script.write_taken(taken, refused.number)]
        return [script.write_taken(len(values), 0)]

    def release(self, call):
        self.running(directory=True)
        self.bound(call.handle).bindings -= 1

    # Collecting: 12, 8, 10.

    def collect(self, call):
        self.running()
        delta = self.config.temporality == "d"
        points = [POINT_OF[self.config.kind](attributes, values, self.config) for attributes, values in self.map.listed(delta)]
        check_room(points, call)
        start = self.map.start
        if delta:
            self.map.start = call.time
            self.map.reset()
        self.collected = points
        return [f"c {start} {call.time} {len(points)}", *map(script.write_point, points)]

    # Merging: 1, 8, 11, 9, 16, 10.

    def keep(self, call):
        if call.place >= len(self.collected) or not hasattr(self.collected[call.place], "kind"):
            raise Unreadable
        self.kept[call.point] = self.collected[call.place]

    def merge(self, call):
        if call.first not in self.kept or call.second not in self.kept:
            raise Unreadable
        pair = self.kept[call.first], self.kept[call.second]
        self.kept[call.point] = merged(*pair, call.size, call.counts, self.rules.sizes)
        return [script.write_point(self.kept[call.point])]

    # New settings (request L10): 1, 2, 19, 12, 8. The values are held, so the points follow.

    def new_settings(self, call):
        if self.config is None or self.config.kind != "e":
            raise Unreadable
        self.check_scales(call)
        if call.size > self.config.size or call.scale > self.config.scale:
            raise Refused(19)
        self.check_stores(self.config)
        self.config = replace(self.config, size=call.size, scale=call.scale)


def rising(bounds, most):
    """Number 3: not over `most` bounds, no NaN, strictly rising as numbers."""
    numbers = [to_float(b) for b in bounds]
    return len(bounds) <= most and not any(map(is_nan, bounds)) and all(a < b for a, b in zip(numbers, numbers[1:]))


def check_room(points, call):
    """Number 10: places for points, and in each of the two count stores for the counts of all points."""
    if call.points is not None and len(points) > call.points:
        raise Refused(10)
    if call.counts is not None and any(sum(store) > call.counts for store in zip(*(point.counts() for point in points))):
        raise Refused(10)


def answers(lines, rules=Rules()):
    return Reference(rules).answers(lines)


if __name__ == "__main__":
    script.answer_file(answers)
