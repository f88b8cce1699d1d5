"""The stores of the map as the code lays them out (../shared/DESIGN.md, "Stores of the map"), cell for cell.

Slot 0 is the empty set's, named slots stand in the order of birth, `order` has them ascending by set. An entry that is not updated has
no series. A row lies at the front of its slot's part of a count store, and what lies behind it stays.
"""

from collections import Counter

from bits import index, is_finite, to_bits, to_float
from points import COUNT_MOST, NUMBERS, Refused, drop_needed, row_of
from reference import Rules, rising
from script import FLOAT_STORES, HELD_STORE, OVERFLOW, SINGLE_KINDS, WAITING_BOUNDS, WAITING_KEYS
from words import KINDS, TOP, bias, buckets_agree, extremes_agree, held_words, number_of, rows_agree, set_of_words, words_of_set

PLACES, COUNTS = 66, 10560  # of the program: crates/replay_state/src/stores.rt
SETS, ENTRIES, ORDER, FIGURES, EXTREMES, POS, NEG, TOTALS, VALUES = "seofmpntl"
WHOLES = "whole"  # min, max and sum of a map over i64; in a line `d` they have the letter of those over f64
WIDTHS = {SETS: 9, ENTRIES: 3, ORDER: 1, FIGURES: 8, EXTREMES: 3, WHOLES: 3, TOTALS: 1, VALUES: 1}
STATE = ["used", "count", "last", "limit", "size", "level", "held", "keys"]


class Stores:
    """The map's stores, its state and settings: what a caller holds and may damage."""

    def __init__(self):
        self.rows = {store: [[0] * width for _ in range(PLACES)] for store, width in WIDTHS.items()}
        for store in (EXTREMES, VALUES):
            self.rows[store] = [[0.0] * WIDTHS[store] for _ in range(PLACES)]
        self.counts = {POS: [0] * COUNTS, NEG: [0] * COUNTS}
        self.used = self.count = self.last = 0
        self.limit = self.size = self.level = self.held = self.keys = 0
        self.bounds = [0.0] * WAITING_BOUNDS
        self.filter = [0] * WAITING_KEYS
        self.config = None

    def is_single(self):
        """Whether a series is one value, a sum or a last value (request L1)."""
        return self.config is not None and self.config.kind in SINGLE_KINDS

    def number(self):
        """The number kind configured; f64 before anything is."""
        return self.config.number if self.config else "f"

    def held_store(self):
        """The store of min, max and sum that is in use."""
        return EXTREMES if self.number() == "f" else WHOLES

    def begin(self, config, bounds, keys):
        """After an accepted configuration; bounds and keys as they waited."""
        self.config = config
        self.used = self.count = self.last = 0
        self.limit, self.size, self.level = config.limit, config.size or 0, config.scale + 10 if config.kind == "e" else 0
        self.held, self.keys = len(config.bounds), len(keys)
        self.bounds[: len(bounds)] = map(to_float, bounds)
        self.filter[: self.keys] = keys
        self.rows[ENTRIES][0] = [0, 0, 0]

    # What the calls are given.

    def own_bounds(self):
        return self.bounds[: min(self.held, WAITING_BOUNDS)]

    def own_filter(self):
        return None if self.config.filter is None else self.filter[: min(self.keys, WAITING_KEYS)]

    def accepted(self):
        """What number 4 tests."""
        keys = self.own_filter()
        return self.limit in Rules.limits and (keys is None or len(keys) <= Rules.filter_most)

    def configured(self):
        """What numbers 1 and 2, or 3, test, and the limit."""
        if self.config.kind == "e":
            return self.size in Rules.sizes and self.level <= TOP and self.limit in Rules.limits
        if self.is_single():
            return self.limit in Rules.limits
        return rising([to_bits(b) for b in self.own_bounds()], Rules.bounds_most) and self.limit in Rules.limits

    def width(self):
        if self.config.kind == "e":
            return self.size
        bounds = [] if self.is_single() else self.own_bounds()
        return len(bounds) + 1 if bounds else 0

    def short(self, lent, directory=False):
        """Number 12; each kind is lent its own stores."""
        entries = PLACES if lent.entries is None else min(lent.entries, PLACES)
        counts = COUNTS if lent.counts is None else min(lent.counts, COUNTS)
        return entries < self.limit + 2 or (not directory and counts < (self.limit + 2) * self.width())

    # The directory.

    def set_at(self, slot):
        return set_of_words(self.rows[SETS][slot]) if slot else ()

    def birth_at(self, slot):
        return self.rows[ENTRIES][slot][0] if slot else 0

    def bindings_at(self, slot):
        return self.rows[ENTRIES][slot][1]

    def updated(self, slot):
        return bool(self.rows[ENTRIES][slot][2])

    def named(self):
        return [self.rows[ORDER][k][0] for k in range(self.used)]

    def sound(self, slot):
        """1 to 8 attributes with rising keys."""
        if not 1 <= self.rows[SETS][slot][8] <= 8:
            return False
        keys = [key for key, _ in self.set_at(slot)]
        return ascend(keys)

    def agrees(self):
        if self.used > self.limit + 1:
            return False
        slots = range(1, self.used + 1)
        births = [self.birth_at(slot) for slot in (0, *slots)]
        if not all(map(self.sound, slots)) or not ascend(births) or births[-1] > self.last:
            return False
        if not all(slot in slots for slot in self.named()):
            return False
        sets = [self.set_at(slot) for slot in self.named()]
        if not ascend(sets):
            return False
        plain = sum(key != OVERFLOW for key in sets)
        return self.count in (plain, plain + (OVERFLOW in sets)) and self.count <= self.limit

    def find(self, key):
        return next((slot for slot in (0, *self.named()) if self.set_at(slot) == key), None)

    def named_by(self, birth):
        for slot in (0, *self.named()):
            if self.birth_at(slot) == birth and self.bindings_at(slot):
                return slot
        raise Refused(7)

    def goes_to(self, key):
        """The slot of a call with a set; or None, and the set and what the count rises by when it is made."""
        slot = self.find(key)
        if slot is not None:
            return slot, None, 0
        if self.count < self.limit:
            return None, key, 1
        slot = self.find(OVERFLOW)
        return (slot, None, 0) if slot is not None else (None, OVERFLOW, 0)

    def make(self, key, more):
        if self.last == COUNT_MOST:
            raise Refused(9)
        after = sum(self.set_at(slot) < key for slot in self.named())
        slot = self.used + 1
        self.rows[SETS][slot] = words_of_set(key)
        self.rows[ENTRIES][slot] = [self.last + 1, 0, 0]
        order = self.rows[ORDER]
        order[: self.used + 1] = order[:after] + [[slot]] + order[after : self.used]
        self.used, self.count, self.last = slot, self.count + more, self.last + 1
        return slot

    def stays(self, slot):
        return self.updated(slot) or self.bindings_at(slot) or self.set_at(slot) == OVERFLOW

    def sweep(self):
        """After a delta collection: slots that stay move down and are reset; what lies behind them stays."""
        sets, entries = self.rows[SETS], self.rows[ENTRIES]
        staying = [slot for slot in range(1, self.used + 1) if self.stays(slot)]
        number = {x: k for k, x in enumerate(staying, 1)}
        order = [[number[x]] for x in self.named() if x in number]
        self.rows[ORDER][: len(order)] = order
        entries[0] = entries[0][:2] + [0]
        for x in staying:
            sets[number[x]] = list(sets[x])
            entries[number[x]] = entries[x][:2] + [0]
        self.count = max(0, self.count - (self.used - len(staying)))
        self.used = len(staying)

    # Series.

    def part(self, store, slot, n):
        start = slot * self.width()
        return self.counts[store][start : start + n]

    def lay(self, store, slot, counts):
        start = slot * self.width()
        self.counts[store][start : start + len(counts)] = counts

    def row_parts(self, slot):
        """The counts of both rows; those of a row that is too long are too many as well."""
        figures = self.rows[FIGURES][slot]
        return [self.part(store, slot, min(n, self.size + 1)) for store, n in ((POS, figures[4]), (NEG, figures[6]))]

    def series_agrees(self, slot):
        if self.is_single():
            return self.config.kind == "s" or is_finite(to_bits(self.rows[VALUES][slot][0]))
        if not extremes_agree(*self.rows[self.held_store()][slot][:2]):
            return False
        if self.config.kind == "x":
            bounds = [to_bits(b) for b in self.own_bounds()]
            return buckets_agree(self.rows[TOTALS][slot][0], self.part(POS, slot, self.width()), bounds)
        return rows_agree(self.rows[FIGURES][slot][:7], self.row_parts(slot), self.size, self.level)

    def check_series(self, slot):
        if self.updated(slot):
            if not self.series_agrees(slot):
                raise Refused(8)
            if not self.is_single() and self.rows[FIGURES if self.config.kind == "e" else TOTALS][slot][0] == COUNT_MOST:
                raise Refused(9)

    def summed(self, total, v):
        """The sum with a value more: number 16 where it would leave i64, of which none is kept with the sum off."""
        return total if self.number() == "i" and not self.config.sum else NUMBERS[self.number()].add(total, v)

    def check_sum(self, slot, v):
        if self.updated(slot) and not self.is_single():
            self.summed(self.rows[self.held_store()][slot][2], v)

    def freshen(self, slot):
        if self.is_single():
            self.rows[VALUES][slot] = [0.0]
            return
        numbers = NUMBERS[self.number()]
        self.rows[self.held_store()][slot] = [numbers.greatest, numbers.least, numbers.zero]
        if self.config.kind == "e":
            self.rows[FIGURES][slot] = [0, 0, self.level, 0, 0, 0, 0, 0]
        else:
            self.rows[TOTALS][slot] = [0]
            self.lay(POS, slot, [0] * self.width())

    def count_in_rows(self, slot, v):
        figures = self.rows[FIGURES][slot]
        level = figures[2]
        rows = []
        for start, counts in zip(figures[3:6:2], self.row_parts(slot)):
            rows.append(+Counter({start - bias(level) + i: n for i, n in enumerate(counts)}))
        rows[v < 0][index(to_bits(NUMBERS[self.number()].nearest(v)), level - 10)] += 1
        drop = drop_needed(rows, self.size)
        figures[2] = level - drop
        for store, start, row in ((POS, 3, rows[0]), (NEG, 5, rows[1])):
            offset, counts = row_of(row, drop)
            figures[start : start + 2] = [offset + bias(level - drop) if counts else 0, len(counts)]
            self.lay(store, slot, counts)

    def count_in_buckets(self, slot, v):
        bounds, nearest = self.own_bounds(), NUMBERS[self.number()].nearest(v)
        if bounds:
            self.counts[POS][slot * self.width() + sum(b < nearest for b in bounds)] += 1

    def record_at(self, slot, v):
        if not self.updated(slot):
            self.freshen(slot)
        self.rows[ENTRIES][slot][2] = 1
        if self.is_single():
            self.rows[VALUES][slot] = [self.rows[VALUES][slot][0] + v if self.config.kind == "s" else v]
            return
        held = self.rows[self.held_store()]
        low, high, total = held[slot]
        held[slot] = [v if v < low else low, v if v > high else high, self.summed(total, v)]
        if self.config.kind == "x":
            self.rows[TOTALS][slot][0] += 1
            self.count_in_buckets(slot, v)
            return
        figures = self.rows[FIGURES][slot]
        figures[0], figures[7] = figures[0] + 1, 0
        if v == 0:
            figures[1] += 1
        else:
            self.count_in_rows(slot, v)

    # Points.

    def words_of(self, slot):
        """The twelve words of a slot's point (docs/LIST.md), and its counts in both stores."""
        updated = self.updated(slot)
        count = self.rows[TOTALS if self.config.kind == "x" else FIGURES][slot][0] if updated else 0
        *extremes, total = self.rows[self.held_store()][slot]
        shown = extremes if self.config.extremes and count else None
        held = held_words(shown, total if self.config.sum and updated else 0, self.config.extremes)
        kind = KINDS.index((self.config.kind, self.number()))
        if self.config.kind == "x":
            n = self.width()
            return [kind, count, 0, 0, 0, len(self.own_bounds()), 0, 0, *held], (self.part(POS, slot, n) if updated else [0] * n, [])
        if not updated:
            return [kind, 0, 0, self.level, 0, 0, 0, 0, *held], ([], [])
        return [kind, *self.rows[FIGURES][slot][:7], *held], self.row_parts(slot)

    def value_of(self, slot):
        """The value of a sum's or last value's point."""
        return self.rows[VALUES][slot][0] if self.updated(slot) else 0.0

    def listed(self, delta):
        """The slots that a collection lists, ascending by set: a delta the updated ones; the empty set's only if it is."""
        return [slot for slot in (0, *self.named()) if self.updated(slot) or (slot and not delta)]

    def touched_agree(self):
        return all(self.series_agrees(slot) for slot in (0, *self.named()) if self.updated(slot))

    # Damage.

    def damage(self, store, place, cell, number):
        """Sets a cell of a store, f64 and i64 by their bits; False where there is none."""
        store = self.held_store() if store == HELD_STORE else store
        if store in self.rows and place < PLACES and cell < WIDTHS[store] and (store != ORDER or number < 2**32):
            self.rows[store][place] = list(self.rows[store][place])
            self.rows[store][place][cell] = number_of(number, "i") if store == WHOLES else to_float(number) if store in FLOAT_STORES else number
        elif store in self.counts and place < COUNTS and cell == 0:
            self.counts[store][place] = number
        elif store == "b" and place < WAITING_BOUNDS and cell == 0:
            self.bounds[place] = to_float(number)
        elif store == "v" and cell < len(STATE):
            setattr(self, STATE[cell], number % 2**32 if STATE[cell] in ("size", "level") else number)
        else:
            return False
        return True

    def cells(self):
        """Every cell of each store, for checksums."""
        for store in (SETS, ENTRIES, ORDER, FIGURES, EXTREMES):
            yield (cell for row in self.rows[store] for cell in row)
        yield self.counts[POS]
        yield self.counts[NEG]
        yield (cell for row in self.rows[TOTALS] for cell in row)


def ascend(items):
    return all(a < b for a, b in zip(items, items[1:]))
