"""The calls over a model of the stores (stores.py), each list of tests in the order of its numbers.

    machine.py < SCRIPTS     prints the answers, to scripts with damage too

Without damage the answers are those of reference.py, from lists of values.
"""

import script
from bits import to_bits, to_float
from points import COUNT_MOST, Refused, SinglePoint, merged
from reference import Reference, Rules
from script import Unreadable
from stores import COUNTS, ENTRIES, PLACES, VALUES, WHOLES, Stores
from words import KINDS, decoded, encoded, is_explicit, is_point, lengths, point_agrees, set_of_words, word_of, words_of_set

KEPT_COUNTS = 160  # of the program: crates/replay_state/src/stores.rt
PRIME = 2**31 - 1
NO_KIND = len(KINDS)  # in every word before any is written, so that these are no point's


def mixed(cells):
    total = 0
    for cell in cells:
        total = (total * 31 + (cell if type(cell) is int and cell >= 0 else word_of(cell))) % PRIME
    return total


class Machine(Reference):
    """Answers the lines of one script from the stores."""

    def __init__(self, rules=Rules()):
        super().__init__(rules)
        self.map = Stores()
        self.start = 0
        self.out_sets = [[0] * 9 for _ in range(PLACES + script.KEPT)]
        self.out_words = [[NO_KIND] * 12 for _ in range(PLACES + script.KEPT)]
        self.out_counts = [[0] * (COUNTS + KEPT_COUNTS * script.KEPT) for _ in range(2)]
        self.out_bounds, self.kept_bounds = [0.0] * 200, [[0.0] * 200 for _ in range(script.KEPT)]
        self.listed, self.listed_single = 0, False
        self.calls[script.Damage] = self.damage
        self.calls[script.Show] = self.show

    # Configuring: the tests are the reference's. Sums and last values are of f64.

    def configure(self, call):
        if call.kind in script.SINGLE_KINDS and call.number != "f":
            raise Unreadable
        bounds, keys, stores = self.bounds, self.filter or (), self.map
        super().configure(call)
        self.start, self.map = self.map.start, stores
        stores.begin(self.config, bounds, keys)

    def running(self, directory=False):
        if self.config is None:
            raise Unreadable
        if self.map.short(self.stores, directory):
            raise Refused(12)

    def own_filter(self):
        return self.map.own_filter()

    # Recording: 12, 6, 5, 8, 9, 16. By handle: 12, 6, 8, 7, 9, 16. Binding: 12, 5, 8, 9. Releasing: 12, 8, 7.

    def given(self, call):
        self.readable(call.value)
        self.running()
        return self.value(call.value)

    def record(self, call):
        value, stores = self.given(call), self.map
        key = self.canonical(call.set)
        if not stores.configured() or not stores.accepted() or not stores.agrees():
            raise Refused(8)
        slot, new, more = stores.goes_to(key)
        if slot is None:
            slot = stores.make(new, more)
        else:
            stores.check_series(slot)
            stores.check_sum(slot, value)
        stores.record_at(slot, value)

    def record_bound(self, call):
        value, stores = self.given(call), self.map
        if not stores.configured() or not stores.agrees():
            raise Refused(8)
        slot = stores.named_by(self.handles[call.handle])
        stores.check_series(slot)
        stores.check_sum(slot, value)
        stores.record_at(slot, value)

    def bind(self, call):
        self.running(directory=True)
        key, stores = self.canonical(call.set), self.map
        if not stores.accepted() or not stores.agrees():
            raise Refused(8)
        slot, new, more = stores.goes_to(key)
        if slot is None:
            slot = stores.make(new, more)
        elif stores.bindings_at(slot) == COUNT_MOST:
            raise Refused(9)
        stores.rows[ENTRIES][slot][1] += 1
        self.handles[call.handle] = stores.birth_at(slot)
        return [f"b {call.handle} {self.handles.index(stores.birth_at(slot))}"]

    def release(self, call):
        self.running(directory=True)
        stores = self.map
        if stores.limit not in self.rules.limits or not stores.agrees():
            raise Refused(8)
        stores.rows[ENTRIES][stores.named_by(self.handles[call.handle])][1] -= 1

    # Collecting: 12, 8, 10.

    def collect(self, call):
        self.running()
        stores, delta = self.map, self.config.temporality == "d"
        if not stores.configured() or not stores.agrees() or not stores.touched_agree():
            raise Refused(8)
        slots = stores.listed(delta)
        if stores.is_single():
            self.list_values(slots, call)
        else:
            self.list_points(slots, call)
        start = self.start
        if delta:
            self.start = call.time
            stores.sweep()
        return [f"c {start} {call.time} {len(slots)}", *map(script.write_point, self.points())]

    def list_values(self, slots, call):
        """The bits of sums and last values lie in the positive counts, one a point; COUNTS says nothing for them."""
        self.check_places([(slot, [], ([], [])) for slot in slots], call)
        for place, slot in enumerate(slots):
            self.out_sets[place] = words_of_set(self.map.set_at(slot))
            self.out_counts[0][place] = to_bits(self.map.value_of(slot))
        self.listed, self.listed_single = len(slots), True

    def list_points(self, slots, call):
        listed = [(slot, *self.map.words_of(slot)) for slot in slots]
        self.check_places(listed, call)
        self.put_list(listed)

    def points(self):
        """The points of the last collection."""
        if not self.listed_single:
            return [self.point_at(at, self.out_bounds) for at in self.cursors()]
        return [SinglePoint(set_of_words(self.out_sets[k]), to_float(self.out_counts[0][k])) for k in range(self.listed)]

    def check_places(self, listed, call):
        if len(listed) > (PLACES if call.points is None else min(call.points, PLACES)):
            raise Refused(10)
        room = COUNTS if call.counts is None else min(call.counts, COUNTS)
        if any(sum(len(counts[sign]) for _, _, counts in listed) > room for sign in (0, 1)):
            raise Refused(10)

    def put_list(self, listed):
        at = 0, 0, 0
        for slot, words, counts in listed:
            at = self.put(at, words_of_set(self.map.set_at(slot)), words, counts)
        self.listed, self.listed_single = len(listed), False
        self.out_bounds = list(self.map.bounds)

    def put(self, at, row, words, counts):
        place, *starts = at
        self.out_sets[place], self.out_words[place] = list(row), list(words)
        ends = [start + len(row) for start, row in zip(starts, counts)]
        for store, start, end, row in zip(self.out_counts, starts, ends, counts):
            store[start:end] = row
        return place + 1, *ends

    # Points in the output.

    def cursors(self):
        """Where the points of the last collection lie."""
        at = 0, 0, 0
        for _ in range(self.listed):
            yield at
            at = at[0] + 1, *(start + n for start, n in zip(at[1:], lengths(self.out_words[at[0]])))

    def counts_at(self, at):
        return [tuple(store[start : start + n]) for store, start, n in zip(self.out_counts, at[1:], lengths(self.out_words[at[0]]))]

    def point_at(self, at, bounds):
        words = self.out_words[at[0]]
        return decoded(words, set_of_words(self.out_sets[at[0]]), self.counts_at(at), bounds)

    # Kept points lie behind the output.

    def kept_cursor(self, k):
        return PLACES + k, COUNTS + KEPT_COUNTS * k, COUNTS + KEPT_COUNTS * k

    def keep(self, call):
        if call.place >= self.listed or self.listed_single:
            raise Unreadable
        at = list(self.cursors())[call.place]
        self.put(self.kept_cursor(call.point), self.out_sets[at[0]], self.out_words[at[0]], self.counts_at(at))
        self.kept_bounds[call.point] = list(self.out_bounds)

    def kept_point(self, k):
        """Unreadable where the words are no point's."""
        words = self.out_words[PLACES + k]
        if not is_point(words) or max(lengths(words)) > KEPT_COUNTS:
            raise Unreadable
        start = words[4] if is_explicit(words) else 0
        return self.point_at(self.kept_cursor(k), self.kept_bounds[k][start:])

    def merge(self, call):
        pair = self.kept_point(call.first), self.kept_point(call.second)
        words = [self.out_words[PLACES + k] for k in (call.first, call.second)]
        if any(is_explicit(w) and w[4] + w[5] > script.WAITING_BOUNDS for w in words):  # bounds that are not lent
            raise Refused(8)
        if not all(map(is_explicit, words)) and call.size not in self.rules.sizes:
            raise Refused(1)
        if not all(point_agrees(point, w, call.size) for point, w in zip(pair, words)):
            raise Refused(8)
        point = merged(*pair, call.size, call.counts if call.counts is None else min(call.counts, KEPT_COUNTS), self.rules.sizes)
        self.put(self.kept_cursor(call.point), self.out_sets[PLACES + call.first], *encoded(point, words[0][4]))
        self.kept_bounds[call.point] = list(self.kept_bounds[call.first])
        return [script.write_point(point)]

    # Damage, and what the stores hold.

    def damage(self, call):
        number = script.read_cell(call, self.map.number())
        if call.store in "wPNB":
            self.damage_kept(call, number)
        elif not self.map.damage(call.store, call.place, call.cell, number):
            raise Unreadable

    def damage_kept(self, call, number):
        k, cell = call.place, call.cell
        if k >= script.KEPT or cell >= {"w": 12, "P": KEPT_COUNTS, "N": KEPT_COUNTS, "B": 200}[call.store]:
            raise Unreadable
        if call.store == "w":
            self.out_words[PLACES + k] = list(self.out_words[PLACES + k])
            self.out_words[PLACES + k][cell] = number
        elif call.store == "B":
            self.kept_bounds[k][cell] = to_float(number)
        else:
            self.out_counts["PN".index(call.store)][COUNTS + KEPT_COUNTS * k + cell] = number

    def show(self, _call):
        sums = [*map(mixed, self.map.cells())]
        sums += [mixed(cell for row in rows for cell in row) for rows in (self.out_sets, self.out_words)]
        sums += [mixed(counts) for counts in self.out_counts]
        more = VALUES if self.map.is_single() else WHOLES if self.map.number() == "i" else None
        sums += [mixed(cell for row in self.map.rows[more] for cell in row)] if more else []
        return [" ".join(map(str, ["s", self.map.used, self.map.count, self.map.last, *sums]))]


def answers(lines, rules=Rules()):
    return Machine(rules).answers(lines)


if __name__ == "__main__":
    script.answer_file(answers)
