"""What random scripts reach: how often each call answers each number, how often each branch of document 01 is taken, and what never.

    reach.py COUNT [--seed WORD]        COUNT random scripts of histograms, of sums and last values, of histograms over i64, of all of these with
                                        batches, and COUNT/4 of each with damage
"""

import argparse
from collections import Counter

import damage
import generate
import machine
import points
import rust
import script
import words
from bits import to_bits
from machine import Machine
from sample import BATCHES, SINGLES, WHOLES
from script import OVERFLOW
from stores import VALUES

KINDS = "ef", "xf", "sf", "lf", "ei", "xi"
NUMBERS = {
    "n": {"e": (1, 2, 4, 12), "x": (3, 4, 12), "s": (4, 12), "l": (4, 12)},
    "r": (12, 6, 5, 8, 9, 16),
    "h": (12, 6, 8, 7, 9, 16),
    "R": (12, 6, 5, 8, 9, 16),
    "H": (12, 6, 8, 7, 9, 16),
    "b": (12, 5, 8, 9),
    "u": (12, 8, 7),
    "c": (12, 8, 10),
    "j": (1, 8, 11, 9, 16, 10),
}
BRANCHES = {
    "recorded": "zero, one level lower, 2 to 9 levels lower, 10 to 20 levels lower, sum infinite, on a bound, no bounds",
    "whole": "tie to below, tie to above, rounded otherwise, the greatest, the least, 16 at the top, 16 at the bottom, sum off beyond i64",
    "set": "empty by filter, key twice, found, made, sent to overflow, overflow made, overflow as a set",
    "delta": "removed, slots moved, idle bound stays, idle overflow stays, empty set listed, empty, count one more with overflow",
    "cumulative": "idle entry listed, empty set listed, empty set left out",
    "merged": "levels apart, lower than both, an empty point, explicit, no bounds, zeros of both signs, sum NaN, sum infinite, 11 for the number alone",
    "handle": "of a removed set, of overflow, of the empty set, released twice",
    "batch": "empty, several taken, 6 at the first, 6 within, 6 at the last, 9 within, 16 at the first, 16 within, 16 at the last",
}


class Watched(Machine):
    """Counts what becomes of its lines."""

    def __init__(self, seen):
        super().__init__()
        self.seen, self.damaged = seen, False

    def line(self, number, text):
        given, refusal = super().line(number, text)
        if refusal is not None and text[:1] in "nrhRHbucj":
            number = script.read_taken(given[0])[1] if text[0] in "RH" else refusal
            self.seen[f"{text[0]} {self.kind_of(text)} {number}"] += 1
        return given, refusal

    def kind_of(self, text):
        """The kind that a call is of, with its number; a merge's by its first point."""
        if text[0] == "n":
            return text[2] + text[4]
        if text[0] == "j":
            kind, number = words.KINDS[self.out_words[machine.PLACES + int(text.split()[2])][0]]
            return kind + number
        return self.config.kind + self.config.number

    def note(self, *branches):
        """Branches are counted over sound stores only."""
        self.seen.update(() if self.damaged else [name for name, taken in branches if taken])

    def damage(self, call):
        self.damaged = True
        return super().damage(call)

    def configure(self, call):
        super().configure(call)
        self.damaged = False

    def canonical(self, attributes):
        key = super().canonical(attributes)
        self.note(("set: key twice", len(dict(attributes)) < len(attributes)), ("set: empty by filter", attributes and not key))
        return key

    def record(self, call):
        slot, new, _ = self.before(call)
        self.noting_16(super().record, call)
        self.note_value(self.map.find(new) if slot is None else slot, call)

    def noting_16(self, recorded, call):
        try:
            recorded(call)
        except points.Refused as refused:
            ends = [refused.number == 16 and (int(call.value) > 0) == top for top in (True, False)]
            self.note(("whole: 16 at the top", ends[0]), ("whole: 16 at the bottom", ends[1]))
            raise

    def bind(self, call):
        self.before(call)
        return super().bind(call)

    def before(self, call):
        """Where a call with a set will go; None where it will be refused."""
        try:
            self.running(directory=True)
            key = super().canonical(call.set)
            slot, new, more = self.map.goes_to(key)
        except (points.Refused, script.Unreadable, IndexError):
            return 0, None, 0
        sent = OVERFLOW in (new, self.map.set_at(slot) if slot else None) and key != OVERFLOW
        self.note(("set: found", slot and not sent), ("set: made", slot is None and more), ("set: sent to overflow", sent))
        self.note(("set: overflow made", slot is None and sent), ("set: overflow as a set", key == OVERFLOW and more))
        return slot, new, more

    def note_value(self, slot, call):
        value, stores = self.value(call.value), self.map
        total = stores.rows[VALUES][slot][0] if stores.is_single() else stores.rows[stores.held_store()][slot][2]
        self.note(("recorded: zero", value == 0), ("recorded: sum infinite", abs(total) == float("inf")))
        if self.config.kind == "x":
            bounds = stores.own_bounds()
            self.note(("recorded: no bounds", not bounds), ("recorded: on a bound", float(value) in bounds))
        if self.config.number == "i":
            self.note_whole(value)

    def note_whole(self, value):
        ulp = max(1, 1 << max(0, abs(value).bit_length() - 53))
        off = int(float(value)) - value
        tie = ulp > 1 and 2 * abs(off) == ulp
        self.note(("whole: tie to below", tie and off < 0), ("whole: tie to above", tie and off > 0), ("whole: rounded otherwise", off and not tie))
        self.note(("whole: the greatest", value == 2**63 - 1), ("whole: the least", value == -(2**63)))

    def record_bound(self, call):
        self.noting_16(super().record_bound, call)
        birth = self.handles[call.handle]
        self.note(("handle: of the empty set", birth == 0), ("handle: of overflow", birth and self.map.set_at(self.map.named_by(birth)) == OVERFLOW))

    def each(self, values, recorded):
        answer = super().each(values, recorded)
        taken, number = script.read_taken(answer[0])
        place = "at the first" if not taken else "at the last" if taken == len(values) - 1 else "within"
        self.seen.update([f"batch: {number} {place}" if number else "batch: several taken" if taken > 1 else "batch: empty" if not values else "batch: one"])
        return answer

    def release(self, call):
        birth = self.handles[call.handle]
        try:
            super().release(call)
        except points.Refused as refused:
            births = [self.map.birth_at(slot) for slot in (0, *self.map.named())] if refused.number == 7 else [birth]
            self.note(("handle: of a removed set", birth not in births), ("handle: released twice", refused.number == 7 and birth in births))
            raise

    def collect(self, call):
        stores = self.map
        before = [(slot, stores.set_at(slot), stores.updated(slot), stores.bindings_at(slot)) for slot in range(stores.used + 1)] if not self.damaged else []
        counted = stores.count
        lines = super().collect(call)
        if before and self.config.temporality == "d":
            self.note_delta(before, counted)
        elif before:
            idle = [slot for slot, _, updated, _ in before if not updated]
            self.note(("cumulative: idle entry listed", any(idle)))
            self.note(("cumulative: empty set listed", 0 not in idle), ("cumulative: empty set left out", 0 in idle))
        return lines

    def note_delta(self, before, counted):
        stays = [updated or bound or key in ((), OVERFLOW) for _, key, updated, bound in before]
        self.note(("delta: removed", not all(stays)), ("delta: slots moved", True in stays[stays.index(False) :] if False in stays else False))
        self.note(("delta: idle bound stays", any(bound and key and not updated for _, key, updated, bound in before)))
        self.note(("delta: idle overflow stays", any(key == OVERFLOW and not updated for _, key, updated, _ in before)))
        self.note(("delta: empty set listed", before[0][2]), ("delta: empty", not any(updated for _, _, updated, _ in before)))
        self.note(("delta: count one more with overflow", counted == len(before) - 1 and any(key == OVERFLOW for _, key, _, _ in before)))

    def merge(self, call):
        try:
            lines = super().merge(call)
        except points.Refused as refused:
            marks = [points.mark(self.kept_point(k)) for k in (call.first, call.second)] if refused.number == 11 else [(), ()]
            self.note(("merged: 11 for the number alone", refused.number == 11 and marks[0][2:] == marks[1][2:] and marks[0][0] == marks[1][0]))
            raise
        a, b, c = (self.kept_point(k) for k in (call.first, call.second, call.point))
        if call.point in (call.first, call.second):
            return lines
        self.note(("merged: an empty point", 0 in (a.count, b.count)), ("merged: explicit", a.kind == "x"))
        self.note(("merged: no bounds", a.kind == "x" and not a.bounds))
        self.note(("merged: sum NaN", c.sum != c.sum), ("merged: sum infinite", abs(c.sum) == float("inf")))
        self.note(("merged: zeros of both signs", a.min == b.min == 0 and to_bits(a.min) != to_bits(b.min)))
        if a.kind == "e":
            self.note(("merged: levels apart", a.scale != b.scale), ("merged: lower than both", c.scale < min(a.scale, b.scale)))
        return lines


def note_drops(seen, machine):
    """Levels that one value took."""
    count = machine.map.count_in_rows

    def counted(slot, value):
        before = machine.map.rows["f"][slot][2]
        count(slot, value)
        drop = before - machine.map.rows["f"][slot][2]
        if drop:
            seen["recorded: " + ("one level lower" if drop == 1 else "2 to 9 levels lower" if drop < 10 else "10 to 20 levels lower")] += 1

    machine.map.count_in_rows = counted


def watch(seen, lines):
    watched = Watched(seen)
    note_drops(seen, watched)
    watched.answers(lines)


def numbers_of(call, kind):
    """The numbers that a call of a kind may answer."""
    numbers = NUMBERS[call][kind[0]] if call == "n" else NUMBERS[call]
    never = {16} if kind[1] == "f" else {6}
    never |= {9} if call in "hH" and kind[0] in "sl" else set()  # no 9 where nothing is counted and nothing made
    never |= {1} if call == "j" and kind[0] == "x" else set()  # only beside an exponential point
    return [number for number in numbers if number not in never]


def main():
    parser = argparse.ArgumentParser(description=__doc__.splitlines()[0])
    parser.add_argument("count", type=int)
    parser.add_argument("--seed", default="a")
    given = parser.parse_args()
    seen = Counter()
    for options in (generate.Options(), SINGLES, WHOLES, BATCHES):
        for i in range(given.count):
            lines = generate.make(f"{given.seed}.{i}", options)
            watch(seen, lines)
            seen["whole: sum off beyond i64"] += rust.asked(lines, options.rules).wraps
        for i in range(given.count // 4):
            watch(seen, [line for line in damage.make(f"{given.seed}.{i}", options) if line != "s"])
    for call in NUMBERS:
        for kind in KINDS if call != "j" else ("ef", "xf", "ei", "xi"):
            said = (f"{number}: {seen[f'{call} {kind} {number}'] or 'NEVER'}" for number in (0, *numbers_of(call, kind)))
            print(f"{call} {kind}".ljust(5), *said, sep="  ")
    for call, branches in BRANCHES.items():
        for what in branches.split(", "):
            print(f"{seen[f'{call}: {what}'] or 'NEVER':>8}  {call}: {what}")


if __name__ == "__main__":
    main()
