"""Shows that the comparisons have teeth: wrong variants of the reference and of the model of the stores, each of which must be found.

    mutants.py [SCRIPTS]        compares each variant of the reference with the Rust over up to SCRIPTS (2000) random scripts, until the first
                                that is unexplained, and with the stored answers of crates/replay
    mutants.py stored           needs no Rust: each variant of the reference and of the model against the stored answers of crates/replay;
                                document 01's miscuts must show in the scripts named after them
"""

import sys
from copy import deepcopy
from dataclasses import replace
from unittest.mock import patch

import bits
import compare
import generate
import machine
import points
import reference
import sample
import words
from points import NUMBERS, Refused
from script import OVERFLOW, read_taken, write_taken
from stores import ENTRIES, EXTREMES, FIGURES, TOTALS, VALUES, WHOLES, Stores

find_or_make = reference.Map.find_or_make
finest_index = bits.finest_index
row_of, drop_needed = points.row_of, points.drop_needed
RESET, TOTAL, EXPLICIT, CANONICAL = reference.Map.reset, points.total, points.explicit_point, reference.Reference.canonical
LAST, JOIN = points.last_point, points.join_held
COLLECT, LISTED = reference.Reference.collect, reference.Map.listed
SWEEP, LAY, PLACES = Stores.sweep, Stores.lay, machine.Machine.check_places
AGREES, FRESHEN, LIST_VALUES, WORDS = Stores.series_agrees, Stores.freshen, machine.Machine.list_values, Stores.words_of
EXTREME, HELD, RECORD, CHECK_MERGE, MERGED = points.extremes, points.held, reference.Reference.record, points.check_merge, points.merged
GIVEN, CHECK_SUM, IS_POINT = machine.Machine.given, Stores.check_sum, words.is_point
EACH, RECORD_ALL, READABLE = reference.Reference.each, reference.Reference.record_all, reference.Reference.readable

# Of the reference.


def power_above(value):
    return finest_index(value) + (bits.normalised(value)[0] == 1 << 52)


def toward_zero(counted, drop):
    return row_of({i if i >= 0 else i + (1 << drop) - 1: n for i, n in counted.items()}, drop)


def one_row_rescaled(counted, drop):
    """The last step is left out for a row that fits without it."""
    spared = drop > 0 and drop_needed([counted], 3) < drop
    return row_of(counted, drop - spared)


def idle_bound_removed(self):
    for entry in self.entries.values():
        entry.bindings = 0
    RESET(self)


def overflow_counted(self, attributes, limit):
    before = len(self.entries)
    entry = find_or_make(self, attributes, limit)
    self.count += attributes != OVERFLOW and len(self.entries) > before and self.entries.get(OVERFLOW) is entry
    return entry


def overflow_early(self, attributes, limit):
    return find_or_make(self, attributes, limit - 1)


def count_kept(self):
    count = self.count
    RESET(self)
    self.count = count


def overflow_removed(self):
    overflow = self.entries.get(OVERFLOW)
    RESET(self)
    if overflow and not overflow.values and not overflow.bindings:
        self.entries.pop(OVERFLOW, None)


def last_zero_held(values, numbers):
    low, high = numbers.greatest, numbers.least
    for value in values:
        low = value if value <= low else low
        high = value if value >= high else high
    return low, high


def shown_at_count_0(low, high, switch, _count):
    return (low, high) if switch else (None, None)


def shown_with_the_switch_off(low, high, _switch, count):
    return (low, high) if count else (None, None)


def sum_backwards(values, numbers):
    return TOTAL(values[::-1], numbers)


def one_scale_too_coarse(rows, size):
    return drop_needed(rows, size - 1)


def bound_above(attributes, values, config):
    return EXPLICIT(attributes, [v + 0.0 if v not in map(bits.to_float, config.bounds) else v * 2 + 1 for v in values], config)


def filter_ignored(self, attributes):
    CANONICAL(self, attributes)
    return tuple(sorted(dict(attributes[::-1]).items()))


def order_kept(self, attributes):
    return tuple(dict(CANONICAL(self, attributes[:1]) + CANONICAL(self, attributes[1:])).items())


def start_kept(self, call):
    start = self.map and self.map.start
    lines = COLLECT(self, call)
    self.map.start = start
    return lines


def start_turned(self, call):
    """By a cumulative collection, as by a delta."""
    lines = COLLECT(self, call)
    self.map.start = call.time
    return lines


def reset_cumulative(self, call):
    lines = COLLECT(self, call)
    if self.config.temporality != "d":
        self.map.reset()
    return lines


def never_reset(self, call):
    kept = self.map and {key: list(entry.values) for key, entry in self.map.entries.items()}
    lines = COLLECT(self, call)
    for key, entry in self.map.entries.items():
        entry.values = kept[key]
    return lines


def reset_when_refused(self, call):
    try:
        return COLLECT(self, call)
    except points.Refused:
        self.map.reset()
        raise


def idle_left_out(self, call):
    """By a cumulative collection."""
    if self.config is None or self.config.temporality == "d":
        return COLLECT(self, call)
    whole = self.map.entries
    self.map.entries = {key: entry for key, entry in whole.items() if entry.values}
    try:
        return COLLECT(self, call)
    finally:
        self.map.entries = whole


def in_order_of_birth(self, delta):
    return sorted(LISTED(self, delta), key=lambda listed: self.entries[listed[0]].birth)


def empty_set_listed(self, delta):
    listed = LISTED(self, delta)
    return listed if listed and not listed[0][0] else [((), []), *listed]


MUTANTS = [
    ("a power of two put in the bucket above it", bits, "finest_index", power_above),
    ("offsets halved toward zero when the scale falls", points, "row_of", toward_zero),
    ("only one sign's row rescaled", points, "row_of", one_row_rescaled),
    ("an idle bound series removed at a delta", reference.Map, "reset", idle_bound_removed),
    ("the overflow entry counted when a value was sent there", reference.Map, "find_or_make", overflow_counted),
    ("overflow used one set early", reference.Map, "find_or_make", overflow_early),
    ("the count not lowered when entries go", reference.Map, "reset", count_kept),
    ("the overflow entry removed at a delta", reference.Map, "reset", overflow_removed),
    ("of equal zeros the last held as an extreme", points, "extremes", last_zero_held),
    ("extremes shown with the switch off", points, "shown", shown_with_the_switch_off),
    ("the sum added backwards", points, "total", sum_backwards),
    ("a scale too coarse for a full row", points, "drop_needed", one_scale_too_coarse),
    ("a value on a bound put in the bucket above", points.POINT_OF, "x", bound_above),
    ("the filter ignored", reference.Reference, "canonical", filter_ignored),
    ("sets told apart by the order of attributes", reference.Reference, "canonical", order_kept),
    ("a delta's start left as it was", reference.Reference, "collect", start_kept),
    ("a cumulative collection's start replaced", reference.Reference, "collect", start_turned),
    ("a cumulative collection resets", reference.Reference, "collect", reset_cumulative),
    ("a delta resets nothing", reference.Reference, "collect", never_reset),
    ("a collection refused for want of room resets", reference.Reference, "collect", reset_when_refused),
    ("a cumulative collection leaves idle entries out", reference.Reference, "collect", idle_left_out),
    ("points in the order of birth", reference.Map, "listed", in_order_of_birth),
    ("the empty set listed though not updated", reference.Map, "listed", empty_set_listed),
]


def first_value(attributes, values, config):
    return LAST(attributes, values[:1], config)


def from_minus_zero(attributes, values, config):
    total = -0.0
    for value in values:
        total += value
    return points.SinglePoint(attributes, total)


def empty_extremes_taken(a, b):
    """By a merge: none."""
    joined = JOIN(a, b)
    return joined if a.count and b.count else joined | {"min": None, "max": None}


# What the Rust can't show: it has the starting extremes itself, and no merges.
OUR_MUTANTS = [
    ("the starting extremes shown at count 0", points, "shown", shown_at_count_0),
    ("a merge takes the extremes of a point of count 0", points, "join_held", empty_extremes_taken),
]

# Of sums and last values.
SINGLE_MUTANTS = [
    ("the first value handed out as the last", points.POINT_OF, "l", first_value),
    ("a sum that starts at -0.0", points.POINT_OF, "s", from_minus_zero),
]


# Over i64.


def half_to_odd(n):
    return beside_tie(n, lambda below, above: above if below % 2 == 0 else below)


def half_away(n):
    return beside_tie(n, lambda _below, above: above)


def half_to_zero(n):
    return beside_tie(n, lambda below, _above: below)


def beside_tie(n, choose):
    """The nearest f64, but where two are as near that whose mantissa is chosen."""
    drop = max(0, abs(n).bit_length() - 53)
    below = abs(n) >> drop
    if not drop or abs(n) != (2 * below + 1) << (drop - 1):
        return float(n)
    return float(choose(below, below + 1) << drop) * (-1 if n < 0 else 1)


def cut_off(n):
    drop = max(0, abs(n).bit_length() - 53)
    return float(abs(n) >> drop << drop) * (-1 if n < 0 else 1)


def rounded_extremes(values, numbers):
    return EXTREME([v if isinstance(v, float) else max(-(2**63), min(2**63 - 1, int(float(v)))) for v in values], numbers)


def extremes_from_zero(values, numbers):
    return EXTREME(values, numbers if numbers is NUMBERS["f"] else replace(numbers, greatest=0, least=0))


def sum_by_f64(values, numbers):
    added = TOTAL([float(v) for v in values], NUMBERS["f"])
    return added if numbers is NUMBERS["f"] else max(-(2**63), min(2**63 - 1, int(added)))


def wrapping(a, b):
    return words.number_of((a + b) % 2**64, "i")


def within(low, high):
    def add(a, b):
        if not low <= a + b <= high:
            raise Refused(16)
        return a + b

    return add


def sum_with_the_switch_off(values, config):
    low, high, total = HELD(values, config)
    return low, high, total if config.number == "f" else sum(values)


def refused_and_counted(self, call):
    try:
        RECORD(self, call)
    except Refused as refused:
        if refused.number == 16:
            self.map.ends_in(self.canonical(call.set), self.config.limit).values.append(0)
        raise


def check_without_switch(self, entry, value):
    if self.config.number == "i" and entry is not None:
        NUMBERS["i"].add(sum(entry.values), value)


def check_of_all_sets(self, _entry, value):
    if self.config.number == "i" and self.config.sum:
        NUMBERS["i"].add(sum(sum(entry.values) for entry in self.map.entries.values()), value)


def whole(**wrong):
    return replace(NUMBERS["i"], **wrong)


WHOLE_MUTANTS = [
    ("a half to the odd mantissa", NUMBERS, "i", whole(nearest=half_to_odd)),
    ("a half away from zero", NUMBERS, "i", whole(nearest=half_away)),
    ("a half toward zero", NUMBERS, "i", whole(nearest=half_to_zero)),
    ("the f64 not nearest but next toward zero", NUMBERS, "i", whole(nearest=cut_off)),
    ("a bound compared with the whole number itself", NUMBERS, "i", whole(nearest=int)),
    ("extremes by their f64", points, "extremes", rounded_extremes),
    ("extremes that start at 0", points, "extremes", extremes_from_zero),
    ("a sum by f64 addition", points, "total", sum_by_f64),
    ("a sum that wraps around", NUMBERS, "i", whole(add=wrapping)),
    ("a sum handed out with the switch off", points, "held", sum_with_the_switch_off),
    ("a value refused with 16 is counted", reference.Reference, "record", refused_and_counted),
]


def mixed_merged(point):
    return point.kind, point.switch, point.threshold, [bits.to_float(b) for b in point.bounds] if point.kind == "x" else None


def number_first(a, b, size, sizes):
    """11 for unlike numbers before 1 and 8."""
    if a.number != b.number:
        raise Refused(11)
    CHECK_MERGE(a, b, size, sizes)


def sums_unchecked(a, b):
    with patch.dict(NUMBERS, {"i": whole(add=wrapping)}):
        return JOIN(a, b)


# What the Rust can't show: it is not asked about a value that is refused, and has no merges.
WHOLE_OURS = [
    ("16 for the greatest i64", NUMBERS, "i", whole(add=within(-(2**63), 2**63 - 2))),
    ("16 for the least i64", NUMBERS, "i", whole(add=within(1 - 2**63, 2**63 - 1))),
    ("16 with the sum off", reference.Reference, "check_sum", check_without_switch),
    ("16 by the sum of all sets", reference.Reference, "check_sum", check_of_all_sets),
    ("an i64 point merged with an f64 one", points, "mark", mixed_merged),
    ("11 for unlike numbers before 1 and 8", points, "check_merge", number_first),
    ("a merged sum that wraps around", points, "join_held", sums_unchecked),
]


# Many values in one call.


def skipped(self, values, recorded):
    """A value that is refused is left out."""
    self.readable(*values)
    answers = [read_taken(EACH(self, [value], recorded)[0]) for value in values]
    return [write_taken(sum(taken for taken, _ in answers), next((number for _, number in answers if number), 0))]


def last_first(self, values, recorded):
    return EACH(self, values[::-1], recorded)


def first_alone(self, values, recorded):
    self.readable(*values)
    answer = EACH(self, values[:1], recorded)
    return answer if answer != [write_taken(1, 0)] else [write_taken(len(values), 0)]


def seated_first(self, call):
    """The set is made whether or not a value is taken."""
    if call.values and self.config and len(call.set) <= self.rules.attributes_most:
        self.map.find_or_make(self.canonical(call.set), self.config.limit)
    return RECORD_ALL(self, call)


def asked_of_the_first(place, test):
    """A test left out for all values of a batch but the first."""

    def each(self, values, recorded):
        self.readable(*values)
        first = EACH(self, values[:1], recorded)
        if first != [write_taken(1, 0)]:
            return first
        with patch.object(place, test, lambda *_: None):
            taken, number = read_taken(EACH(self, values[1:], recorded)[0])
        return [write_taken(taken + 1, number)]

    return each


BATCH_MUTANTS = [
    ("a batch goes on behind a refused value", reference.Reference, "each", skipped),
    ("the values of a batch taken from the last", reference.Reference, "each", last_first),
    ("the first value of a batch taken alone", reference.Reference, "each", first_alone),
    ("a batch makes its set though no value is taken", reference.Reference, "record_all", seated_first),
    ("16 asked of the first value of a batch alone", reference.Reference, "each", asked_of_the_first(reference.Reference, "check_sum")),
]


def all_or_none(self, values, recorded):
    held = deepcopy(self.map)
    answer = EACH(self, values, recorded)
    _, number = read_taken(answer[0])
    if number:
        self.map = held
    return [write_taken(0, number)] if number else answer


def refused_one_counted(self, values, recorded):
    taken, number = read_taken(EACH(self, values, recorded)[0])
    return [write_taken(taken + (number != 0), number)]


def number_forgotten(self, values, recorded):
    """Where some were taken."""
    taken, number = read_taken(EACH(self, values, recorded)[0])
    return [write_taken(taken, 0 if taken else number)]


def empty_asked(self, call):
    """An empty list is refused as a value would be."""
    try:
        self.running()
        self.canonical(call.set)
    except Refused as refused:
        return [write_taken(0, refused.number)]
    return RECORD_ALL(self, call)


def read_as_asked(self, *values):
    """A list is read only up to the first value that can't be."""
    READABLE(self, *values[:1])


# What the Rust can't show: it is asked the values that were taken, whatever is said of them.
BATCH_OURS = [
    ("a batch that is refused takes nothing", reference.Reference, "each", all_or_none),
    ("the refused value counted as taken", reference.Reference, "each", refused_one_counted),
    ("the number not said where some were taken", reference.Reference, "each", number_forgotten),
    ("an empty list is asked", reference.Reference, "record_all", empty_asked),
    ("a list read only as far as it is asked", reference.Reference, "readable", read_as_asked),
]
MISCUTS = [
    "miscut_power_of_two",
    "miscut_offset_halved_toward_zero",
    "miscut_one_row_rescaled",
    "miscut_idle_bound_removed_e",
    "miscut_overflow_counted_e",
]  # of the first five


# Of the model of the stores.


def idle_refused(self):
    return all(self.series_agrees(slot) for slot in (0, *self.named()))


def damage_listed(_self):
    return True


def in_slot_order(self, delta):
    return [slot for slot in range(self.used + 1) if self.updated(slot) or (slot and not delta)]


def empty_slot_listed(self, delta):
    return [slot for slot in (0, *self.named()) if not slot or self.updated(slot) or not delta]


def unbound_goes(self, slot):
    return self.updated(slot) or self.set_at(slot) == OVERFLOW


def overflow_goes(self, slot):
    return self.updated(slot) or self.bindings_at(slot)


def all_stay(_self, _slot):
    return True


def never_lowered(self):
    count = self.count
    SWEEP(self)
    self.count = count


def not_reset(self):
    """The empty set's entry stays updated."""
    held = list(self.rows[ENTRIES][0])
    SWEEP(self)
    self.rows[ENTRIES][0] = held


def cleared_behind(self, store, slot, counts):
    LAY(self, store, slot, [*counts, *[0] * (self.width() - len(counts))])


def room_together(self, listed, call):
    PLACES(self, listed, call)
    if call.counts is not None and sum(len(row) for _, _, counts in listed for row in counts) > call.counts:
        raise points.Refused(10)


def idle_value_handed_out(self, slot):
    return self.rows[VALUES][slot][0]


def shown_disagreeing(point):
    """Number 8 asks of a point's extremes no more than of a series'."""
    return words.extremes_agree(point.min, point.max)


def shown_when_updated(self, slot):
    """Extremes by the entry's mark and not by the count."""
    words, counts = WORDS(self, slot)
    if self.updated(slot) and self.config.extremes:
        words[8:11] = [3, *map(bits.to_bits, self.rows[EXTREMES][slot][:2])]
    return words, counts


def starts_refused(self, slot):
    """A series that holds the starting extremes is taken to lack some."""
    return AGREES(self, slot) and (self.is_single() or self.rows[EXTREMES][slot][:2] != [NUMBERS["f"].greatest, NUMBERS["f"].least])


def switched_off_not_asked(self, slot):
    """The extremes of a series whose switch is off are not looked at."""
    held = self.rows[EXTREMES][slot]
    if not self.config.extremes:
        self.rows[EXTREMES][slot] = [0.0, 0.0, held[2]]
    agrees = AGREES(self, slot)
    self.rows[EXTREMES][slot] = held
    return agrees


def any_value_agrees(self, slot):
    return self.is_single() or AGREES(self, slot)


def value_kept_at_a_reset(self, slot):
    if not self.is_single():
        FRESHEN(self, slot)


def room_for_values(self, slots, call):
    """COUNTS says how many points there is place for."""
    if call.counts is not None and len(slots) > call.counts:
        raise points.Refused(10)
    LIST_VALUES(self, slots, call)


MODELS = [
    ("a damaged series that is not updated is refused", Stores, "touched_agree", idle_refused),
    ("a damaged series is listed", Stores, "touched_agree", damage_listed),
    ("points in slot order", Stores, "listed", in_slot_order),
    ("the empty slot listed though not updated", Stores, "listed", empty_slot_listed),
    ("an idle bound slot removed", Stores, "stays", unbound_goes),
    ("the overflow slot removed", Stores, "stays", overflow_goes),
    ("no slot removed", Stores, "stays", all_stay),
    ("the count not lowered by a sweep", Stores, "sweep", never_lowered),
    ("the empty slot not reset", Stores, "sweep", not_reset),
    ("what lies behind a row is cleared", Stores, "lay", cleared_behind),
    ("a point that shows extremes at count 0 or with the switch off, or lacks them, is merged", words, "shown_agrees", shown_disagreeing),
    ("extremes shown by the entry's mark and not by the count", Stores, "words_of", shown_when_updated),
    ("a series that holds the starting extremes is refused", Stores, "series_agrees", starts_refused),
    ("a series' extremes not asked with the switch off", Stores, "series_agrees", switched_off_not_asked),
    ("room judged over both count stores together", machine.Machine, "check_places", room_together),
    ("what lies in an idle slot handed out", Stores, "value_of", idle_value_handed_out),
    ("a last value that isn't finite agrees", Stores, "series_agrees", any_value_agrees),
    ("a sum not started anew", Stores, "freshen", value_kept_at_a_reset),
    ("room for values judged by the counts", machine.Machine, "list_values", room_for_values),
]


# Of the model over i64.


def in_the_f64_store(_self):
    return EXTREMES


def summed_with_the_switch_off(self, total, v):
    return NUMBERS[self.number()].add(total, v) if self.config.sum or self.number() == "f" else wrapping(total, v)


def old_sum_kept(self, slot):
    total = self.rows[WHOLES][slot][2]
    FRESHEN(self, slot)
    self.rows[WHOLES][slot][2] = total


def counted_though_refused(self, slot, v):
    try:
        CHECK_SUM(self, slot, v)
    except Refused:
        self.rows[FIGURES if self.config.kind == "e" else TOTALS][slot][0] += 1
        raise


def sum_asked_first(self, call):
    """16 before 5, 8, 7 and 9, where one set is held."""
    value = GIVEN(self, call)
    if self.map.used == 1:
        self.map.check_sum(1, value)
    return value


def sums_before_counts(a, b, size, sizes):
    """16 before 11 and 9."""
    if a.number == b.number == "i":
        NUMBERS["i"].add(a.sum, b.sum)
    CHECK_MERGE(a, b, size, sizes)


def room_before_sums(a, b, size, room, sizes):
    """10 before 16."""
    with patch.dict(NUMBERS, {"i": whole(add=wrapping)}):
        MERGED(a, b, size, room, sizes)
    return MERGED(a, b, size, room, sizes)


def f64_kinds(self, slot):
    words, counts = WORDS(self, slot)
    return [words[0] % 2, *words[1:]], counts


def no_nans(given):
    """The words of an i64 point tested as an f64 point's are."""
    return IS_POINT(given) and IS_POINT([given[0] % 2, *given[1:]])


def starts_written(self, slot):
    """Extremes that are not shown as what a series starts from."""
    words, counts = WORDS(self, slot)
    if words[0] > 1 and words[8] < 2:
        words[9:11] = [2**63 - 1, 2**63]
    return words, counts


WHOLE_MODELS = [
    ("whole numbers in the store of f64", Stores, "held_store", in_the_f64_store),
    ("a sum kept with the switch off", Stores, "summed", summed_with_the_switch_off),
    ("a sum of whole numbers not started anew", Stores, "freshen", old_sum_kept),
    ("a value refused with 16 is counted in its slot", Stores, "check_sum", counted_though_refused),
    ("16 before 5, 8, 7 and 9", machine.Machine, "given", sum_asked_first),
    ("16 before 11 and 9 in a merge", points, "check_merge", sums_before_counts),
    ("10 before 16 in a merge", machine, "merged", room_before_sums),
    ("points over i64 with the kinds of f64", Stores, "words_of", f64_kinds),
    ("words of an i64 point that would be a NaN's are none", machine, "is_point", no_nans),
    ("the starts in the words of extremes that are not shown", Stores, "words_of", starts_written),
]


# Of the model, with many values in one call.


def marked_updated(self, call):
    """The slot of a set that is there, though no value is taken."""
    answer = RECORD_ALL(self, call)
    taken, number = read_taken(answer[0])
    if number == 6 and not taken and self.map.agrees():
        slot = self.map.find(tuple(sorted(dict(call.set).items())))
        if slot is not None:
            self.map.rows[ENTRIES][slot][2] = 1
    return answer


def birth_for_each_value(self, call):
    held = self.map.last
    answer = RECORD_ALL(self, call)
    taken, _ = read_taken(answer[0])
    if self.map.last > held:
        self.map.last += taken - 1
    return answer


BATCH_MODELS = [
    ("a refused batch leaves no cell changed", machine.Machine, "each", all_or_none),
    ("a batch asks once whether a count is full", machine.Machine, "each", asked_of_the_first(Stores, "check_series")),
    ("a batch marks its slot though no value is taken", machine.Machine, "record_all", marked_updated),
    ("a batch spends a birth number for each value", machine.Machine, "record_all", birth_for_each_value),
]


def patched(place, name, wrong):
    return patch.dict(place, {name: wrong}) if isinstance(place, dict) else patch.object(place, name, wrong)


def found_after(most, options):
    """How many scripts it took until one was unexplained, None if none was."""
    comparer = compare.Comparer()
    for start in range(0, most, compare.BATCH):
        names = [f"mutant.{i}" for i in range(start, start + compare.BATCH)]
        verdicts = comparer.compare({name: generate.make(name, options) for name in names})
        for done, (_, verdict) in enumerate(verdicts, start + 1):
            if verdict == compare.UNEXPLAINED:
                return done
    return None


def shown_by(answers, scripts, said):
    """The first stored script that a variant answers otherwise, None if there is none; a variant may also fail over it."""
    for name, lines in scripts.items():
        try:
            if answers(lines) != said[name]:
                return name
        except Exception:
            return name
    return None


def report(what, found):
    print(f"{'MISSED' if found is None else found:>44}  {what}", flush=True)
    return found is None


def against_stored():
    """How many variants the stored scripts miss."""
    scripts, said = (sample.stored(sample.CRATES / "replay" / name) for name in ("stdin", "stdout"))
    plain, missed = sample.undamaged(scripts), 0
    for place, (what, *where) in enumerate(MUTANTS + SINGLE_MUTANTS + OUR_MUTANTS + WHOLE_MUTANTS + WHOLE_OURS + BATCH_MUTANTS + BATCH_OURS):
        among = {MISCUTS[place]: plain[MISCUTS[place]]} if place < len(MISCUTS) else plain
        with patched(*where):
            missed += report(what, shown_by(reference.answers, among, said))
    for what, *where in MODELS + WHOLE_MODELS + BATCH_MODELS:
        with patched(*where):
            missed += report(what, shown_by(machine.answers, scripts, said))
    return missed


def against_the_rust(most):
    missed = 0
    asked = (MUTANTS, generate.Options()), (SINGLE_MUTANTS, sample.SINGLES), (WHOLE_MUTANTS, sample.WHOLES), (BATCH_MUTANTS, sample.BATCHES)
    for mutants, options in asked:
        for what, *where in mutants:
            with patched(*where):
                found = found_after(most, options)
            missed += report(what, found and f"script {found}")
    return missed


def main():
    stored = sys.argv[1:] == ["stored"]
    missed = against_stored()
    if not stored:
        missed += against_the_rust(int(sys.argv[1]) if len(sys.argv) > 1 else 2000)
    raise SystemExit(1 if missed else 0)


if __name__ == "__main__":
    main()
