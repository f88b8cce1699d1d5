"""Compares the reference with the Rust over random scripts, and with our program: a verdict for each script.

    compare.py COUNT [--seed WORD] [OPTIONS]        as generate.py
    compare.py COUNT .. --ours COMMAND              three ways: what our program answers to every line must be the reference's answer

count 0: the same, but that points of count 0 have no extremes, and the Rust shows those that a series starts from
(docs/DIFFERENCES.md). 16: the same, but that values were refused because the sum would leave i64; the Rust is not asked to take them.
sum off: the same of the Rust's build without overflow checks: with the sum off none is kept, and the Rust's, which it does not hand out,
leaves i64 (both: request L6). A script that is several of these is counted as the last. beside a bound: the answers differ otherwise, and
are the same without the records of values that are, or whose nearest f64 is, a bound or the next value above it and whose index at the
starting scale differs; these values are judged by the definition. key twice: likewise without the calls that give one key twice. ours: our
program differs from the reference, whatever the Rust says. Everything else is unexplained and is printed with the smallest script found.
Exit status 1 if anything is unexplained or ours.
"""

import sys
import time
from collections import Counter

import generate
import script
from bits import SIGN, beside_bound, index, to_bits
from points import NUMBERS
from reference import Reference, Rules, answers
from runs import answered, smallest
from rust import asked, indices, told

BATCH = 250
SAME, EMPTY, BEYOND, WRAPS = AGREED = "same", "count 0", "16", "sum off"
BESIDE, TWICE, UNEXPLAINED, OURS = "beside a bound", "key twice", "unexplained", "ours"


class Comparer:
    def __init__(self, rules=Rules()):
        self.rules = rules
        self.bins = {}  # (scale, bits) to whether the Rust's index differs

    def compare(self, scripts):
        """The name and the verdict of each script, one after another."""
        questions = {name: asked(lines, self.rules) for name, lines in scripts.items()}
        answers = told(questions)
        for name, lines in scripts.items():
            same = answers[name] == questions[name].expected
            yield name, agreed(questions[name]) if same else self.explain(lines)

    def same(self, lines):
        question = asked(lines, self.rules)
        return told({"one": question})["one"] == question.expected

    def explain(self, lines):
        for verdict, excuse in ((BESIDE, self.differing), (TWICE, self.giving_twice)):
            places = excuse(lines)
            if places and self.same(without(lines, places)):
                return verdict
        both = set(self.differing(lines)) | set(self.giving_twice(lines))
        return BESIDE if both and self.same(without(lines, both)) else UNEXPLAINED

    def near_bounds(self, lines):
        """(place, starting scale, bits of the magnitude) of each f64 beside a bound, or i64 nearest to one, that was recorded."""
        reference = Reference(self.rules)
        for place, line in enumerate(lines):
            answers, refusal = reference.line(place, line)
            config = reference.config
            if refusal != 0 or line[:1] not in ("r", "h", "R", "H") or config.kind != "e":
                continue
            numbers = NUMBERS[config.number]
            for value in values_taken(script.read_line(line), answers):
                bits = to_bits(numbers.nearest(numbers.parse(script.read_value(value, config.number)))) & ~SIGN
                if bits and beside_bound(bits):
                    yield place, config.scale, bits

    def differing(self, lines):
        """Places of the records beside a bound whose index at the starting scale is another in the Rust."""
        return [place for place, scale, bits in self.near_bounds(lines) if self.differs(scale, bits)]

    def differs(self, scale, bits):
        if (scale, bits) not in self.bins:
            self.bins[scale, bits] = indices([(scale, bits)])[0] != index(bits, scale)
        return self.bins[scale, bits]

    def giving_twice(self, lines):
        sets = [(place, call.set) for place, call in calls(lines) if isinstance(call, (script.Record, script.RecordAll, script.Bind))]
        return [place for place, attributes in sets if len(dict(attributes)) < len(attributes)]

    def unexplained(self, lines):
        return not self.same(lines) and self.explain(lines) == UNEXPLAINED


def values_taken(call, answers):
    """The values that an accepted call recorded, of a batch those before the first refused."""
    return call.values[: script.read_taken(answers[0])[0]] if isinstance(call, script.BATCHES) else (call.value,)


def agreed(question):
    """The verdict of a script whose answers are the same."""
    return WRAPS if question.wraps else BEYOND if question.beyond else EMPTY if question.empty else SAME


def calls(lines):
    """The readable calls with their places."""
    for place, line in enumerate(lines):
        try:
            call = script.read_line(line)
        except script.Unreadable:
            continue
        if call:
            yield place, call


def without(lines, places):
    return ["#" if place in places else line for place, line in enumerate(lines)]


def report(comparer, name, lines):
    fewest = smallest(lines, comparer.unexplained)
    question = asked(fewest, comparer.rules)
    print(f"UNEXPLAINED {name}, smallest script:")
    print("\n".join(f"    {line}" for line in fewest))
    print("  reference:", *question.expected, sep="\n    ")
    print("  the Rust:", *(told({"one": question})["one"] or ["panicked"]), sep="\n    ", flush=True)


def judged(comparer, scripts, ours):
    """The verdict of each script; ours is a command or None."""
    verdicts = dict(comparer.compare(scripts))
    if ours:
        given = answered(ours, scripts)
        verdicts |= {name: OURS for name, lines in scripts.items() if given.get(name) != answers(lines, comparer.rules)}
    return verdicts


def run(names, options, ours=None):
    comparer, counts, lines_seen = Comparer(options.rules), Counter(), 0
    began = time.monotonic()
    for start in range(0, len(names), BATCH):
        scripts = {name: generate.make(name, options) for name in names[start : start + BATCH]}
        verdicts = judged(comparer, scripts, ours)
        counts.update(verdicts.values())
        lines_seen += sum(map(len, scripts.values()))
        for name, verdict in verdicts.items():
            if verdict == UNEXPLAINED:
                report(comparer, name, scripts[name])
            if verdict == OURS:
                print(f"OURS {name}: see `generate.py` and `reference.py` for the script and its answers", flush=True)
        done = start + len(scripts)
        rate = done / (time.monotonic() - began)
        print(f"{done}/{len(names)} scripts, {lines_seen} lines, {rate:.0f}/s: {dict(counts)}", file=sys.stderr, flush=True)
    return counts, lines_seen


def main():
    names, options, given = generate.read_arguments(__doc__.splitlines()[0], "--ours")
    counts, lines = run(names, options, given.ours)
    print(f"compare.py {' '.join(sys.argv[1:])}: {len(names)} scripts, {lines} lines")
    for verdict in (*AGREED, BESIDE, TWICE, UNEXPLAINED, OURS):
        print(f"  {verdict}: {counts[verdict]}")
    raise SystemExit(1 if counts[UNEXPLAINED] + counts[OURS] else 0)


if __name__ == "__main__":
    main()
