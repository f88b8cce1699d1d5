"""Asking the Rust: which lines of a script it is asked about, in which words, and what it answers."""

import subprocess
from dataclasses import dataclass, replace
from itertools import accumulate
from pathlib import Path

import script
from bits import to_float
from points import NUMBERS, ExplicitPoint, ExponentialPoint
from reference import Reference

BUILT = Path(__file__).resolve().parent.parent / "target/oracle/build"
REPLAY = BUILT / "checked/replay"
UNCHECKED = BUILT / "release/replay"  # an overflow of i64 wraps around
ASKED_SCALES = range(11, 21)  # accepted by the Rust's `validate`, refused by document 01


@dataclass
class Asked:
    """A script as the Rust is asked it, and what it should answer: what the reference does, but for `empty` points."""

    lines: list
    expected: list
    empty: int  # points of count 0 whose extremes the Rust shows (docs/DIFFERENCES.md)
    beyond: int  # values refused with 16: the Rust is not asked to take them
    wraps: bool  # whether, with the sum off, a sum that the Rust adds up all the same leaves i64


def shows_starts(point):
    """Whether the Rust shows the extremes that a series starts from, where request L4 shows none."""
    return isinstance(point, (ExponentialPoint, ExplicitPoint)) and point.switch and point.count == 0


def in_rust(point):
    numbers = NUMBERS[point.number]
    return replace(point, min=numbers.greatest, max=numbers.least)


class Asking:
    """Turns a script into what the Rust is asked. A line that it is not asked becomes a comment; behind a batch stands a line for each value taken."""

    def __init__(self, rules):
        self.reference = Reference(rules)
        self.lines, self.expected, self.empty = [], [], 0
        self.beyond, self.wraps = 0, False
        self.waiting = []  # places of the g and f lines since the last n
        self.live = {}  # the Rust's own bindings: birth number to their numbers
        self.bindings = 0
        self.comparable = False  # between an accepted n and settings that the Rust does not know

    def line(self, text):
        """What the reference refuses has the number of the Rust's line."""
        waiting = self.reference.bounds
        answers, refusal = self.reference.line(len(self.lines) + 1, text)
        self.lines.append("#")
        if refusal is None or text.startswith("#"):
            return
        call = script.read_line(text)
        if isinstance(call, (script.Bounds, script.Filter)):
            self.waiting.append(len(self.lines) - 1)
            self.lines[-1] = text
        elif isinstance(call, script.Configure):
            self.configure(call, text, waiting, answers, refusal)
        elif isinstance(call, script.NewSettings):
            self.comparable = self.comparable and refusal != 0
        elif self.comparable:
            self.call(call, text, answers, refusal)
            self.beyond += stopped_by(call, answers, refusal) == 16
            self.wraps = self.wraps or self.sum_leaves()

    def ask(self, text, answers=()):
        self.lines[-1] = text
        self.expected += answers

    def configure(self, call, text, bounds, answers, refusal):
        places, self.waiting = self.waiting, []
        if refusal == 0:
            self.live, self.bindings = {}, 0
            self.comparable = not self.reference.config.threshold
        if refusal == 0 and self.comparable or refused_by_both(call, bounds, refusal):
            self.ask(text, answers)
        else:
            for place in places:
                self.lines[place] = "#"

    def call(self, call, text, answers, refusal):
        if isinstance(call, script.Record) and refusal in (0, 6):
            self.ask(text)
        elif isinstance(call, script.Collect) and refusal == 0:
            self.collection(text, answers)
        elif isinstance(call, script.Bind) and refusal == 0:
            self.live.setdefault(self.birth(call), []).append(self.bindings)
            self.ask(f"b {self.bindings} {script.write_set(call.set)}")
            self.bindings += 1
        elif isinstance(call, (script.RecordBound, script.Release)):
            self.by_handle(call, refusal)
        elif isinstance(call, script.BATCHES):
            self.batch(call, answers)

    def batch(self, call, answers):
        """The values that were taken, one after another: the Rust has no batches."""
        taken, _ = script.read_taken(answers[0])
        for value in call.values[:taken]:
            self.lines.append("#")
            if isinstance(call, script.RecordAll):
                self.ask(script.write_line(script.Record(value, call.set)))
            else:
                self.by_handle(script.RecordBound(call.handle, value), 0)

    def collection(self, text, answers):
        head, *lines = answers
        for place, point in enumerate(self.reference.collected):
            if shows_starts(point):
                self.empty += 1
                lines[place] = script.write_point(in_rust(point))
        self.ask(text, [head, *lines])

    def by_handle(self, call, refusal):
        """Any live binding of the same birth number serves: they all stand for one entry."""
        live = self.live.get(self.birth(call), [])
        if isinstance(call, script.RecordBound) and live and refusal in (0, 6):
            self.ask(f"h {live[-1]} {call.value}")
        elif isinstance(call, script.Release) and refusal == 0:
            self.ask(f"u {live.pop()}")

    def birth(self, call):
        return self.reference.handles[call.handle]

    def sum_leaves(self):
        """Of every sum that was held since a reset, within a batch too."""
        config = self.reference.config
        if config.number != "i" or config.kind in script.SINGLE_KINDS or config.sum:
            return False
        return not all(-(2**63) <= total < 2**63 for entry in self.reference.map.entries.values() for total in accumulate(entry.values))


def stopped_by(call, answers, refusal):
    """The number that refused a value, 0 if none did."""
    if isinstance(call, script.BATCHES):
        return script.read_taken(answers[0])[1]
    return refusal if isinstance(call, (script.Record, script.RecordBound)) else 0


def refused_by_both(call, bounds, refusal):
    """Whether `validate` refuses what document 01 refuses with 2 or 3."""
    if refusal == 2:
        return call.scale not in ASKED_SCALES
    numbers = [to_float(b) for b in bounds]
    return refusal == 3 and any(a >= b for a, b in zip(numbers, numbers[1:]))


def asked(lines, rules):
    asking = Asking(rules)
    for text in lines:
        asking.line(text)
    return Asked(asking.lines, asking.expected, asking.empty, asking.beyond, asking.wraps)


def told(questions):
    """The Rust's answers to scripts as asked: a dict from name to lines, None where it panicked."""
    answers = {}
    for program, wraps in ((REPLAY, False), (UNCHECKED, True)):
        answers |= replay({name: question.lines for name, question in questions.items() if question.wraps == wraps}, program)
    return {name: answers[name] for name in questions}


def replay(scripts, program=REPLAY):
    done = subprocess.run([program], input=script.join_scripts(scripts), capture_output=True, text=True)
    if done.returncode == 0:
        return script.split_scripts(done.stdout)
    if len(scripts) == 1:
        return dict.fromkeys(scripts)
    answers = {}
    for name, lines in scripts.items():
        answers |= replay({name: lines}, program)
    return answers


def indices(pairs):
    """`get_bin` of (scale, bits) pairs, by magnitude."""
    text = "".join(f"{scale} {bits:016X}\n" for scale, bits in pairs)
    done = subprocess.run([REPLAY, "index"], input=text, capture_output=True, text=True, check=True)
    return [int(line) for line in done.stdout.split()]
