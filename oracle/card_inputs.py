"""Input for the programs mean_run (lines of mean_lines.py) and card (the gauge's language): document 02's examples, counts and sums at
their limits, means beside a half, points that disagree, lines that can't be read. Texts are of Latin-1: a character is a byte."""

import random
from pathlib import Path

import script
from bits import CANONICAL_NAN, GREATEST, INFINITY, SIGN, to_bits
from card import SUM_MOST
from gauge_inputs import ANEW, EDGES, ONE, run_of, shift_of, spoiled
from mean_lines import LENGTHS, SCALES
from points import COUNT_MOST, shown
from selftest import WORKED_RUN

EXAMPLE = Path(__file__).resolve().parent.parent / "examples/shift.txt"
STEPS_MOST = SUM_MOST * 1024
LEAST, NEAR, FAR = 1, to_bits(-0.125), to_bits(0.375)  # the least f64; extremes that agree

# 1024 times the last but one is 1024 above 2^64.
COUNTS = (0, 1, 2, 3, 2**52 - 1, 2**52, 2**52 + 1, 2**53, 2**54 + 1, COUNT_MOST)
MAGNITUDES = [0, *map(to_bits, (0.125, 0.005, 1.0, 1 / 1024, 1 / 2048, 3 / 2048, 2.0**43, 2.0**43 + 1 / 512, 2.0**43 - 1 / 1024))]
MAGNITUDES += [LEAST, GREATEST, INFINITY, CANONICAL_NAN]
SUMS = [bits | sign for bits in MAGNITUDES for sign in (0, SIGN)]


def of_steps(steps):
    """The bits of a sum of so many 1/1024."""
    return to_bits(steps / 1024)


# Counts and sums whose mean in hundredths is a half, with the count before and behind: 128 steps are 12.5 hundredths.
HALVES = [(1, 128), (1, 3 * 128), (2, 2 * 128), (3, 3 * 128), (25, 128), (50, 6 * 128), (2**40, 128 * 2**40), (25 * 2**45, 128 * 2**45)]
HALVES += [(1, STEPS_MOST - 128), (3, 3 * 128 * (2**44 - 1)), (1759218604441600, STEPS_MOST)]
EXAMPLES = [(1, to_bits(-0.125)), (1, to_bits(-0.005))]
EXAMPLES += [(count + by, of_steps(sign * steps)) for count, steps in HALVES for by in (-1, 0, 1) for sign in (1, -1)]


# Counts and sums by a source.


def beside_half(draw):
    """A count and a sum whose mean in hundredths is a half, or one step beside the nearest to one."""
    count = draw.getrandbits(draw.randint(1, 50)) * draw.choice((1, 1, 25)) % 2**50 or draw.choice((1, 25))
    times = draw.choice((1, 1, 25))
    width = max(1, (STEPS_MOST * 25 // (128 * count * times)).bit_length() - 1)
    odd = (draw.getrandbits(draw.choice((width, draw.randint(1, width)))) | 1) * times
    steps = min(STEPS_MOST, 128 * count * odd // 25 + draw.choice((-1, 0, 0, 0, 1)))
    return count, of_steps(draw.choice((1, -1)) * steps)


def on_grid(draw):
    steps = min(STEPS_MOST, draw.getrandbits(draw.randint(1, 54)))
    return draw.getrandbits(draw.randint(1, 64)), of_steps(draw.choice((1, -1)) * steps)


def at_limits(draw):
    return draw.choice(COUNTS), draw.choice(SUMS)


def anything(draw):
    return draw.getrandbits(draw.randint(1, 64)), draw.getrandbits(64)


SOURCES = (beside_half, beside_half, on_grid, at_limits, anything)


# Points that agree, but for what is changed.


def line(letter, fields, changed):
    assert changed.keys() <= fields.keys()
    return " ".join([letter, *(write_field(name, value) for name, value in (fields | changed).items())])


def write_field(name, value):
    if value is None:
        return "-"
    return script.write_bits(value) if name in ("min", "max", "sum", "bound") else str(value)


def held(count, bits):
    """A point of count 0 shows no extremes (request L4)."""
    low, high = shown(NEAR, FAR, True, count)
    return {"count": count, "switch": 1, "min": low, "max": high, "sum": bits}


def explicit(draw, count, bits, /, **changed):
    first = draw.randint(0, count)
    return line("x", held(count, bits) | {"bound": 0, "first": first, "second": count - first}, changed)


def exponential(draw, count, bits, /, **changed):
    """One to four positive counts, if there are any, and zeros and one negative count for the rest."""
    ones = draw.randrange(min(count, 4)) if count else 0
    left = count - ones
    first = draw.randint(min(left, 1), left)
    zeros = draw.randint(0, left - first)
    rows = {"scale": draw.randint(-8, 10), "zeros": zeros, "first": first, "len": ones + 1 if count else 0, "neg": left - first - zeros}
    return line("e", held(count, bits) | rows, changed)


KINDS = (explicit, exponential)


# Number 8: each reason, beside what still agrees.

HELD_DAMAGE = [{"min": None}, {"max": None}, {"min": None, "max": None}, {"switch": 0, "min": None, "max": None}, {"switch": 0}]
HELD_DAMAGE += [{"switch": switch, "min": NEAR, "max": FAR} for switch in (0, 1)] + [{"min": GREATEST, "max": GREATEST | SIGN}]
EDGES_OF_F64 = (INFINITY, INFINITY | SIGN, CANONICAL_NAN, INFINITY + 1, GREATEST, 0, SIGN)
HELD_DAMAGE += [{name: bits} for name in ("min", "max") for bits in EDGES_OF_F64]
HELD_DAMAGE += [{"min": INFINITY, "max": INFINITY}, {"min": CANONICAL_NAN, "max": CANONICAL_NAN}, {"min": FAR, "max": NEAR}]

# The counts of both buckets, and of all that an exponential point counts, total `count` or not; the last by 2^64.
EXPLICIT_DAMAGE = [{"bound": bits} for bits in (CANONICAL_NAN, INFINITY + 1, COUNT_MOST, INFINITY, INFINITY | SIGN, SIGN, LEAST)]
EXPLICIT_DAMAGE += [{"count": 3, "first": 1, "second": second} for second in (1, 2, 3)]
EXPLICIT_DAMAGE += [{"count": 3, "first": first, "second": 4} for first in (COUNT_MOST, COUNT_MOST - 4)]

WHOLE = {"count": 9, "scale": 0, "zeros": 2, "first": 3, "len": 2, "neg": 3}
ROWS_DAMAGE = [WHOLE, *(WHOLE | {name: WHOLE[name] + by} for name in WHOLE for by in (-1, 1))]
for NAME in ("zeros", "first", "neg"):
    ROWS_DAMAGE += [WHOLE | {NAME: COUNT_MOST, "count": count} for count in (WHOLE["count"] - WHOLE[NAME] - 1, COUNT_MOST)]
ROWS_DAMAGE += [WHOLE | {"zeros": COUNT_MOST, "first": COUNT_MOST, "neg": COUNT_MOST, "count": count} for count in (COUNT_MOST - 1, 2, 3)]

# The positive row alone: too many counts, a first or a last count of 0, an offset without counts, a scale above the greatest.
ALONE = {"count": 0, "scale": 0, "zeros": 0, "first": 0, "len": 0, "neg": 0}
ROWS_DAMAGE += [ALONE | {"count": n, "first": 1, "len": n} for n in (159, 160, 161, 200)]
ROWS_DAMAGE += [ALONE | {"count": n - 1, "len": n} for n in (1, 2, 3)]
ROWS_DAMAGE += [ALONE | {"count": 7, "zeros": 7, "first": first} for first in (0, 1, 2, 2**32, COUNT_MOST)]
ROWS_DAMAGE += [ALONE | {"count": 7, "zeros": 3, "neg": neg, "scale": scale} for neg in (4, 5) for scale in (-10, 10, 11, 20)]

# The indices of the greatest f64 and of 2^-1074 bound a row; from index 0 on only the first can be passed, below scale -2.
for SCALE in range(-10, -2):
    ROWS_DAMAGE += [ALONE | {"count": n, "first": 1, "len": n, "scale": SCALE} for n in (1024 >> -SCALE, (1024 >> -SCALE) + 1)]

# Numbers 8, 13 and 14, each with those behind it: a point of no values whose sum is off the grid, and its counts don't add up.
ORDER = [({}, {}), ({"first": 1}, {"zeros": 1}), ({"min": None}, {"min": None}), ({"bound": CANONICAL_NAN}, {"scale": 11})]
ORDER += [({"min": NEAR, "max": FAR},) * 2]
ORDER_SUMS = (0, to_bits(0.005), CANONICAL_NAN, INFINITY)


def disagreeing(draw):
    for count, bits in ((9, to_bits(-0.125)), (0, 0)):
        yield from (kind(draw, count, bits, **changed) for kind in KINDS for changed in HELD_DAMAGE)
    yield from (explicit(draw, 9, to_bits(-0.125), **changed) for changed in EXPLICIT_DAMAGE)
    yield from (exponential(draw, 9, to_bits(-0.125), **changed) for changed in ROWS_DAMAGE)
    for count in (0, 1):
        for bits in ORDER_SUMS:
            for changed in ORDER:
                yield explicit(draw, count, bits, **changed[0])
                yield exponential(draw, count, bits, **changed[1])


# Lines that can't be read, by what is changed in a line that can; and some that are nothing like one.

UNREAD_FIELDS = [{"count": 2**64}, {"count": "01"}, {"count": -1}, {"count": ""}, {"switch": 2}, {"switch": "-"}, {"switch": "00"}]
UNREAD_X = [*UNREAD_FIELDS, {"first": "-0"}, {"second": "1 "}, {"second": "1 1"}, {"second": None}]
UNREAD_E = [*UNREAD_FIELDS, *({"scale": scale} for scale in (21, -11, 266, "-0", 2**64 + 1)), {"len": 201}, {"len": 2**32}]
UNREAD_E += [{"len": None}, {"neg": "1 "}, {"neg": "+1"}, {"zeros": "0x1"}, {"first": " 1"}]
UNREAD = ["", " ", "x", "e", "?", "-", "x ", "e 1"]
UNREAD += [f"x 1 1 - - {ONE} {ONE} 1", f"e 1 1 - - {ONE} {ONE} 0 1", f"x 1 1 -- - {ONE} {ONE} 0 1"]
UNREAD += [f"x 1 1 - -0 {ONE} {ONE} 0 1", f"x 1 1 - - - {ONE} 0 1", f"x 1 1 - - {ONE} - 0 1", f"x 1 1 {ONE[1:]} - {ONE} {ONE} 0 1"]
UNREAD += [f"x 1 1 - - {ONE.lower()} {ONE} 0 1", f"X 1 1 - - {ONE} {ONE} 0 1", f"x 1 1 - - {ONE}0 {ONE} 0 1", f"x 1 1 - - {ONE}  {ONE} 0 1"]
UNREAD += [f"x 1 1 - - {ONE} {ONE} 0 1\r", f"xx 1 1 - - {ONE} {ONE} 0 1", f"e 1 1 - - {ONE} 0 0 1 1 0\x00"]
UNREAD += ["\xff" * 20, "x" * 256, "e " * 200]


def unread(draw):
    bits = to_bits(-0.125)
    return [explicit(draw, 1, bits, **x) for x in UNREAD_X] + [exponential(draw, 1, bits, **e) for e in UNREAD_E] + UNREAD


# The stored lines of mean_run, and random ones.


def stored_lines(draw):
    """Document 02's examples and halves, and every count beside every sum, in both kinds; random halves in one of them."""
    figures = [*EXAMPLES, *((count, bits) for count in COUNTS for bits in SUMS)]
    lines = [kind(draw, *pair) for pair in figures for kind in KINDS]
    lines += [draw.choice(KINDS)(draw, *beside_half(draw)) for _ in range(80)]
    return lines + [*disagreeing(draw), *unread(draw)]


EXTREMES = None, NEAR, *SUMS
FIELDS = {"switch": (0, 1), "bound": SUMS, "min": EXTREMES, "max": EXTREMES, "both": EXTREMES, "scale": SCALES, "len": LENGTHS}
NAMES = {explicit: ("bound", "first", "second"), exponential: ("scale", "zeros", "first", "len", "neg")}


def random_line(draw):
    """A point that agrees, mostly; a field may be changed, or a byte."""
    kind = draw.choice(KINDS)
    count, bits = draw.choice(SOURCES)(draw)
    name = draw.choice(("count", "switch", "min", "max", "both", *NAMES[kind]))
    value = draw.choice(FIELDS.get(name, (*COUNTS, draw.getrandbits(64))))
    changed = {"min": value, "max": value} if name == "both" else {name: value}
    made = kind(draw, count, bits, **(changed if draw.random() < 0.2 else {}))
    return spoiled(draw, made) if draw.random() < 0.03 else made


def random_lines(draw, many):
    return "\n".join(random_line(draw) for _ in range(many))


# Input of the program card.


def recorded(bits, attributes):
    return f"r {script.write_bits(bits)} {attributes}"


def boards(draw, blades, many):
    """Boards whose sums come to exact halves and sums beside them, with sums that leave the grid and its limit now and then."""
    lines = [f"e {draw.choice((3, 20, 160))} {draw.randint(-10, 10)} {draw.choice((2, 8, 30))} {draw.randrange(1000)}"]
    for time in range(many):
        steps = draw.choice((128, -128, 384, 64, 1, -1, 0, draw.randint(-2000, 2000)))
        bits = of_steps(steps) if draw.random() < 0.97 else draw.choice(SUMS)
        blade = draw.randint(0, blades)
        lines.append(recorded(bits, f"1:{blade},2:1" if blade else "-"))
        if draw.random() < 0.1:
            lines.append(f"c {time}")
    return [*lines, f"c {many}"]


def sums_at_limits():
    """Each sum as one board's, and as two boards' with the next."""
    lines = ["e 160 10 30 0"]
    for first, second in zip(SUMS, SUMS[1:] + SUMS[:1]):
        lines += [recorded(first, "1:1"), recorded(first, "1:2"), recorded(second, "1:2"), "c 1"]
    return lines


def text():
    """The whole input; the last line has no newline."""
    draw = random.Random("card")
    before = [f"r {ONE} -", "c 1"]
    examples = [*script.split_lines(EXAMPLE.read_text()), *script.split_lines(WORKED_RUN)]
    examples += ["e 4 10 2 0", recorded(to_bits(-0.125), "1:1"), recorded(to_bits(-0.005), "1:2"), "c 1", "c 2"]
    made = [line for blades in (1, 3, 40) for line in boards(draw, blades, 200)]
    runs = [line for i in range(6) for line in run_of(f"card.{i}")]
    return "\n".join([*before, *examples, *sums_at_limits(), *made, *ANEW, *draw.sample(EDGES, 40), *runs, shift_of("card", 200)])
