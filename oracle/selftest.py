"""Checks of the reference and the model: document 01's worked run, marks and orders, the index against its definition, the language.

    selftest.py                 prints one line a check and fails on the first that does not hold
"""

import random
from dataclasses import replace
from fractions import Fraction

import card
import cases
import gauge
import machine
import points
import reference
import script
from bits import BOUNDS, GREATEST, has_index, index, to_bits, to_float
from mean_lines import answered
from points import NUMBERS
from reference import Config

ONE, TWO, THREE, ONE_AND_A_HALF = 0x3FF0000000000000, 0x4000000000000000, 0x4008000000000000, 0x3FF8000000000000
TINY, TWO_TO_MINUS_1024 = 1, 0x0004000000000000

# Document 01, "Gauge marks": value, scale, index.
INDEX_MARKS = [
    (ONE, 10, -1),
    (ONE, 0, -1),
    (ONE, -10, -1),
    (TWO, 10, 1023),
    (TWO + 1, 10, 1024),
    (THREE, 1, 3),
    (THREE, 0, 1),
    (ONE_AND_A_HALF, 2, 2),
    (TINY, 10, -1099777),
    (TINY, 0, -1075),
    (TINY, -10, -2),
    (GREATEST, 10, 1048575),
    (GREATEST, -10, 0),
    (TWO_TO_MINUS_1024, -10, -2),
    (TWO_TO_MINUS_1024 + 1, -10, -1),
]

# Document 01, "A run of the gauge program".
WORKED_RUN = """\
e 4 10 2 100
r 3FF0000000000000 1:5
r 4000000000000000 1:5
r 4008000000000000 1:5
r 0000000000000000 1:5
r BFF0000000000000 1:5
c 200
"""
WORKED_ANSWER = """\
c 100 200 1
p 1:5 5 1 0 BFF0000000000000 4008000000000000 4014000000000000 -1:1,1,1 -1:1
"""


def check(what, holds):
    print(("ok   " if holds else "FAIL ") + what)
    if not holds:
        raise SystemExit(1)


def check_answers(what, lines, expected):
    given = reference.answers(lines)
    check(f"{what}: {expected[-1] if expected else 'accepted'}", given == expected)


def check_marks():
    for bits, scale, expected in INDEX_MARKS:
        check(f"index of {bits:016X} at {scale} is {expected}", index(bits, scale) == expected)
        check("  and by the definition", has_index(bits, scale, expected))


def check_table():
    rule = all(m**1024 <= 2 ** (k + 53248) < (m + 1) ** 1024 for k, m in enumerate(BOUNDS))
    check("each of the 1024 bounds is the largest m with m^1024 <= 2^(k + 53248)", rule)


def check_index(count=3000):
    draw = random.Random("index")
    near = [(draw.randrange(0, 2047) << 52) + (draw.choice(BOUNDS) + draw.randint(-1, 2)) % 2**52 for _ in range(count)]
    values = [draw.randrange(1, GREATEST + 1) for _ in range(count)] + [max(1, bits) for bits in near]
    scales = [draw.randint(-10, 10) for _ in values]
    holds = all(has_index(bits, s, index(bits, s)) for bits, s in zip(values, scales))
    check(f"the index of {len(values)} values, half of them beside bounds, is the definition's", holds)


def is_nearest(n, x):
    """Whether no f64 lies nearer to a whole number than x, and one that lies as near has an odd mantissa, so that x's is the even one."""
    bits, off = to_bits(abs(x)), abs(abs(n) - Fraction(abs(x)))
    beside = [abs(abs(n) - Fraction(to_float(bits + step))) for step in (-1, 1) if bits + step >= 0]
    return (x < 0) == (n < 0) and all(off < other or (off == other and bits % 2 == 0) for other in beside)


def check_nearest(count=3000):
    """Request L6: "The bucket comes from the f64 nearest to the whole number, ties to the even mantissa"."""
    draw = random.Random("nearest")
    near = [(2**power >> 1) + more for power in range(1, 65) for more in range(-3, 4)]
    near += [(m << drop) + (1 << drop - 1) + more for drop in range(1, 11) for m in (2**52, 2**52 + 1, 2**53 - 1) for more in (-1, 0, 1)]
    values = [n for n in near + [draw.getrandbits(draw.randint(1, 63)) for _ in range(count)] if n < 2**63]
    values = [signed for n in values for signed in (n, -n)] + [-(2**63)]
    nearest = NUMBERS["i"].nearest
    check(f"the f64 nearest to {len(values)} whole numbers, ties to the even mantissa", all(is_nearest(n, nearest(n)) for n in values))
    ties = {2**53 + 1: 2**53, 2**53 + 3: 2**53 + 4, 2**54 + 2: 2**54, 2**54 + 6: 2**54 + 8, 2**63 - 512: 2**63, 2**63 - 1: 2**63, 2**63 - 513: 2**63 - 1024}
    check("  ties both ways, and the greatest i64", all(nearest(sign * n) == sign * x for n, x in ties.items() for sign in (1, -1)))


def check_worked_run():
    check("the worked run prints exactly document 01's two lines", gauge.answer(WORKED_RUN) == WORKED_ANSWER)
    bad = ["r 3FF0000000000000 1:5", "e 4 10 31 0", "e 4 10 30 0", "r 7FF0000000000000 -", "", "c 01", "c 1", "c 1 "]
    expected = ["? 1", "? 2", "? 4", "? 5", "? 6", "c 0 1 0", "? 8"]
    check("gauge lines that are refused or cannot be read give ? N", list(gauge.run(bad)) == expected)


def exponential(size=4, scale=10, limit=2):
    return f"n e f {size} {scale} - {limit} d 1 1 0"


def explicit(bounds):
    waiting = [f"g {','.join(f'{b:016X}' for b in bounds[i:i + 12])}" for i in range(0, len(bounds), 12)]
    return [*waiting, "n x f - - - 2 d 1 1 0"]


# Document 01, "Gauge marks", those that are run: the scripts of cases/marks.py that are refused, and with which number.
REFUSED_MARKS = {"size_2": 1, "size_161": 1, "scale_-11": 2, "scale_11": 2, "limit_63": 4, "filter_17": 4, "attributes_9": 5, "bounds_160": 3}


def refusals(lines):
    return [int(answer.split()[2]) for answer in machine.answers(lines) if answer.startswith("!")]


def check_run_marks(scripts):
    """Both sides of each limit: which number is answered first."""
    for name, lines in scripts.items():
        if name.startswith("mark_"):
            mark = "_".join(name.split("_")[1:3])
            expected = [REFUSED_MARKS[mark]] if mark in REFUSED_MARKS else []
            check(f"{name}: {expected or 'accepted'}", refusals(lines)[:1] == expected)


def check_orders(scripts):
    """Document 01, "Order.": a script's name ends in the numbers that apply, two or all that a call has, the earlier first."""
    orders = {name: [int(part) for part in name.split("_") if part.isdigit()] for name in scripts if name.startswith("order_")}
    check(f"{len(orders)} scripts of numbers that apply together: the earlier, then the later", all(refusals(scripts[name]) == orders[name] for name in orders))


def check_rescales(scripts):
    """A script's name has the scale that all its points end at."""
    ends = {name: name.split("_")[-1] for name in scripts if name.startswith("rescale_3_from_10_to_")}
    found = {name: {answer.split()[4] for answer in reference.answers(scripts[name]) if answer.startswith("p")} for name in ends}
    check(f"from scale 10 to each of {len(ends)} lower scales at once", all(found[name] == {ends[name]} for name in ends))


def check_examples():
    """The example of each number of document 01's table that a script can reach."""
    five = 0x4014000000000000
    check_answers("3, bounds 5 and 5", explicit([five, five]), ["! 2 3"])
    check_answers("6, infinity", [exponential(), "r 7FF0000000000000 -"], ["! 2 6"])
    released = [exponential(), "b 1 1:1", "u 1", f"h 1 {ONE:016X}"]
    check_answers("7, a released handle", released, ["b 1 1", "! 4 7"])
    short = [exponential(), f"r {ONE:016X} 1:1", f"r {ONE:016X} 1:2", "c 1 1 -"]
    check_answers("10, two points and place for one", short, ["! 4 10"])
    check_answers("12, size 3 and no counts lent", ["m 0 -", exponential(size=3)], ["! 2 12"])
    bucket = [*explicit([0, five]), f"r {five:016X} -", "c 1 - -"]
    point = f"q - 1 {five:016X} {five:016X} {five:016X} 0,1,0 0000000000000000,{five:016X}"
    check_answers("with bounds 0 and 5 the value 5 is in bucket 1", bucket, ["c 0 1 1", point])
    unlike = [*explicit([0]), f"r {ONE:016X} -", "c 1 - -", "k 0 0"]
    unlike += [*explicit([ONE]), f"r {ONE:016X} -", "c 1 - -", "k 1 0", "j 2 0 1 0 -"]
    check("11, bounds 0 and bounds 1", reference.answers(unlike)[-1] == "! 11 11")
    full = [exponential(), f"r {ONE:016X} -", "c 1 - -", "k 0 0"] + ["j 0 0 0 4 -"] * 64
    check("9, a count of 2^63 merged with itself", reference.answers(full)[-1] == "! 68 9")


def check_requests():
    """What the language has room for: totals and last values, cards, whole numbers, a zero band, new settings."""
    total = ["n s f - - - 2 d 1 1 0", f"r {ONE:016X} 1:1", f"r {TWO:016X} 1:1", "c 1 - -", "c 2 - -"]
    check_answers("L1, a sum", total, ["c 0 1 1", f"v 1:1 {THREE:016X}", "c 1 2 0"])
    last = ["n l f - - - 2 c 1 1 0", f"r {ONE:016X} 1:1", f"r {TWO:016X} 1:1", "c 1 - -"]
    check_answers("L1, a last value", last, ["c 0 1 1", f"v 1:1 {TWO:016X}"])
    boards = f"e 4 10 2 0\nr {to_bits(-0.125):016X} 1:1\nr {to_bits(-0.005):016X} 1:2\nc 1"
    check("L2, a board of -0.125 and one of -0.005", card.answer(boards) == "c 0 1 2\n1:1 -13\n1:2 ! 14\n")
    empty, disagreeing = (f"x 0 0 - - {TINY:016X} {ONE:016X} {count} 0" for count in (0, 1))
    check("L2, a point of no values, and one that disagrees", [answered(empty), answered(disagreeing)] == ["! 13", "! 8"])
    whole = ["n e i 4 10 - 2 d 1 1 0", "r 9223372036854775807 -", "r 1 -", "r -3 -", "c 1 - -"]
    point = "p - 2 0 10 -3 9223372036854775807 9223372036854775804 64511:1 1623:1"
    check_answers("L6, whole numbers", whole, ["! 3 16", "c 0 1 1", point])
    corner = ["n e i 4 10 - 1 d 1 1 0", "r 9223372036854775807 4294967295:1", "r 1 1:5", "r -1 1:5"]
    check_answers("L6, a set over the limit shares the sum of overflow", corner, ["! 3 16"])
    unsummed = ["n x i - - - 1 d 1 0 0", "r 9223372036854775807 -", "r 9223372036854775807 -", "c 1 - -"]
    check_answers("L6, with the sum off none is kept", unsummed, ["c 0 1 1", "q - 2 9223372036854775807 9223372036854775807 0 - -"])
    check("L6, cards of points over i64: 11, also at count 0, and 8 before it", [card.shown(point) for point in some_wholes()] == ["! 11", "! 11", "! 8"])
    band = [f"n e f 4 10 {TWO:016X} 2 d 1 1 0", f"r {TWO:016X} -", f"r {TWO + 1:016X} -", "c 1 - -"]
    point = f"p - 2 1 10 {TWO:016X} {TWO + 1:016X} 4010000000000000 1024:1 0: {TWO:016X}"
    check_answers("L7, a zero band", band, ["c 0 1 1", point])
    check_answers("L7, a negative threshold", ["n e f 4 10 C000000000000000 2 d 1 1 0"], ["! 1 17"])
    values = [f"r {bits:016X} -" for bits in (ONE, TWO, THREE, ONE_AND_A_HALF)]
    changed = reference.answers([exponential(size=160), *values, "t 3 4", "c 1 - -"])
    check("L10, new settings give the point of the values under them", changed == reference.answers([exponential(3, 4), *values, "c 1 - -"]))
    check_answers("L10, a setting that would rise", [exponential(), "t 5 10"], ["! 2 19"])


def singly(held, call):
    """The single calls of a batch, up to the first that is refused: what a batch answers."""
    for taken, value in enumerate(call.values):
        one = script.Record(value, call.set) if isinstance(call, script.RecordAll) else script.RecordBound(call.handle, value)
        _, number = held.line(0, script.write_line(one))
        if number:
            return [script.write_taken(taken, number)]
    return [script.write_taken(len(call.values), 0)]


def is_singly(lines):
    """Whether a script, damaged or not, answers as with single calls in place of its batches, and leaves the same in every cell."""
    many, single = machine.Machine(), machine.Machine()
    for number, line in enumerate([*lines, "s"], 1):
        answers, refusal = many.line(number, line)
        batch = refusal == 0 and line[0] in "RH"
        if answers != (singly(single, script.read_line(line)) if batch else single.line(number, line)[0]):
            return False
    return True


def check_batches(scripts):
    batches = [lines for lines in scripts.values() if any(line[:2] in ("R ", "H ") for line in lines)]
    check(f"{len(batches)} scripts with batches: as with the single calls, up to the first that is refused", all(map(is_singly, batches)))
    values = [f"{bits:016X}" for bits in (ONE, 0x7FF0000000000000, TWO)]
    given = [exponential(), f"R {','.join(values)} 1:1", f"R {values[2]},{values[0]} 1:1", "R - 1:1", f"H 1 {values[0]}", "H 1 -", "c 1 - -"]
    point = f"p 1:1 3 0 1 {ONE:016X} {TWO:016X} 4010000000000000 -1:2,0,1 0:"
    check_answers("batches", given, ["a 1 6", "a 2 0", "a 0 0", "a 0 7", "a 0 0", "c 0 1 1", point])


def some_wholes():
    """A point over i64, one of no values, and one that disagrees."""
    config = Config("e", "i", 4, 10, 0.0, 2, "d", True, True)
    point = points.exponential_point((), [1, 2], config)
    return point, points.exponential_point((), [], config), replace(point, count=3)


def check_language():
    lines = ["g 3FF0000000000000", "f -", "m 7 -", "n e f 4 -10 - 2 l 0 1 0", "r -12 1:2,1:3", "b 99 -", "h 0 5", "u 3"]
    lines += ["c 18446744073709551615 0 -", "k 7 0", "j 0 1 2 160 4", "t 4 3", "R 1,-2 1:2", "R - -", "H 3 3FF0000000000000", "H 0 -"]
    check("each kind of line is written as it was read", [script.write_line(script.read_line(x)) for x in lines] == lines)
    bad = ["x", "u", "u 100", "u 01", "u +1", "c -1 - -", "c 1  - -", "n x f 3 - - 2 d 1 1 0", "g 3ff0000000000000", ""]
    check("lines that are not of the language", reference.answers(bad) == [f"? {n}" for n in range(1, len(bad) + 1)])


def main():
    check_table()
    check_marks()
    check_index()
    check_nearest()
    check_worked_run()
    scripts = cases.scripts()
    check_run_marks(scripts)
    check_orders(scripts)
    check_rescales(scripts)
    check_batches(scripts)
    check_examples()
    check_requests()
    check_language()


if __name__ == "__main__":
    main()
