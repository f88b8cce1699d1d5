"""Input for the gauge program: document 01's run and marks, lines on the edge of its language, maps at their limits, random runs with
spoiled lines, shifts of boards with damaged bytes. Texts are of Latin-1: a character is a byte."""

import random

import generate
import script
from bits import to_bits
from selftest import WORKED_RUN

ONE = "3FF0000000000000"
RANDOM_RUNS = 60
SHIFTS = 6

MARKS = [f"e {size} 10 2 0" for size in (2, 3, 160, 161)]
MARKS += [f"e 4 {scale} 2 0" for scale in (-11, -10, 10, 11)]
MARKS += [f"e 4 10 {limit} 0" for limit in (62, 63, 31, 30, 0)]
MARKS += [f"r {ONE} " + ",".join(f"{key}:1" for key in range(1, 1 + count)) for count in (8, 9)] + ["c 1"]

EDGES = [
    "e 4 10 2 0",
    "",
    " ",
    "r",
    "r ",
    f"r {ONE}",
    f"r {ONE} ",
    f"r {ONE} - ",
    f" r {ONE} -",
    f"r  {ONE} -",
    f"r {ONE}  -",
    f"rr {ONE} -",
    f"r {ONE} --",
    f"r {ONE} -,1:1",
    f"r {ONE} 1:1,-",
    f"r {ONE} 1:1,",
    f"r {ONE} ,1:1",
    f"r {ONE} ,",
    f"r {ONE} :",
    f"r {ONE} 1:1,,2:1",
    f"r {ONE} 1:1, 2:1",
    f"r {ONE} 1: 1",
    f"r {ONE} 1:",
    f"r {ONE} :1",
    f"r {ONE} 1",
    f"r {ONE} 1:1:1",
    f"r {ONE} 1:1;2:1",
    f"r {ONE} 01:1",
    f"r {ONE} 1:00",
    f"r {ONE} 0:0",
    f"r {ONE} -1:1",
    f"r {ONE} 1:-0",
    f"r {ONE} +1:1",
    f"r {ONE} 4294967295:4294967295",
    f"r {ONE} 4294967296:1",
    f"r {ONE} 1:4294967296",
    f"r {ONE} 1:99999999999999999999",
    f"r {ONE} 1:18446744073709551616",
    f"r {ONE} A:1",
    f"r {ONE[:-1]} 1:1",
    f"r {ONE[:-1]} 11:1",
    f"r {ONE}0 1:1",
    "r 3ff0000000000000 1:1",
    "r 3FF000000000000G 1:1",
    "r 3FF000000000000@ 1:1",
    "r 3FF000000000000/ 1:1",
    "r 3FF000000000000: 1:1",
    "r 0x3FF00000000000 1:1",
    "r 7FF0000000000000 1:1",
    "r FFF0000000000000 1:1",
    "r FFF8000000000001 1:1",
    "r 8000000000000000 1:1",
    f"R {ONE} 1:1",
    f"r {ONE} 2:1,1:1,2:9",
    f"r {ONE} 1:1,2:1\r",
    "c 1\r",
    f"r\t{ONE} 1:1",
    f"r {ONE}\t1:1",
    f"r {ONE} 1:1\xe9",
    f"r {ONE} 1:\x001",
    f"r {ONE} 1:1\x00",
    "\x00",
    "\xff" * 20,
    "\xef\xbb\xbfc 1",
    f"r {ONE} " + ",".join(["1:1"] * 8),
    f"r {ONE} " + ",".join(["1:1"] * 9),
    f"r {ONE} " + ",".join(["1:1"] * 58),
    f"r {ONE} " + ",".join(["1:1"] * 59),
    f"r {ONE} " + ",".join(["1:1"] * 60),
    f"r {ONE} " + ",".join(["1:1"] * 8 + ["x"]),
    f"r {ONE} " + ",".join(f"{4294967295 - key}:{4294967294 - key}" for key in range(8)),
    "c",
    "c ",
    "c 0",
    "c 00",
    "c -0",
    "c -1",
    "c +1",
    "c 1a",
    "c 18446744073709551615",
    "c 18446744073709551616",
    "c 99999999999999999999",
    "c 1 2",
    "C 1",
    "e",
    "e 4 10 2",
    "e 4 10 2 0 0",
    "e 4  10 2 0",
    "e 4 10 2 0 ",
    "e 4 -0 2 0",
    "e 4 - 2 0",
    "e - 1 2 0",
    "e 4 +1 2 0",
    "e 4 01 2 0",
    "e 04 1 2 0",
    "e -4 1 2 0",
    "e 4294967300 1 2 0",
    "e 4 266 2 0",
    "e 4 -246 2 0",
    "e 4 4294967306 2 0",
    "e 4 -4294967286 2 0",
    "e 4 1000 2 0",
    "e 4 18446744073709551626 2 0",
    "e 4 1 4294967298 0",
    "e 4 1 18446744073709551618 0",
    "e 4 1 2 18446744073709551616",
    "e 4 1 2 -1",
    "# no comment here",
    "c " + "0" * 253,
    "c " + "0" * 254,
    "c " + "1" * 253,
    "x" * 255,
    "x" * 256,
    "x" * 257,
    "x" * 70000,
    f"r {ONE} 1:1",
    "c 5",
]

# A refused `e` leaves the map and its clock, an accepted one starts anew.
ANEW = ["e 4 10 2 70", f"r {ONE} 1:1"]
ANEW += ["e 2 10 2 71", "e 4 11 2 72", "e 4 10 31 73", "e 4 10 63 74", "e 4 10 2", "e 4 10 2 01", f"r {ONE} 2:1", "c 80"]
ANEW += [f"r {ONE} 1:1", "e 5 9 3 90", "c 95", "c 94", f"r {ONE} -", "c 18446744073709551615", "c 0", "c 0"]

# Sets beyond the limit go to overflow; the overflow set itself, and the empty set, which never counts.
OVER = [f"e 4 10 {limit} 0\nr {ONE} 4294967295:1\nr {ONE} 1:1\nr {ONE} 2:1\nr {ONE} 3:1\nr {ONE} -\nc 1" for limit in (0, 1, 2, 3)]
OVER += ["c 2\nc 3", f"r {ONE} 4:1\nr {ONE} 5:1\nr {ONE} 6:1\nc 4\nc 5"]


def bits(x):
    return script.write_bits(to_bits(x))


def full():
    """Every slot and every count of the stores: 30 sets, the empty one and overflow, each with two rows of 160 counts."""
    sets = [*(f"{key}:{key},7:{key}" for key in range(1, 31)), "31:1", "-"]
    rows = [f"r {bits(sign * 2.0**k)} {at}" for at in sets for k in (0, 80, 159) for sign in (1, -1)]
    rows += [f"r {bits(sign * 2.0**k)} {sets[0]}" for k in range(160) for sign in (1, -1)]
    return ["e 160 3 30 0", *rows, f"r {ONE} 32:2", "c 1", "c 2", f"r {ONE} 33:3", "c 3"]


def run_of(name):
    """A random run: the exponential scripts of the generator, in the gauge's words."""
    maker = generate.Maker(name, generate.Options(kinds=("ef",)))
    draw = maker.draw
    lines = [f"e {draw.choice((3, 4, 20, 160))} {draw.randint(-10, 10)} {draw.randint(0, 6)} {draw.randrange(1000)}"]
    for _ in range(draw.choice((5, 10, 20))):
        lines.append(f"r {maker.value()} {script.write_set(maker.set())}")
        if draw.random() < 0.15:
            lines += [f"c {draw.randrange(2**64)}"] * draw.choice((1, 2))
    return [spoiled(draw, line) if draw.random() < 0.05 else line for line in lines] + ["c 9"]


def spoiled(draw, line):
    """One character taken out, put in or changed."""
    place = draw.randrange(len(line))
    return line[:place] + draw.choice(("", " ", "0", ":", ",", "-", line[place] * 2)) + line[place + 1 :]


def shift_of(name, boards=800):
    """Boards by blade and species, with deviations on the grid of 1/1024 mm, and collections; some bytes are damaged."""
    draw = random.Random(name)
    lines = [f"e {draw.choice((4, 20, 80, 160))} {draw.randint(0, 10)} {draw.choice((2, 8, 30))} 0"]
    for time in range(1, boards):
        sets = f"1:{draw.randint(1, 4)},2:{draw.randint(1, 9)}"
        deviation = round(draw.gauss(0.1, 0.25) * 1024) / 1024
        lines.append(f"r {bits(deviation)} {draw.choice((sets, sets, sets, sets + f',3:{time}', '-'))}")
        if draw.random() < 0.01:
            lines.append(f"c {time}")
    return damaged(draw, "\n".join([*lines, f"c {boards}"]), boards // 40)


def damaged(draw, text, times):
    """Bytes changed, taken out or put in; newlines too."""
    for _ in range(times):
        place = draw.randrange(len(text))
        text = text[:place] + draw.choice(("", chr(draw.randrange(256)), "\n", text[place] * 300)) + text[place + draw.randrange(2) :]
    return text


def text():
    """The whole input; the last line has no newline."""
    before = [f"r {ONE} -", "c 1"]
    runs = [line for i in range(RANDOM_RUNS) for line in run_of(f"gauge.{i}")]
    shifts = [shift_of(f"gauge.{i}") for i in range(SHIFTS)]
    return "\n".join([*before, *script.split_lines(WORKED_RUN), *MARKS, *EDGES, *ANEW, *OVER, *full(), *runs, *shifts])
