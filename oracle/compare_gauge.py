#!/usr/bin/env python3
"""The gauge program against the reference, on inputs that end in every way and come in pieces of any size.

    python3 oracle/compare_gauge.py COUNT [SEED] [PROGRAM]      after `tools/build gauge`; PROGRAM is target/bin/gauge unless named

Prints the first input on which they differ (it is kept in target/gauge_differs), or how many lines were the same."""

import random
import subprocess
import sys
import tempfile
from pathlib import Path

import gauge
from gauge_inputs import ANEW, EDGES, MARKS, OVER, damaged, full, run_of, shift_of

ROOT = Path(__file__).resolve().parent.parent
MEGABYTES = "e 4 10 2 0\n" + "r" * 3_000_000 + "\n" + "\x00" * 2_000_000 + "\nr 3FF0000000000000 -\nc 1\n" + "c 2" * 1_000_000

# Inputs that are small, or end without a newline, or have nothing else.
ENDS = ["", "\n", "\n\n\n", "e", "e 4 10 2 0", "e 4 10 2 0\nc 1", "e 4 10 2 0\nc 1\n", "e 4 10 2 0\nc 1\n\n", "\x00", "c 1", MEGABYTES]


def random_input(draw, name):
    kind = draw.randrange(4)
    if kind == 0:
        return "\n".join([*ANEW[:2], *draw.sample([*MARKS, *EDGES, *ANEW, *OVER], 60)])
    if kind == 1:
        return damaged(draw, "\n".join(run_of(name)), draw.randrange(3))
    if kind == 2:
        return damaged(draw, "\n".join(full()), draw.randrange(20)) + "\n"
    return shift_of(name, draw.choice((40, 400, 4000))) + draw.choice(("", "\n"))


def answer(program, text, piece):
    """What the program prints if its input comes in pieces of so many bytes; 0: all at once."""
    data = text.encode("latin-1")
    if piece == 0:
        return subprocess.run([program], input=data, stdout=subprocess.PIPE, check=True).stdout
    with tempfile.TemporaryFile() as out:
        with subprocess.Popen([program], stdin=subprocess.PIPE, stdout=out, bufsize=0) as run:
            for at in range(0, len(data), piece):
                run.stdin.write(data[at : at + piece])
        out.seek(0)
        return out.read()


def compare(program, name, text, piece, exact=gauge.answer):
    """How many lines an input has, on which a program prints what the exact script does."""
    ours, expected = answer(program, text, piece), exact(text).encode("latin-1")
    if ours != expected:
        kept = f"target/{Path(program).name}_differs"
        (ROOT / kept).write_text(text, encoding="latin-1", newline="")
        line = next((i for i, (a, b) in enumerate(zip(ours.splitlines(), expected.splitlines())) if a != b), "the end")
        sys.exit(f"{name}, in pieces of {piece}: the answers differ at line {line}; the input is in {kept}")
    return text.count("\n") + 1


def piece_of(draw, text):
    """Of what size the pieces of an input are."""
    return draw.choice((0, 0, 4096, 65535)) if len(text) > 4000 else draw.choice((0, 1, 7))


def main():
    count, seed = int(sys.argv[1]), sys.argv[2] if len(sys.argv) > 2 else "base"
    program = sys.argv[3] if len(sys.argv) > 3 else str(ROOT / "target/bin/gauge")
    draw = random.Random(seed)
    lines = sum(compare(program, f"end {i}", text, 0) for i, text in enumerate(ENDS))
    for i in range(count):
        name = f"{seed}.{i}"
        text = random_input(draw, name)
        lines += compare(program, name, text, piece_of(draw, text))
    print(f"{count + len(ENDS)} inputs, {lines} lines, all the same")


if __name__ == "__main__":
    main()
