"""Compares the bucket index alone beside all 1024 bounds at all scales.

    compare_index.py rust       the Rust's `get_bin` against the exact index, every octave; prints the differing mantissas
    compare_index.py library    likewise our static library, as bench/run built it in
    compare_index.py PROGRAM    a program that answers `SCALE BITS` lines (crate index_run), against the exact index

Exit status 1 if the Rust differs elsewhere than at a bound or the next mantissa above it, or one of ours anywhere.
"""

import random
import subprocess
import sys
from collections import defaultdict

from bits import BOUNDS, GREATEST, SIGN, index
from rust import BUILT

SCALES = range(-10, 11)
NEIGHBOURS = range(-2, 4)
OCTAVES = (1, 2, 511, 1022, 1023, 1024, 1025, 1500, 2045, 2046)
NORMAL_OCTAVES = 2046
HIDDEN = 1 << 52
# Lines without an index: zeros, what is not finite, scales out of range, and what can't be read.
NO_INDEX = ["0 0000000000000000", "0 8000000000000000", "0 7FF0000000000000", "0 FFF0000000000000", "0 7FF8000000000000"]
NO_INDEX += ["11 3FF0000000000000", "-11 3FF0000000000000", "128 3FF0000000000000", "4294967306 3FF0000000000000"]
NO_INDEX += ["", "0", "0 ", " 0 3FF0000000000000", "0  3FF0000000000000", "0 3FF0000000000000 ", "0 3FF00000000000000"]
NO_INDEX += ["0 3FF000000000000", "0 3ff0000000000000", "00 3FF0000000000000", "-0 3FF0000000000000", "+1 3FF0000000000000"]


def sweep(program):
    """A program's differences as (scale, mantissa, difference, octaves), and how many values were compared."""
    table = "".join(f"{m}\n" for m in BOUNDS)
    done = subprocess.run([BUILT / "release" / program, "sweep"], input=table, stdout=subprocess.PIPE, text=True, check=True)
    *lines, compared = done.stdout.splitlines()
    rows = [line.split() for line in lines]
    return [(int(s), int(f, 16) + HIDDEN, int(d), int(o)) for s, f, d, o in rows], int(compared)


def place(mantissa):
    """(k, how far above bound k) of the nearest bound."""
    return min(((k, mantissa - m) for k, m in enumerate(BOUNDS)), key=lambda found: abs(found[1]))


def the_rust():
    found, compared = sweep("replay")
    scales = defaultdict(list)
    for scale, mantissa, difference, _ in found:
        scales[mantissa, difference].append(scale)
    everywhere = all(octaves >= NORMAL_OCTAVES for *_, octaves in found)
    print(f"{compared} values compared, {len(scales)} mantissas differ, each in every normal octave: {everywhere}\n")
    print("| mantissa | bound k | above it by | the Rust's index minus the exact one | at scales |")
    print("|---|---|---|---|---|")
    far = 0
    for (mantissa, difference), at in sorted(scales.items()):
        k, above = place(mantissa)
        far += above not in (0, 1)
        print(f"| {mantissa:014X} | {k} | {above} | {difference:+} | {', '.join(map(str, sorted(at)))} |")
    return far == 0


def the_library():
    found, compared = sweep("bench")
    print(f"{compared} values compared, {len(found)} differ from the exact index")
    return not found


def values(draw=random.Random("index")):
    """(scale, bits): every neighbour of every bound at every scale, in some octaves, subnormal ones too; random values."""
    near = [(e << 52) + (m + d - HIDDEN) for e in OCTAVES for m in BOUNDS for d in NEIGHBOURS]
    near += [(m >> lift) + d for lift in range(1, 53, 5) for m in BOUNDS[::7] for d in NEIGHBOURS]
    yield from ((scale, bits) for bits in near if 0 < bits <= GREATEST for scale in SCALES)
    yield from ((draw.choice(SCALES), draw.randrange(1, GREATEST + 1) | draw.choice((0, SIGN))) for _ in range(100_000))


def the_program(program):
    asked = [(f"{scale} {bits:016X}", str(index(bits, scale))) for scale, bits in values()] + [(line, "?") for line in NO_INDEX]
    text = "".join(f"{line}\n" for line, _ in asked)
    given = subprocess.run([program], input=text, stdout=subprocess.PIPE, text=True, check=True).stdout.split()
    wrong = [(line, exact, got) for (line, exact), got in zip(asked, given) if got != exact]
    print(f"{len(asked)} lines compared, {len(wrong)} differ from the exact index")
    for line, exact, got in wrong[:20]:
        print(f"  '{line}': {got}, exact {exact}")
    return not wrong and len(given) == len(asked)


def main():
    match sys.argv[1:]:
        case ["rust"]:
            holds = the_rust()
        case ["library"]:
            holds = the_library()
        case [program]:
            holds = the_program(program)
        case _:
            raise SystemExit(__doc__)
    raise SystemExit(0 if holds else 1)


if __name__ == "__main__":
    main()
