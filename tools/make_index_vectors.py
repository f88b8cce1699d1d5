#!/usr/bin/env python3
"""Writes crates/index_run/stdin and stdout: lines `SCALE BITS` and the bucket index of each, or `?`.

The index is the OpenTelemetry Data Model's, over whole numbers and without a logarithm: a magnitude m * 2^e has at scale s >= 0
the index i with 2^i < (m * 2^e)^(2^s) <= 2^(i + 1); below scale 0 it is the index at scale 0 shifted right.

    python3 tools/make_index_vectors.py
"""

import random
import sys
from pathlib import Path

ROOT = Path(__file__).resolve().parent.parent
sys.path.insert(0, str(ROOT / "oracle"))

from bits import BOUNDS, is_finite, magnitude  # noqa: E402

SCALES = range(-10, 11)
NONE = "?"


def index(scale, bits):
    """By the definition, not by the table that oracle/bits.py and the code look it up in."""
    m, e = magnitude(bits) if is_finite(bits) else (0, 0)
    if not m or scale not in SCALES:
        return NONE
    power = 2 ** max(scale, 0)
    fine = (m**power - 1).bit_length() - 1 + e * power
    return str(fine >> max(-scale, 0))


def values(rng):
    """Pairs of a scale and bits."""
    scales = list(SCALES)
    powers = [1 << k for k in range(52)] + [k << 52 for k in range(1, 2047)]
    for k, bits in enumerate(powers):
        for near in (bits - 1, bits, bits + 1):
            for scale in (10, scales[k % 21]):
                yield scale, near
    for k in range(1024):
        for field in (1, 1023, 1024 + k % 1000):
            for near in (-1, 0, 1):
                yield 10 if field == 1 else scales[k % 21], (field << 52) + BOUNDS[k] - 2**52 + near
    for scale in (*scales, -11, 11, -999, 999):
        for bits in (0, 1, 2, 3, 2**52 - 1, 2**52, 0x3FF << 52, 0x7FEFFFFFFFFFFFFF, 0x7FF << 52, 0x7FF8 << 48, 0x7FF0000000000001):
            yield scale, bits
            yield scale, bits | 1 << 63
    for _ in range(6000):
        yield rng.choice(scales), rng.getrandbits(64)
    for _ in range(500):
        yield rng.choice(scales), rng.getrandbits(rng.randrange(1, 53))


DAMAGED = """
10
10 3FF000000000000
10 3FF00000000000000
10 3ff0000000000000
10  3FF0000000000000
 10 3FF0000000000000
10 3FF0000000000000 
10\t3FF0000000000000
+1 3FF0000000000000
01 3FF0000000000000
-0 3FF0000000000000
00 3FF0000000000000
- 3FF0000000000000
-01 3FF0000000000000
1-1 3FF0000000000000
1000 3FF0000000000000
99999999999999999999 3FF0000000000000
10 0x3FF00000000000
10 3FF000000000000G
10 -3FF000000000000
3FF0000000000000 10
10,3FF0000000000000
-
0
 
?
10 3FF0000000000000\r
1.0 3FF0000000000000
""".split("\n")[:-1]


def main():
    rng = random.Random(20261115)
    lines = [(f"{scale} {bits:016X}", index(scale, bits)) for scale, bits in values(rng)]
    lines += [(text, NONE) for text in DAMAGED]
    rng.shuffle(lines)
    lines.append(("0 4000000000000000", "0"))
    (ROOT / "crates/index_run/stdin").write_bytes("\n".join(text for text, _ in lines).encode())
    (ROOT / "crates/index_run/stdout").write_text("".join(f"{answer}\n" for _, answer in lines))
    print(f"{len(lines)} lines")


if __name__ == "__main__":
    main()
