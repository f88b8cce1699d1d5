"""The gauge program's input for the picture docs/shift.png: a shift of two blades and two species, invented, the same on every run.

    python3 docs/picture/make_shift.py | target/bin/gauge | python3 tools/picture.py -o shift.html

Deviations are whole numbers of 1/1024 mm, where sums are exact. Blade 2 runs out of true on spruce, and a few boards went badly wrong.
"""

import random
import struct

# blade, species, boards, mean and spread in millimetres
CUTS = [(1, 1, 2400, 0.04, 0.24), (1, 2, 900, -0.08, 0.33), (2, 1, 1700, -0.31, 0.45), (2, 2, 380, 0.12, 0.30)]
WRONG = [(1, 1, -4.25), (1, 1, 3.5), (2, 1, -6.75), (2, 1, -5.125)]


def bits(millimetres):
    return struct.pack(">d", round(millimetres * 1024) / 1024 + 0.0).hex().upper()


def main():
    draw = random.Random(7)
    lines = [f"r {bits(draw.gauss(mean, spread))} 1:{blade},2:{species}" for blade, species, n, mean, spread in CUTS for _ in range(n)]
    lines += [f"r {bits(value)} 1:{blade},2:{species}" for blade, species, value in WRONG]
    draw.shuffle(lines)
    print("\n".join(["e 160 10 8 21600", *lines, "c 50400"]))


if __name__ == "__main__":
    main()
