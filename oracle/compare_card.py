#!/usr/bin/env python3
"""The programs mean_run and card against exact fractions, and the law of merging among the exact points.

    python3 oracle/compare_card.py COUNT [SEED] [DIRECTORY]     after `tools/build mean_run card`; DIRECTORY is target/bin unless named

COUNT times: random lines of mean_run; a random input of card; gridded values cut into collections, whose points, merged in any order, have
the card of all values. Prints where a program differs first (the input is kept in target/NAME_differs), or how many were the same."""

import random
import sys
from fractions import Fraction
from pathlib import Path

import card
import mean_lines
from bits import to_bits
from card_inputs import STEPS_MOST, boards, random_lines
from compare_gauge import ENDS, ROOT, compare, piece_of, random_input
from points import POINT_OF, merged
from reference import Config, Rules

LINES = 1000
MEAN_ENDS = ["", "\n", "\n\n\n", "x", "?\n\n", "\x00", "x" * 3_000_000 + "\n" + "e " * 1_000_000]


def compare_lines(program, draw, name):
    text = random_lines(draw, LINES) + draw.choice(("", "\n"))
    return compare(program, name, text, draw.choice((0, 4096)), mean_lines.answer)


def compare_input(program, draw, name):
    own = draw.random() < 0.5
    text = "\n".join(boards(draw, draw.choice((1, 5, 40)), draw.choice((20, 200, 2000)))) if own else random_input(draw, name)
    return compare(program, name, text, piece_of(draw, text), card.answer)


# Merging.


def settings(draw):
    """Of either kind, with the sum on."""
    bounds = tuple(to_bits(bound / 8) for bound in sorted(draw.sample(range(-40, 40), draw.randrange(5))))
    kind = draw.choice("ex")
    return Config(kind, "f", draw.choice((3, 4, 20, 160)), draw.randint(-10, 10), 0.0, 0, "d", draw.random() < 0.5, True, bounds)


def gridded(draw):
    """Values that are whole numbers of 1/1024, whose magnitudes total at most 2^43."""
    count = draw.choice((1, 2, 3, 25, 50, draw.randint(1, 200)))
    most = min(STEPS_MOST // count, 2 ** draw.randint(0, 53))
    return [draw.choice((draw.randint(-most, most), 128, -128) if most >= 128 else (1, -1, 0)) / 1024 for _ in range(count)]


def cut(draw, values):
    """Into one list or more, none of them empty."""
    places = sorted(draw.sample(range(1, len(values)), draw.randrange(min(len(values), 9))))
    return [values[a:e] for a, e in zip([0, *places], [*places, len(values)])]


def merged_all(draw, points, size):
    """Two by two in any order and grouping."""
    while len(points) > 1:
        pair = [points.pop(draw.randrange(len(points))) for _ in range(2)]
        points.append(merged(*pair, size, None, Rules().sizes))
    return points[0]


def compare_merge(draw, name):
    config, values = settings(draw), gridded(draw)
    point_of = POINT_OF[config.kind]
    points = [point_of((), part, config) for part in cut(draw, values)]
    exact = card.mean(len(values), to_bits(float(sum(map(Fraction, values)))))
    shown = card.shown(merged_all(draw, points, config.size)), card.shown(point_of((), values, config)), str(exact)
    if len(set(shown)) > 1:
        sys.exit(f"{name}: the cards of the merge, of all values and of their exact total are {', '.join(shown)}: {config} {values}")
    return len(values)


def main():
    count, seed = int(sys.argv[1]), sys.argv[2] if len(sys.argv) > 2 else "base"
    programs = Path(sys.argv[3]) if len(sys.argv) > 3 else ROOT / "target/bin"
    mean_run, card_program = str(programs / "mean_run"), str(programs / "card")
    draw = random.Random(seed)
    names = [f"{seed}.{i}" for i in range(count)]
    values = sum(compare_merge(draw, name) for name in names)
    print(f"{count} lists of {values} values, cut and merged: the cards of all values")
    lines = sum(compare(mean_run, f"end {i}", text, 0, mean_lines.answer) for i, text in enumerate(MEAN_ENDS))
    lines += sum(compare_lines(mean_run, draw, name) for name in names)
    print(f"mean_run: {lines} lines, all the same")
    lines = sum(compare(card_program, f"end {i}", text, 0, card.answer) for i, text in enumerate(ENDS))
    lines += sum(compare_input(card_program, draw, name) for name in names)
    print(f"card: {count + len(ENDS)} inputs, {lines} lines, all the same")


if __name__ == "__main__":
    main()
