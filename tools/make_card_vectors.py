#!/usr/bin/env python3
"""Writes stdin and stdout of crates/mean_run and crates/card: the input of oracle/card_inputs.py, and what request L2 gives for it by exact
fractions (oracle/card.py). Run from the repository's root: python3 tools/make_card_vectors.py"""

import random
import sys
from pathlib import Path

ROOT = Path(__file__).resolve().parent.parent
sys.path.insert(0, str(ROOT / "oracle"))

import card  # noqa: E402
import card_inputs  # noqa: E402
import mean_lines  # noqa: E402


def store(crate, text, answer):
    to = ROOT / "crates" / crate
    to.mkdir(exist_ok=True)
    (to / "stdin").write_bytes(text.encode("latin-1"))
    (to / "stdout").write_bytes(answer.encode("latin-1"))
    print(f"{crate}: {text.count(chr(10)) + 1} lines")


def main():
    draw = random.Random("mean")
    lines = card_inputs.stored_lines(draw)
    draw.shuffle(lines)
    lines.append("x 1 1 BFC0000000000000 BFC0000000000000 BFC0000000000000 0000000000000000 1 0")  # the last has no newline
    text = "\n".join(lines)
    store("mean_run", text, mean_lines.answer(text))
    text = card_inputs.text()
    store("card", text, card.answer(text))


if __name__ == "__main__":
    main()
