#!/usr/bin/env python3
"""Writes crates/gauge/stdin and stdout: the lines of oracle/gauge_inputs.py, and what document 01 gives for them by oracle/gauge.py.
Run from the repository's root: python3 tools/make_gauge_vectors.py"""

import sys
from pathlib import Path

ROOT = Path(__file__).resolve().parent.parent
sys.path.insert(0, str(ROOT / "oracle"))

import gauge  # noqa: E402
import gauge_inputs  # noqa: E402


def main():
    text = gauge_inputs.text()
    (ROOT / "crates/gauge/stdin").write_bytes(text.encode("latin-1"))
    (ROOT / "crates/gauge/stdout").write_bytes(gauge.answer(text).encode("latin-1"))


if __name__ == "__main__":
    main()
