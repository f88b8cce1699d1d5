#!/usr/bin/env python3
"""Writes crates/bounds/src/lib.rt, the 1024 bucket bounds of a power of two as the code reads them, crates/bounds/specs/Table.antt, the same
numbers for the proof, and crates/index/src/pieces.rt with crates/index/specs/Pieces.antt, which bring a rank near.

Entry k is the largest whole number m with m^1024 <= 2^(k + 53248): the upper bound 2^(k/1024) of a bucket at scale 10,
in units of 2^-52, rounded down (oracle/bits.py: by whole square roots; no logarithm and no float plays a part).
The chords are made of logarithms in floats: that they serve is proved of the numbers that are written.

    python3 tools/make_bounds.py && rt fmt
"""

import sys
from math import log2
from pathlib import Path

ROOT = Path(__file__).resolve().parent.parent
sys.path.insert(0, str(ROOT / "oracle"))

from bits import BOUNDS  # noqa: E402

ROWS, COLUMNS, PIECES = 16, 64, 64

CODE = """// The bounds of scale 10's buckets within a power of two. Made by tools/make_bounds.py.
ghost use mathlib.Core.Path.{_≡_};
ghost use mathlib.Core.List.{[]};
ghost use Prim.Native.Nat.{_<_};
ghost use lib.ListN.{getD};
ghost use Rattle·laws.specs.NoneOf.{NoneOf};
ghost use Rattle·bounds·specs.specs.Bounds.{BoundAt};
ghost use Rattle·bounds·specs.specs.Table.{rows};

// Entry k is the largest m with m^1024 <= 2^(k + 53248).
const BOUNDS: [u64; %(entries)d] = [
%(numbers)s];

%(names)s
// The last entry of row i, told that column j is none of the others.
fn last(i: u64, j: u64, m: u64) -> u64
    requires { ⌜ j < %(columns)d ⌝ }
    requires { ⌜ NoneOf j %(end)d ⌝ }
    requires { ⌜ m ≡ getD (getD rows i []) %(end)d 0 ⌝ }
    ensures { λ r. ⌜ r ≡ getD (getD rows i []) j 0 ⌝ }
{
    m
}

// The table's rows. A const array is rebuilt at each use; a match whose arms are numbers becomes one load, and what is proved of a match
// grows faster than its arms.
%(rows)s
fn last_row(i: u64, j: u64) -> u64
    requires { ⌜ i < %(height)d ⌝ }
    requires { ⌜ j < %(columns)d ⌝ }
    requires { ⌜ NoneOf i %(bottom)d ⌝ }
    ensures { λ r. ⌜ r ≡ getD (getD rows i []) j 0 ⌝ }
{
    row_%(bottom)d(j)
}

// Column j of row i.
fn cell(i: u64, j: u64) -> u64
    requires { ⌜ i < %(height)d ⌝ }
    requires { ⌜ j < %(columns)d ⌝ }
    ensures { λ r. ⌜ r ≡ getD (getD rows i []) j 0 ⌝ }
{
    match i {
%(choices)s        _ => last_row(i, j),
    }
}

// Entry k of the table. The remainder by %(height)d changes nothing: it tells the compiler that no test is needed.
pub fn bound(k: u64) -> u64
    requires { ⌜ k < %(entries)d ⌝ }
    ensures { λ r. ⌜ BoundAt k r ⌝ }
{
    cell(k / %(columns)d %% %(height)d, k %% %(columns)d)
}
"""

ROW = """fn row_%(i)d(j: u64) -> u64
    requires { ⌜ j < %(columns)d ⌝ }
    ensures { λ r. ⌜ r ≡ getD (getD rows %(i)d []) j 0 ⌝ }
{
    match j {
%(arms)s        _ => last(%(i)d, j, ENTRY_%(end)d),
    }
}
"""

TABLE = """-- The table of bounds as a list of rows, made by tools/make_bounds.py: what the code returns, and nothing else, is read off them.
-- That their entries are the bounds is proved (proofs/Rule.antt). Assumes nothing.
use mathlib.Core.List.{List, [], _∷_}
use Prim.Native.Nat.{ℕ}
%(lists)s
abbrev pub rows : List (List ℕ)
rows = %(all)s ∷ []
"""

LIST = """
abbrev row%(i)d : List ℕ
row%(i)d =
%(numbers)s    []
"""

PIECES_CODE = """// The chords that bring a rank near. Made by tools/make_bounds.py.
// A const array is rebuilt at each use; a match whose arms are numbers becomes one load.
ghost use mathlib.Core.Path.{_≡_};
ghost use Prim.Native.Nat.{_<_};
ghost use lib.ListN.{getD};
ghost use Rattle·laws.specs.NoneOf.{NoneOf};
ghost use Rattle·index·specs.specs.Pieces.{pieces};

// %(says)s
pub fn piece(p: u64) -> u64
    requires { ⌜ p < %(length)d ⌝ }
    ensures { λ r. ⌜ r ≡ getD pieces p 0 ⌝ }
{
    match p {
%(arms)s        _ => last_piece(p),
    }
}

fn last_piece(p: u64) -> u64
    requires { ⌜ p < %(length)d ⌝ }
    requires { ⌜ NoneOf p %(last)d ⌝ }
    ensures { λ r. ⌜ r ≡ getD pieces p 0 ⌝ }
{
    %(end)d
}
"""

PIECES_SPEC = """-- The chords that bring a rank near. Made by tools/make_bounds.py. Assumes nothing.
use mathlib.Core.List.{List, [], _∷_}
use Prim.Native.Nat.{ℕ}

-- %(says)s
abbrev pub pieces : List ℕ
pieces =
%(numbers)s    []
"""


def start(piece):
    """1024 * log2(1 + piece / 64) in units of 2^-20, and half a rank more; below 1024 ranks at the end."""
    return min(round(2**30 * log2(1 + piece / PIECES) + 2**19), 2**30 - 1)


def lines(form, things):
    return "".join(form % thing for thing in things)


def row(i):
    """Row i of the code."""
    arms = lines("        %d => ENTRY_%d,\n", ((j, COLUMNS * i + j) for j in range(COLUMNS - 1)))
    return ROW % {"i": i, "columns": COLUMNS, "arms": arms, "end": COLUMNS * i + COLUMNS - 1}


def bounds():
    code = {
        "entries": len(BOUNDS), "columns": COLUMNS, "end": COLUMNS - 1, "height": ROWS, "bottom": ROWS - 1,
        "numbers": lines("    %d,\n", BOUNDS),
        "names": lines("const ENTRY_%d: u64 = BOUNDS[%d];\n", ((k, k) for k in range(len(BOUNDS)))),
        "rows": "\n".join(map(row, range(ROWS))),
        "choices": lines("        %d => row_%d(j),\n", ((i, i) for i in range(ROWS - 1))),
    }  # fmt: skip
    parts = [lines("    %d ∷\n", BOUNDS[COLUMNS * i : COLUMNS * (i + 1)]) for i in range(ROWS)]
    lists = "".join(LIST % {"i": i, "numbers": part} for i, part in enumerate(parts))
    table = {"lists": lists, "all": " ∷ ".join(f"row{i}" for i in range(ROWS))}
    write("bounds/src/lib.rt", CODE % code)
    write("bounds/specs/Table.antt", TABLE % table)


def pieces():
    numbers = [start(p) * 2**32 + start(p + 1) - start(p) for p in range(PIECES)]
    parts = {
        "says": "The rank at which piece p of the mantissa's range starts, times 2^32, and how far it rises, both in units of 2^-20.",
        "length": PIECES, "last": PIECES - 1, "end": numbers[-1],
        "arms": lines("        %d => %d,\n", enumerate(numbers[:-1])),
        "numbers": lines("    %d ∷\n", numbers),
    }  # fmt: skip
    write("index/src/pieces.rt", PIECES_CODE % parts)
    write("index/specs/Pieces.antt", PIECES_SPEC % parts)


def write(path, text):
    (ROOT / "crates" / path).write_text(text)


if __name__ == "__main__":
    bounds()
    pieces()
