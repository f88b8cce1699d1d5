#!/usr/bin/env python3
"""Brings this repository's own definitions and lemmas to the spelling of today's Rattle: run once, at the top, after the kit's port.py.

Words are in snake case (`addAt` becomes `add_at`). In a lemma's name a dash stays where what stands behind it names something, a definition of
ours or what a file imports (`length-add_at`), and a plain word hangs on by `_` (`point_is`). Functions of src/, exported names, strings, inputs
and outputs keep their names: in a .rt file only names of specs/ are turned. With --list it prints old and new names and writes nothing.
"""
import collections
import os
import re
import sys

TOP = os.getcwd()
TOKEN = re.compile(r"[^\s(){}\[\],;:.λ⦃⦄«»\"`|]+")
CAMEL = re.compile(r"^[a-z][^A-Z]*[A-Z]")
DASHED = re.compile(r"^[a-z][\w'?⊕₀-₉]*(-[\w'?⊕₀-₉]+)+$")
DECLARED = re.compile(r"^\s*(?:(?:unfoldable|abbrev|pub|data|record|pattern)\s+)*([^\s(){}:,.\"]+)(?=[ ({:])[^=↦]*?:(?!:)")
HEADS = ("use ", "--", "mod ", "pub mod", "pub use", "unfoldable pub use", "unfolding", "let ", "in ", "elim ", "//")
# where a lemma would fall together with a definition, the lemma's name ends in `_lem`: everywhere, and in the files that speak of both
CLASHES = {n: n.replace("-", "_") + "_lem" for n in ("marked-in", "counts-in", "in-units", "size-for", "after-delta", "few-in", "figures-for", "shown-in", "words-for")}
TOGETHER = {
    "crates/merges/proofs/Spans.antt": ["high_end"],
    "crates/merging/proofs/Accepted.antt": ["same_kind"],
    "crates/point/proofs/Laid.antt": ["laid_one"],
    "crates/point/proofs/merge_explicit/Proof.antt": ["laid_one"],
    "crates/sheet/proofs/Sheets.antt": ["shown_by", "wrote_by"],
    "crates/sheet_writing/proofs/Judged.antt": ["row_here"],
}


def files(folder):
    for at, dirs, names in os.walk(os.path.join(TOP, folder)):
        dirs[:] = sorted(d for d in dirs if d not in ("out", ".git", "target"))
        for name in sorted(names):
            yield os.path.join(at, name)


def read(path):
    with open(path, encoding="utf-8") as f:
        return f.read()


def of_function(path):
    """Whether the file is of the proof of one function: its own names are those of goals, which the checker chooses."""
    return os.path.basename(path) in ("Proof.antt", "Answers.antt", "Invariants.antt") and "/proofs/" in path


def snake(name):
    name = re.sub(r"([a-z0-9'])([A-Z])", lambda m: m.group(1) + "_" + m.group(2), name.replace("getD", "get_or"))
    return name.lower()


def dashes(name, names):
    parts = name.split("-")
    out = parts[0]
    for part in parts[1:]:
        out += ("-" if part in names else "_") + part
    return out


def gather():
    antt = [p for p in files("crates") if p.endswith(".antt")]
    declared, imported, tokens = set(), set(), collections.Counter()
    for path in antt:
        for line in read(path).split("\n"):
            if line.lstrip().startswith("--"):
                continue
            if line.startswith("use ") and not line.startswith("use Rattle.") or line.startswith("use Rattle.std."):
                m = re.search(r"\{(.*)\}", line)
                imported |= set(re.split(r",\s*", m.group(1))) if m else set()
            tokens.update(TOKEN.findall(line))
            if not of_function(path) and not line.lstrip().startswith(HEADS):
                m = DECLARED.match(line)
                if m:
                    declared.add(m.group(1))
    return antt, declared, imported, tokens


def renames():
    antt, declared, imported, tokens = gather()
    table = {}
    for t in tokens:
        if CAMEL.match(t) and not re.search(r"_[A-Z]", t) and t not in imported and not DASHED.match(t):
            table[t] = snake(t)
    names = {table.get(d, d) for d in declared if "-" not in d} | {i for i in imported if "-" not in i}
    for t in tokens:
        if t in declared and DASHED.match(t) and t not in imported:
            new = dashes("-".join(snake(p) for p in t.split("-")), names)
            if new != t:
                table[t] = new
    table.update(CLASHES)
    return antt, table


def turned(text, table, dotted):
    def new(m):
        t = m.group(0)
        if t not in table:
            return t
        if m.start() and text[m.start() - 1] == "." and "-" in t and not dotted:
            return t
        return table[t]
    return TOKEN.sub(new, text)


def main():
    antt, table = renames()
    if "--list" in sys.argv:
        for old in sorted(table):
            print(old, table[old])
        return
    for path in antt:
        text = read(path)
        here = {n: n + "_lem" for n in TOGETHER.get(os.path.relpath(path, TOP), [])}
        new = turned(text, {**table, **here}, not of_function(path))
        if new != text:
            with open(path, "w", encoding="utf-8") as f:
                f.write(new)
    words = {old: new for old, new in table.items() if CAMEL.match(old)}
    for path in files("crates"):
        if path.endswith(".rt") or path.endswith(".edit"):
            text = read(path)
            new = turned(text, words if path.endswith(".rt") else table, True)
            if new != text:
                with open(path, "w", encoding="utf-8") as f:
                    f.write(new)
    for path in [p for folder in ("docs", "bench", "oracle") for p in files(folder)] + [os.path.join(TOP, "README.md")]:
        if path.endswith(".md"):
            text = read(path)
            new = re.sub(r"`[^`\n]+`", lambda m: turned(m.group(0), table, True), text)
            if new != text:
                with open(path, "w", encoding="utf-8") as f:
                    f.write(new)


main()
