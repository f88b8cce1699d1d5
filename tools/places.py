#!/usr/bin/env python3
"""Counts, in crates/*/src, the places of each point of docs/DESIGN-PASS.md, from the top of a checkout: python3 tools/places.py [-v]
With -v each place is printed. By text alone: a reader judges what is found (docs/DESIGN-PASS.md says of each kind that is left why it stays)."""
import collections
import glob
import re
import sys

FN = re.compile(r"(?ms)^ *(?:pub )?(?:extern \"C\" )?fn (\w+)(?:<[^>]*>)?\((.*?)\)\s*(?:->\s*([^\n{]*?))?\s*(?=\n|\{)")
TWINS = """floats integers; exponential exponential_wholes; explicit explicit_wholes; point whole_point;
exponential_slots exponential_whole_slots; explicit_slots explicit_whole_slots; exponential_slots explicit_slots; value_map whole_map;
exponential_batches exponential_whole_batches; explicit_batches explicit_whole_batches; exponential_batches explicit_batches;
exponential_batches single_batches; listing whole_listing; exponential_collection exponential_whole_collection;
explicit_collection explicit_whole_collection; exponential_collection explicit_collection; exponential_collection singles;
printing whole_printing; replay_exponential replay_exponential_wholes; replay_explicit replay_explicit_wholes;
replay_exponential replay_explicit; replay_exponential replay_singles; replay_batches replay_whole_batches"""


def crate(path):
    return path.split("/")[1]


def functions(texts):
    for path, text in texts.items():
        for m in FN.finditer(text):
            params = [p.strip() for p in re.split(r",(?![^\[\(<]*[\]\)>])", m[2]) if p.strip()]
            yield path, m[1], params, (m[3] or "").strip()


def has(params, *starts):
    return all(any(p.startswith(s) for p in params) for s in starts)


def main():
    texts = {f: open(f, encoding="utf-8").read() for f in sorted(glob.glob("crates/*/src/**/*.rt", recursive=True))}
    every = list(functions(texts))
    found = collections.OrderedDict()

    def lines(point, regex):
        found[point] = [f"{f}: {m[0].strip()}" for f, t in texts.items() for m in re.finditer(regex, t)]

    lines("1 own enums", r"(?m)^(?:pub )?enum \w+")
    found["1 answers and parameters that are a number (u8)"] = [
        f"{f}: {n}" for f, n, ps, r in every if r == "u8" or any(re.match(r"(no|unset|turned|otherwise|told): u8", p) for p in ps)
    ]
    structs = {f: "\n".join(m[0] for m in re.finditer(r"(?m)^(?:pub )?struct \w+[^;{]*\{\n(?:.*\n)*?\}", t)) for f, t in texts.items()}
    for point, regex in (("1 fields that are a refusal's number", r"(?m)^    (?:pub )?no: u8,"), ("1 fields that are a flag", r"(?m)^    (?:pub )?\w+: bool,$")):
        found[point] = [f"{f}: {m[0].strip()}" for f, t in structs.items() for m in re.finditer(regex, t)]
    found["1 a flag with a value beside it: present and filter"] = [f"{f}: {n}" for f, n, ps, r in every if has(ps, "present: bool", "filter:")]
    named = collections.defaultdict(set)
    for f, n, ps, r in every:
        named[crate(f)].add(n)
    seen = set()
    for pair in TWINS.split(";"):
        one, other = pair.split()
        seen |= {f"{other}: {n} (as {one})" for n in named[other] & named[one] if not any(s.startswith(f"{other}: {n} ") for s in seen)}
    found["2 functions of a twin crate that its twin has by name"] = sorted(seen)
    lines("3 loops that count by hand", r"(?m)^ *while .*")
    lines("(3 loops over a range, a slice or an iterator)", r"(?m)^ *for .*")
    found["4 equality, order, copying, the lesser and the greater, by name"] = [
        f"{f}: {n}"
        for f, n, ps, r in every
        if re.match(r"(same|alike|cmp|compare|is_same|equal|before|copy|fill|clear|lesser|greater|shorter|smaller|larger)(_|$)", n)
    ]
    found["5 sets, entries and order together"] = [f"{f}: {n}" for f, n, ps, r in every if has(ps, "sets:", "entries:", "order:")]
    found["5 more than seven parameters"] = [f"{f}: {n}" for f, n, ps, r in every if len(ps) > 7]
    found["6 a buffer with its length beside it"] = [f"{f}: {n}" for f, n, ps, r in every if any("Block" in p for p in ps) and any(re.match(r"[nm]: usize", p) for p in ps)]
    found["7 a switch on what to ask: known"] = [f"{f}: {n}" for f, n, ps, r in every if has(ps, "known: bool")]
    print(f"functions {len(every)}")
    for point, places in found.items():
        print(f"{point}: {len(places)}")
        if "-v" in sys.argv[1:]:
            print("".join(f"    {p}\n" for p in places), end="")


main()
