#!/usr/bin/env python3
"""believed.py [-f | -v | NAME ..]: what of crates/*/specs a reader must believe, and what the rest is there for. A definition, with its comment, is
`calls` if the contract of a public call (CALLS) cites it, or a definition that is `calls`; else `theorems` if a theorem's statement (THEOREMS)
does so; else `inner` if the contract of another function does; else `proofs` if a proof does; else `unused`.
Lines are counted without comments, blank lines and imports. Without words: by crate; -f: by file; -v: every definition; NAMEs: who cites them."""
import collections, glob, os, re, sys

ROOT = os.path.join(os.path.dirname(os.path.abspath(__file__)), "..", "crates")
# crate, file, functions: README.md, "The calls"; the calls that these stand on; one series; the index; how a point is shown
CALLS = """exponential_collection lib configure delta cumulative delta_agreed cumulative_agreed
explicit_collection lib configure delta cumulative delta_agreed cumulative_agreed
value_map exponential_map start measure measure_by
value_map explicit_map start measure measure_by
exponential_whole_collection lib configure delta cumulative delta_agreed cumulative_agreed
explicit_whole_collection lib configure delta cumulative delta_agreed cumulative_agreed
whole_map exponential_map start measure measure_by
whole_map explicit_map start measure measure_by
singles lib configure delta cumulative delta_agreed cumulative_agreed
singles map measure measure_by
bindings lib start bind release bind_agreed release_agreed
exponential_batches lib measure_all measure_all_by measure_agreed measure_by_agreed measure_all_agreed measure_all_by_agreed
explicit_batches lib measure_all measure_all_by measure_agreed measure_by_agreed measure_all_agreed measure_all_by_agreed
single_batches lib measure_all measure_all_by measure_agreed measure_by_agreed measure_all_agreed measure_all_by_agreed
exponential_whole_batches lib measure_all measure_all_by measure_agreed measure_by_agreed measure_all_agreed measure_all_by_agreed
explicit_whole_batches lib measure_all measure_all_by measure_agreed measure_by_agreed measure_all_agreed measure_all_by_agreed
exponential lib record
explicit lib fresh record
exponential_wholes lib record
explicit_wholes lib fresh record
point lib merge
whole_point lib merge mixed_number alone_number
point signed scale offset sum_bits
mean lib hundredths whole_hundredths
pooling lib merge_at
sheet_writing lib write
sheet_reading lib read
listing read point_at row_at bounds_at
whole_listing read point_at
clock lib after_delta at_cumulative turn held
index lib get_bin
index signed get_index"""
# the files in which theorems are stated
THEOREMS = [("promises", "specs.Promises"), ("promises", "specs.Points"), ("promises", "specs.Sheets"), ("marks", "specs.Marks")]
# what the theorems of `promises` and the contracts share: proved on both sides, so who reads the theorems may pass over what they are made of
LINKS = "measured measured_by measured_all measured_all_by bound released delta_collected cumulative_collected started configured merging mean_in point_at recording writing reading".split()
KINDS = ["calls", "theorems", "inner", "proofs", "unused"]
TOKEN = re.compile(r"[^\s(){}\[\],;λ⌜⌝\"]+")
HEAD = re.compile(r" *(?:(?:abbrev|unfoldable) )?(?:pub )?(?:(record|data) )?(\S+)(?: \{.*\})?(?: \(.*\))* :(?: |$)")
USE = re.compile(r"\s*(?:ghost )?(?:(?:unfoldable |abbrev )?pub )?use Rattle\.([a-z_]+)\.([\w.-]+?)(?:\.\{(.*)\}| as (\S+?));?$")


def code(lines):
    return [s for s in lines if s.strip() and not s.lstrip().startswith(("--", "//", "use ", "ghost use", "pub use", "pub mod"))]


class Def:
    def __init__(self, key, lines, also):
        self.key, self.lines, self.also, self.kind, self.by = key, lines, also, "unused", set()


def paragraphs(lines):
    """runs of lines without a blank one: (number of the first, lines)"""
    start = None
    for i, s in enumerate(lines + [""]):
        if s.strip() and start is None:
            start = i
        elif not s.strip() and start is not None:
            yield start, lines[start:i]
            start = None


def definition(lines):
    """(name, constructors, lines) of a paragraph that is one, without the head of a module block before it"""
    for i, s in enumerate(lines):
        if s.startswith("module "):
            lines = lines[i + 1:]
            break
    for i, s in enumerate(lines):
        if not s.lstrip().startswith(("--", "infix", "use ", "pub use", "unfoldable pub use", "pub mod")):
            m = HEAD.match(s)
            if not m:
                return None
            also = [re.match(r"\s+(\S+) :", t)[1] for t in lines[i + 1:] if m[1] == "data" and re.match(r"\s+[^-\s]\S* :", t)]
            return m[2], also, lines
    return None


def reads(lines, crate, own):
    """the names in scope of a file, own ones and imported, and the modules that it imports under another name"""
    names, modules = dict(own), {}
    for s in lines:
        m = USE.match(s)
        if m and m[3] is not None:
            for w in filter(None, m[3].split(", ")):
                names.setdefault(w.split(" as ")[-1], ((m[1], m[2]), w.split(" as ")[0]))
        elif m:
            modules[m[4]] = (m[1], m[2])
    return names, modules


def cited(lines, names, modules, made):
    """what the lines cite: names that are in scope and are not bound there"""
    text = " ".join(s.split(" -- ")[0] for s in code(lines))
    bound = set(re.findall(r"λ \(?([^\s:.)]+)", text)) | set(re.findall(r"let (\S+) [=:]", text)) | set(re.findall(r"[{;] (\S+) = ", text))
    for group in re.findall(r"\(([^():]+) :", text) + re.findall(r"λ ([^.()]+)\.", text):
        bound |= set(group.split())
    for s in code(lines):
        m = re.match(r" *(\S+) (.*?) =( |$)", s)
        bound |= set(TOKEN.findall(m[2])) if m and "record {" not in m[0] and m[1] != "let" else set()
    out = set()
    for t in TOKEN.findall(text.replace("«", "").replace("»", "")):
        t = t.rstrip(".")
        if "." in t[1:] and t.split(".")[0] in modules:
            out.add((modules[t.split(".")[0]], t.split(".", 1)[1]))
        for n in (t, f"_{t}_"):
            if n in names and (n not in bound or names[n] in made):
                out.add(names[n])
    return out


def contracts(lines):
    """(function, lines of its contract) of a .rt file"""
    name, i = None, 0
    for i, s in enumerate(lines):
        m = re.match(r"\s*(?:pub )?(?:extern \"C\" )?fn (\w+)", s)
        name = m[1] if m else name
        if re.match(r"\s+(requires|ensures) ", s) and not re.match(r"\s+(requires|ensures) ", lines[i - 1]):
            end = next(j for j in range(i, len(lines)) if lines[j].strip() == "{" or lines[j].startswith("}") or j == len(lines) - 1)
            yield name, lines[i:end]


def gather():
    files, defs, again, made = {}, {}, {}, set()
    for path in sorted(glob.glob(f"{ROOT}/*/specs/*.antt")):
        crate, module = path.split("/")[-3], "specs." + os.path.basename(path)[:-5]
        files[crate, module] = lines = open(path, encoding="utf-8").read().split("\n")
        for s in lines:
            m = USE.match(s)
            if m and "pub use" in s:
                again.update({((crate, module), w): ((m[1], m[2]), w) for w in m[3].split(", ")})
        for first, par in paragraphs(lines):
            d = definition(par)
            if d:
                key = ((crate, module), d[0])
                defs[key] = Def(key, d[2], d[1])
                again.update({((crate, module), w): key for w in d[1]})
                made.update(((crate, module), w) for w in d[1])
    real = lambda k: real(again[k]) if k in again else k
    roots = collections.defaultdict(set)
    for (crate, module), lines in files.items():
        own = {k[1]: k for k in list(defs) + list(again) if k[0] == (crate, module)}
        scope = reads(lines, crate, own)
        for d in [d for d in defs.values() if d.key[0] == (crate, module)]:
            for k in cited(d.lines, *scope, made):
                if real(k) in defs and real(k) != d.key:
                    defs[real(k)].by.add(d.key)
    public = {(c.split()[0], c.split()[1], f) for c in CALLS.split("\n") for f in c.split()[2:]}
    for path in sorted(glob.glob(f"{ROOT}/*/src/**/*.rt", recursive=True)) + sorted(glob.glob(f"{ROOT}/*/proofs/**/*.antt", recursive=True)):
        crate, lines = path[len(ROOT) + 1:].split("/")[0], open(path, encoding="utf-8").read().split("\n")
        scope = reads(lines, crate, {})
        texts = contracts(lines) if path.endswith(".rt") else [(None, lines)]
        for name, text in texts:
            kind = "proofs" if name is None else "calls" if (crate, os.path.basename(path)[:-3], name) in public else "inner"
            for k in cited(text, *scope, made):
                if real(k) in defs:
                    roots[kind].add(real(k))
                    defs[real(k)].by.add(f"{path[len(ROOT) + 1:]}{' ' + name if name else ''} ({kind})")
    roots["theorems"] = {k for k in defs if k[0] in THEOREMS}
    for kind in reversed(KINDS[:-1]):
        for k in reached(defs, roots[kind]):
            defs[k].kind = kind
    return defs


def reached(defs, roots, links=()):
    """what the roots cite, and what that cites in turn, but for what links are made of"""
    seen, todo = set(roots), list(roots)
    while todo:
        k = todo.pop()
        if k[1] not in links:
            more = [j for j, e in defs.items() if k in e.by and j not in seen]
            seen.update(more)
            todo += more
    return seen


def main(words):
    defs = gather()
    size = lambda d: len(code(d.lines))
    if words[:1] == ["-v"]:
        for d in defs.values():
            print(f"{d.kind:9}{size(d):4}  {d.key[0][0]} {d.key[0][1]} {d.key[1]}")
    elif words and words[0] != "-f":
        for d in [d for d in defs.values() if d.key[1] in words]:
            print(*d.key[0], d.key[1], d.kind, size(d))
            for b in sorted(d.by, key=str):
                print("   ", b if isinstance(b, str) else f"{b[0][0]} {b[0][1]} {b[1]} ({defs[b].kind})")
    else:
        sums, place = collections.defaultdict(collections.Counter), (lambda k: " ".join(k)) if words else (lambda k: k[0])
        for d in defs.values():
            for where in (place(d.key[0]), "in all"):
                sums[where][d.kind] += size(d)
        print(f"{'':40}" + "".join(f"{k:>10}" for k in KINDS))
        for where in [w for w in sums if w != "in all"] + ["in all"]:
            print(f"{where:40}" + "".join(f"{sums[where][k]:10}" for k in KINDS))
        page = [k for k in defs if k[0] == THEOREMS[0]]
        print("promises/specs/Promises.antt alone, the calls taken at their contracts' word:", sum(size(defs[k]) for k in reached(defs, page, LINKS)))


if __name__ == "__main__":
    main(sys.argv[1:])
