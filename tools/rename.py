#!/usr/bin/env python3
"""Turns old names into new ones, by tools/names.txt, in a repository, a study's folder or a patch.

    rename.py [PATH ..]      without a PATH: here

Comments and prose are left alone but for crates' names before `::` or in backquotes. Running it twice changes nothing more.
"""

import os
import re
import sys

HERE = os.path.dirname(os.path.abspath(__file__))
ENDINGS = (".rt", ".antt", ".edit", ".md", ".patch", ".diff", ".py", "crates.txt")
EDGE = r"(?<![\w·'-])", r"(?![\w·'-])"
crates, functions, names, files = {}, [], {}, {}
for line in open(os.path.join(HERE, "names.txt"), encoding="utf-8"):
    words = line.split("#")[0].split()
    if words[:1] == ["crate"]:
        crates[words[1]] = words[2]
    elif words[:1] == ["fn"]:
        functions.append((words[1], words[2], words[3:]))
    elif words[:1] == ["name"]:
        names[words[1]] = words[2]
    elif words[:1] == ["file"]:
        files[words[1]] = words[2]


def of_crates(text, path):
    for old, new in crates.items():
        text = re.sub(rf"Rattle·{old}(?![\w-])", f"Rattle·{new}", text)
        text = re.sub(rf"(?<![\w:/]){old}(?=::)", new, text)
        text = re.sub(rf"(?<=crates/){old}(?=/)", new, text)
        text = text.replace(f"`{old}`", f"`{new}`")
        if path.endswith("crates.txt"):
            text = re.sub(rf"(?<!\S){old}(?=[:\s]|$)", new, text)
    return text


def of_functions(text, path):
    """A function's name in code, and what the checker makes of it in proofs."""
    for old, new, where in functions:
        if where and not any(f"crates/{c}/" in path or f"{c}::" in text for c in where):
            continue
        a, b = old.replace("_", "-"), new.replace("_", "-")
        if path.endswith((".rt", ".edit", ".md")):
            text = re.sub(rf"(?<=fn ){old}(?=\()", new, text)
            inside = any(f"crates/{c}/" in path for c in where[:1])
            scope = rf"(?<={where[0]}::){old}(?=\()" if where and not inside else rf"(?<![\w.]){old}(?=\()"
            text = re.sub(scope, new, text)
        if path.endswith(".antt") and (not where or f"{a}-requires" in text or f".{a} .ensures" in text or f"/{old}/" in path):
            text = re.sub(rf"(?<= \.){a}(\d*)(?= \.)", rf"{b}\1", text)
            text = re.sub(rf"(?<![\w·'])((?:tie\.)?(?:Need-|After-)?){a}((?:-requires|-spec)(?:-\d+)?)(?![\w·'])", rf"\1{b}\2", text)
            text = re.sub(rf"(?<=After-){a}(?![\w·'-])", b, text)
            text = re.sub(rf"(?<=proofs\.){old}(?=\.(?:Statement|Tie))", new, text)
            text = re.sub(rf"(?<=\.){old}(?=\.(?:Statement|Tie))", new, text)
            text = re.sub(rf"(?<=::){old}(?=`)", new, text)
    return text


def of_names(text, path):
    if path.endswith((".md", ".py", ".txt")):
        return text
    lines = text.split("\n")
    for i, line in enumerate(lines):
        if line.lstrip("+- ").startswith("//") or re.match(r"[+ ]?\s*-- ", line):
            continue
        for old, new in names.items():
            line = re.sub(EDGE[0] + re.escape(old) + EDGE[1], new, line)
        lines[i] = line
    return "\n".join(lines)


def moved(path):
    for old, new in crates.items():
        path = re.sub(rf"(?<=crates/){old}(?=/)", new, path)
    for old, new, where in functions:
        if not where or any(f"crates/{c}/" in path for c in where):
            path = re.sub(rf"(?<=/){old}(?=/Proof\.antt$)", new, path)
    for old, new in files.items():
        path = path.replace(old, new)
    return path


def main(roots):
    for root in roots:
        found = [root] if os.path.isfile(root) else [os.path.join(w, f) for w, _, fs in os.walk(root) if ".git" not in w and "target" not in w for f in fs]
        for path in sorted(found):
            if path.endswith(ENDINGS) and not path.endswith(("rename.py", "names.txt", "LANDINGS.md")):
                text = open(path, encoding="utf-8").read()
                new = of_names(of_functions(of_crates(text, path), path), path)
                if new != text:
                    open(path, "w", encoding="utf-8").write(new)
            to = moved(path)
            if to != path:
                os.makedirs(os.path.dirname(to), exist_ok=True)
                os.rename(path, to)
        for where, folders, fs in os.walk(root, topdown=False):
            if ".git" not in where and not folders and not fs:
                os.rmdir(where)


if __name__ == "__main__":
    main(sys.argv[1:] or ["."])
