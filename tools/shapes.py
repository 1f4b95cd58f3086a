#!/usr/bin/env python3
"""Lists functions of the sources that have one shape: bodies of five lines or more that differ in names and numbers alone, or nearly so.

    tools/shapes.py [LIKENESS]      from 0 to 1, 0.86 if none is given

A row has the likeness of two bodies and the crate and the name of each.
"""
import difflib
import pathlib
import re
import sys

KEYWORDS = set("if else let mut for in return match while loop as true false continue break".split())


def functions(root):
    for path in sorted(root.glob("crates/*/src/**/*.rt")):
        text = re.sub(r"//[^\n]*", "", path.read_text())
        for head in re.finditer(r"\bfn (\w+)", text):
            body = re.compile(r"^( *)\{\n(.*?)^\1\}", re.M | re.S).search(text, head.end())
            after = re.compile(r"\bfn ").search(text, head.end())
            if body and body.group(2).count("\n") >= 5 and not (after and after.start() < body.start()):
                words = re.findall(r"\w+|[^\s\w]", body.group(2))
                yield path.relative_to(root).parts[1], head.group(1), ["x" if re.match(r"\w", w) and w not in KEYWORDS else w for w in words]


def main():
    least = float(sys.argv[1]) if len(sys.argv) > 1 else 0.86
    found = list(functions(pathlib.Path(__file__).resolve().parent.parent))
    for i, (crate, name, shape) in enumerate(found):
        for crate2, name2, shape2 in found[i + 1:]:
            if abs(len(shape) - len(shape2)) > 0.35 * max(len(shape), len(shape2)):
                continue
            likeness = difflib.SequenceMatcher(None, shape, shape2, autojunk=False).ratio()
            if likeness >= least:
                print(f"{likeness:.2f} {crate} {name} ~ {crate2} {name2}")


main()
