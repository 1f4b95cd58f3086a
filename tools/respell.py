#!/usr/bin/env python3
"""Respells the repository's own definitions and lemmas: words of a name in snake case, `checkArchive` as `check_archive`.

usage: python3 tools/respell.py        at the top of the repository, once, after port.py

It goes over the .antt, .rt and .edit files below crates/ and over the names in backquotes of README.md and docs/. A name is respelled if the
repository declares it. A lemma that would have a definition's name gets `_lem`. A name that would fall together with another or with a parameter of a function stops it
before anything is written; the name of a function of src/ is another's namespace.
"""
import os
import re
import sys

WORD = re.compile(r"[^\s(){}\[\],;.⟦⟧⌜⌝\"`|&!?:]+")
DECLARED = re.compile(r"^\s*(?:(?:abbrev|unfoldable|pub)\s+)*([^\s(){}:]+) :", re.M)
CAMEL = re.compile(r"(?<=[a-z0-9])(?=[A-Z])")
# Names that the older library gave a part of: `getD` is `get_or` today.
PARTS = {"getD": "get_or"}
# Respelled by port.py in the .rt and .antt files: the documents and the edits name them too.
BY_PORT = """too-long too_long count-most count_most keyOf key_of bitsOf bits_of fieldsOf fields_of kindOf kind_of sizeOf size_of keyAt key_at sizeAt size_at
bytesOf bytes_of placeOf place_of widthOf width_of layoutOf layout_of pastOf past_of listOf list_of too-short too_short field-apart field_apart
list-length list_length by-number by_number length-most length_most by-length by_length widthBy width_by""".split()
BY_PORT = dict(zip(BY_PORT[::2], BY_PORT[1::2]))


def respelled(name):
    parts = [PARTS.get(p, p) for p in name.split("-")]
    return "-".join(p if p[:1].isupper() else CAMEL.sub("_", p).lower() if CAMEL.search(p) else p for p in parts)


def files():
    for folder, dirs, names in os.walk("crates"):
        dirs[:] = sorted(d for d in dirs if d != "out")
        yield from (os.path.join(folder, n) for n in sorted(names) if n.endswith((".antt", ".rt", ".edit")))


def documents():
    yield "README.md"
    for folder, _, names in os.walk("docs"):
        yield from (os.path.join(folder, n) for n in sorted(names) if n.endswith(".md"))


def read(path):
    with open(path, encoding="utf-8") as f:
        return f.read()


def write(path, text):
    with open(path, "w", encoding="utf-8") as f:
        f.write(text)


def parameters(texts):
    """The parameters of functions: one would hide a definition of its name in the function's clauses."""
    heads = [h for p, t in texts.items() if p.endswith(".rt") for h in re.findall(r"\bfn \w+[^{;]*", t)]
    return {w for h in heads for w in re.findall(r"\b(\w+):", h)}


def main():
    texts = {p: read(p) for p in files()}
    declared = {n for p, t in texts.items() if p.endswith(".antt") for n in DECLARED.findall(t)}
    words = {w for t in texts.values() for w in WORD.findall(t)} - BY_PORT.keys()
    camel = {w for w in words if respelled(w) != w}
    local = sorted(camel - declared)
    new = {w: respelled(w) for w in sorted(camel)}
    new |= {w: w + "_lem" for w in declared if w in new.values()}
    taken = (declared | parameters(texts)) - new.keys()
    together = [f"{a} and {b}" for a, b in new.items() if b in taken or list(new.values()).count(b) > 1]
    if together:
        print("fall together: " + ", ".join(together), file=sys.stderr)
        return 2
    for path, text in texts.items():
        names = new | BY_PORT if path.endswith(".edit") else new
        turned = WORD.sub(lambda m: names.get(m[0], m[0]), text)
        if turned != text:
            write(path, turned)
    shown = new | BY_PORT
    for path in documents():
        text = read(path)
        turned = re.sub(r"`[^`\n]+`", lambda m: WORD.sub(lambda w: shown.get(w[0], w[0]), m[0]), text)
        if turned != text:
            write(path, turned)
    print(f"{len(new)} names; of these in no signature: {', '.join(local)}")
    return 0


if __name__ == "__main__":
    raise SystemExit(main())
