#!/usr/bin/env python3
"""Brings the repository's own definitions to the spelling of today's Rattle, once, after its port.py.

usage: python3 tools/spell_names.py          at the top of the repository

- A definition in mixed case gets snake case: takenBytes becomes taken_bytes, and tidyRegion-keeps becomes tidy_region-keeps.
- A definition that has a call's name gets the call's spelling: diff-in becomes diff_in, and diff-in-answered becomes diff_in-answered.
- The proof of a function f is f_spec: cube-in-spec becomes cube_in_spec.
- A record's field gets snake case: no-count becomes no_count.
- What port.py respelled in the crates is respelled in the edits of must-fail/ and in the pages too.

Types, modules, constants, and the functions of src/ keep their names. It stops, and writes nothing, where two names would fall together that a
file knows both of.
"""

import glob
import os
import re

# Definitions that have the name of a call.
CALLS = (
    "ceiling-of cube-in cube-meet diff-empty diff-in diff-intersect diff-less diff-member equal-fields read-on "
    "region-empty region-intersect region-less region-member region-tidy wider-number"
).split()
# Fields of records.
FIELDS = "no-count undecided-count undecided-index yes-count yes-index".split()
# Names inside of a proof that are in mixed case, and stand at no margin.
LOCAL = "eitherRows inRows meetRows widerRows in-tidyFrom in-tidyRegion".split()
# What port.py respelled in crates/, and not in pages or edits.
RESPELLED = (
    "baseAt bitOf codeAt codeIn codeOf countOf cutsOf firstAt inTurn isHeld kindAt lengthAt nextAt numberIn numberOf "
    "opensAt piecesOf rowOf saidOf startOf stopAt wholeAt widthBytes widthKind widthOf"
).split()

# A definition that would fall together with that of a call.
APART = {"equalFields": "fields_equal"}
# Lemmas that would fall together with a definition, with the folders in which they are cited.
LEMMAS = {
    "same_code": ("same_code-is", "crates/model/proofs/"),
    "one_holds": ("one_holds-tells", "crates/promises/proofs/"),
    "put_front": ("put-front", "crates/cube/proofs/"),
}

NAME = re.compile(r"[A-Za-z_][\w'\-]*")
TOP = re.compile(r"^(?:abbrev |unfoldable )?(?:pub )?([^\s:(){}\-][^\s:(){}]*) (?:\{[^}]*\} |\([^)]*\) )*: ")


def crates(*endings):
    found = []
    for folder, dirs, files in os.walk("crates"):
        dirs[:] = sorted(d for d in dirs if d != "out")
        found += [os.path.join(folder, f) for f in sorted(files) if f.endswith(endings)]
    return found


def snake(name):
    return re.sub(r"(?<=[a-z0-9])([A-Z])", lambda m: "_" + m.group(1).lower(), name)


def mixed(part):
    return re.match(r"[a-z][a-z0-9]*[A-Z]", part) is not None


def definitions(files):
    """The definitions in mixed case, as they stand at a margin."""
    found = set()
    for f in files:
        with open(f, encoding="utf-8") as text:
            for line in text:
                m = TOP.match(line)
                if m:
                    found |= {p for p in m.group(1).split("-") if mixed(p)}
    return found


def turn(words, f):
    def one(match):
        name = match.group(0)
        if name in LEMMAS and f.startswith(LEMMAS[name][1]):
            return LEMMAS[name][0]
        if name in FIELDS:
            return name.replace("-", "_")
        if name.endswith("-spec") and name[:-5] in CALLS:
            return name.replace("-", "_")
        for c in CALLS:
            name = re.sub(r"(^|-)" + c + r"(?=-|$)", lambda m: m.group(1) + c.replace("-", "_"), name)
        return "-".join(APART.get(p) or snake(p) if p in words else p for p in name.split("-"))

    return one


def main():
    antt = crates(".antt")
    words = definitions(antt) | {p for name in LOCAL for p in name.split("-") if mixed(p)}
    for f in antt:
        with open(f, encoding="utf-8") as text:
            tops = {m.group(1) for m in map(TOP.match, text) if m}
        for w in sorted(words):
            if w not in APART and snake(w) in tops - set(LEMMAS):
                raise SystemExit(f"{f} has {snake(w)} beside {w}: nothing was written")
    sources = antt + crates(".rt")
    pages = crates(".edit") + ["README.md"] + sorted(glob.glob("docs/*.md"))
    written = {}
    for f in sources + pages:
        with open(f, encoding="utf-8") as text:
            old = text.read()
        known = words | set(RESPELLED) if f in pages else words
        written[f] = NAME.sub(turn(known, f), old)
        if written[f] == old:
            del written[f]
    for f, text in written.items():
        with open(f, "w", encoding="utf-8") as to:
            to.write(text)
    print(f"{len(words)} definitions, {len(written)} files")


if __name__ == "__main__":
    main()
