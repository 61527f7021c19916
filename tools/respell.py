#!/usr/bin/env python3
"""Brings the repository's own names in specs/ and proofs/ to snake case, and the clauses of src/ that cite them.

usage: python3 tools/respell.py     at the top of the repository, once, after the scripts of the toolchain

A name is the repository's own where a file of specs/ or proofs/ (not the folder of a function's proof, whose names
Rattle makes) declares it: at its head, in a `where`, as a field or as a bound variable with a type. Names of types keep
their capitals. Nothing else changes: functions of src/, strings and the text of comments stay, but for names in them
that have a capital inside.
"""

import glob
import re
import sys

TOKEN = r"[^\s(){}\[\],.;λ:`]+"
HEAD = re.compile(rf"^\s*(?:(?:abbrev|unfoldable|pub|where|let) )*({TOKEN})(?: \{{ℓ\}})? :(?=\s|$)")
TYPE = re.compile(rf"^\s*(?:pub )?(?:record|data) ({TOKEN})")
BOUND = re.compile(rf"[({{]((?:{TOKEN} )+): ")
FOLDER_OF_A_PROOF = re.compile(r"crates/\w+/proofs/.+/")
# A lemma that would get the name of a definition.
LEMMAS = (
    "all-below cable-in can-fall check-number empty-line empty-sums filter-state-at float-bits gain-of image-length "
    "lengths-fit new-back new-forward next-memory power-from records-without response-in sample-word samples-in "
    "save-number settings-number state-by state-in step-bound step-most symbols-in taps-in trace-length "
    "well-described well-formed word-bytes"
).split()
# Types, which stay in camel case.
TYPES = (
    "Output-is Decision-is Normalised-is Changed-is SampleResult-is BlockExponents-is BlockResult-is Read-is Ran-is "
    "Added-is Output-as Decision-as"
).split()
# Bound without a type, or by a module.
BARE = "cut-c cut-J off-Z e-is rest-is part-is ifAccepted".split()
# The same in one file alone.
IN_FILE = {
    "crates/state/proofs/PaddedLaws.antt": {"is-zero": "is_zero_lem"},
    "crates/trace_text/proofs/DecimalLaws.antt": {"last_digits": "last_digits_lem"},
}


def old(name):
    return bool(re.search(r"\w-\w|\w-\d", name) or re.match(r"[a-z]\w*[a-z0-9][A-Z]", name))


def new(name):
    parts = name.split("-")
    if name in TYPES:
        return "".join(part[0].upper() + part[1:] for part in parts)
    said = []
    for part in parts:
        if re.match(r"[a-z]+\d*[A-Z]", part):
            part = re.sub(r"(?<=[a-z0-9])([A-Z])", lambda m: "_" + m[1].lower(), part)
        said.append(part)
    return "_".join(said) + ("_lem" if name in LEMMAS else "")


def declared(paths):
    names = set(BARE)
    for path in paths:
        if FOLDER_OF_A_PROOF.match(path):
            continue
        for line in open(path, encoding="utf-8"):
            if line.lstrip().startswith("--"):
                continue
            m = TYPE.match(line) or HEAD.match(line)
            if m:
                names.add(m[1])
            for m in BOUND.finditer(line):
                names.update(m[1].split())
    return names


def respelled(text, names, comment):
    def one(m):
        return names.get(m[0], m[0])

    out = []
    for line in text.split("\n"):
        at = line.find(comment)
        code, said = (line, "") if at < 0 else (line[:at], line[at:])
        code = re.sub(TOKEN, one, code)
        said = re.sub(r"[A-Za-z]\w*", lambda m: names.get(m[0], m[0]) if re.match(r"[a-z]+\d*[A-Z]", m[0]) else m[0], said)
        out.append(code + said)
    return "\n".join(out)


def respelled_source(text, names):
    """A name in Rust's code has no dash, and no capital inside behind a small letter."""
    words = {a: b for a, b in names.items() if a in TYPES or "-" not in a}
    return re.sub(r"(?<![\w\"'-])[A-Za-z][\w-]*(?![\w'])", lambda m: words.get(m[0], m[0]), text)


def main():
    antt = sorted(glob.glob("crates/*/specs/**/*.antt", recursive=True) + glob.glob("crates/*/proofs/**/*.antt", recursive=True))
    own = declared(antt)
    names = {a: new(a) for a in own if old(a)}
    kept = own - set(names)
    if "--list" in sys.argv:
        back = {}
        for a, b in names.items():
            back.setdefault(b, []).append(a)
        for b, a in sorted(back.items()):
            if len(a) > 1 or b in kept:
                print("together:", b, a, "kept" if b in kept else "")
        return
    for path in antt:
        text = open(path, encoding="utf-8").read()
        turned = respelled(text, {**names, **IN_FILE.get(path, {})}, "--")
        if turned != text:
            open(path, "w", encoding="utf-8").write(turned)
    for path in sorted(glob.glob("crates/*/src/**/*.rt", recursive=True)):
        text = open(path, encoding="utf-8").read()
        turned = respelled_source(text, names)
        if turned != text:
            open(path, "w", encoding="utf-8").write(turned)


main()
