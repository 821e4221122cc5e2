#!/usr/bin/env python3
"""Brings the repository's own names in contracts, specs and proofs to snake case, once, after port.py.

usage: tools/respell.py        at the top of the repository

A word that begins with a small letter and has a capital inside is respelled, in .rt, .antt and .edit files below crates/,
where the repository defines it or brings it in under that name. Names that would fall together are in LEMMAS.
"""

import glob
import re

WORD = re.compile(r"[^\s(){};,.⌜⌝\[\]\"λ:|`]+")
DEFINES = re.compile(
    r"^\s*(?:pub |abbrev |unfoldable |mutual )*([^\s(){};,.:=]+(?: [^\s(){};,.:=]+)*)\s*(?:\{[^}]*\}\s*)*:(?!\s*=)(?:\s|$)"
)
ALIAS = re.compile(r" as ([^\s,;{}]+)")
# bytes of RFC 3629 by their digits, and the old library's name of an element or else another
BY_HAND = {
    "xC2-DF": "xc2-df",
    "xE0": "xe0",
    "xE1-EC": "xe1-ec",
    "xED": "xed",
    "xEE-EF": "xee-ef",
    "xF0": "xf0",
    "xF1-F3": "xf1-f3",
    "xF4": "xf4",
    "rowBits": "row_bits",
    "getD-fill": "get_or-fill",
    "getD-records": "get_or-records",
    "getD-sets-hi": "get_or-sets-hi",
    "getD-sets-in": "get_or-sets-in",
    "getD-sets-lo": "get_or-sets-lo",
}
# lemmas that would get their function's name, in the crates that have both
LEMMAS = {
    "strokes": ["but_last"],
    "layout": ["by_flag", "record_of"],
    "batch": ["set_after"],
    "schema": ["text_at"],
}
# short local names of proofs: an equation, a function or a fact about a thing with a capital
LOCAL = {"eB", "eK", "eP", "eU", "gK", "hF", "kF", "lF", "lS"}


def snake(name):
    if name in BY_HAND:
        return BY_HAND[name]

    def part(s):
        if not re.match(r"[a-z]", s):
            return s
        return re.sub(r"(?<=[a-z0-9'])[A-Z]+", lambda m: "_" + m[0].lower(), s)

    return "".join(part(s) if i % 2 == 0 else s for i, s in enumerate(re.split(r"([-_])", name)))


def read(path):
    with open(path, encoding="utf-8", newline="") as f:
        return f.read()


def main():
    paths = sorted(p for end in ("antt", "rt", "edit") for p in glob.glob(f"crates/**/*.{end}", recursive=True) if "/out/" not in p)
    texts = {p: read(p) for p in paths}
    names = set()
    for p, text in texts.items():
        if p.endswith(".edit"):
            continue
        for line in text.split("\n"):
            if p.endswith(".antt"):
                m = DEFINES.match(line)
                names.update(m[1].split() if m else ())
            if re.match(r"\s*(pub |ghost )*use ", line):
                names.update(ALIAS.findall(line))
    table = {n: snake(n) for n in names | BY_HAND.keys() if n not in LOCAL and snake(n) != n}
    merged = [n for n in table if list(table.values()).count(table[n]) > 1]
    assert not merged, merged
    for p, text in texts.items():
        lemmas = {w: w + "_lem" for w in LEMMAS.get(p.split("/")[1], ())}
        if p.endswith(".rt"):
            lemmas = {}
        new = WORD.sub(lambda m: lemmas.get(m[0]) or table.get(m[0], m[0]), text)
        if new != text:
            with open(p, "w", encoding="utf-8", newline="") as f:
                f.write(new)
    for old, new in sorted(table.items()):
        print(old, new)


if __name__ == "__main__":
    main()
