#!/usr/bin/env python3
"""Brings this repository's own names in specs/, proofs/ and clauses to the spelling of today's Rattle, once, after the kit's port.py:
a word of several words is in snake case, and a definition, constructor or field of specs/ has no dash.

usage: tools/respell.py [ROOT]

It goes by text: every .antt file, and in an .rt file the comments, imports and clauses, since no name of code is spelled so.
"""

import os
import re
import sys

WORD = re.compile(r"[A-Za-z0-9_'=<≤>₀-₉⊎≡-]+")
HUMP = re.compile(r"(?<=[a-z0-9])([A-Z])")

# definitions, constructors and fields of specs/ that had a dash
DASHED = """accepted-recall chain-at end-at exact-bin fair-answers false-block false-tests false-word-at figures-of first-of-bin first-tests
fit-size fit-tests free-at free-flags free-tests free-word-at free-words held-flags high-ok if-awaiting if-left if-seen is-sound is-top
large-tests larger-bin latest-setting layout-named length-allowed less-sum level-at link-test next-at no-figures no-layout no-piston not-allowed not-held
other-layout pick-left pick-seen previous-at reserved-tests rest-between rest-tests same-pools scanned-between size-tests small-bins
small-next-at small-tests start-at tally-number to-awaited to-left to-seen well-formed x-line""".split()

# names that the rule alone would spell badly, or as another name beside them
BY_HAND = {"nR": "nR", "highEnd": "high_end_choice", "laidOut": "laying_out", "lastLine": "line_of_figures"}


def respelled(word, dashed):
    if word in BY_HAND:
        return BY_HAND[word]
    if word in dashed:
        return word.replace("-", "_")
    if word[:1].islower() and re.search(r"[a-z0-9][A-Z]", word):
        parts = []
        for part in word.split("-"):
            if part == "getD":
                part = "get_or"
            if part[:1].islower():
                part = HUMP.sub(lambda m: "_" + m.group(1).lower(), part)
            parts.append(part)
        return "-".join(parts)
    return word


def main(root):
    told, seen = {}, set()
    files = []
    for folder, folders, names in os.walk(os.path.join(root, "crates")):
        folders[:] = sorted(f for f in folders if f != "out")
        files += [os.path.join(folder, n) for n in sorted(names) if n.endswith((".antt", ".rt"))]
    dashed = set(DASHED)
    for path in files:
        with open(path, encoding="utf-8") as f:
            text = f.read()
        code = path.endswith(".rt")

        def turn(m):
            word = m.group(0)
            seen.add(word)
            if code and "'" in word:
                return word
            new = respelled(word, dashed)
            if new != word:
                told[word] = new
            return new

        new = WORD.sub(turn, text)
        if new != text:
            with open(path, "w", encoding="utf-8") as f:
                f.write(new)
    for old in sorted(told):
        print(f"{old} {told[old]}")
    for new in sorted(set(told.values()) & seen):
        print(f"falls together: {new}", file=sys.stderr)


if __name__ == "__main__":
    main(sys.argv[1] if len(sys.argv) > 1 else ".")
