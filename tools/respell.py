#!/usr/bin/env python3
"""Brings the names of the repository's definitions and lemmas to snake case, once, after the kit's port.py.

usage: python3 tools/respell.py       at the top of the repository

A name of antt is parts joined by dashes. A part that stands in NAMES is respelled, wherever it stands: in .antt, .rt and .edit
files below crates/ and in README.md and docs/. Functions of src/, exported names and strings have no such part. Upper case
letters of the standard's own (A, E, K, N, J, P), types, facts and modules stay; `N` and `n` would fall together.
"""

import glob
import re

NAMES = """
addTimes addUp badBuffer badByte badSizes badSoft badStrength barredAs byPosition cInit candidateAt codeRow codeWord codingFor
decidedWord decodesAt decodingFor everyPair inN inPayload inRanks inWindow isBit lowRate maskRnti maskedRow msbFirst negateIf
noiseCount noiseOf numbersOf onDone onesBefore orParity orRefused parityMatches parityUnder rateMatching refusalOf roleOf
searchRefusal sixteenBits sizeRefusal stretchOf subBlocks takenAll wrongAt natAbs zipWith
""".split()


def snake(name):
    return re.sub(r"[A-Z]+", lambda m: "_" + m.group(0).lower(), name)


# What port.py respells in .antt and .rt alone; its `first_of` is a tactic's name.
RESPELLED = {name: snake(name) for name in NAMES} | {"getD": "get_or", "firstOf": "first_number", "first_of": "first_number"}
RESPELLED |= {"placeOf": "place_of", "rowOf": "row_of"}
PART = re.compile(r"(?<![A-Za-z0-9_'])(" + "|".join(sorted(RESPELLED, key=len, reverse=True)) + r")(?![A-Za-z0-9_])")


def main():
    files = [f for end in ("antt", "rt", "edit") for f in glob.glob(f"crates/**/*.{end}", recursive=True)]
    for path in sorted(files + ["README.md"] + glob.glob("docs/*.md")):
        with open(path, encoding="utf-8") as f:
            text = f.read()
        turned = PART.sub(lambda m: RESPELLED[m.group(1)], text)
        if turned != text:
            with open(path, "w", encoding="utf-8") as f:
                f.write(turned)


main()
