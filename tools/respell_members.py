#!/usr/bin/env python3
"""Respells what tools/respell.py leaves: ghost members of traits, names that an import or a λ gives, and parameters of definitions.

    tools/respell_members.py         at the top of the repository, once, after tools/respell.py
"""

import glob
import re

NAMES = ["atMost", "lineNo", "toldOf", "fieldsOf", "headOf", "bankLines", "familiesOf", "requirementOf", "chargeFor", "upTo", "firstCall",
         "asBook", "monthCard", "costliestOf", "aboveLimit", "keptOf", "chargedAt", "placedIn", "namesNumber", "movedBy", "marginOf",
         "lossInGrains", "losesAt", "lineCard", "leastOf", "goneOf", "entryCount", "cellsOfBook", "cappedAt", "basketCard"]

TOKEN = re.compile(r"(?<![A-Za-z0-9_'-])(" + "|".join(NAMES) + r")(?![A-Za-z0-9_'-])")


def spelled(found):
    return re.sub(r"(?<=[a-z0-9])[A-Z]", lambda m: "_" + m[0].lower(), found[0])


for path in sorted(glob.glob("crates/**/*.antt", recursive=True) + glob.glob("crates/**/*.rt", recursive=True)):
    text = open(path, encoding="utf-8").read()
    new = TOKEN.sub(spelled, text)
    if new != text:
        open(path, "w", encoding="utf-8").write(new)
