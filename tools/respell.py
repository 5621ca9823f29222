#!/usr/bin/env python3
"""Respells this repository's own antt names once, after the kit's port.py: words in snake case, types in camel case.

    tools/respell.py [--show]        at the top of the repository

A word is a definition, a lemma or a field: `marginOf` becomes `margin_of`, `no-loss-above` becomes `no_loss_above`.
A type or a statement, which begins with a capital, loses its dashes: `Accepts-writings` becomes `AcceptsWritings`.
Where two names fall together, the lemma gets `_lem` behind its name. Names that Rattle makes (of goals, invariants
and steps), names of the library, and names of the Rust code stay. With --show the table is printed and nothing written.
"""

import collections
import glob
import os
import re
import sys

# Files whose outer names are Rattle's: they answer goals.
MADE = ("Answers.antt", "Invariants.antt", "Choices.antt", "Proof.antt")
TOKEN = re.compile(r"(?<![^\s(){}\[\],.;=`\"|◌∥])[^\s(){}\[\],.;=`\"|◌:∥]+(?![^\s(){}\[\],.;=`\"|◌:∥])")
DEFINES = re.compile(r"^(\s*)(?:abbrev |unfoldable )?(pub )?([^\s:(){}.]+)\s*:(?=\s)")
RECORD = re.compile(r"^\s*(?:pub )?(?:record|data) ([^\s:(){}]+)")
CLAUSES = re.compile(r"ghost use [^;]*;|\b(?:requires|ensures)\*?\s*\w*\s*\{|\bghost \w+\s*(?::|=)\s*\{|#\[tactic\(")


def antt_files():
    return sorted(glob.glob("crates/*/specs/**/*.antt", recursive=True) + glob.glob("crates/*/proofs/**/*.antt", recursive=True))


def spelled(name):
    if name[0].isupper():
        return "".join(part[0].upper() + part[1:] for part in name.split("-"))
    return re.sub(r"(?<=[a-z0-9])[A-Z]", lambda m: "_" + m[0].lower(), name).replace("-", "_")


def defined():
    """Each name that the repository defines, with the files that define it, and which of them are fields of records."""
    names, fields = collections.defaultdict(set), set()
    for path in antt_files():
        made, inside = os.path.basename(path) in MADE, False
        for line in open(path, encoding="utf-8"):
            if line[:1] not in (" ", "\n"):
                inside = False
            found = RECORD.match(line)
            if found:
                names[found[1]].add(path)
                inside = True
                continue
            found = DEFINES.match(line)
            if found and not (made and not found[1]):
                names[found[3]].add(path)
                if inside:
                    fields.add(found[3])
    return names, fields


def of_library():
    """Names that the repository imports from elsewhere, or that Rattle makes."""
    names = set()
    for path in antt_files():
        for found in re.finditer(r"use ([\w.·-]+)\.\{([^}]*)\}", open(path, encoding="utf-8").read()):
            own = re.match(r"Rattle\.(\w+)\.(specs|proofs)\b", found[1])
            if not own or own[1].startswith("std") or found[1].endswith((".Goals", ".Given")):
                names.update(part.split(" as ")[0].strip() for part in found[2].split(","))
    return names


def table():
    names, fields = defined()
    foreign = of_library()
    wanted = {}
    for name in names:
        if name in foreign or "≤" in name or "≢" in name or name.startswith("invariant-"):
            continue
        if spelled(name) != name:
            wanted[name] = spelled(name)
    taken = collections.defaultdict(list)
    for old, new in wanted.items():
        taken[new].append(old)
    for name in names:
        if name not in wanted and name in taken:
            taken[name].append(name)
    for new, olds in taken.items():
        if len(olds) > 1:
            # A definition keeps the name, and so does a field.
            for old in olds:
                keeps = old in fields or any("/specs/" in path for path in names[old])
                wanted[old] = new if keeps else new + "_lem"
            print("respell: together", ", ".join(old + " " + wanted[old] for old in olds), file=sys.stderr)
    return wanted, fields


def respell(text, wanted, fields):
    def turned(found):
        old = found[0]
        if old not in wanted:
            return old
        if text[:found.start()].endswith(".") and old not in fields and not re.search(r"Rattle\.[\w.]*\.$", text[: found.start()]):
            return old
        return wanted[old]
    return TOKEN.sub(turned, text)


def turned_source(text, wanted, fields):
    """Of Rust code only imports for proofs, clauses, ghost members and tactics are turned; and comments, where a name has capitals."""
    out, at = [], 0
    for found in CLAUSES.finditer(text):
        if found.start() < at or "//" in text[text.rfind("\n", 0, found.start()) + 1 : found.start()]:
            continue
        end = found.end()
        if not text[:end].endswith(";"):
            depth = 1
            while depth:
                depth += (text[end] in "{(") - (text[end] in "})")
                end += 1
        out += [text[at : found.start()], respell(text[found.start() : end], wanted, fields)]
        at = end
    out.append(text[at:])
    return "".join(out)


def turned_page(text, wanted, fields):
    return re.sub(r"`[^`\n]+`", lambda found: respell(found[0], wanted, fields), text)


def main():
    wanted, fields = table()
    if "--show" in sys.argv:
        for old in sorted(wanted):
            print(old, wanted[old], "field" if old in fields else "")
        return
    ways = [(antt_files(), respell), (sorted(glob.glob("crates/*/src/**/*.rt", recursive=True)), turned_source),
            (["README.md"] + sorted(glob.glob("docs/*.md")) + ["evidence/README.md"], turned_page)]
    changed = 0
    for paths, way in ways:
        for path in paths:
            if not os.path.exists(path):
                continue
            text = open(path, encoding="utf-8").read()
            new = way(text, wanted, fields)
            if new != text:
                changed += 1
                open(path, "w", encoding="utf-8").write(new)
    print("respell: %d names, %d files" % (len(wanted), changed))


if __name__ == "__main__":
    main()
