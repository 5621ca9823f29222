#!/usr/bin/env python3
"""Counts the places in src/ that an older language left behind, point by point; docs/DESIGN-PASS.md says what each point is.

    python3 tools/places.py [--list] [--point N] [COMMIT]

With a COMMIT the files are read as they stood there, else as they stand. --list prints each place."""
import collections
import re
import subprocess
import sys


def files(commit, pattern):
    """The paths of a commit or of the tree that fit a pattern, with their text."""
    if commit:
        names = subprocess.check_output(["git", "ls-tree", "-r", "--name-only", commit, "crates"], text=True)
    else:
        names = subprocess.check_output(["git", "ls-files", "-co", "--exclude-standard", "crates"], text=True)
    for name in sorted(names.split()):
        if re.fullmatch(pattern, name):
            if commit:
                yield name, subprocess.check_output(["git", "show", f"{commit}:{name}"], text=True)
            else:
                try:
                    yield name, open(name).read()
                except FileNotFoundError:
                    pass


def lines_with(sources, pattern):
    """Each line of code that a pattern finds, with its place."""
    found = []
    for name, text in sources.items():
        for number, line in enumerate(text.split("\n"), 1):
            if not line.lstrip().startswith("//") and re.search(pattern, line):
                found.append(f"{name}:{number}: {line.strip()}")
    return found


def functions(text):
    """The functions of a file: name, first line, clauses, body."""
    lines = text.split("\n")
    starts = [k for k, line in enumerate(lines) if re.match(r"\s*(?:pub(?:\([^)]*\))? )?fn \w+", line)]
    for start in starts:
        name = re.search(r"fn (\w+)", lines[start]).group(1)
        indent = len(lines[start]) - len(lines[start].lstrip())
        clauses, body, inside = [], [], lines[start].rstrip().endswith("{")
        for line in lines[start + 1:]:
            if not inside and line == " " * indent + "{":
                inside = True
            elif inside and line == " " * indent + "}":
                break
            elif inside:
                body.append(line)
            elif line.rstrip() in (" " * indent + "{}", "{}"):
                break
            elif re.match(r"\s*(requires|ensures)\b", line):
                clauses.append(line.strip())
                if line.rstrip().endswith(";"):
                    break
            elif line.rstrip().endswith(";"):
                break
            elif line.strip().endswith("{") and not line.strip().startswith(("requires", "ensures")):
                inside = True
        yield name, start + 1, clauses, body


def shape(body):
    """A body with every name, string and number replaced, so that bodies that differ only in these are equal."""
    words = re.findall(r'b?"[^"]*"|\w+|[^\w\s]', " ".join(re.sub(r"//.*", "", line) for line in body))
    keep = {"match", "if", "else", "for", "in", "while", "return", "let", "mut", "Some", "None", "Ok", "Err", "as"}
    return tuple(word if word in keep or not re.match(r'[\w"]', word) else "_" for word in words), len(words)


def twins(sources):
    """Functions whose bodies have one shape of at least ten words, by groups."""
    groups = collections.defaultdict(list)
    for name, text in sources.items():
        for fn, line, _, body in functions(text):
            form, size = shape(body)
            if size >= 10:
                groups[form].append(f"{name}:{line}: {fn}")
    return [" = ".join(group) for group in groups.values() if len(group) > 1]


def repeated(sources):
    """Clauses that stand in the contracts of three or more functions of one crate."""
    where = collections.defaultdict(set)
    for name, text in sources.items():
        crate = name.split("/")[1]
        for fn, line, clauses, _ in functions(text):
            for clause in clauses:
                found = re.match(r"(requires|ensures)\s+(?:\w+ )?\{ (.*) \}", clause)
                if found:
                    where[crate, found.group(1), found.group(2)].add(f"{name}:{line}")
    order = sorted(where.items(), key=lambda item: (-len(item[1]), item[0]))
    return [f"{len(places)} in {crate}: {kind} {fact}" for (crate, kind, fact), places in order if len(places) >= 3]


POINTS = {
    "1a own enums": lambda s: lines_with(s, r"^\s*(pub(\(crate\))? )?enum \w"),
    "1b an error handed on, or turned, by a match": lambda s: lines_with(s, r"(Err|Some)\(\w+\) => (return )?(Err\(|Some\(Refusal)"),
    "1c a refusal as an Option": lambda s: lines_with(s, r"-> Option<Refusal>"),
    "1d a number answered that says nothing": lambda s: lines_with(s, r"fn \w+\(\) -> u8"),
    "1e a number for a kind": lambda s: lines_with(s, r"\brule: i64|fn (column_at|column_from|rate_result|twist_result|least_with_0|number)\(.*(usize|u8)"),
    "2a functions of one shape": twins,
    "2b constants of one value": lambda s: constants(s),
    "3a loops over a range": lambda s: lines_with(s, r"^\s*for \w+ in .*\.\."),
    "3b loops with while": lambda s: lines_with(s, r"^\s*(while|loop)\b"),
    "3c counters by hand": lambda s: lines_with(s, r"^\s*\w+ \+= 1;"),
    "3d an index beside the item": lambda s: lines_with(s, r"^\s*for \(.*enumerate\(\)"),
    "4a comparison, conversion, copying and printing": lambda s: lines_with(s, r"^impl.* (Clone|Copy|PartialEq|Eq|PartialOrd|Ord|Default|From<.*>|TryFrom<.*>|fmt::Display|Ordered) for"),
    "4b ranges tested by hand": lambda s: lines_with(s, r"\w+ <= [\w.]+\)? &&? \(?[\w.]+ <=? \w+"),
    "4c records of zeros": lambda s: lines_with(s, r"\{ \w+: 0(, \w+: 0)* \}|^const N\w+: \w+ = \w+ \{|\w+: false,$"),
    "4d a wrapper of a method": lambda s: lines_with(s, r"fn (size|half_number|line_count|is_gone|few|is_number|size_or_0)\("),
    "5a facts in three contracts or more": repeated,
    "5b five parameters or more": lambda s: many(s),
    "6 arrays of a fixed size": lambda s: lines_with(s, r"(: |-> |= )&?(mut )?\[[^\[\];]+; \w+\]"),
    "7a predicates as structs": lambda s: lines_with(s, r"^impl.* Judge<.*> for"),
    "7b a switch on a step": lambda s: lines_with(s, r"\b(part|what|step): (Part|Step)\b"),
}


def constants(sources):
    """Constants that have one value, by groups: `GRAINS` and `GRAINS`, `MOST_PRICE` and `MOST_ENTRY`."""
    groups = collections.defaultdict(list)
    for place in lines_with(sources, r"^(pub(\(crate\))? )?const \w+: [iu]\w+ = [\d_]+;"):
        name, value = re.search(r"const (\w+): \w+ = ([\d_]+);", place).groups()
        groups[value].append(place.split(": ")[0] + " " + name)
    return [f"{value}: " + ", ".join(group) for value, group in groups.items() if len(group) > 1]


def many(sources):
    """Functions with five parameters or more, self among them."""
    found = []
    for name, text in sources.items():
        for match in re.finditer(r"fn (\w+)(?:<[^(]*>)?\(([^{;]*?)\)\s*(?:->|\n|\{|requires|ensures)", text):
            if len([part for part in re.split(r",\s*(?![^<(\[]*[>)\]])", match.group(2)) if part.strip()]) >= 5:
                found.append(f"{name}:{text[:match.start()].count(chr(10)) + 1}: {match.group(1)}")
    return found


def main():
    words = sys.argv[1:]
    listed = "--list" in words
    point = words[words.index("--point") + 1] if "--point" in words else ""
    rest = [w for k, w in enumerate(words) if not w.startswith("--") and (k == 0 or words[k - 1] != "--point")]
    commit = rest[0] if rest else None
    sources = dict(files(commit, r"crates/\w+/src/.*\.rt"))
    for name, find in POINTS.items():
        if name.startswith(point):
            found = find(sources)
            print(f"{len(found):4}  {name}")
            if listed:
                for place in found:
                    print("      " + place)
    if "8".startswith(point):
        proofs = dict(files(commit, r"crates/\w+/proofs/.*\.antt"))
        answers = sum(len(re.findall(r"^(?:abbrev )?(?:pub )?\S+ : goal\.", t, re.M)) for n, t in proofs.items() if n.endswith("Answers.antt"))
        lemmas = sum(len(re.findall(r"^(?:abbrev )?pub \S+ :", t, re.M)) for n, t in proofs.items() if re.fullmatch(r"crates/\w+/proofs/\w+\.antt", n))
        print(f"{answers:4}  8a answers\n{lemmas:4}  8b lemmas in files of their own")
        print(f"{sum(t.count(chr(10)) for t in proofs.values()):4}  8c lines of proofs")


main()
