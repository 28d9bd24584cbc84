#!/usr/bin/env python3
"""Counts, in a checkout, the places of code that an older Rattle asked for and today's has a better form of.

    python3 tools/places.py [ROOT] [-l]

prints one line for each kind of place, with the number found below crates/*/src (and for proofs below crates/*/proofs);
with -l also where each is. It reads text, and judges nothing: a place that is found may be right as it is.
"""
import collections
import pathlib
import re
import sys

args = [a for a in sys.argv[1:] if a != "-l"]
listing = "-l" in sys.argv
root = pathlib.Path(args[0] if args else ".")
sources = sorted(root.glob("crates/*/src/**/*.rt"))
proofs = sorted(root.glob("crates/*/proofs/**/*.antt"))


def show(name, places):
    print(f"{len(places):5}  {name}")
    if listing:
        for place in places:
            print(f"         {place}")


def lines(pattern, files=sources):
    """The lines of code, comments and clauses left out, that a pattern finds."""
    found = []
    for path in files:
        for number, line in enumerate(path.read_text().splitlines(), 1):
            code = line.split("//")[0]
            if re.match(r"\s*(ghost|requires|ensures)\b", code):
                continue
            if re.search(pattern, code):
                found.append(f"{path.relative_to(root)}:{number}: {line.strip()}")
    return found


def enums():
    """Enums with a case for a refusal beside the cases that carry a result."""
    found = []
    for path in sources:
        for name, body in re.findall(r"enum (\w+)[^{]*\{(.*?)\n\}", path.read_text(), re.S):
            if re.search(r"^\s*(Refused|Rejected|Nothing|Missing)\b", body, re.M):
                found.append(f"{path.relative_to(root)}: {name}")
    return found


def repeated():
    """Groups in parentheses that stand in the clauses of three or more functions of a crate."""
    found = []
    for crate in sorted({p.relative_to(root).parts[1] for p in sources}):
        counts = collections.Counter()
        for path in sources:
            if path.relative_to(root).parts[1] != crate:
                continue
            for function in re.split(r"\n\s*(?:pub(?:\(\w+\))? )?(?:const )?fn ", path.read_text())[1:]:
                head = re.split(r"\n    \{|\n\{", function)[0]
                clauses = " ".join(re.findall(r"(?:requires|ensures)[^{]*\{(.*)\}", head))
                groups, open_at = set(), []
                for i, c in enumerate(clauses):
                    if c == "(":
                        open_at.append(i)
                    elif c == ")" and open_at:
                        group = clauses[open_at.pop() : i + 1]
                        if len(group) >= 40:
                            groups.add(group)
                counts.update(groups)
        found += [f"{crate}: {n} functions: {g}" for g, n in counts.most_common() if n >= 3]
    return found


def structs_with_counts():
    found = []
    for path in sources:
        for name, body in re.findall(r"struct (\w+)[^{;]*\{(.*?)\n\}", path.read_text(), re.S):
            fields = re.findall(r"^\s*(?:pub(?:\(\w+\))? )?(\w+): (.*),$", body, re.M)
            for field, kind in fields:
                if kind == "usize" and re.search(r"count|len\b|made", field) and any("[" in k for _, k in fields):
                    found.append(f"{path.relative_to(root)}: {name}.{field}")
    return found


print("1. shapes of Option and Result, flags, numbers for kinds")
show("enums with a case for a refusal", enums())
show("fields and parameters that are flags", lines(r"^\s*(?:pub )?\w+: bool,"))
show("kinds as plain numbers", lines(r"\b(kind|direction): u32|^const (EXPORT|IMPORT|SOUTHWARD|NORTHWARD)\b|kind_number\("))
show("arms that take a Result apart only to make another value", lines(r"^\s*(Err\(\w+\)|Ok\(\w+\)) => "))
print("2. twins: `duplicates` over the sources (its own command)")
print("3. loops that count")
show("while", lines(r"^\s*while "))
show("for over numbers", lines(r"^\s*for .* in .*\.\."))
show("for over items with their places", lines(r"^\s*for .*enumerate\(\)"))
print("4. comparing, converting and printing by hand")
show("comparisons of numbers drawn out of values", lines(r"\.number\(\)\)? (?:as \w+ )?(==|!=)|\.(book|first|lines) == |fn is\("))
show("conversions under a name of their own", lines(r"fn (numbered|number|from_rows|from_entries|of_months|words_of|line_of)\("))
show("results told as numbers", lines(r"fn (told|stated|counted|broken_at)\("))
show("printing", lines(r"fn (push_all|push_number|push_spaced|copy_to|well_formed|accepted|refused|words|line)\(.*(Text|&mut self|verdict|reply)"))
show("plain types that derive no equality", lines(r"^#\[derive\(Clone, Copy\)\]"))
print("5. facts in the clauses of three or more functions")
show("groups of words", repeated())
print("6. counts beside arrays")
show("fields", structs_with_counts())
show("variables", lines(r"let (?:mut )?count\b"))
print("7. steps chosen by a value, tables of functions")
show("function pointers, dyn, closures asked for", lines(r"\bdyn \w|: fn\(|F: Fn|Fn(?:Once|Mut)?\("))
print("8. proofs")
print(f"{len(proofs):5}  files")
print(f"{sum(len(p.read_text().splitlines()) for p in proofs):5}  lines")
print(f"{sum(len(re.findall(r'^pub [^ ]+ : goal[.]', p.read_text(), re.M)) for p in proofs if p.name == 'Answers.antt'):5}  answers")
