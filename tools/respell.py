#!/usr/bin/env python3
"""Respells the repository's own names as the library spells its own, after the kit's port.py.

usage: python3 tools/respell.py        at the top of the repository, once, with everything committed

Functions of specs/ become snake case, facts and types upper camel case. In the name of a lemma a dash stays between two names of
functions, and plain words are joined by an underscore. Steps and goals in proof folders are named after the source, whose names
keep their underscores. Strings, comments and functions of src/ stay as they are. Stops where two names would fall together.
"""
import os
import re
import sys

TOKEN = re.compile(r"[^\W\d][\w'-]*(?<!-)", re.U)
STD = """length take drop set get_or append map sum zip filter replicate reverse fold cond not min max all any count_by suc pos
negsuc and or eqb ltb leb from_residual""".split()
DEFINED = re.compile(r"^[ ]*(?:(?:abbrev|unfoldable|pub|data|record|module)\s+)*([^\s:(){}=]+)[ ]*(?:[({][^\n=]*[)}])?[ ]*:(?![:=])[ ]*([^\n]*)", re.M)
KEYWORDS = {"use", "infixr", "infixl", "infix", "where", "let", "module", "pub", "elim", "_", "syntax"}


def read(path):
    with open(path, encoding="utf-8") as f:
        return f.read()


def files(kind):
    for root, dirs, names in os.walk("crates"):
        dirs[:] = sorted(d for d in dirs if d != "out")
        for name in sorted(names):
            if name.endswith(kind):
                yield os.path.join(root, name)


def is_lemma_file(path):
    parts = path.split(os.sep)
    return len(parts) == 4 and parts[2] == "proofs"


def is_spec(path):
    return path.split(os.sep)[2] == "specs"


SPECIAL = {
    # would fall together with a name of another crate, or with a definition that an alias stands beside
    "In-range": "InFactorRange",
    "accountOf": "account_answer",
    "statementOf": "statement_answer",
    "guaranteeOf": "guarantee_due",
}


def snake(name):
    name = re.sub(r"(?<=[a-z0-9])([A-Z])", lambda m: "_" + m.group(1).lower(), name)
    return name.replace("-", "_")


def camel(name):
    head, *rest = name.split("-")
    return head + "".join(w[:1].upper() + w[1:] for w in rest)


def pieces(text, comment):
    """The text cut into (is code, piece): strings and comments are not code."""
    at = 0
    for m in re.finditer(r'"(?:\\.|[^"\\])*"|' + comment + r"[^\n]*", text):
        yield True, text[at:m.start()]
        yield False, m.group(0)
        at = m.end()
    yield True, text[at:]


def code(text, comment):
    return "".join(p for is_code, p in pieces(text, comment) if is_code)


def lemma_name(name, known):
    """A dash between two names of functions, an underscore before and after a plain word."""
    name = name.replace("getD", "get_or")
    words = re.sub(r"(?<=[a-z0-9])([A-Z])", lambda m: "-" + m.group(1).lower(), name).split("-") if name[0].islower() else name.split("-")
    parts, i = [], 0
    while i < len(words):
        for j in range(len(words), i, -1):
            joined = "_".join(words[i:j])
            if joined in known:
                break
        else:
            j, joined = i + 1, words[i]
        parts.append((joined, joined in known or joined[:1].isupper()))
        i = j
    out = parts[0][0]
    for (_, left), (word, right) in zip(parts, parts[1:]):
        out += ("-" if left and right else "_") + word
    return out


def definitions(path):
    text = code(read(path), "--")
    for m in DEFINED.finditer(text):
        name, rest = m.group(1), m.group(2)
        if name not in KEYWORDS and TOKEN.fullmatch(name):
            yield name, rest
    for m in re.finditer(r"^[ ]*(?:pub )?data\b.*?where\n((?:[ ]+.*\n?)*)", text, re.M):
        for n in re.finditer(r"^[ ]+(?:pub )?([\w'-]+)[ ]*:", m.group(1), re.M):
            yield n.group(1), ""


def imports(text):
    for m in re.finditer(r"^[ ]*(?:pub )?(?:ghost )?use ([\w.'·+-]+)\.\{([^}]*)\}", text, re.M):
        for item in m.group(2).split(","):
            names = item.split(" as ")
            yield m.group(1), names[0].strip(), names[-1].strip()


def main():
    own = {line.split(":")[0].split()[0] for line in read("crates.txt").splitlines() if line.strip() and not line.startswith("#")}
    spec, lemma, local = set(), set(), {}
    source = set(STD)
    for path in files(".rt"):
        source |= {w for w in re.findall(r"\b[a-z][a-z0-9]*(?:_[a-z0-9]+)*\b", code(read(path), "//"))} & {w for w in re.findall(r"\w+", read(path)) if "_" in w}
    for path in files(".antt"):
        for name, rest in definitions(path):
            if is_spec(path):
                spec.add(name)
            elif is_lemma_file(path):
                lemma.add(name)
            elif not re.match(r"(goal|given)\.", rest):
                local.setdefault(path, set()).add(name)
    table = {}
    for name in spec:
        table[name] = (camel if name[0].isupper() else snake)(name)
    known = {v for v in table.values() if v[0].islower()} | source
    known -= {"is", "in", "at", "of", "to", "from", "by", "on", "some", "none", "then", "one", "no"}
    for path in files((".antt", ".rt")):
        text = code(read(path), "//" if path.endswith(".rt") else "--")
        for module, name, alias in imports(text):
            if alias != name and not module.endswith(".Goals") and alias not in table:
                table[alias] = (camel if alias[0].isupper() else snake)(alias)
    for name in lemma | set().union(*local.values()):
        if name not in table:
            table[name] = camel(name) if name[0].isupper() else lemma_name(name, known)
    table = {a: SPECIAL.get(a, b) for a, b in table.items() if a != b}
    # names that fall together
    kept = (spec | lemma | set().union(*local.values())) - set(table)
    back = {}
    for a, b in table.items():
        back.setdefault(b, set()).add(a)
    bad = {b: a for b, a in back.items() if len(a) > 1 or b in kept}
    for b, a in sorted(bad.items()):
        print("together:", b, sorted(a) + ([b + " (kept)"] if b in kept else []))
    if bad:
        sys.exit("respell: names would fall together; nothing was changed")
    if "--list" in sys.argv:
        for a, b in sorted(table.items()):
            print(a, "->", b)
        return
    underscored = sorted((w for w in source if "_" in w), key=len, reverse=True)
    dashed = [(w.replace("_", "-"), w) for w in underscored]

    def generated(token):
        if "-" not in token:
            return token
        for d, w in dashed:
            if d in token:
                token = re.sub(r"(?<![\w'])" + re.escape(d) + r"(?![\w'])", w, token)
        token = re.sub(r"\b([Ii]n)-(ok|err|default)\b", r"\1_\2", token)
        token = re.sub(r"^(overflow|nonzero)-(add|sub|mul|div|rem|shl|shr|cast|step|neg)\b", r"\1_\2", token)
        token = re.sub(r"^(invariant)-of\b", r"\1_of", token)
        return re.sub(r"^(slice|offset)-bounds\b", r"\1_bounds", token)

    for path in files((".antt", ".rt")):
        text = read(path)
        comment = "//" if path.endswith(".rt") else "--"
        foreign = set()
        for module, name, alias in imports(code(text, comment)):
            if module.split(".")[0] != "Rattle" or module.split(".")[1] not in own:
                foreign |= {name, alias} if name == alias else {name}
        in_folder = path.endswith(".antt") and not is_spec(path) and not is_lemma_file(path)

        def turn(m):
            token = m.group(0)
            if token in foreign:
                return token
            before = m.string[m.start() - 1:m.start()]
            if token in table and not (in_folder and before == "." and "-" in token and generated(token) != token):
                return table[token]
            return generated(token) if in_folder else token

        new = "".join(TOKEN.sub(turn, p) if is_code else p for is_code, p in pieces(text, comment))
        if new != text:
            with open(path, "w", encoding="utf-8") as f:
                f.write(new)


if __name__ == "__main__":
    if not os.path.exists("crates.txt"):
        sys.exit("respell: run it at the top of the repository")
    main()
