#!/usr/bin/env python3
"""Spells the repository's own definitions and lemmas as today's Rattle spells names.

usage: tools/respell.py [--list]      at the top, after the kit's port.py

A type is in upper camel case; all else is in snake case, but that in a lemma's name a dash still joins the names of two definitions.
Names of Rust, and the names of goals that Rattle makes, stay. --list prints the new names and writes nothing. A second run changes nothing.
"""
import glob
import re
import sys

NAME = r'[^\s(){}.;,@"«»:`]+'
MARKS = r"(?:(?:pattern|unfoldable|abbrev|pub)\s+)*"
DECLARED = re.compile(rf"^(\s*)({MARKS})({NAME})(?:\s+\{{[^{{}}\n]*\}})*\s+:\s+(.*)$")
HEADED = re.compile(rf"^\s*(?:{MARKS})(?:record|data)\s+({NAME})")
LOCAL = re.compile(rf"\blet\s+({NAME})\s+[:=]\s")
TOKEN = re.compile(NAME)

# Functions of the library that lemmas are named by, and words that are plain in lemmas, whatever else is named so.
LIBRARY = set("length take drop set map replicate reverse sum append min cond eqb joined".split())
PLAIN = set("more none still is once apart met r v rs".split())


def texts():
    found = []
    for crate in sorted(glob.glob("crates/*")):
        for part in ("specs", "proofs"):
            found += sorted(glob.glob(f"{crate}/{part}/**/*.antt", recursive=True))
    return found


def below():
    """Each crate of crates.txt, with itself and the crates below it."""
    deps = {}
    for line in open("crates.txt", encoding="utf-8"):
        name, colon, used = line.split("#")[0].partition(":")
        if colon:
            deps[name.split()[0]] = used.split()

    def reached(name):
        return {name}.union(*(reached(d) for d in deps.get(name, []) if d in deps))

    return {name: reached(name) for name in deps}


def declared():
    """The names that the antt texts declare with a dash, each with its crates and what it is there; and each crate's definitions and fields."""
    names, functions = {}, {}
    for path in texts():
        crate, lemmas = path.split("/")[1], "/proofs/" in path
        in_record = False
        for line in open(path, encoding="utf-8"):
            headed = HEADED.match(line)
            if headed:
                names.setdefault(headed[1], set()).add((crate, "type"))
                in_record = True
                continue
            if line.strip() and not line[0].isspace():
                in_record = False
            found = DECLARED.match(line)
            if found and not found[4].startswith("goal."):
                plain = not lemmas or "abbrev" in found[2] or "unfoldable" in found[2]
                kind = "field" if in_record and found[1] else "function" if plain else "lemma"
                if found[3][0].isupper() and "Type" in found[4]:
                    kind = "type"
                names.setdefault(found[3], set()).add((crate, kind))
                if kind in ("field", "function"):
                    functions.setdefault(crate, set()).add(found[3])
            for local in LOCAL.findall(line):
                names.setdefault(local, set()).add((crate, "local"))
    return {n: k for n, k in names.items() if "-" in n.strip("-")}, functions


def camel(name):
    return "".join(word[:1].upper() + word[1:] for word in name.split("-"))


def snake(word):
    return re.sub(r"(?<=[a-z0-9])[A-Z]", lambda m: "_" + m[0].lower(), word).replace("-", "_")


def lemma(name, functions, types):
    """Dashes between the names of definitions, and _ before and between other words. Each part: its text, and whether it begins and ends with a name."""
    words, parts, i = name.split("-"), [], 0
    while i < len(words):
        for j in range(len(words), i, -1):
            whole = "-".join(words[i:j])
            if (whole in functions or snake(whole) in functions or whole in types) and whole not in PLAIN:
                parts.append((camel(whole) if whole in types else snake(whole), True, True))
                i = j
                break
        else:
            ends = snake(words[i]).split("_")
            parts.append((snake(words[i]), len(ends) > 1 and ends[0] in functions, len(ends) > 1 and ends[-1] in functions))
            i += 1
    out = ""
    for k, (text, begins, _) in enumerate(parts):
        out += text if not k else ("-" if begins and parts[k - 1][2] else "_") + text
    return out


def table():
    names, functions = declared()
    types = {n for n, k in names.items() if "type" in {kind for _, kind in k}}
    visible = {crate: LIBRARY.union(*(functions.get(c, set()) for c in reached)) for crate, reached in below().items()}
    turned = {}
    for name, places in names.items():
        kinds = {kind for _, kind in places}
        if name in types:
            turned[name] = camel(name)
        elif kinds <= {"lemma", "local"} and "lemma" in kinds and name[:1].upper() + name[1:] not in types:
            spelt = {lemma(name, visible[crate], types) for crate, kind in places if kind == "lemma"}
            turned[name] = min(spelt, key=lambda it: it.count("-"))
        else:
            turned[name] = snake(name[:1].lower() + name[1:])
    return {n: t for n, t in turned.items() if n != t}, {n for n, k in names.items() if "field" in {kind for _, kind in k}}


def respell(text, turned, fields, walked):
    """The text with its own names turned. In a function's proof a name behind a dot is a goal's, but for the fields of records."""
    code = {m[0] for line in text.splitlines() for m in TOKEN.finditer(line.split("--")[0])}

    def one(line):
        use = line.lstrip().startswith(("use ", "ghost use "))
        comment = line.find("--")

        def word(m):
            old = m[0]
            if old not in turned or (0 <= comment < m.start() and old not in code):
                return old
            if m.start() and line[m.start() - 1] == "." and not use and old not in fields and walked:
                return old
            return turned[old]

        return TOKEN.sub(word, line)

    return "".join(one(line) for line in text.splitlines(keepends=True))


def respell_rust(text, turned, fields):
    """Only what is no comment: names with a dash stand in ghost items and clauses alone."""
    out = []
    for line in text.splitlines(keepends=True):
        code, slashes, rest = line.partition("//")
        out.append(respell(code, turned, fields, False) + slashes + rest)
    return "".join(out)


def respell_page(text, turned):
    """Names in code spans."""
    return re.sub(r"`[^`\n]*`", lambda m: TOKEN.sub(lambda t: turned.get(t[0], t[0]), m[0]), text)


def main(argv):
    turned, fields = table()
    if argv == ["--list"]:
        for old in sorted(turned):
            print(old, turned[old])
        return
    for path in texts() + sorted(glob.glob("crates/*/src/**/*.rt", recursive=True)) + ["README.md", *sorted(glob.glob("docs/*.md"))]:
        text = open(path, encoding="utf-8").read()
        if path.endswith(".rt"):
            new = respell_rust(text, turned, fields)
        elif path.endswith(".md"):
            new = respell_page(text, turned)
        else:
            new = respell(text, turned, fields, re.search(r"/proofs/.+/\w+\.antt$", path) is not None)
        if new != text:
            open(path, "w", encoding="utf-8").write(new)


main(sys.argv[1:])
