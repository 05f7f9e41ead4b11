#!/usr/bin/env python3
"""Respells this repository's own names as today's Rattle spells names: words in snake case, a dash where it joins two names.

usage: tools/respell.py [--check]     at the top of the repository, once, after the kit's port.py

What turns, as whole words: names in lower camel case wherever they stand in definitions, proofs and clauses; and lemmas that are declared in
specs/ or in files of lemmas with a dash between plain words, as row-end to row_end. A dash stays between two names of definitions, as in
length-entries_from. Names of Rust code, of the library and of what the check makes stay. In comments, documents and edits the same words turn,
those with a dash between backticks alone. A lemma that would have the name of a definition that stands in a file with it gets '_lem'. --check writes nothing.
"""

import os
import re
import sys

TOP = re.compile(r"^(?:pub |abbrev |unfoldable )*([^\s(){}.;,@\"«»:]+)(?: +[^\s:][^:]*)? *:(?!:)")
WORD = re.compile(r'[^\s(){}.;,@"«»]+')
CAMEL = re.compile(r"(?<![A-Za-z0-9_'])[a-z][a-z0-9]*(?:[A-Z][a-z0-9]*)+'*(?![A-Za-z0-9_])")
HUMP = re.compile(r"(?<=[a-z0-9])(?=[A-Z])")
RT = re.compile(r"\b(?:requires|ensures)\s*\w*\s*\{|ghost\s+use\b")
OWN = {"setOut": "set_out_field"}  # the library's set_out stands in one file with it
KEEP = {"mod", "use", "data", "record", "where", "let", "in"}


def files(*ends):
    for folder, dirs, names in os.walk("crates"):
        dirs[:] = sorted(d for d in dirs if d != "out")
        for name in sorted(names):
            if name.endswith(ends):
                yield os.path.join(folder, name)


def read(path):
    with open(path, encoding="utf-8") as f:
        return f.read()


def bare(text):
    """The code of an .antt file: comments blanked."""
    return re.sub(r"(?<![^\s(){}.;,@\"])--[^\n]*", lambda m: " " * len(m[0]), text)


def snake(word):
    """A word in snake case, where it is in lower camel case; each part between dashes by itself."""
    return CAMEL.sub(lambda m: "_".join(p.lower() for p in HUMP.split(m[0])), re.sub(r"\bgetD\b", "get_or", word))


def spans(text):
    """Where clauses and ghost imports of a .rt file stand."""
    for m in RT.finditer(text):
        if m[0].startswith("ghost"):
            yield m.start(), text.index(";", m.end())
            continue
        depth, at = 1, m.end()
        while depth:
            depth += (text[at] == "{") - (text[at] == "}")
            at += 1
        yield m.end(), at


def tables():
    antt = {p: read(p) for p in files(".antt")}
    declared, words = {}, set()
    for path, text in antt.items():
        code = bare(text)
        for line in code.split("\n"):
            m = TOP.match(line)
            if m and m[1] not in KEEP:
                declared.setdefault(m[1], set()).add(path)
    names = {snake(n) for n in declared if "-" not in n}
    names |= {"length", "get_or", "set", "take", "drop", "slice", "paste", "append", "map", "sum", "reverse", "replicate"}
    table = {}
    for name, where in declared.items():
        if "-" not in name or not any("/specs/" in p or not p.endswith("/Proof.antt") for p in where):
            continue
        if not re.fullmatch(r"[a-zA-Z][\w'-]*", name):
            continue
        parts = [snake(p) for p in name.split("-")]
        new = parts[0]
        for a, b in zip(parts, parts[1:]):
            new += ("-" if a in names and b in names else "_") + b
        table[name] = new
    for path, text in antt.items():
        for word in set(WORD.findall(bare(text))):
            if word not in table and snake(word) != word:
                table[word] = snake(word)
    for path in files(".rt"):
        text = read(path)
        for a, b in spans(text):
            for word in WORD.findall(text[a:b]):
                if word not in table and snake(word) != word:
                    table[word] = snake(word)
    # A lemma that would have a definition's name, in a file that has both, gets '_lem'.
    for path, text in antt.items():
        code = bare(text)
        have = {m[1] for m in map(TOP.match, code.split("\n")) if m} - KEEP
        for m in re.finditer(r"^use [^{;\n]*\{([^}]*)\}", code, re.M):
            have |= {it.split(" as ")[-1].strip() for it in m[1].split(",")}
        back = {}
        for word in sorted(have):
            back.setdefault(table.get(word, word), []).append(word)
        for new, olds in back.items():
            lemmas = [w for w in olds if not CAMEL.search(w)]
            if len(lemmas) == 2:
                lemmas = [w for w in olds if "-" in w]
            if len(olds) == 2 and len(lemmas) == 1 and lemmas[0] in declared:
                table[lemmas[0]] = new + "_lem"
                print(f"lemma: {path}: {lemmas[0]} -> {new}_lem, beside {' '.join(olds)}")
            elif len(olds) > 1:
                print(f"together: {path}: {' '.join(olds)} -> {new}")
    return {a: b for a, b in table.items() if a != b} | OWN


def library(code):
    """The names that a file takes from the library: they stay there."""
    out = set()
    for m in re.finditer(r"\buse ([^{;\n]*)\{([^}]*)\}", code):
        if not re.match(r"Rattle\.(?!std\b)", m[1]):
            out |= {it.split(" as ")[0].strip() for it in m[2].split(",")}
    return out


def turn(text, table):
    def one(m):
        new = table.get(m[0], m[0])
        in_path = text[m.start() - 1 : m.start()] == "." and new.endswith("_lem")
        return m[0] if in_path else new

    return WORD.sub(one, text)


def prose(text, table):
    """A comment or a page: names in camel case, and all names between backticks."""
    text = re.sub(r"`[^`\n]*`", lambda m: turn(m[0][1:-1], table).join("``"), text)
    return re.sub(r"(?<![\w/.-])[a-z][a-z0-9]*(?:[A-Z][a-z0-9]*)+\b(?!\()", lambda m: table.get(m[0], m[0]), text)


def antt_turned(text, table):
    out, at = [], 0
    for m in re.finditer(r"(?<![^\s(){}.;,@\"])--[^\n]*", text):
        out += [turn(text[at : m.start()], table), prose(m[0], table)]
        at = m.end()
    return "".join(out + [turn(text[at:], table)])


def rt_turned(text, table):
    out, at = [], 0
    for a, b in sorted(spans(text)):
        if a < at:
            continue
        out += [re.sub(r"//[^\n]*", lambda m: prose(m[0], table), text[at:a]), turn(text[a:b], table)]
        at = b
    return "".join(out + [re.sub(r"//[^\n]*", lambda m: prose(m[0], table), text[at:])])


def main():
    check = "--check" in sys.argv[1:]
    table = tables()
    changed = 0
    for path in files(".antt", ".rt"):
        text = read(path)
        stay = library(bare(text) if path.endswith(".antt") else text)
        own = {a: b for a, b in table.items() if a not in stay}
        new = (antt_turned if path.endswith(".antt") else rt_turned)(text, own)
        if new != text:
            changed += 1
            if not check:
                with open(path, "w", encoding="utf-8") as f:
                    f.write(new)
    print(f"{len(table)} names, {changed} files")
    if check:
        for a, b in sorted(table.items()):
            print(f"  {a} -> {b}")


main()
