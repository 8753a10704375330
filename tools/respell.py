#!/usr/bin/env python3
"""Brings the repository's own definitions and lemmas to the spelling of today's Rattle: words and fields in snake case.

usage: tools/respell.py           at the top of the repository, once, after port.py
       tools/respell.py --local   then: lemmas declared inside a module or a `where`, with their equations and uses

What is declared in specs/ and proofs/ (proofs/*/Proof.antt aside, whose names are those of an older kit) is read first:
  - a definition or lemma in camel case, as juniorsOf, gets snake case: juniors_of; a dash in a definition of specs/ becomes _;
  - a field with a dash or in camel case, as yes-means, gets snake case: yes_means;
  - a dash in a lemma's name stays: it joins two names.
Types and modules keep their names, as do functions of src/, exported C names, strings, inputs and outputs. In .rt files only
words in camel case are turned, and fields after a dot; in pages and test scripts only words in camel case between backquotes.
It prints the names that would fall together and turns nothing while there are any but those of a field and a word.
"""

import collections
import os
import re
import sys

CHARS = r"[^\s(){}\[\].,;:λ→≡<>⌜⌝`\"]"
DECLARED = re.compile(r"(\s*)(?:(?:pub|abbrev|unfoldable|record|data|ruleset)\s+)*(" + CHARS + r"+)((?: [({][^=]*)?) :( |$)")
TOKEN = re.compile(r"(?<!" + CHARS + r")([a-z]" + CHARS + r"*)")
CAMEL = re.compile(r"([a-z0-9])([A-Z])")


def snake(name):
    return CAMEL.sub(lambda m: m.group(1) + "_" + m.group(2).lower(), name)


def files(*endings):
    for folder, dirs, names in os.walk("crates"):
        dirs[:] = sorted(d for d in dirs if d != "out")
        for name in sorted(names):
            if name.endswith(endings):
                yield os.path.join(folder, name)


def read():
    fields, words = set(), collections.defaultdict(set)
    for path in files(".antt"):
        if path.endswith("/Proof.antt"):
            continue
        for line in open(path, encoding="utf-8"):
            m = DECLARED.match(line)
            if not m or line.lstrip().startswith("--"):
                continue
            name = m.group(2)
            if not re.match(r"[a-z]", name):
                continue
            if m.group(1):
                fields.add(name)
            else:
                words[name].add(path)
    field_map = {n: snake(n).replace("-", "_") for n in fields}
    word_map = {}
    for n, where in words.items():
        of_specs = any("/specs/" in p for p in where)
        word_map[n] = snake(n).replace("-", "_") if of_specs else snake(n)
    clashes = collections.defaultdict(set)
    for n, to in word_map.items():
        clashes[to].add(n)
    for to, olds in sorted(clashes.items()):
        if len(olds) > 1:
            print("fall together:", to, {n: sorted(words[n]) for n in olds})
    moved = lambda m: {a: b for a, b in m.items() if a != b}
    return moved(field_map), moved(word_map), {to for to, o in clashes.items() if len(o) > 1}


def turn_line(line, fields, words):
    out, at = [], 0
    for m in TOKEN.finditer(line):
        name = m.group(1)
        before, after = line[: m.start()], line[m.end() :]
        is_field = before.endswith(".") or (
            re.match(r" (=|:)( |$)", after) and re.search(r"(^\s+(pub )?|[{;] |record \{)$", before)
        )
        to = fields.get(name, None if before.endswith(".") else words.get(name)) if is_field else words.get(name)
        if to:
            out.append(line[at : m.start()] + to)
            at = m.end()
    return "".join(out) + line[at:]


# A lemma that would have its function's name.
LEMMAS = {"crates/benchsheet/proofs/Same.antt": ("same_by", "same_by_lem"), "crates/misreadings/proofs/Readings.antt": ("same_by", "same_by_lem")}
# These names fall together in modules of which no file brings in both.
APART = {"in_order", "numbers_of", "one_more", "part_at"}


def mend_local(text):
    """A lemma of a module or a `where` in a file was taken for a field where it is declared: its equations and uses follow."""
    for m in set(re.findall(r"(?m)^\s+(?:pub )?([a-z]" + CHARS + r"*_" + CHARS + r"*) :(?: |$)", text)):
        for old in {m.replace("_", "-")} | {o for o in re.findall(r"(?m)^\s+([a-z]" + CHARS + r"*-" + CHARS + r"*)(?: [^=\n]*)? = ?", text) if o.replace("-", "_") == m}:
            if re.search(r"(?m)^\s+" + re.escape(old) + r"(?: [^=\n]*)? =", text):
                text = re.sub(r"(?<!" + CHARS + ")" + re.escape(old) + "(?!" + CHARS + ")", m, text)
    return text


# What is left in camel case: constructors, parameters and local names.
LEFT = re.compile(r"(?<!" + CHARS + r")([a-z][a-z0-9']*[A-Z][A-Za-z0-9']*(?:[-_]" + CHARS + r"*)?)(?!" + CHARS + ")")


def mend_imports():
    """A name that a file brings in is spelled as where it is declared."""
    declared, any_name = {}, re.compile(r"(?m)^\s*(?:(?:pub|abbrev|unfoldable|record|data|ruleset)\s+)*(" + CHARS + r"+)(?: [({][^=\n]*)? :(?: |$)")
    for path in files(".antt", ".rt"):
        text = new = open(path, encoding="utf-8").read()
        for m in re.finditer(r"use Rattle\.(\w+)\.(specs|proofs)\.([\w.+]+?)\.\{([^}]*)\}", text):
            source = f"crates/{m.group(1)}/{m.group(2)}/{m.group(3).replace('.', '/')}.antt"
            if not os.path.exists(source):
                continue
            if source not in declared:
                declared[source] = set(any_name.findall(open(source, encoding="utf-8").read()))
            for name in (n.strip().split(" as ")[0] for n in m.group(4).split(",")):
                now = [n for n in declared[source] if n.replace("-", "_") == name.replace("-", "_")]
                if name and name not in declared[source] and now:
                    new = re.sub(r"(?<!" + CHARS + ")" + re.escape(name) + "(?!" + CHARS + ")", now[0], new)
        if new != text:
            open(path, "w", encoding="utf-8").write(new)


def main():
    if "--local" in sys.argv:
        for path in files(".antt"):
            text = open(path, encoding="utf-8").read()
            new = LEFT.sub(lambda m: snake(m.group(1)), mend_local(text))
            if new != text:
                open(path, "w", encoding="utf-8").write(new)
        mend_imports()
        return
    for path, (old, new) in LEMMAS.items():
        text = open(path, encoding="utf-8").read()
        open(path, "w", encoding="utf-8").write(re.sub(r"(?<!" + CHARS + ")" + old + "(?!" + CHARS + ")", new, text))
    fields, words, clash = read()
    if clash - APART:
        sys.exit("respell: names would fall together; nothing was turned")
    camel = {a: b for a, b in {**fields, **words}.items() if CAMEL.search(a) and "-" not in a}
    for path in files(".antt"):
        text = open(path, encoding="utf-8").read()
        new = "".join(turn_line(l, fields, words) for l in text.splitlines(True))
        if new != text:
            open(path, "w", encoding="utf-8").write(new)
    word = re.compile(r"(?<![\w'-])([a-z]\w*)(?![\w'])")
    for path in files(".rt"):
        text = open(path, encoding="utf-8").read()
        lines = []
        for l in text.splitlines(True):
            parts = re.split(r'("(?:[^"\\]|\\.)*")', l)
            for i in range(0, len(parts), 2):
                parts[i] = word.sub(lambda m: camel.get(m.group(1), m.group(1)), parts[i])
                if l.lstrip().startswith(("ensures", "requires", "ghost")) or "≡" in l:
                    parts[i] = re.sub(r"(?<=\.)([a-z][\w]*(?:-\w+)+)", lambda m: fields.get(m.group(1), m.group(1)), parts[i])
            lines.append("".join(parts))
        new = "".join(lines)
        if new != text:
            open(path, "w", encoding="utf-8").write(new)
    for path in files(".edit"):
        text = open(path, encoding="utf-8").read()
        of_code = "file: src/" in text
        new = word.sub(lambda m: camel.get(m.group(1), m.group(1)), text) if of_code else "".join(
            l if l.startswith("file:") else l[:5] + turn_line(l[5:], fields, words) for l in text.splitlines(True))
        if new != text:
            open(path, "w", encoding="utf-8").write(new)
    for path in ["README.md"] + [os.path.join(d, f) for top in ("docs",) for d, _, fs in os.walk(top) for f in fs if f.endswith(".md")]:
        text = open(path, encoding="utf-8").read()
        new = re.sub(r"`[^`\n]*`", lambda q: word.sub(lambda m: camel.get(m.group(1), m.group(1)), q.group(0)), text)
        if new != text:
            open(path, "w", encoding="utf-8").write(new)


main()
