#!/usr/bin/env python3
"""Brings the repository's own definitions and lemmas to snake case: python3 tools/spelling.py [--list], at the top, once, after port.py.

A name that specs/ or a lemma file declares, and that is no type, is written in lower case with `_` between its words. Texts of crates/ (but for must-fail/) are
rewritten in place; --list prints the old and new names and writes nothing.
"""

import collections
import glob
import os
import re
import sys

LETTER = r"A-Za-z0-9_'ℕ₀-₉μκλσ⊎"
NAME = re.compile(rf"(?<![{LETTER}-])[a-zμκσ](?:[{LETTER}]|-(?=[{LETTER}]))*")
DECLARED = re.compile(rf"^\s*(?:(?:abbrev|unfoldable|pub|field) )*(?P<name>[a-zμκσ](?:[{LETTER}]|-(?=[{LETTER}]))*)(?: \{{ℓ\}})? :(?= )")
TYPED = re.compile(rf"\(\s*(?P<names>[a-zμκσ][{LETTER} -]*?) :(?= )")
OLD_WORDS = {"getD": "get_or"}


def files(pattern):
    return sorted(glob.glob("crates/*/" + pattern, recursive=True))


def lemma_files():
    return [f for f in files("specs/**/*.antt") + files("proofs/**/*.antt") if not f.endswith("/Proof.antt")]


def read(path):
    with open(path, encoding="utf-8") as f:
        return f.read()


def snake(name):
    for old, new in OLD_WORDS.items():
        name = re.sub(rf"{old}(?![a-z])", new, name)
    name = re.sub(r"(?<=[a-z0-9'])([A-Z])", lambda m: "_" + m.group(1).lower(), name)
    name = re.sub(r"[A-Z]", lambda m: m.group(0).lower(), name)
    return name.replace("-", "_")


def declared():
    """The names that are declared, and those of them that are fields of records."""
    names, fields = set(), set()
    for path in lemma_files():
        record = None
        for line in read(path).splitlines():
            indent = len(line) - len(line.lstrip())
            if record is not None and line.strip() and indent <= record:
                record = None
            if re.match(r"\s*(?:pub )?record ", line):
                record = indent
            m = DECLARED.match(line)
            if m:
                names.add(m.group("name"))
                if record is not None:
                    fields.add(m.group("name"))
    return names, fields


def renamings():
    """Old name and new. A definition comes first; a lemma that would have its name gets `_lem`, a field `_is`."""
    names, fields = declared()
    camel = {snake(n) for n in names if re.search("[a-z][A-Z]", n) and "-" not in n}
    table = {}
    for n in names:
        to = snake(n)
        if ("-" in n or n == to) and to in camel or "-" in n and to in names:
            to += "_is" if n in fields else "_lem"
        if to != n:
            table[n] = to
    return table


def words(text):
    return NAME.findall(text)


def functions():
    """The names of the functions of src/."""
    return {n for path in files("src/**/*.rt") for n in re.findall(r"\bfn (\w+)", read(path))}


def borrowed(text):
    """The names that a file has from a library."""
    own = {os.path.basename(c) for c in glob.glob("crates/*")}
    names = set()
    for module, list_of in re.findall(r"^use ([^\s{]+?)\.\{([^}]*)\}", text, re.M):
        parts = module.split(".")
        if parts[0] != "Rattle" or parts[1] not in own:
            names.update(n.strip() for n in list_of.split(","))
    return names


def table_for(path, text, table, rust):
    """A name of a library stays, and a function's name in its code and in its proof, where it also names modules and steps."""
    table = {old: new for old, new in table.items() if old not in borrowed(text)}
    if path.endswith(".rt"):
        return {old: new for old, new in table.items() if old != snake(old)}
    if path.endswith("/Proof.antt"):
        return {old: new for old, new in table.items() if old not in rust}
    return table


def turn(text, table, comment):
    out = []
    for line in text.split("\n"):
        at = line.find(comment)
        while at > 0 and line[at - 1] not in " \t":
            at = line.find(comment, at + 1)
        code, said = (line, "") if at < 0 else (line[:at], line[at:])
        code = NAME.sub(lambda m: table.get(m.group(0), m.group(0)), code)
        said = re.sub(r"`[^`]*`", lambda q: NAME.sub(lambda m: table.get(m.group(0), m.group(0)), q.group(0)), said)
        said = NAME.sub(lambda m: table.get(m.group(0), m.group(0)) if re.search("[a-z][A-Z]", m.group(0)) else m.group(0), said)
        out.append(code + said)
    return "\n".join(out)


def main():
    table = renamings()
    if "--list" in sys.argv:
        used = collections.Counter()
        for path in files("**/*.antt") + files("**/*.rt"):
            used.update(words(read(path)))
        new = collections.Counter(table.values())
        for old, to in sorted(table.items()):
            mark = ("  FALLS TOGETHER" if new[to] > 1 else "") + (f"  STANDS ALREADY {used[to]}" if used[to] else "")
            print(f"{old} {to}{mark}")
        return
    rust = functions()
    for path in files("**/*.antt") + files("**/*.rt"):
        text = read(path)
        turned = turn(text, table_for(path, text, table, rust), "--" if path.endswith(".antt") else "//")
        if turned != text:
            with open(path, "w", encoding="utf-8") as f:
                f.write(turned)


main()
