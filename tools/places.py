#!/usr/bin/env python3
"""Places in crates/*/src that an older form of the language left, by the points of docs/DESIGN-PASS.md.

places.py [-l] [FOLDER]: a line for each kind of place with its number; with -l each place too. FOLDER is a checkout, by default this one.
"""
import collections
import glob
import os
import re
import sys

listed = "-l" in sys.argv[1:]
rest = [a for a in sys.argv[1:] if a != "-l"]
top = rest[0] if rest else os.path.join(os.path.dirname(os.path.abspath(__file__)), "..")


def end_of(text, i, opens, closes):
    """The place behind the bracket that closes the one at i."""
    depth = 0
    while True:
        if text.startswith("//", i):
            i = text.index("\n", i)
        elif text[i] == '"':
            i += 1
            while text[i] != '"':
                i += 2 if text[i] == "\\" else 1
        elif text[i] == opens:
            depth += 1
        elif text[i] == closes:
            depth -= 1
            if depth == 0:
                return i + 1
        i += 1


class Function:
    """A function of src/: its comment, name, parameters, result, clauses and body."""

    def __init__(self, path, text, at):
        head = re.compile(r"(?:pub )?(?:extern \"C\" )?fn (\w+)(<[^(]*>)?\(").search(text, at)
        self.path, self.name = path, head.group(1)
        before = text[:at].rstrip().split("\n")
        comment = []
        while before and before[-1].strip().startswith(("//", "#[")):
            comment.insert(0, before.pop().strip())
        self.comment = " ".join(comment)
        i = end_of(text, head.end() - 1, "(", ")")
        self.params = re.findall(r"(\w+): ([^,]+(?:<[^>]*>)?)", text[head.end():i - 1])
        clause = re.compile(r"\s*(ghost|requires|ensures)\b[\w ]*:?\s*\{")
        result = re.compile(r"\s*(?:-> ([^{\n]+?))?\s*(?=\n|\{)").match(text, i)
        self.result = (result.group(1) or "") if result else ""
        if result:
            i = result.end()
        self.clauses = []
        while True:
            m = clause.match(text, i)
            if not m:
                break
            end = end_of(text, m.end() - 1, "{", "}")
            self.clauses.append((m.group(1), " ".join(text[m.end():end - 1].split())))
            i = end
        i = text.index("{", i)
        self.body = text[i:end_of(text, i, "{", "}")]


functions, enums, structs = [], [], []
for path in sorted(glob.glob(os.path.join(top, "crates/*/src/**/*.rt"), recursive=True)):
    text = open(path, encoding="utf-8").read()
    short = os.path.relpath(path, os.path.join(top, "crates")).replace("/src/", "/")
    for m in re.finditer(r"(?m)^ *(?:pub )?(?:extern \"C\" )?fn \w+", text):
        functions.append(Function(short, text, m.start()))
    for m in re.finditer(r"enum (\w+) \{", text):
        enums.append((short, m.group(1), text[m.end():end_of(text, m.end() - 1, "{", "}")]))
    for m in re.finditer(r"struct (\w+)(?:<[^>]*>)? \{", text):
        structs.append((short, m.group(1), text[m.end():end_of(text, m.end() - 1, "{", "}")]))

places = collections.OrderedDict()


def put(kind, place):
    places.setdefault(kind, []).append(place)


KINDS = [
    "1 enums of the shape of Option or Result",
    "1 numbers that stand for nothing or for a refusal",
    "1 flags with a value beside",
    "1 numbers for kinds",
    "2 functions that make a table of one constant",
    "2 functions that differ in a type, a size or a constant",
    "3 loops over an index, while and loop",
    "4 conversion, comparison and copying by hand",
    "5 clauses that three or more functions repeat",
    "5 runs of parameters that three or more functions share",
    "6 parameters for a buffer and a place in it",
    "6 flat tables of rows",
    "6 parallel tables",
    "7 switches on which step to run",
]
for kind in KINDS:
    places[kind] = []

for path, name, body in enums:
    variants = re.findall(r"(?m)^\s*(\w+)(?:\s*[({]|,)", re.sub(r"\{[^}]*\}", "{}", body))
    if any(v in ("Refused", "Nothing", "Lawful") for v in variants) and not re.search(r"Rise", body):
        put(KINDS[0], f"{path}: {name}")
for f in functions:
    here = f"{f.path}: {f.name}"
    if f.result == "usize" and re.search(r"\b0 (for|where)\b|where none|has it not|number of the first question", f.comment):
        put(KINDS[1], here)
    if any(n in ("first", "placed") and t == "bool" for n, t in f.params):
        put(KINDS[2], here)
    if f.name != "from" and any(n in ("kind", "policy", "code") and t in ("usize", "u8") for n, t in f.params):
        put(KINDS[3], here)
    if re.fullmatch(r"\[\w+; \d+\]", f.result) and not f.params:
        put(KINDS[4], here)
    for m in re.finditer(r"for \w+ in [^\n]*\.\.[^\n]*\{|\bwhile |\bloop \{", f.body):
        put(KINDS[6], f"{here}: {m.group(0)}")
    for m in re.finditer(r"from_byte\(|from_two_bytes\(|from_four_bytes\(|\bcopy\(|code_of\([^)]*\) == |category_of\(|code_of\(|set_of\(|\bclear\(", f.body):
        put(KINDS[7], f"{here}: {m.group(0)}")
    if any(n in ("at", "from") and t == "usize" for n, t in f.params) and any(n in ("area", "page", "answer") for n, t in f.params):
        put(KINDS[10], here)
    if re.search(r"&(mut )?\[usize\]", " ".join(t for n, t in f.params)) and any(n in ("noted", "rules", "table") for n, t in f.params):
        put(KINDS[11], here)
    if len([t for n, t in f.params if re.fullmatch(r"&(mut )?\[u(8|16)\]", t)]) >= 3:
        put(KINDS[12], here)
    if re.search(r"match kind|match \(form, kind\)|if kind == \d", f.body):
        put(KINDS[13], here)
for path, name, body in structs:
    for m in re.finditer(r"(kind|policy|code|number): (usize|u8)", body):
        put(KINDS[3], f"{path}: {name}.{m.group(1)}")

bodies = collections.defaultdict(list)
for f in functions:
    shape = re.sub(r'b"[^"]*"', "B", f.body)
    shape = re.sub(r"\b\d+\b", "N", shape)
    shape = re.sub(r"\s+", " ", shape)
    if f.params and not re.fullmatch(r"\{ ?\}", shape):
        for n, t in f.params:
            shape = re.sub(r"\b%s\b" % n, "P", shape)
        kinds = tuple(re.sub(r"u8|u16|u32|\d+", "T", t) for n, t in f.params)
        bodies[(shape, kinds)].append(f)
for group in bodies.values():
    if len(group) > 1:
        for f in group:
            put(KINDS[5], f"{f.path}: {f.name}")

said = collections.defaultdict(set)
for f in functions:
    for word, clause in f.clauses:
        if word == "requires":
            for fact in clause.split(" × "):
                said[fact.strip("() ")].add(f"{f.path}: {f.name}")
for fact, where in said.items():
    if len(where) >= 3:
        put(KINDS[8], f"{len(where)} {fact}")
runs = collections.defaultdict(set)
for f in functions:
    for k in range(len(f.params) - 1):
        runs[tuple(n for n, t in f.params[k:k + 2])].add(f"{f.path}: {f.name}")
for pair, where in runs.items():
    if len(where) >= 3:
        put(KINDS[9], f"{len(where)} {', '.join(pair)}")

for kind, found in places.items():
    print(f"{len(found):4} {kind}")
    if listed:
        for place in found:
            print(f"       {place}")
