#!/usr/bin/env python3
"""Counts, in the code of every crate, the places that docs/DESIGN-PASS.md speaks of: `tools/places.py` prints the counts, `tools/places.py list` each place too."""
import re
import sys
from collections import defaultdict
from pathlib import Path

ROOT = Path(__file__).resolve().parent.parent
FILES = sorted((ROOT / "crates").glob("*/src/**/*.rt"))
PLACES = defaultdict(list)


def note(point, path, line, text):
    PLACES[point].append((str(path.relative_to(ROOT)), line, text.strip()))


def blocks(lines, start):
    """Each item that begins with `start`, as its first line's number and its lines, up to a line that is `}` alone."""
    at = 0
    while at < len(lines):
        if re.match(start, lines[at]):
            end = at
            while end + 1 < len(lines) and not re.match(r"\}", lines[end]):
                end += 1
            yield at, lines[at:end + 1]
            at = end
        at += 1


def functions(lines):
    """Each function: its line, its name, its signature and its body."""
    for at, body in blocks(lines, r"\s*(pub )?fn "):
        text = "\n".join(body)
        name = re.match(r"\s*(?:pub )?fn (\w+)", body[0]).group(1)
        head = re.split(r"\n\s*(?:requires|ensures)\b|\n\{", text)[0]
        yield at + 1, name, head, text


STEMS = [("32", ""), ("64", ""), ("_few", ""), ("_many", ""), ("_bytes", ""), ("_floats", ""), ("whole", "KIND"), ("float", "KIND"), ("byte", "KIND")]


def stem(name):
    for old, new in STEMS:
        name = name.replace(old, new)
    return name


for path in FILES:
    lines = path.read_text().split("\n")
    # 1. a flag beside a value, a number for a refusal or a kind, an enum of one value or none
    for at, body in blocks(lines, r"(pub )?struct "):
        for k, line in enumerate(body):
            if re.match(r"\s+(pub )?\w+: bool,", line):
                note("1 flag in a struct", path, at + k + 1, line)
            if re.match(r"\s+(pub )?number: u(8|32|64|size),", line):
                note("1 number in a struct", path, at + k + 1, line)
    for at, body in blocks(lines, r"(pub )?enum "):
        cases = [line for line in body[1:] if re.match(r"    \w", line)]
        bare = [line for line in cases if re.match(r"    \w+,", line)]
        if len(cases) == 2 and len(bare) == 1:
            note("1 enum of one value or none", path, at + 1, body[0])
    for at, line in enumerate(lines):
        if re.search(r"return (1|2|3|4|5|6|7|8|9|10|11);|refused\(\d+\)|why != 0|number != 0|number == 0", line):
            note("1 number of a refusal", path, at + 1, line)
        if re.match(r"\s+(\d+ =>|_ => .*no_call|Form::\w+ => (true|false))", line):
            note("7 arm of a switch on a number", path, at + 1, line)
    # 3. loops that count an index
    for at, line in enumerate(lines):
        if re.match(r"\s*('\w+: )?(while|loop)\b", line):
            indent = len(line) - len(line.lstrip())
            end = at + 1
            while end < len(lines) and not (lines[end].startswith(" " * indent + "}")):
                end += 1
            body = "\n".join(lines[at:end])
            counts = re.search(r"^\s+\w+ (\+=|-=) \d+;|^\s+\w+ = \w+ [+-] 1;|^\s+(\w+) = \w+ \+ \w+;", body, re.M)
            note("3 loop that counts an index" if counts else "3 other while or loop", path, at + 1, line)
    # 4. conversions, comparisons and printing by hand
    for at, name, head, text in functions(lines):
        if re.match(r"(kind_number|kind_from|law_number|law_from|same|least|lesser|fewest|most|capped|at_most_13|wide|size|byte_at|digit|wrapping\w*)$", name):
            note("4 conversion or comparison by hand", path, at, name)
        # 6. a buffer and its length
        if re.search(r"(\[[^\]]*; ?[A-Z0-9_a-z]+\]|\[\w+\]),\s*(num_\w+|n|m|count|tris|outputs): usize", head):
            note("6 array and its length", path, at, name)
        note("functions", path, at, name)

# 2. functions whose names differ in a type or a size
groups = defaultdict(list)
for where, at, name in PLACES["functions"]:
    if stem(name) != name:
        groups[(where.split("/")[1], stem(name))].append((where, at, name))
for (crate, key), found in sorted(groups.items()):
    if len(found) > 1:
        for where, at, name in found:
            PLACES["2 twin by its name"].append((where, at, name))

# 2. functions whose bodies are one another's but for names, types and numbers
shapes = defaultdict(list)
for path in FILES:
    lines = path.read_text().split("\n")
    for at, name, head, text in functions(lines):
        parts = re.split(r"\n\{", text, maxsplit=1)
        if len(parts) < 2 or parts[1].count("\n") < 4:
            continue
        body = re.sub(r"//.*", "", parts[1])
        tokens = re.findall(r"[A-Za-z_]\w*|\d[\w.]*|\S", body)
        seen = {}
        shape = []
        for token in tokens:
            if re.match(r"\d", token):
                shape.append("#")
            elif re.match(r"[A-Za-z_]", token) and token not in ("if", "else", "while", "for", "in", "return", "let", "mut", "match", "as"):
                shape.append(str(seen.setdefault(token, len(seen))))
            else:
                shape.append(token)
        shapes[" ".join(shape)].append((str(path.relative_to(ROOT)), at, name))
for shape, found in shapes.items():
    if len(found) > 1:
        PLACES["2 body like another's"].extend(found)

# 5. facts in the clauses of three functions or more
facts = defaultdict(list)
for path in FILES:
    crate = path.relative_to(ROOT).parts[1]
    lines = path.read_text().split("\n")
    for at, name, head, text in functions(lines):
        mine = set()
        for clause in re.findall(r"requires\s*\w*\s*\{(.*)\}", text):
            for part in clause.split("×"):
                part = part.strip()
                while part.startswith("(") and part.endswith(")"):
                    part = part[1:-1].strip()
                mine.add(part)
        for part in mine:
            facts[(crate, part)].append((str(path.relative_to(ROOT)), at, f"{name}: {part}"))
for (crate, part), found in sorted(facts.items()):
    if len(found) > 2:
        PLACES["5 fact asked by three functions or more"].extend(found)

del PLACES["functions"]
for point in sorted(PLACES):
    found = PLACES[point]
    print(f"{point}: {len(found)}")
    if "list" in sys.argv[1:]:
        for where, at, text in sorted(found):
            print(f"    {where}:{at}: {text}")
