#!/usr/bin/env python3
"""Lists where the sources may read like an older language, point by point; a person says which lines are places.

    python3 tools/places.py [FOLDER]     lists, of the repository in FOLDER (here, without it)
    python3 tools/places.py -c [FOLDER]  counts only
"""
import re
import sys
from collections import Counter
from pathlib import Path

ARGS = [a for a in sys.argv[1:] if a != "-c"]
ROOT = Path(ARGS[0] if ARGS else ".")
SOURCES = sorted(ROOT.glob("crates/*/src/**/*.rt"))


def lines(pattern, keep=lambda path, line: True):
    """The source lines, outside comments, that a pattern finds."""
    found = []
    for path in SOURCES:
        for number, line in enumerate(path.read_text().splitlines(), 1):
            if not line.lstrip().startswith("//") and re.search(pattern, line) and keep(path, line):
                found.append(f"{path.relative_to(ROOT)}:{number}: {line.strip()}")
    return found


def two_cases():
    """Enums of two cases, at least one of which holds something: the shape of Option or Result."""
    found = []
    for path in SOURCES:
        for name, body in re.findall(r"enum (\w+(?:<[^>]*>)?) \{\n(.*?)\n\}", path.read_text(), re.S):
            body = re.sub(r"//.*", "", body)
            cases = re.findall(r"^    (\w+)( \{|\(|,)", body, re.M)
            if len(cases) == 2 and any(mark != "," for _, mark in cases):
                found.append(f"{path.relative_to(ROOT)}: enum {name}")
    return found


def twins():
    """Functions and types of one name, and names that differ in a width alone."""
    names = Counter()
    for line in lines(r"\b(fn|struct|enum|macro_rules!) \w+", lambda path, line: "fmt<" not in line):
        name = re.search(r"\b(?:fn|struct|enum|macro_rules!) (\w+)", line).group(1)
        names[re.sub(r"u(8|16|32)", "u..", name)] += 1
    return sorted(f"{count} times: {name}" for name, count in names.items() if count > 1)


def facts():
    """Facts that two or more functions require."""
    seen = Counter()
    for line in lines(r"\brequires\b"):
        seen[re.sub(r".*requires(?: \w+)? \{ (.*) \}", r"\1", line)] += 1
    return sorted(f"{count} times: {fact}" for fact, count in seen.items() if count > 1)


def together():
    """Pairs of parameters that three or more functions take."""
    seen = Counter()
    for path in SOURCES:
        for text in re.findall(r"fn \w+(?:<[^(]*>)?\(([^)]*)\)", path.read_text()):
            names = [p.split(":")[0].strip() for p in text.split(",") if ":" in p]
            for i, a in enumerate(names):
                for b in names[i + 1:]:
                    seen[(a, b)] += 1
    return sorted(f"{count} times: {a}, {b}" for (a, b), count in seen.items() if count > 2)


def answers():
    """Answer files and lines of proofs, by crate."""
    found = []
    for crate in sorted(ROOT.glob("crates/*")):
        files = list(crate.glob("proofs/**/*.antt"))
        if files:
            size = sum(len(f.read_text().splitlines()) for f in files)
            found.append(f"{crate.name}: {sum(f.name == 'Answers.antt' for f in files)} answer files, {size} lines of proofs")
    return found


POINTS = [
    ("1a enums of the shape of Option or Result", two_cases()),
    ("1b flags in structs", lines(r"^(pub )?\w+: bool,|^\s+(pub )?\w+: bool,$")),
    ("1c numbers for kinds and refusals", lines(
        r"const (?!VERSION|MOST)[A-Z_]+: u(8|16) = \d+;|\b(kind|command): u(8|16)\b|refused\(.*number: u8|^\((Number::Fixed|Some)\(\d+|^\s+\((Number::Fixed|Some)\(\d+\), _\)|macro_rules! refusal|fn (number|making|setting)\(\w+: [^)]*\) -> u8")),
    ("2 names that stand twice", twins()),
    ("3 loops over a range, or with a count beside them", lines(r"\bfor [^{]* in [^{]*\.\.|\bwhile\b|[+-]= 1;")),
    ("4a equality and order", lines(r"\.(\w+)(\(\))? ==? \w+\.\1\b|\.(\w+) < \w+\.\3\b")),
    ("4b conversion and printing", lines(r"\bfn (equals|name|number|of|digit|value|yes_or_no|refused|widened|byte|new)\b|pub fn \w+\(self\) -> u(8|16|32)$")),
    ("5a facts that several functions require", facts()),
    ("5b parameters that travel together", together()),
    ("6 arrays in structs", lines(r"^\s+(pub )?\w+: \[.*; \w+\],$")),
    ("7 which step to run", lines(r"\bmatch \((kind|self\.kind)|Kind::\w+, i\)|\bif place (<|-)|else if place|count\(\w+::")),
    ("8 answers", answers()),
]

for title, found in POINTS:
    print(f"{title}: {len(found)}")
    if "-c" not in sys.argv:
        print("".join(f"    {line}\n" for line in found), end="")
