#!/usr/bin/env python3
"""Counts, in a tree of this repository, the places that docs/DESIGN-PASS.md speaks of.

    tools/design_counts.py [TOP] [--list]

With --list each place is printed. Tests (src/tests.rt) and what ends in .txt are left out.
"""
import re
import sys
from collections import Counter
from itertools import combinations
from pathlib import Path

args = [a for a in sys.argv[1:] if not a.startswith("--")]
TOP = Path(args[0] if args else ".")
LIST = "--list" in sys.argv
SOURCES = sorted(p for p in TOP.glob("crates/*/src/**/*.rt") if p.name != "tests.rt")


def say(what, places):
    print(f"{len(places):5}  {what}")
    if LIST:
        for place in places:
            print(f"         {place}")


def lines(pattern):
    found = []
    for path in SOURCES:
        for number, line in enumerate(path.read_text().splitlines(), 1):
            if re.search(pattern, line):
                found.append(f"{path.relative_to(TOP)}:{number}: {line.strip()}")
    return found


def functions():
    """Each function with its crate and the names of its parameters."""
    for path in SOURCES:
        text = path.read_text()
        for match in re.finditer(r"\bfn (\w+)(?:<[^>]*>)?\((.*?)\)(?: ->|\s)", text, re.S):
            parts = re.split(r",\s*(?![^<\[(]*[>\])])", match.group(2))
            names = [p.strip().split(":")[0].replace("&mut ", "&") for p in parts if p.strip()]
            yield path, match.group(1), names


def repeated_facts():
    """The facts that three or more `requires` of one crate ask."""
    count = Counter()
    for path in SOURCES:
        crate = path.relative_to(TOP).parts[1]
        for match in re.finditer(r"requires (?:\w+ )?\{ (.*?) \}\n", path.read_text()):
            count[crate, match.group(1)] += 1
    return [f"{n} times in {crate}: {fact}" for (crate, fact), n in count.most_common() if n >= 3]


def travelling():
    """Three parameters that stand together in four or more functions of one crate."""
    count = Counter()
    for path, _, names in functions():
        crate = path.relative_to(TOP).parts[1]
        for three in combinations(sorted(set(names)), 3):
            count[crate, three] += 1
    return [f"{n} functions of {crate}: {', '.join(three)}" for (crate, three), n in count.most_common() if n >= 4]


def proof_lines(name):
    total = 0
    for path in TOP.glob("crates/*/proofs/**/*.antt"):
        if (path.name == name) if name else path.name not in ("Answers.antt", "Invariants.antt"):
            total += len(path.read_text().splitlines())
    return total


say("enums", lines(r"^(pub(\(crate\))? )?enum "))
say("fields that are a bool", lines(r"^    (pub )?\w+: bool,"))
say("parameters that are a number for a kind or a rank", lines(r"\b(kind|rank): u(8|32)\b"))
say("functions whose result is a number without meaning", lines(r"^pub fn \w+\(\) -> u8"))
say("loops that count an index", lines(r"^ *while .*[<>]|^ *for \w+ in .*\.\."))
say("equality by the discriminant", lines(r"as u8 =="))
say("fields copied from one value to another of the same name", lines(r"^ +(\w+): \w+\.\1,"))
say("printed by a format of its own", lines(r"println!\(rt; \"refused"))
say("refusals written out", lines(r"Err\((Error::Refused\()?Fault \{"))
all_functions = list(functions())
say("functions", [f"{p.relative_to(TOP)}: {n}" for p, n, _ in all_functions])
say("functions of five parameters or more", [f"{p.relative_to(TOP)}: {n}" for p, n, s in all_functions if len(s) >= 5])
say("functions of seven parameters or more", [f"{p.relative_to(TOP)}: {n}" for p, n, s in all_functions if len(s) >= 7])
say("facts that three or more contracts of a crate ask", repeated_facts())
say("threes of parameters that travel together", travelling())
say("fields that are fixed arrays", lines(r"^    (pub )?\w+: \[.*; \w+\],"))
say("parameters that say which test or step to run", lines(r"\b(kind: Run|word: Tag|rank: u8)\b"))
print(f"{proof_lines('Answers.antt'):5}  lines of answers")
print(f"{proof_lines('Invariants.antt'):5}  lines of invariants and measures")
print(f"{proof_lines(''):5}  lines of lemmas")
