#!/usr/bin/env python3
"""Spells this repository's own definitions, fields and lemmas as its toolchain's library spells its: words in snake case, types in camel
case, a prime as an apostrophe.

usage: respell.py [--check] TOP

It goes over the .antt files below TOP/crates, the clauses and comments of the .rt files, the must-fail edits, and the code spans of TOP's
.md files. Names that the prover makes (goals, invariants, steps), names of Rust items, strings and outputs stay. --check writes nothing and
prints the table. Names that would fall together get the spelling that FORCED gives them.
"""

import os
import re
import sys

WORD = re.compile(r"[^\s(){}.;,@\"«»⌜⌝|\[\]`]+")
HEADS = r"(?:abbrev|unfoldable|inline|pub|record|data|inductive|ruleset|constructor|let|mutual|where)"
DECL = re.compile(rf"^[ \t]*(?:{HEADS}[ \t]+)*([^\s(){{}}.;,@\"«»|\[\]:=]+)(?:[ \t]+[({{][^:]*?:.*?[)}}])*[ \t]*:(?=[ \t\n])", re.M)
GOAL = re.compile(r"^[ \t]*(?:abbrev[ \t]+)?(?:pub[ \t]+)?(\S+)[ \t]*:[ \t]*(?:goal|given|need|rule)\.", re.M)

# Names whose spelling does not follow from the rule. A lemma that would have the name of the function whose contract it proves ends in _lem.
FORCED = {
    "AllGot": "AllGotProper",
    "is-parted": "is_parted_lem",
    "Param-or": "param_or",
    "Proc-or": "proc_or",
    "C-of": "cell_in",
    "writes→reads": "writes→reads",
}
PROVES = """cases-hold causes-are-refused cells-hold-numbers homes-are-inside layouts-are-read listing-tells literals-are-numbers names-tell
numbers-are-within refusals-have-causes tokens-are-longest"""
FORCED |= {n: n.replace("-", "_") + "_lem" for n in PROVES.split()}

# Names that begin with a capital and are no types.
LEMMAS = re.compile(r"^(?:T[-_].*)$")


def files(top, *ends):
    for folder, dirs, names in os.walk(top):
        dirs[:] = sorted(d for d in dirs if d not in ("out", "target", ".git"))
        for n in sorted(names):
            if n.endswith(ends):
                yield os.path.join(folder, n)


def read(path):
    with open(path, encoding="utf-8") as f:
        return f.read()


def bare(text):
    """An .antt text without comments and strings."""
    return re.sub(r'"(?:[^"\\\n]|\\.)*"|(?<![^\s(){}.;,])--[^\n]*', " ", text)


def spelt(name):
    if name in FORCED:
        return FORCED[name]
    name = name.replace("′", "'")
    if name[:1].isupper() and not LEMMAS.match(name):
        parts = re.split(r"[-_]", name)
        if len(parts) == 1:
            return name
        return "".join(p[:1].upper() + p[1:] for p in parts)
    if re.match(r"is[A-Z][a-z]+$", name):
        name = "is_" + name[2:].lower()
    return name.replace("-", "_")


def declared(top):
    names, goals = {}, set()
    for path in files(os.path.join(top, "crates"), ".antt"):
        text = bare(read(path))
        made = set(GOAL.findall(text))
        goals |= made
        for n in DECL.findall(text):
            if n not in made and n not in ("use",) and re.match(r"[A-Za-z]", n):
                names.setdefault(n, path)
    return names, goals


def table(top):
    names, goals = declared(top)
    rows = {}
    for n in names:
        if n in goals:
            continue
        new = spelt(n)
        if new != n:
            rows[n] = new
    return rows, goals


def words(top):
    found = set()
    for path in files(os.path.join(top, "crates"), ".antt"):
        found |= set(WORD.findall(bare(read(path))))
    return found


def turn(text, rows):
    return WORD.sub(lambda m: rows.get(m.group(0), m.group(0)), text)


def turn_antt(text, rows):
    made = set(GOAL.findall(text))
    out, at = [], 0
    for m in re.finditer(r'"(?:[^"\\\n]|\\.)*"', text):
        out.append(turn_code(text[at : m.start()], rows, made))
        out.append(m.group(0))
        at = m.end()
    out.append(turn_code(text[at:], rows, made))
    return "".join(out).replace("′", "'")


def turn_code(text, rows, made):
    def new(m):
        w = m.group(0)
        if w not in rows or w in made:
            return w
        before = text[max(0, m.start() - 12) : m.start()]
        if re.search(r"(?:^|[\s(,])(?:c|w|goal|given|need)\.$", before):
            return w
        return rows[w]

    return WORD.sub(new, text)


CLAUSE = re.compile(r"\b(?:requires|ensures)\b\s*\*?\s*(?:\w+\s*)?\{|\bghost\s+\w+\s*(?::|=)\s*\{|\bghost\s*\{|\bghost use\b")


def turn_rt(text, rows):
    out, at = [], 0
    while True:
        m = CLAUSE.search(text, at)
        if not m:
            break
        out.append(turn_comments(text[at : m.start()], rows))
        if m.group(0).startswith("ghost use"):
            end = text.index(";", m.end()) + 1
        else:
            depth, end = 1, m.end()
            while depth:
                depth += {"{": 1, "}": -1}.get(text[end], 0)
                end += 1
        out.append(turn(text[m.start() : end], rows))
        at = end
    out.append(turn_comments(text[at:], rows))
    return "".join(out)


def turn_comments(text, rows):
    dashed = {k: v for k, v in rows.items() if "-" in k}
    return re.sub(r"//[^\n]*", lambda m: re.sub(r"`[^`]*`", lambda s: turn(s.group(0), dashed), m.group(0)), text)


def turn_md(text, rows):
    return re.sub(r"`[^`\n]*`", lambda m: turn(m.group(0), rows), text)


def main(argv):
    check = "--check" in argv
    top = [a for a in argv if not a.startswith("--")][0]
    rows, goals = table(top)
    if check:
        have = words(top)
        back = {}
        for old, new in sorted(rows.items()):
            back.setdefault(new, []).append(old)
        for old, new in sorted(rows.items()):
            print(old, new, sep="\t")
        for new, olds in sorted(back.items()):
            if len(olds) > 1 or new in have:
                print("together:", new, *olds, "(stands already)" if new in have else "")
        return 0
    for path in files(top, ".antt", ".rt", ".md", ".edit"):
        if os.path.join(top, "reference") in path or "/docs/port" in path.lower():
            continue
        text = read(path)
        if path.endswith(".antt"):
            now = turn_antt(text, rows)
        elif path.endswith(".rt"):
            now = turn_rt(text, rows)
        elif path.endswith(".md"):
            now = turn_md(text, rows)
        else:
            now = turn(text, {k: v for k, v in rows.items() if "-" in k or k[0].isupper()}) if "specs/" in text.split("\n")[0] else text
        if now != text:
            with open(path, "w", encoding="utf-8") as f:
                f.write(now)
    return 0


if __name__ == "__main__":
    raise SystemExit(main(sys.argv[1:]))
