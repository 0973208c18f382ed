#!/usr/bin/env python3
"""Brings the names of our own definitions and lemmas to the spelling of today's Rattle: words in snake case, facts in camel case.

usage: tools/respell.py        at the top of the repository, right after port.py, once

Definitions: isAllowed becomes is_allowed. Lemmas: a dash stays before the name of a definition, as in length-padded, and joins no plain word,
as in decimal_long. A lemma that would have its definition's name gets _lem. Names of src/ stay.
"""

import os
import re
import sys

TOKEN = re.compile(r"[^\s(){}\[\];,.\"`«»|]+")
DECLARED = re.compile(r"^\s*((?:(?:abbrev|unfoldable|pub|data|record|mutual)\s+)*)([^\s(){}\[\];,.\"]+)((?:\s+[({].*?[)}])*)\s+:\s(.*)$")
IMPORTED = re.compile(r"use\s+([^\s{]+)\.\{([^}]*)\}")
# facts with a small letter, and constants and constructors with a dash
BY_HAND = {
    "keyAsked": "KeyIsAsked", "routesAre": "RoutesAre", "few": "IsFew", "near": "IsNear",
    "OLD-STAMP": "OLD_STAMP", "FILED-SPEED": "FILED_SPEED", "GROUND-SPEED": "GROUND_SPEED", "TRACK-LEVEL": "TRACK_LEVEL",
    "TZ-IDENT": "TZ_IDENT", "PLAN-TIME": "PLAN_TIME", "OLD-AIRCRAFT": "OLD_AIRCRAFT", "OLD-CONTENT": "OLD_CONTENT", "Minutes-of": "MinutesOf",
}
ONLY_IN = {"few": "crates/dayfile/proofs/Files.antt", "near": "crates/dayfile/proofs/Files.antt"}
# lemmas that already read like a definition's new name, and where they stand or are brought in
LEMMAS = {
    "all_none": ["crates/messages/proofs/Bodies.antt"], "row_words": ["crates/board/proofs/RowWords.antt", "crates/board/proofs/Words.antt"],
    "read_answer": ["crates/fields/proofs/Answers.antt"], "goes_on": ["crates/keeper/proofs/Passes.antt"],
    "two_at": ["crates/dayfile/proofs/Files.antt", "crates/dayfile/proofs/Bytes.antt"], "is_block": ["crates/rules/proofs/Levels.antt"],
}
# words of std that a lemma's name may join by a dash
STD = {"length", "drop", "take", "get_or", "set", "replicate", "map", "reverse", "append"}


def files():
    for folder, dirs, names in os.walk("crates"):
        dirs[:] = sorted(d for d in dirs if d != "out")
        for n in sorted(names):
            if n.endswith((".antt", ".rt")):
                yield os.path.join(folder, n)


def is_camel(t):
    return re.match(r"^[a-z]", t) is not None and re.search(r"[A-Z]", t) is not None


def snake(part):
    if not is_camel(part):
        return part
    return re.sub(r"_?([A-Z])", lambda m: "_" + m.group(1).lower(), part)


def main():
    texts = {p: open(p, encoding="utf-8").read() for p in files()}
    ours, specs, kit, goals = set(), set(), {}, set()
    for p, t in texts.items():
        kit[p] = set()
        for m in IMPORTED.finditer(t):
            if not re.match(r"Rattle\.(?!std\b|core\b|io\b|os\b|libc\b|check\b)", m.group(1)):
                kit[p] |= {w.strip().split(" as ")[0] for w in m.group(2).split(",")}
        if not p.endswith(".antt"):
            continue
        for line in t.splitlines():
            if line.strip().startswith("--"):
                continue
            m = DECLARED.match(line)
            if not m:
                continue
            if m.group(4).startswith(("tie.", "goal.", "need.", "needs.")) and "/proofs/" in p:
                goals.add(m.group(2))
                continue
            ours.add(m.group(2))
            if "/specs/" in p:
                specs.add(m.group(2))
    everything = set().union(*kit.values())
    ours -= goals
    names = {snake(n) for n in specs if "-" not in n} | STD

    def dashed(t):
        parts = [snake(q) for q in t.split("-")]
        out, last = parts[0], parts[0]
        for q in parts[1:]:
            out += ("-" if last in STD and q in names and not t.endswith("-spec") else "_") + q
            last = q
        return out

    defs = {snake(n) for n in specs | ours if "-" not in n}
    table = dict(BY_HAND)
    for t in {w for x in texts.values() for w in TOKEN.findall(x)}:
        if t in table or t in everything or not re.match(r"^[a-zA-Z]", t):
            continue
        if "-" in t and t in ours and not t.startswith("-"):
            new = dashed(t)
            table[t] = new + "_lem" if new in defs else new
        elif is_camel(t) and re.match(r"^[A-Za-z0-9_]+$", t):
            table[t] = snake(t)
        elif is_camel(t) and re.match(r"^[A-Za-z0-9_'-]+$", t) and t in ours:
            table[t] = dashed(t)
    table = {a: b for a, b in table.items() if a != b}
    back = {}
    for a, b in table.items():
        back.setdefault(b, []).append(a)
    for b, a in sorted(back.items()):
        if len(a) > 1:
            print(f"look: {b} stands for {', '.join(sorted(a))}")
    for p, t in texts.items():
        words = set(TOKEN.findall(t))
        for a in words & set(table):
            if table[a] in words and a not in kit[p]:
                print(f"look: {p}: {a} becomes {table[a]}, which stands there already")

    laws = {p: p == "crates/text/proofs/Laws.antt" or re.search(r"Rattle\.text\.proofs\.Laws\.\{[^}]*\bhas_room\b", t) is not None for p, t in texts.items()}

    def turned(p, line):
        rt = p.endswith(".rt")
        if rt and not (re.match(r"^\s*(ghost|requires|ensures)\b", line) or "//" in line or is_clause(line)):
            return line

        def put(m):
            w = m.group(0)
            before = line[m.start() - 1 : m.start()]
            if w == "has_room" and p == "crates/text/proofs/Examples.antt" and before == " " and not line.strip().startswith("--"):
                return "has-room"
            if w == "has_room" and laws[p] and before != "." and not line.strip().startswith("--"):
                return "has_room_lem"
            if w in LEMMAS and p in LEMMAS[w] and line[m.start() - 1 : m.start()] != "." and not line.strip().startswith("--"):
                return w + "_lem"
            if w in kit[p] or w not in table or (w in ONLY_IN and p != ONLY_IN[w]):
                return w
            return table[w]

        return TOKEN.sub(put, line)

    def is_clause(line):
        return any(is_camel(w) for w in TOKEN.findall(line))

    changed = 0
    for p, t in texts.items():
        new = "\n".join(turned(p, l) for l in t.split("\n"))
        if new != t:
            changed += 1
            with open(p, "w", encoding="utf-8") as f:
                f.write(new)
    with open(sys.argv[1], "w", encoding="utf-8") if len(sys.argv) > 1 else open(os.devnull, "w") as f:
        f.writelines(f"{a} {b}\n" for a, b in sorted(table.items()))
    print(f"respell: {len(table)} names, {changed} files")


main()
