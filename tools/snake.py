#!/usr/bin/env python3
"""Names of definitions and lemmas in snake case, as today's Rattle has them: a name that begins with a small letter and has a capital in it
(`takeAt`, `saidU32`) is written `take_at`, `said_u32`; types, modules and variants, which begin with a capital, stay.

usage: tools/snake.py          over crates/ (.antt files, the clauses and comments of .rt files, edits), docs/, README.md and tools that name them

Says every name whose new spelling stands in a file beside it (`meets:`), and writes nothing then.
"""

import os
import re
import sys

NAME = re.compile(r"(?<![\w'-])[a-z\u2080-\u2089][\w']*(?:-[\w']+)*")
FREE = re.compile(r"(?<![\w'.-])[a-z\u2080-\u2089][\w']*(?:-[\w']+)*")
STRING = re.compile(r'b?"(?:[^"\\\n]|\\.)*"')
TOP = os.path.dirname(os.path.dirname(os.path.realpath(__file__)))
# A definition whose new spelling is that of a lemma of Rattle's.
APART = {"takeAt": "taken_at"}
# Lemmas whose spelling is the new one of the definition that they speak of, with the files that name them.
LEMMAS = {
    "trim_start": ("trim_start-whole", ("text/proofs/TrimLaws.antt", "policy_text/proofs/Tokens.antt")),
    "trim_end": ("trim_end-whole", ("text/proofs/TrimLaws.antt", "policy_text/proofs/Tokens.antt")),
    "by_rank": ("by_rank-order", ("keyed/proofs/Missing.antt",)),
    "listed_by": ("listed_by-faulty", ("promises/proofs/Refusals.antt",)),
    "plain_by": ("plain_by-faulty", ("promises/proofs/Refusals.antt",)),
    "told_at": ("told_at-spares", ("promises/proofs/Refusals.antt",)),
    "none_above": ("none_above-each", ("clean/proofs/Tabled.antt",)),
    "part_bytes": ("part_bytes-fit", ("conform/proofs/Parts.antt", "conform/proofs/Sound.antt")),
}


def snake(name):
    if name in APART:
        return APART[name]
    return re.sub(r"(?<=[a-z0-9'])([A-Z])", lambda m: "_" + m[1].lower(), name).replace("\u2032", "'")


def camel(name):
    return name[0].islower() and any(c.isupper() for c in name) and not re.search(r"[-_][A-Z]", name)


def texts(folder, endings):
    for at, folders, files in os.walk(os.path.join(TOP, folder)):
        folders[:] = sorted(f for f in folders if f != "out")
        for f in sorted(files):
            if f.endswith(endings):
                yield os.path.join(at, f)


def read(path):
    with open(path, encoding="utf-8", newline="") as f:
        return f.read()


def main():
    said = {p: read(p) for p in texts("crates", (".antt",))}
    words = {p: set(FREE.findall(re.sub(r"--[^\n]*", "", t))) - {n for n, (_, at) in LEMMAS.items() if p.endswith(at)} for p, t in said.items()}
    turn = {w: snake(w) for t in said.values() for w in NAME.findall(t) if camel(w)}
    news = list(turn.values())
    meets = [(p, w) for p, ws in words.items() for w in sorted(ws) if w in turn and (turn[w] in ws or news.count(turn[w]) > 1)]
    for p, w in meets:
        print(f"meets: {os.path.relpath(p, TOP)}: {w} {turn[w]}")
    if meets:
        return 1
    count = 0
    for path in [*texts("crates", (".antt", ".rt", ".edit")), *texts("docs", (".md",)), os.path.join(TOP, "README.md")]:
        text = read(path)
        lemmas = {n: new for n, (new, at) in LEMMAS.items() if path.endswith(at)}

        def change(m):
            free = m.start() == 0 or m.string[m.start() - 1] != "."
            return lemmas[m[0]] if free and m[0] in lemmas else turn.get(m[0], m[0])

        if path.endswith(".rt"):
            # a string of the program is its output: it stays
            ends, parts = 0, []
            for m in STRING.finditer(text):
                parts += [NAME.sub(change, text[ends : m.start()]), m[0]]
                ends = m.end()
            new = "".join([*parts, NAME.sub(change, text[ends:])])
        else:
            new = NAME.sub(change, text)
        if new != text:
            count += 1
            with open(path, "w", encoding="utf-8", newline="") as f:
                f.write(new)
    print(f"turned: {len(turn)} names in {count} files")
    return 0


if __name__ == "__main__":
    sys.exit(main())
