#!/usr/bin/env python3
"""Gives the repository's own definitions and lemmas the spelling of today's Rattle.

usage: python3 tools/spelling.py    at the top, once, on what the kit's port.py left

names.tsv beside it has a line for each name: old, new. A name is replaced where it stands as a whole
word: in .antt files and must-fail edits everywhere, in .rt files outside strings. Names that fell
together with a definition's are in LEMMAS, by file; they end in _lem.
"""
import os
import re

HERE = os.path.dirname(os.path.realpath(__file__))
WORD = re.compile(r"[A-Za-z_][A-Za-z0-9_']*(?:-[A-Za-z0-9_']+)*")
STRING = re.compile(r'"(?:[^"\\\n]|\\.)*"')
LEMMAS = {
    "closed_at": ["run/proofs/Validity.antt"],
    "closed_run": ["run/specs/Grown.antt", "run/proofs/Grown.antt", "demands/proofs/Demand3.antt"],
    "end_read": ["rule_text/proofs/RoundTrips.antt"],
    "flag_at": ["judge/proofs/Activations.antt", "judge/proofs/scan/next_activation/Proof.antt"],
    "has_room": ["demands/proofs/Lines.antt", "declare/proofs/Occurrences.antt"],
    "in_order": ["cycle_text/proofs/Turns.antt", "cycle_text/proofs/read_cycle/Proof.antt"],
    "in_reach": ["formula/proofs/Reaches.antt", "judge/proofs/Judged.antt", "judge/proofs/cells/judge/Proof.antt"],
    "in_use": ["standings/proofs/Places.antt", "standings/proofs/Changes.antt", "run/proofs/Grown.antt", "run/proofs/Places.antt"],
    "one_more": ["standings/proofs/Counts.antt"],
    "two_digits": ["demands/proofs/Printed.antt"],
}


def turned(text, names):
    return WORD.sub(lambda m: names.get(m.group(), m.group()), text)


def outside_strings(text, names):
    parts, at = [], 0
    for m in STRING.finditer(text):
        parts += [turned(text[at : m.start()], names), m.group()]
        at = m.end()
    return "".join(parts + [turned(text[at:], names)])


def main():
    with open(os.path.join(HERE, "names.tsv"), encoding="utf-8") as f:
        names = dict(line.rstrip("\n").split("\t") for line in f)
    for folder, dirs, files in os.walk("crates"):
        dirs[:] = [d for d in dirs if d != "out"]
        for file in files:
            path = os.path.join(folder, file)
            if not path.endswith((".antt", ".rt", ".edit")):
                continue
            with open(path, encoding="utf-8") as f:
                text = f.read()
            lemmas = {n: n + "_lem" for n, where in LEMMAS.items() if path[len("crates/") :] in where}
            if path.endswith(".rt"):
                new = outside_strings(text, names)
            else:
                new = turned(turned(text, lemmas), names)
            if new != text:
                with open(path, "w", encoding="utf-8") as f:
                    f.write(new)


main()
