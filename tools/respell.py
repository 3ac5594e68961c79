#!/usr/bin/env python3
"""Respells the definitions and lemmas of specs/ as today's Rattle spells them: words in snake case, and a dash only between two names.

    tools/respell.py        at the top of the repository, once, after the kit's port.py

It goes by whole names in specs/, proofs/ and the clauses of src/; text in quotes stays as it is, and so do names of src/ and the steps that the
kit names in proofs/. Run again, it changes nothing.
"""
import glob
import re

# Words that std has and names of this repository lean on; a dash before or after one of them joins two names.
STD = set("length map append sum get_or min max le lt suc zero cons nil add mul sub div mod eq drop take count reverse set filter all".split())

# Where two names would fall together, the lemma or the local one gets another word.
APART = {
    "body_bytes": ("crates/sheet/specs/Written.antt", "body_all_bytes"),
    "note-of": (None, "note_is"),
    "over-in": (None, "over_inside"),
    "sent-of": (None, "sent_count_of"),
    "step_count": ("crates/intake/specs/Intake.antt", "step_length"),
    "taken_at": ("crates/exact/specs/Slot.antt", "taken_there"),
}

DECLARED = re.compile(
    r"^ *((?:pattern |unfoldable |abbrev |pub |record |data )*)([^\s:{}();.,=↦|λ\[\]]+)(?: \{[^}]*\})*((?: +[({].*)? *) :( |$)"
)
TOKEN = re.compile(r"[^\s(){}.,;:\[\]@\"]+")
QUOTED = re.compile(r'"(?:[^"\\]|\\.)*"')


def snake(word):
    return re.sub(r"(?<=[a-z0-9])([A-Z])", lambda m: "_" + m.group(1).lower(), word)


def declared(files):
    names = set()
    for file in files:
        for line in open(file):
            m = DECLARED.match(line)
            if m and not re.match(r" *(use|let|mod)\b", line):
                names.add(m.group(2))
    return names


def respelt(names):
    known = {snake(n) for n in names if "-" not in n} | STD
    table = {}
    for name in names:
        if name[0].isupper() or not ("-" in name or re.search(r"[a-z][A-Z]", name)):
            continue
        parts = [snake(p) if p[:1].islower() else p for p in name.split("-")]
        spelt = parts[0]
        for left, right in zip(parts, parts[1:]):
            joins = (left in known or left[:1].isupper()) and (right in known or right[:1].isupper())
            spelt += ("-" if joins else "_") + right
        if spelt != name:
            table[name] = spelt
    return table


def turn(text, table):
    return TOKEN.sub(lambda m: table.get(m.group(0), m.group(0)), text)


def turned(file, table):
    text = open(file).read()
    if not file.endswith(".rt"):
        return turn(text, table)
    out, at = "", 0
    for m in QUOTED.finditer(text):
        out += turn(text[at : m.start()], table) + m.group(0)
        at = m.end()
    return out + turn(text[at:], table)


def run():
    specs = sorted(glob.glob("crates/*/specs/**/*.antt", recursive=True))
    files = specs + sorted(glob.glob("crates/*/proofs/**/*.antt", recursive=True)) + sorted(glob.glob("crates/*/src/*.rt"))
    names = declared(specs)
    table = respelt(names)
    table.update({name: other for name, (where, other) in APART.items() if where is None and name in names})
    count = 0
    for file in files:
        here = dict(table)
        here.update({name: other for name, (where, other) in APART.items() if where == file and name in table.values()})
        text = turned(file, here)
        if text != open(file).read():
            open(file, "w").write(text)
            count += 1
    print(f"respell: {len(table)} names, {count} files")
    return count


# A name that was respelt can part two others, so it goes on until nothing changes.
while run():
    pass
