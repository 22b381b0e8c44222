#!/usr/bin/env python3
"""Brings the names of definitions and lemmas to the spelling of today's Rattle: words in snake case.

usage: python3 tools/snake_names.py      at the top of the repository, once, after /opt/rattle/port/port.py

A name that an .antt file of crates/ declares with a small first letter and a capital within (floorDiv, natAbs-neg) gets
snake case in each part (floor_div, nat_abs-neg), in every .antt file, in the clauses and ghost items of every .rt file, in the
edits and in the pages that speak of today's names.
Types, facts and modules keep their capitals; a fact with a small first letter (byFirst) gets a capital one. Names from src/
keep their spelling. Two names that would fall together, or a new name that is declared already, stop the script.
"""

import collections
import glob
import re
import sys

FACTS = {"byFirst": "ByFirst", "byLeast": "ByLeast"}
# Lemmas that would have the new name of a definition, by the files in which they are meant: they get _lem.
LEMMAS = {
    "bare_of": ["sheet/proofs/Forms", "sheet/proofs/Sheets"],
    "by_rank": ["foremost/proofs/Order"],
    "columns_of": ["solver/proofs/Outcomes", "solver/proofs/Ended", "placed/proofs/Firstly"],
    "cut_by": ["fillings/proofs/Costs"],
    "digits_in": ["fillings/proofs/Runs", "fillings/proofs/Keys"],
    "high_end": ["prepare/proofs/Nearer"],
    "in_group": ["fillings/proofs/Runs"],
    "in_order": ["ordering/proofs/Insertion", "ordering/proofs/Order", "foremost/proofs/Covering", "relaxation/proofs/Demands", "relaxation/specs/Demands"],
    "is_open": ["prepare/proofs/Nearer"],
    "item_in": ["model/proofs/Records"],
    "moved_at": ["places/proofs/Steps", "search/proofs/step/Proof"],
    "shut_at": ["fillings/proofs/leap/Proof"],
    "some_item": ["watching/proofs/Watching", "watching/proofs/fall_item/Proof"],
}
# Fields that have the new name of a definition: a field is read with a dot, so the two do not meet.
FIELDS = {"first_step", "in_order", "item_in", "no_steps", "whole_in"}
DECLARED = re.compile(r"^\s*(?:(?:abbrev|unfoldable|infix\w*)\s+)*(?:pub\s+)?(?:(?:record|data)\s+)?([^\s:(){}]+)(?:\s+[({][^:]*:[^:]*?[)}])*\s*:\s")
TOKEN = re.compile(r"[^\s(){}\[\].;,\"λ=→×⌜⌝]+")
MORE = {"dropList", "needsWord", "plainItem", "recordItem"}


def snake(name):
    if name in FACTS and FACTS[name]:
        return FACTS[name]
    parts = re.split(r"(-)", name)
    return "".join(re.sub(r"_?([A-Z])", lambda m: "_" + m.group(1).lower(), p) if p and p[0].islower() else p for p in parts)


def texts():
    return sorted(glob.glob("crates/*/specs/**/*.antt", recursive=True) + glob.glob("crates/*/proofs/**/*.antt", recursive=True))


def declared():
    names = set()
    for path in texts():
        for line in open(path, encoding="utf-8"):
            m = DECLARED.match(line)
            if m and not line.lstrip().startswith(("--", "use ")):
                names.add(m.group(1))
    return names


def turn_code(line, names):
    return TOKEN.sub(lambda m: names.get(m.group(0), m.group(0)), line)


def turn_antt(text, names):
    out = []
    for line in text.split("\n"):
        # a comment names the definitions, too
        out.append(turn_code(line, names))
    return "\n".join(out)


def turn_rt(text, names):
    """Clauses, ghost items and comments: no function, field or local of src/ has a capital within."""
    return re.sub(r"[A-Za-z_][\w'-]*", lambda m: names.get(m.group(0), m.group(0)), text)


def main():
    all_names = declared()
    camel = {n for n in all_names if re.search(r"(^|-)[a-z][a-z0-9_]*[A-Z]", n)} | {n for n in MORE}
    names = {n: snake(n) for n in camel if snake(n) != n}
    twice = [n for n, k in collections.Counter(names.values()).items() if k > 1]
    held = sorted(n for n, t in names.items() if t in all_names and t not in LEMMAS and t not in FIELDS)
    if twice or held:
        print("fall together:", twice, held)
        return 1
    for path in texts():
        old = open(path, encoding="utf-8").read()
        lemmas = {n: n + "_lem" for n, where in LEMMAS.items() if any(path == f"crates/{w}.antt" for w in where)}
        new = turn_antt(old, names | lemmas)
        if new != old:
            open(path, "w", encoding="utf-8").write(new)
    for path in sorted(glob.glob("crates/*/src/**/*.rt", recursive=True)):
        old = open(path, encoding="utf-8").read()
        new = turn_rt(old, names)
        if new != old:
            open(path, "w", encoding="utf-8").write(new)
    others = glob.glob("crates/*/must-fail/*.edit") + glob.glob("bench/edits/**/*.edit", recursive=True)
    others += ["docs/ARCHITECTURE.md", "docs/PROMISES.md", "CONTRIBUTING.md"]
    for path in sorted(others):
        old = open(path, encoding="utf-8").read()
        new = turn_rt(old, names)
        if new != old:
            open(path, "w", encoding="utf-8").write(new)
    print(len(names), "names")
    return 0


if __name__ == "__main__":
    sys.exit(main())
