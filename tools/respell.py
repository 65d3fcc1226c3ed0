#!/usr/bin/env python3
"""The repository's own names in the spelling of today's Rattle, after port.py; run once, at the top.

A definition, a variable, a constructor or a field of an antt file is written in snake case; a constant has the spelling of its source.
A dash stays where it joins the parts of a lemma's name. Types, modules and the functions of src/ keep their names; the clauses over them are turned.
"""
import os
import re

# Definitions and fields whose words a dash held together. `decreases-loop` and `invariant-loop` are the checker's.
WORDS = """
at-gone met-later quotient-of with-sign
answer-is digits-pos first-great high-high high-low low-high low-low names-none not-above not-below second-great to-add to-eq to-new to-turn
answers-are at-most-64 board-is counts-handed-out counts-standing eq-zero-no eq-zero-yes found-is fraction-minus-zero fraction-nan int-spd
length-is level-angle level-radii lowest-of-least mean-of-none mean-of-one mean-of-opposites mean-of-zero names-one names-other near-one
no-angle no-meeting no-minus-zero none-meets not-small nothing-else of-fix orthogonal-of-x refused-keeps reply-is same-answers same-board
same-mean same-pick session-is side-equal-ends stream-is to-pi used-is
DBL-EPSILON FT-TO-M FULL-CIRCLE HALF-CIRCLE KM-TO-M KNOTS-TO-MPS KPH-TO-MPS NEG-HALF-CIRCLE NEG-QUARTER-CIRCLE NEG-UNIT-X NEG-UNIT-Y NEG-UNIT-Z
NM-TO-M QUARTER-CIRCLE TRIAGE-SIDE-EPS UNIT-X UNIT-Y UNIT-Z
""".split()

# The library's names, in must-fail edits that port.py leaves as they are.
LIBRARY = {"getD", "isNan", "ofBits", "toBits", "ofInt", "ofFields"}

TOKEN = re.compile(r"[A-Za-z][\w'-]*")


def snake(t):
    return re.sub(r"(?<=[a-z0-9])([A-Z])", lambda m: "_" + m[1].lower(), t)


def turned(m):
    t = m[0]
    if t in WORDS:
        return t.replace("-", "_")
    if t in LIBRARY or not re.match(r"[a-z][a-zA-Z0-9'-]*[a-z0-9][A-Z]", t):
        return t
    return snake(t)


def files():
    for folder, dirs, names in os.walk("crates"):
        dirs[:] = [d for d in dirs if d != "out"]
        for n in names:
            if n.endswith((".antt", ".rt", ".edit")):
                yield os.path.join(folder, n)


def main():
    n = 0
    for p in files():
        with open(p, encoding="utf-8") as f:
            old = f.read()
        new = TOKEN.sub(turned, old)
        if new != old:
            n += 1
            with open(p, "w", encoding="utf-8") as f:
                f.write(new)
    print(f"{n} files respelled")


if __name__ == "__main__":
    main()
