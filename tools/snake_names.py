#!/usr/bin/env python3
"""Turns this repository's definitions and lemmas to today's spelling: words in snake case (setupCode is setup_code).

usage: python3 tools/snake_names.py [--list]      at the top of the repository, once, after port.py

A word is a name that begins with a small letter and has a capital later. It is turned in specs/, proofs/, the clauses and `ghost use` lines of
src/, and must-fail edits. Types, facts and modules begin with a capital and stay; so does a string, and all names of Rust source, which
have no such form. A name that would fall together with another in the same file is reported, and nothing is written.
"""

import os
import re
import sys

# Lemmas that would get the name of the definition that they are about: crate, name. Each gets _lem.
LEMMAS = [
    ("model", "numbers_fit"),
    ("model_shaped", "held_by"),
    ("model_shaped", "with_entries"),
    ("protocol", "all_held"),
    ("player_parts", "goes_on"),
    ("family_billiard", "step_fits"),
    ("setup_faults", "all_meet"),
    ("state_text", "last_line"),
]
WORD = re.compile(r"(?<![\w'])([a-z][a-z0-9]*(?:[A-Z][a-z0-9]*)+)(?![a-zA-Z0-9])")
STRING = re.compile(r'"(?:[^"\\\n]|\\.)*"')


def snake(name):
    return re.sub(r"[A-Z]", lambda m: "_" + m.group().lower(), name)


def files():
    for folder, dirs, names in os.walk("crates"):
        dirs[:] = sorted(d for d in dirs if d != "out")
        for n in sorted(names):
            if n.endswith((".antt", ".rt", ".edit")):
                yield os.path.join(folder, n)


def outside_strings(text, turn):
    """The text with turn applied to each part that is no string."""
    parts, end = [], 0
    for m in STRING.finditer(text):
        parts += [turn(text[end : m.start()]), m.group()]
        end = m.end()
    return "".join(parts) + turn(text[end:])


def main():
    texts = {p: open(p, encoding="utf-8").read() for p in files()}
    if "--list" in sys.argv:
        found = set()
        for t in texts.values():
            outside_strings(t, lambda s: [found.update(WORD.findall(s)), s][1])
        print("\n".join(f"{n} {snake(n)}" for n in sorted(found)))
        return 0
    for crate, name in LEMMAS:
        for p in texts:
            if p.startswith(f"crates/{crate}/proofs/") and p.endswith(".antt"):
                texts[p] = re.sub(rf"(?<![\w'.-]){name}(?![\w'-])", name + "_lem", texts[p])
    together = []
    for p, t in texts.items():
        camel = set()
        outside_strings(t, lambda s: [camel.update(WORD.findall(s)), s][1])
        for n in sorted(camel):
            if re.search(rf"(?<![\w'.-]){snake(n)}(?![\w'-])", t):
                together.append(f"{p}: {n} and {snake(n)}")
    if together and "--anyway" not in sys.argv:
        print("\n".join(together))
        return 1
    for p, t in texts.items():
        with open(p, "w", encoding="utf-8") as f:
            f.write(outside_strings(t, lambda s: WORD.sub(lambda m: snake(m.group(1)), s)))
    return 0


if __name__ == "__main__":
    raise SystemExit(main())
