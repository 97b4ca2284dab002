#!/usr/bin/env python3
"""Brings the repository's own definitions and lemmas to the spelling of the Rattle of docs/PORT.md: words in snake case.

    python3 tools/respell.py        at the top, once, right after the kit's port.py and before any edit by hand

A word like `stepDone` becomes `step_done`, in specs/, proofs/ and the clauses and comments of src/. Functions of src/ have that
spelling already; strings stay. Where a lemma, respelled by port.py, would then have a definition's name in one file, the lemma
gets back its dash. (`aWrite` and the like become `a_write`; `gRPC` is no name.)
"""
import os
import re

# Lemmas and a constructor that stood beside a definition of the same words: `as-is` beside `asIs`, and so on.
DASHES = "as_is by_lines found_number is_digit no_write out_of_range pair_line stream_at too_large writes_line".split()
STAY = {"gRPC"}
STRING = re.compile(r'("(?:\\.|[^"\\])*")')
CAMEL = re.compile(r"(?<![\w'])[a-z][a-z0-9_]*[A-Z][A-Za-z0-9_]*(?![\w])")
LEMMA = re.compile(r"(?<![\w'.·#-])(" + "|".join(DASHES) + r")(?![\w'-])")


def snake(found):
    name = found[0]
    if name in STAY:
        return name
    return re.sub(r"(?<=[a-z0-9])[A-Z]", lambda m: "_" + m[0].lower(), name)


def turned(text, antt):
    parts = STRING.split(text)
    for i in range(0, len(parts), 2):
        if antt:
            parts[i] = LEMMA.sub(lambda m: m[1].replace("_", "-"), parts[i])
        parts[i] = CAMEL.sub(snake, parts[i])
    return "".join(parts)


def main():
    changed = 0
    for folder, folders, files in os.walk("crates"):
        folders[:] = [name for name in folders if name != "out"]
        for name in files:
            if not name.endswith((".rt", ".antt")):
                continue
            path = os.path.join(folder, name)
            with open(path, encoding="utf-8") as f:
                text = f.read()
            new = turned(text, name.endswith(".antt"))
            if new != text:
                with open(path, "w", encoding="utf-8") as f:
                    f.write(new)
                changed += 1
    print(f"respell: {changed} files changed")


if __name__ == "__main__":
    main()
