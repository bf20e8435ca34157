#!/usr/bin/env python3
"""Respells this repository's own names of definitions and lemmas.

usage: python3 tools/respell_names.py [ROOT]

Words are in snake case, types in camel case, a dash stands between two names alone, and a prime is an apostrophe. The table is
respelled_names.txt, a line 'OLD NEW' each. Names are whole words of antt, in .antt files and in the clauses and ghost items of .rt files;
strings stay. Run it once, after the kit's own port of the spelling.
"""

import os
import re
import sys

HERE = os.path.dirname(os.path.realpath(__file__))
PART = r"[\w'′·-]"


def table():
    with open(os.path.join(HERE, "respelled_names.txt"), encoding="utf-8") as lines:
        return dict(line.split() for line in lines if line.strip())


def main(root):
    names = table()
    words = re.compile(r'"(?:[^"\\\n]|\\.)*"|(?<!' + PART + r")(?:" + "|".join(sorted(map(re.escape, names), key=len, reverse=True)) + r")(?!" + PART + r")")
    changed = 0
    for folder, dirs, files in os.walk(os.path.join(root, "crates")):
        dirs[:] = sorted(d for d in dirs if d != "out")
        for name in sorted(files):
            if not name.endswith((".rt", ".antt")):
                continue
            path = os.path.join(folder, name)
            with open(path, encoding="utf-8") as source:
                text = source.read()
            new = words.sub(lambda m: names.get(m.group(0), m.group(0)), text)
            if new != text:
                changed += 1
                with open(path, "w", encoding="utf-8") as target:
                    target.write(new)
    print(f"{changed} files respelled by {len(names)} names")


main(sys.argv[1] if len(sys.argv) > 1 else os.path.dirname(HERE))
