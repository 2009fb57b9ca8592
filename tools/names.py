#!/usr/bin/env python3
"""Respells names of definitions and lemmas by the table beside it, a name a line: old, a tab, new.

usage: python3 tools/names.py [ROOT]

Words in the files of specs/ and proofs/ and in the clauses of src/ turn; code spans of comments too. Functions, strings, inputs and
outputs keep their names. It runs the kit's script that respells by a table. It is for a repository as the kit's port.py leaves it: some
names of the table are today's names of goals.
"""
import os
import subprocess
import sys

HERE = os.path.dirname(os.path.realpath(__file__))
# `rt doc` prints the path of a page at the top of the kit
KIT = os.path.dirname(subprocess.run(["rt", "doc"], capture_output=True, text=True, check=True).stdout.strip())
SNAKE = os.path.join(KIT, "port", "notes", "2026-11-18-names-are-in-snake-case", "snake.py")
ROOT = sys.argv[1] if len(sys.argv) > 1 else os.path.dirname(HERE)
FOLDERS = sorted(os.path.join(ROOT, "crates", c) for c in os.listdir(os.path.join(ROOT, "crates")))
raise SystemExit(
    subprocess.run(
        [sys.executable, SNAKE, "--table", os.path.join(HERE, "names.tsv"), "--only", "antt,rt", "--prose", "none", *FOLDERS]
    ).returncode
)
