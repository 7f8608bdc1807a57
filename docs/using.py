#!/usr/bin/env python3
"""Compares the pieces of docs/USING.md with the files that they are taken from.

A piece is an indented block behind a comment with a file's name. It has to stand in that file, line for line, whatever the
indent. Ends with 1 where one doesn't.
"""
import re
import sys
import textwrap
from pathlib import Path

TOP = Path(__file__).resolve().parent.parent
PAGE = TOP / "docs" / "USING.md"
PIECE = re.compile(r"^<!-- (\S+) -->\n\n((?: {4}.*\n|\n)+)", re.M)


def lines_of(text):
    return [line.strip() for line in textwrap.dedent(text).strip("\n").split("\n")]


def stands_in(piece, whole):
    return any(whole[at : at + len(piece)] == piece for at in range(len(whole)))


failed = 0
pieces = PIECE.findall(PAGE.read_text())
for name, text in pieces:
    piece = lines_of(text)
    if not stands_in(piece, lines_of((TOP / name).read_text())):
        print(f"docs/using.py: a piece of {name} doesn't stand there: {piece[0]}")
        failed = 1
if len(pieces) < PAGE.read_text().count("<!-- "):
    print("docs/using.py: a comment with no piece behind it")
    failed = 1
sys.exit(failed)
