#!/usr/bin/env python3
"""scripts/columns.py: no clause of a library's src/ has a line longer than 100 columns. `rt fmt` keeps the line breaks
inside a clause and makes none, so without this a contract would grow to lines of 250 columns, which nobody reads in a
review. It prints those that are longer. Comments, `ghost use` and attributes, which `rt fmt` keeps in one line, aren't
meant."""
import re
import sys

from common import TOP

FILES = [it for it in sorted(TOP.glob("crates/tower*/src/**/*.rt")) if "tower_bench" not in it.parts]
LONG = re.compile(r"^(?! *(?://|#\[|ghost use)).{101,}$", re.M)
WIDE = [f"{file}: {it}" for file in FILES for it in LONG.findall(file.read_text(encoding="utf-8"))]
print(*WIDE, f"{len(FILES)} files, {len(WIDE)} lines too long", sep="\n")
sys.exit(bool(WIDE) or not FILES)
