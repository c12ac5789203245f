#!/usr/bin/env python3
"""scripts/yields.py: compares each call of `yield_now` in the libraries with the lines of yields.txt. Without it a poll
could ask to be polled again where no clause forbids it, as in the wait of a latch, and nobody would have said why.

A line of yields.txt is `FILE FUNCTION: REASON | SEEN`: why this call may ask for another poll, and the test or script
that comes there (`-`: none does). It prints each call without a line, each line without a call, each file that isn't
there, and each `poll` beside a `step` that does more than that step."""
import re
import sys
from collections import Counter

from common import TOP

FUNCTION = re.compile(r"\bfn (\w+)|(\byield_now\()")
LINE = re.compile(r"^(\S+ \w+): .+ \| (\S+)$", re.M)

# A future's `poll`, which no clause keeps quiet, is its `step`, which one does.
POLL = re.compile(r"^    fn poll\(&mut self, cx.*?^    }\n", re.M | re.S)
STEP = "{\n        self.step(cx)\n    }\n"

calls, bad = Counter(), []
for file in sorted(TOP.glob("crates/tower*/src/**/*.rt")):
    if "tower_bench" in file.parts:
        continue
    text, name = file.read_text(encoding="utf-8"), ""
    polls = POLL.findall(text) if " Steps for " in text else []
    bad += [f"a poll that isn't one step: {file}" for poll in polls if not poll.endswith(STEP)]
    for function, call in FUNCTION.findall(re.sub("//.*", "", text)):
        name = function or name
        calls[f"{file.relative_to(TOP / 'crates')} {name}"] += bool(call)
text = (TOP / "scripts/yields.txt").read_text(encoding="utf-8")
told = LINE.findall(text)
lines = Counter(place for place, _ in told)
bad += [f"no line in yields.txt: {it}" for it in (+calls - lines).elements()]
bad += [f"no such call: {it}" for it in (lines - calls).elements()]
bad += [f"no such file: {it}" for _, it in told if it != "-" and not (TOP / it).is_file()]
bad += ["yields.txt has a line of another form"] * (len(told) != len(re.findall("^(?!#).+$", text, re.M)))
unseen = sum(it == "-" for _, it in told)
print(*bad, f"{calls.total()} calls of yield_now, {len(bad)} astray, {unseen} to which no test comes", sep="\n")
sys.exit(bool(bad) or not told)
