#!/usr/bin/env python3
"""scripts/counters.py: compares each integer field of the libraries' structs with the lines of counters.txt. Without it
a count could be refused, or begin anew, after so many events as no test makes, and nobody would have said at which
number its type ends and what happens there.

A line of counters.txt is `FILE STRUCT FIELD TYPE: KIND: REASON`. What a reason has in backticks stands in the sources
of its crate, so a bound that is moved is seen. A field that is `fixed` is assigned nowhere in its file. (What an enum
or a generic type holds isn't looked at, nor what the kit counts, such as the length of a list.)"""
import re
import sys
from collections import Counter

from common import TOP

KINDS = {
    "fixed": "it is set as the struct is made, and never changes",
    "moment": "a reading of a clock, or a tick, which a later one replaces",
    "key": "an index or a key, which others issue",
    "refused": "at its end a further event is refused",
    "saturates": "at its end it stays there",
    "wraps": "after its end it begins anew",
    "unreachable": "something else ends before it",
}
INTEGER = re.compile(r"\b(?:[iu](?:8|16|32|64|128|size)|Atomic[IU]\w+)\b")
STRUCT = re.compile(r"^(?:pub(?:\([^)]*\))? )?struct (\w+)\b[^;{(]*(?:\{\n(.*?)^\}|\((.*?)\);)", re.M | re.S)
FIELD = re.compile(r"^ {4}(?:pub(?:\([^)]*\))? )?(\w+): (?!PhantomData)(.+),$", re.M)
LINE = re.compile(r"^(\S+ \w+ \w+ [^:]+(?:::[^:]+)*): (\w+): (\w.+)$", re.M)

fields, bad, crates = [], [], {}
for file in sorted(TOP.glob("crates/tower*/src/**/*.rt")):
    if "tower_bench" in file.parts:
        continue
    text, place = file.read_text(encoding="utf-8"), file.relative_to(TOP / "crates")
    crates[place.parts[0]] = crates.get(place.parts[0], "") + " ".join(text.split())
    for struct, body, alone in STRUCT.findall(text):
        members = [("0", alone)] if alone else FIELD.findall(body)
        fields += [f"{place} {struct} {name} {of}" for name, of in members if INTEGER.search(of)]
listed = (TOP / "scripts/counters.txt").read_text(encoding="utf-8")
lines = LINE.findall(listed)
for place, kind, reason in lines:
    file, _, name, _ = place.split(" ", 3)
    bad += [f"no such kind: {kind} of {place}"] * (kind not in KINDS)
    sources = crates.get(file.partition("/")[0], "")
    bad += [f"{place}: not in the sources: {it}" for it in re.findall("`(.+?)`", reason) if it not in sources]
    if kind == "fixed" and place in fields:
        assigned = re.search(rf"\.{name}(?:\[\w+\])? [-+*/]?= ", (TOP / "crates" / file).read_text(encoding="utf-8"))
        bad += [f"{place} is assigned: {assigned.group()}"] if assigned else []
told = Counter(place for place, _, _ in lines)
bad += [f"no line in counters.txt: {it}" for it in (Counter(fields) - told).elements()]
bad += [f"no such field: {it}" for it in (told - Counter(fields)).elements()]
bad += ["counters.txt has a line of another form"] * (len(lines) != len(re.findall("^(?!#).+$", listed, re.M)))
kinds = Counter(kind for _, kind, _ in lines)
print(*bad, f"{len(fields)} integer fields: {', '.join(f'{kinds[it]} {it}' for it in KINDS)}", sep="\n")
sys.exit(bool(bad) or not fields)
