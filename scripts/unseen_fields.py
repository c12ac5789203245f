#!/usr/bin/env python3
"""scripts/unseen_fields.py: the private fields of the libraries' structs that the view of their Model doesn't read, as
unseen_fields.txt lists them. Without it a struct could keep state that no contract sees, such as a key or a spare part,
and a body that is wrong in it alone would be proved.

A line of unseen_fields.txt is `FILE STRUCT: FIELD ..`. At the Model a comment says why, for each of these fields:
`// The view leaves out FIELDS: REASON`. A PhantomData has no bytes, and isn't looked at. Of a field that has fields of
its own it counts that one of them is read."""
import re
import sys

from common import TOP

STRUCT = re.compile(r"^(?:pub(?:\([^)]*\))? )?struct (\w+)\b[^;{(]*(?:\{\n(.*?)^\}|\((.*?)\);)", re.M | re.S)
MODEL = re.compile(r"^impl\b[^{]*?\bModel for (\w+)[^{]*\{\n(.*?)^\}", re.M | re.S)
FIELD = re.compile(r"^ {4}(?!pub )(?:pub\([^)]*\) )?(\w+): (?!PhantomData)", re.M)
VIEW = re.compile(r"\bghost view = \{(.*?)\};", re.S)
WHY = re.compile(r"// The view leaves out ([^:]*): \w")
LINE = re.compile(r"^(\S+ \w+): (.+)$", re.M)

unseen, told, bad, models = {}, {}, [], 0
for file in sorted(TOP.glob("crates/tower*/src/**/*.rt")):
    if "tower_bench" in file.parts:
        continue
    text = file.read_text(encoding="utf-8")
    structs = {name: ["0"] if alone else FIELD.findall(fields) for name, fields, alone in STRUCT.findall(text)}
    for name, body in MODEL.findall(text):
        models += 1
        place = f"{file.relative_to(TOP / 'crates')} {name}"
        view = VIEW.search(body)
        seen = {*re.findall(r"\.(\w+)", view.group(1))} if view else set()
        if name not in structs:
            bad.append(f"the struct of this Model stands elsewhere: {place}")
        if fields := [it for it in structs.get(name, []) if it not in seen]:
            unseen[place] = fields
        if why := re.findall(r"`(\w+)`", " ".join(WHY.findall(body))):
            told[place] = why
listed = (TOP / "scripts/unseen_fields.txt").read_text(encoding="utf-8")
lines = {place: fields.split() for place, fields in LINE.findall(listed)}
for place in sorted({*unseen, *told, *lines}):
    fields, why, line = (it.get(place, []) for it in (unseen, told, lines))
    if line != fields:
        bad.append(f"{place}: the view leaves out {fields}, and unseen_fields.txt has {line}")
    if why != fields:
        bad.append(f"{place}: the view leaves out {fields}, and the comment at the Model tells of {why}")
bad += ["unseen_fields.txt has a line of another form"] * (len(lines) != len(re.findall("^(?!#).+$", listed, re.M)))
print(*bad, f"{sum(map(len, unseen.values()))} fields of {models} Models are in no view, {len(bad)} astray", sep="\n")
sys.exit(bool(bad) or not unseen)
