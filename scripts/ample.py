#!/usr/bin/env python3
"""scripts/ample.py: each public call of the libraries that may report want of memory is made with ample memory, and its
answer compared, by a script that names it in a line `# ample: TYPE::CALL ..`, or by a test whose source has the call
and names its type. Without it a call whose body only gives up could stand there: it is proved under any contract.

Which calls these are is read from the signatures: the result has `AllocError`, or an enum that has a variant `Memory`."""
import re
import sys
from os.path import commonpath
from pathlib import Path

from common import TOP

# What only the library itself calls (a letter is a type parameter), and what a test calls by another name.
PRIVATE = "Waiters|Cells|Held|Slots|Bag|Line|Spare|Tally|Mailbox|[A-Z]"
CALLED = {"drive_with_state": "drive", "LayerFn::layer": "layer_fn", "WaitQueue::wait": "ample_joins"}
IMPL = re.compile(r"^impl\b(?:[^{]*( for )|<[^{]*?(?<!-)>\s)?\s*(?:\w+::)*(\w+)|\Z", re.M)
CALL = re.compile(r"^ *(pub )?fn (\w+)(.*?)(?:(?:[{;]|\{\})$|^ *(?:where|requires|ensures)\b)", re.M | re.S)
ENUM = re.compile(r"^pub (?:\(crate\) )?enum (\w+)[^{]*\{(.*?)^\}", re.M | re.S)
LIBRARIES = re.findall(r"^tower(?!_run|_bench|_laws|_hyper|_refusal)\w*", (TOP / "crates.txt").read_text(), re.M)
crates = TOP / "crates"
sources = {file: file.read_text(encoding="utf-8") for it in LIBRARIES for file in crates.glob(f"{it}/src/**/*.rt")}
enums = [(file, name, "\n    Memory," in body) for file, text in sources.items() for name, body in ENUM.findall(text)]
tests = [file.read_text(encoding="utf-8") for it in ("tests_*", "uses") for file in crates.glob(f"{it}/src/**/*.rt")]
scripts = [file.read_text(encoding="utf-8") for file in crates.glob("*/data/**/*.script")]


def tells_memory(file, name):
    """Whether an enum of this name has a variant `Memory`: the nearest to the file, of those of its crate."""
    near = [(*nearness(file, other), it) for other, of, it in enums if of == name and crate_of(other) == crate_of(file)]
    return bool(near) and max(near)[-1]


def crate_of(file):
    return file.relative_to(crates).parts[0]


def nearness(file, other):
    """How much of the path to the other file is that of this one, and how little it goes on."""
    paths = [file.with_suffix(""), other.with_suffix("")]
    return len(Path(commonpath(paths)).parts), -len(paths[1].parts)


def may_lack(file, block, signature):
    """Whether the result may be want of memory. `Self::Error` and such are looked up in the block of the impl."""
    result = signature.rpartition("->")[2]
    for name in re.findall(r"\bSelf::(\w+)", result):
        result += " ".join(re.findall(rf"^    type {name} = (.*?);", block, re.M | re.S))
    return "AllocError" in result or any(tells_memory(file, it) for it in re.findall(r"(?<!:)\b[A-Z]\w+", result))


calls = []
for file, block in [(file, block) for file, text in sources.items() for block in text.split("\n}\n")]:
    of_trait, owner = IMPL.search(block).groups("")
    for is_public, name, result in CALL.findall(block):
        if (is_public or of_trait) and not re.fullmatch(PRIVATE, owner):
            calls.append((f"{owner}::{name}".removeprefix("::"), may_lack(file, block, result)))
made = {call for call, lacks in calls if lacks}
# (a future's poll is its step, and the `from` of an error makes nothing)
wanted = {it for it in made if it.removesuffix("poll") + "step" not in made - {it} and not it.endswith("::from")}
marks = {*" ".join(re.findall("^# ample: (.*)$", "\n".join(scripts), re.M)).split()}
wrong = [f"a script marks {it}, which isn't there" for it in marks - {*dict(calls)}]
for call in wanted - marks:
    owner, _, name = CALLED.get(call, call).rpartition("::")
    if not any(re.search(rf"\b{name}(::<[^;]*?>)?\(", it) and re.search(rf"\b{owner}\b", it) for it in tests):
        wrong.append(f"{call} is made by no test, and no script has its mark")
print(*sorted(wrong), f"ample: {len(wanted)} calls are made with ample memory", sep="\n")
sys.exit(bool(wrong) or not wanted)
