#!/usr/bin/env python3
"""scripts/measure/by_function.py NAME ..: the instructions of a round of lines of `tower-bench`, by function, and those
of them that are the compiler's. Without it nobody could see why a line is above the Rust's. A round is the mean of
20,000, by callgrind. Its instructions are listed on the standard error. The compiler's are tests of its flag, which is
the byte that most instructions compare with 0, each with the jump behind it; clears: stores of a vector register that
was set to zero; copies of an enum's padding: moves of several bytes at an odd offset; and frames of functions that
weren't compiled into their callers: calls, returns, and what saves registers."""
import re
import subprocess
import sys
import tempfile
from collections import Counter

from beside import BENCH, head, output, row

KINDS = "Instructions", "Tests of the flag", "Clears", "Padding", "Frames"


def executed(name):
    """How often each instruction of the program is executed in a round: its address, that, and its function."""
    words = "--tool=callgrind --dump-instr=yes --dump-line=no --compress-pos=no --compress-strings=no".split()
    with tempfile.NamedTemporaryFile("r") as out:
        words = ["valgrind", *words, f"--callgrind-out-file={out.name}", BENCH, name, "20000"]
        subprocess.run(words, capture_output=True, check=True)
        text = re.sub(r"(?m)^calls=.*\n.*\n", "", out.read())  # without what was executed in callees
    place, found = {}, Counter()
    for key, value in re.findall(r"(?m)^(ob=|fn=|0x\w+ )(.*)$", text):
        if not key.startswith("0x"):
            place[key] = value.partition("::<#")[0]
        elif place["ob="].endswith(f"/{BENCH.name}"):
            found[int(key, 16), place["fn="]] += int(value) / 20_000
    return sorted((at, count, function) for (at, function), count in found.items() if count >= 0.1)


def kinds_of(texts, flag):
    """Of each of the instructions of a round, in their order, its kinds."""
    zero, reads = set(), False
    for text in texts:
        is_flag = f"# {flag} " in text or reads and re.match("j|test", text)
        reads = f"# {flag} " in text or is_flag and text.startswith("test")
        clear = re.match(r"xorps\s+(%xmm\d+),\1", text)
        stored = re.match(r"mov[au]ps\s+(%xmm\d+),.*\(", text)
        padding = re.match(r"(mov[^bz]*|lea) .*0x[0-9a-f]*[13579bdf]\(%", text)
        frame = re.match(r"push|pop|call|ret|(add|sub) +\$0x[0-9a-f]+,%rsp", text)
        is_of = True, is_flag, clear or stored and stored[1] in zero, padding, frame
        yield [kind for kind, holds in zip(KINDS, is_of) if holds]
        zero = zero - {*re.findall(r"^mov.*,(%xmm\d+)$", text)} | ({clear[1]} if clear else set())


code = output("objdump", "-d", "--no-show-raw-insn", BENCH)
texts = {int(at, 16): text for at, text in re.findall(r"(?m)^ *([0-9a-f]+):\s*(.*)$", code)}
compared = Counter(re.findall(r"cmpb\s+\$0x0,0x[0-9a-f]+\(%rip\)\s+# ([0-9a-f]+) ", code))
head("Line", *KINDS, "By function")
for name in sys.argv[1:]:
    sums, functions, steps = Counter(), Counter(), executed(name)
    for step, kinds in zip(steps, kinds_of([texts[at] for at, _, _ in steps], compared.most_common(1)[0][0])):
        at, count, function = step
        print(f"{at:x} {count:5.2f} {texts[at]}  {', '.join(kinds[1:])}", file=sys.stderr)
        sums.update(dict.fromkeys(kinds, count))
        functions[function] += count
    told = "; ".join(f"{count:.0f} in `{function}`" for function, count in functions.most_common())
    row(f"`{name}`", *(f"{sums[kind]:.0f}" for kind in KINDS), told)
