#!/usr/bin/env python3
"""scripts/refused.py CRATE [LAST]: refuses each allocation of the crate's proved tests, one in a run (fail_alloc.c).
Without it no run would refuse memory to what has no script, and no clause says what a growth leaves that is refused.

At each number every test `refused_..` has to pass. Some `ample_..`, which makes the same calls, has to fail, up to the
last number at which one does. The kit's strings ask for more room than they need and do without it, so a few numbers
may show nothing: it stops after four (or LAST) in a row."""
import os
import re
import subprocess
import sys
import tempfile

from common import library_of, program_of

crate, last = [*sys.argv[1:], "4"][:2]
program = program_of(crate, "_tests")
names = subprocess.check_output([program, "--list"], text=True)
refused, ample = (re.findall(rf"^((?:.*::)?{it}_[a-z0-9_]*): test$", names, re.M) for it in ("refused", "ample"))
number = shown = 0
with tempfile.TemporaryDirectory() as room:
    how = {"cwd": room, "env": {**os.environ, "LD_PRELOAD": library_of(room, "fail_alloc")}, "timeout": 60}
    while number - shown < int(last):
        number += 1
        how["env"]["FAIL_ALLOC"] = str(number)
        failed = {it for it in refused + ample if subprocess.run([program, it], capture_output=True, **how).returncode}
        if number == 1000 or not failed.isdisjoint(refused):
            sys.exit(f"refused: {crate}, allocation {number}: these tests failed: {failed}")
        shown = number if failed else shown
print(f"refused: {crate}, allocations 1 to {shown}: every refusal was told in {len(refused)} tests")
sys.exit(not refused or not shown)
