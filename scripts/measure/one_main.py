#!/usr/bin/env python3
"""scripts/measure/one_main.py hedge | DEPTH..: proves a program whose whole stack is called in one `main`. Without it
nobody could see that the check of such a program gives up, or takes longer than docs/GATE.md says.

`hedge` is one_main/hedge.txt, a whole `Hedge`. A depth, from 1 to 10, is `example_ten_layers` with so many of its
layers, the innermost ones. Each is proved alone, beside the library as it is built here, and a row says what its check
took (the memory is the most of any so far). The status is 1 if one isn't proved.
"""
import os
import re
import resource
import subprocess
import sys
import tempfile

from beside import ROOT, crate_in, head, read, row

# The layers, innermost first, each with the words of what it alone needs: a line with one of them goes with the layer.
LAYERS = ("then", "map_err|policy|Busy", "map_response", "map_request", "retry|TwoRetries|budget|SystemClock|alloc",
          "filter|short|Short", "rate_limit", "concurrency_limit", "load_shed", "timeout")


def files_of(name):
    if name == "hedge":
        return {"src/main.rt": read("scripts/measure/one_main/hedge.txt")}
    main, policy, short = (read(f"crates/example_ten_layers/src/{it}.rt") for it in ("main", "policy", "short"))
    main = main.replace("{Busy, TwoRetries}", "Busy;\nuse policy::TwoRetries")
    for words in LAYERS[int(name) :]:
        main = re.sub(rf"(?m)^.*\b({words})\b.*\n", "", main)
    assert main.count("\n        .") == int(name) + 1, main
    files = {"main": main, "policy": policy, "short": short}
    return {f"src/{it}.rt": text for it, text in files.items() if it == "main" or f"mod {it};" in main}


def is_proved(room, name):
    crate = crate_in(room, f"one_main_{name} may_wait=3: tower futures thiserror", files_of(name))
    before = sum(os.times()[2:4])
    ran = subprocess.run(["rt", "check", "--only", "main"], cwd=crate, capture_output=True, text=True, check=False)
    took, most = sum(os.times()[2:4]) - before, resource.getrusage(resource.RUSAGE_CHILDREN).ru_maxrss // 1024
    row(name, f"{took:.0f}", most, "NO" if ran.returncode else "yes")
    if ran.returncode:
        print((ran.stdout + ran.stderr)[-3000:], file=sys.stderr)
    return not ran.returncode


if __name__ == "__main__":
    with tempfile.TemporaryDirectory(prefix="one-main-") as folder:
        subprocess.run([ROOT / "scripts/vendor", "--built", folder], check=True, stdout=sys.stderr)
        subprocess.run(["rt", "lib"], cwd=f"{folder}/crates/tower", check=True, capture_output=True)
        head("Layers", "Processor seconds", "MB at most", "Proved")
        sys.exit(not all([is_proved(folder, it) for it in sys.argv[1:]]))
