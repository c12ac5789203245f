#!/usr/bin/env python3
"""scripts/quick.py [CRATE ..], by `./test --quick [CRATE ..]`: all that runs without a proof, of each crate or of those
named: its layout, its wrong bodies' old texts, names, types and bounds, and its tests and its program, unproved; and if
none is named the scripts that read texts. It takes minutes, and says nothing of contracts. Without it a slip would be
seen only by the gate. Its last line is `N passed, M failed`."""
import copy
import os
import subprocess
import sys
import time
from concurrent.futures import ThreadPoolExecutor
from pathlib import Path

import kit
import must_fail

TOP = Path(__file__).resolve().parent.parent
TRY = [sys.executable, str(TOP / "scripts/kit.py")]
# They measure, and take long unproved.
MEASURE = {"tower_bench", "bench_threads"}
TEXTS = "forgets_nothing.py columns.py links.sh yields.py lock_model.py unseen_fields.py counters.py "
TEXTS += "vocabulary.py lint.sh tests/kit.py tests/prove.py tests/trouble.py"


def layout(crate):
    """Its files as `rt fmt` lays them out."""
    files = [it for it in kit.rtlib.files_of(crate.folder) if it.endswith((".rt", ".antt"))]
    return called([kit.rtlib.RATTLE, "fmt", "--check", *files], crate.folder)[::2]


def types(crate):
    """What a check refuses before it proves anything: there is no function of the name that it is asked for."""
    words = crate.words(["--jobs", "1", "--start", "no function"], tests=crate.has_tests(), as_source=True)
    status, _, said = called([kit.rtlib.RATTLE, "check", *words], crate.folder)
    return status != 2 or "no function" not in said.splitlines()[-1], said


def types_of_libraries(crates):
    """The same of all libraries at once, as if the program `uses` stood over each."""
    top = copy.copy(next(it for it in crates if it.name == "uses"))
    top.deps = [it for it in crates if it.makes_rlib()]
    return types(top)


def tests(crate):
    return called([*TRY, "--test"], crate.folder)[::2]


def program(crate):
    """Its program, with the files beside src/ as `rt ci` gives them."""
    beside = {it: (crate.stream(it) or b"").decode() for it in ("args", "status", "stdin", "stdout")}
    folder = Path(crate.folder, "data")
    data = [word for it in sorted(folder.rglob("*.*")) for word in ("--data", f"{it.relative_to(folder)}={it}")]
    words = [*TRY, *data, "--", *beside["args"].splitlines()]
    status, out, said = called(words, crate.folder, beside["stdin"])
    return status != int(beside["status"] or 0) or out != beside["stdout"], said


def script(words):
    return called([f"scripts/{words}", *["types"] * ("trouble" in words)], TOP)[::2]


def called(words, folder, given=""):
    try:
        ran = subprocess.run(words, cwd=folder, input=given.encode(), capture_output=True, check=False, timeout=900)
    except subprocess.TimeoutExpired as error:
        return 1, "", f"{error}"
    out, said = ran.stdout.decode(errors="replace"), ran.stderr.decode(errors="replace")
    return ran.returncode, out, out + said


def edits_stand(crate):
    """Whether each wrong body of the crate can be applied."""
    bad = [f"{it.name}: {it.answer}" for it in must_fail.edits_of(crate) if it.answer]
    return bool(bad), "\n".join(bad)


def main(names):
    os.chdir(TOP)
    crates = kit.crates_of(TOP)
    if unknown := {*names} - {it.name for it in crates}:
        sys.exit(f"{__doc__}\nno crate: {' '.join(sorted(unknown))}")
    steps = [] if names else [("types of the libraries", types_of_libraries, crates)]
    steps += [(it, script, it) for it in TEXTS.split() if not names]
    for crate in (it for it in crates if not names or it.name in names):
        crate.out = sys.stderr
        runs = [tests] * crate.has_tests() + [program] * (crate.is_program and crate.name not in MEASURE)
        # (what `rt try` runs has its types)
        whats = [layout, edits_stand, *(runs or [types] * bool(names))]
        steps += [(f"{what.__name__} of {crate.name}", what, crate) for what in whats]
    began, failed = time.monotonic(), 0

    def take(step):
        name, what, of = step
        since = time.monotonic()
        return name, *what(of), time.monotonic() - since

    # Those that take longest begin first.
    order = [types_of_libraries, tests, program, types, script, layout, edits_stand]
    with ThreadPoolExecutor(kit.lanes()) as pool:
        for name, is_bad, said, took in pool.map(take, sorted(steps, key=lambda it: order.index(it[1]))):
            failed += bool(is_bad)
            print(f"{name}: {'FAILED' if is_bad else 'passed'}, {took:.0f} s", flush=True)
            if is_bad:
                print(said[-3000:], flush=True)
    print(f"{(time.monotonic() - began) / 60:.1f} minutes; nothing was proved")
    print(f"{len(steps) - failed} passed, {failed} failed")
    return failed > 0


if __name__ == "__main__":
    sys.exit(main(sys.argv[1:]))
