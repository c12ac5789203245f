#!/usr/bin/env python3
"""scripts/programs.py: makes the runs of programs.txt, those of the scripts here, and those that no row can say.
Without it a program could take wrong arguments, or lose what it read or wrote where a call of the system fails: no
contract speaks of those. Each run is compared whole: status, standard output, standard error. What is expected was
worked out by hand."""
import contextlib
import fnmatch
import os
import re
import shlex
import subprocess
import tempfile
import time
from pathlib import Path

from common import TOP, library_of, program_of

RUNS = []
STORM = "tower_run_cli", "storm", "4", "1000000", "4"


def run(program, *words, given=b"", **fails):
    """The status, the output and the errors of a run in which these calls fail."""
    RUNS.append(program)
    command, env = [program_of(program), *words], {**os.environ, **fails}
    ran = subprocess.run(command, input=given, capture_output=True, env=env, timeout=100)
    return b"%d" % ran.returncode, ran.stdout, ran.stderr


def words_of(text):
    """Its words, as programs.txt explains them."""
    wholes = (re.sub(r"\((.*?)\)\*(\d+)", lambda it: it[1] * int(it[2]), word) for word in shlex.split(text))
    return [it.encode().decode("unicode_escape").encode("latin-1") for it in wholes]


def check_row(row):
    asked, _, ends = row.partition(" => ")
    ends = [[*words_of(it), b"", b""][:3] for it in ends.split(" or ")]
    found, times = [], 1  # which end each run had, and how often the first has to come in the end
    while found[-times:] != [0] * times:
        command, _, given = asked.replace("EACH", str(len(found) + 1)).partition(" < ")
        fails = dict(re.findall(r"([A-Z_]+)=(\S+)", command))
        program, *words = words_of(command)[len(fails) :]
        began = time.monotonic()
        came = run(program.decode(), *words, given=b"".join(words_of(given)), **fails)
        took = (time.monotonic() - began) * 1000
        matches = [at for at, end in enumerate(ends) if all(map(fnmatch.fnmatchcase, came, end))]
        assert matches and len(found) < 5000, f"{row[:300]}\nbut came {came}"[:2000]
        assert "TAKES" not in fails or 0 <= took - int(fails["TAKES"]) < 1000, f"{row}\nbut took {took} ms"
        found.append(matches[0])
        times = int(fails.get("TIMES", 1))
    assert len(found) - found.count(0) >= int(fails.get("OTHERS", 0)), f"{row}\nbut came {found}"


def check_threads():
    """A storm makes its rounds in its threads at once: at one moment each of the four is there, and has taken time of
    a processor. If the fourth can't be started, the others make their rounds before the program ends."""
    together = 0
    with subprocess.Popen([program_of(STORM[0]), *STORM[1:]], stdout=subprocess.PIPE) as storm:
        while storm.poll() is None:
            with contextlib.suppress(OSError):  # as a thread ends
                stats = [it.read_text().split() for it in Path(f"/proc/{storm.pid}/task").glob("*/stat")]
                together = max(together, sum(int(it[13]) + int(it[14]) > 1 for it in stats if it[0] != str(storm.pid)))
            time.sleep(0.005)
        assert (together, storm.stdout.read()) == (4, b"threads 4 rounds 4000000 free 4 of 4\n"), together
    before = os.times().children_user
    assert run(*STORM, FAIL_THREAD="4") == (b"3", b"", b"cannot start a thread\n")
    assert os.times().children_user - before > 0.1


def check_crowd():
    """Twenty connections share a stack with a limit of five: each request is answered, by a 200 or a 503."""
    rest = b"5 requests: 5 served, 0 busy, 0 broken, 0 wrong\nat most 5 inside at once, 0 at the end\n"
    outs = [b"20 requests: %d served, %d busy, 0 broken, 0 wrong\n%b" % (it, 20 - it, rest) for it in range(5, 20)]
    for _ in range(5):
        found = run("example_http", "crowd", "20")
        assert found in [(b"0", out, b"") for out in outs], found


with tempfile.TemporaryDirectory() as room:
    os.environ["LD_PRELOAD"] = " ".join([library_of(room, it) for it in ("fail_io", "fail_alloc", "fail_thread")])
    for line in re.findall(r"^[^#\n].*", (TOP / "scripts/programs.txt").read_text(encoding="utf-8"), re.M):
        check_row(line)
    for script in sorted(TOP.glob("scripts/*.script")):  # Each is run on the stack that its name begins with.
        transcript = run("tower_run_cli", re.match("[a-z]+", script.name)[0], given=script.read_bytes())
        assert transcript == (b"0", script.with_suffix(".out").read_bytes(), b""), (script, transcript)
    check_threads()
    check_crowd()
print(f"programs: {len(RUNS)} runs, each as expected")
