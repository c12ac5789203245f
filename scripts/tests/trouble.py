#!/usr/bin/env python3
"""scripts/tests/trouble.py [types] [proofs] [NAME ..]: each program of trouble.txt, or of a part, or those named, is
refused, and what `./prove` prints of it has its row of docs/TROUBLE.md alone. Without it a row would no longer fit once
the kit says something else, or a user would be told what doesn't help. The libraries are read as texts, unproved."""
import re
import runpy
import shutil
import subprocess
import sys
import tempfile
from pathlib import Path

TOP = Path(__file__).resolve().parents[2]
sys.path.insert(0, str(TOP / "scripts"))
import kit

PROVE = runpy.run_path(str(TOP / "prove"))
USES = """
use futures::future::{Ready, ok};
use futures::task::{Context, Poll};
use std::alloc::{AllocError, AllocGlobal};
use std::convert::Infallible;
use std::io;
use std::random::RandomSource;
use std::sync::Wait;
use std::thread::Threads;
use tower::service::{Steps, SystemClock};
use tower::{BlockOnExt, Service, ServiceBuilder, service_fn};
"""
RUNTIME = "R: Wait + RandomSource + AllocGlobal + Print + std::time::Clock + Copy"


def check(programs, *flags):
    """What a check prints of a crate of these programs, a module each."""
    with tempfile.TemporaryDirectory() as room:
        shutil.copytree(TOP / "crates", f"{room}/crates", ignore=shutil.ignore_patterns("out"))
        source = Path(room, "crates/trouble/src")
        source.mkdir(parents=True)
        for name, (_, text) in programs.items():
            ghosts, text = re.match(r"((?:ghost use .*\n)*)(.*)", text, re.S).groups()
            text = f"{ghosts}{USES}{text.replace('R: Runtime', RUNTIME)}"
            (source / f"{name}.rt").write_text(text, encoding="utf-8")
        mods = "".join(f"mod {it};\n" for it in programs)
        root = f"#![tactic(auto)]\n\n{mods}\nfn main(_rt: HostRuntime) {{}}\n"
        (source / "main.rt").write_text(root, encoding="utf-8")
        lines = f"{(TOP / 'crates.txt').read_text(encoding='utf-8')}trouble may_wait=9: tower futures thiserror\n"
        Path(room, "crates.txt").write_text(lines, encoding="utf-8")
        crate = next(it for it in kit.crates_of(room) if it.name == "trouble")
        words = crate.words(["--jobs", "1", *flags], as_source=True)
        ran = subprocess.run([kit.rtlib.RATTLE, "check", *words], cwd=crate.folder, capture_output=True, text=True)
        return (ran.stdout + ran.stderr).splitlines()


def tell(programs, said, wrong):
    """Notes what is wrong with the rows printed of these programs, and returns those of which something was said."""
    told = {}
    for part in PROVE["advice"](said):
        for name in {*re.findall(r"^(?:src/|fn trouble::)(\w+)", part, re.M)} & {*programs}:
            told.setdefault(name, []).append(part)
    for name, parts in told.items():
        rows = re.findall(r"(?m)^    (.*)", "\n".join(parts))
        if not rows or any(not it.startswith(programs[name][0]) for it in rows):
            wrong.append("\n    ".join([f"{name}: expected {programs[name][0]}, and came", *parts]))
    return told


def main(words):
    texts = (TOP / "scripts/tests/trouble.txt").read_text(encoding="utf-8").split("\nProofs\n")
    wrong, number = [], 0
    for kind, text in zip(("types", "proofs"), texts):
        found = re.findall(r"(?ms)^=== (\w+): (.*?)\n(.*?)(?=^=== |\Z)", text)
        programs = {name: (row, body) for name, row, body in found if {name, kind} & {*words} or not words}
        number += len(programs)
        while programs:
            flags = ("--only", "") if kind == "types" else [it for name in programs for it in ("--only", name)]
            said = check(programs, *flags)
            told = tell(programs, said, wrong)
            if not told:
                wrong += [f"{it}: nothing was said of it" for it in programs] + said[-9:]
            programs = {name: it for name, it in programs.items() if name not in told} if told else {}
    print(*wrong, f"trouble: {number} programs, of which {len(wrong)} were told otherwise", sep="\n")
    return len(wrong) > 0


if __name__ == "__main__":
    sys.exit(main(sys.argv[1:]))
