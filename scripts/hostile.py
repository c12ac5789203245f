#!/usr/bin/env python3
"""scripts/hostile.py [--long]: plays random scripts over a hostile party. Without it only what somebody thought of is
played.

Each generator hostile/NAME.py writes files CRATE.NAME.script, of 10000 events at least, whose answers and notes a plain
machine tells. They are played with the proved programs, up to the first file of which a line is wrong; and once more
with parties that wake their task at each poll, whatever they return, where each line is the same. The scripts are always
the same, but others for another SEED.

With --long they are of 100000 events at least, and each is twice as long as the one before it, with ever more handles
and responses: for what is refused only from some number on. These are played once."""
import os
import subprocess
import sys
import tempfile
from pathlib import Path

from common import TOP, play, program_of, scripts_of, text_of

LONG = sys.argv[1:] == ["--long"]
LEAST, MOST_SECONDS = (100_000, 600) if LONG else (10_000, 120)
if LONG:
    os.environ["LONG"] = "1"
with tempfile.TemporaryDirectory() as room:
    # (what the generators share writes nothing)
    for generator in sorted((TOP / "scripts/hostile").glob("*.py")):
        subprocess.run([sys.executable, generator, room], check=True)
    for file in sorted(Path(room).glob("*.script")):
        words = [program_of(file.name.split(".")[0]), file]
        said = subprocess.run(words, stdout=subprocess.PIPE, text=True, timeout=MOST_SECONDS, check=True).stdout
        events = int(file.read_text(encoding="utf-8").split()[1])
        print(f"hostile: {file.stem}: {events} events, {said[:2000]}", end="", flush=True)
        if events < LEAST or not said.endswith(" scripts, 0 lines wrong\n"):
            sys.exit(1)
        if LONG:
            continue
        asked = [[line.asked for line in script] for script in scripts_of(file.read_text(encoding="utf-8"))]
        for script, stirred in zip(play(words[0], asked), play(words[0], asked, "; stirs"), strict=True):
            for line, came in zip(script[1:], stirred[1:], strict=True):
                if text_of(line) != text_of(came):
                    sys.exit(f"hostile: {file.stem}: if each poll wakes its task\n  {text_of(line)}\n  {text_of(came)}")
