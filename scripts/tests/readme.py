#!/usr/bin/env python3
"""scripts/tests/readme.py [--built] [WORD ..]: runs the commands of README as they stand, part by part, in a folder of
their own with what is proved here, and says how long each took. Without it README could name what no longer works.

A part is what stands under a heading; with words only those run whose heading has one of them. A line `$ COMMAND` has
to print the lines below it, if there are any; of a block without `$` each line has to end well. A block of Rust has to
be the file that the line above it names. With --built the libraries are as one run of `rt ci` left them here."""
import re
import shutil
import subprocess
import sys
import tempfile
import time
from pathlib import Path

TOP = Path(__file__).resolve().parents[2]
sys.path.insert(0, str(TOP / "scripts"))
import kit

# It serves until it is stopped.
LASTS = re.compile(r"socat TCP-LISTEN|.*rt run -- [0-9]+ [0-9]+$")


def commands_of(part):
    """Each command of a part, and what README has it print, or None."""
    for block in re.findall(r"(?m)(?:^    .*\n)+", re.sub(r"(?ms)^```.*?^```", "", part)):
        lines = re.sub(r"\\\n *", "", re.sub(r"(?m)^    ", "", block))
        for text in re.split(r"(?m)^\$ ", lines)[1:] if "$ " in lines else lines.splitlines():
            command, _, prints = text.partition("\n")
            yield re.sub(r"  +# .*", "", command), prints or None


def run(command, prints, folder):
    """Whether a command ends well and prints what it has to."""
    if LASTS.match(command):
        print(f"readme: left out, as it serves until it is stopped: {command}")
        return True
    began = time.monotonic()
    ran = subprocess.run(["bash", "-c", command], cwd=folder, capture_output=True, text=True, timeout=7200)
    is_right = not ran.returncode and prints in (None, ran.stdout)
    print(f"readme: {time.monotonic() - began:.0f} s, {'as it says' if is_right else 'FAILED'}: {command}", flush=True)
    if not is_right:
        print(ran.stdout[-2000:], ran.stderr[-2000:], f"readme: wanted {prints!r}", sep="\n", flush=True)
    return is_right


def main(words):
    ignored, is_right, number = shutil.ignore_patterns("out", ".git"), True, 0
    with tempfile.TemporaryDirectory() as room:
        shutil.copytree(TOP, f"{room}/tower", ignore=ignored, symlinks=True)
        for rlib in TOP.glob("crates/*/out/rlib"):
            shutil.copytree(rlib, Path(room, "tower", rlib.relative_to(TOP)))
        if "--built" in words:
            kit.stamp(f"{room}/tower")
        parts = re.split(r"(?m)^## ", (TOP / "README.md").read_text(encoding="utf-8"))[1:]
        named = [it.lower() for it in words if it != "--built"]
        for part in parts:
            if named and not any(it in part.partition("\n")[0].lower() for it in named):
                continue
            for file, text in re.findall(r"(?ms)^`(crates/\S+\.rt)`[^\n]*\n```rust\n(.*?)^```", part):
                if text != (TOP / file).read_text(encoding="utf-8"):
                    is_right = print(f"readme: {file} differs") is not None
            for command, prints in commands_of(part):
                number += 1
                is_right &= run(command, prints, f"{room}/tower")
    print(f"readme: {number} commands")
    return not is_right or not number


if __name__ == "__main__":
    sys.exit(main(sys.argv[1:]))
