"""What the measuring scripts share: they run programs, print tables, and prove crates beside the library."""
import re
import subprocess
import sys
from pathlib import Path

ROOT = Path(__file__).resolve().parents[2]
BENCH = ROOT / "crates/tower_bench/out/tower_bench"


def read(path):
    return (ROOT / path).read_text(encoding="utf-8")


def output(*words):
    return subprocess.run(words, stdout=subprocess.PIPE, text=True, check=True).stdout


def head(*cells):
    print()
    row(*cells)
    row(*["---"] * len(cells))


def row(*cells):
    print("|" + "|".join(map(str, cells)) + "|", flush=True)


def crate_in(folder, line, files):
    """Makes the folder a repository with the library, if it isn't one, and in it a crate with this line of crates.txt
    and with files of these texts. Returns the crate's folder."""
    if not Path(folder, "crates").exists():
        subprocess.run([ROOT / "scripts/vendor", folder], check=True, stdout=sys.stderr)
    names, crate = Path(folder, "crates.txt"), Path(folder, "crates", re.match(r"\w+", line)[0]).absolute()
    if line not in (lines := names.read_text(encoding="utf-8").splitlines()):
        names.write_text("\n".join([*lines, line, ""]), encoding="utf-8")
    for path, text in {"specs/Lib.antt": "", **files}.items():
        (crate / path).parent.mkdir(parents=True, exist_ok=True)
        (crate / path).write_text(text, encoding="utf-8")
    return crate
