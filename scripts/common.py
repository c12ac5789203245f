"""What the scripts share: proved programs, libraries that have calls fail, files of scripts (docs/SCRIPTS.md)."""
import re
import shutil
import subprocess
from collections import Counter, namedtuple
from functools import cache
from pathlib import Path

TOP = Path(__file__).resolve().parent.parent
Line = namedtuple("Line", "asked answer notes")
LINE = re.compile(r"^(.+?)(?: +=> (.*?))?(?: +\| (.*))?$", re.M)


def program_of(crate, ending=""):
    """The proved program of a crate, as `rt ci` or `rt run` left it, or with the ending `_tests` that of its tests."""
    return TOP / f"crates/{crate}/out/{crate}{ending}"


def library_of(room, name):
    """Builds scripts/NAME.c for LD_PRELOAD, by the kit's own clang."""
    kit, library = Path(shutil.which("rt")).resolve().parents[1] / "toolchain/bin", f"{room}/{name}.so"
    words = ["-O1", "-shared", "-fPIC", "-nostdlib", f"-fuse-ld={kit}/ld.lld", "-o", library]
    subprocess.run([kit / "clang", *words, TOP / f"scripts/{name}.c"], check=True)
    return library


def files_of(crates):
    """Of each file of scripts of these crates the program that plays it, its name, and its scripts."""
    files = [(it, file) for it in crates for file in sorted(TOP.glob(f"crates/{it}/data/**/*.script"))]
    return [(program_of(it), file.stem, scripts_of(file.read_text(encoding="utf-8"))) for it, file in files]


def scripts_of(text):
    """The lines of each script, without comments, and with all notes of a line in that line."""
    text = re.sub(r"\n +\| ", " ", re.sub(r"^#.*\n?", "", text, flags=re.M))
    return [[*map(Line._make, LINE.findall(script))] for script in text.split("\n\n") if script.strip()]


@cache
def text_of(line):
    """The line with its notes one by one: `a, b x2 dropped` is three drops, and `c ready x63` one note 63 times."""
    text, notes = f"{line.asked} => {line.answer}", re.sub(r", (?=[^;]* dropped)", " dropped; ", line.notes)
    for note, count, dropped in re.findall(r"([^; ][^;]*?)(?: x(\d+))?( dropped)?(?:;|$)", notes):
        text += f" | {note}{dropped}" * int(count or 1)
    return text


def balance(lines):
    """How much oftener each part was dropped than made, as a copy, a share or a response: once if it was given."""
    notes = "\n".join(map(text_of, lines)).replace(" | ", "\n")
    made = re.findall(r"^(?:\S+ cloned (\S+)|(\S+) shared|(\S+) called (\d+))$", notes, re.M)
    count = Counter(re.findall(r"^(\S+) dropped$", notes, re.M))
    count.subtract(copy or share or f"{called}({number})" for copy, share, called, number in made)
    return count


def play(program, scripts, change=""):
    """What comes of scripts, each a list of what is asked, with a change more in the first line of each."""
    asked = "\n\n".join("\n".join([first + change, *rest]) for first, *rest in scripts)
    came = scripts_of(subprocess.check_output([program, "--write", "/dev/stdin"], input=asked, text=True))
    assert len(came) == len(scripts), f"{program}: {len(came)} of {len(scripts)} scripts came"
    return came
