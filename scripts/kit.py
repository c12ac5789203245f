"""The kit's own module, which the kit promises to nobody: all that this repository takes from it stands here. Where a
newer kit changes it, tests/kit.py says what changed. `prove` uses it, too, so scripts/vendor copies this file."""
import os
import runpy
import shutil
import sys
import types
from pathlib import Path

rt = types.SimpleNamespace(**runpy.run_path(os.path.realpath(shutil.which("rt") or "rt")))
rtlib, edited, checked, unread = rt.rtlib, rt.edited, rt.checked, rt.unread
Crate = rtlib.Crate
rtlib.guarded()  # its first call sets a signal's handler, which only the main thread may


def crates_of(root):
    """The crates of a repository, each after those that it uses."""
    return rtlib.crates_below(str(Path(root).resolve()))


def lanes():
    """How many checks may run at once."""
    return int(os.environ.get("RT_JOBS") or max(1, min(rt.processors(), rt.free() // 4_500_000_000)))


def stamp(root):
    """Stamps the libraries that one run of `rt ci` built in a repository, as `rt lib` would: other commands then take
    them, and don't prove them once more."""
    for crate in crates_of(root):
        if Path(crate.rlib).is_dir():
            Path(crate.folder, "out/rlib/stamp").write_text(crate.stamp(), encoding="utf-8")


if __name__ == "__main__":
    # `rt try` with these words, without the check beside it, which takes as long again and looks for reserved names.
    rtlib.RATTLE = "true"
    sys.exit(rt.main(["try", *sys.argv[1:]]))
