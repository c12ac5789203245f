#!/usr/bin/env python3
"""scripts/tests/kit.py: what scripts/kit.py takes from the kit's own module is there as our scripts use it. Without it
a newer kit would break them at a place that doesn't say why."""
import inspect
import sys
import tempfile
import unittest
from pathlib import Path

sys.path.insert(0, str(Path(__file__).resolve().parent.parent))
import kit


class Tests(unittest.TestCase):
    def test_calls(self):
        """The functions take what they took."""
        for call, takes in (
            (kit.edited, "(text, file)"),
            (kit.checked, "(crate, texts, flags, kept)"),
            (kit.unread, "(line, changed)"),
            (kit.Crate, "(folder, root, known, above=(), name=None)"),
            (kit.Crate.words, "(self, flags, tests=False, keeps=True, as_source=False)"),
            (kit.Crate.sources_below, "(self)"),
            (kit.Crate.below, "(self)"),
            (kit.Crate.count, "(self, pattern)"),
            (kit.Crate.try_unproved, "(self, flags, arguments)"),
            (kit.rt.main, "(words)"),
        ):
            self.assertEqual(str(inspect.signature(call)), takes, call)

    def test_crates(self):
        """A repository's crates come lowest first. A library is built if its folder has its stamp."""
        with tempfile.TemporaryDirectory() as root:
            for path, text in {"crates.txt": "low:\ntop: low\n", "low/src/lib.rt": "", "top/src/main.rt": ""}.items():
                file = Path(root, path if path == "crates.txt" else f"crates/{path}")
                file.parent.mkdir(parents=True, exist_ok=True)
                file.write_text(text, encoding="utf-8")
            low, top = kit.crates_of(root)
            self.assertEqual([low.name, top.name, *(it.name for it in top.below())], ["low", "top", "low"])
            self.assertEqual((low.is_program, top.is_program, low.is_built()), (False, True, False))
            Path(low.rlib).mkdir(parents=True)
            kit.stamp(root)
            self.assertTrue(kit.crates_of(root)[0].is_built())
            self.assertTrue(Path(kit.rtlib.RATTLE).is_file())


if __name__ == "__main__":
    unittest.main()
