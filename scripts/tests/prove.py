#!/usr/bin/env python3
"""scripts/tests/prove.py: what `./prove` makes of the lines of a check. Without it the lines of a macro would be taken
for mistakes, or what only follows from one would hide it. (That each row of TROUBLE fits its own: trouble.py.)"""
import io
import runpy
import unittest
from pathlib import Path
from unittest import mock

PROVE = runpy.run_path(str(Path(__file__).resolve().parents[2] / "prove"))
COVER = "the borrow checker does not cover this function yet: "
ONLY = "an impl that is not the only match, or is not known"
LINES = f"""by-macro: thiserror::Error,core::split_item blocks=2
statements thiserror: modules loaded=0 checked=0
ahead of the check: app::seen: {COVER}src/main.rt:9:1: {ONLY}
note: src/main.rt:3:5: it is not proved that what `low` requires holds at this call (`low-requires`)
fn app::top: no proof: expected answers in ./proofs/top/Answers.antt; it calls `app::low`, which is not proved
note: src/main.rt:5:5: it is not proved that the sum fits its type (`overflow_add-result`); the facts known there ..
note: a goal may be false even if its line does not say so
fn app::low: no proof: expected answers in ./proofs/low/Answers.antt; `search` did not prove `overflow_add-result`
fn app::seen: no proof: expected `seen_spec` in ./proofs/seen/Proof.antt; {COVER}src/main.rt:9:1: {ONLY}
fn app::main: no proof: it calls `app::top` and `app::low`, which are not proved
fn app::run: no proof: the borrow checker's part in its proof is not made yet: a call of `app::seen`, which has no proof
note: `overflow_add-result` of proofs/low/Answers.antt must prove: Fits w64 (c.args.a + c.args.b)"""


class Tests(unittest.TestCase):
    def test_goals(self):
        """Causes come first, with what is to be proved and the row; what only follows from others doesn't come."""
        parts = PROVE["advice"](LINES.split("\n"))
        self.assertEqual([it.split("\n")[0].split()[1] for it in parts], ["app::low:", "app::top:"])
        _, goal, row = parts[0].split("\n")
        self.assertIn("(`overflow_add-result`, which says: Fits w64 (c.args.a + c.args.b))", goal)
        self.assertTrue(row.startswith("    `overflow_..`: a result may not fit. Write: "), row)

    def test_errors(self):
        """An error comes with the crate below that has it."""
        error = "src/a.rt:3:5: error[invalid-operand-type]: `==` cannot be applied to `Lost`"
        for lines, place in ([error], ""), (["== low", error], "crates/low/"):
            told, row = PROVE["advice"](lines)[0].split("\n")
            self.assertEqual((told, "derive(PartialEq)" in row), (f"{place}{error}", True))

    def test_only_what_follows(self):
        """If there is nothing else, what follows comes too."""
        line = "fn app::main: no proof: it calls `low::go`, which is not proved"
        self.assertEqual(PROVE["advice"]([line]), [line])

    def test_ahead(self):
        """What is refused ahead of the proofs is printed at once, and for one place once."""
        lines = [f"{it}\n" for it in LINES.split("\n")]
        ran = mock.MagicMock(returncode=1, stdout=[*lines[:3], lines[2].replace("seen", "again")])
        ran.__enter__.return_value = ran
        with mock.patch("subprocess.Popen", return_value=ran), mock.patch("sys.stdout", io.StringIO()) as out:
            self.assertEqual(PROVE["check"]("app", io.StringIO()), 1)
        told = out.getvalue().splitlines()
        self.assertEqual((len(told), told[0]), (2, lines[2].strip().removeprefix("ahead of the check: ")))
        self.assertIn("not the only match`. Write: no struct of your own", told[1])


if __name__ == "__main__":
    unittest.main()
