#!/usr/bin/env python3
"""scripts/tests/must_fail.py: tests of scripts/must_fail.py. Without them a change of that script, or a kit that prints
something else, could count as refused what was never tried, and the gate would still pass."""
import re
import sys
import tempfile
import unittest
from pathlib import Path
from unittest import mock

sys.path.insert(0, str(Path(__file__).resolve().parent.parent))
import kit
from must_fail import main

BODY = "pub fn {0}(x: usize) -> usize\n    ensures {{ result ≡ {1} }}\n{{\n    let of_{0} = x;\n    of_{0}\n}}\n"
BODIES = BODY.format("one", "x") + BODY.format("two", "x") + BODY.format("any", "result")
LIBRARY = f"#![tactic(auto)]\nghost use Rattle.std.specs.Prelude.{{◌≡◌}};\n{BODIES}"
EDIT = "edit: {0}\nfunction: {0}\nfile: src/lib.rt\nold:     of_{0}\nnew:     0\n"
ONE, TWO, ANY, GONE = map(EDIT.format, ("one", "two", "any", "gone"))
SAME, OWN, ODD = ONE.replace("one\n", "same\n", 1), TWO.replace("two\n", "own alone\n", 1), TWO.replace("func", "odd")
LAW, PROVED = ONE.replace("function: one", "function: two\nproved: one"), "fn one: proved\nfn two: no proof\nonly="
LEMMA = f"specs/A.antt:9:5: error: 1 declaration that depends on `b`, which was rejected, was not checked: c\n{PROVED}"
UNREAD = "src/lib.rt:9:5: error: `nothing` is not in scope\nfn one: no proof\nfn two: no proof\nonly="
CALLS = "fn tiny::one: not proved; it calls `tiny::two`\nfn tiny::two: no proof\nonly="
# Edits; what the first checks say, if not what the stand-in says anyway; the answers; and the functions of each check.
CASES = {
    "in one check": (ONE + TWO + SAME, [], "one: refused, two: refused, same: refused", "one two/one"),
    "in a check of its own, where the first is cut off": (ONE + OWN, [""], "one: refused, own: refused", "one/one/two"),
    "bad": (ONE + ONE + GONE + ODD, [], "gone: BAD EDIT, two: BAD EDIT, one: BAD EDIT, one: BAD EDIT", ""),
    "beside one that is not": (ONE + ANY, [], "one: refused, any: NOT REFUSED", "one any/any"),
    "beside one unread": (ONE + TWO, [UNREAD, UNREAD], "one: BAD EDIT, two: refused", "one two/one/two"),
    "refused for what it calls": (ONE + TWO, [CALLS], "two: refused, one: refused", "one two/one"),
    "never for itself": (ONE + TWO, [CALLS, CALLS], "two: refused, one: NOT REFUSED", "one two/one"),
    "could not tell": (ONE, ["fn one: could not tell\nonly="], "one: NOT REFUSED", "one"),
    "cut off twice": (ONE, ["", ""], "one: BAD EDIT", "one/one"),
    "a law": (LAW, [PROVED], "one: refused", "two one"),
    "a law whose lemma is rejected": (LAW, [LEMMA], "one: refused", "two one"),
    "a law of a body that is not proved": (LAW, [], "one: BAD EDIT", "two one"),
}


class Tests(unittest.TestCase):
    def outcome(self, edits, says=None, made="rlib/tiny.rlib"):
        """What the script answers of edits of a small library, the functions of each check, and the last line. The
        prover is the kit's, or a stand-in, which says what is given, and then refuses each function but `any`."""
        def stand_in(_crate, _texts, flags, _kept, left=iter(says or ())):
            told = [f"fn {it}: {'proved' if it == 'any' else 'no proof'}" for it in flags[3::2]]
            text = next(left, "\n".join([*told, "only="]))
            return mock.Mock(stdout=text, returncode=1 if text else -9)

        checked = mock.patch.object(kit, "checked", side_effect=kit.checked if says is None else stand_in)
        with tempfile.TemporaryDirectory() as root, checked as checks, mock.patch("builtins.print") as printed:
            texts = {"crates.txt": "tiny:", "crates/tiny/src/lib.rt": LIBRARY, "must-fail/tiny/lib.edits": edits}
            for path, text in {**texts, f"crates/tiny/out/{made}": ""}.items():
                Path(root, path).parent.mkdir(parents=True, exist_ok=True)
                Path(root, path).write_text(text, encoding="utf-8")
            main(root, ["--built"])
        *lines, last = [it.args[0] for it in printed.call_args_list]
        answers = re.findall(r"^must-fail tiny/(\w*: [A-Za-z ]+)", "\n".join(lines), re.M)
        return ", ".join(answers), "/".join(" ".join(it.args[2][3::2]) for it in checks.call_args_list), last

    def test_cases(self):
        for name, (edits, says, *wanted) in CASES.items():
            with self.subTest(name):
                self.assertEqual([*self.outcome(edits, says)[:2]], wanted)

    def test_not_tried(self):
        self.assertEqual(self.outcome(ONE, [], made="log"), ("one: NOT TRIED", "", "0 refused, 1 not, 0 untried"))
        with mock.patch.dict("os.environ", MUST_FAIL_UNTIL="1"):
            self.assertEqual(self.outcome(ONE, []), ("", "", "0 refused, 0 not, 1 untried"))

    def test_with_the_prover(self):
        answers = "gone: BAD EDIT, one: refused, two: refused, any: NOT REFUSED"
        self.assertEqual(self.outcome(ONE + TWO + ANY + GONE)[::2], (answers, "2 refused, 2 not, 0 untried"))


if __name__ == "__main__":
    unittest.main()
