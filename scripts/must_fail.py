#!/usr/bin/env python3
"""scripts/must_fail.py [--built] [--gate] [CRATE ..] [EDIT ..]: the prover has to refuse each wrong body. Without it
nothing would say that a contract tells right bodies from wrong ones. (`rt must-fail` proves a whole crate for each.)

A wrong body is an edit of the code. `must-fail/CRATE/MODULE.edits` has several, each under a line `edit: NAME`, and
`crates/CRATE/must-fail/NAME.edit`, the kit's own form, has one, without that line. Lines `file:`, `old:` and `new:` say
what changes, as `rt must-fail` reads them. A line `function: PATH` names each function that changes, as a check prints
it, and one of these has to be refused.

Up to 24 edits share a check: a function is proved from the contracts of those that it calls, and so a wrong body fails
its own function alone. An edit counts as refused only if its function isn't proved, and calls none that isn't. If it
calls such a one, the edit is tried again in another check. An edit that changes more than bodies (a bound, a constant,
a signature) is marked `edit: NAME alone`, and has a check of its own.

An edit of a law changes a machine and the body alike. Its `function:` is the law. A line `proved: PATH` names what has
to be proved with the edit, and `crate: NAME` the library whose files change, if it isn't the law's own crate.

All edits are tried, or those of the crates that are named, or those alone that are named after them; with --gate those
of them that are marked `edit: NAME gate` or stand in `crates/`. Of each other edit it is seen that its old text stands
there once. With --built the crates are taken as `rt ci` left them, and else proved first. No check begins after
MUST_FAIL_UNTIL, in seconds since 1970: so a gate on a slow machine ends in its time, and names what is left.

The last line is `N refused, M not, K untried`. The status is 1 if M isn't 0.
"""
import functools
import os
import re
import shutil
import subprocess
import sys
import tempfile
import time
from collections import Counter
from concurrent.futures import ThreadPoolExecutor
from pathlib import Path

import kit

AT_ONCE = 24
LINE = re.compile(r"^(edit: \w+( gate| alone)*$|(file|old|new|function|proved|crate):.*)", re.M)


class Edit:
    """A wrong body. Its answer is empty as long as nothing is known."""

    def __init__(self, crate, text):
        self.crate, self.text, self.answer = crate, text, ""
        self.name, marks = re.match(r"(?:edit: (\w+))?(.*)", text).groups("")
        found = [re.findall(rf"^{word}: *(\S+)", text, re.M) for word in ("function", "proved", "crate")]
        self.functions, self.proved, self.below = *found[:2], "".join(found[2])
        self.is_in_gate, self.is_alone = "gate" in marks, "alone" in marks or bool(self.proved or self.below)
        lacks = "" if self.name and self.functions else "it has no line `edit:` or `function:`"
        if why := LINE.sub("", text).strip() or lacks or applied([self])[1]:
            self.answers(f"BAD EDIT: {why}")

    def answers(self, answer):
        self.answer = answer
        print(f"must-fail {self.crate.name}/{self.name}: {answer[:220]}".replace("\n", " / "), flush=True)

    def owns(self, printed):
        """Whether a check prints so a function of this edit, or a closure in one (`MODULE::fn::FUNCTION::CLOSURE`)."""
        name = re.sub(r"(^|::)fn::", r"\1", printed.removeprefix(f"{self.crate.name}::"))
        return any(name == it or name.startswith((f"{it}::", f"{it}+")) for it in self.functions)

    def verdict(self, output):
        """The answer by a check that came to its end, if no other edit shares it."""
        told = re.findall(r"^fn (\S+): (.*)$", output, re.M)
        others = {what for name, what in told if not self.owns(name)}
        if self.proved and others != {"proved"}:
            return f"BAD EDIT: what it changes is not proved: {others}"
        for name, what in told:
            called = re.findall(r"`([^`]*)`", what.partition("it calls ")[2])
            is_refused = what.startswith(("not proved", "no proof")) and "could not tell" not in what
            if is_refused and all(map(self.owns, [name, *called])):
                return f"refused: {name}: {what}"
        return f"NOT REFUSED: {[it for it in told if self.owns(it[0])]}"


def edits_of(crate):
    """The edits of a crate: those of `must-fail/`, and those that the crate itself has, which stand in the gate."""
    text = "\n".join(it.read_text(encoding="utf-8") for it in sorted(Path("must-fail", crate.name).glob("*")))
    for path in sorted(Path("crates", crate.name, "must-fail").glob("*")):
        text += f"\nedit: {path.stem} gate\n{path.read_text(encoding='utf-8')}"
    edits = [Edit(crate, it) for it in re.split(r"^(?=edit:)", text, flags=re.M) if it.strip()]
    number = Counter(it.name for it in edits)
    for it in edits:
        if number[it.name] > 1:
            it.answers("BAD EDIT: another edit has its name")
    return edits


def applied(edits):
    """The texts of the files that these edits change, or None and the reason, if an old text isn't there once."""
    return kit.edited("\n".join(it.text for it in edits), f"crates/{edits[0].below or edits[0].crate.name}")


def group_of(edits):
    """Those of the edits that are tried next, in one check: no two of them change one function or one line. Those of
    functions with many edits come first, so that there are few checks."""
    number, group = Counter(name for it in edits for name in it.functions), []
    for edit in sorted(edits, key=lambda it: -max(map(number.get, it.functions))):
        more = [*group, edit]
        functions = [name for it in more for name in it.functions]
        is_fit = len(more) <= AT_ONCE and len({*functions}) == len(functions) and not any(it.is_alone for it in more)
        if not group or is_fit and applied(more)[0]:
            group = more
    return group


def over_changed(edit, texts, room):
    """The edit's crate over the library below that it changes, of which a copy with these texts is made in the room.
    That library and those above it are read as texts, the others as they were built."""
    crate, words = kit.Crate(edit.crate.folder, os.getcwd(), {}), []
    changed = next(it for it in crate.below() if it.name == edit.below)
    shutil.copytree(changed.folder, room, ignore=shutil.ignore_patterns("out"), dirs_exist_ok=True)
    for path, text in texts.items():
        Path(room, path).write_text(text, encoding="utf-8")
    changed.folder = room
    for it, source in zip(crate.below(), crate.sources_below()[1::2]):
        words += ["--lib", source] if changed in (it, *it.below()) else ["--extern", f"{it.name}={it.rlib}"]
    crate.sources_below, crate.words = lambda: words, functools.partial(crate.words, as_source=True)
    return crate


def attempt(edits, kept):
    """Tries edits in one check, which is made once more if a signal ends it, as where memory runs out. Of several edits
    it answers for those alone that are refused. If none is, each has a check of its own next."""
    texts, names = applied(edits)[0], [name for it in edits for name in it.functions + it.proved]
    flags = ["--jobs", "1", *(word for name in names for word in ("--only", name))]
    with tempfile.TemporaryDirectory() as room:
        crate, changed = (over_changed(edits[0], texts, room), {}) if edits[0].below else (edits[0].crate, texts)
        ran = kit.checked(crate, changed, flags, kept)
        ran = ran if ran.returncode >= 0 else kit.checked(crate, changed, flags, kept)
    lines = ran.stdout.rstrip("\n").split("\n")
    # (what depends on a rejected lemma isn't checked, and antt says so of a file, not of a name)
    unread = [it for it in lines if kit.unread(it, texts) and "which was rejected" not in it]
    unread = unread or lines[: 0 if lines[-1].startswith("only=") else 6]
    for it in edits:
        answer = f"BAD EDIT: it does not reach the prover: {' / '.join(unread)}" if unread else it.verdict(ran.stdout)
        if answer.startswith("refused") or len(edits) == 1:
            it.answers(answer)
    if not any(it.answer for it in edits):
        for it in edits:
            it.is_alone = True


def try_all(edits):
    """Tries edits of a crate until each has its answer, or no check may begin."""
    checks, until = 0, float(os.environ.get("MUST_FAIL_UNTIL", "inf"))
    with tempfile.TemporaryDirectory() as kept:
        while time.time() < until and (left := [it for it in edits if not it.answer]):
            attempt(group_of(left), kept)
            checks += 1
    print(f"must-fail {edits[0].crate.name}: {len(edits)} edits in {checks} checks", flush=True)


def is_proved(crate, is_built):
    """Whether the crate is proved without an edit, by what `rt ci` left, or by a check."""
    if is_built:
        return os.path.exists(f"{crate.folder}/out/{crate.name}" if crate.is_program else crate.rlib)
    return not subprocess.run(["rt", "check"], cwd=crate.folder, check=False).returncode


def main(root, words):
    os.chdir(root)
    crates = {it.name: it for it in kit.crates_of(root)}
    edits = [edit for name in sorted(crates) for edit in edits_of(crates[name])]
    options, of_crates = {*words} & {"--built", "--gate"}, {*words} & {*crates}
    of_edits = {*words} - options - of_crates
    if unknown := {*os.listdir("must-fail")} - {*crates} | of_edits - {it.name for it in edits}:
        sys.exit(f"{__doc__}\nno crate or edit: {' '.join(sorted(unknown))}")
    chosen = [it for it in edits if not it.answer and (it.is_in_gate or "--gate" not in options)]
    chosen = [it for it in chosen if it.crate.name in (of_crates or crates) and it.name in (of_edits or [it.name])]
    unproved = [it for it in {it.crate for it in chosen} if not is_proved(it, "--built" in options)]
    for it in (it for it in chosen if it.crate in unproved):
        it.answers("NOT TRIED: its crate is not proved without it")
    of_each = [[it for it in chosen if it.crate is crate] for crate in crates.values()]
    with ThreadPoolExecutor(kit.lanes()) as pool:
        list(pool.map(try_all, sorted(filter(None, of_each), key=len, reverse=True)))
    if late := [it.name for it in chosen if not it.answer]:
        print(f"{len(late)} edits were not tried for want of time: {' '.join(late)}")
    number = Counter(it.answer.partition(":")[0] for it in edits)
    failed = len(edits) - number["refused"] - number[""]
    print(f"{number['refused']} refused, {failed} not, {number['']} untried")
    return failed > 0


if __name__ == "__main__":
    sys.exit(main(Path(__file__).resolve().parent.parent, sys.argv[1:]))
