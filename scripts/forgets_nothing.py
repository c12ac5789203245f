#!/usr/bin/env python3
"""scripts/forgets_nothing.py: no contract sees a leak, so without this a value of the library could end without its
drop unseen. It prints each place where one may, with status 1: what the kit's std has for it, however that is called or
imported; `unsafe` code (`unsafe impl` is none); a `static`; and a pattern that takes a value apart whose type has a
`drop` of its own, which isn't called then. Only that `drop` may do so, and the functions that are ALLOWED, whose
contracts say what they return in its place, or that they make its step. No import renames such a type."""
import re
import sys

from common import TOP

ALLOWED = r"tower_limit/src/limit/concurrency/(semaphore\.rt:(into_token|release)|future\.rt:into_permit)"
NAMES = "forget(_promise)?|ManuallyDrop|MaybeUninit|leak|into_raw(_with_allocator|_parts)?|from_raw(_parts(_mut)?)?"
REFUSED = re.compile(rf"\b({NAMES})\b|\bunsafe\b(?! +impl\b)|(?<!')\bstatic\b")
DROPS = re.compile(r"^impl\b[^{]*?\bDrop\s+for\s+(\w+)", re.M)
# After a pattern's braces come those that end a pattern around them, and then what follows it: `=`, `=>`, `|`, a type.
AFTER = r"(?:[^;{}=]*?\))*\s*(?:if\b[^;{}]*?)?(?:=>|=(?![=>])|\|(?!\|)|:(?!:))"


def taken_apart(texts):
    """Where the files of a crate take such a value apart, or rename its type. (Other crates don't see its fields.)"""
    whole = "\n".join(texts.values())
    types = DROPS.findall(whole)
    types += [alias for alias, of in re.findall(r"\btype (\w+)[^;]*?=\s*(?:\w+::)*(\w+)", whole) if of in types]
    types = "|".join(types) or "No"
    apart = re.compile(rf"\b(?:Self|{types})(?:::<[^{{}};]*>)?\s*\{{[^{{}}]*\}}{AFTER}|\b(?:{types})\s+as\s+\w+")
    for path, it in ((path, it) for path, text in texts.items() for it in apart.finditer(text)):
        # Of what stands before it: the blocks that begin or end there, and the last function.
        blocks = re.findall(r"^(?:impl\b[^{]*|\})", it.string[: it.start()], re.M)
        function = re.findall(r"\bfn (\w+)|$", it.string[: it.start()])[-2:][0]
        if not (function == "drop" and DROPS.match(blocks[-1])) and not re.fullmatch(ALLOWED, f"{path}:{function}"):
            yield path, it


crates, found = sorted(TOP.glob("crates/tower*")), []
for crate in crates:
    paths = sorted(crate.glob("src/**/*.rt"))
    files = {str(it.relative_to(crate.parent)): re.sub("//.*", "", it.read_text(encoding="utf-8")) for it in paths}
    found += [(path, it) for path, text in files.items() for it in REFUSED.finditer(text)] + [*taken_apart(files)]
for path, it in found:
    print(f"{path}:{it.string.count(chr(10), 0, it.start()) + 1}: {' '.join(it[0].split())}")
sys.exit(bool(found) or not crates)
