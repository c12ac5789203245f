#!/usr/bin/env python3
"""scripts/vocabulary.py: without this, one word would come to name two ideas again. Each word of vocabulary.txt that
has a file there is declared once in the libraries, in this file, and no code of theirs has one of the others, which are
retired. It prints what is otherwise."""
import re
import sys

from common import TOP

DECLARES = re.compile(
    r"^\s*(?:(?:pub(?:\([a-z]+\))?|abbrev|unfoldable) )*"
    r"(?:struct|enum|trait|type|record|data|abbrev|unfoldable)(?: pub)? (\w+)", re.M)
WORDS = dict(re.findall(r"^(\w+)(?:: (.*))?$", (TOP / "scripts/vocabulary.txt").read_text(encoding="utf-8"), re.M))
files = [it for it in sorted(TOP.glob("crates/tower*/s[rp]*/**/*")) if it.suffix in (".rt", ".antt")]
texts = {str(it.relative_to(TOP / "crates")): re.sub("(//|--).*", "", it.read_text(encoding="utf-8")) for it in files}
declared = [(word, path) for path, text in texts.items() for word in DECLARES.findall(text)]
bad = []
for word, path in WORDS.items():
    if path:
        found = [it for it in declared if it[0] == word]
        bad += [f"{word} is declared in {found}, not once in {path}"] * (found != [(word, path)])
    else:
        retired = re.compile(rf"(?<![\w'-]){word}(?![\w'-])")
        bad += [f"{path} has the retired word {word}" for path, text in texts.items() if retired.search(text)]
print(*bad, f"{len(WORDS)} words, {len(bad)} astray", sep="\n")
sys.exit(bool(bad))
