#!/usr/bin/env bash
# Each link of a document, inline or by reference, names a file or folder that is there: without it links would break
# unseen as files move. It prints those that are broken.
cd "$(dirname "${BASH_SOURCE[0]}")/.." || exit 1
grep -oE '(\]\(|^\[[^]]+\]: )[^)#: ]+' *.md docs/*.md crates/*/README.md | sed -E 's/:(\]\(|\[[^]]+\]: )/ /' |
    { while read -r page link; do [ -e "$(dirname "$page")/$link" ] || echo "$page: $link"; done; } | { ! grep .; }
