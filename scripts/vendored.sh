#!/usr/bin/env bash
# scripts/vendored.sh: a repository that scripts/vendor makes in an empty folder. A program with a layer of the user's
# own is proved and run there, and a second run of scripts/vendor leaves all that is the user's as it is. Without it the
# README's way to use the library could break unseen.
set -euo pipefail
cd "$(dirname "$0")/.."
own=example_own_layer room=$(mktemp -d)
trap 'rm -rf "$room"' EXIT

scripts/vendor --built "$room"
tar c --exclude=out "crates/$own" | tar x -C "$room"
grep "^$own" crates.txt >> "$room/crates.txt"
(cd "$room" && ./prove "$own") | tee "$room/verdict"
grep -q "^$own is proved" "$room/verdict"
(cd "$room/crates/$own" && rt run 2> "$room/log") | diff "crates/$own/stdout" - || { cat "$room/log" && exit 1; }

echo "of the user's own" >> "$room/README.md"
files=(README.md HANDLES crates.txt crates/app "crates/$own")
theirs() { tar -C "$room" -c --sort=name --mtime=@0 --exclude=out "${files[@]}" | sha256sum; }
before=$(theirs)
scripts/vendor --built "$room"
[ "$(theirs)" = "$before" ] || { echo "vendored: a second run changed what is the user's" >&2; exit 1; }
echo "vendored: a user's layer was proved and run in a repository of its own"
