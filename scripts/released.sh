#!/usr/bin/env bash
# scripts/released.sh: a release that scripts/release packs is unpacked in an empty folder, and its program is proved
# there, without its libraries, by at most two minutes of a processor. Without it a release could prove all anew unseen.
set -euo pipefail
cd "$(dirname "$0")/.."
room=$(mktemp -d)
trap 'rm -rf "$room"' EXIT
scripts/release --built "$room/tower.tar.gz"
tar -C "$room" -xzf "$room/tower.tar.gz"
cd "$room/tower"
(ulimit -t 120 && ./prove app) 2>&1 | tee "$room/said"
grep -q '^app is proved' "$room/said"
if grep -qE 'librar(y|ies)' "$room/said"; then
    echo "released: its libraries were proved anew" >&2
    exit 1
fi
[ "$(cd crates/app && rt run 2> /dev/null | tail -n 1)" = "half of the square is 40" ]
echo "released: the program of a release was proved in $SECONDS seconds, with packing"
