#!/usr/bin/env bash
# scripts/lint.sh: reads each Python file of scripts/ by pyflakes (Debian's pyflakes3), or compiles it alone if that
# isn't here, and each shell script by `bash -n`. Without it a name that is wrong in a rare branch, as in a generator of
# scripts/hostile for another SEED, would be seen only in the run that comes there.
set -u
cd "$(dirname "$0")/.." || exit 1
python=(prove $(find scripts -name '*.py')) failed=0
if command -v pyflakes3 > /dev/null; then
    pyflakes3 "${python[@]}" || failed=1
else
    compiles='import sys; [compile(open(it).read(), it, "exec") for it in sys.argv[1:]]'
    python3 -W error -c "$compiles" "${python[@]}" || failed=1
fi
for file in $(grep -lrE '^#!.*bash' test tower-run .ci scripts); do
    bash -n "$file" || failed=1
done
exit "$failed"
