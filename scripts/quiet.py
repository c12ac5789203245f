#!/usr/bin/env python3
"""scripts/quiet.py CRATE..: plays each script of the crates' data/ once more with parts that wake nobody, as `quiet` on
its first line says, with the proved program. Without it a task that is woken for no reason might be polled again at
once, for ever, and one that isn't woken after the last of 64 passes might wait for ever. Each line is as without
`quiet`, but a poll that was pending wakes its task (the note `woken`) exactly if there is a reason. The first line that
isn't so is printed."""
import re
import sys

from common import files_of, play, text_of

# What is noted by each pass of a bounded loop, of which a poll makes 64: of a stream of calls, a balance, a buffer's
# worker, a service that is made ready in a task, and of retries or connections.
PASSES = "requests gave", "discovery (inserted|removed)", "Take|Live", "s pending|Look", r"\w+(\(\d+\))? (ready|error)"
# A clock wakes nobody. A poll looks again at a slot that was aborted, and asks again for a place that was cancelled.
REASONS = r"\| clock read \d+\Z|\| Abort\b|^cancel"


def is_woken(lines):
    """Whether the last of these lines, `ASKED => ANSWER | NOTE | NOTE`, wakes its task, by a poll that was pending."""
    text, last = "\n".join(lines), lines[-1]
    is_last_pass = any(len(re.findall(rf"\| ({it})", last)) == 64 for it in PASSES)
    # A worker gives a place to a handle once it takes a message, and an outcome to a response. Their task is the same.
    answers = dict(re.findall(r"^(?:poll|fut|drop)(?: a)? ?(\w*) => (\w*)", text, re.M))
    waiting = [who for who, answer in answers.items() if answer == "pending"]
    gives = any(re.search(r"\| (Answer|Fail)" if who.isdigit() else r"\| Take \|", last) for who in waiting)
    return is_last_pass or bool(re.search(REASONS, text, re.M)) or last.startswith("work ") and gives


woken = []  # of each poll that was pending, whether its task was
for program, name, scripts in files_of(sys.argv[1:]):
    asked = [[line.asked for line in script] for script in scripts]
    for script, quiet in zip(play(program, asked), play(program, asked, "; quiet")):
        lines = list(map(text_of, script))
        for place, expected in enumerate(lines[1:], 1):
            if script[place].answer == "pending":
                woken.append(is_woken(lines[: place + 1]))
                expected += " | woken" * woken[-1]
            if text_of(quiet[place]) != expected:
                sys.exit(f"quiet: {name}: {lines[0]}\n    expected {expected}\n    came     {text_of(quiet[place])}")
print(f"quiet: {len(woken)} polls were pending, of which {sum(woken)} woke their task")
sys.exit(not any(woken))
