#!/usr/bin/env python3
"""scripts/drops.py: drops each handle, response, worker and task of scripts at each point between two of their lines,
and all of them at once. Without it a drop at another point than those of the scripts could lose a permit, a place or a
message: no contract says what a drop does to others.

At each point one thing is dropped, and the script goes on; or all handles, all responses and all that else there is
are dropped, in each order of these three, and the script ends. In each run, by what was noted, each service, response,
clone and share of a latch was dropped once, nothing else was, and RULES hold, or the run is printed."""
import re
import sys
from itertools import chain, permutations

from common import balance, files_of, play, text_of

# The scripts that are played, by their file and their first line. (After `into_inner` no handle is left.)
PLAYED = (
    r"(permits|concurrency_limit|counting_latch): concurrency_limit\b(?!.*into_inner)|load: pending_requests\b"
    r"|(buffer|buffer_passes|buffer_round_a_limit): buffer|spawn_ready: spawn_ready\b"
)
# What else is dropped, by the first word.
OTHERS = {"buffer": ["worker"], "buffer_round_a_limit": ["worker"], "spawn_ready": ["task", "ended"]}
# In the lines of each run, `ASKED => ANSWER | NOTE | NOTE`, both patterns are found equally often.
RULES = (
    # Each permit that was taken is given back, each wait gets its permit or is cancelled, and all are free at the end.
    (r"latch waited(?!.*latch dropped)", r"latch stepped Release"),
    (r"latch waited Join.*latch dropped", r"latch waited Look(?!.*latch dropped)|latch stepped Cancel"),
    (r"\A.* watched", r"\| (\d+) of \1 permits free\Z"),
    # Once all responses are dropped, no load is counted.
    (r"\nload .*\nend", r"\nload => Count\(0\).*\nend"),
    # Each handle of a buffer parts. Each place is used or given back, and each wait gets its place or its error, or is
    # cancelled. The outcome of each message is told or forgotten, if it was sent to a worker. The worker goes once, and
    # the mail is at its end. A handle that alone is left gets all places, unless the worker failed or is gone.
    (r"\Abuffer|\| Join", r"\| Part"),
    (r"\npoll.*=> ready.*\| (Reserve|Look \d)", r"\| (Send|Unreserve)"),
    (r"\npoll.*=> pending \| Reserve", r"\npoll.*=> (?!pending).*\| Look \d|\| Cancel"),
    (r"=> call (?=(?s:.*)\| WorkerGone)|=> pending \| Outcome \d+\n", r"\| (Outcome|Forget)"),
    (r"\Abuffer", r"\| WorkerGone"),
    (r"\Abuffer", r"\| mail at its end, 0 requests left\Z"),
    (r"\A(?!(?s:.*)\| (Fail|WorkerGone).*\n)(?=(?s:.*)\ncall b 255 )",
     r"\nwork .*(\npoll b => ready.*\ncall b 255 .*)+\npoll b => pending.*\nend"),
    # A slot is aborted once, and each task puts its service or its error back, is gone, or ends by an abort.
    (r"\Aspawn_ready", r"\| Abort\b"),
    (r"\| spawned", r"\| (Put|PutError|TaskGone)\b|=> ended(?!.*\| Put).*\| Aborted"),
)


def variants(before, after):
    """What is asked in each run with a drop between these lines."""
    asked = [it.asked for it in before]
    name = re.match(r"\w+", asked[0])[0]
    handles = ["drop a", *(f"drop {it.answer}" for it in before if re.fullmatch("[a-z]", it.answer))]
    responses = [it.answer.replace("call", "drop") for it in before if it.answer.startswith("call ")]
    others = [f"drop {it}" for it in OTHERS.get(name, [])]
    for drop in [*handles, *responses, *others]:
        yield [*asked, drop, *(it.asked for it in after)]
    for order in permutations(filter(None, [handles, responses, others])):
        yield [*asked, *chain(*order), "end"]
    if name == "pending_requests":
        yield [*asked, *responses, "load", "end"]
    # The handle b is made first, so the others have the next letters. Once it alone is left, it sends a message for
    # each place. (A buffer of 2^64 - 1 places isn't filled.)
    if places := re.fullmatch(r"buffer (\d{1,4})", asked[0]):
        rest = "\n".join([*asked[1:], *handles, *responses])
        shifted = re.sub(r"\b[b-z]\b", lambda letter: chr(ord(letter[0]) + 1), rest).split("\n")
        polls = ["poll b", "call b 255"] * int(places[1])
        yield [asked[0], "clone", *shifted, "shares 255", "readiness ready", "work", *polls, "poll b", "end"]


def faults(run):
    """Which parts were not dropped as often as they were made or given, and which rules do not hold."""
    text, parts = "\n".join(map(text_of, run)), balance(run)
    # (An `unready` call makes no response by its note, so the drop of its response is one too much.)
    checks = text.count("=> call ") * (" checked" in text)
    parts.subtract(s=1, t=" get_mut" in text, c=checks, latch=not text.startswith("buffer"))
    rules = [rule for rule in RULES if len(re.findall(rule[0], text)) != len(re.findall(rule[1], text))]
    return [f"{number:+} drops of {part}" for part, number in parts.items() if number] + rules


count = 0
for program, name, scripts in files_of(["scripted_pool", "scripted_ware"]):
    played = [it for it in scripts if re.match(PLAYED, f"{name}: {it[0].asked}")]
    cut = [(it[:place], it[place:]) for it in played for place in range(1, len(it))]
    for run in play(program, [run for parts in cut for run in variants(*parts)]):
        count += 1
        if wrong := faults(run):
            sys.exit("\n    ".join([f"drops: {name}: {wrong}", *map(text_of, run)]))
print(f"drops: {count} runs in all")
sys.exit(not count)
