#!/usr/bin/env python3
"""scripts/refused_scripts.py CRATE..: plays each file of scripts of the crates' data/ once for each allocation, which
is refused, with the proved program. Without it a part could be left behind, or an answer be wrong, once memory was
refused in the middle of a call: no clause says what is kept then. One run does it: it is forked at each allocation
(fork_alloc.c). Each time the program ends for want of its own memory, or nothing changes, or one script goes on in a
known way: that of the plain machine that the row has in `hostile/`, if it is refused room once, or that of the program
in a script that leads to the same state without a refusal."""
import os
import re
import subprocess
import sys
import tempfile
from collections import Counter
from concurrent.futures import ThreadPoolExecutor
from pathlib import Path

from common import TOP, balance, files_of, library_of, play, scripts_of, text_of

sys.path.insert(0, str(TOP / "scripts/hostile"))
import replay

# What a program makes only once the first parts are there, by a word of the first line: a second service, the service
# of a policy with a budget, a stream of calls.
LATER = {"two": "t", "get_mut": "t", "retry_budget": "s", "buffer_beside_a_stream": "requests"}
# What else leads to the state after a refusal, by how the row begins: a share alone; an executor that has no room.
INSTEAD = {"semaphore": ["share"], "spawn_ready": ["room 0", "{}", "room 255"]}
OVER = "the script is over"


def is_over(base, came):
    """Whether the first line made nothing, so that no other was played: all that was given and made was dropped. A
    latch that was itself refused isn't dropped, and may have been asked for before any part was made."""
    given, dropped = +balance(base), balance(came)
    for word in re.findall(r"\w+", base[0].asked):
        del given[LATER.get(word)], dropped[LATER.get(word)]
    is_dropped = dropped in (given, given - Counter(["latch"])) or "latch" in given and not any(it.notes for it in came)
    are_over = all(OVER in it.asked for it in came[1:-1]) and came[-1] == ("end", "", "")
    return is_dropped and are_over and came[0].answer == "out of memory"


def told(lines):
    """The lines without counts, which say nothing that the notes don't, and with each copy named by the order in which
    they come: a refused call may have made some."""
    names, text = {}, "\n".join(text_of(it) for it in lines if not it.asked.startswith("count "))
    return re.sub(r"\b([a-z])\d+\b", lambda it: names.setdefault(it[0], f"{it[1]}#{len(names)}"), text)


def is_as_without(program, base, came, at, begun):
    """Whether the script goes on as without the refused line, or as with others in place of it. This line was refused
    memory, and its notes are the first of the expected ones and then drops of what it made; or it is one of those."""
    line, asked = came[at], [it.asked for it in base]
    is_cut = f"{text_of(base[at]._replace(answer=line.answer))} | ".startswith(f"{begun} | ")
    is_cut = is_cut and "out of memory" in line.answer and not any(balance([line]).values())
    instead = [it.format(asked[at]) for row, lines in INSTEAD.items() if asked[0].startswith(row) for it in lines]
    plays = play(program, [[*asked[:at], *it, *asked[at + 1 :]] for it in ([], instead)])
    wanted, ends = told(came[:at] + came[at + 1 :]), (at, at + len(instead))
    return any((is_cut or line in it[at:end]) and told(it[:at] + it[end:]) == wanted for it, end in zip(plays, ends))


def is_known(program, base, came):
    """Whether a script may go on in this way, which isn't that with ample memory. Where a waker found no room a poll
    wakes its task, and who wasn't kept may not be woken later: all else is as with ample memory."""
    place = next(at for at, (line, other) in enumerate(zip(base, came)) if line != other)
    bare = [[it._replace(notes=re.sub("(; )?woken$", "", it.notes)) for it in lines] for lines in (base, came)]
    begun = re.sub(r"( \| \S+ dropped)+$", "", text_of(came[place]))
    if (-balance(came)).total() > (-balance(base)).total():
        return False
    if is_over(base, came):
        return True
    if bare[0] == bare[1]:
        return [at for at, (line, other) in enumerate(zip(base, came)) if len(line.notes) < len(other.notes)] == [place]
    if machine := replay.machine_of(base[0].asked):
        asked = tuple(it.asked for it in base)
        base, came = [[it._replace(notes=machine.settled(it.asked, it.notes)) for it in lines] for lines in bare]
        refused = machine.refused(asked, place, lambda count: count >= begun.count(" | "))
        return base == machine.whole(asked).lines and came in refused
    return place > 0 and is_as_without(program, base, came, place, begun)


def refuse_each(program, name, scripts):
    """Plays the scripts once for each allocation, `quiet` so that wakes show. Did they go on after each refusal?"""
    asked = "\n\n".join("\n".join([f"{first.asked}; quiet", *(it.asked for it in rest)]) for first, *rest in scripts)
    with tempfile.TemporaryDirectory() as room, open(f"{room}/out", "wb") as out, open(f"{room}/err", "wb") as err:
        Path(room, "asked").write_text(asked, encoding="utf-8")
        env, met = {**os.environ, "LD_PRELOAD": library_of(room, "fork_alloc"), "FORK_ALLOC": room}, []
        subprocess.run([program, "--write", f"{room}/asked"], stdout=out, stderr=err, env=env, timeout=600, check=True)
        read = lambda name: Path(room, name).read_text(encoding="utf-8")
        ends, ample = read("statuses").splitlines(), read("out")
        for number, status in map(str.split, ends):
            text, why = read(f"{number}.out"), read(f"{number}.err")
            if (status, text) == ("0", ample) or status == "256" and "OutOfMemory" in why:
                continue
            base, plays = scripts_of(ample), scripts_of(text)
            differ = [pair for pair in zip(base, plays) if pair[0] != pair[1]]
            if status != "0" or len(plays) != len(base) or [is_known(program, *it) for it in differ] != [True]:
                where = f"refused_scripts: {name}, allocation {number}, status {status}: {why}"
                sys.exit("\n    ".join([where, *(text_of(line) for _, came in differ for line in came)]))
            met.append(OVER not in text)
    print(f"refused_scripts: {name}: {len(ends)} allocations, of which {len(met)} were refused to the library")
    return met


# (`counting_latch` counts the steps of what other files ask with refusals, up to a thousand in a script.)
files = [it for it in files_of(sys.argv[1:]) if it[1] != "counting_latch"]
with ThreadPoolExecutor(os.cpu_count()) as pool:
    total = sum(pool.map(lambda it: refuse_each(*it), files), [])
print(f"refused_scripts: {len(total)} refusals of the library, of which {sum(total)} were played to the last line")
sys.exit(not total)
