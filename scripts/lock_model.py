#!/usr/bin/env python3
"""scripts/lock_model.py: the steps of the lock of `tower_latch::guarded` as a transition system, of which every state
that two and three threads can reach is visited. Without it a thread could stay parked while the lock is free, or spin
for as long as another has it: no clause speaks of parking, and a test with threads seldom meets the interleaving.

`BODIES` has the lock's functions line by line, each with the step that it is here. They are compared with the source,
and nothing else there may touch the lock's word. A system call that parks may end for no reason, here too. Each lock
of `FAULTS` has one planted fault, which must be found."""
import re
import sys
from typing import NamedTuple

from common import TOP

BODIES = {
    "lock": [
        ("come", "let (found, mut seat) = self.shared.table.shared.swap_new_seat::<Takes<K>>(0, 1);"),
        ("come", "if found != 0 { self.shared.lock_late::<R, K>(self.rt, found, &mut seat); } seat"),
    ],
    "lock_with": [
        ("come", "let mut seat = token.into_seat::<C>();"),
        ("come", "let found = self.shared.table.shared.swap::<Takes<K>>(&mut seat, 0, 1);"),
        ("come", "if found != 0 { self.shared.lock_late::<R, K>(self.rt, found, &mut seat); } seat"),
    ],
    "lock_late": [
        ("look, again", "if found == 1 && self.looks_home() && self.table.shared.swap::<Takes<K>>(seat, 0, 1) == 0 {"),
        ("again", "return; }"),
        ("mark", "for _ in rt.forever() {"),
        ("mark", "if self.table.shared.swap::<Takes<K>>(seat, 0, 2) == 0 { return; }"),
        ("park", "self.table.shared.park(&rt, 0, 2); } unreachable!()"),
    ],
    "looks_home": [
        ("look", "for _ in 0..LOOKS {"),
        ("look", "if self.table.shared.peek(0) == 0 { return true; }"),
        ("look", "hint::spin_loop(); } false"),
    ],
    "free": [
        ("free", "if self.table.shared.swap::<Frees>(&mut seat, 0, 0) == 2 {"),
        ("wake", "self.table.shared.wake_one(0); }"),
        ("wake", "Token { badge: seat.into_badge(), }"),
    ],
}
TOUCHES = re.compile(r"\.(?:swap\w*|park\w*|wake_(?:one|all)|peek|compare\w*|load\w*|store|fetch_(?!add\(1,)\w*)\b")
BEGINS = "CoreTable::<C>::new(alloc, &[0], slots, &terms)"
# A thread that finds the lock taken parks after so many steps of its own at most, each of some nanoseconds.
MOST_STEPS = 2_000


class Lock(NamedTuple):
    """The lock as it stands, or with a planted fault."""

    looks: int
    mark: int = 2
    parks: bool = True
    wakes: bool = True
    minds_marks: bool = True


def next_steps(lock, word, at):
    """What a thread at a place can do next: the word that it leaves, and the place where it is then."""
    match at:
        case "away" | "again":
            late = f"look {lock.looks}" if at == "away" and (word == 1 or not lock.minds_marks) else "mark"
            return [(1, "holds" if word == 0 else late)]
        case "mark":
            return [(lock.mark, "holds" if word == 0 else "park" if lock.parks else "mark")]
        case "park":
            return [(word, "asleep" if word == 2 else "mark")]
        case "holds":
            return [(0, "wake" if word == 2 and lock.wakes else "away")]
        case "asleep":
            return [(word, "mark")]
    left = int(at.removeprefix("look "))
    return [(word, "again" if word == 0 else "mark" if left <= 1 else f"look {left - 1}")]


def followers(lock, state):
    """Each state that may come after this one, with the place that the thread which makes the step leaves."""
    word, places = state
    for who, at in enumerate(places):
        if at != "wake":
            for new_word, new in next_steps(lock, word, at):
                yield at, (new_word, places[:who] + (new,) + places[who + 1 :])
            continue
        free = places[:who] + ("away",) + places[who + 1 :]
        sleepers = [other for other, place in enumerate(places) if place == "asleep"]
        for other in sleepers:
            yield at, (word, free[:other] + ("mark",) + free[other + 1 :])
        if not sleepers:
            yield at, (word, free)


def can_go_round(edges):
    """Whether some path leads from a state back to it."""
    count = dict.fromkeys(edges, 0)
    for ends in edges.values():
        for end in ends:
            count[end] += 1
    ready = [state for state, before in count.items() if before == 0]
    for state in ready:
        for end in edges[state]:
            count[end] -= 1
            if count[end] == 0:
                ready.append(end)
    return len(ready) < len(edges)


def steps_alone(lock):
    """How many steps a thread makes that finds the lock taken until it is parked, if nobody else moves."""
    word, at, steps = 1, "away", 0
    while at != "asleep" and steps <= MOST_STEPS:
        word, at = next_steps(lock, word, at)[0]
        steps += 1
    return steps


def faults(lock, threads):
    """How many states there are, and what is wrong in one of them."""
    few = lock._replace(looks=min(lock.looks, 2))
    first = 0, ("away",) * threads
    seen, todo, found = {first: []}, [first], set()
    for state in todo:
        _, places = state
        if places.count("holds") > 1:
            found.add("two threads have the lock")
        if "asleep" in places and not {*places} - {"asleep", "away"}:
            found.add("a thread is left parked while the lock is free")
        for at, after in followers(few, state):
            # Nobody need come, whoever has the lock may keep it, and no call that parks need end for no reason.
            if at not in ("away", "holds", "asleep"):
                seen[state].append(after)
            if after not in seen:
                seen[after] = []
                todo.append(after)
    if can_go_round(seen):
        found.add("a thread spins for ever")
    if steps_alone(lock) > MOST_STEPS:
        found.add("a thread looks too long before it parks")
    return len(seen), found


def source_faults(text, looks):
    """What in the source isn't as it is here."""
    spoken = " ".join(re.sub(r"//.*", "", text).split())
    for name, lines in BODIES.items():
        body = "{ " + " ".join(line for _, line in lines) + " }"
        if spoken.count(body) != 1:
            yield f"the body of {name} stands {spoken.count(body)} times in the source as it is in BODIES"
    here = sum(len(TOUCHES.findall(line)) for lines in BODIES.values() for _, line in lines)
    if len(TOUCHES.findall(spoken)) != here:
        yield f"{len(TOUCHES.findall(spoken))} calls touch the lock's word, and here are {here}"
    if spoken.count(BEGINS) != 1:
        yield f"the lock's word doesn't begin as in {BEGINS}"
    if len(looks) != 1:
        yield f"LOOKS has {len(looks)} values"


folder = TOP / "crates/tower_latch/src"
files = [folder / "guarded.rt", *sorted(folder.glob("guarded/*.rt"))]
source = "\n".join(file.read_text(encoding="utf-8") for file in files)
looks = re.findall(r"^const LOOKS: u32 = ([\d_]+);$", source, re.M)
wrong = [*source_faults(source, looks)]
good = Lock(int(looks[0]) if looks else 1)
FAULTS = {
    "it never parks": good._replace(parks=False),
    "it marks one in place of two": good._replace(mark=1),
    "it looks for seconds": good._replace(looks=1_000_000_000),
    "it wakes nobody": good._replace(wakes=False),
    "it takes no heed of a mark that it overwrote": good._replace(minds_marks=False),
}
for threads in (2, 3):
    states, found = faults(good, threads)
    wrong += [f"{threads} threads: {it}" for it in sorted(found)]
    print(f"lock_model: {threads} threads have {states} states")
# (two threads can't overwrite each other's mark)
for name, planted in FAULTS.items():
    found = faults(planted, 3)[1]
    print(f"lock_model: {name}: {', '.join(sorted(found)) or 'NOT FOUND'}")
    wrong += [f"the fault isn't found: {name}"] * (not found)
print(*wrong, f"lock_model: {len(FAULTS)} planted faults, {len(wrong)} astray", sep="\n")
sys.exit(bool(wrong))
