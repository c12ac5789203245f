#!/usr/bin/env python3
"""scripts/measure/pairs.py FOLDER: tries which middleware of `tower` are proved around which, and prints the table of
crates/tower/README.md. Without it nobody would know which stacks a user can have proved.

For each pair of pairs/wares.txt it writes a function over any runtime `R`, which makes the outer middleware around the
inner one around a service, and calls it once. A pair that isn't proved in one function is tried in more: one makes the
inner middleware, and one, over any `S: Service`, the outer one, and calls it. A hedge goes through three functions, and
each lets one more of its types be a parameter, since a check of them all at once takes minutes. No pair is tried that
the types exclude: the outer one clones what is inside, which isn't `Clone`.

FOLDER becomes a repository with the library and a crate of such functions, which `rt check` proves, a pair at a time.
What it said stays in FOLDER, so that a later run tries only what is left. It takes hours. Under the table are the
messages of what isn't proved in one function.
"""
import re
import subprocess
import sys
from pathlib import Path
from string import Template

from beside import crate_in, head, read, row

SECONDS = 1200  # the processor seconds of a check, after which it is cut off
TEXTS = dict(it.split("\n", 1) for it in read("scripts/measure/pairs/functions.txt").split("== ")[1:])
ROWS = re.findall(r"(?m)^(\w+)(.*?): (.*)", read("scripts/measure/pairs/wares.txt"))
MADE = {name: made for name, _, made in ROWS}
WARES = {name: words.split() for name, words, _ in ROWS if not name.endswith("_around")}


def functions(outer, inner, form):
    """The texts of functions.txt for a pair. A line `WORD? ` is left if the word holds of it, and `WORD! ` if not."""
    made, around = MADE[inner], "buffer_around" if outer == "buffer" else "around"
    if inner == "hedge":
        made, parts = "{}", ["hedge", "hedge_inside", around]
    elif outer == "hedge":
        parts = ["hedge", "hedge_outside"]
    elif form == "one":
        parts = ["one"]
    else:
        parts = ["beside"] if inner == "buffer" else ["any", around]
    stack = MADE[outer] if parts == ["one"] else MADE.get(f"{outer}_around", MADE[outer])
    pools = [place for place, ware in (("inside", made), ("outside", stack)) if "{pool}" in ware]
    holds = {*WARES[outer], *pools, "pools" if pools else "no pools"}
    text = "".join(TEXTS[it] for it in parts).strip() + "\n"
    text = re.sub(r"(?m)^(\w+)([?!]) (.*\n)", lambda it: it[3] * ((it[1] in holds) == (it[2] == "?")), text)
    words = {"pair": f"{outer}_over_{inner}", "outer": outer, "hedge": MADE["hedge"].format("inner")}
    words |= {"made": made.format("Server", pool="inside"), "stack": stack.format("inner", pool="outside")}
    return Template(text).substitute(words, pool="".join(pools[-1:]))


def said_of(folder, outer, inner, form):
    """What the check says of a pair: nothing if it is proved, or a message."""
    log = Path(folder, f"{outer}_over_{inner}.{form}.log")
    if not log.exists():
        text, parts = functions(outer, inner, form), read("scripts/measure/pairs/parts.txt")
        files = {"src/lib.rt": read("scripts/measure/pairs/head.txt") + text, "src/parts.rt": parts}
        crate = crate_in(folder, "pairs: tower futures thiserror", files)
        words = ["bash", "-c", f"ulimit -t {SECONDS}; exec rt check < /dev/null 2>&1"]
        log.write_bytes(subprocess.run(words, cwd=crate, stdout=subprocess.PIPE, check=False).stdout)
    told = log.read_text(encoding="utf-8", errors="replace")
    if re.search(r"(?m)^logic=proved", told):
        return ""
    refused = re.findall(r"(?m)^\w+ pairs::\S+: (?!proved(?:, may wait)?$)(.*)", told)
    failed = [*re.findall(r"(?m)^.*error.*", told), f"the check doesn't end in {SECONDS} processor seconds"]
    return (refused or failed)[0]


def cell(folder, outer, inner, messages):
    """The word of the table for a pair, and the numbers of its messages."""
    if "clones" in WARES[outer] and "clone" not in WARES[inner]:
        return "-"
    said = [said_of(folder, outer, inner, "one")]
    if said[0] and "hedge" not in (outer, inner):
        said.append(said_of(folder, outer, inner, "more"))
    word = "no" if all(said) else "any" if "hedge" in (outer, inner) or said[0] else "yes"
    for message in filter(None, said):
        message = re.sub(r"no proof: (expected .*? in \S+; )?|src/lib\.rt:\d+:\d+: ", "", message)
        message = re.sub(r"\b\w+_(over_\w+|around|beside|made|whole|parts)\b", "..", message)
        messages += [message] * (message not in messages)
        word += f" {messages.index(message) + 1}"
    return word


def main(folder):
    messages = []
    head("over", *(f"`{it}`" for it in WARES))
    for outer in WARES:
        row(f"`{outer}`", *(cell(folder, outer, it, messages) for it in WARES))
    for number, message in enumerate(messages, 1):
        print(f"{number}. {message}")


if __name__ == "__main__":
    main(*sys.argv[1:])
