#!/usr/bin/env python3
"""scripts/measure/speed.py prints the tables of docs/SPEED.md, of the programs that the gate builds and of RUST, which
scripts/measure/rust/build.sh builds. Without it nobody could see that the library became slower, or the page wrong.

    counts [--write]     instructions a round of each line of the page, by callgrind. The status is 1 if one differs by
                         more than 1. With --write the page gets them, bold above the Rust's, and a new picture.
    memory RUST          bytes of a service and of a place for its response (an `Option` of it); allocations a round
    threads RUST         milliseconds of 100,000 calls with the start of their threads: medians of five runs
    growth FOLDER RUST   polls and instructions a call in a crowd of N (with endpoints, in N rounds)
    flights FOLDER       polls, processor time and lateness of N responses in flight

FOLDER becomes a repository with the library, and with a program of a folder here, which is proved there.
"""
import re
import subprocess
import sys
import timeit
from concurrent.futures import ThreadPoolExecutor
from statistics import median

from beside import BENCH, ROOT, crate_in, head, output, read, row

PAGE, PICTURE = ROOT / "docs/SPEED.md", ROOT / "docs/speed.svg"
LINE = r"(?m)^\|`(\w+)`\|\**(\d+)\**\|(\d*)\|?$"  # a line of the page: its name, our figure and the Rust's, or nothing
CALLGRIND = r"Collected : (\d+)", "--tool=callgrind", "--callgrind-out-file=/dev/null"
MEMCHECK = r"total heap usage: ([\d,]+) allocs", "--tool=memcheck"
NUMBERS = (10, 100, 1_000, 10_000)
KINDS = "limit buffer in_flight call_all call_all_unordered futures_unordered endpoints endpoints_of_one".split()


def per_round(tool, rounds, *words):
    """What valgrind tells of a round: of twice as many rounds less of so many. Their number is the last word."""
    (pattern, *options), how = tool, {"capture_output": True, "text": True, "check": True}
    told = [subprocess.run(["valgrind", *options, *words, str(it)], **how).stderr for it in (rounds, 2 * rounds)]
    once, twice = (int(re.search(pattern, it)[1].replace(",", "")) for it in told)
    return (twice - once) / rounds


def counts(*words):
    page, is_true = PAGE.read_text(encoding="utf-8"), True
    lines = re.findall(LINE, page)
    with ThreadPoolExecutor() as pool:
        counted = list(pool.map(lambda it: round(per_round(CALLGRIND, 2000, BENCH, it[0])), lines))
    for (name, said, rust), found in zip(lines, counted):
        print(f"{name}: {found}, where the page says {said}")
        mark = "**" * bool(rust and found > int(rust))
        page = re.sub(rf"(?m)^(\|`{name}`\|)\**{said}\**(\|{rust}\|?)$", rf"\g<1>{mark}{found}{mark}\2", page)
        is_true = is_true and abs(found - int(said)) <= 1
    if "--write" in words:
        PAGE.write_text(page, encoding="utf-8")
        PICTURE.write_text("\n".join(picture(re.findall(LINE, page))), encoding="utf-8")
    return not is_true and "--write" not in words


def picture(lines):
    """A bar for each line that has the Rust's figure: ours over that, cut off at 2.6."""
    bars = [(name, int(ours), int(rust)) for name, ours, rust in lines if rust]
    end = 18 * len(bars) + 8
    size = f'width="760" height="{end + 22}" font-family="sans-serif" font-size="12"'
    yield f'<svg xmlns="http://www.w3.org/2000/svg" {size}>\n<rect width="100%" height="100%" fill="white"/>'
    for at, (name, ours, rust) in enumerate(bars, 1):
        length, color = 150 * min(ours / rust, 2.6), "#b5513a" if ours > rust else "#3a7a5c"
        yield f'<text x="270" y="{18 * at}" text-anchor="end">{name}</text>'
        yield f'<rect x="280" y="{18 * at - 11}" width="{length:.1f}" height="14" fill="{color}"/>'
        yield f'<text x="{max(length, 150) + 286:.1f}" y="{18 * at}">{ours} : {rust}</text>'
    yield f'<path d="M430 0V{end}" stroke="black"/>'
    yield f'<text x="280" y="{end + 14}">instructions a round, ours : the Rust\'s</text>\n</svg>\n'


def memory(rust):
    ours, theirs = (re.findall(r"(\w+): service (\d+), place (\d+)", output(it, "sizes")) for it in (BENCH, rust))
    theirs = {name: places for name, *places in theirs}
    head("Name", "Service", "Place")
    for name, *places in ours:
        row(f"`{name}`", *map(":".join, zip(places, theirs.get(name, ("", "")))))
    head("Name", "Allocations of a round, ours", "Rust")
    others = ["retry_budget_one_retry", "balance_p2c_64_constant", "buffer_64", "semaphore_take_give"]
    for name in [*theirs, *others, *(f"flight_64_{it}" for it in theirs)]:
        counted = (per_round(MEMCHECK, 2000, *it) for it in ([BENCH, name], [rust, "rounds", name]))
        row(f"`{name}`", *(f"{it:.3g}" for it in counted))


def times(*words):
    """Of each line that a program prints the milliseconds of five runs."""
    runs = [re.findall(r"(?m)^(.*): sum .*, (\d+) us$", output(*words)) for _ in range(5)]
    return {same[0][0]: [int(it) / 1000 for _, it in same] for same in zip(*runs)}


def threads(rust):
    bench, run = (ROOT / f"crates/{it}/out/{it}" for it in ("bench_threads", "tower_run_cli"))
    head("Line", "Threads", "Ours", "Rust", "Ratio")
    for number in ("1", "2", "4", "8"):
        ours, theirs = times(bench, "100000", number), times(rust, "threads", "100000", number)
        storm = lambda: output(run, "storm", number, str(100_000 // int(number)), "1")
        ours["a semaphore of 1"] = [1000 * it for it in timeit.repeat(storm, repeat=5, number=1)]
        for name in ours:
            cells = [f"{median(it):.3g} ({min(it):.3g} to {max(it):.3g})" for it in (ours[name], theirs[name])]
            row(name, number, *cells, f"{median(ours[name]) / median(theirs[name]):.1f}")


def built(folder, line, texts, **more):
    """Proves and builds a crate of the texts of a folder here, and of more. Returns the program."""
    texts = {f"src/{it.stem}.rt": read(it) for it in (ROOT / "scripts/measure" / texts).glob("*.txt")}
    crate = crate_in(folder, line, texts | more)
    subprocess.run(["rt", "run"], cwd=crate, check=True, stdout=sys.stderr)
    return crate / "out" / crate.name


def polls(count, *words):
    """The polls of a call: of tasks and workers (a limit has none), or of responses."""
    told = output(*words, str(count), "1")
    callers, workers, responses, answered = map(int, re.findall(r"\d+", told))
    assert answered == count, told
    return f"{(responses or callers + workers * ('limit' not in words)) / count:.4g}"


def cost(count, *words):
    """The instructions of a call, of as many crowds as make 2,000 calls at least."""
    return f"{per_round(CALLGRIND, -(-2_000 // count), *words, str(count)) / count:,.0f}"


def growth(folder, rust):
    more = {"proofs/endpoints/flights/Invariants.antt": read("scripts/measure/growth/proofs/invariants.txt")}
    for name in ("crowds", "tasks"):
        more[f"src/{name}.rt"] = read(f"crates/tests_buffer/src/polls/{name}.rt").replace("crate::polls::", "crate::")
    line = "growth: tower tower_base tower_latch tower_util tower_limit tower_buffer futures thiserror"
    ours = built(folder, line, "growth", **more)
    for what, measured, kinds in (("Polls", polls, KINDS[:-2]), ("Instructions", cost, KINDS)):
        head(f"{what} a call, ours:Rust", *(f"N = {it:,}" for it in NUMBERS))
        for kind in kinds:
            row(kind, *(f"{measured(it, ours, kind)}:{measured(it, rust, 'growth', kind)}" for it in NUMBERS))


def flights(folder):
    program = built(folder, "bench_flights: tower tower_time tower_ware tower_base futures", "flights")
    for count in ("1", "100", "1000", "10000"):
        print(output(program, count), flush=True)


if __name__ == "__main__":
    parts = {"counts": counts, "memory": memory, "threads": threads, "growth": growth, "flights": flights}
    if not {*parts} & {*sys.argv[1:2]}:
        sys.exit(__doc__)
    sys.exit(parts[sys.argv[1]](*sys.argv[2:]))
