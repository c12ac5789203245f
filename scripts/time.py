#!/usr/bin/env python3
"""scripts/time.py: measures how long proved tests wait, and how long they keep a processor busy. Without it a loop, or
the thread of the timers, could be late, or look for its tasks all the while: no contract speaks of elapsed time, and no
test may measure it. Each is run three times, and the best one counts. A bound is ten times what is expected."""
import os
import resource
import subprocess
import sys
import tempfile
import time

from common import library_of, program_of

# The test, the fewest and the most milliseconds that it takes, and the most of a processor.
ROWS = [
    ("naps::one_task_in_a_loop", 500, 700, 50),
    ("naps::thousand_tasks_in_a_loop", 500, 1500, 400),
    ("naps::one_sleep_beside_timers", 500, 700, 50),
    ("naps::thousand_sleeps_beside_timers", 500, 1500, 400),
    ("naps::seventy_thousand_sleeps_beside_timers", 500, 8000, 6000),
    ("naps::sleep_after_many_rings", 500, 2000, 1000),
]


def measure(test, **fails):
    """The milliseconds of one run, and those of a processor."""
    began, before = time.monotonic(), resource.getrusage(resource.RUSAGE_CHILDREN)
    command, env = [program_of("tests_time", "_tests"), test], {**os.environ, **fails}
    subprocess.run(command, env=env, check=True, capture_output=True, timeout=60)
    after = resource.getrusage(resource.RUSAGE_CHILDREN)
    used = after.ru_utime + after.ru_stime - before.ru_utime - before.ru_stime
    return (time.monotonic() - began) * 1000, used * 1000


def main():
    wrong = 0
    for test, least, most, busy in ROWS:
        runs = [measure(test) for _ in range(3)]
        took, used = min(it[0] for it in runs), min(it[1] for it in runs)
        is_right = least <= took <= most and used <= busy
        wrong += not is_right
        print(f"time: {test}: {took:.0f} ms of {least} to {most}, {used:.0f} ms of a processor of {busy}", flush=True)
    with tempfile.TemporaryDirectory() as room:
        # Without the thread each task asks to be polled again: nothing is late.
        took, _ = measure("naps::one_sleep_beside_timers", LD_PRELOAD=library_of(room, "fail_thread"), FAIL_THREAD="1")
        wrong += not 500 <= took <= 700
        print(f"time: without a thread: {took:.0f} ms")
    sys.exit(wrong != 0)


main()
