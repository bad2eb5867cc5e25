#!/usr/bin/env python3
"""Times the plans of `eviction`, of a key and of a jar, and prints how the time of a face grows with their number.

Usage, where the program `eviction_bench` is built (by .ci/run, or by `rt run -- key 181 1` in crates/eviction_bench):

    python3 bench/eviction.py

It is no test. All faces of a jar are stale, so of N faces N - 3,000 go; of a key's 181 faces 31 do. A plan sorts once
or twice, so the time of a face may grow with the logarithm of their number. Aim: it grows by no more than a factor of
1.3 beyond that.

The time of a plan is that of a whole process, from its start to its end, the best of seven, over its rounds.
"""

import math
import os
import subprocess
import sys
import time

PROGRAM = os.path.join(os.path.dirname(os.path.abspath(__file__)), "..", "crates", "eviction_bench", "out", "eviction_bench")
RUNS = 7

# Task, faces, rounds, and how many faces go.
PLANS = (("key", 181, 20_000, 31), ("jar", 3301, 1_000, 301), ("jar", 33_000, 100, 30_000))


def measure(task, faces, rounds, going):
    """Runs a task once: the nanoseconds of a face in a plan. Its output has to be how many go."""
    begun = time.perf_counter()
    ended = subprocess.run([PROGRAM, task, str(faces), str(rounds)], stdout=subprocess.PIPE, check=False)
    spent = time.perf_counter() - begun
    if ended.returncode != 0 or ended.stdout.strip() != str(going).encode():
        sys.exit(f"bench: {task} ended with {ended.returncode} and {ended.stdout!r}")
    return 1e9 * spent / (rounds * faces)


def main():
    if not os.access(PROGRAM, os.X_OK):
        sys.exit("bench: eviction_bench isn't built: run .ci/run first, or rt run -- key 181 1 in crates/eviction_bench")
    print(f"{'task':>5} {'faces':>6} {'ns a face':>10} {'growth':>7} {'less log':>9}")
    before = None
    for plan in PLANS:
        task, faces = plan[:2]
        each = min(measure(*plan) for _ in range(RUNS))
        growth = ""
        if before and before[0] == task:
            ratio = each / before[2]
            growth = f"{ratio:>7.2f} {ratio * math.log2(before[1]) / math.log2(faces):>9.2f}"
        print(f"{task:>5} {faces:>6} {each:>10.1f} {growth}")
        before = (task, faces, each)


if __name__ == "__main__":
    main()
