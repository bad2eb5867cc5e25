#!/usr/bin/env python3
"""Times a look at a version word against a bare load, and the reuse of a kept text against a load and a copy of it;
then reads of an unchanged document.cookie over the jar that threads share, at 1 and at 4 threads.

Usage, where the programs `reuse_bench` and `jar_bench` are built (by .ci/run, or by `rt run` in their crates):

    python3 bench/reuse.py

It is no test. Both sides of a pair run on one thread in the same proved program, in turn, so the ratio is what counts,
and not the times. A bare load in a loop takes about one cycle of the processor; what a look has more is the count of
looks, and what a reuse has more is the cell, the version and the moment. Aims on a processor that is else idle: a look
takes at most three times a bare load, and a reuse with a copy of its text at most 1.2 times a load with a copy.

The time of a round is that of a whole process, from its start to its end, the best of seven, over its rounds.

Each thread of `jar_bench` reads by a manager and a pass of its own; against it, it loads a word that all threads share
and copies a text of its own. The aim is that a read takes at most 1.5 times as long. Four threads are timed only where
there are as many processors.
"""

import os
import subprocess
import sys
import time

CRATES = os.path.join(os.path.dirname(os.path.abspath(__file__)), "..", "crates")
PROGRAM = os.path.join(CRATES, "reuse_bench", "out", "reuse_bench")
JAR = os.path.join(CRATES, "jar_bench", "out", "jar_bench")
RUNS = 7

# Pairs of tasks, the first of which looks in each round and the second in none; how many rounds; the sum of a round.
PAIRS = (("look", "load", 500_000_000, 1), ("reuse-copy", "load-copy", 20_000_000, 44))

# How many threads read over the shared jar, how many rounds each makes, and the sum of a round.
THREADS = (1, 4)
READS = 10_000_000
READ = 44


def seconds(words, wanted):
    """Runs a program once: the seconds that it takes. Its output has to be the sum and the looks that are wanted."""
    begun = time.perf_counter()
    ended = subprocess.run([str(word) for word in words], stdout=subprocess.PIPE, check=False)
    spent = time.perf_counter() - begun
    if ended.returncode != 0 or ended.stdout.split() != [str(n).encode() for n in wanted]:
        sys.exit(f"bench: {words} ended with {ended.returncode} and {ended.stdout!r}")
    return spent


def measure(task, rounds, each, looks):
    """Runs a task once: the nanoseconds of a round."""
    return 1e9 * seconds((PROGRAM, task, rounds), (rounds * each, rounds * looks)) / rounds


def measure_reads(task, threads, looks):
    """Runs a task of the shared jar once: the rounds a second of all threads."""
    rounds = threads * READS
    return rounds / seconds((JAR, task, threads, READS), (rounds * READ, rounds * looks))


def bench_reads():
    print(f"{'threads':>10} {'reads/s':>12} {'a thread':>12} {'copies/s':>12} {'a thread':>12} {'ratio':>6} (aim 1.5)")
    for threads in THREADS:
        if threads > len(os.sched_getaffinity(0)):
            print(f"{threads:>10} not timed: there are fewer processors")
            continue
        runs = [(measure_reads("reuse", threads, 1), measure_reads("copy", threads, 0)) for _ in range(RUNS)]
        reads, bare = (max(rates) for rates in zip(*runs))
        print(f"{threads:>10} {reads:>12.0f} {reads / threads:>12.0f} {bare:>12.0f} {bare / threads:>12.0f}"
              f" {bare / reads:>6.2f}")


def main():
    for program in (PROGRAM, JAR):
        if not os.access(program, os.X_OK):
            name = os.path.basename(program)
            sys.exit(f"bench: {name} isn't built: run .ci/run first, or rt run in crates/{name}")
    print(f"{'task':>10} {'ns':>7} {'against':>10} {'ns':>7} {'ratio':>6}")
    for task, against, rounds, each in PAIRS:
        runs = [(measure(task, rounds, each, 1), measure(against, rounds, each, 0)) for _ in range(RUNS)]
        ours, bare = (min(times) for times in zip(*runs))
        print(f"{task:>10} {ours:>7.2f} {against:>10} {bare:>7.2f} {ours / bare:>6.2f}")
    bench_reads()


if __name__ == "__main__":
    main()
