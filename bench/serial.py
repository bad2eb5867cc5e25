#!/usr/bin/env python3
"""Times `cookiejar serial` on scripts of its form, and prints a row for each.

Usage, where the program is built (by ./cookiejar or .ci/run):

    python3 bench/serial.py

It compares with nothing, and is no test. Aims on one processor that is else idle: an empty run under 10 ms, 180 steps
under 50 ms and 64 MB, and 180 steps over 9,500 suffix rules under 150 ms, most of it for reading the list, which is to
take under 100 ms; 180 sets with five attributes under 1.3 times those without. An empty run is one whose words are refused, so it reads nothing.

A script of S steps sets H hosts times C cookies, all of one key, and gets with the steps that are left, each time on the
next host; so the answer has C cookies. The suffix list is that of Debian's package publicsuffix where it is there, and
else one of as many rules of our own making; shorter ones are its first rules.

The time is that of a whole process, from its start to its end, the best of five. The memory is the peak that the system
counts for the process. Linux counts what Python held when it started the process as well, so the peak of the empty run
is the least that can be seen here.
"""

import json
import os
import subprocess
import sys
import tempfile
import time

PROGRAM = os.path.join(os.path.dirname(os.path.abspath(__file__)), "..", "crates", "cookiejar", "out", "cookiejar")
REAL_LIST = "/usr/share/publicsuffix/public_suffix_list.dat"
RUNS = 5
MADE_RULES = 9500

# Steps, hosts and cookies of a host of the runs without a suffix list.
SHAPES = ((1, 1, 1), (60, 6, 5), (180, 1, 90), (180, 6, 15), (180, 90, 1))

# Two of them, of which the second has three times the steps and the cookies of the first.
GROWING = ((60, 6, 5), (180, 6, 15))

# Runs of ever more steps over the same cookies.
LONGER = ((180, 30, 3), (2000, 30, 3), (20000, 30, 3))

# A run of sets alone, once with bare lines and once with lines of five attributes.
SETS = (180, 180, 1)
ATTRIBUTES = "; Path=/shop; Max-Age=86400; Secure; HttpOnly; SameSite=Lax"

# The runs over lists: a step alone, which is the time of the list, and 180.
OVER_LISTS = ((1, 1, 1), (180, 6, 15))


def made_rules():
    """Rules of our own: names below 97 others, a few of them wildcards with an exception."""
    rules = []
    for i in range(MADE_RULES):
        above = f"name{i % 97}"
        if i % 50 == 0:
            rules.append(f"*.wide{i}.{above}")
        elif i % 50 == 1:
            rules.append(f"!one.wide{i - 1}.name{(i - 1) % 97}")
        else:
            rules.append(f"rule{i}.{above}")
    return rules


def real_rules():
    """The rules of the package's list, none where it isn't there."""
    if not os.access(REAL_LIST, os.R_OK):
        return []
    with open(REAL_LIST, encoding="utf-8") as lines:
        words = [line.split()[0] for line in lines if line.strip()]
    return [word for word in words if not word.startswith("//")]


def script(steps, hosts, cookies, rules, attributes=""):
    """A script of this many steps: hosts times cookies sets, each host on a path of its own, and then gets."""
    made = []
    for i in range(steps):
        host = i % hosts
        step = {"now": 1000 * i, "op": "get", "url": f"https://host{host}.example.co.uk/shop/{host}/page?n={i}"}
        if i < hosts * cookies:
            step |= {"line": f"n{i // hosts}=v{i}{attributes}", "op": "set"}
        made.append(step)
    whole = {"actors": [{"kind": "fetch", "steps": made}]}
    if rules:
        whole["suffixes"] = "\n".join(["// rules", *rules])
    return json.dumps(whole).encode()


def measure(words, given, wanted):
    """Runs the program once: its milliseconds and its peak memory in MB."""
    with tempfile.TemporaryFile() as source:
        source.write(given)
        source.flush()
        source.seek(0)
        begun = time.perf_counter()
        running = subprocess.Popen([PROGRAM, *words], stdin=source, stdout=subprocess.DEVNULL)
        _, status, used = os.wait4(running.pid, 0)
        spent = time.perf_counter() - begun
    running.returncode = os.waitstatus_to_exitcode(status)
    if running.returncode != wanted:
        sys.exit(f"bench: status {running.returncode} of {words}, and not {wanted}")
    return 1000 * spent, used.ru_maxrss / 1024


def best(words, given, wanted):
    """The least time and the least peak of several runs."""
    runs = [measure(words, given, wanted) for _ in range(RUNS)]
    return min(ms for ms, _ in runs), min(mb for _, mb in runs)


def row(steps, hosts, cookies, rules, attributes=""):
    """Times one script and prints its row: its milliseconds."""
    given = script(steps, hosts, cookies, rules, attributes)
    ms, mb = best(["serial"], given, 0)
    print(f"{steps:>5} {hosts:>6} {cookies:>8} {len(rules):>6} {len(given):>11} {ms:>8.2f} {mb:>8.1f}")
    return ms


def main():
    if not os.access(PROGRAM, os.X_OK):
        sys.exit("bench: the program isn't built: run ./cookiejar or .ci/run first")
    rules = real_rules()
    print("the suffix list is", "the package's" if rules else "of our own making")
    rules = rules or made_rules()
    ms, mb = best(["none"], b"", 2)
    print(f"{'steps':>5} {'hosts':>6} {'cookies':>8} {'rules':>6} {'input bytes':>11} {'ms':>8} {'peak MB':>8}")
    print(f"{'-':>5} {'-':>6} {'-':>8} {'-':>6} {0:>11} {ms:>8.2f} {mb:>8.1f}   an empty run")
    spent = {(shape, 0): row(*shape, []) for shape in SHAPES}
    for count in (len(rules) // 10, len(rules)):
        spent |= {(shape, count): row(*shape, rules[:count]) for shape in OVER_LISTS}

    # What differences of rows tell. A look-up is a part of a step, so what a step costs more over the list bounds it.
    one, many = OVER_LISTS
    lists = spent[one, len(rules)] - spent[one, 0]
    steps = many[0] - one[0]
    over, bare = ((spent[many, count] - spent[one, count]) / steps for count in (len(rules), 0))
    print(f"reading the list: {lists:.2f} ms, {1000 * lists / len(rules):.2f} us a rule")
    print(f"a step more: {1000 * over:.1f} us over the list, {1000 * bare:.1f} us without one")

    # Three times the steps set three times the cookies: an answer has three times as many, and each step copies the jar.
    fewer, more = (spent[shape, 0] for shape in GROWING)
    print(f"growth: {GROWING[1][0] // GROWING[0][0]} times the steps and cookies take {more / fewer:.1f} times the time of a run")

    longer = [row(*shape, []) for shape in LONGER]
    for shape, ms in zip(LONGER, longer):
        print(f"{shape[0]} steps: {1000 * ms / shape[0]:.1f} us a step")
    bare, full = (row(*SETS, [], attributes) for attributes in ("", ATTRIBUTES))
    print(f"lines: {SETS[0]} sets with five attributes take {full / bare:.2f} times those without")


if __name__ == "__main__":
    main()
