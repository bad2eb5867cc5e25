#!/usr/bin/env python3
"""Times how fast `cookiejar serial` reads scripts and writes reports, in MB a second, and prints a row for each.

Usage, where the program is built (by ./cookiejar or .ci/run):

    python3 bench/scripts.py

It compares with nothing, and is no test. Aims on one processor that is else idle: scripts are read at 50 MB a second and
reports printed at 200.

Reading: a script of some 16 MB whose last step isn't built yet, so that it is read whole, with its suffix list, its
places and its test for a deadlock, and refused at the end; no step is run. Its size over the time of the whole process,
less that of an empty run, is what is printed.

Printing: two scripts that differ in their replies alone. Each sets cookies and gets the same URL again and again, once on
the path of the cookies and once beside it, where no reply has a cookie. What the report has more, over what the time is
more, is what is printed: so it has the making of the replies in it, and is less than printing alone.

The time is that of a whole process, from its start to its end, the best of five.
"""

import json
import os
import subprocess
import tempfile
import time

PROGRAM = os.path.join(os.path.dirname(os.path.abspath(__file__)), "..", "crates", "cookiejar", "out", "cookiejar")
RUNS = 5
INPUT = 16_000_000
STEPS = 20_000

# How many cookies a reply has, and how often it is asked for.
COOKIES = 90
GETS = 2000


def fetch(steps):
    """An actor of these steps."""
    return {"kind": "fetch", "steps": steps}


def long_script(actors, kind):
    """A script of some 16 MB whose steps are of one kind, spread over actors, and whose last step isn't built yet."""
    each = STEPS // actors
    room = INPUT // STEPS - 120
    steps = []
    for i in range(each):
        step = {"now": 1000 * i, "op": kind, "url": f"https://host{i % 90}.example.co.uk/shop/page"}
        if kind == "set":
            step["line"] = f"n{i}={'v' * room}"
        else:
            step["url"] += "?n=" + "v" * room
        steps.append(step)
    lists = [fetch(steps) for _ in range(actors)]
    last = dict(lists[-1], steps=steps[:-1] + [{"now": 0, "op": "clear"}])
    return {"actors": lists[:-1] + [last]}


def replies(path):
    """A script of gets of a path, where cookies were set on /shop."""
    url = "https://shop.example.co.uk"
    sets = [{"now": 0, "op": "set", "url": url + "/shop/", "line": f"n{i}=value{i}; Path=/shop"} for i in range(COOKIES)]
    gets = [{"now": 1000, "op": "get", "url": url + path} for _ in range(GETS)]
    return {"actors": [fetch(sets + gets)]}


def timed(words, text):
    """The best time in seconds of a run of these words on an input, its status, and how many bytes it wrote."""
    with tempfile.TemporaryFile() as source:
        source.write(text)
        best = None
        for _ in range(RUNS):
            source.seek(0)
            begin = time.perf_counter()
            done = subprocess.run([PROGRAM, *words], stdin=source, stdout=subprocess.PIPE, check=False)
            took = time.perf_counter() - begin
            best = took if best is None else min(best, took)
    return best, done.returncode, len(done.stdout)


def main():
    empty, _, _ = timed([], b"")
    print(f"{'what':44} {'bytes':>12} {'ms':>8} {'MB/s':>8}")
    print(f"{'an empty run':44} {0:12} {1000 * empty:8.1f}")
    for actors, kind in ((1, "set"), (1, "get"), (50, "set"), (50, "get")):
        text = json.dumps(long_script(actors, kind), separators=(",", ":")).encode()
        took, status, _ = timed(["serial"], text)
        assert status == 3, status
        name = f"reading {STEPS} steps, {kind}s of {actors} actors"
        print(f"{name:44} {len(text):12} {1000 * took:8.1f} {len(text) / (took - empty) / 1e6:8.1f}")
    rows = []
    for path in ("/beside", "/shop/"):
        text = json.dumps(replies(path), separators=(",", ":")).encode()
        took, status, wrote = timed(["serial"], text)
        assert status == 0, status
        rows.append((took, wrote))
        name = f"{GETS} gets of {path}"
        print(f"{name:44} {wrote:12} {1000 * took:8.1f}")
    (bare, few), (full, many) = rows
    name = f"printing replies of {COOKIES} cookies"
    print(f"{name:44} {many - few:12} {1000 * (full - bare):8.1f} {(many - few) / (full - bare) / 1e6:8.1f}")


if __name__ == "__main__":
    main()
