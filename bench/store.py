#!/usr/bin/env python3
"""Times `cookiejar serial --store FILE` on stores of its form, and prints a row for each.

Usage, where the program is built (by ./cookiejar or .ci/run):

    python3 bench/store.py

Aims on one processor that is else idle: a commit of 512 rows takes at most 3 times what the program `sqlite3` takes for
the same statements in one transaction; a run over a store of 3,300 rows starts within 100 ms.

A commit's time is that of a run that sets 512 cookies, each of its own host, in a new store, less that of the same run
without a store: so it is the time of opening, creating and closing the store too, as sqlite3's is. A start's time is that
of a run of no actor over the rows of 3,300 cookies of 20 keys, less that of the same run without a store: it loads them
all. Each is the best of five, of whole processes.
"""

import json
import os
import shutil
import subprocess
import sys
import tempfile
import time

PROGRAM = os.path.join(os.path.dirname(os.path.abspath(__file__)), "..", "crates", "cookiejar", "out", "cookiejar")
RUNS = 5
COMMITTED = 512
STORED = 3300
KEYS = 20

CREATION = (
    "CREATE TABLE IF NOT EXISTS cookies(host TEXT NOT NULL, name TEXT NOT NULL, path TEXT NOT NULL, value TEXT NOT NULL,"
    " creation INTEGER NOT NULL, expiry INTEGER NOT NULL, access INTEGER NOT NULL, secure INTEGER NOT NULL,"
    " http_only INTEGER NOT NULL, same_site INTEGER NOT NULL, priority INTEGER NOT NULL, PRIMARY KEY(host, name, path)) STRICT;"
)
COLUMNS = "value = excluded.value, creation = excluded.creation, expiry = excluded.expiry, access = excluded.access"
FLAGS = "secure = excluded.secure, http_only = excluded.http_only, same_site = excluded.same_site, priority = excluded.priority"


def script(actors):
    """A script of these actors' steps."""
    return json.dumps({"actors": [{"kind": "fetch", "steps": steps} for steps in actors]}).encode()


def step_set(host, name):
    """A set of a cookie that lasts."""
    return {"line": f"{name}=1; Max-Age=86400", "now": 0, "op": "set", "url": f"http://{host}/"}


def put(host, name):
    """The statement that puts its row."""
    return (
        "INSERT INTO cookies(host, name, path, value, creation, expiry, access, secure, http_only, same_site, priority)"
        f" VALUES('{host}', '{name}', '/', '1', 0, 86400000, 0, 0, 0, 0, 1)"
        f" ON CONFLICT(host, name, path) DO UPDATE SET {COLUMNS}, {FLAGS};"
    )


def best(run):
    """The least time of a run, in milliseconds."""
    times = []
    for _ in range(RUNS):
        times.append(run())
    return min(times) * 1000


def timed(words, given):
    """The time of a process that has this input and must end well."""
    begun = time.perf_counter()
    subprocess.run(words, input=given, stdout=subprocess.DEVNULL, check=True)
    return time.perf_counter() - begun


def commits(room):
    """The time of a commit, and that of sqlite3's, or none where it is missing."""
    hosts = [f"h{n}.test" for n in range(COMMITTED)]
    given = script([[step_set(host, "a") for host in hosts]])
    file = os.path.join(room, "commit.db")

    def fresh(words, text):
        for name in (file, file + "-wal", file + "-shm"):
            if os.path.exists(name):
                os.remove(name)
        return timed(words, text)

    bare = best(lambda: timed([PROGRAM, "serial"], given))
    stored = best(lambda: fresh([PROGRAM, "serial", "--store", file], given))
    other = shutil.which("sqlite3")
    if other is None:
        return stored - bare, None
    text = "PRAGMA journal_mode=WAL; PRAGMA synchronous=FULL;" + CREATION
    text += "BEGIN;" + "".join(put(host, "a") for host in hosts) + "COMMIT;"
    return stored - bare, best(lambda: fresh([other, file], text.encode()))


def starts(room):
    """The time of a start over many rows."""
    file = os.path.join(room, "start.db")
    actors = [[step_set(f"k{key}.test", f"n{n}") for n in range(STORED // KEYS)] for key in range(KEYS)]
    timed([PROGRAM, "serial", "--store", file], script(actors))
    none = script([])
    bare = best(lambda: timed([PROGRAM, "serial"], none))
    return best(lambda: timed([PROGRAM, "serial", "--store", file], none)) - bare


def main():
    if not os.path.exists(PROGRAM):
        sys.exit("bench/store.py: build the program first: ./cookiejar serial < examples/smallest.json")
    with tempfile.TemporaryDirectory() as room:
        ours, other = commits(room)
        if other is None:
            print(f"a commit of {COMMITTED} rows: {ours:.1f} ms; no sqlite3 to compare with")
        else:
            print(f"a commit of {COMMITTED} rows: {ours:.1f} ms; sqlite3: {other:.1f} ms; ratio {ours / other:.2f}")
        print(f"a start over {STORED} rows: {starts(room):.1f} ms")


main()
