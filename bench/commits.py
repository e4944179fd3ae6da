#!/usr/bin/env python3
"""Times commits through crates/test_commits on real files in the temporary folder beside sqlite3's transactions, and one commit of
64 MiB beside writing and syncing 128 MiB plainly, counts the device calls of a commit, and prints the figures.

Run `rt run < stdin` in crates/test_commits first, which builds out/test_commits. A figure beyond its limit ends with status 1.
"""
import os
import sqlite3
import sys
import tempfile
import time

from timed import run

TOP = os.path.dirname(os.path.dirname(os.path.abspath(__file__)))
PROGRAM = os.path.join(TOP, "crates", "test_commits", "out", "test_commits")
COMMITS, PAGE, PLACES = 1000, 4096, 64
# The batch and a sync, the gate and a sync, the page, the cut and a sync, the gate, a sync and a cut.
CALLS = 10 * COMMITS
PLAIN = 128 << 20
PIECE = 1 << 20
RUNS = 3  # the fastest of them counts
TIMES = 3.0  # how often the time of writing 128 MiB plainly the commit of 64 MiB may take


def commits(folder, turn):
    """What the program says of device calls, the seconds of its commits of a page, and those of its long commit."""
    shown, times, _ = run(PROGRAM, b"", os.path.join(folder, f"commits{turn}"))
    return shown, times[0], times[1]


def transactions(folder, turn, mode):
    """The seconds of as many transactions of sqlite3 that each write a page."""
    base = sqlite3.connect(os.path.join(folder, f"{mode}{turn}"), isolation_level=None)
    base.execute(f"PRAGMA journal_mode={mode}")
    base.execute("PRAGMA synchronous=FULL")
    base.execute("CREATE TABLE pages (place INTEGER PRIMARY KEY, page BLOB)")
    page = b"\x5a" * PAGE
    start = time.perf_counter()
    for number in range(COMMITS):
        base.execute("INSERT OR REPLACE INTO pages VALUES (?, ?)", (number % PLACES, page))
    taken = time.perf_counter() - start
    base.close()
    return taken


def plainly(folder, turn):
    """The seconds of writing and syncing a file."""
    piece = b"\x5a" * PIECE
    start = time.perf_counter()
    with open(os.path.join(folder, f"plain{turn}"), "wb", buffering=0) as file:
        for _ in range(PLAIN // PIECE):
            file.write(piece)
        os.fsync(file.fileno())
    return time.perf_counter() - start


def main():
    with tempfile.TemporaryDirectory() as folder:
        results = [(commits(folder, turn), transactions(folder, turn, "WAL"), transactions(folder, turn, "DELETE"),
                    plainly(folder, turn)) for turn in range(RUNS)]
    shown = results[0][0][0]
    pages, long = (min(result[0][place] for result in results) for place in (1, 2))
    wal, rollback, plain = (min(result[place] for result in results) for place in (1, 2, 3))
    more, slow = shown != f"{COMMITS} commits, {CALLS} calls", long > TIMES * plain
    print(f"{shown} of the device{'   OVER THE LIMIT' if more else ''}")
    print(f"{COMMITS} commits of {PAGE} bytes: {pages:.2f} s; sqlite3: {wal:.2f} s with a log, {rollback:.2f} s with rollback")
    print(f"a commit of 64 MiB: {long:.2f} s, {long / plain:.1f} times 128 MiB written and synced plainly in {plain:.2f} s"
          f"{'   OVER THE LIMIT' if slow else ''}")
    return 1 if more or slow else 0


if __name__ == "__main__":
    sys.exit(main())
