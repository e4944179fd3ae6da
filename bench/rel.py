#!/usr/bin/env python3
"""Times tables in memory through crates/test_rel, and prints the figures.

Run `rt run` in crates/test_rel first, which builds out/test_rel. The times are those of the whole program, the reading of its
lines included. A figure beyond its limit ends with status 1.
"""
import os
import sys

from timed import fastest

TOP = os.path.dirname(os.path.dirname(os.path.abspath(__file__)))
PROGRAM = os.path.join(TOP, "crates", "test_rel", "out", "test_rel")
RUNS = 3  # the fastest of them counts
ROWS, MANY, FEW, TABLES = 1_000_000, 100_000, 40_000, 4096
MEMORY = 400  # MB
TABLE = ["begin", "CREATE TABLE t (a int64, b bool, c string)"]


def filled(count):
    return TABLE + [f"times {count} insert 0 7 true 8"]


CASES = [
    ("a million rows of three values, added and scanned", filled(ROWS) + ["walk 0"], f"{ROWS} {ROWS}", 2.0),
    (
        "every fifth of 40,000 rows taken away one by one",
        filled(FEW) + [f"remove 0 {row}" for row in range(5, FEW + 1, 5)] + ["walk 0"],
        f"{FEW - FEW // 5} {FEW - 1}",
        1.0,
    ),
    (
        "all but 100 of 100,000 rows taken away one by one",
        filled(MANY) + [f"remove 0 {row}" for row in range(1, MANY - 99)] + ["walk 0"],
        f"100 {MANY}",
        0.5,
    ),
    ("4,096 tables made", ["begin"] + [f"CREATE TABLE t{number} (a bool)" for number in range(TABLES)] + ["walk 4095"], "0 0", 1.0),
]


def main():
    failed = False
    for name, lines, last, limit in CASES:
        seconds, shown, peak = fastest(PROGRAM, ("\n".join(lines) + "\n").encode(), RUNS)
        over = seconds > limit or peak > MEMORY or shown.decode().splitlines()[-1] != last
        failed |= over
        print(f"{name:52} {seconds:7.3f} s {peak:6.0f} MB{'   WRONG OR OVER THE LIMIT' if over else ''}")
    return 1 if failed else 0


if __name__ == "__main__":
    sys.exit(main())
