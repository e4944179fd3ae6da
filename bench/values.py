#!/usr/bin/env python3
"""Times keys and rows as bytes through crates/bench_value, and prints the figures.

Run `rt run` in crates/bench_value first, which builds out/bench_value. A figure beyond its limit ends with status 1.
"""
import os
import sys

from timed import run

TOP = os.path.dirname(os.path.dirname(os.path.abspath(__file__)))
PROGRAM = os.path.join(TOP, "crates", "bench_value", "out", "bench_value")
RUNS = 3  # the fastest of them counts
CASES = [("keys of a million numbers", 0.1), ("a million rows of three values, made and read", None)]


def main():
    results = [run(PROGRAM, b"") for _ in range(RUNS)]
    answers = results[0][0].splitlines()
    failed = False
    for place, (name, seconds) in enumerate(CASES):
        time = min(result[1][place] for result in results)
        over = seconds is not None and time > seconds
        failed |= over
        print(f"{name:48} {time:7.3f} s  {answers[place]}{'   OVER THE LIMIT' if over else ''}")
    return 1 if failed else 0


if __name__ == "__main__":
    sys.exit(main())
