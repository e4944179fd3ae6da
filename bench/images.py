#!/usr/bin/env python3
"""Times the images of 100,000 calls on two files in memory through crates/bench_volume, and prints the figures.

Run `rt run` in crates/bench_volume first, which builds out/bench_volume. A figure beyond its limit ends with status 1.
"""
import os
import sys

from timed import run

TOP = os.path.dirname(os.path.dirname(os.path.abspath(__file__)))
PROGRAM = os.path.join(TOP, "crates", "bench_volume", "out", "bench_volume")
RUNS = 9  # the fastest of them counts
LIMIT = 0.01  # seconds
CASES = [f"{image}, {syncs}" for syncs in ("a sync of each file every five calls", "a sync of each file at the start")
         for image in ("as made stable last", "as read", "as read, with what was written since complemented")]


def main():
    results = [run(PROGRAM, b"") for _ in range(RUNS)]
    answers = results[0][0].splitlines()
    failed = False
    for place, name in enumerate(CASES):
        time = min(result[1][place] for result in results)
        failed |= time > LIMIT
        print(f"{name:88} {time * 1000:6.2f} ms  {answers[place]}{'   OVER THE LIMIT' if time > LIMIT else ''}")
    return 1 if failed else 0


if __name__ == "__main__":
    sys.exit(main())
