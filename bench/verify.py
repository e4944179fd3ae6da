#!/usr/bin/env python3
"""Times the verifier over contents in memory of used blocks of 100 bytes, through crates/bench_verify, and prints the figures.

Run `rt run` in crates/bench_verify first, which builds out/bench_verify. A figure beyond its limit ends with status 1: less than
200 MB in a second, more than 32 MB beside the content and its bit an atom, or, four times as large a content, more than four times
as long, with NOISE for what one run differs from the next.
"""
import os
import re
import sys

from timed import run

TOP = os.path.dirname(os.path.dirname(os.path.abspath(__file__)))
PROGRAM = os.path.join(TOP, "crates", "bench_verify", "out", "bench_verify")
SIZES = [64 << 20, 256 << 20]  # the bytes of the contents
BLOCK = 112  # the bytes that a block takes
SPEED = 200  # MB in a second, at least
BESIDE = 32  # MB, at most
RUNS = 3  # the fastest of them counts
NOISE = 1.3


def main():
    failed = False
    before = None
    print(f"{'content':>10} {'seconds':>8} {'MB/s':>7} {'limit':>6} {'MB beside':>10} {'limit':>6}")
    for size in SIZES:
        blocks = size // BLOCK
        results = [run(PROGRAM, b"", str(blocks)) for _ in range(RUNS)]
        seconds = min(result[1][0] for result in results)
        bytes_read = 128 + BLOCK * blocks
        numbers = [int(number) for number in re.findall(r"\d+", results[0][0])]
        speed = bytes_read / 1e6 / seconds
        beside = max(result[2] for result in results) - bytes_read / 2**20 - bytes_read / 128 / 2**20
        wrong = numbers != [bytes_read // 16, blocks]
        slow = speed < SPEED or (before is not None and seconds > NOISE * before * size / SIZES[0])
        over = wrong or slow or beside > BESIDE
        failed |= over
        before = seconds if before is None else before
        print(f"{size >> 20:6} MiB {seconds:8.3f} {speed:7.0f} {SPEED:6} {beside:10.1f} {BESIDE:6}{'   OVER THE LIMIT' if over else ''}")
    return 1 if failed else 0


if __name__ == "__main__":
    sys.exit(main())
