#!/usr/bin/env python3
"""Times trees of a million pairs with keys of 9 bytes over a heap in memory, through crates/bench_btree, and prints the figures.

Run `rt run` in crates/bench_btree first, which builds out/bench_btree. A figure beyond its limit ends with status 1. From a
tenth of the pairs on, the time of one pair is to grow no more than the levels of the tree do. A million pairs lie outside of what
a processor keeps near, so where the keys come in random order a read of a node takes longer in itself: how much longer is
measured by reading nodes at random, and the growth may be that much larger. NOISE is what one run differs from the next.
"""
import os
import re
import sys

from timed import run

TOP = os.path.dirname(os.path.dirname(os.path.abspath(__file__)))
PROGRAM = os.path.join(TOP, "crates", "bench_btree", "out", "bench_btree")
MILLION = 1_000_000
RUNS = 3  # the fastest of them counts
NOISE = 1.15
PARTS = [  # the seconds that a million pairs may take, and whether the keys come in random order
    ("set in rising order", 5.0, False),
    ("set in random order", 8.0, True),
    ("got in random order", 3.0, True),
    ("passed by a cursor", 3.0, False),
    ("removed in random order", 8.0, True),
]


def measured(count):
    """The numbers of what the program says, the fastest seconds of each part, and the peak memory in MB."""
    results = [run(PROGRAM, b"", str(count)) for _ in range(RUNS)]
    numbers = [int(number) for number in re.findall(r"\d+", results[0][0])]
    return numbers, [min(times) for times in zip(*(result[1] for result in results))], max(result[2] for result in results)


def main():
    few, low, _ = measured(MILLION // 10)
    many, high, peak = measured(MILLION)
    failed = few[2:] != [MILLION // 10] * 4 or many[2:] != [MILLION] * 4
    far = max(1.0, high[-1] / (10 * low[-1]))
    print(f"{'a million pairs':24} {'seconds':>8} {'limit':>6} {'a tenth':>8} {'growth':>7} {'limit':>6} {'levels':>9}")
    for place, (name, limit, is_random) in enumerate(PARTS):
        levels = (few[min(place, 1)], many[min(place, 1)])
        growth = high[place] / (10 * low[place])
        most = NOISE * levels[1] / levels[0] * (far if is_random else 1.0)
        over = high[place] > limit or growth > most
        failed |= over
        print(
            f"{name:24} {high[place]:8.3f} {limit:6} {low[place]:8.3f} {growth:7.2f} {most:6.2f} {levels[0]:4} to {levels[1]:2}",
            f"{'   OVER THE LIMIT' if over else ''}",
        )
    print(f"nodes read at random: {high[-1]:.3f} seconds for a million, {far:.2f} times as long each as with a tenth of them")
    print(f"peak memory {peak:.0f} MB")
    return 1 if failed else 0


if __name__ == "__main__":
    sys.exit(main())
