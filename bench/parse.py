#!/usr/bin/env python3
"""Times the lexer, the parser and the copying of expressions through crates/bench_parse, and prints the figures. Then it
prints the peak memory of the lexer and the parser alone on three scripts.

Run `rt run < stdin` in crates/bench_parse first, which builds out/bench_parse. A figure beyond its limit ends with status 1.
Each input is also run at half its size: a time that is far from its double is over the limit too. The stack has 8 MB.
"""
import os
import sys

from timed import run

TOP = os.path.dirname(os.path.dirname(os.path.abspath(__file__)))
PROGRAM = os.path.join(TOP, "crates", "bench_parse", "out", "bench_parse")
MILLION = 1_000_000
RUNS = 3  # the fastest of them counts


def rows(size):
    """One INSERT of 16 MiB, where the size is a million."""
    text, row = b"INSERT INTO t VALUES ", b'(123456, "twenty bytes of text"), '
    return text + row * ((16 * (1 << 20) * size // MILLION - len(text)) // len(row))


def nested(opening):
    """Parts of 200 brackets each, side by side, with as many brackets in all as the size."""
    return lambda size: b"SELECT " + (opening * 200 + b"1" + b")" * 200 + b",") * (size // 200)


# name, input, limit in seconds for the lexer and the parser (None: no limit of its own), limit in MB of peak memory
CASES = [
    ("16 MiB of rows", rows, 2.0, 1000),
    ("a chain", lambda size: b"SELECT 1" + b"+1" * size, None, None),
    ("a chain of all levels", lambda size: b"SELECT 1" + b"*1+1<1&&1||1" * (size // 5), None, None),
    ("IN list", lambda size: b"SELECT a IN (" + b"1," * size + b")", None, None),
    ("operators before a part", lambda size: b"SELECT " + b"!" * size + b"1", None, None),
    ("rows", lambda size: b"INSERT INTO t VALUES " + b"(1)," * size, None, None),
    ("fields", lambda size: b"SELECT " + b"a," * size, None, None),
    ("statements", lambda size: b"COMMIT;" * size, None, None),
    ("200 brackets", nested(b"("), None, None),
    ("200 calls", nested(b"max("), None, None),
    ("200 brackets in chains", nested(b"1+("), None, None),
    ("200 lists", nested(b"1 IN ("), None, None),
    ("200 SELECTs", lambda size: (b"SELECT * FROM " + b"(SELECT * FROM " * 200 + b"t" + b")" * 200 + b";") * (size // 200), None, None),
]


SIZE = 16 << 20


def repeated(text, part):
    """A text, and a part behind it as often as it fits into 16 MiB."""
    return text + part * ((SIZE - len(text)) // len(part))


# name, input, limit in MB of the peak memory without copies
MEMORY_CASES = [
    ("200,000 statements", lambda: b'SELECT 1 + 2 * 3 - 4, "a" + "b" == c;\n' * 200_000, 220),
    ("16 MiB of fields", lambda: repeated(b"SELECT 1", b",1"), 450),
    ("16 MiB of rows", lambda: repeated(b"INSERT INTO t VALUES (1)", b",(1)"), 650),
]


def timed(make, size):
    """What the program says, the seconds until lexing, parsing, copying and letting go ended, and the peak memory."""
    results = [run(PROGRAM, make(size), "copy") for _ in range(RUNS)]
    return results[0][0], [min(times) for times in zip(*(r[1] for r in results))], max(r[2] for r in results)


def main():
    failed = False
    print(f"{'input of a million parts':24} {'parsed':>7} {'half':>7} {'in all':>7} {'half':>7} {'MB':>6}  answer")
    for name, make, seconds, memory in CASES:
        _, half, _ = timed(make, MILLION // 2)
        answer, times, peak = timed(make, MILLION)
        if not times:
            sys.exit(f"{name}: {answer}")
        over = (seconds and times[1] > seconds) or (memory and peak > memory)
        over = over or times[1] > 3 * half[1] + 0.1 or times[3] > 3 * half[3] + 0.1
        failed |= bool(over)
        figures = f"{times[1]:7.3f} {half[1]:7.3f} {times[3]:7.3f} {half[3]:7.3f} {peak:6.0f}"
        print(f"{name:24} {figures}  {answer}{'   OVER THE LIMIT' if over else ''}")
    print(f"\n{'memory without copies':24} {'MB':>6} {'limit':>6}  answer")
    for name, make, limit in MEMORY_CASES:
        answer, _, peak = run(PROGRAM, make())
        over = peak > limit
        failed |= over
        print(f"{name:24} {peak:6.0f} {limit:6}  {answer}{'   OVER THE LIMIT' if over else ''}")
    return 1 if failed else 0


if __name__ == "__main__":
    sys.exit(main())
