#!/usr/bin/env python3
"""Times the lexer through crates/bench_lex on 16 MiB inputs, and prints the figures.

Run `rt run < stdin` in crates/bench_lex first, which builds out/bench_lex. A figure beyond its limit ends with status 1.
Each input is also run at half its size: a time that is far from its double is over the limit too.
"""
import os
import sys

from timed import run

TOP = os.path.dirname(os.path.dirname(os.path.abspath(__file__)))
PROGRAM = os.path.join(TOP, "crates", "bench_lex", "out", "bench_lex")
MIB = 1 << 20
SIZE = 16 * MIB
RUNS = 3  # the fastest of them counts


def rows(size):
    """One INSERT with as many rows as fit."""
    text = bytearray(b"INSERT INTO t VALUES ")
    row = b'(123456, "twenty bytes of text"), '
    return bytes(text + row * ((size - len(text)) // len(row)))


# name, input, limit in seconds (None: no limit of its own), limit in MB of peak memory
CASES = [
    ("rows of an INSERT", rows, 0.5, None),
    ("(1),", lambda size: b"(1)," * (size // 4), 2.0, None),
    ("(", lambda size: b"(" * size, None, 800),
    ("one string", lambda size: b'"' + b"a" * (size - 2) + b'"', None, None),
    ("one raw string", lambda size: b"`" + b"a" * (size - 2) + b"`", None, None),
    ("one line comment", lambda size: b"--" + b"a" * (size - 2), None, None),
    ("one block comment", lambda size: b"/*" + b"*" * (size - 4) + b"*/", None, None),
    ("one identifier", lambda size: b"a" * size, None, None),
    ("one number", lambda size: b"1" * size, None, None),
    ("escapes", lambda size: b'"' + b"\\n" * ((size - 2) // 2) + b'"', None, None),
    ("long escapes", lambda size: b'"' + b"\\U0001F600" * ((size - 2) // 10) + b'"', None, None),
    ("/* that never ends", lambda size: b"/*" + b"* " * ((size - 2) // 2), None, None),
    ("/*/*/*", lambda size: b"/*" * (size // 2), None, None),
    ("keywords", lambda size: b"INTO " * (size // 5), None, None),
    ("blanks", lambda size: b" " * size, None, None),
]


def main():
    failed = False
    print(f"{'input, 16 MiB':22} {'s':>7} {'half':>7} {'MB':>6}  answer")
    for name, make, seconds, memory in CASES:
        half = min(run(PROGRAM, make(SIZE // 2))[1][0] for _ in range(RUNS))
        results = [run(PROGRAM, make(SIZE)) for _ in range(RUNS)]
        answer, time, peak = results[0][0], min(r[1][0] for r in results), max(r[2] for r in results)
        over = (seconds and time > seconds) or (memory and peak > memory) or time > 4 * half + 0.2
        failed |= bool(over)
        print(f"{name:22} {time:7.3f} {half:7.3f} {peak:6.0f}  {answer}{'   OVER THE LIMIT' if over else ''}")
    return 1 if failed else 0


if __name__ == "__main__":
    sys.exit(main())
