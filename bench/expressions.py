#!/usr/bin/env python3
"""Times 20,000 SELECTs of expressions on the built program, and prints the figures. Over a second ends with status 1."""
import pathlib
import subprocess
import sys

from timed import fastest

TOP = pathlib.Path(__file__).resolve().parent.parent
STATEMENT = b'SELECT 1 + 2 * 3 - 4, "a" + "b", 5 IN (1, 2, 5);\n'
ROW = b'3, "ab", true\n'
COUNT = 20_000
SECONDS = 1.0
RUNS = 5


def main():
    subprocess.run([TOP / "ql"], stdin=subprocess.DEVNULL, check=True)
    best, shown, peak = fastest(TOP / "crates/ql/out/ql", STATEMENT * COUNT, RUNS)
    right = shown == ROW * COUNT
    print(f"{COUNT:,} statements, {'each with its row' if right else 'WITH OTHER ROWS'}")
    print(f"time {best:.3f} s (best of {RUNS}), peak memory {peak:.0f} MB{'   OVER THE LIMIT' if best > SECONDS else ''}")
    return 0 if right and best <= SECONDS else 1


if __name__ == "__main__":
    sys.exit(main())
