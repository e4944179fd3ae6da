#!/usr/bin/env python3
"""Times one CREATE TABLE, 400 INSERTs of 500 rows each and a SELECT on the built program, and prints the figures."""
import pathlib
import subprocess
import sys

from timed import fastest

TOP = pathlib.Path(__file__).resolve().parent.parent


def script():
    lines = ["CREATE TABLE t (a int64);"]
    for insert in range(400):
        rows = ", ".join(f"({insert * 500 + row})" for row in range(500))
        lines.append(f"INSERT INTO t VALUES {rows};")
    return "\n".join(lines) + "\nSELECT * FROM t;\n"


def main():
    subprocess.run([TOP / "ql"], stdin=subprocess.DEVNULL, check=True)
    text = script().encode()
    best, shown, peak = fastest(TOP / "crates/ql/out/ql", text, 5)
    rows = shown.count(b"\n")
    print(f"script {len(text):,} bytes, {rows:,} rows shown")
    print(f"time {best:.3f} s (best of 5), peak memory {peak:.0f} MB")
    return 0 if rows == 200_000 else 1


if __name__ == "__main__":
    sys.exit(main())
