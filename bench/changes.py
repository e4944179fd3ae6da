#!/usr/bin/env python3
"""Times statements that change tables on the built program, beside sqlite3 in memory, and prints the figures.

The times are those of the whole program, the reading of its script and the showing of its rows included; those of sqlite3 are
of Python's module, in this process, and without showing. A figure of the program beyond its limit, or another answer than the
one wanted, ends with status 1.
"""
import pathlib
import sqlite3
import subprocess
import sys
import time

from timed import fastest

TOP = pathlib.Path(__file__).resolve().parent.parent
RUNS = 5  # the fastest of them counts
MADE, MANY, STATEMENTS = 40_000, 100_000, 200


def made_rows():
    """The tables of a long run of single inserts, then a DELETE and an UPDATE with conditions, and two counts."""
    yield "CREATE TABLE made (a int64, b int64, s string);"
    for row in range(1, MADE + 1):
        value = 37 * row % 100
        yield f'INSERT INTO made VALUES ({row}, {value}, "k{value}");'
    yield "DELETE FROM made WHERE a % 5 == 0;"
    yield "UPDATE made SET b = b + 1 WHERE b < 50;"


def many_rows():
    """A table of three values, filled by statements of many rows each."""
    yield "CREATE TABLE t (a int64, b bool, c string);"
    each = MANY // STATEMENTS
    for first in range(0, MANY, each):
        rows = ", ".join(f'({row}, true, "k{row % 100}")' for row in range(first, first + each))
        yield f"INSERT INTO t VALUES {rows};"


def changed_rows():
    yield from many_rows()
    yield "UPDATE t SET a = a + 1;"


def fewer_rows():
    yield from many_rows()
    yield "DELETE FROM t WHERE a >= 100;"


# a name, the statements, those before it that do not count, the last row that is shown, seconds and MB at most
CASES = [
    ("40,000 INSERTs, a DELETE and an UPDATE with filters", made_rows, None, "made", 0.4, None),
    ("100,000 rows of three values in 200 INSERTs", many_rows, None, "t", 0.3, 100),
    ("UPDATE of every one of 100,000 rows", changed_rows, many_rows, "t", 0.2, None),
    ("DELETE of 99,900 of 100,000 rows", fewer_rows, many_rows, "t", 0.2, None),
]


def beside(statements):
    """The seconds of sqlite3 for the statements in one transaction, and its tables."""
    base = sqlite3.connect(":memory:", isolation_level=None)
    base.execute("BEGIN")
    start = time.perf_counter()
    for statement in statements:
        base.execute(statement.replace('"', "'").replace("==", "="))
    base.execute("COMMIT")
    return time.perf_counter() - start, base


def spelled(value, sort):
    if sort == "b":
        return "true" if value else "false"
    return f'"{value}"' if isinstance(value, str) else str(value)


def main():
    subprocess.run([TOP / "ql"], stdin=subprocess.DEVNULL, check=True)
    program = TOP / "crates/ql/out/ql"
    failed = False
    for name, statements, before, table, limit, memory in CASES:
        texts = list(statements())
        seconds, _, peak = fastest(program, ("\n".join(texts) + "\n").encode(), RUNS)
        other, base = beside(texts)
        if before is not None:
            part = list(before())
            seconds -= fastest(program, ("\n".join(part) + "\n").encode(), RUNS)[0]
            other -= beside(part)[0]
        _, shown, _ = fastest(program, ("\n".join(texts) + f"\nSELECT * FROM {table};\n").encode(), 1)
        kinds = [column[1] for column in base.execute(f"PRAGMA table_info({table})")]
        wanted = [
            ", ".join(spelled(value, kind if table == "t" else "") for value, kind in zip(row, kinds))
            for row in base.execute(f"SELECT * FROM {table} ORDER BY rowid")
        ]
        wrong = shown.decode().splitlines()[-len(wanted) :] != wanted
        over = seconds > limit or (memory is not None and peak > memory)
        failed |= wrong or over
        note = "   WRONG" if wrong else "   OVER THE LIMIT" if over else ""
        print(f"{name:52} {seconds:6.3f} s (at most {limit} s), {peak:4.0f} MB, sqlite3 {other:6.3f} s{note}")
    return 1 if failed else 0


if __name__ == "__main__":
    sys.exit(main())
