#!/usr/bin/env python3
"""Runs the program crates/test_grammar over scripts: run.py PROGRAM. Its last line is 'N passed, N failed'.

The outcomes of table.txt and of the bracket cases below are written by hand, and reference.py is held against them too;
of the random scripts reference.py says what they come to. With --reference alone, the program is left out.
"""
import pathlib
import random
import sys

HERE = pathlib.Path(__file__).resolve().parent
sys.path.insert(0, str(HERE.parent))

import lines
from grammar.reference import outcome
from grammar.scripts import Scripts

RANDOM = 20_000
SEED = 4


def table():
    """The scripts of table.txt with their outcomes."""
    text = (HERE / "table.txt").read_text("utf-8")
    return [tuple(line.split("\t")) for line in text.split("\n") if "\t" in line]


def nested(count, inside):
    return "(" * count + inside + ")" * count


def brackets():
    """At most 200 brackets are open at once, of whatever sort they are."""
    last, rule = nested(200, "1"), "CREATE TABLE t (a int64 "
    subselects = "SELECT * FROM " + "(SELECT * FROM " * 200 + "t" + ")" * 200
    called = "SELECT " + "max(" * 200 + "1" + ")" * 200
    return [
        (f"SELECT {last}", f"SELECT {last} | {last}"),
        (f"SELECT {nested(201, '1')}", "too nested 201"),
        (f"SELECT {nested(201, '')}", "too nested 201"),
        ("SELECT " + "(" * 300, "too nested 201"),
        ("SELECT " + "(" * 200, "unexpected 201"),
        (f"SELECT {last}, {last}", f"SELECT {last}, {last} | {last} | {last}"),
        (f"SELECT {nested(200, 'f(1)')}", "unexpected 202"),
        (f"SELECT {nested(200, 'len(1)')}", "too nested 202"),
        (f"SELECT {nested(200, 'int64(1)')}", "too nested 202"),
        (f"SELECT {nested(200, '1 (')}", "unexpected 202"),
        (f"SELECT {nested(200, '1 IN (2)')}", "too nested 203"),
        (f"SELECT {nested(199, '1 IN (2)')}", f"SELECT {nested(199, '1 IN (2)')} | {nested(199, '[1 IN (2)]')}"),
        (f"SELECT {nested(199, '1 IN (SELECT (2))')}", "too nested 204"),
        (called, f"{called} | {called[7:]}"),
        (called.replace("1", "(1)"), "too nested 401"),
        (subselects, subselects),
        (subselects.replace("t)", "(SELECT 1))"), "too nested 803"),
        (f"SELECT * FROM (SELECT {nested(199, '1')})", f"SELECT * FROM (SELECT {nested(199, '1')})"),
        (f"SELECT * FROM (SELECT {nested(200, '1')})", "too nested 204"),
        (f"SELECT * FROM t LEFT JOIN (SELECT {nested(200, '1')}) ON a", "too nested 207"),
        (f"{rule}{nested(199, 'a')})", f"{rule}{nested(199, 'a')})"),
        (f"{rule}{nested(200, 'a')})", "too nested 205"),
        (f"{rule}DEFAULT {nested(199, '1')})", f"{rule}DEFAULT {nested(199, '1')})"),
        (f"{rule}DEFAULT {nested(200, '1')})", "too nested 206"),
        (f"ALTER TABLE t ADD a int64 {nested(200, 'a')}", f"ALTER TABLE t ADD a int64 {nested(200, 'a')}"),
        (f"ALTER TABLE t ADD a int64 {nested(201, 'a')}", "too nested 206"),
        (f"INSERT INTO t VALUES ({nested(199, '1')})", f"INSERT INTO t VALUES ({nested(199, '1')})"),
        (f"INSERT INTO t VALUES ({nested(200, '1')})", "too nested 204"),
        (f"UPDATE t SET a = {last} WHERE {last}", f"UPDATE t SET a = {last} WHERE {last}"),
        (f"UPDATE t SET a = {last} WHERE ({last})", "too nested 607"),
        (f"SELECT {nested(201, '1')} SELECT", "too nested 201"),
        (f"SELECT FROM {nested(201, '1')}", "unexpected 1"),
    ]


def main():
    program = None if sys.argv[1] == "--reference" else sys.argv[1]
    by_hand = table() + brackets()
    made = [(script, outcome(script)) for script in Scripts(random.Random(SEED)).some(RANDOM)]
    faults = ("unexpected ", "too nested ", "bad ", "unclosed ")
    print(f"{len(by_hand)} scripts by hand; of {RANDOM} random ones {sum(not w.startswith(faults) for _, w in made)} read")
    return lines.run(program, outcome, by_hand, made)


if __name__ == "__main__":
    sys.exit(main())
