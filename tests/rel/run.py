#!/usr/bin/env python3
"""Gives crates/test_rel lines, and compares what it answers with model.py, or with what is written here.

Usage: run.py PROGRAM
"""
import random
import subprocess
import sys

from model import Model

LEVELS = 256
TABLES = 4096
COLUMNS = 256

# Calls with what they need and without it.
ALLOWED = """state/insert 0 1/rollback/commit/truncate 0/drop 0/scan 0 0/CREATE TABLE t (a int64, b string)/begin
CREATE TABLE t (a int64, b string)/CREATE TABLE t (c bool)/state/schema/insert 0 5 65771/insert 0 null null/insert 0 6
insert 0 6 7 8/insert 1 6 7/scan 0 0/scan 0 1/scan 0 2/scan 1 0/fetch 0 1/fetch 0 3/fetch 1 1/change 0 1 7 1/change 0 3 7 1
change 1 1 7 1/change 0 1 7 65771/remove 0 2/remove 0 2/remove 1 1/walk 0/scan 0 18446744073709551615
fetch 0 0/fetch 0 18446744073709551615/scan 4294967295 0/drop 1/truncate 1/state/commit/state/insert 0 1 1/remove 0 1/walk 0"""

# A row of one byte too many, new or changed, ends the relation until all levels are rolled back.
TOO_LONG = """begin/insert 0 8 65772/state/begin/insert 0 1 1/scan 0 0/fetch 0 1/commit/CREATE TABLE s (a bool)/truncate 0/drop 0
rollback/state/walk 0/begin/begin/insert 0 9 9/change 0 1 1 65772/state/rollback/state/rollback/state/walk 0/scan 0 0"""

# Changes of every sort, taken back level by level, and the next id with them.
CHANGES = """begin/insert 0 4 4/begin/insert 0 5 5/change 0 3 6 6/remove 0 1/scan 0 0/walk 0/truncate 0/walk 0
CREATE TABLE s (c bool)/CREATE TABLE m (x blob)/schema/insert 0 17/insert 1 true/insert 2 1 1/drop 2/schema/drop 0/drop 0/schema
CREATE TABLE u (d uint8)/insert 0 255/insert 0 256/insert 0 -1/scan 0 0/schema/rollback/schema/scan 0 0/scan 0 1/walk 0
insert 0 1 1/rollback/walk 0/insert 0 1 1/begin/insert 0 1 1/commit/walk 0/state"""

# Columns that come and go, with rows, and taken back level by level; a row that a new column makes one byte too long.
COLUMN_CHANGES = """widen CREATE TABLE t (a int64, added bool)/narrow 0 CREATE TABLE t (a int64)/begin/widen CREATE TABLE t (added bool)
CREATE TABLE t (a int64, b string)/widen CREATE TABLE t (a int64, b string)/widen CREATE TABLE t (a int64, b blob, added bool)
widen CREATE TABLE s (a int64, b string, added bool)/insert 0 5 3/insert 0 6 null/begin/widen CREATE TABLE t (a int64, b string, added bool)
widen CREATE TABLE t (a int64, b string, added bool, added bool)/schema/scan 0 0/scan 0 1/insert 0 7 1/insert 0 7 1 true/change 0 1 8 8 false
begin/narrow 3 CREATE TABLE t (a int64, b string, added bool)/narrow 2 CREATE TABLE t (a int64, added bool)
narrow 1 CREATE TABLE t (a int64, added bool)/schema/scan 0 0/scan 0 2/insert 0 9 false/narrow 0 CREATE TABLE t (added bool)/schema
scan 0 0/scan 0 3/narrow 0 CREATE TABLE t (b bool)/CREATE TABLE u (a bool)/widen CREATE TABLE t (added bool, added bool)/narrow 0 CREATE TABLE u (a bool)
rollback/schema/scan 0 0/scan 0 2/walk 0/rollback/schema/scan 0 0/scan 0 1/walk 0/insert 0 1 65771/state/rollback/state/schema
begin/CREATE TABLE t (b string)/insert 0 65779/begin/widen CREATE TABLE t (b string, added bool)/scan 0 0/walk 0/rollback/scan 0 0/insert 0 65780
widen CREATE TABLE t (b string, added bool)/state/scan 0 0/begin/narrow 0 CREATE TABLE t (added bool)/rollback/state/schema"""

# What is past a limit of the text of a rule.
LIMITS = [
    ("text 16384", "within"), ("text 16385", "past"), ("brackets 199", "within"), ("brackets 200", "past"),
    ("default 16382", "ok"), ("default 16383", "limit"),
]  # fmt: skip


def with_columns(count, last="", first=0):
    return f"CREATE TABLE wide ({', '.join(f'c{place} bool' for place in range(first, count))}{last})"


def lines_of(text):
    return text.replace("\n", "/").split("/")


def deep():
    """As many levels as there may be, with a row in each."""
    lines = []
    for level in range(LEVELS):
        lines += ["begin", f"insert 0 {level} 1"]
    lines += ["state", "walk 0"] + ["rollback", "walk 0"] * (LEVELS // 2)
    lines += ["insert 0 9 9", "walk 0"] + ["commit"] * 3 + ["rollback"] * (LEVELS // 2 - 3) + ["state", "walk 0", "begin", "insert 0 1 1", "rollback"]
    return lines


def wide():
    """256 columns and one more."""
    return ["begin", with_columns(COLUMNS), "schema", "rollback", "begin", with_columns(COLUMNS + 1), "state", "rollback", "state", "schema"]


def wider():
    """A column more than 254, than 255, and than 256."""
    lines = ["begin", with_columns(COLUMNS - 2), "insert 0" + " true" * (COLUMNS - 2), f"widen {with_columns(COLUMNS - 2, ', added bool')}", "schema"]
    lines += ["scan 0 0", "rollback", "begin", with_columns(COLUMNS - 1), f"widen {with_columns(COLUMNS - 1, ', added bool')}", "schema"]
    lines += ["begin", f"narrow 0 {with_columns(COLUMNS - 1, ', added bool', 1)}", "state", "schema", "rollback", "rollback", "begin", with_columns(COLUMNS)]
    return lines + [f"widen {with_columns(COLUMNS - 1, ', added bool')}", "state", "rollback", "state", "schema"]


def many():
    """4,096 tables and one more, which takes back all of them."""
    lines = ["begin"] + [f"CREATE TABLE n{number} (a bool)" for number in range(TABLES)]
    return lines + ["schema", "state", "begin", "CREATE TABLE a (b bool)", "state", "rollback", "state", "rollback", "state", "schema", "drop 0"]


def chance(seed, count):
    """Calls by chance on a few tables with few rows."""
    rng, lines = random.Random(seed), []
    for _ in range(count):
        place, row = rng.choice([0, 0, 0, 1, 1, 2, 3]), rng.randrange(1, 30)
        number, size = rng.randrange(-3, 300), rng.choices(["null", 0, 1, 65771, 65772], [5, 20, 20, 4, 1])[0]
        lines += rng.choices(
            [
                ["begin"], ["commit"], ["rollback", "schema", "walk 0", f"scan 0 {row}"], ["state"], ["schema"],
                [f"CREATE TABLE {rng.choice('abcd')} (x {rng.choice(['int64', 'uint8'])}, y {rng.choice(['string', 'blob'])})"],
                [f"insert {place} {number} {size}"] * 2, [f"change {place} {row} {number} {size}"],
                [f"remove {place} {row}"], [f"fetch {place} {row}"], [f"scan {place} {row}"], [f"walk {place}"],
                [f"truncate {place}"], [f"drop {place}"],
            ],
            [8, 3, 4, 3, 3, 5, 14, 10, 6, 8, 8, 8, 1, 1],
        )[0]  # fmt: skip
    return lines


def fewer(seed, count):
    """Many rows, of which most go by chance, one by one and in runs, with levels in between."""
    rng, lines = random.Random(seed), ["begin", "CREATE TABLE t (x int64, y string)"] + [f"insert 0 {row} 1" for row in range(count)]
    for _ in range(count // 4):
        row = rng.randrange(count + 20)
        lines += rng.choices(
            [
                [f"remove 0 {row}"], [f"remove 0 {gone}" for gone in range(row, row + rng.randrange(2, 300))],
                [f"change 0 {row} 7 2"], [f"fetch 0 {row}"], [f"scan 0 {row}"], ["scan 0 0"], ["walk 0"], ["insert 0 9 3"],
                ["begin", "truncate 0", "insert 0 8 1", "walk 0", "rollback", "walk 0"], ["begin", f"remove 0 {row}", "commit"],
            ],
            [20, 2, 20, 20, 20, 4, 1, 10, 1, 1],
        )[0]  # fmt: skip
    return lines + ["walk 0", "rollback", "schema"]


def answers_of(program, lines):
    done = subprocess.run([program], input="\n".join(lines) + "\n", capture_output=True, text=True)
    if done.returncode != 0 or done.stderr:
        sys.exit(f"the program ended with status {done.returncode}: {done.stderr}")
    return done.stdout.splitlines()


def compare(program, name, pairs):
    answers = answers_of(program, [line for line, _ in pairs])
    wrong = [f"{name}: {line[:60]}: {told}, not {wanted}" for (line, wanted), told in zip(pairs, answers) if told != wanted]
    if len(answers) != len(pairs):
        wrong.append(f"{name}: {len(answers)} answers to {len(pairs)} lines")
    return wrong


def modelled(lines):
    model = Model()
    return [(line, model.answer(line)) for line in lines]


def main():
    program = sys.argv[1]
    plain = lines_of(ALLOWED) + lines_of(TOO_LONG) + lines_of(CHANGES)
    sets = [("calls", modelled(plain + wide() + deep())), ("columns", modelled(lines_of(COLUMN_CHANGES) + wider()))]
    sets += [("tables", modelled(many())), ("limits", LIMITS)]
    sets += [(f"chance {seed}", modelled(chance(seed, 3000))) for seed in range(4)]
    sets += [(f"fewer {seed}", modelled(fewer(seed, 1500))) for seed in range(2)]
    wrong = [line for name, pairs in sets for line in compare(program, name, pairs)]
    print("\n".join(wrong[:20] + [f"{sum(len(pairs) for _, pairs in sets)} calls on tables, {len(wrong)} answered wrongly"]))
    return 1 if wrong else 0


if __name__ == "__main__":
    sys.exit(main())
