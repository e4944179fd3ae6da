#!/usr/bin/env python3
"""Runs the program crates/test_check over scripts: run.py PROGRAM. Its last line is 'N passed, N failed'.

The outcomes of table.txt, of the operators with each pair of kinds, and of the pairs of refusals are written by hand or
follow from lists that are, and reference.py is held against them too; of the random scripts reference.py says what they
come to. With --reference alone, the program is left out.
"""
import itertools
import pathlib
import random
import sys

HERE = pathlib.Path(__file__).resolve().parent
sys.path.insert(0, str(HERE.parent))

import lines
from check.reference import outcome
from check.scripts import Changes, Selects

RANDOM = 10_000
RANDOM_CHANGES = 20_000
SEED = 5

SCHEMA = (
    "CREATE TABLE t (a int64, b int8, s string, f bool, x blob); "
    "CREATE TABLE u (a uint8, b int8, d string); "
    "CREATE INDEX ix ON t (a); "
)


def table():
    """The SELECTs of table.txt with their outcomes."""
    text = (HERE / "table.txt").read_text("utf-8")
    return [tuple(line.split("\t")) for line in text.split("\n") if "\t" in line]


# Operators and kinds. A type is a kind, or NULL, or OPEN for integers without a kind.

OPEN = "OPEN"
INTEGERS = ["int8", "int16", "int32", "int64", "uint8", "uint16", "uint32", "uint64"]
SAMPLES = {kind: f"{kind}(1)" for kind in INTEGERS} | {"bool": "true", "string": '"a"', "blob": 'blob("a")'}
KINDS = list(SAMPLES)
SAMPLES |= {"NULL": "NULL", OPEN: "1"}
TYPES = list(SAMPLES)
BYTES = ["string", "blob"]

# what a NULL and an open number may be taken for
AS = {kind: {kind} for kind in KINDS} | {"NULL": set(KINDS), OPEN: set(INTEGERS)}

# operators that want one kind on both sides, with the kinds that they take
ONE_KIND = {op: INTEGERS for op in "* / % & &^ - | ^".split()} | {"+": [*INTEGERS, "string"]}
COMPARED = {op: KINDS for op in ("==", "!=", "=", "<>")}
COMPARED |= {op: [kind for kind in KINDS if kind != "bool"] for op in ("<", "<=", ">", ">=")}
ALL_BUT_BOOL = COMPARED["<"]


def taken(kinds, *types):
    """Whether these types can be one of these kinds together."""
    return bool(set(kinds).intersection(*(AS[each] for each in types)))


def joined(*types):
    """The type of parts of one kind: the kind that one of them has, else int64 where a number is among them."""
    kinds = [each for each in types if each in KINDS]
    return kinds[0] if kinds else "int64" if OPEN in types else "NULL"


def two_sided():
    """Each operator and call of two parts, with the type that it has over two types, or None where it takes them not."""
    for left, right in itertools.product(TYPES, TYPES):
        for op, kinds in ONE_KIND.items():
            both = OPEN if left == right == OPEN else joined(left, right)
            yield "{} " + op + " {}", (left, right), both if taken(kinds, left, right) else None
        for op, kinds in COMPARED.items():
            yield "{} " + op + " {}", (left, right), "bool" if taken(kinds, left, right) else None
        counted = taken(INTEGERS, left) and taken(INTEGERS, right)
        shifted = "int64" if left == OPEN and right != OPEN else left
        for op in ("<<", ">>"):
            yield "{} " + op + " {}", (left, right), shifted if counted else None
        for op in ("&&", "||", "AND", "OR"):
            yield "{} " + op + " {}", (left, right), "bool" if taken(["bool"], left) and taken(["bool"], right) else None
        for function in ("contains", "hasPrefix", "hasSuffix"):
            strings = taken(["string"], left) and taken(["string"], right)
            yield function + "({}, {})", (left, right), "bool" if strings else None
        yield "coalesce({}, {})", (left, right), joined(left, right) if taken(KINDS, left, right) else None
        for form in ("{} IN ({})", "{} NOT IN ({})", "{} IN (NULL, {})"):
            yield form, (left, right), "bool" if taken(KINDS, left, right) else None
        for form in ("{0} BETWEEN {1} AND {1}", "{1} NOT BETWEEN {1} AND {0}", "NULL BETWEEN {} AND {}"):
            yield form, (left, right), "bool" if taken(ALL_BUT_BOOL, left, right) else None


def one_sided():
    """The same of one part."""
    for part in TYPES:
        settled = "int64" if part == OPEN else part
        for op in "+-^":
            yield op + "{}", (part,), part if taken(INTEGERS, part) else None
        yield "!{}", (part,), part if taken(["bool"], part) else None
        yield "({})", (part,), part
        for form in ("{} IS NULL", "{} IS NOT NULL"):
            yield form, (part,), "bool"
        for kind in INTEGERS:
            yield kind + "({})", (part,), kind if taken(INTEGERS, part) else None
        for kind in BYTES:
            yield kind + "({})", (part,), kind if taken(BYTES, part) else None
        yield "bool({})", (part,), "bool" if taken(["bool"], part) else None
        yield "len({})", (part,), "int64" if taken(BYTES, part) else None
        yield "coalesce({})", (part,), settled
        yield "count({})", (part,), "int64"
        counted = "int64" if part == "NULL" else settled
        for function in ("sum", "avg"):
            yield function + "({})", (part,), counted if taken(INTEGERS, part) else None
        for function in ("min", "max"):
            yield function + "({})", (part,), counted if taken(ALL_BUT_BOOL, part) else None


def operators():
    """A script for each of them: whether it has a type, and then with which kinds it can be compared."""
    for form, types, kind in (*one_sided(), *two_sided()):
        expr = form.format(*(SAMPLES[each] for each in types))
        group = " GROUP" if form[:3] in ("cou", "sum", "avg", "min", "max") else ""
        shows = lambda right: "ok -" + group if right else "5 Type"
        selects, wanted = [f"SELECT {expr}"], [shows(kind is not None)]
        for each in KINDS if kind else []:
            selects.append(f"SELECT ({expr}) == {SAMPLES[each]}")
            wanted.append(shows(each in AS[kind]))
        yield "; ".join(selects), " | ".join(wanted)


def clauses():
    """The types that WHERE, LIMIT and OFFSET take."""
    for part in TYPES:
        sample = SAMPLES[part]
        yield f"SELECT 1 WHERE {sample}", "ok -" if taken(["bool"], part) else "5 Type"
        yield f"SELECT 1 LIMIT {sample}", "ok -" if taken(INTEGERS, part) else "5 Type"
        yield f"SELECT 1 OFFSET {sample}", "ok -" if taken(INTEGERS, part) else "5 Type"


# Pairs of refusals: of two the first one counts

REFUSED = {
    "2 NoColumn nosuch": "nosuch",
    "3 Ambiguous a": "a",
    "5 Type": '(1 + "a")',
    "6 Count": "len()",
    "7 ConstantRange": "uint8(300)",
    "8 Aggregate": "sum(count())",
    "10 Later": '("a" LIKE "a")',
}
BESIDE = ["{} == {}", "{} + {}", "{} << {}", "{} && {}", "{} LIKE {}", "{} IN ({})", "1 IN ({}, {})", "1 BETWEEN {} AND {}"]
BESIDE += ["coalesce({}, {})", "contains({}, {})", "len({}, {})", "id({}, {})", "-({}) * {}", "1 + {} + {}", "int8({} - {})"]
AROUND = ["1 + ({} IS NULL)", "len({}, 1)", "coalesce(int8(1), 300, {})", "sum({})", "{} LIKE 1", "{} IN (SELECT 1)"]

# what may be wrong in each part of a SELECT over t and u
SEES_ROW = REFUSED
SEES_NOTHING = {refusal: text for refusal, text in REFUSED.items() if text != "a"}
PARTS = [
    (" FROM {}", {"1 NoTable nosuch": "t, nosuch", "3 Ambiguous t": "t, t", "10 Later": "t, __Table"}, "t, u"),
    (" LEFT JOIN {}", {"10 Later": "nosuch ON nosuch"}, None),
    (" WHERE {}", SEES_ROW, None),
    (" GROUP BY {}", {"2 NoColumn nosuch": "nosuch", "3 Ambiguous a": "a"}, None),
    ("SELECT {}", SEES_ROW, "1"),
    (" ORDER BY {}", SEES_ROW, None),
    (" LIMIT {}", SEES_NOTHING, None),
    (" OFFSET {}", SEES_NOTHING, None),
]


def pairs():
    for (refusal, first), second in itertools.product(REFUSED.items(), REFUSED.values()):
        for form in BESIDE:
            yield f"SELECT {form.format(first, second)} FROM t, u", refusal
            yield f"SELECT s FROM t, u WHERE 1 < {form.format(first, second)}", refusal
    for (refusal, text), form in itertools.product(REFUSED.items(), AROUND):
        yield f"SELECT s FROM t, u WHERE {form.format(text)}", refusal
        yield f"SELECT s FROM t, u ORDER BY {form.format(text)}", refusal


def select_with(wrong):
    """A SELECT of which some parts, given by their numbers, are wrong."""
    texts = {number: wrong.get(number, usual) for number, (_, _, usual) in enumerate(PARTS)}
    order = [4, 0, 1, 2, 3, 5, 6, 7]  # the fields stand first
    return "".join(PARTS[number][0].format(texts[number]) for number in order if texts[number] is not None)


def pairs_of_parts():
    for first, second in itertools.combinations(range(len(PARTS)), 2):
        for (refusal, text), other in itertools.product(PARTS[first][1].items(), PARTS[second][1].values()):
            yield select_with({first: text, second: other}), refusal


# The same of statements that change something: the parts of each in the order in which they are judged, with what may be
# wrong in each, and what usually stands there

TABLE = {"9 Reserved __Table": "__Table", "1 NoTable nosuch": "nosuch", "1 NoTable __t": "__t"}
SEES_TABLE = {refusal: text for refusal, text in REFUSED.items() if text != "a"}
CONDITION = {"10 Later": "NOT NULL"}
FOR_INT8 = SEES_TABLE | {"7 ConstantRange": "128", "5 Type": '"x"'}
STATEMENTS = [
    (
        "COMMIT; CREATE TABLE {0} ({1} int8 {2}, {3} int8 {4})",
        ({"9 Reserved __v": "__v", "4 Exists t": "t", "4 Exists ix": "ix"}, "v"),
        ({"9 Reserved __a": "__a"}, "a"),
        (CONDITION, ""),
        ({"9 Reserved __b": "__b", "4 Exists a": "a"}, "b"),
        ({"10 Later": "DEFAULT nosuch"}, ""),
    ),
    ("DROP TABLE {0}", (TABLE, "t")),
    ("TRUNCATE TABLE {0}", (TABLE, "t")),
    (
        "ALTER TABLE {0} ADD {1} int8 {2}",
        (TABLE, "t"),
        ({"9 Reserved __z": "__z", "4 Exists a": "a", "4 Exists ix": "ix"}, "z"),
        (CONDITION, ""),
    ),
    ("ALTER TABLE {0} DROP COLUMN {1}", (TABLE, "t"), ({"2 NoColumn nosuch": "nosuch", "2 NoColumn __a": "__a"}, "a")),
    (
        "INSERT INTO {0} VALUES ({3}, {1}, {2}), ({6}, {4}, {5})",
        (TABLE, "u"),
        (SEES_NOTHING, "1"),
        ({"6 Count": '"x", 1'}, '"x"'),
        ({"7 ConstantRange": "256", "5 Type": '"x"'}, "1"),
        (SEES_NOTHING, "1"),
        ({"6 Count": '"x", 1'}, '"x"'),
        ({"7 ConstantRange": "-1", "5 Type": "true"}, "NULL"),
    ),
    (
        "INSERT INTO {0} ({1}, {2}) VALUES ({3}, {4})",
        (TABLE, "u"),
        ({"2 NoColumn nosuch": "nosuch"}, "b"),
        ({"2 NoColumn nosuch": "nosuch", "3 Ambiguous b": "b"}, "a"),
        (SEES_NOTHING, "1"),
        ({"6 Count": "1, 1", "7 ConstantRange": "256", "5 Type": '"x"'}, "1"),
    ),
    (
        "INSERT INTO {0} ({1}, {2}) SELECT {4}, {7} FROM {3} ORDER BY {5} LIMIT {6}",
        (TABLE, "u"),
        ({"2 NoColumn nosuch": "nosuch"}, "b"),
        ({"2 NoColumn nosuch": "nosuch", "3 Ambiguous b": "b"}, "a"),
        ({"1 NoTable nosuch": "nosuch", "10 Later": "__Table"}, "u"),
        (SEES_TABLE, "1"),
        (SEES_TABLE, "b"),
        (SEES_NOTHING, "1"),
        ({"6 Count": "1, 1", "7 ConstantRange": "256", "5 Type": '"x"'}, "1"),
    ),
    (
        "UPDATE {0} SET b = {1}, {2} = {3} WHERE {4}",
        (TABLE, "t"),
        (FOR_INT8, "1"),
        ({"2 NoColumn nosuch": "nosuch", "3 Ambiguous b": "b"}, "a"),
        (SEES_TABLE | {"5 Type": "b"}, "2"),
        (SEES_TABLE | {"5 Type": "b"}, "f"),
    ),
    ("DELETE FROM {0} WHERE {1}", (TABLE, "t"), (SEES_TABLE | {"5 Type": "1"}, "f")),
]


def changes_with(form, parts, wrong):
    return form.format(*(wrong.get(number, usual) for number, (_, usual) in enumerate(parts)))


def pairs_in_changes():
    for form, *parts in STATEMENTS:
        before = "10 Later | " if form.startswith("COMMIT") else ""
        for first, (refusals, _) in enumerate(parts):
            for refusal, text in refusals.items():
                yield changes_with(form, parts, {first: text}), before + refusal
                for second in range(first + 1, len(parts)):
                    for other in parts[second][0].values():
                        yield changes_with(form, parts, {first: text, second: other}), before + refusal


LEAST_AND_GREATEST = {f"int{n}": (-(2 ** (n - 1)), 2 ** (n - 1) - 1) for n in (8, 16, 32, 64)}
LEAST_AND_GREATEST |= {f"uint{n}": (0, 2**n - 1) for n in (8, 16, 32, 64)}


def at_the_ends():
    """Untyped values for a column of each kind: its least and its greatest number, and one past each of them. A number that
    is no int64 is a uint64 and so of another kind; one over 2^64-1 is none."""
    for kind, (least, greatest) in LEAST_AND_GREATEST.items():
        table = f"CREATE TABLE v (k {kind}); "
        yield f"{table}INSERT INTO v VALUES ({least}), ({greatest})", "ok INTO 0 ROWS 2"
        yield f"{table}INSERT INTO v (k) VALUES ({least}), ({greatest})", "ok INTO 0 ROWS 2"
        yield f"{table}INSERT INTO v SELECT {least}; INSERT INTO v SELECT {greatest}", "ok INTO 0 SELECT - | ok INTO 0 SELECT -"
        yield f"{table}UPDATE v SET k = {least}; UPDATE v SET k = {greatest}", "ok SET 0 = - | ok SET 0 = -"
        past = "5 Type" if kind == "int64" else "7 ConstantRange"
        for number in [least - 1, greatest + 1] if kind != "uint64" else [least - 1]:
            yield f"{table}INSERT INTO v VALUES ({number})", past
            yield f"{table}INSERT INTO v (k) VALUES ({number})", past
            yield f"{table}INSERT INTO v SELECT {number}", past
            yield f"{table}UPDATE v SET k = {number}", past


def main():
    program = None if sys.argv[1] == "--reference" else sys.argv[1]
    known = [*table(), *operators(), *clauses(), *pairs(), *pairs_of_parts(), *pairs_in_changes(), *at_the_ends()]
    by_hand = [(SCHEMA + script, wanted) for script, wanted in known]
    made = [(script, outcome(script)) for script in Selects(random.Random(SEED)).some(RANDOM)]
    planned = sum(wanted.startswith("ok") for _, wanted in made)
    print(f"{len(by_hand)} scripts by hand; of {RANDOM} random ones {planned} begin with a SELECT that has a plan")
    changes = [(script, outcome(script)) for script in Changes(random.Random(SEED)).some(RANDOM_CHANGES)]
    planned = sum(" | ok" in wanted for _, wanted in changes)
    print(f"of {RANDOM_CHANGES} random changes {planned} have a plan")
    made += changes
    return lines.run(program, outcome, by_hand, made)


if __name__ == "__main__":
    sys.exit(main())
