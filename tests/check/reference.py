"""Checks statements a second time: what a script comes to, as crates/test_check writes it.

It is written from 'Names and types' in docs/LANGUAGE.md, not from the program. What is said of an expression is its
kind and the expression with its names resolved, which tests/values evaluates.

A resolved expression is a tuple:
    ("constant", value)                a value: None, a bool, an int, a str for a string, bytes for a blob
    ("place", number)                  the value at a place of the row
    ("binary", op, kind, left, right)  an operator over a kind, that of the left side for a shift
    ("unary", op, kind, part)
    ("convert", kind, part)
    ("narrow", kind, part)             what was computed without a kind, in int64, and has to fit this one
    ("call", function, parts), ("in", part, list), ("between", part, low, high), ("is null", part)
"""
import itertools
from dataclasses import dataclass, replace

from check import trees
from grammar.reference import Fault

RANGES = {f"int{n}": (-(2 ** (n - 1)), 2 ** (n - 1) - 1) for n in (8, 16, 32, 64)}
RANGES |= {f"uint{n}": (0, 2**n - 1) for n in (8, 16, 32, 64)}
TEXTS = ("string", "blob")

# beside the kinds, what the type of an expression may be
UNTYPED = "untyped"  # integers whose kind is still open
ONLY_NULL = None

WORDS = {1: "NoTable", 2: "NoColumn", 3: "Ambiguous", 4: "Exists", 5: "Type", 6: "Count", 7: "ConstantRange"}
WORDS |= {8: "Aggregate", 9: "Reserved", 10: "Later", 20: "Divide", 21: "Range", 22: "NegativeCount"}

AGGREGATES = ("count", "sum", "avg", "min", "max")
METADATA = ("__Table", "__Column", "__Index")


class Refused(Exception):
    def __init__(self, number, name=None):
        super().__init__()
        self.number, self.name = number, name

    def __str__(self):
        return f"{self.number} {WORDS[self.number]}" + (f" {self.name}" if self.name is not None else "")


@dataclass
class Checked:
    """What is said of an expression. The literal is there where it is one, with or without one minus."""

    kind: str | None
    expr: tuple
    literal: int | None = None


@dataclass
class RecordSet:
    name: str
    columns: list  # pairs of a name and a kind
    start: int  # the place of the id in the row; the columns follow

    def places(self):
        return [(name, kind, self.start + 1 + i) for i, (name, kind) in enumerate(self.columns)]


@dataclass
class Scope:
    """What an expression sees: record sets; the fields of the SELECT, where names are looked for among them first;
    whether the row is seen; and whether an aggregate may stand here."""

    sets: list
    fields: list | None = None  # triples of a name, a kind and a place
    row: bool = True
    aggregates: bool = False


# Kinds


def is_integer(kind):
    return kind in RANGES or kind == UNTYPED or kind == ONLY_NULL


def is_one_of(kind, kinds):
    return kind in kinds or kind == ONLY_NULL


def fits(number, kind):
    least, greatest = RANGES[kind]
    return least <= number <= greatest


def settled(checked):
    """An expression that meets no kind: an untyped one is an int64."""
    return replace(checked, kind="int64") if checked.kind == UNTYPED else checked


def narrowed(checked, kind):
    if checked.kind != UNTYPED:
        return checked
    is_literal = checked.literal is not None
    return Checked(kind, checked.expr if is_literal else ("narrow", kind, checked.expr))


def met(parts):
    """The one kind of several parts, and the parts in it."""
    kinds = [part.kind for part in parts if part.kind not in (UNTYPED, ONLY_NULL)]
    open_parts = [part for part in parts if part.kind == UNTYPED]
    if not kinds:
        return ("int64" if open_parts else ONLY_NULL), [settled(part) for part in parts]
    kind = kinds[0]
    if kind in RANGES and any(part.literal is not None and not fits(part.literal, kind) for part in open_parts):
        raise Refused(7)
    if any(other != kind for other in kinds) or (open_parts and kind not in RANGES):
        raise Refused(5)
    return kind, [narrowed(part, kind) for part in parts]


# Expressions


def judge(tree, scope):
    """What is said of an expression, or its first refusal."""
    return JUDGES[type(tree)](tree, scope)


def number(tree, _):
    return Checked(UNTYPED if tree.value < 2**63 else "uint64", ("constant", tree.value), tree.value)


def column(tree, scope):
    written = tree.written()
    found = []
    if scope.fields is not None:
        found = [each for each in scope.fields if each[0] == written]
    if not found and scope.row:
        sets = [each for each in scope.sets if tree.table in (None, each.name)]
        found = [place for each in sets for place in each.places() if place[0] == tree.name]
    if len(found) != 1:
        raise Refused(3 if found else 2, written)
    _, kind, place = found[0]
    return Checked(kind, ("place", place))


def unary(tree, scope):
    if tree.op == "-" and isinstance(tree.part, trees.Number) and tree.part.value <= 2**63:
        return Checked(UNTYPED, ("constant", -tree.part.value), -tree.part.value)
    part = judge(tree.part, scope)
    if not (is_one_of(part.kind, ["bool"]) if tree.op == "!" else is_integer(part.kind)):
        raise Refused(5)
    kind = "int64" if part.kind == UNTYPED else part.kind
    is_literal = tree.op == "-" and isinstance(tree.part, trees.Number)
    return Checked(part.kind, ("unary", tree.op, kind, part.expr), -tree.part.value if is_literal else None)


def binary(tree, scope):
    left, right = judge(tree.left, scope), judge(tree.right, scope)
    if tree.op == "LIKE":
        raise Refused(10)
    if tree.op in ("&&", "||"):
        if not (is_one_of(left.kind, ["bool"]) and is_one_of(right.kind, ["bool"])):
            raise Refused(5)
        return Checked("bool", ("binary", tree.op, "bool", left.expr, right.expr))
    if tree.op in ("==", "!=", "<", "<=", ">", ">="):
        kind, (left, right) = met([left, right])
        if kind == "bool" and tree.op not in ("==", "!="):
            raise Refused(5)
        return Checked("bool", ("binary", tree.op, kind, left.expr, right.expr))
    if tree.op in ("<<", ">>"):
        return shift(tree.op, left, right)
    return arithmetic(tree.op, left, right)


def shift(op, left, right):
    if not (is_integer(left.kind) and is_integer(right.kind)):
        raise Refused(5)
    kind = left.kind
    if kind == UNTYPED and right.kind != UNTYPED:
        kind = "int64"
    return Checked(kind, ("binary", op, "int64" if kind == UNTYPED else kind, left.expr, right.expr))


def arithmetic(op, left, right):
    if left.kind == UNTYPED and right.kind == UNTYPED:
        return Checked(UNTYPED, ("binary", op, "int64", left.expr, right.expr))
    kind, (left, right) = met([left, right])
    if not (is_integer(kind) or op == "+" and kind == "string"):
        raise Refused(5)
    return Checked(kind, ("binary", op, kind, left.expr, right.expr))


def convert(tree, scope):
    part = judge(tree.part, scope)
    if tree.kind in RANGES and part.literal is not None and not fits(part.literal, tree.kind):
        raise Refused(7)
    if tree.kind in RANGES:
        is_right = is_integer(part.kind)
    else:
        is_right = is_one_of(part.kind, TEXTS if tree.kind in TEXTS else ["bool"])
    if not is_right:
        raise Refused(5)
    return Checked(tree.kind, ("convert", tree.kind, part.expr))


def negated(no, expr):
    return ("unary", "!", "bool", expr) if no else expr


def is_in(tree, scope):
    _, parts = met([judge(part, scope) for part in [tree.part, *tree.list]])
    part, *members = [each.expr for each in parts]
    return Checked("bool", negated(tree.no, ("in", part, members)))


def is_in_select(tree, scope):
    judge(tree.part, scope)
    raise Refused(10)


def between(tree, scope):
    kind, parts = met([judge(part, scope) for part in (tree.part, tree.low, tree.high)])
    if kind == "bool":
        raise Refused(5)
    return Checked("bool", negated(tree.no, ("between", *(each.expr for each in parts))))


def is_null(tree, scope):
    return Checked("bool", negated(tree.no, ("is null", judge(tree.part, scope).expr)))


def call(tree, scope):
    if tree.function == "id":
        return row_id(tree, scope)
    if tree.function in AGGREGATES:
        return aggregate(tree, scope)
    parts = [judge(part, scope) for part in tree.parts]
    if tree.function == "coalesce":
        if not parts:
            raise Refused(6)
        kind, parts = met(parts)
    else:
        kind = "int64" if tree.function == "len" else "bool"
        if len(parts) != (1 if tree.function == "len" else 2):
            raise Refused(6)
        if not all(is_one_of(part.kind, TEXTS if tree.function == "len" else ["string"]) for part in parts):
            raise Refused(5)
    return Checked(kind, ("call", tree.function, [part.expr for part in parts]))


def row_id(tree, scope):
    sets = scope.sets if scope.row else []
    if not tree.parts:
        if len(sets) != 1:
            raise Refused(3 if sets else 2, "id")
        return Checked("int64", ("place", sets[0].start))
    if len(tree.parts) == 1 and isinstance(tree.parts[0], trees.Column) and tree.parts[0].table is None:
        name = tree.parts[0].name
        for each in sets:
            if each.name == name:
                return Checked("int64", ("place", each.start))
        raise Refused(2, name)
    for part in tree.parts:
        judge(part, scope)
    raise Refused(5 if len(tree.parts) == 1 else 6)


def aggregate(tree, scope):
    parts = [judge(part, replace(scope, aggregates=False)) for part in tree.parts]
    if not scope.aggregates:
        raise Refused(8)
    if len(parts) > 1 or (not parts and tree.function != "count"):
        raise Refused(6)
    expr = ("call", tree.function, [part.expr for part in parts])
    if tree.function == "count":
        return Checked("int64", expr)
    kind = settled(parts[0]).kind
    if kind == "bool" or (tree.function in ("sum", "avg") and not is_integer(kind)):
        raise Refused(5)
    return Checked("int64" if kind == ONLY_NULL else kind, expr)


JUDGES = {
    trees.Number: number,
    trees.Text: lambda tree, _: Checked("string", ("constant", tree.value)),
    trees.Truth: lambda tree, _: Checked("bool", ("constant", tree.value)),
    trees.Null: lambda tree, _: Checked(ONLY_NULL, ("constant", None)),
    trees.Column: column,
    trees.Paren: lambda tree, scope: replace(judge(tree.part, scope), literal=None),
    trees.Call: call,
    trees.Convert: convert,
    trees.Unary: unary,
    trees.Binary: binary,
    trees.In: is_in,
    trees.InSelect: is_in_select,
    trees.Between: between,
    trees.IsNull: is_null,
}


def has_aggregate(tree):
    """Whether an aggregate stands in an expression; a SELECT within it is not looked into."""
    if isinstance(tree, trees.Call) and tree.function in AGGREGATES:
        return True
    if isinstance(tree, list):
        return any(map(has_aggregate, tree))
    return any(map(has_aggregate, vars(tree).values())) if hasattr(tree, "__dataclass_fields__") else False


# SELECT


@dataclass
class Plan:
    fields: list  # pairs of a name, or None, and what is said of the field
    grouped: bool
    groups: list
    keys: list
    where: object = None  # what is said of WHERE, LIMIT and OFFSET, where they are written
    limit: object = None
    offset: object = None


def record_sets(select, schema):
    sets, start = [], 0
    for each in select.sets:
        if each.table is None or each.table in METADATA:
            raise Refused(10)
        if each.table not in schema.tables:
            raise Refused(1, each.table)
        name = each.alias or each.table
        if any(other.name == name for other in sets):
            raise Refused(3, name)
        columns = schema.tables[each.table]
        sets.append(RecordSet(name, columns, start))
        start += 1 + len(columns)
    if select.join:
        raise Refused(10)
    return sets, start


def fields_of(select, sets):
    if select.fields is None:
        if not sets:
            raise Refused(6)
        return [
            (name if len(sets) == 1 else f"{each.name}.{name}", Checked(kind, ("place", place)))
            for each in sets
            for name, kind, place in each.places()
        ]
    fields = []
    for expr, alias in select.fields:
        name = alias or (expr.name if isinstance(expr, trees.Column) else None)
        fields.append((name, judge(expr, Scope(sets, aggregates=True))))
    return fields


def seen_as(field, kind):
    """What ORDER BY takes a field for, which is for a column of a kind, or for none."""
    if field.kind == UNTYPED and kind in RANGES:
        return kind
    return settled(field).kind


def counted(tree):
    """LIMIT and OFFSET."""
    if tree is None:
        return None
    count = judge(tree, Scope([]))
    if not is_integer(count.kind):
        raise Refused(5)
    return count


def plan_of(select, schema, kinds=()):
    """The plan of a SELECT, or its first refusal. In an INSERT its fields are for columns of these kinds."""
    sets, width = record_sets(select, schema)
    where = filtered(select.where, Scope(sets))
    groups = [judge(column, Scope(sets)) for column in select.groups]
    fields = fields_of(select, sets)
    grouped = bool(groups) or any(has_aggregate(expr) for expr, _ in select.fields or [])
    met = itertools.zip_longest(fields, kinds[: len(fields)])
    named = [(name, seen_as(field, kind), width + i) for i, ((name, field), kind) in enumerate(met)]
    scope = Scope(sets, named, row=not (select.distinct or grouped))
    keys = [judge(key, scope) for key in select.keys]
    limit = counted(select.limit)
    offset = counted(select.offset)
    return Plan(fields, grouped, groups, keys, where, limit, offset)


# Statements that change something. Columns are pairs of a name and a kind.


@dataclass
class Schema:
    tables: dict  # the columns of each table, by its name
    indexes: dict  # the table of each index, by its name


@dataclass
class Change:
    """The plan of an INSERT, an UPDATE or a DELETE: the columns by their numbers, their new values, how many rows, or the
    SELECT whose rows they are."""

    targets: list
    values: list
    rows: int = 0
    select: Plan | None = None


def reserved(name):
    if name.startswith("__"):
        raise Refused(9, name)


def changed(name, schema):
    """The columns of the table that a statement changes."""
    if name in METADATA:
        raise Refused(9, name)
    if name not in schema.tables:
        raise Refused(1, name)
    return schema.tables[name]


def new_column(column, taken):
    reserved(column.name)
    if column.name in taken:
        raise Refused(4, column.name)
    if not column.takes_all():
        raise Refused(10)


def create_table(statement, schema):
    reserved(statement.name)
    if statement.quiet and statement.name in schema.tables:
        return
    if statement.name in schema.tables or statement.name in schema.indexes:
        raise Refused(4, statement.name)
    for i, column in enumerate(statement.columns):
        new_column(column, [other.name for other in statement.columns[:i]])


def drop_table(statement, schema):
    if statement.quiet and statement.name not in schema.tables and statement.name not in METADATA:
        return
    changed(statement.name, schema)


def add_column(statement, schema):
    columns = changed(statement.table, schema)
    indexes = [name for name, table in schema.indexes.items() if table == statement.table]
    new_column(statement.column, [name for name, _ in columns] + indexes)


def drop_column(statement, schema):
    columns = changed(statement.table, schema)
    if statement.name not in [name for name, _ in columns]:
        raise Refused(2, statement.name)
    if len(columns) == 1:
        raise Refused(6)


def truncate(statement, schema):
    changed(statement.table, schema)


def for_column(checked, kind):
    """A value for a column of a kind."""
    if checked.kind == UNTYPED and kind in RANGES:
        if checked.literal is not None and not fits(checked.literal, kind):
            raise Refused(7)
        return narrowed(checked, kind)
    if settled(checked).kind not in (kind, ONLY_NULL):
        raise Refused(5)
    return checked


def target(name, names, targets):
    """The number of a column that is named behind others."""
    if name not in names:
        raise Refused(2, name)
    if names.index(name) in targets:
        raise Refused(3, name)
    return names.index(name)


def for_columns(values, kinds):
    if len(values) != len(kinds):
        raise Refused(6)
    for value, kind in zip(values, kinds):
        for_column(value, kind)


def insert(statement, schema):
    columns = changed(statement.table, schema)
    targets = []
    for name in statement.names:
        targets.append(target(name, [each for each, _ in columns], targets))
    if not statement.names:
        targets = list(range(len(columns)))
    kinds = [columns[at][1] for at in targets]
    if statement.select is not None:
        plan = plan_of(statement.select, schema, kinds)
        for_columns([field for _, field in plan.fields], kinds)
        return Change(targets, [], select=plan)
    for row in statement.rows:
        for_columns([judge(expr, Scope([])) for expr in row], kinds)
    return Change(targets, [], len(statement.rows))


def update(statement, schema):
    columns = changed(statement.table, schema)
    scope = Scope([RecordSet(statement.table, columns, 0)])
    names, targets, values = [name for name, _ in columns], [], []
    for name, expr in statement.sets:
        targets.append(target(name, names, targets))
        values.append(for_column(judge(expr, scope), columns[targets[-1]][1]))
    filtered(statement.where, scope)
    return Change(targets, values)


def delete(statement, schema):
    filtered(statement.where, Scope([RecordSet(statement.table, changed(statement.table, schema), 0)]))


def filtered(where, scope):
    if where is None:
        return None
    condition = judge(where, scope)
    if not is_one_of(condition.kind, ["bool"]):
        raise Refused(5)
    return condition


CHANGES = {
    trees.CreateTable: create_table,
    trees.DropTable: drop_table,
    trees.AddColumn: add_column,
    trees.DropColumn: drop_column,
    trees.Insert: insert,
    trees.Update: update,
    trees.Delete: delete,
    trees.Truncate: truncate,
}


# What a script comes to


def shown(name, checked):
    sort, *inside = checked.expr
    return (name or "-") + (f"@{inside[0]}" if sort == "place" else "")


def plan_line(plan):
    line = "ok " + ", ".join(shown(name, field) for name, field in plan.fields)
    if plan.grouped:
        line += " GROUP" + ",".join(" " + shown(None, column) for column in plan.groups)
    if plan.keys:
        line += " ORDER " + ", ".join(shown(None, key) for key in plan.keys)
    return line


def change_line(change):
    if change is None:
        return "ok"
    if change.select or change.rows:
        rows = change.select and " SELECT" + plan_line(change.select).removeprefix("ok") or f" ROWS {change.rows}"
        return "ok INTO " + ", ".join(map(str, change.targets)) + rows
    return "ok SET " + ", ".join(f"{at} = {shown(None, value)}" for at, value in zip(change.targets, change.values))


def answer(statement, schema):
    try:
        if isinstance(statement, trees.Select):
            return plan_line(plan_of(statement, schema))
        if type(statement) in CHANGES:
            return change_line(CHANGES[type(statement)](statement, schema))
        return str(Refused(10))
    except Refused as refused:
        return str(refused)


def outcome(script):
    """What a script comes to."""
    try:
        statements = trees.statements_of(script)
    except Fault:
        return "no script"
    schema = Schema({}, {})
    while statements and isinstance(statements[0], (trees.CreateTable, trees.CreateIndex)):
        made = statements.pop(0)
        if isinstance(made, trees.CreateTable):
            schema.tables[made.name] = [(column.name, column.kind) for column in made.columns]
        else:
            schema.indexes[made.name] = made.table
    return " | ".join(answer(each, schema) for each in statements)
