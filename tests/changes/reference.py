"""What statements do to tables, a second time: CREATE TABLE, ALTER TABLE, INSERT of rows and of a SELECT, UPDATE, DELETE,
TRUNCATE and DROP TABLE over columns of int64, SELECT of fields over one table, and levels of transactions.

An expression is a pair: its text, and a function of a row (a dict of names, with "id()") that gives its value, None for NULL,
or raises `Refused`. It is written from docs/LANGUAGE.md and not from the program.
"""
import copy
import random

from values.reference import COMPARED, EXACT, wrapped


class Refused(Exception):
    """A statement is refused: its number, word and name."""


def arithmetic(op, a, b):
    if op in "/%" and b == 0:
        raise Refused("20 Divide")
    return wrapped(EXACT[op](a, b), "int64")


def number(source, names, depth):
    """A random expression of int64."""
    choice = source.random()
    if depth == 0 or choice < 0.3:
        if names and source.random() < 0.7:
            name = source.choice(names)
            return name, lambda row: row[name]
        literal = source.choice([0, 1, 1, 2, 2, 3, 3, 7, 7, 100, 100, 3037000500])
        return f"int64({literal})", lambda row: literal
    if choice < 0.36:
        return "int64(NULL)", lambda row: None
    if choice < 0.45:
        text, part = number(source, names, depth - 1)
        return f"- ({text})", lambda row: None if (x := part(row)) is None else wrapped(-x, "int64")
    op = source.choice("+++---****/%")
    (left, a), (right, b) = number(source, names, depth - 1), number(source, names, depth - 1)

    def value(row):
        x, y = a(row), b(row)
        return None if x is None or y is None else arithmetic(op, x, y)

    return f"({left}) {op} ({right})", value


def truth(source, names, depth):
    """A random expression of bool."""
    choice = source.random()
    if depth == 0 or choice < 0.5:
        op = source.choice(list(COMPARED))
        (left, a), (right, b) = number(source, names, 1), number(source, names, 1)

        def compared(row):
            x, y = a(row), b(row)
            return None if x is None or y is None else COMPARED[op](x, y)

        return f"({left}) {op} ({right})", compared
    if choice < 0.6:
        text, part = number(source, names, 1)
        return f"({text}) IS NULL", lambda row: part(row) is None
    if choice < 0.7:
        text, part = truth(source, names, depth - 1)
        return f"!({text})", lambda row: None if (x := part(row)) is None else not x
    deciding = source.random() < 0.5
    (left, a), (right, b) = truth(source, names, depth - 1), truth(source, names, depth - 1)

    def joined(row):
        x = a(row)
        if x is deciding:
            return x
        y = b(row)
        if y is deciding:
            return y
        return None if x is None or y is None else not deciding

    return f"({left}) {'||' if deciding else '&&'} ({right})", joined


class Tables:
    """Tables by name: their columns, and their rows by rising id."""

    def __init__(self):
        self.tables, self.next_id = {}, 1

    def table(self, name):
        if name not in self.tables:
            raise Refused(f"1 NoTable {name}")
        return self.tables[name]

    def create(self, name, columns, quiet):
        if name not in self.tables:
            self.tables[name] = (columns, {})
        elif not quiet:
            raise Refused(f"4 Exists {name}")

    def targets(self, name, named):
        """The columns that are named, or all."""
        columns, _ = self.table(name)
        for at, column in enumerate(named):
            if column not in columns:
                raise Refused(f"2 NoColumn {column}")
            if column in named[:at]:
                raise Refused(f"3 Ambiguous {column}")
        return named or columns

    def place(self, name, targets, rows):
        """Rows of values go in, one after another."""
        columns, held = self.table(name)
        for row in rows:
            values = dict(zip(targets, row))
            held[self.next_id] = [values.get(column) for column in columns]
            self.next_id += 1

    def insert(self, name, named, rows):
        """Rows for the columns that are named, or for all: every value is known before a row goes in."""
        targets = self.targets(name, named)
        if any(len(row) != len(targets) for row in rows):
            raise Refused("6 Count")
        self.place(name, targets, [[part({}) for part in row] for row in rows])

    def insert_selected(self, name, named, other, fields, where, limit, offset):
        """The rows that a SELECT over a table, or over none, shows: no fields are all columns."""
        targets = self.targets(name, named)
        columns, held = self.table(other) if other else ([], {0: []})
        parts = fields or [lambda row, column=column: row[column] for column in columns]
        if len(parts) != len(targets):
            raise Refused("6 Count")
        if any(count is not None and count < 0 for count in (limit, offset)):
            raise Refused("22 NegativeCount")
        rows = [dict(zip(columns, values)) | {"id()": id} for id, values in sorted(held.items())]
        meant = [row for row in rows if where(row) is True]
        shown = [[part(row) for part in parts] for row in meant]
        self.place(name, targets, shown[offset or 0 :][:limit])

    def change(self, name, sets, where):
        """An UPDATE, or a DELETE where there are no sets: a row after the other, each judged by itself."""
        columns, held = self.table(name)
        for id, values in list(held.items()):
            row = dict(zip(columns, values)) | {"id()": id}
            if where(row) is not True:
                continue
            if sets is None:
                del held[id]
            else:
                new = [(columns.index(column), part(row)) for column, part in sets]
                held[id] = [dict(new).get(at, value) for at, value in enumerate(values)]

    def add(self, name, column):
        """A column more, NULL in each row."""
        columns, held = self.table(name)
        if column in columns:
            raise Refused(f"4 Exists {column}")
        self.tables[name] = ([*columns, column], {id: [*values, None] for id, values in held.items()})

    def lose(self, name, column):
        """A column less, with its values."""
        columns, held = self.table(name)
        if column not in columns:
            raise Refused(f"2 NoColumn {column}")
        if len(columns) == 1:
            raise Refused("6 Count")
        at = columns.index(column)
        rows = {id: values[:at] + values[at + 1 :] for id, values in held.items()}
        self.tables[name] = (columns[:at] + columns[at + 1 :], rows)

    def truncate(self, name):
        self.table(name)[1].clear()

    def drop(self, name, quiet):
        if not (quiet and name not in self.tables):
            self.table(name)
            del self.tables[name]
            if not self.tables:
                self.next_id = 1

    def shown(self, name):
        """The lines of SELECT id(), and all columns."""
        columns, held = self.table(name)
        return [", ".join("<nil>" if x is None else str(x) for x in [id, *values]) for id, values in sorted(held.items())]


class Script:
    """A random script, what it shows, and the line that it warns. A bare one has no level that opens by itself."""

    def __init__(self, seed):
        self.source = random.Random(seed)
        self.tables, self.texts, self.shown, self.warned = Tables(), [], [], ""
        self.bare = self.source.random() < 0.3
        self.saved = [] if self.bare else [copy.deepcopy(self.tables)]
        self.base = len(self.saved)
        count = self.source.randint(5, 30)
        while len(self.texts) < count or len(self.saved) > self.base and self.source.random() < 0.95:
            level = len(self.texts) >= count or self.source.random() < (0.1 if self.saved else 0.8)
            text, act = self.level(len(self.texts) >= count) if level else self.statement()
            self.texts.append(text)
            try:
                if not self.saved and not text.startswith(("SELECT", "BEGIN")):
                    raise Refused("40 NoTransaction")
                self.shown += act() or []
            except Refused as refusal:
                self.warned = f"ql: statement {len(self.texts)}: {refusal}"
                return
        if len(self.saved) > self.base:
            self.warned = f"ql: statement {len(self.texts) + 1}: 42 Unbalanced"

    def level(self, ends):
        """A statement that opens a level or closes one; seldom one that closes a level which the script did not open."""
        is_open = len(self.saved) > self.base
        if not ends and self.source.random() < (0.4 if is_open else 0.99):
            return "BEGIN TRANSACTION", self.begin
        commits = self.source.random() < 0.5
        return "COMMIT" if commits else "ROLLBACK", lambda: self.end(commits)

    def begin(self):
        self.saved.append(copy.deepcopy(self.tables))

    def end(self, commits):
        if len(self.saved) == self.base:
            raise Refused("40 NoTransaction")
        before = self.saved.pop()
        if not commits:
            self.tables = before

    def name(self):
        """A table that is there, or seldom another one."""
        there = list(self.tables.tables)
        if there and self.source.random() < 0.99:
            return self.source.choice(there)
        return self.source.choice("tuvw")

    def named(self, columns):
        """Names for the columns of an INSERT: none, some in any order, or seldom one twice or one that is nowhere."""
        if self.source.random() < 0.5:
            return []
        some = self.source.sample(columns, self.source.randint(1, len(columns)))
        return some + self.source.choice([[some[0]], ["z"]]) if self.source.random() < 0.02 else some

    def where(self, columns):
        if self.source.random() < 0.15:
            return "", lambda row: True
        text, part = truth(self.source, [*columns, "id()"], 2)
        return f" WHERE {text}", part

    def insert_selected(self, name, columns):
        """INSERT of a SELECT: often from the table itself, seldom with a field too many."""
        source, named = self.source, self.named(columns)
        count = len(named or columns) + (source.random() < 0.02)
        other = source.choice([name, name, self.name(), None])
        seen = self.tables.tables[other][0] if other in self.tables.tables else []
        star = other is not None and len(seen) == count and source.random() < 0.3
        fields = [number(source, [*seen, "id()"] if other else [], 1) for _ in range(count)]
        where, test = self.where(seen) if other else ("", lambda row: True)
        limit, offset = [source.choice([None, None, None, 0, 1, 2, 3]) for _ in "lo"]
        if source.random() < 0.01:
            limit = -1
        names = f" ({', '.join(named)})" if named else ""
        text = f"INSERT INTO {name}{names} SELECT "
        text += "*" if star else ", ".join(text for text, _ in fields)
        text += f" FROM {other}{where}" if other else ""
        text += f" LIMIT {limit}" if limit is not None else ""
        text += f" OFFSET {offset}" if offset is not None else ""
        parts = [] if star else [part for _, part in fields]
        return text, lambda: self.tables.insert_selected(name, named, other, parts, test, limit, offset)

    def statement(self):
        source, tables = self.source, self.tables
        name = self.name()
        columns = tables.tables[name][0] if name in tables.tables else ["a"]
        choice = source.random()
        if not tables.tables or choice < 0.08:
            free = [each for each in "tuvw" if each not in tables.tables]
            quiet = source.random() < 0.4
            name = source.choice(free) if free and not quiet and source.random() < 0.9 else source.choice("tuvw")
            made = ["a", "b", "c"][: source.randint(1, 3)]
            text = f"{'IF NOT EXISTS ' if quiet else ''}{name} ({', '.join(f'{c} int64' for c in made)})"
            return f"CREATE TABLE {text}", lambda: tables.create(name, made, quiet)
        if choice < 0.12:
            return self.insert_selected(name, columns)
        if choice < 0.4:
            named = self.named(columns)
            count = len(named or columns) + (source.random() < 0.01)
            rows = [[number(source, [], 1) for _ in range(count)] for _ in range(source.randint(1, 5))]
            text = ", ".join("(" + ", ".join(text for text, _ in row) + ")" for row in rows)
            names = f" ({', '.join(named)})" if named else ""
            return f"INSERT INTO {name}{names} VALUES {text}", lambda: tables.insert(name, named, [[part for _, part in row] for row in rows])
        if choice < 0.6:
            some = source.sample(columns, source.randint(1, len(columns)))
            sets = [(column, *number(source, [*columns, "id()"], 2)) for column in some]
            where, test = self.where(columns)
            text = ", ".join(f"{column} = {text}" for column, text, _ in sets)
            return f"UPDATE {name} SET {text}{where}", lambda: tables.change(name, [(c, part) for c, _, part in sets], test)
        if choice < 0.75:
            where, test = self.where(columns)
            return f"DELETE FROM {name}{where}", lambda: tables.change(name, None, test)
        if choice < 0.79:
            return f"TRUNCATE TABLE {name}", lambda: tables.truncate(name)
        if choice < 0.84:
            quiet = source.random() < 0.5
            name = source.choice("tuvw") if quiet else name
            return f"DROP TABLE {'IF EXISTS ' if quiet else ''}{name}", lambda: tables.drop(name, quiet)
        if choice < 0.88:
            free = [each for each in "abcd" if each not in columns]
            column = source.choice(free) if free and source.random() < 0.95 else source.choice("abcd")
            return f"ALTER TABLE {name} ADD {column} int64", lambda: tables.add(name, column)
        if choice < 0.91 and (len(columns) > 1 or source.random() < 0.1):
            column = source.choice(columns if source.random() < 0.95 else "abcd")
            return f"ALTER TABLE {name} DROP COLUMN {column}", lambda: tables.lose(name, column)
        return f"SELECT id(), {', '.join(columns)} FROM {name}", lambda: tables.shown(name)
