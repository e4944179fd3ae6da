"""Random expressions and SELECTs that mostly have a plan, with a mistake here and there."""

SIGNED = ["int8", "int16", "int32", "int64"]
INTEGERS = SIGNED + ["uint8", "uint16", "uint32", "uint64"]
UNTYPED = "untyped"
KINDS = ["bool", "string", "blob", *INTEGERS]

SMALL = [0, 1, 1, 2, 2, 3, 5, 7, 8, 10, 63, 100]
LARGE = [127, 128, 255, 256, 300, 32767, 32768, 65535, 65536, 2**31 - 1, 2**31, 2**32 - 1, 2**32, 2**63 - 1, 2**63, 2**64 - 1]
TEXTS = ['""', '"a"', '"b"', '"ab"', '"ba"', '"abc"', '"a\\n"', '"\\x00\\xff"', '"\\u20AC"', '"\\"\\\\"', "`raw \\ text`"]

# how strongly each form binds, from the level that binds least
EITHER, BOTH, COMPARED, SUM, PRODUCT, UNARY, PRIMARY = range(7)


class Expressions:
    """Random expressions of a kind. Columns are given as a list for each kind. Of a hundred parts so many have another
    kind than they should, or are no expression that has a meaning here."""

    def __init__(self, random, mistakes=0.0, columns=None, wrong=()):
        self.random = random
        self.mistakes = mistakes
        self.columns = columns or {}
        self.wrong = list(wrong)
        self.aggregates = False

    def chance(self, of_one):
        return self.random.random() < of_one

    def pick(self, choices):
        return self.random.choice(choices)

    def text(self, kind, size):
        return self.expr(kind, size)[0]

    def expr(self, kind, size):
        """A text and the level of its last operator."""
        if self.chance(self.mistakes):
            if self.wrong and self.chance(0.4):
                return self.pick(self.wrong), EITHER
            kind = self.pick([*KINDS, UNTYPED])
        if self.chance(0.05):
            return f"({self.text(kind, size)})", PRIMARY
        if size <= 0 or self.chance(0.15):
            return self.leaf(kind)
        if kind == "bool":
            return self.truth(size - 1)
        if kind in ("string", "blob"):
            return self.bytes(kind, size - 1)
        return self.number(kind, size - 1)

    def at(self, level, kind, size):
        """An expression that binds at least as strongly; else it gets brackets."""
        text, own = self.expr(kind, size)
        return text if own >= level else f"({text})"

    def leaf(self, kind):
        if self.columns.get(kind) and self.chance(0.6):
            return self.pick(self.columns[kind]), PRIMARY
        if self.chance(0.07):
            return "NULL", PRIMARY
        if kind == "bool":
            return self.pick(["true", "false"]), PRIMARY
        if kind == "string":
            return self.pick(TEXTS), PRIMARY
        if kind == "blob":
            return f"blob({self.pick(TEXTS)})", PRIMARY
        if kind == UNTYPED:
            return self.literal(LARGE if self.chance(0.1) else SMALL)
        if self.chance(0.3) and kind in ("int64", "uint64"):
            return (str(self.pick(LARGE)), PRIMARY) if kind == "uint64" else ('len("abc")', PRIMARY)
        return f"{kind}({self.of_kind(kind)})", PRIMARY

    def literal(self, numbers):
        number = self.pick(numbers)
        written = self.pick([str, str, hex, lambda n: f"0{n:o}"])(number)
        return (f"-{written}", UNARY) if self.chance(0.25) else (written, PRIMARY)

    def of_kind(self, kind):
        """A literal that the kind has."""
        width = int(kind.lstrip("uint"))
        least, greatest = (-(2 ** (width - 1)), 2 ** (width - 1) - 1) if kind in SIGNED else (0, 2**width - 1)
        return self.pick([least, greatest, *(number for number in SMALL if number <= greatest)])

    def numbers(self, kind):
        """What may stand beside a part of an integer kind."""
        return UNTYPED if self.chance(0.35) else kind

    def pair(self, kind):
        """The kinds of two parts, one of which may be open."""
        return self.pick([(kind, self.numbers(kind)), (self.numbers(kind), kind)]) if kind in INTEGERS else (kind, kind)

    def number(self, kind, size):
        form = self.random.randrange(10)
        left, right = self.pair(kind)
        if form < 3:
            op = self.pick(["+", "-", "|", "^"])
            return f"{self.at(SUM, left, size)} {op} {self.at(PRODUCT, right, size)}", SUM
        if form < 6:
            op = self.pick(["*", "/", "%", "&", "&^"])
            return f"{self.at(PRODUCT, left, size)} {op} {self.at(UNARY, right, size)}", PRODUCT
        if form == 6:
            count = UNTYPED if kind == UNTYPED or self.chance(0.5) else self.pick(INTEGERS)
            return f"{self.at(PRODUCT, kind, size)} {self.pick(['<<', '>>'])} {self.at(UNARY, count, size)}", PRODUCT
        if form == 7:
            op = self.pick(["+", "-", "^", "- "])
            part = self.at(UNARY, kind, size)
            return f"{op}{' ' if part.startswith('-') else ''}{part}", UNARY
        if kind == UNTYPED:
            return self.leaf(kind)
        return self.made_number(kind, size)

    def made_number(self, kind, size):
        form = self.random.randrange(4)
        if form == 0:
            return self.coalesce(kind, size)
        if self.aggregates and form == 1:
            return self.aggregate(kind, size)
        if kind == "int64" and form == 2:
            return f"len({self.text(self.pick(['string', 'blob']), size)})", PRIMARY
        return f"{kind}({self.text(self.pick([*INTEGERS, UNTYPED]), size)})", PRIMARY

    def aggregate(self, kind, size):
        self.aggregates = self.chance(self.mistakes)
        made = self.aggregate_of(kind, size)
        self.aggregates = True
        return made, PRIMARY

    def aggregate_of(self, kind, size):
        if kind == "int64" and self.chance(0.4):
            return self.pick(["count()", "count(*)", f"count({self.text(self.pick(KINDS), size)})"])
        return f"{self.pick(['sum', 'avg', 'min', 'max'])}({self.text(kind, size)})"

    def coalesce(self, kind, size):
        kinds = [kind] + [self.numbers(kind) if kind in INTEGERS else kind for _ in range(self.random.randrange(3))]
        self.random.shuffle(kinds)
        return f"coalesce({', '.join(self.text(each, size) for each in kinds)})", PRIMARY

    def bytes(self, kind, size):
        form = self.random.randrange(5)
        if form < 2 and kind == "string":
            return f"{self.at(SUM, kind, size)} + {self.at(PRODUCT, kind, size)}", SUM
        if form < 4:
            return f"{kind}({self.text(self.pick(['string', 'blob']), size)})", PRIMARY
        if self.aggregates and self.chance(0.3):
            return f"{self.pick(['min', 'max'])}({self.leaf(kind)[0]})", PRIMARY
        return self.coalesce(kind, size)

    def compared(self, ordered):
        """A kind that two sides of a comparison may have."""
        kinds = [*INTEGERS, UNTYPED, "string", "blob"] + ([] if ordered else ["bool"])
        return self.pick(kinds)

    def truth(self, size):
        form = self.random.randrange(12)
        if form < 4:
            op = self.pick(["==", "=", "!=", "<>", "<", "<=", ">", ">="])
            left, right = self.pair(self.compared(op in ("<", "<=", ">", ">=")))
            return f"{self.at(SUM, left, size)} {op} {self.at(SUM, right, size)}", COMPARED
        if form == 4:
            return self.within(self.compared(True), size)
        if form < 7:
            return self.among(self.compared(False), size)
        if form == 7:
            kind = self.pick([*KINDS, UNTYPED])
            return f"{self.at(SUM, kind, size)} IS {self.pick(['', 'NOT '])}NULL", COMPARED
        if form < 10:
            level, op = self.pick([(EITHER, "||"), (EITHER, "OR"), (BOTH, "&&"), (BOTH, "AND")])
            return f"{self.at(level, 'bool', size)} {op} {self.at(level + 1, 'bool', size)}", level
        if form == 10:
            return f"!{self.at(UNARY, 'bool', size)}", UNARY
        return self.made_truth(size)

    def within(self, kind, size):
        low, high = self.pair(kind)
        part = self.at(SUM, self.numbers(kind) if kind in INTEGERS else kind, size)
        return f"{part} {self.no()}BETWEEN {self.at(SUM, low, size)} AND {self.at(SUM, high, size)}", COMPARED

    def among(self, kind, size):
        members = [self.numbers(kind) if kind in INTEGERS else kind for _ in range(self.random.randint(1, 3))]
        texts = ", ".join(self.text(each, size - 1) for each in members)
        return f"{self.at(SUM, kind, size)} {self.no()}IN ({texts})", COMPARED

    def no(self):
        return self.pick(["", "", "NOT "])

    def made_truth(self, size):
        form = self.random.randrange(3)
        if form == 0:
            return f"bool({self.text('bool', size)})", PRIMARY
        if form == 1:
            return self.coalesce("bool", size)
        function = self.pick(["contains", "hasPrefix", "hasSuffix"])
        return f"{function}({self.text('string', size)}, {self.text('string', size)})", PRIMARY


# Tables that share columns, with the kinds of these
TABLES = {
    "t": {"a": "int64", "b": "int8", "s": "string", "f": "bool", "x": "blob"},
    "u": {"a": "uint8", "b": "int8", "d": "string"},
    "v": {"a": "uint64", "s": "string", "g": "int32"},
}
NAMES = ["nosuch", "t.nosuch", "nosuch.a", "u.s", "a", "b", "s"]
REFUSED = [*NAMES, "id(nosuch)", "id()", "id(t)", "id(a)", "id(1)", "len()", "contains(1)", "sum(1)", "count()"]
REFUSED += ['("a" LIKE "b")', "1 IN (SELECT 2)", "uint8(300)", '(1 + "a")']


def create_tables():
    columns = {name: ", ".join(f"{c} {kind}" for c, kind in each.items()) for name, each in TABLES.items()}
    return "".join(f"CREATE TABLE {name} ({columns[name]}); " for name in TABLES)


class Selects:
    """Random SELECTs over tables. In an INSERT their fields are for columns of some kinds."""

    def __init__(self, random, tables=None, kinds=None):
        self.random, self.tables, self.kinds = random, tables or TABLES, kinds

    def chance(self, of_one):
        return self.random.random() < of_one

    def some(self, count):
        return [create_tables() + "; ".join(self.select() for _ in range(self.random.choice([1, 1, 2]))) for _ in range(count)]

    def sets(self):
        """Names of record sets with their tables. One name may stand for two of them."""
        sets = []
        for table in self.random.choices([*self.tables] if self.chance(0.97) else [*self.tables, "nosuch"], k=self.random.choice([0, 1, 1, 1, 2, 2, 3])):
            alias = self.random.choice([None, None, "z", "y", "t", "u"])
            if self.chance(0.97) and (alias or table) in [name for name, _, _ in sets]:
                alias = f"r{len(sets)}"
            sets.append((alias or table, table, alias))
        return sets

    def columns(self, sets):
        """The names that mean one column of the record sets, by their kinds."""
        found = {kind: [] for kind in KINDS}
        for name, table, _ in sets:
            for column, kind in self.tables.get(table, {}).items():
                found[kind].append(f"{name}.{column}")
                if sum(column in self.tables.get(other, {}) for _, other, _ in sets) == 1:
                    found[kind].append(column)
            found["int64"].append(f"id({name})")
        if len(sets) == 1:
            found["int64"].append("id()")
        return found

    def select(self):
        random, sets = self.random, self.sets()
        columns, mistakes = self.columns(sets), random.choice([0, 0, 0.01, 0.03])
        exprs = Expressions(random, mistakes, columns, REFUSED)
        names = [name for each in columns.values() for name in each if "(" not in name]
        text = "SELECT " + ("DISTINCT " if self.chance(0.15) else "")
        fields, known = self.fields(exprs, sets)
        text += fields
        if sets:
            text += " FROM " + ", ".join(table + (f" AS {alias}" if alias else "") for _, table, alias in sets)
        if sets and self.chance(0.02):
            text += " LEFT JOIN u AS w ON true"
        if self.chance(0.3):
            text += " WHERE " + exprs.text("bool", 3)
        groups = names + (NAMES if mistakes or not names else [])
        if self.chance(0.2):
            text += " GROUP BY " + ", ".join(random.choices(groups, k=random.randint(1, 2)))
        if self.chance(0.3):
            text += " ORDER BY " + ", ".join(self.key(exprs, known) for _ in range(random.randint(1, 2)))
        counts = Expressions(random, mistakes, {}, REFUSED)
        for word in ("LIMIT", "OFFSET"):
            if self.chance(0.1):
                text += f" {word} {counts.text(random.choice([*INTEGERS, UNTYPED]), 2)}"
        return text

    def fields(self, exprs, sets):
        """The fields of a SELECT, and the names that they may have."""
        if self.chance(0.15):
            names = [f"{name}.{column}" for name, table, _ in sets for column in self.tables.get(table, {})]
            return "*", names if len(sets) > 1 else [name.split(".")[1] for name in names]
        exprs.aggregates = self.chance(0.15)
        texts, known = [], []
        for kind in self.field_kinds():
            text = exprs.text(kind, self.random.randint(0, 3))
            if self.chance(0.3):
                known.append(self.random.choice(["a", "b", "n", "m", "t"]))
                text += f" AS {known[-1]}"
            elif text.replace(".", "").isalnum():
                known.append(text.split(".")[-1])
            texts.append(text)
        exprs.aggregates = False
        return ", ".join(texts), known

    def field_kinds(self):
        """The kinds of the fields, some of which are untyped."""
        if self.kinds is None:
            return [self.random.choice([*KINDS, UNTYPED]) for _ in range(self.random.randint(1, 3))]
        kinds = [UNTYPED if kind in INTEGERS and self.chance(0.5) else kind for kind in self.kinds]
        return kinds if self.chance(0.95) else kinds[1:] or kinds + [UNTYPED]

    def key(self, exprs, known):
        if known and self.chance(0.6):
            name = self.random.choice(known)
            met = [f"{name} + {self.random.choice(INTEGERS)}(1)"] if self.kinds else []
            return self.random.choice([name, name, f"{name} == NULL", f"({name})", f"{name} + 1", f"{name} == {name}", *met])
        return exprs.text(self.random.choice(KINDS), 2)


class Changes:
    """Random statements that change tables, each over a schema of its own."""

    def __init__(self, random):
        self.random = random

    def chance(self, of_one):
        return self.random.random() < of_one

    def some(self, count):
        return [self.script() for _ in range(count)]

    def script(self):
        """A schema, a COMMIT, which ends it, and a statement."""
        pick = self.random.choice
        self.tables = {
            name: {column: pick(KINDS) for column in self.random.sample("abcde", self.random.randint(1, 4))}
            for name in self.random.sample("tuv", self.random.randint(1, 3))
        }
        self.indexes = {name: pick([*self.tables]) for name in self.random.sample(["x", "y"], self.random.randint(0, 2))}
        self.mistakes = pick([0, 0, 0.02, 0.05])
        made = [f"CREATE TABLE {name} ({self.columns(columns)})" for name, columns in self.tables.items()]
        made += [f"CREATE INDEX {name} ON {table} (id())" for name, table in self.indexes.items()]
        statement = pick([self.create, self.drop, self.add, self.drop_column, self.truncate, *3 * [self.insert, self.update, self.delete]])
        return "; ".join([*made, "COMMIT", statement()])

    def columns(self, columns):
        return ", ".join(f"{name} {kind}" for name, kind in columns.items())

    def either(self, usual, *others):
        """Mostly one of the usual ones."""
        return self.random.choice([*others] if others and self.chance(0.1) else [*usual])

    def table(self):
        return self.either(self.tables, "nosuch", "__Table", "__t", *self.indexes, "t")

    def new_column(self):
        condition = self.either([""], " NOT NULL", " a > 0", " DEFAULT 1")
        return f"{self.either('abcdefgh', '__a', 'x', 't')} {self.random.choice(KINDS)}{condition}"

    def create(self):
        quiet = self.random.choice(["", "IF NOT EXISTS "])
        columns = ", ".join(self.new_column() for _ in range(self.random.randint(1, 3)))
        return f"CREATE TABLE {quiet}{self.either('tuvw', '__w', 'x', 'y')} ({columns})"

    def drop(self):
        return f"DROP TABLE {self.random.choice(['', 'IF EXISTS '])}{self.table()}"

    def add(self):
        return f"ALTER TABLE {self.table()} ADD {self.new_column()}"

    def drop_column(self):
        return f"ALTER TABLE {self.table()} DROP COLUMN {self.random.choice('abcde')}"

    def truncate(self):
        return f"TRUNCATE TABLE {self.table()}"

    def insert(self):
        table = self.table()
        columns = self.tables.get(table, {"a": "int64"})
        names, named = [*columns], ""
        if self.chance(0.5):
            names = self.random.sample(names, self.random.randint(1, len(names)))
            names += [self.random.choice("abcdefgh")] if self.chance(0.1) else []
            named = f"({', '.join(names)}) "
        kinds = [columns.get(name, "int64") for name in names]
        if self.chance(0.4):
            return f"INSERT INTO {table} {named}{Selects(self.random, self.tables, kinds).select()}"
        exprs = Expressions(self.random, self.mistakes, {}, REFUSED)
        rows = ", ".join(f"({', '.join(self.row(exprs, kinds))})" for _ in range(self.random.randint(1, 3)))
        return f"INSERT INTO {table} {named}VALUES {rows}"

    def row(self, exprs, kinds):
        values = [self.value(exprs, kind) for kind in kinds]
        return values if self.chance(0.95) else self.random.choice([values[1:] or values, values + ["1"]])

    def value(self, exprs, kind):
        """A value for a column of a kind, which may be untyped."""
        return exprs.text(UNTYPED if kind in INTEGERS and self.chance(0.5) else kind, 2)

    def seen(self, table):
        """What a row of the table shows, by its kind."""
        columns = {kind: [] for kind in KINDS}
        for name, kind in self.tables.get(table, {}).items():
            columns[kind] += [name, f"{table}.{name}"]
        columns["int64"] += ["id()", f"id({table})"]
        return Expressions(self.random, self.mistakes, columns, REFUSED)

    def update(self):
        table = self.table()
        exprs, columns = self.seen(table), self.tables.get(table, {"a": "int64"})
        names = self.random.sample([*columns], self.random.randint(1, len(columns)))
        if self.chance(0.1):
            names.append(self.random.choice("abcdefgh"))
        sets = ", ".join(f"{name} = {self.value(exprs, columns.get(name, 'int64'))}" for name in names)
        return f"UPDATE {table} {self.random.choice(['', 'SET '])}{sets}{self.where(exprs)}"

    def delete(self):
        table = self.table()
        return f"DELETE FROM {table}{self.where(self.seen(table))}"

    def where(self, exprs):
        return f" WHERE {exprs.text('bool', 2)}" if self.chance(0.6) else ""
