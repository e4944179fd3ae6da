"""Tables in memory, as a caller of the trait over them sees them: what each line of crates/test_rel answers."""
import copy

LONGEST_ROW = 65787
MOST_TABLES = 4096
MOST_COLUMNS = 256
RANGES = {"int64": (-(1 << 63), (1 << 63) - 1), "uint8": (0, 255), "int8": (-128, 127)}


def length_of_row(values):
    """2 bytes of a count; then a tag for each value, with 8 bytes of a number, or 4 bytes of a length and the bytes."""
    sizes = {"null": 1, "bool": 1, "number": 9}
    return 2 + sum(sizes[sort] if sort in sizes else 5 + size for sort, size in values)


def read_value(kind, word):
    if word == "null":
        return ("null", None)
    if kind == "bool":
        return ("bool", word)
    if kind in ("string", "blob"):
        return ("bytes", int(word))
    return ("number", int(word))


def show_value(value):
    return "null" if value[0] == "null" else str(value[1])


class Database:
    def __init__(self):
        self.next_id = 1
        self.tables = {}  # by name: columns, each a name and a kind, and rows by id

    def only(self):
        """The name of the table, where there is one and no other."""
        return next(iter(self.tables)) if len(self.tables) == 1 else None

    def at(self, place):
        names = sorted(self.tables)
        return self.tables[names[place]] if place < len(names) else None


class Model:
    def __init__(self):
        self.db = Database()
        self.saved = []
        self.ready = True
        self.given = 0

    def answer(self, line):
        verb, _, rest = line.partition(" ")
        if verb == "CREATE":
            return self.create(line)
        return getattr(self, verb)(*rest.split())

    def state(self):
        return f"depth {len(self.saved)} ready {str(self.ready).lower()} given {self.given}"

    def schema(self):
        names = sorted(self.db.tables)
        shown = [f" {name} {len(self.db.tables[name][0])}" for name in names[:10]]
        return f"{len(names)}" + "".join(shown)

    def begin(self):
        if not self.ready:
            return "not allowed"
        self.saved.append(copy.deepcopy(self.db))
        return "ok"

    def commit(self):
        if not self.ready or not self.saved:
            return "not allowed"
        self.saved.pop()
        return "ok"

    def rollback(self):
        if not self.saved:
            return "not allowed"
        self.db = self.saved.pop()
        self.ready = self.ready or not self.saved
        return "ok"

    def refuse(self, answer):
        self.ready = False
        return answer

    def changes(self, place):
        """The table at a place, where it may be changed."""
        return self.db.at(int(place)) if self.ready and self.saved else None

    def create(self, line):
        """CREATE TABLE with a name and columns."""
        name, _, columns = line.removeprefix("CREATE TABLE ").partition(" ")
        columns = columns.strip("();").split(", ")
        if not self.ready or not self.saved:
            return "not allowed"
        if name in self.db.tables:
            return "4"
        if len(self.db.tables) >= MOST_TABLES or len(columns) > MOST_COLUMNS:
            return self.refuse("36")
        self.db.tables[name] = (columns, {})
        return "ok"

    def values(self, table, words):
        """The values that words mean, where they are a row of the table."""
        kinds = [column.split()[1] for column in table[0]]
        if len(words) != len(kinds):
            return None
        values = [read_value(kind, word) for kind, word in zip(kinds, words)]
        for kind, (sort, value) in zip(kinds, values):
            if sort == "number" and not RANGES[kind][0] <= value <= RANGES[kind][1]:
                return None
        return values

    def insert(self, place, *words):
        table = self.changes(place)
        values = table and self.values(table, words)
        if values is None:
            return "not allowed"
        if length_of_row(values) > LONGEST_ROW:
            return self.refuse("row too long")
        table[1][self.db.next_id] = values
        self.db.next_id += 1
        return str(self.db.next_id - 1)

    def give(self, row):
        self.given += 1
        return row

    def change(self, place, row, *words):
        table = self.changes(place)
        values = table and self.values(table, words)
        if values is None:
            return "not allowed"
        if int(row) not in table[1]:
            return "no row"
        self.given += 1
        if length_of_row(values) > LONGEST_ROW:
            return self.refuse("row too long")
        table[1][int(row)] = values
        return "ok"

    def remove(self, place, row):
        table = self.changes(place)
        if table is None:
            return "not allowed"
        if int(row) not in table[1]:
            return "no row"
        self.given += 1
        del table[1][int(row)]
        return "ok"

    def truncate(self, place):
        table = self.changes(place)
        if table is None:
            return "not allowed"
        table[1].clear()
        return "ok"

    def drop(self, place):
        if self.changes(place) is None:
            return "not allowed"
        del self.db.tables[sorted(self.db.tables)[int(place)]]
        if not self.db.tables:
            self.db.next_id = 1
        return "ok"

    def is_made(self, words, columns):
        """Whether a CREATE TABLE makes the only table with these columns."""
        made = Model()
        made.begin()
        if made.create(" ".join(words)) != "ok":
            return None
        return made.db.only() == self.db.only() and made.db.at(0)[0] == columns

    def widen(self, *words):
        made = self.is_made(words, None)
        if made is None or self.changes(0) is None or self.db.only() is None:
            return "not allowed"
        columns, rows = self.db.at(0)
        wide = columns + ["added bool"]
        if any(column.split()[0] == "added" for column in columns):
            return "not allowed"
        if len(wide) > MOST_COLUMNS:
            return self.refuse("limit")
        if not self.is_made(words, wide):
            return "not allowed"
        if any(length_of_row(values + [("null", None)]) > LONGEST_ROW for values in rows.values()):
            return self.refuse("row too long")
        self.db.tables[self.db.only()] = (wide, {row: values + [("null", None)] for row, values in rows.items()})
        return "ok"

    def narrow(self, place, *words):
        if self.changes(0) is None or self.db.only() is None:
            return "not allowed"
        place, (columns, rows) = int(place), self.db.at(0)
        left = columns[:place] + columns[place + 1 :]
        if place >= len(columns) or len(columns) < 2 or not self.is_made(words, left):
            return "not allowed"
        self.db.tables[self.db.only()] = (left, {row: values[:place] + values[place + 1 :] for row, values in rows.items()})
        return "ok"

    def shown(self, place, chosen):
        """The row that is chosen among the ids of a table."""
        table = self.db.at(int(place)) if self.ready else None
        if table is None:
            return "not allowed"
        row = chosen(sorted(table[1]))
        if row is None:
            return "no row"
        self.given += 1
        return " ".join([str(row)] + [show_value(value) for value in table[1][row]])

    def fetch(self, place, row):
        return self.shown(place, lambda ids: int(row) if int(row) in ids else None)

    def scan(self, place, after):
        return self.shown(place, lambda ids: next((row for row in ids if row > int(after)), None))

    def walk(self, place):
        table = self.db.at(int(place)) if self.ready else None
        ids = sorted(table[1]) if table else []
        self.given += len(ids)
        return f"{len(ids)} {ids[-1] if ids else 0}"
