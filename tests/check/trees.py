"""Reads scripts as trees: all statements but those of transactions, of which it reads only where they end.

The tokens are those of tests/grammar. A script that does not read raises Fault; its place is not told here.
"""
import sys
from dataclasses import dataclass, field

from grammar.reference import COMPARISON, FUNCTIONS, KINDS, LEVELS, PREFIXES, SUM, Fault, tokens_of

MOST_OPEN = 200


@dataclass
class Number:
    value: int


@dataclass
class Text:
    value: str


@dataclass
class Truth:
    value: bool


@dataclass
class Null:
    pass


@dataclass
class Column:
    table: str | None
    name: str

    def written(self):
        return self.name if self.table is None else f"{self.table}.{self.name}"


@dataclass
class Paren:
    part: object


@dataclass
class Call:
    function: str
    parts: list


@dataclass
class Convert:
    kind: str
    part: object


@dataclass
class Unary:
    op: str
    part: object


@dataclass
class Binary:
    op: str
    left: object
    right: object


@dataclass
class In:
    part: object
    no: bool
    list: list


@dataclass
class InSelect:
    part: object


@dataclass
class Between:
    part: object
    no: bool
    low: object
    high: object


@dataclass
class IsNull:
    part: object
    no: bool


@dataclass
class Set:
    table: str | None  # None for a SELECT in brackets
    alias: str | None


@dataclass
class Select:
    distinct: bool = False
    fields: list | None = None  # pairs of an expression and its alias; None for *
    sets: list = field(default_factory=list)
    join: bool = False
    where: object = None
    groups: list = field(default_factory=list)
    keys: list = field(default_factory=list)
    limit: object = None
    offset: object = None


@dataclass
class ColumnDef:
    name: str
    kind: str
    not_null: bool = False
    rule: object = None
    default: object = None

    def takes_all(self):
        return not self.not_null and self.rule is None and self.default is None


@dataclass
class CreateTable:
    quiet: bool
    name: str
    columns: list


@dataclass
class DropTable:
    quiet: bool
    name: str


@dataclass
class AddColumn:
    table: str
    column: ColumnDef


@dataclass
class DropColumn:
    table: str
    name: str


@dataclass
class CreateIndex:
    unique: bool
    quiet: bool
    name: str
    table: str
    item: str | None  # None for the id


@dataclass
class DropIndex:
    quiet: bool
    name: str


@dataclass
class Insert:
    table: str
    names: list
    rows: list
    select: Select | None = None  # in place of rows


@dataclass
class Update:
    table: str
    sets: list  # pairs of a name and an expression
    where: object = None


@dataclass
class Delete:
    table: str
    where: object = None


@dataclass
class Truncate:
    table: str


@dataclass
class Other:
    """A statement that is not looked into."""


class Reader:
    def __init__(self, tokens):
        self.tokens = tokens
        self.at = 0
        self.open = 0

    def sees(self, *whats):
        return self.at < len(self.tokens) and self.tokens[self.at].what in whats

    def need(self, *whats):
        if not self.sees(*whats):
            raise Fault("no script")
        self.at += 1
        return self.tokens[self.at - 1]

    def has(self, what):
        return bool(self.sees(what) and self.need(what))

    def name(self):
        return self.need("name").means

    def bracketed(self, part):
        self.need("(")
        self.open += 1
        if self.open > MOST_OPEN:
            raise Fault("no script")
        inside = part()
        self.need(")")
        self.open -= 1
        return inside

    def list(self, part, begins):
        parts = [part()]
        while self.has(",") and begins():
            parts.append(part())
        return parts

    # statements

    def script(self):
        statements = []
        while self.at < len(self.tokens):
            if not self.has(";"):
                statements.append(self.statement())
                if self.at < len(self.tokens):
                    self.need(";")
        return statements

    def statement(self):
        if self.sees("SELECT"):
            return self.select()
        word = self.need("BEGIN", "COMMIT", "ROLLBACK", "CREATE", "DROP", "ALTER", "TRUNCATE", "INSERT", "UPDATE", "DELETE").what
        if word == "BEGIN":
            self.need("TRANSACTION")
        if word in ("BEGIN", "COMMIT", "ROLLBACK"):
            return Other()
        return getattr(self, word.lower())()

    def create(self):
        if self.has("TABLE"):
            quiet, name = self.quiet("NOT", "EXISTS"), self.name()
            return CreateTable(quiet, name, self.bracketed(lambda: self.list(self.column, lambda: self.sees("name"))))
        unique = self.has("UNIQUE")
        self.need("INDEX")
        quiet, name = self.quiet("NOT", "EXISTS"), self.name()
        self.need("ON")
        return CreateIndex(unique, quiet, name, self.name(), self.bracketed(self.item))

    def quiet(self, *words):
        if not self.has("IF"):
            return False
        for word in words:
            self.need(word)
        return True

    def item(self):
        name = self.name()
        if name == "id" and self.sees("("):
            return self.bracketed(lambda: None)
        return name

    def column(self):
        made = ColumnDef(self.name(), KINDS[self.need(*KINDS).what])
        if self.has("NOT"):
            if self.has("NULL"):
                made.not_null = True
            else:
                raise Fault("no script")
        elif self.begins_expr():
            made.rule = self.expr()
        made.default = self.behind("DEFAULT")
        return made

    def drop(self):
        table = self.need("TABLE", "INDEX").what == "TABLE"
        return (DropTable if table else DropIndex)(self.quiet("EXISTS"), self.name())

    def alter(self):
        self.need("TABLE")
        table = self.name()
        if self.need("ADD", "DROP").what == "ADD":
            return AddColumn(table, self.column())
        self.need("COLUMN")
        return DropColumn(table, self.name())

    def truncate(self):
        self.need("TABLE")
        return Truncate(self.name())

    def insert(self):
        self.need("INTO")
        table, names = self.name(), []
        if self.sees("("):
            names = self.bracketed(lambda: self.list(self.name, lambda: self.sees("name")))
        if self.sees("SELECT"):
            return Insert(table, names, [], self.select())
        self.need("VALUES")
        return Insert(table, names, self.list(lambda: self.bracketed(self.exprs), lambda: self.sees("(")))

    def update(self):
        table = self.name()
        self.has("SET")
        return Update(table, self.list(self.assignment, lambda: self.sees("name")), self.behind("WHERE"))

    def assignment(self):
        name = self.name()
        self.need("=")
        return name, self.expr()

    def delete(self):
        self.need("FROM")
        return Delete(self.name(), self.behind("WHERE"))

    def select(self):
        made = Select()
        self.need("SELECT")
        made.distinct = self.has("DISTINCT")
        if not self.has("*"):
            made.fields = self.list(self.field, self.begins_expr)
        if self.has("FROM"):
            made.sets = self.list(self.set, lambda: self.sees("name", "("))
            if self.sees("LEFT", "RIGHT", "FULL"):
                made.join = self.join()
        made.where = self.behind("WHERE")
        if self.has("GROUP"):
            self.need("BY")
            made.groups = self.list(self.ref, lambda: self.sees("name"))
        if self.has("ORDER"):
            self.need("BY")
            made.keys = self.exprs()
            self.has("ASC") or self.has("DESC")
        made.limit = self.behind("LIMIT")
        made.offset = self.behind("OFFSET")
        return made

    def behind(self, word):
        return self.expr() if self.has(word) else None

    def field(self):
        return self.expr(), self.alias()

    def alias(self):
        return self.name() if self.has("AS") else None

    def set(self):
        source = None
        if self.sees("("):
            self.bracketed(self.subselect)
        else:
            source = self.name()
        return Set(source, self.alias())

    def subselect(self):
        self.select()
        self.has(";")

    def join(self):
        self.need("LEFT", "RIGHT", "FULL")
        self.has("OUTER")
        self.need("JOIN")
        self.set()
        self.need("ON")
        self.expr()
        return True

    # expressions

    def begins_expr(self):
        return self.sees(*PREFIXES, "number", "text", "name", "TRUE", "FALSE", "NULL", "(", *KINDS)

    def exprs(self):
        return self.list(self.expr, self.begins_expr)

    def expr(self):
        return self.chain(0)

    def chain(self, level):
        if level == len(LEVELS):
            return self.unary()
        ops = LEVELS[level]
        left = self.chain(level + 1)
        while self.sees(*ops):
            left = Binary(ops[self.need(*ops).what], left, self.chain(level + 1))
        return self.predicate(left) if ops is COMPARISON else left

    def predicate(self, part):
        if self.has("IS"):
            no = self.has("NOT")
            self.need("NULL")
            return IsNull(part, no)
        if not self.sees("NOT", "IN", "BETWEEN"):
            return part
        no = self.has("NOT")
        if self.need("IN", "BETWEEN").what == "IN":
            members = self.bracketed(self.members)
            return InSelect(part) if members is None else In(part, no, members)
        low = self.chain(LEVELS.index(SUM))
        self.need("AND")
        return Between(part, no, low, self.chain(LEVELS.index(SUM)))

    def members(self):
        return self.subselect() if self.sees("SELECT") else self.exprs()

    def unary(self):
        if self.sees(*PREFIXES):
            return Unary(self.need(*PREFIXES).what, self.unary())
        return self.primary()

    def primary(self):
        if self.sees("name"):
            is_call = self.tokens[self.at].means in FUNCTIONS and self.tokens[self.at + 1 : self.at + 2] == [("(", None)]
            return self.call() if is_call else self.ref()
        if self.sees("("):
            return Paren(self.bracketed(self.expr))
        token = self.need("number", "text", "TRUE", "FALSE", "NULL", *KINDS)
        if token.what == "number":
            return Number(token.means)
        if token.what == "text":
            return Text(token.means)
        if token.what in KINDS:
            return Convert(KINDS[token.what], self.bracketed(self.expr))
        return Null() if token.what == "NULL" else Truth(token.what == "TRUE")

    def ref(self):
        name = self.name()
        return Column(name, self.name()) if self.has(".") else Column(None, name)

    def call(self):
        name = self.name()
        return Call(name, self.bracketed(lambda: self.parts(name)))

    def parts(self, function):
        if function == "count" and self.has("*"):
            return []
        return self.exprs() if self.begins_expr() else []


def statements_of(script):
    """The statements of a script, or Fault."""
    sys.setrecursionlimit(20_000)  # a bracket takes a dozen calls
    return Reader(tokens_of(script)).script()
