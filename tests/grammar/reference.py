#!/usr/bin/env python3
"""Reads the language a second time: what a script comes to, as crates/test_grammar writes it.

It is written from the grammar as docs/LANGUAGE.md tells it, not from the program. As a program it takes each line of
standard input as a script and writes what it comes to on a line of its own.

Texts are taken as Latin-1, so that each character is one byte.
"""
import re
import sys
from collections import namedtuple

KEYWORDS = set(
    "ADD ALTER AND AS ASC BEGIN BETWEEN BIGINT BIGRAT BLOB BOOL BY BYTE COLUMN COMMIT COMPLEX64 COMPLEX128 CREATE DEFAULT "
    "DELETE DESC DISTINCT DROP DURATION EXISTS EXPLAIN FALSE FLOAT FLOAT32 FLOAT64 FROM FULL GROUP IF IN INDEX INSERT INT "
    "INT8 INT16 INT32 INT64 INTO IS JOIN LEFT LIKE LIMIT NOT NULL OFFSET ON OR ORDER OUTER RIGHT ROLLBACK RUNE SELECT SET "
    "STRING TABLE TIME TRANSACTION TRUE TRUNCATE UINT UINT8 UINT16 UINT32 UINT64 UNIQUE UPDATE VALUES WHERE".split()
)
KINDS = {kind: kind.lower() for kind in "BOOL STRING BLOB INT8 INT16 INT32 INT64 UINT8 UINT16 UINT32 UINT64".split()}
KINDS |= {"BYTE": "uint8", "RUNE": "int32", "INT": "int64", "UINT": "uint64"}
FUNCTIONS = set("id len contains hasPrefix hasSuffix coalesce count sum avg min max".split())

# the operators between two parts, each with what it prints, from the level that binds least to the one that binds most
EITHER = {"||": "||", "OR": "||"}
BOTH = {"&&": "&&", "AND": "&&"}
COMPARISON = {"==": "==", "=": "==", "!=": "!=", "<>": "!=", "LIKE": "LIKE"} | {op: op for op in ("<", "<=", ">", ">=")}
SUM = {op: op for op in ("+", "-", "|", "^")}
PRODUCT = {op: op for op in ("*", "/", "%", "<<", ">>", "&", "&^")}
LEVELS = [EITHER, BOTH, COMPARISON, SUM, PRODUCT]
PREFIXES = ("+", "-", "!", "^")

MOST_OPEN = 200

# a token: a keyword in capitals, a mark, or "name", "number" or "text"; with the bytes or the number that it means
Token = namedtuple("Token", "what means")


class Fault(Exception):
    """Why a script is none: its line."""


# Tokens

GAP = re.compile(r"[ \t\r\n]+|(?:--|//)[^\n]*")
WORD = re.compile(r"[A-Za-z_][A-Za-z0-9_]*")
DIGITS_AND_LETTERS = re.compile(r"[0-9][A-Za-z0-9_]*")
NUMBER = re.compile(r"0[xX][0-9a-fA-F]+|0[0-7]*|[1-9][0-9]*")
MARKS = "&& || == != <> <= >= << >> &^ + - * / % & | ^ = < > ! ( ) , ; .".split()
SIMPLE_ESCAPES = {"a": 7, "b": 8, "f": 12, "n": 10, "r": 13, "t": 9, "v": 11, "\\": 92, '"': 34}
LONG_ESCAPES = {"x": (16, 2), "u": (16, 4), "U": (16, 8)}


def tokens_of(source):
    tokens, at = [], 0
    while at < len(source):
        if source.startswith("/*", at):
            end = source.find("*/", at + 2)
            if end < 0:
                raise Fault(f"unclosed {at}")
            at = end + 2
        elif gap := GAP.match(source, at):
            at = gap.end()
        else:
            token, at = token_at(source, at)
            tokens.append(token)
    return tokens


def token_at(source, at):
    """The token that begins here, and the place behind it."""
    if word := WORD.match(source, at):
        return word_token(word.group(), at), word.end()
    if digits := DIGITS_AND_LETTERS.match(source, at):
        return number_token(digits.group(), at), digits.end()
    if source[at] == '"':
        return interpreted_string(source, at)
    if source[at] == "`":
        end = source.find("`", at + 1)
        if end < 0:
            raise Fault(f"unclosed {at}")
        return Token("text", source[at + 1 : end].replace("\r", "")), end + 1
    for mark in MARKS:
        if source.startswith(mark, at):
            return Token(mark, None), at + len(mark)
    raise Fault(f"bad byte {at}")


def word_token(word, at):
    if word.upper() in KEYWORDS:
        return Token(word.upper(), None)
    if len(word) > 128:
        raise Fault(f"bad literal {at}")
    return Token("name", word)


def number_token(digits, at):
    if not NUMBER.fullmatch(digits):
        raise Fault(f"bad literal {at}")
    base = 16 if digits[:2] in ("0x", "0X") else 8 if digits[0] == "0" else 10
    number = int(digits, base)
    if number >= 2**64:
        raise Fault(f"bad literal {at}")
    return Token("number", number)


def interpreted_string(source, start):
    made, at = "", start + 1
    while source[at : at + 1] != '"':
        byte = source[at : at + 1]
        if byte == "":
            raise Fault(f"unclosed {start}")
        if byte == "\n":
            raise Fault(f"bad literal {start}")
        if byte == "\\":
            byte, at = escape(source, at + 1, start)
        else:
            at += 1
        made += byte
    return Token("text", made), at + 1


def escape(source, at, start):
    """What the escape means whose backslash stands before this place, and the place behind it."""
    letter = source[at : at + 1]
    if letter in SIMPLE_ESCAPES:
        return chr(SIMPLE_ESCAPES[letter]), at + 1
    if letter in LONG_ESCAPES:
        base, count = LONG_ESCAPES[letter]
        number = digits_of(source, at + 1, base, count, start)
        at += 1 + count
    else:
        base, count = 8, 3
        number = digits_of(source, at, base, count, start)
        at += count
    if letter in ("u", "U"):
        if number > 0x10FFFF or 0xD800 <= number <= 0xDFFF:
            raise Fault(f"bad literal {start}")
        return chr(number).encode().decode("latin-1"), at
    if number > 255:
        raise Fault(f"bad literal {start}")
    return chr(number), at


def digits_of(source, at, base, count, start):
    """The number that so many digits of an escape are."""
    allowed = "0123456789abcdefABCDEF" if base == 16 else "01234567"
    for digit in source[at : at + count]:
        if digit not in allowed:
            raise Fault(f"bad literal {start}")
    if at + count > len(source):
        raise Fault(f"unclosed {start}")
    return int(source[at : at + count], base)


# Statements. Each method reads one part of the grammar and answers what it prints, where a group within an expression
# (a chain, a run of operators before a part, a predicate) stands between two bytes that no printed text has.

OPEN_GROUP, CLOSE_GROUP = "\1", "\2"


def group(text):
    return OPEN_GROUP + text + CLOSE_GROUP


def plain(text):
    """A printed text without its groups."""
    return text.replace(OPEN_GROUP, "").replace(CLOSE_GROUP, "")


def shape(text):
    """A printed text with its groups in square brackets."""
    return text.replace(OPEN_GROUP, "[").replace(CLOSE_GROUP, "]")


def quoted(text):
    escapes = {'"': '\\"', "\\": "\\\\", "\n": "\\n", "\r": "\\r", "\t": "\\t"}
    escapes |= {chr(byte): f"\\x{byte:02x}" for byte in (*range(32), 127) if chr(byte) not in escapes}
    return '"' + "".join(escapes.get(letter, letter) for letter in text) + '"'


class Reader:
    def __init__(self, tokens):
        self.tokens = tokens
        self.at = 0
        self.open = 0
        self.fields = []  # the shapes of the fields that the statements show

    # one token

    def sees(self, *whats):
        return self.at < len(self.tokens) and self.tokens[self.at].what in whats

    def sees_open_behind(self):
        return self.at + 1 < len(self.tokens) and self.tokens[self.at + 1].what == "("

    def unexpected(self):
        return Fault(f"unexpected {self.at}")

    def need(self, *whats):
        """Takes the next token, which must be one of these."""
        if not self.sees(*whats):
            raise self.unexpected()
        self.at += 1
        return self.tokens[self.at - 1]

    def has(self, what):
        """Takes the next token if it is this one."""
        if self.sees(what):
            self.at += 1
            return True
        return False

    def words(self, *words):
        for word in words:
            self.need(word)

    def name(self):
        return self.need("name").means

    # parts that occur in many places

    def bracketed(self, part):
        if self.sees("(") and self.open == MOST_OPEN:
            raise Fault(f"too nested {self.at}")
        self.need("(")
        self.open += 1
        inside = part()
        self.need(")")
        self.open -= 1
        return f"({inside})"

    def list(self, part, begins):
        parts = [part()]
        while self.has(",") and begins():
            parts.append(part())
        return ", ".join(parts)

    def behind(self, word, part):
        """A keyword and a part, if the keyword is there."""
        return f" {word} {part()}" if self.has(word) else ""

    def begins_name(self):
        return self.sees("name")

    # statements

    def script(self):
        statements = []
        while True:
            if self.begins_statement():
                statements.append(plain(self.statement()))
            if not self.has(";"):
                break
        if self.at < len(self.tokens):
            raise self.unexpected()
        return "; ".join(statements) + "".join(" | " + field for field in self.fields)

    def begins_statement(self):
        return self.sees(*STATEMENTS)

    def statement(self):
        return STATEMENTS[self.tokens[self.at].what](self)

    def begin(self):
        self.words("BEGIN", "TRANSACTION")
        return "BEGIN TRANSACTION"

    def commit(self):
        self.words("COMMIT")
        return "COMMIT"

    def rollback(self):
        self.words("ROLLBACK")
        return "ROLLBACK"

    def query(self):
        text, fields = self.select()
        self.fields += fields
        return text

    def create(self):
        self.words("CREATE")
        if self.has("TABLE"):
            quiet = self.if_not_exists()
            return f"CREATE TABLE {quiet}{self.name()} {self.bracketed(self.columns)}"
        unique = "UNIQUE " if self.has("UNIQUE") else ""
        self.words("INDEX")
        quiet = self.if_not_exists()
        name = self.name()
        self.words("ON")
        return f"CREATE {unique}INDEX {quiet}{name} ON {self.name()} {self.bracketed(self.item)}"

    def if_not_exists(self):
        if not self.has("IF"):
            return ""
        self.words("NOT", "EXISTS")
        return "IF NOT EXISTS "

    def if_exists(self):
        if not self.has("IF"):
            return ""
        self.words("EXISTS")
        return "IF EXISTS "

    def item(self):
        """What an index orders by."""
        name = self.name()
        if name == "id" and self.sees("("):
            return name + self.bracketed(lambda: "")
        return name

    def columns(self):
        return self.list(self.column, self.begins_name)

    def column(self):
        text = self.name() + " " + KINDS[self.need(*KINDS).what]
        if self.has("NOT"):
            self.words("NULL")
            text += " NOT NULL"
        elif self.begins_expr():
            text += " " + self.expr()
        return text + self.behind("DEFAULT", self.expr)

    def drop(self):
        self.words("DROP")
        what = self.need("TABLE", "INDEX").what
        return f"DROP {what} {self.if_exists()}{self.name()}"

    def alter(self):
        self.words("ALTER", "TABLE")
        name = self.name()
        if self.need("ADD", "DROP").what == "ADD":
            return f"ALTER TABLE {name} ADD {self.column()}"
        self.words("COLUMN")
        return f"ALTER TABLE {name} DROP COLUMN {self.name()}"

    def truncate(self):
        self.words("TRUNCATE", "TABLE")
        return "TRUNCATE TABLE " + self.name()

    def insert(self):
        self.words("INSERT", "INTO")
        text = "INSERT INTO " + self.name()
        if self.sees("("):
            text += " " + self.bracketed(lambda: self.list(self.name, self.begins_name))
        if self.sees("SELECT"):
            return text + " " + self.select()[0]
        self.words("VALUES")
        return text + " VALUES " + self.list(lambda: self.bracketed(self.exprs), lambda: self.sees("("))

    def update(self):
        self.words("UPDATE")
        name = self.name()
        self.has("SET")
        return f"UPDATE {name} SET {self.list(self.assign, self.begins_name)}" + self.behind("WHERE", self.expr)

    def assign(self):
        name = self.name()
        self.need("=")
        return f"{name} = {self.expr()}"

    def delete(self):
        self.words("DELETE", "FROM")
        return f"DELETE FROM {self.name()}" + self.behind("WHERE", self.expr)

    # SELECT

    def select(self):
        """What a SELECT prints, and the shapes of its fields."""
        self.words("SELECT")
        distinct = "DISTINCT " if self.has("DISTINCT") else ""
        shapes = []
        shown = "*" if self.has("*") else self.list(lambda: self.field(shapes), self.begins_expr)
        text = f"SELECT {distinct}{shown}" + self.from_sets() + self.behind("WHERE", self.expr)
        if self.has("GROUP"):
            self.words("BY")
            text += " GROUP BY " + self.list(self.ref, self.begins_name)
        if self.has("ORDER"):
            self.words("BY")
            text += " ORDER BY " + self.exprs()
            if not self.has("ASC") and self.has("DESC"):
                text += " DESC"
        return text + self.behind("LIMIT", self.expr) + self.behind("OFFSET", self.expr), shapes

    def field(self, shapes):
        expr = self.expr()
        shapes.append(shape(expr))
        return expr + self.alias()

    def alias(self):
        return self.behind("AS", self.name)

    def from_sets(self):
        if not self.has("FROM"):
            return ""
        text = " FROM " + self.list(self.set, lambda: self.sees("name", "("))
        if self.sees("LEFT", "RIGHT", "FULL"):
            side = self.need("LEFT", "RIGHT", "FULL").what
            self.has("OUTER")
            self.words("JOIN")
            text += f" {side} OUTER JOIN {self.set()}"
            self.words("ON")
            text += f" ON {self.expr()}"
        return text

    def set(self):
        source = self.bracketed(self.subselect) if self.sees("(") else self.name()
        return source + self.alias()

    def subselect(self):
        text = plain(self.select()[0])
        self.has(";")
        return text

    # expressions

    def begins_expr(self):
        return self.sees(*PREFIXES, "number", "text", "name", "TRUE", "FALSE", "NULL", "(", *KINDS)

    def exprs(self):
        return self.list(self.expr, self.begins_expr)

    def expr(self):
        return self.chain(0)

    def chain(self, level):
        """Parts between operators of a level, from left to right."""
        if level == len(LEVELS):
            return self.unary()
        text = self.chain(level + 1)
        ops = LEVELS[level]
        if self.sees(*ops):
            while self.sees(*ops):
                op = ops[self.need(*ops).what]
                text += f" {op} {self.chain(level + 1)}"
            text = group(text)
        return self.predicate(text) if ops is COMPARISON else text

    def predicate(self, part):
        if self.has("IS"):
            no = "NOT " if self.has("NOT") else ""
            self.words("NULL")
            return group(f"{part} IS {no}NULL")
        if not self.sees("NOT", "IN", "BETWEEN"):
            return part
        no = "NOT " if self.has("NOT") else ""
        if self.need("IN", "BETWEEN").what == "IN":
            return group(f"{part} {no}IN {self.bracketed(self.members)}")
        low = self.chain(LEVELS.index(SUM))
        self.words("AND")
        return group(f"{part} {no}BETWEEN {low} AND {self.chain(LEVELS.index(SUM))}")

    def members(self):
        return self.subselect() if self.sees("SELECT") else self.exprs()

    def unary(self):
        ops = []
        while self.sees(*PREFIXES):
            ops.append(self.need(*PREFIXES).what)
        part = self.primary()
        return group(" ".join(ops) + part) if ops else part

    def primary(self):
        if self.sees("name"):
            is_call = self.sees_open_behind() and self.tokens[self.at].means in FUNCTIONS
            return self.call() if is_call else self.ref()
        if self.sees("("):
            return self.bracketed(self.expr)
        token = self.need("number", "text", "TRUE", "FALSE", "NULL", *KINDS)
        if token.what == "number":
            return str(token.means)
        if token.what == "text":
            return quoted(token.means)
        if token.what in KINDS:
            return KINDS[token.what] + self.bracketed(self.expr)
        return "NULL" if token.what == "NULL" else token.what.lower()

    def ref(self):
        name = self.name()
        return f"{name}.{self.name()}" if self.has(".") else name

    def call(self):
        name = self.name()
        return name + self.bracketed(lambda: self.parts(name))

    def parts(self, function):
        if function == "count" and self.has("*"):
            return ""
        return self.exprs() if self.begins_expr() else ""


STATEMENTS = {
    "BEGIN": Reader.begin,
    "COMMIT": Reader.commit,
    "ROLLBACK": Reader.rollback,
    "SELECT": Reader.query,
    "CREATE": Reader.create,
    "DROP": Reader.drop,
    "ALTER": Reader.alter,
    "TRUNCATE": Reader.truncate,
    "INSERT": Reader.insert,
    "UPDATE": Reader.update,
    "DELETE": Reader.delete,
}


def outcome(script):
    """What a script comes to."""
    sys.setrecursionlimit(20_000)  # a bracket takes a dozen calls
    try:
        return Reader(tokens_of(script)).script()
    except Fault as fault:
        return str(fault)


def main():
    text = sys.stdin.buffer.read().decode("latin-1").removesuffix("\n")
    for line in text.split("\n"):
        sys.stdout.buffer.write((outcome(line) + "\n").encode("latin-1"))


if __name__ == "__main__":
    main()
