"""Random scripts: statements derived from the grammar in docs/LANGUAGE.md, and changed ones that mostly do not read."""
import pathlib
import re

LANGUAGE = pathlib.Path(__file__).resolve().parent.parent.parent / "docs" / "LANGUAGE.md"

# what a terminal of the grammar that is no word of its own may be
TERMINALS = {
    "name": ["t", "a", "b", "x1", "_u", "id", "len", "count"],
    "number": ["0", "1", "20", "0x1F", "017", "18446744073709551615"],
    "text": ['"a"', '"\\n\\"\\x00\\u00e9"', "`raw \\ `", '""'],
    "function": ["id", "len", "contains", "hasPrefix", "hasSuffix", "coalesce", "sum", "avg", "min", "max"],
}
WORDS = (
    "ADD ALTER AND AS ASC BEGIN BETWEEN BY COLUMN COMMIT CREATE DEFAULT DELETE DESC DISTINCT DROP EXISTS EXPLAIN FROM FULL "
    "GROUP IF IN INDEX INSERT INTO IS JOIN LEFT LIKE LIMIT NOT NULL OFFSET ON OR ORDER OUTER RIGHT ROLLBACK SELECT SET TABLE "
    "TRANSACTION TRUNCATE UNIQUE UPDATE VALUES WHERE true false int64 string blob rune float bigint"
).split()
MARKS = "+ - * / % & | ^ && || == = != <> < <= > >= << >> &^ ! ( ( ( ) ) ) , , ; .".split()
VOCABULARY = WORDS + MARKS + [word for words in TERMINALS.values() for word in words]
GAPS = [" ", " ", " ", " ", "  ", "\t", " /* c */ ", "\r"]


def grammar():
    """The grammar of docs/LANGUAGE.md: the right side of each production, a tree."""
    text = LANGUAGE.read_text("utf-8")
    block = text[text.index("Script     =") :].split("```")[0]
    parts = re.split(r"^(\w+) += ", block, flags=re.M)[1:]
    return {name: Sides(side).alternatives() for name, side in zip(parts[::2], parts[1::2])}


class Sides:
    """Reads the right side of a production."""

    def __init__(self, text):
        self.tokens = re.findall(r'"[^"]+"|\w+|[][(){}|]', text)

    def alternatives(self):
        found = [self.sequence()]
        while self.tokens and self.tokens[0] == "|":
            self.tokens.pop(0)
            found.append(self.sequence())
        return ("one of", found)

    def sequence(self):
        found = []
        while self.tokens and self.tokens[0] not in ("|", ")", "]", "}"):
            found.append(self.part())
        return ("all of", found)

    def part(self):
        token = self.tokens.pop(0)
        if token == "list":
            self.tokens.pop(0)
        sort = {"(": "group", "[": "maybe", "{": "many", "list": "list"}.get(token)
        if sort is None:
            return ("text", token.strip('"')) if token.startswith('"') else ("word", token)
        inside = self.alternatives()
        self.tokens.pop(0)
        return (sort, inside)


class Scripts:
    def __init__(self, random):
        self.random = random
        self.productions = grammar()

    def derived(self, part, size):
        """The tokens of something that the part derives. Where `size` is spent, the shortest way is taken."""
        sort, inside = part
        if sort == "text":
            return [inside]
        if sort == "word":
            if inside in self.productions:
                return self.derived(self.productions[inside], size - 1)
            return [self.random.choice(TERMINALS.get(inside, [inside]))]
        if sort == "one of":
            return self.derived(inside[0] if size <= 0 else self.random.choice(inside), size)
        if sort == "all of":
            return [token for each in inside for token in self.derived(each, size)]
        if sort == "group":
            return self.derived(inside, size)
        return self.repeated(sort, inside, size)

    def repeated(self, sort, inside, size):
        often = 0 if size <= 0 or self.random.random() < 0.6 else 1 if sort == "maybe" else self.random.randint(1, 3)
        if sort != "list":
            return [token for _ in range(often) for token in self.derived(inside, size - 1)]
        tokens = self.derived(inside, size)
        for _ in range(often):
            tokens += [","] + self.derived(inside, size - 1)
        return tokens + ([","] if self.random.random() < 0.1 else [])

    def statement(self):
        return self.derived(self.productions["Statement"], self.random.randint(2, 12))

    def script(self):
        tokens = self.statement()
        while self.random.random() < 0.2:
            tokens += [";"] + self.statement()
        return tokens

    def changed(self, tokens):
        """The tokens with one to three of them dropped, doubled, replaced, exchanged, or with one more; or cut off."""
        tokens = list(tokens)
        for _ in range(self.random.randint(1, 3)):
            at = self.random.randrange(len(tokens) + 1)
            change = self.random.randrange(6)
            if change == 0:
                del tokens[at : at + 1]
            elif change == 1:
                tokens[at:at] = tokens[at : at + 1]
            elif change == 2:
                tokens[at : at + 1] = [self.random.choice(VOCABULARY)]
            elif change == 3:
                tokens[at : at + 2] = reversed(tokens[at : at + 2])
            elif change == 4:
                tokens[at:at] = [self.random.choice(VOCABULARY)]
            else:
                del tokens[at:]
        return tokens

    def any_tokens(self):
        return self.random.choices(VOCABULARY, k=self.random.randint(1, 12))

    def text(self, tokens):
        return "".join(token + self.random.choice(GAPS) for token in tokens)

    def with_changed_byte(self, text):
        at = self.random.randrange(len(text) + 1)
        byte = chr(self.random.choice([byte for byte in range(256) if byte != 10]))
        return text[:at] + self.random.choice(["", byte]) + text[at + self.random.randrange(2) :]

    def some(self, count):
        """So many scripts: as derived, with tokens changed, with a byte changed, and of any tokens."""
        found = []
        for number in range(count):
            sort = number % 8
            tokens = self.any_tokens() if sort == 0 else self.script()
            text = self.text(self.changed(tokens) if 1 <= sort <= 4 else tokens)
            found.append(self.with_changed_byte(text) if sort == 5 else text)
        return found
