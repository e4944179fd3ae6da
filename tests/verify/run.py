#!/usr/bin/env python3
"""Runs the program of crates/test_verify on contents, and compares what it shows with what is written here, and with what the second
implementation in reference.py finds: in contents by hand, in such as are put together by chance, and in a small one with each byte
changed to every other value, and with logs that take only so many findings."""
import random
import subprocess
import sys

import reference


def spell(numbers, count):
    """A number in bytes."""
    return numbers.to_bytes(count, "big")


def table(heads):
    """The table of lists, with these heads by class."""
    return b"".join(spell(heads.get(k, 0), 8) for k in range(16))


def used(content, last=0):
    """A used block."""
    head = bytes([len(content)]) if len(content) <= 251 else b"\xfc" + spell(len(content) - 252, 2)
    body = head + content
    return body + bytes(16 * reference.atoms_for(len(content)) - len(body) - 1) + bytes([last])


def relocated(target):
    """A relocated block."""
    return b"\xfd" + spell(target, 7) + bytes(8)


def free(atoms, before, behind):
    """A free block."""
    if atoms == 1:
        return b"\xfe" + spell(before, 7) + spell(behind, 7) + b"\xfe"
    front = b"\xff" + spell(atoms, 7) + spell(before, 7) + spell(behind, 7)
    return front + bytes(16 * atoms - 30) + spell(atoms, 7) + b"\xff"


# a sound content: a relocated block, free blocks in two lists, used blocks short and long
SOUND = (table({0: 13, 1: 9}) + relocated(16) + free(2, 0, 0) + used(b"ab") + used(b"c") + free(1, 0, 0) + used(b"x" * 20) + used(b"y" * 300) + used(b""))
SMALL = table({0: 9}) + relocated(10) + free(1, 0, 11) + used(b"a") + free(1, 9, 0) + used(b"bc")
ROW = table({0: 8}) + free(1, 0, 9) + free(1, 8, 8) + used(b"")
CASES = [b"", bytes(16), bytes(100), bytes(128), bytes(130), bytes(144), SOUND, SMALL, ROW, ROW[:-1] + b"\x01",
         table({}) + used(b"a") + b"\xfd" + bytes(6) + b"\x08" + bytes(8) + relocated(8),
         table({0: 10}) + used(b"a") + used(b"b") + free(1, 0, 10) + used(b"c"),
         table({0: 10, 1: 10, 15: 8}) + used(b"a") + used(b"b") + free(1, 0, 8) + used(b"c"),
         table({3: 2**63}) + used(b"a"), table({4: 9}) + used(b"a") + free(20, 0, 0) + used(b"z" * 251),
         table({}) + used(b"q" * 65787) + free(3, 0, 0)]


def changed(content):
    """The content with each byte changed to every other value."""
    for at in range(len(content)):
        for value in range(256):
            if value != content[at]:
                yield content[:at] + bytes([value]) + content[at + 1:]


def mixed(count):
    """Contents of blocks put together by chance, with links that may be right, and relocated blocks that may name one block twice."""
    chance = random.Random(5)
    for _ in range(count):
        pieces = []
        for _ in range(chance.randrange(1, 7)):
            kind = chance.randrange(5)
            pieces.append([used(bytes(chance.randrange(20)), chance.randrange(2) * chance.randrange(2)), relocated(chance.randrange(7, 16)),
                           free(1, chance.choice([0, 8, 9, 10]), chance.choice([0, 9, 10, 11])), free(2, chance.choice([0, 8, 9]), chance.choice([0, 10, 12])), used(b"u")][kind])
        yield table({0: chance.choice([0, 8, 9, 10]), 1: chance.choice([0, 8, 9, 10, 11])}) + b"".join(pieces)


def expected(letter, content):
    """The line that is wanted where the log of a letter is told."""
    found = reference.findings(content)
    bound = {"a": None, "f": 1}.get(letter) if letter in "af" else int(letter)
    if not found:
        return " ".join([reference.counts(content) + ", told 0, handles"] + [str(atom) for atom in reference.handles(content)])
    told = found if bound is None else found[:bound]
    answer = f"stopped at {told[-1]}" if len(told) == bound else f"found {len(found)}"
    return "".join(line + "; " for line in told) + f"{answer}, told {len(told)}"


# what is written by hand: letters, contents, and the lines that are wanted
TABLE = [("a", b"", "atoms 0, used 0, relocated 0, free 0, told 0, handles"),
         ("a", ROW, "free neighbours 8 9; bad link 0 8; found 2, told 2"),
         ("f", ROW, "free neighbours 8 9; stopped at free neighbours 8 9, told 1"),
         ("a", ROW[:-1] + b"\x01", "free neighbours 8 9; compressed 10; bad link 0 8; found 3, told 3"),
         ("2", ROW[:-1] + b"\x01", "free neighbours 8 9; compressed 10; stopped at compressed 10, told 2"),
         ("3", ROW[:-1] + b"\x01", "free neighbours 8 9; compressed 10; bad link 0 8; stopped at bad link 0 8, told 3"),
         ("4", ROW[:-1] + b"\x01", "free neighbours 8 9; compressed 10; bad link 0 8; found 3, told 3"),
         ("a", bytes(100), "bad length 100; found 1, told 1"),
         ("a", bytes(130), "bad length 130; found 1, told 1"),
         ("a", bytes(128), "atoms 8, used 0, relocated 0, free 0, told 0, handles")]


def main():
    contents = CASES + list(mixed(3000))
    asked = [("a", c, expected("a", c)) for c in contents + list(changed(SMALL))]
    asked += [(letter, c, expected(letter, c)) for letter in "f1234" for c in contents if reference.findings(c)]
    asked = TABLE + asked
    lines = "".join(f"{letter} {content.hex().upper()}\n" for letter, content, _ in asked)
    run = subprocess.run(sys.argv[1:], input=lines, capture_output=True, text=True, check=False)
    shown = run.stdout.splitlines()
    wrong = [(letter, c, w, s) for (letter, c, w), s in zip(asked, shown) if w != s]
    for letter, content, wanted, got in wrong[:10]:
        print(letter, content.hex(), "wanted:", wanted, "got:", got)
    print(f"{len(asked)} contents, {len(shown)} lines, {len(wrong)} differ")
    return 1 if wrong or len(shown) != len(asked) or run.returncode else 0


if __name__ == "__main__":
    sys.exit(main())
