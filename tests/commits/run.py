#!/usr/bin/env python3
"""Runs the program of crates/test_commits on pairs of files and commits, and compares what a stop at each moment leaves, once it
is opened, and once more, with what docs/FORMAT.md says.

Usage: run.py PROGRAM
"""
import functools
import os
import subprocess
import sys

sys.path.insert(0, os.path.join(os.path.dirname(os.path.abspath(__file__)), "..", "wal"))
from judge import LOG_MAGIC, MAGIC, Fault, checksum, is_closed, read_batch  # noqa: E402

OPEN, CLOSED = LOG_MAGIC + b"\x01", LOG_MAGIC + b"\x00"
LIMIT = 300_000  # how long the program lets a data file become
NEVER = 99_999_999  # the number of a call that there is not
SECONDS = 300


@functools.lru_cache(None)
def sum_of(content):
    return f"{len(content)}:{checksum(content):x}"


def spell(pieces, new):
    """An open log."""
    parts = [OPEN, len(pieces).to_bytes(8, "big")]
    for place, piece in pieces:
        parts += [place.to_bytes(8, "big"), len(piece).to_bytes(4, "big"), piece]
    return b"".join(parts) + new.to_bytes(8, "big")


def applied(data, pieces, new):
    """A data file after a batch."""
    data = bytearray(data)
    for place, piece in pieces:
        data[place : place + len(piece)] = piece
    return bytes(data[:new])


def held(data, log):
    """What two files hold, the magic before it, or the word of the refusal."""
    fresh = len(log) >= 16 and log.startswith(LOG_MAGIC) and is_closed(log)
    if not data or (data[:16] != MAGIC and len(data) <= 16 and fresh):
        return MAGIC, None
    if data[:16] != MAGIC:
        return None, "not_database"
    if is_closed(log):
        return data, None
    if not log.startswith(LOG_MAGIC):
        return None, "bad_log:0"
    try:
        return applied(data, *read_batch(len(data), log)), None
    except Fault as fault:
        return None, f"bad_log:{fault.at}"


class Commit:
    """A batch of pieces, moved by a shift, with the length that it sets."""

    def __init__(self, length, *pieces, shift=0):
        self.pieces = [(place + shift, piece) for place, piece in pieces]
        self.new = length + shift
        self.word = ":".join([f"{shift},{length}"] + [f"{place},{piece.hex()}" for place, piece in pieces])

    def answer(self, data):
        """The word for what it answers on a data file, that file afterwards, and how many device calls it makes: the batch
        with a sync, the gate with a sync, each piece, the cut and a sync, and the gate with a sync and a cut."""
        if self.new > len(data) and self.new > LIMIT:
            return f"full:{self.new}:{LIMIT}", data, 0
        if not self.pieces and self.new == len(data):
            return "ok", data, 0
        return "ok", applied(data, self.pieces, self.new), len(self.pieces) + 9


ROW_DATA = MAGIC + b"\xaa" * 60
ROW_LOG = bytes.fromhex(
    "514C206C6C6462206C6F6720666D7401 0000000000000001 0000000000000010 00000080" + "00" * 128 + "0000000000000090"
)
LONG = bytes(n * n % 251 for n in range(65536))

# Names, both files, and commits.
CASES = [
    ("row", ROW_DATA, ROW_LOG, [Commit(144, (16, b"\x07" * 5)), Commit(60, (20, b"\x09" * 3))]),
    ("row, one byte short", ROW_DATA, ROW_LOG[:-1], [Commit(76)]),
    ("plain text", b"plain text", b"", []),
    ("plain text, fresh log", b"plain text", CLOSED, [Commit(4, (0, b"abcd"), shift=16)]),
    ("plain text, fresh log of one gate", b"plain text", OPEN, [Commit(17, (16, b"x"))]),
    ("plain text, closed log", b"plain text", CLOSED + b"y" * 40, [Commit(20, (16, b"abcd"))]),
    ("plain text, open log", b"plain text", OPEN + bytes(16), []),
    ("long plain text", b"plain text plain text", CLOSED, []),
    ("nothing", b"", b"", [Commit(1, (0, b"a"), shift=16), Commit(0, shift=16)]),
    ("nothing beside a log", b"", b"\x03" * 50, [Commit(56, (16, b"\x01" * 40))]),
    ("nothing beside an open log", b"", spell([(16, b"abc")], 19), [Commit(56, (16, b"\x01" * 40))]),
    ("part of the magic", MAGIC[:9], CLOSED, [Commit(18, (16, b"ab"))]),
    ("no log", MAGIC + b"abcdef", b"", [Commit(22, (17, b"X"))]),
    ("log of 15 bytes", MAGIC + b"abcdef", LOG_MAGIC, [Commit(22, (17, b"X"))]),
    ("log of 31 bytes", MAGIC + b"abcdef", OPEN + b"z" * 15, [Commit(22, (17, b"X"))]),
    ("log of 31 other bytes", MAGIC + b"abcdef", b"z" * 31, [Commit(22, (17, b"X"))]),
    ("log of 32 other bytes", MAGIC + b"abcdef", b"z" * 32, []),
    ("log with an odd gate", MAGIC + b"abcdef", LOG_MAGIC + b"\x02" + b"z" * 30, [Commit(22, (17, b"X"))]),
    ("closed log with a rest", MAGIC + b"abcdef", CLOSED + b"z" * 30, [Commit(22, (17, b"X"))]),
    ("many pieces", MAGIC + bytes(100), CLOSED, [
        Commit(116, (16, b"a"), (17, b"bb"), (30, b"c" * 9), (100, b"d" * 16)),
        Commit(150, (16, b"A"), (110, b"e" * 20), (130, b"f" * 20)),
        Commit(31, (16, b"shorter"), (28, b"end")),
        Commit(31),
        Commit(16),
        Commit(19, (16, b"new"))]),
    ("open log, shorter", MAGIC + b"0123456789", spell([(17, b"AB"), (20, b"C")], 21), [Commit(21, (16, b"zz"))]),
    ("open log, longer", MAGIC + b"0123456789", spell([(25, b"ABC"), (28, b"DEF")], 31), []),
    ("open log beside torn data", MAGIC + b"0\xbe\xbd34567", spell([(17, b"AB"), (23, b"CDEF")], 27), []),
    ("open log beside data not yet cut", MAGIC + b"0AB3456\x00\x00\x00", spell([(17, b"AB")], 20), []),
    ("open log, no pieces", MAGIC + b"0123456789", spell([], 20), []),
    ("full", MAGIC + LONG[:100], CLOSED, [
        Commit(300_001, (16, LONG), (65552, LONG), (131088, LONG), (196624, LONG), (262160, LONG[:37841])),
        Commit(116, (16, b"still"))]),
    ("over the limit", MAGIC + LONG * 4 + LONG[:37940], CLOSED, [
        Commit(300_050, (300_000, b"x" * 50)), Commit(300_051, (300_050, b"y")), Commit(300_049)]),
    ("up to the limit", MAGIC, CLOSED, [
        Commit(300_000, (16, LONG), (65552, LONG), (131088, LONG), (196624, LONG), (262160, LONG[:37840])),
        Commit(65536, (40, LONG[:65496]))]),
]


class Program:
    def __init__(self, path):
        self.path = path

    def run(self, lines):
        """The answer to each line: its first line, and the others."""
        done = subprocess.run(
            [self.path], input="".join(lines).encode(), stdout=subprocess.PIPE, timeout=SECONDS, check=True
        )
        answers = []
        for line in done.stdout.decode().splitlines():
            if line.startswith(" "):
                answers.append((line, []))
            else:
                answers[-1][1].append(line)
        return answers


def line_of(data, log, commits, fails=NEVER):
    words = [str(fails), data.hex() or "-", log.hex() or "-"] + [commit.word for commit in commits]
    return " ".join(words) + "\n"


def course(case, opening):
    """What the words of a run are, the data file after opening and after each commit, and the number of calls by then."""
    _, data, log, commits = case
    now, refusal = held(data, log)
    if refusal:
        return [refusal], [None], [opening]
    words, files, calls = ["ok"], [now], [opening]
    for commit in commits:
        word, now, more = commit.answer(now)
        words.append(word)
        files.append(now)
        calls.append(calls[-1] + more)
    return words, files, calls


def kept(files, calls, moment, pick):
    """What is held by an image of a moment. The gate is written as the third call of a commit, and stable after the fourth;
    while it is not, it is open in the image that is as read."""
    step = 0
    while calls[step] < moment:
        step += 1
    if step == 0 or calls[step] == moment:
        return files[step]
    since = moment - calls[step - 1]
    return files[step] if since > 3 or (since == 3 and pick == 1) else files[step - 1]


def opened(data, log, refusal):
    """The words of an opening that gives these files."""
    return f" {refusal or sum_of(data)} {sum_of(data)} {sum_of(log)}"


def wanted(case, words, files, calls, fails):
    """The lines that a run is to give, with the call that fails, where one does."""
    _, data, log, _ = case
    refused = files[0] is None
    last = min(fails + 1, calls[-1])
    done = sum(1 for count in calls if count <= fails)
    said = words[:done]
    if done < len(words):
        said = said + ["failed"] + ["not_sound"] * (len(words) - done - 1 if done else 0)
    images = []
    for moment in range(last + 1):
        for pick in range(3):
            if refused:
                once = opened(data, log, words[0])
            else:
                once = opened(kept(files, calls, min(moment, fails), pick), CLOSED, None)
            images.append(f"{moment} {pick}{once}{once}")
    return said, last, images


def check(case, words, files, calls, fails, answer):
    """What is wrong with an answer."""
    _, data, log, _ = case
    said, last, images = wanted(case, words, files, calls, fails)
    head, rest = answer
    start = "".join(f" {word}" for word in said)
    if fails >= calls[-1]:
        start += f" {sum_of(data)} {sum_of(log)}" if files[0] is None else f" {sum_of(files[-1])} {sum_of(CLOSED)}"
    wrong = []
    if not head.startswith(start + " ") or not head.endswith(f" calls:{last}"):
        wrong.append(f"{head!r} in place of {start!r} and {last} calls")
    wrong += [f"{found!r} in place of {want!r}" for found, want in zip(rest, images) if found != want]
    if len(rest) != len(images):
        wrong.append(f"{len(rest)} images in place of {len(images)}")
    return wrong


def opening_calls(program):
    """How many calls opening each pair of files makes: the program says it, since no document does."""
    answers = program.run([line_of(data, log, []) for _, data, log, _ in CASES])
    return [int(head.rpartition(":")[2]) for head, _ in answers]


def main():
    program = Program(os.path.abspath(sys.argv[1]))
    runs, images, failed = 0, 0, 0
    for case, opening in zip(CASES, opening_calls(program), strict=True):
        name, data, log, commits = case
        words, files, calls = course(case, opening)
        small = len(data) + sum(len(file or b"") for file in files) < 10_000
        fails = [NEVER] + (list(range(calls[-1])) if small else [])
        answers = program.run([line_of(data, log, commits, number) for number in fails])
        if len(answers) != len(fails):
            sys.exit(f"{name}: {len(answers)} answers to {len(fails)} lines")
        for number, answer in zip(fails, answers):
            wrong = check(case, words, files, calls, number, answer)
            runs, images, failed = runs + 1, images + len(answer[1]), failed + bool(wrong)
            for text in wrong[:5]:
                print(f"FAILED {name}, failing call {number}: {text[:400]}")
    print(f"{runs} runs with {images} images, {failed} failed")
    return 1 if failed else 0


if __name__ == "__main__":
    sys.exit(main())
