#!/usr/bin/env python3
"""Runs the program of crates/test_wal on pairs of files, and compares what it shows with what judge.py says, or with what is
written here.

Usage: run.py PROGRAM
"""
import os
import random
import subprocess
import sys
import tempfile

from judge import LOG_MAGIC, LONGEST, MAGIC, judge

OPEN, CLOSED = LOG_MAGIC + b"\x01", LOG_MAGIC + b"\x00"

# Sizes of data files, open logs behind their headers, and the places of their faults (None: no fault).
RULES = [
    (76, "0000000000000002 0000000000000010 00000004 07070707 0000000000000014 00000004 08080808 000000000000004C", None),
    # the count: one too many, one too few, far too many, the greatest
    (76, "0000000000000003 0000000000000010 00000004 07070707 0000000000000014 00000004 08080808 000000000000004C", 64),
    (76, "0000000000000001 0000000000000010 00000004 07070707 0000000000000014 00000004 08080808 000000000000004C", 48),
    (76, "8000000000000000 0000000000000010 00000004 07070707 0000000000000014 00000004 08080808 000000000000004C", 64),
    (76, "FFFFFFFFFFFFFFFF 0000000000000010 00000004 07070707 0000000000000014 00000004 08080808 000000000000004C", 64),
    (76, "8000000000000000 0000000000000000", 24),
    (76, "0000000000000000 0000000000000010", None),
    (76, "0000000000000000 0000000000000010 00", 32),
    # a place: in the magic, in the piece before, behind a gap, at the end of the data and past it, the greatest
    (76, "0000000000000001 000000000000000F 00000004 07070707 000000000000004C", 24),
    (76, "0000000000000002 0000000000000010 00000004 07070707 0000000000000013 00000004 08080808 000000000000004C", 40),
    (16, "0000000000000002 0000000000000010 00000004 07070707 0000000000000015 00000004 08080808 0000000000000019", 40),
    (16, "0000000000000002 0000000000000010 00000004 07070707 0000000000000014 00000004 08080808 0000000000000018", None),
    (76, "0000000000000001 000000000000004D 00000001 07 000000000000004E", 24),
    (76, "0000000000000001 000000000000004C 00000001 07 000000000000004D", None),
    (76, "0000000000000001 FFFFFFFFFFFFFFFF 00000001 07 000000000000004D", 24),
    # a length: none, the longest, one more, the greatest
    (76, "0000000000000001 0000000000000010 00000000 000000000000004C", 32),
    (76, "0000000000000001 0000000000000010 00010000 07070707", 36),
    (76, "0000000000000001 0000000000000010 00010001 07070707", 32),
    (76, "0000000000000001 0000000000000010 FFFFFFFF 07070707", 32),
    # the end of a piece: that of the longest data file, and one more
    (LONGEST, "0000000000000001 100000000000000F 00000001 07 1000000000000010", None),
    (LONGEST, "0000000000000001 1000000000000010 00000001 07 1000000000000011", 32),
    # the new length: in the magic, in the last piece, at its end, the size and past it, the greatest
    (76, "0000000000000000 000000000000000F", 24),
    (76, "0000000000000001 0000000000000010 00000004 07070707 0000000000000013", 40),
    (76, "0000000000000001 0000000000000010 00000004 07070707 0000000000000014", None),
    (76, "0000000000000001 0000000000000010 00000004 07070707 000000000000004C", None),
    (76, "0000000000000001 0000000000000010 00000004 07070707 000000000000004D", 40),
    (16, "0000000000000001 0000000000000010 00000004 07070707 0000000000000014", None),
    (16, "0000000000000001 0000000000000010 00000004 07070707 0000000000000015", 40),
    (76, "0000000000000001 0000000000000010 00000004 07070707 FFFFFFFFFFFFFFFF", 40),
    # fields that are not whole
    (76, "0000000000000001 0000000000000010", 32),
    (76, "0000000000000001 0000000000000010 000000", 32),
    (76, "0000000000000001 0000000000000010 00000004 070707", 36),
    (76, "0000000000000001 0000000000000010 00000004 07070707 00000000000000", 40),
    (76, "0000000000000002 0000000000000010 00000004 07070707 00000000000000", 40),
    # 128 zeros, and then the same without its last byte
    (76, "0000000000000001 0000000000000010 00000080" + "00" * 128 + "0000000000000090", None),
    (76, "0000000000000001 0000000000000010 00000080" + "00" * 128 + "00000000000000", 164),
]

# Where a log of two pieces of four bytes is faulty that is cut to a length: each field's place, for the lengths in it.
GOOD = RULES[0][1]
CUT = {32: range(32, 36), 36: range(36, 40), 40: range(40, 48), 48: range(48, 52), 52: range(52, 56), 56: range(56, 64)}

# Logs: none, a magic, headers, one of 31 bytes; of 32 bytes or more: closed, faulty at 24, faulty at 0, open.
LOGS = [
    b"", LOG_MAGIC, CLOSED, OPEN, LOG_MAGIC + b"\x02", OPEN + bytes(15), CLOSED + bytes(15), bytes(16), bytes(31),
    CLOSED + bytes(16), LOG_MAGIC + b"\xff" + bytes(16), OPEN + bytes(16), bytes(32), OPEN + bytes(15) + b"\x10", CLOSED + bytes(50),
    b"QL lldb log fmu\x00", b"QL lldb log fmu\x01" + bytes(16),
]
# What an other data file of 1 to 16 bytes, a database, and a longer other file are beside these.
SHORT = "xxnnnnnxxnnxxxnxx"
OURS = "cccccccccccb0oc c0".replace(" ", "")
LETTERS = {"n": "new\n", "x": "no database\n", "c": "closed\n", "b": "bad log 24\n", "0": "bad log 0\n", "o": "open 0 16\n"}


class Runs:
    def __init__(self, program, folder):
        self.program, self.path = program, os.path.join(folder, "d")
        self.count, self.failures = 0, []

    def show(self, front, size, log):
        """What the program shows of a data file with these first bytes and zeros behind them, beside a log."""
        with open(self.path, "wb") as data:
            data.write(front)
            data.truncate(size)
        with open(self.path + ".log", "wb") as file:
            file.write(log)
        done = subprocess.run([self.program, self.path], stdin=subprocess.DEVNULL, stdout=subprocess.PIPE, timeout=60)
        with open(self.path + ".log", "rb") as file:
            kept = file.read() == log and os.path.getsize(self.path) == size
        return done.stdout.decode() if kept and done.returncode == 0 else f"status {done.returncode}, kept {kept}"

    def check(self, name, front, size, log, wanted=None):
        judged = judge(front, size, log)
        if wanted is None:
            wanted = judged
        shown = self.show(front, size, log)
        self.count += 1
        if not shown == judged == wanted:
            self.failures.append(name)
            print(f"FAILED {name}: {shown[:200]!r}, judged {judged[:200]!r}, in place of {wanted[:200]!r}")

    def check_log(self, name, size, log, wanted=None):
        self.check(name, MAGIC, size, log, wanted)


def opens(batch):
    return OPEN + bytes.fromhex(batch)


def spell(pieces, new, count=None):
    """An open log."""
    parts = [OPEN, (len(pieces) if count is None else count).to_bytes(8, "big")]
    for place, piece in pieces:
        parts += [place.to_bytes(8, "big"), len(piece).to_bytes(4, "big"), piece]
    return b"".join(parts) + new.to_bytes(8, "big")


def takes_long_files(folder):
    """Whether a file can be as long as the longest data file, and one byte more."""
    path = os.path.join(folder, "long")
    try:
        with open(path, "wb") as file:
            file.truncate(LONGEST + 1)
        return True
    except OSError:
        print("no data file of 2^60 bytes is tested: the file system takes none")
        return False
    finally:
        os.remove(path)


def rules(runs, long):
    for number, (size, batch, fault) in enumerate(RULES):
        if size <= 76 or long:
            log = opens(batch)
            wanted = judge(MAGIC, size, log) if fault is None else f"bad log {fault}\n"
            runs.check_log(f"rule {number}", size, log, wanted)
            if fault is None and not wanted.startswith("open"):
                runs.failures.append(f"rule {number} is open")
    if long:
        runs.check_log("longest", LONGEST, b"", "closed\n")
        runs.check_log("too long", LONGEST + 1, b"", "no database\n")


def truncated(runs):
    log = opens(GOOD)
    for length in range(len(log)):
        fault = [place for place, lengths in CUT.items() if length in lengths]
        runs.check_log(f"cut to {length}", 76, log[:length], f"bad log {fault[0]}\n" if fault else "closed\n")
    for length in range(16, 32):
        runs.check_log(f"count cut to {length}", 16, opens("8000000000000000 00000000")[:length])


def turned(runs):
    """Each byte of a good log turned."""
    log = spell([(16, b"abcd"), (20, b"x"), (40, b"wxyz")], 60)
    for at in range(len(log)):
        for change in (1, 4, 128, 255):
            runs.check_log(f"byte {at} turned by {change}", 76, log[:at] + bytes([log[at] ^ change]) + log[at + 1 :])
        runs.check_log(f"log cut to {at}", 76, log[:at])
        runs.check_log(f"byte {at} twice", 76, log[: at + 1] + log[at:])


def short_files(runs):
    for letters, fronts in ((SHORT, [b"plain text plain"[:n] for n in range(1, 17)] + [MAGIC[:n] for n in range(1, 16)]),
                            ("n" * 17, [b""]), (OURS, [MAGIC, MAGIC + b"."]), ("x" * 17, [b"plain text plain.", MAGIC[:15] + b"f."])):
        for front in fronts:
            for number, (log, letter) in enumerate(zip(LOGS, letters, strict=True)):
                runs.check(f"{front!r} beside log {number}", front, len(front), log, LETTERS[letter])


def parts(runs):
    """Logs that are read in more than one part: the longest pieces, cut and broken at and beside the places of their fields."""
    chance = random.Random(7)
    pieces = [(16 + 65536 * turn, chance.randbytes(65536)) for turn in range(9)]
    log = spell(pieces, 16 + 65536 * 9)
    runs.check_log("long", 16, log)
    for turn in (0, 1, 3, 4, 5, 7, 8, 9):
        at = 24 + 65548 * turn
        for length in (at - 1, at, at + 1, at + 7, at + 8, at + 9, at + 11, at + 12, at + 13):
            if length < len(log):
                runs.check_log(f"long, cut to {length}", 16, log[:length])
        for change in (at + 7, at + 11):
            if change < len(log):
                runs.check_log(f"long, turned at {change}", 16, log[:change] + bytes([log[change] ^ 1]) + log[change + 1 :])
    for tail in (1, 40, 65547, 65548, 262144, 300000):
        runs.check_log(f"long, {tail} bytes behind it", 16, log + bytes(tail))
    for first in (196590, 196596, 196597, 262130, 262132, 262143):
        small = [(16 + n, b"s") for n in range((first - 24) // 13)]
        end = 16 + len(small)
        runs.check_log(f"a long piece behind {len(small)} small ones", 16, spell(small + [(end, bytes(65536))], end + 65536))


def by_chance(runs):
    chance = random.Random(24)
    for turn in range(100):
        size = chance.choice([16, 17, 40, 300, 100000])
        pieces, last = [], 0
        for _ in range(chance.randrange(6)):
            place = chance.choice([max(16, last), chance.randrange(max(16, last), max(size, last, 16) + 1)])
            pieces.append((place, chance.randbytes(chance.choice([1, 2, 30, 2000]))))
            last = place + len(pieces[-1][1])
        log = spell(pieces, chance.randrange(max(16, last), max(size, last, 16) + 1))
        runs.check_log(f"chance {turn}", size, log)
        at = chance.randrange(16, len(log))
        runs.check_log(f"chance {turn} turned at {at}", size, log[:at] + bytes([chance.randrange(256)]) + log[at + 1 :])
        runs.check_log(f"chance {turn} cut at {at}", size, log[:at])


def main():
    memory = "/dev/shm"
    with tempfile.TemporaryDirectory(dir=memory if os.path.isdir(memory) else None) as folder:
        runs = Runs(os.path.abspath(sys.argv[1]), folder)
        rules(runs, takes_long_files(folder))
        for test in (truncated, turned, short_files, parts, by_chance):
            test(runs)
    print(f"wal: {runs.count} pairs of files,", f"{len(runs.failures)} failed" if runs.failures else "passed")
    return 1 if runs.failures else 0


if __name__ == "__main__":
    sys.exit(main())
