#!/usr/bin/env python3
"""Times the reading of a log of 64 MiB through crates/test_wal, and that of one whose last field is faulty, and prints the
figures.

Run `rt run` in crates/test_wal first, which builds out/test_wal. A figure beyond its limit ends with status 1.
"""
import os
import subprocess
import sys
import tempfile
import time

TOP = os.path.dirname(os.path.dirname(os.path.abspath(__file__)))
PROGRAM = os.path.join(TOP, "crates", "test_wal", "out", "test_wal")
PIECE, PIECES = 65536, 1023
END = 16 + PIECE * PIECES  # the length of the data file after the batch
LAST = 24 + (12 + PIECE) * PIECES  # the place of the last field of the log
CASES = [("open", END, f"open {PIECES} {END}"), ("faulty at its end", 0, f"bad log {LAST}")]
RUNS = 5  # the fastest of them counts
LIMIT = 1.0  # seconds


def write_files(path, new):
    """A data file that is empty but for its magic, and a log of longest pieces; written bit by bit, since what this process
    has in memory counts as the program's when that is started."""
    with open(path, "wb") as data:
        data.write(b"QL lldb database")
    with open(path + ".log", "wb") as log:
        log.write(b"QL lldb log fmt\x01" + PIECES.to_bytes(8, "big"))
        for turn in range(PIECES):
            log.write((16 + PIECE * turn).to_bytes(8, "big") + PIECE.to_bytes(4, "big"))
            log.write(os.urandom(PIECE))
        log.write(new.to_bytes(8, "big"))


def timed(path):
    """The seconds that the program takes, those of a processor, its peak memory in MB, and the first line that it shows."""
    start = time.perf_counter()
    child = subprocess.Popen([PROGRAM, path], stdin=subprocess.DEVNULL, stdout=subprocess.PIPE)
    shown = child.stdout.read()
    _, status, usage = os.wait4(child.pid, 0)
    child.returncode = status
    taken = time.perf_counter() - start
    return taken, usage.ru_utime + usage.ru_stime, usage.ru_maxrss / 1024, shown.decode().partition("\n")[0]


def main():
    failed = False
    with tempfile.TemporaryDirectory() as folder:
        path = os.path.join(folder, "d")
        for name, new, wanted in CASES:
            write_files(path, new)
            best, used, peak, shown = min(timed(path) for _ in range(RUNS))
            wrong, slow = shown != wanted, best >= LIMIT
            failed = failed or wrong or slow
            print(f"a log of 64 MiB, {name}: {shown}; {best:.3f} s, {used:.3f} s of a processor, peak memory {peak:.0f} MB",
                  f"{'   WRONG' if wrong else ''}{'   OVER THE LIMIT' if slow else ''}")
    return 1 if failed else 0


if __name__ == "__main__":
    sys.exit(main())
