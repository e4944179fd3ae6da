#!/usr/bin/env python3
"""Runs the program of crates/test_volume on real files: what each call answers, and what the files hold afterwards.

Usage: run.py PROGRAM
"""
import os
import shutil
import subprocess
import sys
import tempfile

NOBODY = 65534
failures = []


def check(name, found, wanted):
    if found != wanted:
        failures.append(name)
        print(f"FAILED {name}: {found!r} in place of {wanted!r}")


def content(path):
    with open(path, "rb") as file:
        return file.read()


def put(path, data=b""):
    with open(path, "wb") as file:
        file.write(data)


class Runs:
    def __init__(self, program, folder):
        self.program, self.folder = program, folder

    def path(self, name):
        return os.path.join(self.folder, name)

    def run(self, name, *words, closed=(), user=None):
        """The program's standard output, with some descriptors closed at its start."""
        def begin():
            if user is not None:
                os.setgid(user)
                os.setuid(user)
            for descriptor in closed:
                os.close(descriptor)
        done = subprocess.run([self.program, name, *words], cwd=self.folder, stdin=subprocess.DEVNULL,
                              stdout=subprocess.PIPE, stderr=subprocess.PIPE, preexec_fn=begin, timeout=60)
        return done.stdout.decode()

    def names(self, folder="."):
        return sorted(os.listdir(self.path(folder)))


def happy(runs):
    shown = runs.run("a", "length:log", "write:data:0:hello", "sync:data", "length:data", "read:data:1:3",
                     "write:data:5: you", "cut:data:7", "sync:data", "length:data", "write:log:0:x", "sync:log")
    check("happy", shown, " ok\n0 ok\n ok\n ok\n5 ok\nell ok\n ok\n ok\n ok\n7 ok\n ok\n ok\n")
    check("happy data", content(runs.path("a")), b"hello y")
    check("happy log", content(runs.path("a.log")), b"x")
    check("opened again", runs.run("a", "read:data:0:7", "read:data:5:3"), " ok\nhello y ok\n failed\n")
    check("only opened", content(runs.path("a")), b"hello y")


def closed(runs):
    for which in ((0,), (1,), (2,), (0, 1), (0, 1, 2)):
        name = "closed" + "".join(map(str, which))
        runs.run(name, "write:data:0:hello", "show:::shown", "write:log:0:log", "show:::shown", closed=which)
        check(name, (content(runs.path(name)), content(runs.path(name + ".log"))), (b"hello", b"log"))


def refused(runs):
    os.mkdir(runs.path("folder"))
    check("folder", runs.run("folder"), " failed\n")
    os.mkdir(runs.path("b.log"))
    check("folder for the log", runs.run("b"), " failed\n")
    os.mkfifo(runs.path("pipe"))
    check("pipe", runs.run("pipe"), " failed\n")
    long = "n" * 252
    check("long name", runs.run(long), " failed\n")
    os.symlink("nowhere/x", runs.path("link"))
    check("broken link", runs.run("link"), " failed\n")
    check("no folder", runs.run("nowhere/x"), " failed\n")
    check("empty name", runs.run(""), " failed\n")
    check("zero byte in the name", runs.run("zero^@byte"), " failed\n")
    for name in ("b", "pipe.log", long, "link.log", "folder.log", "nowhere", ".log", "zero", "zero.log", "zero^@byte"):
        check("nothing made: " + name, os.path.lexists(runs.path(name)), False)


def rights(runs):
    if os.geteuid() != 0:
        return
    os.mkdir(runs.path("closed"), 0o755)
    check("closed folder", runs.run("closed/x", user=NOBODY), " failed\n")
    put(runs.path("closed/y"))
    os.chmod(runs.path("closed/y"), 0o666)
    check("no room for the log", runs.run("closed/y", user=NOBODY), " failed\n")
    check("nothing made in it", runs.names("closed"), ["y"])
    os.mkdir(runs.path("open"))
    os.chmod(runs.path("open"), 0o777)
    put(runs.path("open/d"), b"data")
    put(runs.path("open/l.log"), b"log")
    check("data without rights", runs.run("open/d", user=NOBODY), " failed\n")
    check("log without rights", runs.run("open/l", user=NOBODY), " failed\n")
    check("nothing made beside them", runs.names("open"), ["d", "l.log"])
    check("nothing written", (content(runs.path("open/d")), content(runs.path("open/l.log"))), (b"data", b"log"))


def locked(runs):
    holder = subprocess.Popen([runs.program, "c", "write:data:0:held"], cwd=runs.folder, stdin=subprocess.PIPE,
                              stdout=subprocess.PIPE)
    lines = holder.stdout.readline() + holder.stdout.readline()
    check("holder", lines, b" ok\n ok\n")
    check("locked", runs.run("c", "write:data:0:lost"), " failed\n")
    holder.communicate()
    check("kept", content(runs.path("c")), b"held")
    check("free again", runs.run("c"), " ok\n")


def full(runs):
    small = runs.path("small")
    os.mkdir(small)
    mounted = subprocess.run(["mount", "-t", "tmpfs", "-o", "size=64k", "tmpfs", small], stderr=subprocess.DEVNULL)
    if mounted.returncode != 0:
        print("a full device is not tested: no small file system can be mounted")
        return
    try:
        check("before it is full", runs.run("small/d", "write:data:0:kept", "sync:data"), " ok\n ok\n ok\n")
        with open(os.path.join(small, "filler"), "wb", buffering=0) as filler:
            try:
                while True:
                    filler.write(b"x" * 4096)
            except OSError:
                pass
        check("full", runs.run("small/d", "write:log:0:more", "write:data:0:same", "read:data:0:4"),
              " ok\n failed\n ok\nsame ok\n")
        check("kept when full", content(os.path.join(small, "d")), b"same")
    finally:
        subprocess.run(["umount", small], check=True)


def main():
    with tempfile.TemporaryDirectory() as folder:
        os.chmod(folder, 0o755)
        program = os.path.join(folder, "program")
        shutil.copy(sys.argv[1], program)
        os.chmod(program, 0o755)
        work = os.path.join(folder, "work")
        os.mkdir(work)
        runs = Runs(program, work)
        for test in (happy, closed, refused, rights, locked, full):
            test(runs)
    print("volume:", "failed: " + ", ".join(failures) if failures else "passed")
    return 1 if failures else 0


if __name__ == "__main__":
    sys.exit(main())
