#!/usr/bin/env python3
"""Runs the built program on the cases of cases.toml: run.py PROGRAM. Its last line is 'N passed, N failed'.

Each run has a stack of 4 MiB, half of what a shell gives: 200 open brackets have to fit into it.
"""
import os
import pathlib
import resource
import subprocess
import sys
import tempfile
import tomllib

SECONDS = 60
STACK = 4 << 20


def text_of(parts):
    """The bytes of a text, or of a list of texts and [text, times] pairs."""
    if isinstance(parts, str):
        return parts.encode()
    made = bytearray()
    for part in parts:
        text, times = (part, 1) if isinstance(part, str) else part
        if "#" in text:
            for number in range(times):
                made += text.replace("#", str(number)).encode()
        else:
            made += text.encode() * times
    return bytes(made)


def open_output(kind, file):
    """A file descriptor for what a program writes, or None where it is closed."""
    if kind == "closed":
        return None
    if kind == "full device":
        return os.open("/dev/full", os.O_WRONLY)
    if kind == "broken pipe":
        read_end, write_end = os.pipe()
        os.close(read_end)
        return write_end
    return os.open(file, os.O_WRONLY | os.O_CREAT | os.O_TRUNC)


def open_input(kind, script, folder):
    if kind == "closed":
        return None
    if kind == "folder":
        return os.open(folder, os.O_RDONLY)
    (folder / "script").write_bytes(script)
    return os.open(folder / "script", os.O_RDONLY)


def run_once(program, run, here):
    """What went wrong in a run, or None."""
    with tempfile.TemporaryDirectory() as name:
        beside = pathlib.Path(name)
        source = open_input(run.get("from", "file"), text_of(run.get("stdin", "")), beside)
        target = open_output(run.get("to", "file"), beside / "shown")
        errors = open_output(run.get("warns_to", "file"), beside / "warned")

        def prepare():
            resource.setrlimit(resource.RLIMIT_STACK, (STACK, STACK))
            for number, stream in ((0, source), (1, target), (2, errors)):
                if stream is None:
                    os.close(number)
                else:
                    os.dup2(stream, number)

        words = [bytes.fromhex(word) for word in run["words_hex"]] if "words_hex" in run else run.get("words", [])
        try:
            done = subprocess.run([program, *words], cwd=here, preexec_fn=prepare, timeout=SECONDS)
        except subprocess.TimeoutExpired:
            return f"still runs after {SECONDS} s"
        finally:
            for stream in (source, target, errors):
                if stream is not None:
                    os.close(stream)
        warned = (beside / "warned").read_bytes() if run.get("warns_to", "file") == "file" else b""
        if done.returncode != run.get("status", 0):
            return f"status {done.returncode}, not {run.get('status', 0)}; warned {warned!r}"
        if warned != run.get("stderr", "").encode():
            return f"warned {warned!r}"
        if run.get("to", "file") == "file":
            shown = (beside / "shown").read_bytes()
            if shown != text_of(run.get("stdout", "")):
                return f"shown {shown[:200]!r}"
    return None


def run_case(program, case):
    with tempfile.TemporaryDirectory() as name:
        for number, run in enumerate(case["runs"], 1):
            wrong = run_once(program, run, name)
            if wrong is not None:
                return f"run {number}: {wrong}"
    return None


def main():
    program = os.path.abspath(sys.argv[1])
    cases = tomllib.loads((pathlib.Path(__file__).parent / "cases.toml").read_text())["case"]
    failed = 0
    for case in cases:
        wrong = run_case(program, case)
        if wrong is not None:
            failed += 1
            print(f"{case['name']}: {wrong}")
    print(f"{len(cases) - failed} passed, {failed} failed")
    return 1 if failed else 0


if __name__ == "__main__":
    sys.exit(main())
