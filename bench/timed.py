"""Runs a program and measures it."""
import os
import resource
import subprocess
import sys
import tempfile
import time

STACK = 8 << 20


def limit_stack():
    resource.setrlimit(resource.RLIMIT_STACK, (STACK, STACK))


def run(program, data, *words):
    """What a program prints that writes its times in microseconds to standard error, those times in seconds, and the peak
    memory in MB. It is given the words, and has a stack of 8 MB."""
    with tempfile.TemporaryFile() as script:
        script.write(data)
        script.seek(0)
        child = subprocess.Popen(
            [program, *words], stdin=script, stdout=subprocess.PIPE, stderr=subprocess.PIPE, preexec_fn=limit_stack
        )
        out, err = child.stdout.read(), child.stderr.read()
        _, status, usage = os.wait4(child.pid, 0)
        child.returncode = status
    if status != 0:
        sys.exit(f"the program ended with status {status}: {err.decode()}")
    return out.decode().strip(), [int(micros) / 1e6 for micros in err.split()[:-1]], usage.ru_maxrss / 1024


def fastest(program, data, runs):
    """The seconds of the fastest of some runs over data, what the last one prints, and the peak memory in MB."""
    best, peak = None, 0
    with tempfile.TemporaryFile() as source, tempfile.TemporaryFile() as target:
        source.write(data)
        for _ in range(runs):
            source.seek(0)
            target.seek(0)
            target.truncate()
            start = time.perf_counter()
            child = subprocess.Popen([program], stdin=source, stdout=target)
            _, child.returncode, usage = os.wait4(child.pid, 0)
            taken = time.perf_counter() - start
            if child.returncode != 0:
                sys.exit(f"the program ended with status {child.returncode}")
            best = taken if best is None else min(best, taken)
            peak = max(peak, usage.ru_maxrss / 1024)
        target.seek(0)
        return best, target.read(), peak
