#!/usr/bin/env python3
"""Runs the program ql over random scripts of statements that change tables: run.py PROGRAM. Its last line is 'N passed, N failed'.

reference.py says what each script shows and warns.
"""
import concurrent.futures
import os
import pathlib
import subprocess
import sys

sys.path.insert(0, str(pathlib.Path(__file__).resolve().parent.parent))

from changes.reference import Script

SCRIPTS = 20_000
SECONDS = 60


def difference(program, seed):
    """What is wrong with a run of the script of a number, or nothing."""
    script = Script(seed)
    text = ";\n".join(script.texts)
    words = ["-bare"] if script.bare else []
    done = subprocess.run([program, *words], input=text.encode(), capture_output=True, timeout=SECONDS)
    got = done.stdout.decode(), done.stderr.decode(), done.returncode
    lines = "".join(line + "\n" for line in script.shown)
    wanted = lines, script.warned + "\n" if script.warned else "", 1 if script.warned else 0
    return None if got == wanted else f"script {seed} {words}:\n{text}\ngives  {got}\nwanted {wanted}"


def main():
    program = sys.argv[1]
    with concurrent.futures.ThreadPoolExecutor(os.cpu_count()) as workers:
        wrong = [each for each in workers.map(lambda seed: difference(program, seed), range(SCRIPTS)) if each]
    for each in wrong[:5]:
        print(each)
    print(f"{SCRIPTS - len(wrong)} passed, {len(wrong)} failed")
    return 1 if wrong else 0


if __name__ == "__main__":
    sys.exit(main())
