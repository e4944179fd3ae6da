"""Tests of a program that answers each line of standard input, a script, with a line."""
import subprocess

SECONDS = 300


def answers(program, scripts):
    """What the program says of each script."""
    text = "".join(script + "\n" for script in scripts).encode("latin-1")
    done = subprocess.run([program], input=text, stdout=subprocess.PIPE, timeout=SECONDS, check=True)
    return done.stdout.decode("latin-1").removesuffix("\n").split("\n")


def compare(who, cases, found):
    """How many of the cases are not as they should be; the first ten are printed."""
    wrong = [(case, got) for case, got in zip(cases, found) if case[1] != got]
    for (script, want), got in wrong[:10]:
        print(f"{who}: {script!r}\n  gives  {got!r}\n  wanted {want!r}")
    if len(found) != len(cases):
        print(f"{who}: {len(found)} answers for {len(cases)} scripts")
    return len(wrong) + abs(len(found) - len(cases))


def run(program, outcome, by_hand, made):
    """Holds the reference's outcome against the cases by hand, and the program, if there is one, against all cases.

    Prints what differs and the counts, and gives the exit status.
    """
    failed = compare("reference.py", by_hand, [outcome(script) for script, _ in by_hand])
    passed = len(by_hand) - failed
    if program is not None:
        cases = by_hand + made
        wrong = compare("the program", cases, answers(program, [script for script, _ in cases]))
        passed, failed = passed + len(cases) - wrong, failed + wrong
    print(f"{passed} passed, {failed} failed")
    return 1 if failed else 0
