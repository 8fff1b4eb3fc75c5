"""What is tried: the list of tests, a program's run, and what is compared."""

import subprocess
from pathlib import Path

CONTRIB = Path(__file__).resolve().parent.parent
TESTS = []


def test(function):
    TESTS.append((function.__name__, function))
    return function


def cases(**named):
    """A test for each case, whose values are its arguments."""

    def add(function):
        for name, values in named.items():
            TESTS.append((f"{function.__name__}[{name}]", lambda values=values: function(*values)))
        return function

    return add


def equal(found, wanted):
    assert found == wanted, f"found {found!r}, wanted {wanted!r}"


def run(program, *arguments):
    """Status, standard output, and standard error, which has one line at most."""
    done = subprocess.run([CONTRIB / program, *arguments], capture_output=True, text=True, timeout=30)
    assert done.stderr.count("\n") <= 1, done.stderr
    return done.returncode, done.stdout, done.stderr
