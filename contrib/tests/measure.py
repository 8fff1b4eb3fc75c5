"""Tests of `measure`: what it refuses, and the table that it prints over a stand-in for the daemon."""

import subprocess
import tempfile
from pathlib import Path

from tried import CONTRIB, cases, equal, test


def measured(*words):
    return subprocess.run([CONTRIB / "measure", *words], capture_output=True, text=True, timeout=60)


@cases(
    unknown=(("lockd", "speed"), "no table is named speed"),
    without_a_client=(("lockd", "server"), "needs --server"),
    without_a_program=((), "required: PROGRAM"),
)
def words_are_refused(words, cause):
    done = measured(*words)
    equal((done.returncode, done.stdout), (2, ""))
    assert cause in done.stderr, done.stderr


def over_a_stand_in(script):
    with tempfile.TemporaryDirectory() as room:
        program = Path(room) / "lockd"
        program.write_text(f"#!/bin/sh\n{script}\n")
        program.chmod(0o755)
        return measured("--times", "1", str(program), "calls")


@test
def each_call_has_a_row():
    done = over_a_stand_in("exec cat > /dev/null")
    equal((done.returncode, done.stderr), (0, ""))
    heads, _, *rows = done.stdout.split("\n")[1:-1]
    equal((heads, len(rows)), ("| Call | Microseconds |", 5))


@test
def a_program_that_fails_is_told():
    done = over_a_stand_in("exit 1")
    equal((done.returncode, done.stdout.count("\n| ")), (1, 1))
    assert "ended with status 1" in done.stderr, done.stderr
