"""Tests of what the status port of the built program counts."""

import contextlib
import socket
import urllib.request

from polls import served_to
from readers import null
from stand_ins import read_record, xid_of
from starts import PROGRAM, WAIT_SECONDS, free_port
from tried import equal, test

# The first call of a connection is timed, and then one in so many.
TIMED = 17


def numbers_of(port):
    """The samples of /metrics that have no label."""
    with urllib.request.urlopen(f"http://127.0.0.1:{port}/metrics", timeout=WAIT_SECONDS) as answer:
        lines = answer.read().decode().splitlines()
    return dict(line.split(" ") for line in lines if not line.startswith("#") and "{" not in line)


def call_often(caller, count):
    """So many NULLs, one after another."""
    for xid in range(count):
        caller.sendall(null(xid))
        equal(xid_of(read_record(caller)), xid)


if PROGRAM.exists():

    @test
    def one_call_in_some_is_timed():
        status_port = free_port()
        with contextlib.ExitStack() as open_callers:
            port, _ = open_callers.enter_context(served_to(free_port(), "--status-port", str(status_port)))
            for connections in 1, 2:
                caller = open_callers.enter_context(socket.create_connection(("127.0.0.1", port), WAIT_SECONDS))
                call_often(caller, 2 * TIMED + 1)
                numbers = numbers_of(status_port)
                for name in "held", "wait":
                    equal(numbers[f"lockd_book_{name}_seconds_count"], str(3 * connections))
            assert float(numbers["lockd_book_held_seconds_sum"]) > 0
