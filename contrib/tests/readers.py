"""Tests of the built program with clients that call and are slow to read the replies, or read none."""

import contextlib
import functools
import socket
import threading
import time

from polls import served_to
from stand_ins import call, marked, read_record, words, xid_of
from starts import PROGRAM, WAIT_SECONDS, free_port
from tried import equal, test

LOCK_MANAGER = 100021
# More replies than the sockets' buffers of both sides take.
CALLS = 400_000
# A server waits so long for a peer that takes nothing.
PATIENCE_SECONDS = 5


def null(xid):
    return marked(words(xid) + call(0, program=LOCK_MANAGER, version=4)[4:])


@functools.cache
def nulls():
    """All of them, which takes seconds to build: the tests' clocks run from the first byte that is sent."""
    return b"".join(null(xid) for xid in range(CALLS))


@contextlib.contextmanager
def flooded(port):
    """A connection with little room for replies, on which so many NULLs are sent while it stands."""
    calls = nulls()
    connection = socket.socket()
    connection.setsockopt(socket.SOL_SOCKET, socket.SO_RCVBUF, 4096)
    connection.connect(("127.0.0.1", port))

    def send():
        with contextlib.suppress(OSError):
            connection.sendall(calls)

    sender = threading.Thread(target=send)
    sender.start()
    try:
        yield connection
    finally:
        connection.close()
        sender.join(WAIT_SECONDS)
        assert not sender.is_alive(), "the calls are still sent"


def seconds_of_nulls(port):
    """How long another client waits for its replies, to one call, and then to several that a server reads at once."""
    with socket.create_connection(("127.0.0.1", port), timeout=WAIT_SECONDS) as other:
        before = time.monotonic()
        for xids in [7], [8, 9, 10]:
            other.sendall(b"".join(null(xid) for xid in xids))
            equal([xid_of(read_record(other)) for _ in xids], xids)
        return time.monotonic() - before


if PROGRAM.exists():

    @test
    def slow_reader_gets_all():
        with served_to(free_port()) as (port, _), flooded(port) as connection:
            time.sleep(PATIENCE_SECONDS / 2)
            assert seconds_of_nulls(port) < 1
            connection.settimeout(WAIT_SECONDS)
            for xid in range(CALLS):
                equal(xid_of(read_record(connection)), xid)

    @test
    def mute_reader_is_disconnected():
        with served_to(free_port()) as (port, _), flooded(port) as connection:
            time.sleep(2 * PATIENCE_SECONDS)
            assert seconds_of_nulls(port) < 1
            connection.settimeout(WAIT_SECONDS)
            replies = 0
            with contextlib.suppress(OSError, AssertionError):
                while read_record(connection) is not None:
                    replies += 1
            assert 0 < replies < CALLS, replies

    @test
    def stop_waits_for_no_reader():
        with contextlib.ExitStack() as reading:
            with served_to(free_port()) as (port, _):
                reading.enter_context(flooded(port))
                time.sleep(PATIENCE_SECONDS / 2)
                before = time.monotonic()
            assert time.monotonic() - before < 1
