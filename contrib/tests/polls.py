"""Tests of the built program with a client that waits for a lock and asks for it again, and refuses the GRANTED that comes late
(RFC 1813, appendix II, NLM_LOCK and NLM_GRANTED)."""

import contextlib
import socket
import subprocess
import tempfile
import time
from pathlib import Path

from stand_ins import call, marked, opaque, read_record, success, words, xid_of
from starts import PROGRAM, WAIT_SECONDS, free_port, said_by, serve_words
from tried import cases, equal

LOCK_MANAGER = 100021
LOCK, UNLOCK, GRANTED = 2, 4, 5
IS_GRANTED, IS_DENIED, IS_BLOCKED = 0, 1, 3
FILE = bytes.fromhex("01020304")
COOKIE = opaque(b"late")


def lock_of(host):
    """nlm4_lock: the bytes 0 to 9 of the file, by a process of this host."""
    return opaque(host) + opaque(FILE) + opaque(b"one") + words(7) + words(0, 0) + words(0, 10)


def asked_for(host):
    """nlm4_lockargs: it waits where it has to."""
    return COOKIE + words(1, 1) + lock_of(host) + words(0, 3)


class Caller:
    """A client's connection. Each call has an xid of its own."""

    def __init__(self, port):
        self.connection = socket.create_connection(("127.0.0.1", port), timeout=WAIT_SECONDS)
        self.calls = 0

    def status(self, procedure, arguments):
        self.calls += 1
        record = words(self.calls) + call(procedure, arguments, program=LOCK_MANAGER, version=4)[4:]
        self.connection.sendall(marked(record))
        return int.from_bytes(read_record(self.connection)[-4:], "big")


@contextlib.contextmanager
def served_to(peer_port, *more):
    """The ports of a server that calls host `b` at this port, which is told to stop in the end."""
    with tempfile.TemporaryDirectory() as folder:
        path = Path(folder)
        (path / "peers").write_text("b 127.0.0.1\n")
        port, local_port = free_port(), free_port()
        given = serve_words(path, port=port, local_port=local_port, peer_nlm_port=peer_port, grace_seconds=1, silence_seconds=10)
        server = subprocess.Popen([PROGRAM, *given, *more], stdout=subprocess.PIPE, stderr=subprocess.DEVNULL)
        try:
            equal(server.stdout.readline(), b"ready\n")
            yield port, local_port
            equal(said_by(local_port, b"stop\n"), b"ok\n")
            server.communicate(timeout=WAIT_SECONDS)
        finally:
            server.kill()
            server.communicate()
        equal(server.returncode, 0)


def locked_first(caller):
    """Host `a` has the lock once the grace period is over."""
    status = None
    for _ in range(WAIT_SECONDS * 100):
        status = caller.status(LOCK, asked_for(b"a"))
        if status == IS_GRANTED:
            break
        time.sleep(0.01)
    equal(status, IS_GRANTED)


def polled_lock(option, held):
    with socket.create_server(("127.0.0.1", 0)) as peer:
        peer.settimeout(WAIT_SECONDS)
        with served_to(peer.getsockname()[1], *option) as (port, local_port):
            caller = Caller(port)
            locked_first(caller)
            equal(caller.status(LOCK, asked_for(b"b")), IS_BLOCKED)
            equal(caller.status(UNLOCK, COOKIE + lock_of(b"a")), IS_GRANTED)
            callback, _ = peer.accept()
            callback.settimeout(WAIT_SECONDS)
            granted = read_record(callback)
            equal(granted[12:24], words(LOCK_MANAGER, 4, GRANTED))
            # It asks again before it has read the GRANTED, and knows nothing of that then.
            equal(caller.status(LOCK, asked_for(b"b")), IS_GRANTED)
            callback.sendall(marked(success(xid_of(granted)) + opaque(b"") + words(IS_DENIED)))
            # The server reads the answer in its own time.
            time.sleep(1)
            found = said_by(local_port, b"getlk p42 01020304 w 0 10\n")
            equal(found, b"held w 0 10 h62/7/6f6e65\n" if held else b"free\n")
            callback.close()
            caller.connection.close()


if PROGRAM.exists():
    cases(kept=(("--poll-ends-grant",), True), lost_by_the_standards=((), False))(polled_lock)
