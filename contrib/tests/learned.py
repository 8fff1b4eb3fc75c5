"""Tests of the built program with hosts that no file names: each is called where its lock calls came from, also after the program was
killed (XNFS, SM_NOTIFY)."""

import contextlib
import socket
import subprocess
import tempfile
import threading
import time
from pathlib import Path

from polls import COOKIE, IS_GRANTED, LOCK, LOCK_MANAGER, lock_of
from stand_ins import call, marked, read_record, words
from starts import PROGRAM, WAIT_SECONDS, free_port, said_by, serve_words
from tried import cases, equal, test

STATUS_MONITOR = 100024
SM_NOTIFY = 6
# Each host has an address of loopback of its own.
HOSTS = 12


def address_of(number):
    return f"127.0.3.{number + 1}"


class HostCaller:
    """A host's connection, from its own address."""

    def __init__(self, number, port):
        self.number = number
        self.connection = socket.create_connection(("127.0.0.1", port), WAIT_SECONDS, (address_of(number), 0))
        self.calls = 0

    def lock(self):
        """It asks for a byte, and is told at once: the status, or None where the server is gone."""
        name = f"host{self.number}".encode()
        args = COOKIE + words(0, 1) + lock_of(name)[:-16] + words(0, self.number) + words(0, 1) + words(0, 3)
        self.calls += 1
        record = words(self.calls) + call(LOCK, args, program=LOCK_MANAGER, version=4)[4:]
        self.connection.sendall(marked(record))
        reply = read_record(self.connection)
        return None if reply is None else int.from_bytes(reply[-4:], "big")


@contextlib.contextmanager
def learning(path, nsm_port):
    """A server that is killed in the end."""
    port = free_port()
    given = serve_words(path, port=port, peer_nsm_port=nsm_port, grace_seconds=1, silence_seconds=20)
    server = subprocess.Popen([PROGRAM, *given, "--learn"], stdout=subprocess.PIPE, stderr=subprocess.DEVNULL)
    try:
        equal(server.stdout.readline(), b"ready\n")
        yield server, port
    finally:
        server.kill()
        server.communicate()


def granted_hosts(server, port, seconds):
    """Which hosts were told that they have a lock, before the server was killed so many seconds behind the first."""
    granted = []
    first = HostCaller(0, port)
    for _ in range(WAIT_SECONDS * 100):
        if first.lock() == IS_GRANTED:
            break
        time.sleep(0.01)
    granted.append(0)
    killer = threading.Timer(seconds, server.kill)
    killer.start()
    with contextlib.suppress(OSError):
        for number in range(1, HOSTS):
            caller = HostCaller(number, port)
            status = caller.lock()
            caller.connection.close()
            if status is None:
                break
            equal(status, IS_GRANTED)
            granted.append(number)
    killer.join()
    first.connection.close()
    return granted


def notified_hosts(path, nsm_port, wanted):
    """Which hosts hear of a restart, each at its own address."""
    heard = []
    with contextlib.ExitStack() as stack:
        peers = [stack.enter_context(socket.create_server((address_of(number), nsm_port))) for number in range(HOSTS)]
        stack.enter_context(learning(path, nsm_port))
        for number in wanted:
            peers[number].settimeout(WAIT_SECONDS)
            callback, _ = peers[number].accept()
            with callback:
                callback.settimeout(WAIT_SECONDS)
                equal(read_record(callback)[12:24], words(STATUS_MONITOR, 1, SM_NOTIFY))
            heard.append(number)
    return heard


def killed_and_notified(seconds):
    nsm_port = free_port()
    with tempfile.TemporaryDirectory() as folder:
        path = Path(folder)
        (path / "peers").write_text("")
        with learning(path, nsm_port) as (server, port):
            granted = granted_hosts(server, port, seconds)
        equal(notified_hosts(path, nsm_port, granted), granted)


if PROGRAM.exists():
    cases(soon=(0.002,), later=(0.01,), behind_all=(1.0,))(killed_and_notified)

    @test
    def addresses_in_the_database():
        import sqlite3

        with tempfile.TemporaryDirectory() as folder:
            path = Path(folder)
            (path / "peers").write_text("")
            with learning(path, free_port()) as (server, port):
                granted_hosts(server, port, 1.0)
            database = sqlite3.connect(path / "hosts.db")
            found = dict(database.execute("SELECT CAST(name AS TEXT), address FROM addresses"))
            database.close()
            equal(found, {f"host{number}": address_of(number) for number in range(HOSTS)})
            # A program that learns nothing takes that file.
            local_port = free_port()
            given = serve_words(path, local_port=local_port, grace_seconds=1)
            server = subprocess.Popen([PROGRAM, *given], stdout=subprocess.PIPE, stderr=subprocess.DEVNULL)
            equal(server.stdout.readline(), b"ready\n")
            equal(said_by(local_port, b"stop\n"), b"ok\n")
            server.communicate(timeout=WAIT_SECONDS)
            equal(server.returncode, 0)
