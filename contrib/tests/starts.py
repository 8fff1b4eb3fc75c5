"""Tests of how the built program starts and ends: what it writes, its status, and which note stands in front of a fault."""

import contextlib
import itertools
import random
import signal
import socket
import struct
import subprocess
import tempfile
import time
from pathlib import Path

from stand_ins import call, success
from tried import CONTRIB, cases, equal

PROGRAM = CONTRIB.parent / "crates/lockd_main/out/lockd_main"
WAIT_SECONDS = 30
PORTS = itertools.count(random.randrange(10_000, 30_000))

# RFC 1813, appendix II, and XNFS: a LOCK of the bytes 0 to 9 by a process of host `a`, that it is granted, and SM_NOTIFY of the
# own state 3, each behind its mark (RFC 5531, section 11).
LOCK = bytes.fromhex(
    "8000006c 00000002 00000000 00000002 000186b5 00000004 00000002 00000000 00000000 00000000 00000000 00000004 00000002"
    "00000000 00000001 00000001 61000000 00000004 01020304 00000001 41000000 00000007 00000000 00000000 00000000 0000000a"
    "00000000 00000003"
)
GRANTED = bytes.fromhex("80000024 00000002 00000001 00000000 00000000 00000000 00000000 00000004 00000002 00000000")
NOTICE = bytes.fromhex(
    "80000038 00000001 00000000 00000002 000186b8 00000001 00000006 00000000 00000000 00000000 00000000 00000006 73657276"
    "65720000 00000003"
)


# NULL of the lock manager's version 4 (RFC 1813, appendix II), and its reply.
NULL = bytes.fromhex("80000028 00000001 00000000 00000002 000186b5 00000004 00000000 00000000 00000000 00000000 00000000")
NULL_REPLY = bytes.fromhex("80000018 00000001 00000001 00000000 00000000 00000000 00000000")


@contextlib.contextmanager
def room():
    with tempfile.TemporaryDirectory() as path:
        yield Path(path)


def ran(*words, stream=b""):
    """Status, standard output, and the lines of standard error."""
    done = subprocess.run([PROGRAM, *words], input=stream, capture_output=True, timeout=WAIT_SECONDS)
    return done.returncode, done.stdout, done.stderr.decode().splitlines()


def is_free(port):
    """Whether a server may have this port of TCP and of UDP."""
    try:
        with socket.create_server(("127.0.0.1", port)), socket.socket(socket.AF_INET, socket.SOCK_DGRAM) as datagrams:
            datagrams.bind(("127.0.0.1", port))
    except OSError:
        return False
    return True


def free_port():
    """Another one at each call. It is below the ports that Linux gives to those who ask for none (ip(7), ip_local_port_range):
    else a connection that is made before the server starts could take it."""
    return next(port for port in PORTS if is_free(port))


def serve_words(path, **other):
    """The words of a server over the files of this folder. None leaves one out."""
    given = {
        "port": free_port(),
        "local-port": free_port(),
        "db": path / "hosts.db",
        "peers": path / "peers",
        "peer-nlm-port": 1,
        "peer-nsm-port": 1,
        "watch-port": 1,
        "bind": "127.0.0.1",
    }
    given |= {name.replace("_", "-"): value for name, value in other.items()}
    return ["serve", *(word for name, value in given.items() for word in (f"--{name}", str(value)))]


def refuses(found, status_line, note):
    """Nothing on standard output, and the note in front of the fault."""
    equal(found, (1, b"", [f"lockd: note: {note}", f"lockd: {status_line}"]))


def peers_file_with_a_bad_line(peers, number):
    with room() as path:
        (path / "peers").write_text(peers)
        refuses(
            ran(*serve_words(path)),
            "20 BadLine",
            f"{path}/peers: line {number} is no name, a space and an IP address, names a host again, or comes behind 4096 others",
        )
        equal((path / "hosts.db").exists(), False)


def peers_file_that_cannot_be_read(name, said):
    with room() as path:
        refuses(ran(*serve_words(path, peers=path / name)), "23 ReadFault", f"{path / name}: {said}")
        equal((path / "hosts.db").exists(), False)


def no_database(words):
    with room() as path:
        db = path / "hosts.db"
        db.write_bytes(b"no database " * 700)
        refuses(
            ran(*words, "--db", db, stream=LOCK) if words else ran_serve(path),
            "19 StoreRefused",
            f"{db}: it can't be opened: file is not a database that obeys its schema",
        )
        equal(db.read_bytes(), b"no database " * 700)


def ran_serve(path, **other):
    """The server over a file of no peers."""
    (path / "peers").write_text("")
    return ran(*serve_words(path, **other))


def database_in_no_folder(words):
    with room() as path:
        db = path / "none" / "hosts.db"
        refuses(
            ran(*words, "--db", db, stream=LOCK) if words else ran_serve(path, db=db),
            "19 StoreRefused",
            f"{db}: it can't be opened: unable to open database file",
        )


def port_in_use(option):
    with room() as path, socket.create_server(("127.0.0.1", 0)) as taken:
        port = taken.getsockname()[1]
        refuses(
            ran_serve(path, **{option: port}),
            "23 ReadFault",
            f"127.0.0.1:{port}: Address already in use (os error 98)",
        )


def address_of_another_machine():
    with room() as path:
        # RFC 5737: no machine has it.
        found = ran_serve(path, bind="192.0.2.1", port=4045)
        refuses(found, "23 ReadFault", "192.0.2.1:4045: Cannot assign requested address (os error 99)")


def pipe_twice_on_one_file():
    with room() as path:
        words = ("pipe", "--db", path / "hosts.db")
        equal(ran(*words, stream=LOCK), (0, GRANTED, []))
        equal(ran(*words, stream=LOCK), (0, GRANTED + NOTICE, []))


def table_at_the_end(db):
    with room() as path:
        equal(ran("table", *(["--db", path / "hosts.db"] if db else []), stream=LOCK), (0, b"01020304 w 0 9 h61/7/41\n", []))


def pipe_of_no_hosts():
    equal(ran("pipe", stream=LOCK), (0, GRANTED, []))


def record_too_long(words):
    # A mark of 8,193 bytes. It is no fault of a start.
    equal(ran(*words, stream=bytes.fromhex("80002001")), (1, b"", ["lockd: 10 RecordTooLong"]))


def said_by(port, said):
    """All that comes until the connection ends, which is not written any more."""
    with socket.create_connection(("127.0.0.1", port), timeout=WAIT_SECONDS) as one:
        one.sendall(said)
        one.shutdown(socket.SHUT_WR)
        return b"".join(iter(lambda: one.recv(4096), b""))


def serves_until_it_is_told_to_stop(audit):
    with room() as path:
        (path / "peers").write_text("client 127.0.0.1\n")
        port, local_port = free_port(), free_port()
        words = serve_words(path, port=port, local_port=local_port) + (["--audit"] if audit else [])
        server = subprocess.Popen([PROGRAM, *words], stdout=subprocess.PIPE, stderr=subprocess.PIPE)
        try:
            equal(server.stdout.readline(), b"ready\n")
            equal(said_by(port, NULL + NULL), NULL_REPLY + NULL_REPLY)
            equal(said_by(local_port, b"hosts\nstop\n"), b"end\nok\n")
            told = server.communicate(timeout=WAIT_SECONDS)
        finally:
            server.kill()
            server.communicate()
        equal((server.returncode, *told), (0, b"audit yes 2\n" if audit else b"", b""))


@contextlib.contextmanager
def served(*more):
    """The ports for calls and for lines of a server with these words more, and its process, which is told to stop in the end."""
    with room() as path:
        (path / "peers").write_text("")
        port, local_port = free_port(), free_port()
        words = [*serve_words(path, port=port, local_port=local_port), *more]
        server = subprocess.Popen([PROGRAM, *words], stdout=subprocess.PIPE, stderr=subprocess.PIPE)
        try:
            equal(server.stdout.readline(), b"ready\n")
            yield port, local_port, server
            equal(said_by(local_port, b"stop\n"), b"ok\n")
            server.communicate(timeout=WAIT_SECONDS)
        finally:
            server.kill()
            server.communicate()
        equal(server.returncode, 0)


def called_from(address, port):
    """A connection from this address, and what a call on it is answered: nothing where the connection is closed."""
    one = socket.create_connection(("127.0.0.1", port), timeout=WAIT_SECONDS, source_address=(address, 0))
    try:
        one.sendall(NULL)
        return one, one.recv(len(NULL_REPLY))
    except ConnectionError:
        return one, b""


def two_connections_of_a_peer():
    with served("--connections-per-peer", "2") as (port, *_), contextlib.ExitStack() as ended:
        first, *others = [called_from("127.0.0.1", port) for _ in range(3)]
        others += [called_from("127.0.0.2", port) for _ in range(3)]
        for one, _ in others:
            ended.enter_context(one)
        equal([told for _, told in (first, *others)], [NULL_REPLY, NULL_REPLY, b""] * 2)
        first[0].close()
        # Its place is free once the server has seen that it ended.
        until = time.monotonic() + WAIT_SECONDS
        told = b""
        while not told and time.monotonic() < until:
            one, told = called_from("127.0.0.1", port)
            ended.enter_context(one)
        equal(told, NULL_REPLY)


def hosts_that_connect_at_once():
    """The server is stopped meanwhile, so that all of them wait to be accepted. The system drops those who find no room, which
    try again after a second (RFC 6298, section 2)."""
    count = min(300, int(Path("/proc/sys/net/core/somaxconn").read_text()))
    with served("--connections", "512") as (port, _, server), contextlib.ExitStack() as ended:
        server.send_signal(signal.SIGSTOP)
        callers = [ended.enter_context(socket.create_connection(("127.0.0.1", port), timeout=0.5)) for _ in range(count)]
        server.send_signal(signal.SIGCONT)
        for caller in callers:
            caller.settimeout(WAIT_SECONDS)
            caller.sendall(NULL)
            equal(caller.recv(len(NULL_REPLY)), NULL_REPLY)


def calls_before_a_reset():
    """A call that the server hasn't read when its connection is reset is dropped with it (RFC 9293, section 3.10.7.4)."""
    with served("--grace-seconds", "1") as (port, local_port, server):
        time.sleep(1.5)
        server.send_signal(signal.SIGSTOP)
        with socket.create_connection(("127.0.0.1", port), timeout=WAIT_SECONDS) as caller:
            caller.sendall(LOCK)
            # To close it then is to reset it (socket(7), SO_LINGER).
            caller.setsockopt(socket.SOL_SOCKET, socket.SO_LINGER, struct.pack("ii", 1, 0))
        server.send_signal(signal.SIGCONT)
        equal(said_by(port, NULL), NULL_REPLY)
        equal(said_by(local_port, b"table\n"), b"end\n")
        equal(said_by(port, LOCK), GRANTED)
        assert said_by(local_port, b"table\n") != b"end\n"


def peers_file_that_changes():
    """What is noted of each change: a bad line, no file, a good file."""
    with room() as path:
        peers, local_port = path / "peers", free_port()
        peers.write_text("client 127.0.0.1\n")
        words = serve_words(path, local_port=local_port)
        server = subprocess.Popen([PROGRAM, *words], stdout=subprocess.PIPE, stderr=subprocess.PIPE)
        try:
            equal(server.stdout.readline(), b"ready\n")
            for change in (lambda: peers.write_text("a 127.0.0.1\nb\n"), peers.unlink, lambda: peers.write_text("b ::1\n")):
                change()
                # The file is looked at once a second.
                time.sleep(2.2)
            equal(said_by(local_port, b"stop\n"), b"ok\n")
            _, told = server.communicate(timeout=WAIT_SECONDS)
        finally:
            server.kill()
            server.communicate()
        equal(server.returncode, 0)
        notes = [line.split("] ", 1)[1] for line in told.decode().splitlines()]
        stay = "the peers stay as they were"
        bad = f"{peers}: line 2 is no name, a space and an IP address, names a host again, or comes behind 4096 others: {stay}"
        equal(notes, [bad, f"{peers}: there is no such file: {stay}", f"{peers}: read again"])


def datagrams():
    """SM_NULL by UDP, from two addresses, and what is dropped."""
    notify_port = free_port()
    with served("--notify-port", str(notify_port)), contextlib.ExitStack() as ended:
        for address in ("127.0.0.1", "127.0.0.2"):
            one = ended.enter_context(socket.socket(socket.AF_INET, socket.SOCK_DGRAM))
            one.bind((address, 0))
            one.settimeout(WAIT_SECONDS)
            for datagram in (NULL[4:8], call(0)):
                one.sendto(datagram, ("127.0.0.1", notify_port))
            equal(one.recv(65_535), success(0x01020304))


STREAMS = dict(pipe=(("pipe",),), table=(("table",),))
SERVER = dict(serve=((),))

if PROGRAM.exists():
    cases(no_address=("client 127.0.0.1\nclient2\n", 2), twice=("a 127.0.0.1\nb ::1\na 127.0.0.2\n", 3))(peers_file_with_a_bad_line)
    cases(
        missing=("peers", "No such file or directory (os error 2)"), folder=("", "Is a directory (os error 21)")
    )(peers_file_that_cannot_be_read)
    cases(**STREAMS, **SERVER)(no_database)
    cases(**STREAMS, **SERVER)(database_in_no_folder)
    cases(calls=("port",), lines=("local_port",), pages=("status_port",))(port_in_use)
    cases(none=())(address_of_another_machine)
    cases(two=())(pipe_twice_on_one_file)
    cases(memory=(False,), file=(True,))(table_at_the_end)
    cases(none=())(pipe_of_no_hosts)
    cases(**STREAMS)(record_too_long)
    cases(plain=(False,), audited=(True,))(serves_until_it_is_told_to_stop)
    cases(none=())(two_connections_of_a_peer)
    cases(none=())(hosts_that_connect_at_once)
    cases(none=())(calls_before_a_reset)
    cases(none=())(peers_file_that_changes)
    cases(none=())(datagrams)
else:
    print(f"skipped: how the program starts and ends, since it isn't built ({PROGRAM.relative_to(CONTRIB.parent)})", flush=True)
