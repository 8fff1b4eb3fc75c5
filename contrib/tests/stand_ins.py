"""Servers on loopback that stand in for a port mapper and for the daemon."""

import contextlib
import socket
import struct
import threading
import time

from tried import equal

TCP, UDP = 6, 17


# ---- bytes (RFC 4506; RFC 5531, sections 9 and 11)


def words(*numbers):
    return struct.pack(f">{len(numbers)}I", *numbers)


def opaque(octets):
    return words(len(octets)) + octets + bytes(-len(octets) % 4)


def marked(record):
    return words(1 << 31 | len(record)) + record


def success(xid, *results):
    return words(xid, 1, 0, 0, 0, 0, *results)


def call(procedure, arguments=b"", kind=0, rpc=2, program=100024, version=1, cred=b"", verifier=b""):
    head = words(0x01020304, kind, rpc, program, version, procedure)
    return head + words(1 if cred else 0) + opaque(cred) + words(0) + opaque(verifier) + arguments


def notify(name, **others):
    return call(6, opaque(name) + words(5), **others)


def xid_of(record):
    return int.from_bytes(record[:4], "big")


# ---- servers that stand in


class Cut(bytes):
    """What is sent before the connection is ended."""


class Trickle(bytes):
    """What is sent a byte at a time, ten in a second."""


def read_exactly(connection, size):
    received = b""
    while len(received) < size:
        piece = connection.recv(size - len(received))
        if not piece:
            return None
        received += piece
    return received


def read_record(connection):
    """The next record, which is one fragment; None at the end."""
    mark = read_exactly(connection, 4)
    if mark is None:
        return None
    size = xid_of(mark)
    assert size >> 31, "a record in more than one fragment"
    record = read_exactly(connection, size & 0x7FFFFFFF)
    assert record is not None, "a record that is cut"
    return record


def send(connection, answer):
    if not isinstance(answer, Trickle):
        connection.sendall(answer)
        return
    for byte in answer:
        connection.sendall(bytes([byte]))
        time.sleep(0.1)


class StandIn:
    """A server on loopback. `answer` makes of a record what is sent: nothing of a mute one."""

    def __init__(self, answer):
        self.answer = answer
        self.records = []
        self.faults = []
        self.threads = []
        self.listener = socket.create_server(("127.0.0.1", 0), backlog=128)
        self.place = "127.0.0.1:%d" % self.listener.getsockname()[1]

    def __enter__(self):
        self.begin(self.accept)
        return self

    def __exit__(self, *_):
        self.listener.shutdown(socket.SHUT_RDWR)
        for thread in self.threads:
            thread.join(10)
        self.listener.close()
        equal(self.faults, [])

    def begin(self, act, *arguments):
        thread = threading.Thread(target=act, args=arguments, daemon=True)
        self.threads.append(thread)
        thread.start()

    def accept(self):
        with contextlib.suppress(OSError):
            while True:
                self.begin(self.serve, self.listener.accept()[0])

    def serve(self, connection):
        with connection:
            connection.settimeout(10)
            try:
                self.serve_records(connection)
            except ConnectionError:
                pass
            except Exception as fault:
                self.faults.append(repr(fault))

    def serve_records(self, connection):
        while (record := read_record(connection)) is not None:
            self.records.append(record)
            answer = self.answer(record)
            send(connection, answer)
            if isinstance(answer, Cut):
                return


class LineStandIn(StandIn):
    """One that takes lines in place of records."""

    def serve_records(self, connection):
        with connection.makefile("rb") as lines:
            for line in lines:
                self.records.append(line)
                answer = self.answer(line)
                send(connection, answer)
                if isinstance(answer, Cut):
                    return


class Mapper:
    """A port mapper (RFC 1833, section 3). What is `locked` belongs to somebody else."""

    def __init__(self, kept=(), locked=()):
        self.kept = dict(kept)
        self.locked = set(locked)

    def __call__(self, record):
        xid, *head = struct.unpack(">10I", record[:40])
        procedure = head.pop(4)
        equal(head, [0, 2, 100000, 2, 0, 0, 0, 0])
        if procedure == 4:
            equal(len(record), 40)
            return marked(success(xid, *self.dump()))
        program, version, protocol, port = struct.unpack(">4I", record[40:])
        act = {1: self.set, 2: self.unset}[procedure]
        return marked(success(xid, act((program, version, protocol), port)))

    def set(self, key, port):
        return int(self.kept.setdefault(key, port) == port)

    def unset(self, key, _port):
        found = [one for one in self.kept if one[:2] == key[:2] and one not in self.locked]
        for one in found:
            del self.kept[one]
        return int(bool(found))

    def dump(self):
        rows = [(1, *key, port) for key, port in self.kept.items()]
        return [word for row in rows for word in row] + [0]


def mute(_record):
    return b""


def monitor(record):
    """A daemon that answers each call by an empty success."""
    return marked(success(xid_of(record)))


class PageStandIn(StandIn):
    """One that takes requests over HTTP/1.0 in place of records, and ends each connection behind its answer."""

    def serve_records(self, connection):
        with connection.makefile("rb") as stream:
            head = b""
            while line := stream.readline():
                head += line
                if line == b"\r\n":
                    self.records.append(head)
                    send(connection, self.answer(head))
                    return


def page(body, status=b"200 OK", kind=b"application/json"):
    """An answer (RFC 9112, sections 4 to 6)."""
    head = b"HTTP/1.1 %s\r\nContent-Type: %s\r\nContent-Length: %d\r\nConnection: close\r\n\r\n"
    return head % (status, kind, len(body)) + body
