"""The cable between the server and the guest. Each frame passes here, so that the calls of both sides are heard, and a GRANTED
can be held up on its way."""

import contextlib
import fcntl
import os
import selectors
import socket
import struct
import threading
import time
from dataclasses import dataclass

TUNSETIFF, IFF_TAP, IFF_NO_PI = 0x4004_54CA, 2, 0x1000
ETHERNET_BYTES, IPV4, TCP, UDP = 14, 0x0800, 6, 17
LOCK_MANAGER, STATUS_MONITOR = 100021, 100024
# RFC 1813, appendix II: the procedures of version 4, and what they answer. XNFS: SM_NOTIFY of the status monitor.
PROCEDURES = {
    (LOCK_MANAGER, 1): "TEST",
    (LOCK_MANAGER, 2): "LOCK",
    (LOCK_MANAGER, 3): "CANCEL",
    (LOCK_MANAGER, 4): "UNLOCK",
    (LOCK_MANAGER, 5): "GRANTED",
    (STATUS_MONITOR, 6): "SM_NOTIFY",
}
STATUSES = ("GRANTED", "DENIED", "DENIED_NOLOCKS", "BLOCKED", "DENIED_GRACE_PERIOD", "DEADLCK")


@dataclass
class Call:
    """A call that was heard, and its status once its reply was heard; SM_NOTIFY has no status but "done".

    `seconds` is when it was heard first, and `took` how long its reply took from then on.
    """

    seconds: float
    sender: str
    protocol: str
    procedure: str
    host: str = ""
    first: int = 0
    length: int = 0
    block: bool = False
    reclaim: bool = False
    status: str = ""
    took: float = 0

    def __str__(self):
        words = [f"{self.seconds:8.3f} {self.took:7.3f} {self.sender} {self.protocol} {self.procedure} of {self.host}"]
        words += [f"{self.first}+{self.length}"] if self.procedure != "SM_NOTIFY" else []
        words += [word for word in ("block", "reclaim") if getattr(self, word)]
        return " ".join([*words, "->", self.status or "no reply"])


# ---- what a frame holds (RFC 791, 768, 9293; RFC 5531, sections 9 and 11)


class Cut(Exception):
    """A message is shorter than its fields."""


class Fields:
    """XDR fields, one after the other (RFC 4506)."""

    def __init__(self, octets):
        self.octets, self.place = octets, 0

    def take(self, count):
        found = self.octets[self.place : self.place + count]
        if len(found) < count:
            raise Cut
        self.place += count
        return found

    def word(self):
        return int.from_bytes(self.take(4), "big")

    def hyper(self):
        return int.from_bytes(self.take(8), "big")

    def opaque(self):
        length = self.word()
        return self.take(length + -length % 4)[:length]


def records_of(payload):
    """The records that stand whole in a segment; those of locks are short, and stand in one."""
    while len(payload) >= 4:
        (mark,) = struct.unpack(">I", payload[:4])
        end = 4 + (mark & 0x7FFF_FFFF)
        if end > len(payload):
            return
        yield payload[4:end]
        payload = payload[end:]


def messages_of(frame):
    """The ends of a conversation (sender first), the protocol, and the messages of RPC, of a frame of IPv4."""
    packet = frame[ETHERNET_BYTES:]
    if len(packet) < 20 or int.from_bytes(frame[12:14], "big") != IPV4:
        return (), "", []
    packet = packet[: int.from_bytes(packet[2:4], "big")]
    segment = packet[4 * (packet[0] & 15) :]
    if packet[9] not in (TCP, UDP) or len(segment) < (20 if packet[9] == TCP else 8):
        return (), "", []
    source, target = struct.unpack(">2H", segment[:4])
    ends = ((packet[12:16], source), (packet[16:20], target))
    if packet[9] == UDP:
        return ends, "udp", [segment[8:]]
    return ends, "tcp", list(records_of(segment[4 * (segment[12] >> 4) :]))


def read_call(fields):
    """The name of the procedure and its arguments, where it is one of PROCEDURES; else None."""
    version, program, program_version, procedure = (fields.word() for _ in range(4))
    name = PROCEDURES.get((program, procedure))
    if name is None or version != 2 or program_version != (4 if program == LOCK_MANAGER else 1):
        return None
    for _ in range(2):
        fields.word()
        fields.opaque()
    if name == "SM_NOTIFY":
        return name, {"host": fields.opaque().decode(errors="replace")}
    return name, read_lock(name, fields)


def read_lock(name, fields):
    fields.opaque()
    found = {"block": bool(fields.word())} if name in ("LOCK", "CANCEL") else {}
    if name != "UNLOCK":
        fields.word()
    found["host"] = fields.opaque().decode(errors="replace")
    fields.opaque()
    fields.opaque()
    fields.word()
    found["first"], found["length"] = fields.hyper(), fields.hyper()
    if name == "LOCK":
        found["reclaim"] = bool(fields.word())
    return found


def read_status(call, fields):
    """What a reply says to a call."""
    if (fields.word(), fields.word(), fields.opaque(), fields.word()) != (0, 0, b"", 0):
        return "refused"
    if call.procedure == "SM_NOTIFY":
        return "done"
    fields.opaque()
    status = fields.word()
    return STATUSES[status] if status < len(STATUSES) else str(status)


# ---- the calls that were heard


class Calls:
    """The calls that were heard, in their order. A repeated segment is one call."""

    def __init__(self, guest):
        self.guest, self.heard, self.by_number = socket.inet_aton(guest), [], {}
        self.began = time.monotonic()

    def now(self):
        return time.monotonic() - self.began

    def hear(self, ends, protocol, message):
        """The call that a message is or answers; None where it is none of those that are known."""
        fields = Fields(message)
        try:
            number, is_reply = fields.word(), fields.word()
            if is_reply:
                return self.hear_reply((ends[1], ends[0], number), fields)
            return self.hear_call((ends[0], ends[1], number), protocol, read_call(fields))
        except Cut:
            return None

    def hear_call(self, key, protocol, found):
        if found is None:
            return None
        if key not in self.by_number:
            sender = "client" if key[0][0] == self.guest else "server"
            call = Call(self.now(), sender, protocol, found[0], **found[1])
            self.by_number[key] = call
            self.heard.append(call)
        return self.by_number[key]

    def hear_reply(self, key, fields):
        call = self.by_number.get(key)
        if call is not None and not call.status:
            call.took = self.now() - call.seconds
            call.status = read_status(call, fields)
        return call

    def find(self, since, **wanted):
        """The calls behind the first `since` ones that have these values."""
        return [call for call in self.heard[since:] if all(getattr(call, key) == value for key, value in wanted.items())]


class Cable:
    """Carries frames between a network interface of this machine and the guest's card, which qemu has at a UDP port."""

    def __init__(self, interface, guest):
        self.calls = Calls(guest)
        self.holds_grants, self.held = False, []
        self.tap = os.open("/dev/net/tun", os.O_RDWR)
        fcntl.ioctl(self.tap, TUNSETIFF, struct.pack("16sH22x", interface.encode(), IFF_TAP | IFF_NO_PI))
        self.plug = socket.socket(socket.AF_INET, socket.SOCK_DGRAM)

    def plug_in(self, near, far):
        """Frames of the guest come to the port `near` of loopback, and its own go to `far`."""
        self.plug.bind(("127.0.0.1", near))
        self.far = ("127.0.0.1", far)
        threading.Thread(target=self.carry, daemon=True).start()

    def release(self):
        """What was held up goes on. What is sent at just this moment may be lost, and TCP sends it again."""
        self.holds_grants = False
        for frame in self.held:
            self.give(frame)

    def carry(self):
        with selectors.DefaultSelector() as both:
            both.register(self.tap, selectors.EVENT_READ, self.to_guest)
            both.register(self.plug, selectors.EVENT_READ, self.from_guest)
            while True:
                for key, _ in both.select():
                    key.data()

    def to_guest(self):
        frame = os.read(self.tap, 65536)
        if self.passes(frame):
            self.give(frame)
        else:
            self.held.append(frame)

    def give(self, frame):
        # Without a guest that is plugged in, frames are lost.
        with contextlib.suppress(OSError):
            self.plug.sendto(frame, self.far)

    def from_guest(self):
        try:
            frame = self.plug.recv(65536)
        except OSError:
            return
        self.passes(frame)
        os.write(self.tap, frame)

    def passes(self, frame):
        ends, protocol, messages = messages_of(frame)
        found = [self.calls.hear(ends, protocol, message) for message in messages]
        is_grant = any(call is not None and call.procedure == "GRANTED" and call.sender == "server" for call in found)
        return not (self.holds_grants and is_grant and ends[1][0] == self.calls.guest)
