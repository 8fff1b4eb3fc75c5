"""Tests of what `linux-client` does without a guest: what it refuses, the calls that it hears in frames, the guest's answers."""

import contextlib
import io
import os
import shutil
import socket
import struct
import subprocess
import sys
import tempfile
import threading
from importlib.machinery import SourceFileLoader
from importlib.util import module_from_spec, spec_from_loader
from pathlib import Path

from tried import CONTRIB, cases, equal, run, test
from units import option_names

PARTS = CONTRIB / "linux-client.d"


def load():
    loader = SourceFileLoader("linux_client_program", str(CONTRIB / "linux-client"))
    module = module_from_spec(spec_from_loader(loader.name, loader))
    loader.exec_module(module)
    return module


program = load()
cable, guest = program.cable, program.guest
CLIENT, SERVER = (guest.ADDRESS, 900), (guest.SERVER, 4045)
LOCK, CANCEL, GRANTED = 2, 3, 5
LOCKS, MONITOR = (100021, 4), (100024, 1)


# ---- what it refuses


def refused(*arguments, **replaced):
    """Status and message of `main` with these functions in the place of its own."""
    kept = {name: getattr(program, name) for name in replaced}
    said, words = io.StringIO(), sys.argv
    sys.argv = ["linux-client", *arguments]
    try:
        for name, value in replaced.items():
            setattr(program, name, value)
        with contextlib.redirect_stderr(said):
            return program.main(), said.getvalue()
    finally:
        sys.argv = words
        for name, value in kept.items():
            setattr(program, name, value)


@test
def missing_packages_of_the_client_are_named():
    told = "linux-client: packages are missing: apt-get install --no-install-recommends cpio nfs-common\n"
    equal(refused(missing=lambda: ["cpio", "nfs-common"]), (2, told))


@test
def each_package_is_named_once():
    equal(program.missing(lambda name: name not in ("gcc", "unshare", "setpriv")), ["gcc", "util-linux"])
    equal(program.missing(lambda name: True), [])
    found = program.missing(lambda name: False)
    equal(len(found), len(set(found)))


@test
def words_of_the_client_are_refused():
    status, told, _ = run_quietly("one", "two")
    equal((status, told), (2, ""))


def run_quietly(*arguments):
    done = subprocess.run([CONTRIB / "linux-client", *arguments], capture_output=True, text=True, timeout=30)
    return done.returncode, done.stdout, done.stderr


@test
def client_says_its_use():
    status, told, _ = run("linux-client", "--help")
    equal(status, 0)
    for word in ("--keep", "--kernel FILE", "PROGRAM"):
        assert word in told, told


# ---- how the daemon is started


@cases(
    learning=("      --learn                     Learn", "", True),
    not_learning=("      --audit                     Check", f"{guest.NAME} {guest.ADDRESS}\n", False),
)
def peers_are_written_where_the_daemon_does_not_learn(option, peers, is_learning):
    with tempfile.TemporaryDirectory() as room:
        folder = Path(room)
        (folder / "lockd").write_text(f"#!/bin/sh\necho '{option}'\n")
        (folder / "lockd").chmod(0o755)
        found = program.command_of(folder / "lockd", folder)
        equal(((folder / "peers").read_text(), "--learn" in found), (peers, is_learning))


@test
def serve_is_given_what_it_needs():
    with tempfile.TemporaryDirectory() as room:
        found = program.command_of("true", Path(room))
    equal([one for one in option_names("needed") if one not in found], [])
    equal([one for one in found if one.startswith("--") and one not in option_names("needed|value|default|flag")], [])


# ---- frames


def words(*numbers):
    return struct.pack(f">{len(numbers)}I", *numbers)


def opaque(octets):
    return words(len(octets)) + octets + bytes(-len(octets) % 4)


def frame(source, target, message, protocol=cable.TCP):
    """A frame of Ethernet with one segment."""
    ports = struct.pack(">2H", source[1], target[1])
    if protocol == cable.TCP:
        segment = ports + words(1, 1) + bytes([5 << 4, 0x18]) + bytes(6) + words(1 << 31 | len(message)) + message
    else:
        segment = ports + struct.pack(">2H", 8 + len(message), 0) + message
    ends = socket.inet_aton(source[0]) + socket.inet_aton(target[0])
    header = struct.pack(">BBHHHBBH", 0x45, 0, 20 + len(segment), 1, 0, 64, protocol, 0) + ends
    return bytes(12) + struct.pack(">H", cable.IPV4) + header + segment


def call(number, program, procedure, arguments):
    credential = words(1) + opaque(bytes(28))
    return words(number, 0, 2, *program, procedure) + credential + words(0, 0) + arguments


def reply(number, result=b""):
    return words(number, 1, 0, 0, 0, 0) + result


def lock(procedure, first, length, block=1, reclaim=0):
    flags = words(1) if procedure == GRANTED else words(block, 1)
    holder = opaque(b"guest") + opaque(bytes(29)) + opaque(b"own") + words(7)
    end = words(reclaim, 3) if procedure == LOCK else b""
    return opaque(b"abc") + flags + holder + struct.pack(">QQ", first, length) + end


def hear(*frames):
    """The calls of these frames, as they are printed behind their times."""
    calls = cable.Calls(guest.ADDRESS)
    for one in frames:
        ends, protocol, messages = cable.messages_of(one)
        for message in messages:
            calls.hear(ends, protocol, message)
    return [str(found).split(maxsplit=2)[2] for found in calls.heard]


ASKED = frame(CLIENT, SERVER, call(5, LOCKS, LOCK, lock(LOCK, 20, 10)))
BLOCKED = frame(SERVER, CLIENT, reply(5, opaque(b"abc") + words(3)))
NOTICE = frame(CLIENT, SERVER, call(8, MONITOR, 6, opaque(b"guest") + words(5)), cable.UDP)
CALLED = frame(SERVER, CLIENT, call(5, LOCKS, GRANTED, lock(GRANTED, 20, 10)))


@cases(
    unanswered=([ASKED], ["client tcp LOCK of guest 20+10 block -> no reply"]),
    answered=([ASKED, BLOCKED], ["client tcp LOCK of guest 20+10 block -> BLOCKED"]),
    said_again=([ASKED, ASKED, BLOCKED, BLOCKED], ["client tcp LOCK of guest 20+10 block -> BLOCKED"]),
    same_number=(
        [ASKED, CALLED],
        ["client tcp LOCK of guest 20+10 block -> no reply", "server tcp GRANTED of guest 20+10 -> no reply"],
    ),
    reclaim=(
        [frame(CLIENT, SERVER, call(6, LOCKS, LOCK, lock(LOCK, 0, 0, 0, 1)))],
        ["client tcp LOCK of guest 0+0 reclaim -> no reply"],
    ),
    cancel=([frame(CLIENT, SERVER, call(7, LOCKS, CANCEL, lock(CANCEL, 1, 2)))], ["client tcp CANCEL of guest 1+2 block -> no reply"]),
    notice=(
        [NOTICE, frame(SERVER, CLIENT, reply(8), cable.UDP)],
        ["client udp SM_NOTIFY of guest -> done"],
    ),
    another_program=([frame(CLIENT, SERVER, call(9, (100003, 3), 2, bytes(40)))], []),
    another_version=([frame(CLIENT, SERVER, call(9, (100021, 1), LOCK, lock(LOCK, 20, 10)))], []),
    another_reply=(
        [ASKED, frame(SERVER, CLIENT, reply(6, opaque(b"abc") + words(3)))],
        ["client tcp LOCK of guest 20+10 block -> no reply"],
    ),
    refused=([ASKED, frame(SERVER, CLIENT, words(5, 1, 0, 0, 0, 5))], ["client tcp LOCK of guest 20+10 block -> refused"]),
)
def calls_are_heard_in_frames(frames, wanted):
    equal(hear(*frames), wanted)


@test
def cut_frames_are_no_calls():
    for length in range(len(ASKED)):
        equal(hear(ASKED[:length]), [])


@test
def grants_alone_are_held_up():
    wire = cable.Cable.__new__(cable.Cable)
    wire.calls, wire.holds_grants = cable.Calls(guest.ADDRESS), False
    equal([wire.passes(one) for one in (ASKED, BLOCKED, CALLED)], [True] * 3)
    wire.holds_grants = True
    answer = frame(CLIENT, SERVER, reply(5, opaque(b"abc") + words(1)))
    equal([wire.passes(one) for one in (ASKED, BLOCKED, CALLED, answer)], [True, True, False, True])
    equal(wire.calls.find(0, procedure="GRANTED", status="DENIED"), wire.calls.heard[1:])


@test
def held_frames_go_on():
    wire = cable.Cable.__new__(cable.Cable)
    wire.calls, wire.holds_grants, wire.held = cable.Calls(guest.ADDRESS), True, []
    wire.tap, server = os.pipe()
    udp = socket.AF_INET, socket.SOCK_DGRAM
    with socket.socket(*udp) as wire.plug, socket.socket(*udp) as card:
        card.bind(("127.0.0.1", 0))
        card.settimeout(10)
        wire.far = card.getsockname()
        for one in (CALLED, BLOCKED):
            os.write(server, one)
            wire.to_guest()
        found = [card.recv(2000)]
        wire.release()
        equal([*found, card.recv(2000)], [BLOCKED, CALLED])
    for end in (wire.tap, server):
        os.close(end)


# ---- the guest


@cases(
    answer=("@ one ok\r\n", ("one", "ok")),
    of_words=("@ look held 20 10 -77\r\n", ("look", "held 20 10 -77")),
    without_words=("@ one\r\n", None),
    other=("mount: failed\r\n", None),
    behind_other=("xx @ one ok\r\n", None),
    empty=("\r\n", None),
)
def answers_of_the_guest(line, wanted):
    equal(guest.answer_of(line), wanted)


def stand_in(script):
    """A guest whose machine is a shell that runs this."""
    machine = guest.Guest.__new__(guest.Guest)
    machine.answers, machine.told = [], io.StringIO()
    pipes = {"stdin": subprocess.PIPE, "stdout": subprocess.PIPE}
    machine.process = subprocess.Popen(["sh", "-c", script], **pipes)
    machine.reader = threading.Thread(target=machine.read, daemon=True)
    machine.reader.start()
    return machine


@test
def guest_is_asked_and_heard():
    machine = stand_in("echo noise; echo @ up 6.1; read -r line; echo @ one $line")
    equal(machine.hear("up", 10)[1], "6.1")
    machine.ask("hello")
    equal(machine.hear("one", 10)[1], "hello")
    machine.kill()


@cases(
    failed=("echo @ failed insmod ext4; sleep 9", "the guest: failed insmod ext4"),
    ended=("exit 0", "the guest ended"),
    mute=("exec sleep 9", "the guest told nothing of `up` within 1 s"),
)
def guest_that_fails_is_told(script, wanted):
    machine = stand_in(script)
    try:
        machine.hear("up", 1)
        raise AssertionError("it was heard")
    except guest.Failed as failure:
        equal(str(failure), wanted)
    finally:
        machine.kill()


@test
def modules_stand_behind_those_they_need():
    with tempfile.TemporaryDirectory() as room:
        paths = {}
        for name, needs in (("nfsv3", "nfs,sunrpc"), ("nfs", "lockd,sunrpc"), ("lockd", "sunrpc"), ("sunrpc", ""), ("veth", "")):
            paths[name] = Path(room) / f"{name}.ko"
            paths[name].write_bytes(b"\x7fELF\0license=GPL\0depends=" + needs.encode() + b"\0name=x\0")
        found = guest.modules_in_order(paths, ("nfsv3", "built_in"))
        equal(list(found), ["sunrpc", "lockd", "nfs", "nfsv3"])


@test
def init_reads_what_the_guest_is_given():
    text = (PARTS / "init").read_text()
    equal({name for name in guest.OPTIONS if f"$(option {name})" in text}, set(guest.OPTIONS))
    equal(text.count("$(option "), len(guest.OPTIONS))
    equal(subprocess.run(["sh", "-n", PARTS / "init"], timeout=30).returncode, 0)


@test
def locker_is_refused_by_no_compiler():
    if shutil.which("gcc") is None:
        return
    words = ["gcc", "-Wall", "-Wextra", "-Werror", "-fsyntax-only", PARTS / "locker.c"]
    equal(subprocess.run(words, timeout=60, capture_output=True).stderr, b"")


@test
def client_leaves_no_folder():
    """Where the daemon can't be run, nothing is left of what was begun."""
    with tempfile.TemporaryDirectory() as room:
        kept, tempfile.tempdir = tempfile.tempdir, room
        try:
            status, told = refused("--kernel", "none.deb", "/nonexistent", missing=lambda: [], is_root=lambda: True)
        finally:
            tempfile.tempdir = kept
        equal((status, os.listdir(room)), (1, []))
        assert "/nonexistent" in told, told

