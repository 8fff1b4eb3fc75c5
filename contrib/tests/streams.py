"""Tests of what `streams` writes: records of one fragment, call by call."""

import struct
import subprocess

from tried import CONTRIB, cases, equal, test

NULL, TEST, LOCK, UNLOCK = 0, 1, 2, 4


def procedures(*words):
    """The procedure of each call of a stream, whose xids rise by one."""
    stream = subprocess.run([CONTRIB / "streams", *words], capture_output=True, check=True, timeout=30).stdout
    found = []
    while stream:
        mark, xid = struct.unpack(">2I", stream[:8])
        equal((mark >> 31, xid), (1, len(found) + 1))
        found.append(struct.unpack(">I", stream[24:28])[0])
        stream = stream[4 + (mark & 0x7FFF_FFFF) :]
    return found


@cases(
    null=("null", [NULL, NULL]),
    test=("test", [TEST, TEST]),
    lock=("lock", [LOCK, UNLOCK, LOCK, UNLOCK]),
    again=("again", [LOCK, LOCK]),
    more=("more", [LOCK, LOCK]),
)
def calls_of_a_stream(call, wanted):
    equal(procedures(call, "2"), wanted)


@cases(**{kind: (kind,) for kind in ("bytes", "owners", "own", "readers", "overlapping", "files")})
def runs_stand_first(kind):
    equal(procedures("--runs", "3", "--as", kind, "test", "1"), [LOCK, LOCK, LOCK, TEST])


@cases(each=("each", 4), one=("one", 3), asked=("asked", 3))
def waiters_stand_behind_who_holds(on, count):
    equal(procedures("--waiters", "2", "--on", on, "null", "1"), [LOCK] * count + [NULL])


@test
def unknown_calls_are_refused():
    done = subprocess.run([CONTRIB / "streams", "fly", "1"], capture_output=True, text=True, timeout=30)
    equal((done.returncode, done.stdout), (2, ""))
    assert "fly" in done.stderr, done.stderr
