"""Tests of lockd-register."""

import socket
import time

from stand_ins import TCP, UDP, Cut, Mapper, StandIn, Trickle, marked, mute, opaque, success, words, xid_of
from tried import cases, equal, run, test

VERSIONS = (1, 3, 4)
LOCKS = {(100021, version, TCP): 4045 for version in VERSIONS}
OWN = {**LOCKS, (100024, 1, TCP): 4045}
ENDED = "the port mapper ended the connection before its answer was whole"
OTHERS = {(100003, 3, TCP): 2049, (100021, 2, UDP): 77}


def register(answer, *arguments):
    with StandIn(answer) as server:
        return run("lockd-register", *arguments, "--portmapper", server.place)


def refusal(answer, *arguments):
    """What is told of a fault, without the program's name and the line end."""
    status, _, told = register(answer, *arguments)
    equal((status, told[:16], told[-1:]), (1, "lockd-register: ", "\n"))
    return told[16:-1]


@test
def set_default():
    mapper = Mapper(OTHERS)
    locks = "".join(f"set program 100021 version {version} over TCP at port 4045\n" for version in VERSIONS)
    told = f"{locks}set program 100024 version 1 over TCP at port 4045\n"
    equal(register(mapper, "set", "--port", "4045"), (0, told, ""))
    equal(mapper.kept, {**OTHERS, **OWN})


@test
def set_all():
    mapper = Mapper()
    asked = ["set", "--port", "9", "--nsm-port", "10", "--notify-port", "11", "--versions", "3,4"]
    equal(register(mapper, *asked)[0], 0)
    locks = {(100021, version, TCP): 9 for version in (3, 4)}
    equal(mapper.kept, {**locks, (100024, 1, TCP): 10, (100024, 1, UDP): 11})


@test
def set_replaces():
    mapper = Mapper({key: 1 for key in OWN})
    equal(register(mapper, "set", "--port", "4045")[0], 0)
    equal(mapper.kept, OWN)


@test
def set_keeps():
    mapper = Mapper({(100024, 1, TCP): 1, **OTHERS})
    told = refusal(mapper, "set", "--port", "4045", "--keep")
    equal(told, "program 100024 version 1 over TCP stands at port 1 already")
    equal(mapper.kept, {**OTHERS, **LOCKS, (100024, 1, TCP): 1})


@test
def set_of_another():
    mapper = Mapper({(100021, 4, TCP): 1}, locked=[(100021, 4, TCP)])
    told = refusal(mapper, "set", "--port", "4045")
    equal(told, "program 100021 version 4 over TCP still stands at port 1; the port mapper keeps it for somebody else")
    equal(mapper.kept, {(100021, 4, TCP): 1})


@test
def beside_another():
    udp = {(100021, 4, UDP): 77}
    mapper = Mapper(udp, locked=udp)
    equal(register(mapper, "set", "--port", "4045")[0], 0)
    equal(mapper.kept, {**udp, **OWN})
    equal(register(mapper, "unset")[0], 0)
    equal(mapper.kept, udp)


@test
def set_refused():
    mapper = Mapper()
    mapper.set = lambda _key, _port: 0
    told = refusal(mapper, "set", "--port", "4045")
    equal(told, "the port mapper refused program 100021 version 1 over TCP at port 4045, though nothing stands there")


@test
def unset():
    mapper = Mapper({**OTHERS, **OWN, (100024, 1, UDP): 11})
    status, told, _ = register(mapper, "unset")
    equal((status, told.count("\n"), mapper.kept), (0, 5, OTHERS))
    equal(register(mapper, "unset")[0], 0)
    equal(mapper.kept, OTHERS)


@test
def unset_of_another():
    mapper = Mapper({**OWN, (100024, 1, UDP): 11}, locked=[(100024, 1, UDP)])
    told = refusal(mapper, "unset")
    equal(told, "program 100024 version 1 over UDP still stands at port 11; the port mapper keeps it for somebody else")


@test
def no_port_mapper():
    with socket.create_server(("127.0.0.1", 0)) as closed:
        place = "127.0.0.1:%d" % closed.getsockname()[1]
    told = f"lockd-register: the port mapper at {place}: Connection refused\n"
    equal(run("lockd-register", "unset", "--portmapper", place), (1, "", told))


@cases(
    mute=(mute,),
    empty_fragments=(lambda _: words(0, 0, 0),),
    trickle=(lambda record: Trickle(marked(success(xid_of(record), 1))),),
)
def late(answer):
    begun = time.monotonic()
    told = refusal(answer, "unset", "--timeout", "0.4")
    assert told.endswith("was not done within 0.4 s"), told
    assert time.monotonic() - begun < 3


@cases(
    other_xid=(lambda xid: marked(success(xid ^ 1, 1)), "the port mapper's answer is not to what was asked"),
    call=(lambda xid: marked(words(xid, 0, 0, 0, 0, 0, 1)), "the port mapper's answer is not to what was asked"),
    denied=(lambda xid: marked(words(xid, 1, 1, 1, 5)), "the port mapper denied the call"),
    no_program=(lambda xid: marked(words(xid, 1, 0, 0, 0, 1)), "the port mapper has no program 100000"),
    no_version=(lambda xid: marked(words(xid, 1, 0, 0, 0, 2, 3, 4)), "the port mapper has no version 2"),
    no_procedure=(lambda xid: marked(words(xid, 1, 0, 0, 0, 3)), "the port mapper has no such procedure"),
    garbage_arguments=(lambda xid: marked(words(xid, 1, 0, 0, 0, 4)), "the port mapper could not read the arguments"),
    system_error=(lambda xid: marked(words(xid, 1, 0, 0, 0, 5)), "the port mapper is at fault itself"),
    other_status=(lambda xid: marked(words(xid, 1, 0, 0, 0, 6)), "the port mapper answered status 6"),
    neither=(lambda xid: marked(success(xid, 2)), "the port mapper answered 2 for yes or no"),
    behind=(lambda xid: marked(success(xid, 1, 1)), "the port mapper's answer goes on behind its end"),
    short=(lambda xid: marked(success(xid)), "the port mapper's answer is cut short"),
    empty=(lambda xid: marked(b""), "the port mapper's answer is cut short"),
    verifier=(
        lambda xid: marked(words(xid, 1, 0, 0) + opaque(bytes(401)) + words(0, 1)),
        "the port mapper's answer has a verifier of more than 400 bytes",
    ),
    cut=(lambda xid: Cut(marked(success(xid, 1))[:-1]), ENDED),
    ended=(lambda xid: Cut(), ENDED),
    long=(lambda xid: words(1 << 31 | 65_537), "the port mapper's answer is longer than 65536 bytes"),
    long_sum=(lambda xid: words(4, xid, 1 << 31 | 65_533), "the port mapper's answer is longer than 65536 bytes"),
)
def wrong_answer(answer, told):
    equal(refusal(lambda record: answer(xid_of(record)), "set", "--port", "1"), told)


@cases(
    fragments=(lambda reply: words(0, 4) + reply[:4] + words(0, 3) + reply[4:7] + marked(reply[7:]),),
    verifier=(lambda reply: marked(reply[:12] + words(9) + opaque(b"abcde") + reply[20:]),),
)
def right_answer(spelled):
    mapper = Mapper()
    equal(register(lambda record: spelled(mapper(record)[4:]), "set", "--port", "4045")[0], 0)
    equal(mapper.kept, OWN)


@cases(
    nothing=("",),
    no_port=("set",),
    port_zero=("set --port 0",),
    port_high=("set --port 65536",),
    port_sign=("set --port +1",),
    port_short=("set --por 1",),
    port_of_unset=("unset --port 1",),
    keep_of_unset=("unset --keep",),
    version_two=("set --port 1 --versions 2",),
    version_twice=("set --port 1 --versions 4,4",),
    no_place=("unset --portmapper 111",),
    no_host=("unset --portmapper []:111",),
    dots=("unset --portmapper a..b:111",),
    no_seconds=("unset --timeout 0",),
    endless=("unset --timeout nan",),
    notify_port_of_unset=("unset --notify-port 1",),
    other=("reset",),
)
def refused_words(asked):
    status, told, fault = run("lockd-register", *asked.split())
    equal((status, told, fault[:16]), (2, "", "lockd-register: "))
