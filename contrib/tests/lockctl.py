"""Tests of lockctl: over a daemon that stands in, and over the program where it is built."""

import contextlib
import json
import os
import signal
import subprocess
import time
from unittest import mock

import starts
from stand_ins import Cut, LineStandIn, PageStandIn, StandIn, Trickle, marked, mute, opaque, page, success, words, xid_of
from tried import CONTRIB, cases, equal, run, test

# A host's locks, one of them to the end of the file, a process's and an open file description's; the host's name is `client`.
CLIENT = "h636c69656e74/7/6f6e65"
TABLE = [
    f"01020304 w 0 9 {CLIENT}",
    f"01020304 r 20 9223372036854775807 {CLIENT}",
    "01020304 w 10 10 p42",
    "0a0b r 5 18 d18446744073709551615",
]
HOSTS = ["636c69656e74 5 -3 65536", "6f74686572 3 0 100"]
LOCKS = """\
FILE      MODE   FIRST  LAST  KIND         HOLDER                SVID  OH
01020304  write      0     9  host         client                   7  one
01020304  read      20   end  host         client                   7  one
01020304  write     10    10  process      42                       -  -
0a0b      read       5    18  description  18446744073709551615     -  -
"""
HELD = """\
FILE      MODE   FIRST  LAST  KIND  HOLDER  SVID  OH
01020304  write      0     9  host  client     7  one
01020304  read      20   end  host  client     7  one
"""
OF_FILE = """\
FILE  MODE  FIRST  LAST  KIND         HOLDER                SVID  OH
0a0b  read      5    18  description  18446744073709551615     -  -
"""
LEFT = """\
FILE      MODE   FIRST  LAST  KIND  HOLDER  SVID  OH
01020304  write      0     9  host  client     7  one
"""
LOST = """\
FILE      MODE  FIRST  LAST  KIND  HOLDER  SVID  OH
01020304  read     20   end  host  client     7  one
"""


class Daemon:
    """What stands in for lockd: its lines, FREE_ALL and SM_STAT. What FREE_ALL drops is the host's, unless it keeps it."""

    def __init__(self, table=TABLE, hosts=HOSTS, getlk=b"free\n", keeps=()):
        self.table = list(table)
        self.hosts = list(hosts)
        self.getlk = getlk
        self.keeps = keeps
        self.freed = []

    def line(self, asked):
        lists = {b"table\n": self.table, b"hosts\n": self.hosts}
        if asked in lists:
            return "".join(line + "\n" for line in [*lists[asked], "end"]).encode()
        return {b"getlk p0 00 r 0 1\n": self.getlk, b"stop\n": b"ok\n"}[asked]

    def call(self, record):
        head, arguments = record[4:40], record[40:]
        if head == words(0, 2, 100024, 1, 1, 0, 0, 0, 0):
            return marked(success(xid_of(record), 0, 5))
        equal(head, words(0, 2, 100021, 4, 23, 0, 0, 0, 0))
        size = xid_of(arguments)
        name = arguments[4 : 4 + size]
        equal(arguments, opaque(name) + words(0))
        self.freed.append(name)
        self.table = [line for line in self.table if f" h{name.hex()}/" not in line or line in self.keeps]
        return marked(success(xid_of(record)))


@contextlib.contextmanager
def ports(line, call):
    """The options of two servers that stand in."""
    with LineStandIn(line) as local, StandIn(call) as rpc:
        yield ["--local-port", local.place.split(":")[1], "--port", rpc.place.split(":")[1]]


def asked(daemon, text):
    """What the program comes to over this daemon."""
    with ports(daemon.line, daemon.call) as options:
        return run("lockctl", *options, *text.split())


def answered(line, text="locks"):
    """What it comes to where each line is answered by this. What isn't answered in time ends soon."""
    seconds = "0.3" if line == b"" or isinstance(line, Trickle) else "5"
    with ports(lambda _: line, mute) as options:
        return run("lockctl", "--timeout", seconds, *options, *text.split())


def told(found, status, *parts):
    """Nothing on standard output, and one line on standard error with these parts."""
    equal(found[:2], (status, ""))
    assert found[2].startswith("lockctl: ") and all(part in found[2] for part in parts), found[2]


# ---- locks, hosts, status, top


@cases(
    all=("", LOCKS),
    of_host=("--host client", HELD),
    of_file=("--file 0A0B", OF_FILE),
    of_both=("--file 0a0b --host hex:636c69656e74", "no locks\n"),
)
def lockctl_locks(options, wanted):
    equal(asked(Daemon(), f"locks {options}"), (0, wanted, ""))


@cases(
    locks=("locks", "no locks\n"),
    hosts=("hosts", "no hosts\n"),
    locks_json=("locks --json", "[]\n"),
    hosts_json=("hosts --json", "[]\n"),
)
def lockctl_nothing(text, wanted):
    equal(asked(Daemon((), ()), text), (0, wanted, ""))


@test
def lockctl_locks_json():
    status, text, fault = asked(Daemon(TABLE[1:3]), "locks --json")
    equal((status, fault), (0, ""))
    host = {"host": "client", "host_hex": "636c69656e74", "svid": 7, "oh": "one", "oh_hex": "6f6e65", "number": None}
    nobody = dict.fromkeys(("host", "host_hex", "svid", "oh", "oh_hex"))
    head = {"file": "01020304"}
    equal(
        json.loads(text),
        [
            {**head, "mode": "read", "first": 20, "last": None, "kind": "host", **host},
            {**head, "mode": "write", "first": 10, "last": 10, "kind": "process", **nobody, "number": 42},
        ],
    )
    equal(list(json.loads(text)[1]), ["file", "mode", "first", "last", "kind", *nobody, "number"])


@cases(
    not_utf8=(b"\xff\xfea", "\\xff\\xfea(hex:fffe61)", None),
    control=(b"a\x1b[2J\n\x00", "a\\x1b[2J\\n\\x00(hex:611b5b324a0a00)", None),
    right_to_left=("a\u202eb".encode(), "a\\u202eb(hex:61e280ae62)", None),
    space=(b"a b", "a\\x20b(hex:612062)", "a b"),
    like_hex=(b"hex:61", "hex:61(hex:6865783a3631)", "hex:61"),
    empty=(b"", "(hex:)", ""),
    accents=("é7".encode(), "é7", "é7"),
)
def lockctl_name(name, shown, text):
    daemon = Daemon([f"01 r 0 0 h{name.hex()}/-1/{name.hex()}"], [f"{name.hex()} 5 0 7"])
    equal(asked(daemon, "locks")[1].splitlines()[1].split(), ["01", "read", "0", "0", "host", shown, "-1", shown])
    found = json.loads(asked(daemon, f"locks --json --host hex:{name.hex()}")[1])
    equal([(one["host"], one["host_hex"], one["oh"]) for one in found], [(text, name.hex(), text)])
    equal(asked(daemon, "hosts")[1].splitlines()[1].split()[0], shown)


@test
def lockctl_name_of_raw_bytes():
    daemon = Daemon(["01 r 0 0 hff/1/"])
    with ports(daemon.line, daemon.call) as options:
        told = subprocess.run([CONTRIB / "lockctl", *options, b"locks", b"--host", b"\xff"], capture_output=True, timeout=30)
    equal((told.returncode, told.stdout.count(b"\n"), told.stderr), (0, 2, b""))


TABLE_OF_HOSTS = """\
HOST    EPOCH  SEEN  QUOTA  LOCKS  HEARD
client      5    -3  65536      2  yes
other       3     0    100      0  no
"""


@test
def lockctl_hosts():
    equal(asked(Daemon(), "hosts"), (0, TABLE_OF_HOSTS, ""))
    client, other = json.loads(asked(Daemon(), "hosts --json")[1])
    numbers = {"epoch": 5, "seen": -3, "quota": 65536, "locks": 2, "heard": True}
    equal(client, {"host": "client", "host_hex": "636c69656e74", **numbers})
    equal((other["host"], other["heard"]), ("other", False))


@cases(mute=(mute,), other_results=(lambda record: marked(success(xid_of(record), 0)),), closed=(lambda _: Cut(b""),))
def lockctl_hosts_without_own_state(call):
    with ports(Daemon().line, call) as options:
        text = run("lockctl", *options, "--timeout", "1", "hosts")[1]
        found = json.loads(run("lockctl", *options, "--timeout", "1", "hosts", "--json")[1])
    equal([line.split()[-1] for line in text.splitlines()], ["HEARD", "?", "?"])
    equal([one["heard"] for one in found], [None, None])


@cases(no=(False, b"free\n"), of_a_lock=(False, b"held w 0 1 p1\n"), yes=(True, b"grace\n"))
def lockctl_status(grace, answer):
    with ports(Daemon(getlk=answer).line, mute) as options:
        found = run("lockctl", *options, "status")
        as_json = run("lockctl", "status", "--json", *options)
    said = "yes" if grace else "no"
    wanted = f"lockd answers at 127.0.0.1:{options[1]}\ngrace: {said}\nlocks: 4\nfiles: 2\nhosts: 2\n"
    equal(found, (0, wanted, ""))
    equal((as_json[0], json.loads(as_json[1])), (0, {"answers": True, "grace": grace, "locks": 4, "files": 2, "hosts": 2}))


@test
def lockctl_status_with_pages():
    said = page(json.dumps({"waiters": 3, "version": "1.2", "runs": 4}).encode())
    with PageStandIn(lambda _: said) as status:
        at = status.place.split(":")[1]
        text = asked(Daemon(), f"status --status-port {at}")[1]
        as_json = json.loads(asked(Daemon(), f"status --json --status-port {at}")[1])
    equal(text.splitlines()[-2:], ["waiters: 3", "version: 1.2"])
    equal((as_json["waiters"], as_json["version"]), (3, "1.2"))
    told(asked(Daemon(), f"status --status-port {starts.free_port()}"), 1, "Connection refused")
    with PageStandIn(lambda _: page(b"{}")) as status:
        told(asked(Daemon(), f"status --status-port {status.place.split(':')[1]}"), 1, "none of lockd")


@cases(mute=(b"",), closed=(Cut(b""),), garbage=(b"HTTP/1.1 400\n",), starved=(b"starved\n",))
def lockctl_status_of_no_daemon(answer):
    told(answered(answer, "status"), 3, "127.0.0.1:")
    status, text, _ = answered(answer, "status --json")
    equal((status, json.loads(text)), (3, {"answers": False, **dict.fromkeys(("grace", "locks", "files", "hosts"))}))


SCREEN = """\
4 locks, 2 files, 1 host with locks
LOCKS  READ  WRITE  OWNERS  FILE
    3     1      2       2  01020304
    1     1      0       1  0a0b
"""


@test
def lockctl_top_once():
    equal(asked(Daemon(), "top --once"), (0, SCREEN, ""))
    equal(asked(Daemon(()), "top --once"), (0, "0 locks, 0 files, 0 hosts with locks\nLOCKS  READ  WRITE  OWNERS  FILE\n", ""))


@test
def lockctl_top_until_it_is_interrupted():
    with ports(Daemon().line, mute) as options:
        words = [CONTRIB / "lockctl", *options, "top", "--seconds", "0.1"]
        with subprocess.Popen(words, stdout=subprocess.PIPE, stderr=subprocess.PIPE, text=True) as top:
            lines = [top.stdout.readline() for _ in range(8)]
            top.send_signal(signal.SIGINT)
            _, fault = top.communicate(timeout=10)
    equal(("".join(lines), top.returncode, fault), (SCREEN * 2, 0, ""))


# ---- waiters

NOBODY = dict.fromkeys(("host", "host_hex", "svid", "oh", "oh_hex", "number"))
OF_CLIENT = {"host": "client", "host_hex": "636c69656e74", "svid": 7, "oh": "one", "oh_hex": "6f6e65", "number": None}
FIRST_LOCK = {"file": "01020304", "mode": "write", "first": 0, "last": 9, "kind": "host", **OF_CLIENT}
WAITS = [
    {"file": "01020304", "mode": "read", "first": 5, "last": None, "kind": "process", **NOBODY, "number": 42}
    | {"waits_seconds": 61, "in_way": FIRST_LOCK},
    {"file": "0a0b", "mode": "write", "first": 0, "last": 18, "kind": "host", **OF_CLIENT, "svid": -1}
    | {"oh": None, "oh_hex": "00ff", "waits_seconds": 0, "in_way": None},
]
WAITERS = """\
FILE      MODE   FIRST  LAST  KIND     WAITER  SVID  OH                  SECONDS  BEHIND
01020304  read       5   end  process  42         -  -                        61  host client 7 one
0a0b      write      0    18  host     client    -1  \\x00\\xff(hex:00ff)        0  -
"""
WAITER_LINES = WAITERS.splitlines()


def waiters(answer, *options, seconds="5"):
    """What `waiters` comes to where the status port answers so, and what it was asked."""
    with PageStandIn(lambda _: answer) as status:
        at = status.place.split(":")[1]
        return run("lockctl", "waiters", "--status-port", at, "--timeout", seconds, *options), status.records


@cases(
    all=((), WAITERS.split("\n")[1:3]),
    of_host=(("--host", "client"), WAITER_LINES[2:]),
    of_file=(("--file", "01020304"), WAITER_LINES[1:2]),
)
def lockctl_waiters(options, wanted):
    (status, text, fault), asked = waiters(page(json.dumps(WAITS).encode()), *options)
    equal((status, fault), (0, ""))
    equal([line.split() for line in text.splitlines()], [WAITER_LINES[0].split(), *(line.split() for line in wanted)])
    equal(asked, [b"GET /waiters.json HTTP/1.0\r\n\r\n"])


# Those on 0a0b are two, and a file without a lock is waited for, too, as where a quota is in the way.
WAITED = """\
4 locks, 3 files, 1 host with locks, 4 waiters
WAITERS  LOCKS  READ  WRITE  OWNERS  FILE
      2      1     1      0       1  0a0b
      1      3     1      2       2  01020304
      1      0     0      0       0  ff
"""


@test
def lockctl_top_by_waiters():
    waits = [*WAITS, WAITS[1], WAITS[1] | {"file": "ff"}]
    with PageStandIn(lambda _: page(json.dumps(waits).encode())) as status:
        at = status.place.split(":")[1]
        equal(asked(Daemon(), f"top --once --status-port {at}"), (0, WAITED, ""))
    told(asked(Daemon(), f"top --once --status-port {starts.free_port()}"), 1, "Connection refused")


@test
def lockctl_waiters_table():
    equal(waiters(page(json.dumps(WAITS).encode()))[0], (0, WAITERS, ""))
    equal(waiters(page(b"[]"))[0], (0, "nobody waits\n", ""))
    equal(waiters(page(json.dumps(WAITS).encode()), "--file", "ff")[0], (0, "nobody waits\n", ""))


@test
def lockctl_waiters_json():
    equal(waiters(page(b"[]"), "--json")[0], (0, "[]\n", ""))
    (status, text, fault), _ = waiters(page(json.dumps(WAITS).encode()), "--json")
    equal((status, fault), (0, ""))
    equal(json.loads(text), WAITS)
    equal(list(json.loads(text)[0])[-3:], ["number", "waits_seconds", "in_way"])


@cases(
    mute=(b"", "closed the connection"),
    slow=(Trickle(page(b"[]")), "within 0.3 s"),
    cut=(page(b"[]")[:-1], "closed the connection before its answer was whole"),
    garbage=(b"ok\r\n\r\n", "sent what is no page of lockd"),
    endless=(b"a" * 9000, "sent more than 8192 bytes without an end"),
    starved=(page(b"", b"503 Service Unavailable"), "answered /waiters.json by status 503"),
    no_json=(page(b"[}"), "that is no JSON"),
    no_list=(page(b"3"), "a list of waiters that is none of lockd"),
    no_rows=(page(b"[{}]"), "a list of waiters that is none of lockd"),
    no_row=(page(b"[[]]"), "a list of waiters that is none of lockd"),
)
def lockctl_waiters_bad_answer(answer, part):
    told(waiters(answer, seconds="0.3" if isinstance(answer, Trickle) else "5")[0], 1, part)


@test
def lockctl_waiters_without_status_port():
    found = run("lockctl", "waiters", "--status-port", str(starts.free_port()))
    told(found, 1, "Connection refused: look whether lockd runs", "listens there (--status-port)")
    with PageStandIn(lambda _: page(b"[]")) as status:
        with mock.patch.dict(os.environ, {"LOCKD_STATUS_PORT": status.place.split(":")[1]}):
            equal(run("lockctl", "waiters"), (0, "nobody waits\n", ""))


# ---- quota, release, stop


@cases(
    ok=(b"ok\n", (0, "ok: from now on client may have 1000 locks\n", "")),
    absent=(b"absent\n", (1, "", "lockctl: absent: the daemon has no row of client: look at `lockctl hosts` for the names\n")),
    refused=(b"refused\n", (1, "", "lockctl: refused: the database refused: look at its disk and at the journal of lockd\n")),
)
def lockctl_quota(answer, wanted):
    with LineStandIn(lambda _: answer) as local:
        found = run("lockctl", "quota", "client", "1000", "--local-port", local.place.split(":")[1])
    equal(found, wanted)
    equal(local.records, [b"quota 636c69656e74 1000\n"])


TOO = "its waits and shares, if any, were dropped too; no answer of the daemon shows them\n"
RELEASED = f"client holds 2 locks on 1 file:\n{HELD}client lost 2 locks on 1 file:\n{HELD}{TOO}"


def with_terminal(daemon, typed, *command):
    """What it comes to where this is typed, or None where nothing is."""
    terminal, side = os.openpty()
    with ports(daemon.line, daemon.call) as options, open(terminal, "wb", buffering=0) as keys, open(side) as stdin:
        keys.write(typed)
        done = subprocess.run(
            [CONTRIB / "lockctl", *options, *command], stdin=stdin, capture_output=True, text=True, timeout=30
        )
    return done.returncode, done.stdout, done.stderr


WARNING = "A host that still runs goes on as if it had its locks, and another may get them too.\n"
PROMPT = "Drop all locks, waits and shares of client? [yes/no] "


@test
def lockctl_release_by_script():
    daemon = Daemon()
    equal(asked(daemon, "release client --yes"), (0, RELEASED, ""))
    equal((daemon.freed, daemon.table), ([b"client"], TABLE[2:]))


@test
def lockctl_release_on_a_terminal():
    daemon = Daemon()
    at = RELEASED.index("client lost")
    equal(with_terminal(daemon, b"yes\n", "release", "client"), (0, RELEASED[:at] + WARNING + RELEASED[at:], PROMPT))
    equal((daemon.freed, daemon.table), ([b"client"], TABLE[2:]))


@cases(no=(b"no\n",), empty=(b"\n",), y=(b"y\n",), end=(b"\x04",), bytes=(b"\xff\n",))
def lockctl_release_that_is_not_agreed_to(typed):
    daemon = Daemon()
    wanted = f"client holds 2 locks on 1 file:\n{HELD}{WARNING}nothing was dropped\n"
    equal(with_terminal(daemon, typed, "release", "client"), (1, wanted, PROMPT))
    equal((daemon.freed, daemon.table), ([], TABLE))


@test
def lockctl_release_that_is_interrupted():
    daemon, (terminal, side) = Daemon(), os.openpty()
    with ports(daemon.line, daemon.call) as options, open(terminal, "wb"), open(side) as stdin:
        words = [CONTRIB / "lockctl", *options, "release", "client"]
        with subprocess.Popen(words, stdin=stdin, stdout=subprocess.PIPE, stderr=subprocess.PIPE, text=True) as asking:
            equal(asking.stderr.read(len(PROMPT)), PROMPT)
            asking.send_signal(signal.SIGINT)
            _, fault = asking.communicate(timeout=10)
    equal((asking.returncode, fault, daemon.freed), (130, "", []))


@test
def lockctl_release_without_terminal():
    words = [CONTRIB / "lockctl", "release", "client"]
    done = subprocess.run(words, stdin=subprocess.DEVNULL, capture_output=True, text=True, timeout=30)
    told((done.returncode, done.stdout, done.stderr), 2, "on a terminal, or with --yes")


@test
def lockctl_release_of_a_host_that_is_unknown():
    daemon = Daemon()
    found = asked(daemon, "release hex:ff00 --yes")
    name = "\\xff\\x00(hex:ff00)"
    wanted = f"{name} holds no locks\nthe daemon has no row of {name}: is the name right?\n{name} lost no locks\n{TOO}"
    equal(found, (0, wanted, ""))
    equal((daemon.freed, daemon.table), ([b"\xff\0"], TABLE))


@test
def lockctl_release_of_a_host_without_row():
    equal(asked(Daemon(hosts=()), "release client --yes"), (0, RELEASED, ""))


@test
def lockctl_release_that_leaves_locks():
    status, text, fault = asked(Daemon(keeps=TABLE[:1]), "release client --yes")
    one = "1 lock on 1 file"
    held = f"client holds 2 locks on 1 file:\n{HELD}"
    equal((status, text), (1, f"{held}client lost {one}:\n{LOST}{TOO}client still holds {one}:\n{LEFT}"))
    assert "or another daemon has this --port" in fault, fault


@cases(
    mute=(mute, "no answer from"),
    closed=(lambda _: Cut(b""), "closed the connection"),
    garbage=(lambda _: b"HTTP/1.1 400 Bad Request\r\n", "sent a record of more than 8192 bytes"),
    other_number=(lambda _: marked(success(7)), "not to what was asked"),
    denied=(lambda record: marked(record[:4] + words(1, 1, 0, 2, 2)), "denied the call"),
    no_program=(lambda record: marked(record[:4] + words(1, 0, 0, 0, 1)), "has no such program"),
    starved=(lambda record: marked(record[:4] + words(1, 0, 0, 0, 5)), "for want of memory"),
    unknown=(lambda record: marked(record[:4] + words(1, 0, 0, 0, 9)), "answered status 9"),
    cut=(lambda record: marked(record[:4] + words(1, 0, 0, 0)), "cut short"),
    zeros=(lambda _: bytes(80), "sent an empty fragment"),
    long_verifier=(lambda record: marked(record[:4] + words(1, 0, 0, 99, 0)), "cut short"),
)
def lockctl_release_refused(call, part):
    with ports(Daemon().line, call) as options:
        status, _, fault = run("lockctl", *options, "--timeout", "1", "release", "client", "--yes")
    equal(status, 1)
    assert part in fault and "(--address, --port); `lockctl locks` shows whether it was done" in fault, fault


@test
def lockctl_release_in_pieces():
    daemon = Daemon()

    def in_fragments(record):
        reply = daemon.call(record)[4:]
        return words(5) + reply[:5] + marked(reply[5:])

    with ports(daemon.line, in_fragments) as options:
        equal(run("lockctl", *options, "release", "client", "--yes"), (0, RELEASED, ""))


@test
def lockctl_stop():
    equal(asked(Daemon(), "stop"), (0, "ok: the daemon ends\n", ""))
    told(answered(b"bad\n", "stop"), 1, "answered 'bad', which is no answer of lockd")
    told(answered(b"ok then\n", "stop"), 1, "answered 'ok then', which is no answer of lockd")


# ---- a daemon that is absent, mute, ends early or says something else


@cases(
    mute=(b"", "no answer from 127.0.0.1:"),
    slow=(Trickle(b"01 r 0 0 p1\nend\n"), "within 0.3 s"),
    closed=(Cut(b""), "closed the connection before its answer was whole"),
    cut=(Cut(b"01 r 0 0 p1\nen"), "closed the connection before its answer was whole"),
    limit=(Cut(b""), "as lockd does with more than 256: look whether"),
    garbage=(b"HTTP/1.1 400 Bad Request\r\n", "answered 'HTTP/1.1 400 Bad Request\\r'"),
    binary=(b"\x1b[2J\xff\n", "answered '\\x1b[2J\\xff'"),
    mode=(b"01 x 0 0 p1\n", "is no answer of lockd"),
    half_a_byte=(b"010 r 0 0 p1\n", "is no answer of lockd"),
    owner=(b"01 r 0 0 q1\n", "is no answer of lockd"),
    long_number=(b"01 r " + b"9" * 5000 + b" 0 p1\n", "'.., which is no answer"),
    endless=(b"0" * 9000, "a line of more than 8192 bytes"),
    starved=(b"starved\n", "has no memory for an answer"),
)
def lockctl_bad_answer(answer, part):
    told(answered(answer), 1, part)


@cases(
    locks=("locks",),
    hosts=("hosts",),
    status=("status",),
    top=("top --once",),
    quota=("quota a 1",),
    release=("release a --yes",),
    stop=("stop",),
)
def lockctl_absent_daemon(text):
    found = run("lockctl", *text.split(), "--local-port", str(starts.free_port()))
    told(found, 3 if text == "status" else 1, "Connection refused: look whether lockd runs", "listens there (--local-port)")


@test
def lockctl_place_of_calls():
    with LineStandIn(Daemon().line) as local:
        options = ["--local-port", local.place.split(":")[1], "--port", "1", "--address", "::1"]
        status, _, fault = run("lockctl", "release", "client", "--yes", *options)
    equal(status, 1)
    assert fault.startswith("lockctl: [::1]:1: "), fault


@test
def lockctl_ports_of_the_environment():
    daemon = Daemon()
    with ports(daemon.line, daemon.call) as options:
        ports_of = {"LOCKD_LOCAL_PORT": options[1], "LOCKD_PORT": options[3], "LOCKD_ADDRESS": "127.0.0.1"}
        with mock.patch.dict(os.environ, ports_of):
            equal(run("lockctl", "release", "client", "--yes"), (0, RELEASED, ""))
    with mock.patch.dict(os.environ, {"LOCKD_PORT": "70000"}):
        equal(run("lockctl", "locks"), (2, "", "lockctl: LOCKD_PORT: '70000': a port is 1 to 65535; see --help\n"))


@cases(gone=(None,), full=("/dev/full",))
def lockctl_output_that_cannot_be_written(path):
    read_end, write_end = os.pipe()
    os.close(read_end)
    with ports(Daemon().line, mute) as options, open(write_end, "wb") as broken, open(path or os.devnull, "wb") as full:
        words = [CONTRIB / "lockctl", *options, "locks"]
        done = subprocess.run(words, stdout=full if path else broken, stderr=subprocess.PIPE, text=True, timeout=30)
    equal((done.returncode, done.stderr), (1, "lockctl: standard output: No space left on device\n" if path else ""))


@cases(
    nothing=("",),
    other=("shares",),
    waiters_of_no_handle=("waiters --file 1",),
    status_port_zero=("waiters --status-port 0",),
    port_zero=("locks --port 0",),
    port_sign=("locks --local-port +1",),
    port_digits=("locks --port " + "1" * 5000,),
    short=("locks --js",),
    no_seconds=("locks --timeout 0",),
    endless=("top --seconds nan",),
    handle=("locks --file 012",),
    long_handle=("locks --file " + "00" * 65,),
    odd_name=("locks --host hex:616",),
    long_name=("locks --host " + "a" * 1025,),
    no_name=("release",),
    two_names=("release a b",),
    empty_quota=("quota hex: 1",),
    long_quota=("quota " + "a" * 241 + " 1",),
    quota_sign=("quota a -1",),
    quota_zeros=("quota a 01",),
    quota_past=("quota a 65537",),
    control=("locks \x1b[2J",),
    no_address=("locks --address a..b",),
    control_in_address=("locks --address \x1b[2J",),
    json_of_stop=("stop --json",),
)
def lockctl_refused_words(text):
    found = run("lockctl", *text.split())
    told(found, 2, "; see --help\n")
    assert found[2].rstrip("\n").isprintable(), found[2]


# ---- the program


def until_grace_is_over(options):
    end = time.monotonic() + 30
    while time.monotonic() < end:
        status, text, _ = run("lockctl", *options, "status", "--json")
        if status == 0 and not json.loads(text)["grace"]:
            return
        time.sleep(0.1)
    raise AssertionError("the grace period does not end")


def tries_the_program(options, port):
    until_grace_is_over(options)
    equal(starts.said_by(port, starts.LOCK), starts.GRANTED)
    head = "FILE      MODE   FIRST  LAST  KIND  HOLDER  SVID  OH\n"
    table = head + "01020304  write      0     9  host  a          7  A\n"
    equal(run("lockctl", *options, "locks"), (0, table, ""))
    equal(run("lockctl", *options, "waiters"), (0, "nobody waits\n", ""))
    equal(run("lockctl", *options, "quota", "a", "10")[0], 0)
    hosts = "HOST  EPOCH  SEEN  QUOTA  LOCKS  HEARD\na         1     3     10      1  yes\n"
    equal(run("lockctl", *options, "hosts"), (0, hosts, ""))
    held = f"1 lock on 1 file:\n{table}"
    equal(run("lockctl", *options, "release", "a", "--yes"), (0, f"a holds {held}a lost {held}{TOO}", ""))
    equal(run("lockctl", *options, "locks"), (0, "no locks\n", ""))
    equal(run("lockctl", *options, "stop"), (0, "ok: the daemon ends\n", ""))


def lockctl_over_the_program():
    with starts.room() as path:
        (path / "peers").write_text("a 127.0.0.1\n")
        port, local_port, status_port = starts.free_port(), starts.free_port(), starts.free_port()
        words = starts.serve_words(path, port=port, local_port=local_port, status_port=status_port, grace_seconds=1)
        server = subprocess.Popen([starts.PROGRAM, *words], stdout=subprocess.PIPE, stderr=subprocess.PIPE)
        try:
            equal(server.stdout.readline(), b"ready\n")
            places = ["--port", str(port), "--local-port", str(local_port), "--status-port", str(status_port)]
            tries_the_program(places, port)
            equal(server.communicate(timeout=starts.WAIT_SECONDS), (b"", b""))
            equal(server.returncode, 0)
        finally:
            server.kill()
            server.communicate()


if starts.PROGRAM.exists():
    test(lockctl_over_the_program)
