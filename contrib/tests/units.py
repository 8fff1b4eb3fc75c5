"""Tests of what the programs say of themselves, and of the units."""

import re

from tried import CONTRIB, cases, equal, run, test

COMMANDS = CONTRIB.parent / "crates/config/specs/Lockd.antt"


@cases(
    lockctl=("lockctl", "hex:6162 for its bytes"),
    register=("lockd-register", "default: all three"),
)
def helps(program, told):
    status, text, _ = run(program, "--help")
    equal(status, 0)
    assert told in " ".join(text.split()), text


def command(unit, key):
    """The options of a unit's command, with their values; an empty one where an option has none."""
    text = (CONTRIB / unit).read_text().replace("\\\n", "")
    line = re.search(rf"^{key}=-?(.*)$", text, re.MULTILINE)[1]
    return {option: value for option, value in re.findall(r"(--[a-z-]+)(?: ([^- ]\S*))?", line)}


def option_names(kinds):
    """The names of the options of `serve` of these kinds."""
    serve_rules = re.split(r"^serve_rules =", COMMANDS.read_text(), flags=re.MULTILINE)[1].split("\n\n")[0]
    return sorted("--" + name for name in re.findall(rf'(?:{kinds})_rule \(codes "([a-z-]+)"\)', serve_rules))


@test
def lockctl_asks_at_the_ports_of_the_unit():
    serve, (_, text, _) = command("lockd.service", "ExecStart"), run("lockctl", "--help")
    for option, told in (("--port", "the port for calls"), ("--local-port", "the port for lines")):
        assert f"{option} N {told} (default: {serve[option]})" in " ".join(text.split()), text


@test
def unit_gives_what_serve_needs():
    serve = command("lockd.service", "ExecStart")
    equal(sorted(option for option, value in serve.items() if not value), [one for one in option_names("flag") if one in serve])
    equal([one for one in option_names("needed") if one not in serve], [])
    equal([one for one in serve if one not in option_names("needed|value|default|flag")], [])


@test
def unit_registers_its_notices():
    serve = command("lockd.service", "ExecStart")
    assert "--register" in serve and "--notify-port" in serve, serve
