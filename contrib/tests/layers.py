"""Tests of crates.txt: each crate stands on crates of the layers above it, or of its own layer's lines above it, and the file lists
the folders that are there."""

from tried import CONTRIB, cases, equal, test

ROOT = CONTRIB.parent


def crates_of(text):
    """The crates in the order of the file, each with its layer and with what it stands on. A comment begins a layer, named by its
    words up to the first colon or full stop."""
    layer, crates = "", []
    for line in text.splitlines():
        if line.startswith("#"):
            layer = line.removeprefix("#").strip().split(":")[0].split(".")[0]
        elif line.strip():
            name, _, used = line.partition(":")
            crates.append((name.split()[0], layer, used.split()))
    return crates


def faults(text, folders):
    """What is wrong with the file beside these folders, a line each."""
    crates = crates_of(text)
    layers = {name: layer for name, layer, _ in crates}
    told, above = [], set()
    for name, layer, used in crates:
        if name in above:
            told.append(f"{name} is listed twice")
        if name not in folders:
            told.append(f"{name} has no folder")
        above.add(name)
        for other in used:
            # What is not of the repository is of the kit.
            if other not in layers or other in above - {name}:
                continue
            place = "itself" if other == name else f"{other}, which stands below it in {layers[other]!r}"
            told.append(f"{name} of {layer!r} uses {place}")
    return told + [f"the folder {name} is not listed" for name in sorted(set(folders) - above)]


@test
def crates_stand_on_layers_above():
    folders = [path.name for path in (ROOT / "crates").iterdir() if (path / "src").is_dir()]
    equal(faults((ROOT / "crates.txt").read_text(), folders), [])


LOW = "# Low: bytes.\nfirst: slab\nsecond: first\n\n# High.\n"


@cases(
    in_order=(LOW + "third: second first", "first second third", []),
    own_layer=("# Low.\nsecond: first\nfirst:", "first second", ["second of 'Low' uses first, which stands below it in 'Low'"]),
    later_layer=(
        "# Low.\nfirst: third\n# High.\nthird:",
        "first third",
        ["first of 'Low' uses third, which stands below it in 'High'"],
    ),
    itself=("# Low.\nfirst: first", "first", ["first of 'Low' uses itself"]),
    twice=("# Low.\nfirst:\nfirst:", "first", ["first is listed twice"]),
    no_folder=(LOW, "second", ["first has no folder"]),
    unlisted=(LOW, "first second third", ["the folder third is not listed"]),
)
def faults_of_layers_are_told(text, folders, wanted):
    equal(faults(text, folders.split()), wanted)
