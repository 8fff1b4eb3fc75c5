"""Tests of `plots`: the pictures in docs are those of the page's tables, and a page without a table draws none."""

import subprocess
import tempfile
from pathlib import Path

from tried import CONTRIB, equal, test

DOCS = CONTRIB.parent / "docs"
PICTURES = ["beside_locks.svg", "beside_waiters.svg", "connections.svg"]


def drawn(page):
    """Status, error lines, and each picture that is drawn from the page."""
    with tempfile.TemporaryDirectory() as room:
        (Path(room) / "BENCHMARKS.md").write_text(page)
        done = subprocess.run([CONTRIB / "plots", room], capture_output=True, text=True, timeout=30)
        pictures = {path.name: path.read_text() for path in Path(room).glob("*.svg")}
    return done.returncode, done.stderr, pictures


@test
def pictures_are_those_of_the_page():
    status, error, pictures = drawn((DOCS / "BENCHMARKS.md").read_text())
    equal((status, error, sorted(pictures)), (0, "", PICTURES))
    for name, picture in pictures.items():
        assert picture == (DOCS / name).read_text(), f"docs/{name} is another picture: run contrib/plots"


@test
def page_without_a_table_draws_nothing():
    page = (DOCS / "BENCHMARKS.md").read_text().replace("| Connections, calls at once of each |", "| Connections |")
    status, error, pictures = drawn(page)
    equal((status, pictures), (1, {}))
    assert "no table with the columns" in error, error


@test
def empty_cell_has_no_bar():
    page = (DOCS / "BENCHMARKS.md").read_text()
    row = "| 3, 7 | 0.25 | | 0.50 |\n"
    head = "| Connections, calls at once of each | NULL | TEST | LOCK and UNLOCK |\n|---|---|---|---|\n"
    assert head in page
    picture = drawn(page.replace(head, head + row))[2]["connections.svg"]
    before = drawn(page)[2]["connections.svg"]
    equal(picture.count("<rect") - before.count("<rect"), 2)
    assert ">3 connections, 7 at once<" in picture
