"""The options of `check-api`, its annotations in a workflow of GitHub, and names and sources that mean something to one."""

from __future__ import annotations

import re

import pytest
from scratch import Scratch

VERDICT = "C9 lights.LightState"


def grow(scratch: Scratch) -> None:
    """Puts a field behind the last one, which nobody froze yet."""
    path = scratch.room / "hal/lights/LightState.aidl"
    path.write_text(re.sub(r"}\s*$", "    int fresh;\n}\n", path.read_text()))


def test_frozen(scratch):
    came = scratch.job("--frozen", "hal", "api", "base")
    assert came.status == 0 and came.says("\nhal is what api/2 has, type by type\n"), came


def test_frozen_of_other_words_for_the_same(scratch):
    """Comments, blanks and the text of a number are no difference."""
    path = scratch.room / "hal/lights/LightState.aidl"
    path.write_text("// comment\n" + path.read_text().replace(";", " ;"))
    assert scratch.job("--frozen", "hal", "api").status == 0


def test_what_is_not_frozen(scratch):
    grow(scratch)
    assert scratch.job("hal", "api", "base").status == 0
    came = scratch.job("--frozen", "hal", "api", "base")
    assert came.status == 1 and came.says("--- api/2/lights/LightState.aidl\n+++ hal/lights/LightState.aidl\n", "+  int fresh;\n", "hal isn't what api/2 has"), came
    assert came.says(f"{scratch.program} freeze hal api")
    (scratch.room / "hal/lights/New.aidl").write_text("package lights;\nparcelable New {\n}\n")
    came = scratch.job("--frozen", "hal", "api")
    assert came.status == 1 and came.says("--- /dev/null\n+++ hal/lights/New.aidl\n"), came


def test_what_is_not_frozen_and_breaks(scratch):
    scratch.tree(1)
    came = scratch.job("--frozen", "hal", "api")
    assert came.status == 1 and came.printed.endswith("none outside the wire\n"), came


def test_against(scratch):
    """The tree of a revision that isn't frozen is judged, and nothing is refused by it."""
    grow(scratch)
    scratch.commit()
    scratch.tree(2)
    came = scratch.job("--against", "main", "hal", "api", "base")
    wanted = f"note: aidl judge main:hal hal\nnote: {VERDICT} (field removed)\nnote: that is no verdict: main isn't frozen\n"
    assert came.status == 0 and came.says("ok 4 types\n" + wanted), came
    came = scratch.job("--against", "main", "hal", "api", "base", GITHUB_ACTIONS="true")
    assert came.status == 0 and came.says("::notice file=hal/lights/LightState.aidl,line=") and "::error" not in came.printed, came
    came = scratch.job("--against", "base", "hal", "api", "base")
    assert came.status == 0 and came.says("note: aidl judge base:hal hal\nnote: yes\nnote: nothing that isn't frozen breaks it\n"), came


def test_against_a_tree_that_is_faulty_or_not_there(scratch):
    (scratch.room / "hal/lights/Light.aidl").write_text("package lights;\nparcelable Light {\n    Colour c;\n}\n")
    scratch.commit()
    scratch.tree(2)
    came = scratch.job("--against", "main", "hal", "api")
    assert came.status == 0 and came.says("note: main:hal/lights/Light.aidl:39: E4 UnknownType\n"), came
    (scratch.room / "hal").rename(scratch.room / "new")
    came = scratch.job("--against", "main", "new", "api")
    assert came.status == 0 and came.says("note: main has no sources there\n"), came


@pytest.mark.parametrize("revision, said", [("", "REV is empty"), ("maim", "git knows no revision maim"), ("--all", "expected one argument")])
def test_against_what_is_no_revision(scratch, revision, said):
    came = scratch.job("hal", "api", "--against", revision)
    assert came.status == 2 and came.says(said), came


def test_a_report_where_nothing_breaks(scratch):
    grow(scratch)
    came = scratch.job("--report", "out/report", "hal", "api", "base")
    assert came.status == 0, came
    assert came.says("\nyes\nreport: new since api/2:\nreport: field lights.LightState.fresh, at hal/lights/LightState.aidl:", "report: out/report/report.md")
    assert "fresh" in (scratch.room / "out/report/report.md").read_text()


def test_a_report_where_something_breaks(scratch):
    scratch.tree(1)
    came = scratch.job("--report", "out", "hal", "api", "base")
    assert came.status == 1 and came.says("none outside the wire\nreport: 1 breaking change (1 line of the judge)\nreport: lights.LightState: "), came
    assert "C9" in (scratch.room / "out/report.md").read_text()


def test_a_report_that_can_not_be_written(scratch):
    """What is red stays red, and what is green is no green."""
    (scratch.room / "out").write_text("a file\n")
    came = scratch.job("--report", "out", "hal", "api")
    assert came.status == 2 and came.says("there can't be a folder out"), came
    scratch.tree(1)
    came = scratch.job("--report", "out", "hal", "api")
    assert came.status == 1 and came.says("no report could be made", "aidl judge api/2 hal ended with exit 1"), came


def test_annotations(scratch):
    scratch.tree(1)
    came = scratch.job("hal", "api", GITHUB_ACTIONS="true")
    assert came.status == 1, came
    found = [line for line in came.printed.splitlines() if line.startswith("::")]
    assert len(found) == 2 and found[1].startswith("::error::check-api: aidl judge api/2 hal ended with exit 1"), found
    assert re.fullmatch(rf"::error file=hal/lights/LightState.aidl,line=\d+,col=\d+::{VERDICT} \(field removed\)", found[0]), found
    assert "::" not in scratch.job("hal", "api").printed


def test_an_annotation_of_what_is_gone(scratch):
    """It is at what is around it, or else in the frozen version."""
    path = scratch.room / "hal/lights/ILights.aidl"
    path.write_text(re.sub(r"\n[^\n]*setState[^\n]*", "", path.read_text()))
    came = scratch.job("hal", "api", GITHUB_ACTIONS="true")
    assert re.search(r"^::error file=hal/lights/ILights.aidl,line=\d+,col=\d+::C3 lights.ILights.setState ", came.printed, re.M), came
    path.unlink()
    came = scratch.job("hal", "api", GITHUB_ACTIONS="true")
    assert re.search(r"^::error file=api/2/lights/ILights.aidl,line=\d+,col=\d+::C1 lights.ILights ", came.printed, re.M), came


def test_annotations_name_paths_from_the_top(scratch):
    """A step of a workflow may run in another folder than that of the checkout."""
    scratch.tree(1)
    (scratch.room / "bin").mkdir()
    came = scratch.job("../hal", "../api", folder="bin", GITHUB_ACTIONS="true", GITHUB_WORKSPACE=str(scratch.room))
    assert "::error file=hal/lights/LightState.aidl,line=" in came.printed, came
    (scratch.room / "hal/lights/Light.aidl").write_text("package lights;\nparcelable Light {\n    Colour c;\n}\n")
    came = scratch.job("../hal", "../api", folder="bin", GITHUB_ACTIONS="true", GITHUB_WORKSPACE=str(scratch.room))
    assert "::error file=hal/lights/Light.aidl,line=3,col=5::E4 UnknownType (no such type)\n" in came.printed, came


@pytest.mark.parametrize("name", ["a%0Ab", "a\n::stop-commands::x", "::error::x", "a\r::stop-commands::x"])
def test_names_are_no_commands_of_a_workflow(scratch, name):
    came = scratch.job("hal", name, "base", GITHUB_ACTIONS="true")
    found = [line for line in re.split("[\r\n]", came.printed + came.said) if line.startswith("::")]
    assert came.status == 1 and len(found) == 1, came
    assert found[0].startswith("::error::check-api: there is no folder " + name.replace("%", "%25").replace("\n", "%0A").replace("\r", "%0D")), came


def test_a_tree_whose_name_is_a_command_of_a_workflow(scratch):
    """The line of its fault begins with its name."""
    (scratch.room / "hal/lights/Light.aidl").write_text("package lights;\nparcelable Light {\n    Colour c;\n}\n")
    (scratch.room / "hal").rename(scratch.room / "::stop-commands::x")
    came = scratch.job("::stop-commands::x", "api", GITHUB_ACTIONS="true")
    assert came.status == 1 and came.says("\n ::stop-commands::x/lights/Light.aidl:3:5: E4 UnknownType"), came
    assert not [line for line in came.printed.splitlines() if line.startswith("::stop")], came


def test_sources_are_no_commands_of_a_workflow(scratch):
    """A line end within a comment, for a reader that ends lines there, and what turns a terminal red."""
    (scratch.room / "hal/lights/Light.aidl").write_bytes(b"package lights;\nparcelable Light { /* \r::stop-commands::x \x1b[31m */ Colour c; }\n")
    came = scratch.job("hal", "api", GITHUB_ACTIONS="true")
    assert came.status == 1 and came.says("E4 UnknownType", "    | parcelable Light {"), came
    assert not re.search("[\r\x1b]", came.printed), came
