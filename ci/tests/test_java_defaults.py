"""The warning of fields whose default Java doesn't have, which is no part of a verdict."""

from __future__ import annotations

import pytest
from scratch import Scratch

from aidl_ci.standins.java import declared, warned

SAYS = "{} has no default in Java; Android 14's own check refuses it"


@pytest.fixture
def scratch(tmp_path, program):
    return Scratch(tmp_path, program).fill(2)


def add(scratch: Scratch, field: str) -> None:
    path = scratch.room / "hal/lights/LightState.aidl"
    path.write_text(path.read_text().replace("String label;", "String label;\n    " + field))


def test_the_job_warns_and_stays_green(scratch):
    add(scratch, "String note;")
    came = scratch.job("hal", "api", "base")
    assert came.status == 0 and came.says("warning: " + SAYS.format("lights.LightState.note") + " (hal/lights/LightState.aidl:11)\n")
    came = scratch.job("hal", "api", "base", GITHUB_ACTIONS="true")
    assert came.says("::warning file=hal/lights/LightState.aidl,line=11,col=1::" + SAYS.format("lights.LightState.note"))


@pytest.mark.parametrize("field", ['String note = "";', "@nullable String note;", "int[] numbers = {};", "int number;", "@nullable List<String> notes;"])
def test_a_field_with_a_default_is_no_warning(scratch, field):
    add(scratch, field)
    came = scratch.job("hal", "api", "base")
    assert came.status == 0 and "warning" not in came.printed


def tree(room, text: str) -> dict:
    (room / "j").mkdir(parents=True)
    (room / "j/P.aidl").write_text("package j; " + text)
    return declared(str(room))


@pytest.mark.parametrize(
    "old, new, fields",
    [
        ("int a;", "int a; int[] b;", ["b"]),
        ("int a;", "int a; List<String> b; String[] c;", ["b", "c"]),
        ("int a;", "int a; int[3] b; ParcelableHolder c;", ["b", "c"]),
        ('String a = "";', "String a;", ["a"]),
        ("int[] a = {};", "int[] a;", ["a"]),
        ("String a;", "String a;", []),
        ("int a = 0;", "int a; float b;", []),
    ],
)
def test_which_fields_are_told(tmp_path, old, new, fields):
    trees = [tree(tmp_path / name, f"parcelable P {{ {text} }}") for name, text in (("old", old), ("new", new))]
    assert [said for said, _, _ in warned(*trees)] == [SAYS.format(f"j.P.{field}") for field in fields]


def test_a_new_type_and_a_union_are_no_warning(tmp_path):
    old, new = tree(tmp_path / "old", "union P { int a; }"), tree(tmp_path / "new", "union P { int a; String b; }")
    assert not list(warned(old, new)) and not list(warned({}, new))
