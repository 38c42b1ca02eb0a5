"""`try-calls`: it ends with 1 where a call is read otherwise or a line is refused, and with 0 where all are read as they were meant."""

from __future__ import annotations

import os
import pathlib
import subprocess
import sys

import pytest
from pairs import TOP, put, worked

TRY = TOP / "ci/try-calls"
SET = "package j; interface ILamp { void set(in int id, in j.State s); int mode(); void reset(); }"
OLD = [("o/j/ILamp.aidl", SET), ("o/j/State.aidl", "package j; parcelable State { int color; int onMs; j.Mode mode; }"), ("o/j/Mode.aidl", "package j; enum Mode { OFF, BOOT }")]


def tried(program: pathlib.Path, folder: pathlib.Path, *words) -> subprocess.CompletedProcess:
    return subprocess.run([sys.executable, TRY, *map(str, words)], cwd=folder, capture_output=True, check=False, timeout=300, text=True, env={**os.environ, "AIDL": str(program)})


def changed(*changes: tuple[str, str, str]) -> list[tuple[str, str]]:
    """The old files, and the new ones with some texts exchanged."""
    new = []
    for path, text in OLD:
        for name, before, after in changes:
            if path.endswith(f"/{name}.aidl"):
                assert before in text
                text = text.replace(before, after)
        new.append(("n" + path[1:], text))
    return OLD + new


BROKEN = [
    ("State", "int color; int onMs;", "int onMs; int color;", "old client, new service: j.ILamp.set: s.color: 3 was sent, 4 is seen; s.onMs: 4 was sent, 3 is seen"),
    ("Mode", "OFF, BOOT", "X, OFF, BOOT", 'old client, new service: j.ILamp.set: s.mode: "OFF" was sent, "X" is seen'),
    ("ILamp", "int mode();", "", "old client, new service: j.ILamp.reset: transport -74 UNKNOWN_TRANSACTION"),
    ("ILamp", "int mode();", "boolean mode();", "new client, old service: j.ILamp.mode, its reply: status -22 BAD_VALUE"),
    ("ILamp", "void reset();", "oneway void reset();", "old client, new service: j.ILamp.reset, its reply: none is sent"),
    ("ILamp", "int mode();", "long mode();", "new client, old service: j.ILamp.mode, its reply: status -61 NOT_ENOUGH_DATA"),
]


@pytest.mark.parametrize("name, before, after, told", BROKEN)
def test_a_break_is_told(program, tmp_path, name, before, after, told):
    put(tmp_path, changed((name, before, after)))
    came = tried(program, tmp_path, "o", "n")
    assert (came.returncode, came.stderr) == (1, "") and told in came.stdout.splitlines(), came.stdout


@pytest.mark.parametrize("name, before, after", [("State", "mode;", "mode; String more;"), ("Mode", "BOOT", "BOOT, LATE"), ("ILamp", "reset();", "reset(); void more(in int a);")])
def test_what_is_compatible_is_read_as_it_was_meant(program, tmp_path, name, before, after):
    put(tmp_path, changed((name, before, after)))
    came = tried(program, tmp_path, "o", "n")
    assert (came.returncode, came.stderr) == (0, "") and came.stdout.endswith(" calls, all are read as they were meant\n"), came.stdout


COMPATIBLE = [pytest.param(files, id=where) for where, files in worked() if any("interface" in text for _, text in files)]


@pytest.mark.parametrize("files", COMPATIBLE)
def test_nothing_is_told_of_a_pair_that_judge_accepts(program, tmp_path, files):
    put(tmp_path, files)
    judged = subprocess.run([program, "judge", "o", "n"], cwd=tmp_path, capture_output=True, check=False)
    if judged.stdout == b"yes\n" and all((tmp_path / one).is_dir() and list((tmp_path / one).rglob("*.aidl")) for one in "on"):
        came = tried(program, tmp_path, "o", "n")
        assert (came.returncode, came.stderr) == (0, ""), came.stdout


def test_a_calls_file_as_a_test(program, tmp_path):
    put(tmp_path, changed(("State", "int color; int onMs;", "int onMs; int color;")))
    calls = ['{"call":"j.ILamp.set","args":[1,{"color":255}]}', '{"call":"j.ILamp.mode","answer":{"return":4}}', '{"call":"j.ILamp.none"}', '{"call":"j.ILamp.set","args":[1,{"mode":"LOUD"}]}', "["]
    (tmp_path / "my.calls").write_text("\n".join(calls) + "\n")
    came = tried(program, tmp_path, "o", "n", "my.calls")
    assert came.returncode == 1 and came.stdout.splitlines() == [
        "line 3: refused, UnknownMethod at /call",
        "line 4: refused, UnknownEnumerator at /args/1/mode",
        "line 5: refused, NotJson at the line",
        "line 1: j.ILamp.set: s.color: 255 was sent, 0 is seen; s.onMs: 0 was sent, 255 is seen",
        "2 calls, 4 of them differ or are refused",
    ]


@pytest.mark.parametrize("client, service, calls", [("1", "3", "lights_old_to_new"), ("3", "1", "lights_new_to_old"), ("3", "3", "lights_new_to_old")])
def test_the_calls_files_of_the_examples(program, client, service, calls):
    came = tried(program, TOP, f"examples/lights/{client}", f"examples/lights/{service}", f"examples/calls/{calls}.calls")
    assert (came.returncode, came.stdout) == (0, "3 calls, all are read as they were meant\n")


@pytest.mark.parametrize("words", [(), ("o",), ("o", "n", "none.calls"), ("none", "n"), ("o", "n", "c", "d"), ("--what", "o", "n")])
def test_a_fault_of_its_own_ends_with_2(program, tmp_path, words):
    put(tmp_path, changed())
    assert tried(program, tmp_path, *words).returncode == 2


def test_help(program, tmp_path):
    assert tried(program, tmp_path, "--help").returncode == 0
