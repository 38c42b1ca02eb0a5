"""`stage` over pairs of trees in which two types or values look the same and aren't, or look different and are the same: each has in
`data/standins.pairs` what is true of it by construction."""

from __future__ import annotations

import os
import pathlib
import re
import subprocess
from dataclasses import dataclass, field
from typing import Optional

import pytest
from conftest import TOP

from aidl_ci.standins import stage
from aidl_ci.standins.lexer import Refused

PAIRS = pathlib.Path(__file__).parent / "data" / "standins.pairs"
FILE = re.compile(r"(old|new|both|import) (\S+): (.*)")


@dataclass
class Pair:
    """A pair of trees: what has to come of it, how Android 14's tool differs, and the files by folder and path."""

    name: str
    wanted: set[str] = field(default_factory=set)
    android: Optional[str] = None
    files: list[tuple[str, str, str]] = field(default_factory=list)

    def write(self, room: pathlib.Path) -> None:
        for folder in ("old", "new", "import"):
            (room / folder).mkdir(parents=True)
        for where, path, text in self.files:
            for folder in ("old", "new") if where == "both" else (where,):
                (room / folder / path).parent.mkdir(parents=True, exist_ok=True)
                (room / folder / path).write_text(text.replace("\\n", "\n"), encoding="utf-8")


def read_pairs(path: pathlib.Path) -> list[Pair]:
    """The pairs of a file of them."""
    pairs: list[Pair] = []
    for line in path.read_text(encoding="utf-8").splitlines():
        found = FILE.fullmatch(line)
        if line.startswith("## "):
            pairs.append(Pair(line[3:]))
        elif not pairs or not line or line.startswith("# "):
            continue
        elif found:
            pairs[-1].files.append((found[1], found[2], found[3]))
        elif line.startswith("14 "):
            pairs[-1].android = line[3:].partition(":")[0]
        else:
            pairs[-1].wanted |= set(line.split(" | "))
    return pairs


def keeps_its_lines(tree: pathlib.Path, copy: pathlib.Path) -> None:
    """Each file of a tree has a copy with as many lines."""
    for path in tree.rglob("*.aidl"):
        copied = copy / path.relative_to(tree)
        assert copied.read_bytes().count(b"\n") == path.read_bytes().count(b"\n"), path


@pytest.mark.parametrize("pair", read_pairs(PAIRS), ids=lambda pair: pair.name)
def test_a_pair_comes_to_what_is_true(pair, program, tmp_path, monkeypatch):
    pair.write(tmp_path)
    monkeypatch.chdir(tmp_path)
    if any(one.startswith("refused ") for one in pair.wanted):
        place = next(iter(pair.wanted))[len("refused ") :]
        with pytest.raises(Refused) as why:
            stage("old", "new", ["import"], "out")
        assert str(why.value).startswith((f"old/{place}: ", f"new/{place}: "))
        assert not os.path.exists("out")
        return
    stage("old", "new", ["import"], "out")
    keeps_its_lines(tmp_path / "old", tmp_path / "out/old")
    judged = subprocess.run([program, "judge", "out/old", "out/new"], capture_output=True, text=True)
    assert set(judged.stdout.splitlines()) == pair.wanted
    assert judged.returncode == (0 if pair.wanted == {"yes"} else 1)


@pytest.mark.parametrize("tree", ["lights/1", "lights/3", "fan/2", "sensors"])
def test_what_is_read_is_copied_to_the_byte(tree, tmp_path):
    stage(str(TOP / "examples" / tree), str(TOP / "examples" / tree), [], str(tmp_path))
    files = sorted(path.relative_to(TOP / "examples" / tree) for path in (TOP / "examples" / tree).rglob("*.aidl"))
    for copy in (tmp_path / "old", tmp_path / "new"):
        assert sorted(path.relative_to(copy) for path in copy.rglob("*.aidl")) == files
        assert all((copy / path).read_bytes() == (TOP / "examples" / tree / path).read_bytes() for path in files)


def test_bytes_of_comments_and_line_ends_stay(tmp_path):
    text = b"package j;\r\n// \xff\xfe \xc3\xbc\r\nparcelable P {\r\n\tfloat\r\n a; // \xe4\r\n}"
    (tmp_path / "old/j").mkdir(parents=True)
    (tmp_path / "old/j/P.aidl").write_bytes(text)
    stage(str(tmp_path / "old"), str(tmp_path / "old"), [], str(tmp_path / "out"))
    assert (tmp_path / "out/old/j/P.aidl").read_bytes() == text.replace(b"float", b"standin.Float")


def test_an_annotation_behind_oneway_goes_in_front_of_it(tmp_path):
    (tmp_path / "old/j").mkdir(parents=True)
    (tmp_path / "old/j/I.aidl").write_text('package j; interface I {\n  oneway @EnforcePermission(allOf = {"a", // b\n "c"}) void f(); }')
    stage(str(tmp_path / "old"), str(tmp_path / "old"), [], str(tmp_path / "out"))
    copied = (tmp_path / "out/old/j/I.aidl").read_text()
    assert copied == 'package j; interface I {\n  @EnforcePermission(allOf = { "a" , "c" }) oneway \n void f(); }'


def command(*words: str) -> subprocess.CompletedProcess:
    return subprocess.run([TOP / "ci/stage", *words], capture_output=True, text=True)


def test_the_command_says_what_it_replaced(tmp_path):
    module = TOP / "examples/aosp/vibrator/aidl"
    came = command("-I", str(TOP / "examples/aosp/common/aidl_api/common/1"), str(tmp_path), str(module / "aidl_api/vibrator/1"), str(module))
    assert came.returncode == 0 and not came.stderr
    assert "replaced: double (0 and 1 times): standin.Double, an enum of 64 bits\n" in came.stdout
    assert len(came.stdout.splitlines()) == 10


def test_faults_of_the_command_end_with_2(tmp_path):
    lights = str(TOP / "examples/lights/1")
    (tmp_path / "full/old").mkdir(parents=True)
    (tmp_path / "full/old/file").write_text("")
    (tmp_path / "empty").mkdir()
    out, full, empty, gone = (str(tmp_path / name) for name in ("out", "full", "empty", "gone"))
    for words in ([], ["out"], [full, lights, lights], [out, lights, gone], [out, empty, lights], ["-I", gone, out, lights, lights]):
        came = command(*words)
        assert came.returncode == 2 and came.stderr and not came.stdout, words
    assert not (tmp_path / "out").exists()


# What Android 14's compiler says where it doesn't read a tree.
UNREAD = re.compile(r"Failed to read|Failed to resolve|Failed to parse|syntax error")
LOOKED_AT = os.environ.get("ANDROID_AIDL")


@pytest.mark.skipif(not LOOKED_AT, reason="ANDROID_AIDL names Android's compiler")
@pytest.mark.parametrize("pair", [pair for pair in read_pairs(PAIRS) if not any(one.startswith("refused ") for one in pair.wanted)], ids=lambda pair: pair.name)
def test_androids_own_check_differs_as_the_pair_says(pair, tmp_path):
    pair.write(tmp_path)
    ran = subprocess.run([LOOKED_AT, "-I", "import", "--checkapi=compatible", "old", "new"], cwd=tmp_path, capture_output=True, text=True)
    says = "accepts" if ran.returncode == 0 else "unread" if UNREAD.search(ran.stderr) else "refuses"
    assert says == (pair.android or ("accepts" if pair.wanted == {"yes"} else "refuses")), ran.stderr
