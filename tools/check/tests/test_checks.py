"""What the other checks find: contracts that cite steps, rows that aren't there, wrong runs of .ci/run."""

import os
import pathlib
import shutil
import subprocess
import sys

import definitions
import pytest
import rows

TOP = pathlib.Path(__file__).resolve().parents[3]
CONTRACT = """/// Reads.
pub fn read(
    a: &[u8],
) -> Option<Tree>
    requires few { length a.now }

    // where a `;` stands
    ensures stepped { whole_of a.now }
{
    body
}

pub fn short() -> bool {
    true
}

fn own(a: u8) -> u8
    ensures other { a }
{
    a
}
"""


def test_a_contract_is_seen_whole():
    found = definitions.FUNCTION.findall(CONTRACT)
    assert [name for _, name, _ in found] == ["read"]
    assert "stepped" in found[0][2] and "other" not in found[0][2] and definitions.clauses_of(CONTRACT) == 2


def test_every_contract_is_seen_and_cites_no_step(tmp_path, monkeypatch):
    assert not list(definitions.unseen()) and not list(definitions.steps_cited())
    crates = tmp_path / "crates"
    (crates / "a/src").mkdir(parents=True)
    (crates / "a/specs/steps").mkdir(parents=True)
    (crates / "a/specs/steps/Whole.antt").write_text("whole_of x = x\n")
    (crates / "a/src/lib.rt").write_text("pub use read::{read};\n")
    (crates / "a/src/read.rt").write_text("ghost use Rattle.a.specs.steps.Whole.{whole_of};\n" + CONTRACT)
    monkeypatch.setattr(definitions, "CRATES", crates)
    assert list(definitions.steps_cited()) == ["a::read"]


def laid(top: pathlib.Path, monkeypatch) -> pathlib.Path:
    """A folder with the files of rows and the program that reads them in the gate."""
    shutil.copytree(TOP / "crates/worked_rows", top / "crates/worked_rows", ignore=shutil.ignore_patterns("out"))
    monkeypatch.setattr(rows, "TOP", top)
    return top / "crates/worked_rows/data"


def test_a_file_of_rows_that_is_missing_empty_or_unread_is_told(tmp_path, monkeypatch):
    data = laid(tmp_path, monkeypatch)
    assert not list(rows.wrong_files())
    (data / "explain.rows").unlink()
    (data / "judge.rows").write_text("# none\n")
    (data / "more.rows").write_text("run check t\nexit 0\n")
    assert list(rows.wrong_files()) == ["explain.rows isn't there, and worked_rows reads it", "more.rows is read by nothing", "judge.rows has no row"]


class Gate:
    """A checkout with `.ci/run`, and an `rt` that makes the program."""

    def __init__(self, top: pathlib.Path, program: pathlib.Path):
        self.top = top
        for name in ("examples", "vectors"):
            shutil.copytree(TOP / name, top / name)
        (top / ".ci").mkdir()
        shutil.copy(TOP / ".ci/run", top / ".ci/run")
        (top / "bin").mkdir()
        (top / "bin/rt").write_text(f'#!/bin/sh\n[ "$*" = ci ] && [ "$PWD" = "{top}" ] || exit 9\n[ -z "$FAILS" ] || exit 3\n'
                                    f'mkdir -p crates/aidl/out && {{ [ -e crates/aidl/out/aidl ] || cp "{program}" crates/aidl/out/aidl; }}\n')
        (top / "bin/rt").chmod(0o755)

    def run(self, script=".ci/run", **more):
        ways = {**os.environ, "PATH": f"{self.top}/bin:{os.environ['PATH']}", **more}
        return subprocess.run(["sh", self.top / script], cwd="/", env=ways, capture_output=True, text=True, check=False, timeout=600)

    def change(self, case: str) -> None:
        """Puts a program in place that is another one in this case of its words, by a shell's pattern."""
        built = self.top / "crates/aidl/out/aidl"
        built.rename(built.with_name("real"))
        built.write_text(f'#!/bin/sh\ncase "$*" in {case} exec "{built.with_name("real")}" "$@" ;; esac\n')
        built.chmod(0o755)


@pytest.fixture
def gate(tmp_path, program):
    top = tmp_path / "a clone"
    top.mkdir()
    return Gate(top, program)


def test_the_gate_is_green_wherever_it_is_called(gate):
    (gate.top.parent / "two/.ci").mkdir(parents=True)
    (gate.top / "link").symlink_to(".ci/run")
    for script in (".ci/run", "link"):
        came = gate.run(script, CDPATH=f"{gate.top.parent}/two:/")
        assert came.returncode == 0 and came.stdout.endswith(" passed, 0 failed\n"), came.stdout + came.stderr


def test_the_gate_ends_as_rt_does(gate):
    assert gate.run(FAILS="yes").returncode == 3


@pytest.mark.parametrize("case", ["judge*) echo yes; exit 1;;", "*decode*) echo 5; exit 0;;", "freeze*) exit 0;;", "*verify*) exit 1;;", "*witness*) echo yes; exit 0;;", "*run*) exit 0;;", "*ask*) exit 0;;"])
def test_the_gate_is_red_for_another_program(gate, case):
    gate.run()
    gate.change(f"{case} *)")
    came = gate.run()
    assert came.returncode == 1 and "it has to be" in came.stdout


@pytest.mark.parametrize("script", ["layers.py", "definitions.py"])
def test_scripts_end_well(script):
    assert subprocess.run([sys.executable, TOP / "tools/check" / script], capture_output=True, check=False).returncode == 0
