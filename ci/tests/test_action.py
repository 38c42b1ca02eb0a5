"""The action of a workflow, run step by step as a runner does: each step's script by bash, with its inputs as the step's environment has them. A real runner
wasn't asked."""

from __future__ import annotations

import os
import pathlib
import re
import subprocess

import pytest
from conftest import TOP
from scratch import Scratch

yaml = pytest.importorskip("yaml")
ACTION = yaml.safe_load((TOP / "ci/action.yml").read_text(encoding="utf-8"))


def steps(room: pathlib.Path, program: pathlib.Path, **given: str) -> list:
    """What came of each step whose condition holds, until the end."""
    inputs = {name: given.get(name, one.get("default", "")) for name, one in ACTION["inputs"].items()}
    assert all(inputs[name] for name, one in ACTION["inputs"].items() if one.get("required"))
    came, summary = [], room / "summary.md"
    for step in ACTION["runs"]["steps"]:
        if step.get("if") and not inputs["report"]:
            continue
        environment = {name: re.sub(r"\$\{\{ inputs\.(\w+) \}\}", lambda it: inputs[it[1]], value) for name, value in step["env"].items()}
        environment.update(GITHUB_ACTION_PATH=str(TOP / "ci"), GITHUB_BASE_REF="main", GITHUB_STEP_SUMMARY=str(summary), AIDL=str(program), GITHUB_ACTIONS="true")
        words = ["bash", "--noprofile", "--norc", "-e", "-o", "pipefail", "-c", step["run"]]
        ran = subprocess.run(words, cwd=room, env={**os.environ, **environment}, capture_output=True, text=True, timeout=120, check=False)
        came.append(ran)
    return came


@pytest.fixture
def scratch(tmp_path, program) -> Scratch:
    made = Scratch(tmp_path, program).fill(2)
    made.git("update-ref", "refs/remotes/origin/main", "HEAD")
    return made


def test_a_change_that_breaks_nothing_is_green(scratch, program):
    (came,) = steps(scratch.room, program, tree="hal", api="api")
    assert came.returncode == 0 and "all as they are in" in came.stdout


def test_a_breaking_change_is_red_and_its_report_is_the_summary(scratch, program):
    scratch.tree(1)
    check, report = steps(scratch.room, program, tree="hal", api="api", report="out")
    assert check.returncode == 1 and "C9 lights.LightState" in check.stdout
    assert report.returncode == 0 and "C9" in (scratch.room / "summary.md").read_text(encoding="utf-8")


def test_a_base_that_is_named_is_taken(scratch, program):
    (came,) = steps(scratch.room, program, tree="hal", api="api", base="nowhere")
    assert came.returncode == 2 and "nowhere" in came.stderr
