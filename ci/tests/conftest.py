"""What the tests of `ci/` share: the program, the folder of the repository, and scratch repositories."""

import os
import pathlib
import shutil
import sys

import pytest

TOP = pathlib.Path(__file__).resolve().parents[2]
sys.path.insert(0, str(TOP / "ci"))
sys.path.insert(0, str(TOP / "ci/tests"))

from scratch import Scratch  # noqa: E402


@pytest.fixture(scope="session")
def program() -> pathlib.Path:
    """The program: the one that AIDL names, or the one of this repository. Without one the tests fail."""
    path = pathlib.Path(os.environ.get("AIDL") or TOP / "crates/aidl/out/aidl").resolve()
    assert path.is_file(), f"{path} isn't built: ./aidl builds it"
    return path


@pytest.fixture(scope="session")
def frozen_repository(tmp_path_factory, program) -> pathlib.Path:
    """A repository with two frozen versions, of which each test takes a copy."""
    room = tmp_path_factory.mktemp("repository")
    Scratch(room, program).fill(2)
    return room


@pytest.fixture
def scratch(tmp_path, program, frozen_repository) -> Scratch:
    """A repository with two frozen versions; the tree is the second."""
    room = tmp_path / "scratch"
    shutil.copytree(frozen_repository, room, symlinks=True)
    return Scratch(room, program)


@pytest.fixture
def unfrozen(tmp_path, program) -> Scratch:
    """A repository before the first freeze."""
    room = tmp_path / "scratch"
    room.mkdir()
    return Scratch(room, program).fill(0)
