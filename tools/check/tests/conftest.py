import os
import pathlib
import sys

import pytest

TOP = pathlib.Path(__file__).resolve().parents[3]
sys.path.insert(0, str(TOP / "tools/check"))


@pytest.fixture(scope="session")
def program() -> pathlib.Path:
    """The program: AIDL, or the one that `./aidl` has built."""
    path = pathlib.Path(os.environ.get("AIDL") or TOP / "crates/aidl/out/aidl").resolve()
    assert path.is_file(), f"{path} isn't built: ./aidl builds it"
    return path
