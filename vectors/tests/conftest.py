"""What the tests share: commands of `vectors/`, run as a user runs them."""
import os
import pathlib
import re
import subprocess
import sys
from typing import Callable

import pytest

HERE = pathlib.Path(__file__).resolve().parents[1]
sys.path.insert(0, str(HERE))
PROGRAM = pathlib.Path(os.environ.get("AIDL") or HERE.parent / "crates/aidl/out/aidl").resolve()


class Ran:
    """One run of a command."""

    def __init__(self, words: list, folder: pathlib.Path = HERE):
        ran = subprocess.run([sys.executable, str(folder / words[0]), *map(str, words[1:])], cwd=folder, env={**os.environ, "AIDL": str(PROGRAM)},
                             stdout=subprocess.PIPE, stderr=subprocess.PIPE, check=False)
        self.status, self.out, self.err = ran.returncode, ran.stdout.decode(), ran.stderr.decode()

    def counts(self) -> dict:
        """How many answers are worth what, in the order in which they are printed."""
        return {found[2]: int(found[1]) for found in re.finditer(r"^ {0,6}(\d+) ((?:as|WRONG|skipped).*)$", self.out, re.M)}


@pytest.fixture
def command() -> Callable[..., Ran]:
    """Runs a command: `command("run", ..)`."""
    assert PROGRAM.is_file(), f"{PROGRAM} isn't built: ./aidl builds it"
    return lambda *words, folder=HERE: Ran(list(words), folder)
