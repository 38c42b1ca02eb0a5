"""The frame of each command: every fault of a command ends it with exit 2, since 1 is a verdict, and Python's own tracebacks end with 1."""

from __future__ import annotations

import argparse
import os
import sys
from typing import Callable, NoReturn

from .printing import plain

FAULT = 2


class Fault(Exception):
    """The command can't do its work: a command line, a file, the program or one of its lines isn't as it has to be."""


class Stop(Exception):
    """The command ends with this exit, and says why on standard error."""

    def __init__(self, status: int, why: str):
        super().__init__(why)
        self.status = status


def run(main: Callable[[list[str]], int]) -> NoReturn:
    """Runs a command on the arguments of the process, and ends the process with its exit: 2 for whatever is raised but `Stop`."""
    read_utf8()
    name = os.path.basename(sys.argv[0])
    status = FAULT
    try:
        status = main(sys.argv[1:])
    except Stop as why:
        status = why.status
        complain(f"{name}: {why}")
    except (Fault, OSError) as why:
        complain(f"{name}: {why}")
    except KeyboardInterrupt:
        complain(f"{name}: interrupted")
    except SystemExit as end:  # argparse: 0 after --help, 2 after a faulty command line
        status = end.code if isinstance(end.code, int) else FAULT
    except Exception as why:  # pylint: disable=broad-except
        complain(f"{name}: a fault of this script, {type(why).__name__}: {why}")
    leave(status)


def read_utf8() -> None:
    """Starts Python once more where it reads names of files by the letters of another locale than those of UTF-8."""
    if sys.getfilesystemencoding().lower() not in ("utf-8", "utf8") and sys.executable:
        os.execv(sys.executable, [sys.executable, "-X", "utf8", *sys.argv])


def arguments(name: str, description: str) -> argparse.ArgumentParser:
    """A reader of arguments that answers `--help`, and takes no option by a part of its name."""
    return argparse.ArgumentParser(prog=name, description=description, allow_abbrev=False)


def complain(text: str) -> None:
    """Says a line on standard error, if it can be written to."""
    try:
        print(plain(text).encode("utf-8", "backslashreplace").decode(), file=sys.stderr, flush=True)
    except (OSError, ValueError, AttributeError):
        pass


def leave(status: int) -> NoReturn:
    """Ends the process at once: what is left to print may fail, as for a closed pipe or a full disk, and the exit stays."""
    for stream in (sys.stdout, sys.stderr):
        try:
            if stream is not None:
                stream.flush()
        except (OSError, ValueError):
            pass
    os._exit(status)
