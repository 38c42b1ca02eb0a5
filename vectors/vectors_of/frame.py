"""The frame of each command: every fault of its own ends it with exit 2, since 1 is a verdict, and Python's own tracebacks end with 1."""
from __future__ import annotations

import argparse
import os
import pathlib
import sys
from typing import Callable, NoReturn

FAULT = 2
HERE = pathlib.Path(__file__).resolve().parent.parent
VECTORS = HERE / "vectors.jsonl"
TREES = HERE / "trees"


class Fault(Exception):
    """The command can't do its work: a command line, a file or a program isn't as it has to be."""


def run(main: Callable[[list[str]], int]) -> NoReturn:
    """Runs a command on the arguments of the process, and ends the process with its exit: 2 for whatever is raised."""
    name = os.path.basename(sys.argv[0])
    status = FAULT
    try:
        status = main(sys.argv[1:])
    except (Fault, OSError) as why:
        complain(f"{name}: {why}")
    except KeyboardInterrupt:
        complain(f"{name}: interrupted")
    except SystemExit as end:  # argparse: 0 after --help, 2 after a faulty command line
        status = end.code if isinstance(end.code, int) else FAULT
    except Exception as why:  # pylint: disable=broad-except
        complain(f"{name}: a fault of this script, {type(why).__name__}: {why}")
    leave(status)


def arguments(name: str, description: str) -> argparse.ArgumentParser:
    """A reader of arguments that answers `--help`, and takes no option by a part of its name."""
    return argparse.ArgumentParser(prog=name, description=description, allow_abbrev=False)


def printable(text: str) -> str:
    """A text of a file or of another program for a terminal: each character that isn't printed is an escape."""
    return "".join(one if one.isprintable() else one.encode("unicode_escape").decode() for one in text)


def say(text: str) -> None:
    """Prints a line."""
    print(text.encode("utf-8", "backslashreplace").decode(), flush=True)


def complain(text: str) -> None:
    """Says a line on standard error, if it can be written to."""
    try:
        print(printable(text), file=sys.stderr, flush=True)
    except (OSError, ValueError, AttributeError):
        pass


def leave(status: int) -> NoReturn:
    """Ends the process at once: what is left to print may fail, as for a closed pipe, and the exit stays."""
    for stream in (sys.stdout, sys.stderr):
        try:
            if stream is not None:
                stream.flush()
        except (OSError, ValueError):
            pass
    os._exit(status)
