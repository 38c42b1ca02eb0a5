"""Text of other people's files, as it is shown: never markup, never a command of a workflow, never an escape sequence of a terminal."""

from __future__ import annotations

import os
import sys
import unicodedata

# Marks that turn the direction of text round, and those that can't be seen.
HIDDEN = {"Cc", "Cf", "Zl", "Zp", "Cs"}


def plain(text: str) -> str:
    """The text in one line, with a blank for each character that controls a terminal, ends a line or turns the direction of text round."""
    if text.isprintable():
        return text
    return "".join(" " if unicodedata.category(char) in HIDDEN else char for char in text)


def escaped(text: str, more: str = "") -> str:
    """A text in a command of a GitHub workflow."""
    return "".join(f"%{ord(char):02X}" if char in "%\r\n" + more else char for char in text)


def in_workspace(path: str) -> str:
    """The path from the top of a workflow's checkout, from which GitHub reads it, whatever folder the job runs in."""
    top = os.environ.get("GITHUB_WORKSPACE")
    inside = os.path.relpath(os.path.realpath(path), os.path.realpath(top)) if top else ".."
    return path if inside == ".." or inside.startswith("../") else inside


def annotation(text: str, path: str = "", line: int = 0, column: int = 0, level: str = "error", title: str = "") -> str:
    """The annotation of a GitHub workflow that says this, at a place if there is one."""
    parts = [f"file={escaped(in_workspace(path), ':,')}", f"line={line}", f"col={column}"] if path else []
    parts += [f"title={escaped(title, ':,')}"] if title else []
    return f"::{level}{' ' if parts else ''}{','.join(parts)}::{escaped(text)}"


def use_utf8() -> None:
    """Standard input and output as UTF-8, whatever the locale is; bytes that are none go through as they are."""
    for stream in (sys.stdin, sys.stdout):
        if stream is not None:
            stream.reconfigure(encoding="utf-8", errors="surrogateescape", newline="\n")
    if sys.stderr is not None:
        sys.stderr.reconfigure(encoding="utf-8", errors="backslashreplace")
