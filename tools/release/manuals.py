"""The manual pages: that of the program is made of the tables of docs/PROGRAM.md by pandoc, those of the commands of `ci/` of their `--help` by help2man."""

from __future__ import annotations

import os
import pathlib
import subprocess
from dataclasses import dataclass

from .table import Fault, commands, exits, plain

PROGRAM = "leyomuvain-aidl"
SUMMARY = "finds breaking changes between versions of an AIDL interface"


@dataclass(frozen=True)
class Stamp:
    """What a build says of itself: the version, and the time of its commit in seconds since 1970."""

    version: str
    seconds: int

    def environment(self) -> dict[str, str]:
        return {**os.environ, "SOURCE_DATE_EPOCH": str(self.seconds), "LC_ALL": "C.UTF-8", "TZ": "UTC"}


def made_by(words: list[str], stamp: Stamp, text: str = "") -> str:
    """What a tool prints; a tool that isn't there or fails is a fault."""
    try:
        ran = subprocess.run(words, input=text, capture_output=True, text=True, env=stamp.environment(), check=False)
    except OSError as why:
        raise Fault(f"{words[0]} can't be run ({why}): apt-get install {words[0]}") from why
    if ran.returncode != 0:
        raise Fault(f"{words[0]} ended with {ran.returncode}: {ran.stderr.strip()}")
    return ran.stdout


def escaped(text: str) -> str:
    """A text in pandoc's Markdown."""
    return "".join("\\" + char if char in "\\<>[]*_|#`" else char for char in text)


def source_of_program(top: pathlib.Path, stamp: Stamp) -> str:
    """The manual of the program in Markdown."""
    rows = commands(top)
    lines = [f"% {PROGRAM.upper()}(1) leyomuvain {stamp.version}", "", "# NAME", "", f"{PROGRAM} - {SUMMARY}", "", "# SYNOPSIS", ""]
    for one in rows:
        lines += [f"| **{PROGRAM} {one.name}** {escaped(one.arguments)}"]
    lines += ["", "# COMMANDS", ""]
    for one in rows:
        lines += [f"**{one.name}** {escaped(one.arguments)}", "", f":   {escaped(plain(one.does))}", ""]
    lines += ["# EXIT STATUS", ""]
    for one in exits(top):
        lines += [f"{one.number}", "", f":   {escaped(one.meaning)}; printed: {escaped(one.printed)}", ""]
    lines += ["# NOTES", "", "A folder that isn't there is the empty tree, so **judge** of a mistyped folder is yes: use **leyomuvain-check-api** in a job.", ""]
    lines += ["The program is proved to meet its contract; the commands around it are not. The pages below /usr/share/doc/leyomuvain say what that means.", ""]
    lines += ["# SEE ALSO", "", "**leyomuvain-check-api**(1), **leyomuvain-report**(1)", ""]
    return "\n".join(lines)


def of_program(top: pathlib.Path, stamp: Stamp) -> str:
    return made_by(["pandoc", "--standalone", "--from", "markdown-smart", "--to", "man"], stamp, source_of_program(top, stamp))


def of_command(path: pathlib.Path, stamp: Stamp) -> str:
    """The manual of a command of `ci/`, by what it answers to `--help`."""
    name = f"leyomuvain-{path.name}"
    words = ["help2man", "--no-info", "--no-discard-stderr", f"--version-string={stamp.version}", f"--name=part of leyomuvain, which {SUMMARY}"]
    return made_by([*words, os.fspath(path)], stamp).replace(os.fspath(path), name)
