"""The frozen versions of a module of Android's build: where they are, and the hash of each by the recipe of that build, Soong. That a version 1 is hashed with
`latest-version` was seen in a module that Android 14 has; that a later one is hashed with the number before its own is from memory."""

from __future__ import annotations

import hashlib
import os
import re

from ..dump import sources
from ..guard import Fault, Stop

NUMBER = re.compile(r"[1-9][0-9]{0,3}")
HASH = ".hash"


def versions(api: str) -> list[str]:
    """The folders of the versions, from 1 on without a gap."""
    if not os.path.isdir(api):
        raise Fault(f"there is no folder {api}")
    numbers = sorted(int(name) for name in os.listdir(api) if NUMBER.fullmatch(name) and os.path.isdir(os.path.join(api, name)))
    if numbers != list(range(1, len(numbers) + 1)):
        raise Stop(1, f"the versions of {api} aren't 1 to {len(numbers)}: {', '.join(map(str, numbers))}")
    return [os.path.join(api, str(number)) for number in numbers]


def digest(folder: str, number: int) -> str:
    """The hash of a version: of the lines that `sha1sum` prints of its sources, sorted by their paths, and of one line more."""
    lines = []
    for path in sorted((f"./{path}" for path in sources(folder)), key=os.fsencode):
        with open(os.path.join(folder, path), "rb") as file:
            lines.append(hashlib.sha1(file.read()).hexdigest().encode() + b"  " + os.fsencode(path) + b"\n")
    last = str(number - 1) if number > 1 else "latest-version"
    return hashlib.sha1(b"".join(lines) + last.encode() + b"\n").hexdigest()


def kept(folder: str) -> str:
    """What the last line of a version's `.hash` has, or "" where there is none."""
    try:
        with open(os.path.join(folder, HASH), "rb") as file:
            lines = file.read().decode("latin-1").split("\n")
    except FileNotFoundError:
        return ""
    return next((line for line in reversed(lines) if line), "")


def is_frozen(folder: str) -> bool:
    """Whether a folder is a frozen version whose hash is right."""
    name = os.path.basename(os.path.abspath(folder))
    return bool(NUMBER.fullmatch(name)) and kept(folder) == digest(folder, int(name))
