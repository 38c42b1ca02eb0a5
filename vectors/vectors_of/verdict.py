"""What an adapter's answer is worth beside a vector: as strict, as lenient, as one of Android's libbinders, or wrong, with the cause."""
from __future__ import annotations

import json
import re
from dataclasses import dataclass
from typing import Any, Optional

STRICT, OTHER_STATUS, LENIENT, SKIPPED = "as strict", "as strict, with another status", "as lenient", "skipped"
ANDROID = "as Android {}"
WRONG = "WRONG "
HEXADECIMAL = re.compile(r"-|([0-9a-fA-F]{2})+")


@dataclass(frozen=True)
class Answer:
    """What an adapter answered: values and how many bytes are left, a status, `skip`, or none of them, with the reason."""

    values: Optional[list[Any]] = None
    left: int = 0
    status: Optional[int] = None
    is_skip: bool = False
    why: str = ""


def answer_of(line: str) -> Answer:
    """The answer that a line is."""
    if line == "skip":
        return Answer(is_skip=True)
    first, _, last = line.rpartition(" ")
    try:
        number = int(last)
        if first == "status":
            return Answer(status=number)
        values = json.loads(first)
    except (ValueError, RecursionError):
        return Answer(why="no line of the protocol")
    return Answer(values=values, left=number) if isinstance(values, list) else Answer(why="no line of the protocol")


def same(one: Any, other: Any) -> bool:
    """Whether two values are one JSON value: true isn't 1, and 1 isn't 1.0."""
    return json.dumps(one, sort_keys=True) == json.dumps(other, sort_keys=True)


def agrees(answer: Answer, reading: dict[str, Any]) -> bool:
    """Whether the answer is a reading of a vector."""
    if "values" in reading:
        return answer.values is not None and answer.left == reading["left"] and same(answer.values, reading["values"])
    return answer.status is not None and answer.status == reading.get("status")


def readings(vector: dict[str, Any]) -> list[tuple[str, dict[str, Any]]]:
    """The readings that an answer may be, in order."""
    lenient = vector.get("lenient", vector["strict"])
    found = [(STRICT, vector["strict"]), (LENIENT, lenient)]
    for version, reading in sorted(vector.get("android", {}).items(), reverse=True):
        found.append((ANDROID.format(version), lenient if reading == "lenient" else reading))
    return found


def of_reading(vector: dict[str, Any], answer: Answer) -> str:
    """What a reading is worth."""
    if answer.is_skip:
        return SKIPPED
    if answer.why:
        return f"{WRONG}{answer.why}: {vector['cause']}"
    for name, reading in readings(vector):
        if agrees(answer, reading):
            return name
    if answer.status is not None:
        return OTHER_STATUS if "status" in vector["strict"] else f"{WRONG}refused: {vector['cause']}"
    return f"{WRONG}{'taken' if vector['result'] == 'invalid' else 'misread'}: {vector['cause']}"


def of_writing(vector: dict[str, Any], line: Optional[str], why: str) -> str:
    """What written bytes are worth."""
    if line == "skip":
        return SKIPPED
    if line is None:
        return f"{WRONG}{why}: {vector['cause']}"
    if not HEXADECIMAL.fullmatch(line):
        return f"{WRONG}no line of the protocol: {vector['cause']}"
    return STRICT if line.lower().replace("-", "") == vector["hex"] else f"{WRONG}written otherwise: {vector['cause']}"
