"""The report as a log of SARIF 2.1.0, as code scanning and editors take it."""

from __future__ import annotations

import json
import os
import urllib.parse
from typing import Any, Iterator, Optional

from ..places import Place
from ..printing import plain
from ..rules import Rule, rules
from .breaks import Cause, Line, instead
from .model import Report

SCHEMA = "https://json.schemastore.org/sarif-2.1.0.json"
JAVA = "java-default"
TORN = "frozen-version"
OWN = {
    JAVA: ("a field without a default in Java", "Java's reader has null for a String, an array or a List without an initializer", 'write `= ""` or `= {}`, or `@nullable`'),
    TORN: ("a frozen version isn't intact", "its `.hash` isn't that of its files", "put the version back as it was"),
}


def sarif(report: Report) -> str:
    """The log, as JSON."""
    results = list(of_report(report))
    used = sorted({one["ruleId"] for one in results})
    driver = {"name": "aidl (verified) report", "rules": [rule(code) for code in used]}
    run = {"tool": {"driver": driver}, "columnKind": "unicodeCodePoints", "results": results}
    return json.dumps({"$schema": SCHEMA, "version": "2.1.0", "runs": [run]}, indent=1, ensure_ascii=True) + "\n"


def rule(code: str) -> dict[str, Any]:
    """The descriptor of a rule."""
    if code in OWN:
        phrase, reason, help_text = OWN[code]
    else:
        about: Rule = rules()[code]
        phrase, reason, help_text = about.phrase, about.reason, instead(about)
    level = "warning" if code == JAVA else "error"
    return {"id": code, "shortDescription": {"text": phrase}, "fullDescription": {"text": reason}, "help": {"text": f"Instead: {help_text}"}, "defaultConfiguration": {"level": level}}


def of_report(report: Report) -> Iterator[dict[str, Any]]:
    for line in report.torn:
        yield result(TORN, f"verify: {line}", line.split(" ")[0], None)
    for tree in report.faulty:
        for fault, at in tree.located():
            region = {"startLine": at.line, "startColumn": at.column} if at else {"byteOffset": fault.offset}
            made = result(fault.code, fault.what, f"{fault.code} {fault.path}:{fault.offset}", None)
            yield {**made, "locations": [{"physicalLocation": {"artifactLocation": {"uri": uri(fault.path)}, "region": region}}]}
    for step in report.steps:
        for cause in step.causes:
            yield from (of_line(cause, line, step.old.title) for line in cause.lines)
        for one in step.warned:
            yield {**result(JAVA, one.says(), f"{JAVA} {one.place}", one.at), "level": "warning"}


def result(code: str, told: str, print_of: str, place: Optional[Place]) -> dict[str, Any]:
    made: dict[str, Any] = {"ruleId": code, "level": "error", "message": {"text": plain(told)}, "partialFingerprints": {"place/v1": plain(print_of)}}
    return {**made, "locations": [location(place)]} if place else made


def of_line(cause: Cause, line: Line, old_title: str) -> dict[str, Any]:
    told = f"{line.rule.line()}: {line.about.phrase}. {cause.head}. Hurts {cause.hurt}. {cause.harm()}. {line.about.reason}. Instead: {instead(line.about)}."
    made = result(line.rule.code, told, line.rule.line(), line.at())
    if line.old and line.new:
        made["relatedLocations"] = [{**location(line.old), "message": {"text": plain(f"as it was in {old_title}")}}]
    return made


def location(place: Place) -> dict[str, Any]:
    region = {"startLine": place.line, "startColumn": place.column, "endColumn": place.end}
    return {"physicalLocation": {"artifactLocation": {"uri": uri(place.path)}, "region": region}}


def uri(path: str) -> str:
    """The path from the working folder, as a reference."""
    return urllib.parse.quote(os.fsencode(os.path.relpath(path)).replace(os.sep.encode(), b"/"), safe="/")
