"""docs/EVOLUTION.md over the program: each pair of its table breaks the rule as its line says, and what its column *Instead* names breaks none."""

from __future__ import annotations

import pathlib
import re
import subprocess
from typing import Optional

import pytest
from aidl_ci.rules import rules

TOP = pathlib.Path(__file__).resolve().parents[2]
BESIDE = {"P": "parcelable P { }", "Q": "parcelable Q { int a; }", "One": "enum One { A = 1 }"}

# The rule, two files of package `j` that break it, and what there is in place of the second.
INSTEAD = [
    ("C1", "parcelable P { int a; }", None, "/** @deprecated */ parcelable P { int a; }"),
    ("C2", "parcelable P { }", "union P { int a; }", "parcelable P { }"),
    ("C3", "interface I { void x(); }", "interface I { }", "interface I { void x(); void y(); }"),
    ("C4", "interface I { void x(); void z(); }", "interface I { void y(); void x(); void z(); }", "interface I { void x(); void z(); void y(); }"),
    ("C4", "interface I { void x(); void z(); }", "interface I { void y(); void x(); void z(); }", "interface I { void y() = 2; void x() = 0; void z() = 1; }"),
    ("C4", "interface I { void x() = 1; }", "interface I { void x() = 2; }", "interface I { void x() = 1; void y() = 2; }"),
    ("C5", "interface I { int x(); }", "interface I { long x(); }", "interface I { int x(); long x2(); }"),
    ("C6", "interface I { void x(in int a); }", "interface I { void x(); }", "interface I { void x(in int a); void x2(); }"),
    ("C6", "interface I { void x(in int a); }", "interface I { void x(in long a); }", "interface I { void x(in int a); void x2(in long a); }"),
    ("C7", "interface I { void x(in P p); }", "interface I { void x(inout P p); }", "interface I { void x(in P p); void x2(inout P p); }"),
    ("C8", "interface I { void x(); }", "interface I { oneway void x(); }", "interface I { void x(); oneway void x2(); }"),
    ("C9", "parcelable P { int a; int b; }", "parcelable P { int a; }", "parcelable P { int a; /** Nobody reads it. */ int b; }"),
    ("C10", "parcelable P { int a; }", "parcelable P { int b; int a; }", "parcelable P { int a; int b; }"),
    ("C10", "parcelable P { int a; }", "parcelable P { int b; }", "parcelable P { int a; int b; }"),
    ("C11", "parcelable P { int a; }", "parcelable P { long a; }", "parcelable P { int a; long a2; }"),
    ("C12", "parcelable P { int a = 1; }", "parcelable P { int a = 2; }", "parcelable P { int a = 1; int a2 = 2; }"),
    ("C13", "parcelable P { }", "parcelable P { Q q; }", "parcelable P { @nullable Q q; }"),
    ("C13", "parcelable P { }", "parcelable P { One e; }", "parcelable P { One e = One.A; }"),
    ("C14", "@FixedSize parcelable P { int a; }", "parcelable P { int a; }", "@FixedSize parcelable P { int a; }"),
    ("C14", "@FixedSize parcelable P { int a; }", "@FixedSize parcelable P { int a; int b; }", "@FixedSize parcelable P { int a; }"),
    ("C15", "union U { int a; int b; }", "union U { int a; }", "union U { int a; int b; }"),
    ("C15", "union U { int a; int b; }", "union U { int a; int c; }", "union U { int a; int b; int c; }"),
    ("C15", "union U { int a; int b; }", "union U { int a; int c; int b; }", "union U { int a; int b; int c; }"),
    ("C16", '@Backing(type="int") enum E { A = 1 }', '@Backing(type="long") enum E { A = 1 }', '@Backing(type="int") enum E { A = 1 }'),
    ("C17", "enum E { A, B }", "enum E { N, A, B }", "enum E { A, B, N }"),
    ("C17", "enum E { A, B }", "enum E { N, A, B }", "enum E { N = 2, A = 0, B = 1 }"),
    ("C17", "enum E { A = 1 }", "enum E { A = 2 }", "enum E { A = 1, B = 2 }"),
    ("C18", "parcelable P { const int K = 1; }", "parcelable P { const int K = 2; }", "parcelable P { const int K = 1; const int K2 = 2; }"),
    ("C19", "parcelable P { String s; }", "parcelable P { @utf8InCpp String s; }", "parcelable P { String s; @utf8InCpp String s2; }"),
]


def judged(program: pathlib.Path, room: pathlib.Path, old: str, new: Optional[str]) -> str:
    """What `judge` says of two files of package `j`, with the types beside them that they use."""
    for side, text in (("old", old), ("new", new)):
        files = {**BESIDE, **({re.search(r"(?:parcelable|union|interface|enum) (\w+)", text)[1]: text} if text else {})}
        if not text:
            del files["P"]
        (room / side / "j").mkdir(parents=True)
        for called, body in files.items():
            (room / side / "j" / f"{called}.aidl").write_text(f"package j; {body}\n")
    return subprocess.run([program, "judge", "old", "new"], cwd=room, capture_output=True, text=True, check=False).stdout


def cell(text: str) -> Optional[str]:
    """The file that a cell of the table stands for: a method's is that of an interface."""
    found = re.fullmatch("`(.*)`", text)
    if not found:
        assert text == "no `P`", text
        return None
    return found[1] if re.search(r"\{.*\}", found[1]) else f"interface I {{ {found[1]} }}"


def rows() -> list:
    """The rows of the table: the rule, the files, and the line that the pair gives."""
    page = (TOP / "docs/EVOLUTION.md").read_text(encoding="utf-8")
    found = re.findall(r"^\| (.+?) \| (.+?) \| `((C\d+) .+?)` \|", page, re.M)
    return [(code, cell(old), cell(new), line) for old, new, line, code in found]


@pytest.mark.parametrize("row", rows(), ids=lambda row: row[3])
def test_a_row_of_the_page(program, tmp_path, row):
    code, old, new, line = row
    assert judged(program, tmp_path, old, new) == f"{line}\n"
    assert any(case[:3] == (code, old, new) for case in INSTEAD), "what to do instead has no case"


@pytest.mark.parametrize("case", INSTEAD, ids=lambda case: case[0])
def test_what_to_do_instead(program, tmp_path, case):
    code, old, new, better = case
    assert re.match(rf"{code} ", judged(program, tmp_path / "worse", old, new))
    assert judged(program, tmp_path / "better", old, better) == "yes\n"


def test_each_rule_has_a_row_and_an_instead():
    codes = {code for code in rules() if code.startswith("C")}
    assert {row[0] for row in rows()} == codes and {case[0] for case in INSTEAD} == codes
