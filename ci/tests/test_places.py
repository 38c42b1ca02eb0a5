"""Places in sources: each declaration, member, argument and annotation of a checked tree has its place, in random trees too."""

from __future__ import annotations

import os
import pathlib
import subprocess
import tempfile

import pytest
from aidl_ci import dump
from aidl_ci.places import Places
from aidl_ci.program import Program
from hypothesis import HealthCheck, given, settings
from hypothesis import strategies as st

BLANKS = st.lists(st.sampled_from([" ", "\n", "\t", "\r\n", "  ", "/* a ; } b */", "// one { \n", "/** @Foo parcelable X { */", "/*\n\n*/", "/* größer */"]), min_size=1, max_size=3).map("".join)
WORDS = ["a", "bb", "c3", "_d", "e_e", "f", "g", "h"]
PLAIN = ["int", "long", "String", "boolean", "int[]", "List<String>", "@nullable String", "@utf8InCpp String", "byte[]", "@nullable int[]"]
VALUES = {"int": ["1", "(1 + 2) * 3", "'a' + 0", "0x10"], "long": ["5L", "1 << 3"], "String": ['"x;{}"', '"@/*"'], "int[]": ["{1, 2}", "{}"], "boolean": ["true"]}


@st.composite
def tokens(draw, parts: list[str]) -> str:
    """The parts with blanks and comments between all of them."""
    return "".join(part + draw(BLANKS) for part in parts)


@st.composite
def field(draw, name: str, parcelable: bool) -> list[str]:
    kind = draw(st.sampled_from(PLAIN))
    value = draw(st.sampled_from(["", *VALUES.get(kind, [])])) if parcelable else ""
    return [*kind.split(" "), name, *(["=", value] if value else []), ";"]


@st.composite
def method(draw, name: str) -> list[str]:
    parts = [*draw(st.sampled_from(["void", "int", "@nullable String", "long[]"])).split(" "), name, "("]
    for number in range(draw(st.integers(0, 3))):
        kind = draw(st.sampled_from(PLAIN))
        parts += [*([","] if number else []), "in", *kind.split(" "), f"x{number}"]
    return [*parts, ")", ";"]


@st.composite
def declaration(draw, name: str, depth: int = 0) -> list[str]:
    kind = draw(st.sampled_from(["parcelable", "union", "enum", "interface"]))
    names = draw(st.lists(st.sampled_from(WORDS), min_size=1, max_size=5, unique=True))
    marks = draw(st.sampled_from([[], ["@VintfStability"], ["@Hide", "@VintfStability"]])) if depth == 0 else []
    parts = [*marks, kind, name, "{"]
    if kind == "enum":
        marks = draw(st.sampled_from([[], ['@Backing(type="int")'], ["@Backing ( type = \"long\" )"]]))
        values = [[one, *draw(st.sampled_from([[], ["=", f"{number} + 1"]]))] for number, one in enumerate(names)]
        return [*parts[:-3], *marks, kind, name, "{", *[part for one in values for part in [*one, ","]], "}"]
    for one in names:
        parts += draw(method(one)) if kind == "interface" else draw(field(one, kind == "parcelable"))
    if draw(st.booleans()):
        parts += ["const", "int", "K", "=", draw(st.sampled_from(VALUES["int"])), ";"]
    if depth < 2 and kind != "interface" and draw(st.booleans()):
        parts += draw(declaration(f"N{depth}", depth + 1))
    return [*parts, "}"]


@st.composite
def source(draw) -> str:
    return draw(BLANKS) + draw(tokens(["package", " p.q", ";", *draw(declaration("T"))]))


@settings(max_examples=int(os.environ.get("EXAMPLES", "60")), deadline=None, suppress_health_check=list(HealthCheck), derandomize=True)
@given(source())
def test_random_trees(program, text):
    with tempfile.TemporaryDirectory() as folder:
        path = pathlib.Path(folder, "tree/p/q/T.aidl")
        path.parent.mkdir(parents=True)
        path.write_text(text, encoding="utf-8", newline="")
        tree, out = str(pathlib.Path(folder, "tree")), pathlib.Path(folder, "out")
        out.mkdir()
        checked = subprocess.run([program, "check", tree], capture_output=True, check=False)
        if checked.returncode == 0:
            compare(dump.of_tree(Program(program), tree, str(out)), Places(tree))


def compare(declarations: dict[str, dump.Declaration], places: Places) -> None:
    """All that the dump has stands where its name is, and nothing else has a place."""
    wanted = {}
    for name, one in declarations.items():
        wanted[name] = name.rpartition(".")[2]
        for member in one.members.values():
            wanted[f"{name}.{member.name}"] = member.name
            wanted.update({f"{name}.{member.name}/{number}": argument.name for number, argument in enumerate(member.arguments)})
    assert set(places.found) == set(wanted)
    for place, name in wanted.items():
        found = places.exact(place)
        assert found is not None and found.text[found.column - 1 : found.end - 1] == name


SOURCE = """package j; // a ; {
@VintfStability /* @FixedSize */ @FixedSize
parcelable P { @nullable /* x */ @utf8InCpp String s; int größer_not; }
""".replace(" int größer_not;", "")


@pytest.mark.parametrize("place, mark, at", [("j.P", "VintfStability", (2, 2)), ("j.P", "FixedSize", (2, 35)), ("j.P.s", "nullable", (3, 17)), ("j.P.s", "utf8InCpp", (3, 35)), ("j.P.s", "Backing", None), ("j.Q", "Hide", None)])
def test_annotations(tmp_path, place, mark, at):
    (tmp_path / "j").mkdir()
    (tmp_path / "j/P.aidl").write_text(SOURCE)
    found = Places(str(tmp_path)).annotation(place, mark)
    assert ((found.line, found.column) if found else None) == at


def test_annotations_of_arguments(tmp_path):
    (tmp_path / "I.aidl").write_text("interface I { void f(in @utf8InCpp String a, @nullable in String b); }")
    places = Places(str(tmp_path))
    assert [places.annotation(f"I.f/{number}", mark).column for number, mark in ((0, "utf8InCpp"), (1, "nullable"))] == [26, 47]
    assert places.annotation("I.f/0", "nullable") is None
