"""`report`: what it says is what the program says, in each of its forms; and it says nothing beside a program that doesn't answer as its pages say."""

from __future__ import annotations

import html.parser
import json
import os
import pathlib
import re
import subprocess
import sys

import pytest
from aidl_ci import report
from aidl_ci.guard import Fault
from aidl_ci.program import Program
from aidl_ci.report.model import Report
from pairs import TOP, put, worked

REPORT = TOP / "ci/report"
FAN = ("examples/fan/1", "examples/fan/2")
VOID = ("meta", "br", "hr")


class Page(html.parser.HTMLParser):
    """Reads a page, and fails where an element isn't closed, where it could run something, or where it needs something from outside."""

    def __init__(self) -> None:
        super().__init__()
        self.open: list[str] = []
        self.text: list[str] = []

    def handle_starttag(self, tag, attrs):
        assert tag not in ("script", "img", "link", "iframe", "object", "embed", "a", "base", "form"), tag
        assert not [name for name, _ in attrs if name in ("href", "src", "style") or name.startswith("on")], attrs
        if tag not in VOID:
            self.open.append(tag)

    def handle_endtag(self, tag):
        assert self.open.pop() == tag, tag

    def handle_data(self, data):
        self.text.append(data)


def read_page(text: str) -> str:
    """The text of a page that is whole and needs nothing."""
    page = Page()
    page.feed(text)
    page.close()
    assert page.open == [] and "url(" not in text and "@import" not in text
    return "".join(page.text)


def made(program: pathlib.Path, old: str = "o", new: str = "n", **more) -> Report:
    return report.made(Program(program), old, new, **more)


def ran(program: pathlib.Path, *words: str) -> subprocess.CompletedProcess:
    return subprocess.run([program, *words], capture_output=True, check=False)


@pytest.fixture
def pair(tmp_path, monkeypatch):
    """Puts a pair of trees into a folder, and works there."""
    monkeypatch.chdir(tmp_path)
    return lambda files: put(tmp_path, files)


@pytest.mark.parametrize("files", [pytest.param(files, id=where) for where, files in worked()])
def test_what_is_said_is_what_the_program_says(program, pair, files):
    pair(files)
    judged = ran(program, "judge", "o", "n")
    if judged.returncode == 7 or any(ran(program, "check", one).stdout == b"ok 0 types\n" for one in "on"):
        with pytest.raises(Fault):
            made(program)
        return
    came = made(program)
    assert came.status == judged.returncode
    lines = [line for line in judged.stdout.decode().splitlines() if re.match(r"C\d", line)]
    assert sorted(line.rule.line() for cause in came.causes for line in cause.lines) == sorted(lines)
    check_places(came)
    check_bytes(came)
    check_forms(came, lines)


def check_places(came: Report) -> None:
    """Each declaration, member and argument of the dumps has its place in the sources, and each line of the judge one."""
    for tree in came.trees if not came.faulty else []:
        for name, one in tree.declarations.items():
            assert at_name(tree, name)
            for member in one.members.values():
                assert at_name(tree, f"{name}.{member.name}")
                for number, argument in enumerate(member.arguments):
                    place = tree.places.exact(f"{name}.{member.name}/{number}")
                    assert place and place.text[place.column - 1 : place.end - 1] == argument.name
    assert all(line.at() for cause in came.causes for line in cause.lines)


def at_name(tree, name: str) -> bool:
    place = tree.places.exact(name)
    return place is not None and place.text[place.column - 1 : place.end - 1] == name.rpartition(".")[2]


def check_bytes(came: Report) -> None:
    """The rows of a table are its bytes from the first to the last."""
    for cause in came.causes:
        offset = 0
        for row in cause.shown.rows if cause.shown else []:
            assert row.at == offset and (row.wrote or row.reads)
            offset += len(row.data)


def check_forms(came: Report, lines: list[str]) -> None:
    """Every form says each line; the page and the log are whole."""
    texts = {form: make(came) for form, make in report.FORMS.items()}
    page = read_page(texts["html"])
    log = json.loads(texts["sarif"])["runs"][0]
    warned = sum(len(step.warned) for step in came.steps)
    faults = sum(len(tree.faults) for tree in came.faulty)
    assert len(log["results"]) == len(lines) + warned + faults == len(texts["github"].splitlines())
    assert {one["ruleId"] for one in log["results"]} == {one["id"] for one in log["tool"]["driver"]["rules"]}
    assert all(one["locations"] and one["message"]["text"] for one in log["results"])
    for line in lines:
        assert line in texts["text"] and f"`{line}`" in texts["markdown"] and f"title={line}::" in texts["github"] and line in page
    assert all(re.match(r"::(error|warning) file=[^,]+,line=\d+,col=\d+", line) for line in texts["github"].splitlines())


def test_what_is_new_since_each_version(program, monkeypatch):
    monkeypatch.chdir(TOP)
    came = made(program, "examples/lights_api", "examples/lights/3", api=True)
    assert came.good and [len(step.added) for step in came.steps] == [1, 2, 0]
    label, reset, camera = (one for step in came.steps for one in step.added)
    assert label.means == "a new reader sees null of an old sender; an old reader drops it" and label.at.at() == "examples/lights_api/2/lights/LightState.aidl:6:20"
    assert reset.means == "an old service answers -74 UNKNOWN_TRANSACTION"
    assert camera.means == "an old reader sees 3, without a name"
    since = {member.name: tree.title for _, _, members in came.since() for member, tree in members}
    assert (since["color"], since["label"], since["reset"]) == ("version 1", "version 2", "version 3")


def test_a_default_is_what_the_program_reads(program, pair):
    pair([("o/P.aidl", "parcelable P { int a; }"), ("n/P.aidl", "parcelable P { int a; int b = 1 << 3; String[] c = {}; @nullable String d; }")])
    assert [one.means.split(" of ")[0] for one in made(program).steps[0].added] == ["a new reader sees 8", "a new reader sees []", "a new reader sees null"]


def test_a_new_member_of_a_union_and_a_new_type(program, pair):
    pair([("o/U.aidl", "union U { int a; }"), ("n/U.aidl", "union U { int a; String b; }"), ("n/Q.aidl", "parcelable Q { int a; parcelable R { } }")])
    assert [(one.kind, one.place, one.means) for one in made(program).steps[0].added] == [
        ("parcelable", "Q", "a type that the older version doesn't know"),
        ("union member", "U.b", "an old reader refuses it: -22 BAD_VALUE"),
    ]


JAVA = [
    ("int a; String s;", "int a;", True),
    ("int a; int[] s;", "int a;", True),
    ("int a; List<String> s;", "int a;", True),
    ("int a; String s;", 'int a; String s = "";', True),
    ("int a; int[] s;", "int a; int[] s = {};", True),
    ('int a; String s = "";', "int a;", False),
    ("int a; @nullable String s;", "int a;", False),
    ("int a; int s;", "int a;", False),
    ("int a; String s;", "int a; String s;", False),
]


@pytest.mark.parametrize("new, old, warned", JAVA)
def test_a_field_without_a_default_in_java(program, pair, new, old, warned):
    pair([("o/j/P.aidl", f"package j; parcelable P {{ {old} }}"), ("n/j/P.aidl", f"package j; parcelable P {{ {new} }}")])
    came = made(program)
    told = "j.P.s has no default in Java; Android 14's own check refuses it"
    assert came.good and (came.status, [one.says() for one in came.steps[0].warned]) == (0, [told] if warned else [])
    texts = {form: make(came) for form, make in report.FORMS.items()}
    assert all((told.replace("'", "&#39;") if form == "html" else told) in text for form, text in texts.items()) is warned


CAUSES = [
    ("field b was put before c", "parcelable R { int a; int c; int d; }", "parcelable R { int a; int b; int c; int d; }", 2),
    ("field b was taken out", "parcelable R { int a; int b; int c; }", "parcelable R { int a; int c; }", 2),
    ("the fields a, b were put in another order", "parcelable R { int a; int b; }", "parcelable R { int b; int a; }", 2),
    ("field a became b", "parcelable R { int a; int c; }", "parcelable R { long b; int c; }", 2),
    ("method b is gone", "interface R { void a(); void b(); }", "interface R { void a(); }", 1),
    ("method b was taken out", "interface R { void a(); void b(); void c(); void d(); }", "interface R { void a(); void c(); void d(); }", 3),
    ("method b was put before c", "interface R { void a(); void c(); }", "interface R { void a(); void b(); void c(); }", 1),
    ("method f changed", "interface R { int f(int a, int b); }", "interface R { long f(long a); }", 3),
    ("enumerator X was put before A", "enum R { A, B, C }", "enum R { X, A, B, C }", 3),
    ("enumerator B is gone", "enum R { A, B }", "enum R { A }", 1),
    ("member b was put before c", "union R { int a; int c; }", "union R { int a; int b; int c; }", 1),
    ("parcelable R is gone", "parcelable R { parcelable S { } }", "", 2),
]


@pytest.mark.parametrize("head, old, new, lines", CAUSES)
def test_one_cause_is_one_entry(program, pair, head, old, new, lines):
    pair([("o/R.aidl", old), *([("n/R.aidl", new)] if new else []), ("o/T.aidl", "parcelable T { }"), ("n/T.aidl", "parcelable T { }")])
    causes = made(program).causes
    assert [(cause.head.partition(": ")[2] or cause.head, len(cause.lines)) for cause in causes] == [(head, lines)]


def test_a_default_that_an_enum_changed_is_of_the_enums_cause(program, pair):
    use = "package j; parcelable P { j.E e = j.E.A; }"
    pair([("o/j/E.aidl", "package j; enum E { A, B }"), ("n/j/E.aidl", "package j; enum E { X, A, B }"), ("o/j/P.aidl", use), ("n/j/P.aidl", use)])
    assert [[line.rule.code for line in cause.lines] for cause in made(program).causes] == [["C17", "C17", "C12"]]


def test_a_package_that_was_renamed_is_one_cause(program, pair):
    types = {"A": "parcelable A { int a; }", "B": "parcelable B { PACKAGE.A a; }", "I": "interface I { void f(in PACKAGE.B b); }"}
    pair([(f"{folder}/{package}/{name}.aidl", f"package {package}; {text.replace('PACKAGE', package)}") for folder, package in (("o", "x"), ("n", "y")) for name, text in types.items()])
    assert [(cause.head, len(cause.lines)) for cause in made(program).causes] == [("package x became y", 3)]


def test_a_call_is_made_where_witness_has_none(program, pair):
    use = "package j; interface I { void set(in int id, in j.S s); }"
    pair([("o/j/S.aidl", "package j; parcelable S { int a; int b; }"), ("n/j/S.aidl", "package j; parcelable S { int b; int a; }"), ("o/j/I.aidl", use), ("n/j/I.aidl", use)])
    shown = made(program).causes[0].shown
    assert (shown.kind, shown.by, shown.name, shown.silent) == ("call", "made", "j.I.set", True)
    assert [(row.wrote.text, row.reads.text) for row in shown.rows if row.differs] == [("s.a = 3", "s.b = 3"), ("s.b = 4", "s.a = 4")]


def test_null_where_nullable_was_taken_off_is_a_value_and_no_call(program, pair):
    pair([("o/P.aidl", "parcelable P { @nullable String a; int b; }"), ("n/P.aidl", "parcelable P { String a; int b; }")])
    shown = made(program).causes[0].shown
    assert (shown.kind, shown.silent, shown.read) == ("value", False, "status -2147483640 UNEXPECTED_NULL")
    assert "a value" in shown.head().lower() and "no call" in shown.head()
    assert [row.wrote.text for row in shown.rows if row.differs][0] == "P.a is null"


def test_the_place_is_that_of_an_annotation(program, pair):
    pair([("o/P.aidl", "@FixedSize\nparcelable P { int a; }"), ("n/P.aidl", "parcelable P { int a; }")])
    line = made(program).causes[0].lines[0]
    assert (line.old.at(), line.new.at()) == ("o/P.aidl:1:2", "n/P.aidl:1:12")


def test_the_faults_of_a_tree_have_their_places(program, pair):
    pair([("o/P.aidl", "parcelable P {\n  Foo a;\n}\n"), ("n/P.aidl", "parcelable P { }")])
    came = made(program)
    assert (came.status, came.verdict()) == (1, "1 fault, so nothing was judged")
    assert report.text(came).splitlines()[1:] == ["o/P.aidl:2:3: E4 UnknownType (no such type)", "    | Foo a;"]
    check_forms(came, [])


def test_a_version_that_is_not_intact(program, tmp_path, monkeypatch):
    monkeypatch.chdir(tmp_path)
    subprocess.run(["cp", "-r", TOP / "examples/lights_api", "api"], check=True)
    (tmp_path / "api/2/.hash").write_text("0\n")
    came = made(program, "api", str(TOP / "examples/lights/3"), api=True)
    assert (came.status, came.verdict()) == (1, "1 frozen version not intact") and "verify: 2 kept 300a " in report.text(came)


def test_the_markdown_fits_a_comment(program, pair):
    fields = [f"int a_field_with_a_long_name_{number};" for number in range(700)]
    pair([("o/P.aidl", f"parcelable P {{ {' '.join(fields)} }}"), ("n/P.aidl", f"parcelable P {{ int x; {' '.join(fields)} }}")])
    assert len(report.markdown(made(program))) < 65536


def command(program: pathlib.Path, *words, **more) -> subprocess.CompletedProcess:
    return subprocess.run([sys.executable, REPORT, *map(str, words)], cwd=more.pop("cwd", TOP), capture_output=True, check=False, timeout=300, env={**os.environ, "AIDL": str(program), **more})


def test_the_command_writes_all_forms_at_once(program, tmp_path):
    came = command(program, "--html", tmp_path / "page.html", "--sarif", tmp_path / "log.sarif", "--markdown", "--github", *FAN)
    assert came.returncode == 1 and came.stderr == b""
    read_page((tmp_path / "page.html").read_text(encoding="utf-8"))
    assert len(json.loads((tmp_path / "log.sarif").read_text())["runs"][0]["results"]) == 2
    assert came.stdout.count(b"::error file=examples/fan/2/fan/Speed.aidl,line=") == 2 and b"## " in came.stdout


@pytest.mark.parametrize("words", [(), ("a",), ("--api", "a"), ("--what", *FAN), ("--html", "x", "--api", "examples/lights_api", *FAN)])
def test_a_faulty_command_line_ends_with_2(program, words):
    assert command(program, *words).returncode == 2


def test_help(program):
    came = command(program, "--help")
    assert came.returncode == 0 and b"--sarif FILE" in came.stdout


def test_without_jinja2_one_line_says_so(program, tmp_path):
    (tmp_path / "jinja2.py").write_text("raise ImportError('none')\n")
    came = command(program, "--html", tmp_path / "page.html", *FAN, PYTHONPATH=str(tmp_path))
    assert (came.returncode, came.stderr) == (2, b"report: the page wants jinja2, which isn't there (Debian's python3-jinja2 is it)\n")
    assert command(program, *FAN, PYTHONPATH=str(tmp_path)).returncode == 1


LIES = {
    "exit 3": "exit 3",
    "exit 5 behind a rule": "echo C1 a; exit 5",
    "nothing, exit 0": "exit 0",
    "nothing, exit 1": "exit 1",
    "a signal": "kill -9 $$",
    "yes and exit 1": '[ "$1" = judge ] && { echo yes; exit 1; }; exec "$REAL" "$@"',
    "rules and exit 0": '[ "$1" = judge ] && { echo C1 fan.IFan; exit 0; }; exec "$REAL" "$@"',
    "no rules and exit 1": '[ "$1" = judge ] && exit 1; exec "$REAL" "$@"',
    "witness says yes": '[ "$1" = witness ] && { echo yes; exit 0; }; exec "$REAL" "$@"',
    "both say yes with exit 1": 'case $1 in judge|witness) echo yes; exit 1;; esac; exec "$REAL" "$@"',
    "witness leaves a rule out": '[ "$1" = witness ] && { "$REAL" "$@" | tail -n +5; exit 1; }; exec "$REAL" "$@"',
    "a rule that isn't there": 'case $1 in judge) echo C20 fan.Speed;; witness) echo C20 fan.Speed; echo none no candidate;; *) exec "$REAL" "$@";; esac; exit 1',
    "a rule twice": 'case $1 in judge) echo C10 fan.Speed.low; echo C10 fan.Speed.low; exit 1;; *) exec "$REAL" "$@";; esac',
    "a place that isn't there": 'case $1 in judge) echo C10 x.Y.z;; witness) echo C10 x.Y.z; echo none no candidate;; *) exec "$REAL" "$@";; esac; exit 1',
    "a cut line": '[ "$1" = judge ] && { printf "C10 fan.Speed.hi"; exit 1; }; exec "$REAL" "$@"',
    "a call of another method": '[ "$1" = witness ] && { "$REAL" "$@" | sed s/fan.IFan.turn/fan.IFan.stop/; exit 1; }; exec "$REAL" "$@"',
    "explain leaves bytes out": '[ "$1" = explain ] && { "$REAL" "$@" | sed 2d; exit 0; }; exec "$REAL" "$@"',
    "explain names a field that isn't there": '[ "$1" = explain ] && { "$REAL" "$@" | sed s,/low,/lower,; exit 0; }; exec "$REAL" "$@"',
    "a dump with another line": '[ "$1" = dump ] && { "$REAL" "$@" && echo "mystery;" >> "$3/fan/Speed.aidl"; exit 0; }; exec "$REAL" "$@"',
    "a dump without a file": '[ "$1" = dump ] && { "$REAL" "$@" && rm "$3/fan/Speed.aidl"; exit 0; }; exec "$REAL" "$@"',
    "another number of types": '[ "$1" = check ] && { echo ok 3 types; exit 0; }; exec "$REAL" "$@"',
    "a fault of a rule that isn't there": '[ "$1" = check ] && { echo x.aidl:1: E25 New; exit 1; }; exec "$REAL" "$@"',
    "a limit": '[ "$1" = judge ] && { echo limit files 4096; exit 7; }; exec "$REAL" "$@"',
}


@pytest.mark.parametrize("lie", LIES)
def test_beside_a_program_that_lies_there_is_no_page(program, tmp_path, lie):
    liar = tmp_path / "aidl"
    liar.write_text(f"#!/bin/sh\nREAL={program}\n{LIES[lie]}\n")
    liar.chmod(0o755)
    came = command(liar, "--html", tmp_path / "page.html", "--sarif", tmp_path / "log", "--markdown", *FAN)
    assert (came.returncode, came.stdout) == (2, b"") and came.stderr.startswith(b"report: ") and len(came.stderr.splitlines()) == 1
    assert sorted(path.name for path in tmp_path.iterdir()) == ["aidl"]


def test_without_a_program_there_is_no_page(tmp_path):
    assert command(tmp_path / "none", "--html", tmp_path / "page.html", *FAN).returncode == 2
    assert not (tmp_path / "page.html").exists()


NASTY = "<script>alert(1)</script> ::error::x %0A \x1b[31m \r::stop-commands::x \u202e\u2066 `code` | &amp; \"'"
STRING = "<script>x</script>::error::`|&%25'"


def without_code(markdown: str) -> str:
    """The text outside blocks and spans of code, which end at as many backticks as they begin with."""
    return re.sub(r"(?<!`)(`+)(?!`).*?(?<!`)\1(?!`)", "", markdown, flags=re.S)


def hostile(fields: str) -> str:
    return f"package j; /* {NASTY} \udcff\udcfe */ parcelable P {{ /*{NASTY}*/ {fields} }} // {NASTY}\n"


def test_sources_can_not_become_markup_or_commands(program, pair):
    pair([("o/j/P.aidl", hostile(f'int a; String s = "{STRING}"; const String K = "{STRING}";')), ("n/j/P.aidl", hostile(f'String s = "{STRING}2"; int a; const String K = "{STRING}2"; int z;'))])
    came = made(program)
    texts = {form: make(came) for form, make in report.FORMS.items()}
    read_page(texts["html"])
    for form, text in texts.items():
        text.encode("utf-8")
        assert not re.search(r"[\x00-\x09\x0b-\x1f\x7f-\x9f\u200b-\u200f\u202a-\u202e\u2066-\u2069]", text), form
    assert all(re.match(r"::(error|warning) file=", line) for line in texts["github"].splitlines())
    assert not any(line.startswith("::") for form in ("text", "markdown", "html") for line in texts[form].splitlines())
    assert "<script" not in texts["html"] and "<script" in texts["markdown"] and "<script" not in without_code(texts["markdown"])


def test_names_of_folders_can_not_become_markup_or_commands(program, tmp_path, monkeypatch):
    monkeypatch.chdir(tmp_path)
    names = ["o<script>\n::error::x", "n`|\x1b[31m"]
    put(tmp_path, [("o/P.aidl", "parcelable P { int a; }"), ("n/P.aidl", "parcelable P { long a; }")])
    for name, old in zip(names, "on"):
        (tmp_path / old).rename(tmp_path / name)
    came = made(program, *names)
    read_page(report.page(came))
    assert len(report.github(came).splitlines()) == 1 and "\x1b" not in report.text(came)
    assert not any(line.startswith("::") for form in (report.text, report.markdown) for line in form(came).splitlines())
    assert "<script" not in without_code(report.markdown(came))
