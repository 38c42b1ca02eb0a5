"""What of `compare` and `fetch` can be tried without Android's tools: python3 -m pytest -q tools/android/tests"""
import importlib.machinery
import importlib.util
import pathlib
import random
import sys

import pytest

HERE = pathlib.Path(__file__).resolve().parent.parent
sys.path.insert(0, str(HERE))

from beside.base import Counts, Options, Sabotage  # noqa: E402
from beside.classes import classes, heading_of, repeated  # noqa: E402
from beside.draw import draw_tree  # noqa: E402
from beside.dumps import has_other_names, has_other_shifts  # noqa: E402
from beside.edits import EDITS, Editor, edited  # noqa: E402
from beside.pairs import mentioned, with_imports  # noqa: E402
from beside.reading import is_of  # noqa: E402
from beside.translate import NOTICE_END, NOTICE_LINE, Translator, number_of, split, value_text  # noqa: E402

PLAIN = Options(pathlib.Path("program"), pathlib.Path("home"))


def fetch_module():
    """The script `fetch`, as a module."""
    loader = importlib.machinery.SourceFileLoader("fetch", str(HERE / "fetch"))
    module = importlib.util.module_from_spec(importlib.util.spec_from_loader("fetch", loader))
    loader.exec_module(module)
    return module


@pytest.mark.parametrize("text, entry", [
    ("Types: deb\nURIs: http://m/debian\nSuites: bookworm bookworm-updates\nComponents: main\nSigned-By: /k.gpg\n",
     {"Types": "deb", "URIs": "http://m/debian", "Suites": "bookworm bookworm-updates", "Components": "main", "Signed-By": "/k.gpg"}),
    ("# a comment\nTypes: deb\n# another\nURIs: http://m/debian\nSuites: sid\nComponents:\n main\n contrib\n",
     {"Types": "deb", "URIs": "http://m/debian", "Suites": "sid", "Components": "main contrib"}),
])
def test_a_deb822_entry_is_read(text, entry):
    assert list(fetch_module().stanzas(text)) == [entry]


def test_an_entry_that_is_off_is_left_out():
    assert not list(fetch_module().stanzas("Enabled: no\nTypes: deb\nURIs: http://m/debian\nSuites: sid\nComponents: main\n"))


@pytest.mark.parametrize("line, signed", [
    ("deb http://m/debian bookworm main contrib", None),
    ("deb [arch=amd64 signed-by=/k.gpg] http://m/debian bookworm main contrib", "/k.gpg"),
])
def test_a_one_line_entry_is_read(line, signed):
    entry, = fetch_module().one_lines("# deb http://other/debian sid main\n" + line + "\n")
    assert (entry["URIs"], entry["Suites"], entry["Components"], entry.get("Signed-By")) == ("http://m/debian", "bookworm", "main contrib", signed)


@pytest.mark.parametrize("text, parts", [
    ("1, (2 + 3) /* 5 */", ["1", "(2 + 3) /* 5 */"]),
    ("((1 << 3) - 8) /* 0 */, (-1) /* -1 */", ["((1 << 3) - 8) /* 0 */", "(-1) /* -1 */"]),
    ('"a, b", "/*"', ['"a, b"', '"/*"']),
    ("", []),
])
def test_members_of_a_list(text, parts):
    assert split(text) == parts


@pytest.mark.parametrize("text, value", [
    ("7", "7"), ("(1 << 3) /* 8 */", "8"), ('("x" + "y") /* "xy" */', '"xy"'), ('"a /* b */"', '"a /* b */"'), ("a.E.B /* 3 */", "3"),
])
def test_the_value_behind_an_expression(text, value):
    assert value_text(text) == value


@pytest.mark.parametrize("text, number", [
    ("10", 10), ("-5", -5), ("0x10", 16), ("0xffffffff", -1), ("0xffffffffL", 4294967295), ("0xffffffffff", 1099511627775), ("16L", 16),
    ("0x8000000000000000", -(1 << 63)),
])
def test_the_number_of_a_literal(text, number):
    assert number_of(text) == number


DUMP = NOTICE_LINE + "// THIS FILE IS IMMUTABLE\n" + NOTICE_END + """package a;
/* @hide */
@JavaDerive(equals=true) @FixedSize
parcelable Z {
  @UnsupportedAppUsage @nullable(heap=false) a.S s;
  long h = 0x10;
  a.Z.E e = a.Z.E.B;
  const int Q = (1 + 1) /* 2 */;
  const int A = 1;
  enum E {
    A = 3,
    B = 3,
    C,
  }
}
"""
OURS = """package a;
@FixedSize parcelable Z {
  @nullable a.S s;
  long h = 16L;
  a.Z.E e = a.Z.E.A;
  const int A = 1;
  const int Q = 2;
  @Backing(type="byte") enum E {
    A = 3,
    B = 3,
    C = 4,
  }
}
"""


def test_a_dump_is_rewritten_by_the_rules():
    assert Translator({"a/Z.aidl": DUMP}, lambda rule: True).texts() == {"a/Z.aidl": OURS}


def test_each_rule_that_a_dump_needs_changes_it():
    needed = [rule for rule in classes(PLAIN, "dumps") if Translator({"a/Z.aidl": DUMP}, lambda name, rule=rule: name != rule).texts() != {"a/Z.aidl": OURS}]
    assert {"notice", "comments", "literals", "first-enumerator", "byte-backing", "constant-order", "heap-false", "enumerator-values"} <= set(needed)


def test_names_with_more_parts_are_another_meaning():
    assert has_other_names("  B b;\n", "  a.R.B b;\n")
    assert not has_other_names("  B b;\n", "  a.R.C b;\n") and not has_other_names("  B b;\n", "  B b;\n  int a;\n")


def test_a_shift_of_a_name_has_another_width():
    assert has_other_shifts("  long a = 3221225472L;\n", "  long a = -1073741824L;\n", "  long a = (K << 30) /* -1073741824 */;\n")
    assert not has_other_shifts("  long a = 5L;\n", "  long a = 6L;\n", "  long a = (1 + 4) /* 6 */;\n")


def test_a_fault_is_of_a_class_by_its_place():
    row = {"faults": [{"code": "syntax", "at": "@", "before": "oneway\\s+"}]}
    text = "interface I { oneway @X void f(); }"
    assert is_of(row, text, text.index("@"), "syntax")
    assert not is_of(row, text, text.index("void"), "syntax") and not is_of(row, text, text.index("@"), "lex 4 BadNumber")


def test_what_is_repeated_in_an_example():
    assert repeated("{ {{3*int f#; }} }") == "{ int f0; int f1; int f2;  }"


def test_the_anchor_of_a_heading():
    assert heading_of("## What `judge` refuses and `--checkapi` accepts") == "what-judge-refuses-and---checkapi-accepts"


def test_neighbours_are_imported_once():
    files = with_imports({"a/R.aidl": "package a; parcelable R { S s; }", "a/S.aidl": "package a; import a.R; parcelable S { R[] r; }"})
    assert files == {"a/R.aidl": "package a; import a.S; parcelable R { S s; }", "a/S.aidl": "package a; import a.R; parcelable S { R[] r; }"}


def test_the_packages_that_lines_name():
    assert mentioned(["ERROR: their.old/p12/T1.aidl:3: x", "C10 p3.T1.a", "step 4"]) == {"p12", "p3"}


def test_an_answer_is_turned_once():
    sabotage = Sabotage("judge")
    assert [sabotage.turn("other", "yes"), sabotage.turn("judge", "yes"), sabotage.turn("judge", "yes")] == ["yes", "yesx", "yes"]


def test_a_tree_of_a_seed_is_the_same_each_time():
    assert draw_tree("seed", "p1").files() == draw_tree("seed", "p1").files()


@pytest.mark.parametrize("name", sorted(EDITS))
def test_each_edit_is_made_on_some_tree(name):
    for number in range(60):
        before = draw_tree(f"{number}", "p1")
        editor = Editor(random.Random(number), before.copy())
        if EDITS[name](editor) and editor.tree.files() != before.files():
            return
    pytest.fail(f"{name} changed none of 60 trees")


def test_so_many_edits_are_made():
    tree, names = edited(random.Random(1), draw_tree("x", "p1"), 3)
    assert len(names) == 3 and tree.files()


def test_differences_are_printed_without_control_characters():
    counts = Counts()
    counts.differ("a\x1b[31mb\n")
    assert list(counts.lines()) == ["unexplained: a [31mb "]
