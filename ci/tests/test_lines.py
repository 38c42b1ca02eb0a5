"""`lines`: what it makes of lines, and that the table has a phrase, a reason and what to do instead for each rule."""

import os
import pathlib
import subprocess

import pytest
from aidl_ci.rules import rules

TOP = pathlib.Path(__file__).resolve().parents[2]
LINES = TOP / "ci/lines"
WIDE = "examples/wide/home/Lamp.aidl"
OTHER = b"yes\nC20 x.P\nC1\nok 4 types\n\\ \x01\r\n[\"C1 a\"]\nnone.aidl:3: syntax\n"


def filtered(text: bytes, *options: str, **more) -> subprocess.CompletedProcess:
    return subprocess.run([LINES, *options], cwd=more.pop("cwd", TOP), input=text, capture_output=True, timeout=60, check=False, **more)


@pytest.mark.parametrize("options", [(), ("--github",)])
def test_other_lines_stay(options):
    assert filtered(OTHER[:-20], *options).stdout == OTHER[:-20]


def test_a_fault_whose_file_is_gone_stays():
    assert filtered(b"none.aidl:3: syntax\n").stdout == b"none.aidl:3: syntax\n"
    assert filtered(b"none.aidl:3: syntax\n", "--words").stdout == b"none.aidl:3: syntax (unexpected token)\n"


def test_a_last_line_without_an_end_stays_so():
    assert filtered(b"yes").stdout == b"yes"


def test_a_column_counts_characters():
    assert filtered(f"{WIDE}:120: lex 4 BadNumber\n".encode()).stdout.decode() == f"{WIDE}:5:36: lex 4 BadNumber\n"


def test_the_source_below_a_fault():
    came = filtered(f"{WIDE}:120: lex 4 BadNumber\n".encode(), "--words").stdout.decode().splitlines()
    assert came == [f"{WIDE}:5:36: lex 4 BadNumber (digits and letters that are no number)", "    | /* größer als 0 */ int level = 08;"]


def test_annotations():
    text = f"{WIDE}:120: lex 4 BadNumber\nC4 x.I.f\n> C3 x.I/0\n".encode()
    came = [line for line in filtered(text, "--words", "--github").stdout.decode().splitlines() if line.startswith("::")]
    assert came == [
        f"::error file={WIDE},line=5,col=36::lex 4 BadNumber (digits and letters that are no number)",
        "::error::C4 x.I.f (transaction code changed)",
        "::error::> C3 x.I/0 (method removed or renamed)",
    ]


def test_a_path_in_an_annotation_is_escaped(tmp_path):
    folder = tmp_path / "a,b:c%d"
    folder.mkdir()
    (folder / "R.aidl").write_bytes(b"parcelable R { $ }")
    came = filtered(b"a,b:c%d/R.aidl:15: lex 1 BadByte\n", "--github", cwd=tmp_path).stdout.decode().splitlines()[1]
    assert came == "::error file=a%2Cb%3Ac%25d/R.aidl,line=1,col=16::lex 1 BadByte (a byte with which nothing starts)"


def test_a_long_line_is_cut_around_the_place(tmp_path):
    (tmp_path / "R.aidl").write_bytes(b"parcelable R { /*" + b"x" * 300 + b"*/ $ /*" + b"y" * 300 + b"*/ }")
    shown = filtered(b"R.aidl:320: lex 1 BadByte\n", "--words", cwd=tmp_path).stdout.decode().splitlines()[1]
    assert "$" in shown and len(shown) <= 160 + len("    | ")


def test_control_characters_of_a_source_are_blanks(tmp_path):
    (tmp_path / "R.aidl").write_bytes("parcelable R { /* \x1b[31m\r::stop-commands::x \u202e */ $ }".encode())
    shown = filtered("R.aidl:49: lex 1 BadByte\n".encode(), "--words", cwd=tmp_path).stdout
    assert not any(mark in shown for mark in (b"\x1b", b"\r", "\u202e".encode()))


def test_bytes_that_are_no_characters_count_as_one(tmp_path):
    (tmp_path / "R.aidl").write_bytes(b"/* \xff\xfe */ $")
    assert filtered(b"R.aidl:9: lex 1 BadByte\n", cwd=tmp_path).stdout == b"R.aidl:1:10: lex 1 BadByte\n"


def test_an_option_that_is_not_there_ends_with_2():
    came = filtered(b"C4 x\n", "--word")
    assert came.returncode == 2 and not came.stdout


def test_a_closed_pipe_ends_it_quietly():
    text = b"C4 x.I.f\n" * 100_000
    with subprocess.Popen([LINES], stdin=subprocess.PIPE, stdout=subprocess.PIPE, stderr=subprocess.PIPE) as job:
        job.stdout.close()
        try:
            job.stdin.write(text)
            job.stdin.close()
        except BrokenPipeError:
            pass
        assert job.stderr.read() == b""


@pytest.mark.parametrize("locale", ["C", "POSIX", "C.UTF-8"])
def test_the_locale_does_not_matter(locale):
    came = filtered(f"{WIDE}:120: lex 4 BadNumber\n".encode(), "--words", env={**os.environ, "LC_ALL": locale})
    assert "größer".encode() in came.stdout


def test_the_table_has_each_rule():
    codes = [f"lex {number}" for number in range(1, 5)] + ["syntax"] + [f"E{number}" for number in range(1, 25)] + [f"C{number}" for number in range(1, 20)]
    assert list(rules()) == codes
    assert len({rule.phrase for rule in rules().values()}) == len(codes)
    for rule in rules().values():
        assert 0 < len(rule.phrase.split()) <= 14 and rule.reasons and rule.insteads


def cells(line: str) -> list:
    return [cell.strip() for cell in line.strip().strip("|").split(" | ")]


@pytest.mark.parametrize("code", list(rules()))
def test_the_table_says_what_the_page_says(code):
    """Each reason and each *Instead* is a cell of a row of the page that has the rule, and the page has no other."""
    rule = rules()[code]
    page = (TOP / rule.page).read_text(encoding="utf-8")
    assert f"## {rule.title}\n" in page
    if code.startswith("C"):
        rows = [cells(line) for line in page.splitlines() if line.startswith("| ") and f"| `{code} " in line]
        found = [(row[3], row[4]) for row in rows if len(row) == 6]
    else:
        heads = (f"| {code} ", f"| `{code} ", f"| `{code}`")
        found = [(row[1], row[-1]) for row in map(cells, (line for line in page.splitlines() if line.startswith(heads)))]
    assert set(rule.reasons) == {reason for reason, _ in found}
    assert set(rule.insteads) == {instead for _, instead in found}
