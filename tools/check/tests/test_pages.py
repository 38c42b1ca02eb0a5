"""What the checks of pages find: wrong sentences, cells, blocks and names, each put into a page as it is."""

import pathlib
import re

import page_blocks
import page_commands
import page_figures
import page_names
import page_tables
import pages
import pytest

TOP = pathlib.Path(__file__).resolve().parents[3]
# a page, what is replaced in it (a regular expression, where it stands first), and by what
SENTENCES = [
    ("tools/**/README.md", r"`compare", "`hosts.cpp`, `compare"),
    ("docs/CI.md", r"\n\*\*Before the first freeze", "\n```bash\n$ ./aidl judge examples/lights/1 examples/lights/1\nno\n```\n\n**Before the first freeze"),
    ("docs/CI.md", r"\n\*\*Before the first freeze", "\n```console title\n$ ./aidl check examples/lights/1\nok 17 types\n```\n\n**Before the first freeze"),
    ("docs/CI.md", r"\n\*\*Before the first freeze", "\n```\n$ ./aidl check examples/lights/1\nok 17 types\n```\n\n**Before the first freeze"),
    ("docs/CI.md", r"\n\*\*Before the first freeze", "\n    $ ./aidl check examples/lights/1\n    ok 17 types\n\n**Before the first freeze"),
    ("docs/CI.md", r"\n\*\*Before the first freeze", "\n~~~console\n$ ./aidl check examples/lights/1\nok 17 types\n~~~\n\n**Before the first freeze"),
    ("docs/EVOLUTION.md", r"```console\n", "```console\n> ./aidl judge old new\nC99 fan.Speed\n"),
    ("docs/EVOLUTION.md", r"```console\n", "```console\n$ cp nothing nowhere\n"),
    ("docs/EVOLUTION.md", r"```console\n", "```console\n$ ./aidl judge\nrefused words\n"),
    ("docs/EVOLUTION.md", r"```console\n", "```console\n$ ls nothing; echo\n\n"),
    ("docs/EVOLUTION.md", r"C9 lights\.LightState", "C9 lights.LightStat"),
    ("docs/BYTES.md", r"`80ffffff`", "`80fffffe`"),
    ("docs/BYTES.md", r"\| `01000000 04000000` \| `\{\"a\":0", "| `01000000 04000000` | `{\"a\":1"),
    ("docs/BYTES.md", r"\| `byte` \| `80000000` \| `-128` \|", "| `byte` | `80000000` | `-127` |"),
    ("docs/BYTES.md", r"\| `int\[\]` \| `feffffff` \| UNEXPECTED_NULL \| BAD_VALUE \|", "| `int[]` | `feffffff` | UNEXPECTED_NULL | UNEXPECTED_NULL |"),
    ("docs/EVOLUTION.md", r"`C18 j\.P\.K`", "`C17 j.P.K`"),
    ("docs/EVOLUTION.md", r"`C7 j\.I\.x/0`", "`C6 j.I.x/0`"),
    ("docs/WITNESS.md", r"`read status -61`; `projected returned 0", "`read status -22`; `projected returned 0"),
    ("docs/WITNESS.md", r"\| `call <` with `\[0\]`", "| `call >` with `[0]`"),
    ("docs/WITNESS.md", r"-2147483640", "-2147483641"),
    ("docs/WITNESS.md", r"-61 NOT_ENOUGH_DATA", "-22 NOT_ENOUGH_DATA"),
    ("README.md", r"\| 7 \| a limit", "| 6 | a limit"),
    ("README.md", r"\| 3, 4, 6 \| a call", "| 3, 4, 7 | a call"),
    ("docs/CI.md", r"\| 5 \| out of memory", "| 4 | out of memory"),
    ("docs/PROGRAM.md", r"exit 7(?=[^\n]*\n)", "exit 6"),
    ("docs/PROFILE.md", r"\| 65,536 \|", "| 65,535 |"),
    ("docs/PROFILE.md", r"\| 262,144 \|", "| 262,143 |"),
    ("docs/PROGRAM.md", r"more than 65,536 lines", "more than 65,535 lines"),
    ("docs/PROGRAM.md", r"`limit nesting 16`", "`limit nesting 17`"),
    ("docs/VERSIONS.md", r"`versions`, a number above 9,999", "`versions`, a number above 9,998"),
    ("docs/BYTES.md", r"\[\"52<br>", "[\"53<br>"),
    ("docs/CALLS.md", r"\| 60 \| `ff000000`", "| 61 | `ff000000`"),
    ("docs/EXPLAIN.md", r"\| `4 ffffffff ", "| `4 fffffffe "),
    ("docs/HEADLINE.md", r"Its ten fields", "Its eleven fields"),
    ("docs/**/PROVING.md", r"now (\d+) crates have \d+", r"now \1 crates have 308"),
    ("docs/**/PERFORMANCE.md", r"largest_values\.py FOLDER", "largest_valuez.py FOLDER"),
    ("docs/CI.md", r"run: ci/check-api", "run: ci/check-apo"),
    ("docs/EVOLUTION.md", r"\"My job says C10\"|#my-job-says-c10", lambda found: found[0].replace("10", "11")),
    ("docs/PROFILE.md", r"\"An AOSP module\"|#an-aosp-module", lambda found: found[0].replace("AOSP", "Entrance").replace("aosp", "entrance")),
    ("docs/**/PROVED.md", r"\n## ", "\n`law_shown` of `json_values` says it.\n\n## "),
    ("docs/**/PROVED.md", r"\n## ", "\n`aidl_lexer::GrowingText` says it.\n\n## "),
    ("docs/**/PROVED.md", r"\n## ", "\nThe clause `shown` of `aidl_lexer::lex` says it.\n\n## "),
    ("docs/EVOLUTION.md", r"`broken old new`|`judge`", "`breachings`"),
    ("docs/CHECKS.md", r"E7 DivideByZero", "E7 DivideByNought"),
    ("docs/CHECKS.md", r"E3 UnknownImport", "E4 UnknownImport"),
    ("docs/CI.md", r"`C1` to `C19`", "`C1` to `C20`"),
    ("docs/CALLS.md", r"`--lenient`", "`--lenien`"),
    ("docs/CHECKS.md", r"lex 4 BadNumber\nt", "lex 3 BadNumber\nt"),
]


@pytest.fixture(scope="module")
def names() -> page_names.Names:
    return page_names.Names()


def of_text(page: pathlib.Path, text: str, names: page_names.Names) -> set:
    """What the checks say of a text without running anything."""
    name = pages.name_of(page)
    found = [*page_blocks.wrong(text, page.name, name.split("/")[0]), *page_figures.wrong(name, text), *page_names.wrong(name, text, names)]
    return {what for _, what in found}


def of_runs(page: pathlib.Path, text: str, at: int, program: pathlib.Path) -> bool:
    """Whether something comes otherwise of what a page runs: the block around a place, or, where it is in none, the tables."""
    blocks = re.finditer(r"^```.*?^```\n", text, re.M | re.S)
    block = next((it[0] for it in blocks if it.start() <= at < it.end()), "")
    return any(page_commands.wrong(block, program) if block else page_tables.wrong(pages.name_of(page), text, program))


@pytest.mark.parametrize("where, old, new", SENTENCES)
def test_a_wrong_sentence_is_found(where, old, new, names, program):
    page = next((it for it in sorted(TOP.glob(where)) if re.search(old, it.read_text())), None)
    if page is None:
        pytest.skip(f"{where} doesn't say {old}")
    text = page.read_text()
    other = re.sub(old, new, text, count=1)
    assert other != text
    assert of_text(page, other, names) - of_text(page, text, names) or of_runs(page, other, re.search(old, text).end(), program)


def test_most_sentences_are_there():
    there = [old for where, old, _ in SENTENCES if any(re.search(old, it.read_text()) for it in TOP.glob(where))]
    assert len(there) >= 40


def test_every_page_is_looked_at():
    parts = {it: it.relative_to(TOP).parts for it in TOP.rglob("*.md")}
    kept = {it for it, names in parts.items() if "out" not in names and not any(name.startswith(".") for name in names)}
    assert kept <= set(pages.PAGES)


def test_links_and_sections_resolve(names):
    lost = [*names.lost_sections("docs/CI.md", 'See [it](EVOLUTION.md#the-rule), [it](EVOLUTION.md#the-rules), [it](../README.md), [it](NONE.md) and "Nothing" below.')]
    assert lost == ['section "Nothing" on this page', "section #the-rule of EVOLUTION.md", "file NONE.md, to which a link goes"]
