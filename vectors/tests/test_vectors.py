"""The vectors: they are made again, the program and a reader pass them, and wrong readers are told apart by their causes."""
import collections
import json
import pathlib
import re
import shutil
import sys

import pytest
from conftest import HERE

VECTORS = HERE / "vectors.jsonl"
PAGE = (HERE.parent / "docs/VECTORS.md").read_text(encoding="utf-8")
ALL = [json.loads(line) for line in VECTORS.read_text(encoding="utf-8").splitlines()]


def number(text: str) -> int:
    return int(text.replace(",", ""))


def test_they_are_made_again_byte_for_byte(command, tmp_path):
    folder = tmp_path / "vectors"
    shutil.copytree(HERE, folder)
    ran = command("make", folder=folder)
    assert ran.status == 0, ran.err
    assert (folder / "vectors.jsonl").read_bytes() == VECTORS.read_bytes()


def test_a_changed_line_is_found(command, tmp_path):
    folder = tmp_path / "vectors"
    shutil.copytree(HERE, folder)
    lines = VECTORS.read_text(encoding="utf-8").splitlines(keepends=True)
    (folder / "vectors.jsonl").write_text(lines[0].replace('"left":0', '"left":4') + "".join(lines[1:]), encoding="utf-8")
    ran = command("make", "--check", "3", folder=folder)
    assert ran.status == 1 and ALL[0]["id"] in ran.err


def test_a_missing_line_is_found(command, tmp_path):
    folder = tmp_path / "vectors"
    shutil.copytree(HERE, folder)
    (folder / "vectors.jsonl").write_text("".join(VECTORS.read_text(encoding="utf-8").splitlines(keepends=True)[1:]), encoding="utf-8")
    assert command("make", "--check", "1", folder=folder).status == 1


def test_enough_and_not_too_long():
    assert len(ALL) >= 5000 and VECTORS.stat().st_size <= 2_000_000
    assert len({one["id"] for one in ALL}) == len(ALL)


def test_the_page_has_the_counts():
    kinds = collections.Counter(one["kind"] for one in ALL)
    assert {found[1]: number(found[2]) for found in re.finditer(r"^\| `(\w+)` \| ([\d,]+) \| ", PAGE, re.M) if found[1] in kinds} == kinds
    results = collections.Counter(one["result"] for one in ALL)
    found = re.search(r"([\d,]+) are `valid`, ([\d,]+) `acceptable` and ([\d,]+) `invalid`", PAGE)
    assert [number(one) for one in found.groups()] == [results["valid"], results["acceptable"], results["invalid"]]
    assert f"has {len(ALL):,} of them" in PAGE


def test_the_page_has_the_counts_of_android():
    for found in re.finditer(r"^\| `([\w-]+)` \| .* \| ([\d,]+) \| ([\d,]+) \| ([\d,]+) \| ([\d,]+) \| ([\d,]+) \|$", PAGE, re.M):
        entries = [one["android"][found[1]] for one in ALL if found[1] in one.get("android", {})]
        lenient, values = entries.count("lenient"), sum("values" in one for one in entries if one != "lenient")
        assert [number(one) for one in found.groups()[1:]] == [len(entries), lenient, len(entries) - lenient - values, values, len(ALL) - len(entries)]


@pytest.mark.parametrize("profile", [[], ["--lenient"]])
def test_the_program_passes_all(command, profile):
    ran = command("run", VECTORS, HERE / "adapters/program.py", *profile)
    assert ran.status == 0, ran.out
    assert set(ran.counts()) <= {"as strict", "as lenient"}


@pytest.mark.parametrize("profile", [[], ["--lenient"]])
def test_a_reader_that_knows_the_pages_passes_all(command, profile):
    ran = command("run", VECTORS, HERE / "adapters/reader.py", *profile)
    assert ran.status == 0, ran.out
    assert set(ran.counts()) <= {"as strict", "as lenient"}


@pytest.mark.parametrize("rule, cause", [("null", "taken: null where none may stand"), ("counts", "taken: count below -1"), ("sizes", "taken: another size")])
def test_wrong_readers_are_told_apart(command, rule, cause):
    ran = command("run", VECTORS, HERE / "adapters/reader.py", "--lenient", "--wrong", rule)
    wrong = {name: count for name, count in ran.counts().items() if name.startswith("WRONG")}
    assert ran.status == 1 and next(iter(wrong)) == f"WRONG {cause}"
    assert wrong[f"WRONG {cause}"] * 2 > sum(wrong.values())
    assert f"| `{cause}` | {sum(wrong.values())} |" in PAGE


def test_the_reader_of_an_afternoon_fails(command):
    ran = command("run", VECTORS, HERE / "adapters/afternoon.py")
    wrong = {name: count for name, count in ran.counts().items() if name.startswith("WRONG")}
    assert ran.status == 1 and f"{sum(wrong.values())} of its answers are wrong" in PAGE
    assert f"{sum(count for name, count in wrong.items() if 'no answer' in name)} of them since it ends" in PAGE


def adapter(folder: pathlib.Path, text: str) -> list:
    """An adapter of these lines of Python."""
    path = folder / "adapter.py"
    path.write_text(text, encoding="utf-8")
    return [sys.executable, str(path)]


@pytest.mark.parametrize("text, worth", [
    ("input()", "no answer"),
    ("import time\nwhile True: time.sleep(9)", "no answer in time"),
    ("while True: input(); print('yes', flush=True)", "no line of the protocol"),
    ("while True: input(); print('[1.0] nan', flush=True)", "no line of the protocol"),
    ("while True: input(); print('[' * 100000 + ' 0', flush=True)", "no line of the protocol"),
])
def test_adapters_that_dont_answer(command, tmp_path, text, worth):
    ran = command("run", "--seconds", "0.5", "--count", "4", VECTORS, *adapter(tmp_path, text))
    assert ran.status == 1 and all(name.startswith(f"WRONG {worth}: ") for name in ran.counts()), ran.out + ran.err


def test_an_adapter_that_skips_all_passes(command, tmp_path):
    ran = command("run", VECTORS, *adapter(tmp_path, "while True: input(); print('skip', flush=True)"))
    assert ran.status == 0 and set(ran.counts()) == {"skipped"}


def test_true_is_not_one_and_one_is_no_float():
    from vectors_of import verdict
    vector = {"result": "valid", "cause": "a value", "strict": {"values": [True], "left": 0}}
    assert verdict.of_reading(vector, verdict.answer_of("[true] 0")) == "as strict"
    assert verdict.of_reading(vector, verdict.answer_of("[1] 0")).startswith("WRONG misread")
    assert verdict.of_reading(vector, verdict.answer_of("[true] 4")).startswith("WRONG misread")
    assert verdict.of_reading(vector, verdict.answer_of("status -22")).startswith("WRONG refused")


def test_faults_end_with_two(command, tmp_path):
    empty, other = tmp_path / "empty", tmp_path / "other"
    empty.write_text("")
    other.write_text("{}\n")
    assert command("run", VECTORS, "/nowhere/adapter").status == 2
    assert command("run", tmp_path / "nothing", "true").status == 2
    assert command("run", empty, "true").status == 2
    assert command("run", other, "true").status == 2
    assert command("run", "--count", "0", VECTORS, "true").status == 2
    assert command("run", VECTORS).status == 2
    assert command("make", "--check", "0").status == 2
