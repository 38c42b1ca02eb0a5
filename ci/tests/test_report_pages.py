"""The report's page in a browser, its picture, and how long a report of many types takes. What needs a browser is left out where there is none."""

from __future__ import annotations

import pathlib
import re
import resource
import shutil
import subprocess
import xml.etree.ElementTree

import pytest
from aidl_ci import report
from aidl_ci.program import Program
from pairs import TOP, put

BROWSER = shutil.which("chromium") or shutil.which("chromium-browser")
MEASURE = "<script>document.title=[document.documentElement.scrollWidth,innerWidth,[...document.querySelectorAll('main *')].filter(e=>e.getBoundingClientRect().right>innerWidth+1).length].join(' ')</script>"
LONG = "a_name_that_is_as_long_as_names_of_fields_in_real_trees_sometimes_are"
WIDE = [
    ("o/j/P.aidl", f'package j; parcelable P {{ int {LONG}; @nullable String s; String t = "{"x" * 300}"; }}'),
    ("n/j/P.aidl", f'package j; parcelable P {{ int other; int {LONG}; @nullable String s; String t = "{"x" * 300}"; String {LONG}2; }}'),
    ("o/j/I.aidl", f"package j; interface I {{ void {LONG}(in int id, in j.P p, in long {LONG}2); }}"),
    ("n/j/I.aidl", f"package j; interface I {{ void {LONG}(in int id, in j.P p, in long {LONG}2); }}"),
]


def browse(folder: pathlib.Path, page: pathlib.Path, *options: str) -> str:
    """What the browser makes of a page: its elements, as text."""
    words = [BROWSER, "--headless=new", "--no-sandbox", "--disable-gpu", "--hide-scrollbars", f"--user-data-dir={folder / 'profile'}", *options, "--dump-dom", f"file://{page}"]
    return subprocess.run(words, capture_output=True, check=True, timeout=240).stdout.decode()


@pytest.mark.skipif(BROWSER is None, reason="there is no chromium")
@pytest.mark.parametrize("mode", ["", "--force-dark-mode"])
@pytest.mark.parametrize("width", [1000, 500])
@pytest.mark.parametrize("which", ["fan", "wide", "lights"])
def test_nothing_is_wider_than_the_window(program, tmp_path, monkeypatch, which, width, mode):
    monkeypatch.chdir(TOP)
    if which == "wide":
        put(tmp_path, WIDE)
        monkeypatch.chdir(tmp_path)
        made = report.made(Program(program), "o", "n")
    elif which == "fan":
        made = report.made(Program(program), "examples/fan/1", "examples/fan/2")
    else:
        made = report.made(Program(program), "examples/lights_api", "examples/lights/1", api=True)
    page = tmp_path / "page.html"
    page.write_text(report.page(made).replace("<details>", "<details open>").replace("</body>", MEASURE + "</body>"), encoding="utf-8")
    title = re.search(r"<title>(\d+) (\d+) (\d+)</title>", browse(tmp_path, page, f"--window-size={width},900", *([mode] if mode else [])))
    assert title and int(title[1]) <= int(title[2]) and int(title[2]) <= width and title[3] == "0", title


def test_the_picture_of_the_page_is_made_by_the_tool(program, monkeypatch):
    monkeypatch.chdir(TOP)
    made = report.picture(report.made(Program(program), "examples/fan/1", "examples/fan/2"))
    assert made == (TOP / "docs/pictures/fan.svg").read_text(encoding="utf-8")
    parsed = xml.etree.ElementTree.fromstring(made)
    texts = [one.text for one in parsed.iter("{http://www.w3.org/2000/svg}text")]
    assert "speed.low = 0" in texts and "speed.high = 0" in texts


def test_a_report_without_bytes_has_a_picture_that_says_so(program, monkeypatch):
    monkeypatch.chdir(TOP)
    made = report.picture(report.made(Program(program), "examples/lights/1", "examples/lights/3"))
    assert ">compatible, both ways</text>" in made and xml.etree.ElementTree.fromstring(made) is not None


def many(folder: pathlib.Path, name: str, more: str) -> None:
    """600 types: interfaces with methods, parcelables with fields, enums; `more` is put into some of them."""
    for number in range(600):
        package, kind = f"p{number % 10}", number % 6
        following = f"p{(number + 1) % 10}.T{number + 1}"
        body = {
            0: f"interface T{number} {{ {' '.join(f'int m{each}(in int a, in {following} b);' for each in range(6))} {'void more();' if more else ''} }}",
            1: f"parcelable T{number} {{ {' '.join(f'int f{each} = {each};' for each in range(8))} {'int x; int y;' if more and number == 1 else 'int y; int x;'} {following} e; {more} }}",
            2: f"enum T{number} {{ {', '.join(f'A{each}' for each in range(8))} {', MORE' if more else ''} }}",
        }.get(kind, f"parcelable T{number} {{ {' '.join(f'@nullable String f{each};' for each in range(8))} {more} }}")
        path = folder / name / package / f"T{number}.aidl"
        path.parent.mkdir(parents=True, exist_ok=True)
        path.write_text(f"package {package}; {body}\n")


def processor_seconds() -> float:
    """What this process and the programs that it ran took of the processor."""
    return sum(one.ru_utime + one.ru_stime for one in map(resource.getrusage, (resource.RUSAGE_SELF, resource.RUSAGE_CHILDREN)))


def test_600_types_in_ten_seconds(program, tmp_path, monkeypatch):
    monkeypatch.chdir(tmp_path)
    many(tmp_path, "o", "")
    many(tmp_path, "n", "int more; String text;")
    start = processor_seconds()
    made = report.made(Program(program), "o", "n")
    texts = [make(made) for make in report.FORMS.values()]
    took = processor_seconds() - start
    assert len(made.trees[1].declarations) == 600 and len(made.steps[0].added) > 800 and len(made.causes) == 1 and all(texts)
    assert took < 10, took
