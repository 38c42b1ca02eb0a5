"""`check-api` in scratch repositories: trees, frozen versions that are changed, added or lost, its exits, and the places where it runs."""

from __future__ import annotations

import os
import re
import shutil
import subprocess
import sys

import pytest
from scratch import JOB, TOP, Scratch

VERDICT = "C9 lights.LightState"
SAME = "10 files of 2 frozen versions, all as they are in "


def lose(scratch: Scratch) -> None:
    shutil.rmtree(scratch.room / "api/2")
    scratch.tree(1)


def lose_all(scratch: Scratch) -> None:
    shutil.rmtree(scratch.room / "api/1")
    shutil.rmtree(scratch.room / "api/2")


def swap(scratch: Scratch) -> None:
    api = scratch.room / "api"
    (api / "2").rename(api / "3")
    shutil.copytree(api / "1", api / "2")
    scratch.rehash(2)


def exchange(scratch: Scratch) -> None:
    api = scratch.room / "api"
    (api / "2").rename(api / "0")
    (api / "1").rename(api / "2")
    (api / "0").rename(api / "1")


def put_file(scratch: Scratch) -> None:
    (scratch.room / "api/1/lights/New.aidl").write_text("package lights;\nparcelable New {\n}\n")


def link_away(scratch: Scratch) -> None:
    """Puts a link to forged versions in the place of the API."""
    (scratch.room / "api").rename(scratch.room / "other")
    (scratch.room / "api").symlink_to("other")


def misname(scratch: Scratch) -> None:
    (scratch.room / "hal/lights/Light.aidl").write_text("package lights;\nparcelable Light {\n    Colour c;\n}\n")


def break_second(scratch: Scratch) -> None:
    scratch.widen("api/2", "hal")
    scratch.rehash(2)


WITH_BASE = {
    "unchanged": (None, 0, [SAME]),
    "a version added": (Scratch.add, 0, [SAME, "3 72654de72b3e366cdc445b7468656e30bd508cdf ok"]),
    "a version rewritten, with its hash": (Scratch.forge, 1, ["M\tapi/1/.hash\n", "M\tapi/2/lights/LightState.aidl\n", "was changed"]),
    "a version deleted": (lose, 1, ["D\tapi/2/.hash\n", "D\tapi/2/lights/ILights.aidl\n", "was changed"]),
    "versions renumbered": (swap, 1, ["M\tapi/2/.hash\n"]),
    "versions exchanged": (exchange, 1, ["M\tapi/1/.hash\n", "M\tapi/2/.hash\n"]),
    "a hash by the other recipe": (lambda scratch: scratch.rehash(1, 1), 1, ["M\tapi/1/.hash\n"]),
    "a hash that is gone": (lambda scratch: (scratch.room / "api/1/.hash").unlink(), 1, ["D\tapi/1/.hash\n"]),
    "a file's rights changed": (lambda scratch: (scratch.room / "api/1/.hash").chmod(0o755), 1, ["M\tapi/1/.hash\n"]),
    "a file added to a version": (put_file, 1, ["A\tapi/1/lights/New.aidl\n", "added to"]),
    "a link in the API's place": (link_away, 2, ["is or goes through a link"]),
    "all versions deleted": (lose_all, 1, ["D\tapi/1/.hash\n"]),
}


@pytest.mark.parametrize("name", WITH_BASE)
def test_with_base(scratch, name):
    change, status, texts = WITH_BASE[name]
    if change:
        change(scratch)
    came = scratch.job("hal", "api", "base")
    assert came.status == status and came.says(*texts), came


WORDS = {
    "an API that isn't there": (["hal", "apu", "base"], 1, ["there is no folder apu; base has frozen versions below api"]),
    "the same without BASE": (["hal", "apu"], 1, ["apu has no frozen version"]),
    "an empty BASE": (["hal", "api", ""], 2, ["BASE is empty"]),
    "a BASE that isn't there": (["hal", "api", "maim"], 2, ["git knows no revision maim"]),
    "a BASE that is an option": (["hal", "api", "--all"], 2, ["unrecognized arguments: --all"]),
    "a BASE that is an option of one letter": (["hal", "api", "-n1"], 2, ["unrecognized arguments: -n1"]),
    "a BASE that is a tree": (["hal", "api", "base^{tree}"], 2, ["git knows no revision"]),
    "a BASE that is two": (["hal", "api", "base..main"], 2, ["git knows no revision"]),
    "four words": (["hal", "api", "base", "more"], 2, ["TREE API [BASE]"]),
    "one word": (["hal"], 2, ["TREE API [BASE]"]),
    "a part of an option": (["--froz", "hal", "api"], 2, ["unrecognized arguments: --froz"]),
    "an option behind the words": (["hal", "api", "--frozen", "base"], 0, [SAME]),
    "help": (["--help"], 0, ["TREE API [BASE]", "--against REV"]),
    "a branch": (["hal", "api", "main"], 0, [SAME, "only what isn't committed is compared"]),
    "an ancestor": (["hal", "api", "HEAD~0"], 0, [SAME]),
    "an API as ./api": (["hal", "./api", "base"], 0, [SAME]),
    "an API as api/": (["hal", "api/", "base"], 0, [SAME]),
    "an API as api//": (["hal", "api//", "base"], 0, [SAME]),
    "an API as api/.": (["hal", "api/.", "base"], 0, [SAME]),
    "an API that is the folder above": (["hal", ".", "base"], 1, [". has no frozen version", "deeper below it, as api/1/.hash"]),
}


@pytest.mark.parametrize("name", WORDS)
def test_words(scratch, name):
    words, status, texts = WORDS[name]
    came = scratch.job(*words)
    assert came.status == status and came.says(*texts), came


SHOWN = """aidl check hal
ok 4 types
aidl verify api
1 8bd343697a3285d5b233d66b6ca61a5e52934e59 ok
2 39c03473b1150d2ae1476978c7a0dd48f956c70f ok
aidl check api/1
ok 4 types
aidl check api/2
ok 4 types
aidl judge api/1 api/2
yes
aidl judge api/2 hal
yes
"""
WITHOUT_BASE = {
    "each result behind its command": (None, 0, [SHOWN]),
    "versions rewritten aren't seen": (Scratch.forge, 0, []),
    "a version deleted isn't seen": (lose, 0, []),
    "all versions deleted": (lose_all, 1, ["api has no frozen version"]),
    "a tree that isn't there": (
        lambda scratch: shutil.rmtree(scratch.room / "hal"),
        1,
        ["aidl check hal\nok 0 types\n", "hal has no types", "there is no such folder"],
    ),
    "an older tree": (
        lambda scratch: scratch.tree(1),
        1,
        [
            f"aidl judge api/2 hal\n{VERDICT} (field removed)\naidl witness api/2 hal\n{VERDICT} (field removed)\nnone outside the wire\n",
            "aidl judge api/2 hal ended with exit 1",
        ],
    ),
    "a version that breaks the one before": (
        break_second,
        1,
        ["aidl judge api/1 api/2\nC11 lights.LightState.onMs (field type changed)\naidl witness api/1 api/2\n"],
    ),
    "a damaged version": (lambda scratch: scratch.widen("api/2"), 1, ["2 kept ", "aidl verify api ended with exit 1"]),
    "a file added to a version": (put_file, 1, ["1 kept ", "aidl verify api ended with exit 1"]),
    "a missing version": (lambda scratch: shutil.rmtree(scratch.room / "api/1"), 1, ["bad versions missing 1"]),
    "a faulty tree": (misname, 1, ["hal/lights/Light.aidl:3:5: E4 UnknownType (no such type)\n    | Colour c;\n"]),
    "an empty folder with a number": (lambda scratch: (scratch.room / "api/7").mkdir(), 0, ["aidl judge api/2 hal\nyes\n"]),
}


@pytest.mark.parametrize("name", WITHOUT_BASE)
def test_without_base(scratch, name):
    change, status, texts = WITHOUT_BASE[name]
    if change:
        change(scratch)
    came = scratch.job("hal", "api")
    assert came.status == status and came.says(*texts), came


def test_a_version_of_other_files_is_missing(scratch):
    (scratch.room / "api/7").mkdir()
    (scratch.room / "api/7/README").write_text("nothing\n")
    came = scratch.job("hal", "api", "base")
    assert came.status == 1 and came.says(SAME, "bad versions missing 3"), came


def test_a_file_that_is_no_source_may_be_added_and_then_stays(scratch):
    (scratch.room / "api/1/OWNERS").write_text("me\n")
    assert scratch.job("hal", "api", "base").status == 0
    scratch.commit()
    (scratch.room / "api/1/OWNERS").write_text("you\n")
    came = scratch.job("hal", "api", "HEAD")
    assert came.status == 1 and came.says("M\tapi/1/OWNERS\n"), came


def test_a_tree_of_links_has_no_types(scratch):
    """As a build system makes one for its sandbox."""
    (scratch.room / "links/lights").mkdir(parents=True)
    for path in (scratch.room / "hal/lights").iterdir():
        (scratch.room / "links/lights" / path.name).symlink_to(path)
    came = scratch.job("links", "api", "base")
    assert came.status == 1 and came.says("links has no types", "are links, which aidl leaves out"), came


def test_before_the_first_freeze(unfrozen):
    came = unfrozen.job("hal", "api", "base")
    assert came.status == 0 and came.says("hal follows nothing yet", "0 files of 0 frozen versions"), came
    assert unfrozen.job("--frozen", "hal", "api", "base").status == 1
    came = unfrozen.job("hal", "api")
    assert came.status == 1 and came.says("api has no frozen version"), came
    unfrozen.freeze()
    came = unfrozen.job("hal", "api", "base")
    assert came.status == 0 and came.says("\n0 files of 0 frozen versions"), came


@pytest.mark.parametrize("name", ["api", "a [1]* b"])
def test_behind_the_target_branch(scratch, name):
    """A change that began before the target branch froze one more version."""
    scratch.git("branch", "change")
    scratch.add()
    scratch.commit()
    scratch.git("checkout", "-q", "change")
    came = scratch.job("hal", "api", scratch.git("merge-base", "main", "HEAD").strip())
    assert came.status == 0 and came.says(SAME), came
    came = scratch.job("hal", "api", "main")
    assert came.status == 1 and came.says("D\tapi/3/.hash\n"), came
    scratch.forge()
    came = scratch.job("hal", "api", scratch.git("merge-base", "main", "HEAD").strip())
    assert came.status == 1 and came.says("M\tapi/1/.hash\n"), came


@pytest.mark.parametrize("status", [3, 4, 5, 7, 101])
def test_the_exit_of_a_program_that_fails(scratch, status):
    odd = scratch.room / "odd"
    odd.write_text(f"#!/bin/sh\nexit {status}\n")
    odd.chmod(0o755)
    came = scratch.job("hal", "api", AIDL=str(odd))
    assert came.status == status and came.says(f"aidl check hal ended with exit {status}"), came


@pytest.mark.parametrize("printed", ["", "yes", "ok types", "ok 4 types\nok 4 types", "check hal"])
def test_a_program_that_is_another(scratch, printed):
    """No verdict comes of what no `aidl` prints, be it green or red."""
    odd = scratch.room / "odd"
    odd.write_text(f"#!/bin/sh\nprintf '%s\\n' '{printed}'\n")
    odd.chmod(0o755)
    assert scratch.job("hal", "api", AIDL=str(odd)).status == 2


@pytest.mark.parametrize("does, status", [("exit 5", 5), ("exit 7", 7), ("echo yes, or so", 2), ("exit 0", 2), ("echo no; exit 1", 2)])
def test_a_judge_that_answers_otherwise(scratch, does, status):
    """Only `judge` fails, and it gives no verdict."""
    odd = scratch.room / "odd"
    odd.write_text(f'#!/bin/sh\n[ "$1" != judge ] || {{ {does}; exit; }}\nexec {scratch.program} "$@"\n')
    odd.chmod(0o755)
    came = scratch.job("hal", "api", AIDL=str(odd))
    assert came.status == status and "aidl witness" not in came.printed, came


def test_a_program_that_is_killed(scratch):
    odd = scratch.room / "odd"
    odd.write_text("#!/bin/sh\nkill -9 $$\n")
    odd.chmod(0o755)
    assert scratch.job("hal", "api", AIDL=str(odd)).status == 137


def tools(scratch: Scratch, *names: str) -> str:
    """A folder with these of the system's tools alone."""
    folder = scratch.room / "bin"
    folder.mkdir()
    for name in names:
        (folder / name).symlink_to(sys.executable if name == "python3" else shutil.which(name))
    return str(folder)


def test_without_git(scratch):
    path = tools(scratch, "env", "python3")
    came = scratch.job("hal", "api", PATH=path)
    assert came.status == 0, came
    came = scratch.job("hal", "api", "base", PATH=path)
    assert came.status == 2 and came.says("git can't be run"), came


def test_without_python(scratch):
    assert scratch.job("hal", "api", PATH=tools(scratch, "git", "sh", "env")).status not in (0, 1)


def test_without_tools(scratch):
    assert scratch.job("hal", "api", "base", PATH="/nowhere").status not in (0, 1)


def test_through_a_link(scratch):
    scratch.tree(1)
    (scratch.room / "link").symlink_to(JOB)
    came = scratch.job("hal", "api", job=scratch.room / "link")
    assert came.status == 1 and came.says(f"\n{VERDICT} (field removed)\n"), came


def test_a_copy_of_the_folder(scratch):
    """What a job runs: `ci/` with the program in it."""
    shutil.copytree(TOP / "ci", scratch.room / "ci", ignore=shutil.ignore_patterns("__pycache__"))
    shutil.copy(scratch.program, scratch.room / "ci/aidl-verified")
    scratch.tree(1)
    came = scratch.job("hal", "api", job=scratch.room / "ci/check-api", AIDL="")
    assert came.status == 1 and came.says(f"\n{VERDICT} (field removed)\n"), came
    assert not list((scratch.room / "ci").rglob("__pycache__"))


@pytest.mark.parametrize("name", [path.name for path in sorted(JOB.parent.iterdir()) if path.is_file() and not path.suffix])
def test_a_script_without_its_package(scratch, name):
    (scratch.room / "alone").mkdir()
    shutil.copy(JOB.parent / name, scratch.room / "alone")
    came = scratch.job("hal", "api", job=scratch.room / "alone" / name)
    assert came.status == 2 and came.says("the folder aidl_ci beside it"), came


def test_without_a_program(scratch):
    shutil.copytree(TOP / "ci", scratch.room / "ci", ignore=shutil.ignore_patterns("__pycache__"))
    came = scratch.job("hal", "api", job=scratch.room / "ci/check-api", AIDL="nowhere/aidl")
    assert came.status == 2 and came.says("there is no program nowhere/aidl: AIDL has to name it"), came


def test_a_program_of_the_folder_by_its_name(scratch):
    (scratch.room / "aidl").symlink_to(scratch.program)
    scratch.tree(1)
    came = scratch.job("hal", "api", AIDL="aidl")
    assert came.status == 1 and came.says(f"\n{VERDICT} (field removed)\n"), came


def test_in_another_folder(scratch):
    (scratch.room / "bin").mkdir()
    came = scratch.job("../hal", "../api", "base", folder="bin")
    assert came.status == 0 and came.says(SAME), came
    came = scratch.job("../hal", ".", "base", folder="api")
    assert came.status == 0 and came.says(SAME), came
    came = scratch.job(str(scratch.room / "hal"), str(scratch.room / "api"), "base", folder="bin")
    assert came.status == 0 and came.says(SAME), came
    (scratch.room / "api/1/.hash").unlink()
    came = scratch.job("../hal", "../api", "base", folder="bin")
    assert came.status == 1 and came.says("D\t../api/1/.hash\n", "git checkout base -- ../api/1\n"), came


def test_one_python_for_forty_versions(scratch):
    """What made the job slow was a Python behind each command."""
    path = tools(scratch, "env", "git", "sh")
    python, log = scratch.room / "bin/python3", scratch.room / "log"
    python.write_text(f"#!{shutil.which('sh')}\necho x >>{log}\nexec {sys.executable} \"$@\"\n")
    python.chmod(0o755)
    source = scratch.room / "hal/lights/LightState.aidl"
    for number in range(3, 7):
        source.write_text(re.sub(r"}\s*$", f"    int more{number};\n}}\n", source.read_text()))
        scratch.freeze()
    came = scratch.job("hal", "api", "base", PATH=path)
    assert came.status == 0 and came.says("aidl judge api/6 hal\nyes\n"), came
    assert log.read_text() == "x\n"


@pytest.mark.parametrize("status", [0, 1])
@pytest.mark.parametrize("output", ["closed", "full", "pipe"])
def test_output_that_fails_changes_no_verdict(scratch, output, status):
    scratch.tree(1 if status else 2)
    if output == "closed":
        words = ["sh", "-c", '"$@" >&-', "sh", JOB, "hal", "api", "base"]
        came = Scratch(scratch.room, scratch.program).job(*words[1:], job=words[0])
    elif output == "full":
        with open("/dev/full", "wb") as full:
            came = scratch.job("hal", "api", "base", stdout=full)
    else:
        reader, writer = os.pipe()
        os.close(reader)
        came = scratch.job("hal", "api", "base", stdout=writer)
        os.close(writer)
    assert came.status == status, came


def test_standard_error_that_is_closed_changes_no_verdict(scratch):
    scratch.tree(1)
    came = scratch.job("-c", '"$@" 2>&-', "sh", JOB, "hal", "api", "base", job="sh")
    assert came.status == 1 and came.says(VERDICT), came


def test_a_room_that_is_missing(scratch):
    """Python takes another one."""
    assert scratch.job("--frozen", "hal", "api", "base", TMPDIR="/nowhere").status == 0


@pytest.mark.parametrize("utf8", ["", "0"])
@pytest.mark.parametrize("locale", ["C", "POSIX", "C.UTF-8", "none"])
def test_the_locale_does_not_matter(scratch, locale, utf8):
    (scratch.room / "api").rename(scratch.room / "ä pi")
    scratch.commit()
    scratch.tree(1)
    came = scratch.job("hal", "ä pi", "HEAD", LC_ALL=locale, PYTHONUTF8=utf8, PYTHONCOERCECLOCALE="0")
    assert came.status == 1 and came.says("10 files of 2 frozen versions", f"aidl judge ä pi/2 hal\n{VERDICT}"), came
    (scratch.room / "ä pi/1/.hash").unlink()
    came = scratch.job("hal", "ä pi", "HEAD", LC_ALL=locale, PYTHONUTF8=utf8, PYTHONCOERCECLOCALE="0")
    assert came.status == 1 and came.says("git checkout HEAD -- 'ä pi/1'\n"), came


def test_it_ends_at_once_when_it_is_ended(scratch):
    odd = scratch.room / "odd"
    odd.write_text("#!/bin/sh\nexec sleep 50\n")
    odd.chmod(0o755)
    with subprocess.Popen([JOB, "hal", "api"], cwd=scratch.room, env={**os.environ, "AIDL": str(odd)}, stdout=subprocess.PIPE) as job:
        job.stdout.readline()
        job.terminate()
        assert job.wait(10) not in (0, 1)
