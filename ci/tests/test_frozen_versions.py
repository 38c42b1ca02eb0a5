"""The frozen versions of BASE, attacked: what settings, marks, links, odd names and other repositories make of the comparison, and what is said of it."""

from __future__ import annotations

import os
import shutil
import subprocess

import pytest
from scratch import JOB, Scratch

SAME = "10 files of 2 frozen versions, all as they are in "
FORGED = ["M\tapi/1/.hash\n", "M\tapi/1/lights/LightState.aidl\n", "M\tapi/2/.hash\n", "M\tapi/2/lights/LightState.aidl\n"]


def leave_out(scratch: Scratch) -> None:
    """Checks out all but the second version. The tree is the first one, which breaks it."""
    scratch.tree(1)
    scratch.commit()
    scratch.git("sparse-checkout", "set", "--cone", "hal", "api/1")
    assert not (scratch.room / "api/2").exists()


def assume(scratch: Scratch) -> None:
    scratch.forge()
    scratch.git("update-index", "--assume-unchanged", *scratch.git("ls-files", "api").split())


def skip(scratch: Scratch) -> None:
    scratch.forge()
    scratch.git("update-index", "--skip-worktree", *scratch.git("ls-files", "api").split())


def replace(scratch: Scratch) -> None:
    """Git shows the forged commit wherever it is asked for BASE."""
    base = scratch.git("rev-parse", "base").strip()
    scratch.forge()
    scratch.commit()
    scratch.git("replace", base, "HEAD")


def replace_files(scratch: Scratch) -> None:
    scratch.forge()
    for path in ("api/1/.hash", "api/1/lights/LightState.aidl", "api/2/.hash", "api/2/lights/LightState.aidl"):
        scratch.git("replace", "-f", f"base:{path}", scratch.git("hash-object", "-w", path).strip())


def clean(scratch: Scratch) -> None:
    """A filter gives git the files of BASE, whatever the working tree has."""
    script = scratch.room / "filter"
    script.write_text('#!/bin/sh\ncat >/dev/null\ngit cat-file blob "base:$1"\n')
    script.chmod(0o755)
    scratch.git("config", "filter.old.clean", f"{script} %f")
    (scratch.room / ".git/info").mkdir(exist_ok=True)
    (scratch.room / ".git/info/attributes").write_text("api/** filter=old\n")
    scratch.forge()


def attributes(scratch: Scratch) -> None:
    (scratch.room / ".gitattributes").write_text("api/** export-ignore -diff ident\n")
    scratch.forge()


def ignore(scratch: Scratch) -> None:
    (scratch.room / ".gitignore").write_text("api/\n")
    scratch.git("rm", "-r", "-q", "--cached", "api")
    scratch.forge()


HIDDEN = {
    "marked as unchanged": assume,
    "marked as left out": skip,
    "a commit replaced": replace,
    "files replaced": replace_files,
    "a filter": clean,
    "attributes": attributes,
    "an ignore file": ignore,
    "settings of diff": lambda scratch: (scratch.git("config", "diff.relative", "true"), scratch.git("config", "diff.external", "true"), scratch.forge()),
    "rights that git doesn't keep": lambda scratch: (scratch.git("config", "core.fileMode", "false"), scratch.forge()),
}


@pytest.mark.parametrize("name", HIDDEN)
def test_what_hides_a_change_from_git_hides_none(scratch, name):
    HIDDEN[name](scratch)
    came = scratch.job("hal", "api", "base")
    assert came.status == 1 and came.says(*FORGED), came


def test_a_sparse_checkout(scratch):
    leave_out(scratch)
    came = scratch.job("hal", "api", "base")
    assert came.status == 1 and came.says("D\tapi/2/.hash\n", "(left out by a sparse checkout)"), came


def test_a_sparse_checkout_without_a_version_that_is_new(scratch):
    """BASE hasn't the version, and the tree would be judged against the one before it."""
    scratch.add()
    scratch.commit()
    scratch.tree(2)
    scratch.commit()
    scratch.git("sparse-checkout", "set", "--cone", "hal", "api/1", "api/2")
    came = scratch.job("hal", "api", "base")
    assert came.status == 1 and came.says("D\tapi/3/.hash (left out by a sparse checkout)\n"), came


def test_a_sparse_checkout_of_one_module(scratch):
    """The versions of another module that HEAD has aren't gone."""
    shutil.copytree(scratch.room / "api", scratch.room / "other/power_api")
    scratch.commit()
    scratch.git("sparse-checkout", "set", "--cone", "hal", "api")
    assert not (scratch.room / "other").exists()
    came = scratch.job("hal", "api", "HEAD~0")
    assert came.status == 0 and came.says(SAME), came


ENVIRONMENTS = [
    {"GIT_LITERAL_PATHSPECS": "1"},
    {"GIT_NOGLOB_PATHSPECS": "1"},
    {"GIT_ICASE_PATHSPECS": "1"},
    {"GIT_DIR": "/nowhere"},
    {"GIT_DIR": "elsewhere/.git", "GIT_WORK_TREE": "elsewhere"},
    {"GIT_INDEX_FILE": "/nowhere/index"},
    {"GIT_OBJECT_DIRECTORY": "/nowhere"},
    {"GIT_NAMESPACE": "x"},
    {"GIT_REPLACE_REF_BASE": "refs/heads"},
    {"GIT_CONFIG_COUNT": "1", "GIT_CONFIG_KEY_0": "core.quotePath", "GIT_CONFIG_VALUE_0": "false"},
    {"CDPATH": "elsewhere"},
    {"LC_ALL": "C"},
    {"PYTHONPATH": "elsewhere", "PYTHONSTARTUP": "/nowhere"},
]


@pytest.mark.parametrize("more", ENVIRONMENTS, ids=[" ".join(more) for more in ENVIRONMENTS])
def test_the_environment_has_no_say(scratch, more):
    elsewhere = scratch.room / "elsewhere"
    shutil.copytree(scratch.room / ".git", elsewhere / ".git")
    shutil.copytree(scratch.room / "api", elsewhere / "api")
    (elsewhere / "argparse.py").write_text("raise SystemExit(0)\n" if "PYTHONPATH" not in more else "")
    shutil.rmtree(elsewhere / "api/2")
    (elsewhere / "argparse.py").unlink()
    came = scratch.job("hal", "api", "base", **more)
    assert came.status == 0 and came.says(SAME), came
    scratch.forge()
    came = scratch.job("hal", "api", "base", **more)
    assert came.status == 1 and came.says(*FORGED), came


def rename(scratch: Scratch) -> None:
    scratch.git("mv", "api", "lamps_api")
    (scratch.room / "api").mkdir()
    (scratch.room / "lamps_api").rename(scratch.room / "moved")
    for number in (1, 2):
        (scratch.room / "moved" / str(number)).rename(scratch.room / "api" / str(number))
    scratch.forge()
    (scratch.room / "api").rename(scratch.room / "lamps_api")
    shutil.rmtree(scratch.room / "moved")


@pytest.mark.parametrize("committed", [False, True])
def test_a_folder_of_versions_that_is_renamed(scratch, committed):
    """Every version below the new name is forged, and `api` is gone."""
    rename(scratch)
    if committed:
        scratch.commit()
    came = scratch.job("hal", "lamps_api", "base")
    assert came.status == 1 and came.says("D\tapi/1/.hash\n", "D\tapi/2/.hash\n", "frozen versions that base has below api are gone"), came


def test_a_folder_that_is_renamed_and_marked_as_left_out(scratch):
    """HEAD hasn't the old name any more, whatever the index says of it."""
    rename(scratch)
    scratch.commit()
    for number in (1, 2):
        name = scratch.git("rev-parse", f"base:api/{number}/.hash").strip()
        scratch.git("update-index", "--add", "--cacheinfo", f"100644,{name},api/{number}/.hash")
        scratch.git("update-index", "--skip-worktree", f"api/{number}/.hash")
    came = scratch.job("hal", "lamps_api", "base")
    assert came.status == 1 and came.says("D\tapi/1/.hash\n"), came


def test_a_folder_of_versions_that_became_a_link(scratch):
    (scratch.room / "api").rename(scratch.room / "lamps_api")
    (scratch.room / "api").symlink_to("lamps_api")
    came = scratch.job("hal", "lamps_api", "base")
    assert came.status == 1 and came.says("D\tapi/1/.hash\n"), came


def test_two_modules(scratch):
    """A loop over the folders, as the page has it: the second module's versions are forged."""
    shutil.move(scratch.room / "hal", scratch.room / "m/lights")
    shutil.move(scratch.room / "api", scratch.room / "m/lights_api")
    shutil.copytree(scratch.room / "m/lights", scratch.room / "m/power")
    shutil.copytree(scratch.room / "m/lights_api", scratch.room / "m/power_api")
    scratch.commit()
    loop = 'for api in m/*_api; do "$0" "${api%_api}" "$api" HEAD || exit; done'
    came = scratch.job("-c", loop, JOB, job="sh")
    assert came.status == 0 and came.printed.count(SAME) == 2, came
    (scratch.room / "m/power_api/1/.hash").write_text("\n")
    came = scratch.job("-c", loop, JOB, job="sh")
    assert came.status == 1 and came.says("M\tm/power_api/1/.hash\n"), came
    shutil.rmtree(scratch.room / "m/power_api")
    came = scratch.job("m/lights", "m/lights_api", "HEAD")
    assert came.status == 1 and came.says("D\tm/power_api/1/.hash\n", "below m/power_api are gone"), came


def test_a_version_that_an_ignore_file_hides(scratch):
    (scratch.room / ".gitignore").write_text("api/3\n")
    scratch.add()
    came = scratch.job("hal", "api", "base")
    assert came.status == 0 and came.says("api/3/.hash is hidden by an ignore file: it is judged here, and no clone will have it"), came


def test_base_is_head(scratch):
    said = "only what isn't committed is compared"
    assert said in scratch.job("hal", "api", "main").said
    scratch.forge()
    scratch.commit()
    came = scratch.job("hal", "api", "main")
    assert came.status == 0 and said in came.said, came
    came = scratch.job("hal", "api", "base")
    assert came.status == 1 and said not in came.said, came


LINKS = {
    "a file": ("api/1/.hash", "T\tapi/1/.hash\n"),
    "a source": ("api/2/lights/Light.aidl", "T\tapi/2/lights/Light.aidl\n"),
    "a folder of a version": ("api/2/lights", "T\tapi/2/lights/Light.aidl\n"),
    "a version": ("api/1", "T\tapi/1/.hash\n"),
}


@pytest.mark.parametrize("setting", ["true", "false"])
@pytest.mark.parametrize("name", LINKS)
def test_what_became_a_link(scratch, name, setting):
    """What it leads to is as it was."""
    scratch.git("config", "core.symlinks", setting)
    path, line = LINKS[name]
    (scratch.room / path).rename(scratch.room / "away")
    (scratch.room / path).symlink_to(os.path.relpath(scratch.room / "away", (scratch.room / path).parent))
    came = scratch.job("hal", "api", "base")
    assert came.status == 1 and came.says(line), came


def test_what_became_a_folder(scratch):
    (scratch.room / "api/1/.hash").unlink()
    (scratch.room / "api/1/.hash").mkdir()
    came = scratch.job("hal", "api", "base")
    assert came.status == 1 and came.says("T\tapi/1/.hash\n"), came


def test_a_link_added_to_a_version(scratch):
    (scratch.room / "api/1/more").symlink_to("../../hal")
    came = scratch.job("hal", "api", "base")
    assert came.status == 1 and came.says("A\tapi/1/more\n"), came


def test_a_link_above_the_api(scratch):
    shutil.move(scratch.room / "api", scratch.room / "m/api")
    scratch.commit()
    scratch.git("tag", "-f", "base")
    (scratch.room / "m").rename(scratch.room / "n")
    (scratch.room / "m").symlink_to("n")
    assert scratch.job("hal", "m/api", "base").status == 2
    assert scratch.job("hal", "m/./api", "base").status == 2
    came = scratch.job("../hal", "api", "base", folder="m")
    assert came.status == 1 and came.says("D\t../m/api/1/.hash\n"), came


def test_line_ends(scratch):
    """A checkout that turns line ends into CRLF."""
    path = scratch.room / "api/1/lights/Light.aidl"
    path.write_bytes(path.read_bytes().replace(b"\n", b"\r\n"))
    scratch.git("config", "core.autocrlf", "true")
    came = scratch.job("hal", "api", "base")
    assert came.status == 1 and came.says("M\tapi/1/lights/Light.aidl (only line ends)\n"), came


def test_rights_that_the_file_system_does_not_keep(scratch):
    (scratch.room / "api/1/.hash").chmod(0o755)
    assert scratch.job("hal", "api", "base").status == 1
    scratch.git("config", "core.fileMode", "false")
    assert scratch.job("hal", "api", "base").status == 0


NAMES = ["a b", "a\nb", "a\n", "\ta", "a*", "a?", "[a]", "a\\b", "a:b", "!a", "#a", "~a", '"a"', "'a'", "$a", ":(top)x", "\u00e4\u03c0", "%41", "a;b&c"]


@pytest.mark.parametrize("name", NAMES)
def test_odd_names(scratch, name):
    api = scratch.room / name
    (scratch.room / "api").rename(api)
    scratch.commit()
    came = scratch.job("hal", name, "HEAD")
    assert came.status == 0 and came.says(SAME), came
    path = api / "1/lights/LightState.aidl"
    path.write_text(path.read_text().replace("int onMs", "long onMs"))
    came = scratch.job("hal", name, "HEAD")
    assert came.status == 1 and came.says("M\t", "LightState.aidl\n"), came
    run_commands(scratch, came.printed)
    assert scratch.job("hal", name, "HEAD").status == 0
    (api / "1/.hash").unlink()
    came = scratch.job("hal", name, "HEAD")
    assert came.status == 1 and came.says("D\t"), came


@pytest.mark.parametrize("name", ["a b", "a\nb", "[a]*", "\u00e4", "a%b", "a:b,c"])
def test_odd_names_of_trees(scratch, name):
    (scratch.room / "hal").rename(scratch.room / name)
    came = scratch.job(name, "api", "base")
    assert came.status == 0 and came.says(SAME), came


def test_a_name_that_is_no_utf_8(scratch):
    os.rename(os.fsencode(scratch.room / "api"), os.fsencode(scratch.room) + b"/\xff")
    scratch.commit()
    came = scratch.job("hal", b"\xff", "HEAD")
    assert came.status == 8 and came.says(SAME), came


def run_commands(scratch: Scratch, printed: str) -> None:
    """Runs the commands that the job printed, which are indented; `freeze` has nothing to do where the tree is the latest version."""
    lines = [line[4:] for line in printed.splitlines() if line.startswith("    ")]
    assert lines and "freeze" in lines[-1]
    subprocess.run(["bash", "-ec", "\n".join(lines[:-1])], cwd=scratch.room, check=True, capture_output=True)


def froze_twice(scratch: Scratch, resolved: str) -> None:
    """Two branches freeze version 3, and the one that comes second is merged with a file of its own left in it."""
    scratch.git("checkout", "-q", "-b", "change")
    scratch.tree(3)
    (scratch.room / "hal/lights/Mine.aidl").write_text("package lights;\nparcelable Mine {\n    int a;\n}\n")
    scratch.freeze()
    scratch.commit()
    scratch.git("checkout", "-q", "main")
    scratch.add()
    scratch.commit()
    scratch.git("checkout", "-q", "change")
    with pytest.raises(subprocess.CalledProcessError):
        scratch.git("merge", "-q", "main")
    if resolved == "theirs":
        scratch.git("checkout", "main", "--", "api/3")
    elif resolved == "ours":
        scratch.git("checkout", "--ours", "--", "api/3")
    if resolved != "open":
        scratch.git("add", "-A")
        scratch.git("commit", "-q", "-m", "merged")


@pytest.mark.parametrize("resolved", ["theirs", "ours", "open"])
def test_two_branches_that_froze_one_number(scratch, resolved):
    """The commands that are printed mend it, and then the tree is frozen as the next version."""
    froze_twice(scratch, resolved)
    came = scratch.job("hal", "api", "main")
    assert came.status == 1 and came.says("api/3", "git checkout main -- api/3\n", "freeze hal api\n"), came
    assert ("A\tapi/3/lights/Mine.aidl\n" in came.printed), came
    run_commands(scratch, came.printed)
    scratch.freeze()
    scratch.commit()
    came = scratch.job("hal", "api", "main")
    assert came.status == 0 and came.says("15 files of 3 frozen versions", "\n4 "), came
    clone = scratch.room / "clone"
    scratch.git("clone", "-q", ".", str(clone))
    came = Scratch(clone, scratch.program).job("hal", "api", "origin/main")
    assert came.status == 0, came


def test_outside_a_repository(tmp_path, scratch):
    shutil.copytree(scratch.room / "hal", tmp_path / "out/hal")
    shutil.copytree(scratch.room / "api", tmp_path / "out/api")
    outside = Scratch(tmp_path / "out", scratch.program)
    assert outside.job("hal", "api").status == 0
    assert outside.job("hal", "api", "base").status == 2
    came = scratch.job("hal", str(tmp_path / "out/api"), "base")
    assert came.status == 2, came


def test_another_repository(scratch):
    """A repository below the one in which the job runs, and a submodule: BASE is of the outer one."""
    inner = scratch.room / "inner"
    scratch.git("clone", "-q", ".", str(inner))
    came = scratch.job("hal", "inner/api", "base")
    assert came.status == 2 and came.says("is of another repository"), came
    assert Scratch(inner, scratch.program).job("hal", "api", "base").status == 0
    scratch.git("submodule", "add", "-q", "./.", "sub")
    scratch.commit()
    came = scratch.job("hal", "sub/api", "HEAD")
    assert came.status == 2, came
    shutil.rmtree(inner)
    scratch.git("clone", "-q", ".", "api/1/inner")
    came = scratch.job("hal", "api", "base")
    assert came.status == 1 and came.says("A\tapi/1/inner/"), came


def test_a_version_that_is_a_submodule(scratch):
    scratch.git("submodule", "add", "-q", "./.", "api/3")
    scratch.commit()
    came = scratch.job("hal", "api", "HEAD")
    assert came.status == 2 and came.says("is a submodule"), came


def test_a_repository_without_commits(scratch):
    shutil.rmtree(scratch.room / ".git")
    scratch.git("init", "-q", "-b", "main")
    came = scratch.job("hal", "api", "HEAD")
    assert came.status == 2 and came.says("git knows no revision HEAD"), came


def test_a_shallow_clone(scratch):
    scratch.tree(1)
    scratch.commit()
    scratch.git("clone", "-q", "--depth", "1", f"file://{scratch.room}", "clone")
    clone = Scratch(scratch.room / "clone", scratch.program)
    came = clone.job("hal", "api", scratch.git("rev-parse", "base").strip())
    assert came.status == 2 and came.says("this clone is shallow: fetch the whole history"), came
    came = clone.job("hal", "api", "HEAD")
    assert came.status == 1 and came.says(SAME), came


def test_a_worktree_and_a_detached_head(scratch):
    scratch.git("worktree", "add", "-q", "--detach", "tree", "base")
    worktree = Scratch(scratch.room / "tree", scratch.program)
    assert worktree.job("hal", "api", "base").says(SAME)
    worktree.forge()
    came = worktree.job("hal", "api", "main")
    assert came.status == 1 and came.says(*FORGED), came


def test_a_repository_with_sha_256(tmp_path, program, scratch):
    other = Scratch(tmp_path / "other", program)
    shutil.copytree(scratch.room, other.room, ignore=shutil.ignore_patterns(".git"))
    other.git("init", "-q", "-b", "main", "--object-format=sha256")
    other.commit()
    assert other.job("hal", "api", "HEAD").says(SAME)
    other.forge()
    came = other.job("hal", "api", "HEAD")
    assert came.status == 1 and came.says(*FORGED), came


def test_an_object_that_is_missing(scratch):
    name = scratch.git("rev-parse", "base:api/1/.hash").strip()
    path = scratch.room / ".git/objects" / name[:2] / name[2:]
    path.unlink()
    assert scratch.job("hal", "api", "base").status == 2
