"""`check-api --aosp` in a scratch repository with a module of two versions as Android's build lays it, and a module that it imports."""

from __future__ import annotations

import pathlib
import shutil
import stat
import subprocess

import pytest
from scratch import GIT, JOB, WAITS, Came, environment

from aidl_ci.check_api import soong

MODULE, NAME = "light", "j.light"
API = f"{MODULE}/aidl_api/{NAME}"
COMMON = "common/aidl_api/j.common/1"
CALLBACK = "package j.light; interface ICallback { void on(float level); }\n"
FIRST = {
    "j/light/ILight.aidl": """package j.light;
import android.os.IBinder;
import j.common.Handle;
import j.light.ICallback;
import j.light.Opaque;
import j.light.State;
interface ILight {
    const float MOST = 1.5f;
    void set(in State state);
    void listen(ICallback callback, IBinder token, in Handle handle);
    oneway @RequiresNoPermission void stop();
    Opaque opaque(in ParcelFileDescriptor file, in Map<String, String> more);
}
""",
    "j/light/State.aidl": """package j.light;
parcelable State {
    const int COUNT = 3;
    float level = 1.0f;
    int[COUNT] colors = {1, 2, 3};
    ParcelableHolder more;
}
""",
    "j/light/ICallback.aidl": CALLBACK,
    "j/light/IOther.aidl": CALLBACK.replace("ICallback", "IOther"),
    "j/light/Opaque.aidl": "package j.light; @JavaOnlyStableParcelable parcelable Opaque;\n",
}
SECOND = {
    **FIRST,
    "j/light/State.aidl": FIRST["j/light/State.aidl"].replace("more;\n", "more;\n    double speed = 0.5;\n"),
    "j/light/ICallback.aidl": CALLBACK.replace(" }", " void off(IBinder why); }"),
}
HANDLE = {"j/common/Handle.aidl": "package j.common; parcelable Handle { ParcelFileDescriptor file; float[] values = {1.0f}; }\n"}
SAME = "all as they are in "
END = "nothing is proved of it"


class Mock:
    """The repository."""

    def __init__(self, room: pathlib.Path, program: pathlib.Path):
        self.room, self.program = room, program
        self.write(COMMON, HANDLE)
        self.hash(COMMON, 1)
        self.write("common", HANDLE)
        for number, files in enumerate((FIRST, SECOND), 1):
            self.write(f"{API}/{number}", files)
            self.hash(f"{API}/{number}", number)
        self.write(MODULE, SECOND)
        self.git("init", "-q", "-b", "main")
        self.commit()
        self.git("tag", "base")

    def write(self, folder: str, files: dict) -> None:
        for path, text in files.items():
            (self.room / folder / path).parent.mkdir(parents=True, exist_ok=True)
            (self.room / folder / path).write_text(text)

    def hash(self, folder: str, number: int) -> None:
        """Writes the hash of a version."""
        (self.room / folder / ".hash").write_text(soong.digest(str(self.room / folder), number) + "\n")

    def git(self, *words: str) -> None:
        subprocess.run([*GIT, *words], cwd=self.room, env=environment(), capture_output=True, check=True, timeout=WAITS)

    def commit(self) -> None:
        self.git("add", "-A")
        self.git("commit", "-q", "-m", "as it is")

    def edit(self, path: str, old: str, new: str) -> None:
        text = (self.room / path).read_text()
        assert old in text
        (self.room / path).write_text(text.replace(old, new))

    def job(self, *words: str, base: str = "base", imports: tuple = (COMMON,), **more: str) -> Came:
        options = [word for one in imports for word in ("-I", one)]
        clean = {name: value for name, value in environment(AIDL=str(self.program)).items() if name != "ANDROID_AIDL"}
        ran = subprocess.run(
            [JOB, "--aosp", *options, *words, MODULE, NAME, *([base] if base else [])],
            cwd=self.room,
            env={**clean, **more},
            capture_output=True,
            text=True,
            timeout=WAITS,
        )
        return Came(ran.returncode, ran.stdout, ran.stderr)


@pytest.fixture
def mock(tmp_path, program):
    return Mock(tmp_path, program)


def test_unchanged_sources_follow_both_versions(mock):
    came = mock.job()
    assert came.status == 0, came
    assert came.says(SAME, f"{API}/1 ", f"{API}/2 ", "ok, by Soong's recipe", f"aidl judge {API}/1 {API}/2\n", f"aidl judge {API}/2 {MODULE}\nyes", END)
    assert came.says("replaced: float (", "replaced: interface j.light.ICallback (1 and 1 times)", "replaced: int[3] (1 and 1 times)", "wasn't compared")
    assert came.printed.index("replaced: float") < came.printed.index("aidl judge")


def test_sources_in_another_folder(mock):
    (mock.room / MODULE / "src").mkdir()
    (mock.room / MODULE / "j").rename(mock.room / MODULE / "src/j")
    came = mock.job("--sources", f"{MODULE}/src")
    assert came.status == 0 and came.says(f"aidl judge {API}/2 {MODULE}/src\nyes"), came
    assert mock.job().status == 1


def test_additions_follow(mock):
    mock.edit(f"{MODULE}/j/light/ILight.aidl", "more);\n}", "more);\n    IBinder token(double d, in List<ICallback> all);\n}")
    mock.edit(f"{MODULE}/j/light/State.aidl", "0.5;\n", "0.5;\n    float[] levels = {};\n    @nullable ICallback who;\n    int[2] pair = {0, 0};\n")
    came = mock.job()
    assert came.status == 0 and "warning" not in came.printed, came


def test_a_field_without_a_default_in_java_is_a_warning(mock):
    mock.edit(f"{MODULE}/j/light/State.aidl", "0.5;\n", "0.5;\n    String name;\n    float[] levels;\n")
    came = mock.job(GITHUB_ACTIONS="true")
    assert came.status == 0, came
    for field in ("name", "levels"):
        assert came.says(f"warning: j.light.State.{field} has no default in Java; Android 14's own check refuses it ({MODULE}/j/light/State.aidl:")
    assert came.says(f"::warning file={MODULE}/j/light/State.aidl,line=8,col=1::j.light.State.name has no default in Java")


BREAKS = {
    "a float to an int": ("State", "float level = 1.0f", "int level = 1", "C11 j.light.State.level"),
    "another default": ("State", "1.0f", "1.5f", "C12 j.light.State.level"),
    "a double's default": ("State", "0.5", "0.25", "C12 j.light.State.speed"),
    "a constant": ("ILight", "1.5f", "1.25f", "C18 j.light.ILight.MOST"),
    "a length": ("State", "COUNT = 3", "COUNT = 4", "C11 j.light.State.colors"),
    "the default of an array": ("State", "{1, 2, 3}", "{1, 3, 2}", "C18 j.light.State.STANDIN_DEFAULT_colors"),
    "a holder": ("State", "ParcelableHolder more", "@nullable IBinder more", "C11 j.light.State.more"),
    "a binder": ("ILight", "IBinder token", "in ParcelFileDescriptor token", "C6 j.light.ILight.listen/1"),
    "a callback": ("ILight", "ICallback callback", "j.light.IOther callback", "C6 j.light.ILight.listen/0"),
    "a callback's method": ("ICallback", "void off(IBinder why);", "void off(ICallback why);", "C6 j.light.ICallback.off/0"),
    "a file descriptor": ("ILight", "in ParcelFileDescriptor file", "IBinder file", "C6 j.light.ILight.opaque/0"),
    "the types of a Map": ("ILight", "Map<String, String>", "Map<String, IBinder>", "C6 j.light.ILight.opaque/1"),
    "a parcelable without a body": ("Opaque", "@JavaOnlyStableParcelable parcelable Opaque;", "parcelable Opaque { }", "C9 j.light.Opaque"),
    "oneway": ("ILight", "oneway @RequiresNoPermission", "@RequiresNoPermission", "C8 j.light.ILight.stop"),
    "a descriptor": ("ICallback", "interface", '@Descriptor(value="x.I") interface', "C18 j.light.ICallback.STANDIN_DESCRIPTOR"),
}


@pytest.mark.parametrize("old, new, path, rule", [(old, new, path, rule) for path, old, new, rule in BREAKS.values()], ids=list(BREAKS))
def test_a_break_in_each_kind_of_stand_in(mock, old, new, path, rule):
    mock.edit(f"{MODULE}/j/light/{path}.aidl", old, new)
    came = mock.job()
    assert came.status == 1 and came.says(f"{MODULE} may not follow {API}/2", "replaced: "), came
    line = next(line for line in came.printed.splitlines() if line.startswith(rule + " "))
    assert f"{MODULE}/j/light/{path}.aidl:" in line


def test_a_broken_version_of_the_chain(mock):
    mock.edit(f"{API}/2/j/light/State.aidl", "float level", "double level")
    mock.hash(f"{API}/2", 2)
    came = mock.job(base="")
    assert came.status == 1 and came.says("C11 j.light.State.level", f"{API}/2 may not follow {API}/1"), came


def test_a_rewritten_version_is_refused_by_base_and_without_it_by_its_hash(mock):
    mock.edit(f"{API}/1/j/light/State.aidl", "1.0f", "1.00f")
    came = mock.job()
    assert came.status == 1 and came.says(f"M\t{API}/1/j/light/State.aidl", f"m {NAME}-freeze-api"), came
    came = mock.job(base="")
    assert came.status == 1 and came.says(f"{API}/1 isn't as it was frozen"), came
    mock.hash(f"{API}/1", 1)
    assert mock.job(base="").status == 0
    came = mock.job()
    assert came.status == 1 and came.says(f"M\t{API}/1/.hash"), came


def test_a_version_that_is_gone(mock):
    shutil.rmtree(mock.room / API / "1")
    came = mock.job(base="")
    assert came.status == 1 and came.says("aren't 1 to 1: 2"), came
    assert mock.job().status == 1


def test_the_hash_of_this_programs_recipes_is_none_of_soongs(mock):
    (mock.room / API / "1/.hash").write_text("0" * 40 + "\n")
    assert mock.job(base="").status == 1


def test_a_missing_import_ends_with_2(mock):
    came = mock.job(imports=())
    assert came.status == 2 and came.says("ILight.aidl:3: the import j.common.Handle isn't there"), came


def test_an_imported_module_that_is_not_frozen_ends_with_2(mock):
    came = mock.job(imports=("common",))
    assert came.status == 2 and came.says("common/j/common/Handle.aidl is imported and isn't frozen"), came
    mock.edit(f"{COMMON}/j/common/Handle.aidl", "1.0f", "2.0f")
    came = mock.job()
    assert came.status == 2 and came.says("isn't frozen", "whose .hash is right"), came


def test_what_is_not_read_is_told_at_its_line(mock):
    mock.edit(f"{MODULE}/j/light/State.aidl", "int[COUNT] colors = {1, 2, 3};", "int[COUNT] colors = {1, 2, 3};\n    byte small = 0xffu8;")
    came = mock.job()
    assert came.status == 1 and came.says(f"{MODULE}/j/light/State.aidl:6: lex 4", f"{MODULE} isn't read"), came


def test_what_is_not_guessed_ends_with_2(mock):
    mock.edit(f"{MODULE}/j/light/State.aidl", "int[COUNT]", "int[NONE]")
    came = mock.job()
    assert came.status == 2 and came.says(f"{MODULE}/j/light/State.aidl:5: the value of NONE isn't known"), came


def test_before_the_first_freeze(mock):
    shutil.rmtree(mock.room / API)
    (mock.room / API / "current").mkdir(parents=True)
    (mock.room / API / "current/README").write_text("none\n")
    assert mock.job(base="").status == 1
    mock.commit()
    mock.git("tag", "-f", "base")
    came = mock.job()
    assert came.status == 0 and came.says("follow nothing yet"), came


@pytest.mark.parametrize("words", [[], ["light"], ["--frozen", MODULE, NAME], ["gone", NAME], [MODULE, "gone"], ["-I", "gone", MODULE, NAME]])
def test_faulty_command_lines_end_with_2(mock, words):
    ran = subprocess.run([JOB, "--aosp", *words], cwd=mock.room, env=environment(AIDL=str(mock.program)), capture_output=True, text=True, timeout=WAITS)
    assert ran.returncode == 2 and ran.stderr and not ran.stdout


COMPILER = """#!/bin/sh
while [ "$1" != --out ]; do shift; done
cp -r "$DUMP/." "$2"
"""


def test_current_is_compared_where_androids_compiler_is_at_hand(mock):
    """The compiler here is one that copies a folder: what it dumps is what the test says."""
    compiler = mock.room / "android-aidl"
    compiler.write_text(COMPILER)
    compiler.chmod(compiler.stat().st_mode | stat.S_IXUSR)
    mock.write(f"{API}/current", SECOND)
    mock.write("dump", {path: f"// a licence\n{text}" for path, text in SECOND.items()})
    came = mock.job("--android-aidl", str(compiler), DUMP=str(mock.room / "dump"))
    assert came.status == 0 and came.says(f"{API}/current is the dump of the sources, 5 files"), came
    mock.edit("dump/j/light/State.aidl", "0.5", "0.25")
    came = mock.job(ANDROID_AIDL=str(compiler), DUMP=str(mock.room / "dump"))
    assert came.status == 1 and came.says("State.aidl: not the dump of the sources", f"m {NAME}-update-api"), came
    compiler.write_text("#!/bin/sh\nexit 1\n")
    assert mock.job(ANDROID_AIDL=str(compiler)).status == 2
