"""The code that Android 14's compiler generates from its own dump and from the program's."""
import pathlib
import re
from typing import Dict, List, Sequence

from .base import Counts, Options
from .pairs import errors, paths
from .readings import Case
from .tools import aosp, program, scratch, write_tree
from .translate import Translator

LANGUAGES = ("java", "cpp", "ndk", "rust")
# what the program's dump leaves out is taken out of Android's too, its constants and nested types are put in order, and a
# default is the first enumerator of its value; nothing else is changed
LEFT_OUT = ("notice", "first-comment", "comments", "dropped-annotations", "constant-order", "nested-order",
            "behind-oneway", "first-enumerator")


def generated(options: Options, tree: pathlib.Path, language: str, into: pathlib.Path) -> Dict[str, List[str]]:
    """The lines of each generated file, without comments and includes; or the messages."""
    headers = ["-h", str(into)] if language in ("cpp", "ndk") else []
    done = aosp(options, f"--lang={language}", "--structured", "-I", ".", "-o", into, *headers, *paths(tree), cwd=tree)
    if done.exit:
        return {"messages": [re.sub(r"\S+\.aidl:\S+", "", line) for line in errors(done.err)]}
    made = {}
    for path in sorted(into.rglob("*")):
        if path.is_file():
            text = re.sub(r"/\*.*?\*/", "", path.read_text(errors="replace"), flags=re.S)
            made[str(path.relative_to(into))] = [line.strip() for line in text.split("\n") if line.strip() and not line.strip().startswith(("#include", "//"))]
    return made


def compare_one(options: Options, case: Case, counts: Counts) -> None:
    """The code of one tree, in each language."""
    with scratch() as room:
        write_tree(room / "t", case.files)
        done = aosp(options, "--structured", "--dumpapi", "-I", ".", "-o", "../theirs", *paths(room / "t"), cwd=room / "t")
        program(options, "dump", "t", "ours", cwd=room)
        if done.exit:
            counts.differ("not dumped:", errors(done.err)[:3])
            return
        theirs = {name: (room / "theirs" / name).read_text() for name in paths(room / "theirs")}
        write_tree(room / "bare", Translator(theirs, lambda rule: rule in LEFT_OUT).texts())
        for language in LANGUAGES:
            ours = generated(options, room / "ours", language, room / f"{language}.ours")
            other = generated(options, room / "bare", language, room / f"{language}.theirs")
            counts.add(f"trees with the same code from both dumps, {language}", int(ours == other and "messages" not in ours))
            counts.add(f"trees of which neither dump gives code, {language}", int("messages" in ours and "messages" in other))
            if options.turn("stubs", repr(ours)) != repr(other):
                different = [name for name in sorted({*ours, *other}) if ours.get(name) != other.get(name)]
                lines = [(one, two) for name in different for one, two in zip(ours.get(name, []), other.get(name, [])) if one != two][:2]
                counts.differ("code of", language, case.files, different[:3], lines)


def compare_stubs(options: Options, cases: Sequence[Case]) -> Counts:
    """The code of these trees, from both dumps, is the same but for comments, includes and what the program's dump drops."""
    counts = Counts()
    for case in cases:
        compare_one(options, case, counts)
    return counts


def compare_permission(options: Options) -> Counts:
    """Java's code of a method with @EnforcePermission has a check, and the code of the program's dump has none: the page tells it."""
    counts = Counts()
    with scratch() as room:
        write_tree(room / "t", {"a/I.aidl": 'package a; interface I { @EnforcePermission("X") void f(); }'})
        program(options, "dump", "t", "ours", cwd=room)
        for tree, wanted in (("t", "a check"), ("ours", "no check")):
            made = generated(options, room / tree, "java", room / f"{tree}.java")
            has_check = any("PermissionEnforcer" in line for lines in made.values() for line in lines)
            counts.add("codes of @EnforcePermission that are as the page tells")
            if options.turn("permission", "a check" if has_check else "no check") != wanted or "messages" in made:
                counts.differ("the code of", tree, "has not", wanted, made)
    return counts
