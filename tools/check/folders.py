"""Tries the program on folders with links, fifos and pipes: below a folder that its words name it writes through no link and reads no link or fifo,
and what the words name themselves may be one. It prints each case that goes otherwise, and ends with 1 where there is one.

python3 tools/check/folders.py [PROGRAM]      PROGRAM is crates/aidl/out/aidl if none is named
"""

import os
import pathlib
import shutil
import subprocess
import sys
import tempfile

TOP = pathlib.Path(__file__).resolve().parents[2]
OLD, NEW = TOP / "examples/lights/1", TOP / "examples/lights/2"
PROGRAM = pathlib.Path(sys.argv[1] if len(sys.argv) > 1 else TOP / "crates/aidl/out/aidl").resolve()


def run(room, *words, given=b""):
    """The exit and the text; 'waits' where it doesn't end."""
    try:
        ran = subprocess.run([PROGRAM, *map(str, words)], cwd=room, input=given, capture_output=True, timeout=20, check=False)
    except subprocess.TimeoutExpired:
        return "waits", b""
    return ran.returncode, ran.stdout


def contents(folder):
    """Each file below a folder with its bytes."""
    return {str(it.relative_to(folder)): it.read_bytes() for it in sorted(folder.rglob("*")) if it.is_file()}


def api_with_a_version(room):
    (room / "api").mkdir()
    assert run(room, "freeze", OLD, "api")[0] == 0
    return room / "api"


def a_version_behind_a_link_is_left_alone(room):
    api = api_with_a_version(room)
    (room / "real").mkdir()
    (room / "real/.hash").write_text("true\n")
    (api / "2").symlink_to("../real")
    yield run(room, "freeze", NEW, "api"), (3, b"")
    yield contents(room / "real"), {".hash": b"true\n"}
    yield run(room, "verify", "api")[1].count(b"\n"), 1


def the_folder_of_an_api_may_be_a_link(room):
    api = api_with_a_version(room)
    (room / "there").symlink_to("api")
    yield run(room, "freeze", NEW, "there")[0], 0
    yield run(room, "verify", "there/")[1].count(b" ok\n"), 2
    yield (api / "2/.hash").is_file(), True


def a_folder_named_through_a_link_may_hold_none(room):
    api = api_with_a_version(room)
    shutil.copytree(NEW, room / "real")
    (api / "2").symlink_to("../real")
    yield run(room, "freeze", "api/2", "api")[0], 3
    yield contents(room / "real"), contents(NEW)


def a_hash_that_is_a_link_is_neither_read_nor_written(room):
    api = api_with_a_version(room)
    (api / "1/.hash").rename(room / "hash")
    (api / "1/.hash").symlink_to("../../hash")
    (room / "hash").write_text("other\n")
    for command in ("verify", "rehash"):
        yield run(room, command, "api"), (3, b"")
    yield run(room, "freeze", NEW, "api"), (3, b"")
    yield (room / "hash").read_text(), "other\n"


def a_hash_that_is_a_fifo_is_not_waited_for(room):
    api = api_with_a_version(room)
    (api / "1/.hash").unlink()
    os.mkfifo(api / "1/.hash")
    for command in ("verify", "rehash"):
        yield run(room, command, "api"), (3, b"")


def a_fifo_is_no_source(room):
    os.mkfifo(room / "A.aidl")
    (room / "B.aidl").symlink_to(OLD)
    yield run(room, "check", "."), (0, b"ok 0 types\n")


def a_dump_goes_through_no_link(room):
    (room / "real").mkdir()
    (room / "out").mkdir()
    (room / "out/lights").symlink_to("../real")
    yield run(room, "dump", OLD, "out"), (3, b"")
    yield contents(room / "real"), {}
    (room / "link").symlink_to("real")
    yield run(room, "dump", OLD, "link")[0], 0
    written = contents(room / "real")
    yield run(room, "dump", OLD, "a/b/c")[0], 0
    yield contents(room / "a/b/c"), written
    for path in written:
        (room / "real" / path).rename(room / "kept")
        (room / "real" / path).symlink_to(room / "kept")
        yield run(room, "dump", OLD, "link"), (3, b"")
        (room / "kept").replace(room / "real" / path)
    yield contents(room / "real"), written


def made_trees_go_through_no_link(room):
    (room / "real").mkdir()
    (room / "out").mkdir()
    (room / "out/old").symlink_to("../real")
    yield run(room, "make", "1", "out"), (3, b"")
    yield contents(room / "real"), {}


def a_named_file_may_be_a_link_or_a_pipe(room):
    parcel = (TOP / "examples/two_words.hex").read_bytes()
    (room / "parcel").write_bytes(parcel)
    (room / "link").symlink_to("parcel")
    wanted = run(room, "decode", "int,long", "parcel")
    yield wanted[0], 0
    yield run(room, "decode", "int,long", "link"), wanted
    yield run(room, "decode", "int,long", "/dev/stdin", given=parcel), wanted
    yield run(room, "decode", "int,long", "/dev/null")[0], 1
    yield run(room, "decode", "int,long", "."), (3, b"")


CASES = [
    a_version_behind_a_link_is_left_alone,
    the_folder_of_an_api_may_be_a_link,
    a_folder_named_through_a_link_may_hold_none,
    a_hash_that_is_a_link_is_neither_read_nor_written,
    a_hash_that_is_a_fifo_is_not_waited_for,
    a_fifo_is_no_source,
    a_dump_goes_through_no_link,
    made_trees_go_through_no_link,
    a_named_file_may_be_a_link_or_a_pipe,
]


def main():
    failed = 0
    for case in CASES:
        with tempfile.TemporaryDirectory() as name:
            for found, wanted in case(pathlib.Path(name)):
                if found != wanted:
                    failed += 1
                    print(f"{case.__name__}: {found!r}, and not {wanted!r}")
    print(f"{len(CASES)} cases, {failed} differ")
    return failed > 0


if __name__ == "__main__":
    sys.exit(main())
