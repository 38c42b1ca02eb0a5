"""The Debian package `leyomuvain`, of the files of the archive, by dpkg-deb."""

from __future__ import annotations

import gzip
import hashlib
import os
import pathlib
import subprocess
import tempfile
import time

from .contents import Entry
from .manuals import PROGRAM, SUMMARY, Stamp
from .table import Fault

NAME = "leyomuvain"
MAINTAINER = "Leyomuvain maintainers <maintainers@users.noreply.leyomuvain.example>"
LIBRARY = f"usr/lib/{NAME}"
PAGES = f"usr/share/doc/{NAME}"
COPYRIGHT = """The owner of Leyomuvain hasn't chosen a licence. All rights are with the Leyomuvain maintainers.
The program contains parts of the Rattle kit.
"""
WRAPPER = f"""#!/bin/sh
# leyomuvain help [COMMAND]     says how a command is called
# leyomuvain --version
# leyomuvain COMMAND ..         runs the program
case ${{1-}} in
    help) shift; exec /{LIBRARY}/aidl-help "$@" ;;
    '' | --help | --version) exec /{LIBRARY}/aidl-help "$@" ;;
esac
exec /usr/bin/{PROGRAM} "$@"
"""


def control(version: str, size: int) -> str:
    return f"""Package: {NAME}
Version: {version}
Section: devel
Priority: optional
Architecture: amd64
Depends: libc6 (>= 2.34), libgcc-s1, python3 (>= 3.9)
Recommends: git, python3-jinja2
Installed-Size: {(size + 1023) // 1024}
Maintainer: {MAINTAINER}
Description: {SUMMARY}
 Checks trees of .aidl files, freezes numbered versions, judges whether a new
 version may follow an old one and lists every broken rule, shows a call for a
 broken rule, and decodes, encodes and explains Parcels. The program is proved
 to meet its contract; the commands for a job that come with it are not.
"""


def placed(entries: dict[str, Entry], stamp: Stamp) -> dict[str, Entry]:
    """The files of the package by their paths from the root."""
    made: dict[str, Entry] = {}
    for name, entry in entries.items():
        if name == "bin/aidl":
            made[f"usr/bin/{PROGRAM}"] = entry
        elif name == "bin/aidl-help":
            made[f"{LIBRARY}/aidl-help"] = entry
        elif name.startswith("ci/"):
            made[f"{LIBRARY}/{name}"] = entry
        elif name.startswith("share/man/"):
            made[f"usr/{name}.gz"] = Entry(gzip.compress(entry.data, 9, mtime=0))
        elif name.startswith("share/"):
            made[f"usr/{name}"] = entry
        else:
            made[f"{PAGES}/{name}"] = entry
    moment = time.strftime("%a, %d %b %Y %H:%M:%S +0000", time.gmtime(stamp.seconds))
    changes = f"{NAME} ({stamp.version}) unstable; urgency=medium\n\n  * Built from the commit that BUILT names.\n\n -- {MAINTAINER}  {moment}\n"
    made[f"usr/bin/{NAME}"] = Entry(WRAPPER.encode(), True)
    made[f"{PAGES}/copyright"] = Entry(COPYRIGHT.encode())
    made[f"{PAGES}/changelog.gz"] = Entry(gzip.compress(changes.encode(), 9, mtime=0))
    made[f"usr/share/man/man1/{NAME}.1.gz"] = Entry(gzip.compress(f".so man1/{PROGRAM}.1\n".encode(), 9, mtime=0))
    return made


def lay(room: pathlib.Path, entries: dict[str, Entry]) -> None:
    for name, entry in entries.items():
        path = room / name
        path.parent.mkdir(parents=True, exist_ok=True)
        path.write_bytes(entry.data)
        path.chmod(0o755 if entry.runs else 0o644)


def link_commands(room: pathlib.Path, entries: dict[str, Entry]) -> None:
    """Puts each command of `ci/` on the path, under a name that begins with the package's."""
    for name, entry in entries.items():
        if entry.runs and name.startswith(f"{LIBRARY}/ci/") and name.count("/") == 4:
            (room / f"usr/bin/{NAME}-{pathlib.Path(name).name}").symlink_to(f"/{name}".replace("/usr/", "../", 1))


def dated(room: pathlib.Path, seconds: int) -> None:
    for path in [*room.rglob("*"), room]:
        os.utime(path, (seconds, seconds), follow_symlinks=False)
        if path.is_dir() and not path.is_symlink():
            path.chmod(0o755)


def packed(entries: dict[str, Entry], stamp: Stamp) -> bytes:
    """The bytes of the package."""
    files = placed(entries, stamp)
    with tempfile.TemporaryDirectory() as name:
        room, made = pathlib.Path(name, "root"), pathlib.Path(name, "made.deb")
        lay(room, files)
        link_commands(room, files)
        sums = "".join(f"{hashlib.md5(entry.data).hexdigest()}  {path}\n" for path, entry in sorted(files.items()))
        lay(room, {"DEBIAN/control": Entry(control(stamp.version, sum(len(one.data) for one in files.values())).encode()), "DEBIAN/md5sums": Entry(sums.encode())})
        dated(room, stamp.seconds)
        ran = subprocess.run(["dpkg-deb", "--root-owner-group", "-Zxz", "--build", room, made], capture_output=True, text=True, env=stamp.environment(), check=False)
        if ran.returncode != 0:
            raise Fault(f"dpkg-deb: {ran.stderr.strip()}")
        return made.read_bytes()
