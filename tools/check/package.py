"""Tries `tools/package`: made twice, in two clones at two hours, it has the same bytes; the archive runs where it is unpacked, its sums hold, its manuals and
completions work; the package has no error of lintian; a program that is missing, of other sources or changes that aren't committed are refused.

python3 tools/check/package.py [--chroot] [PROGRAM]      --chroot, as root: in a Debian with nothing but its base, made by debootstrap, the archive and the
                                                         package run too, which is installed and removed again
"""

import argparse
import os
import pathlib
import re
import shlex
import shutil
import subprocess
import sys
import tarfile
import tempfile

TOP = pathlib.Path(__file__).resolve().parents[2]
JUDGED = "C3 lights.ILights.reset\nC17 lights.LightKind.CAMERA\nC9 lights.LightState\n"
BASH = "source {file}; COMP_WORDS=({words}); COMP_CWORD={at}; {function}; echo ${{COMPREPLY[*]}}"


class Room:
    """A folder with clones of this checkout in which the program lies where `./aidl` leaves it."""

    def __init__(self, room: pathlib.Path, program: pathlib.Path):
        self.room, self.program = room, program

    def clone(self, name: str) -> pathlib.Path:
        """A clone whose `rt` makes the program by a copy, so that `./aidl` keeps it with what it was made of."""
        clone, kit = self.room / name, self.room / "kit/bin"
        source = self.room / "first" if (self.room / "first").is_dir() else TOP  # one commit for all
        run("git", "clone", "-q", str(source), str(clone))
        kit.mkdir(parents=True, exist_ok=True)
        (kit / "rt").write_text(f"#!/bin/sh\nmkdir -p crates/aidl/out && cp {shlex.quote(str(self.program))} crates/aidl/out/aidl\n")
        (kit / "rt").chmod(0o755)
        came = run(str(clone / "aidl"), "check", str(clone / "examples/lights/1"), env={**os.environ, "PATH": f"{kit}:{os.environ['PATH']}"})
        assert came.returncode == 0, came
        return clone


def run(*words: str, **more) -> subprocess.CompletedProcess:
    return subprocess.run(words, capture_output=True, text=True, check=False, timeout=1800, **more)


def made(clone: pathlib.Path, out: pathlib.Path, **environment: str) -> subprocess.CompletedProcess:
    return run("sh", "-c", 'umask "$1"; shift; exec "$@"', "sh", environment.pop("umask", "022"), str(clone / "tools/package"), str(out), env={**os.environ, **environment})


def twice(room: Room):
    """The same bytes twice."""
    first = made(room.clone("first"), room.room / "a")
    second = made(room.clone("deeper/second"), room.room / "b", TZ="Asia/Tokyo", umask="077")
    yield "it is made", first.returncode == 0, first
    yield "the same sums twice", first.stdout == second.stdout and len(first.stdout.splitlines()) == 2, (first.stdout, second)


def refusals(room: Room):
    clone = room.clone("refused")
    (clone / "HANDLES").write_text("Handles allowed: all.\n")
    came = made(clone, room.room / "no")
    yield "changes that aren't committed", came.returncode == 2 and "aren't committed" in came.stderr, came
    run("git", "-C", str(clone), "checkout", "-q", "HANDLES")
    came = made(clone, room.room / "no")
    yield "a source that was written again", came.returncode == 2 and "isn't the proved program" in came.stderr, came
    (clone / "crates/aidl/out/aidl").rename(clone / "crates/aidl/out/tried")
    came = made(clone, room.room / "no")
    yield "a program of ./try alone", came.returncode == 2 and "./aidl builds it" in came.stderr, came
    yield "nothing is written then", not (room.room / "no").exists(), None


def unpacked(room: Room) -> pathlib.Path:
    found = next((room.room / "a").glob("*.tar.gz"))
    with tarfile.open(found) as archive:
        archive.extractall(room.room / "else where")
    return next((room.room / "else where").iterdir())


def archive_runs(at: pathlib.Path):
    yield "its sums hold", run("sha256sum", "--quiet", "-c", "SHA256SUMS", cwd=at).returncode == 0, None
    came = run("bin/aidl", "judge", "examples/lights/3", "examples/lights/1", cwd=at)
    yield "the program", (came.returncode, came.stdout) == (1, JUDGED), came
    environment = {name: value for name, value in os.environ.items() if name != "AIDL"}
    came = run("ci/check-api", "examples/lights/3", "examples/lights_api", cwd=at, env=environment)
    yield "the job finds it", came.returncode == 0 and came.stdout.endswith("yes\n"), came
    came = run("bin/aidl-help", "judge", cwd=at)
    yield "help of a command", came.returncode == 0 and came.stdout.startswith("judge OLD NEW\n"), came
    came = run("bin/aidl-help", "jugde", cwd=at)
    yield "help of none", came.returncode == 2 and not came.stdout, came
    said = (at / "BUILT").read_text(encoding="utf-8")
    yield "what it was built from", bool(re.search(r"^commit [0-9a-f]{40}$", said, re.M)) and "kit rattle-kit-" in said and "Wherever the judge" in said, said


def manuals(at: pathlib.Path):
    pages = sorted((at / "share/man/man1").glob("*.1"))
    yield "a manual for each command", {page.stem for page in pages} >= {"leyomuvain-aidl", "leyomuvain-check-api", "leyomuvain-lines"}, pages
    for page in pages:
        came = run("man", "--warnings", "-l", str(page), env={**os.environ, "MANWIDTH": "100", "LC_ALL": "C.UTF-8"})
        yield f"man of {page.stem}", came.returncode == 0 and "NAME" in came.stdout and not came.stderr, came


def completions(at: pathlib.Path):
    share, name = at / "share", "leyomuvain-aidl"
    script = BASH.format(file=f"'{share}/bash-completion/completions/{name}'", words=f"{name} ver", at=1, function="_leyomuvain_aidl")
    came = run("bash", "-c", script)
    yield "bash completes a command", came.stdout == "verify\n", came
    script = BASH.format(file=f"'{share}/bash-completion/completions/{name}'", words=f"{name} decode --l", at=2, function="_leyomuvain_aidl")
    came = run("bash", "-c", script)
    yield "bash completes an option", came.stdout == "--lenient\n", came
    came = run("fish", "-c", f"source '{share}/fish/vendor_completions.d/{name}.fish'; complete -C '{name} ver'; complete -C '{name} decode --len'")
    yield "fish completes both", came.stdout.startswith("verify\t") and came.stdout.endswith("--lenient\n"), came
    shell = "_describe() { print -l $subcommands }; compadd() { print -l $* }; _files() { print files }; words=({words}); CURRENT={at}; source '{file}'"
    file = share / f"zsh/vendor-completions/_{name}"
    came = run("zsh", "-fc", shell.replace("{words}", f"{name} ver").replace("{at}", "2").replace("{file}", str(file)))
    yield "zsh lists fourteen commands", len(came.stdout.splitlines()) == 14 and "verify:" in came.stdout, came
    came = run("zsh", "-fc", shell.replace("{words}", f"{name} decode --l").replace("{at}", "3").replace("{file}", str(file)))
    yield "zsh completes an option", came.stdout.split() == ["--lenient", "--tree"], came


def checked_package(room: Room):
    package = next((room.room / "a").glob("*.deb"))
    came = run("lintian", "--allow-root", "--fail-on", "error", str(package))
    yield "no error of lintian", came.returncode == 0, came
    came = run("dpkg-deb", "--contents", str(package))
    yield "the program's name isn't AOSP's", "./usr/bin/leyomuvain-aidl\n" in came.stdout and "./usr/bin/aidl\n" not in came.stdout, came


def in_bare_debian(room: Room, at: pathlib.Path):
    """A Debian with its base alone: the archive below /opt, then the package, installed and removed."""
    root = room.room / "debian"
    came = run("debootstrap", "--variant=minbase", "bookworm", str(root))
    yield "debootstrap", came.returncode == 0, came.stdout[-300:] + came.stderr[-300:]
    shutil.copytree(at, root / "opt/leyomuvain")
    package = next((room.room / "a").glob("*.deb"))
    shutil.copy(package, root / "tmp")
    shutil.copy("/etc/resolv.conf", root / "etc")
    inside = ("chroot", str(root), "sh", "-c")
    came = run(*inside, "cd /opt/leyomuvain && bin/aidl judge examples/lights/3 examples/lights/1")
    yield "the archive there", (came.returncode, came.stdout) == (1, JUDGED), came
    before = run(*inside, "find / -xdev -path /var -prune -o -path /tmp -prune -o -path /proc -prune -o -path /sys -prune -o -type f -print | sort").stdout
    came = run(*inside, f"apt-get update -qq && apt-get install -qq -y --no-install-recommends /tmp/{package.name}")
    yield "the package is installed", came.returncode == 0, came.stderr[-300:]
    came = run(*inside, "cd /usr/share/doc/leyomuvain && leyomuvain judge examples/lights/3 examples/lights/1; leyomuvain help judge; leyomuvain-check-api examples/lights/3 examples/lights_api")
    yield "the package's program, help and job", came.stdout.startswith(JUDGED + "judge OLD NEW\n") and came.stdout.endswith("yes\n") and came.returncode == 0, came
    came = run(*inside, "dpkg -r leyomuvain && dpkg -P leyomuvain; find / -xdev -name '*leyomuvain*' -not -path '/opt/*' -not -path '/tmp/*' -not -path '/proc/*'")
    yield "the package is removed whole", not [line for line in came.stdout.splitlines() if line.startswith("/")], (came.stdout, before[:0])


def cases(room: Room, chroot: bool):
    yield from twice(room)
    yield from refusals(room)
    at = unpacked(room)
    for group in (archive_runs, manuals, completions):
        yield from group(at)
    yield from checked_package(room)
    if chroot:
        yield from in_bare_debian(room, at)


def main() -> int:
    reader = argparse.ArgumentParser(description="Tries tools/package.", allow_abbrev=False)
    reader.add_argument("--chroot", action="store_true")
    reader.add_argument("program", nargs="?", type=pathlib.Path, default=TOP / "crates/aidl/out/aidl")
    options = reader.parse_args()
    wanted = ["git", "strip", "pandoc", "help2man", "lintian", "man", "bash", "zsh", "fish", "dpkg-deb", *(["debootstrap"] if options.chroot else [])]
    missing = [name for name in wanted if not shutil.which(name)]
    if missing:
        print(f"package: these tools are missing: {' '.join(missing)} (apt-get install binutils pandoc help2man lintian man-db zsh fish debootstrap)")
        return 2
    right = total = 0
    with tempfile.TemporaryDirectory() as name:
        for what, fits, came in cases(Room(pathlib.Path(name), options.program.resolve()), options.chroot):
            print(what if fits else f"{what}: differs, {came!r}", flush=True)
            right, total = right + bool(fits), total + 1
    print(f"{right} of {total} cases of the package came out as said")
    return int(right != total)


if __name__ == "__main__":
    sys.exit(main())
