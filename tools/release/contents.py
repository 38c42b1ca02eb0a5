"""What is in the archive: each file by its path, with its bytes and whether it can be run."""

from __future__ import annotations

import hashlib
import pathlib
import re
import subprocess
import tempfile
from dataclasses import dataclass
from typing import Iterator

from . import completions, manuals
from .manuals import PROGRAM, Stamp
from .table import Fault, commands, plain

# The pages for users; those for auditors and maintainers speak of sources that the archive doesn't have.
USER_PAGES = "BYTES CALLS CHECKS CI EVOLUTION EXPLAIN JSON LANGUAGE MIGRATING PROFILE PROGRAM VERSIONS WITNESS".split()
MORE_PAGES = "ANDROID REVIEWING".split()  # where they are there
EXAMPLES = ["examples/lights", "examples/lights_api", "examples/fan", "examples/faulty"]


@dataclass(frozen=True)
class Entry:
    data: bytes
    runs: bool = False


def tracked(top: pathlib.Path, folder: str) -> list[str]:
    """The files of a folder that the commit has."""
    listed = subprocess.run(["git", "-C", top, "ls-files", "-z", "--", folder], capture_output=True, check=True).stdout
    return [name for name in listed.decode().split("\0") if name]


def stripped(program: pathlib.Path) -> bytes:
    """The program without its symbols."""
    with tempfile.TemporaryDirectory() as room:
        made = pathlib.Path(room, "aidl")
        subprocess.run(["strip", "-o", made, program], check=True)
        return made.read_bytes()


def help_script(top: pathlib.Path, stamp: Stamp) -> str:
    """`aidl-help`: the commands in a line each, or how one is called and what it answers."""
    rows = commands(top)
    cases = "\n".join(f"    {one.name}) printf '%s\\n' {shell_quoted(f'{one.name} {one.arguments}')} {shell_quoted('    ' + plain(one.does))} ;;" for one in rows)
    listed = "\n".join(f"{one.name} {one.arguments}" for one in rows)
    return f"""#!/bin/sh
# Says how each command of the program is called: aidl-help [COMMAND]
case ${{1-}} in
{cases}
    --version) echo 'leyomuvain {stamp.version}' ;;
    '' | --help | help) cat <<'COMMANDS'
{listed}
COMMANDS
        ;;
    *) echo "aidl-help: there is no command $1" >&2; exit 2 ;;
esac
"""


def shell_quoted(text: str) -> str:
    return "'" + text.replace("'", "'\\''") + "'"


def built_from(top: pathlib.Path, stamp: Stamp, program: pathlib.Path) -> str:
    """What the archive says of itself."""
    commit = subprocess.run(["git", "-C", top, "rev-parse", "HEAD"], capture_output=True, text=True, check=True).stdout.strip()
    kit = re.search(r"^`(rattle-kit-[^`]+)`|`(rattle-kit-[^`]+)`", (top / "README.md").read_text(encoding="utf-8"))
    readme = (top / "README.md").read_text(encoding="utf-8")
    headline = re.search(r"(?:^> .*\n)+", readme[readme.index("**The headline**") :] if "**The headline**" in readme else readme, re.M)
    if not kit or not headline:
        raise Fault("README.md doesn't name the kit and the headline")
    return f"""leyomuvain {stamp.version}
commit {commit}
kit {kit[1] or kit[2]}
sha256 of the program as it was built {hashlib.sha256(program.read_bytes()).hexdigest()}

Proved of the program (the clause `headline` of `aidl_tool::aidl`; docs/HEADLINE.md of the sources):
{headline[0]}
Not proved: the commands in ci/, the texts of manuals and completions, and what real folders, disks and devices do.
"""


def files(top: pathlib.Path, stamp: Stamp, program: pathlib.Path) -> dict[str, Entry]:
    """All files of the archive but SHA256SUMS."""
    made = {"bin/aidl": Entry(stripped(program), True), "bin/aidl-help": Entry(help_script(top, stamp).encode(), True)}
    for name in tracked(top, "ci"):
        if not name.startswith("ci/tests/"):
            path = top / name
            made[name] = Entry(path.read_bytes(), bool(path.stat().st_mode & 0o100))
    for folder in EXAMPLES:
        made.update({name: Entry((top / name).read_bytes()) for name in tracked(top, folder)})
    for page in [*USER_PAGES, *(page for page in MORE_PAGES if (top / f"docs/{page}.md").is_file())]:
        made[f"docs/{page}.md"] = Entry((top / f"docs/{page}.md").read_bytes())
    made.update({name: Entry((top / name).read_bytes()) for name in tracked(top, "docs/pictures")})
    made["README.md"] = Entry((top / "README.md").read_bytes())
    made["BUILT"] = Entry(built_from(top, stamp, program).encode())
    made.update({name: Entry(text.encode()) for name, text in shared(top, stamp)})
    return made


def job_commands(top: pathlib.Path) -> list[pathlib.Path]:
    """The commands of `ci/`."""
    return [top / name for name in tracked(top, "ci") if name.count("/") == 1 and (top / name).stat().st_mode & 0o100]


def shared(top: pathlib.Path, stamp: Stamp) -> Iterator[tuple[str, str]]:
    """Manuals and completions."""
    rows = commands(top)
    yield f"share/man/man1/{PROGRAM}.1", manuals.of_program(top, stamp)
    yield f"share/bash-completion/completions/{PROGRAM}", completions.bash(PROGRAM, rows)
    yield f"share/zsh/vendor-completions/_{PROGRAM}", completions.zsh(PROGRAM, rows)
    yield f"share/fish/vendor_completions.d/{PROGRAM}.fish", completions.fish(PROGRAM, rows)
    for path in job_commands(top):
        name = f"leyomuvain-{path.name}"
        options = completions.options_of(manuals.made_by([str(path), "--help"], stamp))
        yield f"share/man/man1/{name}.1", manuals.of_command(path, stamp)
        yield f"share/bash-completion/completions/{name}", completions.bash_options(name, options)
        yield f"share/zsh/vendor-completions/_{name}", completions.zsh_options(name, options)
        yield f"share/fish/vendor_completions.d/{name}.fish", completions.fish_options(name, options)


def sums(entries: dict[str, Entry]) -> bytes:
    return "".join(f"{hashlib.sha256(entries[name].data).hexdigest()}  {name}\n" for name in sorted(entries)).encode()
