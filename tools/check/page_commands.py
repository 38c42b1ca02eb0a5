"""Runs what a page shows over a program, and compares what is printed.

A block that is fenced as `console` has commands, each behind `$ `, and below each what it prints on standard output. The commands of a page
run in one folder, with copies of the examples, of the script `aidl` with the program where it looks for it, and of the program in place
of `try`. A block that is fenced as `trees` has cases as crates/worked_rows/data/README says, over which `check t` is run; one that is fenced
as `rows` has cases that stand in crates/worked_rows/data/check.rows, with ` .. ` for what is left out of one.
"""

import os
import pathlib
import re
import shlex
import shutil
import subprocess
import sys
import tempfile

import page_blocks

TOP = pathlib.Path(__file__).resolve().parents[2]
MARK = "\x01"
# what the scripts say on standard error where nothing is wrong
NOTES = re.compile(r"(?:aidl: there is no folder .*\n|(?:check-api|report|stage|try-calls): .*\n)*")
WAITS = 600  # seconds for the commands of a page


def commands(text):
    """The commands of a page, each with its line and with what it is to print."""
    for first, block in page_blocks.blocks(text, "console"):
        for command in re.finditer(r"^\$ (.*)\n((?:(?!\$ ).*\n)*)", block, re.M):
            yield first + block[: command.start()].count("\n"), command[1], command[2]


def furnish(room, program):
    """Makes the folder in which the commands of a page run. Its `rt` makes the program by a copy, so that `aidl` knows what it was made of."""
    for name in ("ci", "examples"):
        shutil.copytree(TOP / name, room / name)
    (room / "tools").mkdir()
    for name in ("aidl", "crates.txt", "HANDLES", "tools/scripts.sh"):
        shutil.copy(TOP / name, room / name)
    for crate in re.findall(r"^(\w+):", (room / "crates.txt").read_text(), re.M):
        (room / "crates" / crate).mkdir(parents=True)
    kit = room / ".kit/bin"
    kit.mkdir(parents=True)
    (kit / "rt").write_text(f"#!/bin/sh\nmkdir -p crates/aidl/out && cp {shlex.quote(str(program))} crates/aidl/out/aidl\n")
    (kit / "rt").chmod(0o755)
    environment = {**os.environ, "PATH": f"{kit}:{os.environ['PATH']}"}
    made = subprocess.run([room / "aidl", "check", "examples/lights/1"], cwd=room, env=environment, capture_output=True, text=True, check=False)
    if made.returncode:
        sys.exit(f"the folder for the commands of pages can't be made: {made.stderr}")
    (room / "try").symlink_to(room / "crates/aidl/out/aidl")
    return environment


def ran(found, program):
    """What comes of these commands, one after the other in one folder: what each prints, its exit, and what it says on standard error."""
    with tempfile.TemporaryDirectory() as name, tempfile.TemporaryDirectory() as aside:
        environment = furnish(pathlib.Path(name), program)
        lines = (f"{{ {command}\n}} 2>{aside}/{number}; printf '{MARK}%d{MARK}' $?" for number, (_, command, _) in enumerate(found))
        run = subprocess.run(["sh", "-c", "\n".join(lines)], cwd=name, env=environment, stdin=-3, stdout=-1, stderr=-3, timeout=WAITS, check=False)
        parts = run.stdout.decode(errors="replace").split(MARK)
        came = []
        for number in range(len(found)):
            text, status = (parts[2 * number : 2 * number + 2] + ["", ""])[:2]
            said = pathlib.Path(aside, str(number))
            came.append((text, status, said.read_text(errors="replace") if said.exists() else "it wasn't run"))
    return came


def wrong_commands(text, program):
    """A line for each command that prints something else, or that fails and shows nothing of it."""
    found = list(commands(text))
    for (line, command, wanted), (given, status, said) in zip(found, ran(found, program) if found else []):
        if wanted != given:
            yield line, f"`{command}` prints {given!r}"
        elif status not in ("0", "1") or status == "1" and not given:
            yield line, f"`{command}` ends with {status}, which isn't shown, and says {said!r}"
        elif ">&2" not in command and not NOTES.fullmatch(said):
            yield line, f"`{command}` says {said!r} on standard error"


def run_case(case, program):
    """What `check t` prints over the files of a case, with its exit in front, as a row says it."""
    with tempfile.TemporaryDirectory() as name:
        for file in case.split(" || "):
            path, source = file.split(": ", 1)
            pathlib.Path(name, path).parent.mkdir(parents=True, exist_ok=True)
            pathlib.Path(name, path).write_text(re.sub(r"\\x(..)", lambda byte: chr(int(byte[1], 16)), source))
        run = subprocess.run([program, "check", "t"], cwd=name, capture_output=True, text=True, timeout=WAITS, check=False)
    return " | ".join([str(run.returncode), *run.stdout.splitlines()])


def row_of(case):
    """The row of check.rows that a case is, with what is left out of it."""
    rows = (TOP / "crates/worked_rows/data/check.rows").read_text().splitlines()
    form = " .* ".join(map(re.escape, case.split(" .. ")))
    return next((row for row in rows if re.fullmatch(form, row)), None)


def wrong_cases(text, program):
    """A line for each case that is no row where it has to be one, or of which something else is printed."""
    for kind, whole in (("rows", row_of), ("trees", lambda case: case)):
        for first, block in page_blocks.blocks(text, kind):
            for number, case in enumerate(block.splitlines()):
                files, _, wanted = (whole(case) or "").partition(" => ")
                if not files:
                    yield first + number, f"`{case}` is no row of check.rows"
                elif run_case(files, program) != wanted:
                    yield first + number, f"`{case}` isn't what the program prints"


def wrong(text, program):
    """What a page shows and the program doesn't print, each with its line."""
    yield from wrong_commands(text, program)
    yield from wrong_cases(text, program)


def shown(text):
    """How many commands and cases a page shows."""
    return len(list(commands(text))) + sum(block.count("\n") for kind in ("rows", "trees") for _, block in page_blocks.blocks(text, kind))
