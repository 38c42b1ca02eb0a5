"""Tries every command on the examples with memory that is refused: each allocation of the program fails in turn, alone, and together with
every later one. It prints a line for each command, with the number of allocations that were tried and with what differed, and ends with 1
where something did.

A run where memory is refused ends as the whole run does, or with exit 5: what it printed is then a front of the whole text, and of the
files that the whole run writes the first ones are written, in their order, and no other is changed. Where every later allocation is refused
too, it ends with exit 5.

python3 tools/check/memory.py [PROGRAM]      PROGRAM is crates/aidl/out/aidl if none is named

It needs gcc, for a small library that stands between the program and the allocations of glibc.
"""

import hashlib
import os
import pathlib
import shutil
import subprocess
import sys
import tempfile

TOP = pathlib.Path(__file__).resolve().parents[2]

# Refuses the allocation with the number REFUSED, counted from 0, and every later one where LATER is there; the file COUNTED gets their number.
LIBRARY = r"""
#include <errno.h>
#include <fcntl.h>
#include <stdio.h>
#include <stdlib.h>
#include <unistd.h>

extern void *__libc_malloc(size_t), *__libc_realloc(void *, size_t), *__libc_calloc(size_t, size_t);

static long number = 0, refused = -1;
static int later = 0;

__attribute__((constructor)) static void begin(void) {
    refused = getenv("REFUSED") ? atol(getenv("REFUSED")) : -1;
    later = getenv("LATER") != NULL;
    number = 0;
}

static int is_refused(void) {
    long this = number++;
    int is = refused >= 0 && (this == refused || (later && this > refused));
    if (is) errno = ENOMEM;
    return is;
}

void *malloc(size_t size) { return is_refused() ? NULL : __libc_malloc(size); }
void *realloc(void *old, size_t size) { return is_refused() ? NULL : __libc_realloc(old, size); }
void *calloc(size_t count, size_t size) { return is_refused() ? NULL : __libc_calloc(count, size); }

__attribute__((destructor)) static void end(void) {
    int file = getenv("COUNTED") ? open(getenv("COUNTED"), O_WRONLY | O_CREAT | O_TRUNC, 0600) : -1;
    if (file >= 0) dprintf(file, "%ld", number);
}
"""

OLD, NEW, API = "examples/lights/1", "examples/lights/3", "examples/lights_api"
CALLS = "examples/calls/lights_old_to_new.calls"
STATE = "--tree examples/lights/2 lights.LightState"

COMMANDS = [
    "decode int,long examples/two_words.hex",
    "decode --lenient boolean examples/truth_word.hex",
    f"decode {STATE} state.hex",
    "decode int missing",
    "encode String[]?,byte[] examples/values.json",
    f"encode {STATE} examples/state.json",
    f"explain {STATE} state.hex",
    f"check {NEW}",
    "check examples/sensors",
    *(f"check examples/faulty/{kind}" for kind in ("bytes", "syntax", "names", "constants", "types")),
    f"dump {NEW} out",
    f"freeze {OLD} new_api",
    f"freeze {NEW} two_versions",
    f"freeze {NEW} {API}",
    f"verify {API}",
    f"rehash {API}",
    "rehash first_recipe",
    f"judge {OLD} {NEW}",
    f"judge {NEW} {OLD}",
    f"witness {NEW} {OLD}",
    "witness examples/fan/1 examples/fan/2",
    f"run {OLD} {NEW} {CALLS}",
    f"run --trace {NEW} {OLD} examples/calls/lights_new_to_old.calls",
    "run examples/sensors examples/sensors examples/calls/sensors.calls",
    "run examples/fan/1 examples/fan/2 examples/calls/sensors.calls",
    "make 2 made",
    f"ask {API} 3 lights.ILights 16777215 examples/requests/version.hex",
    f"ask {API} 3 lights.ILights 1 examples/requests/set_state.hex",
    f"replay {OLD} lights.ILights lights.trace",
    "unknown",
]


def run(program, words, room, **refusal):
    """The exit and the text of a run in this folder."""
    done = subprocess.run([program, *words.split()], cwd=room, env=refusal, stdout=-1, stderr=-3, timeout=60, check=False)
    return done.returncode, done.stdout


def furnish(program, room):
    """Puts the examples into a folder, and what is made of them."""
    shutil.copytree(TOP / "examples", room / "examples")
    (room / "state.hex").write_bytes(run(program, f"encode {STATE} examples/state.json", room)[1])
    (room / "lights.trace").write_bytes(run(program, f"run --trace {OLD} {NEW} {CALLS}", room)[1])
    shutil.copytree(room / API, room / "two_versions")
    shutil.rmtree(room / "two_versions/3")
    shutil.copytree(room / API, room / "first_recipe")
    for version in (room / "first_recipe").iterdir():
        write_first_recipe(version)


def write_first_recipe(version):
    """Gives a version the hash that has no version number in it."""
    sources = sorted(path.relative_to(version).as_posix() for path in version.rglob("*.aidl"))
    lines = "".join(f"{hashlib.sha1((version / path).read_bytes()).hexdigest()}  ./{path}\n" for path in sources)
    (version / ".hash").write_text(hashlib.sha1(lines.encode()).hexdigest() + "\n")


def files(room):
    """The bytes of each file below a folder, by its path."""
    return {path.relative_to(room).as_posix(): path.read_bytes() for path in room.rglob("*") if path.is_file()}


def stages(before, after):
    """The files before the first write, and after each, in the order of the writes: by path, and each `.hash` behind the others."""
    stage = dict(before)
    yield dict(stage)
    for path in sorted((path for path in after if before.get(path) != after[path]), key=lambda path: (path.endswith(".hash"), path)):
        stage[path] = after[path]
        yield dict(stage)


class Command:
    """A command with how its whole run ends."""

    def __init__(self, program, library, words, start):
        self.program, self.library, self.words, self.start = program, library, words, start
        self.writes = words.split()[0] in ("dump", "freeze", "rehash", "make")
        with tempfile.TemporaryDirectory() as folder:
            room, counted = pathlib.Path(folder) / "room", pathlib.Path(folder) / "counted"
            self.end, self.text, after = self.outcome(COUNTED=str(counted))
            self.allocations = int(counted.read_text()) if counted.exists() else 0
            self.copy_to(room)
            self.stages = list(stages(files(room), after)) if self.writes else [after]

    def outcome(self, **refusal):
        """The exit, the text and the files of a run; one that writes nothing runs in the folder itself."""
        refusal["LD_PRELOAD"] = str(self.library)
        if not self.writes:
            return *run(self.program, self.words, self.start, **refusal), {}
        with tempfile.TemporaryDirectory() as folder:
            room = pathlib.Path(folder)
            self.copy_to(room)
            return *run(self.program, self.words, room, **refusal), files(room)

    def copy_to(self, room):
        """Copies the folders that the words name."""
        room.mkdir(exist_ok=True)
        for word in self.words.split():
            if (self.start / word).is_dir():
                shutil.copytree(self.start / word, room / word, dirs_exist_ok=True)

    def differs(self, number, later):
        """What is wrong about the run whose allocation with this number is refused, or None."""
        refusal = {"REFUSED": str(number)} | ({"LATER": "1"} if later else {})
        end, text, left = self.outcome(**refusal)
        if end == self.end and not later:
            same = text == self.text and left == self.stages[-1]
            return None if same else f"exit {end} with another text or other files"
        if end != 5:
            return f"exit {end}"
        if not self.text.startswith(text):
            return "what is printed is no front of the text"
        return None if left in self.stages else "the files are none of those of the first writes"

    def tried(self):
        """What differed, each by the number of the allocation, and whether every later one was refused too."""
        for later in (False, True):
            for number in range(self.allocations):
                told = self.differs(number, later)
                if told:
                    yield f"{number}{' and later' if later else ''}: {told}"


def try_all(program):
    """Prints a line for each command. Whether nothing differed."""
    is_right = True
    with tempfile.TemporaryDirectory() as folder:
        room, source, library = (pathlib.Path(folder) / name for name in ("room", "refuse.c", "refuse.so"))
        room.mkdir()
        source.write_text(LIBRARY)
        subprocess.run(["gcc", "-O2", "-shared", "-fPIC", "-o", library, source], check=True)
        furnish(program, room)
        before = files(room)
        for words in COMMANDS:
            command = Command(program, library, words, room)
            told = list(command.tried())
            told += ["no allocation was seen"] if command.allocations == 0 else []
            told += ["a file of the examples was changed"] if files(room) != before else []
            shown = "; ".join(told[:5]) + (f"; and {len(told) - 5} more" if len(told) > 5 else "")
            print(f"{words}: exit {command.end}, {command.allocations} allocations, {shown or 'none differs'}", flush=True)
            is_right = is_right and not told
    return is_right


if __name__ == "__main__":
    sys.exit(not try_all(os.path.abspath(sys.argv[1]) if len(sys.argv) > 1 else TOP / "crates/aidl/out/aidl"))
