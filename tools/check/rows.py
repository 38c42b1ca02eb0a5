"""Runs the rows of crates/worked_rows/data as real commands of the built program over real folders. In the gate they run over objects in memory.

Left out are the rows in which a call outside fails or a parcel is changed on its way, since no folder and no link of the host does that at
will, those that run no command, and those whose files or words no folder can hold or may be asked for: a path that begins with `/` or goes
up, one that is a file and a folder, a byte 0. Each row that ends otherwise is printed, with what came; exit 1 where there is one, and where a file of
rows isn't there that `worked_rows` reads in the gate, or is there and isn't read, or has no row.

python3 tools/check/rows.py [PROGRAM]      PROGRAM is crates/aidl/out/aidl if none is named
"""

import pathlib
import re
import subprocess
import sys
import tempfile

TOP = pathlib.Path(__file__).resolve().parents[2]
TABLES = {"runs": "types", "trees": "files", "edits": "lines"}
# lines that only objects in memory can do
FAILING = {"store_fails", "sink_fails", "link_fails", "cut", "cuts", "set", "append"}
WAITS = 300  # seconds for a run


def plain(text):
    """The bytes that a text of a row stands for."""
    first, *pieces = text.split("\\")
    made, repeats = first.encode(), False
    for piece in pieces:
        count, _, repeated = piece[1:].partition(":")
        if repeats and piece.startswith("*"):
            made, repeats = made + piece[1:].encode(), False
        elif not repeats and piece[:1] in ("*", "|") and count.isdigit():
            made += (repeated.encode() + (b"\n" if piece[0] == "|" else b"")) * int(count)
            repeats = True
        elif re.match(r"x[0-9a-f]{2}", piece):
            made += bytes([int(piece[1:3], 16)]) + piece[3:].encode()
        else:
            made += b"\\" + piece.encode()
    return made


def lines_of(line):
    """The lines that a line stands for, several where it begins with `again`."""
    again = re.fullmatch(r"again (\d+) (\d+) (.*)", line)
    if not again:
        return [line]
    patterns = again[3].split(" || ")
    return [it.replace("#", str(n)) for n in range(int(again[1]), int(again[2]) + 1) for it in patterns]


def case_of(line):
    """The source and the wanted text of a case, or None of another line."""
    if line.startswith("=>"):
        return "", line[2:].removeprefix(" ")
    source, arrow, wanted = line.removesuffix(" =>").rpartition(" => ")
    if line.endswith(" =>"):
        return line.removesuffix(" =>"), ""
    return (source, wanted) if arrow else None


class Run:
    """A run of the program, as the lines of a row say it."""

    def __init__(self):
        self.words, self.files, self.left, self.exit, self.printed = [], [], None, None, b""
        self.fails, self.part = False, "files"

    def add(self, line):
        for each in lines_of(line):
            what, _, rest = each.partition(" ")
            self.fails = self.fails or what in FAILING
            if what in ("run", *TABLES):
                self.words += map(plain, rest.split())
            elif what == "word":
                self.words.append(plain(rest))
            elif what in ("file", "left"):
                self.begin(what, rest)
            elif what in ("|", ">"):
                self.add_text(plain(rest) + (b"\n" if what == "|" else b""))
            elif what == "exit":
                self.exit, self.part = int(rest), "printed"

    def begin(self, what, path):
        """Begins a file of the store, or one that is left in it."""
        self.part = "files" if what == "file" else "left"
        if what == "left":
            self.left = self.left or []
        if (what, path) != ("left", "nothing"):
            getattr(self, self.part).append([plain(path), b""])

    def add_text(self, text):
        if self.part == "printed":
            self.printed += text
        else:
            getattr(self, self.part)[-1][1] += text

    def add_source(self, kind, source):
        """Adds what stands in front of the arrow of a case."""
        if kind == "types":
            types, content = source.split(": ", 1)
            self.words = [plain(types) if word == b"TYPES" else word for word in self.words]
            self.files.append([b"f", plain(content)])
        elif kind == "files":
            self.files += [[plain(path), plain(text)] for path, text in (file.split(": ", 1) for file in source.split(" || ") if source)]
        else:
            for line in source.split(" || "):
                self.add(line)

    def add_wanted(self, wanted):
        exit_, *lines = plain(wanted).decode(errors="surrogateescape").split(" | ")
        self.exit = int(exit_)
        self.printed += b"".join(it.encode(errors="surrogateescape") + b"\n" for line in lines for it in lines_of(line))

    def can_be_laid(self):
        """Whether folders can hold its files, and its words name nothing outside."""
        paths = [path for path, _ in self.files]
        above = {path[: at.start()] for path in paths for at in re.finditer(b"/", path)}
        parts = [part for path in [*paths, *self.words] for part in path.split(b"/")]
        is_whole = not above & set(paths) and all(part not in (b"", b".", b"..") for path in paths for part in path.split(b"/"))
        is_inside = b".." not in parts and not any(word.startswith(b"/") for word in self.words)
        return is_whole and is_inside and b"\0" not in b"".join([*paths, *self.words])


def wrong_files():
    """The files of rows that are missing, not read in the gate, or without a row."""
    listed = set(re.findall(r'^ +"(\w+\.rows)",$', (TOP / "crates/worked_rows/src/main.rt").read_text(), re.M))
    there = {file.name: file.read_text() for file in TOP.glob("crates/worked_rows/data/*.rows")}
    yield from (f"{name} isn't there, and worked_rows reads it" for name in sorted(listed - set(there)))
    yield from (f"{name} is read by nothing" for name in sorted(set(there) - listed))
    yield from (f"{name} has no row" for name, text in sorted(there.items()) if not re.search(r"=>|^exit ", text, re.M))
    if not listed:
        yield "worked_rows reads no file"


def runs():
    """Each run of a command that the rows describe, with its row."""
    for file in sorted(TOP.glob("crates/worked_rows/data/*.rows")):
        for block in file.read_text().split("\n\n"):
            lines = block.split("\n")
            kind = next((line.split(" ")[0] for line in lines if line and not line.startswith("#")), "")
            cases = [case for case in map(case_of, lines) if case] if kind in TABLES else [None] if kind == "run" else []
            for case in cases:
                run = Run()
                for line in lines:
                    if kind == "run" or not case_of(line):
                        run.add(line)
                if case:
                    run.add_source(TABLES[kind], case[0])
                    run.add_wanted(case[1])
                yield f"{file.name}: {' => '.join(case) if case else block}", run


def came_of(run, program):
    """The exit, the text and the files of a run in a folder of its own."""
    with tempfile.TemporaryDirectory() as name:
        room = pathlib.Path(name)
        for path, text in reversed(run.files):  # of two with one path the first counts
            at = room / path.decode(errors="surrogateescape")
            at.parent.mkdir(parents=True, exist_ok=True)
            at.write_bytes(text)
        try:
            done = subprocess.run([program, *run.words], cwd=room, stdin=-3, stdout=-1, stderr=-3, timeout=WAITS, check=False)
        except subprocess.TimeoutExpired:
            return "that doesn't come", b"", {}
        left = {str(path.relative_to(room)): path.read_bytes() for path in room.rglob("*") if path.is_file()}
    return done.returncode, done.stdout, left


def wanted_of(run):
    files = run.files if run.left is None else run.left
    return run.exit, run.printed, {path.decode(errors="surrogateescape"): text for path, text in reversed(files)}


def main():
    program = pathlib.Path(sys.argv[1] if sys.argv[1:] else TOP / "crates/aidl/out/aidl").resolve()
    lost = list(wrong_files())
    print(*lost, sep="\n", end="\n" * bool(lost), flush=True)
    tried = failing = unlaid = differ = 0
    for row, run in runs():
        if run.fails:
            failing += 1
        elif not run.can_be_laid():
            unlaid += 1
        else:
            tried += 1
            came = came_of(run, program)
            if came != wanted_of(run):
                differ += 1
                print(f"{row[:400]}\n  came: exit {came[0]}, {came[1][:300]!r}, files {sorted(came[2])}", flush=True)
    print(f"{tried} rows as real commands, {differ} differ; {failing} in which something outside fails and {unlaid} that no folder holds are left out")
    sys.exit(bool(lost) or differ > 0 or tried == 0)


if __name__ == "__main__":
    main()
