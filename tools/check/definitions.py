"""Counts the lines of definitions, those of `crates/*/specs/` but lists of modules, and which of them the clauses of `aidl` need: the
files that crates/aidl_tool/src/top.rt cites in them, those that these cite, and so on, also by way of the types and traits that they
speak of. A file counts whole, comments and imports included. It fails where a file in a folder `steps` is needed, where the contract of a
function that a crate exports cites one, and where it doesn't see each clause of such a contract.

python3 tools/check/definitions.py
python3 tools/check/definitions.py --write      puts the last line into docs/ARCHITECTURE.md
"""

import pathlib
import re
import sys

CRATES = pathlib.Path(__file__).resolve().parents[2] / "crates"
USE = re.compile(r"^ *(?:ghost |unfoldable |pub )*use (?:Rattle\.)?([\w.:]*\w)(?: as (\w+)|(?:\.|::)\{(.*)\})?;?$", re.M)
TYPE = re.compile(r"^(?:pub struct|pub enum|pub trait|impl.* Model for) (\w+).*?^\}", re.M | re.S)
# one with a contract: without, its brace is on the line where the signature ends
FUNCTION = re.compile(r"^( *)pub fn (\w+)(?!.*\{\n)((?:(?!\1\{|\1\).*\{\n).*\n)*?)\1\{", re.M)
CLAUSES = re.compile(r"^pub fn aidl\b.*?^\{", re.M | re.S)


def imports(text, words):
    """What a text imports under one of these words, or, where none are given, all: the path of each, and its names."""
    for path, other, names in USE.findall(text):
        given = set(re.findall(r"[\w-]+", names)) or {re.split(r"\W+", path)[-1]}
        if words is None or (given | {other}) & words:
            yield path, given if words is None or other else given & words


def cited(text, words=None, crate=""):
    """The files of definitions that a text cites, in these words or in all, and the types, each by its crate and its name."""
    files, types = set(), {(crate, word) for word in words or []}
    for path, names in imports(text, words):
        parts = re.split(r"\W+", path)
        if "declared" in parts:
            types |= {(parts[0], name) for name in [*parts[4:5], *names]}
        elif "specs" in parts:
            tries = (CRATES.joinpath(*parts[:n]).with_suffix(".antt") for n in range(len(parts), 2, -1))
            files |= set([file for file in tries if file.exists()][:1])
        else:
            types |= {(crate if parts[0] == "crate" else parts[0], name) for name in names}
    return files, types


def needed(files, types):
    """All files of definitions that these need, and these types."""
    said = {}
    for source in CRATES.glob("*/src/*.rt"):
        text, crate = source.read_text(), source.parts[-3]
        for item in TYPE.finditer(text):
            said.setdefault((crate, item[1]), []).append(cited(text, set(re.findall(r"\w+", item[0])), crate))
    seen, queue = set(), [*files, *types]
    while queue:
        item = queue.pop()
        if item not in seen:
            seen.add(item)
            for more in said.get(item, []) if isinstance(item, tuple) else [cited(item.read_text())]:
                queue += [*more[0], *more[1]]
    return {item for item in seen if isinstance(item, pathlib.Path)}


def steps_cited():
    """The exported functions, and methods of exported types, whose contracts cite a file in a folder `steps`."""
    for lib in sorted(CRATES.glob("*/src/lib.rt")):
        for module, names in re.findall(r"^pub use (\w+)::([^;]*);", lib.read_text(), re.M | re.S):
            source, names = lib.parent / f"{module}.rt", re.findall(r"\w+", names)
            text = source.read_text() if source.exists() else ""
            for method, name, contract in FUNCTION.findall(text):
                files = cited(text, set(re.findall(r"\w+", contract)))[0]
                if (name in names or method and re.search(r"\b[A-Z]", " ".join(names))) and any("steps" in it.parts for it in files):
                    yield f"{lib.parts[-3]}::{name}"


def clauses_of(text):
    """How many clauses the public functions of a text have, counted line by line."""
    count, is_public = 0, False
    for line in text.splitlines():
        if re.match(r" *(?:pub(?:\(crate\))? )?(?:ghost )?fn \w", line):
            is_public = line.lstrip().startswith("pub fn")
        count += is_public and bool(re.match(r" *(?:requires|ensures)\b", line))
    return count


def unseen():
    """The files of which FUNCTION finds other clauses than there are, so that a contract would be passed over."""
    for source in sorted(CRATES.glob("*/src/*.rt")):
        text = source.read_text()
        seen = sum(len(re.findall(r"^ *(?:requires|ensures)\b", contract, re.M)) for _, _, contract in FUNCTION.findall(text))
        if seen != clauses_of(text):
            yield f"{source.relative_to(CRATES)}: {seen} clauses are seen of {clauses_of(text)}"


def lines(files):
    return sum(file.read_text().count("\n") for file in files)


def put(page, line):
    """Puts a line into a page, in place of the one that has the same words before its first number."""
    path = next(CRATES.parent.glob(f"docs/**/{page}"))
    front = re.escape(re.match(r"\D*", line)[0])
    path.write_text(re.sub(f"(?m)^{front}.*", lambda _: line, path.read_text(), count=1))


def main():
    top = (CRATES / "aidl_tool/src/top.rt").read_text()
    ours = needed(*cited(top, set(re.findall(r"\w+", CLAUSES.search(top)[0])), "aidl_tool"))
    table = []
    for crate in sorted(CRATES.glob("*")):
        steps = set(crate.glob("specs/steps/*"))
        specs = {file for file in crate.glob("specs/**/*.antt") if not file.with_suffix("").is_dir() and file.stem != "Lib"} - steps
        table.append((f"`{crate.name}`", lines(specs), lines(specs & ours), lines(steps)))
    table.append(("together", *(sum(row[k] for row in table) for k in (1, 2, 3))))
    text = ["| Crate | Definitions, lines | Of these for `aidl` | Models of steps |", "|---|---|---|---|"]
    text += [f"| {row[0]} | {' | '.join(str(n or '') for n in row[1:])} |" for row in table if any(row[1:])]
    text += ["", f"The clauses of `aidl` need {len(ours)} files in {sum(row[2] > 0 for row in table[:-1])} crates, {lines(ours):,} lines."]
    print(*text, sep="\n")
    if "--write" in sys.argv:
        put("ARCHITECTURE.md", text[-1])
    cite = list(steps_cited())
    found = [*(f"{name} is exported and cites a model of steps" for name in cite), *unseen()]
    print(*found, sep="\n", end="\n" * bool(found), file=sys.stderr)
    sys.exit(bool(found) or any("steps" in file.parts for file in ours))


if __name__ == "__main__":
    main()
