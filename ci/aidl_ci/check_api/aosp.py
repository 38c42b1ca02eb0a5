"""`check-api --aosp`: the job for a module of Android's build, whose sources and frozen versions have one parent. Its versions are compared with those of a
git revision and with their hashes; then copies with stand-ins are judged, each version beside the one before it, and the sources beside the latest."""

from __future__ import annotations

import argparse
import os
import subprocess
import tempfile

from ..guard import Fault, Stop, arguments
from ..printing import use_utf8
from ..program import Program
from ..standins import FROZEN
from ..standins.lexer import Text
from ..standins.tree import Tree
from . import keeping, soong
from .copies import Copies
from .log import Log

DESCRIPTION = """Says whether the sources of a module of Android's build may follow its frozen versions, and whether these are as the git revision BASE has
them. Types that `aidl` leaves out are replaced by stand-ins of their own, and each verdict has the list of them in front: nothing is proved of what was
replaced."""


def options_of(words: list[str]) -> argparse.Namespace:
    reader = arguments("check-api --aosp", DESCRIPTION)
    reader.usage = "check-api --aosp [-I IMPORTS].. [--sources DIR] [--android-aidl AIDL] MODULE NAME [BASE]"
    reader.epilog = "AIDL names the program, ANDROID_AIDL Android's compiler. docs/MIGRATING.md says more."
    reader.add_argument("--aosp", action="store_true", help=argparse.SUPPRESS)
    frozen = "a frozen version of an imported module, as OTHER/aidl_api/NAME/2"
    reader.add_argument("-I", dest="imports", metavar="IMPORTS", action="append", default=[], help=frozen)
    reader.add_argument("--sources", metavar="DIR", help="the folder of the sources, if it isn't MODULE: the `local_include_dir` of Android.bp")
    reader.add_argument("--android-aidl", metavar="AIDL", help="Android's own compiler, for the comparison of `current` with the sources")
    reader.add_argument("module", metavar="MODULE", help=f"the folder that has {FROZEN}/NAME and the sources")
    reader.add_argument("name", metavar="NAME", help=f"the name of the module, below MODULE/{FROZEN}")
    reader.add_argument("base", metavar="BASE", nargs="?", help="the git revision whose frozen versions have to be as they were")
    return reader.parse_intermixed_args(words)


class Module:
    """One run over a module."""

    def __init__(self, options: argparse.Namespace, log: Log):
        self.options, self.log = options, log
        self.module = options.module.rstrip("/") or "/"
        self.api = os.path.join(self.module, FROZEN, options.name)
        self.sources = (options.sources or self.module).rstrip("/") or "/"
        for folder in [self.module, self.sources, *options.imports]:
            if not os.path.isdir(folder):
                raise Fault(f"there is no folder {folder}")
        self.program = Program()

    def run(self) -> None:
        same = None
        if self.options.base is not None:
            same = keeping.compare(self.log, self.api, self.options.base, f"m {self.options.name}-freeze-api")
        versions = soong.versions(self.api)
        if not versions and same != 0:
            raise Stop(1, f"{self.api} has no frozen version; before the first freeze the job needs BASE and a folder {self.api}")
        for number, folder in enumerate(versions, 1):
            self.verify(number, folder)
        trees = [Tree(folder, self.options.imports) for folder in versions]
        trees.append(Tree(self.sources, self.options.imports, outside=[FROZEN]))
        for tree in trees:
            self.want_frozen_imports(tree)
        with tempfile.TemporaryDirectory() as room:
            self.follow(Copies(self.program, self.log, trees, room))
        self.compare_current(trees[-1])

    def verify(self, number: int, folder: str) -> None:
        """Ends the job where the `.hash` of a version isn't that of its files."""
        kept, wanted = soong.kept(folder), soong.digest(folder, number)
        if kept != wanted:
            raise Stop(1, f"{folder} isn't as it was frozen: its .hash has {kept or 'nothing'}, and of its files Soong would make {wanted}")
        self.log.show(f"{folder} {wanted} ok, by Soong's recipe")

    def want_frozen_imports(self, tree: Tree) -> None:
        """An imported text is the same in each tree, so what changes in it wouldn't be seen: it has to be a frozen one, or one that says nothing."""
        frozen = {folder: soong.is_frozen(folder) for folder in self.options.imports}
        for path, shown in sorted(tree.imported.items()):
            folder = next(one for one in self.options.imports if os.path.join(one, path) == shown)
            if not frozen[folder] and any(one.structured for one in tree.sources[path].declarations):
                wanted = f"-I has to name a frozen version of its module, as OTHER/{FROZEN}/NAME/2, whose .hash is right"
                raise Fault(f"{shown} is imported and isn't frozen: {wanted}")

    def follow(self, copies: Copies) -> None:
        """Each version follows the one before it, and the sources follow the latest."""
        last = len(copies.trees) - 1
        for number in range(last + 1):
            copies.check(number)
            if number:
                copies.judge(number - 1, number)
        if not last:
            self.log.show(f"{self.api} has no frozen version, and had none in {self.options.base}: the sources follow nothing yet")
        if copies.replaced:
            self.log.show("Of what was replaced names and places alone were compared: nothing is said of its bytes, and nothing is proved of it.")

    # The folder `current`

    def compare_current(self, tree: Tree) -> None:
        """Ends the job where `current` isn't what Android's compiler makes of the sources. Without that compiler it says so."""
        current = os.path.join(self.api, "current")
        compiler = self.options.android_aidl or os.environ.get("ANDROID_AIDL")
        if not os.path.isdir(current):
            self.log.note(f"there is no {current}, so it wasn't compared with the sources")
        elif not compiler:
            self.log.note(f"{current} wasn't compared with the sources: ANDROID_AIDL or --android-aidl names Android's compiler")
        else:
            self.want_same(tree, current, compiler)

    def want_same(self, tree: Tree, current: str, compiler: str) -> None:
        with tempfile.TemporaryDirectory() as room:
            made = self.dumped(tree, compiler, room)
            wanted = self.texts(current)
        others = sorted(path for path in wanted if made.get(path) != wanted[path])
        missing = sorted(path for path in made if path not in wanted and not self.of_another(path))
        for path in [*others, *missing]:
            self.log.show(f"{os.path.join(current, path)}: {'not the dump of the sources' if path in wanted else 'missing'}")
        if others or missing:
            raise Stop(1, f"{current} isn't the dump of the sources: run m {self.options.name}-update-api")
        self.log.show(f"{current} is the dump of the sources, {len(wanted)} files")

    def of_another(self, path: str) -> bool:
        """Whether a file is of another module that has its sources in the same folder."""
        above = os.path.dirname(self.api)
        return any(os.path.isfile(os.path.join(above, name, "current", path)) for name in os.listdir(above) if name != self.options.name)

    def dumped(self, tree: Tree, compiler: str, room: str) -> dict[str, list[str]]:
        """The dump of the module's own sources by Android's compiler."""
        own = [path for path in tree.sources if path not in tree.imported]
        stable = any(one.has("VintfStability") for path in own for one in tree.sources[path].declarations)
        folders = [word for folder in [self.sources, *self.options.imports] for word in ("-I", folder)]
        words = [compiler, "--structured", "--dumpapi", *(["--stability=vintf"] if stable else []), *folders, "--out", room]
        try:
            ran = subprocess.run([*words, *(os.path.join(self.sources, path) for path in own)], capture_output=True, check=False)
        except (OSError, ValueError) as why:
            raise Fault(f"{compiler} can't be run: {why}") from why
        if ran.returncode:
            raise Fault(f"{compiler} made no dump of the sources: {ran.stderr.decode('utf-8', 'backslashreplace').strip()[:400]}")
        return self.texts(room)

    @staticmethod
    def texts(folder: str) -> dict[str, list[str]]:
        """The tokens of each file: comments, as the years of a licence, are no part of the comparison."""
        found = {}
        for above, _, names in os.walk(folder):
            for name in names:
                path = os.path.join(above, name)
                if name.endswith(".aidl") and not os.path.islink(path):
                    with open(path, "rb") as file:
                        found[os.path.relpath(path, folder)] = [token.text for token in Text(path, path, file.read()).tokens]
        return found


def main(words: list[str]) -> int:
    options = options_of(words)
    use_utf8()
    log = Log()
    try:
        if options.base == "":
            raise Fault("BASE is empty: the revision to compare with has to be named")
        Module(options, log).run()
    except (Stop, Fault, OSError) as why:
        log.annotate(f"check-api: {why}")
        raise
    return 0

