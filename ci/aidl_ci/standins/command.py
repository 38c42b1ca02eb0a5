"""`stage`: the command line."""

from __future__ import annotations

from ..guard import arguments
from ..printing import plain, use_utf8
from . import stage

DESCRIPTION = """Copies the tree OLD to OUT/old and the tree NEW to OUT/new, each beside what it imports, and puts a stand-in of its own into the place of
each type that `aidl` leaves out, the same in both. So `aidl judge OUT/old OUT/new` can compare them. Prints what was replaced, how often in OLD and in
NEW, and by what. A folder `aidl_api` in OLD or NEW is left out. Nothing is proved of what was replaced. Ends with 2 where a copy would be a guess, with
the file and the line."""


def main(words: list[str]) -> int:
    reader = arguments("stage", DESCRIPTION)
    reader.add_argument("-I", dest="imports", metavar="IMPORTS", action="append", default=[], help="a folder in which imported files are looked for")
    reader.add_argument("out", metavar="OUT", help="a folder for the copies, in which neither `old` nor `new` has a file")
    reader.add_argument("old", metavar="OLD")
    reader.add_argument("new", metavar="NEW")
    options = reader.parse_args(words)
    use_utf8()
    for one in stage(options.old, options.new, options.imports, options.out).replaced:
        print(plain(one.line()))
    return 0
