"""What the job prints: each command before what comes of it. That a line can't be printed, as into a closed pipe or on a full disk, changes no verdict."""

from __future__ import annotations

import os
import sys
from typing import Iterable, Optional

from ..guard import Fault, complain
from ..lines import of_line, with_phrase
from ..places import Place, Places
from ..printing import annotation, plain
from ..program import Ran
from ..verdicts import rule_line

COMMANDS = ("::", "##[")  # what begins a command of a workflow


def quoted(word: str) -> str:
    """A word as a shell reads it."""
    if word and all(char.isalnum() or char in "_-./:=@%+," for char in word) and word.isascii():
        return word
    if plain(word) == word:
        return "'" + word.replace("'", "'\\''") + "'"
    return "$'" + "".join(rf"\x{byte:02x}" if byte < 32 or byte > 126 or byte in b"'\\" else chr(byte) for byte in os.fsencode(word)) + "'"


class Finder:
    """Where what `judge` prints is in the sources: in the new tree, or in the old one if the new one has nothing around it any more."""

    def __init__(self, *trees: str):
        self.trees, self.read = trees, {}  # type: tuple[str, ...], dict[str, Optional[Places]]

    def places(self, tree: str) -> Optional[Places]:
        if tree not in self.read:
            try:
                self.read[tree] = Places(tree)
            except (Fault, OSError, ValueError):
                self.read[tree] = None
        return self.read[tree]

    def find(self, place: str) -> Optional[Place]:
        for tree in self.trees:
            places = self.places(tree)
            found = places.nearest(place) if places else None
            if found:
                return found
        return None


class Log:
    """Standard output and standard error of the job, in a workflow of GitHub with annotations."""

    def __init__(self) -> None:
        self.github = os.environ.get("GITHUB_ACTIONS") == "true"

    def say(self, line: str) -> None:
        """Prints a line as it is."""
        try:
            if sys.stdout is not None:
                sys.stdout.write(line + "\n")
                sys.stdout.flush()
        except (OSError, ValueError):
            pass

    def show(self, line: str) -> None:
        """Prints a line of text that others wrote, which is never a command of a workflow."""
        line = plain(line)
        self.say(" " + line if self.github and line.startswith(COMMANDS) else line)

    def note(self, text: str) -> None:
        """Says on standard error what is no part of the verdict."""
        complain(f"check-api: {plain(text)}")

    def annotate(self, text: str, level: str = "error", place: Optional[Place] = None) -> None:
        """In a workflow, an annotation, at its place if that is known."""
        if self.github:
            self.say(annotation(text, place.path, place.line, place.column, level) if place else annotation(text, level=level))

    def warn(self, warnings: Iterable[tuple[str, str, int]]) -> None:
        """What is no part of the verdict, each with its file and its line."""
        for said, path, line in warnings:
            self.show(f"warning: {said} ({path}:{line})")
            self.annotate(said, "warning", Place(path, line, 1, 1, ""))

    def command(self, words: Iterable[str]) -> None:
        self.show(" ".join(["aidl", *words]))

    def result(self, ran: Ran, annotated: bool = True, finder: Optional[Finder] = None) -> None:
        """Prints what a command printed: of a failed one with lines and columns for offsets, the lines of the sources, phrases and annotations."""
        for line in ran.lines:
            if ran.status == 0:
                self.show(line)
                continue
            rule = rule_line(line)
            if rule:
                said = with_phrase(line, rule.code)
                self.show(said)
                if annotated:
                    self.annotate(said, place=finder.find(rule.place) if finder and self.github else None)
                continue
            first, *more = of_line(line, words=True, github=annotated and self.github)
            self.show(first)
            for part in more:
                (self.say if part.startswith("::error") else self.show)(part)
