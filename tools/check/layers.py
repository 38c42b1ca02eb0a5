"""Draws the layers of crates.txt: below each heading `# == TITLE` its crates, each with those that it stands on and that none of these stands
on, the kit's in brackets. Then it says on how many crates `aidl` stands, and prints the picture of the layers that docs/ARCHITECTURE.md has: an
arrow from each to those that it stands on and that none of these stands on.

python3 tools/check/layers.py
python3 tools/check/layers.py --write      puts the picture into docs/ARCHITECTURE.md

Exit 1 with a line for each crate that names one of a later layer, or that docs/ARCHITECTURE.md doesn't mention, and where that page has
another picture.
"""

import functools
import os
import re
import sys

TOP = os.path.dirname(os.path.dirname(os.path.dirname(os.path.abspath(__file__))))
PAGE = "docs/ARCHITECTURE.md"


def text_of(name):
    with open(f"{TOP}/{name}", encoding="utf-8") as file:
        return file.read()


def read():
    """The layers of crates.txt, lowest first: each title with its crates, and of each crate what its line names."""
    layers = [("No layer", {})]
    for line in text_of("crates.txt").splitlines():
        title = re.fullmatch(r"# == (.+)", line.strip())
        name, is_crate, libraries = line.partition("#")[0].partition(":")
        if title:
            layers.append((title[1], {}))
        elif is_crate:
            layers[-1][1][name.split()[0]] = libraries.split()
    return [layer for layer in layers if layer[1]]


LAYERS = read()
NAMED = {crate: named for _, crates in LAYERS for crate, named in crates.items()}


@functools.lru_cache(maxsize=None)
def below(crate):
    """All crates and libraries of the kit that a crate stands on."""
    named = NAMED.get(crate, [])
    return frozenset(named).union(*map(below, named))


def crates_drawn():
    """The layers with their crates as lines of text."""
    width = max(map(len, NAMED))
    for title, crates in LAYERS:
        yield f"== {title}"
        for crate, named in crates.items():
            direct = [it for it in named if not any(it in below(other) for other in named)]
            shown = [it if it in NAMED else f"({it})" for it in direct]
            yield f"   {crate:{width}}  {' '.join(shown)}".rstrip()
        yield ""
    yield f"aidl stands on {len(below('aidl') & NAMED.keys())} of {len(NAMED)} crates."


def picture():
    """The layers as a picture that a git host draws."""
    place = {crate: number for number, (_, crates) in enumerate(LAYERS) for crate in crates}
    stands = [{place[it] for crate in crates for it in below(crate) if it in place} - {number} for number, (_, crates) in enumerate(LAYERS)]
    yield "```mermaid"
    yield "flowchart BT"
    names = [chr(ord("A") + number) for number in range(len(LAYERS))]
    for name, (title, crates) in zip(names, LAYERS):
        yield f'    {name}["{title} ({len(crates)})"]'
    for number, lower in enumerate(stands):
        direct = [it for it in sorted(lower) if not any(it in stands[other] for other in lower)]
        yield from (f"    {names[number]} --> {names[it]}" for it in direct)
    yield "```"


def refusals():
    """A line for each crate that names one of a later layer or has no place on the map, and one where the map has another picture."""
    place = {crate: number for number, (_, crates) in enumerate(LAYERS) for crate in crates}
    for crate, named in NAMED.items():
        yield from (f"{crate} names {it}, which is of a later layer" for it in named if place.get(it, 0) > place[crate])
    text = text_of(PAGE)
    yield from (f"{PAGE} doesn't mention {crate}" for crate in NAMED if not re.search(rf"\b{crate}\b", text))
    if "\n".join(picture()) not in text:
        yield f"{PAGE} has another picture: python3 tools/check/layers.py --write"


def write():
    """Puts the picture into the page, in place of the one there."""
    text = re.sub(r"```mermaid\n.*?```", lambda _: "\n".join(picture()), text_of(PAGE), count=1, flags=re.S)
    with open(f"{TOP}/{PAGE}", "w", encoding="utf-8") as file:
        file.write(text)


def main():
    print(*crates_drawn(), "", *picture(), sep="\n")
    if sys.argv[1:] == ["--write"]:
        write()
    refused = list(refusals())
    print(*refused, sep="\n", end="\n" * bool(refused), file=sys.stderr)
    sys.exit(1 if refused else 0)


if __name__ == "__main__":
    main()
