"""Counts what makes a proof dear, crate by crate, of the libraries that stand built in this checkout (`rt lib`, `rt ci` or `./aidl`): steps and
locals of the bodies that are proved, drops of types among them, and `?`. Needs no proof, and no machine's speed.

python3 tools/measure/steps.py [MOST]      the MOST dearest functions by steps times locals too
"""

import json
import pathlib
import sys

TOP = pathlib.Path(__file__).resolve().parents[2]
BUILT = "crates/*/out/rlib/*.rlib/toolchain/mir.json"


def called(step):
    """The name of what a step calls, or an empty text."""
    call = step.get("Call") if isinstance(step, dict) else None
    function = call[0] if call else None
    return function["Fn"][0] if isinstance(function, dict) and "Fn" in function else ""


def bodies(file):
    """The name, steps and count of locals of each body of a library."""
    for name, function in json.loads(file.read_text(encoding="utf-8")):
        if function.get("body"):
            yield name, function["body"], len(function["locals"])


def main():
    most = int(sys.argv[1]) if len(sys.argv) > 1 else 0
    rows, functions = [], []
    for file in sorted(TOP.glob(BUILT)):
        row = [0, 0, 0, 0, 0]
        for name, body, count in bodies(file):
            tries = sum("Try::branch" in called(step) for step in body)
            for place, number in enumerate((1, "+Destruct" in name, len(body), len(body) * count, tries)):
                row[place] += number
            functions.append((len(body) * count, len(body), count, name))
        rows.append((file.parts[-6], row))
    print("| Crate | functions | of them drops | steps | steps times locals | `?` |\n|---|---|---|---|---|---|")
    for crate, row in sorted(rows, key=lambda it: -it[1][2]):
        print(f"| `{crate}` | {' | '.join(map(str, row))} |")
    print(f"| together ({len(rows)}) | {' | '.join(str(sum(row[place] for _, row in rows)) for place in range(5))} |")
    for product, steps, count, name in sorted(functions, reverse=True)[:most]:
        print(f"{product:7d} {steps:4d} steps, {count:3d} locals: {name}")


if __name__ == "__main__":
    main()
