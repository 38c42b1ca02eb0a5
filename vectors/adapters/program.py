#!/usr/bin/env python3
"""The program as an adapter: by the strict profile, and with `--lenient` by the other. AIDL names the program."""
import argparse
import json
import os
import sys

sys.dont_write_bytecode = True
sys.path.insert(0, os.path.join(os.path.dirname(os.path.realpath(__file__)), ".."))
from vectors_of import frame  # noqa: E402
from vectors_of.program import Program  # noqa: E402


def main(words: list) -> int:
    """Answers each line."""
    reader = argparse.ArgumentParser(description="The program as an adapter. AIDL names the program.")
    reader.add_argument("--lenient", action="store_true", help="reads by the lenient profile")
    reader.add_argument("tree", choices=("old", "new"))
    given = reader.parse_args(words)
    program = Program()
    for line in sys.stdin:
        what, types, rest = line.rstrip("\n").split(" ", 2)
        if what == "write":
            print(program.encode(given.tree, types, json.loads(rest)).hex() or "-", flush=True)
            continue
        reading = program.read(given.tree, types, bytes.fromhex(rest.replace("-", "")), given.lenient)
        print(f"{json.dumps(reading.values)} {reading.left}" if reading.is_value else f"status {reading.status}", flush=True)
    return 0


frame.run(main)
