"""Runs `rt ci` with the words given, and prints the processor seconds, user and system, of what it runs, crate by crate: the own
proof of a crate, its tests, its edits with the check that they begin with, and for a program its compilation by both compilers. What
is kept isn't run, so isn't read.

python3 tools/measure/crate_seconds.py --anew
python3 tools/measure/crate_seconds.py type_rules
python3 tools/measure/crate_seconds.py --layers --anew

With `--layers` first the table goes by the layers of crates.txt, lowest first, each with the number of its crates that were run.

They are read off /proc each half second, so a check of a few seconds may be read short. What else runs on the machine isn't read,
but lengthens them.
"""

import os
import signal
import subprocess
import sys
import time

sys.path.append(os.path.join(os.path.dirname(os.path.abspath(__file__)), "../check"))
import layers

TICKS = os.sysconf("SC_CLK_TCK")
KINDS = ("own proof", "tests", "edits", "compilation")


def kind_of(words, folder):
    """Which of the kinds a run of rattle in a folder is, if it is one."""
    if len(words) < 2 or not words[0].endswith("rattle") or "--crate-name" not in words:
        return None
    if "--test" in words:
        return "tests"
    if "rt-edit" in folder:
        return "edits"
    return "compilation" if words[1] == "build" and "--toolchain" in words else "own proof"


def seconds_of(number, session):
    """The crate, the kind and the processor seconds of a process by its number, or None where it is no check of the session."""
    try:
        with open(f"/proc/{number}/cmdline", encoding="utf-8", errors="replace") as file:
            words = file.read().split("\0")
        with open(f"/proc/{number}/stat", encoding="utf-8", errors="replace") as file:
            fields = file.read().rsplit(")", 1)[1].split()
        folder = os.readlink(f"/proc/{number}/cwd")
    except OSError:
        return None
    kind = kind_of(words, folder)
    if kind is None or fields[3] != session:
        return None
    crate = words[words.index("--crate-name") + 1]
    return (number, fields[19]), crate, kind, (int(fields[11]) + int(fields[12])) / TICKS


def read(run):
    """What each check took until the run ended, by the process and when it began."""
    checks = {}
    while run.poll() is None:
        for number in filter(str.isdigit, os.listdir("/proc")):
            found = seconds_of(number, str(run.pid))
            if found:
                checks[found[0]] = found[1:]
        time.sleep(0.5)
    return checks


def by_layer(table):
    """The table by the layers of crates.txt in place of the crates."""
    found = {}
    for title, crates in layers.LAYERS:
        rows = [table[crate] for crate in crates if crate in table]
        if rows:
            found[f"{title} ({len(rows)})"] = {kind: sum(row[kind] for row in rows) for kind in KINDS}
    return found


def main():
    words = sys.argv[1:]
    goes_by_layer = words[:1] == ["--layers"]
    run = subprocess.Popen(["rt", "ci", *words[goes_by_layer:]], start_new_session=True)
    table = {}
    try:
        checks = read(run)
    except BaseException:
        os.killpg(run.pid, signal.SIGTERM)
        raise
    for crate, kind, seconds in checks.values():
        row = table.setdefault(crate, dict.fromkeys(KINDS, 0.0))
        row[kind] += seconds
    rows = by_layer(table) if goes_by_layer else {f"`{crate}`": table[crate] for crate in sorted(table)}
    print(f"| {'Layer' if goes_by_layer else 'Crate'} | {' | '.join(KINDS)} |")
    for name, row in rows.items():
        print(f"| {name} | {' | '.join(f'{row[kind]:.0f}' for kind in KINDS)} |")
    together = [sum(row[kind] for row in table.values()) for kind in KINDS]
    print(f"| together | {' | '.join(f'{seconds:.0f}' for seconds in together)} |")
    sys.exit(run.returncode)


if __name__ == "__main__":
    main()
