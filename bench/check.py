#!/usr/bin/env python3
"""Times the built program's check of the largest table, on which all laws hold and are tried to the end, and prints the
number of cases a second. The time that a table of one state and one operation takes is taken away first.
"""

import json
import pathlib
import subprocess
import sys
import tempfile
import time

TOP = pathlib.Path(__file__).resolve().parent.parent
PROGRAM = TOP / "crates/replica_cli/out/replica_cli"
RUNS = 25


def table(states, ops):
    """A lawful table of so many states and operations: no operation does anything."""
    keep, leave = list(range(states)), list(range(ops))
    rows = [{"name": f"o{i}", "level": i % 8 + 1, "next": keep, "act": leave} for i in range(ops)]
    return {"states": [f"s{i}" for i in range(states)], "start": 0, "ops": rows}


def cases(states, ops):
    """How many cases the five laws have."""
    return ops**2 + 2 * ops**2 * states + 2 * ops**3


def seconds(states, ops):
    """The least time that the program took on the table, of a few runs."""
    with tempfile.TemporaryDirectory() as folder:
        (pathlib.Path(folder) / "t").write_text(json.dumps(table(states, ops)))
        return min(once(folder) for _ in range(RUNS))


def once(folder):
    start = time.perf_counter()
    ran = subprocess.run([PROGRAM, "check", "t"], cwd=folder, stdout=subprocess.PIPE)
    end = time.perf_counter()
    if ran.returncode or ran.stdout != b"lawful\n":
        sys.exit(f"status {ran.returncode}: {ran.stdout}")
    return end - start


def main():
    subprocess.run([TOP / "replica", "play"], stdin=subprocess.DEVNULL, check=True)
    whole, least = seconds(32, 32), seconds(1, 1)
    rate = cases(32, 32) / max(whole - least, 1e-6)
    print(f"32 states, 32 operations: {whole:.4f} s, {cases(32, 32):,} cases, {rate:,.0f} cases a second")


main()
