#!/usr/bin/env python3
"""Times how the bytes of a text of 50,000 characters and those of 50,000 inserts are read and written, and prints megabytes a
second, beside a plain copy of the same bytes, and how many times as long as that each takes.

The tests of `format_rows` that this runs are proved and built in a copy of the repository, with the greater number, which takes
some minutes. What making the bytes takes is taken away: each test is built with a few rounds and with many, and the difference is
that of the rounds alone.
"""

import pathlib
import re
import shutil
import subprocess
import sys
import tempfile
import time

TOP = pathlib.Path(__file__).resolve().parent.parent
MANY = 50_000
ROUNDS = (1, 41)
RUNS = 15
# the tests, and how many bytes each goes over in a round
THINGS = {"a text": ("a_text", 4 + 12 * MANY), "inserts": ("inserts", 13 * MANY)}


def built(rounds, folder):
    """The program of the tests, with so many rounds."""
    copy = pathlib.Path(folder) / str(rounds)
    shutil.copytree(TOP, copy, ignore=shutil.ignore_patterns(".git", "out"))
    crate = copy / "crates/format_rows"
    tests = crate / "src/long_tests.rt"
    text = tests.read_text()
    for name, value in (("MANY", MANY), ("TIMES", rounds)):
        text, found = re.subn(rf"(const {name}: \w+ = )[\d_]+;", rf"\g<1>{value};", text)
        if found != 1:
            sys.exit(f"the tests have no {name}")
    tests.write_text(text)
    subprocess.run(["rt", "test"], cwd=crate, check=True, stdout=subprocess.DEVNULL)
    return crate / "out/format_rows_tests"


def seconds(program, test):
    """The least time that the test took, of a few runs."""
    return min(once(program, test) for _ in range(RUNS))


def once(program, test):
    start = time.perf_counter()
    subprocess.run([program, f"long_tests::{test}"], check=True, stdout=subprocess.DEVNULL)
    return time.perf_counter() - start


def main():
    with tempfile.TemporaryDirectory() as folder:
        few, many = (built(rounds, folder) for rounds in ROUNDS)
        for thing, (name, size) in THINGS.items():
            took = {}
            for verb in ("copies", "takes", "puts"):
                test = f"{verb}_{name}"
                took[verb] = (seconds(many, test) - seconds(few, test)) / (ROUNDS[1] - ROUNDS[0])
            for verb, said in (("copies", "copied"), ("takes", "read"), ("puts", "written")):
                rate = size / took[verb] / 1e6
                print(f"{thing}, {said}: {rate:,.0f} MB/s, {took[verb] / took['copies']:.1f} times as long as a copy")


main()
