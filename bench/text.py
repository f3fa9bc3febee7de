#!/usr/bin/env python3
"""Times inserts into a text at its end, at its front and at random places, and prints how many times as much one insert costs in a
text of ten times the length: in seconds, and in instructions that the processor carries out.

Seconds tell the size of the machine's caches too: 5,000 characters lie in a nearer cache than 50,000, so that moving ten times
as many bytes may take more than ten times as long. Instructions are the same in each run. The status is 1 where one insert takes
more than ten times as many of them; seconds are printed, and decide nothing.

The inserts are those of tests of `list_crdt`. They are proved and built in a copy of the repository, once for each length,
which takes some minutes. What a test of no inserts takes is taken away. Instructions are counted by valgrind.
"""

import pathlib
import re
import shutil
import subprocess
import sys
import tempfile
import time

TOP = pathlib.Path(__file__).resolve().parent.parent
SHAPES = {"at the end": "types_many_at_the_end", "at the front": "types_many_at_the_front", "at random places": "types_many_at_random"}
NOTHING = "has_at_most_32_steps"
LENGTHS = (5_000, 50_000)
TIMES = LENGTHS[1] / LENGTHS[0]
RUNS = 25


def built(length, folder):
    """The program of the tests, with so many inserts."""
    copy = pathlib.Path(folder) / str(length)
    shutil.copytree(TOP, copy, ignore=shutil.ignore_patterns(".git", "out"))
    crate = copy / "crates/list_crdt"
    tests = crate / "src/tests.rt"
    text, found = re.subn(r"(const MANY: \w+ = )[\d_]+;", rf"\g<1>{length};", tests.read_text())
    if found != 1:
        sys.exit("the tests have no number of inserts")
    tests.write_text(text)
    subprocess.run(["rt", "test"], cwd=crate, check=True, stdout=subprocess.DEVNULL)
    return crate / "out/list_crdt_tests"


def seconds(program, test):
    """The least time that the test took, of a few runs."""
    return min(once(program, test) for _ in range(RUNS))


def once(program, test):
    start = time.perf_counter()
    subprocess.run([program, f"tests::{test}"], check=True, stdout=subprocess.DEVNULL)
    return time.perf_counter() - start


def instructions(program, test):
    """How many instructions the test took."""
    counted = subprocess.run(
        ["valgrind", "--tool=callgrind", "--callgrind-out-file=/dev/null", program, f"tests::{test}"],
        check=True,
        capture_output=True,
        text=True,
    )
    return int(re.search(r"Collected : (\d+)", counted.stderr)[1])


def costs(measure, programs, test):
    """What the inserts cost in both lengths, and how many times as much one costs in the greater one."""
    few, most = (measure(program, test) - measure(program, NOTHING) for program in programs)
    return few, most, most / few / TIMES


def main():
    if shutil.which("valgrind") is None:
        sys.exit("valgrind is not here: it counts the instructions")
    dear = False
    with tempfile.TemporaryDirectory() as folder:
        programs = [built(length, folder) for length in LENGTHS]
        for shape, test in SHAPES.items():
            few, most, slower = costs(seconds, programs, test)
            print(f"{shape}: {LENGTHS[0]:,} {few:.4f} s, {LENGTHS[1]:,} {most:.4f} s, one insert {slower:.1f} times", end="; ")
            few, most, more = costs(instructions, programs, test)
            print(f"{few / 1e6:,.1f} and {most / 1e6:,.1f} million instructions, {more:.1f} times")
            dear = dear or more > TIMES
    sys.exit(1 if dear else 0)


main()
