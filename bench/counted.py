"""What a run of a built program takes."""

import os
import pathlib
import shutil
import statistics
import subprocess
import time

RUNS = 5

CRATES = pathlib.Path(__file__).resolve().parent.parent / "crates"

# A clone in which a gate built the programs, so that none is built here.
BUILT = os.environ.get("BUILT")


def program_of(crate):
    """Where the crate's program is, once it is built."""
    crates = pathlib.Path(BUILT).resolve() / "crates" if BUILT else CRATES
    return crates / crate / "out" / crate


def build(crate, *words):
    """Builds the crate's program, unless a gate did."""
    if not BUILT:
        given = CRATES / crate / "stdin"
        with open(given if given.exists() else os.devnull, encoding="utf-8") as stdin:
            subprocess.run(["rt", "run", *(["--", *words] if words else [])], cwd=CRATES / crate, stdin=stdin, check=True, stdout=subprocess.DEVNULL)


def seconds(program, *words, cwd=None):
    """The median time of five runs."""
    taken = []
    for _ in range(RUNS):
        begun = time.perf_counter()
        subprocess.run([program, *words], check=True, stdout=subprocess.DEVNULL, cwd=cwd)
        taken.append(time.perf_counter() - begun)
    return statistics.median(taken)


def can_count():
    return shutil.which("valgrind") is not None


def instructions(program, *words, cwd=None):
    told = subprocess.run(
        ["valgrind", "--tool=callgrind", "--callgrind-out-file=/dev/null", program, *words],
        check=True, capture_output=True, text=True, cwd=cwd,
    ).stderr
    return int(told.split("Collected :")[1].split()[0])
