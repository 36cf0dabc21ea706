"""What a program prints for a file, beside what it should print."""

import subprocess

SECONDS = 60


def ran(program, path, status=0, errors=b""):
    """What the program printed, and what else is amiss with its run, which should end with this status and these errors."""
    try:
        run = subprocess.run([*program, path], stdin=subprocess.DEVNULL, capture_output=True, timeout=SECONDS)
    except subprocess.TimeoutExpired as late:
        return late.stdout or b"", f"it didn't end within {SECONDS} seconds"
    if (run.returncode, run.stderr) != (status, errors):
        return run.stdout, f"status {run.returncode}, {run.stderr.decode(errors='replace').strip()!r} on the errors"
    return run.stdout, None


def ran_together(program, paths, seconds=120):
    """What press_play printed for some files together, and what else is amiss: it should end with status 0, and with no more than warnings and met limits on the errors."""
    try:
        run = subprocess.run([*program, *paths], stdin=subprocess.DEVNULL, capture_output=True, timeout=seconds)
    except subprocess.TimeoutExpired as late:
        return late.stdout or b"", f"it didn't end within {seconds} seconds"
    strange = [line for line in run.stderr.splitlines() if not line.startswith((b"press_play: warning in ", b"press_play: limit in "))]
    if run.returncode or strange:
        return run.stdout, f"status {run.returncode}, {b' '.join(strange)[:300].decode(errors='replace')!r} on the errors"
    return run.stdout, None


def first_difference(printed, wanted):
    lines = zip(printed.split(b"\n") + [None], wanted.split(b"\n") + [None])
    for number, (mine, theirs) in enumerate(lines, 1):
        if mine != theirs:
            return f"line {number} is {mine!r} and should be {theirs!r}"
    return None
