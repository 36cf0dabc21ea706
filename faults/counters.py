"""The growths of a program that runs, counted and refused from outside, for faults/refusals and faults/clients."""

import contextlib
import pathlib
import struct
import subprocess
import time


def shim_in(room):
    """refuse_nth.c, built in that folder, to stand in front of the C library."""
    it = pathlib.Path(room) / "refuse_nth.so"
    subprocess.run(["cc", "-shared", "-fPIC", "-O2", "-o", it, pathlib.Path(__file__).with_name("refuse_nth.c"), "-ldl"], check=True)
    return it


class Counters:
    """Those of refuse_nth.c in a process that runs."""

    def __init__(self, shim, pid):
        names = subprocess.run(["nm", shim], capture_output=True, text=True, check=True).stdout.split("\n")
        places = {words[2]: int(words[0], 16) for words in map(str.split, names) if len(words) == 3}
        with open(f"/proc/{pid}/maps") as maps:
            base = next(int(line.split("-")[0], 16) for line in maps if str(shim) in line)
        self.calls, self.nth = base + places["calls"], base + places["nth"]
        self.memory = open(f"/proc/{pid}/mem", "r+b", buffering=0)

    def put(self, place, number):
        with contextlib.suppress(OSError):
            self.memory.seek(place)
            self.memory.write(struct.pack("Q", number))

    def refuse(self, nth):
        """Refuses that growth from now on, counted from 1; 0 refuses none."""
        self.put(self.nth, 0)
        self.put(self.calls, 0)
        self.put(self.nth, nth)

    def taken(self, act):
        """How many growths there are meanwhile."""
        self.refuse(0)
        act()
        time.sleep(0.005)
        self.memory.seek(self.calls)
        return struct.unpack("Q", self.memory.read(8))[0]
