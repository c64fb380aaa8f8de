#!/usr/bin/env python3
"""Runs the gate from nothing, `rt ci --anew`, at the top of this clone, and tells what each crate cost it.

    bench/gate_times.py [--processors LIST] [--log FILE]

With --processors, as 0,2, the gate gets these processors of the machine alone; --log keeps what it says. Each
second the prover's processes are looked at. A row is a crate, with the processor seconds of its proof, of
its tests' proof and of its must-fail edits, the minutes from the first to the last of them, and the most
memory, in GB, that one process took. The rows are a table in Markdown; the exit status is the gate's. On a virtual
machine the share of all processors' time that its host kept for others is told too.
"""

import argparse
import collections
import os
import pathlib
import subprocess
import sys
import time

TOP = pathlib.Path(__file__).resolve().parent.parent
TICKS = os.sysconf("SC_CLK_TCK")
PAGE = os.sysconf("SC_PAGE_SIZE")
PHASES = ("proof", "tests", "edits")


def phase_of(words, folder):
    """What a process of the prover works on, or None where it isn't this clone's."""
    if folder.startswith(f"{TOP}/"):
        return "tests" if b"--test" in words else "proof"
    # an edit is tried on a copy elsewhere, which still names this clone's libraries
    if "rt-edit-" in folder and any(it.startswith(f"dependency={TOP}/".encode()) for it in words):
        return "edits"
    # the lowest crate names no library of this clone
    if "rt-edit-" in folder and not any(b"/crates/" in it for it in words):
        return "edits"
    return None


def looked_at(pid):
    """Returns (crate, phase, processor seconds, bytes of memory) of a process of the prover, else None."""
    try:
        words = pathlib.Path(f"/proc/{pid}/cmdline").read_bytes().split(b"\0")
        if b"--crate-name" not in words or not words[0].endswith(b"rattle"):
            return None
        phase = phase_of(words, os.readlink(f"/proc/{pid}/cwd"))
        fields = pathlib.Path(f"/proc/{pid}/stat").read_text().rpartition(")")[2].split()
    except OSError:
        return None
    if phase is None:
        return None
    crate = words[words.index(b"--crate-name") + 1].decode()
    return crate, phase, (int(fields[11]) + int(fields[12])) / TICKS, int(fields[21]) * PAGE


class Costs:
    """What was seen of each crate's processes."""

    def __init__(self):
        self.seconds = collections.defaultdict(dict)
        self.seen = {}
        self.memory = collections.defaultdict(int)

    def look(self, now):
        for pid in filter(str.isdigit, os.listdir("/proc")):
            found = looked_at(pid)
            if found:
                crate, phase, used, memory = found
                self.seconds[crate, phase][pid] = used
                self.seen[crate] = (self.seen.get(crate, (now, now))[0], now)
                self.memory[crate] = max(self.memory[crate], memory)

    def used(self, crate):
        return [sum(self.seconds[crate, phase].values()) for phase in PHASES]

    def rows(self):
        crates = sorted(self.seen, key=lambda crate: self.seen[crate])
        for crate in crates:
            first, last = self.seen[crate]
            cells = [f"{it:.0f}" for it in self.used(crate)]
            cells += [f"{first / 60:.1f}", f"{last / 60:.1f}", f"{self.memory[crate] / 2**30:.1f}"]
            yield f"| `{crate}` | " + " | ".join(cells) + " |"
        sums = [sum(column) for column in zip(*(self.used(crate) for crate in crates))]
        yield "| all | " + " | ".join(f"{it:.0f}" for it in sums) + " | | | |"


def lost():
    """Returns the processor seconds in which a virtual machine's host ran something else."""
    return int(pathlib.Path("/proc/stat").read_text().split()[8]) / TICKS


def main():
    parser = argparse.ArgumentParser(description=__doc__.split("\n", 1)[0])
    parser.add_argument("--processors")
    parser.add_argument("--log", default=os.devnull)
    given = parser.parse_args()
    if given.processors:
        os.sched_setaffinity(0, {int(it) for it in given.processors.split(",")})
    costs, start, before = Costs(), time.monotonic(), lost()
    with open(given.log, "w") as log:
        gate = subprocess.Popen(["rt", "ci", "--anew"], cwd=TOP, stdout=log, stderr=subprocess.STDOUT)
        while gate.poll() is None:
            costs.look(time.monotonic() - start)
            time.sleep(1)
    minutes, count = (time.monotonic() - start) / 60, len(os.sched_getaffinity(0))
    share = (lost() - before) / (60 * minutes * os.cpu_count())
    print(f"{minutes:.1f} minutes on {count} processors, status {gate.returncode}")
    print(f"{share:.0%} of the machine's processor time lost to its host\n")
    print("| Crate | proof | tests | edits | from | to | memory |")
    print("|---|---|---|---|---|---|---|")
    print("\n".join(costs.rows()))
    return gate.returncode


if __name__ == "__main__":
    sys.exit(main())
