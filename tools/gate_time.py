#!/usr/bin/env python3
"""Runs the gate and prints how long it took, and how much time of the processors each crate took of it.

    python3 tools/gate_time.py    at the top of the repository, with no other check on the machine

Twice a second it looks at all processes on the machine that name a crate (`--crate-name NAME`), in /proc, and adds up
what each of them has taken by then; what a process takes after the last look at it is lost, so the sum is a little low.
What the tests and programs take themselves counts for none of the crates.
"""
import collections
import glob
import os
import subprocess
import sys
import time

TICKS = os.sysconf("SC_CLK_TCK")


def taken():
    """Each process that names a crate, with the crate and the seconds of the processors that it has taken so far."""
    for folder in glob.glob("/proc/[0-9]*"):
        try:
            with open(f"{folder}/cmdline", encoding="utf-8", errors="replace") as file:
                words = file.read().split("\0")
            with open(f"{folder}/stat", encoding="utf-8") as file:
                fields = file.read().rsplit(")", 1)[1].split()
        except OSError:
            continue
        if "--crate-name" in words:
            # the process, and when it began, since numbers of processes are used again
            yield (folder, fields[19]), words[words.index("--crate-name") + 1], (int(fields[11]) + int(fields[12])) / TICKS


def main():
    begun = time.monotonic()
    gate = subprocess.Popen([".ci/run"])
    crates, seconds = {}, {}
    while gate.poll() is None:
        for process, crate, so_far in taken():
            crates[process], seconds[process] = crate, so_far
        time.sleep(0.5)
    wall = time.monotonic() - begun
    by_crate = collections.Counter()
    for process, so_far in seconds.items():
        by_crate[crates[process]] += so_far
    print(f"{wall / 60:.1f} minutes, {sum(by_crate.values()) / 60:.1f} of the processors, of which {os.cpu_count()} are there")
    for crate, so_far in by_crate.most_common():
        print(f"{crate:12}{so_far / 60:6.1f}")
    sys.exit(gate.returncode)


if __name__ == "__main__":
    main()
