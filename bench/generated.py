#!/usr/bin/env python3
"""Measures `generate`: how its time and its memory grow with the stops of a session, and beside `replay` of its own log.

Sessions of 62, 125, 250, 500 and 1,000 stops, sixteen times apart in all, several runs of each in turn, the least times.
Printed are the milliseconds of the processor, the peak of the program's memory in MiB, the bytes of the log, and how
often the time of `generate` is that of `replay`; then the ratios between the ends, and between 1,000 and 100 stops. A
session has a breakpoint for each stop, so a time that grows by more than the stops hangs on what is listed, too.

usage: bench/generated.py [--runs N] [PROGRAM]
"""
import os
import subprocess
import sys
import tempfile

sys.path.insert(0, os.path.join(os.path.dirname(os.path.dirname(os.path.abspath(__file__))), "examples"))

from building import plainly, program_of, stop

RUNS = 5
STOPS = (62, 125, 250, 500, 1000)
BELOW = 100


def cost_of(words):
    """The processor time of a run on these words in seconds, and the peak of its memory in bytes."""
    process = subprocess.Popen(words, stdin=subprocess.DEVNULL, stdout=subprocess.DEVNULL)
    _, status, used = os.wait4(process.pid, 0)
    if status:
        stop("%s ended with status %d" % (" ".join(words), os.waitstatus_to_exitcode(status)))
    return used.ru_utime + used.ru_stime, used.ru_maxrss * 1024


def least(program, stops, out, runs):
    """The least time and memory of `generate` with so many stops, and of `replay` of its log."""
    words = ([program, "generate", str(stops), "--out", out], [program, "replay", out])
    taken = [[cost_of(each) for each in words] for _ in range(runs)]
    return [tuple(min(run[side][part] for run in taken) for part in (0, 1)) for side in (0, 1)]


def main():
    words = sys.argv[1:]
    runs = RUNS
    if words[:1] == ["--runs"]:
        runs, words = int(words[1]), words[2:]
    program = program_of(words)
    made = {}
    print("%5s %9s %9s %9s %9s %11s %6s" % ("stops", "generate", "MiB", "replay", "MiB", "log", "ratio"))
    with tempfile.TemporaryDirectory(prefix="generated-") as folder:
        out = os.path.join(folder, "log")
        for stops in sorted((*STOPS, BELOW)):
            made[stops], again = least(program, stops, out, runs)
            print("%5d %9.1f %9.1f %9.1f %9.1f %11d %6.2f" % (
                stops, made[stops][0] * 1e3, made[stops][1] / 2**20, again[0] * 1e3, again[1] / 2**20,
                os.path.getsize(out), made[stops][0] / again[0]), flush=True)
    for few in (STOPS[0], BELOW):
        ratios = [made[STOPS[-1]][part] / made[few][part] for part in (0, 1)]
        print("1,000 stops beside %d: %.1f of the time, %.1f of the memory" % (few, *ratios))
    return 0


if __name__ == "__main__":
    plainly(main)
