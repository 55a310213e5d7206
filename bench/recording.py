#!/usr/bin/env python3
"""Measures `record` beside `serve`.

- Stops at one breakpoint of examples/stops/Rounds.java, as bench/stops.py lets them come, under `serve` and under
  `record` in turn, five times each: 1,000 hits that are resumed at once, and 100 that are held for 20 ms. Printed are
  the milliseconds from a resume to the next hit and the processor time of a hit, medians, with their ratios. Without a
  JDK this is left out.
- Memory, over sessions of requests of 20,000 bytes each, 250 to 2,000 of them, which none is served: the peak of the
  program's memory under `serve` and under `record`, the bytes of the log, and how often these go into the peak. The
  longest log has more bytes than `replay` reads: it is written, and `replay` has to refuse it.

usage: bench/recording.py [PROGRAM]
"""
import os
import statistics
import subprocess
import sys
import tempfile

sys.path.insert(0, os.path.join(os.path.dirname(os.path.dirname(os.path.abspath(__file__))), "examples"))

from building import plainly, program_of
from ended_runs import ran
from java_machine import DEBUGGER, EXAMPLES, compiled, lacking
from over_tcp import Bridge, request
from recorded import recorder
from sessions import has_to_be, line_of
from stops import CASES, RUNS, SOURCE, by_bridge

# How many bytes a request has, and how many requests a session has.
BYTES, SESSIONS = 20_000, (250, 500, 1_000, 2_000)
MOST = 67_108_864


def stops(program, recording):
    line = line_of(SOURCE, "sum +=")
    with tempfile.TemporaryDirectory() as folder:
        classes = compiled(folder, os.path.join(EXAMPLES, SOURCE), DEBUGGER)
        for hits, hold in CASES:
            runs = [[by_bridge(each, classes, line, hits, hold) for each in (program, recording)] for _ in range(RUNS)]
            has_to_be("the hits", {run[side][0] for run in runs for side in range(2)}, {hits})
            print("%d hits, each held for %d ms: milliseconds to the next, and of the processor" % (hits, hold))
            medians = [[statistics.median(run[side][part] for run in runs) for part in (1, 2)] for side in range(2)]
            for name, (waited, spent) in zip(("serve", "record"), medians):
                print("  %-6s %.3f and %.3f" % (name, waited, spent))
            print("  ratios %.2f and %.2f" % tuple(medians[1][part] / medians[0][part] for part in range(2)), flush=True)


def peak_of(program, count):
    """The peak of the program's memory over a session of so many requests, in bytes."""
    with Bridge(program, subprocess.DEVNULL) as bridge:
        client = bridge.client()
        for number in range(1, count):
            client.send(request(number, "none", {"text": "x" * BYTES}))
            client.receive()
        client.send(request(count, "disconnect"))
        client.receive()
        client.close()
        bridge.target.close()
        _, status, used = os.wait4(bridge.process.pid, 0)
        bridge.process.returncode = os.waitstatus_to_exitcode(status)
    has_to_be("the status", bridge.process.returncode, 0)
    return used.ru_maxrss * 1024


def memory(program, recording, out):
    print("requests, bytes of the log; peaks under serve and record in MiB; the peak beside the log")
    for count in SESSIONS:
        served, recorded = peak_of(program, count), peak_of(recording, count)
        size = os.path.getsize(out)
        print("  %d, %d; %.0f and %.0f; %.2f" % (count, size, served / 2**20, recorded / 2**20, recorded / size),
              flush=True)
    has_to_be("more bytes than are read", size > MOST, True)
    has_to_be("the replay of them", ran(program, ["replay", out]), (10, "ended 10 script line 0 TooLong\n"))


def main():
    program = program_of(sys.argv[1:])
    with tempfile.TemporaryDirectory() as folder:
        out = os.path.join(folder, "log")
        recording = recorder(program, folder, out)
        memory(program, recording, out)
        why = lacking("java", "javac")
        if why:
            print("stops skipped: %s" % why)
        else:
            stops(program, recording)
    return 0


if __name__ == "__main__":
    plainly(main)
