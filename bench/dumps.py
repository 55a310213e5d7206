#!/usr/bin/env python3
"""Measures `dump` beside a debugger by the Java Debug Interface (JDI) that takes the same stacks.

The Java program is examples/Stacks.java: 200, 1,000 and 2,000 threads that wait, each in ten frames of its own. The
program, and bench/Dump.java, which uses JDI, attach to it in turn, five times each. Both have to read the same: all
threads, their frames, and the variables of each with their values, but for the ids of objects, and for when a thread
of Java's own began to wait. Printed are the milliseconds of each run, the median, and the ratio. Those of the program
are of its whole process, which prints the text to a pipe; those of JDI are from the attach to the end, the second
time in one process, so that it is warm.

How long the Java program stands still is at most the time of the run. `uptime` tells whether the machine has
processors free: the load is printed first.

usage: bench/dumps.py [PROGRAM]
"""
import os
import re
import statistics
import subprocess
import sys
import tempfile
import time

sys.path.insert(0, os.path.join(os.path.dirname(os.path.dirname(os.path.abspath(__file__))), "examples"))

from building import TOP, plainly, program_of, stop
from java_machine import DEBUGGER, EXAMPLES, JavaProgram, compiled, is_listened_at, lacking, tool
from sessions import has_to_be

SOURCE = os.path.join(EXAMPLES, "Stacks.java")
READER = os.path.join(TOP, "bench", "Dump.java")
TAKEN = re.compile(r"milliseconds [\d.]+ ([\d.]+)\n")
PASSING = re.compile(rb"(?<=@)[0-9a-f]+$|(?<=    start: long = )\d+$", re.MULTILINE)
THREADS, FRAMES, RUNS = (200, 1000, 2000), 10, 5
LONGEST = 600


def by_jdi(java):
    """The text that a debugger by JDI prints, and the milliseconds that the second one took."""
    words = [tool("java"), "-cp", java.classes, "Dump", str(java.port), "2"]
    run = subprocess.run(words, stdin=subprocess.DEVNULL, stdout=subprocess.PIPE, stderr=subprocess.PIPE,
                         timeout=LONGEST, check=True)
    found = TAKEN.fullmatch(run.stderr.decode())
    if not found:
        raise ValueError("the debugger by the Java Debug Interface says %r" % run.stderr)
    return run.stdout, float(found[1])


def by_program(program, java):
    """The text that the program prints, and its milliseconds."""
    while not is_listened_at(java.port):
        time.sleep(0.005)
    start = time.perf_counter()
    run = subprocess.run([program, "dump", "--target", "127.0.0.1:%d" % java.port], stdin=subprocess.DEVNULL,
                         stdout=subprocess.PIPE, timeout=LONGEST, check=False)
    taken = 1000 * (time.perf_counter() - start)
    has_to_be("the status", run.returncode, 0)
    return run.stdout, taken


def compare(program, classes, threads):
    with JavaProgram(classes, "Stacks", [str(threads), str(FRAMES)], longest=LONGEST) as java:
        java.wait_until_up()
        runs = [(by_jdi(java), by_program(program, java)) for _ in range(RUNS)]
    has_to_be("how many texts were read", len({PASSING.sub(b"", shown) for run in runs for shown, _ in run}), 1)
    lines = runs[0][1][0].split(b"\n")
    count = {name: sum(line.startswith(front) for line in lines)
             for name, front in (("threads", b"thread "), ("frames", b"  #"), ("variables", b"    "))}
    print("%(threads)d threads, %(frames)d frames, %(variables)d variables; milliseconds, runs in turn" % count)
    medians = []
    for name, side in zip(("by JDI", "by the program"), zip(*runs)):
        taken = [milliseconds for _, milliseconds in side]
        medians.append(statistics.median(taken))
        print("  %-15s %s; of these %.0f" % (name, " ".join("%.0f" % one for one in taken), medians[-1]))
    print("  ratio %.2f" % (medians[1] / medians[0]), flush=True)


def main():
    why = lacking("java", "javac")
    if why:
        stop(why)
    program = program_of(sys.argv[1:])
    print("load %.1f, of %d processors" % (os.getloadavg()[0], os.cpu_count()))
    with tempfile.TemporaryDirectory() as folder:
        classes = compiled(folder, SOURCE, DEBUGGER, READER)
        for threads in THREADS:
            compare(program, classes, threads)
    return 0


if __name__ == "__main__":
    plainly(main)
