#!/usr/bin/env python3
"""Measures stops at one breakpoint, beside a debugger by the Java Debug Interface (JDI) over the same Java program.

The program, examples/stops/Rounds.java, comes to one line again and again. The bridge with a client of this script,
and bench/Hits.java, which uses JDI, attach to it in turn, five times each, set the same breakpoint before its class
is loaded, and resume each hit: 1,000 of them at once, and 100 of them after 20 ms each. Both have to count all hits.
Printed are the milliseconds from a resume to the next hit, the median of each run and of these, the processor time
that the bridge takes for a hit, and the ratio.

usage: bench/stops.py [PROGRAM]
"""
import os
import socket
import statistics
import subprocess
import sys
import tempfile
import time

sys.path.insert(0, os.path.join(os.path.dirname(os.path.dirname(os.path.abspath(__file__))), "examples"))

from building import plainly, program_of, stop
from java_machine import DEBUGGER, EXAMPLES, JavaProgram, compiled, hits_by_jdi, lacking
from over_tcp import Program, request
from round_trips import processor_seconds
from sessions import Session, begin, bound, has_to_be, line_of

SOURCE, MAIN = "stops/Rounds.java", "stops.Rounds"
# How many hits there are, and for how many milliseconds each is held.
CASES = ((1000, 0), (100, 20))
RUNS = 5


def by_jdi(classes, line, hits, hold):
    """The hits that JDI counts, and the milliseconds from a resume to the next hit in the median."""
    with JavaProgram(classes, MAIN, [str(hits)], suspend=True) as java:
        counted, _, median = hits_by_jdi(java, MAIN, line, hold)
    return counted, median


def by_bridge(program, classes, line, hits, hold):
    """The same by the bridge, and the milliseconds of its processor time for a hit."""
    with JavaProgram(classes, MAIN, [str(hits)], suspend=True) as java:
        java.wait_until_listening()
        with Program(program, java.port, subprocess.PIPE) as bridge:
            session = Session(bridge.client())
            session.client.stream.setsockopt(socket.IPPROTO_TCP, socket.TCP_NODELAY, 1)
            begin(session, SOURCE, [line], is_loaded=False)
            has_to_be("the event of the class", session.event(), bound(1, line))
            number = session.event()["body"]["threadId"]
            asks = [request(session.asked + 1 + hit, "continue", {"threadId": number}) for hit in range(hits)]
            before = processor_seconds(bridge.process.pid)
            counted, waits = resumed(session.client, asks, hold / 1000)
            spent = processor_seconds(bridge.process.pid) - before
    return counted, 1000 * statistics.median(waits), 1000 * spent / hits


def resumed(client, asks, hold):
    """How many hits are told where each is held and then resumed, and the seconds from each resume to the next hit.
    The first was told just now. Behind the last comes the end of the Java program, or nothing more is asked."""
    waits = []
    for ask in asks:
        time.sleep(hold)
        start = time.perf_counter()
        client.send(ask)
        if not is_hit(client):
            break
        waits.append(time.perf_counter() - start)
    return len(waits) + 1, waits


def is_hit(client):
    """Whether a hit is told next, and not the end of the Java program."""
    while True:
        told = client.receive()
        if b'"event":"stopped"' in told or b'"event":"terminated"' in told:
            return b'"event":"stopped"' in told


def measured(program, line, hits, hold):
    """Runs in turn, and of each what both sides counted and took."""
    with tempfile.TemporaryDirectory() as folder:
        classes = compiled(folder, os.path.join(EXAMPLES, SOURCE), DEBUGGER)
        asked = classes, line, hits, hold
        runs = [(by_jdi(*asked), by_bridge(program, *asked)) for _ in range(RUNS)]
    has_to_be("the numbers of hits", [[counted for counted, *_ in run] for run in runs], RUNS * [[hits, hits]])
    return runs


def show(hits, hold, runs):
    jdi, bridge = ([run[side][1] for run in runs] for side in range(2))
    least, most = statistics.median(jdi), statistics.median(bridge)
    print("%d hits, each held for %d ms; milliseconds to the next, medians of runs in turn" % (hits, hold))
    print("  by JDI         %s; of these %.3f" % (" ".join("%.3f" % median for median in jdi), least))
    print("  by the bridge  %s; of these %.3f" % (" ".join("%.3f" % median for median in bridge), most))
    print("  ratio %.2f; processor time of the bridge %.3f ms a hit"
          % (most / least, statistics.median(run[1][2] for run in runs)), flush=True)


def main():
    why = lacking("java", "javac")
    if why:
        stop(why)
    program, line = program_of(sys.argv[1:]), line_of(SOURCE, "sum +=")
    for hits, hold in CASES:
        show(hits, hold, measured(program, line, hits, hold))
    return 0


if __name__ == "__main__":
    plainly(main)
