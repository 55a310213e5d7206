#!/usr/bin/env python3
"""Measures how soon a `pause` is answered while a Java program starts and ends threads as fast as it can.

Three threads of the program, bench/loading/Starts.java, start others one after the other. A client lists a breakpoint
that nothing comes to, and every five seconds it asks for a `pause`, and lets the program run on. Printed are how long
each pause took, how many events of threads were told a second, and the processor time of the bridge for one.

usage: bench/starts.py [--seconds N] [PROGRAM]
"""
import os
import re
import subprocess
import sys
import tempfile
import time

sys.path.insert(0, os.path.join(os.path.dirname(os.path.dirname(os.path.abspath(__file__))), "examples"))

from building import PATIENCE, TOP, plainly, program_of, stop
from java_machine import JavaProgram, compiled, lacking
from over_tcp import Program, request
from round_trips import processor_seconds
from sessions import Session, has_to_be

BENCH = os.path.join(TOP, "bench")
SOURCE, MAIN = os.path.join(BENCH, "loading", "Starts.java"), "loading.Starts"
SECONDS = 60
STARTERS = 3
BETWEEN = 5


def begin(session):
    """A session with a breakpoint in the line that is run last."""
    with open(SOURCE, encoding="utf-8") as file:
        (line,) = [number for number, line in enumerate(file, 1) if "interrupt();" in line]
    listed = {"source": {"path": SOURCE}, "breakpoints": [{"line": line}]}
    for command, arguments in (("initialize", {"adapterID": "starts"}), ("attach", {"sourceRoots": [BENCH]}),
                               ("setBreakpoints", listed), ("configurationDone", None)):
        has_to_be("whether %s succeeds" % command, session.ask(command, arguments)["success"], True)
    return session.asked


def read_until(client, due, until=None):
    """How many events of threads come before a message with this text, or up to this time."""
    events = 0
    while until is None or time.perf_counter() < until:
        told = client.receive()
        if b'"event":"thread"' in told:
            events += 1
        elif due and due in told:
            return events
    return events


def measured(java, bridge, seconds):
    """The seconds that each pause took, how many events of threads there were, and the processor time for them."""
    session = Session(bridge.client())
    asked, client = begin(session), session.client
    number = session.number_of("main")
    asked = session.asked
    before = processor_seconds(bridge.process.pid)
    java.go_on()
    end, waits, events = time.perf_counter() + seconds - BETWEEN, [], 0
    while time.perf_counter() < end:
        events += read_until(client, None, time.perf_counter() + BETWEEN)
        start = time.perf_counter()
        client.send(request(asked + 1, "pause", {"threadId": number}))
        events += read_until(client, b'"event":"stopped"')
        waits.append(time.perf_counter() - start)
        client.send(request(asked + 2, "continue", {"threadId": number}))
        asked += 2
    events += read_until(client, b'"event":"terminated"')
    return waits, events, processor_seconds(bridge.process.pid) - before


def main():
    words, seconds = sys.argv[1:], SECONDS
    if words[:1] == ["--seconds"]:
        seconds, words = int(words[1]), words[2:]
    why = lacking("java", "javac")
    if why:
        stop(why)
    program = program_of(words)
    with tempfile.TemporaryDirectory() as folder:
        classes = compiled(folder, SOURCE)
        with JavaProgram(classes, MAIN, [str(STARTERS), str(seconds)], longest=seconds + PATIENCE) as java:
            java.wait_until_up()
            with Program(program, java.port, subprocess.PIPE) as bridge:
                waits, events, spent = measured(java, bridge, seconds)
            started = int(re.search(rb"started (\d+)", java.end()[0])[1])
    has_to_be("whether all events were told", events >= 2 * started, True)
    print("pauses: %s s" % " ".join("%.3f" % wait for wait in waits))
    print("%d threads were started; %.0f events a second, %.1f us of the processor for one"
          % (started, events / seconds, 1e6 * spent / events))
    return 0


if __name__ == "__main__":
    plainly(main)
