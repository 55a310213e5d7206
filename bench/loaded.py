#!/usr/bin/env python3
"""Measures stops among many loaded classes, and classes that load in a watched package, beside a debugger by the Java
Debug Interface (JDI) over the same Java program.

The program, bench/loading/Loads.java, makes its classes itself. The bridge with a client of this script, and
bench/Among.java, which uses JDI, attach to it in turn, and set a breakpoint in a class that is loaded.

    hits, steps    of a program that has loaded 500, 5,000 or 15,000 classes in packages in which nothing is listed:
                   milliseconds from a resume to the next stop, the median of the medians of some runs
    loads          1,000, 4,000 or 16,000 classes that load in the package of the listed source: milliseconds a class,
                   which the program itself took, the median of some runs

Of each the processor time of the bridge is printed too, which no other work on the machine changes much, and by how
much it grows between the ends.

usage: bench/loaded.py [--runs N] [PROGRAM]
"""
import os
import re
import socket
import statistics
import subprocess
import sys
import tempfile
import time

sys.path.insert(0, os.path.join(os.path.dirname(os.path.dirname(os.path.abspath(__file__))), "examples"))

from building import PATIENCE, TOP, plainly, program_of, stop
from java_machine import DEBUGGER, JavaProgram, compiled, lacking, tool
from over_tcp import Program, request
from round_trips import processor_seconds
from sessions import Session, has_to_be

BENCH = os.path.join(TOP, "bench")
SOURCE, MAIN = os.path.join(BENCH, "loading", "Loads.java"), "loading.Loads"
STOPS = 1000
LOADED = (500, 5000, 15_000)
LOADING = (1000, 4000, 16_000)
RUNS = 3
SAID = re.compile(r"sum (\d+), loaded in ([\d.]+) ms")
COUNTED = re.compile(r"ready\nstops (\d+), median ([\d.]+) ms")


def line_of(text):
    with open(SOURCE, encoding="utf-8") as file:
        (number,) = [number for number, line in enumerate(file, 1) if text in line]
    return number


LINE = line_of("sum += round;")


class Loads(JavaProgram):
    """The Java program: with classes before, rounds and classes behind."""

    def __init__(self, classes, before, rounds, behind):
        super().__init__(classes, MAIN, [str(before), str(rounds), str(behind)], longest=10 * PATIENCE)
        self.wait_until_up()
        self.rounds = rounds

    def took(self):
        """The milliseconds that its last classes took, once it has ended."""
        said = SAID.search(self.end()[0].decode())
        has_to_be("the sum of the rounds", int(said[1]), self.rounds * (self.rounds + 1) // 2)
        return float(said[2])


def by_jdi(classes, before, rounds, behind, steps):
    """The median of the milliseconds to the next stop, and those that the last classes took."""
    with Loads(classes, before, rounds, behind) as java:
        words = [tool("java"), "-cp", classes, "Among", str(java.port), MAIN, str(LINE), *([str(steps)] * (steps > 0))]
        with subprocess.Popen(words, stdin=subprocess.DEVNULL, stdout=subprocess.PIPE, encoding="ascii") as debugger:
            ready = debugger.stdout.readline()
            java.go_on()
            took = java.took()
            counted = COUNTED.match(ready + debugger.stdout.read())
    has_to_be("the stops by JDI", int(counted[1]), steps + 1 if steps else rounds)
    return float(counted[2]), took


def attached(bridge):
    """A session with the breakpoint of this script."""
    session = Session(bridge.client())
    session.client.stream.setsockopt(socket.IPPROTO_TCP, socket.TCP_NODELAY, 1)
    listed = {"source": {"path": SOURCE}, "breakpoints": [{"line": LINE}]}
    for command, arguments in (("initialize", {"adapterID": "loaded"}), ("attach", {"sourceRoots": [BENCH]}),
                               ("setBreakpoints", listed), ("configurationDone", None)):
        said = session.ask(command, arguments)
        has_to_be("whether %s succeeds" % command, said["success"], True)
    has_to_be("whether the breakpoint stands", session.ask("setBreakpoints", listed)["body"]["breakpoints"][0]["verified"], True)
    return session


def stopped_thread(client):
    """The thread of the next stop; None at the end of the Java program."""
    while True:
        told = client.receive()
        if b'"event":"stopped"' in told:
            return int(re.search(rb'"threadId":(\d+)', told)[1])
        if b'"event":"terminated"' in told:
            return None


def resumed(session, asks):
    """The seconds from each of these requests to the next stop."""
    waits = []
    for ask in asks:
        start = time.perf_counter()
        session.client.send(ask)
        if stopped_thread(session.client) is None:
            break
        waits.append(time.perf_counter() - start)
    return waits


def requests_of(session, number, rounds, steps):
    """What is asked, stop by stop."""
    first = session.asked + 1
    if steps:
        return [request(first + place, "next", {"threadId": number}) for place in range(steps)]
    return [request(first + place, "continue", {"threadId": number}) for place in range(rounds - 1)]


def by_bridge(program, classes, before, rounds, behind, steps):
    """The same by the bridge, and the milliseconds of its processor time for a stop, or for a class."""
    with Loads(classes, before, rounds, behind) as java, Program(program, java.port, subprocess.PIPE) as bridge:
        session = attached(bridge)
        before_go = processor_seconds(bridge.process.pid)
        java.go_on()
        number = stopped_thread(session.client)
        asks = requests_of(session, number, rounds, steps)
        if steps:
            cleared = {"source": {"path": SOURCE}, "breakpoints": []}
            session.client.send(request(session.asked + 1, "setBreakpoints", cleared))
            asks = [request(session.asked + 2 + place, "next", {"threadId": number}) for place in range(steps)]
        start = processor_seconds(bridge.process.pid)
        waits = resumed(session, asks)
        spent = processor_seconds(bridge.process.pid) - (start if rounds > 1 else before_go)
        if behind:
            session.client.send(request(session.asked + 1, "continue", {"threadId": number}))
            start = processor_seconds(bridge.process.pid)
            took = java.took()
            spent = processor_seconds(bridge.process.pid) - start
        else:
            session.client.send(request(session.asked + 1 + len(asks) + bool(steps), "continue", {"threadId": number}))
            took = java.took()
    has_to_be("the stops by the bridge", len(waits), len(asks))
    median = 1000 * statistics.median(waits) if waits else 0
    return median, took, 1000 * spent / (behind or len(asks))


def row(program, classes, name, size, runs):
    """A row's medians: by JDI, by the bridge, and of its processor time."""
    asked = {"hits": (size, STOPS, 0, 0), "steps": (size, 2 * STOPS, 0, STOPS), "loads": (0, 1, size, 0)}[name]
    place, divisor = (1, size) if name == "loads" else (0, 1)
    jdi, bridge, spent = [], [], []
    for _ in range(runs):
        jdi.append(by_jdi(classes, *asked)[place] / divisor)
        said = by_bridge(program, classes, *asked)
        bridge.append(said[place] / divisor)
        spent.append(said[2])
    return [statistics.median(times) for times in (jdi, bridge, spent)]


def main():
    words, runs = sys.argv[1:], RUNS
    if words[:1] == ["--runs"]:
        runs, words = int(words[1]), words[2:]
    why = lacking("java", "javac")
    if why:
        stop(why)
    program = program_of(words)
    with tempfile.TemporaryDirectory() as folder:
        classes = compiled(folder, SOURCE, DEBUGGER, os.path.join(BENCH, "Among.java"))
        print("%-6s %8s %12s %12s %6s %14s" % ("", "classes", "JDI, ms", "bridge, ms", "ratio", "processor, ms"))
        for name, sizes in (("hits", LOADED), ("steps", LOADED), ("loads", LOADING)):
            rows = [row(program, classes, name, size, runs) for size in sizes]
            for size, (jdi, bridge, spent) in zip(sizes, rows):
                print("%-6s %8d %12.3f %12.3f %6.2f %14.3f" % (name, size, jdi, bridge, bridge / jdi, spent))
            print("%-6s processor time grows by %.2f" % (name, rows[-1][2] / rows[0][2]), flush=True)
    return 0


if __name__ == "__main__":
    plainly(main)
