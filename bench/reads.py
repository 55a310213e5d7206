#!/usr/bin/env python3
"""Measures what it takes to read a stop, beside a debugger by the Java Debug Interface (JDI) that reads the same.

The Java program, examples/stops/Deep.java, comes to one line again and again. The bridge with a client of this script,
and bench/Reads.java, which uses JDI, attach to it in turn, five times each, and stop at each hit. Both have to read the
same. Printed are milliseconds, the median of each run and of these, the ratio, and the bridge's processor time, for

- a stop: all threads, fourteen frames, and the variables of the upper one, at 1,000 hits. The client asks `threads`,
  `stackTrace`, `scopes` and `variables`, each once the one before is answered; and once more all in one piece, since it
  can tell the numbers ahead. And a whole cycle of the same hits: from where one is resumed to the end of the read at
  the next one.
- 100, 1,000 and 10,000 elements of an array, of five kinds in turn: objects, strings, arrays, numbers as objects, null.
  Other elements are read before, so that all is warm.

At the end stands how much memory the bridge takes for a number: its peak at a stop that shows 10,000 objects, a hundred
at a time, less that where it shows the first hundred a hundred times.

usage: bench/reads.py [PROGRAM]
"""
import json
import os
import re
import socket
import statistics
import subprocess
import sys
import tempfile
import time
import zlib

sys.path.insert(0, os.path.join(os.path.dirname(os.path.dirname(os.path.abspath(__file__))), "examples"))

from building import PATIENCE, TOP, plainly, program_of, stop
from java_machine import DEBUGGER, EXAMPLES, JavaProgram, compiled, lacking, tool
from over_tcp import Program, request
from round_trips import processor_seconds
from sessions import Session, begin, bound, has_to_be, line_of
from stops import is_hit

SOURCE, MAIN = "stops/Deep.java", "stops.Deep"
READER = os.path.join(TOP, "bench", "Reads.java")
READ = re.compile(r"sum (\d+), milliseconds ([\d. ]+), cycles ([\d. ]+)\n")
RUNS = 5
STOPS, FRAMES = 1000, 14
# How many numbers are told at a stop: of the frames, of the variables, and of those of them that hold something.
NUMBERS = FRAMES + 1 + 3
WARM, ELEMENTS, MOST = 1000, (100, 1000, 10000), 10000
# How many kinds of things the array holds, and how many things a page of it shows.
KINDS, PAGE = 5, 100


class Asker:
    """A client in a stop that asks, and knows what it is answered by its text alone."""

    def __init__(self, session, thread):
        self.client, self.thread, self.asked = session.client, thread, session.asked

    def request(self, command, **arguments):
        self.asked += 1
        return request(self.asked, command, arguments)

    def answers(self, requests):
        """The bodies of the responses to requests that are sent in one piece. Events are passed over."""
        self.client.send_all(requests)
        answers = []
        while len(answers) < len(requests):
            body = self.client.receive()
            if b'"type":"response"}' in body[-20:]:
                answers.append(body)
        return answers

    def ask(self, command, **arguments):
        """The body of a response."""
        return json.loads(self.answers([self.request(command, **arguments)])[0])["body"]

    def array(self):
        """The number of the array that is the second variable of the upper frame."""
        frame = self.ask("stackTrace", threadId=self.thread, levels=1)["stackFrames"][0]
        scope = self.ask("scopes", frameId=frame["id"])["scopes"][0]
        variables = self.ask("variables", variablesReference=scope["variablesReference"])["variables"]
        return variables[1]["variablesReference"]

    def go_on(self):
        """Lets the Java program run on, and says whether it stops again."""
        self.client.send(self.request("continue", threadId=self.thread))
        return is_hit(self.client)


def by_jdi(classes, line, words, numbers=()):
    """The checksum of what JDI reads at hits, the milliseconds of each read, and those of each cycle."""
    with JavaProgram(classes, MAIN, words, suspend=True) as java:
        java.wait_until_listening()
        reader = [tool("java"), "-cp", classes, "Reads", str(java.port), MAIN, str(line), *map(str, numbers)]
        said = subprocess.run(reader, stdin=subprocess.DEVNULL, stdout=subprocess.PIPE, timeout=PATIENCE, check=True)
    found = READ.fullmatch(said.stdout.decode())
    if not found:
        raise ValueError("the debugger by the Java Debug Interface says %r" % said.stdout)
    return (int(found[1]), *([float(word) for word in found[place].split()] for place in (2, 3)))


def by_bridge(program, classes, line, words, read):
    """What is read by a client in the first stop of a session, and later."""
    with JavaProgram(classes, MAIN, words, suspend=True) as java:
        java.wait_until_listening()
        with Program(program, java.port, subprocess.PIPE) as bridge:
            session = Session(bridge.client())
            session.client.stream.setsockopt(socket.IPPROTO_TCP, socket.TCP_NODELAY, 1)
            begin(session, SOURCE, [line], is_loaded=False)
            has_to_be("the event of the class", session.event(), bound(1, line))
            return read(Asker(session, session.event()["body"]["threadId"]), bridge.process.pid)


def timed(asker, pid, pieces):
    """The answers to requests that are asked piece by piece, and the milliseconds that this took, all in all and of the
    bridge's processor time."""
    before, start = processor_seconds(pid), time.perf_counter()
    answers = [answer for piece in pieces for answer in asker.answers(piece)]
    taken = time.perf_counter() - start
    return answers, (1000 * taken, 1000 * (processor_seconds(pid) - before))


def stops_read(at_once):
    """Reads stops, each by one piece or by one a request, and times each cycle, too."""

    def read(asker, pid):
        texts, taken, cycles, told, left = [], [], [], 0, None
        while True:
            asked = [asker.request("threads"), asker.request("stackTrace", threadId=asker.thread),
                     asker.request("scopes", frameId=told + 1),
                     asker.request("variables", variablesReference=told + FRAMES + 1)]
            answers, milliseconds = timed(asker, pid, [asked] if at_once else [[one] for one in asked])
            if left:
                cycles.append(1000 * (time.perf_counter() - left))
            texts.append(answers)
            taken.append(milliseconds)
            told += NUMBERS
            left = time.perf_counter()
            if not asker.go_on():
                return zlib.crc32("".join(map(text_of_stop, texts)).encode()), taken, cycles

    return read


def text_of_stop(answers):
    """What the answers at a stop show, as bench/Reads.java reads it."""
    threads, stack, _, variables = (json.loads(answer)["body"] for answer in answers)
    has_to_be("whether main is there", "main" in [thread["name"] for thread in threads["threads"]], True)
    frames = ["%s %s %d" % (frame["name"], frame["source"]["name"], frame["line"]) for frame in stack["stackFrames"]]
    named = ["%s %s" % (variable["name"], plain(variable)) for variable in variables["variables"]]
    return "".join(line + "\n" for line in [*frames, *named])


def elements_read(asker, pid):
    """Reads elements, so many at each stop, behind those that were read."""
    texts, taken = [], []
    for number in (WARM, *ELEMENTS):
        asked = asker.request("variables", variablesReference=asker.array(), start=len(texts), count=number)
        (answer,), milliseconds = timed(asker, pid, [[asked]])
        texts += [plain(child) + "\n" for child in json.loads(answer)["body"]["variables"]]
        taken.append(milliseconds)
        asker.go_on()
    return zlib.crc32("".join(texts).encode()), taken, []


def plain(child):
    """The value of a child without quotes, and without an object's id."""
    value = child["value"]
    if value.startswith('"'):
        return value[1:-1]
    return value.partition("@")[0] + "@" if "@" in value else value


def peak(starts):
    """Reads pages of the array that begin at these places, and gives the peak of the bridge's memory in bytes."""

    def read(asker, pid):
        array = asker.array()
        for start in starts:
            shown = asker.ask("variables", variablesReference=array, start=start, count=PAGE)["variables"]
            has_to_be("how many are shown", len(shown), PAGE)
        with open("/proc/%d/status" % pid, encoding="ascii") as status:
            return next(1024 * int(line.split()[1]) for line in status if line.startswith("VmHWM:"))

    return read


def show(name, runs):
    """Prints the medians of runs. Gives the median of these."""
    median = statistics.median(runs)
    print("  %-22s %s; of these %.3f" % (name, " ".join("%.3f" % run for run in runs), median), flush=True)
    return median


def show_beside(name, runs, beside, each=1):
    """Prints the medians of runs, which are of pairs; how many times the other's they take; and the processor time for
    each of so many things."""
    median = show(name, [run for run, _ in runs])
    spent = statistics.median(spent for _, spent in runs) / each
    print("  ratio %.2f; %.1f us each, %.1f us of it processor time of the bridge"
          % (median / beside, 1000 * median / each, 1000 * spent), flush=True)


def alike(sums):
    has_to_be("the checksums of what was read", len(set(sums)), 1)


def compare_stops(program, classes, line):
    words = [str(STOPS), "10", str(KINDS)]
    reads = stops_read(False), stops_read(True)
    runs = [[by_jdi(classes, line, words), *(by_bridge(program, classes, line, words, read) for read in reads)]
            for _ in range(RUNS)]
    alike(total for run in runs for total, *_ in run)
    jdi, *bridge = zip(*runs)
    one_by_one, at_once = ([[statistics.median(part) for part in zip(*taken)] for _, taken, _ in side]
                           for side in bridge)
    print("%d stops of %d frames; milliseconds to read one, medians of runs in turn" % (STOPS, FRAMES))
    beside = show("by JDI", [statistics.median(taken) for _, taken, _ in jdi])
    show_beside("by the bridge", one_by_one, beside)
    show_beside("the same in one piece", at_once, beside)
    print("the same hits; milliseconds from a resume to the end of the next read")
    names = "by JDI", "by the bridge", "the same in one piece"
    whole = [show(name, [statistics.median(cycles) for _, _, cycles in side]) for name, side in zip(names, zip(*runs))]
    print("  ratios %.2f and, in one piece, %.2f" % (whole[1] / whole[0], whole[2] / whole[0]), flush=True)


def compare_elements(program, classes, line):
    numbers = WARM, *ELEMENTS
    words = [str(len(numbers)), str(sum(numbers)), str(KINDS)]
    runs = [(by_jdi(classes, line, words, numbers), by_bridge(program, classes, line, words, elements_read))
            for _ in range(RUNS)]
    alike(total for run in runs for total, *_ in run)
    for place, number in enumerate(ELEMENTS, 1):
        print("%d elements of %d kinds; milliseconds to read them, runs in turn" % (number, KINDS))
        jdi, bridge = ([taken[place] for _, taken, _ in side] for side in zip(*runs))
        show_beside("by the bridge", bridge, show("by JDI", jdi), number)


def weigh_numbers(program, classes, line):
    words, places = ["1", str(MOST), "1"], range(0, MOST, PAGE)
    more, less = (statistics.median(by_bridge(program, classes, line, words, peak(starts)) for _ in range(RUNS))
                  for starts in (places, [0] * len(places)))
    print("memory at its peak, medians of %d runs: %.2f MB with %d objects, %.2f MB with %d; %.0f bytes a number"
          % (RUNS, more / 1e6, MOST, less / 1e6, PAGE, (more - less) / (MOST - PAGE)))


def main():
    why = lacking("java", "javac")
    if why:
        stop(why)
    program, line = program_of(sys.argv[1:]), line_of(SOURCE, "onSpinWait()")
    with tempfile.TemporaryDirectory() as folder:
        classes = compiled(folder, os.path.join(EXAMPLES, SOURCE), DEBUGGER, READER)
        compare_stops(program, classes, line)
        compare_elements(program, classes, line)
        weigh_numbers(program, classes, line)
    return 0


if __name__ == "__main__":
    plainly(main)
