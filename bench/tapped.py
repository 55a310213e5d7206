#!/usr/bin/env python3
"""Measures what `tap` costs those between whom it stands.

- A debugger by the Java Debug Interface (JDI), bench/Hits.java, resumes each of 1,000 hits of one breakpoint, straight
  and through the tap, in turn, five times each. Printed are the milliseconds from a resume to the next hit, medians.
- A reply of 64 MiB to AllClasses goes through the tap, and through a plain loop that copies both ways (bench/relay.rs),
  in turn, five times each. Printed are the milliseconds from the command to the last byte, and those of the processor.
- The share of a core that the tap takes in five seconds in which nothing comes.

Both sides of the second are this script's. The tap has one question to ask, which is answered beside.

usage: bench/tapped.py [PROGRAM]
"""
import os
import shutil
import socket
import statistics
import struct
import subprocess
import sys
import tempfile
import threading
import time

sys.path.insert(0, os.path.join(os.path.dirname(os.path.dirname(os.path.abspath(__file__))), "examples"))

from building import PATIENCE, TOP, plainly, program_of, stop
from java_machine import DEBUGGER, EXAMPLES, JavaProgram, compiled, hits_by_jdi, lacking
from over_tcp import dial, free_port
from round_trips import processor_seconds
from sessions import has_to_be, line_of

SOURCE, MAIN = "stops/Rounds.java", "stops.Rounds"
HITS, RUNS = 1000, 5
HANDSHAKE = b"JDWP-Handshake"
# IDSizes and AllClasses of the command set VirtualMachine, and the five sizes of ids.
ID_SIZES, ALL_CLASSES = (1, 7), (1, 3)
SIZES = struct.pack(">5I", 8, 8, 8, 8, 8)
# A list of one class again and again, just short of the longest packet.
CLASS = struct.pack(">BQI", 1, 77, 6) + b"Lx/Y3;" + struct.pack(">I", 7)
LISTED = ((64 << 20) - 15) // len(CLASS)
ASKS = b'["tap",1]\n["ask","AllThreads"]\n["end"]\n'
NOTHING = struct.pack(">I", 0)
IDLE = 5


class Relay:
    """A process that listens at a port of its own, and dials a target."""

    def __init__(self, words):
        self.port = free_port()
        place = "127.0.0.1:%d" % self.port
        self.process = subprocess.Popen([place if word is None else word for word in words],
                                        stdin=subprocess.DEVNULL, stdout=subprocess.DEVNULL)

    def __enter__(self):
        return self

    def __exit__(self, *_):
        if self.process.poll() is None:
            self.process.kill()
        self.process.wait()


def tap(program, asks, target):
    return Relay([program, "tap", "--listen", None, "--target", "127.0.0.1:%d" % target, "--ask", asks])


def plain(relay, target):
    return Relay([relay, None, "127.0.0.1:%d" % target])


class Between:
    """A Java program as its debugger sees it through a tap: at another port."""

    def __init__(self, java, port):
        self.classes, self.port = java.classes, port

    def wait_until_listening(self):
        """The tap listens once it was started."""


def straight(classes, line):
    with JavaProgram(classes, MAIN, [str(HITS)], suspend=True) as java:
        return hits_by_jdi(java, MAIN, line)


def through(program, asks, classes, line):
    with JavaProgram(classes, MAIN, [str(HITS)], suspend=True) as java:
        java.wait_until_listening()
        with tap(program, asks, java.port) as relay:
            dial(relay.port, relay.process).close()
            return hits_by_jdi(Between(java, relay.port), MAIN, line)


def show_stops(program, asks):
    line = line_of(SOURCE, "sum +=")
    with tempfile.TemporaryDirectory() as folder:
        classes = compiled(folder, os.path.join(EXAMPLES, SOURCE), DEBUGGER)
        runs = [(straight(classes, line), through(program, asks, classes, line)) for _ in range(RUNS)]
    has_to_be("the numbers of hits", [[counted for counted, *_ in run] for run in runs], RUNS * [[HITS, HITS]])
    alone, tapped = ([run[side][2] for run in runs] for side in range(2))
    print("%d hits by JDI; milliseconds from a resume to the next, medians of runs in turn" % HITS)
    print("  straight       %s; of these %.3f" % (" ".join("%.3f" % it for it in alone), statistics.median(alone)))
    print("  through a tap  %s; of these %.3f" % (" ".join("%.3f" % it for it in tapped), statistics.median(tapped)))
    print("  ratio %.2f" % (statistics.median(tapped) / statistics.median(alone)), flush=True)


def whole(stream, length):
    """So many bytes of a stream."""
    heard = bytearray()
    while len(heard) < length:
        piece = stream.recv(min(1 << 20, length - len(heard)))
        if not piece:
            raise EOFError("a stream ended early")
        heard += piece
    return bytes(heard)


def packet(stream):
    """The next packet: its id, its command set and command, and its body."""
    length, number, _, command_set, command = struct.unpack(">IIBBB", whole(stream, 11))
    return number, (command_set, command), whole(stream, length - 11)


def answers(listener):
    """A target that greets, says its sizes of ids, and lists its classes, until its stream ends."""
    stream, _ = listener.accept()
    with stream:
        body = struct.pack(">I", LISTED) + CLASS * LISTED
        whole(stream, len(HANDSHAKE))
        stream.sendall(HANDSHAKE)
        while True:
            try:
                number, command, _ = packet(stream)
            except (EOFError, OSError):
                return
            said = body if command == ALL_CLASSES else SIZES if command == ID_SIZES else NOTHING
            stream.sendall(struct.pack(">IIBH", 11 + len(said), number, 0x80, 0) + said)


def listed(relay):
    """The milliseconds from AllClasses to the last byte of its reply, and those of the relay's processor time."""
    with dial(relay.port, relay.process) as stream:
        stream.settimeout(PATIENCE)
        stream.sendall(HANDSHAKE)
        whole(stream, len(HANDSHAKE))
        before, start = processor_seconds(relay.process.pid), time.perf_counter()
        stream.sendall(struct.pack(">IIBBB", 11, 5, 0, *ALL_CLASSES))
        number, _, body = packet(stream)
        taken, spent = time.perf_counter() - start, processor_seconds(relay.process.pid) - before
    has_to_be("the reply", (number, len(body)), (5, 4 + LISTED * len(CLASS)))
    return 1000 * taken, 1000 * spent


def listed_by(make):
    with socket.create_server(("127.0.0.1", 0)) as listener:
        target = threading.Thread(target=answers, args=(listener,), daemon=True)
        target.start()
        with make(listener.getsockname()[1]) as relay:
            return listed(relay)


def show_classes(program, asks, relay):
    runs = [(listed_by(lambda port: plain(relay, port)), listed_by(lambda port: tap(program, asks, port)))
            for _ in range(RUNS)]
    print("64 MiB of AllClasses; milliseconds, the least of runs in turn, and those of the processor")
    least = [[min(run[side][what] for run in runs) for what in range(2)] for side in range(2)]
    for name, (taken, spent) in zip(("a plain loop", "the tap"), least):
        print("  %-13s %.0f, %.0f" % (name, taken, spent))
    print("  ratio %.2f" % (least[1][0] / least[0][0]), flush=True)


def show_idle(program, asks):
    with socket.create_server(("127.0.0.1", 0)) as listener:
        threading.Thread(target=answers, args=(listener,), daemon=True).start()
        with tap(program, asks, listener.getsockname()[1]) as relay, dial(relay.port, relay.process) as stream:
            stream.sendall(HANDSHAKE)
            whole(stream, len(HANDSHAKE))
            before = processor_seconds(relay.process.pid)
            time.sleep(IDLE)
            spent = processor_seconds(relay.process.pid) - before
    print("idle: %.2f percent of a core" % (100 * spent / IDLE))


def main():
    why = lacking("java", "javac") or (None if shutil.which("rustc") else "there is no rustc")
    if why:
        stop(why)
    program = program_of(sys.argv[1:])
    with tempfile.TemporaryDirectory() as folder:
        asks, relay = os.path.join(folder, "asks"), os.path.join(folder, "relay")
        with open(asks, "wb") as file:
            file.write(ASKS)
        subprocess.run(["rustc", "-O", "-o", relay, os.path.join(TOP, "bench", "relay.rs")], check=True)
        show_stops(program, asks)
        show_classes(program, asks, relay)
        show_idle(program, asks)
    return 0


if __name__ == "__main__":
    plainly(main)
