#!/usr/bin/env python3
"""Measures `replay` over a long session log, beside a plain loop that reads the same lines as JSON and writes them; and
over many waits in vain.

The log is of a client that attaches and then asks for the threads again and again, of a target with one thread: the
program makes it itself from what came in, and both get the whole. They run in turn, five times each, over logs of
25,000, 50,000, 100,000 and 200,000 entries. Printed are the least processor time of each, their ratio, and the peak of
the bridge's memory. The plain loop is crates/bridge_bench, built by the same compiler over the same JSON library. At
100,000 entries the ratio has to be at most 3.

The waits stand in logs of four lines: 2,700,000 and sixteen times as many, in turn, five times each. Printed are the
least processor time and the peak of each. The second has to take at most 18 times as long, in as much memory.

usage: bench/replay.py [PROGRAM]
"""
import json
import os
import subprocess
import sys
import tempfile

sys.path.insert(0, os.path.join(os.path.dirname(os.path.dirname(os.path.abspath(__file__))), "examples"))

from building import CRATES, plainly, program_of, stop
from over_tcp import framed, request

LENGTHS = (25_000, 50_000, 100_000, 200_000)
RUNS = 5
# What a client asks before it asks for threads.
BEGUN = (("initialize", {"adapterID": "jdwp"}), ("attach", {"sourceRoots": ["/p/src"]}))
# How many commands the target is sent meanwhile.
BEGUN_COMMANDS = 3
HANDSHAKE = b"JDWP-Handshake"
SIZES = b"\x00\x00\x00\x08" * 5
# The limits of the logs: those of a session that serves an editor, and of one that waits as often as it may.
USUAL = [1099511627776, 43200000, 65536]
PATIENT = [1099511627776, 9223372036854775807, 1]
# How many waits there are.
WAITS = (2_700_000, 43_200_000)
MOST_RATIO = 18
# The lines of a log beside its entries: the head, the limits, the ending and the end.
OTHERS = 4
# How much more memory a run may take than another, in MB: what is loaded of the program differs from run to run.
NOISE = 1
# A request's entries: its frame, a command and its reply twice, and the response.
ENTRIES = 6


def reply(number, body=b""):
    """The packet of a reply without an error (JDWP, Packet)."""
    return (11 + len(body)).to_bytes(4, "big") + number.to_bytes(4, "big") + b"\x80\x00\x00" + body


def came(entries):
    """What comes in a session whose log has at least so many entries: of which side, and which bytes."""
    for place, asked in enumerate(BEGUN):
        yield "client", framed(request(place + 1, *asked))
    yield "target", HANDSHAKE
    yield "target", reply(1, SIZES)
    for number in (2, 3):
        yield "target", reply(number, number.to_bytes(4, "big"))
    for turn in range(entries // ENTRIES):
        yield "client", framed(request(len(BEGUN) + 1 + turn, "threads"))
        first = BEGUN_COMMANDS + 1 + 2 * turn
        yield "target", reply(first, b"\x00\x00\x00\x01" + (1).to_bytes(8, "big"))
        yield "target", reply(first + 1, b"\x00\x00\x00\x04main")


def run(words, out):
    """Runs a program with its output in a file, and gives the seconds of its processor time and its peak in MB."""
    with open(out, "wb") as file:
        process = subprocess.Popen(words, stdin=subprocess.DEVNULL, stdout=file)
        _, status, used = os.wait4(process.pid, 0)
    if status:
        stop("%s ended with status %d" % (" ".join(words), os.waitstatus_to_exitcode(status)))
    return used.ru_utime + used.ru_stime, used.ru_maxrss / 1024


def write_log(path, limits, rows):
    """Writes a log with these limits and rows into a file."""
    with open(path, "w", encoding="ascii") as file:
        for line in (["log", 2], ["limits", *limits], *rows, ["end"]):
            file.write(json.dumps(line, separators=(",", ":")) + "\n")


def log_of(program, folder, entries):
    """The file of a whole log, made by the program from what came in."""
    some, whole = os.path.join(folder, "some"), os.path.join(folder, "whole")
    write_log(some, USUAL, (["in", side, piece.hex()] for side, piece in came(entries)))
    run([program, "replay", some], whole)
    return whole


def text_of(path):
    with open(path, "rb") as file:
        return file.read()


def measured(program, plain, folder, entries):
    """Prints a line of what both take for a log of so many entries."""
    log, out = log_of(program, folder, entries), os.path.join(folder, "out")
    text = text_of(log)
    times, peaks = {"bridge": [], "plain": []}, []
    for _ in range(RUNS):
        for name, words in (("bridge", [program, "replay", log]), ("plain", [plain, "lines", log])):
            seconds, peak = run(words, out)
            if text_of(out) != text:
                stop("%s doesn't print the log again" % name)
            times[name].append(seconds)
            peaks += [peak] if name == "bridge" else []
    bridge, loop = min(times["bridge"]), min(times["plain"])
    print("%7d entries, %.1f MB: bridge %.0f ms, plain loop %.0f ms, ratio %.2f; at most %.1f MB"
          % (text.count(b"\n") - OTHERS, len(text) / 1e6, 1000 * bridge, 1000 * loop, bridge / loop, max(peaks)),
          flush=True)


def measured_waits(program, folder):
    """Prints a line of what many waits in vain take, and what fewer do."""
    out, logs = os.path.join(folder, "out"), {}
    for count in WAITS:
        logs[count] = os.path.join(folder, str(count))
        write_log(logs[count], PATIENT, [["quiet", count]])
    times, peaks = {count: [] for count in WAITS}, {count: [] for count in WAITS}
    for _ in range(RUNS):
        for count, log in logs.items():
            seconds, peak = run([program, "replay", log], out)
            if b'["quiet",%d]\n' % count not in text_of(out):
                stop("the bridge doesn't print the waits again")
            times[count].append(seconds)
            peaks[count].append(peak)
    few, many = WAITS
    ratio, more = min(times[many]) / min(times[few]), max(peaks[many]) - max(peaks[few])
    print("%d waits %.0f ms, %d waits %.0f ms, ratio %.1f; at most %.1f and %.1f MB"
          % (few, 1000 * min(times[few]), many, 1000 * min(times[many]), ratio, max(peaks[few]), max(peaks[many])))
    if ratio > MOST_RATIO or more > NOISE:
        stop("many waits take too much")


def main():
    program = program_of(sys.argv[1:])
    plain = os.path.join(CRATES, "bridge_bench", "out", "bridge_bench")
    if not os.path.isfile(plain):
        stop("build the plain loop first: rt run in crates/bridge_bench")
    with tempfile.TemporaryDirectory() as folder:
        for entries in LENGTHS:
            measured(program, plain, folder, entries)
        measured_waits(program, folder)


if __name__ == "__main__":
    plainly(main)
