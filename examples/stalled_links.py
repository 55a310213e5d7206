#!/usr/bin/env python3
"""Measures what the program takes of a core, and how its memory grows, while a peer stalls: a case is kept or broken.

- A client that sends requests as long as they are taken, and never reads.
- A target that neither reads nor answers, while the client asks for threads again and again.
- A target that attaches, and then reads nothing of a command of 15 million bytes.
- A client that sends a request byte by byte, one a millisecond.

A case is kept where the program comes to take at most a tenth of a core, and to grow by at most a megabyte meanwhile.

usage: examples/stalled_links.py [PROGRAM]
"""
import sys
import threading
import time
from functools import partial

from building import plainly, program_of, tried
from hard_links import attached
from many_threads import ATTACH
from over_tcp import Bridge, request
from round_trips import processor_seconds

# How many seconds a case is measured.
SECONDS = 4
# How often it is measured at most, until the program takes as little as it may.
TRIES = 8
# How much of a core the program may take meanwhile.
SHARE = 0.1
# How much it may grow meanwhile.
KILOBYTES = 1024


def never_reads(bridge, is_over):
    client = bridge.client()
    client.stream.settimeout(0.1)
    send_on(client, is_over, request(1, "x" * 1000), 0)
    is_over.wait()


def silent_target(bridge, is_over):
    client = bridge.client()
    client.send(request(1, "initialize", {"adapterID": "jdwp"}))
    client.send(request(2, "attach", ATTACH))
    send_on(client, is_over, request(3, "threads"), 0.01)


def full_target(bridge, is_over):
    client = attached(bridge)
    source = {"path": "%s/%s/Main.java" % (ATTACH["sourceRoots"][0], "x" * 15000000)}
    client.send(request(3, "setBreakpoints", {"source": source, "breakpoints": [{"line": 1}]}))
    is_over.wait()


def byte_by_byte(bridge, is_over):
    client = bridge.client()
    while not is_over.is_set():
        client.send(request(1, "initialize", {"adapterID": "jdwp"}), by=1)


def send_on(client, is_over, body, pause):
    while not is_over.is_set():
        try:
            client.send(body)
        except OSError:
            return
        time.sleep(pause)


def kilobytes(pid):
    with open("/proc/%d/status" % pid, encoding="ascii") as file:
        return next(int(line.split()[1]) for line in file if line.startswith("VmRSS:"))


def stall(case, program):
    """Whether the program neither spins nor grows in a case."""
    with Bridge(program) as bridge:
        is_over, pid = threading.Event(), bridge.process.pid
        load = threading.Thread(target=case, args=(bridge, is_over), daemon=True)
        load.start()
        time.sleep(1)
        kept = any(is_calm(pid) for _ in range(TRIES)) and load.is_alive()
        is_over.set()
        load.join(1)
    return kept


def is_calm(pid):
    """Whether a process takes and grows by no more than it may, for a few seconds."""
    before, held = processor_seconds(pid), kilobytes(pid)
    time.sleep(SECONDS)
    share, grown = (processor_seconds(pid) - before) / SECONDS, kilobytes(pid) - held
    print("%.1f percent of a core, memory %d KB and %d KB more" % (100 * share, held, grown))
    return share <= SHARE and grown <= KILOBYTES


def main():
    program = program_of(sys.argv[1:])
    cases = never_reads, silent_target, full_target, byte_by_byte
    return tried((case.__name__, partial(stall, case, program)) for case in cases)


if __name__ == "__main__":
    plainly(main)
