#!/usr/bin/env python3
"""Measures round trips of `initialize` over the loopback interface, beside an echo that blocks in its reads.

Printed are the median and the 99th percentile in microseconds: right after another request, and after 20 ms and a
second of silence; the processor time that a request takes of the program; the time until the client hears what the
target tells unasked, beside a thread that hands it on; and the share of a core that the program takes while nothing
comes.

usage: examples/round_trips.py [PROGRAM]
"""
import random
import socket
import sys
import threading
import time

from building import plainly, program_of
from over_tcp import Bridge, Client, dial, free_port, pieces, request

# how many requests follow so many seconds of silence
ROUNDS = (("busy", 0, 2000), ("after 20 ms", 0.02, 300), ("after a second", 1, 20))
EVENTS = 40
IDLE = 10


def pair(port):
    """Both ends of a link."""
    with socket.create_server(("127.0.0.1", port)) as listener:
        near = dial(port)
        far, _ = listener.accept()
    for stream in (near, far):
        stream.setsockopt(socket.IPPROTO_TCP, socket.TCP_NODELAY, 1)
    return near, far


def echo(stream):
    """Answers each frame by its body; the thread ends with the connection."""
    client = Client(stream)
    try:
        while True:
            client.send(client.receive())
    except EOFError:
        pass


def relay(stream, other):
    """Hands on what a stream gives."""
    for piece in pieces(stream):
        other.sendall(piece)


def in_thread(call, *given):
    threading.Thread(target=call, args=given, daemon=True).start()


def trip(client, seq):
    body = request(seq, "initialize", {"adapterID": "jdwp"})
    start = time.perf_counter_ns()
    client.send(body)
    client.receive()
    return (time.perf_counter_ns() - start) / 1000


def show(name, times):
    times.sort()
    median = times[len(times) // 2]
    late = times[min(len(times) - 1, len(times) * 99 // 100)]
    print("%-24s median %9.1f us, 99th percentile %9.1f us" % (name, median, late))


def measure(name, client, pid=None):
    client.stream.setsockopt(socket.IPPROTO_TCP, socket.TCP_NODELAY, 1)
    seq = 0
    for what, silence, count in ROUNDS:
        times, before = [], pid and processor_seconds(pid)
        for _ in range(count):
            time.sleep(silence)
            seq += 1
            times.append(trip(client, seq))
        show("%s, %s" % (name, what), times)
        if pid:
            spent = (processor_seconds(pid) - before) / count
            print("%-24s %.3f ms of a core a request, its silence with it" % ("", 1000 * spent))


def event(send_on, client):
    """The microseconds until a client hears what is told unasked."""
    time.sleep(0.1 + random.random() / 50)
    start = time.perf_counter_ns()
    send_on.sendall(b"no handshake at all")
    client.recv(1)
    return (time.perf_counter_ns() - start) / 1000


def relayed_event():
    target, near = pair(free_port())
    far, client = pair(free_port())
    in_thread(relay, near, far)
    took = event(target, client)
    target.close()
    return took


def bridged_event(program):
    with Bridge(program) as bridge:
        client = bridge.client()
        trip(client, 1)
        took = event(bridge.target, client.stream)
        client.close()
        bridge.target.close()
        bridge.status()
    return took


def processor_seconds(pid):
    with open("/proc/%d/schedstat" % pid, encoding="ascii") as stat:
        return int(stat.read().split()[0]) / 1e9


def main():
    program = program_of(sys.argv[1:])
    near, far = pair(free_port())
    in_thread(echo, far)
    measure("echo", Client(near))
    near.close()
    with Bridge(program) as bridge:
        client = bridge.client()
        measure("bridge", client, bridge.process.pid)
        before = processor_seconds(bridge.process.pid)
        time.sleep(IDLE)
        share = (processor_seconds(bridge.process.pid) - before) / IDLE
        print("idle: %.2f percent of a core" % (100 * share))
    show("relay, unasked", [relayed_event() for _ in range(EVENTS)])
    show("bridge, unasked", [bridged_event(program) for _ in range(EVENTS)])
    return 0


if __name__ == "__main__":
    plainly(main)
