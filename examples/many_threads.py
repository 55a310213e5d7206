#!/usr/bin/env python3
"""Measures `threads` over a target of many threads, beside a plain loop that asks the same target the same questions.

Printed are the seconds until all names are there, of the plain loop and of the bridge, and the processor time that
the bridge took for it: the least of five runs in turn. The target is a process of this script. Both keep sixteen
questions in flight.

usage: examples/many_threads.py [PROGRAM]
"""
import json
import multiprocessing
import socket
import struct
import sys
import time

from building import plainly, program_of
from over_tcp import Bridge, event, free_port, pieces, request
from round_trips import pair, processor_seconds
from sessions import has_to_be

COUNTS = (100, 1000, 5000, 40000)
IN_FLIGHT = 16
RUNS = 5
PIECE = 65536
HANDSHAKE = b"JDWP-Handshake"
SIZES = struct.pack(">5I", 8, 8, 8, 8, 8)
ATTACH = {"sourceRoots": ["/src"]}


def receive(stream, size):
    piece = b""
    while len(piece) < size:
        more = stream.recv(size - len(piece))
        if not more:
            raise EOFError("the link ended")
        piece += more
    return piece


def answer(numbers, body, count):
    """What a target of so many threads replies to a command: a body."""
    if numbers == (1, 7):
        return SIZES
    if numbers == (1, 4):
        return struct.pack(">I%dQ" % count, count, *range(1, count + 1))
    if numbers == (11, 1):
        name = b"thread-%d" % struct.unpack(">Q", body)
        return struct.pack(">I", len(name)) + name
    if numbers == (15, 1):
        return struct.pack(">I", 1)
    return b""


def cut(pending):
    """The whole packets at the front of some bytes, and the rest."""
    packets = []
    at = 0
    while len(pending) - at >= 11:
        length = struct.unpack_from(">I", pending, at)[0]
        if len(pending) - at < length:
            break
        packets.append(pending[at:at + length])
        at += length
    return packets, pending[at:]


def next_packets(stream, pending):
    """The next packets of a link, one or more, and what stands behind them."""
    packets = []
    while not packets:
        piece = stream.recv(PIECE)
        if not piece:
            raise EOFError("the link ended")
        packets, pending = cut(pending + piece)
    return packets, pending


def reply(packet, count):
    """The reply packet to a command."""
    number, _, group, command = struct.unpack_from(">IBBB", packet, 4)
    body = answer((group, command), packet[11:], count)
    return struct.pack(">IIBH", 11 + len(body), number, 0x80, 0) + body


def serve_target(stream, count):
    """Answers each command until the link ends."""
    stream.setsockopt(socket.IPPROTO_TCP, socket.TCP_NODELAY, 1)
    try:
        stream.sendall(receive(stream, len(HANDSHAKE)))
        pending = b""
        for piece in pieces(stream):
            packets, pending = cut(pending + piece)
            if packets:
                stream.sendall(b"".join(reply(packet, count) for packet in packets))
    except (EOFError, OSError):
        pass


def target_of(stream, count):
    """A process that answers as a target of so many threads."""
    target = multiprocessing.get_context("fork").Process(target=serve_target, args=(stream, count), daemon=True)
    target.start()
    stream.close()
    return target


def asked(number, group, command, body):
    """The packet of a question."""
    return struct.pack(">IIBBB", 11 + len(body), number, 0, group, command) + body


def ask_names(stream, threads):
    """The names of these threads, with sixteen questions in flight: each reply makes room for one more."""
    names = []
    sent = 0
    pending = b""
    while len(names) < len(threads):
        while sent < len(threads) and sent - len(names) < IN_FLIGHT:
            stream.sendall(asked(2 + sent, 11, 1, struct.pack(">Q", threads[sent])))
            sent += 1
        packets, pending = next_packets(stream, pending)
        names.extend(packet[15:] for packet in packets)
    return names


def plain_loop(count):
    """The seconds that the questions take without a bridge."""
    near, far = pair(free_port())
    target = target_of(far, count)
    near.sendall(HANDSHAKE)
    receive(near, len(HANDSHAKE))
    start = time.monotonic()
    near.sendall(asked(1, 1, 4, b""))
    length = struct.unpack(">IIBH", receive(near, 11))[0]
    threads = struct.unpack(">%dQ" % count, receive(near, length - 11)[4:])
    names = ask_names(near, threads)
    took = time.monotonic() - start
    near.close()
    target.terminate()
    has_to_be("the number of names", len(names), count)
    return took


def attached_client(bridge):
    """A client that has attached: its first two requests are answered."""
    client = bridge.client()
    for seq, (command, arguments) in enumerate([("initialize", {"adapterID": "jdwp"}), ("attach", ATTACH)], 1):
        client.send(request(seq, command, arguments))
        client.receive()
    has_to_be("the event behind them", client.receive(), event(3, "initialized"))
    return client


def bridged(program, count):
    """The seconds that `threads` takes, and the processor time of the bridge for it."""
    with Bridge(program) as bridge:
        target = target_of(bridge.target, count)
        client = attached_client(bridge)
        before, start = processor_seconds(bridge.process.pid), time.monotonic()
        client.send(request(3, "threads"))
        body = client.receive()
        took, spent = time.monotonic() - start, processor_seconds(bridge.process.pid) - before
        has_to_be("the number of threads", len(json.loads(body)["body"]["threads"]), count)
        client.send(request(4, "disconnect"))
        client.receive()
        has_to_be("the status", bridge.status(), 0)
        target.terminate()
    return took, spent


def main():
    program = program_of(sys.argv[1:])
    least = {}
    for count in COUNTS:
        plain, bridge = [], []
        for _ in range(RUNS):
            plain.append(plain_loop(count))
            bridge.append(bridged(program, count))
        took, spent = least[count] = min(bridge)
        print("%5d threads: plain loop %7.3f s, bridge %7.3f s, which is %.2f of it; its processor time %7.3f s"
              % (count, min(plain), took, took / min(plain), spent))
    most, fewer = COUNTS[-1], COUNTS[-2]
    print("%d threads take %.1f times as long as %d" % (most, least[most][0] / least[fewer][0], fewer))


if __name__ == "__main__":
    plainly(main)
