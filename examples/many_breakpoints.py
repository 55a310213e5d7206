#!/usr/bin/env python3
"""Measures `setBreakpoints` over a target of many classes, beside a plain loop that sends the same target the same
commands.

The target has so many prepared classes with so many methods each, in ten packages, and maybe others in packages in
which nothing is listed. The client lists four lines in each of some files. Printed are the seconds until all
breakpoints are told, of the plain loop and of the bridge, and the processor time that the bridge took for it: the least
of three runs in turn. The target is a process of this script. Both keep sixteen questions in flight, and send a command
that changes the target alone.

usage: examples/many_breakpoints.py [PROGRAM]
"""
import json
import multiprocessing
import socket
import struct
import sys
import time

from building import plainly, program_of
from many_threads import HANDSHAKE, IN_FLIGHT, SIZES, attached_client, cut, next_packets, receive
from over_tcp import Bridge, free_port, pieces, request
from round_trips import pair, processor_seconds
from sessions import has_to_be

PACKAGES = 10
LINES = 4
RUNS = 3
# classes, their methods, other classes, and files that are listed
CASES = ((50, 40, 0, 50), (500, 40, 0, 10), (500, 40, 0, 50), (500, 40, 1000, 50), (5000, 40, 0, 50), (500, 400, 0, 50))
# The commands that change the target (JDWP, EventRequest command set, Set and Clear).
EFFECTS = ((15, 1), (15, 2))


def text(words):
    return struct.pack(">I", len(words)) + words.encode()


def path_of(number):
    """The package of a class, and its name."""
    return "p%d" % (number % PACKAGES), "C%d" % number


def all_classes(classes, others):
    body = struct.pack(">I", classes + others)
    for number in range(1, classes + others + 1):
        package, name = path_of(number)
        signature = "L%s%s/%s;" % ("other/" if number > classes else "", package, name)
        body += struct.pack(">BQ", 1, number) + text(signature) + struct.pack(">I", 7)
    return body


def all_methods(methods):
    body = struct.pack(">I", methods)
    for number in range(1, methods + 1):
        body += struct.pack(">Q", number) + text("m%d" % number) + text("()V") + struct.pack(">I", 1)
    return body


def line_table(method):
    """Ten lines of code, from line 10 times the method's number on."""
    lines = b"".join(struct.pack(">QI", index, 10 * method + index) for index in range(10))
    return struct.pack(">QQI", 0, 9, 10) + lines


def tables(classes, methods, others):
    """What a target replies to questions: the same to each of a kind, or by the method."""
    fixed = {(1, 7): SIZES, (1, 3): all_classes(classes, others), (2, 5): all_methods(methods)}
    return fixed, [line_table(method) for method in range(methods + 1)]


def answer(numbers, body, fixed, lines):
    """What the target replies to a command, but for the ids of event requests: a body."""
    if numbers in fixed:
        return fixed[numbers]
    if numbers == (2, 7):
        return text(path_of(struct.unpack(">Q", body)[0])[1] + ".java")
    if numbers == (6, 1):
        return lines[struct.unpack(">QQ", body)[1]]
    return b""


def serve_target(stream, log, fixed, lines):
    """Answers each command until the link ends, and says then which commands came."""
    stream.setsockopt(socket.IPPROTO_TCP, socket.TCP_NODELAY, 1)
    commands = []
    try:
        stream.sendall(receive(stream, len(HANDSHAKE)))
        pending = b""
        for piece in pieces(stream):
            packets, pending = cut(pending + piece)
            replies = b""
            for packet in packets:
                number, _, *numbers = struct.unpack_from(">IBBB", packet, 4)
                commands.append((tuple(numbers), packet[11:]))
                if numbers == [15, 1]:
                    body = struct.pack(">I", number)
                else:
                    body = answer(tuple(numbers), packet[11:], fixed, lines)
                replies += struct.pack(">IIBH", 11 + len(body), number, 0x80, 0) + body
            if replies:
                stream.sendall(replies)
    except (EOFError, OSError):
        pass
    log.put(commands)


def target_of(stream, log, shape):
    told = (stream, log, *tables(*shape))
    target = multiprocessing.get_context("fork").Process(target=serve_target, args=told, daemon=True)
    target.start()
    stream.close()
    return target


def waves(commands):
    """The commands as they may go: questions together, and one that changes the target alone."""
    together = []
    for command in commands:
        if command[0] in EFFECTS:
            if together:
                yield together
            yield [command]
            together = []
        else:
            together.append(command)
    if together:
        yield together


def send_wave(stream, first, commands):
    """Sends commands with so many in flight, and waits for all replies."""
    sent = done = 0
    pending = b""
    while done < len(commands):
        while sent < len(commands) and sent - done < IN_FLIGHT:
            (group, command), body = commands[sent]
            stream.sendall(struct.pack(">IIBBB", 11 + len(body), first + sent, 0, group, command) + body)
            sent += 1
        packets, pending = next_packets(stream, pending)
        done += len(packets)


def plain_loop(commands, shape):
    """The seconds that the commands take without a bridge."""
    near, far = pair(free_port())
    target = target_of(far, multiprocessing.get_context("fork").Queue(), shape)
    near.sendall(HANDSHAKE)
    receive(near, len(HANDSHAKE))
    start = time.monotonic()
    number = 1
    for wave in waves(commands):
        send_wave(near, number, wave)
        number += len(wave)
    took = time.monotonic() - start
    near.close()
    target.terminate()
    return took


def list_of(number):
    """Four lines, each in another method."""
    package, name = path_of(number)
    lines = [{"line": 10 * method + 5} for method in range(1, LINES + 1)]
    return {"source": {"path": "/src/%s/%s.java" % (package, name)}, "breakpoints": lines}


def bridged(program, files, shape):
    """The seconds that the lists take, the processor time of the bridge for them, and the commands for them."""
    log = multiprocessing.get_context("fork").Queue()
    with Bridge(program) as bridge:
        target_of(bridge.target, log, shape)
        client = attached_client(bridge)
        before, start = processor_seconds(bridge.process.pid), time.monotonic()
        for number in range(1, files + 1):
            client.send(request(2 + number, "setBreakpoints", list_of(number)))
            told = json.loads(client.receive())["body"]["breakpoints"]
            has_to_be("what is verified", [one["verified"] for one in told], LINES * [True])
        took, spent = time.monotonic() - start, processor_seconds(bridge.process.pid) - before
        client.send(request(3 + files, "disconnect"))
        client.receive()
        has_to_be("the status", bridge.status(), 0)
    commands = log.get()
    return took, spent, [one for one in commands[3:] if one[0] != (1, 6)]


def main():
    program = program_of(sys.argv[1:])
    for *shape, files in CASES:
        plain, bridge = [], []
        for _ in range(RUNS):
            took, spent, commands = bridged(program, files, shape)
            bridge.append((took, spent))
            plain.append(plain_loop(commands, shape))
        took, spent = min(bridge)
        print("%4d classes of %3d methods, %4d others, %2d lists of %d lines, %5d commands: plain loop %7.3f s, "
              "bridge %7.3f s, which is %5.2f of it; its processor time %7.3f s, %5.1f us a command"
              % (*shape, files, LINES, len(commands), min(plain), took, took / min(plain), spent,
                 1e6 * spent / len(commands)), flush=True)


if __name__ == "__main__":
    plainly(main)
