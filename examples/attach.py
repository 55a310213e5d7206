#!/usr/bin/env python3
"""Attaches the program to a Java machine, asks for its threads and leaves it, and prints what goes over both wires.

The Java program that it compiles and runs, Workers.java, has threads with names. They are asked for twice: by `jdb`,
which attaches first and quits, and by a client of the program. The status of the script is 0 where both show the same
names, the program's status is 0, and the Java program ran on to its end. Where no JDK is there it says `skipped`.

usage: examples/attach.py [PROGRAM]
"""
import json
import re
import socket
import subprocess
import sys
import tempfile
import threading

from building import PATIENCE, TOP, plainly, program_of
from java_machine import DOWN, THREADS, JavaProgram, compiled, lacking, tool
from over_tcp import Program, dial, pieces, request

# A line of jdb's `threads`: `(CLASS)ID NAME STATE`, NAME padded with blanks.
STATES = "unknown|not started|running|sleeping|waiting in a monitor|cond. waiting|zombie"
THREAD = re.compile(r"\s*\([^)]*\)(?:0x)?[0-9a-f]+\s+(.*?)\s+(?:%s)(?: \(at breakpoint\))?\s*$" % STATES)


class Tap:
    """A listener that hands what it hears on to a Java machine and back, and prints it."""

    def __init__(self, port):
        self.listener = socket.create_server(("127.0.0.1", 0))
        self.port = self.listener.getsockname()[1]
        self.java = port
        self.worker = threading.Thread(target=self.run, daemon=True)
        self.worker.start()

    def run(self):
        bridge, _ = self.listener.accept()
        java = dial(self.java)
        back = threading.Thread(target=self.pass_on, args=("target <", java, bridge), daemon=True)
        back.start()
        self.pass_on("target >", bridge, java)
        back.join()

    def pass_on(self, mark, source, sink):
        for piece in pieces(source):
            print(mark, piece.decode() if piece == b"JDWP-Handshake" else piece.hex())
            sink.sendall(piece)
        try:
            sink.shutdown(socket.SHUT_WR)
        except OSError:
            pass


def threads_of_jdb(port):
    """The names that jdb shows. It attaches and leaves, and the Java machine listens again."""
    words = [tool("jdb"), "-J-Dfile.encoding=UTF-8", "-J-Dstdout.encoding=UTF-8"]
    words += ["-connect", "com.sun.jdi.SocketAttach:hostname=127.0.0.1,port=%d" % port]
    jdb = subprocess.Popen(words, stdin=subprocess.PIPE, stdout=subprocess.PIPE, encoding="utf-8")
    while jdb.stdout.read(1) not in (">", ""):
        pass
    said, _ = jdb.communicate("threads\nquit\n", PATIENCE)
    found = (THREAD.match(line.lstrip("> ")) for line in said.splitlines())
    return [match[1] for match in found if match]


def threads_of_bridge(program, port):
    """The names that the program shows, and its status."""
    tap = Tap(port)
    with Program(program, tap.port) as bridge:
        names = asked(bridge.client())
        status = bridge.status()
    tap.worker.join(PATIENCE)
    return names, status


def asked(client):
    """Asks all four requests, each once the one before was answered, and gives the names of the threads."""
    names = []
    bodies = [
        request(1, "initialize", {"adapterID": "jdwp"}),
        request(2, "attach", {"sourceRoots": [TOP]}),
        request(3, "threads"),
        request(4, "disconnect"),
    ]
    for body in bodies:
        print("client >", body.decode())
        client.send(body)
        for message in messages_to_response(client):
            names += [thread["name"] for thread in message.get("body", {}).get("threads", [])]
    return names


def messages_to_response(client):
    """The messages that come up to a response, and with `attach` the event that follows it."""
    messages = []
    while not messages or messages[-1]["type"] != "response":
        messages.append(received(client))
    if messages[-1]["command"] == "attach" and messages[-1]["success"]:
        messages.append(received(client))
    return messages


def received(client):
    body = client.receive()
    print("client <", body.decode())
    return json.loads(body)


def main():
    why = lacking("java", "javac", "jdb")
    if why:
        print("skipped: %s" % why)
        return 0
    program = program_of(sys.argv[1:])
    with tempfile.TemporaryDirectory() as folder, JavaProgram(compiled(folder)) as java:
        java.wait_until_up()
        shown = threads_of_jdb(java.port)
        names, status = threads_of_bridge(program, java.port)
        java.go_on()
        ran_on = java.end() == (DOWN, 0)
    print("threads by jdb:", shown)
    print("threads by the program:", names)
    print("status", status)
    print("the Java program", "ran on to its end" if ran_on else "did NOT end by itself")
    same = sorted(names) == sorted(shown) and set(THREADS) <= set(names)
    print("attach", "kept" if same and status == 0 and ran_on else "BROKEN")
    return 0 if same and status == 0 and ran_on else 1


if __name__ == "__main__":
    plainly(main)
