#!/usr/bin/env python3
"""The program over a Java machine: each case runs both, and a client that holds a session, and is kept or broken.

The client attaches, asks for `threads` twice and for one thing that isn't served, and disconnects. It sets no
breakpoint. Its answers, the program's line and status, and all that the Java program prints to its standard output are
compared, byte for byte; of the threads those of the Java program must be there, and be numbered 1, 2, 3 with the
others, both times alike.

- The client leaves by `disconnect`, and the Java program runs on to its end.
- It attaches after the Java machine dropped the program's link, on which nothing went for two seconds.
- It leaves with `terminateDebuggee`, and the Java program ends there.
- A thread starts and ends while it is attached, and both are told.

Where there is no JDK, or none with an agent for JDWP, it says so in one line, and its status is 0.

usage: examples/java_session.py [PROGRAM]
"""
import json
import sys
import tempfile
import time
from functools import partial

from building import plainly, program_of, tried
from java_machine import DOWN, THREADS, compiled, lacking, over_java
from many_threads import ATTACH
from over_tcp import INITIALIZED, event, request, response, thread_event, unsupported
from sessions import has_to_be, says

# Longer than a Java machine waits for the handshake, in seconds.
LATE = 2.5
TOLD = [INITIALIZED, response(2, 2, "attach"), event(3, "initialized"), unsupported(6, 5, "launch"),
        response(7, 6, "disconnect")]


def runs_on_behind_disconnect(java, bridge):
    session(bridge)
    runs_on(java)


def attached_late(java, bridge):
    session(bridge, late=LATE)
    runs_on(java)


def terminated_by_disconnect(java, bridge):
    session(bridge, leaving={"terminateDebuggee": True})
    has_to_be("the Java program", java.end(), (b"", 0))


def a_thread_is_told(java, bridge):
    """A thread that starts and ends during a session is told, under the next number."""
    client = bridge.client()
    asked(client, request(1, "initialize", {"adapterID": "jdwp"}))
    asked(client, request(2, "attach", ATTACH), 2)
    threads = threads_in(4, 3, *asked(client, request(3, "threads")))
    java.run_thread()
    told = [client.receive() for _ in range(2)]
    number = len(threads) + 1
    told += asked(client, request(4, "disconnect"))
    client.close()
    due = [thread_event(5, "started", number), thread_event(6, "exited", number), response(7, 4, "disconnect")]
    has_to_be("the messages", told, due)
    runs_on(java)


def runs_on(java):
    """The Java program runs on from where it waits to its end."""
    java.go_on()
    has_to_be("the Java program", java.end(), (DOWN, 0))


def session(bridge, late=0, leaving=None):
    """A client holds a session as is due, and the program ends with it."""
    client = bridge.client()
    told = asked(client, request(1, "initialize", {"adapterID": "jdwp"}))
    time.sleep(late)
    told += asked(client, request(2, "attach", ATTACH), 2)
    first = threads_in(4, 3, *asked(client, request(3, "threads")))
    again = threads_in(5, 4, *asked(client, request(4, "threads")))
    told += asked(client, request(5, "launch"))
    told += asked(client, request(6, "disconnect", leaving))
    behind = client.rest + client.stream.recv(1)
    client.close()
    says(bridge, b"ended 0 done\n", 0)
    has_to_be("the messages", told, TOLD)
    has_to_be("the numbers", list(first), list(range(1, len(first) + 1)))
    has_to_be("the names", sorted(name for name in first.values() if name in THREADS), sorted(THREADS))
    has_to_be("the threads of the second time", again, first)
    has_to_be("what comes behind them", behind, b"")


def asked(client, body, count=1):
    """Sends a request, and gives so many messages that answer it."""
    client.send(body)
    return [client.receive() for _ in range(count)]


def threads_in(seq, request_seq, body):
    """The names of the threads by their numbers, as a response lists them, byte for byte."""
    listed = json.loads(body).get("body", {}).get("threads", [])
    threads = {thread["id"]: thread["name"] for thread in listed}
    due = [{"id": number, "name": name} for number, name in threads.items()]
    has_to_be("the list", body, response(seq, request_seq, "threads", {"threads": due}))
    return threads


CASES = (runs_on_behind_disconnect, attached_late, terminated_by_disconnect, a_thread_is_told)


def main():
    why = lacking("java", "javac")
    if why:
        print("java session skipped: %s" % why)
        return 0
    program = program_of(sys.argv[1:])
    with tempfile.TemporaryDirectory() as folder:
        run = partial(over_java, program, compiled(folder))
        return tried((case.__name__, partial(run, case)) for case in CASES)


if __name__ == "__main__":
    plainly(main)
