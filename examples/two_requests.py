#!/usr/bin/env python3
"""Builds the program, runs it between a client and a target on this machine, and prints what goes over the wires.

The client is this script; the target is a listener of this script that says nothing. The client asks for `initialize`
and `disconnect`. The status of the script is 0 where the answers and the program's status are those that are due.

usage: examples/two_requests.py [PROGRAM]
"""
import sys

from building import plainly, program_of
from over_tcp import INITIALIZED, DISCONNECTED, Bridge, request


def main():
    program = program_of(sys.argv[1:])
    with Bridge(program) as bridge:
        client = bridge.client()
        answers = []
        for body in (request(1, "initialize", {"adapterID": "jdwp"}), request(2, "disconnect")):
            print("client >", body.decode())
            client.send(body)
            answers.append(client.receive())
            print("client <", answers[-1].decode())
        status = bridge.status()
        heard = bridge.heard_by_target()
    print("to the target:", heard or "nothing")
    print("status", status)
    wrong = [what for what, is_right in (
        ("the answer to initialize", answers[0] == INITIALIZED),
        ("the answer to disconnect", answers[1] == DISCONNECTED),
        ("what the target was sent", heard == b""),
        ("the program's status", status == 0),
    ) if not is_right]
    if wrong:
        print("WRONG: %s" % ", ".join(wrong))
        return 1
    print("Right: both answers, byte for byte; nothing was sent to the target; the status is that of a session done.")
    print("Next: examples/debug.py MAIN.java starts a Java program with the bridge beside it, for an editor to attach.")
    return 0


if __name__ == "__main__":
    plainly(main)
