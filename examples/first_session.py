#!/usr/bin/env python3
"""A first session, played by a script: `debug.py` starts a Java program with the bridge beside it, and a client does
what a person does in an editor.

It stops examples/shop/Orders.java at a line, looks at its frames and variables, changes one, steps, goes on to an
exception and into a function, pauses it, and lets it end. So each request that the bridge serves is asked at least
once. What is shown is printed. The status is 0 where each answer, and all that the Java program prints, is as is due.
Where there is no JDK, or none with an agent for JDWP, it says so in one line, and its status is 0.

usage: examples/first_session.py [PROGRAM | --unproved]

Without a word it takes the program of this repository, and builds it where it isn't built yet. With --unproved it takes
the bridge as it stands, with no proof of it, which is compiled the first time, in two to three minutes.
"""
import json
import os
import subprocess
import sys
from functools import partial

from building import PATIENCE, TOP, plainly, program_as_it_is, tried
from java_machine import lacking
from over_tcp import CAPABILITIES, Client, dial
from sessions import RUNS_ON, TERMINATED, Session, bound, has_to_be, hit, line_of, scope, stack, stopped, succeeded

SOURCE = "shop/Orders.java"
ORDER, FUNCTION, THROWN = "shop.Orders$Order", "shop.Orders.deliver", "java.lang.IllegalStateException"
# What the Java program prints. Without a debugger it is 22 that Ada wants things for, and the door stays open.
PRINTED = ["Ada wants things for 13", "Bob wants things for 8", "refused: Ada can't pay 22", "delivered to Bob",
           "closed after some naps", "1 delivered"]
ENDED = ["Java program: ended with status 0", "Session: ended 0 done"]


def played(port, arguments):
    """Plays the session, from the first request to the last."""
    session = Session(Client(dial(port)))
    asked(session, "initialize", {"adapterID": "bridge", "supportsVariableType": True}, CAPABILITIES)
    asked(session, "attach", arguments)
    has_to_be("the event behind it", session.event(), {"event": "initialized"})
    path = os.path.join(arguments["sourceRoots"][0], SOURCE)
    line = line_of(SOURCE, "total += cost")
    unbound = {"message": "not bound yet", "verified": False}
    lines(session, path, [line], {"breakpoints": [{"id": 1, "line": line, **unbound}]})
    functions(session, [FUNCTION], {"breakpoints": [{"id": 2, **unbound}]})
    asked(session, "configurationDone")
    main = at_a_line(session, line)
    steps(session, main)
    lines(session, path, [], {"breakpoints": []})
    to_an_exception(session, main)
    to_a_function(session, main)
    close_the_door(session, main)
    has_to_be("the event at the end", session.event(), TERMINATED)
    asked(session, "disconnect")
    session.client.close()


def at_a_line(session, line):
    """Stops at the line, looks around there, and changes a variable. Gives the number of the thread."""
    has_to_be("the class with the function", session.event(), verified(2))
    has_to_be("the class with the line", session.event(), bound(1, line))
    main = hit(session, [1])
    has_to_be("the name of the thread", session.names().get(main), "main")
    frames = at(session, main, ORDER + ".total", "total += cost")
    has_to_be("the frames", [frame["name"] for frame in frames],
              [ORDER + ".total", "shop.Orders.take", "shop.Orders.main"])
    locals_ = variables_of(session, frames[0], len(frames) + 1)
    has_to_be("two variables", [locals_[name]["value"] for name in ("total", "cost")], ["0", "10"])
    asked(session, "evaluate", {"expression": "line.thing", "frameId": frames[0]["id"]},
          {"result": '"apple"', "type": "java.lang.String", "variablesReference": 0})
    asked(session, "setVariable", {"variablesReference": len(frames) + 1, "name": "cost", "value": "1"},
          {"type": "int", "value": "1", "variablesReference": 0})
    return main


def steps(session, main):
    """Steps over two lines, into a call, and out of it."""
    for command, name, text in (
        ("next", "total", "for (Line line"),
        ("next", "total", "int cost = line.cost()"),
        ("stepIn", "cost", "return price * pieces"),
        ("stepOut", "total", "int cost = line.cost()"),
    ):
        asked(session, command, {"threadId": main})
        has_to_be("the event behind %s" % command, session.event(), stopped(main, reason="step"))
        at(session, main, ("shop.Orders$Line." if name == "cost" else ORDER + ".") + name, text)


def to_an_exception(session, main):
    """Goes on to an exception that is caught."""
    asked(session, "setExceptionBreakpoints", {"filters": ["caught"]})
    go_on(session, main)
    has_to_be("the thread", hit(session, None, reason="exception", text=THROWN), main)
    asked(session, "exceptionInfo", {"threadId": main}, {"breakMode": "always", "exceptionId": THROWN})
    at(session, main, ORDER + ".pay", "throw new IllegalStateException")
    asked(session, "setExceptionBreakpoints", {"filters": []})


def to_a_function(session, main):
    """Goes on into a function."""
    go_on(session, main)
    has_to_be("the thread", hit(session, [2], reason="function breakpoint"), main)
    frames = at(session, main, FUNCTION, "delivered++")
    asked(session, "evaluate", {"expression": "order.customer", "frameId": frames[0]["id"]},
          {"result": '"Bob"', "type": "java.lang.String", "variablesReference": 0})
    functions(session, [], {"breakpoints": []})


def close_the_door(session, main):
    """Lets the program run, pauses it where it waits, and changes the field that it waits for."""
    go_on(session, main)
    wait_for_naps(session, main)
    frames = stack(session, main)[0]
    waits = next(frame for frame in frames if frame["name"] == "shop.Orders.waitForTheDoor")
    said = asked(session, "scopes", {"frameId": waits["id"]})
    shop = variables_of(session, waits, said["scopes"][0]["variablesReference"])["this"]["variablesReference"]
    print("paused in %s" % waits["name"], flush=True)
    asked(session, "setVariable", {"variablesReference": shop, "name": "isOpen", "value": "false"},
          {"type": "boolean", "value": "false", "variablesReference": 0})
    go_on(session, main)


def wait_for_naps(session, main):
    """Pauses the program until it naps, not for the first time."""
    while True:
        asked(session, "pause", {"threadId": main})
        has_to_be("the event behind it", session.event(), stopped(main))
        frames = stack(session, main)[0]
        for frame in frames:
            if frame["name"] == "shop.Orders.waitForTheDoor":
                naps = session.ask("evaluate", {"expression": "naps", "frameId": frame["id"]})
                if naps["success"] and naps["body"]["result"] != "0":
                    return
        go_on(session, main)


def asked(session, command, arguments=None, body=None):
    """Asks for something, which has to succeed, with this body where one is due. Gives the body."""
    said = session.ask(command, arguments)
    has_to_be("whether %s succeeds" % command, said["success"], True)
    if body is not None:
        has_to_be(command, said, succeeded(body))
    if command == "setVariable":
        print("%s is %s now" % (arguments["name"], said["body"]["value"]), flush=True)
    elif command == "evaluate":
        print("%s is %s" % (arguments["expression"], said["body"]["result"]), flush=True)
    return said.get("body")


def lines(session, path, numbers, body):
    asked(session, "setBreakpoints",
          {"source": {"path": path}, "breakpoints": [{"line": number} for number in numbers]}, body)


def functions(session, names, body):
    asked(session, "setFunctionBreakpoints", {"breakpoints": [{"name": name} for name in names]}, body)


def verified(number):
    """The event of a breakpoint of a function that is bound now (DAP specification, Events, Breakpoint)."""
    return {"event": "breakpoint", "body": {"reason": "changed", "breakpoint": {"id": number, "verified": True}}}


def at(session, main, name, text):
    """The frames of a thread whose upper one stands in this method, at the line of this text."""
    frames = stack(session, main)[0]
    has_to_be("where it stands", (frames[0]["name"], frames[0]["line"]), (name, line_of(SOURCE, text)))
    print("stopped in %s, line %d" % (name, frames[0]["line"]), flush=True)
    return frames


def variables_of(session, frame, number):
    """The variables of a frame by their names, whose scope gets this number."""
    asked(session, "scopes", {"frameId": frame["id"]}, scope(number))
    shown = asked(session, "variables", {"variablesReference": number})["variables"]
    print("variables: %s" % ", ".join("%s = %s" % (each["name"], each["value"]) for each in shown), flush=True)
    return {each["name"]: each for each in shown}


def go_on(session, main):
    has_to_be("continue", session.ask("continue", {"threadId": main}), RUNS_ON)


def started(program):
    """`debug.py` with the Java program, the port for an editor, and the arguments of its `attach`."""
    words = [os.path.join(TOP, "examples", "debug.py"), "--suspend", "--program", program]
    debug = subprocess.Popen([sys.executable, *words, os.path.join(TOP, "examples", SOURCE)], stdout=subprocess.PIPE,
                             encoding="utf-8")
    for said in debug.stdout:
        if said.startswith("Editor:"):
            port = int(said.split(" port ")[1].split(",")[0])
            return debug, port, json.loads(debug.stdout.readline())
    raise EOFError("debug.py ended with status %d" % debug.wait())


def is_kept(program):
    """Whether the session goes as is due, and the Java program prints what is due."""
    debug, port, arguments = started(program)
    try:
        played(port, arguments)
        said, _ = debug.communicate(timeout=PATIENCE)
        rows = said.splitlines()
        has_to_be("what the Java program prints", rows[:-2], PRINTED)
        has_to_be("how both ended", sorted(rows[-2:]), ENDED)
        has_to_be("the status", debug.returncode, 0)
        return True
    finally:
        debug.terminate()
        debug.wait(PATIENCE)


def main():
    why = lacking("java", "javac")
    if why:
        print("first session skipped: %s" % why)
        return 0
    return tried([("first_session", partial(is_kept, program_as_it_is(sys.argv[1:])))])


if __name__ == "__main__":
    plainly(main)
