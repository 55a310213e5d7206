"""The cases of examples/java_stops.py in which the client steps, stops at exceptions, and stops in functions."""
import os

from java_machine import EXAMPLES
from sessions import begin, ended, failed, go_on, has_to_be, hit, line_of, stack, stopped, succeeded

STEPS, THROWING, NAMED = "stops/Steps.java", "stops/Throwing.java", "stops/Named.java"


def steps_over_into_and_out(java, bridge, session):
    number = at_lines(java, session, "first = twice")
    for command, text in (
        ("next", "second = twice"),
        ("stepIn", "sum = number"),
        ("next", "return sum"),
        ("stepOut", "second = twice"),
        ("next", "third = twice"),
    ):
        step(session, command, number)
        has_to_be("the event behind %s" % command, session.event(), stopped(number, reason="step"))
        stands_at(session, number, text)
    goes_to_its_end(java, bridge, session, number)


def a_step_to_a_breakpoint(java, bridge, session):
    number = at_lines(java, session, "first = twice", "second = twice")
    step(session, "next", number)
    has_to_be("the thread", hit(session, [2]), number)
    stands_at(session, number, "second = twice")
    goes_to_its_end(java, bridge, session, number)


def a_breakpoint_within_a_step(java, bridge, session):
    number = at_lines(java, session, "first = twice", "return sum")
    step(session, "next", number)
    has_to_be("the thread", hit(session, [2]), number)
    stands_at(session, number, "return sum")
    for _ in range(2):
        # The step was over where its thread came to the breakpoint, so nothing stops but the breakpoint.
        go_on(session, number)
        has_to_be("the thread", hit(session, [2]), number)
    goes_to_its_end(java, bridge, session, number)


def a_step_refused(java, bridge, session):
    begin(session, "stops/Between.java", [line_of("stops/Between.java", "behind")])
    for command in ("next", "stepIn", "stepOut", "exceptionInfo"):
        has_to_be(command + ", no stop", session.ask(command, {"threadId": 1}), failed(4, "notStopped"))
    java.go_on()
    number = hit(session, [1])
    gone = [other for reason, other in session.threads if reason == "exited"][-1]
    for command in ("next", "stepIn", "stepOut"):
        said = session.ask(command, {"threadId": gone})
        has_to_be(command + " of a thread that has ended", said, failed(8, "unknownThread"))
    has_to_be("what it threw", session.ask("exceptionInfo", {"threadId": number}), failed(8, "unknownThread"))
    has_to_be("events behind", session.waiting, [])
    has_to_be("what is printed in the stop", java.heard(0.3), b"before\n")
    # The stop goes on, and a step of its thread can begin.
    step(session, "next", number)
    has_to_be("the event behind it", session.event(), stopped(number, reason="step"))
    go_on(session, number)
    has_to_be("what is printed", ended(java, bridge, session), b"behind\n")


def exceptions_by_filters(java, bridge, session):
    begin(session)
    stops_at(session, "uncaught", "caught")
    java.go_on()
    main = thrown(session, "java.lang.IllegalStateException", "always", "throw new IllegalStateException")
    stops_at(session, "uncaught")
    go_on(session, main)
    thrower = thrown(session, "stops.Throwing$Trouble", "unhandled", "throw new Trouble")
    has_to_be("the name of its thread", session.names().get(thrower), "thrower")
    has_to_be("what another threw", session.ask("exceptionInfo", {"threadId": main}), failed(8, "unknownThread"))
    go_on(session, thrower)
    has_to_be("what is printed", ended(java, bridge, session), b"rescued\nrescued\n")


def a_step_to_an_exception(java, bridge, session):
    line = line_of(THROWING, "// caught")
    begin(session, THROWING, [line])
    stops_at(session, "caught")
    java.go_on()
    number = hit(session, [1])
    step(session, "stepOut", number)
    has_to_be("the thread", thrown(session, "java.lang.IllegalStateException", "always", "// caught"), number)
    stops_at(session)
    without_breakpoints(session, THROWING)
    go_on(session, number)
    has_to_be("what is printed", ended(java, bridge, session), b"rescued\nrescued\n")


def functions_by_name(java, bridge, session):
    begin(session)
    verified = {"verified": True}
    waits = {"message": "not bound yet", "verified": False}
    listed(session, [("stops.Named.speak", verified), ("stops.Named$Guest.speak", waits), ("speak", waits)])
    java.go_on()
    printed = b""
    for text, more in (("println(number)", b"1\n"), ("println(text)", b"host\n")):
        number = in_function(session, [1], "stops.Named.speak", text)
        has_to_be("what is printed before", java.heard(0.3), printed)
        printed = more
        go_on(session, number)
    changed = {"reason": "changed", "breakpoint": {"id": 2, "verified": True}}
    has_to_be("the event of the class", session.event(), {"event": "breakpoint", "body": changed})
    number = in_function(session, [2], "stops.Named$Guest.speak", '"guest"')
    has_to_be("what is printed before", java.heard(0.3), printed)
    go_on(session, number)
    has_to_be("what is printed behind", ended(java, bridge, session), b"guest\n")


def at_lines(java, session, *texts):
    """The number of the thread that stops at the first of these lines, where breakpoints are."""
    begin(session, STEPS, [line_of(STEPS, text) for text in texts])
    java.go_on()
    return hit(session, [1])


def step(session, command, number):
    """Steps, and nothing is told before the response (DAP specification, Next, StepIn and StepOut requests)."""
    has_to_be(command, session.ask(command, {"threadId": number}), succeeded())
    has_to_be("events before its response", session.waiting, [])


def stands_at(session, number, text, source=STEPS):
    """The top frame of the thread stands at the line of this text."""
    (top,), _ = stack(session, number, levels=1)
    has_to_be("the line", top["line"], line_of(source, text))
    return top


def goes_to_its_end(java, bridge, session, number):
    """No breakpoint is left, and the program that steps ends."""
    without_breakpoints(session, STEPS)
    go_on(session, number)
    has_to_be("what is printed", ended(java, bridge, session), b"8\n")


def without_breakpoints(session, source):
    """Takes all breakpoints of a source away. Nothing was told in the stop meanwhile."""
    said = session.ask("setBreakpoints", {"source": {"path": os.path.join(EXAMPLES, source)}, "breakpoints": []})
    has_to_be("setBreakpoints", said, succeeded({"breakpoints": []}))
    has_to_be("events in the stop", session.waiting, [])


def stops_at(session, *filters):
    """Exceptions stop by these filters (DAP specification, SetExceptionBreakpoints request)."""
    said = session.ask("setExceptionBreakpoints", {"filters": list(filters)})
    has_to_be("setExceptionBreakpoints", said, succeeded())


def thrown(session, name, mode, text):
    """The number of the thread that stopped at an exception of this type, which is thrown at the line of this text (DAP
    specification, Events, Stopped; ExceptionInfo request)."""
    number = hit(session, None, reason="exception", text=name)
    stands_at(session, number, text, THROWING)
    said = session.ask("exceptionInfo", {"threadId": number})
    has_to_be("exceptionInfo", said, succeeded({"breakMode": mode, "exceptionId": name}))
    return number


def listed(session, functions):
    """Functions to stop in, each with how its breakpoint stands, under the next ids from 1 (DAP specification,
    SetFunctionBreakpoints request)."""
    said = session.ask("setFunctionBreakpoints", {"breakpoints": [{"name": name} for name, _ in functions]})
    due = [{"id": number, **stands} for number, (_, stands) in enumerate(functions, 1)]
    has_to_be("setFunctionBreakpoints", said, succeeded({"breakpoints": due}))


def in_function(session, entries, name, text):
    """The number of the thread that stopped in a function of this name, at the line of this text."""
    number = hit(session, entries, reason="function breakpoint")
    has_to_be("the name of the frame", stands_at(session, number, text, NAMED)["name"], name)
    return number


# The cases, as in examples/java_stops.py.
STEP_CASES = (
    (steps_over_into_and_out, False, "stops.Steps"),
    (a_step_to_a_breakpoint, False, "stops.Steps"),
    (a_breakpoint_within_a_step, False, "stops.Steps"),
    (a_step_refused, False, "stops.Between"),
    (exceptions_by_filters, False, "stops.Throwing"),
    (a_step_to_an_exception, False, "stops.Throwing"),
    (functions_by_name, False, "stops.Named"),
)
