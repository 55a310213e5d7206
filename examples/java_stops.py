#!/usr/bin/env python3
"""The program over a Java machine that stops: each case runs both, and a client that holds a session, and is kept or
broken.

Each message to the client is compared, byte for byte but for numbers of threads, and so are the program's line and
status, the Java program's status, and all that it prints to its standard output. Where no line says another thing, it
runs to its end, which is told, and the client disconnects.

- A class is loaded two seconds after a breakpoint was set in it: it stops there before that line prints.
- The Java program waits for its debugger, and is let go by `configurationDone`.
- A class is loaded by one loader after the other: each copy stops, also where a pause comes between.
- Two threads come to a breakpoint at once, again and again: each hit is told once, in one stop or in two.
- The same with a pause behind each hit, in whose stop the next hit may be told.
- A thread starts and ends between two stops: both are told before the second.
- `stackTrace` shows in each of two stops what the Java program prints there of its frames and of those of a thread that
  waits; a window of them too; all under their numbers.
- `scopes` and `variables` show in each of two stops what the Java program prints there of the variables of three
  frames, and of all that they hold, under their numbers and types; and windows of an array of 25,000 elements.
- A number of a stop that is over is refused as such, one that was never told, and one of the wrong kind. No types are
  shown to a client that doesn't ask for them.
- `pause` holds a program that counts, and a second one changes nothing.
- `continue` and `stackTrace` without a stop are refused, and so are all three for a thread that was never told.
- The client disconnects in a stop, or goes away: the Java program runs on. It is killed in a stop: that is told.
- `next` goes over a call, `stepIn` into it and `stepOut` out of it. A step that comes to a breakpoint is told as its
  hit, once, and a breakpoint inside a call ends the step over it. A step of a thread that has ended is refused.
- An exception that is caught and one that nothing catches are told where they are thrown, with their types, by the
  filters that are set then.
- A breakpoint of a function stops in each method of that name, and in a class that is loaded later.
- `evaluate` gives the values of variables, of fields through the classes above, and of elements and lengths. It refuses
  what isn't there, as a variable out of its scope or a field of a string.
- `setVariable` writes variables, fields and elements: `variables` shows what was written, and the Java program prints
  it. What can't be written is refused, and nothing changes.
- 1,000 hits, each continued, are told one by one, as many as a debugger by the Java Debug Interface counts.

Where there is no JDK, or none with an agent for JDWP, it says so in one line, and its status is 0.

usage: examples/java_stops.py [PROGRAM]
"""
import glob
import os
import sys
import tempfile
from functools import partial

from building import plainly, program_of, tried
from java_machine import DEBUGGER, EXAMPLES, JavaProgram, compiled, hits_by_jdi, lacking, over_java
from sessions import RUNS_ON, STALE, TERMINATED, UNKNOWN, WRONG, Session, ask_of, begin, bound, children, ended, failed
from sessions import go_on, has_to_be, hit, leaves, left, line_of, says, scope, stack, stopped, succeeded
from step_cases import STEP_CASES
from value_cases import VALUE_CASES

COPIES = 6
ROUNDS = 20
STOPS = 2
HITS = 1000
# A number that no thread, frame or thing gets.
NOBODY = 2147483647
# How many elements an array has, and windows of it, each with those that it shows: at most 10,000.
ELEMENTS = 25000
WINDOWS = (
    ({}, range(10000)),
    ({"filter": "indexed", "start": 5, "count": 20000}, range(5, 10005)),
    ({"start": 3, "count": 2}, range(3, 5)),
    ({"start": 24998, "count": 100}, range(24998, ELEMENTS)),
    ({"start": ELEMENTS}, range(0)),
    ({"filter": "named"}, range(0)),
)
SOURCES = [*glob.glob(os.path.join(EXAMPLES, "stops", "*.java")), os.path.join(EXAMPLES, "Ticks.java"), DEBUGGER]


def a_class_loaded_late(java, bridge, session):
    line = line_of("stops/Late.java", "first line")
    begin(session, "stops/Late.java", [line], is_loaded=False)
    java.go_on()
    has_to_be("the event of the class", session.event(), bound(1, line))
    number = hit(session, [1])
    has_to_be("the thread", session.names().get(number), "main")
    has_to_be("what is printed before the line", java.heard(0.3), b"soon\n")
    go_on(session, number)
    has_to_be("what is printed behind it", ended(java, bridge, session), b"first line\nsecond line\n")


def started_suspended(java, bridge, session):
    line = line_of("Ticks.java", "println")
    begin(session, "Ticks.java", [line], is_loaded=False)
    has_to_be("the event of the class", session.event(), bound(1, line))
    for before in (b"", b"second 1\n"):
        number = hit(session, [1])
        has_to_be("the thread", session.names().get(number), "main")
        has_to_be("what is printed before the line", java.heard(0.3), before)
        go_on(session, number)
    has_to_be("what is printed behind it", ended(java, bridge, session), b"second 2\n")


def a_class_of_many_loaders(java, bridge, session):
    line = line_of("stops/Copies.java", '"a copy"')
    begin(session, "stops/Copies.java", [line], is_loaded=False)
    java.go_on()
    has_to_be("the event of the first copy", session.event(), bound(1, line))
    printed = b""
    for copy in range(COPIES):
        number = hit(session, [1])
        printed += java.heard(0.1)
        has_to_be("what is printed before the line", printed, copy * b"a copy\n")
        if copy % 2 == 0:
            has_to_be("hits in the stop", pause_behind_continue(session, number), [])
            printed += stands_still(java)
        go_on(session, number)
        has_to_be("events in the stop", session.waiting, [])
    has_to_be("what is printed", printed + ended(java, bridge, session), COPIES * b"a copy\n")


def two_threads_at_once(java, bridge, session):
    begin(session, "stops/Pair.java", [line_of("stops/Pair.java", "println(getName()")])
    java.go_on()
    numbers, stops, printed = [], 0, b""
    while len(numbers) < 2 * ROUNDS:
        before = len(numbers)
        numbers.append(hit(session, [1]))
        if stops % 2 == 0:
            # What comes in a stop is told in it. No thread runs on by itself.
            printed += java.heard(0.05)
            has_to_be("as many lines as were let go, or fewer", printed.count(b"\n") <= before, True)
        go_on(session, numbers[-1])
        numbers += [hit(session, [1]) for _ in range(len(session.waiting))]
        stops += 1
    both_were_there(numbers, printed + ended(java, bridge, session))


def pause_among_hits(java, bridge, session):
    begin(session, "stops/Pair.java", [line_of("stops/Pair.java", "println(getName()")])
    java.go_on()
    numbers, within, printed = [], 0, b""
    while len(numbers) < 2 * ROUNDS:
        numbers.append(hit(session, [1]))
        if len(numbers) < ROUNDS:
            told = pause_behind_continue(session, numbers[-1])
            numbers += told
            within += len(told)
            printed += java.heard(0.02)
            has_to_be("as many lines as were let go, or fewer", printed.count(b"\n") <= len(numbers), True)
        go_on(session, numbers[-1])
        told = [hit(session, [1]) for _ in range(len(session.waiting))]
        numbers += told
        within += len(told)
    print("%d of %d hits were told in a stop that was there" % (within, len(numbers)))
    both_were_there(numbers, printed + ended(java, bridge, session))


def a_thread_between_stops(java, bridge, session):
    number = first_stop_of_two(java, session)
    known = max([*session.names(), *(other for _, other in session.threads)])
    go_on(session, number)
    has_to_be("the thread of the second stop", hit(session, [2]), number)
    new = [told for told in session.threads if told[1] > known]
    has_to_be("what is told of new threads", new, [("started", known + 1), ("exited", known + 1)])
    has_to_be("what is printed before the line", java.heard(0.3), b"before\n")
    go_on(session, number)
    has_to_be("what is printed behind it", ended(java, bridge, session), b"behind\n")


def frames_as_java_prints_them(java, bridge, session):
    line = line_of("stops/Frames.java", "new Throwable()")
    begin(session, "stops/Frames.java", [line], is_loaded=False)
    java.go_on()
    has_to_be("the event of the class", session.event(), bound(1, line))
    shown = []
    for _ in range(STOPS):
        number = hit(session, [1])
        # The top frame is shown before the others, so it gets the first of their numbers, as among all.
        top, total = stack(session, number, levels=1)
        frames = stack(session, number)[0]
        has_to_be("their number, and the top one", (total, top), (len(frames), frames[:1]))
        has_to_be("the last one", stack(session, number, startFrame=total - 1), (frames[-1:], total))
        has_to_be("those behind it", stack(session, number, startFrame=total), ([], total))
        has_to_be("all once more", stack(session, number), (frames, total))
        shown += frames + stack(session, session.number_of("main"))[0]
        go_on(session, number)
    printed = ended(java, bridge, session).decode().splitlines()
    has_to_be("the frames", shown, [frame(*numbered) for numbered in enumerate(printed, 1)])


def variables_as_java_prints_them(java, bridge, session):
    line = line_of("stops/Variables.java", "onSpinWait()")
    begin(session, "stops/Variables.java", [line], is_loaded=False, supportsVariableType=True)
    java.go_on()
    has_to_be("the event of the class", session.event(), bound(1, line))
    told = 0
    for _ in range(STOPS):
        number = hit(session, [1])
        frames, waiting = stack(session, number)[0], stack(session, session.number_of("main"))[0]
        told += len(frames) + len(waiting)
        for place, shown in enumerate((frames[0], waiting[0], waiting[-1]), 1):
            has_to_be("scopes", ask_of(session, "scopes", shown["id"]), succeeded(scope(told + place)))
        last = as_printed(java, session, told)
        windows_of(session, told + 3)
        told = last
        go_on(session, number)
    has_to_be("what is printed behind it", ended(java, bridge, session), b"")


def numbers_die_with_their_stop(java, bridge, session):
    number = first_stop_of_two(java, session)
    are_refused(session, {("scopes", 1): UNKNOWN + (1,), ("variables", 1): UNKNOWN + (1,)})
    has_to_be("frames", [shown["id"] for shown in stack(session, number)[0]], [1])
    has_to_be("scopes", ask_of(session, "scopes", 1), succeeded(scope(2)))
    words = {"indexedVariables": 0, "name": "words", "value": "java.lang.String[0]"}
    has_to_be("variables", children(session, 2), [{**words, "variablesReference": 3}])
    has_to_be("those of an array without elements", children(session, 3), [])
    are_refused(session, {("scopes", 2): WRONG, ("variables", 1): WRONG, ("scopes", 4): UNKNOWN + (4,)})
    old = ("scopes", {"frameId": 1}), ("variables", {"variablesReference": 3})
    said = session.ask_all([("continue", {"threadId": number}), *old])
    has_to_be("what is said behind a continue", said, [RUNS_ON, failed(*STALE, 1), failed(*STALE, 1)])
    has_to_be("the thread of the second stop", hit(session, [2]), number)
    are_refused(session, {("scopes", 1): STALE + (1,), ("variables", 2): STALE + (1,)})
    are_refused(session, {("scopes", 4): UNKNOWN + (4,)})
    has_to_be("frames", [shown["id"] for shown in stack(session, number)[0]], [4])
    has_to_be("scopes", ask_of(session, "scopes", 4), succeeded(scope(5)))
    first, more = children(session, 5)
    has_to_be("variables", first, {**words, "variablesReference": 6})
    has_to_be("the thread", (more["name"], more["variablesReference"]), ("more", 7))
    are_refused(session, {("scopes", 5): WRONG, ("variables", 4): WRONG, ("variables", NOBODY): UNKNOWN + (8,)})
    go_on(session, number)
    has_to_be("what is printed", ended(java, bridge, session), b"before\nbehind\n")


def pause_of_a_running_program(java, bridge, session):
    begin(session)
    number = session.number_of("main")
    printed = java.heard(0.2)
    has_to_be("pause", session.ask("pause", {"threadId": number}), succeeded())
    has_to_be("events before its response", session.waiting, [])
    has_to_be("the event behind it", session.event(), stopped(number))
    printed += stands_still(java)
    has_to_be("a second pause", session.ask("pause", {"threadId": number}), succeeded())
    has_to_be("the thread", session.names().get(number), "main")
    has_to_be("events behind the second pause", session.waiting, [])
    has_to_be("what is printed in the stop", stands_still(java), b"")
    go_on(session, number)
    counts_on(java, bridge, session, printed)


def refused_without_stop_or_thread(java, bridge, session):
    begin(session)
    number = session.number_of("main")
    for known in (number, NOBODY):
        for command in ("continue", "stackTrace"):
            has_to_be(command + ", no stop", session.ask(command, {"threadId": known}), failed(4, "notStopped"))
    has_to_be("pause, no thread", session.ask("pause", {"threadId": NOBODY}), failed(8, "unknownThread"))
    printed = java.heard(0.2)
    has_to_be("pause", session.ask("pause", {"threadId": number}), succeeded())
    has_to_be("the event behind it", session.event(), stopped(number))
    for command in ("continue", "pause", "stackTrace"):
        has_to_be(command + ", no thread", session.ask(command, {"threadId": NOBODY}), failed(8, "unknownThread"))
    printed += stands_still(java)
    go_on(session, number)
    for command in ("continue", "stackTrace"):
        has_to_be(command + ", no stop any more", session.ask(command, {"threadId": number}), failed(4, "notStopped"))
    counts_on(java, bridge, session, printed)


def a_thousand_hits(java, bridge, session):
    line = line_of("stops/Rounds.java", "sum +=")
    begin(session, "stops/Rounds.java", [line], is_loaded=False)
    has_to_be("the event of the class", session.event(), bound(1, line))
    number = hit(session, [1])
    hits = 1
    go_on(session, number)
    for event in iter(session.event, TERMINATED):
        has_to_be("the stop behind %d others" % hits, event, stopped(number, [1]))
        hits += 1
        go_on(session, number)
    has_to_be("what is printed at the end", left(java, bridge, session), b"sum 500500\n")
    has_to_be("the hits", hits, HITS)
    with JavaProgram(java.classes, "stops.Rounds", [str(HITS)], suspend=True) as other:
        has_to_be("the hits by the Java Debug Interface", hits_by_jdi(other, "stops.Rounds", line)[0], HITS)


def left_in_a_stop(java, bridge, session):
    first_stop_of_two(java, session)
    has_to_be("what is printed", left(java, bridge, session), b"before\nbehind\n")


def client_gone_in_a_stop(java, bridge, session):
    first_stop_of_two(java, session)
    session.client.close()
    says(bridge, b"ended 1 left\n", 1)
    has_to_be("the Java program", java.end(), (b"before\nbehind\n", 0))


def killed_in_a_stop(java, bridge, session):
    number = first_stop_of_two(java, session)
    java.process.kill()
    has_to_be("the event behind it", session.event(), TERMINATED)
    for command in ("continue", "pause", "stackTrace"):
        has_to_be(command + ", no target", session.ask(command, {"threadId": number}), failed(10, "targetGone"))
    are_refused(session, {("scopes", 1): (10, "targetGone"), ("variables", 1): (10, "targetGone")})
    leaves(bridge, session)


def first_stop_of_two(java, session):
    """The number of the thread that stops at the first of two breakpoints, before that line prints."""
    begin(session, "stops/Between.java", [line_of("stops/Between.java", text) for text in ("before", "behind")])
    java.go_on()
    number = hit(session, [1])
    has_to_be("what is printed before the line", java.heard(0.3), b"")
    return number


def both_were_there(numbers, printed):
    """Each of two threads came to the line as often as is due, by the stops that were told and by what it printed."""
    has_to_be("the hits of each thread", [numbers.count(number) for number in set(numbers)], [ROUNDS, ROUNDS])
    due = [b"%s %d" % (name, times) for name in (b"left", b"right") for times in range(1, ROUNDS + 1)]
    has_to_be("the lines", sorted(printed.splitlines()), sorted(due))


def pause_behind_continue(session, number):
    """Lets the Java program run on, and pauses it, in one piece: so the pause comes before what happens meanwhile.
    Gives the threads of the hits that were told in the stop before."""
    asked = {"threadId": number}
    said = session.ask_all([("continue", asked), ("pause", asked)])
    has_to_be("continue and pause", said, [RUNS_ON, succeeded()])
    told = [hit(session, [1]) for _ in range(len(session.waiting))]
    has_to_be("the event behind them", session.event(), stopped(number))
    return told


def frame(number, printed):
    """A frame under a number, as a Java program prints it: its method, its file and its line, which is below 0 in a
    native method (DAP specification, Types, StackFrame)."""
    name, file, line = printed.split(" ")
    if int(line) < 0:
        return {"id": number, "name": name, "line": 0, "column": 0}
    path = os.path.join(EXAMPLES, *name.split(".")[:-2], file)
    return {"id": number, "name": name, "line": int(line), "column": 1, "source": {"name": file, "path": path}}


def are_refused(session, due):
    """What isn't shown, each with its failure."""
    for (command, number), failure in due.items():
        has_to_be("%s of %d" % (command, number), ask_of(session, command, number), failed(*failure))


def windows_of(session, number):
    """Windows of the array that is among these variables, and of the variables, which have no elements."""
    variables = children(session, number)
    has_to_be("variables with a name", children(session, number, filter="named"), variables)
    has_to_be("the second one", children(session, number, start=1, count=1), variables[1:2])
    has_to_be("those without a name", children(session, number, filter="indexed"), [])
    for window, places in WINDOWS:
        due = [{"name": "[%d]" % n, "type": "int", "value": str(n), "variablesReference": 0} for n in places]
        has_to_be("elements %s" % window, children(session, variables[1]["variablesReference"], **window), due)


def as_printed(java, session, told):
    """Compares what things hold with what the Java program printed of them before it stopped. So many numbers were told
    before theirs. Gives the last of theirs."""
    ids, last = {}, told
    for number, lines in printed_of_things(java):
        shown = [without_id(child, ids) for child in children(session, told + number)]
        due = [printed_child(line, told) for line in lines]
        has_to_be("what %d holds" % number, shown, due)
        last = max([last, *(child["variablesReference"] for child in due)])
    has_to_be("the number of ids", len(set(ids.values())), len(ids))
    return last


def printed_of_things(java):
    """Numbers of things, and of each the lines of its children, as stops/Shown.java prints them."""
    things = []
    for line in iter(lambda: java.process.stdout.readline().decode().rstrip("\n"), ""):
        if line.startswith("> "):
            things.append((int(line[2:]), []))
        else:
            things[-1][1].append(line)
    return things


def printed_child(line, told):
    """A child as a line says it (DAP specification, Types, Variable)."""
    name, type_, length, number, value = line.split("\t")
    child = {"name": name, "type": type_, "value": value, "variablesReference": int(number) and told + int(number)}
    return {**child, "indexedVariables": int(length)} if length else child


def without_id(child, ids):
    """A child without the id of its object, which is the same wherever that is shown."""
    number = child["variablesReference"]
    if not number or "indexedVariables" in child:
        return child
    name, _, digits = child["value"].rpartition("@")
    has_to_be("the id of %d" % number, digits, ids.setdefault(number, "%x" % int(digits, 16)))
    return {**child, "value": name + "@"}


def stands_still(java):
    """What was printed up to a stop. Behind it nothing is printed, for half a second."""
    printed = java.heard(0.1)
    has_to_be("what is printed in the stop", java.heard(0.5), b"")
    return printed


def counts_on(java, bridge, session, printed):
    """The program that counts goes on from where it stood, which was printed, and is ended."""
    more = java.process.stdout.readline()
    has_to_be("whether it counts on", more != b"", True)
    java.go_on()
    *counted, last = (printed + more + ended(java, bridge, session)).split()
    has_to_be("the count", counted, [b"%d" % number for number in range(1, len(counted) + 1)])
    has_to_be("its end", last, b"down")


# The cases, each with whether the Java program waits for its debugger, and its words.
CASES = (
    (a_class_loaded_late, False, "stops.Late"),
    (started_suspended, True, "Ticks", "2"),
    (a_class_of_many_loaders, False, "stops.Copies", str(COPIES)),
    (two_threads_at_once, False, "stops.Pair", str(ROUNDS)),
    (pause_among_hits, False, "stops.Pair", str(ROUNDS)),
    (a_thread_between_stops, False, "stops.Between"),
    (frames_as_java_prints_them, False, "stops.Frames", str(STOPS)),
    (variables_as_java_prints_them, False, "stops.Variables", "a word"),
    (numbers_die_with_their_stop, False, "stops.Between"),
    (pause_of_a_running_program, False, "stops.Counting"),
    (refused_without_stop_or_thread, False, "stops.Counting"),
    (left_in_a_stop, False, "stops.Between"),
    (client_gone_in_a_stop, False, "stops.Between"),
    (killed_in_a_stop, False, "stops.Between"),
    (a_thousand_hits, True, "stops.Rounds", str(HITS)),
    *STEP_CASES,
    *VALUE_CASES,
)


def in_a_session(case, java, bridge):
    case(java, bridge, Session(bridge.client()))


def main():
    why = lacking("java", "javac")
    if why:
        print("java stops skipped: %s" % why)
        return 0
    program = program_of(sys.argv[1:])
    with tempfile.TemporaryDirectory() as folder:
        run = partial(over_java, program, compiled(folder, *SOURCES))
        return tried((case.__name__, partial(run, partial(in_a_session, case), *started)) for case, *started in CASES)


if __name__ == "__main__":
    plainly(main)
