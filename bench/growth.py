#!/usr/bin/env python3
"""Measures how a cost grows with what it doesn't hang on, by scripts that the program plays itself: no Java, no link.

Each row has two scripts that are the same but for a size, sixteen times apart. What a thing costs is the processor time
of a session with many of it, less that of the same session without, by their number. Printed are the cost in
microseconds at both sizes, and its ratio between the ends, of the least times of several runs in turn.

    a hit, over loaded classes            one breakpoint is listed, and the classes stand in other packages
    a thread's event, over loaded classes threads that start and end behind a listed breakpoint
    a thread's event, over what is listed with no breakpoint and with sixteen
    a hit, over listed breakpoints        all are bound, in one source, and one is hit
    a class that loads, over their number each in the package of the listed source; a time of many is that of one
    a step of evaluate, over the steps    an expression of so many fields

usage: bench/growth.py [--runs N] [PROGRAM]
"""
import json
import os
import subprocess
import sys
import tempfile

sys.path.insert(0, os.path.join(os.path.dirname(os.path.dirname(os.path.abspath(__file__))), "examples"))

from building import plainly, program_of, stop

RUNS = 3
HITS = 1000
EVENTS = 20_000
EVALUATED = 20
# The class that is hit, its method, the first of the objects that lead to one another, and the first id of a thread
# that starts.
FOO, RUN, NODE, FIRST = 1, 1, 50_000, 100_000
PATH = "/p/src/com/acme/Foo.java"


def class_line(number, signature, file, prepared=True):
    return ["class", number, 1, signature, file, 0, prepared]


def world(others=(), lines=2, objects=1):
    """The lines of a world: the class that is hit, with so many lines from 10 on, other classes, so many objects of which
    each leads to the next, and a thread in the method."""
    table = [[index, 10 + index] for index in range(lines)]
    nodes = range(NODE, NODE + objects)
    return [
        ["script", 1],
        ["sizes", 8, 8, 8, 8, 8],
        class_line(FOO, "Lcom/acme/Foo;", "Foo.java"),
        *others,
        ["method", FOO, RUN, "run", "()V", 9, 0, lines, table],
        ["variable", FOO, RUN, 0, lines, "n", "Lcom/acme/Foo;", 0],
        ["field", FOO, 1, "next", "Lcom/acme/Foo;", 1],
        *(["object", node, "L", FOO] for node in nodes),
        *(["put", node, 1, ["L", NODE if node == nodes[-1] else node + 1]] for node in nodes),
        ["thread", 1, "main"],
        ["frame", 1, 1, FOO, RUN, 0, 0, [[0, ["L", NODE]]]],
    ]


def session(lines, asked):
    """The lines of a session: breakpoints are listed at so many lines from 11 on, and then this is asked."""
    listed = [{"line": 11 + place} for place in range(lines)]
    return [
        ["ask", "initialize", {"adapterID": "growth"}],
        ["ask", "attach", {"sourceRoots": ["/p/src"]}],
        ["deliver"],
        ["ask", "setBreakpoints", {"source": {"path": PATH}, "breakpoints": listed}],
        ["ask", "configurationDone", {}],
        ["deliver"],
        *asked,
        ["settle"],
        ["ask", "disconnect", {}],
        ["settle"],
        ["end"],
    ]


def hits(count):
    """The moves of so many hits of line 11, and what is asked meanwhile."""
    moves = [["at", 1, index, []] for _ in range(count) for index in (1, 0)]
    return moves, [["settle"], ["ask", "continue", {"threadId": 1}]] * count


def of_packages(number):
    """So many prepared classes in packages in which nothing is listed."""
    signatures = ("Lother/p%d/C%d;" % (place % 10, place) for place in range(number))
    return [class_line(2 + place, signature, "C%d.java" % place) for place, signature in enumerate(signatures)]


def hit_among_classes(size, count):
    moves, asked = hits(count)
    return world(of_packages(size)) + moves + session(1, asked)


def thread_among_classes(size, count):
    ids = range(FIRST, FIRST + count // 2)
    moves = [move for number in ids for move in (["start", number, "t"], ["die", number])]
    return world(of_packages(size)) + moves + session(1, [])


def thread_among_breakpoints(size, count):
    ids = range(FIRST, FIRST + count // 2)
    moves = [move for number in ids for move in (["start", number, "t"], ["die", number])]
    return world(lines=size + 1) + moves + session(size, [])


def hit_among_breakpoints(size, count):
    moves, asked = hits(count)
    return world(lines=size + 1) + moves + session(size, asked)


def class_among_classes(size, count):
    others = [class_line(2 + place, "Lcom/acme/C%d;" % place, "C%d.java" % place, False) for place in range(size)]
    moves = [["prepare", 2 + place, 1] for place in range(size if count else 0)]
    return world(others) + moves + session(1, [])


def step_of_evaluate(size, count):
    expression = "n" + ".next" * (size - 1)
    asked = [["settle"], ["ask", "stackTrace", {"threadId": 1}], ["deliver"]]
    asked += [["ask", "evaluate", {"expression": expression, "frameId": 1}], ["deliver"]] * count
    return world(objects=size) + [["at", 1, 1, []]] + session(1, asked)


# A name, the scripts, the two sizes, how many of it are done, and how often each of them counts, by the size.
ROWS = (
    ("a hit, over loaded classes", hit_among_classes, (1000, 16_000), HITS, lambda size: HITS),
    ("a thread's event, over loaded classes", thread_among_classes, (1000, 16_000), EVENTS, lambda size: EVENTS),
    ("a thread's event, over what is listed", thread_among_breakpoints, (0, 16), EVENTS, lambda size: EVENTS),
    ("a hit, over listed breakpoints", hit_among_breakpoints, (64, 1024), HITS, lambda size: HITS),
    ("a class that loads, over their number", class_among_classes, (1000, 16_000), 1, lambda size: size),
    ("a step of evaluate, over the steps", step_of_evaluate, (25, 400), EVALUATED, lambda size: EVALUATED * size),
)


def seconds_of(program, path):
    """The processor time of the session of a script."""
    process = subprocess.Popen([program, "script", path], stdin=subprocess.DEVNULL, stdout=subprocess.DEVNULL)
    _, status, used = os.wait4(process.pid, 0)
    if status:
        stop("%s script %s ended with status %d" % (program, path, os.waitstatus_to_exitcode(status)))
    return used.ru_utime + used.ru_stime


def written(folder, name, lines):
    path = os.path.join(folder, name)
    with open(path, "w", encoding="ascii") as file:
        file.writelines(json.dumps(line, separators=(",", ":")) + "\n" for line in lines)
    return path


def cost(program, folder, script, size, count, times, runs):
    """The microseconds of one, by the least times of a session with many and of one without."""
    many, none = (written(folder, name, script(size, number)) for name, number in (("many", count), ("none", 0)))
    taken = [(seconds_of(program, many), seconds_of(program, none)) for _ in range(runs)]
    return (min(one for one, _ in taken) - min(other for _, other in taken)) / times(size) * 1e6


def main():
    words = sys.argv[1:]
    runs = RUNS
    if words[:1] == ["--runs"]:
        runs, words = int(words[1]), words[2:]
    program = program_of(words)
    print("%-40s %7s %9s %7s %9s %6s" % ("microseconds of", "size", "one", "size", "one", "ratio"))
    with tempfile.TemporaryDirectory(prefix="growth-") as folder:
        for name, script, sizes, count, times in ROWS:
            few, many = (cost(program, folder, script, size, count, times, runs) for size in sizes)
            print("%-40s %7d %9.1f %7d %9.1f %6.2f" % (name, sizes[0], few, sizes[1], many, many / few), flush=True)
    return 0


if __name__ == "__main__":
    plainly(main)
