#!/usr/bin/env python3
"""Stacks that `dump` prints: each case takes one or more dumps, and is kept or broken.

- A target of this script, with one thread, with none, and with more: the text byte for byte, what the target is asked,
  and that it is left as it was found.
- One whose threads or frames show nothing, and names that aren't plain.
- One that isn't there, that ends before any of its replies, that says what no target may, and one that refuses.
- An output that fails.
- Java machines, which are skipped where no JDK with an agent for JDWP is there: the frames are those of `jstack` where
  all threads wait, the values those of the program, and it goes on behind the dump; one that waits for its debugger;
  one that has a debugger; one that is killed meanwhile.

usage: examples/dumped.py [PROGRAM]
"""
import os
import re
import signal
import socket
import struct
import subprocess
import sys
import tempfile
import threading
from functools import partial

from building import PATIENCE, plainly, program_of, tried
from ended_runs import ran
from hard_links import FRONT, limit_files
from java_machine import EXAMPLES, UP, JavaProgram, compiled, lacking, over_java, tool
from many_threads import ATTACH, HANDSHAKE, SIZES, cut, receive
from over_tcp import free_port, pieces, request
from sessions import has_to_be

NOT_OPENED = (7, "ended 7 not opened\n")
TARGET_GONE = (15, "ended 15 target gone\n")
ONE_THREAD = 'thread 1 "main"\n  #0 gen.Main.run:1\n    n: int = 0\nend 1\n'


def text(value):
    return struct.pack(">I", len(value)) + value


def listed(*rows):
    return struct.pack(">I", len(rows)) + b"".join(rows)


class World:
    """A target whose threads stand in line 1 of one method, which has a variable `n`. It answers as JDWP says, and keeps
    what it was asked. Some of what it is asked it may refuse, with an error."""

    FACTS = {
        (1, 7): SIZES,
        (2, 1): text(b"Lgen/Main;"),
        (2, 5): listed(struct.pack(">Q", 1) + text(b"run") + text(b"()V") + struct.pack(">I", 9)),
        (2, 7): text(b"Main.java"),
        (6, 1): struct.pack(">2Q", 0, 1) + listed(struct.pack(">QI", 0, 1)),
        (6, 2): struct.pack(">I", 0) + listed(struct.pack(">Q", 0) + text(b"n") + text(b"I") + struct.pack(">2I", 1, 0)),
        (11, 6): listed(struct.pack(">QB3Q", 1, 1, 1, 1, 0)),
        (11, 7): struct.pack(">I", 1),
        (16, 1): listed(b"I" + struct.pack(">I", 0)),
        (16, 3): b"L" + struct.pack(">Q", 0),
    }
    EFFECTS = {(15, 1): "set", (1, 8): "suspend", (1, 9): "resume", (1, 6): "dispose"}
    # What is answered of a thread that is suspended, and else refused.
    STANDING = {(11, 6), (11, 7), (16, 1), (16, 3)}
    NOT_SUSPENDED = 13

    def __init__(self, *names, refused=None, said=None):
        self.names, self.refused, self.asked, self.held = names, refused or {}, [], 0
        self.facts = {**self.FACTS, **(said or {})}

    def answer(self, pair, body):
        """The error, which is 0 where there is none, and the body."""
        self.asked.append(pair)
        error = self.refused.get(pair, self.NOT_SUSPENDED if pair in self.STANDING and not self.held else 0)
        if error:
            return error, b""
        self.held += {"suspend": 1, "resume": -1}.get(self.EFFECTS.get(pair), 0)
        if pair == (1, 4):
            return 0, listed(*(struct.pack(">Q", number) for number in range(1, len(self.names) + 1)))
        if pair == (11, 1):
            return 0, text(self.names[struct.unpack(">Q", body)[0] - 1])
        if pair == (15, 1):
            return 0, struct.pack(">I", self.asked.count(pair))
        return 0, self.facts.get(pair, b"")

    def effects(self):
        return [self.EFFECTS[pair] for pair in self.asked if pair in self.EFFECTS]

    def serve(self, link, most=None):
        """Answers each command until the link ends; or so many of them, and ends it behind the next."""
        link.sendall(receive(link, len(HANDSHAKE)))
        pending = b""
        for piece in pieces(link):
            packets, pending = cut(pending + piece)
            for packet in packets:
                if len(self.asked) == most:
                    return
                number, _, group, command = struct.unpack_from(">IBBB", packet, 4)
                error, body = self.answer((group, command), packet[11:])
                link.sendall(struct.pack(">IIBH", 11 + len(body), number, 0x80, error) + body)


LEFT_AS_IT_WAS = ["set", "set", "suspend", "resume", "dispose"]


def accepted(listener, run):
    """The link that a process opens; an error where it ends before that."""
    listener.settimeout(1)
    for _ in range(PATIENCE):
        try:
            return listener.accept()[0]
        except socket.timeout:
            if run.poll() is not None:
                raise EOFError("it ended with status %d and opened nothing" % run.returncode) from None
    raise EOFError("it opened nothing")


def dumped(program, target, **how):
    """The status of a dump over a target of this script, and what it prints."""
    with socket.create_server(("127.0.0.1", 0)) as listener:
        words = [program, "dump", "--target", "127.0.0.1:%d" % listener.getsockname()[1]]
        how = {"stdout": subprocess.PIPE, "stderr": subprocess.STDOUT, **how}
        with subprocess.Popen(words, stdin=subprocess.DEVNULL, **how) as run:
            try:
                with accepted(listener, run) as link:
                    link.settimeout(PATIENCE)
                    target(link)
                printed, _ = run.communicate(timeout=PATIENCE)
            finally:
                run.kill()
    return run.returncode, printed and printed.decode()


def one_thread_is_shown(program):
    world = World(b"main")
    has_to_be("the dump", dumped(program, world.serve), (0, ONE_THREAD))
    has_to_be("what was changed", world.effects(), LEFT_AS_IT_WAS)
    return True


def no_thread_is_shown(program):
    world = World()
    has_to_be("the dump", dumped(program, world.serve), (0, "end 0\n"))
    has_to_be("what was changed", world.effects(), ["set", "set", "dispose"])
    return True


def each_thread_is_shown(program):
    numbers = range(1, 301)
    world = World(*(b"worker %d" % number for number in numbers))
    due = [line for number in numbers
           for line in ('thread %d "worker %d"' % (number, number), "  #0 gen.Main.run:1", "    n: int = 0")]
    status, shown = dumped(program, world.serve)
    has_to_be("the status", status, 0)
    has_to_be("whether each thread is there", shown.split("\n") == [*due, "end 300", ""], True)
    has_to_be("what was changed", world.effects(), LEFT_AS_IT_WAS)
    return True


def names_are_quoted(program):
    world = World(b'a "b"\\\n\x00', "\u00e9\U0001f600".encode())
    status, shown = dumped(program, world.serve)
    due = ['thread 1 "a \\"b\\"\\\\\\n\\u0000"', 'thread 2 "\u00e9\U0001f600"']
    has_to_be("the threads", (status, [line for line in shown.split("\n") if line.startswith("thread")]), (0, due))
    return True


# What a target refuses, each with the lines that are shown in place of others.
REFUSED = (
    ({(11, 1): 10}, "end 0\n"),
    ({(11, 7): 10}, 'thread 1 "main"\n  failed 8\nend 1\n'),
    ({(11, 6): 13}, 'thread 1 "main"\n  failed 9\nend 1\n'),
    ({(16, 1): 35}, 'thread 1 "main"\n  #0 gen.Main.run:1\n    failed 9\nend 1\n'),
    ({(6, 2): 101}, 'thread 1 "main"\n  #0 gen.Main.run:1\nend 1\n'),
    ({(6, 1): 511, (2, 5): 21}, 'thread 1 "main"\n  #0 gen.Main.:0\n    n: int = 0\nend 1\n'),
)


def refusals_are_shown(program):
    for refused, due in REFUSED:
        world = World(b"main", refused=refused)
        has_to_be("the dump", dumped(program, world.serve), (0, due))
        has_to_be("what is held", world.held, 0)
    return True


def targets_that_end_have_gone(program):
    has_to_be("one that shakes hands", dumped(program, lambda link: link.sendall(receive(link, len(HANDSHAKE)))),
              TARGET_GONE)
    whole = World(b"main")
    dumped(program, whole.serve)
    for most, pair in enumerate(whole.asked):
        # Once the client leaves, all was shown.
        due = (0, ONE_THREAD) if pair == (1, 6) else TARGET_GONE
        has_to_be("behind %d replies" % most, dumped(program, partial(World(b"main").serve, most=most)), due)
    return True


# What a target says, or that it refuses, and how the dump ends.
ENDINGS = (
    (World(b"main", refused={(1, 8): 112}), TARGET_GONE),
    (World(b"main", refused={(1, 4): 112}), TARGET_GONE),
    (World(b"main", refused={(1, 8): 99}), (11, "ended 11 refused 1.8 error 99\n")),
    (World(b"main", refused={(1, 7): 13}), (11, "ended 11 refused 1.7 error 13\n")),
    (World(b"main", said={(16, 1): b"\x00\x00\x00\x01"}), None),
)


def faults_of_targets_have_a_line(program):
    for world, due in ENDINGS:
        found = dumped(program, world.serve)
        has_to_be("the dump", found if due else (found[0], found[1][:21]), due or (4, "ended 4 target Short "))
    has_to_be("no handshake", dumped(program, lambda link: link.sendall(b"HTTP/1.1 400 Bad")),
              (4, "ended 4 target BadHandshake at 0\n"))
    return True


def a_target_that_is_not_there_is_not_opened(program):
    has_to_be("the dump", ran(program, ["dump", "--target", "127.0.0.1:%d" % free_port()]), NOT_OPENED)
    return True


def an_output_that_is_cut_has_a_status(program):
    with tempfile.TemporaryFile() as output:
        world = World(b"main")
        status, _ = dumped(program, world.serve, stdout=output, preexec_fn=limit_files)
        has_to_be("the dump", (status, os.fstat(output.fileno()).st_size), (9, FRONT))
        has_to_be("what was changed", world.effects(), LEFT_AS_IT_WAS)
    return True


# Java machines -------------------------------------------------------------------------------------------------------

STACKS = ("20", "10")
# The frames of the threads of the Java program, upper first, from where they wait.
OWN = ["Stacks.stand", *(["Stacks.down"] * 8), "Stacks.run"]
THREAD = re.compile(r'thread \d+ "(.*)"')
FRAME = re.compile(r"  #\d+ (.*)")
TOLD_THREAD = re.compile(r'"(.*)" #\d+ .*')
TOLD_FRAME = re.compile(r"\tat (?:[^()/]*/)?([^()]*)\((?:[^()/]*/)?(?:Native Method|Unknown Source|[^():]*:(\d+))\)")


def dump_of(program, java):
    return ran(program, ["dump", "--target", "127.0.0.1:%d" % java.port])


def stacks_in(lines):
    """The frames of each thread that a dump shows, by its name: of those that have some."""
    stacks, frames = {}, []
    for line in lines:
        thread, frame = THREAD.fullmatch(line), FRAME.fullmatch(line)
        if thread:
            frames = stacks.setdefault(thread[1], [])
        elif frame:
            frames.append(frame[1])
    return {name: frames for name, frames in stacks.items() if frames}


def stacks_by_jstack(java):
    """The same, as `jstack` shows it."""
    words = [tool("jstack"), str(java.process.pid)]
    shown = subprocess.run(words, stdin=subprocess.DEVNULL, stdout=subprocess.PIPE, timeout=PATIENCE, check=True).stdout
    stacks, frames = {}, []
    for line in shown.decode().split("\n"):
        thread, frame = TOLD_THREAD.fullmatch(line), TOLD_FRAME.fullmatch(line)
        if thread:
            frames = stacks.setdefault(thread[1], [])
        elif frame:
            frames.append("%s:%s" % (frame[1], frame[2] or 0))
    return {name: frames for name, frames in stacks.items() if frames}


def own_variables(name):
    """The lines of variables in the frames of a thread of the Java program, without ids."""
    variables = [["name: java.lang.String = \"in %s\"" % name, "thread: Stacks = Stacks@",
                  "half: double = double:0x3fe0000000000000", "letter: char = 'k'"]]
    for depth in range(1, 9):
        variables.append(["depth: int = %d" % depth, "name: java.lang.String = \"in %s\"" % name,
                          "square: long = %d" % depth ** 2, "even: boolean = %s" % ["true", "false"][depth % 2],
                          "numbers: int[] = int[%d]" % depth])
    return [line for frame in [*variables, ["this: Stacks = Stacks@", "below: int = 8"]] for line in frame]


def variables_of(lines, name):
    """The lines of variables in the frames of the program's own of a thread, without ids."""
    shown, in_thread, in_own = [], False, False
    for line in lines:
        thread, frame = THREAD.fullmatch(line), FRAME.fullmatch(line)
        if thread:
            in_thread = thread[1] == name
        elif frame:
            in_own = in_thread and frame[1].startswith("Stacks.")
        elif in_own and line.startswith("    "):
            shown.append(re.sub(r"@[0-9a-f]+$", "@", line.strip()))
    return shown


def stacks_are_those_of_jstack(program, classes):
    with JavaProgram(classes, "Stacks", STACKS) as java:
        java.wait_until_up()
        told = stacks_by_jstack(java)
        status, shown = dump_of(program, java)
        lines = shown.split("\n")
        has_to_be("the status", status, 0)
        has_to_be("the last line", lines[-2:], ["end %d" % sum(map(bool, map(THREAD.fullmatch, lines))), ""])
        has_to_be("the stacks", stacks_in(lines), told)
        names = ["stack %d" % (number + 1) for number in range(int(STACKS[0]))]
        for name in names:
            frames = [frame.rpartition(":")[0] for frame in told[name] if frame.startswith("Stacks.")]
            has_to_be("the frames of " + name, frames, OWN)
            has_to_be("the variables of " + name, variables_of(lines, name), own_variables(name))
        has_to_be("one behind it", stacks_in(dump_of(program, java)[1].split("\n")), told)
        java.go_on()
        has_to_be("what the Java program did", java.end(), (b"went 20\n", 0))
    return True


def a_machine_that_waits_for_its_debugger_is_shown(program, classes):
    with JavaProgram(classes, "Stacks", STACKS, suspend=True) as java:
        java.wait_until_listening()
        status, shown = dump_of(program, java)
        # Its main thread may have come to no frame yet.
        names = [line.partition(" ")[2].partition(" ")[2] for line in shown.split("\n") if line.startswith("thread ")]
        has_to_be("the dump", (status, '"main"' in names), (0, True))
        java.wait_until_up()
        java.go_on()
        has_to_be("what the Java program did", java.end(), (b"went 20\n", 0))
    return True


def a_machine_that_has_a_debugger_is_not_opened(program, classes):
    def case(java, bridge):
        client = bridge.client()
        client.send(request(1, "attach", ATTACH))
        client.receive()
        has_to_be("the dump", dump_of(program, java), NOT_OPENED)
        client.send(request(2, "disconnect"))
        has_to_be("the session", bridge.status(), 0)
        has_to_be("a dump behind it", dump_of(program, java)[0], 0)

    return over_java(program, classes, case)


def relayed(java, link, most):
    """Hands on what goes between a link and a Java machine, and kills the machine behind so many pieces of its own."""
    with socket.create_connection(("127.0.0.1", java.port), PATIENCE) as machine:
        def to_machine():
            for piece in pieces(link):
                machine.sendall(piece)

        sender = threading.Thread(target=to_machine, daemon=True)
        sender.start()
        for number, piece in enumerate(pieces(machine)):
            if number == most:
                java.process.send_signal(signal.SIGKILL)
                java.process.wait()
                break
            link.sendall(piece)
        link.shutdown(socket.SHUT_RDWR)
        sender.join(PATIENCE)


def a_machine_that_is_killed_has_gone(program, classes):
    for most in (0, 5, 50):
        with JavaProgram(classes, "Stacks", STACKS) as java:
            java.wait_until_up()
            has_to_be("behind %d pieces" % most, dumped(program, lambda link: relayed(java, link, most)), TARGET_GONE)
    return True


CASES = (one_thread_is_shown, no_thread_is_shown, each_thread_is_shown, names_are_quoted, refusals_are_shown,
         targets_that_end_have_gone, faults_of_targets_have_a_line, a_target_that_is_not_there_is_not_opened,
         an_output_that_is_cut_has_a_status)
JAVA_CASES = (stacks_are_those_of_jstack, a_machine_that_waits_for_its_debugger_is_shown,
              a_machine_that_has_a_debugger_is_not_opened, a_machine_that_is_killed_has_gone)


def main():
    program = program_of(sys.argv[1:])
    broken = tried((case.__name__, partial(case, program)) for case in CASES)
    why = lacking("java", "javac", "jstack")
    if why:
        print("Java machines: skipped:", why)
        return broken
    with tempfile.TemporaryDirectory(prefix="dumped-") as folder:
        classes = compiled(folder, *(os.path.join(EXAMPLES, name) for name in ("Stacks.java", "Workers.java")))
        return tried((case.__name__, partial(case, program, classes)) for case in JAVA_CASES) or broken


if __name__ == "__main__":
    plainly(main)
