#!/usr/bin/env python3
"""Sessions under `generate`: each case runs one or more, and is kept or broken. What is due is made here, from the rule
that the numbers follow, and shares no code with the program.

- Sessions of 1, 2, 10, 300, 999 and 1,000 stops: the summary that is printed; what its numbers count in the file; the
  file is what `script` prints of the script that is made here, and `replay` of the file prints it again.
- Numbers with zeros in front, and words in another order.
- A file that was there: nothing of it is left. Files that can't be written, and an output that fails.

usage: examples/generated.py [PROGRAM]
"""
import json
import os
import subprocess
import sys
import tempfile
from functools import partial

from building import PATIENCE, plainly, program_of, tried
from ended_runs import ran, text_of
from hard_links import limit_files
from recorded import FILE_FAILED, bytes_in, rows_in
from sessions import has_to_be

SIZES = (1, 2, 10, 300, 999, 1000)
NAMES = ("requests", "responses", "events", "stops", "sum")
END = b"\r\n\r\n"
CONTINUED = ("continue", {"threadId": 1})


def numbers_of(number):
    """What `n` is at each stop: a linear congruential generator, from this number on."""
    values, value = [], number
    for _ in range(number):
        value = (value * 1103515245 + 12345) % 2**31
        values.append(value)
    return values


def summary_of(number):
    """The lines that are due: how much there is of each, by its name."""
    due = (5 * number + 5, 5 * number + 5, number + 2, number, sum(numbers_of(number)))
    return "".join("%s %d\n" % line for line in zip(NAMES, due))


def asked(command, arguments, then):
    return [["ask", command, arguments], [then]]


def looked(stop):
    """What an editor asks at a stop."""
    first = 2 * stop - 1
    return [
        *asked("threads", {}, "deliver"),
        *asked("stackTrace", {"threadId": 1, "levels": 20}, "deliver"),
        *asked("scopes", {"frameId": first}, "deliver"),
        *asked("variables", {"variablesReference": first + 1}, "deliver"),
        *asked(*CONTINUED, "settle"),
    ]


def script_of(number):
    """The script of a number."""
    lines = [{"line": line} for line in range(1, number + 1)]
    moves = enumerate(numbers_of(number), 1)
    return text_of(
        ["script", 1],
        ["sizes", 8, 8, 8, 8, 8],
        ["class", 1, 1, "Lgen/Main;", "Main.java", 0, True],
        ["method", 1, 1, "run", "()V", 9, 0, number, [[index, index + 1] for index in range(number)]],
        ["variable", 1, 1, 0, number, "n", "I", 0],
        ["thread", 1, "main"],
        ["frame", 1, 1, 1, 1, 0, 0, [[0, ["I", 0]]]],
        *(["at", 1, stop % number, [[0, ["I", value]]]] for stop, value in moves),
        ["death"],
        *asked("initialize", {"adapterID": "gen"}, "deliver"),
        *asked("attach", {"sourceRoots": ["/gen"]}, "deliver"),
        *asked("setBreakpoints", {"source": {"path": "/gen/gen/Main.java"}, "breakpoints": lines}, "deliver"),
        *asked("configurationDone", {}, "deliver"),
        ["settle"],
        *(row for stop in range(1, number + 1) for row in looked(stop)),
        *asked("disconnect", {}, "settle"),
        ["end"],
    )


def bodies_in(bytes_of_frames):
    """The messages of frames."""
    place = 0
    while place < len(bytes_of_frames):
        behind = bytes_of_frames.index(END, place)
        length = int(bytes_of_frames[place:behind].rpartition(b" ")[2])
        place = behind + len(END) + length
        yield json.loads(bytes_of_frames[place - length : place])


def counted(path):
    """What the file of a log comes to, in the lines of a summary."""
    rows = rows_in(path)
    has_to_be("how it ends", rows[-2:], [["ending", 0], ["end"]])
    requests = sum(said["type"] == "request" for said in bodies_in(bytes_in(rows, "in", "client")))
    told = list(bodies_in(bytes_in(rows, "out", "client")))
    shown = [row for one in told if one.get("command") == "variables" for row in one["body"]["variables"]]
    found = (requests, sum(one["type"] == "response" for one in told), sum(one["type"] == "event" for one in told),
             sum(one.get("event") == "stopped" for one in told),
             sum(int(row["value"]) for row in shown if row["name"] == "n"))
    has_to_be("failures", [one for one in told if one.get("success", True) is not True], [])
    return "".join("%s %d\n" % line for line in zip(NAMES, found))


def content_of(path):
    with open(path, encoding="ascii") as file:
        return file.read()


def a_session_is_summed_up(number, program):
    with tempfile.TemporaryDirectory(prefix="generated-") as folder:
        out, script = os.path.join(folder, "log"), os.path.join(folder, "script")
        has_to_be("the summary", ran(program, ["generate", str(number), "--out", out]), (0, summary_of(number)))
        has_to_be("what the file has", counted(out), summary_of(number))
        with open(script, "w", encoding="ascii") as file:
            file.write(script_of(number))
        log = content_of(out)
        has_to_be("the log of the script", ran(program, ["script", script]) == (0, log), True)
        has_to_be("the log that is replayed", ran(program, ["replay", out]) == (0, log), True)
    return True


def words_are_taken(program):
    with tempfile.TemporaryDirectory(prefix="generated-") as folder:
        out, other = os.path.join(folder, "log"), os.path.join(folder, "other")
        ran(program, ["generate", "2", "--out", out])
        for words in (["0002", "--out", other], ["--out", other, "2"], ["--out=" + other, "02"]):
            has_to_be(" ".join(words[:2]), ran(program, ["generate", *words]), (0, summary_of(2)))
            has_to_be("the file", content_of(other) == content_of(out), True)
            os.remove(other)
    return True


def a_file_that_was_there_is_written_over(program):
    with tempfile.TemporaryDirectory(prefix="generated-") as folder:
        out, fresh = os.path.join(folder, "log"), os.path.join(folder, "fresh")
        with open(out, "wb") as file:
            file.write(b"what was there\n" * 10_000)
        for path in (out, fresh):
            has_to_be("the run", ran(program, ["generate", "1", "--out", path]), (0, summary_of(1)))
        has_to_be("the file", content_of(out) == content_of(fresh), True)
    return True


def files_that_fail_have_a_status(program):
    with tempfile.TemporaryDirectory(prefix="generated-") as folder:
        for out in ("/dev/full", os.path.join(folder, "none", "log"), folder):
            has_to_be(out, ran(program, ["generate", "1", "--out", out]), FILE_FAILED)
        how = {"stdin": subprocess.DEVNULL, "stdout": subprocess.PIPE, "stderr": subprocess.STDOUT}
        run = subprocess.run([program, "generate", "1", "--out", os.path.join(folder, "log")], **how,
                             preexec_fn=limit_files, timeout=PATIENCE, check=False)
        has_to_be("a file that takes no more", (run.returncode, run.stdout.decode()), FILE_FAILED)
    return True


def an_output_that_fails_leaves_the_file(program):
    with tempfile.TemporaryDirectory(prefix="generated-") as folder:
        out, other = os.path.join(folder, "log"), os.path.join(folder, "other")
        reader, full = os.pipe()
        os.close(reader)
        # What is written to a pipe that nobody reads fails, where the signal for that is passed over.
        run = subprocess.run([program, "generate", "1", "--out", out], stdin=subprocess.DEVNULL, stdout=full,
                             stderr=subprocess.DEVNULL, restore_signals=False, timeout=PATIENCE, check=False)
        os.close(full)
        has_to_be("the status", run.returncode, 9)
        ran(program, ["generate", "1", "--out", other])
        has_to_be("the file", content_of(out) == content_of(other), True)
    return True


CASES = (words_are_taken, a_file_that_was_there_is_written_over, files_that_fail_have_a_status,
         an_output_that_fails_leaves_the_file)


def main():
    program = program_of(sys.argv[1:])
    sizes = [("a_session_of_%d_is_summed_up" % number, partial(a_session_is_summed_up, number, program))
             for number in SIZES]
    return tried(sizes + [(case.__name__, partial(case, program)) for case in CASES])


if __name__ == "__main__":
    plainly(main)
