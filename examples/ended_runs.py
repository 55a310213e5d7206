#!/usr/bin/env python3
"""Runs of the program, each to its end: its words, what its peers say or its file has, and the status and the text that
are due. Each case has some runs, and is kept or broken.

- Words that are none of the program's, and words that are.
- Sessions that end with a fault of the client's bytes, or as it leaves or disconnects.
- Sessions that end with a fault of the target's bytes, with an error that it replies, or as it is left: what it is sent
  is compared, too.
- Logs that are replayed, byte for byte, and scripts that are played.
- Files that are no logs or scripts, that are not there, or that are too long.
- Outputs that take only the front of what is printed.

usage: examples/ended_runs.py [PROGRAM]
"""
import json
import os
import socket
import subprocess
import sys
import tempfile
from functools import partial

from building import PATIENCE, USAGE, plainly, program_of, tried
from hard_links import FRONT, limit_files
from many_threads import ATTACH, receive
from over_tcp import Bridge, compact, framed, pieces, request, response
from played_sessions import message
from sessions import has_to_be

INITIALIZE = framed(request(1, "initialize", {"adapterID": "jdwp"}))
DISCONNECT = framed(request(2, "disconnect"))
TERMINATE = framed(request(2, "disconnect", {"terminateDebuggee": True}))
# How many bytes a file has at most, and one more.
TOO_MANY = 64 * 1024 * 1024 + 1

REFUSED_WORDS = (
    [],
    ["attach", "--listen", "A", "--target", "B"],
    ["serve", "--listen", "A"],
    ["serve", "--listen", "A", "--target"],
    ["serve", "--listen", "A", "--target", "-B"],
    ["serve", "--listen", "A", "--target", "B", "C"],
    ["serve", "--listen", "A", "--target", "B", "--listen", "C"],
    ["serve", "--help"],
    ["serve", "--version"],
    ["script"],
    ["replay"],
    ["replay", "--log"],
    ["replay", "log", "log"],
    ["replay", "--help"],
    ["generate"],
    ["generate", "1"],
    ["generate", "--out", "log"],
    ["generate", "0", "--out", "log"],
    ["generate", "1001", "--out", "log"],
    ["generate", "00001", "--out", "log"],
    ["generate", "", "--out", "log"],
    ["generate", "+1", "--out", "log"],
    ["generate", "-1", "--out", "log"],
    ["generate", "1.0", "--out", "log"],
    ["generate", "0x1", "--out", "log"],
    ["generate", "1", "2", "--out", "log"],
    ["generate", "1", "--out", "log", "--out", "log"],
    ["generate", "--help"],
    ["dump"],
    ["dump", "B"],
    ["dump", "--target"],
    ["dump", "--target", "-B"],
    ["dump", "--target", "B", "C"],
    ["dump", "--target", "B", "--target", "B"],
    ["dump", "--listen", "A", "--target", "B"],
    ["dump", "--help"],
)
# Words that are taken: the links that they name can't be opened.
TAKEN_WORDS = (
    ["serve", "--listen", "127.0.0.1:0", "--target", "127.0.0.1:0"],
    ["serve", "--target", "B", "--listen", "A"],
    ["serve", "--listen=A", "--target", "B"],
    ["serve", "--listen", "", "--target", "B"],
    ["dump", "--target", "B"],
    ["dump", "--target=B"],
    ["dump", "--target", ""],
    ["dump", "--target", "127.0.0.1:0"],
)
# What a client says before it closes its side: the status and the line, and how many messages it is told.
CLIENTS = (
    (INITIALIZE + DISCONNECT, 0, "ended 0 done", 2),
    (INITIALIZE, 1, "ended 1 left", 1),
    (b"Content-Length: 2\r\nContent-Length: 2\r\n\r\n{}", 3, "ended 3 client TwoLengths at 33", 0),
    (b"Content-Length: 16777216\r\n\r\n", 1, "ended 1 left", 0),
    (b"Content-Length: 16777217\r\n\r\n", 3, "ended 3 client TooLong at 23", 0),
    (b"Content-Length: 00000000002\r\n\r\n{}", 3, "ended 3 client BadLength at 26", 0),
    (b"X: y\r\n\r\n", 3, "ended 3 client NoLength at 6", 0),
    (b"X:" + b" " * 4071 + b"\r\nContent-Length: 2\r\n\r\n{}", 3, "ended 3 client NotAMessage at 4096", 0),
    (b"X:" + b" " * 4096, 3, "ended 3 client HeaderTooLong at 4096", 0),
    (INITIALIZE + b"Content-Length: 1\r\n\r\n{", 3, "ended 3 client NotJson at %d" % (len(INITIALIZE) + 21), 1),
    (b"Content-Length: 2\r\n\r\n{}", 3, "ended 3 client NotAMessage at 21", 0),
)
# What the target is sent behind `attach`, and says to it.
GREETED = ("'JDWP-Handshake'", "'JDWP-Handshake'")
SIZED = ("command 1 1.7", "reply 1 " + 5 * "00000008")
STARTS = ("command 2 15.1 060000000000", "reply 2 00000001")
DEATHS = ("command 3 15.1 070000000000", "reply 3 00000002")
# These pairs, what the client says or that it closes its side, and the pairs behind that: the status and the line.
TARGETS = (
    ([("'JDWP-Handshake'", "'JDWP-handshake'")], None, [], 4, "ended 4 target BadHandshake at 5"),
    ([GREETED, ("command 1 1.7", "0000000a")], None, [], 4, "ended 4 target ShortLength at 14"),
    (
        [GREETED, ("command 1 1.7", "reply 1 0000000800000008000000090000000800000008")],
        None,
        [],
        4,
        "ended 4 target BadSizes at 33",
    ),
    ([GREETED, SIZED, (STARTS[0], "error 1 13")], None, [], 4, "ended 4 target UnknownReply at 45 id 1"),
    ([GREETED, ("command 1 1.7", "error 1 13")], None, [], 11, "ended 11 refused 1.7 error 13"),
    ([GREETED, SIZED, STARTS, DEATHS], b"", [("command 4 1.6", "")], 1, "ended 1 left"),
    ([GREETED, SIZED, STARTS, DEATHS], DISCONNECT, [("command 4 1.6", "reply 4")], 0, "ended 0 done"),
    ([GREETED, SIZED, STARTS, DEATHS], TERMINATE, [("command 4 1.10 00000000", "reply 4")], 0, "ended 0 done"),
)


def text_of(*rows):
    """A log or a script: a row a line."""
    return "".join(json.dumps(row, separators=(",", ":")) + "\n" for row in rows)


def limited(limits, *rows):
    """A log with these limits, and these rows."""
    return text_of(["log", 2], ["limits", *limits], *rows, ["end"])


def log_of(*rows):
    """A log with the limits of a session that serves an editor, and these rows."""
    return limited((1099511627776, 43200000, 65536), *rows)


def old_log_of(*rows):
    """A log of version 1 with these rows: it has no limits, and each wait in vain has a row."""
    return text_of(["log", 1], *rows, ["end"])


def from_client(frame):
    return ["in", "client", frame.hex()]


ASKED = framed(compact({"arguments": {}, "command": "disconnect", "seq": 1, "type": "request"}))
ANSWERED = ["out", "client", framed(response(1, 1, "disconnect")).hex()]
ONE_REQUEST = log_of(from_client(ASKED), ANSWERED, ["ending", 0])
BEGIN, REST = from_client(ASKED[:50]), from_client(ASKED[50:])
IN_PIECES = log_of(BEGIN, ["quiet", 1], REST, ANSWERED, ["ending", 0])
# The same in pieces, with what can't have gone out, and with bytes that came later.
LATER = (REST, from_client(b"\xff"), ["failed", "target"], ["ending", 6])
BADLY_KEPT = log_of(BEGIN, ["out", "target", "00"], ["quiet", 1], *LATER)
OLD_AND_BADLY_KEPT = old_log_of(BEGIN, ["quiet"], ["out", "target", "00"], *LATER)
NO_LENGTH = from_client(b"X: y\r\n\r\n")
TERMINATED = ["out", "client", framed(compact({"event": "terminated", "seq": 1, "type": "event"})).hex()]
# Logs, each with what is printed where it is replayed.
REPLAYED = (
    (ONE_REQUEST, ONE_REQUEST),
    (BADLY_KEPT, IN_PIECES),
    (IN_PIECES, IN_PIECES),
    # The sides end where a log is used up, the client first.
    (log_of(["quiet", 2]), log_of(["quiet", 2], ["shut", "client"], ["ending", 1])),
    (log_of(["failed", "client"], ["ending", 5]), log_of(["failed", "client"], ["ending", 5])),
    (log_of(NO_LENGTH, ["quiet", 7]), log_of(NO_LENGTH, ["ending", 3])),
    # Those of version 1 have the limits of a session that serves an editor.
    (old_log_of(["quiet"], ["quiet"]), log_of(["quiet", 2], ["shut", "client"], ["ending", 1])),
    (OLD_AND_BADLY_KEPT, IN_PIECES),
    (old_log_of(from_client(ASKED), ANSWERED, ["ending", 0]), ONE_REQUEST),
    # The limits of a log are those of the session over it: on waits in vain that follow each other, and on turns.
    (limited((100, 2, 1), ["quiet", 2]), limited((100, 2, 1), ["quiet", 2], TERMINATED, ["ending", 12])),
    (limited((100, 3, 1), ["quiet", 2]), limited((100, 3, 1), ["quiet", 2], ["shut", "client"], ["ending", 1])),
    (limited((100, 2, 1), ["quiet", 1000]), limited((100, 2, 1), ["quiet", 2], TERMINATED, ["ending", 12])),
    (limited((3, 9, 1), ["quiet", 9]), limited((3, 9, 1), ["quiet", 3], ["ending", 13])),
)
SCRIPT = text_of(["script", 1], ["sizes", 8, 8, 8, 8, 8], ["ask", "disconnect", {}], ["settle"], ["end"])
# The first word, a file that is none of its kind, the line of its first fault, and that.
FAULTY = (
    ("replay", b"", 1, "NoEnd"),
    ("replay", b'["log",1]\n["end"]', 3, "NoEnd"),
    ("replay", b'["log",3]\n["end"]\n', 1, "BadVersion"),
    ("replay", b'["log",2]\n["end"]\n', 2, "BadOrder"),
    ("replay", b'["log",2]\n["limits",1,1,0]\n', 2, "BadShape"),
    ("replay", b'["log",2]\n["limits",1,1,1]\n["quiet"]\n', 3, "BadShape"),
    ("replay", b'["log",2]\n["limits",1,1,1]\n["quiet",1]\n["quiet",1]\n', 4, "BadOrder"),
    ("replay", b'["script",1]\n', 1, "BadShape"),
    ("replay", b'["quiet"]\n', 1, "BadOrder"),
    ("replay", b'["log",1]\n\xff\n', 2, "NotUtf8"),
    ("replay", b'["log",1]\n["quiet"\n', 2, "NotJson"),
    ("replay", b'["log",1]\n["shut","client"]\n["in","client","00"]\n', 3, "BadOrder"),
    ("replay", b'["log",1]\n["end"]\n["quiet"]\n', 3, "AfterEnd"),
    ("replay", b"\n" * TOO_MANY, 0, "TooLong"),
    ("script", SCRIPT.replace('["end"]\n', "").encode(), 5, "NoEnd"),
)


def ran(program, words):
    """The status of a run on these words, and what it prints."""
    how = {"stdin": subprocess.DEVNULL, "stdout": subprocess.PIPE, "stderr": subprocess.STDOUT}
    run = subprocess.run([program, *words], **how, timeout=PATIENCE, check=False)
    return run.returncode, run.stdout.decode()


def ran_on(program, word, content):
    """The same of a run on a file that has this."""
    with tempfile.NamedTemporaryFile(prefix="ended-") as file:
        file.write(content)
        file.flush()
        return ran(program, [word, file.name])


def ended(bridge):
    """The status of a session that comes to its end, and what it prints."""
    printed, _ = bridge.process.communicate(timeout=PATIENCE)
    return bridge.process.returncode, printed.decode()


def words_are_refused(program):
    for words in REFUSED_WORDS:
        has_to_be(" ".join(words), ran(program, words), (2, USAGE))
    return True


def words_are_taken(program):
    for words in TAKEN_WORDS:
        has_to_be(" ".join(words), ran(program, words), (7, "ended 7 not opened\n"))
    return True


def sessions_end_by_the_client(program):
    for said, status, line, count in CLIENTS:
        with Bridge(program, subprocess.PIPE) as bridge:
            link = bridge.client().stream
            link.sendall(said)
            link.shutdown(socket.SHUT_WR)
            told = b"".join(pieces(link)).count(b"Content-Length: ")
            bridge.target.close()
            has_to_be(line, (*ended(bridge), told), (status, line + "\n", count))
    return True


def sessions_end_by_the_target(program):
    for first, leaves, then, status, line in TARGETS:
        with Bridge(program, subprocess.PIPE) as bridge:
            client = bridge.client()
            client.send(request(1, "attach", ATTACH))
            take_turns(bridge.target, first)
            if leaves is not None:
                leave(client, leaves)
            take_turns(bridge.target, then)
            if leaves:
                # A side that closes before its response comes may be heard before the target's reply.
                client.receive()
            has_to_be("the rest that the target is sent", bridge.heard_by_target(), b"")
            bridge.target.close()
            client.close()
            has_to_be("the run", ended(bridge), (status, line + "\n"))
    return True


def leave(client, leaves):
    """The client says this once it is told that it is attached, by a response and an event; or closes its side, where
    it has nothing to say."""
    for _ in range(2):
        client.receive()
    client.stream.sendall(leaves)
    if not leaves:
        client.stream.shutdown(socket.SHUT_WR)


def take_turns(target, turns):
    """The target is sent the first of each of these pairs, and says the second."""
    for heard, said in turns:
        due = message(heard)
        has_to_be("what the target is sent", receive(target, len(due)), due)
        target.sendall(message(said))


def logs_are_replayed(program):
    for log, printed in REPLAYED:
        has_to_be("a log", ran_on(program, "replay", log.encode()), (0, printed))
    return True


def scripts_are_played(program):
    has_to_be("a script", ran_on(program, "script", SCRIPT.encode()), (0, ONE_REQUEST))
    return True


def faulty_files_have_their_line(program):
    for word, content, number, fault in FAULTY:
        line = "ended 10 script line %d %s\n" % (number, fault)
        has_to_be(fault, ran_on(program, word, content), (10, line))
    return True


def files_that_are_not_there_have_a_status(program):
    with tempfile.TemporaryDirectory(prefix="ended-") as folder:
        for word in ("script", "replay"):
            has_to_be(word, ran(program, [word, folder + "/none"]), (8, "ended 8 file\n"))
    return True


def outputs_that_are_cut_have_a_status(program):
    for word, content in (("replay", ONE_REQUEST), ("script", SCRIPT)):
        with tempfile.NamedTemporaryFile(prefix="ended-") as file, tempfile.TemporaryFile() as output:
            file.write(content.encode())
            file.flush()
            run = subprocess.run([program, word, file.name], stdin=subprocess.DEVNULL, stdout=output,
                                 stderr=subprocess.DEVNULL, preexec_fn=limit_files, timeout=PATIENCE, check=False)
            has_to_be(word, (run.returncode, os.fstat(output.fileno()).st_size), (9, FRONT))
    with tempfile.TemporaryFile() as output, Bridge(program, output, limit_files) as bridge:
        link = bridge.client().stream
        link.sendall(INITIALIZE + DISCONNECT)
        told = b"".join(pieces(link)).count(b"Content-Length: ")
        link.close()
        bridge.target.close()
        has_to_be("serve", (bridge.status(), os.fstat(output.fileno()).st_size, told), (9, FRONT, 2))
    return True


CASES = (words_are_refused, words_are_taken, sessions_end_by_the_client, sessions_end_by_the_target, logs_are_replayed,
         scripts_are_played, faulty_files_have_their_line, files_that_are_not_there_have_a_status,
         outputs_that_are_cut_have_a_status)


def main():
    program = program_of(sys.argv[1:])
    return tried((case.__name__, partial(case, program)) for case in CASES)


if __name__ == "__main__":
    plainly(main)
