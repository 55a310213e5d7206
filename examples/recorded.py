#!/usr/bin/env python3
"""Sessions under `record`: each case records one or more, and is kept or broken.

- A session of two requests: the log has what came and went, and `replay` of it prints the same bytes.
- Silence in a session: one line of the log, however long it lasts. A file that was there: nothing of it is left.
- A client's link that fails while the bridge sends: the log has the failure, and nothing of the send.
- A full disk, a limit on the size of files, a folder that isn't there, a name that is a folder's: status 8.
- A program that is killed leaves no file.
- Logs as `read_log.py` prints them.
- The sessions of `first_session.py` and of `emacs.py`: `replay` of each log prints the same bytes, and each message that
  Emacs or the script sent has its line there. Both are skipped where what they need isn't there.

usage: examples/recorded.py [PROGRAM]
"""
import json
import os
import shlex
import socket
import struct
import subprocess
import sys
import tempfile
import time
from functools import partial

from building import TOP, plainly, program_of, tried
from emacs import LONGEST, has_dap_mode
from ended_runs import ended, ran
from hard_links import limit_files
from java_machine import lacking
from over_tcp import DISCONNECTED, INITIALIZED, Bridge, framed, request
from read_log import lines_of
from sessions import has_to_be

LIMITS = ["limits", 1099511627776, 43200000, 65536]
ASKED = framed(request(1, "initialize", {"adapterID": "jdwp"})) + framed(request(2, "disconnect"))
ANSWERED = framed(INITIALIZED) + framed(DISCONNECTED)
# for how many seconds nothing is said, and how many waits in vain that are at least
SILENCE, WAITS = 1, 200
# how many requests a client sends that reads no answer, and for how many seconds it tries
FLOOD, PUSHED = 200_000, 3
FILE_FAILED = (8, "ended 8 file\n")
ATTACH = {"seq": 1, "type": "request", "command": "attach", "arguments": {"sourceRoots": ["/p"]}}
ATTACHED = {"seq": 1, "type": "response", "request_seq": 1, "command": "attach", "success": True}
REFUSED = {"seq": 2, "type": "response", "request_seq": 2, "command": "next", "success": False, "message": "targetError"}
STOPPED = {"seq": 3, "type": "event", "event": "stopped", "body": {"reason": "step"}}


def frame_of(message):
    return framed(json.dumps(message, separators=(",", ":")).encode())


def packet(number, flags, rest):
    """A packet: its length, its id, its flags, and the rest (JDWP, Packet)."""
    return struct.pack(">IIB", 9 + len(rest), number, flags) + rest


# A breakpoint of request 7 in thread 1 that suspends all: tag, class, method and index of its place.
HIT = b"\x02\x00\x00\x00\x01" + b"\x02\x00\x00\x00\x07" + bytes(7) + b"\x01" + b"\x01" + bytes(24)
PREPARED = b"\x02\x00\x00\x00\x02" + b"\x08\x00\x00\x00\x05" + bytes(8) + b"\x01" + bytes(8) \
    + b"\x00\x00\x00\x06La/Bc;" + b"\x00\x00\x00\x03" + b"\x63\x00\x00\x00\x00"
# Rows of a log, and what is printed of each that says something.
READ = (
    (["log", 2], []),
    (LIMITS, ["limits: 1099511627776 turns, 43200000 waits that follow each other, 65536 items that wait"]),
    (["in", "client", frame_of(ATTACH)[:30].hex()], []),
    (["quiet", 12], ["          nothing came, 12 waits long"]),
    (["in", "client", frame_of(ATTACH)[30:].hex()], ['editor  > request 1 attach {"sourceRoots":["/p"]}']),
    (["out", "target", b"JDWP-Handshake".hex()], ["machine < handshake"]),
    (["in", "target", b"JDWP-Handshake".hex()], ["machine > handshake"]),
    (["out", "target", packet(1, 0, b"\x01\x07").hex()], ["machine < command 1 VirtualMachine.IDSizes"]),
    (["in", "target", packet(1, 128, b"\x00\x00" + 5 * b"\x00\x00\x00\x08").hex()],
     ["machine > reply 1 VirtualMachine.IDSizes, 20 bytes"]),
    (["out", "client", frame_of(ATTACHED).hex()], ["editor  < response to 1 attach"]),
    (["out", "target", (packet(2, 0, b"\x0b\x01" + bytes(8)) + packet(3, 0, b"\x0f\x01xyz")).hex()],
     ["machine < command 2 ThreadReference.Name, 8 bytes", "machine < command 3 EventRequest.Set, 3 bytes"]),
    (["in", "target", (packet(3, 128, b"\x00\x00\x00\x00\x00\x07") + packet(2, 128, b"\x00\x0a")).hex()],
     ["machine > reply 3 EventRequest.Set, 4 bytes", "machine > reply 2 ThreadReference.Name: error 10 INVALID_THREAD"]),
    (["in", "target", packet(9, 0, b"\x40\x64" + HIT).hex()],
     ["machine > event, suspends all: Breakpoint of request 7"]),
    (["in", "target", packet(10, 0, b"\x40\x64" + PREPARED).hex()],
     ["machine > event, suspends all: ClassPrepare of request 5 La/Bc;, VMDeath"]),
    (["in", "client", frame_of({"seq": 2, "type": "request", "command": "next"}).hex()], ["editor  > request 2 next"]),
    (["out", "client", frame_of(REFUSED).hex()], ["editor  < response to 2 next: failed, targetError"]),
    (["out", "client", frame_of(STOPPED).hex()], ['editor  < event stopped {"reason":"step"}']),
    (["quiet", 1], ["          nothing came, 1 wait long"]),
    (["shut", "target"], ["machine   its stream ended"]),
    (["in", "client", framed(b"{}").hex()], ["editor  > no message: {}"]),
    (["in", "client", b"X: y\r\n\r\n".hex()], ["editor  > bytes that no message has: 583a20790d0a0d0a"]),
    (["failed", "client"], ["editor    its link failed"]),
    (["ending", 5], ["ended with status 5"]),
    (["end"], []),
)


def recorder(program, folder, out):
    """A program that records each session that it is asked to serve."""
    path = os.path.join(folder, "bridge")
    words = (shlex.quote(program), shlex.quote(out))
    with open(path, "w", encoding="utf-8") as file:
        file.write('#!/bin/sh\nif [ "$1" = serve ]; then shift; exec %s record "$@" --out %s; fi\n' % words)
        file.write('exec %s "$@"\n' % words[0])
    os.chmod(path, 0o700)
    return path


def rows_in(path):
    """The rows of a log."""
    with open(path, encoding="ascii") as file:
        return [json.loads(line) for line in file]


def bytes_in(rows, way, side):
    """All bytes that went one way on the link of a side."""
    return b"".join(bytes.fromhex(row[2]) for row in rows if row[:2] == [way, side])


def is_replayed(program, path):
    """A log is printed again to the byte where it is replayed."""
    with open(path, encoding="ascii") as file:
        due = file.read()
    has_to_be("the log that is replayed", ran(program, ["replay", path]) == (0, due), True)


def said(program, folder, out, first=None, silence=0):
    """Two requests, and how the program ends."""
    with Bridge(recorder(program, folder, out), subprocess.PIPE, first) as bridge:
        client = bridge.client()
        client.send(request(1, "initialize", {"adapterID": "jdwp"}))
        client.receive()
        time.sleep(silence)
        client.send(request(2, "disconnect"))
        client.receive()
        bridge.target.close()
        client.close()
        return ended(bridge)


def two_requests_are_recorded(program):
    with tempfile.TemporaryDirectory(prefix="recorded-") as folder:
        out = os.path.join(folder, "log")
        with open(out, "wb") as file:
            file.write(b"what was there\n" * 10_000)
        has_to_be("the run", said(program, folder, out), (0, "ended 0 done\n"))
        rows = rows_in(out)
        has_to_be("its first lines", rows[:2], [["log", 2], LIMITS])
        has_to_be("its last lines", rows[-2:], [["ending", 0], ["end"]])
        has_to_be("what the client said", bytes_in(rows, "in", "client"), ASKED)
        has_to_be("what it was told", bytes_in(rows, "out", "client"), ANSWERED)
        has_to_be("the rest", [row for row in rows[2:-2] if row[0] not in ("in", "out", "quiet")], [])
        is_replayed(program, out)
    return True


def silence_is_one_line(program):
    with tempfile.TemporaryDirectory(prefix="recorded-") as folder:
        out = os.path.join(folder, "log")
        has_to_be("the run", said(program, folder, out, silence=SILENCE), (0, "ended 0 done\n"))
        rows = rows_in(out)
        long = [row for row in rows if row[0] == "quiet" and row[1] >= WAITS]
        has_to_be("lines of long silence", len(long), 1)
        has_to_be("lines of silence side by side", [row for row, behind in zip(rows, rows[1:])
                                                    if row[0] == behind[0] == "quiet"], [])
        is_replayed(program, out)
    return True


def a_link_that_fails_is_recorded(program):
    with tempfile.TemporaryDirectory(prefix="recorded-") as folder:
        out = os.path.join(folder, "log")
        with Bridge(recorder(program, folder, out), subprocess.PIPE) as bridge:
            stream = bridge.client().stream
            stream.settimeout(PUSHED)
            try:
                stream.sendall(b"".join(framed(request(number, "none")) for number in range(1, FLOOD)))
            except TimeoutError:
                pass
            stream.setsockopt(socket.SOL_SOCKET, socket.SO_LINGER, struct.pack("ii", 1, 0))
            stream.close()
            bridge.target.close()
            has_to_be("the run", ended(bridge), (5, "ended 5 client link\n"))
        rows = rows_in(out)
        has_to_be("its last lines", rows[-3:], [["failed", "client"], ["ending", 5], ["end"]])
        has_to_be("failures", sum(row[0] == "failed" for row in rows), 1)
        told = bytes_in(rows, "out", "client")
        has_to_be("whole frames", told.count(b"Content-Length: "),
                  sum(row[:2] == ["out", "client"] for row in rows))
    return True


def files_that_fail_have_a_status(program):
    with tempfile.TemporaryDirectory(prefix="recorded-") as folder:
        for out in ("/dev/full", os.path.join(folder, "none", "log"), folder):
            has_to_be(out, said(program, folder, out), FILE_FAILED)
        out = os.path.join(folder, "log")
        has_to_be("a file that takes no more", said(program, folder, out, limit_files), FILE_FAILED)
    return True


def a_program_that_is_killed_leaves_no_file(program):
    with tempfile.TemporaryDirectory(prefix="recorded-") as folder:
        out = os.path.join(folder, "log")
        with Bridge(recorder(program, folder, out), subprocess.PIPE) as bridge:
            client = bridge.client()
            client.send(request(1, "initialize", {"adapterID": "jdwp"}))
            client.receive()
            bridge.process.kill()
            bridge.process.wait()
            client.close()
        has_to_be("the file", os.path.exists(out), False)
    return True


def links_that_do_not_open_leave_no_file(program):
    with tempfile.TemporaryDirectory(prefix="recorded-") as folder:
        out = os.path.join(folder, "log")
        words = ["record", "--listen", "127.0.0.1:0", "--target", "127.0.0.1:0", "--out", out]
        has_to_be("the run", ran(program, words), (7, "ended 7 not opened\n"))
        has_to_be("the file", os.path.exists(out), False)
    return True


def logs_are_read(_):
    rows = [row for row, _ in READ]
    due = [(number, line) for number, (_, lines) in enumerate(READ, 1) for line in lines]
    for told, expected in zip(list(lines_of(rows)), due):
        has_to_be("line %d" % expected[0], told, expected)
    has_to_be("how many", len(list(lines_of(rows))), len(due))
    return True


def session_of(script, needs, ending, program):
    """A session of another script under `record`."""
    if needs():
        print("%s skipped: %s" % (script, needs()))
        return True
    with tempfile.TemporaryDirectory(prefix="recorded-") as folder:
        out = os.path.join(folder, "log")
        path = os.path.join(TOP, "examples", script)
        ran_whole = subprocess.run([sys.executable, path, recorder(program, folder, out)], stdout=subprocess.PIPE,
                                   stderr=subprocess.STDOUT, timeout=LONGEST, check=False)
        has_to_be("the status of %s" % script, ran_whole.returncode, 0)
        rows = rows_in(out)
        has_to_be("its last line but one", rows[-2], ["ending", ending])
        frames = bytes_in(rows, "in", "client").count(b"Content-Length: ")
        lines = [line for _, line in lines_of(rows)]
        has_to_be("its requests", sum(line.startswith("editor  > request ") for line in lines), frames)
        has_to_be("what can't be read", [line for line in lines if "no message" in line or "not whole" in line], [])
        print("%s: %d lines, %d bytes" % (script, len(rows), os.path.getsize(out)))
        is_replayed(program, out)
    return True


def lacks_java():
    return lacking("java", "javac")


def lacks_emacs():
    return lacks_java() or (None if has_dap_mode() else "there is no Emacs with dap-mode")


CASES = (two_requests_are_recorded, silence_is_one_line, a_link_that_fails_is_recorded, files_that_fail_have_a_status,
         a_program_that_is_killed_leaves_no_file, links_that_do_not_open_leave_no_file, logs_are_read)
# Emacs leaves without a word.
SESSIONS = (("the_first_session_is_recorded", "first_session.py", lacks_java, 0),
            ("a_session_of_emacs_is_recorded", "emacs.py", lacks_emacs, 1))


def main():
    program = program_of(sys.argv[1:])
    cases = [(case.__name__, partial(case, program)) for case in CASES]
    return tried(cases + [(name, partial(session_of, *session, program)) for name, *session in SESSIONS])


if __name__ == "__main__":
    plainly(main)
