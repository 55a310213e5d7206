#!/usr/bin/env python3
"""Whole sessions, byte for byte: the program replays what comes in them, and has to send what they say. Each case has
some sessions, and is kept or broken.

usage: examples/played_sessions.py [PROGRAM]

The sessions stand in examples/played, a topic a file. A line `== NAME` begins a case. A session begins with the line
`session` and the names of the stages that it begins with, and a stage with the line `stage NAME`. Their other lines
are, besides those that are empty or begin with `#`:

- `client` or `target`, and the messages of a piece of bytes that comes from there, with ` | ` between them;
- `shut`, `failed` and a side, or `quiet`, as the outside says it;
- `told` or `sent`, and a message that the client or the target is sent;
- `ending`, and the status of the session: where it has no such line the client has left.

A message that is an object is a frame of that text (DAP overview, Base protocol). `reply ID`, `error ID CODE` and
`command ID SET.COMMAND` are packets, with the pieces of their body behind (JDWP, JDWP Packets). All else is pieces: two
hexadecimal digits a byte, and texts between quotes of one kind.
"""
import glob
import json
import os
import re
import struct
import subprocess
import sys
import tempfile
from functools import partial

from building import PATIENCE, TOP, plainly, program_of, tried

PLAYED = os.path.join(TOP, "examples", "played")
LEFT = 1
REPLY = 0x80
SIDES = ("client", "target")
# A byte in hexadecimal, a text between quotes, and what stands between them.
PIECE = re.compile(r"""([0-9a-f]{2})|"([^"]*)"|'([^']*)'| """)
# How many bytes are shown where a side is sent something else.
SHOWN = 60


class Session:
    """A session: what comes in it as the lines of a log, what each side is sent, and the status of its ending."""

    def __init__(self):
        self.comes = []
        self.sent = {side: b"" for side in SIDES}
        self.ending = LEFT

    def add(self, line):
        word, _, rest = line.partition(" ")
        if word in SIDES:
            self.comes.append(["in", word, b"".join(map(message, rest.split(" | "))).hex()])
        elif word in ("shut", "failed"):
            self.comes.append([word, rest])
        elif word == "quiet":
            self.comes.append([word])
        elif word in ("told", "sent"):
            self.sent[SIDES[word == "sent"]] += message(rest)
        elif word == "ending":
            self.ending = int(rest)
        else:
            raise ValueError("a line that says nothing: " + line)

    def log(self):
        return "".join(json.dumps(row) + "\n" for row in [["log", 1], *self.comes, ["end"]])


def message(text):
    """The bytes of a message."""
    if text.startswith("{"):
        body = text.encode()
        return b"Content-Length: %d\r\n\r\n" % len(body) + body
    form, _, rest = text.partition(" ")
    number, _, body = rest.partition(" ")
    if form == "reply":
        return packet(number, REPLY, 0, body)
    if form not in ("error", "command"):
        return pieces(text)
    pair, _, body = body.partition(" ")
    if form == "error":
        return packet(number, REPLY, int(pair), body)
    group, _, command = pair.partition(".")
    return packet(number, 0, int(group) << 8 | int(command), body)


def packet(number, flags, pair, body):
    """A packet of this id. Behind the flags stand the command's two numbers, or the error's code."""
    body = pieces(body)
    return struct.pack(">IIBH", 11 + len(body), int(number), flags, pair) + body


def pieces(text):
    """The bytes of pieces."""
    found, at = b"", 0
    while at < len(text):
        piece = PIECE.match(text, at)
        if piece is None:
            raise ValueError("no bytes: " + text[at:])
        at = piece.end()
        found += bytes.fromhex(piece[1]) if piece[1] else (piece[2] or piece[3] or "").encode()
    return found


def read_played(names):
    """The stages of these files and their cases, each by its name: of a stage its lines, of a case its sessions, and of
    a session the names of its stages and its lines."""
    stages, cases, lines = {}, {}, None
    for name in names:
        with open(name, encoding="utf-8") as file:
            for line in file.read().split("\n"):
                word, _, rest = line.partition(" ")
                if word == "==":
                    sessions = cases[rest] = []
                elif word == "session":
                    lines = []
                    sessions.append((rest.split(), lines))
                elif word == "stage":
                    lines = stages[rest] = []
                elif line and not line.startswith("#"):
                    lines.append(line)
    return stages, cases


def played(program, stages, sessions):
    """Whether the program sends in each of these sessions what it says. What is otherwise is an error."""
    for number, (begin, lines) in enumerate(sessions, 1):
        session = Session()
        for line in [line for name in begin for line in stages[name]] + lines:
            session.add(line)
        other = differing(session, replayed(program, session.log()))
        if other:
            raise ValueError("session %d: %s" % (number, other))
    return bool(sessions)


def replayed(program, log):
    """The rows that the program prints of a log."""
    with tempfile.NamedTemporaryFile("w", prefix="played-", encoding="utf-8") as file:
        file.write(log)
        file.flush()
        how = {"stdin": subprocess.DEVNULL, "capture_output": True, "timeout": PATIENCE, "check": True}
        ran = subprocess.run([program, "replay", file.name], **how)
    return [json.loads(line) for line in ran.stdout.splitlines()]


def differing(session, rows):
    """What these rows of a log say otherwise than the session, if anything."""
    for side in SIDES:
        found = b"".join(bytes.fromhex(row[2]) for row in rows if row[:2] == ["out", side])
        due = session.sent[side]
        if found != due:
            at = len(os.path.commonprefix([found, due]))
            shown = tuple(text[at : at + SHOWN] for text in (found, due))
            return "the %s is sent at byte %d %r, and due is %r" % (side, at, *shown)
    endings = [row[1] for row in rows if row[0] == "ending"]
    return None if endings == [session.ending] else "its ending is %s, and due is %d" % (endings, session.ending)


def main():
    program = program_of(sys.argv[1:])
    stages, cases = read_played(sorted(glob.glob(os.path.join(PLAYED, "*.sessions"))))
    return tried((name, partial(played, program, stages, sessions)) for name, sessions in cases.items())


if __name__ == "__main__":
    plainly(main)
