#!/usr/bin/env python3
"""Hostile use, in tables over one session: each table changes one thing of it, everywhere in turn, and what is due then
is worked out here, from the session and from where the change stands. Each case is kept or broken.

- The session itself: what `script` prints of `examples/scripts/worked.script`, and what the rules give, message by
  message (`examples/played/worked.sessions`), is `examples/scripts/worked.log`.
- Each side's stream ends behind each of its bytes, one after the other.
- Each of the first 200 bytes of each side is 0xFF: by `replay` for the log, and over sockets for the line, with the
  offset of the fault.
- Each thing that comes is, in its place, the end or the failure of a side.

What is due is a whole log, last words and ending with it; where a session may go on in ways of its own, its front.

usage: examples/hostile.py [PROGRAM]
"""
import json
import os
import subprocess
import sys
import tempfile
from concurrent.futures import ThreadPoolExecutor
from functools import partial
from typing import NamedTuple

from building import PATIENCE, TOP, plainly, program_of, tried
from ended_runs import log_of, ran
from many_threads import receive
from over_tcp import Bridge, compact, event, framed, response
from played_sessions import PLAYED, SIDES, message
from sessions import failed, has_to_be

SCRIPT = os.path.join(TOP, "examples", "scripts", "worked.script")
LOG = os.path.join(TOP, "examples", "scripts", "worked.log")
SESSION = os.path.join(PLAYED, "worked.sessions")
# How many bytes of each side are replaced, and by which.
REPLACED, BYTE = 200, 0xFF
HANDSHAKE = b"JDWP-Handshake"
# How long the front of a packet is (JDWP, JDWP Packets).
HEADER = 11
# The commands whose refusal ends a session, and that by which a target is left (JDWP, VirtualMachine command set).
ESSENTIAL = ((1, 7), (1, 3), (1, 8), (1, 9), (15, 2))
DISPOSE = (1, 6)
GONE = failed(10, "targetGone")
# The parts of the bodies of replies: t a type tag, i an id of 8 bytes, n 4 bytes, s a text; what stands in brackets is
# a list (JDWP, Detailed Command Information).
ID_SIZES, SET = (1, 7), (15, 1)
BODIES = {ID_SIZES: "nnnnn", SET: "n", (1, 3): "[tisn]", (2, 7): "s", (2, 5): "[issn]"}
SIZES = {"t": 1, "i": 8, "n": 4, "s": 4}
# The endings of a session that goes on after a change: done, left, or a reply that has no command any more.
MAY_GO_ON = (0, 1, 4)


class Due(NamedTuple):
    """What a session is due to log, and the line of `serve`; without a whole log the session may go on behind this
    front."""
    rows: list
    is_whole: bool = True
    line: str = ""


class Place:
    """Where a session stands behind a front of its log."""

    def __init__(self, rows):
        self.told, self.sent, self.asked, self.names = 0, 0, {}, set()
        for way, side, *rest in rows:
            if way == "in" and side == "client":
                self.hear(body_of(bytes.fromhex(rest[0])))
            elif way == "out" and side == "client":
                self.tell(body_of(bytes.fromhex(rest[0])))
            elif way == "out":
                self.sent += bytes.fromhex(rest[0]) != HANDSHAKE

    def hear(self, body):
        if body is not None:
            self.asked[body["seq"]] = body["command"]

    def tell(self, body):
        self.told = body["seq"]
        self.asked.pop(body.get("request_seq"), None)
        self.names.add(body.get("event"))

    def is_attached(self):
        """The client was told `initialized`, and no end of the target."""
        return "initialized" in self.names and "terminated" not in self.names

    def next(self):
        self.told += 1
        return self.told

    def answer(self, number, said):
        """A response to a request, which isn't asked any more."""
        command = self.asked.pop(number)
        head = {"seq": self.next(), "type": "response", "request_seq": number, "command": command}
        return ["out", "client", framed(compact({**head, **said})).hex()]

    def terminated(self):
        return ["out", "client", framed(event(self.next(), "terminated")).hex()]

    def last_words(self, ending):
        """What is said behind the cause of an ending: to the client, then to the target."""
        words = []
        if ending in (4, 6, 11):
            words += [self.answer(number, GONE) for number in list(self.asked)]
            words += [] if "terminated" in self.names else [self.terminated()]
        if ending in (1, 3, 5, 11) and self.is_attached():
            words.append(["out", "target", command_packet(self.sent + 1, *DISPOSE).hex()])
        return words


def body_of(piece):
    """The message of a piece that is one whole frame, or none."""
    header, _, body = piece.partition(b"\r\n\r\n")
    return json.loads(body) if header == b"Content-Length: %d" % len(body) else None


def command_packet(number, group, command):
    return message("command %d %d.%d" % (number, group, command))


def ended_by(rows, status, line=""):
    """A session that ends behind these rows, with its last words."""
    return Due([*rows, *Place(rows).last_words(status), ["ending", status]], line=line)


def without_target(rows, rest):
    """A session whose target's stream ends behind these rows, while the client goes on with the rest: what it asked and
    asks fails, but for a `disconnect`, and it is told once that the target is gone."""
    place = Place(rows)
    due = [*rows, ["shut", "target"]]
    if "disconnect" in place.asked.values():
        return Due([*due, *answered(place), ["ending", 0]])
    due += answered(place) + [place.terminated()]
    for row in rest:
        if row[:2] == ["in", "client"]:
            place.hear(body_of(bytes.fromhex(row[2])))
            is_last = "disconnect" in place.asked.values()
            due += [row, *answered(place)]
            if is_last:
                return Due([*due, ["ending", 0]])
    return Due([*due, ["shut", "client"], ["ending", 1]])


def answered(place):
    """The responses to all that was asked, of a target that is gone."""
    return [place.answer(number, {"success": True} if command == "disconnect" else GONE)
            for number, command in list(place.asked.items())]


def fault_of(command, body):
    """The fault of a reply's body and its place there, or none (JDWP, JDWP Packets, data types)."""
    parts, at, rows = BODIES[command], 0, 1
    if parts[0] == "[":
        parts, at, rows = parts[1:-1], 4, signed(body[:4])
        if rows < 0:
            return "BadCount", 0
    for part in (part for _ in range(rows) for part in parts):
        size = SIZES[part]
        if len(body) - at < size:
            return "Short", at
        if part == "t" and body[at] > 3:
            return "BadTag", at
        if part == "s":
            size += signed(body[at : at + 4])
            if size < SIZES[part]:
                return "BadCount", at
            if len(body) - at < size:
                return "Short", at
        at += size
    if at < len(body):
        return "Trailing", at
    if command == ID_SIZES:
        for place in range(0, len(body), 4):
            if not 1 <= signed(body[place : place + 4]) <= 8:
                return "BadSizes", place
    return None, 0


def signed(number):
    return int.from_bytes(number, "big", signed=True)


class Worked:
    """The session: its rows, and of each side the places of its bytes."""

    def __init__(self):
        with open(LOG, encoding="ascii") as file:
            self.text = file.read()
        self.rows = [json.loads(line) for line in self.text.splitlines()][2:-2]
        self.comes = [at for at, row in enumerate(self.rows) if row[0] == "in"]

    def bytes_of(self, side):
        """Each byte of a side: its row, and its place in that."""
        return [(at, place) for at in self.comes if self.rows[at][1] == side
                for place in range(len(self.rows[at][2]) // 2)]

    def piece(self, at):
        return bytes.fromhex(self.rows[at][2])

    def command_of(self, number):
        """The numbers of the command with this id."""
        for row in self.rows:
            packet = bytes.fromhex(row[2])
            if row[:2] == ["out", "target"] and packet != HANDSHAKE and int.from_bytes(packet[4:8], "big") == number:
                return tuple(packet[9:11])
        raise LookupError("no command has the id %d" % number)

    # Streams that end ------------------------------------------------------------------------------------------------

    def cut(self, side, at, place):
        """The stream of a side ends behind some bytes of a piece."""
        begun = [["in", side, self.piece(at)[:place].hex()]] if place else []
        front, rest = self.rows[:at] + begun, self.rows[at + 1 :]
        given = [*front, ["shut", side], *(row for row in rest if row[1] != side)]
        due = ended_by([*front, ["shut", side]], 1) if side == "client" else without_target(front, rest)
        return given, due

    # Bytes that are replaced -----------------------------------------------------------------------------------------

    def replaced(self, side, at, place, offset):
        """A byte of a piece is another; it stands at this offset of its side's stream."""
        piece = bytearray(self.piece(at))
        piece[place] = BYTE
        front = [*self.rows[:at], ["in", side, piece.hex()]]
        given = [*front, *self.rows[at + 1 :]]
        told = self.by_client if side == "client" else self.by_target
        return given, told(front, at, place, offset, bytes(piece))

    def by_client(self, front, at, place, offset, _):
        """A frame that has the byte 0xFF (DAP overview, Base protocol): no name has it and no length, and no text in
        UTF-8."""
        piece, before = self.piece(at), self.rows[:at]
        behind_name, length_ends = piece.index(b":") + 1, piece.index(b"\r")
        body = piece.index(b"\r\n\r\n") + 4
        if place >= body:
            fault, offset = "NotJson", offset - place + body
        else:
            fault = "BadLength" if behind_name <= place <= length_ends else "BadHeader"
        rows = [*front, *Place(before).last_words(3), ["ending", 3]]
        return Due(rows, line="ended 3 client %s at %d" % (fault, offset))

    def by_target(self, front, at, place, offset, piece):
        """The handshake or a reply that has the byte 0xFF (JDWP, JDWP Packets)."""
        begin = offset - place
        if begin == 0:
            return bad_target(front, "BadHandshake", offset)
        if place == 0:
            return bad_target(front, "TooLong", begin)
        if place in (1, 2):
            return self.starved(front, at)
        if place == 3:
            return self.swallowing(front, at, begin)
        if place < 8:
            return bad_target(front, "UnknownReply", begin, " id %d" % int.from_bytes(piece[4:8], "big"))
        if place == 8:
            return bad_target(front, "BadFlags", begin)
        command = self.command_of(int.from_bytes(piece[4:8], "big"))
        if place < HEADER:
            return self.refused(front, at, command, int.from_bytes(piece[9:11], "big"))
        fault, where = fault_of(command, piece[HEADER:])
        if fault:
            return bad_target(front, fault, begin + HEADER + where)
        return self.unheeded(front, at) if command == SET else Due(front, is_whole=False)

    def refused(self, front, at, command, error):
        """An error that no target has. Nothing rests on the event requests of threads, which are the first two."""
        if command in ESSENTIAL:
            return ended_by(front, 11, "ended 11 refused %d.%d error %d" % (*command, error))
        is_of_threads = command == SET and not Place(front).is_attached()
        return self.unheeded(front, at) if is_of_threads else Due(front, is_whole=False)

    def unheeded(self, front, at):
        """All else is as it was: an event request that isn't cleared may have any number."""
        return Due([*front, *self.rows[at + 1 :], ["ending", 0]])

    def starved(self, front, at):
        """A packet waits for bytes that don't come: so does the request in hand, until the client's stream ends."""
        comes = [row for row in self.rows[at + 1 :] if row[0] == "in"]
        return ended_by([*front, *comes, ["shut", "client"]], 1)

    def swallowing(self, front, at, begin):
        """A packet of 255 bytes swallows those behind it: all its parts are read, and bytes are left."""
        due, length = list(front), len(self.piece(at))
        have = length
        for row in self.rows[at + 1 :]:
            if have >= BYTE:
                break
            if row[0] == "in":
                due.append(row)
                have += len(row[2]) // 2 if row[1] == "target" else 0
        return bad_target(due, "Trailing", begin + length)

    # Other things that come ------------------------------------------------------------------------------------------

    def otherwise(self, word, side, at):
        """In place of what comes here a side's stream ends, or its link fails."""
        front, rest = self.rows[:at], self.rows[at + 1 :]
        given = [*front, [word, side], *(row for row in rest if row[1] != side)]
        if (word, side) == ("shut", "target"):
            return given, without_target(front, rest)
        status = {("shut", "client"): 1, ("failed", "client"): 5, ("failed", "target"): 6}[word, side]
        return given, ended_by([*front, [word, side]], status)


def bad_target(rows, fault, offset, more=""):
    return ended_by(rows, 4, "ended 4 target %s at %d%s" % (fault, offset, more))


# Runs ----------------------------------------------------------------------------------------------------------------


def is_replayed(program, what, given, due):
    """What comes in these rows gives the log that is due."""
    with tempfile.NamedTemporaryFile(prefix="hostile-") as file:
        file.write(log_of(*given).encode())
        file.flush()
        status, printed = ran(program, ["replay", file.name])
    has_to_be("the status of %s" % what, status, 0)
    if due.is_whole:
        has_to_be(what, printed, log_of(*due.rows))
        return
    rows = [json.loads(line) for line in printed.splitlines()]
    has_to_be("the front of %s" % what, rows[2 : 2 + len(due.rows)], due.rows)
    has_to_be("the ending of %s" % what, rows[-2][0] == "ending" and rows[-2][1] in MAY_GO_ON, True)


def is_served(program, what, due):
    """Over sockets the same ends with the line that is due. What is due behind the last thing that comes isn't looked
    at: what comes of two links together may be taken up in either order."""
    last = max(at for at, row in enumerate(due.rows) if row[0] == "in")
    with Bridge(program, subprocess.PIPE) as bridge:
        client = bridge.client()
        links = {"client": client.stream, "target": bridge.target}
        for way, side, piece in due.rows[: last + 1]:
            said = bytes.fromhex(piece)
            if way == "in":
                links[side].sendall(said)
            else:
                has_to_be("what the %s is sent" % side, receive(links[side], len(said)), said)
        line = bridge.process.stdout.readline().decode()
        client.close()
        bridge.target.close()
        has_to_be("the line of %s" % what, line, due.line + "\n")
        has_to_be("the status of %s" % what, bridge.status(), int(due.line.split()[1]))


def all_of(rows, call):
    """Calls it with each of these, some at a time."""
    with ThreadPoolExecutor(os.cpu_count()) as pool:
        return sum(1 for _ in pool.map(lambda row: call(*row), rows)) > 0


def the_session_is_that_of_the_rules(worked, program):
    has_to_be("what is printed of the script", ran(program, ["script", SCRIPT]), (0, worked.text))
    rows = []
    with open(SESSION, encoding="utf-8") as file:
        for line in file.read().splitlines():
            word, _, rest = line.partition(" ")
            if word in SIDES:
                rows.append(["in", word, message(rest).hex()])
            elif word in ("told", "sent"):
                rows.append(["out", SIDES[word == "sent"], message(rest).hex()])
    has_to_be("the log", worked.text == log_of(*rows, ["ending", 0]), True)
    return True


def streams_end(worked, side, program):
    def ends(number, at, place):
        is_replayed(program, "the end of the %s's bytes behind %d" % (side, number), *worked.cut(side, at, place))

    return all_of([(number, *where) for number, where in enumerate(worked.bytes_of(side))], ends)


def bytes_are_replaced(worked, side, program):
    def other(offset, at, place):
        given, due = worked.replaced(side, at, place, offset)
        is_replayed(program, "byte %d of the %s" % (offset, side), given, due)
        if due.line:
            is_served(program, "byte %d of the %s" % (offset, side), due)

    return all_of([(number, *where) for number, where in enumerate(worked.bytes_of(side)[:REPLACED])], other)


def things_come_otherwise(worked, word, side, program):
    def other(at):
        is_replayed(program, "%s %s in place of row %d" % (word, side, at), *worked.otherwise(word, side, at))

    return all_of([(at,) for at in worked.comes], other)


def main():
    program = program_of(sys.argv[1:])
    worked = Worked()
    cases = [("the_session_is_that_of_the_rules", partial(the_session_is_that_of_the_rules, worked, program))]
    for side in SIDES:
        cases.append(("the_stream_of_the_%s_ends_anywhere" % side, partial(streams_end, worked, side, program)))
        cases.append(("any_byte_of_the_%s_is_replaced" % side, partial(bytes_are_replaced, worked, side, program)))
        for word, name in (("shut", "ends"), ("failed", "fails")):
            cases.append(("the_link_of_the_%s_%s_instead" % (side, name),
                          partial(things_come_otherwise, worked, word, side, program)))
    return tried(cases)


if __name__ == "__main__":
    plainly(main)
