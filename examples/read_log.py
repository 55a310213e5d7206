#!/usr/bin/env python3
"""A session log as a person reads it: a line for each message, with who said it and the line of the log that it ends in.

    6 editor  > request 2 attach {"sourceRoots":["/home/ada/shop"]}
    7 machine < command 1 VirtualMachine.IDSizes
    9 machine > reply 1 VirtualMachine.IDSizes, 20 bytes
   12 machine > event, suspends all: Breakpoint of request 7
   13 editor  < event stopped {"allThreadsStopped":true,"reason":"breakpoint","threadId":1}
   14           nothing came, 15 waits long

What the editor says is a message of the Debug Adapter Protocol, what the machine says a packet of the Java Debug Wire
Protocol. A wait in vain is 4 ms long at most. Long messages are cut short, unless --whole asks for all of each.

usage: examples/read_log.py LOG [--whole]
"""
import json
import os
import struct
import sys

from building import plainly, stop

# how many characters of a message are printed
FRONT = 200
# The names of commands, by set and number (Java Debug Wire Protocol Specification).
COMMANDS = {
    1: ("VirtualMachine", "Version ClassesBySignature AllClasses AllThreads TopLevelThreadGroups Dispose IDSizes Suspend "
        "Resume Exit CreateString Capabilities ClassPaths DisposeObjects HoldEvents ReleaseEvents CapabilitiesNew "
        "RedefineClasses SetDefaultStratum AllClassesWithGeneric InstanceCounts AllModules"),
    2: ("ReferenceType", "Signature ClassLoader Modifiers Fields Methods GetValues SourceFile NestedTypes Status "
        "Interfaces ClassObject SourceDebugExtension SignatureWithGeneric FieldsWithGeneric MethodsWithGeneric Instances "
        "ClassFileVersion ConstantPool Module"),
    3: ("ClassType", "Superclass SetValues InvokeMethod NewInstance"),
    4: ("ArrayType", "NewInstance"),
    5: ("InterfaceType", "InvokeMethod"),
    6: ("Method", "LineTable VariableTable Bytecodes IsObsolete VariableTableWithGeneric"),
    9: ("ObjectReference", "ReferenceType GetValues SetValues - MonitorInfo InvokeMethod DisableCollection "
        "EnableCollection IsCollected ReferringObjects"),
    10: ("StringReference", "Value"),
    11: ("ThreadReference", "Name Suspend Resume Status ThreadGroup Frames FrameCount OwnedMonitors "
         "CurrentContendedMonitor Stop Interrupt SuspendCount OwnedMonitorsStackDepthInfo ForceEarlyReturn"),
    12: ("ThreadGroupReference", "Name Parent Children"),
    13: ("ArrayReference", "Length GetValues SetValues"),
    14: ("ClassLoaderReference", "VisibleClasses"),
    15: ("EventRequest", "Set Clear ClearAllBreakpoints"),
    16: ("StackFrame", "GetValues SetValues ThisObject PopFrames"),
    17: ("ClassObjectReference", "ReflectedType"),
    18: ("ModuleReference", "Name ClassLoader"),
}
COMPOSITE = (64, 100)
# The kinds of events, and the sizes of what is told of each behind its request: t for a thread, l for a location, r for
# a type behind its tag, s for a text, i for 4 bytes, o for an object behind its tag.
EVENTS = {
    1: ("SingleStep", "tl"), 2: ("Breakpoint", "tl"), 4: ("Exception", "tlol"), 6: ("ThreadStart", "t"),
    7: ("ThreadDeath", "t"), 8: ("ClassPrepare", "trsi"), 9: ("ClassUnload", "s"), 40: ("MethodEntry", "tl"),
    41: ("MethodExit", "tl"), 90: ("VMStart", "t"), 99: ("VMDeath", ""),
}
ERRORS = {
    10: "INVALID_THREAD", 11: "INVALID_THREAD_GROUP", 13: "THREAD_NOT_SUSPENDED", 14: "THREAD_SUSPENDED",
    20: "INVALID_OBJECT", 21: "INVALID_CLASS", 22: "CLASS_NOT_PREPARED", 23: "INVALID_METHODID", 24: "INVALID_LOCATION",
    25: "INVALID_FIELDID", 30: "INVALID_FRAMEID", 31: "NO_MORE_FRAMES", 32: "OPAQUE_FRAME", 34: "TYPE_MISMATCH",
    35: "INVALID_SLOT", 41: "NOT_FOUND", 99: "NOT_IMPLEMENTED", 100: "NULL_POINTER", 101: "ABSENT_INFORMATION",
    102: "INVALID_EVENT_TYPE", 103: "ILLEGAL_ARGUMENT", 110: "OUT_OF_MEMORY", 112: "VM_DEAD", 113: "INTERNAL",
    502: "INVALID_TAG", 504: "INVALID_INDEX", 506: "INVALID_STRING", 508: "INVALID_ARRAY", 512: "NATIVE_METHOD",
    514: "INVALID_COUNT",
}
POLICIES = ("suspends none", "suspends its thread", "suspends all")
GREETING = b"JDWP-Handshake"
# the sizes of ids of fields, methods, objects, types and frames, until the machine tells them
SIZES = (8, 8, 8, 8, 8)
NAMES = {"client": "editor ", "target": "machine"}


def name_of(command):
    """The name of a command."""
    group, rest = COMMANDS.get(command[0], ("set %d" % command[0], ""))
    names = rest.split()
    if 0 < command[1] <= len(names) and names[command[1] - 1] != "-":
        return "%s.%s" % (group, names[command[1] - 1])
    return "%d.%d" % command


class Broken(Exception):
    """Bytes that no message has there."""


class Frames:
    """The messages of one side of the Debug Adapter Protocol."""

    def take(self, rest):
        """The next message, and the bytes behind it; nothing where none is whole."""
        header, found, behind = rest.partition(b"\r\n\r\n")
        if not found:
            return None, rest
        lengths = [line.partition(b":")[2] for line in header.split(b"\r\n")
                   if line.lower().startswith(b"content-length:")]
        if len(lengths) != 1 or not lengths[0].strip().isdigit():
            raise Broken
        length = int(lengths[0])
        if len(behind) < length:
            return None, rest
        return self.told(behind[:length]), behind[length:]

    @staticmethod
    def told(body):
        """A message in words."""
        try:
            message = json.loads(body.decode())
            kind = message["type"]
            if kind == "request":
                return with_more("request %d %s" % (message["seq"], message["command"]), message.get("arguments"))
            if kind == "event":
                return with_more("event %s" % message["event"], message.get("body"))
            front = "response to %d %s" % (message["request_seq"], message["command"])
            if not message["success"]:
                return "%s: failed, %s" % (front, message.get("message", "with no reason"))
            return with_more(front, message.get("body"))
        except (UnicodeDecodeError, ValueError, TypeError, KeyError):
            return "no message: %s" % body.decode(errors="replace")


def with_more(front, value):
    """What a message has beside its name, as compact JSON."""
    if value is None:
        return front
    return "%s %s" % (front, json.dumps(value, separators=(",", ":"), ensure_ascii=False))


class Packets:
    """The packets of one side of the Java Debug Wire Protocol. Both sides share the commands that have no reply yet, and
    the sizes of ids."""

    def __init__(self, shared):
        self.shared = shared
        self.greeted = False

    def take(self, rest):
        if not self.greeted:
            return self.greeting(rest)
        if len(rest) < 11:
            return None, rest
        length, number, flags, first, second = struct.unpack(">IIBBB", rest[:11])
        if length < 11 or flags not in (0, 0x80):
            raise Broken
        if len(rest) < length:
            return None, rest
        body, behind = rest[11:length], rest[length:]
        if flags:
            return self.reply(number, first * 256 + second, body), behind
        return self.command(number, (first, second), body), behind

    def greeting(self, rest):
        if len(rest) < len(GREETING):
            return None, rest
        if not rest.startswith(GREETING):
            raise Broken
        self.greeted = True
        return "handshake", rest[len(GREETING):]

    def command(self, number, command, body):
        if command == COMPOSITE:
            return self.composite(body)
        name = name_of(command)
        self.shared["pending"][number] = name
        return "command %d %s%s" % (number, name, ", %d bytes" % len(body) if body else "")

    def reply(self, number, error, body):
        name = self.shared["pending"].pop(number, "to no command")
        if error:
            return "reply %d %s: error %d%s" % (number, name, error, " " + ERRORS[error] if error in ERRORS else "")
        if name == "VirtualMachine.IDSizes" and len(body) == 20:
            self.shared["sizes"] = struct.unpack(">5I", body)
        return "reply %d %s%s" % (number, name, ", %d bytes" % len(body) if body else "")

    def composite(self, body):
        if len(body) < 5 or body[0] > 2:
            return "event, %d bytes" % len(body)
        count = struct.unpack(">I", body[1:5])[0]
        return "event, %s: %s" % (POLICIES[body[0]], ", ".join(self.events(body[5:], count)) or "nothing")

    def events(self, rest, count):
        """The events of a composite, up to the first whose kind isn't known."""
        for at in range(count):
            kind, parts = EVENTS.get(rest[0], (None, "")) if rest else (None, "")
            if kind is None or len(rest) < 5:
                yield "and %d more" % (count - at)
                return
            request = struct.unpack(">I", rest[1:5])[0]
            rest, text = self.parts(rest[5:], parts)
            yield "%s of request %d%s" % (kind, request, text) if request else "%s%s" % (kind, text)

    def parts(self, rest, parts):
        """What stands behind the parts of an event, and the name of its type, where it has one."""
        _, methods, objects, types, _ = self.shared["sizes"]
        sizes = {"t": objects, "l": 1 + types + methods + 8, "r": 1 + types, "i": 4, "o": 1 + objects}
        text = ""
        for part in parts:
            if part == "s":
                length = struct.unpack(">I", rest[:4].rjust(4, b"\0"))[0]
                text = " " + rest[4 : 4 + length].decode(errors="replace")
                rest = rest[4 + length :]
            else:
                rest = rest[sizes[part] :]
        return rest, text


class Stream:
    """One direction of one side: its bytes that are no whole message yet."""

    def __init__(self, cutter):
        self.cutter = cutter
        self.rest = b""
        self.broken = False

    def messages(self, piece):
        """The messages that end in a piece, each in words."""
        if self.broken:
            yield "%d bytes behind them" % len(piece)
            return
        self.rest += piece
        while True:
            try:
                told, self.rest = self.cutter.take(self.rest)
            except Broken:
                self.broken = True
                yield "bytes that no message has: %s" % self.rest[:16].hex()
                return
            if told is None:
                return
            yield told


def lines_of(rows):
    """A log in words: the number of each line that says something, and what."""
    shared = {"pending": {}, "sizes": SIZES}
    streams = {(way, "client"): Stream(Frames()) for way in ("in", "out")}
    streams.update({(way, "target"): Stream(Packets(shared)) for way in ("in", "out")})
    for number, row in enumerate(rows, 1):
        if row[0] in ("in", "out"):
            sign = ">" if row[0] == "in" else "<"
            for told in streams[row[0], row[1]].messages(bytes.fromhex(row[2])):
                yield number, "%s %s %s" % (NAMES[row[1]], sign, told)
        elif row[0] == "shut":
            yield number, "%s   its stream ended" % NAMES[row[1]]
        elif row[0] == "failed":
            yield number, "%s   its link failed" % NAMES[row[1]]
        elif row[0] == "quiet":
            count = row[1] if len(row) > 1 else 1
            yield number, "          nothing came, %d wait%s long" % (count, "" if count == 1 else "s")
        elif row[0] == "limits":
            yield number, "limits: %d turns, %d waits that follow each other, %d items that wait" % tuple(row[1:4])
        elif row[0] == "ending":
            yield number, "ended with status %d" % row[1]
    for (way, side), stream in streams.items():
        if stream.rest and not stream.broken:
            sign = ">" if way == "in" else "<"
            yield len(rows), "%s %s %d bytes of a message that is not whole" % (NAMES[side], sign, len(stream.rest))


def main():
    words = [word for word in sys.argv[1:] if word != "--whole"]
    if len(words) != 1:
        stop("usage: examples/read_log.py LOG [--whole]")
    with open(words[0], encoding="utf-8") as file:
        rows = [json.loads(line) for line in file]
    if not rows or not isinstance(rows[0], list) or rows[0][:1] != ["log"]:
        stop("%s is no session log" % words[0])
    try:
        for number, line in lines_of(rows):
            print("%5d %s" % (number, line if "--whole" in sys.argv or len(line) <= FRONT else line[:FRONT] + " ..."))
        sys.stdout.flush()
    except BrokenPipeError:
        # Its reader has seen enough.
        os.dup2(os.open(os.devnull, os.O_WRONLY), sys.stdout.fileno())
    return 0


if __name__ == "__main__":
    plainly(main)
