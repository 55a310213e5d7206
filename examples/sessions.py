"""What the scripts share of a session with stops: a client that numbers what it asks and keeps the events that come
meanwhile, and the requests that a session begins with."""
import json
import os

from building import PATIENCE
from java_machine import EXAMPLES
from over_tcp import CAPABILITIES, compact, request

TERMINATED = {"event": "terminated"}
RUNS_ON = {"success": True, "body": {"allThreadsContinued": True}}
# Failures of numbers.
STALE, UNKNOWN, WRONG = (5, "stale"), (6, "unknownReference"), (7, "wrongKind")


def has_to_be(what, found, due):
    """Ends the case where something isn't as is due."""
    if found != due:
        raise ValueError("%s: %r, and due is %r" % (what, found, due))


def succeeded(body=None):
    """What a response says that succeeds."""
    return {"success": True} if body is None else {"success": True, "body": body}


def failed(code, name, detail=None):
    """What a response says that fails (DAP specification, Base Protocol, ErrorResponse)."""
    text = name if detail is None else "%s %d" % (name, detail)
    return {"success": False, "message": name, "body": {"error": {"format": text, "id": code}}}


def stopped(number, entries=None, **said):
    """The event of a stop at breakpoints with these ids, or of one that was asked for, or of one of which another thing
    is said (DAP specification, Events, Stopped)."""
    body = {"allThreadsStopped": True, "reason": "breakpoint" if entries else "pause", "threadId": number, **said}
    if entries:
        body["hitBreakpointIds"] = entries
    return {"event": "stopped", "body": body}


def bound(number, line):
    """The event of a breakpoint that is bound now (DAP specification, Events, Breakpoint)."""
    breakpoint = {"id": number, "line": line, "verified": True}
    return {"event": "breakpoint", "body": {"reason": "changed", "breakpoint": breakpoint}}


class Session:
    """A client's session. Each message that comes has to have the next number, and to be written as the program writes
    messages, so that it is known byte for byte where its parts are."""

    def __init__(self, client):
        self.client = client
        self.asked = 0
        self.told = 0
        # The events that came before a response, and what events told of threads: the reason and the number of each.
        self.waiting = []
        self.threads = []

    def receive(self):
        """The next message that is no event of a thread, without its number. Those of threads before it are kept."""
        while True:
            body = self.client.receive()
            self.told += 1
            message = json.loads(body)
            has_to_be("the text of a message", body, compact(message))
            has_to_be("the number of %r" % body, message.pop("seq"), self.told)
            if message.get("event") != "thread":
                return message
            self.threads.append((message["body"]["reason"], message["body"]["threadId"]))

    def ask(self, command, arguments=None):
        """Asks for something, and gives what the response says. Events that come before it wait."""
        return self.ask_all([(command, arguments)])[0]

    def ask_all(self, requests):
        """Asks for some things in one piece, and gives what the responses say, which come in the same order."""
        first = self.asked + 1
        self.asked += len(requests)
        self.client.send_all(request(first + place, *asked) for place, asked in enumerate(requests))
        return [self.answer(first + place, command) for place, (command, _) in enumerate(requests)]

    def answer(self, number, command):
        """What the next response says, which answers this request."""
        message = self.receive()
        while message["type"] == "event":
            self.waiting.append(message)
            message = self.receive()
        answers = {"type": "response", "request_seq": number, "command": command}
        has_to_be("the answer", {name: message.pop(name) for name in answers}, answers)
        return message

    def event(self):
        """The next event that is of no thread, without its type."""
        message = self.waiting.pop(0) if self.waiting else self.receive()
        has_to_be("the type of %r" % message, message.pop("type"), "event")
        return message

    def names(self):
        """The names of the threads by their numbers."""
        said = self.ask("threads")
        has_to_be("whether threads succeeds", said["success"], True)
        return {thread["id"]: thread["name"] for thread in said["body"]["threads"]}

    def number_of(self, name):
        """The number of the thread of a name."""
        return next((number for number, other in self.names().items() if other == name), None)


def line_of(source, text):
    """The number of the line of a source of this folder in which a text stands, and stands alone."""
    with open(os.path.join(EXAMPLES, source), encoding="utf-8") as file:
        (number,) = [number for number, line in enumerate(file, 1) if text in line]
    return number


def begin(session, source=None, lines=(), is_loaded=True, **options):
    """Begins a session of a client with these options, and with breakpoints in these lines of a source, bound at once
    where their class is loaded."""
    has_to_be("initialize", session.ask("initialize", {"adapterID": "jdwp", **options}), succeeded(CAPABILITIES))
    has_to_be("attach", session.ask("attach", {"sourceRoots": [EXAMPLES]}), succeeded())
    has_to_be("the event behind it", session.event(), {"event": "initialized"})
    if source:
        listed = {"path": os.path.join(EXAMPLES, source)}
        said = session.ask("setBreakpoints", {"source": listed, "breakpoints": [{"line": line} for line in lines]})
        left = {"verified": True} if is_loaded else {"verified": False, "message": "not bound yet"}
        due = [{"id": number, "line": line, **left} for number, line in enumerate(lines, 1)]
        has_to_be("setBreakpoints", said, succeeded({"breakpoints": due}))
    has_to_be("configurationDone", session.ask("configurationDone"), succeeded())


def go_on(session, number):
    """Lets the Java program run on from a stop."""
    has_to_be("continue", session.ask("continue", {"threadId": number}), RUNS_ON)


def hit(session, entries, **said):
    """The number of the thread that stopped at breakpoints with these ids, which the next event tells."""
    event = session.event()
    number = event.get("body", {}).get("threadId")
    has_to_be("the stop", event, stopped(number, entries, **said))
    return number


def stack(session, number, **window):
    """The frames of a thread that are shown, all of them or a window, and how many it has (DAP specification,
    StackTrace request)."""
    said = session.ask("stackTrace", {"threadId": number, **window})
    has_to_be("whether stackTrace succeeds", said["success"], True)
    has_to_be("what it shows", sorted(said["body"]), ["stackFrames", "totalFrames"])
    return said["body"]["stackFrames"], said["body"]["totalFrames"]


def ask_of(session, command, number, **window):
    """What a response says of the frame or the thing of a number."""
    return session.ask(command, {"frameId" if command == "scopes" else "variablesReference": number, **window})


def scope(number):
    """The variables of a frame, under a number (DAP specification, Types, Scope)."""
    told = {"expensive": False, "name": "Locals", "presentationHint": "locals", "variablesReference": number}
    return {"scopes": [told]}


def children(session, number, **window):
    """What a thing holds, all of it or a window (DAP specification, Variables request)."""
    said = ask_of(session, "variables", number, **window)
    if not said["success"]:
        raise ValueError("variables of %d: %r" % (number, said))
    has_to_be("what it shows", list(said["body"]), ["variables"])
    return said["body"]["variables"]


def ended(java, bridge, session):
    """What the Java program prints up to its end, which it comes to by itself, and which is told."""
    has_to_be("the event at the end", session.event(), TERMINATED)
    return left(java, bridge, session)


def leaves(bridge, session):
    """The client disconnects, and the program ends."""
    has_to_be("disconnect", session.ask("disconnect"), succeeded())
    client = session.client
    has_to_be("what comes behind its response", client.rest + client.stream.recv(1), b"")
    client.close()
    says(bridge, b"ended 0 done\n", 0)


def says(bridge, line, status):
    """The program ends with this line and status."""
    said, _ = bridge.process.communicate(timeout=PATIENCE)
    has_to_be("the program's line and status", (said, bridge.process.returncode), (line, status))


def left(java, bridge, session):
    """What the Java program prints up to its end. The client disconnects, and the program ends."""
    leaves(bridge, session)
    printed, status = java.end()
    has_to_be("the status of the Java program", status, 0)
    return printed
