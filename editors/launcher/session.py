"""One session of an editor.

All that happens is taken up in one thread, in order. The editor's requests are served one after the other, each by a
generator: it gives a request for the bridge, and is sent the response; or `WORK`, and is sent what a call has come to
that takes long. Both sides get numbers of the launcher's, so that its own requests may stand between those of the
editor. What it doesn't know it hands on.
"""
import queue
import shutil
import sys
import tempfile
import threading
from collections import deque
from functools import partial

from .bridge import LEAVE, Bridge, Trouble, capabilities, free_port
from .filters import LIBRARY, Filters, Stepping, top
from .keeper import end_all
from .lists import LISTED, Lists
from .program import Program, planned
from .sources import Sources
from .views import Views
from .wire import EditorGone, Unreadable, arguments_of, event, failed, request, succeeded

WORK = object()
# How long the end of a program may take behind that of its Java machine, where it is that machine, in seconds.
SETTLE = 2
# How many pieces of output wait for the editor at most.
PIECES = 64
# With these the stop is over.
RESUMES = ("continue", "next", "stepIn", "stepOut", "configurationDone")
# What of a `launch` or an `attach` is for the launcher alone.
OWN = ("main", "test", "run", "build", "buildArgs", "args", "vmArgs", "classPath", "cwd", "env", "target",
       "stopOnEntry", "findSources", "stepFilters", "decimals", "collections")


class Session:
    """A session, from the first request to the end of all that was started for it."""

    def __init__(self, reader, writer, chosen, keeper):
        self.reader, self.writer, self.chosen, self.keeper = reader, writer, chosen, keeper
        self.happenings, self.room = queue.SimpleQueue(), threading.Semaphore(PIECES)
        # The requests that wait for their turn, with what serves each, and the one in hand, and what that waits for.
        self.waiting = deque()
        self.asking, self.task, self.awaited = None, None, None
        self.hello = None
        self.bridge, self.program, self.port, self.scratch, self.worker = None, None, None, None, None
        self.attached, self.is_told_of_the_end, self.is_over = False, False, False
        self.status, self.ended_with = None, None
        # The function in which the program is stopped as it begins, until it is.
        self.lists, self.stepping, self.entry = Lists(), None, None
        # Whether a step's stop is looked at that the editor isn't told of yet, and whether it has asked for one since.
        self.is_held, self.is_paused = False, False
        self.choose({})

    def choose(self, arguments):
        """Takes the switches from these arguments. Without them all that only helps is on."""
        chosen = (lambda name: False) if self.chosen.plain else (lambda name: arguments.get(name, True))
        roots = arguments.get("sourceRoots")
        is_good = isinstance(roots, list) and all(isinstance(root, str) for root in roots)
        self.sources = Sources(roots if is_good else [])
        self.finds_sources = chosen("findSources")
        patterns = chosen("stepFilters")
        patterns = patterns if isinstance(patterns, list) else LIBRARY if patterns else []
        self.filters = Filters([str(pattern) for pattern in patterns], self.sources) if patterns else None
        self.views = Views(chosen("decimals"), chosen("collections"))

    # What happens, told by the threads and taken up in this one.

    def tell(self, name, *details):
        if name == "output":
            # A program that prints faster than the editor reads has to wait.
            self.room.acquire()
        self.happenings.put((name, details))

    def run(self):
        """Serves the session, and gives the bridge's status."""
        threading.Thread(target=self.read, daemon=True).start()
        try:
            while not self.is_over:
                name, details = self.happenings.get()
                getattr(self, "on_" + name)(*details)
                self.take_turns()
        except EditorGone:
            pass
        finally:
            self.close()
        return 1 if self.status is None else self.status

    def read(self):
        """Tells what the editor says."""
        try:
            for message in iter(self.reader.message, None):
                self.tell("editor", message)
        except Unreadable as trouble:
            self.tell("unreadable", trouble.rest)
        except OSError:
            pass
        self.tell("editor_end")

    def on_editor(self, message):
        if message["type"] != "request":
            if self.bridge:
                self.bridge.send(message)
            return
        self.waiting.append((message, self.served(message)))
        if message["command"] == "disconnect":
            # One that its turn doesn't come to is answered all the same; a start is given up for it.
            if self.awaited is WORK and (not self.asking or self.asking["command"] != "initialize"):
                self.on_too_late()
            self.later(LEAVE, "too_late")

    def on_unreadable(self, rest):
        if self.bridge:
            # The bridge says what is wrong with it, and ends.
            self.bridge.send_bytes(rest)
        else:
            print("the editor sent what is no message of the Debug Adapter Protocol", file=sys.stderr)

    def on_editor_end(self):
        if self.bridge:
            self.bridge.leave()
            self.later(LEAVE, "too_late")
        else:
            self.is_over = True

    def on_too_late(self):
        """Ends the session without the bridge's answers."""
        waiting = [self.asking, *(message for message, _ in self.waiting)]
        self.waiting.clear()
        for message in filter(None, waiting):
            is_last = message["command"] == "disconnect"
            self.answer(message, succeeded() if is_last else failed("the session ended before this was done", 10))
        self.asking, self.task = None, None
        self.is_over = True

    def on_bridge(self, bridge, message):
        if bridge is not self.bridge:
            return
        if message["type"] == "response":
            if message.get("request_seq") == self.awaited:
                self.step(message)
        elif message.get("event") in EVENTS:
            EVENTS[message["event"]](self, message)
        else:
            self.writer.send(message)

    def on_bridge_end(self, bridge):
        if bridge is self.bridge:
            self.bridge = None
            self.status = bridge.end()
            if self.task and self.awaited is not WORK:
                self.step(failed("targetGone", 10))
            if self.attached:
                self.tell_end()
            self.is_over = True

    def on_worked(self, *result):
        if self.awaited is WORK:
            self.step(result)

    def on_output(self, category, text):
        self.room.release()
        self.show(category, text)

    def show(self, category, text):
        if text:
            self.writer.send(event("output", {"category": category, "output": text}))

    def on_program_end(self, program, status):
        if program is self.program:
            self.ended_with = status
            if program.is_left:
                self.tell_end()

    def later(self, seconds, name, *details):
        timer = threading.Timer(seconds, self.tell, (name, *details))
        timer.daemon = True
        timer.start()

    # Requests, one after the other.

    def served(self, message):
        if message["command"] in SERVED:
            return SERVED[message["command"]](self, message)
        return self.passed(message)

    def take_turns(self):
        while not self.task and self.waiting and not self.is_over:
            self.asking, self.task = self.waiting.popleft()
            self.step(None)

    def step(self, said):
        """Lets what is in hand go on with what it waited for, up to what it waits for next, or to its end."""
        self.awaited = None
        try:
            asked = self.task.send(said)
            while asked is not WORK and not self.bridge:
                asked = self.task.send(failed("targetGone", 10) if self.attached else failed("notAttached", 3))
            self.awaited = asked if asked is WORK else self.bridge.send(asked)
        except StopIteration:
            self.asking, self.task = None, None

    def answer(self, message, said):
        self.writer.send({**said, "request_seq": message["seq"], "command": message["command"]})

    def worked(self, call):
        """What a call gives that may take long: it is made by a thread of its own."""

        def run():
            try:
                self.tell("worked", call(), None)
            except Trouble as trouble:
                self.tell("worked", None, trouble)
            except (OSError, ValueError, TypeError, AttributeError, LookupError) as trouble:
                # The system refuses something, or an argument isn't what it has to be.
                self.tell("worked", None, Trouble(str(trouble) or type(trouble).__name__))

        self.worker = threading.Thread(target=run, daemon=True)
        self.worker.start()
        found, trouble = yield WORK
        if trouble:
            raise trouble
        return found

    def passed(self, message):
        said = yield message
        if said.get("success") and message["command"] in RESUMES:
            self.views.forget()
        self.answer(message, said)

    def initialize(self, message):
        self.hello = message.get("arguments")
        if self.bridge:
            said = yield message
        else:
            try:
                ask = partial(capabilities, self.chosen.program, self.hello, self.keeper.environment())
                said = yield from self.worked(ask)
            except Trouble as trouble:
                said = failed(str(trouble))
        self.answer(message, said)

    def attach(self, message):
        yield from self.begun(message, self.attached_to)

    def launch(self, message):
        yield from self.begun(message, self.launched)

    def begun(self, message, begin):
        """Begins a session by this call, and answers how that went. Where there is no bridge then, the session ends:
        some editors would wait for more."""
        arguments = arguments_of(message)
        try:
            if self.attached:
                said = yield request("attach", arguments)
            else:
                self.choose(arguments)
                said = yield from self.asked_to_attach(arguments) if self.bridge else begin(arguments)
                self.attached = bool(said.get("success"))
            self.answer(message, said)
            if self.attached and said.get("success"):
                self.writer.send(event("initialized"))
        except (Trouble, OSError) as trouble:
            self.answer(message, failed(str(trouble)))
            self.writer.send(event("terminated"))
            self.status, self.is_over = getattr(trouble, "status", 2), True

    def attached_to(self, arguments):
        target = str(arguments.get("target") or self.chosen.target or "")
        if not target:
            raise Trouble("`attach` wants `target`, HOST:PORT of the Java machine; to start one is `launch`")
        return (yield from self.greeted(target, arguments))

    def launched(self, arguments):
        """Starts the program, and attaches to it once it listens."""
        self.scratch = tempfile.mkdtemp(prefix="bridge-launcher-")
        self.port, environment = free_port(), self.keeper.environment()
        plan = yield from self.worked(partial(planned, arguments, self.port, self.scratch, environment, self.tell))
        if "sourceRoots" not in arguments:
            self.choose({**arguments, "sourceRoots": plan.roots})
        self.program = Program(plan, self.keeper.environment(plan.variables), self.tell)
        listens = yield from self.worked(partial(self.program.listens, self.port, lambda: self.is_over))
        if not listens:
            yield from self.worked(self.program.finish)
            raise Trouble("the program ended before a Java machine of it could be debugged: see what it printed")
        said = yield from self.greeted("127.0.0.1:%d" % self.port, arguments)
        if said.get("success") and arguments.get("stopOnEntry") and plan.main:
            # The editor sets its breakpoints in that stop, if not before.
            self.entry = plan.main + ".main"
            self.lists.entered((yield self.lists.entering({}, self.entry)))
            yield request("configurationDone")
        return said

    def greeted(self, target, arguments):
        """Starts a bridge, and gives its response to `attach`."""
        start = partial(Bridge, self.chosen.program, target, self.keeper.environment(), next(self.chosen.records))
        self.bridge = yield from self.worked(start)
        self.bridge.listen(self.tell)
        yield request("initialize", self.hello)
        return (yield from self.asked_to_attach(arguments))

    def asked_to_attach(self, arguments):
        """The bridge's response to `attach` with these arguments, but for those of the launcher."""
        rest = {name: value for name, value in arguments.items() if name not in OWN}
        if self.sources.roots and not self.chosen.plain:
            rest["sourceRoots"] = self.sources.roots
        self.arguments = rest
        return (yield request("attach", rest))

    def disconnect(self, message):
        if self.program:
            message = {**message, "arguments": {**arguments_of(message), "terminateDebuggee": True}}
        said = (yield message) if self.bridge else succeeded()
        self.answer(message, said)
        self.is_over = bool(said.get("success"))
        if self.is_over and self.status is None:
            self.status = 0

    def listed(self, message):
        key = self.lists.asked(message)
        if self.entry and key[0] == "setFunctionBreakpoints":
            said = self.lists.entered((yield self.lists.entering(message, self.entry)))
        else:
            said = yield message
        self.answer(message, self.lists.told(key, said))

    def stack_trace(self, message):
        said = yield message
        if self.finds_sources and said.get("success"):
            frames = [self.sources.placed(frame) for frame in said["body"]["stackFrames"]]
            said = {**said, "body": {**said["body"], "stackFrames": frames}}
        self.answer(message, said)

    def variables(self, message):
        self.answer(message, (yield from self.views.variables(message)))

    def set_variable(self, message):
        self.answer(message, (yield from self.views.set_variable(message)))

    def evaluate(self, message):
        self.answer(message, self.views.value((yield message)))

    def step_in(self, message):
        """A `stepIn`, which goes on where it ends in the library, unless it began there."""
        thread = arguments_of(message).get("threadId")
        start = top((yield self.upper_frame(thread))) if self.filters else None
        said = yield message
        if said.get("success"):
            self.views.forget()
            self.stepping = Stepping(thread, start) if start and not self.filters.leaves(start[0]) else None
        self.answer(message, said)

    def pause(self, message):
        """A `pause`. In a stop the bridge tells of none: so where the editor doesn't know of that, it is told."""
        said = yield message
        self.is_paused = self.is_held and bool(said.get("success"))
        self.answer(message, said)

    def upper_frame(self, thread):
        return request("stackTrace", {"threadId": thread, "startFrame": 0, "levels": 1})

    # Events of the bridge.

    def stopped(self, message):
        body, stepping = message.get("body") or {}, self.stepping
        self.stepping = None
        if stepping and (body.get("reason"), body.get("threadId")) == ("step", stepping.thread):
            self.is_held = True
            self.waiting.appendleft((None, self.stepped(stepping, message)))
            return
        if self.entry and body.get("reason") == "function breakpoint":
            self.entry = None
            self.waiting.appendleft((None, self.lists.functions()))
            body = {name: value for name, value in body.items() if name != "hitBreakpointIds"}
            message = {**message, "body": {**body, "reason": "entry"}}
        if "hitBreakpointIds" in body:
            ids = [self.lists.id_of(number) for number in body["hitBreakpointIds"]]
            message = {**message, "body": {**body, "hitBreakpointIds": ids}}
        self.writer.send(message)

    def stepped(self, stepping, message):
        """Goes on with a step that has ended in the library, or tells of its end."""
        end = top((yield self.upper_frame(stepping.thread)))
        command = end and stepping.next_step(end, self.filters)
        self.is_held = False
        if self.is_paused:
            self.is_paused = False
            self.writer.send({**message, "body": {**message["body"], "reason": "pause"}})
        elif command and (yield request(command, {"threadId": stepping.thread})).get("success"):
            self.stepping = stepping
        else:
            self.writer.send(message)

    def breakpoint(self, message):
        body = message.get("body") or {}
        if isinstance(body.get("breakpoint"), dict):
            if body["breakpoint"].get("id") == self.lists.entry:
                return
            message = {**message, "body": {**body, "breakpoint": self.lists.named(body["breakpoint"])}}
        self.writer.send(message)

    def initialized(self, message):
        """Told by the launcher behind its answer, and once: what the editor sets then a second bridge is told again."""

    def terminated(self, message):
        """The Java machine has ended. The editor is told so once the program has, since it may leave then."""
        if not self.program or not self.attached or self.ended_with is not None:
            self.tell_end()
            return
        self.program.is_left = True
        if self.program.plan.has_more:
            watch = partial(self.program.listens, self.port, lambda: self.is_over)
            threading.Thread(target=lambda: self.tell("listens", watch()), daemon=True).start()
        else:
            self.later(SETTLE, "settled")

    def on_settled(self):
        self.tell_end()

    def on_listens(self, listens):
        """The command has started another Java machine, or has ended."""
        if listens:
            self.waiting.append((None, self.continued()))

    def continued(self):
        """Goes on with another bridge, over the next Java machine of the same command."""
        old, self.bridge, self.program.is_left = self.bridge, None, False
        try:
            if old:
                old.send(request("disconnect"))
                old.leave()
                yield from self.worked(old.end)
            said = yield from self.greeted("127.0.0.1:%d" % self.port, self.arguments)
            if not said.get("success"):
                raise Trouble("the next Java machine wasn't attached to")
            for breakpoint in (yield from self.lists.again()):
                self.writer.send(event("breakpoint", {"reason": "changed", "breakpoint": breakpoint}))
            yield request("configurationDone")
        except Trouble as trouble:
            self.show("stderr", "%s\n" % trouble)
            self.tell_end()

    def tell_end(self):
        """Tells the end of the program, and that of the session, once."""
        if self.is_told_of_the_end:
            return
        self.is_told_of_the_end = True
        if self.ended_with is not None:
            self.writer.send(event("exited", {"exitCode": self.ended_with}))
        self.writer.send(event("terminated"))

    # The end.

    def let_go(self):
        """Ends what was started."""
        bridge, self.bridge = self.bridge, None
        if bridge:
            bridge.leave()
            self.status = bridge.end()
            bridge.link.close()
        if self.program or self.worker:
            end_all(self.keeper.mark)
        self.program, self.ended_with = None, None

    def close(self):
        self.is_over = True
        self.let_go()
        if self.worker:
            self.worker.join(LEAVE)
            end_all(self.keeper.mark)
        if self.scratch:
            shutil.rmtree(self.scratch, ignore_errors=True)


SERVED = {"initialize": Session.initialize, "launch": Session.launch, "attach": Session.attach,
          "disconnect": Session.disconnect, "stackTrace": Session.stack_trace, "variables": Session.variables,
          "setVariable": Session.set_variable, "evaluate": Session.evaluate, "stepIn": Session.step_in,
          "pause": Session.pause, **{name: Session.listed for name in LISTED}}
EVENTS = {"stopped": Session.stopped, "breakpoint": Session.breakpoint, "initialized": Session.initialized,
          "terminated": Session.terminated}
