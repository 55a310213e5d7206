"""What the scripts share of the launcher: an editor that starts it, and says and hears all over its two streams."""
import os
import subprocess
import sys
import threading
import time

from building import PATIENCE, TOP

EDITORS = os.path.join(TOP, "editors")
sys.path.insert(0, EDITORS)
from launcher.keeper import NAME, is_marked, processes  # noqa: E402
from launcher.wire import Reader, Writer, request  # noqa: E402

LAUNCHER = os.path.join(EDITORS, "launch.py")


class Editor:
    """An editor with the launcher that it started. Each message that comes has to have the next number, and each
    response to answer the first request that has none. It is killed where it takes too long."""

    def __init__(self, program, *words, script=LAUNCHER, longest=5 * PATIENCE):
        self.process = subprocess.Popen([sys.executable, script, "--program", program, *words], bufsize=0,
                                        stdin=subprocess.PIPE, stdout=subprocess.PIPE, stderr=subprocess.PIPE)
        self.connect(self.process.stdin.write, lambda count: os.read(self.process.stdout.fileno(), count))
        self.limit = threading.Timer(longest, self.process.kill)
        self.limit.start()

    def connect(self, write, read):
        """Says and hears all by these calls from here on."""
        self.writer, self.reader = Writer(write), Reader(read)
        self.unanswered, self.heard, self.events = [], 0, []

    def __enter__(self):
        return self

    def __exit__(self, *_):
        self.limit.cancel()
        self.process.kill()
        self.process.wait()
        for pipe in (self.process.stdin, self.process.stdout, self.process.stderr):
            pipe.close()

    def send(self, command, arguments=None):
        """Asks for something, and doesn't wait for the answer."""
        self.unanswered.append((self.writer.send(request(command, arguments)), command))

    def receive(self):
        """The next message."""
        message = self.reader.message()
        if not message:
            raise EOFError("the launcher has ended: %s" % self.process.stderr.read().decode())
        self.heard += 1
        if message["seq"] != self.heard:
            raise ValueError("the number of %r isn't %d" % (message, self.heard))
        return message

    def answer(self):
        """The next response. Events before it are kept."""
        while True:
            message = self.receive()
            if message["type"] == "response":
                due = self.unanswered.pop(0)
                if (message["request_seq"], message["command"]) != due:
                    raise ValueError("%r answers no request %r" % (message, due))
                return message
            self.events.append(message)

    def ask(self, command, arguments=None):
        """Asks for something that has to succeed, and gives the body of the answer."""
        said = self.tried(command, arguments)
        if not said["success"]:
            raise ValueError("%s: %r" % (command, said))
        return said.get("body")

    def tried(self, command, arguments=None):
        """Asks for something, and gives the response to it."""
        self.send(command, arguments)
        while len(self.unanswered) > 1:
            self.answer()
        return self.answer()

    def event(self, *names):
        """The body of the next event of one of these names. Those before it are kept."""
        for place, message in enumerate(self.events):
            if message["event"] in names:
                return self.events.pop(place).get("body", {})
        while True:
            message = self.receive()
            if message["type"] != "event":
                raise ValueError("%r comes, and an event is due" % message)
            if message["event"] in names:
                return message.get("body", {})
            self.events.append(message)

    def printed(self):
        """What the program has printed so far to its standard output, as it was told before other events."""
        outputs = [each["body"] for each in self.events if each["event"] == "output"]
        return "".join(each["output"] for each in outputs if each["category"] == "stdout")

    def begin(self, command, arguments, breakpoints=()):
        """Begins a session with breakpoints: paths, each with the numbers of its lines."""
        self.ask("initialize", {"adapterID": "bridge"})
        self.ask(command, arguments)
        self.event("initialized")
        for path, lines in breakpoints:
            self.ask("setBreakpoints", {"source": {"path": path}, "breakpoints": [{"line": line} for line in lines]})
        self.ask("configurationDone")

    def stop(self, reason="breakpoint"):
        """The thread of the next stop, which has this reason."""
        body = self.event("stopped", "terminated")
        if body.get("reason") != reason:
            raise ValueError("a stop by %s is due: %r" % (reason, body))
        return body["threadId"]

    def frames(self, thread):
        return self.ask("stackTrace", {"threadId": thread})["stackFrames"]

    def children(self, reference):
        return self.ask("variables", {"variablesReference": reference})["variables"]

    def locals_of(self, frame):
        """The variables of a frame by their names, and their reference."""
        reference = self.ask("scopes", {"frameId": frame["id"]})["scopes"][0]["variablesReference"]
        return {variable["name"]: variable for variable in self.children(reference)}, reference

    def ended(self):
        """The end of the program and of the session: the program's status, that of the launcher, and what it printed to
        its standard error."""
        status = self.event("exited")["exitCode"]
        self.event("terminated")
        return (status, *self.left())

    def left(self):
        """The launcher's status, and what it printed to its standard error, where the editor disconnects."""
        self.ask("disconnect")
        return self.process.wait(PATIENCE), self.process.stderr.read().decode()


def mark_of(launcher):
    """The mark of what a launcher started, which its keeper has among its words."""
    until = time.monotonic() + PATIENCE
    while time.monotonic() < until:
        for process in processes():
            words = words_of(process)
            if len(words) > 2 and words[1].endswith(b"keeper.py") and parent_of(process) == launcher:
                return words[2].decode()
        time.sleep(0.01)
    raise EOFError("the launcher has no keeper")


def words_of(process):
    try:
        with open("/proc/%d/cmdline" % process, "rb") as file:
            return file.read().split(b"\0")
    except OSError:
        return []


def parent_of(process):
    try:
        with open("/proc/%d/stat" % process, encoding="ascii", errors="replace") as file:
            return int(file.read().rpartition(")")[2].split()[1])
    except OSError:
        return None


def parts_of(mark):
    """All that runs of a launcher: the processes that it started, and its keepers."""
    started = [process for process in processes() if is_marked(process, mark)]
    return started, [process for process in processes() if mark.encode() in words_of(process)]


def nothing_is_left(mark):
    """Whether all that a launcher started has ended before long."""
    until = time.monotonic() + 20
    while any(parts_of(mark)):
        if time.monotonic() > until:
            return False
        time.sleep(0.02)
    return True


__all__ = ["EDITORS", "Editor", "LAUNCHER", "NAME", "mark_of", "nothing_is_left", "parts_of", "words_of"]
