"""The bridge: its process, which serves one session, and the link to it."""
import os
import socket
import subprocess
import sys
import threading
import time

from .wire import Reader, Unreadable, Writer, request

TOP = os.path.dirname(os.path.dirname(os.path.dirname(os.path.abspath(__file__))))
# The built bridge, and the one that is kept without proof, by `examples/first_session.py --unproved`.
PROGRAM, UNPROVED = (os.path.join(TOP, "crates", "bridge_cmd", "out", name) for name in ("bridge_cmd", "unproved"))
# The status of a bridge that didn't reach its target.
NOT_OPENED = 7
# How long a bridge may take to listen, and to end behind its session, in seconds.
PATIENCE = 60
LEAVE = 5


class Trouble(Exception):
    """Why a session can't begin, in words for the editor, and the status that says so."""

    def __init__(self, text, status=2):
        super().__init__(text)
        self.status = status


def free_port():
    with socket.socket() as probe:
        probe.bind(("127.0.0.1", 0))
        return probe.getsockname()[1]


class Bridge:
    """A bridge for the Java machine at a place, and the link to it. Its session is recorded where a file is named."""

    def __init__(self, program, target, environment, record=None, is_quiet=False):
        self.port, self.is_quiet = free_port(), is_quiet
        # A log takes its time to be written.
        self.longest = PATIENCE if record else LEAVE
        words = [program, "record" if record else "serve", "--listen", "127.0.0.1:%d" % self.port, "--target", target]
        words += ["--out", record] if record else []
        try:
            self.process = subprocess.Popen(words, stdin=subprocess.DEVNULL, stdout=subprocess.PIPE, env=environment)
        except OSError as trouble:
            why = "%s can't be started (%s); README.md says how it is built"
            raise Trouble(why % (program, trouble.strerror)) from None
        self.link = self.connected(target)
        self.reader, self.writer = Reader(self.received), Writer(self.link.sendall)

    def connected(self, target):
        """The link, once the bridge listens: it listens once it has its target."""
        until = time.monotonic() + PATIENCE
        while self.process.poll() is None and time.monotonic() < until:
            try:
                link = socket.create_connection(("127.0.0.1", self.port))
                link.setsockopt(socket.IPPROTO_TCP, socket.TCP_NODELAY, 1)
                return link
            except ConnectionRefusedError:
                time.sleep(0.01)
        if self.process.poll() is None:
            self.process.kill()
        status = self.end()
        if status == NOT_OPENED:
            why = "the bridge reached no Java machine at %s, or another debugger is attached to it" % target
            raise Trouble(why, status)
        raise Trouble("the bridge ended before it listened, with status %d" % status, status)

    def received(self, count):
        try:
            return self.link.recv(count)
        except OSError:
            return b""

    def send(self, message):
        """Sends a message, and gives its number. Of a bridge that is gone the reader tells."""
        try:
            return self.writer.send(message)
        except OSError:
            return self.writer.number

    def send_bytes(self, piece):
        try:
            self.link.sendall(piece)
        except OSError:
            pass

    def leave(self):
        """Says no more, so that a bridge that serves a session ends it."""
        try:
            self.link.shutdown(socket.SHUT_WR)
        except OSError:
            pass

    def end(self):
        """The status of the bridge, whose line goes to the standard error. One that doesn't end is killed."""
        try:
            said, _ = self.process.communicate(timeout=self.longest)
        except subprocess.TimeoutExpired:
            self.process.kill()
            said, _ = self.process.communicate()
        if not self.is_quiet:
            sys.stderr.write(said.decode(errors="replace"))
            sys.stderr.flush()
        return self.process.returncode if self.process.returncode >= 0 else 1

    def listen(self, tell):
        """Tells each message that comes, and then the end, from a thread of its own."""

        def run():
            try:
                for message in iter(self.reader.message, None):
                    tell("bridge", self, message)
            except Unreadable:
                pass
            tell("bridge_end", self)

        threading.Thread(target=run, daemon=True).start()


def capabilities(program, arguments, environment):
    """What a bridge answers to `initialize`: one is asked that has this call as its target."""
    with socket.create_server(("127.0.0.1", 0)) as target:
        bridge = Bridge(program, "127.0.0.1:%d" % target.getsockname()[1], environment, is_quiet=True)
        bridge.send(request("initialize", arguments))
        said = bridge.reader.message()
        bridge.leave()
        bridge.link.close()
        bridge.end()
    if not said:
        raise Trouble("the bridge ended before it answered `initialize`")
    return said
