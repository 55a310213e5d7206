"""What the scripts share: the program between a client and a target on the loopback interface."""
import itertools
import json
import random
import socket
import subprocess
import time

from building import PATIENCE

CAPABILITIES = {
    "exceptionBreakpointFilters": [
        {"filter": "caught", "label": "Caught exceptions"},
        {"filter": "uncaught", "label": "Uncaught exceptions"},
    ],
    "supportTerminateDebuggee": True,
    "supportsConfigurationDoneRequest": True,
    "supportsEvaluateForHovers": True,
    "supportsExceptionInfoRequest": True,
    "supportsFunctionBreakpoints": True,
    "supportsSetVariable": True,
}


def compact(value):
    return json.dumps(value, sort_keys=True, separators=(",", ":"), ensure_ascii=False).encode()


def request(seq, command, arguments=None):
    message = {"seq": seq, "type": "request", "command": command}
    if arguments is not None:
        message["arguments"] = arguments
    return json.dumps(message, separators=(",", ":")).encode()


def response(seq, request_seq, command, body=None):
    message = {"seq": seq, "type": "response", "request_seq": request_seq, "command": command, "success": True}
    if body is not None:
        message["body"] = body
    return compact(message)


def unsupported(seq, request_seq, command):
    """The response to a request that isn't served."""
    return failure(seq, request_seq, command, 1, "unsupported")


def failure(seq, request_seq, command, code, name):
    """A response that fails (DAP specification, Base Protocol, ErrorResponse)."""
    return compact({"seq": seq, "type": "response", "request_seq": request_seq, "command": command, "success": False,
                    "message": name, "body": {"error": {"format": name, "id": code}}})


def event(seq, name):
    return compact({"seq": seq, "type": "event", "event": name})


INITIALIZED = response(1, 1, "initialize", CAPABILITIES)
DISCONNECTED = response(2, 2, "disconnect")


def thread_event(seq, reason, number):
    """The event of a thread that started or exited (DAP specification, Events, Thread)."""
    body = {"reason": reason, "threadId": number}
    return compact({"body": body, "event": "thread", "seq": seq, "type": "event"})


def ports_in_turn():
    """Ports below those that Linux gives to links as they come, again and again, from any of them on."""
    first, past = 12000, 32000
    begin = random.randrange(first, past)
    return itertools.cycle([*range(begin, past), *range(first, begin)])


PORTS = ports_in_turn()


def free_port():
    """A port that nobody has, each time another. No link that comes up takes it before it is bound. A process that is
    just started may still hold what tries it, so this mustn't be in the way of a listener."""
    for port in PORTS:
        with socket.socket() as probe:
            probe.setsockopt(socket.SOL_SOCKET, socket.SO_REUSEADDR, 1)
            try:
                probe.bind(("127.0.0.1", port))
            except OSError:
                continue
        return port


def dial(port, process=None):
    """A connection to a port that is bound before long, by a process that is named or by another."""
    end = time.monotonic() + PATIENCE
    while True:
        try:
            return socket.create_connection(("127.0.0.1", port), timeout=PATIENCE)
        except ConnectionRefusedError:
            if time.monotonic() > end or (process and process.poll() is not None):
                raise
            time.sleep(0.02)


def pieces(stream):
    """What a link brings, piece by piece, up to its end."""
    return iter(lambda: stream.recv(65536), b"")


def framed(body):
    return b"Content-Length: %d\r\n\r\n" % len(body) + body


class Client:
    """A client's end of the link: bodies go out and come in as frames."""

    def __init__(self, stream):
        self.stream = stream
        self.rest = b""

    def send_all(self, bodies):
        """Sends frames in one piece."""
        self.stream.sendall(b"".join(framed(body) for body in bodies))

    def send(self, body, by=None):
        """Sends a frame, whole or so many bytes at a time."""
        frame = framed(body)
        step = by or len(frame)
        for start in range(0, len(frame), step):
            self.stream.sendall(frame[start : start + step])
            if by:
                time.sleep(0.001)

    def receive(self):
        """The body of the next frame; an error where the stream ends before it."""
        while True:
            header, found, behind = self.rest.partition(b"\r\n\r\n")
            if found:
                length = int(header.split(b":")[1])
                if len(behind) >= length:
                    self.rest = behind[length:]
                    return behind[:length]
            piece = self.stream.recv(65536)
            if not piece:
                raise EOFError("the program closed the client's link")
            self.rest += piece

    def close(self):
        self.stream.close()


class Program:
    """The program, run for the target at a port. What it prints goes where a script's own does, or all of it to one
    place that is named. A call may be named that its process makes first."""

    def __init__(self, program, target, output=None, first=None):
        self.port = free_port()
        words = ["serve", "--listen", "127.0.0.1:%d" % self.port, "--target", "127.0.0.1:%d" % target]
        self.process = subprocess.Popen([program, *words], stdout=output, stderr=output and subprocess.STDOUT,
                                        preexec_fn=first)

    def __enter__(self):
        return self

    def __exit__(self, *_):
        if self.process.poll() is None:
            self.process.kill()
            self.process.wait()

    def client(self):
        return Client(dial(self.port, self.process))

    def status(self):
        return self.process.wait(PATIENCE)


class Bridge(Program):
    """The program, run with a listener of this script as its target."""

    def __init__(self, program, output=None, first=None):
        self.listener = socket.create_server(("127.0.0.1", 0))
        self.listener.settimeout(PATIENCE)
        super().__init__(program, self.listener.getsockname()[1], output, first)
        self.target, _ = self.listener.accept()
        self.target.settimeout(PATIENCE)

    def __exit__(self, *_):
        super().__exit__()
        self.target.close()
        self.listener.close()

    def heard_by_target(self):
        """All bytes that the target was sent on its link, up to the link's end."""
        return b"".join(pieces(self.target))
