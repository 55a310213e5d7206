"""Messages of the Debug Adapter Protocol over streams of bytes (DAP overview, Base protocol)."""
import json

# How many bytes the header of a frame has at most, and those of one that is whole.
HEADER = 4096
END = b"\r\n\r\n"


class Unreadable(ValueError):
    """Bytes of a stream that begin no frame with a message. It has all that were not handed out."""

    def __init__(self, rest):
        super().__init__("no message of the Debug Adapter Protocol")
        self.rest = bytes(rest)


class EditorGone(Exception):
    """The editor reads no more."""


class Reader:
    """Cuts a stream into messages. It is read by a call that gives some bytes, and none at the end."""

    def __init__(self, read):
        self.read = read
        self.rest = bytearray()

    def message(self):
        """The next message, or None at the end of the stream."""
        while True:
            length, start = self.header()
            if start and len(self.rest) >= start + length:
                return self.cut(start, start + length)
            piece = self.read(65536)
            if not piece:
                return None
            self.rest += piece

    def header(self):
        """How long the body is, and where it begins: 0 where the header isn't whole yet."""
        end = self.rest.find(END, 0, HEADER)
        if end < 0:
            if len(self.rest) >= HEADER:
                raise Unreadable(self.rest)
            return 0, 0
        lengths = [value for name, value in fields(self.rest[:end]) if name.lower() == b"content-length"]
        if len(lengths) != 1 or not lengths[0].strip().isdigit():
            raise Unreadable(self.rest)
        return int(lengths[0]), end + len(END)

    def cut(self, start, end):
        """The message of the body that stands there, which goes with its header."""
        try:
            message = json.loads(self.rest[start:end].decode(), parse_constant=refused)
        except (ValueError, RecursionError):
            raise Unreadable(self.rest) from None
        if not is_message(message):
            raise Unreadable(self.rest)
        del self.rest[:end]
        return message


def fields(header):
    return [line.partition(b":")[::2] for line in header.split(b"\r\n")]


def refused(word):
    raise ValueError("%s is no JSON" % word)


def is_message(message):
    if not isinstance(message, dict) or message.get("type") not in ("request", "response", "event"):
        return False
    number = message.get("seq")
    is_number = isinstance(number, int) and not isinstance(number, bool)
    return message["type"] != "request" or (isinstance(message.get("command"), str) and is_number)


class Writer:
    """Writes messages, numbered 1, 2, 3, by a call that writes all bytes that it is given."""

    def __init__(self, write):
        self.write = write
        self.number = 0

    def send(self, message):
        """Writes a message under the next number, and gives that."""
        self.number += 1
        body = json.dumps({**message, "seq": self.number}, separators=(",", ":")).encode()
        self.write(b"Content-Length: %d\r\n\r\n" % len(body) + body)
        return self.number


def arguments_of(message):
    """The arguments of a request, where they are an object as they have to be."""
    arguments = message.get("arguments")
    return arguments if isinstance(arguments, dict) else {}


def request(command, arguments=None):
    message = {"type": "request", "command": command}
    return message if arguments is None else {**message, "arguments": arguments}


def event(name, body=None):
    message = {"type": "event", "event": name}
    return message if body is None else {**message, "body": body}


def succeeded(body=None):
    message = {"type": "response", "success": True}
    return message if body is None else {**message, "body": body}


def failed(text, code=0):
    """What a response says that fails (DAP specification, Base Protocol, ErrorResponse)."""
    error = {"id": code, "format": text.replace("{", "(").replace("}", ")"), "showUser": True}
    return {"type": "response", "success": False, "message": text, "body": {"error": error}}
