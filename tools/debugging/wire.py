"""Messages of the Debug Adapter Protocol: a header with the length, and JSON."""
import json
import threading

MOST_BYTES, MOST_HEADER = 16_777_216, 4_096


class Broken(Exception):
    """The other side wrote something that is not a message."""


def read_length(stream):
    """The length that a header gives, or None at the end of the input."""
    length, size = None, 0
    while True:
        line = stream.readline(MOST_HEADER)
        if not line:
            if size:
                raise Broken("the input ends within a header")
            return None
        size += len(line)
        if size > MOST_HEADER or not line.endswith(b"\n"):
            raise Broken("a header is too long")
        name, _, value = line.strip().partition(b":")
        if not name:
            break
        if name.strip().lower() != b"content-length":
            raise Broken("a header is not Content-Length: the client does not speak the Debug Adapter Protocol")
        if not value.strip().isdigit() or int(value) > MOST_BYTES:
            raise Broken("Content-Length is not a number, or is too large")
        length = int(value)
    if length is None:
        raise Broken("a header has no Content-Length")
    return length


def read_message(stream):
    """The next message, or None at the end."""
    length = read_length(stream)
    if length is None:
        return None
    data = stream.read(length)
    if len(data) < length:
        raise Broken("the input ends within a message")
    try:
        message = json.loads(data.decode("utf-8"))
    except (ValueError, RecursionError) as error:
        raise Broken(f"a message is not valid JSON: {error}") from error
    if not isinstance(message, dict):
        raise Broken("a message is not a JSON object")
    return message


class Wire:
    """Writes messages, numbered from 1."""

    def __init__(self, stream):
        self.stream, self.lock, self.seq = stream, threading.Lock(), 0

    def put(self, message):
        """Writes a message."""
        with self.lock:
            self.seq += 1
            data = json.dumps(dict(message, seq=self.seq), ensure_ascii=False).encode("utf-8", "replace")
            self.stream.write(b"Content-Length: %d\r\n\r\n" % len(data) + data)
            self.stream.flush()

    def event(self, name, body=None):
        """Sends an event."""
        message = {"type": "event", "event": name}
        self.put(message if body is None else dict(message, body=body))

    def answer(self, request, body=None):
        """Answers a request."""
        message = {"type": "response", "request_seq": request["seq"], "success": True, "command": request["command"]}
        self.put(message if body is None else dict(message, body=body))

    def refuse(self, request, text):
        """Answers a request that cannot be executed."""
        error = {"id": 1, "format": "{text}", "variables": {"text": text}, "showUser": True}
        self.put({"type": "response", "request_seq": request["seq"], "success": False, "command": request["command"],
                  "message": text, "body": {"error": error}})
