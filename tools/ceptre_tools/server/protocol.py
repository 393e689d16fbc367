"""Messages of the protocol: JSON-RPC 2.0, each after a header with its length in bytes, over two streams."""

from __future__ import annotations

import json
import os
import select
import threading
from typing import Any, BinaryIO, Optional, Union

Json = dict[str, Any]

PARSE_ERROR = -32700
INVALID_REQUEST = -32600
METHOD_NOT_FOUND = -32601
INVALID_PARAMS = -32602
INTERNAL_ERROR = -32603
NOT_INITIALIZED = -32002
REQUEST_FAILED = -32803

# The kinds of messages that are shown to people.
ERROR, WARNING, INFO, LOG = 1, 2, 3, 4

# The most bytes of a header, and of a message: a text of the language has at most a megabyte.
MOST_HEADER, MOST_BODY = 1 << 16, 1 << 28


class Closed(Exception):
    """The other end is gone."""


class Failure(Exception):
    """A request that cannot be answered, with a number of the protocol and a reason."""

    def __init__(self, code: int, reason: str) -> None:
        super().__init__(reason)
        self.code = code
        self.reason = reason


class Client:
    """The other end: an editor. What is sent may come from several threads."""

    def __init__(self, source: int, sink: BinaryIO) -> None:
        self.source = source
        self.sink = sink
        self.taken = b""
        self.lock = threading.Lock()
        self.requests = 0

    def read(self, seconds: Optional[float]) -> Optional[Union[Json, Failure]]:
        """The next message, or None if none begins within so many seconds. What is no message is a failure; the next
        one is looked for after it."""
        while True:
            end = self.taken.find(b"\r\n\r\n")
            if end >= 0:
                header, self.taken = self.taken[:end], self.taken[end + 4 :]
                return self.message(header)
            if len(self.taken) > MOST_HEADER:
                self.taken = self.taken[-3:]
                return Failure(PARSE_ERROR, "no header of a message was found")
            if seconds is not None and not select.select([self.source], [], [], seconds)[0]:
                return None
            self.receive()

    def receive(self) -> None:
        """Takes what has come, at least a byte."""
        part = os.read(self.source, 1 << 16)
        if not part:
            raise Closed
        self.taken += part

    def message(self, header: bytes) -> Union[Json, Failure]:
        """The message after a header."""
        length = length_of(header)
        if length is None:
            return Failure(PARSE_ERROR, "a header has no usable Content-Length")
        body = self.body(length)
        if length > MOST_BODY:
            return Failure(PARSE_ERROR, "a message is too long")
        try:
            found = json.loads(body.decode("utf-8"))
        except (ValueError, RecursionError):
            return Failure(PARSE_ERROR, "a message is not JSON in UTF-8")
        if not isinstance(found, dict) or found.get("jsonrpc") != "2.0":
            return Failure(INVALID_REQUEST, "a message is no object of JSON-RPC 2.0")
        return found

    def body(self, length: int) -> bytes:
        """So many bytes, of which those are dropped that are too many to be kept."""
        parts = [self.taken[:length]]
        self.taken = self.taken[length:]
        left = length - len(parts[0])
        while left:
            part = os.read(self.source, min(left, 1 << 20))
            if not part:
                raise Closed
            left -= len(part)
            if length <= MOST_BODY:
                parts.append(part)
        return b"".join(parts)

    def send(self, content: Json) -> None:
        """Sends a message."""
        body = json.dumps({"jsonrpc": "2.0", **content}, ensure_ascii=True).encode("ascii")
        with self.lock:
            try:
                self.sink.write(b"Content-Length: %d\r\n\r\n" % len(body) + body)
                self.sink.flush()
            except (OSError, ValueError) as error:
                raise Closed from error

    def answer(self, number: Any, result: Any) -> None:
        """Answers a request."""
        self.send({"id": number, "result": result})

    def refuse(self, number: Any, failure: Failure) -> None:
        """Answers a request that fails, or says that something was no message."""
        self.send({"id": number, "error": {"code": failure.code, "message": failure.reason}})

    def notify(self, method: str, params: Json) -> None:
        """Sends a notification."""
        self.send({"method": method, "params": params})

    def ask(self, method: str, params: Optional[Json] = None) -> None:
        """Sends a request, whose answer is not waited for."""
        self.requests += 1
        self.send({"id": f"ceptre-{self.requests}", "method": method, **({"params": params} if params else {})})

    def log(self, said: str, kind: int = LOG) -> None:
        """Says something in the client's log."""
        self.notify("window/logMessage", {"type": kind, "message": said})

    def show(self, said: str, kind: int = WARNING) -> None:
        """Says something to the person."""
        self.notify("window/showMessage", {"type": kind, "message": said})


def length_of(header: bytes) -> Optional[int]:
    """The length that a header says, or None."""
    for line in header.split(b"\r\n"):
        name, _, value = line.partition(b":")
        digits = value.strip()
        if name.strip().lower() == b"content-length" and digits.isdigit() and len(digits) < 12:
            return int(digits)
    return None
