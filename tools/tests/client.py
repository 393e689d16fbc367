"""A client of the language server for its tests: an editor at the other end of two pipes."""

import json
import os
import re
import select
import subprocess
import time

from setting import TOOLS

# How long an answer is waited for, in seconds: far longer than it takes on a busy machine.
PATIENCE = 20


class Editor:
    """A server as a child, and what was said by it."""

    def __init__(self, **environment):
        command = [os.path.join(TOOLS, "server")]
        pipes = {"stdin": subprocess.PIPE, "stdout": subprocess.PIPE, "stderr": subprocess.PIPE}
        self.child = subprocess.Popen(command, env={**os.environ, **environment}, **pipes)
        self.received = b""
        self.heard = []
        self.number = 0

    def __enter__(self):
        return self

    def __exit__(self, *_):
        self.child.kill()
        self.child.wait()
        for pipe in (self.child.stdin, self.child.stdout, self.child.stderr):
            pipe.close()

    def write(self, content):
        """Writes bytes as they are."""
        self.child.stdin.write(content)
        self.child.stdin.flush()

    def send(self, **message):
        """Sends a message."""
        body = json.dumps({"jsonrpc": "2.0", **message}).encode()
        self.write(b"Content-Length: %d\r\n\r\n%s" % (len(body), body))

    def tell(self, method, **params):
        """Sends a notification."""
        self.send(method=method, params=params)

    def ask(self, method, **params):
        """Sends a request, and answers what comes back: a result, or an error."""
        self.number += 1
        self.send(id=self.number, method=method, params=params)
        answer = self.wait(lambda message: message.get("id") == self.number and "method" not in message)
        return answer["result"] if "result" in answer else answer["error"]

    def initialize(self, folder="/", **capabilities):
        """Begins, in a folder."""
        told = self.ask("initialize", processId=None, rootUri=address(folder), capabilities=capabilities)
        self.tell("initialized")
        return told

    def open(self, uri, text, version=1):
        """Opens a document."""
        item = {"uri": uri, "languageId": "ceptre", "version": version, "text": text}
        self.tell("textDocument/didOpen", textDocument=item)

    def change(self, uri, version, *changes):
        """Changes a document."""
        self.tell("textDocument/didChange", textDocument={"uri": uri, "version": version}, contentChanges=changes)

    def diagnostics(self, uri, version=None, is_right=lambda found: True):
        """The next diagnostics of a document, or the first of a version that are right."""

        def fits(message):
            params = message.get("params", {})
            is_of_uri = message.get("method") == "textDocument/publishDiagnostics" and params["uri"] == uri
            return is_of_uri and version in (None, params.get("version")) and is_right(params["diagnostics"])

        return self.wait(fits)["params"]["diagnostics"]

    def notification(self, method):
        """The parameters of the next notification of a method."""
        return self.wait(lambda message: message.get("method") == method)["params"]

    def wait(self, fits):
        """The first message that fits, of those that were not taken yet."""
        end = time.monotonic() + PATIENCE
        while True:
            for number, message in enumerate(self.heard):
                if fits(message):
                    return self.heard.pop(number)
            self.heard.append(self.receive(end))

    def receive(self, end):
        """The next message."""
        while True:
            header, mark, rest = self.received.partition(b"\r\n\r\n")
            if mark:
                length = int(re.fullmatch(rb"Content-Length: ([0-9]+)", header)[1])
                if len(rest) >= length:
                    self.received = rest[length:]
                    return json.loads(rest[:length])
            ready = select.select([self.child.stdout], [], [], max(0, end - time.monotonic()))[0]
            part = os.read(self.child.stdout.fileno(), 1 << 20) if ready else b""
            if not part:
                raise AssertionError("the server is gone" if ready else f"no answer; heard: {self.heard}")
            self.received += part

    def end(self):
        """Ends the server as an editor does, and answers its status and what it printed to standard error."""
        self.ask("shutdown")
        self.tell("exit")
        return self.child.wait(PATIENCE), self.child.stderr.read().decode()


def address(path):
    return "file://" + path


def position(text, offset):
    """The position of a place in a text, in units of UTF-16."""
    before = text[:offset]
    row = before[before.rfind("\n") + 1 :]
    return {"line": before.count("\n"), "character": len(row.encode("utf-16-le")) // 2}


def edit(text, start, end, put):
    """A change of a text from one place to another, and the text after it."""
    area = {"start": position(text, start), "end": position(text, end)}
    return {"range": area, "text": put}, text[:start] + put + text[end:]


def shortened(value):
    """Positions as `3:5` and ranges as `3:5-9`, counted from 1, wherever they stand in a value."""
    if isinstance(value, list):
        return [shortened(part) for part in value]
    if not isinstance(value, dict):
        return value
    if set(value) == {"line", "character"}:
        return f"{value['line'] + 1}:{value['character'] + 1}"
    if set(value) == {"start", "end"}:
        start, end = shortened(value["start"]), shortened(value["end"])
        same = start.split(":")[0] == end.split(":")[0]
        return f"{start}-{end.split(':')[1] if same else end}"
    return {name: shortened(part) for name, part in value.items()}


def lengthened(value):
    """The same the other way."""
    if isinstance(value, list):
        return [lengthened(part) for part in value]
    if isinstance(value, dict):
        return {name: lengthened(part) for name, part in value.items()}
    match = re.fullmatch(r"(\d+):(\d+)(?:-(?:(\d+):)?(\d+))?", value) if isinstance(value, str) else None
    if not match:
        return value
    line, column, last, end = (int(part) if part else 0 for part in match.groups())
    start = {"line": line - 1, "character": column - 1}
    return {"start": start, "end": {"line": (last or line) - 1, "character": end - 1}} if end else start
