"""A client of a language server: messages by their frames, texts that are changed as an editor changes them."""
import json
import os
import select
import subprocess
import time

from .check_program import environment

SECONDS = 60


def framed(message):
    """The bytes of a message."""
    content = message if isinstance(message, bytes) else json.dumps(message, ensure_ascii=False).encode()
    return b"Content-Length: %d\r\n\r\n" % len(content) + content


def uri_of(path):
    """The URI of a file."""
    return path.resolve().as_uri()


def units(text):
    """How many units of UTF-16 a text has."""
    return len(text.encode("utf-16-le")) // 2


def position(text, offset):
    """The line and the units of UTF-16 of an offset in characters."""
    line = text.count("\n", 0, offset)
    return {"line": line, "character": units(text[text.rfind("\n", 0, offset) + 1 : offset])}


def span(text, start, end):
    """The range between two offsets in characters."""
    return {"start": position(text, start), "end": position(text, end)}


def offset(text, place):
    """The offset, in characters, of a line and units of UTF-16."""
    lines = text.split("\n")
    start = sum(len(line) + 1 for line in lines[: place["line"]])
    passed, at = 0, 0
    while passed < place["character"]:
        passed += units(lines[place["line"]][at])
        at += 1
    return start + at


def edited(text, edits):
    """A text with the edits of an action made."""
    for edit in sorted(edits, key=lambda it: offset(text, it["range"]["start"]), reverse=True):
        text = text[: offset(text, edit["range"]["start"])] + edit["newText"] + text[offset(text, edit["range"]["end"]) :]
    return text


class Server:
    """A server that runs, and what it has written."""

    def __init__(self, program, folder=None):
        pipes = {"stdin": subprocess.PIPE, "stdout": subprocess.PIPE, "stderr": subprocess.PIPE}
        self.process = subprocess.Popen([program, "lsp"], cwd=folder, env=environment(), bufsize=0, **pipes)
        self.written, self.number, self.told = b"", 0, []

    def __enter__(self):
        return self

    def __exit__(self, *_):
        self.process.kill()
        self.process.wait()
        for stream in (self.process.stdin, self.process.stdout, self.process.stderr):
            stream.close()

    def send(self, content):
        """Writes bytes, or a message."""
        self.process.stdin.write(content if isinstance(content, bytes) else framed(content))

    def receive(self, seconds=SECONDS):
        """The next message of the server; None where it writes none, or has ended."""
        ends = time.monotonic() + seconds
        while True:
            head, found, rest = self.written.partition(b"\r\n\r\n")
            if found:
                length = int(head.partition(b":")[2])
                if len(rest) >= length:
                    self.written = rest[length:]
                    return json.loads(rest[:length])
            left = ends - time.monotonic()
            if left <= 0 or not select.select([self.process.stdout], [], [], left)[0]:
                return None
            more = os.read(self.process.stdout.fileno(), 1 << 20)
            if not more:
                return None
            self.written += more

    def call(self, method, params=None):
        """Sends a request, and gives its answer; what is sent before that is kept."""
        self.number += 1
        self.send({"jsonrpc": "2.0", "id": self.number, "method": method, "params": params or {}})
        while (said := self.receive()) is not None and said.get("id") != self.number:
            self.told.append(said)
        return said

    def note(self, method, params=None):
        """Sends a notification."""
        self.send({"jsonrpc": "2.0", "method": method, "params": params or {}})

    def begin(self, capabilities=None):
        """Begins the session."""
        said = self.call("initialize", {"capabilities": capabilities or {}})
        self.note("initialized")
        return said

    def open(self, uri, text, version=1):
        """Opens a text."""
        self.note("textDocument/didOpen", {
            "textDocument": {"uri": uri, "languageId": "toml", "version": version, "text": text}})

    def change(self, uri, changes, version=2):
        """Changes a text."""
        self.note("textDocument/didChange", {"textDocument": {"uri": uri, "version": version}, "contentChanges": changes})

    def ask(self, method, uri, **more):
        """The result of a request about a text."""
        return self.call(f"textDocument/{method}", {"textDocument": {"uri": uri}, **more}).get("result")

    def published(self, uri):
        """The diagnostics that are sent next of a text."""
        while (said := self.told.pop(0) if self.told else self.receive()) is not None:
            if said.get("method") == "textDocument/publishDiagnostics" and said["params"]["uri"] == uri:
                return said["params"]["diagnostics"]
        return None

    def end(self):
        """Ends the session as a client does, and gives the status."""
        self.call("shutdown")
        self.note("exit")
        return self.process.wait(SECONDS)
