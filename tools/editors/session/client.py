"""Frames of messages, positions in texts, and a client of `vsi lsp`."""

import json
import re
import subprocess

faults = []


def complain(text):
    faults.append(text)


def expect(what, found, wanted):
    if found != wanted:
        complain(f"{what}:\n  found  {json.dumps(found)}\n  wanted {json.dumps(wanted)}")


# ---- frames and positions.

def frame(body):
    return b"Content-Length: %d\r\n\r\n%s" % (len(body), body)


def note_of(method, parameters):
    return json.dumps({"jsonrpc": "2.0", "method": method, "params": parameters}).encode()


def frames_in(stream, what):
    """The messages of a stream, which has to be messages and nothing else."""
    messages, rest = [], stream
    while rest:
        found = re.match(rb"Content-Length: ([1-9][0-9]*)\r\n\r\n", rest)
        if not found or len(rest) < found.end() + int(found[1]):
            complain(f"{what}: no message begins {rest[:60]!r}")
            break
        stop = found.end() + int(found[1])
        messages.append(json.loads(rest[found.end():stop]))
        rest = rest[stop:]
    return messages


def units(text, encoding):
    return len(text.encode("utf-8")) if encoding == "utf-8" else len(text.encode("utf-16-le")) // 2


def lines_of(text):
    return re.split("\r\n|\r|\n", text)


def offset_of(text, position, encoding):
    """The characters before a position; one past a line's end, or inside of a character, is moved to the left."""
    start, ends = 0, re.compile("\r\n|\r|\n")
    for _ in range(position["line"]):
        found = ends.search(text, start)
        if not found:
            return len(text)
        start = found.end()
    stop = ends.search(text, start)
    line = text[start:stop.start() if stop else len(text)]
    count = 0
    while count < len(line) and units(line[:count + 1], encoding) <= position["character"]:
        count += 1
    return start + count


def position_of(text, at, encoding):
    lines = lines_of(text[:at])
    return {"line": len(lines) - 1, "character": units(lines[-1], encoding)}


def lies_in(text, position, encoding):
    return position_of(text, offset_of(text, position, encoding), encoding) == position


def changed_by(text, changes, encoding):
    for change in changes:
        if "range" in change:
            start = offset_of(text, change["range"]["start"], encoding)
            stop = offset_of(text, change["range"]["end"], encoding)
            text = text[:start] + change["text"] + text[max(start, stop):]
        else:
            text = change["text"]
    return text


def ranges_in(value):
    """Each range in a value."""
    if isinstance(value, list):
        for part in value:
            yield from ranges_in(part)
    elif isinstance(value, dict):
        if set(value) == {"start", "end"}:
            yield value
        for part in value.values():
            yield from ranges_in(part)


# ---- a client.

class Client:
    """A client that writes to a server, and reads whole messages from it."""

    def __init__(self, program, arguments, folder):
        self.server = subprocess.Popen([program, "lsp", *arguments], cwd=folder, stdin=subprocess.PIPE,
                                       stdout=subprocess.PIPE, stderr=subprocess.PIPE)
        self.number, self.version = 0, 0
        self.encoding = "utf-16"

    def write(self, body):
        self.server.stdin.write(frame(body))
        self.server.stdin.flush()

    def read(self):
        header = b""
        while not header.endswith(b"\r\n\r\n"):
            byte = self.server.stdout.read(1)
            if not byte:
                return None
            header += byte
        found = re.fullmatch(rb"Content-Length: ([1-9][0-9]*)\r\n\r\n", header)
        if not found:
            complain(f"a header: {header!r}")
            return None
        return json.loads(self.server.stdout.read(int(found[1])))

    def note(self, method, parameters):
        self.write(note_of(method, parameters))

    def ask(self, method, parameters):
        self.number += 1
        self.write(json.dumps({"jsonrpc": "2.0", "id": self.number, "method": method, "params": parameters}).encode())
        return self.read()

    def start(self, encoding=None, **able):
        """Starts the conversation of a client that shows related information and is able to do more."""
        offered = {"textDocument": {"publishDiagnostics": {"relatedInformation": True}}, **able}
        if encoding == "utf-8":
            offered["general"] = {"positionEncodings": ["utf-16", "utf-8"]}
        answer = self.ask("initialize", {"processId": None, "rootUri": None, "capabilities": offered})
        self.encoding = answer["result"]["capabilities"]["positionEncoding"]
        expect("the encoding of positions", self.encoding, encoding or "utf-16")
        self.note("initialized", {})
        return answer["result"]

    def open(self, uri, text):
        self.version = 1
        self.note("textDocument/didOpen",
                  {"textDocument": {"uri": uri, "languageId": "vsi", "version": 1, "text": text}})

    def change(self, uri, *changes):
        self.version += 1
        self.note("textDocument/didChange",
                  {"textDocument": {"uri": uri, "version": self.version}, "contentChanges": list(changes)})

    def stop(self, said=""):
        """Ends the conversation. Standard error has got this text and nothing else."""
        self.number += 1
        self.write(json.dumps({"jsonrpc": "2.0", "id": self.number, "method": "shutdown"}).encode())
        expect("shutdown", self.read(), answered(self.number, None))
        self.note("exit", None)
        self.ended(0, said)

    def ended(self, status, said):
        self.server.stdin.close()
        rest, told = self.server.stdout.read(), self.server.stderr.read().decode()
        expect("the end", [self.server.wait(), rest.decode(), told], [status, "", said])


def answered(number, result):
    return {"jsonrpc": "2.0", "id": number, "result": result}


def failed(number, code, text):
    return {"jsonrpc": "2.0", "id": number, "error": {"code": code, "message": text}}


def span(line, start, stop):
    return {"start": {"line": line, "character": start}, "end": {"line": line, "character": stop}}


def at(uri, line, character, **more):
    return dict(more, textDocument={"uri": uri}, position={"line": line, "character": character})


def marks(diagnostics):
    """Number, line, first and last code unit of each error."""
    return [[found["code"], found["range"]["start"]["line"], found["range"]["start"]["character"],
             found["range"]["end"]["character"]] for found in diagnostics if found["severity"] == 1]
