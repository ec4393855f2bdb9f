"""A client of the language server by raw messages, and what its tests share."""
import contextlib
import importlib.machinery
import importlib.util
import json
import os
import re
import subprocess
import sys

HERE = os.path.dirname(os.path.realpath(__file__))
ROOT = os.path.dirname(os.path.dirname(HERE))
SERVER = f"{ROOT}/contrib/lsp/shform-lsp"
URI = "file:///a%20place/script.sh"
counts = {"passed": 0, "failed": 0}


def expect(what, found, wanted):
    counts["passed" if found == wanted else "failed"] += 1
    if found != wanted:
        print(f"lsp: {what}: {str(found)[:900]!r} where {str(wanted)[:900]!r} was wanted", file=sys.stderr)


def module(name, path):
    loader = importlib.machinery.SourceFileLoader(name, path)
    spec = importlib.util.spec_from_loader(name, loader)
    found = importlib.util.module_from_spec(spec)
    spec.loader.exec_module(found)
    return found


class Client:
    """A run of the server, and what it has sent."""

    def __init__(self, program, *words):
        command = [sys.executable, SERVER, *(("--program", program) if program else ()), *words]
        self.process = subprocess.Popen(command, stdin=subprocess.PIPE, stdout=subprocess.PIPE)
        self.next = 0
        self.shown = []  # the texts of window/showMessage and window/logMessage

    def send_bytes(self, data):
        self.process.stdin.write(data)
        self.process.stdin.flush()

    def send(self, message):
        whole = {"jsonrpc": "2.0", **message}
        try:
            body = json.dumps(whole, ensure_ascii=False).encode()
        except UnicodeEncodeError:
            body = json.dumps(whole).encode()  # half of a pair can be sent by its number alone
        self.send_bytes(framed(body))

    def read(self):
        """The next message that is no text for the user."""
        while True:
            header = self.process.stdout.readline()
            if not header:
                return None
            self.process.stdout.readline()
            message = json.loads(self.process.stdout.read(int(header.split(b":")[1])))
            if message.get("method") not in ("window/showMessage", "window/logMessage"):
                return message
            self.shown.append((message["method"][7:], message["params"]["message"]))

    def answer(self, method, params=None):
        """The whole reply to a request."""
        self.next += 1
        self.send({"id": self.next, "method": method, "params": params})
        reply = self.read()
        expect(f"the id of the reply to {method}", reply.get("id"), self.next)
        return reply

    def ask(self, method, **params):
        """The result of a request for the script."""
        reply = self.answer(f"textDocument/{method}", {"textDocument": {"uri": URI}, **params})
        return reply["result"] if "result" in reply else reply["error"]["code"]

    def notify(self, method, params=None):
        self.send({"method": method, "params": params})

    def begin(self, name="test", **capabilities):
        params = {
            "processId": None, "clientInfo": {"name": name}, "rootUri": None, "capabilities": capabilities
        }
        result = self.answer("initialize", params)["result"]
        self.notify("initialized", {})
        return result

    def diagnostics(self):
        """What a publishDiagnostics that comes now says."""
        message = self.read()
        expect("what follows a change", message.get("method"), "textDocument/publishDiagnostics")
        return message["params"]

    def open(self, text, uri=URI, version=1):
        self.notify(
            "textDocument/didOpen",
            {"textDocument": {"uri": uri, "languageId": "sh", "version": version, "text": text}},
        )
        return self.diagnostics()

    def change(self, *changes, version=2):
        """Makes changes: a text, or a text with the range it stands in, as four numbers."""
        listed = [
            {"text": it} if isinstance(it, str) else {"text": it[0], "range": range_of(*it[1:])}
            for it in changes
        ]
        self.notify(
            "textDocument/didChange",
            {"textDocument": {"uri": URI, "version": version}, "contentChanges": listed},
        )
        return self.diagnostics()

    def close(self, uri=URI):
        self.notify("textDocument/didClose", {"textDocument": {"uri": uri}})
        return self.diagnostics()

    def end(self, *, polite=True):
        """Ends the server. Answers its status, and that it sent no more."""
        if polite:
            expect("the reply to shutdown", self.answer("shutdown")["result"], None)
        self.notify("exit")
        rest = self.read()
        self.process.stdin.close()
        return self.process.wait(), rest


def range_of(line, character, last_line, last_character):
    return {
        "start": {"line": line, "character": character},
        "end": {"line": last_line, "character": last_character},
    }


@contextlib.contextmanager
def served(program, *words, utf8=False, flat=False, name="test"):
    """A client that has begun, and that ends well."""
    client = Client(program, *words)
    symbols = {"documentSymbol": {"hierarchicalDocumentSymbolSupport": not flat}}
    client.begin(name, general={"positionEncodings": ["utf-8"] if utf8 else ["utf-16"]}, textDocument=symbols)
    yield client
    expect("the server's end", client.end(), (0, None))


def units(text, utf8):
    return len(text.encode()) if utf8 else len(text.encode("utf-16-le")) // 2


def position(text, index, utf8):
    """The line and the character of an index of a text, found by the words of the protocol."""
    ends = [match.end() for match in re.finditer("\r\n|\n|\r", text[: index + 1]) if match.end() <= index]
    begin = ends[-1] if ends else 0
    line = re.split("\r\n|\n|\r", text[begin:])[0]
    return len(ends), units(line[: index - begin], utf8)


def applied(text, edits, utf8):
    """A text with one edit of the protocol made, or none."""
    for edit in edits:
        start, end = (index_of(text, edit["range"][name], utf8) for name in ("start", "end"))
        text = text[:start] + edit["newText"] + text[end:]
    return text


def index_of(text, place, utf8):
    """The index of a position."""
    begins = [0] + [match.end() for match in re.finditer("\r\n|\n|\r", text)]
    index = begins[place["line"]]
    while units(text[begins[place["line"]] : index], utf8) < place["character"]:
        index += 1
    return index


def told(diagnostics):
    """The start, the number and the text of the diagnostics."""
    return [(*it["range"]["start"].values(), it["code"], it["message"]) for it in diagnostics["diagnostics"]]

def checked(program, text, *words):
    """What `shform check` tells of a text: nothing, or the index at which the first fault stands, and its
    text."""
    data = text.encode()
    done = subprocess.run([program, "check", *words], input=data, capture_output=True)
    if done.returncode == 0:
        return None
    _, line, column, message = done.stderr.decode().rstrip("\n").split(":", 3)
    lines = data.split(b"\n")
    offset = sum(len(it) + 1 for it in lines[: int(line) - 1]) + int(column) - 1
    return len(data[:offset].decode()), message[1:]


def framed(body, header=b"Content-Length: %d\r\n\r\n"):
    return header % len(body) + body
