"""Want of memory in the language server itself, which runs within this process for it."""
import contextlib
import functools
import io
import itertools

from lsp_client import SERVER, URI, expect, framed, module, range_of

class Kept:
    """A channel whose messages are handed in, and kept."""

    def __init__(self):
        self.sent = []

    def write(self, message):
        self.sent.append(message)

    def told(self):
        """What was sent since this was asked last: methods, or codes of errors, with the texts for the
        user."""
        sent, self.sent = self.sent, []
        return [
            it.get("error", {}).get("code") or dig(it, "params", "message") or it.get("method", "result")
            for it in sent
        ]


def dig(value, *names):
    for name in names:
        value = value.get(name, {})
    return value


@contextlib.contextmanager
def wanting(owner, name, after=0):
    """Memory is wanting at each call of a function but the first ones."""
    kept, calls = getattr(owner, name), itertools.count()

    @functools.wraps(kept)
    def at_last(*words):
        if next(calls) >= after:
            raise MemoryError
        return kept(*words)

    setattr(owner, name, at_last)
    try:
        with contextlib.redirect_stderr(io.StringIO()):
            yield
    finally:
        setattr(owner, name, kept)


def refused_once(kept):
    """A function for whose first call memory is wanting."""
    calls = itertools.count()

    def refusing(*words):
        if next(calls) == 0:
            raise MemoryError
        return kept(*words)

    return refusing


class Within:
    """A server within this process, and the channel that it writes to."""

    OPENED = {"textDocument": {"uri": URI, "languageId": "sh", "version": 1, "text": "echo  a\n"}}
    COMMENTS = [
        {"text": "# b\n", "range": range_of(0, 0, 0, 0)}, {"text": "# c\n", "range": range_of(0, 0, 0, 0)}
    ]
    CHANGED = {"textDocument": {"uri": URI, "version": 2}, "contentChanges": COMMENTS}
    PRINTED = {"textDocument": {"uri": URI}, "options": {"tabSize": 8, "insertSpaces": False}}
    LOST = f"shform: {URI}: out of memory; open it anew"

    def __init__(self, program):
        self.module = module("server", SERVER)
        self.channel = Kept()
        self.server = self.module.Server(self.channel, [program, "session"])
        self.take("initialize", {"capabilities": {}}, id=1)
        self.take("textDocument/didOpen", self.OPENED)
        self.channel.told()

    def take(self, method, params, **more):
        self.server.take({"jsonrpc": "2.0", "method": method, "params": params, **more})

    def run_over(self, source):
        """Answers the messages of a source. Answers the status."""
        self.channel.read = self.module.Channel(source, None).read
        return self.server.run()


def lost_changes(program):
    """A script whose text is no longer known, since memory was wanting amid its changes, is let go of."""
    within = Within(program)
    text = within.module.Text
    rows = (
        (within.module, "change_of", 1), (text, "lines_of", 0), (text, "lines_of", 1), (text, "changed", 1)
    )
    for owner, name, after in rows:
        within.take("textDocument/didOpen", within.OPENED)
        within.channel.told()
        with wanting(owner, name, after):
            within.take("textDocument/didChange", within.CHANGED)
        expect(f"the want of memory at {name} {after}", within.channel.told()[0], within.LOST)
        within.take("textDocument/formatting", within.PRINTED, id=2)
        expect("a script that was lost is not formatted", within.channel.told(), [-32602])


def lost_answers(program):
    """Where the session or an answer alone is lost, the next answer is that of the text that all changes
    make."""
    within = Within(program)
    with wanting(within.module, "parts_of"):
        within.take("textDocument/didChange", within.CHANGED)
    within.channel.told()
    for owner, name, code in (
        (within.module.Session, "outline", -32803), (within.module.Server, "request", -32603)
    ):
        with wanting(owner, name):
            within.take("textDocument/documentSymbol", {"textDocument": {"uri": URI}}, id=3)
        expect(f"the error at {name}", within.channel.told()[-1], code)
    within.channel.write = refused_once(within.channel.write)
    within.take("textDocument/formatting", within.PRINTED, id=4)
    expect("the error of an answer that was not written", within.channel.told(), [-32603])
    within.take("textDocument/formatting", within.PRINTED, id=5)
    edits = [(it["range"], it["newText"]) for it in within.channel.sent[-1]["result"]]
    expect("what is formatted", edits, [(range_of(2, 0, 3, 0), "echo a\n")])


def lost_messages(program):
    """No message ends the server for which there is no memory; the scripts are let go of, since it may have
    been a change."""
    within = Within(program)
    source = io.BytesIO(framed(b"x" * 5000) + framed(b'{"jsonrpc":"2.0","method":"exit"}'))
    source.read = refused_once(source.read)
    expect("the status", within.run_over(source), 1)
    expect("what is told of a message that is lost", within.channel.told(), [within.LOST])
    within = Within(program)
    with wanting(within.module, "json_of"):
        expect("the status where no body can be read", within.run_over(io.BytesIO(framed(b"{}"))), 1)
    expect("what is told of it", within.channel.told(), [within.LOST])
