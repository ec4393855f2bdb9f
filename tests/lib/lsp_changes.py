"""Changes of scripts: how they become requests of the session, and random ones."""
import io
import os
import random
import subprocess

from lsp_client import ROOT, SERVER, applied, checked, expect, module, position, range_of, served, told, units

NOTIFICATIONS = 2000  # of random changes, in each encoding
MOST_PARTS = 64  # of a batch
FURTHEST = 1024  # bytes between two parts of a batch, unless the script is faulty

CHANGES_OF = (  # the text before, the changes, and the text after
    ("a\nb\nc\n", [("'", 1, 0, 1, 0)], "a\n'b\nc\n"),
    ("a\nb\nc\n", [("'", 1, 0, 1, 0), ("", 1, 0, 1, 1)], "a\nb\nc\n"),
    ("a\nb\nc\n", [("x\ny '", 0, 1, 2, 0), ("; z", 1, 3, 1, 99)], "ax\ny '; z\n"),
    ("a\nb\nc\n", [("x '", 3, 0, 3, 0)], "a\nb\nc\nx '"),
    ("a\nb\nc\n", [("x '", 99, 7, 99, 7)], "a\nb\nc\nx '"),
    ("a\nb\nc", [("(", 2, 99, 2, 99)], "a\nb\nc("),
    ("a\nb\nc", [("(", 1, 1, 0, 1)], "a(\nc"),
    ("a\nb\nc", ["x\ny ("], "x\ny ("),
    ("a\nb\nc", ["x\n", ("(", 0, 1, 0, 1), "(\n", ("a", 1, 0, 1, 0)], "(\na"),
    ("a\nb\nc", [], "a\nb\nc"),
    ("", [("a (", 0, 0, 0, 0)], "a ("),
    ("a (", [("", 0, 0, 9, 0)], ""),
    ("a\rb\rc (", [("x", 1, 1, 2, 0)], "a\rbxc ("),
    ("a\rb (", [("\n", 1, 0, 1, 0)], "a\r\nb ("),
    ("a\r\nb (", [("\r", 0, 1, 0, 1), (":", 1, 0, 1, 0)], "a\r:\r\nb ("),
    ("a\rb", [("(\n", 1, 0, 1, 1), ("x\n", 0, 9, 0, 9)], "ax\n\r(\n"),
    ("a\n\nb (", [("\r", 0, 9, 0, 9), ("x", 1, 0, 1, 0)], "a\r\nx\nb ("),
    ("é€😀 𝒳 (", [("x", 0, 2, 0, 4)], "é€x 𝒳 ("),
    ("é€😀 𝒳 (", [("x", 0, 3, 0, 3)], "é€x😀 𝒳 ("),
    ("é\né€😀\n(", [("\n😀", 1, 4, 1, 4), (" ;", 2, 2, 2, 2)], "é\né€😀\n😀 ;\n("),
    ("a \ud83d 😀 (", [("x", 0, 3, 0, 3)], "a \ufffdx 😀 ("),
)

# The same, of a client for which a newline alone ends a line; each leaves a fault.
CHANGES_BY_NEWLINES = (
    ("a\rb\nc\n", [("(", 1, 1, 1, 1)], "a\rb\nc(\n"),
    ("a\rb\nc\n", [("é😀 (", 0, 2, 0, 3)], "a\ré😀 (\nc\n"),
    ("a\r\nb\nc (", [("x", 0, 2, 0, 2)], "a\rx\nb\nc ("),
    ("a\r\nb\n", [("\r", 0, 1, 0, 1), ("", 0, 1, 0, 2), ("(\n", 0, 9, 0, 9)], "a\r(\n\nb\n"),
    ("a\rb\n", ["a\r\nb\rc\n", ("(", 1, 3, 1, 3)], "a\r\nb\rc(\n"),
    ("a\rb", [("\n", 0, 9, 0, 9), ("\r (", 1, 0, 1, 0)], "a\rb\n\r ("),
)


def apart(count):
    """A script of two commands that have so many bytes between them: the one ends at 1, the other begins so
    many after it."""
    return f"a\n#{'x' * (count - 3)}\nb"


# Changes of one notification: the text before, the changes, and the requests that come of them, with the
# parts of each.
SENT = (
    # at several cursors, from the first on, from the last on, and neither
    (
        "a\nb\nc\n",
        [("x", 0, 0, 0, 0), ("x", 1, 0, 1, 0), ("x", 2, 0, 2, 0)],
        [("batch", (0, 0, "x"), (2, 2, "x"), (4, 4, "x"))],
    ),
    (
        "a\nb\nc\n",
        [("x", 2, 0, 2, 0), ("x", 1, 0, 1, 0), ("x", 0, 0, 0, 0)],
        [("batch", (0, 0, "x"), (2, 2, "x"), (4, 4, "x"))],
    ),
    (
        "a\nb\nc\n",
        [("x", 1, 0, 1, 0), ("x", 2, 0, 2, 0), ("x", 0, 0, 0, 0)],
        [("batch", (0, 0, "x"), (2, 2, "x"), (4, 4, "x"))],
    ),
    ("é b é", [("é", 0, 0, 0, 1), ("é", 0, 4, 0, 5)], [("batch", (0, 2, "é"), (5, 7, "é"))]),
    (
        "a b c",
        [("xy", 0, 0, 0, 1), ("xy", 0, 3, 0, 4), ("xy", 0, 6, 0, 7)],
        [("batch", (0, 1, "xy"), (2, 3, "xy"), (4, 5, "xy"))],
    ),
    (
        "a b c",
        [("xy", 0, 4, 0, 5), ("xy", 0, 2, 0, 3), ("xy", 0, 0, 0, 1)],
        [("batch", (0, 1, "xy"), (2, 3, "xy"), (4, 5, "xy"))],
    ),
    (
        "aa bb cc",
        [("", 0, 0, 0, 2), ("", 0, 1, 0, 3), ("", 0, 2, 0, 4)],
        [("batch", (0, 2, ""), (3, 5, ""), (6, 8, ""))],
    ),
    (
        "a\nb\nc\n",
        [("\n\n", 0, 1, 0, 1), ("", 2, 0, 3, 0), ("x", 3, 0, 3, 1)],
        [("batch", (1, 1, "\n\n"), (1, 2, ""), (4, 5, "x"))],
    ),
    # next to what came before
    (
        "a",
        [("x", 0, 1, 0, 1), ("y", 0, 2, 0, 2), ("z", 0, 1, 0, 1)],
        [("batch", (1, 1, "z"), (1, 1, "x"), (1, 1, "y"))],
    ),
    (
        "abc",
        [("", 0, 1, 0, 2), ("x", 0, 1, 0, 1), ("", 0, 2, 0, 3)],
        [("batch", (1, 2, ""), (2, 2, "x"), (2, 3, ""))],
    ),
    (
        "abc",
        [("", 0, 0, 0, 1), ("", 0, 0, 0, 1), ("", 0, 0, 0, 1)],
        [("batch", (0, 1, ""), (1, 2, ""), (2, 3, ""))],
    ),
    (
        "abc",
        [("", 0, 2, 0, 3), ("", 0, 1, 0, 2), ("", 0, 0, 0, 1)],
        [("batch", (0, 1, ""), (1, 2, ""), (2, 3, ""))],
    ),
    ("a\nb\nc\n", ["a\nx\nc\n", ("y", 2, 0, 2, 1)], [("batch", (2, 4, "x\n"), (4, 5, "y"))]),
    # across what came before
    ("abc", [("xyz", 0, 1, 0, 1), ("", 0, 2, 0, 3)], [("edit", (1, 1, "xyz")), ("edit", (2, 3, ""))]),
    ("abc", [("xyz", 0, 1, 0, 1), ("u", 0, 2, 0, 2)], [("edit", (1, 1, "xyz")), ("edit", (2, 2, "u"))]),
    ("abc", [("", 0, 1, 0, 2), ("x", 0, 0, 0, 2)], [("edit", (1, 2, "")), ("edit", (0, 2, "x"))]),
    ("abc", [("x", 0, 1, 0, 2), ("y", 0, 1, 0, 2)], [("edit", (1, 2, "x")), ("edit", (1, 2, "y"))]),
    (
        "abc",
        [("x", 0, 0, 0, 0), ("y", 0, 4, 0, 4), "z"],
        [("edit", (0, 0, "x")), ("edit", (4, 4, "y")), ("edit", (0, 5, "z"))],
    ),
    # one, none, as many as a batch may have, and one more
    ("abc", [("x", 0, 1, 0, 2)], [("edit", (1, 2, "x"))]),
    ("abc", [], []),
    ("", [("x", 0, 0, 0, 0)] * 64, [("batch", *[(0, 0, "x")] * 64)]),
    ("", [("x", 0, 0, 0, 0)] * 65, [("edit", (0, 0, "x"))] * 65),
    (
        "a\n" * 64,
        [("", line, 0, line, 1) for line in range(64)],
        [("batch", *((2 * line, 2 * line + 1, "") for line in range(64)))],
    ),
)

# The same, of changes that may stand far from one another. What begins after the end of the first command
# does so at B, or after it.
B = FURTHEST + 1
X, Y, Z = ("x", 0, 1, 0, 1), ("y", 2, 0, 2, 0), ("z", 4, 0, 4, 0)
QUOTES = [("'", 0, 1, 0, 1), ("'", 2, 0, 2, 0), ("'", 4, 0, 4, 0)]
THRICE = apart(B) + apart(B)[1:]  # the third place is at 1 + B + 1 + B
SENT_FAR = (
    # as far as they may be, and a byte more
    (apart(FURTHEST), [X, Y], [("batch", (1, 1, "x"), (B, B, "y"))]),
    (apart(B), [X, Y], [("edit", (1 + B, 1 + B, "y")), ("edit", (1, 1, "x"))]),
    (apart(B), [Y, X], [("edit", (1 + B, 1 + B, "y")), ("edit", (1, 1, "x"))]),
    # what is put in does not lie between them, nor does what is taken out
    (apart(FURTHEST), [("x" * B, 0, 1, 0, 1), Y], [("batch", (1, 1, "x" * B), (B, B, "y"))]),
    (apart(B), [("; x", 0, 1, 1, 1), ("y", 1, 0, 1, 0)], [("batch", (1, 3, "; x"), (1 + B, 1 + B, "y"))]),
    (apart(B), [("", 0, 0, 0, 1), ("", 2, 0, 2, 1)], [("edit", (1 + B, 2 + B, "")), ("edit", (0, 1, ""))]),
    # near some of the others
    (
        apart(B) + " c",
        [X, Y, ("z", 2, 3, 2, 3)],
        [("batch", (1 + B, 1 + B, "y"), (3 + B, 3 + B, "z")), ("edit", (1, 1, "x"))],
    ),
    (
        apart(B),
        [("z", 0, 0, 0, 0), ("x", 0, 2, 0, 2), Y],
        [("edit", (1 + B, 1 + B, "y")), ("batch", (0, 0, "z"), (1, 1, "x"))],
    ),
    (
        apart(FURTHEST) + apart(FURTHEST)[1:],
        [X, ("y", 2, 0, 2, 1), Z],
        [("batch", (1, 1, "x"), (B, 1 + B, "y"), (2 * B, 2 * B, "z"))],
    ),
    (
        THRICE,
        [X, Y, Z],
        [("edit", (2 + 2 * B, 2 + 2 * B, "z")), ("edit", (1 + B, 1 + B, "y")), ("edit", (1, 1, "x"))],
    ),
    # in a script that is faulty, or gets so by the last of them, or by the one in the middle
    (apart(B) + " '", [X, Y], [("batch", (1, 1, "x"), (1 + B, 1 + B, "y"))]),
    ("(" + apart(B)[1:], [X, Y], [("batch", (1, 1, "x"), (1 + B, 1 + B, "y"))]),
    (apart(B) + " '", [X, ("", 2, 2, 2, 3)], [("batch", (1, 1, "x"), (3 + B, 4 + B, ""))]),
    (THRICE, QUOTES, [("edit", (2 + 2 * B, 2 + 2 * B, "'")), ("batch", (1, 1, "'"), (1 + B, 1 + B, "'"))]),
    (
        THRICE,
        [X, *QUOTES[1:]],
        [("edit", (2 + 2 * B, 2 + 2 * B, "'")), ("batch", (1, 1, "x"), (1 + B, 1 + B, "'"))],
    ),
    (
        THRICE,
        [X, QUOTES[1], Z],
        [("edit", (2 + 2 * B, 2 + 2 * B, "z")), ("edit", (1 + B, 1 + B, "'")), ("edit", (1, 1, "x"))],
    ),
)


def part_of(line, source):
    """Offsets, by the last words of a line, and the bytes that follow it."""
    start, end, length = map(int, line.split()[-3:])
    new = source.read(length)
    source.read(1)
    return start, end, new


def replayed(log):
    """What a session held each time it was asked for its fault, as it is after a notification, and the
    requests that had made it so."""
    states, data, sent, source = [], b"", [], io.BytesIO(log)
    for line in iter(source.readline, b""):
        if line == b"fault\n":
            states.append((data, sent))
            sent = []
        elif line.startswith((b"edit ", b"batch ")):
            word, number = line.decode().split()[:2]
            made = (
                [part_of(line, source)]
                if word == "edit"
                else [part_of(source.readline(), source) for _ in range(int(number))]
            )
            sent.append((word, *made))
            for start, end, new in reversed(made):
                data = data[:start] + new + data[end:]
    return states


def recorded(log):
    """The same, of a file."""
    with open(log, "rb") as file:
        return replayed(file.read())


def recorder(program, room):
    """A program that keeps what each session is sent, and the file in which it does."""
    path, log = f"{room}/recorder", f"{room}/recorded"
    with open(path, "w", encoding="utf-8") as file:
        file.write(f"#!/bin/sh\ntee -a '{log}' | '{program}' \"$@\"\n")
    os.chmod(path, 0o755)
    return path, log


def changes(program, room):
    path, log = recorder(program, room)
    for before, made, after in CHANGES_OF:
        open(log, "wb").close()
        with served(path) as client:
            client.open(before)
            found = client.change(*made, version=7)
            fault = checked(program, after)
            wanted = [] if fault is None else [position(after, fault[0], False)]
            expect(f"the fault of {after!r}", [it[:2] for it in told(found)], wanted)
            expect("the version", found["version"], 7)
        expect(f"the session's text after {made}", recorded(log)[-1][0], after.encode())
    for before, made, after in CHANGES_BY_NEWLINES:
        *above, head = after[: checked(program, after)[0]].split("\n")
        wanted = [(len(above), units(head, False))]
        for name in ("Neovim", "Eglot"):
            open(log, "wb").close()
            with served(path, name=name) as client:
                client.open(before)
                expect(
                    f"the fault of {after!r}, by newlines",
                    [it[:2] for it in told(client.change(*made))],
                    wanted,
                )
            expect(f"the session's text after {made}, by newlines", recorded(log)[-1][0], after.encode())
    open(log, "wb").close()
    with served(path, utf8=True) as client:
        client.open("é€😀 ;;")
        expect("a fault after characters", told(client.change(("x", 0, 3, 0, 8)))[0][:2], (0, 8))
    expect("the session's text after a change within characters", recorded(log)[-1][0], "éx😀 ;;".encode())


def requests(program, room):
    """What is sent to a session for the changes of a notification."""
    path, log = recorder(program, room)
    for before, made, wanted in SENT + SENT_FAR:
        open(log, "wb").close()
        with served(path) as client:
            client.open(before)
            client.change(*made)
        _, (_, sent) = recorded(log)
        wanted = [
            (word, *((start, end, new.encode()) for start, end, new in parts)) for word, *parts in wanted
        ]
        expect(f"what is sent for {made}", sent, wanted)


def random_edits(chance, text):
    """Edits by chance, one after the other, the text that they make, and whether each lies in front of what
    those before it did, or past it."""
    edits, places, apart = [], [], True
    for _ in range(chance.randint(1, 5)):
        start = chance.randint(0, len(text))
        end = min(len(text), start + chance.choice((0, 0, 1, 2)))
        new = b"xyz"[: chance.randrange(4)]
        apart = apart and all(last <= start or end <= first for first, last in places)
        more = len(new) - (end - start)
        places = [
            (first, last) if last <= start else (first + more, last + more) for first, last in places
        ] + [(start, start + len(new))]
        edits.append((start, end, new))
        text = text[:start] + new + text[end:]
    return edits, text, apart


def compositions(seed):
    """Edits of short texts: that they come to a batch which does the same, and to none only where one of them
    lies across others."""
    parts_of, chance, kinds = module("server", SERVER).parts_of, random.Random(seed), [0, 0]
    for _ in range(20000):
        text = b"abcdef"[: chance.randrange(7)]
        edits, wanted, apart = random_edits(chance, text)
        parts = parts_of(edits)
        kinds[apart] += 1
        if apart and parts:
            offsets = [offset for start, end, _ in parts for offset in (start, end)]
            found = text
            for start, end, new in reversed(parts):
                found = found[:start] + new + found[end:]
            if found != wanted or offsets != sorted(offsets) or offsets[-1] > len(text):
                expect(f"the batch of {edits} on {text}", parts, wanted)
        elif apart or parts is not None:
            expect(f"whether {edits} come to a batch", parts is not None, apart)
    expect("whether there were edits of both kinds", min(kinds) > 2000, True)


# Random changes.

PIECES = (
    "a", "b c", " ", "\t", "\n", "\n\n", "\r\n", "\r", "\n\r", "é", "€", "😀", "𝒳=😀", "# 😀 é\n", "'", '"', "`",
    "\\", "\\\n", "$(a)", "$(", ")", "(", "{ ", "}\n", "; ", "&& ", "| ", "\nf() { 😀; }\n", "if é; then\n",
    "fi\n", "\ncat <<E\n€\nE\n", "<<😀\n", "😀\n", "for 𝒳", "case a in", "${é", "$((1))", "${é-𝒳}", "'😀'",
)


def random_change(chance, text):
    """Two indices of a text, and what is to stand between them."""
    start = chance.randrange(len(text) + 1)
    end = min(len(text), start + chance.choice((0, 0, 0, 1, 1, 2, 5, 30, 300 if len(text) > 3000 else 3)))
    return (
        uncut(text, start),
        uncut(text, end),
        "".join(chance.choice(PIECES) for _ in range(chance.choice((0, 1, 1, 1, 2, 4)))),
    )


def uncut(text, index):
    """An index, or the one before it: no position stands between the two characters of one end of a line."""
    return index - (text[max(index - 1, 0) : index + 1] == "\r\n")


class Typist:
    """Who changes a script by chance, and takes most changes back that make it faulty."""

    def __init__(self, chance, text, utf8):
        self.chance = chance
        self.text = text
        self.utf8 = utf8
        self.states = [text.encode()]  # after each notification
        self.counts = [0]  # how many changes each had
        self.undo = None

    def change(self, start, end, new):
        """Makes a change. Answers it as a client sends it."""
        places = (*position(self.text, start, self.utf8), *position(self.text, end, self.utf8))
        self.undo = start, start + len(new), self.text[start:end]
        self.text = self.text[:start] + new + self.text[end:]
        return new, *places

    def type_again(self):
        """A change of what the last one put in."""
        begin, end, _ = self.undo
        start, end = sorted((self.chance.randint(begin, end), self.chance.randint(begin, end)))
        return self.change(uncut(self.text, start), uncut(self.text, end), self.chance.choice(PIECES))

    def type(self):
        """A change. At times it is the whole text."""
        change = self.change(*(self.undo or random_change(self.chance, self.text)))
        return self.text if self.chance.random() < 0.02 else change

    def type_at_cursors(self):
        """Changes of one notification, each at a place of its own: by the places they rise or fall, or
        neither."""
        count, new = self.chance.choice((2, 2, 3, 5, 20, 64, 65)), self.chance.choice(PIECES)
        starts = sorted(self.chance.sample(range(len(self.text) + 1), min(count, len(self.text) + 1)))
        cursors = [
            (start, min(start + self.chance.choice((0, 0, 1, 5)), after))
            for start, after in zip(starts, starts[1:] + [len(self.text)])
        ]
        order = list(range(len(cursors)))
        self.chance.choice((list, list.reverse, self.chance.shuffle))(order)
        made, moved = [], [0] * len(cursors)
        for at in order:
            start, end = (offset + sum(moved[:at]) for offset in cursors[at])
            if (start, end) == (uncut(self.text, start), uncut(self.text, end)):
                made.append(self.change(start, end, new))
                moved[at] = len(new) - (end - start)
        self.undo = None
        return made

    def type_more(self):
        """The changes of one notification."""
        if self.undo is None and self.chance.random() < 0.1:
            made = self.type_at_cursors()
        else:
            made = [self.type()]
            while self.chance.random() < 0.3:
                if self.chance.random() < 0.3:
                    made.append(self.type_again())
                else:
                    self.undo = None
                    made.append(self.type())
        return self.sent(made)

    def sent(self, made):
        """Takes note of what a notification has."""
        self.states.append(self.text.encode())
        self.counts.append(len(made))
        return made

    def saw(self, faulty):
        """Decides whether the last change is taken back. That cannot be sent where it would begin or end
        between \r and \n."""
        cut = any(uncut(self.text, at) != at for at in self.undo[:2])
        if not faulty or cut or self.chance.random() < 0.2:
            self.undo = None

    def reset(self, text):
        """Begins with another text, as a whole."""
        self.text, self.undo = text, None
        return self.sent([text])


def compare(client, typist, program, session):
    """Compares what a server answers of a text with what runs of the program do."""
    text, data, utf8 = typist.text, typist.states[-1], typist.utf8
    printed = subprocess.run([program, "print"], input=data, capture_output=True)
    edits = client.ask("formatting", options={"tabSize": 8, "insertSpaces": False})
    if printed.returncode == 0:
        expect("a printed text", applied(text, edits, utf8), printed.stdout.decode())
    else:
        expect("no printed text", edits, None)

    def place(offset):
        return position(text, len(data[:offset].decode()), utf8)

    found = [(it["name"], it["range"]) for it in flattened(client.ask("documentSymbol")) if it["kind"] == 12]
    rows = [row for row in session.outline() if row[2] == "function"]
    expect(
        "the functions", found, [(name, range_of(*place(start), *place(end))) for start, end, _, name in rows]
    )


def flattened(symbols):
    return [it for symbol in symbols for it in (symbol, *flattened(symbol["children"]))]


def type_on(client, typist, program, session):
    """Sends notifications until there were enough. Answers how many left a fault, and how many none."""
    left = [0, 0]
    start, faulty = typist.text, 0
    while len(typist.states) <= NOTIFICATIONS:
        made = typist.reset(start) if faulty > 5 else typist.type_more()
        found = told(client.change(*made, version=len(typist.states)))
        session.become(typist.states[-1])
        fault = session.fault()
        wanted = (
            []
            if fault is None
            else [
                position(typist.text, len(typist.states[-1][: fault[0]].decode()), typist.utf8) + (fault[3],)
            ]
        )
        expect("the diagnostics", [it[:3] for it in found], wanted)
        left[not found] += 1
        faulty = faulty + 1 if found else 0
        if typist.undo:
            typist.saw(found)
        if sum(left) % 10 == 0:
            compare(client, typist, program, session)
    return left


def batches_of(sent, counts_of):
    """How many notifications came to a batch, or to several. As many parts are sent as there were changes."""
    kinds = {"one": 0, "a batch": 0, "several": 0, "edits": 0, "too many": 0, "another": 0}
    for requests_sent, count in zip(sent, counts_of):
        kinds[kind_of(requests_sent, count)] += 1
    expect(
        f"that there were notifications of each kind, and no other: {kinds}",
        [it > 0 for it in kinds.values()],
        [True] * 5 + [False],
    )
    return kinds["a batch"] + kinds["several"]


def kind_of(requests_sent, count):
    """What a notification of so many changes came to. Parts of one text are sent from the last on, and those
    that are near at once."""
    words, rows = [word for word, *_ in requests_sent], [parts for _, *parts in requests_sent]
    ends = [(parts[0][0], parts[-1][1]) for parts in rows]
    offsets = [offset for parts in reversed(rows) for start, end, _ in parts for offset in (start, end)]
    if sum(map(len, rows)) != count:
        return "another"
    if count < 2 or count > MOST_PARTS or offsets != sorted(offsets):
        return (
            "another"
            if "batch" in words
            else "one"
            if count < 2
            else "edits"
            if count <= MOST_PARTS
            else "too many"
        )
    cut = all(after[0] - before[1] > FURTHEST for after, before in zip(ends, ends[1:]))
    near = all(
        after[0] - before[1] <= FURTHEST for parts in rows[:-1] for before, after in zip(parts, parts[1:])
    )
    named = words == ["edit" if len(parts) == 1 else "batch" for parts in rows]
    return "another" if not (cut and near and named) else "a batch" if len(rows) == 1 else "several"


def random_changes(program, room, seed):
    library = module("client", f"{ROOT}/examples/client.py")
    path, log = recorder(program, room)
    with open(f"{ROOT}/examples/service.sh", encoding="utf-8") as file:
        # so long that cursors may be far from one another
        start = "# 😀\nf() {\n\techo '𝒳' é\r\n}\n" + 3 * file.read()
    for utf8 in (False, True):
        open(log, "wb").close()
        typist = Typist(random.Random(f"{seed} {utf8}"), start, utf8)
        session = library.Session(program)
        with served(path, utf8=utf8) as client:
            client.open(start)
            faulty, faultless = type_on(client, typist, program, session)
        session.quit()
        states, sent = zip(*recorded(log))
        expect("how many texts the session had", len(states), len(typist.states))
        expect(
            "how many of them were others", [a == b for a, b in zip(states, typist.states)].count(False), 0
        )
        batches = batches_of(sent[1:], typist.counts[1:])
        told = f"{sum(typist.counts)} changes in {len(states) - 1} notifications, {batches} of which came to batches"
        encoding = "utf-8" if utf8 else "utf-16"
        print(f"lsp: {told}, in {encoding}, seed {seed}: {faulty} times a fault was left, {faultless} times none")
