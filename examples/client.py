#!/usr/bin/env python3
"""Keeps `shform session` in step with a file that is being edited, and shows its outline and its first fault.

  examples/client.py PROGRAM FILE [SECONDS]
  examples/client.py PROGRAM FILE OLD NEW

Looks at FILE each half second, sends what changed as one edit, and shows what is new. It ends after SECONDS,
where they are given, or when it is interrupted. With OLD and NEW it shows what the script is like with NEW in
the place of each OLD, which it sends as batches, and ends. FILE is not written.
"""
import os
import re
import subprocess
import sys
import time

MOST_PARTS = 64  # of a batch


class Session:
    """One run of the program, with the bytes that it holds."""

    def __init__(self, program):
        self.process = subprocess.Popen([program, "session"], stdin=subprocess.PIPE, stdout=subprocess.PIPE)
        self.text = b""

    def ask(self, request):
        self.process.stdin.write(request)
        self.process.stdin.flush()
        return self.line()

    def line(self):
        line = self.process.stdout.readline()
        if not line.endswith(b"\n"):
            raise EOFError("the session has ended")
        return line[:-1].decode()

    def edit(self, start, end, new):
        """Puts bytes in the place of others. A refused edit raises its refusal."""
        head = b"edit %d %d %d\n" % (start, end, len(new))
        reply = self.ask(head + new + b"\n")
        if not reply.startswith("ok "):
            raise ValueError(reply)
        self.text = self.text[:start] + new + self.text[end:]

    def batch(self, parts):
        """Makes at most MOST_PARTS edits (start, end, new) at once: they rise, by offsets before them all.
        Refused as an edit is."""
        rows = [b"%d %d %d\n%b\n" % (start, end, len(new), new) for start, end, new in parts]
        reply = self.ask(b"batch %d\n%b" % (len(rows), b"".join(rows)))
        if not reply.startswith("ok "):
            raise ValueError(reply)
        for start, end, new in reversed(parts):
            self.text = self.text[:start] + new + self.text[end:]

    def replace(self, old, new):
        """Puts bytes in the place of others wherever these stand: the last first, so that those before stay
        where they are."""
        parts = [(found.start(), found.end(), new) for found in re.finditer(re.escape(old), self.text)]
        while parts:
            self.batch(parts[-MOST_PARTS:])
            del parts[-MOST_PARTS:]

    def become(self, text):
        """Makes the script this text: one edit for what stands between the common begin and the common
        end."""
        if text == self.text:
            return
        least = min(len(text), len(self.text))
        front = 0
        while front < least and text[front] == self.text[front]:
            front += 1
        back = 0
        while back < least - front and text[-1 - back] == self.text[-1 - back]:
            back += 1
        self.edit(front, len(self.text) - back, text[front : len(text) - back])

    def outline(self):
        """The rows (start, end, kind, name), where name may be None."""
        word, count = self.ask(b"outline\n").split(" ")
        rows = []
        for _ in range(int(count)):
            start, end, kind, *name = self.line().split(" ")
            rows.append((int(start), int(end), kind, name[0] if name else None))
        return rows

    def fault(self):
        """The first fault as (offset, line, column, number), or None."""
        words = self.ask(b"fault\n").split(" ")
        return None if words == ["none"] else tuple(int(word) for word in words[1:])

    def quit(self):
        self.process.stdin.write(b"quit\n")
        self.process.stdin.close()
        self.process.stdout.read()
        return self.process.wait()


def show(session):
    fault = session.fault()
    if fault is not None:
        print(f"{fault[1]}:{fault[2]}: fault {fault[3]}")
    depth = []
    for start, end, kind, name in session.outline():
        while depth and depth[-1] <= start:
            depth.pop()
        print("  " * len(depth) + (f"{kind} {name}" if name else kind))
        depth.append(end)
    print(flush=True)


def read(file):
    with open(file, "rb") as script:
        return script.read()


def watch(session, file, ends):
    shown = None
    while True:
        session.become(read(file))
        if session.text != shown:
            shown = session.text
            show(session)
        if ends is not None and time.monotonic() >= ends:
            break
        time.sleep(0.5)


def main():
    if len(sys.argv) not in (3, 4, 5):
        sys.exit(__doc__)
    program, file, *words = sys.argv[1:]
    ends = time.monotonic() + float(words[0]) if len(words) == 1 else None
    session = Session(program)
    if len(words) == 2:
        session.become(read(file))
        session.replace(*map(os.fsencode, words))
        show(session)
    else:
        try:
            watch(session, file, ends)
        except KeyboardInterrupt:
            pass
    sys.exit(session.quit())


if __name__ == "__main__":
    main()
