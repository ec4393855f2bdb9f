"""What tests/stack and tests/leaks ask of the program over a script, and how they and tests/soak run it over
many."""
import argparse
import functools
import multiprocessing
import os
import subprocess
import sys
import tempfile
from typing import NamedTuple

from edits import batch_of

HERE = os.path.dirname(os.path.realpath(__file__))
PROGRAM = f"{os.path.dirname(os.path.dirname(HERE))}/crates/shform/out/shform"
SECONDS = 60
EVERY_OPTION = ("-i", "16", "--case-indent", "--space-redirects", "--func-next-line")
LAYOUTS = ((), ("-i", "3"), ("--case-indent",), ("--space-redirects",), ("--func-next-line",), EVERY_OPTION)


class Case(NamedTuple):
    """A run of the program, in a folder where the file `script` has the script."""

    name: str
    words: tuple
    stdin: bytes
    alone: tuple = ()  # sessions with a part of the requests each, the first with none
    output: str = ""  # where standard output goes, if not to a pipe


def edit(start, end, new):
    return b"edit %d %d %d\n%b\n" % (start, end, len(new), new)


def batch(*parts):
    return batch_of(parts)


def requests_of(script):
    """What a session is asked. Each leaves the script as it was."""
    at, text = script.at, script.text
    size, old, deeper = len(text), text[at : at + 1], b"$(b)"
    after = size - len(old) + 2  # the length, with two bytes in the place of the old one
    return {
        "open": b"",
        "fault": b"fault\n",
        "at": b"at %d\n" % at,
        "outline": b"outline\n",
        "print": b"print\n",
        "edit": edit(at, at + len(old), b"cc") + edit(at, at + 2, old),
        "edit deeper": edit(at, at + len(old), deeper) + b"fault\nprint\n" + edit(at, at + len(deeper), old),
        "edit of a quote": edit(0, 0, b"'") + b"outline\n" + edit(0, 1, b""),
        "edit of all": edit(0, size, b"") + edit(0, 0, text),
        "refused": edit(1, 0, b"") + b"edit 0 0 0\nx\nstatus\n",
        "batch": (
            batch((at, at + len(old), b"cc"), (size, size, b"\n"))
            + batch((at, at + 2, old), (after, after + 1, b""))
        ),
        "batch of quotes": (
            batch((0, 0, b"'"), (size, size, b"'"))
            + b"outline\n"
            + batch((0, 1, b""), (size + 1, size + 2, b""))
        ),
        "batch of all": batch((0, at, b""), (at, size, b"")) + batch((0, 0, text[:at]), (0, 0, text[at:])),
        "refused batches": (
            batch((0, 0, text), (1, 0, b""))
            + batch((size, size, text), (0, 0, text))
            + b"batch 2\n0 0 1\nb\n0 0 1\nbb\n"
        ),
    }


def session_of(name, words, opening, script):
    requests = requests_of(script)
    alone = (Case(f"{name}: {it}", words, opening + request) for it, request in requests.items())
    return Case(name, words, opening + b"".join(requests.values()), tuple(alone))


def cases_of(script):
    yield Case("check FILE", ("check", "script"), b"")
    yield Case("check", ("check",), script.text)
    for layout in LAYOUTS[:1] if script.fault else LAYOUTS:
        yield Case(" ".join(("print", *layout)), ("print", *layout), script.text)
    yield session_of("session FILE", ("session", "script"), b"", script)
    yield session_of("session", ("session", *EVERY_OPTION), edit(0, 0, script.text), script)


class Runs:
    """Runs of the program over a script, in a folder of their own. The tool is what was built for them."""

    def __init__(self, program, tool, folder, script):
        self.program, self.tool, self.folder, self.script = program, tool, folder, script
        with open(f"{folder}/script", "wb") as file:
            file.write(script.text)

    def run(self, case, environment, before=()):
        """The status, standard output and standard error. Words may stand before the program.

        Standard input is a file, since what is had of a pipe at once is not the same each time."""
        with open(f"{self.folder}/stdin", "w+b") as stdin, open(case.output or os.devnull, "wb") as device:
            stdin.write(case.stdin)
            stdin.seek(0)
            done = subprocess.run(
                [*before, self.program, *case.words],
                cwd=self.folder,
                env=environment,
                stdin=stdin,
                stdout=device if case.output else subprocess.PIPE,
                stderr=subprocess.PIPE,
                timeout=SECONDS,
            )
        return done.returncode, done.stdout, done.stderr

    def is_told(self, status, told):
        """Whether a check that ends so tells the fault that the script is meant to have, or none."""
        fault = self.script.fault
        return status == bool(fault) and bool(told) == bool(fault) and fault in told


def over_script(what, kind, program, tool, script):
    """Does one thing with one script, in a folder that goes when it is done."""
    with tempfile.TemporaryDirectory() as folder:
        return what(kind(program, tool, folder, script))


def over_scripts(what, kind, program, source, scripts):
    """Does it with all of them, several at once. The tool is built of its words for the compiler."""
    with tempfile.TemporaryDirectory() as room, multiprocessing.Pool() as pool:
        tool, compiler = f"{room}/tool", os.environ.get("CC", "cc").split()
        subprocess.run([*compiler, "-O2", "-Wall", "-Wextra", *source, "-o", tool], cwd=HERE, check=True)
        return pool.map(functools.partial(over_script, what, kind, program, tool), scripts, 1)


def given_words(usage, names, *flags):
    """The program, the names and the flags that the words of a script give; without a name all are."""
    words = argparse.ArgumentParser(usage=usage)
    words.add_argument("--program", default=PROGRAM)
    words.add_argument("names", nargs="*")
    for flag in flags:
        words.add_argument(flag, action="store_true")
    given = words.parse_args()
    given.program = os.path.realpath(given.program)
    given.names = given.names or list(names)
    if not os.access(given.program, os.X_OK):
        words.error(f"there is no program {given.program}: ./shform --version builds it")
    if not set(given.names) <= set(names):
        words.error(f"the names are {'; '.join(names)}")
    return given


def tell_failures(title, scripts, found):
    """Tells what was found for each script, in lines; the status is 1 where there is a line."""
    for script, lines in zip(scripts, found):
        for line in lines:
            print(f"{title}: FAILED: {script.name}: {line}", file=sys.stderr)
    failed = sum(map(bool, found))
    print(f"{title}: {failed} of {len(found)} failed" if failed else f"{title}: {len(found)} scripts passed")
    return 1 if failed else 0
