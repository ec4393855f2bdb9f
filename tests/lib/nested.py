"""Scripts of constructs in one another, for tests/stack and tests/leaks.

A shape is a text with `@` where the next one stands: a command, or a part of a word. Where there is a second
`@`, what stands between the two comes after the innermost command, once for each level. The number tells how
many constructs are open at the first `@`.
"""
from typing import NamedTuple

MOST = 100  # so many constructs may be open
CORE = b"b"  # the innermost command, or part of a word

SHAPES = {
    "brace": (1, "{ @; }"),
    "brace on lines": (1, "{ # c\n@ # c\n\n# c\n}"),
    "brace redirected": (1, "{ @; } >a 2>&1 \\\n<b"),
    "brace among commands": (2, "{ a; { @; } & b; }"),
    "subshell": (1, "(@)"),
    "subshell redirected": (1, "(@) >a 2>&1"),
    "if": (1, "if @; then b; fi"),
    "if on lines": (1, "if\n# c\n@ # c\nthen b; fi"),
    "then": (1, "if a; then @; fi"),
    "elif": (1, "if a; then b; elif @; then c; fi"),
    "elif, its body": (1, "if a; then b; elif c; then @; fi"),
    "elif, its body, redirected": (1, "if a; then b; elif c; then @; fi >a 2>&1"),
    "elif, the last": (1, "if a; then b; " + "elif c; then d; " * 20 + "elif @; then e; fi"),
    "elif, the last body": (1, "if a; then b; " + "elif c; then d; " * 20 + "elif e; then @; fi"),
    "else": (1, "if a; then b; else @; fi"),
    "else after elif": (1, "if a; then b; " + "elif c; then d; " * 20 + "else @; fi >a"),
    "while": (1, "while @; do a; done"),
    "while, its body": (1, "while a; do @; done"),
    "until": (1, "until @; do a; done"),
    "until, its body": (1, "until a; do @; done >a"),
    "for": (1, "for x in a b; do @; done"),
    "for without words": (1, "for x do @; done"),
    "for, comments": (1, "for x in a # c\ndo # c\n@\ndone >a"),
    "case": (1, "case a in b) @;; esac"),
    "case, items": (1, "case a in (b|c) d;; (e | f) @;; g) h; esac >a"),
    "case, the last item": (1, "case a in b) @\nesac"),
    "case, comments": (1, "case a in # c\nb) # c\n@ # c\n;; # c\n# c\nesac"),
    "function": (2, "f() { @; }"),
    "function, redirected": (2, "f() { @; } >a 2>&1"),
    "function, comments": (2, "f() # c\n# c\n(@)"),
    "function of if": (2, "f() if a; then b; elif @; then c; fi"),
    "function of case": (2, "f() case a in b) @;; esac"),
    "pipe, after": (1, "a | { @; }"),
    "pipe, before": (1, "{ @; } | a"),
    "pipe, among": (1, "a | b |\n# c\n{ @; } | c"),
    "not": (1, "! { @; }"),
    "not, pipe": (1, "! a | { @; }"),
    "and": (1, "a && { @; }"),
    "or, before": (1, "{ @; } || a"),
    "and, or": (1, "a && b ||\n# c\n! c | { @; } && d"),
    "and, pipe, elif": (1, "a && b | if c; then d; elif @; then e; fi >a"),
    "and, pipe, elif body": (1, "a && b | if c; then d; elif e; then @; fi >a"),
    "and, pipe, while": (1, "a && b | while @; do c; done >a"),
    "and, pipe, for": (1, "a && b | for x in a b; do @; done >a"),
    "and, pipe, case": (1, "a && b | case c in (d|e) f;; g) @;; esac >a"),
    "and, pipe, function": (2, "a && b | f() { @; } >a"),
    "and, pipe, word": (1, "a && b | c $(@)"),
    "and, pipe, target": (1, "a && b | { c; } >$(@)"),
    "string": (2, '"${x:-@}"'),
    "parameter": (1, "${x:-@}"),
    "pattern": (1, "${x#@}"),
    "pattern in a string": (2, '"${x%%@}"'),
    "parameter, pieces": (1, "${x:-a'b'$y`c`\\d@e}"),
    "arithmetic": (1, "$((@))"),
    "arithmetic in a parameter": (2, "${x:-$((1 + (@)))}"),
    "brackets": (1, "$((" + "(" * 200 + "@" + ")" * 200 + "))"),
    "substitution": (1, "$(@)"),
    "substitution in a string": (2, '"$(@)"'),
    "substitution on lines": (1, "a b=$( # c\n@ # c\n)"),
    "substitution in a parameter": (2, "${x:-$(@)}"),
    "substitution in a string's parameter": (3, '"${x:-$(@)}"'),
    "substitution in arithmetic": (2, "$(($(@)))"),
    "target": (1, "a >$(@)"),
    "target after a group": (1, "{ a; } >$(@)"),
    "target after a function's body": (2, "f() { a; } >$(@)"),
    "target in an elif": (2, "if a; then b; elif { c; } >$(@); then d; fi"),
    "substitution for a case": (2, "case $(@) in a) b;; esac"),
    "substitution for a pattern": (2, "case a in b|$(@)) c;; esac"),
    "substitution for a for": (2, "for x in a $(@); do b; done"),
    "elif in a string": (4, '"${a:-$(if a; then b; elif @; then c; fi)}"'),
    "pipe in a string": (4, '"${a:-$(a | { @; })}"'),
    "case in a string": (4, '"${a:-$(case a in b) @;; esac)}"'),
    "while in a substitution": (2, "$(while @; do a; done)"),
    "here-document": (1, "{ @\n} <<E\nx\nE"),
    "here-document that waits": (1, "cat <<E; { @\nx\nE@\n}"),
    "here-document in a substitution": (1, "$(cat <<-E\n\tx\n\tE\n@)"),
    "here-document after elif": (1, "if a; then b; elif @\nthen c; fi <<E\nx\nE"),
}


def parts(shape, depth):
    """What stands before the innermost command and after it, where so many constructs are open at it."""
    cost, text = SHAPES[shape]
    before, *between, after = text.encode().split(b"@")
    count, left = divmod(depth, cost)
    return b"{ " * left + before * count, b"".join(between) * count + after * count + b"; }" * left


class Script(NamedTuple):
    name: str
    text: bytes
    at: int  # a place in it that is edited
    fault: bytes  # a part of the line that tells its fault; of a faultless one nothing


def scripts_of(shape):
    """With the most open constructs, with one more, cut off after the openers, and before the last byte."""
    before, after = parts(shape, MOST)
    deeper, last = parts(shape, MOST + 1)
    whole = before + CORE + after
    yield Script(shape, whole + b"\n", len(before), b"")
    yield Script(f"{shape} (one deeper)", deeper + CORE + last, len(deeper), b": too many open constructs\n")
    yield Script(f"{shape} (all open)", before, len(before) - 1, b"-:")
    yield Script(f"{shape} (the first open)", whole[:-1], len(before), b"-:")


def among_lines(shape):
    """With the most open constructs, among more lines than the program reads at once or holds before it
    passes them."""
    before, after = parts(shape, MOST)
    lines = 10_000 * b"a b # c\n"
    return Script(
        f"{shape} (among lines)", lines + before + CORE + after + b"\n" + lines, len(lines + before), b""
    )
