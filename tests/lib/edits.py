"""Batches of edits, and what a text is after them. An edit of a batch is its part (start, end, new)."""


def edits_of(parts):
    """What a batch has after its line."""
    return b"".join(b"%d %d %d\n%b\n" % (start, end, len(new), new) for start, end, new in parts)


def batch_of(parts):
    return b"batch %d\n%b" % (len(parts), edits_of(parts))


def spliced(text, parts):
    """A text with the parts of a batch made."""
    pieces, at = [], 0
    for start, end, new in parts:
        pieces += (text[at:start], new)
        at = end
    return b"".join((*pieces, text[at:]))


def refusal_of(text, parts):
    """Why a batch is refused, or None."""
    if any(start > end or end > len(text) for start, end, _ in parts):
        return "no range"
    if any(before[1] > after[0] for before, after in zip(parts, parts[1:])):
        return "no order"
    return None


def undoing(text, parts):
    """The parts of a batch that takes another one back."""
    found, moved = [], 0
    for start, end, new in parts:
        found.append((start + moved, start + moved + len(new), text[start:end]))
        moved += len(new) - (end - start)
    return found
