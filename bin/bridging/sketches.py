"""A sketch of a long line: the names of the outermost members of its object, without their values.

A line of many small values takes some twenty times its bytes when it is decoded. A sketch is made piece by piece, and takes a few
pieces. It is right of each line that is JSON. Of another line it may say anything: the follower refuses such a line.
"""
import contextlib
import json
import re
from collections.abc import Collection, Iterator
from typing import NamedTuple, Optional

# so many bytes are looked at first, and at most at once
FIRST, PIECE = 1 << 6, 1 << 16
# no line that the follower accepts is nested deeper
DEEPEST = 127
NO_BRACKETS = bytes(set(range(256)) - set(b"[]{}"))
# no name that is known is longer, however it is written
MOST_NAME = 96
SPACE = rb"[ \t\n\r]*"
OPEN = re.compile(rb"%s\{%s(\}%s)?" % (SPACE, SPACE, SPACE))
# a name, and its value or how that begins
MEMBER = re.compile(rb'("[^"]{0,%d}")%s:%s([^\s"{}\[\],:]+|(["{\[]))' % (MOST_NAME, SPACE, SPACE))
NEXT = re.compile(rb"%s([,}])%s" % (SPACE, SPACE))
EMPTY = re.compile(rb"\{%s\}" % SPACE)
# a value that is seen at once to end: a string without backslashes, or brackets with nothing but numbers
FLAT = re.compile(rb'"[^"\\]*"|[\[{][^\[\]{}"]*[\]}]')


class Inside(NamedTuple):
    """Where in a value a reader is: in how many brackets, whether in a string, and whether behind a backslash there."""

    depth: int
    in_string: bool
    is_escaped: bool


def sketch_of(line: bytes, known: Collection[str], begin: int = 0, is_inner: bool = False) -> dict[str, object]:
    """The members of the object that begins there, up to the first whose name is not known. Each value is None, but that of `cut` is an
    empty object if it is one, and that of `line` is a sketch, in which a further `line` is None. A ValueError says that it is no object."""
    found: dict[str, object] = {}
    for name, start, end in members(line, known, begin, is_inner):
        found[name] = None
        if name not in known:
            break
        if name == "cut" and EMPTY.fullmatch(line, start, end):
            found[name] = {}
        elif name == "line" and not is_inner:
            with contextlib.suppress(ValueError):
                found[name] = sketch_of(line, known, start, is_inner=True)
    return found


def members(line: bytes, known: Collection[str], begin: int, is_inner: bool) -> Iterator[tuple[str, int, int]]:
    """The name of each member of the object that begins there, and where its value begins and ends. Behind an object that is not an inner
    one the line has to end."""
    opened = OPEN.match(line, begin)
    if opened is None:
        raise ValueError("no object")
    place, separator = opened.end(), b"}" if opened[1] else b","
    spelled = {b'"%s"' % name.encode(): name for name in known}
    while separator == b",":
        member = MEMBER.match(line, place)
        if member is None:
            raise ValueError("no member")
        start = member.start(2)
        end = end_of(line, start) if member[3] else member.end(2)
        yield spelled.get(member[1]) or json.loads(member[1]), start, end
        found = NEXT.match(line, end)
        if found is None:
            raise ValueError("no end of a member")
        separator, place = found[1], found.end()
    if place < len(line) and not is_inner:
        raise ValueError("more than an object")


def end_of(line: bytes, start: int) -> int:
    """Behind the value that begins there with a quotation mark or a bracket. A ValueError says that it does not end."""
    flat = FLAT.match(line, start)
    if flat is not None:
        return flat.end()
    inside = Inside(0, True, False) if line[start:start + 1] == b'"' else Inside(1, False, False)
    place, size, most = start + 1, FIRST, PIECE
    while place < len(line):
        piece = line[place:place + size]
        behind = gone_on(inside, piece)
        if behind is not None:
            inside, place, size = behind, place + len(piece), min(most, 2 * size)
        elif len(piece) == 1:
            return place + 1
        else:
            size = most = len(piece) // 2
    raise ValueError("no end of a value")


def gone_on(inside: Inside, piece: bytes) -> Optional[Inside]:
    """Where a reader of the value is behind the piece, or None if the value may end in the piece."""
    text = piece[inside.is_escaped:].replace(b"\\\\", b"")
    parts = text.replace(b'\\"', b"").split(b'"')
    if inside.depth == 0 and len(parts) > 1:
        return None
    left = unpaired(b"".join(parts[inside.in_string::2]).translate(None, NO_BRACKETS))
    opened = len(left.lstrip(b"]}"))
    closed = len(left) - opened
    if closed and closed >= inside.depth:
        return None
    depth = inside.depth - closed + opened
    if depth > DEEPEST:
        raise ValueError("nested too deep")
    return Inside(depth, inside.in_string != (len(parts) % 2 == 0), text.endswith(b"\\"))


def unpaired(brackets: bytes) -> bytes:
    """What is left of brackets once pairs are taken away: those that close, and then those that open. A ValueError says that they are
    nested too deep."""
    for _ in range(DEEPEST + 1):
        fewer = brackets.replace(b"{}", b"").replace(b"[]", b"")
        if len(fewer) == len(brackets):
            return brackets
        brackets = fewer
    raise ValueError("nested too deep")
