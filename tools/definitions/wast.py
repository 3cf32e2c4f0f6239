"""Scans texts and scripts of WebAssembly: top-level groups, strings, and the tree of a text."""

import re

TOKEN = re.compile(rb'[\s]+|;;[^\n\r]*|\$?"(?:[^"\\]|\\.)*"|[()]|(?:(?!;;|\(;)[^\s()"])+|\(;', re.DOTALL)
ESCAPES = {b"t": b"\t", b"n": b"\n", b"r": b"\r", b'"': b'"', b"'": b"'", b"\\": b"\\"}
ESCAPE = re.compile(rb"\\(?:u\{([0-9a-fA-F_]+)\}|([0-9a-fA-F]{2})|(.))", re.DOTALL)


class Unreadable(Exception):
    """A text that has no tree: a string, a comment or a group that does not end."""


def comment_end(text, start):
    """Returns the end of the block comment that starts at `start`."""
    depth, at = 0, start
    for mark in re.finditer(rb"\(;|;\)", text[start:]):
        depth += 1 if mark.group() == b"(;" else -1
        at = start + mark.end()
        if depth == 0:
            return at
    raise Unreadable(at)


def tokens(text):
    """Yields the tokens of a text with their starts, without white space and comments."""
    at = 0
    while at < len(text):
        if text.startswith(b"(;", at):
            at = comment_end(text, at)
            continue
        found = TOKEN.match(text, at)
        if not found:
            raise Unreadable(at)
        token = found.group()
        if not token.isspace() and not token.startswith(b";;"):
            yield token, at
        at = found.end()


def trees(text):
    """Returns the top-level items of a text: each an atom (bytes) or a list, with its start and its end."""
    stack, starts, items = [[]], [], []
    for token, at in tokens(text):
        if token == b"(":
            stack.append([])
            starts.append(at)
        elif token == b")":
            if not starts:
                raise Unreadable(at)
            group, start = stack.pop(), starts.pop()
            stack[-1].append(group)
            if not starts:
                items.append((group, start, at + 1))
        else:
            stack[-1].append(token)
            if not starts:
                items.append((token, at, at + len(token)))
    if starts:
        raise Unreadable(starts[-1])
    return items


def string_bytes(token):
    """Returns the bytes that a quoted string means."""

    def meant(escape):
        point, pair, other = escape.groups()
        if point:
            return chr(int(point.replace(b"_", b""), 16)).encode("utf-8", "surrogatepass")
        return bytes([int(pair, 16)]) if pair else ESCAPES[other]

    return ESCAPE.sub(meant, token[1:-1])


def strings_of(items):
    """Returns the bytes of all strings among these items, joined."""
    return b"".join(string_bytes(it) for it in items if isinstance(it, bytes) and it.startswith(b'"'))


def is_identifier(item):
    return isinstance(item, bytes) and item.startswith(b"$")


def module_parts(group):
    """Returns the word after `module` and its identifier (`quote`, `binary` or another one), or `None`, and the items after the head."""
    rest = group[2:] if len(group) > 1 and is_identifier(group[1]) else group[1:]
    word = rest[0] if rest and isinstance(rest[0], bytes) and not rest[0].startswith(b'"') else None
    return word, rest[1:] if word else rest
