"""Where the fault of a text stands, for the numbers 2 to 6: request 2026-01, written from its words. The offset of 3 is found token by token,
the last of which may be cut; those of 4, 5 and 6 are looked for in the tokens of a JSON text."""

import functools
import json
import re

from store import MOST_NESTING, refused_number, refused_string

SPACE = re.compile(rb"[ \t\n\r]*")
CHARS = re.compile(rb'"(?:[^"\\\x00-\x1f]|\\(?:["\\/bfnrt]|u[0-9a-fA-F]{4}))*')  # a string without its last quotation mark
ESCAPE = re.compile(rb"\\(?:u[0-9a-fA-F]{0,3})?")  # what an escape begins with
NUMBER = re.compile(rb"-?(?:0|[1-9][0-9]*)(?:\.[0-9]+)?(?:[eE][+-]?[0-9]+)?")
NUMBER_START = re.compile(rb"-?(?:(?:0|[1-9][0-9]*)(?:\.(?:[0-9]+(?:[eE][+-]?[0-9]*)?)?|[eE][+-]?[0-9]*)?)?")
TOKEN = re.compile(rb'"(?:[^"\\]|\\.)*"|-?[0-9][0-9.eE+-]*|[\[\]{}]', re.S)


class Stops(Exception):
    """No JSON text goes on from here."""


def string_end(text, at):
    at = CHARS.match(text, at).end()
    if text[at : at + 1] == b'"':
        return at + 1
    escape = ESCAPE.match(text, at)
    raise Stops(escape.end() if escape else at)


def scalar_end(text, at):
    """After a string, a number or a word that begins there."""
    if text[at : at + 1] == b'"':
        return string_end(text, at)
    for word in b"true", b"false", b"null":
        if text[at : at + 1] == word[:1]:
            same = next((k for k in range(len(word)) if text[at + k : at + k + 1] != word[k : k + 1]), len(word))
            if same < len(word):
                raise Stops(at + same)
            return at + same
    begun = NUMBER_START.match(text, at).end()
    whole = NUMBER.match(text, at)
    if not whole or whole.end() < begun:
        raise Stops(begun)
    return begun


def after_value(text, at, opened):
    """What is to come after the byte that follows a value, or None where that is the end of an array or object."""
    if opened and text[at : at + 1] == b",":
        return "value" if opened[-1] == b"[" else "key"
    if opened and text[at : at + 1] == (b"]" if opened[-1] == b"[" else b"}"):
        return None
    raise Stops(at)


def longest_start(text):
    """The length of the longest start that some JSON text of nesting at most 8 begins with."""
    at, opened, wanted = 0, [], "value"
    try:
        while True:
            at = SPACE.match(text, at).end()
            c = text[at : at + 1]
            if not c:
                return at
            if wanted in ("first value", "first key") and c == (b"]" if wanted == "first value" else b"}"):
                opened.pop()
                at, wanted = at + 1, "after"
            elif wanted == "after":
                wanted = after_value(text, at, opened)
                if wanted is None:
                    opened.pop()
                    wanted = "after"
                at += 1
            elif wanted == "colon":
                if c != b":":
                    return at
                at, wanted = at + 1, "value"
            elif wanted in ("key", "first key"):
                if c != b'"':
                    return at
                at, wanted = string_end(text, at), "colon"
            elif c in b"[{":
                if len(opened) == MOST_NESTING:
                    return at
                opened.append(c)
                at, wanted = at + 1, "first value" if c == b"[" else "first key"
            else:
                at, wanted = scalar_end(text, at), "after"
    except Stops as stop:
        return stop.args[0]


def well_formed_start(text):
    """The length of the longest start that is UTF-8."""
    try:
        text.decode("utf-8")
    except UnicodeDecodeError as fault:
        return fault.start
    return len(text)


def first_token(text, number):
    """The first byte of the first faulty string or number, or of the first key equal to an earlier key of its object."""
    earlier = []
    for token in TOKEN.finditer(text):
        word, begin = token.group(), token.start()
        if word in (b"[", b"{"):
            earlier.append(set())
        elif word in (b"]", b"}"):
            earlier.pop()
        elif word[:1] != b'"':
            if number == 5 and refused_number(word.decode()):
                return begin
        elif number == 4:
            if refused_string(json.loads(word.decode(), strict=False)):
                return begin
        elif number == 6 and text[SPACE.match(text, token.end()).end() :][:1] == b":":
            key = json.loads(word.decode())
            if key in earlier[-1]:
                return begin
            earlier[-1].add(key)
    raise ValueError("there is no such fault in the text")


@functools.lru_cache(maxsize=1 << 15)
def place(text, number):
    """The offset that a refusal of the text with that number gives; 0 where the number gives none."""
    if number == 2:
        return well_formed_start(text)
    if number == 3:
        return longest_start(text)
    return first_token(text, number) if number in (4, 5, 6) else 0
