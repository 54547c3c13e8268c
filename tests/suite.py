"""Compares the library with Python's own JSON test-suite.

The suite, test.test_json, is part of some Python installations and not copied
here. It is run with a reader that writes down each text given to it and
whether the suite's reader took it. Then the library is asked. Where Python
refuses, the library has to answer 3. Where Python takes a text, the library has
to give the canonical form of what Python read, but for the rules that Python
does not have; these are worked out from what Python read.
"""

import collections
import io
import json
import sys
import unittest

from answers import answers

# Of the other modules test_recursion only makes deep nesting, and the rest write JSON.
MODULES = ["test_pass1", "test_pass2", "test_pass3", "test_fail",
           "test_decode", "test_scanstring", "test_unicode", "test_float"]


class NoJson(Exception):
    """NaN and the infinities, which Python reads as numbers."""


class Number(str):
    """A number as it is written."""


class Pairs(list):
    """The members of an object as they stand, equal keys too."""


def no_json(word):
    raise NoJson(word)


def parts(value, depth=1):
    """Each value inside, with the nesting that it has as an array or object."""
    yield value, depth
    if isinstance(value, Pairs):
        for key, inner in value:
            yield key, depth
            yield from parts(inner, depth + 1)
    elif isinstance(value, list):
        for inner in value:
            yield from parts(inner, depth + 1)


def refused_string(s):
    return any(c < " " or c == "\x7f" or "\ud800" <= c <= "\udfff" for c in s)


def refused_number(s):
    return any(c in ".eE" for c in s) or s == "-0" or len(s) > 11 or not -(2**31) <= int(s) < 2**31


def write(value):
    if isinstance(value, Number):
        return value.encode()
    if isinstance(value, str):
        return b'"%s"' % value.replace("\\", "\\\\").replace('"', '\\"').encode()
    if isinstance(value, Pairs):
        members = sorted((key.encode(), key, inner) for key, inner in value)
        return b"{%s}" % b",".join(write(key) + b":" + write(inner) for _, key, inner in members)
    if isinstance(value, list):
        return b"[%s]" % b",".join(map(write, value))
    return {True: b"true", False: b"false", None: b"null"}[value]


def expected(text, taken):
    """The number, its reason and the form that the library has to give."""
    if not taken:
        return 3, "Python refuses", b""
    try:
        value = json.loads(text, object_pairs_hook=Pairs, parse_int=Number, parse_float=Number, parse_constant=no_json)
    except NoJson:
        return 3, "NaN or Infinity", b""
    everything = list(parts(value))
    if any(isinstance(v, list) and depth > 8 for v, depth in everything):
        return 3, "nesting over 8", b""
    strings = [v for v, _ in everything if isinstance(v, str) and not isinstance(v, Number)]
    if any(map(refused_string, strings)):
        return 4, "control character or lone surrogate", b""
    if any(refused_number(v) for v, _ in everything if isinstance(v, Number)):
        return 5, "number that is not whole or out of range", b""
    if any(len({key for key, _ in v}) < len(v) for v, _ in everything if isinstance(v, Pairs)):
        return 6, "equal keys", b""
    return 0, "same content", write(value)


def record(test_json):
    """Runs the suite; gives each text that it read and whether it was taken."""
    seen = {}
    reader = test_json.PyTest
    loads, decoder = reader.loads, reader.json.decoder
    scanstring = decoder.scanstring

    def note(text, taken):
        # Bytes are left out: Python guesses their encoding.
        if isinstance(text, str):
            seen[text] = taken

    def noting_loads(text, *args, **options):
        try:
            value = loads(text, *args, **options)
        except reader.JSONDecodeError:
            note(text, False)
            raise
        if options.get("strict", True):
            note(text, True)
        return value

    def noting_scanstring(text, start, *args):
        whole = start == 1 and text[:1] == '"' and args in ((), (True,))
        try:
            value = scanstring(text, start, *args)
        except reader.JSONDecodeError:
            if whole:
                note(text, False)
            raise
        if whole and value[1] == len(text):
            note(text, True)
        return value

    reader.loads, decoder.scanstring = staticmethod(noting_loads), noting_scanstring
    try:
        suite = unittest.defaultTestLoader.loadTestsFromNames("test.test_json." + m for m in MODULES)
        result = unittest.TextTestRunner(stream=io.StringIO()).run(suite)
    finally:
        reader.loads, decoder.scanstring = loads, scanstring
    if not result.wasSuccessful() or result.testsRun == 0:
        sys.exit("suite: Python's own tests fail here: %s" % (result.errors + result.failures))
    return seen


def main():
    try:
        import test.test_json as test_json
        import test.test_json.test_fail as test_fail
    except ImportError:
        print("suite: 0 texts, skipped: this python3 comes without test.test_json")
        return
    seen = record(test_json)
    if not set(test_fail.JSONDOCS) <= set(seen):
        sys.exit("suite: not every document of test_fail was seen")

    # A raw surrogate in a str has no UTF-8; as bytes it has to be 2.
    given = [t.encode("utf-8", "surrogatepass") for t in seen]
    reasons = collections.Counter()
    for (text, taken), data, (number, form) in zip(seen.items(), given, answers(given)):
        if any("\ud800" <= c <= "\udfff" for c in text):
            want = 2, "raw surrogate", b""
        elif len(data) > 16384:
            want = 1, "over 16,384 bytes", b""
        else:
            want = expected(text, taken)
        if (number, form) != (want[0], want[2]):
            sys.exit("suite: %r: library %d %r, expected %d (%s) %r" % (text[:400], number, form, *want))
        reasons["%s (%d)" % (want[1], want[0])] += 1
    print("suite: %d texts of test.test_json: %s" % (len(seen), ", ".join("%s %d" % r for r in reasons.most_common())))


main()
