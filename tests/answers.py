"""Answers of the library to many texts, through the program answer."""

import os
import struct
import subprocess
import sys

sys.path.insert(0, os.path.join(os.path.dirname(os.path.abspath(__file__)), "reference"))
from places import place  # noqa: E402

ANSWER = os.environ.get("ACON_ANSWER", "target/tests/answer")


def answers(texts):
    """The number and the canonical form (b"" in a refusal) for each text. The offset of its fault has to be the reference's."""
    given = b"".join(struct.pack("<I", len(t)) + t for t in texts)
    got = subprocess.run([ANSWER], input=given, stdout=subprocess.PIPE, check=True).stdout
    result, at = [], 0
    for text in texts:
        (packed,) = struct.unpack_from("<Q", got, at)
        number, length, second = packed & 0xFF, packed >> 8 & 0xFFFFFF, packed >> 32
        if second != place(text, number) or (number != 0 and length != 0):
            raise SystemExit("answer: values %d and %d with number %d: %r" % (length, second, number, text[:400]))
        at += 8
        result.append((number, got[at : at + length]))
        at += length
    if at != len(got):
        raise SystemExit("answer: %d bytes too many" % (len(got) - at))
    return result
