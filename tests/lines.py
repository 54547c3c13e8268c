"""What store_lines.py and lookup_lines.py share: the lines that the program `test_store` reads, what it prints for each by the implementation in
reference/, images for them, and comparing with the files that are stored beside it."""

import json
import os
import sys

HERE = os.path.dirname(os.path.abspath(__file__))
sys.path.insert(0, os.path.join(HERE, "reference"))
from lookup import resolve  # noqa: E402
from policy import judge  # noqa: E402
from places import place  # noqa: E402
from store import Image, load, read_id, record  # noqa: E402

INPUT = 262144  # bytes that the program takes
BUFFER = 32768  # the longest buffer
REPORT = 8192  # the longest report buffer
OUTPUT = 4096  # the longest output buffer
LIST = 2048  # the longest layer list
FILL = 0xEE
DIGITS = {"sha224": 56, "sha256": 64, "sha384": 96}


# ---- What the program prints


class Refused(Exception):
    """A line that the program calls bad."""


class Bench:
    """A buffer and its used count, worked on line by line: the numbers of the loads, and the answers of the judges and the resolves."""

    def __init__(self):
        self.buffer, self.used, self.numbers, self.calls = bytearray(), 0, [], []
        self.works = [(b"new ", self.new), (b"load ", self.load), (b"put ", self.put), (b"used ", self.set_used), (b"judge ", self.judge),
                      (b"resolve ", self.resolve)]

    def new(self, words):
        size = decimal(words)
        if size > BUFFER:
            raise Refused
        self.buffer, self.used = bytearray([FILL]) * size, 0
        return []

    def load(self, words):
        given_id, text = split(words)
        number, used, written = load(given_id, text, self.buffer, self.used)
        self.numbers.append(number)
        if number == 0:
            self.buffer[self.used : used] = written
            self.used = used
        return [b"%d %d %d" % (number, used, place(text, number))]

    def put(self, words):
        at, digits = split(words)
        at, data = decimal(at), pairs(digits)
        if at + len(data) > len(self.buffer):
            raise Refused
        self.buffer[at : at + len(data)] = data
        return []

    def set_used(self, words):
        self.used = decimal(words)
        return []

    def show(self):
        if self.used > len(self.buffer):
            raise Refused
        after = self.buffer[self.used :]
        return [self.buffer[: self.used].hex().encode(), b"%d" % (len(after) - after.count(FILL))]

    def judge(self, words):
        size = decimal(words)
        if size > REPORT:
            raise Refused
        number, pairs, written = judge(self.buffer, self.used, size)
        self.calls.append((number, written))
        return [b"%d %d" % (number, pairs), written.hex().encode(), b"0"]

    def resolve(self, words):
        place, words = split(words)
        place = decimal(place)
        size, digits = split(words)
        size, layer_list = decimal(size), pairs(digits)
        if size > OUTPUT or len(layer_list) > LIST:
            raise Refused
        number, value, written = resolve(self.buffer, self.used, layer_list, place, size)
        self.calls.append((number, value, written))
        return [b"%d %d" % (number, value), written.hex().encode(), b"0"]

    def answer(self, line):
        """What the program prints for a line."""
        try:
            for word, work in self.works:
                if line.startswith(word):
                    return work(line[len(word) :])
            if line == b"show":
                return self.show()
            raise Refused
        except Refused:
            return [b"bad"]


def decimal(words):
    """The program reads a number only as long as ten times what it has read, and a digit, cannot leave 64 bits."""
    if not words or set(words) - set(b"0123456789") or int(words[:-1] or b"0") > (2**64 - 10) // 10:
        raise Refused
    return int(words)


def pairs(digits):
    """The bytes that two hexadecimal digits each stand for."""
    if set(digits) - set(b"0123456789abcdef") or len(digits) % 2:
        raise Refused
    return bytes.fromhex(digits.decode())


def split(words):
    if b" " not in words:
        raise Refused
    return words.split(b" ", 1)


# ---- Images


V = b'{"aconSpecVersion":[1,0]}'
KA, KHA = "\u0915", "\u0916"


def name(signer, digest, algorithm="sha224"):
    """An Image ID, each digest from one digit or from two in turn."""
    return "/".join([algorithm] + [(d * DIGITS[algorithm])[: DIGITS[algorithm]] for d in (signer, digest)]).encode()


def layer(digit, algorithm="sha224"):
    return algorithm + "/" + digit * DIGITS[algorithm]


def text(contents=None, own=None, accepts=None, guard=None, layers=None):
    """A canonical manifest with aliases, `own` for `self`, a policy and layers."""
    aliases = {"contents": contents, "self": own and {".": own}}
    policy = {"accepts": accepts, "rejectUnaccepted": guard}
    value = {"aconSpecVersion": [1, 0]}
    for field, members in (("aliases", aliases), ("policy", policy)):
        members = {key: member for key, member in members.items() if member is not None}
        if members:
            value[field] = members
    if layers is not None:
        value["layers"] = layers
    return json.dumps(value, sort_keys=True, ensure_ascii=False, separators=(",", ":")).encode()


def made(given_id, manifest):
    """The record of any bytes as a manifest."""
    return record(Image(*read_id(given_id), manifest))


# ---- Lines


class Lines:
    """The lines, the number that each load among them has to get, and what each judge and each resolve has to answer."""

    def __init__(self):
        self.lines, self.numbers, self.calls = [], [], []

    def line(self, line):
        self.lines.append(line)

    def new(self, size):
        self.line(b"new %d" % size)

    def load(self, number, given_id, manifest=V):
        self.line(b"load " + given_id + b" " + manifest)
        self.numbers.append(number)

    def put(self, at, data):
        self.line(b"put %d %s" % (at, data.hex().encode()))

    def used(self, used):
        self.line(b"used %d" % used)

    def show(self):
        self.line(b"show")

    def store(self, *records):
        """A store put in by hand."""
        data = b"".join(records)
        self.put(0, data)
        self.used(len(data))


def main(script, program, *parts):
    """Compares: the numbers and answers written out by hand with those of the reference, and both with the files stored beside the program."""
    made_here = [line for part in parts for line in part.lines]
    numbers = [number for part in parts for number in part.numbers]
    calls = [call for part in parts for call in part.calls]
    bench = Bench()
    given = b"".join(line + b"\n" for line in made_here)
    wanted = b"".join(a + b"\n" for line in given.split(b"\n")[:-1] for a in bench.answer(line))
    if len(given) > INPUT:
        sys.exit("%s: %d bytes are more than the program takes" % (script, len(given)))
    if bench.numbers != numbers:
        k = next(k for k, (x, y) in enumerate(zip(bench.numbers, numbers)) if x != y)
        line = [line for line in made_here if line.startswith(b"load ") and b" " in line[5:]][k]
        sys.exit("%s: the reference gives %d and not %d: %r" % (script, bench.numbers[k], numbers[k], line[:400]))
    if bench.calls != calls:
        k = next(k for k, (x, y) in enumerate(zip(bench.calls, calls)) if x != y)
        sys.exit("%s: judge or resolve %d: the reference gives %r and not %r" % (script, k, bench.calls[k], calls[k]))
    for kind, data in (("stdin", given), ("stdout", wanted)):
        path = os.path.join(HERE, "..", "crates", program, kind)
        if sys.argv[1:] == ["--write"]:
            with open(path, "wb") as f:
                f.write(data)
        with open(path, "rb") as f:
            if f.read() != data:
                sys.exit("%s: crates/%s/%s is not what %s.py makes" % (script, program, kind, script))
    print("%s: %d lines of %s, %d of them loads and %d judges and resolves, are those made here"
          % (script, len(made_here), program, len(bench.numbers), len(bench.calls)))
