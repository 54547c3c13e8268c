"""Compares the program roomreport with the implementation in reference/: inputs written out here with what has to be printed, and
generated ones.

    roomreport.py PROGRAM [FIRST COUNT]

A generated input depends on its own number only, so `roomreport.py PROGRAM N 1` runs input N alone."""

import collections
import json
import os
import subprocess
import sys
import time

sys.path.insert(0, os.path.join(os.path.dirname(os.path.abspath(__file__)), "reference"))
from policy import pairs  # noqa: E402
from store import load, well_formed  # noqa: E402
from store_inputs import KA, SIZES, Style, V, bad_id, below, id_text, one_in, one_of, padded, rand, some_image, some_manifest  # noqa: E402

STORE = 32768
MOST_LINE = 16600
INPUTS = 1500
LEAST = 20  # how often each number has to occur


# ---- The reference


def lines_of(data):
    """Each ended by byte 0A or the end of input; after a last 0A there is no further line."""
    lines = data.split(b"\n")
    return lines if lines[-1] else lines[:-1]


def answers(data):
    """The number of each line, and the pairs of the store after them."""
    store, used, numbers = bytearray(STORE), 0, []
    for line in lines_of(data):
        given_id, _, manifest = line.partition(b" ")
        number, new_used, written = (1, 0, b"") if len(line) > MOST_LINE else load(given_id, manifest, store, used)
        if number == 0:
            store[used:new_used] = written
            used = new_used
        numbers.append(number)
    return numbers, pairs(well_formed(bytes(store[:used])))


def printed(numbers, listed):
    rows = ["load %d %d" % row for row in enumerate(numbers)] + ["pairs %d" % len(listed)] + ["%d %d" % pair for pair in listed]
    return "".join(row + "\n" for row in rows).encode()


# ---- Inputs written out


def digits(letter):
    return letter * 56


def image(signer, digest, accepts=(), guard=False, own=()):
    """A line. SIGNER and MANIFEST are 56 letters each, and so in the rules, which give two letters and stand under sha224."""
    value = {"aconSpecVersion": [1, 0]}
    if own:
        value["aliases"] = {"self": {".": list(own)}}
    if accepts or guard:
        rules = ["sha224/%s/%s" % (digits(r[0]), digits(r[1])) if len(r) == 2 else r for r in accepts]
        value["policy"] = {"accepts": rules, "rejectUnaccepted": guard}
    return b"sha224/%s/%s %s\n" % (digits(signer).encode(), digits(digest).encode(), json.dumps(value).encode())


def line_of(size):
    """A good line of that many bytes, most of them spaces after the manifest, which is then over 16,384 bytes."""
    start = image("a", "b")[:-1]
    return start + b" " * (size - len(start)) + b"\n"


def fixed():
    """Inputs with what has to be printed."""
    a, b, c, d = image("a", "a"), image("a", "b"), image("a", "c"), image("a", "d")
    some_id = b"sha224/" + b"a" * 56 + b"/" + b"b" * 56
    example = some_id + b' {"aconSpecVersion":[1,0],"policy":{"rejectUnaccepted":true}}\n' + some_id[:-56] + b"c" * 56 + b" " + V + b"\n"
    yield "the example", example, [0, 0], [(0, 1)]
    yield "the example without a last newline", example[:-1], [0, 0], [(0, 1)]
    yield "P10, all three", image("a", "a", ["bb"], True) + image("b", "b", ["cc"]) + image("c", "c"), [0, 0, 0], []
    yield "P10, A and C", image("a", "a", ["bb"], True) + image("c", "c"), [0, 0], [(0, 1)]
    ring = image("a", "a", ["bb"], True), image("b", "b", ["cc"], True), image("c", "c", ["aa"], True)
    yield "P11, all three", b"".join(ring), [0, 0, 0], []
    yield "P11, A then B", ring[0] + ring[1], [0, 0], [(1, 0)]
    yield "P11 over a refused line", ring[0] + b"x {}\n" + ring[1], [0, 7, 0], [(1, 0)]
    yield "P12", image("a", "a", ["sha224/*/Job:1"], True) + image("b", "b", own=["Job:10"]), [0, 0], [(0, 1)]
    yield "an alias that matches", image("a", "a", ["sha224/*/Job:10"], True) + image("b", "b", own=["Job:10"]), [0, 0], []
    yield ("two guards, refused lines between", b"\n" + image("a", "a", [], True) + a + b"?\n" + image("b", "b", [], True) + d,
           [3, 0, 12, 3, 0, 0], [(0, 1), (0, 2), (1, 0), (1, 2)])
    yield "empty input", b"", [], []
    yield "a lone newline", b"\n", [3], []
    yield "newlines only", b"\n\n\n", [3, 3, 3], []
    yield "no space", some_id + b"\n" + V + b"\n", [3, 3], []
    yield "a space first", b" " + V + b"\n " + some_id + b" " + V + b"\n", [10, 3], []
    yield "a second space belongs to the manifest", some_id + b"  " + V + b"\n", [0], []
    yield "NUL and CR in the ID", some_id + b"\0 " + V + b"\n" + some_id + b"\r " + V + b"\n", [10, 10], []
    yield "NUL and CR after the manifest", some_id + b" " + V + b"\0\n" + some_id + b" " + V + b"\r\n", [3, 0], []
    yield "a line of 16,600 bytes", line_of(16600) + b, [1, 0], []
    yield "one of 16,601", line_of(16601) + b, [1, 0], []
    # with an ID that is too long the manifest is a good one in both lines, and only the longer line is 1
    yield "16,600 bytes with a short manifest", b"x" * (16600 - 1 - len(V)) + b" " + V + b"\n", [10], []
    yield "16,601 bytes with a short manifest", b"x" * (16601 - 1 - len(V)) + b" " + V + b"\n", [1], []
    yield "a long line ended by the input's end", b"x" * 70000, [1], []
    yield "a line of 200,000 bytes between others", a + b"x" * 200000 + b"\n" + b, [0, 1, 0], []
    yield "a line as long as the part that is read", a + b"y" * (65536 - len(a) - 1) + b"\n" + b, [0, 1, 0], []
    yield "5,000 lines", a + b"z\n" * 4998 + c, [0] + [3] * 4998 + [0], []
    many = b"".join(b"sha224/%s/%056x %s\n" % (b"a" * 56, k, V) for k in range(70))
    yield "70 images", many, [0] * 64 + [14] * 6, []
    guards = [image("a", "a", [], True)[:-1].replace(b"a" * 56 + b" ", b"%056x " % k) + b"\n" for k in range(64)]
    yield "64 guards that accept nobody", b"".join(guards), [0] * 64, [(g, o) for g in range(64) for o in range(64) if g != o]
    # a record has two bytes for its length, one for the algorithm and 56 for the digests
    fills = [b"sha224/%s/%056x %s\n" % (b"a" * 56, k, padded(size)) for k, size in enumerate([16324, 16325, 16326, 25])]
    yield "a store filled to its last byte", fills[0] + fills[0].replace(b"%056x" % 0, b"%056x" % 9) + fills[3], [0, 0, 14], []


# ---- Generated inputs


def rules_of(ids):
    """Some rules for images with these IDs; most match one of them."""
    rules = []
    for _ in range(below(3)):
        algorithm, signer, digest = one_of(ids)
        rules.append("/".join([algorithm, one_of(["*", signer.hex(), signer.hex()]), one_of([digest.hex(), digest.hex(), "*", "Job:1", KA * 3])]))
    return rules


def policy_line(ids, k):
    value = {"aconSpecVersion": [1, 0], "policy": {"accepts": rules_of(ids), "rejectUnaccepted": one_in(2)}}
    if one_in(3):
        value["aliases"] = {"self": {".": [one_of(["Job:1", "Job:10", KA * 3, "own%d" % k])]}}
    return id_text(*ids[k]) + b" " + json.dumps(value, ensure_ascii=one_in(2)).encode()


def policies():
    """Images that accept each other or do not, with a few other lines between them."""
    algorithm, signers = one_of(list(SIZES)), 1 + below(4)
    ids = [(algorithm, bytes([below(signers)]) * SIZES[algorithm], k.to_bytes(SIZES[algorithm], "big")) for k in range(1 + below(66 if one_in(10) else 9))]
    lines = [policy_line(ids, k) for k in range(len(ids))]
    for _ in range(below(3)):
        lines.insert(below(len(lines) + 1), one_of([b"", b" ", b"x", one_of(lines), bad_id(id_text(*ids[0])) + b" " + V]))
    return lines


def loads():
    style = Style(calm=one_in(2))
    lines = []
    large = 0.3 if one_in(5) else 0
    for _ in range(below(90 if one_in(8) else 12)):
        given = id_text(*some_image(style))
        manifest = padded(8000 + below(8500)) if rand.random() < large else some_manifest(style)
        lines.append((bad_id(given) if one_in(10) else given) + b" " + manifest)
    return lines


def noise():
    return [bytes(one_of(b" \n\r\0a{}/") for _ in range(below(30))) for _ in range(below(8))]


def generated(number):
    rand.seed(number * 2654435761 + 7)
    lines = one_of([policies, policies, loads, loads, noise])()
    return b"\n".join(lines) + (b"\n" if lines and not one_in(5) else b"")


# ---- Comparing


def run(program, data, slowly=False):
    """What the program prints; `slowly` gives it pieces of 1 to 7 bytes, some after a pause."""
    if not slowly:
        return subprocess.run([program], input=data, stdout=subprocess.PIPE, check=True).stdout
    child = subprocess.Popen([program], stdin=subprocess.PIPE, stdout=subprocess.PIPE, bufsize=0)
    at = 0
    while at < len(data):
        step = 1 + below(7)
        child.stdin.write(data[at : at + step])
        at += step
        if one_in(3):
            time.sleep(0.0005)
    child.stdin.close()
    out = child.stdout.read()
    if child.wait() != 0:
        sys.exit("roomreport: status %d" % child.returncode)
    return out


def compare(name, data, got, want):
    if got == want:
        return
    sys.exit("roomreport: %s\ninput %r\nprinted %r\nexpected %r" % (name, data[:600], got[:600], want[:600]))


def main():
    program = sys.argv[1]
    first, count = (int(sys.argv[2]), int(sys.argv[3])) if len(sys.argv) > 3 else (0, INPUTS)
    seen, lines, told = collections.Counter(), 0, 0
    if len(sys.argv) <= 3:
        for name, data, numbers, listed in fixed():
            want = printed(numbers, listed)
            compare(name + ", by the reference", data, printed(*answers(data)), want)
            compare(name, data, run(program, data), want)
            if len(data) < 2000:
                compare(name + ", in pieces", data, run(program, data, True), want)
            lines += len(numbers)
    for number in range(first, first + count):
        data = generated(number)
        numbers, listed = answers(data)
        want = printed(numbers, listed)
        compare("input %d" % number, data, run(program, data), want)
        if number % 20 == 0 and len(data) < 20000:
            compare("input %d in pieces" % number, data, run(program, data, True), want)
        seen.update(numbers)
        lines += len(numbers)
        told += len(listed)
    if len(sys.argv) <= 3:
        few = [n for n in range(15) if n != 11 and seen[n] < LEAST]
        if few or told < LEAST:
            sys.exit("roomreport: too few of the numbers %s, %d pairs" % (few, told))
    print("roomreport: %d lines as they have to be answered, %d pairs in generated inputs: %s"
          % (lines, told, ", ".join("%d x %d" % (seen[n], n) for n in sorted(seen))))


main()
