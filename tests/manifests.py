"""Compares the program `test_reading` with an independent implementation of questions 7 to 9 on generated manifests, good
ones, ones that break one rule and ones that break several. Called with the program's path."""

import json
import os
import random
import subprocess
import sys

sys.path.insert(0, os.path.join(os.path.dirname(os.path.abspath(__file__)), "reference"))
from manifest import FIELDS, number  # noqa: E402

COUNT = 200000
INPUT = 131072  # bytes that one run of the program takes
ASKED = b"number "  # what a line begins with

rand = random.Random(20260102)
below = rand.randrange
one_of = rand.choice

A, B, C = "0a" * 28, "1b" * 32, "2c" * 48
KA = "\u0915"
NAMES = ["a", "Job:1", "Job:10", "", ".", "..", "*", "**", "a/b", "a b", 'q"', "b\\", KA, KA * 22, KA * 21 + "\u0916",
         KA * 85, KA * 86, "x" * 255, "x" * 256, A, B, C, "d" * 128, "d" * 55, A.upper()]
GOOD_NAMES = ["a", "Job:1", "Job:10", "**", "a b", 'q"', KA, KA * 22, KA * 21 + "\u0916", "d" * 55, "x" * 255]
WORDS = ["sha224", "sha256", "sha384", "sha512", "signer", "*", "", "x", A, B, C, A[1:], A.upper()]
GOOD_LAYERS = ["sha224/" + A, "sha256/" + B, "sha384/" + C, "signer/sha224/%s/ink" % A, "signer/sha256/%s/%s" % (B, KA)]
GOOD_RULES = ["sha224/*/*", "sha256/%s/*" % B, "sha384/*/" + C, "sha224/%s/Job:1" % A, "sha256/*/" + KA]
WHOLE = [-2147483648, -65, -64, -15, -1, 0, 1, 2, 9, 63, 64, 65, 1023, 1024, 2147483647]


def any_value():
    return one_of([None, True, False, 0, 1, -1, "", "x", "/x", "=", [], [0], ["x"], [[]], {}, {"x": []}, {".": []}])


def reference(good):
    if below(8):
        return one_of(good)
    return "/".join(one_of(WORDS) for _ in range(1 + below(5)))


def few(make, most=4):
    k = below(60)
    size = 63 + below(3) if k == 0 else below(most)
    return [make() for _ in range(size)]


def group(keys):
    names = lambda: few(lambda: one_of(GOOD_NAMES if below(12) else NAMES), 3)
    if below(60) == 0:
        return {"sha224/%056x" % i: [] for i in range(63 + below(3))}
    return {(keys() if below(10) else one_of(["", "..", "x"])): names() for _ in range(below(4))}


def aliases():
    value = {}
    if below(4):
        value["contents"] = group(lambda: reference(GOOD_LAYERS))
    if below(4):
        value["self"] = group(lambda: ".")
    if below(20) == 0:
        value[one_of(["images", "Self", ""])] = {}
    return value


def policy():
    value = {}
    if below(4):
        value["accepts"] = few(lambda: reference(GOOD_RULES))
    if below(3):
        value["rejectUnaccepted"] = one_of([True, False])
    if below(25) == 0:
        value[one_of(["accepts", "rejectUnaccepted", "x"])] = any_value()
    return value


MAKE = {
    "aconSpecVersion": lambda: [1, 0] if below(12) else few(lambda: one_of([0, 1, 2]), 4),
    "layers": lambda: few(lambda: reference(GOOD_LAYERS)),
    "aliases": aliases,
    "entrypoint": lambda: few(lambda: one_of(["/bin/x", "x", "", " "])),
    "env": lambda: few(lambda: one_of(["A", "A=b", "C=", "x"] if below(10) else ["", "=", "=x"])),
    "workingDir": lambda: one_of(["/", "/w", "//", "/..", "/" + KA] if below(8) else ["", "w/", KA]),
    "uids": lambda: few(lambda: one_of([1, 2, 3, 9, 1000, 2147483647] if below(10) else WHOLE)),
    "logFDs": lambda: few(lambda: one_of([0, 1, 2, 5, 1023] if below(10) else WHOLE)),
    "writableFS": lambda: one_of([True, False]),
    "noRestart": lambda: one_of([True, False]),
    "signals": lambda: few(lambda: one_of([-64, -15, -1, 1, 9, 64] if below(8) else WHOLE)),
    "maxInstances": lambda: one_of([0, 1, 2147483647] if below(6) else WHOLE),
    "policy": policy,
}


def manifest():
    names = [n for n in FIELDS if n == "aconSpecVersion" and below(40) or n != "aconSpecVersion" and below(3) == 0]
    rand.shuffle(names)
    value = {n: MAKE[n]() if below(40) else any_value() for n in names}
    if below(60) == 0:
        value[one_of(["", "layer", "Layers", "images", "aconSpecversion"])] = any_value()
    return value if below(200) else any_value()


def answers(program, texts):
    run = subprocess.run([program], input=b"".join(ASKED + t + b"\n" for t in texts), stdout=subprocess.PIPE, check=True)
    return [int(n) for n in run.stdout.split()]


def compare(program, texts, values):
    got = answers(program, texts)
    if len(got) != len(texts):
        sys.exit("manifests: %d answers for %d manifests" % (len(got), len(texts)))
    for n, t, v in zip(got, texts, values):
        if n != number(v):
            sys.exit("manifests: the program answers %d and not %d: %s" % (n, number(v), t.decode()))
    return got


def main():
    program = sys.argv[1]
    seen = {0: 0, 7: 0, 8: 0, 9: 0}
    texts, values, size = [], [], 0
    for i in range(COUNT):
        v = manifest()
        t = json.dumps(v, ensure_ascii=bool(below(2)), indent=None).encode()
        needed = len(ASKED) + len(t) + 1
        if size + needed > INPUT or i == COUNT - 1:
            for n in compare(program, texts, values):
                seen[n] += 1
            texts, values, size = [], [], 0
        if len(t) <= 16384:
            texts.append(t)
            values.append(v)
            size += needed
    for n in compare(program, texts, values):
        seen[n] += 1
    print("manifests: %d manifests alike: %s"
          % (sum(seen.values()), ", ".join("%d get %d" % (seen[n], n) for n in sorted(seen))))


main()
