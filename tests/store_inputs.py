"""Image IDs and manifests for stores.py: good ones, ones that are not canonical, and faulty ones of each number."""

import collections
import json
import random

rand = random.Random()


def below(n):
    return int(rand.random() * n)


def one_in(n):
    return rand.random() * n < 1


def one_of(some):
    return some[int(rand.random() * len(some))]


# ---- Names

SIZES = {"sha224": 28, "sha256": 32, "sha384": 48}
ALGORITHMS = list(SIZES)
# Two signers differ in their last byte only, and those of different algorithms begin alike.
SIGNERS = {a: [b"\xaa" * n, b"\xaa" * (n - 1) + b"\xab", b"\xbb" + b"\xaa" * (n - 1)] for a, n in SIZES.items()}

KA, KHA = "\u0915", "\u0916"
LONG = "p" * 64
FEW_NAMES = ["a", "ink", "Job:1", "Job:10", LONG, LONG + "1", LONG + "2", KA * 22, KA * 21 + KHA, KA * 85, KA * 84 + KHA]
NAMES = FEW_NAMES + ["b", "In", "ink ", 'q"', "b\\", "**", "\u00e9", "e\u0301", "x" * 255, "x" * 254 + "y", "d" * 55, "D" * 56, "\U0001f600"]

A, B, C = "0a" * 28, "1b" * 32, "2c" * 48
LAYERS = ["sha224/" + A, "sha224/" + A[:-1] + "b", "sha256/" + B, "sha384/" + C, "signer/sha224/%s/ink" % A,
          "signer/sha256/%s/%s" % (B, KA * 22), "signer/sha256/%s/%s" % (B, KA * 21 + KHA)]
RULES = ["sha224/*/*", "sha256/%s/*" % B, "sha384/*/" + C, "sha224/%s/Job:1" % A, "sha256/*/" + KA]

BAD_IDS = [b"", b"/", b"//", b"x", b"*", b"sha224/*/*", b"sha224", b"sha512/" + b"a" * 128 + b"/" + b"a" * 128]


class Style:
    """What the images of a history have in common: few digests make equal IDs common, few signers and names make clashes common."""

    def __init__(self, calm=False):
        self.algorithms = ALGORITHMS if one_in(2) else [one_of(ALGORITHMS)]
        self.signers = one_of([1, 1, 3])
        self.digests = one_of([1000] if calm else [3, 20, 100, 1000, 1000])
        self.own_names = 100 if calm else one_of([100, 70, 30, 0])  # of a hundred images with names, those whose names are hardly ever shared


def some_image(style):
    """An algorithm, a signer and a digest."""
    algorithm = one_of(style.algorithms)
    return algorithm, SIGNERS[algorithm][below(style.signers)], below(style.digests).to_bytes(SIZES[algorithm], "big")


def id_text(algorithm, signer, digest):
    return ("%s/%s/%s" % (algorithm, signer.hex(), digest.hex())).encode()


def bad_id(good):
    """Something that is nearly an Image ID."""
    part = good.split(b"/")
    k = below(9)
    if k == 0:
        return one_of(BAD_IDS)
    if k == 1:
        return good.upper()
    if k == 2:
        return good[: below(len(good))]
    if k == 3:
        return one_of([b" ", b"/", b"\0", b"a", b"signer/"]) + good
    if k == 4:
        return good + one_of([b" ", b"/", b"\n", b"0", b"/x"])
    if k == 5:
        return b"/".join([one_of([b"sha224", b"sha256", b"sha384", b"sha512", b"SHA224", b""])] + part[1:])
    if k == 6:
        return b"/".join(part[:1] + [one_of([b"*", b"", part[1] + b"0", part[1][1:], KA.encode()])] + part[2:])
    if k == 7:
        return b"/".join(part[:2] + [one_of([b"*", b"", b"alias", part[2] + b"0", part[2][:-1] + b"g"])])
    at = below(len(good))
    return good[:at] + bytes([below(256)]) + good[at + 1 :]


# ---- Manifests


def aliases(names):
    """Some aliases; `names` gives one, and each stands once in a group."""
    value = {}
    if not one_in(3):
        pick = list(dict.fromkeys(names() for _ in range(below(4))))
        value["contents"] = collections.defaultdict(list)
        for name in pick:
            value["contents"][one_of(LAYERS)].append(name)
        if one_in(8):
            value["contents"].setdefault(one_of(LAYERS), [])
    if not one_in(3):
        value["self"] = {".": list(dict.fromkeys(names() for _ in range(below(3))))} if not one_in(10) else {}
    return value


def good_value(names):
    """A good manifest; `names` gives an alias, or is None for a manifest without any."""
    value = {"aconSpecVersion": [1, 0]}
    if names:
        value["aliases"] = aliases(names)
    if one_in(4):
        value["layers"] = [one_of(LAYERS) for _ in range(1 + below(2))]
        if one_in(2):
            value["entrypoint"] = ["/bin/x", ""]
    if one_in(5):
        value["policy"] = {"accepts": [one_of(RULES)], "rejectUnaccepted": one_in(2)}
    for name, values in (("env", ["A=b", "C"]), ("uids", [1, 2147483647]), ("logFDs", [0, 1023]), ("signals", [0, -15])):
        if one_in(12):
            value[name] = values[: below(3)]
    if one_in(8):
        value["workingDir"] = "/" + one_of(["", "w", KA, 'a"\\'])
    if one_in(12):
        value["writableFS"] = one_in(2)
    if one_in(12):
        value["maxInstances"] = below(1 << 31)
    return value


def canonical(value):
    return json.dumps(value, sort_keys=True, ensure_ascii=False, separators=(",", ":")).encode()


def spelled_string(s):
    def letter(c):
        if c in '"\\' or (c == "/" and one_in(4)):
            return "\\" + c
        if ord(c) < 0x10000 and one_in(12):
            return one_of(["\\u%04x", "\\u%04X"]) % ord(c)
        return c

    return '"%s"' % "".join(map(letter, s))


def spelled(value):
    """The value as some text, seldom canonical."""
    def space():
        return one_of([" ", "\n", "\t ", "\r\n"]) if one_in(5) else ""

    def put(v):
        if isinstance(v, dict):
            members = [spelled_string(k) + space() + ":" + put(x) for k, x in rand.sample(list(v.items()), len(v))]
            text = "{" + space() + ",".join(space() + m for m in members) + space() + "}"
        elif isinstance(v, list):
            text = "[" + space() + ",".join(map(put, v)) + "]"
        else:
            text = spelled_string(v) if isinstance(v, str) else json.dumps(v)
        return space() + text + space()

    return put(value).encode()


def reordered(value):
    """The value as a text that is canonical but for the order of keys, where that can be."""
    def turned(v):
        if isinstance(v, dict):
            return {k: turned(v[k]) for k in sorted(v, reverse=True)}
        return v

    return json.dumps(turned(value), ensure_ascii=False, separators=(",", ":")).encode()


def padded(size):
    """A canonical manifest of that many bytes."""
    start = b'{"aconSpecVersion":[1,0],"workingDir":"/'
    return start + b"x" * (size - len(start) - 2) + b'"}'


def many_aliases(size):
    """A canonical manifest of about that many bytes, most of them aliases."""
    value = {"aconSpecVersion": [1, 0], "aliases": {"contents": {}, "self": {".": []}}}
    lead, k = one_of(["", KA * 20, LONG[:20]]), below(1000)
    groups = ["sha224/%056x" % n for n in range(below(40) + 2)]
    room = size - 100
    while room > 0:
        name = "%s%x" % (lead, k)
        if one_in(3) and len(value["aliases"]["self"]["."]) < 64:
            value["aliases"]["self"]["."].append(name)
        else:
            group = value["aliases"]["contents"].setdefault(one_of(groups), [])
            if len(group) == 64:
                break
            if not group:
                room -= 68
            group.append(name)
        room -= len(name.encode()) + 3
        k += 1 + below(3)
    return canonical(value)


# Members that make a manifest faulty, by the number that each is meant to bring about; what a manifest gets is left to the reference.
FAULTS = {
    2: [b'"workingDir":"/\xff"', b'"env":["\xc0\x80"]', b'"\xed\xa0\x80":1', b'"workingDir":"/\xe0\xa4"', b'"env":["\xf4\x90\x80\x80"]'],
    3: [b'"env":[,]', b'"env":[],', b'"env"', b'"env":01', b"'env':[]", b'"env":["\x1f"]', b'"env":[[[[[[[[]]]]]]]]', b'"env":["\\x"]',
        b'\xef\xbb\xbf"env":[]', b'"env":tru', b'"env":[]]', b'"env":["A]', b'"maxInstances":+1', b'"maxInstances":1.'],
    4: [b'"workingDir":"/\\u0000"', b'"env":["\\ud800"]', b'"workingDir":"/\x7f"', b'"\\n":1', b'"env":["\\udc00\\ud800"]', b'"env":["\\t"]'],
    5: [b'"maxInstances":-0', b'"maxInstances":1.0', b'"uids":[2147483648]', b'"uids":[1e0]', b'"signals":[-2147483649]',
        b'"maxInstances":18446744073709551617', b'"logFDs":[0.5]'],
    6: [b'"env":[],"\\u0065nv":[]', b'"noRestart":true,"noRestart":false', b'"aliases":{"self":{},"s\\u0065lf":{}}',
        b'"aliases":{"contents":{"sha224/%s":[],"sha224\\/%s":[]}}' % (A.encode(), A.encode()), b'"aconSpecVersion":[1,0]'],
    7: [b'"x":1', b'"env":[""]', b'"env":["=x"]', b'"uids":[0]', b'"uids":[1,1]', b'"signals":[9,0]', b'"logFDs":[1024]', b'"layers":[1]',
        b'"workingDir":"w"', b'"entrypoint":[]', b'"entrypoint":["x"]', b'"aliases":{"images":{}}', b'"policy":{"x":1}', b'"policy":[]',
        b'"aliases":{"self":{".":[1]}}', b'"writableFS":null', b'"maxInstances":-1', b'"signals":[65]',
        b'"env":[' + b",".join([b'"A"'] * 65) + b"]"],
    8: [b'"layers":["x"]', b'"layers":["sha224/%s"]' % B.encode(), b'"aliases":{"self":{".":["."]}}', b'"aliases":{"self":{"x":[]}}',
        b'"aliases":{"self":{".":[""]}}', b'"aliases":{"self":{".":["a/b"]}}', b'"aliases":{"self":{".":["%s"]}}' % C.encode(),
        b'"aliases":{"self":{".":["%s"]}}' % (KA * 86).encode(), b'"aliases":{"contents":{".":[]}}', b'"policy":{"accepts":["*/*/*"]}',
        b'"policy":{"accepts":["sha256/*/%s"]}' % A.encode(), b'"layers":["signer/sha224/*/ink"]'],
    9: [b'"aliases":{"self":{".":["a","\\u0061"]}}', b'"aliases":{"self":{".":["%s","a","%s"]}}' % ((KA * 22).encode(), (KA * 22).encode()),
        b'"aliases":{"contents":{"sha224/%s":["x"],"sha256/%s":["y","x"]}}' % (A.encode(), B.encode()),
        b'"aliases":{"contents":{"sha384/%s":["x","x"]},"self":{".":["x"]}}' % C.encode()],
}


def faulty(number):
    """A manifest that is meant to get the number, and sometimes has another fault as well."""
    if number == 1:
        return one_of([padded(16385), padded(16386 + below(4000)), V + b" " * 16360, b" " * 16385, b"\xff" * (16385 + below(100))])
    if number == 3 and one_in(3):
        return one_of([b"", b" ", b"{", V[:-1], V + b",", b"\xef\xbb\xbf" + V, b"[" * 9 + b"]" * 9, V + V, b"nul", b"{}}"])
    if number == 7 and one_in(4):
        return one_of([b"{}", b"[]", b"1", b'"x"', b"null", b'{"aconSpecVersion":[1,1]}', b'{"aconSpecVersion":[0,1]}', b'{"aconSpecVersion":1}'])
    members = [b'"aconSpecVersion":[1,0]', one_of(FAULTS[number])]
    if one_in(4):
        members.append(one_of(FAULTS[2 + below(8)]))
    if one_in(4):
        members.append(b'"noRestart":true')
    rand.shuffle(members)
    return b"{" + b",".join(members) + b"}"


def damaged_text(text):
    """A text with some bytes changed."""
    data = bytearray(text)
    for _ in range(1 + below(2)):
        at = below(len(data)) if data else 0
        k = below(4)
        if k == 0 and data:
            data[at] ^= 1 << below(8)
        elif k == 1:
            data[at : at + 1 + below(3)] = b""
        elif k == 2:
            data[at:at] = one_of([b" ", b'"', b"\\", b",", b"0", b"}", b"\xe0", b"\x80", b"a"])
        elif data:
            data[at] = one_of(b'{}[]":,\\/0129.-ax \x7f')
    return bytes(data)


V = b'{"aconSpecVersion":[1,0]}'
SOME = lambda: one_of(NAMES)  # noqa: E731
FEW = lambda: one_of(FEW_NAMES)  # noqa: E731
OWN = lambda: "%s%d" % (one_of(["n", LONG, KA * 21]), below(3000))  # noqa: E731

# Lengths of a record at which its number takes one byte more, and those beside them.
EDGES = [size - 1 - 2 * n for n in SIZES.values() for size in (127, 128, 16383, 16384)] + [16383, 16384]


def pool(count, make):
    return [make() for _ in range(count)]


rand.seed(20260103)
PLAIN = [V] * 40 + pool(160, lambda: canonical(good_value(None))) + [padded(42 + k) for k in range(60)]
OWN_NAMES = pool(3000, lambda: canonical(good_value(OWN)))
SHARED = pool(500, lambda: canonical(good_value(SOME))) + pool(500, lambda: canonical(good_value(FEW)))
SPELLED = pool(600, lambda: one_of([spelled, spelled, reordered])(good_value(one_of([None, OWN, SOME, FEW]))))
LARGE = [padded(size) for size in EDGES] + pool(40, lambda: many_aliases(300 + below(15000))) + [V + b" " * (16384 - len(V))]
BAD = {number: pool(8 if number == 1 else 120, lambda: faulty(number)) for number in range(1, 10)}
DAMAGED = pool(600, lambda: damaged_text(one_of(one_of([PLAIN, OWN_NAMES, SHARED, SPELLED]))))


def some_manifest(style):
    k = below(100)
    if k < 12:
        return one_of(BAD[1 if one_in(20) else 2 + below(8)])
    if k < 15:
        return one_of(DAMAGED)
    if k < 25:
        return one_of(SPELLED)
    if k == 25 and one_in(2):
        return one_of(LARGE)
    if k < 55:
        return one_of(PLAIN)
    return one_of(OWN_NAMES if below(100) < style.own_names else SHARED)
