"""Writes the texts that are measured into a folder: inputs.py FOLDER."""

import json
import os
import random
import sys

SMALL, LARGE = 1024, 16384


def joined(open_, parts, close, size):
    """As many parts as fit between open_ and close in `size` bytes, comma between them."""
    taken, length = [], len(open_) + len(close) - 1
    for part in parts:
        if length + len(part.encode()) + 1 > size:
            break
        taken.append(part)
        length += len(part.encode()) + 1
    return open_ + ",".join(taken) + close


def numbered(width, base="0123456789abcdefghijklmnopqrstuvwxyz"):
    """All words of a width, falling."""
    if width == 0:
        yield ""
        return
    for first in reversed(base):
        for rest in numbered(width - 1, base):
            yield first + rest


def falling_keys(size):
    # 8 bytes for a member: 2,000 keys in 16,000 bytes
    count = 2000 if size == LARGE else size // 8 - 1
    words = numbered(3)
    return joined("{", ('"%s":0' % next(words) for _ in range(count)), "}", size)


def long_keys(size):
    """Falling keys that differ late, so that each comparison is long. A member has 60 bytes, which fill 1 KB to three bytes."""
    return joined("{", ('"%sof/%s":0' % ("sha256/" * 7, word) for word in numbered(3)), "}", size)


def nested(size):
    """Many small values, nested 8 deep with the array around them."""
    def parts():
        while True:
            yield "[[[[[[[]]]]]]]"
            yield '{"b":[{"b":[{"b":[{"b":0,"a":1}]}]}],"a":2}'
    return joined("[", parts(), "]", size)


def wrapped(size):
    """One large object inside seven others: what a second look at each level would cost."""
    inner = ('"%s":"x"' % word for word in numbered(3))
    return joined('{"b":0,"a":' * 7 + "{", inner, "}" * 8, size)


def string(size):
    return '"%s"' % ("a" * (size - 2))


def unicode_escapes(size):
    return '"%s"' % ("\\u0041" * ((size - 2) // 6))


def quote_escapes(size):
    return '"%s"' % ('\\"\\\\' * ((size - 2) // 4))


def spaces(size):
    def parts():
        while True:
            yield " " * 20 + "1" + "\n" + "\t" * 20
    return joined("[", parts(), "]", size)


CASES = [
    ("falling keys", falling_keys),
    ("long keys", long_keys),
    ("nested 8 deep", nested),
    ("wrapped 8 deep", wrapped),
    ("one string", string),
    ("unicode escapes", unicode_escapes),
    ("quote escapes", quote_escapes),
    ("spaces", spaces),
]

TITLES = ["संगणक", "चित्र", "भाषा", "भण्डार", "देवनागरी", "सुरक्षा", "खोज", "मार्ग"]


def digest(r, algorithm):
    bits = int(algorithm[3:])
    return "%0*x" % (bits // 4, r.getrandbits(bits))


def indented(value):
    return json.dumps(value, indent=2, ensure_ascii=False)


def canonical(value):
    return json.dumps(value, sort_keys=True, separators=(",", ":"), ensure_ascii=False)


def grown(manifest, grow, write):
    """The last manifest that fits 16 KB as it is written; `grow` adds to it and says whether it could."""
    text = last = write(manifest)
    while len(text.encode()) <= LARGE:
        last = text
        if not grow(manifest):
            break
        text = write(manifest)
    return last


def vendor_manifest(write, seed=1):
    """A manifest such as a vendor would write, just under 16 KB."""
    r = random.Random(seed)
    algorithms = ["sha384", "sha384", "sha256", "sha224"]
    layers = []
    for i in range(18):
        a = algorithms[i % 4]
        layer = "%s/%s" % (a, digest(r, a))
        layers.append(layer if i % 6 else "signer/%s/%s:%d" % (layer, TITLES[i % 8], i))
    manifest = {
        "aconSpecVersion": [1, 0],
        "layers": layers,
        "aliases": {
            "contents": {
                layer: ["%s-%d:%d" % (TITLES[(i + k) % 8], i, k) for k in range(4)]
                for i, layer in enumerate(layers)
            },
            "self": {".": ["%s:%d" % (title, v) for title in TITLES for v in (2, 1, 0)]},
        },
        "entrypoint": ["/usr/bin/server", "--title", "भाषा \"सेवा\"", "--root=/srv", "C:\\data"],
        "env": ["PATH=/usr/sbin:/usr/bin:/sbin:/bin", "LANG=hi_IN.UTF-8", "HTTPS_PROXY"]
               + ["SERVICE_%02d_URL=https://node%02d.example.org:8443/api/v1" % (i, i) for i in range(30)],
        "workingDir": "/work",
        "uids": list(range(101, 133)),
        "logFDs": [1, 2, 5],
        "writableFS": True,
        "noRestart": False,
        "signals": [-15, -18, -19, 1, 10, 12],
        "maxInstances": 4,
        "policy": {"rejectUnaccepted": True, "accepts": []},
    }

    def grow(m):
        accepts = m["policy"]["accepts"]
        a = algorithms[len(accepts) % 4]
        accepts.append("%s/%s/%s:%d" % (a, digest(r, a), TITLES[len(accepts) % 8], len(accepts)))
        return len(accepts) < 64
    return grown(manifest, grow, write)


def worked_manifest():
    here = os.path.dirname(os.path.abspath(__file__))
    with open(os.path.join(here, "manifest.json"), encoding="utf-8") as f:
        return f.read()


def long_strings():
    """Few strings, most of them long: the cheapest of 16 KB."""
    manifest = json.loads(worked_manifest())
    manifest["env"] = []

    def grow(m):
        m["env"].append("SERVICE_%02d=%s" % (len(m["env"]), "https://node.example.org:8443/api/v1/" * 6))
        return len(m["env"]) < 64
    return grown(manifest, grow, canonical)


def many_aliases(name):
    """Aliases, all different and in no order, 64 to a layer: as many as fit."""
    r = random.Random(2)
    names = [name(i) for i in range(4096)]
    r.shuffle(names)
    contents = {}

    def grow(m):
        layer = next((k for k, v in contents.items() if len(v) < 64), None)
        if layer is None:
            if len(contents) == 64:
                return False
            layer = "sha224/" + digest(r, "sha224")
            contents[layer] = []
        contents[layer].append(names.pop())
        return True
    return grown({"aconSpecVersion": [1, 0], "aliases": {"contents": contents}}, grow, canonical)


LETTERS = [chr(c) for c in range(0x23, 0x7F) if chr(c) not in "/\\*."]


def word(i, width, letters=LETTERS):
    """The word of that width with the number i."""
    return (word(i // len(letters), width - 1, letters) if width > 1 else "") + letters[i % len(letters)]


def many_rules(seed=3):
    """64 rules, 64 layers by alias and 64 user IDs."""
    r = random.Random(seed)
    manifest = {
        "aconSpecVersion": [1, 0],
        "layers": ["signer/sha224/%s/%s" % (digest(r, "sha224"), "x" * (i % 50 + 1)) for i in range(64)],
        "policy": {"accepts": ["sha224/%s/%s" % (digest(r, "sha224"), "y" * (i % 50 + 1)) for i in range(64)]},
        "uids": list(range(1, 65)),
        "logFDs": list(range(3, 67)),
        "env": [],
    }

    def grow(m):
        m["env"].append("V%02d=" % len(m["env"]) + "z" * 40)
        return len(m["env"]) < 64
    return grown(manifest, grow, canonical)


def checked():
    """The manifests that are checked: name and text. All but the first are canonical."""
    yield "worked manifest", worked_manifest()
    yield "its canonical form", canonical(json.loads(worked_manifest()))
    yield "plain, 16 KB", vendor_manifest(canonical)
    yield "long strings, 16 KB", long_strings()
    yield "short aliases, 16 KB", many_aliases(lambda i: word(i, 2))
    yield "long aliases, 16 KB", many_aliases(lambda i: "%s%04d" % ("a" * 251, i))
    yield "escaped aliases, 16 KB", many_aliases(lambda i: '\\"%04d' % i)
    yield "rules, layers, numbers, 16 KB", many_rules()


def inputs():
    """Name, size in KB or None, text."""
    yield "manifest", None, worked_manifest()
    yield "manifest of 16 KB", None, vendor_manifest(indented)
    for name, make in CASES:
        yield name, 1, make(SMALL)
        yield name, 16, make(LARGE)


def file_name(name, kilobytes):
    return name.replace(" ", "-") + ("" if kilobytes is None else "-%d" % kilobytes) + ".json"


def write(folder, file, text):
    """Writes one text; gives its path."""
    data = text.encode()
    assert len(data) <= LARGE
    os.makedirs(folder, exist_ok=True)
    path = os.path.join(folder, file)
    with open(path, "wb") as f:
        f.write(data)
    return path


def write_all(folder):
    """Writes each input; gives (name, size in KB or None, path)."""
    return [(name, kilobytes, write(folder, file_name(name, kilobytes), text)) for name, kilobytes, text in inputs()]


def write_checked(folder):
    """Writes each manifest that is checked; gives (name, path)."""
    return [(name, write(folder, name.replace(" ", "-").replace(",", "") + ".json", text)) for name, text in checked()]


if __name__ == "__main__":
    for name, kilobytes, path in write_all(sys.argv[1]):
        print(path, os.path.getsize(path))
