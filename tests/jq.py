"""Compares the canonical form with jq, live, on generated texts.

jq takes a stream of texts, so all go to one process, a newline after each.
`jq -cS .` prints one line for each text: line i has to be the form of text i.
The document's command is `jq -jcS .`. Its -j leaves out the newlines, and the
quotes of a string that is the whole text, so its output cannot be taken apart
again. It is run on all texts but those strings, and its whole output has to be
the forms one after the other.

Where jq departs from the rules the texts are kept out of the generated ones.
They stand in DIFFERENCES with what either side makes of them.
"""

import random
import subprocess
import sys

from answers import answers

COUNT = 25000
LIMIT = 16384

# Letters that are at a border of UTF-8, of UTF-16 or of an alphabet.
EDGES = [0x20, 0x21, 0x22, 0x2F, 0x5C, 0x7E, 0x80, 0x9F, 0xA0, 0x7FF, 0x800, 0x915, 0x916, 0x93C, 0x958, 0x2028,
         0xD7FF, 0xE000, 0xFEFF, 0xFFFD, 0xFFFE, 0xFFFF, 0x10000, 0x1F600, 0xFFFFF, 0x10FFFF]

ANY = object()

# What the library answers, what jq 1.6 prints (None: it fails; ANY: not the same in all its packages), the text.
DIFFERENCES = [
    # numbers: jq reads each into a double and is lenient about their form
    (5, b"-0\n", b"-0"),
    (5, b"1\n", b"1.0"),
    (5, b"1\n", b"1e0"),
    (5, b"0.5\n", b"0.5"),
    (5, b"2147483648\n", b"2147483648"),
    (5, b"9007199254740992\n", b"9007199254740993"),
    (5, b"1.7976931348623157e+308\n", b"1E400"),
    (3, b"1\n", b"01"),
    (3, b"1\n", b"+1"),
    (3, b"0.5\n", b".5"),
    (3, b"1\n", b"1."),
    (3, ANY, b"nan"),
    (3, ANY, b"NaN"),
    # strings: jq lets control characters pass and writes them as escapes
    (4, b'"\\u007f"\n', b'"\x7f"'),
    (4, b'"\\u007f"\n', b'"\\u007f"'),
    (4, b'"\\n\\t\\u0001"\n', b'"\\n\\t\\u0001"'),
    (4, b'{"\\n":1}\n', b'{"\\n":1}'),
    (3, ANY, b'"\x00"'),
    # jq puts U+FFFD for bytes that are not UTF-8
    (2, b'"\xef\xbf\xbd"\n', b'"\xff"'),
    (2, b'"\xef\xbf\xbd"\n', b'"\xed\xa0\x80"'),
    # jq keeps the last of equal keys
    (6, b'{"a":2}\n', b'{"a":1,"a":2}'),
    (6, b'{"a":2}\n', b'{"a":1,"\\u0061":2}'),
    # jq goes down 256 levels
    (3, b"[" * 9 + b"]" * 9 + b"\n", b"[" * 9 + b"]" * 9),
    # jq takes a byte order mark, some bytes that are no JSON space, no text and many texts
    (3, b"[]\n", b"\xef\xbb\xbf[]"),
    (3, b"1\n", b"\x0b1"),
    (3, b"[]\n", b"[]\x00"),
    (3, b"", b""),
    (3, b"", b" \n"),
    (3, b"1\n2\n", b"1 2"),
    # jq has no limit of length
    (1, b"[]\n", b"[" + b" " * LIMIT + b"]"),
    # lone surrogate escapes: jq 1.6 of Debian refuses them too, others put U+FFFD
    (4, None, b'"\\ud800"'),
    (4, None, b'"\\ud800\\ud800\\udc00"'),
]


rand = random.Random(20260101).random


def below(n):
    return int(rand() * n)


def one_of(items):
    return items[below(len(items))]


def letter():
    k = below(8)
    if k == 0:
        return one_of(EDGES)
    if k == 1:
        return 0x900 + below(0x80)
    if k == 2:
        c = 0x20 + below(0x110000 - 0x20)
        return 0x78 if c == 0x7F or 0xD800 <= c <= 0xDFFF else c
    return ord(one_of('abcdefghijklmnopqrstuvwxyzABZ0123456789 .:/-_*"\\'))


def escape(c):
    if c > 0xFFFF:
        return escape(0xD800 + (c - 0x10000 >> 10)) + escape(0xDC00 + (c - 0x10000 & 0x3FF))
    if c in (0x22, 0x2F, 0x5C) and below(2):
        return "\\" + chr(c)
    return "\\u" + one_of(["%04x", "%04X"]) % c


def string(content):
    return '"%s"' % "".join(
        escape(c) if c in (0x22, 0x5C) or below(6) == 0 else chr(c) for c in content)


def some_string():
    return tuple(letter() for _ in range(below(one_of((3, 12)))))


def space():
    return "".join(one_of(" \t\n\r") for _ in range(1 + below(3))) if below(4) == 0 else ""


def number():
    k = below(4)
    if k == 0:
        return str(one_of([0, 1, -1, 9, 10, 2147483647, -2147483648, 2147483646, 1000000000]))
    return str(below(1000) - 500 if k == 1 else below(2**32) - 2**31)


def value(depth, size):
    """A text for a value in `depth` open arrays and objects."""
    k = below(5 if depth == 8 else 10)
    if k < 2:
        body = string(some_string())
    elif k < 4:
        body = number()
    elif k == 4:
        body = one_of(["true", "false", "null"])
    elif k < 7:
        body = "[%s%s]" % (space(), ",".join(value(depth + 1, size) for _ in range(below(size))))
    else:
        keys = {some_string() for _ in range(below(size))}
        if below(3) == 0:  # keys that begin alike
            keys |= {k + (0x78,) for k in keys} | {k + (0x10000,) for k in keys} | {k + (0xFFFD,) for k in keys}
        keys = sorted(sorted(keys), key=lambda k: rand())
        members = (space() + string(k) + space() + ":" + value(depth + 1, size) for k in keys)
        body = "{%s%s}" % (space(), ",".join(members))
    return space() + body + space()


def digest(algorithm):
    return "".join(one_of("0123456789abcdef") for _ in range({"sha224": 56, "sha256": 64, "sha384": 96}[algorithm]))


def name():
    return "".join(chr(0x905 + below(0x35)) for _ in range(1 + below(7))) + ":%d" % below(20)


def codes(s):
    return tuple(map(ord, s))


def manifest():
    """Fields of an image manifest in any order, with escapes and space."""
    layers = [a + "/" + digest(a) for a in (one_of(["sha224", "sha256", "sha384"]) for _ in range(1 + below(5)))]
    array = lambda items: "[" + ",".join(space() + i + space() for i in items) + "]"
    obj = lambda members: "{" + ",".join(space() + string(codes(k)) + space() + ":" + v for k, v in members) + "}"
    strings = lambda items: array(string(codes(i)) for i in items)
    names = lambda count: [name() for _ in range(count)]
    contents = [(layer, strings(names(3))) for layer in sorted(set(layers), reverse=True)]
    fields = [
        ("aconSpecVersion", array(["1", "0"])),
        ("layers", strings(layers)),
        ("aliases", obj([("self", obj([(".", strings(names(below(4))))])), ("contents", obj(contents))])),
        ("entrypoint", strings(["/bin/run", "--name=" + name(), 'say "hi"', "C:\\x"])),
        ("env", strings(["PATH=/usr/bin:/bin", "LANG", "TITLE=" + name()])),
        ("workingDir", string(codes("/work/" + name()))),
        ("uids", array(str(1 + below(2**31 - 1)) for _ in range(below(4)))),
        ("signals", array(["-15", "9", "-18"])),
        ("writableFS", one_of(["true", "false"])),
        ("maxInstances", str(below(2**31))),
        ("policy", obj([("rejectUnaccepted", "true"), ("accepts", strings("sha256/*/" + n for n in names(below(5))))])),
    ]
    fields.sort(key=lambda f: rand())
    return obj(fields)


def texts():
    made = []
    while len(made) < COUNT:
        k = below(20)
        if k == 0:
            text = manifest()
        elif k < 3:
            text = string(some_string())
        else:
            text = value(0, 4 if k < 17 else 6)
        text = text.encode()
        if len(text) <= LIMIT:
            made.append(text)
    # some of exactly the greatest length
    for text in made[:20]:
        made.append(text + b" " * (LIMIT - len(text)))
    return made


def jq(words, given):
    return subprocess.run(["jq", *words, "."], input=given, stdout=subprocess.PIPE, stderr=subprocess.PIPE)


def fail(what, text, *seen):
    sys.exit("jq: %s for %r%s" % (what, text[:400], "".join("\n  %r" % s[:400] for s in seen)))


def main():
    version = jq(["--version"], b"").stdout.decode().strip()
    given = texts()
    ours = answers(given)
    for text, (number, _) in zip(given, ours):
        if number != 0:
            fail("the library answers %d" % number, text)

    run = jq(["-cS"], b"\n".join(given) + b"\n")
    lines = run.stdout.split(b"\n")
    if run.returncode != 0 or len(lines) != len(given) + 1:
        sys.exit("jq: %d lines for %d texts: %s" % (len(lines) - 1, len(given), run.stderr.decode()))
    for text, (_, form), line in zip(given, ours, lines):
        if form != line:
            fail("library and jq differ", text, form, line)

    whole = [(text, form) for text, (_, form) in zip(given, ours) if form[:1] != b'"']
    run = jq(["-jcS"], b"\n".join(text for text, _ in whole) + b"\n")
    if run.returncode != 0 or run.stdout != b"".join(form for _, form in whole):
        sys.exit("jq: the output of jq -jcS is not the forms one after the other")

    # What jq makes of the others is written down for 1.6; the library's answer holds anyway.
    for (number, printed, text), (got, _) in zip(DIFFERENCES, answers([d[2] for d in DIFFERENCES])):
        if got != number:
            fail("the library answers %d and not %d" % (got, number), text)
        run = jq(["-cS"], text)
        if printed is ANY or version != "jq-1.6":
            continue
        if (run.stdout if run.returncode == 0 else None) != printed:
            fail("jq prints something else than is written down", text, run.stdout, run.stderr)

    print("jq: %d texts equal to %s -cS, %d of them to -jcS too; %d known differences as written down"
          % (len(given), version, len(whole), len(DIFFERENCES)))


main()
