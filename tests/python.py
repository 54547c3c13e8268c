"""The module python/acon.py on the archive: each call, each number that it can raise, and the command line. Called with the
archive's path; `make python` makes the shared object of it."""

import ctypes
import json
import os
import pickle
import shutil
import subprocess
import sys
import tempfile

MADE = "target/tests"
MODULE = os.path.join("python", "acon.py")
V = b'{"aconSpecVersion":[1,0]}'
LONGEST = b'{"aconSpecVersion":[1,0],"workingDir":"/' + b"x" * 16342 + b'"}'  # 16,384 bytes in canonical form
KA = "\u0915"
A = "a" * 56

checks = 0


def same(what, got, wanted):
    global checks
    checks += 1
    if got != wanted:
        sys.exit("python: %s: %r and not %r" % (what, got, wanted))


def name(signer, manifest):
    return "sha224/%s/%s" % (signer * 56, manifest * 56)


def policy(*rules, guard=False):
    return json.dumps({"aconSpecVersion": [1, 0], "policy": {"accepts": rules, "rejectUnaccepted": guard}})


def loaded(acon, *images):
    store = acon.Store()
    for image in images:
        store.load(*image)
    return store


def refused(acon, what, number, call, *given, layer=None, offset=None):
    """The call raises that number, with its sentence."""
    try:
        got = call(*given)
    except acon.Refused as refusal:
        same(what, (refusal.number, refusal.layer, refusal.offset, refusal.text), (number, layer, offset, acon.text(number)))
        where = "" if offset is None else ", at byte %d" % offset
        same(what + ", in words", str(refusal).startswith("%d, %s%s" % (number, acon.text(number), where)), True)
        return
    sys.exit("python: %s: %r and no refusal" % (what, got))


def wrong(what, kind, call, *given):
    """The call raises that kind of error, before the library is asked."""
    try:
        got = call(*given)
    except kind:
        same(what, True, True)
        return
    sys.exit("python: %s: %r and no error" % (what, got))


def sentences(acon):
    """They are those of the header, as a C host sees them."""
    source, program = os.path.join(MADE, "sentences.c"), os.path.join(MADE, "sentences")
    with open(source, "w", encoding="utf-8") as f:
        f.write('#include "acon.h"\n#include <stdio.h>\nint main(void) { for (unsigned i = 0; i < 256; i++) puts(acon_text(i)); }\n')
    subprocess.run(["gcc", "-std=c11", "-Wall", "-Wextra", "-Werror", "-Iinclude", source, "-o", program], check=True)
    said = subprocess.run([program], stdout=subprocess.PIPE, check=True).stdout.decode().splitlines()
    same("the sentences", [acon.text(number) for number in range(256)], said)
    same("a sentence for each number, and one for all others", (len(set(said[:21])), len(set(said[21:])), len(set(said))), (21, 1, 22))
    same("numbers that are no byte", {acon.text(number) for number in (-1, 256, 1 << 32, 1 << 70)}, {said[255]})
    same("the limits", tuple(acon.limits()), (16384, 64, 2 * 64 * 63, 64 * 49))


def canonical(acon):
    for text, form in (
        ('{"b":1, "a":"\\u0041"}', b'{"a":"A","b":1}'),
        (b'{"b":1, "a":"\\u0041"}', b'{"a":"A","b":1}'),
        (bytearray(b" 1 "), b"1"),
        (memoryview(b"x[ ]x")[1:4], b"[]"),
        (KA.join('""'), ('"%s"' % KA).encode()),
        (b'"' + b"x" * 16382 + b'"', b'"' + b"x" * 16382 + b'"'),
    ):
        same("canonical", acon.canonical(text), form)
        same("canonical gives bytes", type(acon.canonical(text)), bytes)
    for number, offset, text in (
        (1, None, b" " * 16385), (1, None, b"1" + b" " * (1 << 20)), (2, 1, b'"\xff"'), (2, 1, '"\ud800"'), (2, 6, '["%s"\ud800]' % KA), (3, 0, b""),
        (3, 0, ""), (3, 0, bytearray()), (3, 1, b" "), (3, 1, b"1\0"), (3, 0, b"\0"), (3, 8, "[" * 9 + "]" * 9), (3, 8, '["%s", x]' % KA),
        (4, 0, r'"\ud800"'), (5, 0, "-0"), (5, 0, "1e0"), (5, 3, "[1,-0]"), (6, 7, r'{"a":1,"\u0061":2}'),
    ):
        refused(acon, "canonical of %r" % text[:20], number, acon.canonical, text, offset=offset)
    for text in None, 1, [], object():
        wrong("canonical of %r" % text, TypeError, acon.canonical, text)
    with open("examples/manifest.json", "rb") as given, open("examples/canonical.out", "rb") as printed:
        same("the example", acon.canonical(given.read()), printed.read().splitlines()[0])


def manifests(acon):
    same("a good manifest", acon.check(V), None)
    same("one of 16,384 bytes", acon.check(V + b" " * (16384 - len(V))), None)
    same("the longest record", acon.check(LONGEST), None)
    for number, offset, manifest in (
        (1, None, V + b" " * 16384), (2, 0, b"\xff"), (3, 0, b""), (3, 24, V[:-1]), (4, 0, '"\x7f"'), (5, 0, "1.0"), (6, 7, '{"a":1,"a":1}'), (7, None, "{}"),
        (7, None, "[]"), (7, None, '{"aconSpecVersion":[1,0],"layer":[]}'), (8, None, '{"aconSpecVersion":[1,0],"layers":["x"]}'),
        (9, None, '{"aconSpecVersion":[1,0],"aliases":{"self":{".":["a","a"]}}}'),
    ):
        refused(acon, "manifest %r" % manifest[:40], number, acon.check, manifest, offset=offset)
    wrong("no manifest", TypeError, acon.check, None)


def loads(acon):
    store = acon.Store(166)
    same("an empty store", (len(store), bytes(store), store.ids, store.judge()), (0, b"", [], []))
    same("a place", store.load(name("a", "b"), V), 0)
    record = b"\x52\x01" + b"\xaa" * 28 + b"\xbb" * 28 + V
    same("a record", bytes(store), record)
    for number, image, manifest in (
        (3, name("a", "c"), b""), (10, "", V), (10, b"", V), (10, name("a", "c") + "\0", V), (10, name("a", "c").upper(), V), (12, name("a", "b"), V),
        (14, name("a", "c"), V[:-1] + b',"env":[]}'),
    ):
        refused(acon, "a load of %r" % image[-3:], number, store.load, image, manifest, offset=0 if number == 3 else None)
        same("the store after a refusal", (len(store), bytes(store), store.ids), (1, record, [name("a", "b")]))
    same("the next place", store.load(name("a", "c").encode(), bytearray(V)), 1)
    same("the IDs", store.ids, [name("a", "b"), name("a", "c").encode()])
    refused(acon, "a full buffer", 14, store.load, name("a", "d"), V)
    short = acon.Store(165)
    short.load(name("a", "b"), V)
    refused(acon, "a byte too few", 14, short.load, name("a", "c"), V)
    refused(acon, "no byte at all", 14, acon.Store(0).load, name("a", "c"), V)
    wrong("fewer than no bytes", ValueError, acon.Store, -1)
    wrong("no ID", TypeError, store.load, None, V)
    wrong("no manifest", TypeError, store.load, name("a", "d"), None)

    named = '{"aconSpecVersion":[1,0],"aliases":{"self":{".":["Ink"]}}}'
    refused(acon, "a clash", 13, loaded(acon, (name("a", "b"), named)).load, name("a", "c"), named)
    many = loaded(acon, *(("sha384/%s/%096x" % ("a" * 96, k), LONGEST) for k in range(64)))
    same("64 images of the greatest length", (len(many), len(bytes(many)), len(many.judge())), (64, 64 * (3 + 1 + 96 + 16384), 0))
    refused(acon, "the 65th", 14, many.load, name("a", "b"), V)

    # the bytes of a store are no matter of the module's, so they are changed here to see that 11 comes back
    store._buffer[0] = 0
    for call, given in ((store.load, (name("a", "d"), V)), (store.judge, ()), (store.resolve, (0, []))):
        refused(acon, "a damaged store", 11, call, *given)


def judges(acon):
    a, b, c = name("a", "a"), name("b", "b"), name("c", "c")
    same("P10", loaded(acon, (a, policy(b, guard=True)), (b, policy(c)), (c, V)).judge(), [])
    same("P10 without B", loaded(acon, (a, policy(b, guard=True)), (c, V)).judge(), [(0, 1)])
    same("P11", loaded(acon, (a, policy(b, guard=True)), (b, policy(c, guard=True)), (c, policy(a, guard=True))).judge(), [])
    same("P11, A then B", loaded(acon, (a, policy(b, guard=True)), (b, policy(c, guard=True))).judge(), [(1, 0)])
    guards = loaded(acon, *(("sha224/%s/%056x" % (A, k), policy(guard=True)) for k in range(64)))
    same("the longest report", guards.judge(), [(g, o) for g in range(64) for o in range(64) if g != o])

    store, numbers = acon.Store(), []
    with open("examples/room.txt", "rb") as f:
        for line in f.read().splitlines():
            try:
                store.load(*line.split(b" ", 1))
                numbers.append(0)
            except acon.Refused as refusal:
                numbers.append(refusal.number)
    same("the example's loads", numbers, [0, 0, 0, 0, 0, 3, 0, 0])
    same("the example's report", store.judge(), [(0, 6)])


def resolves(acon):
    plate, book, large = "sha256/" + "1" * 64, "sha224/" + "2" * 56, "sha384/" + "3f" * 48
    key = "signer/sha224/%s/" % A
    contents = {plate: ["Plates"], key + "Plates": ["Proof"], key + "Loop": ["Loop"]}
    jobs = [key + "Proof", large, book, book], [book, key + "Nobody"], [key + "Loop"], [large] * 64
    store = loaded(
        acon,
        (name("a", "b"), json.dumps({"aconSpecVersion": [1, 0], "aliases": {"contents": contents}})),
        *((name("a", "cdef"[k]), json.dumps({"aconSpecVersion": [1, 0], "layers": layers})) for k, layers in enumerate(jobs)),
    )
    held = [book, plate, large]
    wanted = [plate, large, book, book]
    same("the digests of a job", store.resolve(1, held), wanted)
    same("with repeats", store.resolve(1, tuple(held) * 3), wanted)
    same("the list as bytes", store.resolve(1, acon.layer_list(held)), wanted)
    same("the list's bytes", acon.layer_list(held), b"\1" + b"\x22" * 28 + b"\2" + b"\x11" * 32 + b"\3" + b"\x3f" * 48)
    same("an image without layers", store.resolve(0, []), [])
    same("the longest output", store.resolve(4, iter(held)), [large] * 64)
    refused(acon, "a cut list", 15, store.resolve, 1, acon.layer_list(held)[:-1])
    refused(acon, "a bad byte", 15, store.resolve, 1, b"\4" + b"\0" * 48)
    for place in 5, 256, -1, (1 << 64) - 1, 1 << 64, (1 << 64) + 1, -(1 << 64):
        refused(acon, "place %d" % place, 16, store.resolve, place, held)
    refused(acon, "an alias of nobody", 17, store.resolve, 2, held, layer=1)
    refused(acon, "a loop", 18, store.resolve, 3, held, layer=0)
    refused(acon, "an absent layer", 19, store.resolve, 1, [book, plate], layer=1)
    refused(acon, "no layers", 19, store.resolve, 1, b"", layer=0)
    for layer in "", "sha224/", "sha224", "sha512/" + "0" * 128, book[:-1], book.upper(), book + "\n", key + "Plates", "x/":
        wrong("the layer %r" % layer, ValueError, store.resolve, 1, [layer])
    for layers in None, book, 1:
        wrong("the layers %r" % layers, TypeError, store.resolve, 1, layers)
    for place in None, "1", 1.5:
        wrong("the place %r" % place, (TypeError, ctypes.ArgumentError), store.resolve, place, held)


def exceptions(acon):
    refusal = pickle.loads(pickle.dumps(acon.Refused(19, 2)))
    same("a refusal kept and read again", (refusal.number, refusal.layer, str(refusal)), (19, 2, "19, %s (layer 2)" % acon.text(19)))
    refusal = pickle.loads(pickle.dumps(acon.Refused(3, None, 17)))
    same("one with an offset", (refusal.number, refusal.offset, str(refusal)), (3, 17, "3, %s, at byte 17" % acon.text(3)))


def shell(*arguments, module=MODULE, **environment):
    kept = {key: value for key, value in os.environ.items() if key != "ACON_SO"}
    done = subprocess.run([sys.executable, "-B", module] + list(arguments), stdout=subprocess.PIPE, stderr=subprocess.PIPE,
                          env=dict(kept, **environment))
    return done.returncode, done.stdout, done.stderr.decode()


def command_line(acon, folder):
    def file(name, data):
        path = os.path.join(folder, name)
        with open(path, "wb") as f:
            f.write(data)
        return path

    good, cut, field = file("good", V), file("cut", V[:-1]), file("field", b"{}")
    empty, long, absent = file("empty", b""), file("long", V + b" " * 100000), os.path.join(folder, "absent")
    lines = {good: "good", cut: "3, %s, at byte 24" % acon.text(3), field: "7, " + acon.text(7), empty: "3, %s, at byte 0" % acon.text(3),
             long: "1, " + acon.text(1)}
    said = lambda *paths: "".join("%s: %s\n" % (path, lines[path]) for path in paths).encode()  # noqa: E731
    same("one good manifest", shell("check", good), (0, said(good), ""))
    same("each kind", shell("check", *lines), (1, said(*lines), ""))
    status, out, err = shell("check", absent, good)
    same("a bad path", (status, out, err.startswith(absent + ": ") and err.count("\n") == 1), (2, said(good), True))
    status, out, err = shell("check", folder, cut)
    same("a folder", (status, out, err.count("\n")), (2, said(cut), 1))
    with open("examples/manifest.json", "rb") as f:
        same("the example's form", shell("canonical", "examples/manifest.json"), (0, acon.canonical(f.read()), ""))
    same("no form", shell("canonical", cut), (1, b"", "%s: 3, %s, at byte 24\n" % (cut, acon.text(3))))
    same("the form of a bad path", shell("canonical", absent)[:2], (2, b""))
    odd = file("odd \u0915\udcff", V)
    same("a file with an odd name", shell("check", odd, PYTHONIOENCODING="ascii")[0], 0)
    for arguments in (), ("check",), ("canonical",), ("canonical", good, good), ("other", good), (good,):
        status, out, err = shell(*arguments)
        same("usage %r" % (arguments,), (status, out, err.startswith("usage: ")), (2, b"", True))

    for what, path in ("no shared object", absent), ("a file that is none", good):
        status, out, err = shell("check", good, ACON_SO=path)
        same(what, (status, out, err.startswith("acon.py: ") and err.count("\n") == 1), (2, b"", True))
    alone = os.path.join(folder, "acon.py")
    shutil.copy(MODULE, alone)
    status, out, err = shell("check", good, module=alone)
    same("no shared object anywhere", (status, out, "make python" in err), (2, b"", True))
    same("another one by name", shell("check", good, module=alone, ACON_SO=os.path.relpath("target/python/libacon.so")), (0, said(good), ""))
    shutil.copy("target/python/libacon.so", folder)
    same("one beside the module", shell("check", good, module=alone), (0, said(good), ""))


def main():
    os.makedirs(MADE, exist_ok=True)
    subprocess.run(["make", "-s", "python", "ACON_LIB=" + sys.argv[1]], check=True)
    os.environ.pop("ACON_SO", None)
    sys.path.insert(0, "python")
    import acon

    for part in sentences, canonical, manifests, loads, judges, resolves, exceptions:
        part(acon)
    with tempfile.TemporaryDirectory() as folder:
        command_line(acon, folder)
    print("python: %d answers of the module as they have to be" % checks)


main()
