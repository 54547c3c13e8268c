"""Holds the stack of each call to what include/acon.h says: stack.py PROGRAM FOLDER.

PROGRAM is bench/stack.c, which runs a call on a stack filled with a pattern and says how far down it went. The inputs go to FOLDER: those of the benchmark
that are quickly made, and a text that goes deeper than all of them: alone, as the manifest that is loaded, and as a manifest of the store. The last two are
refused, but only after the text has been read."""

import json
import os
import re
import subprocess
import sys

sys.path.insert(0, "bench")
import inputs
import stores

HEADER = "include/acon.h"
CALLS = ("canonical", "load", "judge", "resolve")


def promised():
    """Kilobytes by call, as the header has them."""
    with open(HEADER, encoding="utf-8") as f:
        found = re.findall(r"^ \* +acon_(\w+) +(\d+) KB$", f.read(), re.M)
    if tuple(name for name, _ in found) != CALLS:
        sys.exit("stack: %s does not name the stack of each call once" % HEADER)
    return {name: int(kilobytes) for name, kilobytes in found}


def deepest():
    """Objects nested 8 deep, the innermost with more than 2,048 keys in falling order, so that the sort calls itself 12 times. The keys lie on both
    sides of those that begin with a backslash: comparing these goes deepest, since they are escaped."""
    keys = (chr(a) + chr(b) for a in range(0x6D, 0x4F, -1) for b in range(0x7E, 0x1F, -1))
    text = inputs.joined('{"":' * 7 + "{", ("%s:0" % json.dumps(key) for key in keys), "}" * 8, inputs.LARGE)
    assert text.count(":0") > 2048 and text.count('"\\\\') > 90
    return text


def cases(folder):
    """The paths of the inputs of each call."""
    text, good = deepest(), inputs.worked_manifest()
    store = stores.record(stores.Image("sha224", "a" * 56, "b" * 56, text))
    parts = {"store": store, "id": b"sha224/%s/%s" % (b"a" * 56, b"c" * 56), "json": good.encode(), "layers": b"", "place": b"0"}
    in_store = stores.write_files(folder, "deepest, in the store", **parts)
    loaded = stores.write_files(folder, "deepest, loaded", **{**parts, "store": b"", "json": text.encode()})
    plain = [inputs.write(folder, inputs.file_name(name, 16), make(inputs.LARGE)) for name, make in inputs.CASES]
    rules = stores.store_of([inputs.many_rules(seed) for seed in range(64)], True)
    webs = [("web", *stores.web_store(lambda k, most: inputs.word(k, 3))), ("one name", *stores.one_name_store())]

    def paths(made):
        return [case.path for case in made]
    return {
        "canonical": [inputs.write(folder, "deepest.json", text), inputs.write(folder, "manifest.json", good), *plain],
        "load": [in_store, loaded, *paths(stores.write_all(folder, [*stores.plain(), ("rules", *rules)]))],
        "judge": [in_store, *paths(stores.write_judged(folder, [*stores.judged_plain(), *stores.judged_worst()]))],
        "resolve": [in_store, *paths(stores.write_resolved(folder, [*stores.resolved_plain(), *webs]))],
    }


def main():
    program, folder = sys.argv[1:]
    most, count = {}, 0
    for call, paths in cases(folder).items():
        said = subprocess.run([program, "any", call, *paths], stdout=subprocess.PIPE, check=True).stdout.decode()
        used = {path: int(size) for path, size, _ in (line.split("\t") for line in said.splitlines())}
        count += len(used)
        path = max(used, key=used.get)
        if used[path] > promised()[call] * 1024:
            sys.exit("stack: acon_%s uses %d bytes on %s, and the header says %d KB" % (call, used[path], path, promised()[call]))
        most[call] = "%s %.1f of %d KB" % (call, used[path] / 1024, promised()[call])
    print("stack: %d inputs take at most what the header says: %s" % (count, ", ".join(most.values())))


main()
