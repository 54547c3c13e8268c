"""Builds each host of examples/ on the archive, runs it as `make examples` does, and compares what it prints with the file stored
beside its source.

    examples.py ARCHIVE           compares
    examples.py ARCHIVE --write   writes the stored files anew"""

import os
import re
import subprocess
import sys

MADE = "target/tests/examples"
GCC = ["gcc", "-O2", "-std=c11", "-Wall", "-Wextra", "-Werror", "-Iinclude"]
ABSENT = "examples/there is no such file"

# What is no part of a stored output: a host with these arguments ends with this status and prints nothing, or a refusal.
OTHERS = [
    ("canonical", [], 2, b""),
    ("canonical", [ABSENT], 2, b""),
    ("canonical", ["examples"], 2, b""),
    ("canonical", ["examples/room.txt"], 1, b"refused: 3, "),
    ("fault", [ABSENT], 2, b""),
    ("fault", ["examples/manifest.json"], 0, b"examples/manifest.json: good\n"),
    ("fault", ["examples/manifest.json", "examples/names.txt"], 1, b"examples/manifest.json: good\nexamples/names.txt, line 1, column 1: "),
    ("load", ["x"], 2, b""),
    ("load", ["x", ABSENT], 2, b""),
    ("load", ["x", "examples/manifest.json"], 0, b"refused: 10, "),
    ("load", ["sha224/%s/%s" % ("a" * 56, "b" * 56), "examples/manifest.json"], 0, b"loaded: "),
    ("day", [], 2, b""),
    ("day", ["examples/room.txt", "examples/names.txt", ABSENT], 2, b""),
    ("day", ["examples/room.txt", "examples/names.txt", "examples/names.txt"], 2, b""),
]


def commands():
    """The hosts that `make examples` runs, each with its arguments."""
    with open("Makefile", encoding="utf-8") as f:
        return {name: rest.split() for name, rest in re.findall(r"^\ttarget/examples/(\w+)(.*)$", f.read(), re.M)}


def run(name, arguments):
    done = subprocess.run([os.path.join(MADE, name)] + arguments, stdout=subprocess.PIPE, stderr=subprocess.PIPE)
    return done.returncode, done.stdout


def compare(name, arguments, write):
    subprocess.run(GCC + ["examples/%s.c" % name, sys.argv[1], "-o", os.path.join(MADE, name)], check=True)
    status, said = run(name, arguments)
    if status != 0:
        sys.exit("examples: %s ends with status %d" % (name, status))
    path = "examples/%s.out" % name
    if write:
        with open(path, "wb") as f:
            f.write(said)
    with open(path, "rb") as f:
        if f.read() != said:
            sys.exit("examples: %s prints something else than %s:\n%s" % (name, path, said.decode(errors="replace")))


def main():
    os.makedirs(MADE, exist_ok=True)
    listed = commands()
    sources = {name[:-2] for name in os.listdir("examples") if name.endswith(".c")}
    if set(listed) != sources:
        sys.exit("examples: `make examples` runs %s, and there are %s" % (sorted(listed), sorted(sources)))
    for name, arguments in listed.items():
        compare(name, arguments, sys.argv[2:] == ["--write"])
    for name, arguments, status, start in OTHERS:
        got, said = run(name, arguments)
        if got != status or not said.startswith(start) or bool(said) != bool(start):
            sys.exit("examples: %s %s ends with status %d and prints %r" % (name, arguments, got, said[:200]))
    print("examples: %d hosts print what is stored: %s" % (len(listed), ", ".join(listed)))


main()
