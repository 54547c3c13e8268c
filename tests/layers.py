"""Refuses a crate above the manifest part that looks into the text part.

The parts of the library speak to each other by contracts (document 01: "the policy part knows the text part only by its
promise"). What stands above the manifest part may name the crate `text`, and none of the crates inside it; it imports
nothing of theirs, and opens no definition of `text`."""

import os
import re
import sys

# The parts themselves, and programs that only test: these may look inside.
BELOW = re.compile(r"laws|text(_\w+)?|reference(_\w+)?|manifest(_\w+)?|test_\w+")
INNER = re.compile(r"text_\w+")


def crates(lines):
    """The crates of crates.txt, each with those that its line names."""
    named = (line.split("#")[0].split(":") for line in lines if line.split("#")[0].strip())
    # a static library has that word after its name
    return {name.split()[0]: deps.split() for name, deps in named}


def definitions(specs):
    """The names that the texts of specs files define."""
    return {name for text in specs for name in re.findall(r"^\s*(?:\w+ )*pub ([\w-]+) :", text, re.M)}


def faults(listed, texts, shut):
    """What is wrong, by crate: `texts` has the source texts of each crate, `shut` the names that nobody above may open."""
    for name, deps in listed.items():
        if BELOW.fullmatch(name):
            continue
        for dep in deps:
            if INNER.fullmatch(dep):
                yield "%s: crates.txt names %s, which is inside the text part" % (name, dep)
        for path, text in texts.get(name, {}).items():
            for inner in re.findall(r"Rattle\.(text_\w+)", text):
                yield "%s: imports from %s, which is inside the text part" % (path, inner)
            for opened in re.findall(r"^\s*unfolding (.*)$", text, re.M):
                for definition in set(opened.split()) & shut:
                    yield "%s: opens %s, a definition of text" % (path, definition)


def sources(folder):
    for at, _, names in os.walk(folder):
        for name in names:
            if name.endswith((".antt", ".rt")):
                with open(os.path.join(at, name), encoding="utf-8") as f:
                    yield os.path.join(at, name), f.read()


def selftest():
    """Each kind of fault is seen, and a crate that keeps to the line passes."""
    shut = definitions(["unfoldable pub form : List\nform s = s\n"])
    assert shut == {"form"}
    listed = crates(["# layers", "store: text manifest"])
    for text, count in (("use Rattle.text.specs.Answer.{form}", 0), ("use Rattle.text_json.specs.Read.{read}", 1), ("  unfolding all form", 1)):
        assert len(list(faults(listed, {"store": {"a.antt": text}}, shut))) == count
    assert len(list(faults(crates(["policy: store text_json"]), {}, shut))) == 1
    assert not list(faults(crates(["manifest: text_json"]), {}, shut))


def main():
    selftest()
    with open("crates.txt", encoding="utf-8") as f:
        listed = crates(f)
    texts = {name: dict(sources(os.path.join("crates", name))) for name in listed}
    shut = definitions(text for path, text in texts["text"].items() if os.path.join("text", "specs") in path)
    if "form" not in shut:
        sys.exit("layers: the definitions of text are not found")
    found = list(faults(listed, texts, shut))
    if found:
        sys.exit("\n".join("layers: " + fault for fault in found))
    above = [name for name in listed if not BELOW.fullmatch(name)]
    print("layers: %d crates above the manifest part keep to the text part's promise: %s" % (len(above), ", ".join(above)))


main()
