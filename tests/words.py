"""Refuses a byte list of a definition that is not the word beside it.

Definitions write words as bytes (`0x65 ∷ 0x6E ∷ 0x76 ∷ []  -- env`). A reader believes the word: here each list is compared
with it, and a list of two or more letters without a word is refused."""

import glob
import re
import sys

LIST = re.compile(r"= ((?:0x[0-9A-F]{2} ∷ ){2,}\[\])(?: +-- (.*))?$")


def faults(path, text):
    """What is wrong in one file, and how many words agree."""
    agreed, wrong = 0, []
    for number, line in enumerate(text.split("\n"), 1):
        found = LIST.search(line)
        if not found:
            continue
        content = bytes(int(digits, 16) for digits in re.findall(r"0x(..)", found.group(1)))
        if not all(0x20 < byte < 0x7F for byte in content):
            continue
        if found.group(2) == content.decode():
            agreed += 1
        else:
            wrong.append("%s:%d: the bytes are %s, and beside them stands %s" % (path, number, content.decode(), found.group(2) or "nothing"))
    return agreed, wrong


def main():
    assert faults("a", "f = 0x65 ∷ 0x6E ∷ 0x76 ∷ []  -- env") == (1, [])
    assert len(faults("a", "f = 0x65 ∷ 0x6E ∷ 0x76 ∷ []  -- emv")[1]) == 1
    assert len(faults("a", "f = 0x65 ∷ 0x6E ∷ 0x76 ∷ []")[1]) == 1
    agreed, wrong = 0, []
    for path in sorted(glob.glob("crates/*/specs/**/*.antt", recursive=True)):
        with open(path, encoding="utf-8") as f:
            count, found = faults(path, f.read())
        agreed += count
        wrong += found
    if wrong or agreed < 22:
        sys.exit("\n".join(["words: " + fault for fault in wrong] or ["words: only %d words are found" % agreed]))
    print("words: %d words of definitions are what their bytes say" % agreed)


main()
