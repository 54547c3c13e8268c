"""Histories of loads, judges and resolves for store_driver.c: the commands, what the implementation in reference/ answers to each, stores
that are made by hand or damaged on the way, and comparing."""

import collections
import os
import struct
import subprocess
import sys

sys.path.insert(0, os.path.join(os.path.dirname(os.path.abspath(__file__)), "reference"))
from lookup import resolve  # noqa: E402
from places import place  # noqa: E402
from policy import judge  # noqa: E402
from store import Image, load, number_bytes, read_records, record  # noqa: E402
from store_inputs import (BAD, DAMAGED, OWN_NAMES, PLAIN, SHARED, SIZES, SPELLED, Style, below, one_in, one_of, rand,  # noqa: E402
                          some_image)

BATCH = 2000  # histories for one run of the program


# ---- Commands


class History:
    """Commands for the program, and what it has to answer to each load, judge and resolve. `loads` are the numbers of the loads."""

    def __init__(self, number):
        rand.seed(number * 2654435761 + 1)
        self.commands, self.answers, self.loads = [], [], []
        self.buffer, self.used = bytearray(), 0

    def new(self, data, used=0):
        self.buffer, self.used = bytearray(data), used
        self.commands.append(b"N" + struct.pack("<I", len(data)) + data)

    def put(self, at, data):
        data = data[: len(self.buffer) - at]
        self.buffer[at : at + len(data)] = data
        self.commands.append(b"P" + struct.pack("<II", at, len(data)) + data)

    def put_store(self, data):
        """A store from byte 0 on, cut where the buffer is too short for it."""
        self.put(0, data)
        self.used = len(data)

    def load(self, given_id, manifest):
        self.commands.append(b"L" + struct.pack("<QII", self.used, len(given_id), len(manifest)) + given_id + manifest)
        number, used, written = load(given_id, manifest, self.buffer, self.used)
        before = bytes(self.buffer[self.used : self.used + len(written)])
        self.expect("load", number, used, before, written, self.used, place(manifest, number))
        if number == 0:
            self.buffer[self.used : used] = written
            self.used = used
        self.loads.append(number)
        return number

    def judge(self, report):
        """Judges the store, with a report buffer of these bytes."""
        self.commands.append(b"J" + struct.pack("<QI", self.used, len(report)) + report)
        number, pairs, written = judge(self.buffer, self.used, len(report))
        self.expect("judge", number, pairs, report[: len(written)], written, 0)
        return number, pairs, written

    def resolve(self, layer_list, place, out):
        """Resolves the image at a place, with that layer list and an output buffer of these bytes."""
        self.commands.append(b"R" + struct.pack("<QQII", self.used, place, len(layer_list), len(out)) + layer_list + out)
        number, value, written = resolve(self.buffer, self.used, layer_list, place, len(out))
        self.expect("resolve", number, value, out[: len(written)], written, 0)
        return number, value, written

    def expect(self, call, number, value, before, after, at, second=0):
        """The answer to a call that changes these bytes, which stand at a place of a buffer, into those; `second` is its second value."""
        first, changed = changes(before, after)
        first += at if changed else 0
        self.answers.append((call, struct.pack("<QII", second << 32 | value << 8 | number, first, len(changed)) + changed))


def changes(before, after):
    """The place of the first byte that differs, and the bytes from it to the last one that does."""
    if before == after:
        return 0, b""
    first = next(k for k in range(len(after)) if before[k] != after[k])
    last = next(k for k in range(len(after) - 1, -1, -1) if before[k] != after[k])
    return first, after[first : last + 1]


# ---- Stores made by hand


def some_images(count):
    """Images for a store, which with few exceptions can stand together."""
    style = Style(calm=True)
    images = []
    for k in range(count):
        algorithm, signer, digest = some_image(style)
        digest = digest if one_in(50) else k.to_bytes(SIZES[algorithm], "big")
        images.append(Image(algorithm, signer, digest, one_of(PLAIN) if not one_in(3) else one_of(OWN_NAMES)))
    return images


def some_record():
    return record(some_images(1)[0])


def bad_record(image):
    """A record that stands in no well-formed store, or hardly in any."""
    whole = record(image)
    end = next(k for k, b in enumerate(whole) if b < 0x80) + 1
    rest = whole[end:]
    k = below(14)
    if k < 2:  # not the shortest form
        return bytes([b | 0x80 for b in whole[:end]]) + one_of([b"\0", b"\x80\0"]) + rest
    if k < 4:  # right where it wraps: at 32 or 64 bits, or after twelve groups
        return number_bytes(len(rest) + one_of([1 << 32, 1 << 63, 1 << 64, 1 << 65, 1 << 77, 5 << 64])) + rest
    if k == 4:  # no such algorithm, or that of other digests
        return whole[:end] + bytes([one_of([0, 1, 2, 3, 4, 255])]) + rest[1:]
    if k == 5:  # too short for an algorithm, its digests, or a manifest
        n = below(2 + 2 * SIZES[image.algorithm])
        return number_bytes(n) + rest[:n]
    if k == 6:  # another length than the right one
        return number_bytes(max(0, len(rest) + one_of([-1, 1, -2, 2, 127, -50]))) + rest
    if k == 7:
        return record(image._replace(text=one_of(SPELLED)))
    if k == 8:
        return record(image._replace(text=one_of(DAMAGED)))
    if k == 9:
        return one_of([b"\0", b"\x80", b"\xff" * 12, b"\x01\x01", b"\x7f"]) + (whole if one_in(2) else b"")
    if k == 10:
        return whole[: below(len(whole))]
    return record(image._replace(text=one_of(BAD[1 if one_in(40) else 2 + below(8)])))


def disturbed(images):
    """The bytes of a store of these images in which, mostly, something is wrong."""
    records = [record(i) for i in images]
    k, at = below(9), below(len(images) + 1)
    if k < 4 or not images:  # a bad record more, or in the place of one; its ID is a new one, so that it may be the only fault
        image = some_images(1)[0]
        image = image._replace(digest=(0xE000).to_bytes(SIZES[image.algorithm], "big"))
        return b"".join(records[:at] + [bad_record(image)] + records[at + k % 2 :])
    if k == 4:  # an ID twice
        records.insert(at, record(one_of(images)._replace(text=one_of(PLAIN))))
    elif k < 8:  # two images of one signer that are likely to share names
        one, texts = one_of(images), [one_of(SHARED), one_of(SHARED)]
        if k == 7:
            texts[1] = texts[0]
        for d in range(2):
            digest = (0xF000 + d).to_bytes(SIZES[one.algorithm], "big")
            records.insert(below(len(records) + 1), record(one._replace(digest=digest, text=texts[d])))
    else:  # another order, which is as good
        rand.shuffle(records)
    return b"".join(records)


def fill(size):
    """The bytes of a new buffer."""
    k = below(5)
    if k == 0:
        return bytes(size)
    if k == 1:
        return b"\xee" * size
    if k == 2:  # as if it had been a store
        return (b"".join(map(record, some_images(3))) * (size // 200 + 1))[:size]
    if k == 3:
        return (some_record() * (size // 80 + 1))[:size]
    return rand.randbytes(size)


def damage(h):
    """Changes the buffer or the used count. Answers how to undo it: an offset, the bytes that were there, and the used count."""
    k, used, size = below(10), h.used, len(h.buffer)
    held = min(used, size)
    if k < 4 and held > 0:
        at = below(held)
        old = bytes(h.buffer[at : at + 1])
        h.put(at, bytes([old[0] ^ 1 << below(8) if k < 2 else one_of([0, 1, 2, 3, 4, 0x22, 0x7F, 0x80, 0xFF, below(256)])]))
        return at, old, used
    if k < 7:
        near = max(0, held + one_of([-1, 1, -2, 2, -83, 83, below(300), -below(300)]))
        far = [size + 1 + below(1 << 20), held + (1 << 32), held + (1 << 63), (1 << 64) - 1]
        h.used = one_of([near, near, near, below(held + 1), 0, size, size + 1, one_of(far)])
        return 0, b"", used
    images = read_records(bytes(h.buffer[:used])) if used <= size else None
    data = disturbed(images if images is not None else some_images(below(4)))
    old = bytes(h.buffer[: len(data)])
    h.put_store(data)
    return 0, old, used


# ---- Comparing


def told(answer):
    if len(answer) < 16:
        return "nothing"
    packed, first, count = struct.unpack_from("<QII", answer)
    return "number %d, values %d and %d, %d bytes changed from %d on" % (packed & 0xFF, packed >> 8 & 0xFFFFFF, packed >> 32, count, first)


def compare(name, program, some):
    """Runs histories, given with their numbers, and stops at the first difference."""
    given = b"".join(c for _, h in some for c in h.commands)
    run = subprocess.run([program], input=given, stdout=subprocess.PIPE)
    at = 0
    for number, h in some:
        for k, (call, answer) in enumerate(h.answers):
            got = run.stdout[at : at + len(answer)]
            if got != answer:
                sys.exit("%s: history %d, call %d, %s: library: %s; reference: %s" % (name, number, k, call, told(got), told(answer)))
            at += len(answer)
    if run.returncode != 0 or at != len(run.stdout):
        sys.exit("%s: the program ended with %d, and %d bytes too many" % (name, run.returncode, len(run.stdout) - at))


def main(name, history, what, kinds, enough, least):
    """Makes histories and compares them: NAME.py PROGRAM|--count [FIRST COUNT]. `history` makes the one with a number, and gives it
    with what is counted of it, each by its kind; `kinds` has what is said of each kind. Without FIRST and COUNT there have to be
    `enough` of them, and `least` of each kind."""
    program, first, count = sys.argv[1], 0, None
    if len(sys.argv) > 2:
        first, count = map(int, sys.argv[2:4])
    seen, number, some = collections.Counter(), first, []
    while number < first + count if count is not None else sum(seen.values()) < enough:
        h, counted = history(number)
        some.append((number, h))
        seen.update(counted)
        number += 1
        if len(some) == BATCH:
            if program != "--count":
                compare(name, program, some)
            some = []
    if program != "--count":
        compare(name, program, some)
    counts = ", ".join("%d %s" % (seen[kind], words) for kind, words in kinds.items())
    if count is None and any(seen[kind] < least for kind in kinds):
        sys.exit("%s: a kind is too rare: %s" % (name, counts))
    said = "counted" if program == "--count" else "alike"
    print("%s: %d %s in %d histories %s: %s" % (name, sum(seen.values()), what, number - first, said, counts))
