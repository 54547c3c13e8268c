"""Compares acon_load with the implementation in reference/ on generated histories of loads: every number, every used count and every
byte of the buffer. Between loads stores are damaged, and some are put in by hand.

    stores.py PROGRAM [FIRST COUNT]   through the program that is made of store_driver.c
    stores.py --count [FIRST COUNT]   only counts the numbers that the reference gives

Without FIRST and COUNT histories are run from 0 on until there are enough loads. A history depends on its own number only, so
`stores.py PROGRAM N 1` runs history N alone."""

import histories
from histories import History, damage, disturbed, fill, some_images
from store import Image, read_manifest, record, well_formed
from store_inputs import LARGE, OWN_NAMES, SIZES, V, Style, bad_id, below, id_text, one_in, one_of, padded, rand, some_image, some_manifest

LOADS = 200000
LEAST = 200  # how often each number has to occur
LONGEST = 40000  # bytes of a buffer


# ---- Loads


def load_some(h, style):
    given = id_text(*some_image(style))
    h.load(bad_id(given) if one_in(40) else given, some_manifest(style))


def load_near(h, style):
    """An image that has much in common with one in the store, if the store is well-formed and has any."""
    images = well_formed(bytes(h.buffer[: h.used])) if h.used <= len(h.buffer) else None
    if not images:
        return load_some(h, style)
    near, other = one_of(images), Image(*some_image(style), some_manifest(style))
    k = below(4)
    if k == 0:  # the same ID
        near = near._replace(text=other.text)
    elif k == 1:  # the same signer and manifest
        near = near._replace(digest=rand.randbytes(len(near.digest)))
    elif k == 2:  # the same signer, and a digest that differs in the last byte
        near = near._replace(digest=near.digest[:-1] + bytes([near.digest[-1] ^ 1]), text=other.text)
    else:  # the same manifest
        near = other._replace(text=near.text)
    h.load(id_text(*near[:3]), near.text)


# ---- Histories


def some_size():
    k = below(20)
    if k == 0:
        return below(100)
    if k < 4:
        return 80 + below(1500)
    if k < 14:
        return 2000 + below(7000)
    return 6000 + below(LONGEST - 5999)


def plain_history(h):
    """Loads into one buffer, often with damage on the way that is undone again."""
    style, harm = Style(), one_of([0, 0, 0.05, 0.2])
    h.new(fill(some_size()))
    left = 1 + below(70 if one_in(6) else 16)
    while left > 0:
        left -= 1
        if rand.random() >= harm:
            load_near(h, style) if one_in(10) else load_some(h, style)
            continue
        at, old, used = damage(h)
        load_some(h, style)
        if not one_in(6):
            h.put(at, old)
            h.used = used


def prepared_history(h):
    """A few loads into a store made by hand, good or not."""
    images = some_images(61 + below(6) if one_in(12) else below(12))
    data = b"".join(map(record, images)) if one_in(2) else disturbed(images)
    h.new((data + fill(one_of([0, 1, 82, 83, 84, below(400), below(400), 2000])))[:LONGEST], len(data))
    style = Style()
    for _ in range(1 + below(4)):
        load_near(h, style) if one_in(6) else load_some(h, style)
        if one_in(8):
            h.used = one_of([len(data), max(0, h.used - 1), h.used + 1, 0])


def full_history(h):
    """Small images until the store has 64 of them or nearly so, and more loads after that."""
    style = Style()
    h.new(fill(20000 + below(LONGEST - 19999)))
    for k in range(61 + below(4)):
        algorithm, signer, _ = some_image(style)
        h.load(id_text(algorithm, signer, k.to_bytes(SIZES[algorithm], "big")), V if one_in(2) else one_of(OWN_NAMES))
    for _ in range(6):
        load_near(h, style) if one_in(2) else load_some(h, style)


def tight_history(h):
    """Buffers into which some of the images fit exactly, or lack a byte. Some records are as long as their length's number takes one
    byte more, or one byte shorter."""
    style = Style(calm=True)
    given, ends = [], [0]
    for _ in range(1 + below(12)):
        image = some_image(style)
        manifest = padded(one_of([127, 128]) - 1 - 2 * SIZES[image[0]]) if one_in(4) else some_manifest(style)
        if one_in(100):
            manifest = padded(one_of([16383, 16384]) - 1 - 2 * SIZES[image[0]])
        given.append((id_text(*image), manifest))
        form = read_manifest(manifest).form
        if form is not None:
            ends.append(ends[-1] + len(record(Image(*image, form))))
    h.new(fill(min(LONGEST, max(0, one_of(ends) + one_of([-1, 0, 0, 1])))))
    for given_id, manifest in given:
        h.load(given_id, manifest)


def large_history(h):
    """Long manifests and many aliases."""
    style = Style()
    h.new(fill(16000 + below(LONGEST - 15999)))
    for _ in range(2 + below(5)):
        h.load(id_text(*some_image(style)), some_manifest(style) if one_in(4) else one_of(LARGE))
        if one_in(6):  # a stored manifest that is good but for its length, or good
            h.put_store(record(Image(*some_image(style), padded(one_of([16384, 16385])))))


def history(number):
    h = History(number)
    k = below(100)
    if k < 50:
        plain_history(h)
    elif k < 85:
        prepared_history(h)
    elif k < 97:
        tight_history(h)
    elif k < 98:
        full_history(h)
    else:
        large_history(h)
    return h, h.loads


histories.main("stores", history, "loads", {number: "get %d" % number for number in range(15)}, LOADS, LEAST)
