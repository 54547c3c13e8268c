"""Resolve of document 01, written from its text alone: the layer list, aliases followed from object to object, questions 11 and 15 to
20. A store is read as in store.py."""

import functools
import json

from manifest import DIGITS
from store import ALGORITHMS, BYTES, keys, well_formed


# ---- The layer list


@functools.lru_cache(maxsize=1 << 10)
def read_list(data):
    """The entries of a layer list, each the bytes of an algorithm and a digest; None where it has a bad algorithm byte or a cut entry."""
    entries, at = set(), 0
    while at < len(data):
        if data[at] not in ALGORITHMS:
            return None
        end = at + 1 + DIGITS[ALGORITHMS[data[at]]] // 2
        if end > len(data):
            return None
        entries.add(data[at:end])
        at = end
    return entries


def entry(reference):
    """The entry of a layer reference HASH/FSLAYER."""
    algorithm, digest = reference.split("/")
    return bytes([BYTES[algorithm]]) + bytes.fromhex(digest)


# ---- Aliases


@functools.lru_cache(maxsize=1 << 15)
def layers(text):
    """The layer references of a good manifest."""
    return json.loads(text).get("layers", [])


@functools.lru_cache(maxsize=64)
def held(data):
    """The images of a well-formed store with these bytes, and the object of each layer key that they define; None where it is not
    well-formed."""
    images = well_formed(data)
    if images is None:
        return None
    objects = {"signer/%s/%s/%s" % (algorithm, signer.hex(), alias): layer
               for image in images for (algorithm, signer, alias), layer in keys(image).layers.items()}
    return images, objects


def follow(reference, objects):
    """The number and the digest that is met: an alias is followed from object to object. A reference that is met again is met for ever."""
    met = set()
    while reference.startswith("signer/"):
        if reference not in objects:
            return 17, None
        if reference in met:
            return 18, None
        met.add(reference)
        reference = objects[reference]
    return 0, reference


# ---- Resolve


def resolve(buffer, used, layer_list, place, out_length):
    """The number; the output's length, or in 17 to 19 the index of the layer; and the bytes that are written at the start of an output
    buffer of that length. The buffer is left to the caller."""
    found = held(bytes(buffer[:used])) if used <= len(buffer) else None
    if found is None:
        return 11, 0, b""
    images, objects = found
    present = read_list(layer_list)
    if present is None:
        return 15, 0, b""
    if place >= len(images):
        return 16, 0, b""
    output = b""
    for index, reference in enumerate(layers(images[place].text)):
        number, digest = follow(reference, objects)
        if number == 0 and entry(digest) not in present:
            number = 19
        if number != 0:
            return number, index, b""
        output += entry(digest)
    if len(output) > out_length:
        return 20, 0, b""
    return 0, len(output), output
