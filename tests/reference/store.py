"""Stores and load of document 01, written from its text alone: questions 1 to 14, a record, a well-formed store. The bytes of a
store are read into a list of images first; then the questions are asked one after the other."""

import collections
import functools
import json
import re

import manifest

ALGORITHMS = {1: "sha224", 2: "sha256", 3: "sha384"}
BYTES = {algorithm: number for number, algorithm in ALGORITHMS.items()}
MOST_TEXT = 16384
MOST_NESTING = 8
MOST_IMAGES = 64

Image = collections.namedtuple("Image", "algorithm signer digest text")
Read = collections.namedtuple("Read", "number form own contents")
Keys = collections.namedtuple("Keys", "own layers")


# ---- Questions 1 to 9


class Number(str):
    """A number as it is written."""


class Members(list):
    """The members of an object as they stand, equal keys too."""


def no_json(word):
    raise ValueError(word)


def nesting(text):
    """How deep the brackets outside strings nest; what is no JSON text may get any number."""
    deep = most = 0
    for c in re.sub(r'"(?:[^"\\]|\\.)*"', "", text, flags=re.S):
        deep += (c in "[{") - (c in "]}")
        most = max(most, deep)
    return most


def parts(value):
    """Each value inside a value, keys too."""
    yield value
    if isinstance(value, Members):
        for key, inner in value:
            yield key
            yield from parts(inner)
    elif isinstance(value, list):
        for inner in value:
            yield from parts(inner)


def refused_string(s):
    return re.search("[\x00-\x1f\x7f\ud800-\udfff]", s) is not None


def refused_number(s):
    return bool(set(s) & set(".eE")) or s == "-0" or len(s) > 11 or not -(2**31) <= int(s) < 2**31


def equal_keys(members):
    return len({key for key, _ in members}) < len(members)


def plain(value):
    """The value as Python's json would have read it."""
    if isinstance(value, Members):
        return {key: plain(inner) for key, inner in value}
    if isinstance(value, list):
        return [plain(inner) for inner in value]
    return int(value) if isinstance(value, Number) else value


def refused(number):
    return Read(number, None, None, None)


@functools.lru_cache(maxsize=1 << 15)
def read_manifest(text):
    """The lowest of questions 1 to 9, 0 for none; where it is 0 the canonical form, the aliases of `self`, and those of
    `contents` with the object of each."""
    if len(text) > MOST_TEXT:
        return refused(1)
    try:
        decoded = text.decode("utf-8")
    except UnicodeDecodeError:
        return refused(2)
    try:
        if nesting(decoded) > MOST_NESTING:
            return refused(3)
        value = json.loads(decoded, parse_int=Number, parse_float=Number, parse_constant=no_json, object_pairs_hook=Members)
    except ValueError:
        return refused(3)
    inside = list(parts(value))
    if any(type(v) is str and refused_string(v) for v in inside):
        return refused(4)
    if any(type(v) is Number and refused_number(v) for v in inside):
        return refused(5)
    if any(type(v) is Members and equal_keys(v) for v in inside):
        return refused(6)
    value = plain(value)
    number = manifest.number(value)
    if number != 0:
        return refused(number)
    form = json.dumps(value, sort_keys=True, ensure_ascii=False, separators=(",", ":")).encode()
    groups = value.get("aliases", {})
    own = frozenset(alias for aliases in groups.get("self", {}).values() for alias in aliases)
    contents = {alias: layer for layer, aliases in groups.get("contents", {}).items() for alias in aliases}
    return Read(0, form, own, contents)


# ---- Image IDs and keys


@functools.lru_cache(maxsize=1 << 15)
def read_id(text):
    """The algorithm and the two digests; None where the form is bad."""
    part = text.decode("latin-1").split("/")
    if len(part) != 3 or part[0] not in BYTES or not all(manifest.is_digest(part[0], p) for p in part[1:]):
        return None
    return part[0], bytes.fromhex(part[1]), bytes.fromhex(part[2])


def image_id(image):
    return image.algorithm, image.signer, image.digest


@functools.lru_cache(maxsize=1 << 15)
def keys(image):
    """The image keys, and the layer keys, each with its object."""
    read = read_manifest(image.text)
    key = lambda alias: (image.algorithm, image.signer, alias)
    return Keys(set(map(key, read.own)), {key(alias): layer for alias, layer in read.contents.items()})


def clash(x, y):
    mine, theirs = keys(x), keys(y)
    return not mine.own.isdisjoint(theirs.own) or any(theirs.layers.get(key, layer) != layer for key, layer in mine.layers.items())


def any_clash(images):
    """Some two of the images clash: an image key is defined twice, or a layer key for two objects. Inside one image neither
    happens, since an alias stands once in a group."""
    own = [key for image in images for key in keys(image).own]
    layers = {defined for image in images for defined in keys(image).layers.items()}
    return len(set(own)) < len(own) or len({key for key, _ in layers}) < len(layers)


# ---- Records and stores


def number_bytes(n):
    """Groups of seven bits, the lowest first, the top bit set on all but the last byte."""
    groups = [n & 0x7F]
    while n > 0x7F:
        n >>= 7
        groups.append(n & 0x7F)
    return bytes([g | 0x80 for g in groups[:-1]] + groups[-1:])


def read_number(data, at):
    """The number there, of any size, and the place after it; None where it is cut or not in shortest form."""
    value = 0
    for k in range(at, len(data)):
        value |= (data[k] & 0x7F) << 7 * (k - at)
        if data[k] < 0x80:
            return None if data[k] == 0 and k > at else (value, k + 1)
    return None


def record(image):
    rest = bytes([BYTES[image.algorithm]]) + image.signer + image.digest + image.text
    return number_bytes(len(rest)) + rest


def read_record(data, at):
    """The image there and the place after its record; None where no whole record stands there."""
    number = read_number(data, at)
    if number is None or number[0] > len(data) - number[1]:
        return None
    length, start = number
    rest = data[start : start + length]
    if not rest or rest[0] not in ALGORITHMS:
        return None
    algorithm = ALGORITHMS[rest[0]]
    n = manifest.DIGITS[algorithm] // 2
    if len(rest) < 1 + 2 * n:
        return None
    return Image(algorithm, rest[1 : 1 + n], rest[1 + n : 1 + 2 * n], rest[1 + 2 * n :]), start + length


def read_records(data):
    """The images whose records fill the bytes; None where they do not."""
    images, at = [], 0
    while at < len(data):
        found = read_record(data, at)
        if found is None:
            return None
        images.append(found[0])
        at = found[1]
    return images


@functools.lru_cache(maxsize=64)
def well_formed(data):
    """The images of a well-formed store with these bytes; None where it is not well-formed."""
    images = read_records(data)
    if images is None or len(images) > MOST_IMAGES:
        return None
    if any(read_manifest(i.text).number != 0 or read_manifest(i.text).form != i.text for i in images):
        return None
    if len(set(map(image_id, images))) < len(images) or any_clash(images):
        return None
    return images


# ---- Load


def questions(given_id, text, buffer, used):
    """Each number with whether it applies. A later one may be asked only where no earlier one applies."""
    read = read_manifest(text)
    yield read.number, read.number != 0
    parsed = read_id(given_id)
    yield 10, parsed is None
    images = well_formed(bytes(buffer[:used])) if used <= len(buffer) else None
    yield 11, images is None
    image = Image(*parsed, read.form)
    yield 12, image_id(image) in map(image_id, images)
    yield 13, any(clash(image, i) for i in images)
    yield 14, len(images) >= MOST_IMAGES or len(record(image)) > len(buffer) - used


def load(given_id, text, buffer, used):
    """The number, the new used count, and the bytes that are written from the old one on; the buffer is left to the caller."""
    number = next((number for number, applies in questions(given_id, text, buffer, used) if applies), 0)
    if number != 0:
        return number, 0, b""
    written = record(Image(*read_id(given_id), read_manifest(text).form))
    return 0, used + len(written), written
