"""The ACON library for people who prepare manifests.

    import acon

    acon.canonical(text)             the canonical form of a JSON text, as bytes
    acon.check(manifest)             nothing for a good manifest
    store = acon.Store()
    place = store.load(ID, manifest)
    store.judge()                    [(guard, other), ...], by their places
    store.resolve(place, layers)     ["sha256/...", ...], the digests of the image's layers

A refusal is raised as acon.Refused, with the number of the table in include/acon.h, its sentence and, for 2 to 6, the offset of
the fault. Texts, IDs and manifests are str, which stands for its UTF-8 bytes, or bytes. From a shell:

    python3 acon.py check FILE...      a line for each manifest: good, or the number, its sentence and the offset of the fault
    python3 acon.py canonical FILE     the canonical form, with no newline after it

The answers are those of the C library. `make python` links its archive into target/python/libacon.so, where this module finds
it; it also looks beside itself, and ACON_SO in the environment names another file."""

import collections
import ctypes
import functools
import os
import re
import sys

ALGORITHMS = {"sha224": 28, "sha256": 32, "sha384": 48}  # the bytes of a digest; the first algorithm has byte 1
MADE_UP_ID = "sha224/%s/%s" % ("0" * 56, "0" * 56)  # of good form, for asking about a manifest alone

Limits = collections.namedtuple("Limits", "text images report output")


# ---- The shared object


def _path():
    if os.environ.get("ACON_SO"):
        return os.path.abspath(os.environ["ACON_SO"])  # a name without a slash would be looked up in the system's folders
    here = os.path.dirname(os.path.abspath(__file__))
    for path in os.path.join(here, "libacon.so"), os.path.join(here, "..", "target", "python", "libacon.so"):
        if os.path.exists(path):
            return path
    raise OSError("there is no libacon.so: run 'make python', or set ACON_SO to its path")


@functools.lru_cache(maxsize=None)
def _library():
    """The shared object, which is opened at the first call, so that importing needs none."""
    library = ctypes.CDLL(_path())
    given, lent, size = ctypes.c_char_p, ctypes.POINTER(ctypes.c_uint8), ctypes.c_size_t
    for name, kinds in (
        ("acon_canonical", (given, size, lent, size)),
        ("acon_load", (given, size, given, size, lent, size, size)),
        ("acon_judge", (lent, size, size, lent, size)),
        ("acon_resolve", (lent, size, size, given, size, size, lent, size)),
    ):
        call = getattr(library, name)
        call.argtypes, call.restype = kinds, ctypes.c_uint64
    library.acon_module_text.argtypes, library.acon_module_text.restype = (ctypes.c_uint,), ctypes.c_char_p
    return library


@functools.lru_cache(maxsize=None)
def limits():
    """The longest text, the most images of a store, and the longest report and output, in bytes."""
    return Limits(*(ctypes.c_size_t * len(Limits._fields)).in_dll(_library(), "acon_module_limits"))


def text(number):
    """The sentence for a number."""
    return _library().acon_module_text(number if 0 <= number <= 255 else 255).decode()


class Refused(Exception):
    """A refusal: `number`, its sentence `text`, in 17, 18 and 19 the index of the layer that fails, `layer`, and in 2 to 6 the offset of
    the text's fault, `offset`, in bytes from 0; these two are else None."""

    def __init__(self, number, layer=None, offset=None):
        super().__init__(number, layer, offset)
        self.number, self.layer, self.offset, self.text = number, layer, offset, text(number)

    def __str__(self):
        where = "" if self.offset is None else ", at byte %d" % self.offset
        return "%d, %s%s%s" % (self.number, self.text, where, "" if self.layer is None else " (layer %d)" % self.layer)


def _ask(name, *given):
    """Makes a call, and tells the first value of its answer."""
    answer = getattr(_library(), name)(*given)
    number, first, second = answer & 0xFF, answer >> 8 & 0xFFFFFF, answer >> 32
    if number != 0:
        raise Refused(number, first if number in (17, 18, 19) else None, second if number in (2, 3, 4, 5, 6) else None)
    return first


def _bytes(given):
    """The bytes of a text. None and numbers are a TypeError, so no call gets a null pointer."""
    if isinstance(given, str):
        return given.encode("utf-8", "surrogatepass")  # a lone surrogate is not UTF-8, which the library says
    return bytes(memoryview(given))


def _buffer(size):
    """A buffer of that many bytes, and of one where they are none, so that there is an address."""
    if size < 0:
        raise ValueError("a buffer has no fewer than 0 bytes")
    return (ctypes.c_uint8 * max(size, 1))()


def _longest_record():
    """At most three bytes for its length, one for the algorithm, two digests, and the manifest."""
    return 3 + 1 + 2 * max(ALGORITHMS.values()) + limits().text


# ---- The calls


def canonical(text):
    """The canonical form of a JSON text."""
    text = _bytes(text)
    out = _buffer(len(text))  # the form is never longer than the text
    return bytes(memoryview(out)[: _ask("acon_canonical", text, len(text), out, len(text))])


def check(manifest):
    """Asks questions 1 to 9 of a manifest: those of a load into an empty store that has space for it, under an ID of good form."""
    Store(_longest_record()).load(MADE_UP_ID, manifest)


class Store:
    """Images, in the order of loading. `ids` has the ID of each as it was given; its index there is the image's place. A store is
    for one thread at a time."""

    def __init__(self, size=None):
        """In a buffer of `size` bytes; without it, in one that is enough for as many images as a store may hold."""
        if size is None:
            size = limits().images * _longest_record()
        self._buffer, self._size, self._used = _buffer(size), size, 0
        self.ids = []

    def __len__(self):
        return len(self.ids)

    def __bytes__(self):
        """The bytes in use, as the host keeps them."""
        return bytes(memoryview(self._buffer)[: self._used])

    def load(self, image_id, manifest):
        """Loads an image, and tells its place."""
        name, manifest = _bytes(image_id), _bytes(manifest)
        self._used = _ask("acon_load", name, len(name), manifest, len(manifest), self._buffer, self._size, self._used)
        self.ids.append(image_id)
        return len(self.ids) - 1

    def judge(self):
        """The pairs of a guard and an image that it shuts out, as places. With none the store is admitted."""
        report = _buffer(limits().report)
        pairs = _ask("acon_judge", self._buffer, self._size, self._used, report, len(report))
        return [(report[2 * k], report[2 * k + 1]) for k in range(pairs)]

    def resolve(self, place, layers):
        """The digests of an image's layers, each as HASH/DIGEST. `layers` are those that the host has: texts of that form, or the
        bytes of a layer list as the C call takes it."""
        held = layer_list(layers)
        out = _buffer(limits().output)
        # a place that no size_t holds would come out as another one
        place = place if 0 <= place < 1 << 64 else (1 << 64) - 1
        length = _ask("acon_resolve", self._buffer, self._size, self._used, held, len(held), place, out, len(out))
        return list(_references(bytes(memoryview(out)[:length])))


def layer_list(layers):
    """The bytes of a layer list: for each layer the byte of its algorithm and its digest."""
    if isinstance(layers, str):
        raise TypeError("a list of layers is wanted, not one text")
    if isinstance(layers, (bytes, bytearray, memoryview)):
        return bytes(layers)
    return b"".join(map(_entry, layers))


def _entry(reference):
    algorithm, _, digits = reference.partition("/")
    if not re.fullmatch("[0-9a-f]{%d}" % (2 * ALGORITHMS.get(algorithm, 0)), digits) or not digits:
        raise ValueError("not of the form HASH/DIGEST: %r" % reference)
    return bytes([list(ALGORITHMS).index(algorithm) + 1]) + bytes.fromhex(digits)


def _references(output):
    while output:
        algorithm, size = list(ALGORITHMS.items())[output[0] - 1]
        yield "%s/%s" % (algorithm, output[1 : 1 + size].hex())
        output = output[1 + size :]


# ---- The command line

USAGE = "usage: acon.py check FILE... | acon.py canonical FILE"


def _read(name):
    with open(name, "rb") as file:
        return file.read(limits().text + 1)  # a byte more than the library takes, so that a longer file is seen as too long


def _check_files(names):
    """0 if all are good, 1 if one is refused, 2 if one cannot be read."""
    status = 0
    for name in names:
        try:
            check(_read(name))
            print("%s: good" % name)
        except Refused as refusal:
            print("%s: %s" % (name, refusal))
            status = max(status, 1)
        except OSError as fault:
            print("%s: %s" % (name, fault.strerror or fault), file=sys.stderr)
            status = 2
    return status


def main(arguments):
    if not (len(arguments) >= 2 and arguments[0] == "check" or len(arguments) == 2 and arguments[0] == "canonical"):
        print(USAGE, file=sys.stderr)
        return 2
    try:
        limits()
        if arguments[0] == "check":
            return _check_files(arguments[1:])
        sys.stdout.buffer.write(canonical(_read(arguments[1])))
        return 0
    except Refused as refusal:
        print("%s: %s" % (arguments[1], refusal), file=sys.stderr)
        return 1
    except OSError as fault:
        print("acon.py: %s" % fault, file=sys.stderr)
        return 2


if __name__ == "__main__":
    sys.stdout.reconfigure(errors="backslashreplace")  # a file may have any name
    sys.exit(main(sys.argv[1:]))
