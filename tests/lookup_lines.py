"""The lines of the program `test_store` that resolve, case by case, which store_lines.py has before its own, where there is no buffer yet, and after them.

The number that each load gets, and the number, the value and the output of each resolve, are written out here beside it, from document 01's
words."""

import lines
from lines import DIGITS, KA, KHA, OUTPUT, V, layer, made, name, text

ROOMY = 64 * 49  # long enough for any output
A, B = "a" * 56, "b" * 56
FIRST, SECOND = KA * 22, KA * 21 + KHA  # they differ in byte 66 only
LONG = "p" * 64


def entries(layers):
    """The entries of these layers, one after the other."""
    parts = [layer.split("/") for layer in layers]
    return b"".join(bytes([{"sha224": 1, "sha256": 2, "sha384": 3}[algorithm]]) + bytes.fromhex(digits) for algorithm, digits in parts)


def alias(signer, name, algorithm="sha224"):
    """A layer by an alias, the signer from one digit or from two in turn."""
    return "signer/%s/%s/%s" % (algorithm, (signer * DIGITS[algorithm])[: DIGITS[algorithm]], name)


class Lines(lines.Lines):
    def resolve(self, number, value, place, layer_list, output=(), size=None):
        """With a layer list of these layers or bytes, and an output buffer that fits or of that size; the output has these layers."""
        size = (value if number == 0 else ROOMY) if size is None else size
        data = layer_list if isinstance(layer_list, bytes) else entries(layer_list)
        self.line(b"resolve %d %d %s" % (place, size, data.hex().encode()))
        self.calls.append((number, value, entries(output)))

    def image(self, given_id, **parts):
        self.load(0, given_id, text(**parts))


def digests(b):
    """Layers by their digests: the entries of the output, their order and repeats; exact fits."""
    one, two, three = layer("1"), layer("2", "sha256"), layer("3", "sha384")
    b.new(2000)
    b.resolve(16, 0, 0, [])
    b.load(0, name("a", "0"))  # no layers, and an empty list of them
    b.resolve(0, 0, 0, [])
    b.resolve(0, 0, 0, [one], size=ROOMY)
    b.image(name("a", "1"), layers=[])
    b.resolve(0, 0, 1, [])
    b.image(name("a", "2"), layers=[one])
    b.resolve(0, 29, 2, [one], [one])
    b.resolve(0, 29, 2, [one], [one], size=OUTPUT)
    b.resolve(19, 0, 2, [])
    b.image(name("a", "3"), layers=[two])
    b.resolve(0, 33, 3, [one, two], [two])
    b.image(name("a", "4"), layers=[three])
    b.resolve(0, 49, 4, [three, one, two], [three])
    b.image(name("a", "5"), layers=[three, one, two, one])  # the order is that of the manifest, and a layer that stands twice is given twice
    b.resolve(0, 140, 5, [one, two, three], [three, one, two, one])
    b.resolve(0, 140, 5, [two, one, two, three, three], [three, one, two, one], size=141)
    b.resolve(20, 0, 5, [one, two, three], size=139)
    b.resolve(20, 0, 5, [one, two, three], size=111)
    b.resolve(20, 0, 5, [one, two, three], size=1)
    b.resolve(20, 0, 5, [one, two, three], size=0)
    b.resolve(20, 0, 2, [one], size=28)
    b.show()


def aliases(b):
    """Aliases of the image itself and of others, before and after it in the store, of other signers and algorithms."""
    one, two, three = layer("1"), layer("2", "sha256"), layer("3", "sha384")
    b.new(4000)
    b.image(name("a", "0"), contents={one: ["ink", "well"]}, layers=[alias("a", "ink")])
    b.resolve(0, 29, 0, [one], [one])
    b.image(name("a", "1"), layers=[alias("a", "well"), alias("b", "ink", "sha256"), alias("a", "ink")])
    b.resolve(17, 1, 1, [one, two])  # not loaded yet
    b.image(name("b", "0", "sha256"), contents={two: ["ink"]}, layers=[alias("a", "ink")])
    b.resolve(0, 91, 1, [one, two], [one, two, one])
    b.resolve(0, 29, 2, [one], [one])
    b.image(name("c", "0", "sha384"), contents={alias("b", "ink", "sha256"): ["ink"], three: ["plate"]})
    b.image(name("d", "0"), layers=[alias("c", "ink", "sha384"), alias("c", "plate", "sha384")])  # on by way of another signer's alias
    b.resolve(0, 82, 4, [two, three], [two, three])
    b.resolve(19, 0, 4, [one, three])
    b.image(name("a", "2"), contents={one: ["ink"]})  # the same alias for the same object, once more
    b.resolve(0, 29, 0, [one], [one])
    b.image(name("e", "0"), contents={alias("e", "y"): ["x"], alias("e", "z"): ["y"], one: ["z"]},
            layers=[alias("e", "x"), alias("e", "z"), alias("e", "y")])
    b.resolve(0, 87, 6, [one], [one, one, one])
    b.new(4000)  # an alias that is in the other group as well
    b.image(name("a", "0"), contents={one: ["ink"]}, own=["ink"], layers=[alias("a", "ink")])
    b.resolve(0, 29, 0, [one], [one])
    b.new(4000)  # spelled in another way when it is loaded, and with escapes in the canonical form
    b.load(0, name("a", "0"), b'{"layers":["signer\\/sha224/%s/q\\u0022\\\\"],"aconSpecVersion":[1,0],"aliases":{"contents":{"%s":["q\\"\\u005c"]}}}'
           % (A.encode(), one.encode()))
    b.resolve(0, 29, 0, [one], [one])
    b.image(name("a", "1"), layers=[alias("a", 'q"\\'), alias("a", 'q"')])
    b.resolve(17, 1, 1, [one])


def names(b):
    """A name counts with all its bytes, and with its signer and algorithm."""
    one, two = layer("1"), layer("2")
    several = ["anvil", "brush", "cyan", "duct", "ex", "flap", "gripper"]
    b.new(12000)
    b.image(name("a", "0"), contents={one: [FIRST, LONG + "1", "ink"], two: [SECOND, LONG + "2", LONG]})
    b.image(name("a", "1"), layers=[alias("a", FIRST), alias("a", SECOND)])
    b.resolve(0, 58, 1, [one, two], [one, two])
    b.resolve(19, 1, 1, [one])
    b.image(name("a", "2"), layers=[alias("a", LONG + "1"), alias("a", LONG + "2"), alias("a", LONG)])
    b.resolve(0, 87, 2, [one, two], [one, two, two])
    for k, missed in enumerate((KA * 21, KA * 21 + "\u0917", KA * 22 + KA, LONG + "3", LONG + "11", "p" * 63, "in", "ink ", "Ink", "inks")):
        b.image(name("c", "%02x" % k), layers=[alias("a", missed)])
        b.resolve(17, 0, 3 + k, [one, two])
    for signer, algorithm in (("b", "sha224"), ("a", "sha256"), ("a", "sha384")):
        b.new(4000)
        b.image(name("a", "0"), contents={one: ["ink"]})
        b.image(name("a", "1"), layers=[alias(signer, "ink", algorithm)])
        b.resolve(17, 0, 1, [one])
        b.image(name(signer, "2", algorithm), contents={two: ["ink"]})
        b.resolve(0, 29, 1, [one, two], [two])
    for digits in (A[:-1] + "b", "b" + A[1:]):  # signers that differ in one digit
        b.new(4000)
        b.image(name("a", "0"), contents={one: ["ink"]})
        b.image(b"sha224/%s/%s" % (digits.encode(), B.encode()), contents={two: ["ink"]}, layers=[alias("a", "ink"), "signer/sha224/%s/ink" % digits])
        b.resolve(0, 58, 1, [one, two], [one, two])
    b.new(8000)  # looked up among others, of one image and of several
    b.image(name("a", "0"), contents={layer("%x" % k): [n] for k, n in enumerate(several)})
    b.image(name("a", "1"), layers=[alias("a", n) for n in several])
    b.resolve(0, 203, 1, [layer("%x" % k) for k in range(7)], [layer("%x" % k) for k in range(7)])
    b.image(name("a", "2"), layers=[alias("a", n) for n in reversed(several)])
    b.resolve(0, 203, 2, [layer("%x" % k) for k in range(7)], [layer("%x" % k) for k in (6, 5, 4, 3, 2, 1, 0)])
    for k, missed in enumerate(("anvi", "bruss", "cyam", "duct ", "e", "zinc", "a")):
        b.image(name("b", "%02x" % k), layers=[alias("a", "ex"), alias("a", missed)])
        b.resolve(17, 1, 3 + k, [layer("4")])


def own_names(b):
    """Names that images have for themselves are none of layers."""
    one = layer("1")
    b.new(4000)
    b.image(name("a", "0"), own=["ink"], layers=[alias("a", "ink")])
    b.resolve(17, 0, 0, [one])
    b.image(name("a", "1"), own=["well"], contents={one: ["press"], alias("a", "well"): ["on"]}, layers=[alias("a", "press"), alias("a", "well")])
    b.resolve(17, 1, 1, [one])
    b.image(name("a", "2"), layers=[alias("a", "on")])
    b.resolve(17, 0, 2, [one])
    b.image(name("a", "3"), contents={one: ["ink"]})  # now the name is a layer's too
    b.resolve(0, 29, 0, [one], [one])


def undefined(b):
    """17: an alias on the way is defined by no image."""
    one = layer("1")
    b.new(4000)
    b.image(name("a", "0"), layers=[alias("a", "x")])
    b.resolve(17, 0, 0, [one])
    b.resolve(17, 0, 0, [])
    b.resolve(17, 0, 0, [one], size=0)
    b.image(name("a", "1"), contents={alias("a", "y"): ["x"]})
    b.resolve(17, 0, 0, [one])
    b.image(name("a", "2"), contents={alias("b", "z"): ["y"]})
    b.resolve(17, 0, 0, [one])
    b.image(name("b", "3"), contents={one: ["z"]})
    b.resolve(0, 29, 0, [one], [one])
    b.image(name("c", "0"), contents={one: []}, layers=[alias("c", "x")])  # an object without a name
    b.resolve(17, 0, 4, [one])


def endless(b):
    """18: a loop, of every length up to that of 60, and what leads into it."""
    one = layer("1")
    b.new(4000)  # an alias whose object is its own key
    b.image(name("a", "0"), contents={alias("a", "x"): ["x"]}, layers=[alias("a", "x")])
    b.resolve(18, 0, 0, [one])
    b.resolve(18, 0, 0, [])
    b.resolve(18, 0, 0, [one], size=0)
    b.image(name("a", "1"), contents={alias("a", "y"): ["z"], alias("b", "z", "sha256"): ["y"], one: ["w"]},
            layers=[alias("a", "w"), alias("a", "y"), alias("a", "z")])
    b.resolve(17, 1, 1, [one])
    b.image(name("b", "2", "sha256"), contents={alias("a", "z"): ["z"]})  # now it is closed
    b.resolve(18, 1, 1, [one])
    b.image(name("c", "3"), contents={alias("a", "z"): ["v"], alias("c", "v"): ["u"]}, layers=[alias("c", "u")])
    b.resolve(18, 0, 3, [one])
    for length in (1, 2, 3, 7, 60):
        b.new(20000)
        b.image(name("a", "0"), contents={alias("a", "n%d" % ((k + 1) % length)): ["n%d" % k] for k in range(length)},
                layers=[one, alias("a", "n0"), alias("a", "n%d" % (length - 1))])
        b.resolve(18, 1, 0, [one])
        b.resolve(19, 0, 0, [])
        b.image(name("b", "0"), layers=[alias("a", "n%d" % (length // 2))])
        b.resolve(18, 0, 1, [one])
        b.resolve(16, 0, 2, [one])
    b.new(20000)  # as long, and with an end
    b.image(name("a", "0"), contents={**{alias("a", "n%d" % (k + 1)): ["n%d" % k] for k in range(60)}, one: ["n60"]}, layers=[alias("a", "n0")])
    b.resolve(0, 29, 0, [one], [one])
    b.resolve(19, 0, 0, [])


def absent(b):
    """19: the digest is not in the layer list. The list is asked for the algorithm and for all of the digest."""
    one, two, three = layer("1"), layer("2"), layer("3")
    b.new(4000)
    b.image(name("a", "0"), contents={one: ["x"]}, layers=[alias("a", "x"), two, three])
    b.resolve(0, 87, 0, [three, two, one], [one, two, three])
    b.resolve(19, 0, 0, [two, three])
    b.resolve(19, 1, 0, [one, three])
    b.resolve(19, 2, 0, [one, two])
    b.resolve(19, 0, 0, [])
    b.resolve(19, 0, 0, [], size=0)
    b.resolve(19, 2, 0, [one, two, layer("3", "sha256"), layer("3", "sha384")])  # under another algorithm
    b.resolve(19, 1, 0, [one, "sha224/" + "2" * 55 + "3", three])
    b.resolve(19, 1, 0, [one, "sha224/3" + "2" * 55, three])
    b.new(4000)
    b.image(name("a", "0"), layers=[layer("1", "sha256")])
    b.resolve(19, 0, 0, [one, layer("1", "sha384")])
    b.image(name("a", "1"), layers=[layer("1", "sha384")])
    b.resolve(19, 0, 1, [one, layer("1", "sha256")])
    b.image(name("a", "2"), layers=["sha256/" + "01" * 32])  # the bytes of an entry stand in the list, and not as one
    b.resolve(19, 0, 2, b"\x03" + b"\x02" + b"\x01" * 47)


def first_failing(b):
    """The first layer that fails decides, also where a later one has a lower number; 20 only if none fails."""
    one, gone = layer("1"), layer("2")
    x, y, z = alias("a", "x"), alias("a", "y"), alias("a", "z")  # defined; by nobody; for itself
    cases = (([gone, y], 19, 0), ([gone, z], 19, 0), ([z, y], 18, 0), ([z, gone], 18, 0), ([y, z], 17, 0), ([y, gone], 17, 0),
             ([one, gone, y], 19, 1), ([x, x, z, y], 18, 2), ([one, x, y, z, gone], 17, 2), ([one, y, one], 17, 1), ([x, one, gone, one], 19, 2),
             ([y, y], 17, 0), ([one] * 63 + [z], 18, 63), ([z] + [one] * 9, 18, 0))
    b.new(32768)
    b.image(name("a", "ff"), contents={one: ["x"], z: ["z"]})
    for k, (layers, number, value) in enumerate(cases):
        b.image(name("a", "%02x" % k), layers=layers)
        b.resolve(number, value, 1 + k, [one])
        b.resolve(number, value, 1 + k, [one], size=0)  # 20 would be asked after it
    b.image(name("a", "fe"), layers=[one, x])
    b.resolve(0, 58, 15, [one], [one, one])
    b.resolve(20, 0, 15, [one], size=57)
    b.resolve(20, 0, 15, [one], size=0)


def bad_lists(b):
    """15: a bad algorithm byte or a cut entry, before any question about the image; and lists that are good."""
    one, two, three = layer("1"), layer("2", "sha256"), layer("3", "sha384")
    good = entries([one, two, three])
    b.new(1000)
    b.image(name("a", "0"), layers=[one])
    b.image(name("a", "1"), layers=[alias("a", "x")])
    for bad in (b"\0", b"\4", b"\xff", b"\1", b"\2", b"\3", good[:28], good[:30], good[:61], good[:63], good[:110], good + b"\0", good + b"\4",
                good + good[:28], b"\2" + good, b"\0" + good, b"1" + good[1:], good[:29] + b"\3" + good[30:]):
        b.resolve(15, 0, 0, bad)
        b.resolve(15, 0, 2, bad, size=0)
    b.resolve(15, 0, 1, b"\0")
    for end in (29, 62, 111):
        b.resolve(0, 29, 0, good[:end], [one])
    b.resolve(0, 29, 0, good + good, [one])
    b.resolve(0, 29, 0, [two, two, one, one, three, one], [one])
    b.resolve(0, 29, 0, b"\1" + b"\1" * 28 + good, [one])  # digests that look like algorithms
    b.resolve(0, 29, 0, [layer("%x" % k) for k in range(16)] * 4, [one])


def places(b):
    """16: no image at that place."""
    one = layer("1")
    b.new(1000)
    b.image(name("a", "0"), layers=[one])
    b.image(name("a", "1"), layers=[alias("a", "x")])
    for place in (2, 3, 64, 255, 256, 65536, 2**32, 2**32 + 1, 2**63, 2**64 - 7):
        b.resolve(16, 0, place, [one])
        b.resolve(16, 0, place, [], size=0)
    b.used(0)
    b.resolve(16, 0, 0, [one])


def damaged(b):
    """11, before every other question: stores that are not well-formed."""
    one = layer("1")
    record = made(name("a", "0"), text(layers=[one]))
    b.new(1000)
    b.store(record, made(name("a", "1"), V))
    b.resolve(0, 29, 0, [one], [one])
    for used in (1, len(record) - 1, len(record) + 1, len(record) + 82, len(record) + 84, 1001, 2**32 + len(record), 2**64 - 7):
        b.used(used)
        b.resolve(11, 0, 0, [one])
    b.resolve(11, 0, 5, b"\0", size=0)
    b.used(len(record))
    b.resolve(0, 29, 0, [one], [one])
    for at, old, new in ((0, record[:1], b"\0"), (1, b"\x01", b"\x04"), (len(record) - 1, b"}", b" ")):
        b.put(at, new)
        b.resolve(11, 0, 0, [one])
        b.put(at, old)
    b.resolve(0, 29, 0, [one], [one])
    for records in ((record, record), (made(name("a", "0"), b'{"aconSpecVersion":[1, 0]}'),), (made(name("a", "0"), b"{}"),),
                    (made(name("a", "0"), text(own=["x"])), made(name("a", "1"), text(own=["x"]))),
                    (made(name("a", "0"), text(contents={one: ["x"]})), made(name("a", "1"), text(contents={layer("2"): ["x"]})))):
        b.store(*records)
        b.resolve(11, 0, 0, [one])


def full(b):
    """64 images: a path through all of them, 64 layers, and the last place."""
    one = layer("1")
    b.new(32768)
    for k in range(64):
        b.image(name("a", "%02x" % k), contents={alias("a", "n%d" % (k + 1)) if k < 63 else layer("1", "sha384"): ["n%d" % k]},
                layers=[alias("a", "n0")] if k == 0 else [alias("a", "n63")] * 64 if k == 63 else None)
    b.resolve(0, 49, 0, [one, layer("1", "sha384")], [layer("1", "sha384")])
    b.resolve(0, 3136, 63, [layer("1", "sha384")], [layer("1", "sha384")] * 64)
    b.resolve(20, 0, 63, [layer("1", "sha384")], size=3135)
    b.resolve(19, 0, 63, [one])
    b.resolve(0, 0, 62, [])
    b.resolve(16, 0, 64, [one])
    b.new(32768)  # 64 objects in one image, in another order than the layers
    several = ["sha224/" + "%02x" % k * 28 for k in range(64)]
    b.image(name("a", "0"), contents={object: ["n%d" % (k * 7 % 64)] for k, object in enumerate(several)}, layers=[alias("a", "n%d" % k) for k in range(64)])
    b.resolve(0, 1856, 0, several, [several[k * 55 % 64] for k in range(64)])
    b.resolve(19, 63, 0, several[:9] + several[10:])
    b.show()


def bad_lines(b):
    """Lines that are no command, or ask for buffers that are too long."""
    b.new(100)
    for line in (b"resolve", b"resolve ", b"resolve 0", b"resolve 0 ", b"resolve 0 1", b"resolve  1 ", b"resolve 0  ", b"resolve x 1 ", b"resolve 0 x ",
                 b"resolve 0 -1 ", b"resolve 0 1 0", b"resolve 0 1 0g", b"resolve 0 1 0A", b"resolve 0 1  ", b"resolve 0 4097 ", b"resolve 0 0 " + b"0" * 4098,
                 b"resolve 18446744073709551616 0 ", b"resolve 0 18446744073709551616 ", b"resolved 0 0 ", b"show ", b""):
        b.line(line)
    b.resolve(16, 0, 0, [])
    b.resolve(15, 0, 0, b"\0" * 2048)
    b.resolve(16, 0, 0, [], size=4096)


def first_lines():
    """Before any buffer."""
    b = Lines()
    b.resolve(16, 0, 0, [])
    return b


def all_lines():
    b = Lines()
    for part in (digests, aliases, names, own_names, undefined, endless, absent, first_failing, bad_lists, places, damaged, full, bad_lines):
        part(b)
    return b
