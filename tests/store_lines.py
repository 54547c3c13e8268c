"""The lines that the program `test_store` reads, case by case, and what it has to print by the implementation in reference/.

    store_lines.py           compares crates/test_store/stdin and stdout with these
    store_lines.py --write   writes both files

The number that each load gets, and the number and the pairs of each judge, are written out here beside it, from document 01's words. The lines
that resolve are those of lookup_lines.py."""

import lines
import lookup_lines
from lines import DIGITS, KA, KHA, REPORT, V, layer, made, name, text
from store import number_bytes

ROOMY = 2 * 64 * 63  # long enough for any report


class Lines(lines.Lines):
    def judge(self, *pairs, size=None):
        """With a report buffer that fits, or of that size."""
        self.line(b"judge %d" % (2 * len(pairs) if size is None else size))
        self.calls.append((0, b"".join(map(bytes, pairs))))

    def unjudged(self, number, size):
        self.line(b"judge %d" % size)
        self.calls.append((number, b""))


def lengths(b):
    """Records, exact fits, and the bytes after a record."""
    b.show()  # before any buffer
    b.judge()
    b.load(14, name("a", "b"))
    assert len(made(name("a", "b"), V)) == 83 and made(name("a", "b"), V)[0] == 0x52
    b.new(166)  # two images with V
    b.load(0, name("a", "b"))
    b.show()
    b.load(0, name("a", "c"))
    b.load(14, name("a", "d"))
    b.show()
    b.new(165)
    b.load(0, name("a", "b"))
    b.load(14, name("a", "c"))
    b.show()
    for size, number in ((83, 0), (82, 14), (0, 14)):
        b.new(size)
        b.load(number, name("a", "b"))
        b.show()
    b.new(400)  # sha256: 91 bytes; sha384: 123
    b.load(0, name("a", "b", "sha256"))
    b.load(0, name("a", "b", "sha384"))
    b.load(0, name("a", "b"))
    b.put(300, b"after")
    b.show()
    b.load(0, name("a", "c"))
    b.show()
    for size, letters, number in ((128, 28, 0), (127, 28, 14), (130, 29, 0), (129, 29, 14)):  # the length takes two bytes from 128 on
        b.new(size)
        b.load(number, name("a", "b"), b'{"aconSpecVersion":[1,0],"workingDir":"/' + b"x" * letters + b'"}')
        b.show()
    b.new(100)  # what the buffer holds does not matter while the used count is 0
    b.put(0, bytes(90))
    b.load(0, name("a", "b"))
    b.show()


def numbers(b):
    """Questions 1 to 10, each in a store that would take the image; the lowest number is given."""
    b.new(17000)
    b.load(1, name("a", "b"), V + b" " * 16360)
    # a stored manifest of 16,385 bytes; the bytes of a new buffer serve
    b.put(0, number_bytes(57 + 16385) + b"\x01")
    b.used(3 + 57 + 16385)
    b.load(11, name("a", "b"))
    b.used(0)
    b.load(0, name("a", "b"))
    b.new(300)
    b.load(2, name("a", "b"), b'{"aconSpecVersion":[1,0],"workingDir":"/\xff"}')
    b.load(3, name("a", "b"), b"")
    b.load(3, name("a", "b"), b'{"aconSpecVersion":[1,0]')
    b.load(3, name("a", "b"), b"[" * 9 + b"]" * 9)
    b.load(4, name("a", "b"), b'{"aconSpecVersion":[1,0],"workingDir":"/\\ud800"}')
    b.load(5, name("a", "b"), b'{"aconSpecVersion":[1,-0]}')
    b.load(6, name("a", "b"), b'{"aconSpecVersion":[1,0],"env":[],"\\u0065nv":[]}')
    b.load(7, name("a", "b"), b"[]")
    b.load(7, name("a", "b"), b'{"aconSpecVersion":[1,1]}')
    b.load(8, name("a", "b"), text(own=["."]))
    b.load(9, name("a", "b"), text(own=["x", "x"]))
    bad_ids = [b"", b"x", name("a", "b")[:-1], name("a", "b") + b"b", name("a", "b") + b"/", name("A", "b"), name("a", "g"),
               name("a", "b").replace(b"224", b"256"), name("a", "b").replace(b"224", b"512"), b"signer/" + name("a", "b"),
               b"sha224/*/" + b"b" * 56, b"sha224/" + b"a" * 56 + b"/*", b"\xff" + name("a", "b")]
    for bad in bad_ids:
        b.load(10, bad)
    b.load(9, b"x", text(own=["x", "x"]))  # the lowest number, whatever else applies
    b.load(0, name("a", "b"))
    b.load(12, name("a", "b"))
    b.load(0, name("a", "b")[:-1] + b"c")  # the last digit of the manifest's digest
    b.load(0, name("a", "b")[:62] + b"b" + name("a", "b")[63:])  # the last digit of the signer's
    b.put(0, b"\0")
    b.load(10, b"x")
    b.load(7, name("a", "b"), b"[]")
    b.load(11, name("a", "b"))
    b.show()


def canonical(b):
    """What is stored is the canonical form; equal text under another ID is another image."""
    b.new(400)
    b.load(0, name("a", "b"), b' { "workingDir" : "\\/\\u0041" ,\t"aconSpecVersion":[ 1,0 ] } ')
    b.load(0, name("a", "c"), b'{"workingDir":"/A","aconSpecVersion":[1,0]}')
    b.show()
    b.load(12, name("a", "c"), V)
    b.new(83)  # the length of the form counts, and not that of the text
    b.load(0, name("a", "b"), b" " * 60 + V)
    b.show()


def clashes(b):
    """Keys: names with all their bytes, the two groups apart, one signer under one algorithm."""
    first, second = KA * 22, KA * 21 + KHA  # they differ in byte 66 only
    b.new(2000)
    b.load(0, name("a", "b"), text(own=[first]))
    b.load(0, name("a", "c"), text(own=[second]))
    b.load(13, name("a", "d"), text(own=["x", second]))
    b.load(0, name("c", "d"), text(own=[first]))  # another signer
    b.load(0, name("a", "d")[:62] + b"b" + name("a", "d")[63:], text(own=[first]))  # and one that differs in the last digit
    b.load(0, name("a", "d", "sha256"), text(own=[first]))  # another algorithm
    b.load(0, name("a", "d"), text(contents={layer("1"): [first, second]}))  # the other group
    b.load(13, name("a", "e"), text(contents={layer("2"): [first]}))  # another object
    b.load(0, name("a", "e"), text(contents={layer("1"): [second, first]}))  # the same object
    b.load(0, name("a", "f"), text(contents={layer("2"): ["z"], layer("1"): [first]}, own=["z"]))
    b.load(13, name("a", "0"), b'{"aliases":{"self":{".":["\\u007a"]}},"aconSpecVersion":[1,0]}')
    b.show()
    b.new(2000)  # what an alias leads to is not asked: an object is its reference
    b.load(0, name("a", "b"), text(contents={layer("1"): ["ink"]}))
    b.load(0, name("a", "c"), text(contents={"signer/sha224/" + "a" * 56 + "/ink": ["well"]}))
    b.load(13, name("a", "d"), text(contents={layer("1"): ["well"]}))
    b.load(13, name("a", "d"), text(contents={layer("1", "sha256"): ["ink"]}))
    b.load(0, name("ab", "d"), text(contents={layer("1", "sha256"): ["ink"]}))
    b.load(0, name("a", "d"), text(contents={layer("2"): ["In", "ink ", "inks", "in"]}))
    names = ["anvil", "brush", "cyan", "duct", "ex", "flap", "gripper"]  # looked up among others, of one image and of the other
    for mine, theirs in ((names, [one]) for one in names):
        for first, second in ((mine, theirs), (theirs, mine)):
            for group in ("own", "contents"):
                b.new(2000)
                b.load(0, name("a", "b"), text(**{group: first if group == "own" else {layer("1"): first}}))
                b.load(13, name("a", "c"), text(**{group: second if group == "own" else {layer("2"): second}}))
    b.new(2000)
    b.load(0, name("a", "b"), text(own=names, contents={layer("1"): names}))
    b.load(0, name("a", "c"), text(own=["anvi", "bruss", "cyam", "duct ", "e", "zinc"], contents={layer("2"): ["anvi", "bruss", "cyam", "duct ", "e", "zinc"]}))


def order(b):
    """12 before 13 before 14."""
    own = text(own=["x"])
    b.new(len(made(name("a", "b"), own)))
    b.load(0, name("a", "b"), own)
    b.load(12, name("a", "b"), own)
    b.load(13, name("a", "c"), own)
    b.load(14, name("a", "c"), text(own=["y"]))
    b.load(14, name("a", "c"))
    b.show()


def damaged(b):
    """Stores that are not well-formed, each but one step away from a good one."""
    one, next_id = made(name("a", "b"), V), name("a", "c")
    b.new(32768)
    b.store(one)
    b.load(0, next_id)
    for used, number in ((82, 11), (84, 11), (1, 11), (165, 11), (83, 12), (166, 12), (32769, 11), (2**32 + 83, 11), (2**64 - 7, 11)):
        b.used(used)  # cut records, a byte too many, more than the buffer has
        b.load(number, name("a", "b"))
    b.load(10, b"x")
    b.load(7, b"x", b"{}")
    b.show()
    b.used(83)
    for at, old, new in ((0, b"\x52", b"\x51"), (0, b"\x52", b"\x53"), (0, b"\x52", b"\0"), (1, b"\x01", b"\0"), (1, b"\x01", b"\x04"),
                         (1, b"\x01", b"\x02"), (58, b"{", b"["), (78, b"1", b"2")):
        b.put(at, new)  # the length, the algorithm, the manifest
        b.load(11, next_id)
        b.put(at, old)
    b.put(2, b"\xff")  # another signer: still a good store
    b.load(12, b"sha224/ff" + name("a", "b")[9:])
    for length in (b"\xd2\x00", b"\xd2\x80\x00",  # not the shortest form
                   b"\xd2\x80\x80\x80\x10", b"\xd2" + b"\x80" * 8 + b"\x02", b"\xd2" + b"\x80" * 10 + b"\x01",  # wraps at 32, 64, 77 bits
                   b"\xff" * 12 + b"\x7f", b"\xd2" + b"\x80" * 11):
        b.store(made(name("a", "d"), V), length + one[1:])  # after a good record, as a number too long for the store is none anyway
        b.load(11, next_id)
    for length in range(3):  # no room for an algorithm or for digests
        b.store(number_bytes(length) + one[1 : 1 + length])
        b.load(11, next_id)
    b.store(made(name("a", "b"), b""))
    b.load(11, next_id)
    b.store(number_bytes(56) + one[1:57])  # a digest that is cut
    b.load(11, next_id)


def unfit(b):
    """Stored manifests that are not canonical or get one of 2 to 9; 1 stands above."""
    b.new(32768)
    for manifest in (b'{"aconSpecVersion":[1, 0]}', b'{"env":[],"aconSpecVersion":[1,0]}', b'{"aconSpecVersion":[1,0],"workingDir":"\\/"}',
                     b'{"aconSpecVersion":[1,0],"workingDir":"/\xc0\x80"}', b'{"aconSpecVersion":[1,0],}',
                     b'{"aconSpecVersion":[1,0],"workingDir":"/\x7f"}', b'{"aconSpecVersion":[1,0],"maxInstances":2147483648}',
                     b'{"aconSpecVersion":[1,0],"env":[],"env":[]}', b'{"aconSpecVersion":[1,1]}', b"{}", text(own=["*"]), text(own=["x", "x"])):
        b.store(made(name("a", "b"), manifest))
        b.load(11, name("a", "c"))
    b.store(made(name("a", "b"), text(own=["x"])))
    b.load(0, name("a", "c"))


def together(b):
    """Stored images that may not stand together."""
    one, two = made(name("a", "b"), V), made(name("a", "c"), V)
    b.new(32768)
    b.store(one, two)
    b.load(0, name("a", "d"))
    b.store(one, one)
    b.load(11, name("a", "d"))
    b.store(one, two, made(name("a", "b"), text(own=["x"])))
    b.load(11, name("a", "d"))
    mine, theirs = text(own=["x"]), text(own=["y", "x"])
    b.store(made(name("a", "b"), mine), two, made(name("a", "d"), theirs))
    b.load(11, name("a", "e"))
    b.store(made(name("a", "b"), mine), two, made(name("d", "d"), theirs))
    b.load(0, name("a", "e"))
    mine, theirs = text(contents={layer("1"): ["x"]}), text(contents={layer("1"): ["y"], layer("2"): ["x"]})
    b.store(made(name("a", "b"), mine), made(name("a", "d"), theirs))
    b.load(11, name("a", "e"))
    b.store(made(name("a", "b"), mine), made(name("a", "b", "sha256"), theirs))
    b.load(0, name("a", "e"))


def full(b):
    """64 images, one more load, and a 65th record put in by hand. All but the first are guards that accept nobody."""
    guard = text(guard=True)
    first, each = len(made(name("a", "00"), text(own=["x"]))), len(made(name("a", "01"), guard))
    b.new(9000)
    b.load(0, name("a", "00"), text(own=["x"]))
    for k in range(1, 64):
        b.load(0, name("a", "%02x" % k), guard)
    b.load(14, name("a", "ff"))
    b.load(13, name("a", "ff"), text(own=["x"]))
    b.load(12, name("a", "3f"), text(own=["x"]))
    b.judge(*((k, other) for k in range(1, 64) for other in range(64) if other != k))
    b.unjudged(20, 2 * 63 * 63 - 1)
    b.put(first + 63 * each, made(name("a", "40"), V))
    b.used(first + 63 * each + 83)
    b.load(11, name("a", "ff"))
    b.unjudged(11, ROOMY)
    b.used(first + 63 * each)
    b.load(14, name("a", "ff"))
    b.used(first + 62 * each)
    b.load(0, name("a", "ff"))
    b.show()


def chains(b):
    """P10 and P11, both ways, and other chains."""
    one, two, three = name("a", "1"), name("a", "2"), name("a", "3")
    to = lambda given_id: [given_id.decode()]  # a rule for just that image
    b.new(2000)
    b.judge()  # the empty store
    b.judge(size=1)
    b.load(0, one, text(accepts=to(two), guard=True))  # P10: the only guard accepts the second, and that the third
    b.judge()
    b.load(0, three)
    for size in (2, 3, 4, ROOMY, REPORT):  # the second is not loaded, so no chain runs through it
        b.judge((0, 1), size=size)
    b.unjudged(20, 1)
    b.unjudged(20, 0)
    b.load(0, two, text(accepts=to(three)))
    b.judge()
    b.judge(size=ROOMY)
    b.new(2000)  # the same in another order
    b.load(0, three)
    b.judge()
    b.load(0, two, text(accepts=to(three)))
    b.judge()
    b.load(0, one, text(accepts=to(two), guard=True))
    b.judge()
    b.new(2000)  # P11: three guards in a ring
    b.load(0, one, text(accepts=to(two), guard=True))
    b.load(0, two, text(accepts=to(three), guard=True))
    b.judge((1, 0))
    b.load(0, three, text(accepts=to(one), guard=True))
    b.judge()
    b.new(2000)  # the chain goes from the guard outward
    b.load(0, one, text(guard=True))
    b.load(0, two, text(accepts=to(one)))
    b.judge((0, 1))
    b.new(2000)  # it may run through another guard, which may have pairs of its own
    b.load(0, one, text(accepts=to(two), guard=True))
    b.load(0, two, text(accepts=to(three), guard=True))
    b.load(0, three)
    b.judge((1, 0))
    b.new(2000)  # who accepts only itself, and who is no guard
    b.load(0, one, text(accepts=to(one), guard=True))
    b.judge()
    b.load(0, two, text(accepts=[], guard=False))
    b.load(0, three)
    b.judge((0, 1), (0, 2))
    b.new(2000)  # by guard and then by other
    for k in "321":
        b.load(0, name("a", k), text(guard=True))
    b.judge((0, 1), (0, 2), (1, 0), (1, 2), (2, 0), (2, 1))
    b.unjudged(20, 11)
    b.judge((0, 1), (0, 2), (1, 0), (1, 2), (2, 0), (2, 1), size=13)


def rules(b):
    """A guard with one rule and an image: whether the rule matches."""
    other, signer, digest = name("c", "d"), "c" * 56, "d" * 56
    manifest = text(contents={layer("1"): ["ink", "well"]}, own=["Job:10", KA * 22, "well"])
    matching = ["sha224/*/*", "sha224/%s/*" % signer, "sha224/*/" + digest, other.decode(), "sha224/*/Job:10", "sha224/%s/Job:10" % signer,
                "sha224/*/" + KA * 22, "sha224/*/well"]
    others = ["sha256/*/*", "sha384/*/Job:10",  # another algorithm
              "sha224/%sd/*" % signer[1:], "sha224/%sd/Job:10" % signer[1:], "sha224/*/%sc" % digest[1:], "sha224/%s/%s" % (signer, signer),
              "sha224/*/Job:1", "sha224/*/Job:100", "sha224/*/job:10",  # P12 and other names
              "sha224/*/" + KA * 21, "sha224/*/" + KA * 21 + KHA,
              "sha224/*/ink"]  # a name for a layer
    for rule in matching + others:
        b.new(2000)
        b.load(0, name("a", "b"), text(accepts=[rule], guard=True))
        b.load(0, other, manifest)
        b.judge(*([(0, 1)] if rule in others else []))
    for algorithm in ("sha256", "sha384"):  # longer digests: the first that differs in its last digit is another
        longer = name("c", "d", algorithm)
        signer, digest = ("%s" % k * DIGITS[algorithm] for k in "cd")
        for rule, pairs in (("/*/*", []), ("/%s/*" % signer, []), ("/*/" + digest, []), ("/%s/Job:10" % signer, []), ("/%sd/*" % signer[1:], [(0, 1)]),
                            ("/%sd/*" % signer[:-1], [(0, 1)]), ("/*/%sc" % digest[:-1], [(0, 1)]), ("/*/Job:1", [(0, 1)])):
            b.new(2000)
            b.load(0, name("a", "b"), text(accepts=[algorithm + rule], guard=True))
            b.load(0, longer, manifest)
            b.judge(*pairs)
    b.new(2000)  # any one of the rules, and as they stand in a text that is not canonical
    b.load(0, name("a", "b"), text(accepts=others[:4] + matching[:1] + others[4:6], guard=True))
    b.load(0, other, manifest)
    b.judge()
    b.new(2000)
    b.load(0, name("a", "b"), b' {"policy": {"rejectUnaccepted": true, "accepts": ["sha224\\/*\\/\\u004aob:\\"1"]}, "aconSpecVersion": [1, 0]}')
    b.load(0, other, text(own=['Job:"1']))
    b.judge()


def spoiled(b):
    """Judges of stores that are not well-formed: 11, whatever the report buffer."""
    one = made(name("a", "b"), text(guard=True))
    b.new(1000)
    b.store(one, made(name("a", "c"), V))
    b.judge((0, 1))
    for used in (1, len(one) - 1, len(one) + 1, len(one) + 82, len(one) + 84, 1001, 2**32 + len(one), 2**64 - 7):
        b.used(used)
        b.unjudged(11, 2)
    b.unjudged(11, 0)
    b.used(len(one))
    b.judge()
    for at, old, new in ((0, one[:1], b"\0"), (1, b"\x01", b"\x04"), (len(one) - 1, b"}", b" ")):
        b.put(at, new)
        b.unjudged(11, 100)
        b.put(at, old)
    b.judge(size=100)
    for records in ((one, one), (made(name("a", "b"), b'{"aconSpecVersion":[1, 0]}'),), (made(name("a", "b"), b"{}"),),
                    (made(name("a", "b"), text(own=["x"])), made(name("a", "c"), text(own=["x"])))):
        b.store(*records)
        b.unjudged(11, 100)


def long_ring(b):
    """64 guards in a ring, by their names: before the last one each leads to those after it only."""
    b.new(20000)
    for k in range(64):
        if k == 63:
            b.judge(*((guard, other) for guard in range(63) for other in range(guard)))
            b.unjudged(20, 63 * 62 - 1)
        b.load(0, name("a", "%02x" % k), text(own=["n%d" % k], accepts=["sha224/*/n%d" % ((k + 1) % 64)], guard=True))
    b.judge()


def bad_lines(b):
    """Lines that are no command, or ask for bytes that are not there."""
    b.new(10)
    for line in (b"", b" ", b"new", b"new ", b"new x", b"new 32769", b"new -1", b"new 1 ", b"load", b"load x", b"put", b"put 0", b"put 0 0",
                 b"put 0 0g", b"put 0 AA", b"put 9 aabb", b"put 11 ", b"put 18446744073709551609 aa", b"put 99999999999999999999 aa",
                 b"put 0 " + b"00" * 11, b"put  00", b"used", b"used ", b"used 1x", b"used 18446744073709551610",
                 b"used 18446744073709551615", b"used 18446744073709551616", b"show ", b"sho", b"shown", b"judge", b"judge ", b"judge x",
                 b"judge 1 ", b"judge 8193", b"judge 18446744073709551616", b"\xff"):
        b.line(line)
    b.put(9, b"\xaa")
    b.put(10, b"")
    b.show()
    b.used(11)
    b.show()


def all_lines():
    b = Lines()
    for part in (lengths, numbers, canonical, clashes, order, damaged, unfit, together, full, chains, rules, spoiled, long_ring, bad_lines):
        part(b)
    return b


lines.main("store_lines", "test_store", lookup_lines.first_lines(), all_lines(), lookup_lines.all_lines())
