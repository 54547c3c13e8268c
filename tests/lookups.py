"""Compares acon_resolve with the implementation in reference/ on the layers of images in generated stores: every number, every value and
every byte of the output buffer. The images define a web of aliases: chains, loops, trees, ends that nobody defines. On the way stores are
damaged.

    lookups.py PROGRAM [FIRST COUNT]   through the program that is made of store_driver.c
    lookups.py --count [FIRST COUNT]   only counts the numbers that the reference gives

Without FIRST and COUNT histories are run from 0 on until there are enough resolves. A history depends on its own number only, so
`lookups.py PROGRAM N 1` runs history N alone."""

import histories
from histories import History, damage, fill
from lookup import entry, follow, held, layers
from store import BYTES, Image, record
from store_inputs import ALGORITHMS, KA, LONG, SIGNERS, SIZES, below, canonical, id_text, one_in, one_of, rand, spelled

RESOLVES = 200000
LEAST = 1000  # how often each number has to occur
LONGEST = 60000  # bytes of a buffer
LOOPS = 60  # the longest loop
MOST = 64  # entries of an array, keys of an object, images of a store
OFTEN, SELDOM = 120, 40  # resolves of one store, and of one over
LARGE = 10000  # bytes
ROOMY = MOST * 49  # bytes of an output buffer that is always long enough


# ---- Digests and names

# Digests of different algorithms begin alike, and some differ in the last byte only.
STARTS = [b"\x11" * 48, b"\x11" * 20 + b"\x12" * 28, bytes(range(48)), b"\xee" * 48]


def some_digest():
    """A layer by its digest."""
    algorithm = one_of(ALGORITHMS)
    digest = one_of(STARTS)[: SIZES[algorithm]]
    if one_in(3):
        digest = digest[:-1] + bytes([below(4)])
    return "%s/%s" % (algorithm, digest.hex())


# Names that share 64 bytes or more, end in other letters, or go on.
LEADS = ["n", LONG, LONG + KA, "p" * 62, KA * 21, KA * 21 + "x", 'q"\\', "\u00e9" * 40]


def name(lead, k):
    """One of the names that begin so."""
    return lead + (chr(0x0915 + k) if k < 32 and ord(lead[0]) == 0x0915 else "%x" % k)


def key(node):
    """The alias of a node as a layer reference."""
    algorithm, signer, alias = node
    return "signer/%s/%s/%s" % (algorithm, signer.hex(), alias)


# ---- Webs: who stands for whom. Each shape gives a list: the number of the node that a node stands for, or None for an end


def chain(n):
    return [k + 1 for k in range(n - 1)] + [None]


def tree(n):
    return [None if k == 0 or one_in(4) else below(k) for k in range(n)]


def tangle(n):
    return [None if one_in(5) else below(n) for _ in range(n)]


def two_ways(n):
    """Two chains that end as one."""
    half = n // 2
    return [k + 1 if k != half else n - 1 for k in range(n - 1)] + [None]


def loop(n, size):
    """A loop of that size, and the rest of the nodes before it."""
    return [(k + 1) % size if k < size else below(k) if one_in(3) else k - 1 for k in range(n)]


def two_loops(n):
    half = max(1, n // 2)
    return [(k + 1) % half for k in range(half)] + [half + (k + 1) % (n - half) for k in range(n - half)]


SHAPES = [chain, chain, tree, tree, tree, tangle, two_ways, two_loops]


def some_shape(number):
    """Every eighth a loop, by turns of each length; and else any other shape. With it whether all names are different."""
    if number % 8 == 0:
        size = 1 + number // 8 % LOOPS
        return loop(size + below(4), size), True
    return one_of(SHAPES)(1 + below(MOST + 30 if one_in(12) else 16)), one_in(2)


# ---- Images


class Planned:
    """An image before its aliases are shared out: `contents` has for each object the aliases that stand for it."""

    def __init__(self, k, algorithm, signer):
        self.algorithm, self.signer = algorithm, signer
        self.digest = k.to_bytes(SIZES[algorithm], "big")
        self.contents, self.names, self.layers = {}, [], None

    def define(self, alias, reference):
        """False where the manifest has no place left for it."""
        under = self.contents.get(reference, [])
        if len(under) == MOST or not under and len(self.contents) == MOST:
            return False
        if alias not in under:
            self.contents[reference] = under + [alias]
        return True

    def text(self):
        aliases = {}
        if self.contents or one_in(8):
            aliases["contents"] = self.contents
        if self.names:
            aliases["self"] = {".": self.names}
        value = {"aconSpecVersion": [1, 0]}
        if aliases:
            value["aliases"] = aliases
        if self.layers is not None:
            value["layers"] = self.layers
        return value


class Web:
    """Images, the nodes of their aliases, and what each stands for."""

    def __init__(self, number, count):
        algorithms = ALGORITHMS if one_in(2) else [one_of(ALGORITHMS)]
        signers, self.lead = one_of([1, 2, 3]), one_of(LEADS)
        self.images = []
        for k in range(count):
            algorithm = one_of(algorithms)
            self.images.append(Planned(k, algorithm, SIGNERS[algorithm][below(signers)]))
        self.digests = [some_digest() for _ in range(1 + below(6))]
        self.open = one_of([0, 0, 0, 0.2, 1])  # how many of the ends are defined by no image
        self.nodes = {}
        shape, different = some_shape(number)
        places = [one_of(self.images) for _ in shape]
        named = [(image.algorithm, image.signer, name(self.lead, k if different or not one_in(3) else below(4))) for k, image in enumerate(places)]
        for image, node, to in zip(places, named, shape):
            self.define(image, node, key(named[to]) if to is not None else self.end(named))
        self.twice()
        self.own_names()
        self.layers(named)

    def end(self, named):
        """What the last node of a path stands for: a digest, or a key that is defined by none, or hardly ever."""
        return key(self.missed(one_of(named))) if rand.random() < self.open else one_of(self.digests)

    def missed(self, node):
        """A node that differs from this one a little."""
        algorithm, signer, alias = node
        k = below(6)
        if k == 0:
            algorithm = one_of(ALGORITHMS)
            signer = one_of(SIGNERS[algorithm])
        elif k == 1:
            signer = one_of(SIGNERS[algorithm])
        elif k == 2 and len(alias.encode()) < 250:
            alias += one_of(["0", " ", KA])
        elif k == 3 and len(alias) > 1:
            alias = alias[:-1]
        elif k == 4:  # a name that images have for themselves
            alias = name("own", below(4))
        else:
            alias = name(self.lead, 90 + below(4))
        return algorithm, signer, alias

    def define(self, image, node, reference):
        """Each key stands for one object, but seldom for two, which clash where both images are loaded."""
        if node in self.nodes and not one_in(200):
            return
        if image.define(node[2], reference):
            self.nodes[node] = reference

    def twice(self):
        """Some keys are defined by a second image of the signer too, for the same object."""
        for node, reference in list(self.nodes.items()):
            image = one_of(self.images)
            names = [alias for under in image.contents.values() for alias in under]
            if one_in(6) and (image.algorithm, image.signer) == node[:2] and node[2] not in names:
                image.define(node[2], reference)

    def own_names(self):
        """Names that images have for themselves: their own, or that of a layer, which no two images of a signer may have."""
        taken = set()
        for k, image in enumerate(self.images):
            lent = [alias for under in one_of(self.images).contents.values() for alias in under] + [name("own", below(4))]
            for alias in (["own%x-%d" % (below(4), k)] if one_in(3) else []) + ([one_of(lent)] if one_in(3) else []):
                if (image.signer, alias) not in taken:
                    image.names.append(alias)
                taken.add((image.signer, alias))

    def layers(self, named):
        """The layers of each image: aliases from anywhere, digests, and what is near them; some have none, few have 64."""
        wrong = one_of([0, 0, 0.05, 0.3])
        for image in self.images:
            if one_in(8):
                image.layers = one_of([None, []])
                continue
            image.layers = [self.layer(named, wrong) for _ in range(MOST if one_in(40) else 1 + below(5))]
            if one_in(3):
                image.layers.insert(below(len(image.layers)), one_of(image.layers))
            image.layers = image.layers[:MOST]

    def layer(self, named, wrong):
        if rand.random() < wrong:
            return one_of([key(self.missed(one_of(named))), some_digest()])
        return one_of(self.digests) if one_in(4) else key(one_of(named))


# ---- Layer lists


def spoiled(data):
    """A list that is no longer one, or hardly ever."""
    k = below(5)
    if k == 0 and data:
        return data[:-1]
    if k == 1:
        return data + bytes([one_of([0, 4, 255])])
    if k == 2:
        return data + bytes([1 + below(3)]) + bytes(below(28))
    if k == 3:
        return bytes([one_of([0, 4, 255, 0x31])]) + data
    at = below(len(data)) if data else 0
    return data[:at] + bytes([below(256)]) + data[at + 1 :]


def near(digest):
    """An entry for a layer that is nearly this one: another algorithm, or another last byte."""
    algorithm, digits = digest.split("/")
    if one_in(2):
        other = one_of([a for a in ALGORITHMS if a != algorithm])
        return bytes([BYTES[other]]) + (bytes.fromhex(digits) + bytes.fromhex(digits))[: SIZES[other]]
    whole = entry(digest)
    return whole[:-1] + bytes([whole[-1] ^ 1 << below(8)])


def some_list(digests):
    """Most of the time all that are needed, in some order and with others; else one or more are missing, or only nearly there."""
    missing = one_of(digests) if digests and one_in(5) else None
    entries = [near(d) if d == missing and one_in(2) else entry(d) for d in digests if d != missing or one_in(2)]
    if one_in(3):
        entries.append(entry(some_digest()))
    if one_in(4) and entries:
        entries.append(one_of(entries))
    rand.shuffle(entries)
    data = b"".join(entries) if not one_in(30) else b""
    return spoiled(data) if one_in(20) else data


# ---- Histories


class Resolved:
    """A history, with the number of each resolve."""

    def __init__(self, number):
        self.h, self.numbers, self.lists, self.needs = History(number), [], [], []

    def measure(self):
        """How long the output of each image is if all layers are there."""
        images, objects = held(bytes(self.h.buffer[: self.h.used])) or ([], {})
        met = [[follow(reference, objects)[1] for reference in layers(image.text)] for image in images]
        self.needs = [sum(len(entry(digest)) for digest in digests if digest is not None) for digests in met]

    def resolve(self, place):
        """Resolves the image at that place, with an output buffer that fits, is longer or too short."""
        need = self.needs[place] if place < len(self.needs) else below(100)
        length = max(0, one_of([need, need, need, need + 1, need + below(60), ROOMY, need - 1, one_of([0, 1, need // 2])]))
        out = rand.randbytes(length) if one_in(2) else bytes([one_of([0, 1, 0xEE])]) * length
        self.numbers.append(self.h.resolve(one_of(self.lists), place, out)[0])


def stored(h, web, size):
    """Loads the images, or puts the store into the buffer by hand."""
    images = [(image.algorithm, image.signer, image.digest, image.text()) for image in web.images]
    data = b"".join(record(Image(*image, canonical(text))) for *image, text in images)
    if one_in(2) and len(data) < LONGEST:
        h.new(data + fill(below(100)), len(data))
        return
    h.new(fill(size))
    for *image, text in images:
        h.load(id_text(*image), spelled(text) if one_in(12) else canonical(text))


def history(number):
    r = Resolved(number)
    large = one_in(100)
    web = Web(number, MOST - below(15) if large else 1 + below(9))
    stored(r.h, web, LONGEST if large or number % 8 == 0 else one_of([4000, 20000]))
    r.lists = [some_list(web.digests) for _ in range(8)] + [b"".join(map(entry, web.digests))] * 4
    r.measure()
    count = len(r.needs)
    for _ in range(OFTEN if r.h.used < LARGE else SELDOM):
        r.resolve(below(count))
    for _ in range(2):
        r.resolve(one_of([count, count, count + 1, count + below(300), 1 << 32, 1 << 63, (1 << 64) - 1]))
    for _ in range(below(5)):
        at, old, used = damage(r.h)
        r.resolve(below(count + 1))
        r.h.put(at, old)
        r.h.used = used
    r.resolve(below(count + 1))
    return r.h, r.numbers


KINDS = {number: "get %d" % number for number in (0, 11, 15, 16, 17, 18, 19, 20)}

histories.main("lookups", history, "resolves", KINDS, RESOLVES, LEAST)
