"""Compares acon_judge with the implementation in reference/ on stores that grow image by image in generated histories: every number, every
number of pairs and every byte of the report buffer. On the way stores are damaged; then the accepted loads are made again in other
orders, which all have to be accepted and to give the same pairs of Image IDs.

    policies.py PROGRAM [FIRST COUNT]   through the program that is made of store_driver.c
    policies.py --count [FIRST COUNT]   only counts what the reference gives

Without FIRST and COUNT histories are run from 0 on until enough stores are judged. A history depends on its own number only, so
`policies.py PROGRAM N 1` runs history N alone."""

import sys

import histories
from histories import History, damage, fill
from policy import held_pairs
from store import image_id, well_formed
from store_inputs import (ALGORITHMS, BAD, KA, KHA, LAYERS, LONG, SIGNERS, SIZES, below, canonical, id_text, one_in, one_of, rand, spelled)

STORES = 100000
LEAST = 2000  # how many stores there have to be of each kind
LONGEST = 60000  # bytes of a buffer
MANY = 50  # images of a history of which not every store is judged
MOST_RULES = 64
ROOMY = 2 * 64 * 63  # bytes of a report buffer that is always long enough


# ---- Images: a graph of who is to accept whom, and rules that say so


def ring(n):
    return [(k, (k + 1) % n) for k in range(n)]


def chain(n):
    return [(k, k + 1) for k in range(n - 1)]


def star(n):
    return [(0, k) for k in range(1, n)]


def two_parts(n):
    half = n // 2
    return ring(half) + [(half + a, half + b) for a, b in ring(n - half)]


def some_edges(n):
    return [(below(n), below(n)) for _ in range(one_of([n // 2, n, 2 * n, 3 * n]))]


def ring_and_more(n):
    return [edge for edge in ring(n) if not one_in(n)] + some_edges(n)[:2]


SHAPES = [ring, ring, chain, chain, star, two_parts, some_edges, some_edges, ring_and_more, lambda n: []]
LONG_SHAPES = [ring, chain, chain, two_parts, ring_and_more]


class Planned:
    """An image before it has rules. Its names for itself are its own, or begin as another's do."""

    def __init__(self, k, algorithm, signer, lead):
        self.algorithm, self.signer = algorithm, signer
        self.digest = k.to_bytes(SIZES[algorithm], "big")
        self.names = ["%s%d" % (lead, k)] if not one_in(3) else []
        if one_in(5):
            self.names.append("%s%d" % (one_of(["Job:", KA * 21 + KHA, "x"]), k))
        self.layer_names = ["%s%d" % (lead, below(20))] if one_in(4) else []
        self.guard, self.rules = False, []

    def rule(self):
        """One that matches the image."""
        name = self.digest.hex() if not self.names or one_in(3) else one_of(self.names)
        return "/".join([self.algorithm, one_of(["*", self.signer.hex()]), name])

    def near_rule(self):
        """One that nearly matches the image."""
        algorithm, signer, name = self.rule().split("/")
        k = below(6)
        if k == 0:  # another algorithm, under which only a name can stand
            other = one_of(ALGORITHMS)
            return "/".join([other, "*", one_of(self.names + self.layer_names + ["x"])])
        if k == 1:  # another signer
            return "/".join([algorithm, one_of(SIGNERS[algorithm]).hex(), name])
        if k == 2:  # a name that goes on, or ends early
            return "/".join([algorithm, signer, one_of(self.names or ["x"]) + one_of(["0", " ", KA])])
        if k == 3 and self.names and len(self.names[0]) > 1:
            return "/".join([algorithm, signer, self.names[0][:-1]])
        if k == 4 and self.layer_names:  # a name of a layer
            return "/".join([algorithm, signer, self.layer_names[0]])
        return "/".join([algorithm, signer, self.digest.hex()[:-1] + one_of("0123456789abcdef")])

    def manifest(self):
        aliases = {}
        if self.names:
            aliases["self"] = {".": self.names}
        if self.layer_names:
            aliases["contents"] = {LAYERS[0]: self.layer_names}
        policy = {}
        if self.rules or one_in(4):
            policy["accepts"] = self.rules
        if self.guard or one_in(4):
            policy["rejectUnaccepted"] = self.guard
        value = {"aconSpecVersion": [1, 0]}
        if aliases:
            value["aliases"] = aliases
        if policy or one_in(4):
            value["policy"] = policy
        return spelled(value) if one_in(12) else canonical(value)


def planned(n):
    """Images that accept each other along the edges of some graph, and by chance."""
    algorithms = ALGORITHMS if one_in(3) else [one_of(ALGORITHMS)]
    signers, lead = one_of([1, 2, 3]), one_of(["j", "Job:", LONG, KA * 21, 'q"\\'])
    images = []
    for k in range(n):
        algorithm = one_of(algorithms)
        images.append(Planned(k, algorithm, SIGNERS[algorithm][below(signers)], lead))
    for a, b in one_of(SHAPES if n < MANY else LONG_SHAPES)(n):
        images[a].rules.append(images[b].rule())
    guards, noise, wild = one_of([1, 0.5, 0.2, 1 / n, 0]), one_of([0, 0.3, 1]), one_of([0, 0, 0, 0.05, 0.3])
    for image in images:
        image.guard = rand.random() < guards
        if rand.random() < noise:
            image.rules.insert(below(len(image.rules) + 1), one_of(images).near_rule())
        if rand.random() < wild:
            image.rules.insert(0, "/".join([image.algorithm, one_of(["*", image.signer.hex()]), "*"]))
        if one_in(60):  # as many rules as there may be, of which only the last ones are meant
            image.rules = [one_of(images).near_rule() for _ in range(MOST_RULES - len(image.rules))] + image.rules
    images[0].guard |= guards > 0 and one_in(2)
    return images


# ---- Histories


class Judged:
    """A history, with the kind of each store that is judged: the number, and whether there are pairs."""

    def __init__(self, number):
        self.h, self.kinds = History(number), []

    def judge(self, length=None):
        """Judges the store, in a report buffer that is long enough, fits, or is too short."""
        listed = held_pairs(bytes(self.h.buffer[: self.h.used])) if self.h.used <= len(self.h.buffer) else None
        need = 2 * len(listed or [])
        if length is None:
            length = max(0, one_of([ROOMY, need, need + 1, need + below(40), need + below(40), need - 1, one_of([need - 2, need // 2, 0, 1])]))
        number, pairs, _ = self.h.judge(rand.randbytes(length) if one_in(2) else bytes([one_of([0, 1, 0xEE])]) * length)
        self.kinds.append((number, pairs > 0))

    def again(self):
        """The same store in other buffers: none, one that fits, one a byte short. These are not counted."""
        kept = len(self.kinds)
        need = 2 * len(held_pairs(bytes(self.h.buffer[: self.h.used])))
        for length in (0, need, max(0, need - 1), need + 1):
            self.judge(length)
        del self.kinds[kept:]


def id_pairs(h):
    """The pairs of Image IDs of the store."""
    data = bytes(h.buffer[: h.used])
    ids = list(map(image_id, well_formed(data)))
    return {(ids[guard], ids[other]) for guard, other in held_pairs(data)}


def grown(j, images, harm):
    """Loads images, and judges the store after each; on the way loads are refused and the store is damaged, which is undone again.
    Gives the loads that are accepted."""
    h, accepted = j.h, []
    for given_id, manifest in images:
        if one_in(20):
            h.load(given_id, one_of(BAD[2 + below(8)]))
        if h.load(given_id, manifest) == 0:
            accepted.append((given_id, manifest))
            if len(images) < MANY or one_in(4) or len(accepted) == len(images):
                j.judge()
        if one_in(10):
            h.load(given_id, manifest)  # by now it is there, or does not fit again
        if one_in(8) and len(images) < MANY:
            j.again()
        if rand.random() < harm:
            at, old, used = damage(h)
            j.judge()
            h.put(at, old)
            h.used = used
    return accepted


def history(number):
    j = Judged(number)
    images = [(id_text(i.algorithm, i.signer, i.digest), i.manifest()) for i in planned(MANY + below(15) if one_in(250) else 1 + below(14))]
    size = LONGEST if len(images) >= MANY else one_of([1500, 4000, 20000])
    harm = one_of([0, 0.1, 0.3])
    if not one_in(4):
        rand.shuffle(images)
    j.h.new(fill(size))
    if one_in(20):
        j.judge()  # the empty store
    accepted = grown(j, images, harm)
    before = id_pairs(j.h)
    for _ in range(below(4)):
        rand.shuffle(accepted)
        j.h.new(fill(size))
        if grown(j, accepted, harm) != accepted or id_pairs(j.h) != before:
            sys.exit("policies: history %d: the accepted loads in another order give other answers" % number)
        j.judge(ROOMY)
    return j.h, j.kinds


KINDS = {(0, False): "are admitted", (0, True): "have pairs", (11, False): "get 11", (20, False): "get 20"}

histories.main("policies", history, "judged stores", KINDS, STORES, LEAST)
