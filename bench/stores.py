"""Stores, each with the image that is loaded into it: write_plain(FOLDER), write_worst(FOLDER); stores that are judged:
write_judged(FOLDER, judged_plain()), write_judged(FOLDER, judged_worst()); and stores with an image whose layers are resolved:
write_resolved(FOLDER, resolved_plain()), write_resolved(FOLDER, resolved_worst())."""

import bisect
import collections
import json
import os
import random

import inputs

IMAGES = 63  # in a store that has place for one more
ALGORITHMS = {"sha224": 1, "sha256": 2, "sha384": 3}

Image = collections.namedtuple("Image", "algorithm signer digest manifest")


def number(n):
    """Groups of seven bits, the lowest first, the top bit set on all but the last byte."""
    groups = [n & 0x7F]
    while n > 0x7F:
        n >>= 7
        groups.append(n & 0x7F)
    return bytes([g | 0x80 for g in groups[:-1]] + groups[-1:])


def record(image):
    rest = (bytes([ALGORITHMS[image.algorithm]]) + bytes.fromhex(image.signer) + bytes.fromhex(image.digest)
            + image.manifest.encode())
    return number(len(rest)) + rest


# ---- Plain stores: images of the worked manifest


def worked_store(count):
    """Four images to a signer, each with names of its own for itself; the one that is loaded is of the last one's signer
    and as a vendor writes it."""
    r = random.Random(count)
    images = []
    for i in range(count):
        if i % 4 == 0:
            algorithm = list(ALGORITHMS)[i // 4 % 3]
            signer = inputs.digest(r, algorithm)
        images.append(Image(algorithm, signer, inputs.digest(r, algorithm), inputs.canonical(json.loads(worked(i)))))
    return images, Image(algorithm, signer, inputs.digest(r, algorithm), worked(count))


def worked(i):
    return inputs.worked_manifest().replace("SomeProduct", "SomeProduct%02d" % i)


# ---- Stores of some 1 MB: manifests of 16 KB


def store_of(manifests, one_signer):
    """Images with these manifests, all of one signer or each of its own; the last one is loaded."""
    r = random.Random(4)
    signers = [inputs.digest(r, "sha224") for _ in manifests]
    images = [Image("sha224", signers[0 if one_signer else i], inputs.digest(r, "sha224"), manifest)
              for i, manifest in enumerate(manifests)]
    return images[:-1], images[-1]


def vendor_store():
    """Manifests such as vendors would write, each image of another signer."""
    return store_of([filled(seed) for seed in range(1, IMAGES + 2)], False)


def filled(seed):
    """The plain manifest of 16 KB, with more variables where its rules end."""
    def grow(m):
        env = m["env"]
        env.append("SERVICE_%02d_URL=https://node%02d.example.org:8443/api/v1" % (len(env), seed))
        return len(env) < 64
    return inputs.grown(json.loads(inputs.vendor_manifest(inputs.canonical, seed)), grow, inputs.canonical)


def with_names(names, own, layers):
    """A manifest with names for layers, 64 to each, and names for itself."""
    contents = {layer: names[64 * i:64 * i + 64] for i, layer in enumerate(layers) if 64 * i < len(names)}
    return inputs.canonical({"aconSpecVersion": [1, 0], "aliases": {"contents": contents, "self": {".": own}}})


def names_store(name, same):
    """As many names for layers as fit, in no order: `name` gives the one with a number. The same ones in all images, for the
    same layers, or all different. The names for the image itself are always different."""
    r = random.Random(5)
    layers = sorted("sha224/" + inputs.digest(r, "sha224") for _ in range(64))
    numbers = list(range(4096 if same else 4096 * (IMAGES + 1)))
    r.shuffle(numbers)
    own = [inputs.word(i, 3) for i in range(64 * (IMAGES + 1))]
    r.shuffle(own)

    def manifest(i, n):
        first = 0 if same else i * n
        return with_names([name(k) for k in numbers[first:first + n]], own[64 * i:64 * i + 64], layers)
    # names of one length, or the same ones: as many fit in all images as in the first
    n = bisect.bisect_right(range(4096), inputs.LARGE, key=lambda n: len(manifest(0, n).encode())) - 1
    return store_of([manifest(i, n) for i in range(IMAGES + 1)], True)


def escaped(i):
    """Three of sixteen characters, of which two are escaped and two stand beside a backslash."""
    return inputs.word(i, 3, '[\\]"!#abcdefghij')


def plain():
    """Name, images of the store, the one that is loaded."""
    for count in (1, 8, 40, IMAGES):
        yield ("%d images" % count if count > 1 else "1 image", *worked_store(count))


def worst():
    """The plain store comes first."""
    yield ("plain", *vendor_store())
    yield ("short names, all different", *names_store(lambda i: inputs.word(i, 3), False))
    yield ("short names, the same", *names_store(lambda i: inputs.word(i, 2), True))
    yield ("escaped names, the same", *names_store(escaped, True))
    yield ("long names, all different", *names_store(lambda i: "%s%06d" % ("a" * 249, i), False))
    yield ("64 rules", *store_of([inputs.many_rules(seed) for seed in range(IMAGES + 1)], True))


# ---- Stores that are judged

QUOTES = '\\"' * 26  # a start of names that is escaped throughout


def rules_store(name, signer):
    """64 names for itself in each image, and 64 rules by names that no image has, though each image's algorithm and signer match:
    `name` gives the one with a number, and `signer` says whether rules name the signer or have `*`."""
    r = random.Random(6)
    own = [name(i) for i in range(64 * 64)]
    other = [name(i) for i in range(64 * 64, 2 * 64 * 64)]
    r.shuffle(own)
    r.shuffle(other)
    by = inputs.digest(r, "sha224")

    def manifest(i):
        rules = ["sha224/%s/%s" % (by if signer else "*", n) for n in other[64 * i:64 * i + 64]]
        return inputs.canonical({"aconSpecVersion": [1, 0], "aliases": {"self": {".": own[64 * i:64 * i + 64]}},
                                 "policy": {"accepts": rules, "rejectUnaccepted": True}})
    return [Image("sha224", by, inputs.digest(r, "sha224"), manifest(i)) for i in range(64)]


def judged_plain():
    """Name and images."""
    for count in (8, 40, 64):
        yield "%d images" % count, worked_store(count)[0]


def judged_worst():
    yield "64 rules, short names", rules_store(lambda i: inputs.word(i, 3), False)
    yield "64 rules, long names", rules_store(lambda i: "%s%06d" % ("a" * 110, i), False)
    yield "64 rules, long names, signer", rules_store(lambda i: "%s%06d" % ("a" * 80, i), True)
    yield "64 rules, escaped names", rules_store(lambda i: QUOTES + escaped(i) + inputs.word(i // 4096, 1), False)


# ---- Stores with an image whose layers are resolved


def alias(image, name):
    """The layer reference of a name that an image defines."""
    return "signer/%s/%s/%s" % (image.algorithm, image.signer, name)


def layers_manifest(contents, layers):
    return inputs.canonical({"aconSpecVersion": [1, 0], "aliases": {"contents": contents}, "layers": layers})


def job_store():
    """40 images, the last a job of five layers: two by their digests, three by names that other images define, one of these by way of
    another name. The image before it defines that name; two have a layer that nobody defines, and one that never ends."""
    r = random.Random(7)
    images, _ = worked_store(36)
    plates = json.loads(inputs.worked_manifest())["layers"][0].split("/")  # signer, algorithm, signer's digest, name
    library = Image(plates[1], plates[2], inputs.digest(r, plates[1]), "")
    library = library._replace(manifest=layers_manifest({"sha384/" + inputs.digest(r, "sha384"): [plates[3], "plates:1"]}, []))
    spare = Image("sha224", inputs.digest(r, "sha224"), inputs.digest(r, "sha224"), "")
    layers = ["sha256/" + inputs.digest(r, "sha256"), "sha384/" + inputs.digest(r, "sha384"), alias(images[0], "SharedLayerA:1"),
              alias(images[20], "SharedLayerC:2"), alias(images[35], "SharedLayerB:0")]
    images += [spare._replace(manifest=layers_manifest({}, [layers[0], alias(spare, "nobody")])),
               spare._replace(digest=inputs.digest(r, "sha224"), manifest=layers_manifest({alias(spare, "loop"): ["loop"]}, [alias(spare, "loop")])),
               library, spare._replace(digest=inputs.digest(r, "sha224"), manifest=layers_manifest({}, layers))]
    return images, len(images) - 1


def web_store(name):
    """64 images of one signer with 64 objects each. Every object but one is the name of the next one, in no order, so that the path of each
    of the 64 layers of the last image runs through all 4,096. `name` gives the one with a number, of so many bytes at most as a text."""
    r = random.Random(8)
    by = Image("sha224", inputs.digest(r, "sha224"), "", "")
    # the last image's names are short and come first, since its manifest has 64 layers as well
    short, names = [name(k, 8) for k in range(63 * 64, 64 * 64)], [name(k, 86) for k in range(63 * 64)]
    path = r.sample(short, len(short)) + r.sample(names, len(names))
    after = dict(zip(path, path[1:]))
    last = "sha224/" + inputs.digest(r, "sha224")
    images = []
    for own in [names[64 * i:64 * i + 64] for i in range(63)] + [short]:
        contents = {alias(by, after[n]) if n in after else last: [n] for n in own}
        layers = [alias(by, path[0])] * 64 if own is short else []
        images.append(by._replace(digest=inputs.digest(r, "sha224"), manifest=layers_manifest(contents, layers)))
    return images, 63


def names_web(name, same):
    """The stores with as many names as fit, which are all looked for."""
    images, loaded = names_store(name, same)
    layers = sorted(json.loads(images[0].manifest)["aliases"]["contents"])
    return images + [loaded._replace(manifest=layers_manifest({}, layers))], IMAGES


def one_name_store():
    """64 images of 64 signers, all with one name: for their own digest, and in up to 63 other objects for what signers define who are not
    there. Every image's name is looked for among all references, which have that name."""
    r = random.Random(9)
    name = "a" * 100
    images = [Image("sha224", inputs.digest(r, "sha224"), inputs.digest(r, "sha224"), "") for _ in range(64)]
    held = []
    for i, image in enumerate(images):
        strangers = [alias(image._replace(signer=inputs.digest(r, "sha224")), name) for _ in range(63)]
        contents = {**{reference: [] for reference in strangers}, "sha224/" + inputs.digest(r, "sha224"): [name]}
        layers = [alias(by, name) for by in images[:20]] if i == 63 else []
        if i == 63:
            contents = dict(list(contents.items())[-20:])
        held.append(image._replace(manifest=layers_manifest(contents, layers)))
    return held, 63


def resolved_plain():
    """Name, images, and the place of the one whose layers are resolved."""
    yield ("5 layers, 40 images", *job_store())


def resolved_worst():
    yield ("web, short names", *web_store(lambda k, most: inputs.word(k, 3)))
    yield ("web, long names", *web_store(lambda k, most: "a" * (most - 4) + "%04d" % k))
    yield ("web, escaped names", *web_store(lambda k, most: QUOTES[: (most - 4) // 2] + "%04d" % k))
    yield ("short names, all different", *names_web(lambda i: inputs.word(i, 3), False))
    yield ("short names, the same", *names_web(lambda i: inputs.word(i, 2), True))
    yield ("one name, 4,000 signers", *one_name_store())


# ---- Files

Made = collections.namedtuple("Made", "name store manifest path")  # the lengths of both; the path without its ending


def write_files(folder, name, **parts):
    """Writes the parts of a case, each by its ending; gives the path without it."""
    os.makedirs(folder, exist_ok=True)
    path = os.path.join(folder, name.replace(" ", "-").replace(",", ""))
    for ending, data in parts.items():
        with open("%s.%s" % (path, ending), "wb") as f:
            f.write(data)
    return path


def write_all(folder, cases):
    """Writes for each case the store, and the ID and the manifest that are loaded."""
    made = []
    for name, images, loaded in cases:
        store, manifest = b"".join(map(record, images)), loaded.manifest.encode()
        path = write_files(folder, name, store=store, id="/".join(loaded[:3]).encode(), json=manifest)
        made.append(Made(name, len(store), len(manifest), path))
    return made


def write_plain(folder):
    return write_all(folder, plain())


def write_worst(folder):
    return write_all(folder, worst())


def write_judged(folder, cases):
    """Writes the store of each case."""
    stores = [(name, b"".join(map(record, images))) for name, images in cases]
    return [Made(name, len(store), 0, write_files(folder, name, store=store)) for name, store in stores]


def entry(layer):
    """The entry of a layer list for a layer by its digest."""
    algorithm, digest = layer.split("/")
    return bytes([ALGORITHMS[algorithm]]) + bytes.fromhex(digest)


def layer_list(images):
    """The layers by digests of all images, each once: those in their lists, and those that names stand for."""
    manifests = [json.loads(image.manifest) for image in images]
    named = {layer for m in manifests for layer in [*m.get("layers", []), *m.get("aliases", {}).get("contents", {})]}
    return b"".join(map(entry, sorted(layer for layer in named if not layer.startswith("signer/"))))


def write_resolved(folder, cases):
    """Writes for each case the store, the layer list and the place of the image."""
    made = []
    for name, images, place in cases:
        store = b"".join(map(record, images))
        path = write_files(folder, name, store=store, layers=layer_list(images), place=b"%d" % place)
        made.append(Made(name, len(store), 0, path))
    return made
