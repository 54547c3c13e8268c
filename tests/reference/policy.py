"""Judge of document 01, written from its text alone: who accepts whom, chains, the pairs of a report. A store is read as in store.py."""

import collections
import functools
import json

from store import read_manifest, well_formed

Policy = collections.namedtuple("Policy", "rules guard")


# ---- Acceptance


@functools.lru_cache(maxsize=1 << 15)
def read_policy(text):
    """The rules of a good manifest, and whether its image is a guard."""
    policy = json.loads(text).get("policy", {})
    return Policy(frozenset(policy.get("accepts", [])), policy.get("rejectUnaccepted", False))


@functools.lru_cache(maxsize=1 << 15)
def matching_rules(image):
    """Each rule that matches the image: HASH is the algorithm of its ID, SIGNER is `*` or equal, and MANIFEST is `*`, equal to
    the manifest digest, or one of its `self` aliases."""
    names = {"*", image.digest.hex()} | read_manifest(image.text).own
    return frozenset("/".join([image.algorithm, signer, name]) for signer in ("*", image.signer.hex()) for name in names)


def accepts(a, b):
    """Some rule of a matches b."""
    return not read_policy(a.text).rules.isdisjoint(matching_rules(b))


# ---- Chains and pairs


def reached(accepted, start):
    """The places to which a chain leads from the one given, breadth first; `accepted` has the places that each image accepts. A
    chain of one image leads to itself."""
    found, ahead = {start}, collections.deque([start])
    while ahead:
        new = [k for k in accepted[ahead.popleft()] if k not in found]
        found.update(new)
        ahead.extend(new)
    return found


def pairs(images):
    """The guard's place and the other's, by guard and then by other, where no chain leads from the guard to the other."""
    accepted = [[k for k, b in enumerate(images) if accepts(a, b)] for a in images]
    listed = []
    for guard, image in enumerate(images):
        if read_policy(image.text).guard:
            near = reached(accepted, guard)
            listed += [(guard, other) for other in range(len(images)) if other not in near]
    return listed


@functools.lru_cache(maxsize=64)
def held_pairs(data):
    """The pairs of the images of a well-formed store with these bytes; None where it is not well-formed."""
    images = well_formed(data)
    return None if images is None else pairs(images)


# ---- Judge


def judge(buffer, used, report_length):
    """The number, the number of pairs, and the bytes that are written at the start of a report buffer of that length; the buffer is
    left to the caller."""
    listed = held_pairs(bytes(buffer[:used])) if used <= len(buffer) else None
    if listed is None:
        return 11, 0, b""
    if 2 * len(listed) > report_length:
        return 20, 0, b""
    return 0, len(listed), b"".join(map(bytes, listed))
