"""Random cases of the command `near`: radii at the distances of bodies, which are often whole, on any number of ranks."""

import math
import struct

from cases import Case
from cases.runs import COUNTS, HEAD, MOST_SINGLE, any_file, cluster_file, pick_leaf, pick_mail, pick_masses, pick_ranks
from cases.splits import pick_weights
from reference.rows import MAX_WORK, Bodies

MAX_RADIUS = 2**30
STEPS = [(1, 0, 0), (0, 1, 0), (0, 0, 1), (1, 2, 2), (2, 3, 6), (0, 3, 4), (4, 0, 3), (1, 4, 8)]  # of whole lengths


def stepped_file(rng):
    """Bodies of which each stands some such steps behind another one, so that many distances are whole."""
    bits, count = rng.choice([6, 21, 29]), rng.choice(COUNTS)
    unit = 2 ** rng.choice([0, 0, bits // 2])
    places = [[rng.randrange(2**bits) for _ in range(3)]]
    while len(places) < count:
        step = [rng.choice([-1, 1]) * unit * rng.choice([0, 1, 1, 2]) * part for part in rng.choice(STEPS)]
        place = [p + s for p, s in zip(rng.choice(places[-5:]), step)]
        if all(0 <= p < 2**bits for p in place):
            places.append(place)
    weights = pick_weights(rng, count, MAX_WORK) if count and rng.random() < 0.4 else [1] * count
    rows = zip(places, pick_masses(rng, count), weights)
    return HEAD.format(bits=bits, count=count).encode() + b"".join(struct.pack("<3i2I", *p, m, w) for p, m, w in rows)


def pick_radius(rng, bodies=()):
    """A radius about the distance of two of the bodies, or of any size."""
    if len(bodies) > 1 and rng.random() < 0.8:
        one, other = rng.sample(bodies, 2)
        squared = sum((a - b) ** 2 for a, b in zip(one.place, other.place))
        return max(0, math.isqrt(squared) + rng.choice([-1, 0, 0, 0, 1]))
    return rng.choice([0, 1, 255, 256, MAX_RADIUS, 2 ** rng.randint(0, 30), rng.randint(0, MAX_RADIUS)])


def near_words(rng, bodies=()):
    """The options of `near`, some left out, in any order."""
    mail = pick_mail(rng)
    most = 64 if mail in ("prompt", "last") or rng.random() < 0.1 else MOST_SINGLE
    pairs = [
        ("--mail", mail, 0.8),
        ("--ranks", pick_ranks(rng, most), 0.95),
        ("--leaf", pick_leaf(rng), 0.9),
        ("--radius", pick_radius(rng, bodies), 0.95),
    ]
    rng.shuffle(pairs)
    return [str(word) for option, value, chance in pairs if rng.random() < chance for word in (option, value)]


def near_case(rng):
    data = rng.choice([stepped_file, stepped_file, cluster_file, any_file])(rng)
    whole = Bodies()
    whole.add_file(data)
    return Case("near", ["near", *near_words(rng, whole.found)], data)
