"""Random runs over ranks, of files of heavy masses in tight clusters with weights of several shapes; and the commands
`make` and `sample`."""

import struct

from cases import Case
from cases.layouts import bounds, pick_file, pick_places
from cases.splits import pick_weights
from reference.header import MAX_MASS
from reference.keys import LEVELS
from reference.rows import MAX_WORK

COUNTS = [0, 1, 2, 3, 5, 8, 12, 20, 20, 30, 30, 45, 45, 60, 80, 120]
MOST_SINGLE = 24  # ranks in a run that delivers one letter in a round: all those letters take many rounds
# Seeds whose first three bodies are close, so that the sum of the pulls is not 0 at a great ratio
CLOSE = [4530668864071540986, 18365726919353704698, 491621758623898990, 18390725738842613647]
HEAD = """# SDF
int cube_bits = {bits};
struct {{
  int32_t x, y, z;
  uint32_t mass, work;
}}[{count}];
# SDF-EOH
"""


def pick_ranks(rng, most=64):
    few, any_number = rng.randint(2, 12), rng.randint(1, 64)
    return min(most, rng.choice([1, 2, 2, 3, 3, 4, 5, 6, 8, 16, 64, few, few, any_number]))


def pick_mail(rng):
    return rng.choice(["prompt", "last", "single", str(rng.randrange(10)), str(rng.getrandbits(64))])


def pick_ratio(rng):
    good = ["0/1", "0/1", "7/10", "1/1", "1/1", "1/2", "3/5", "3/2", "1024/1", "1/1024"]
    return rng.choice([*good, f"{rng.randint(0, 1024)}/{rng.randint(1, 1024)}"])


def pick_eps(rng):
    return rng.choice([1, 1, 1, 2, 256, 2 ** rng.randint(0, 28), rng.randint(1, 2**28)])


def pick_leaf(rng):
    return rng.choice([1, 1, 1, 1, 2, 2, 3, 5, 8, rng.randint(1, 64)])


def run_words(rng):
    """The options of a run, some left out, in any order."""
    mail = pick_mail(rng)
    most = 64 if mail in ("prompt", "last") or rng.random() < 0.1 else MOST_SINGLE
    pairs = [
        ("--mail", mail, 0.8),
        ("--ranks", pick_ranks(rng, most), 0.95),
        ("--theta", pick_ratio(rng), 0.85),
        ("--eps", pick_eps(rng), 0.8),
        ("--leaf", pick_leaf(rng), 0.9),
    ]
    if rng.random() < 0.55:  # at second order a ratio above 1 is refused, and a smaller one accepts more with leaves of one
        ratio = rng.choice(["1/1", "1/1", "7/10", "1/2", pick_ratio(rng)])
        pairs[2] = ("--theta", ratio, 0.95)
        pairs.append(("--moments", 2, 1))
    rng.shuffle(pairs)
    return [str(word) for option, value, chance in pairs if rng.random() < chance for word in (option, value)]


def pick_masses(rng, count):
    """Masses that are all heavy, all the same, one alone heavy, or any."""
    kind = rng.randrange(4)
    if kind == 0:
        return [rng.randint(MAX_MASS // 2, MAX_MASS) for _ in range(count)]
    if kind == 1:
        return [rng.choice([1, 3, MAX_MASS])] * count
    if kind == 2:
        return [rng.choice([1, 1, 1, MAX_MASS]) for _ in range(count)]
    return [rng.randint(1, MAX_MASS) for _ in range(count)]


def pick_spread(rng, count, bits):
    """Places of which mostly few have the same key."""
    low = rng.choice([0, max(0, bits - LEVELS)])  # bits of a coordinate that no key has, or none
    for _ in range(rng.choice([1, 5, 5])):
        places = pick_places(rng, count, [(0, 0, 2 ** (bits - low) - 1)] * 3)
        if 2 * len({tuple(place) for place in places}) > count:
            break
    return [[gap << low | rng.getrandbits(low) for gap in place] for place in places]


def cluster_file(rng):
    """Bodies in tight clusters, in small cells about each other, on a grid, or at few places."""
    bits = rng.choice([21, 21, 29, 29, rng.randint(1, 29)])
    count = rng.choice(COUNTS)
    places = pick_spread(rng, count, bits)
    kind = rng.randrange(6)
    if kind == 0:
        low = rng.randint(0, bits)
        places = [[gap >> low << low for gap in place] for place in places]
    elif kind == 1 and places:
        places = [rng.choice(places[: max(1, count // 3)]) for _ in places]
    even = [rng.randint(1, 9) for _ in range(count)]
    weights = pick_weights(rng, count, MAX_WORK) if count and rng.random() < 0.4 else even
    rows = zip(places, pick_masses(rng, count), weights)
    head = HEAD.format(bits=bits, count=count).encode()
    return head + b"".join(struct.pack("<3i2I", *place, mass, weight) for place, mass, weight in rows)


def any_file(rng):
    """Bodies in any layout, often with weights of one of the shapes."""
    file = pick_file(rng, 40, COUNTS, work=0.6)
    weighs = any(name == "work" and not length for name, _, length in file.columns)
    if weighs and file.rows and rng.random() < 0.8:
        _, size, signed = file.offset("work")
        for k, weight in enumerate(pick_weights(rng, len(file.rows), min(MAX_WORK, bounds(size, signed)[1]))):
            file.put(k, "work", weight)
    return file.data(rng)


def run_case(rng):
    data = cluster_file(rng) if rng.random() < 0.8 else any_file(rng)
    words = ["forces", *run_words(rng)]
    if rng.random() < 0.85:
        words.insert(rng.choice([1, len(words)]), "--report")
    return Case("run", words, data)


def sdf_case(rng):
    """A run whose forces are written as SDF, on any layout or on a tight cluster, where they are strong."""
    words = [["--form", "sdf"], run_words(rng), ["--report"] if rng.random() < 0.3 else []]
    rng.shuffle(words)
    data = any_file(rng) if rng.random() < 0.5 else cluster_file(rng)
    return Case("sdf", ["forces", *(word for part in words for word in part)], data)


def seed_words(rng):
    seed = rng.choice([0, 1, 7, 2**63, 2**64 - 1, rng.getrandbits(64), rng.randrange(1000)])
    return ["--seed", str(seed)] if rng.random() < 0.9 else []


def make_case(rng):
    count = rng.choice([0, 1, 2, 9, 10, 100, 340, 341, 342, rng.randint(0, 3000)])
    words = [["--bodies", str(count)]] if rng.random() < 0.9 else []
    words.append(seed_words(rng))
    rng.shuffle(words)
    return Case("make", ["make", *(word for pair in words for word in pair)])


def sample_case(rng):
    """A run on few generated bodies."""
    count = rng.choice([0, 1, 2, 3, 8, 9, 30, 60, rng.randint(0, 60)])
    words = [["--bodies", str(count)], seed_words(rng), run_words(rng)]
    if rng.random() < 0.4:
        mail, ranks = pick_mail(rng), pick_ranks(rng, MOST_SINGLE)
        run = f"--theta {rng.choice(['1024/1', '300/1', '7/10'])} --eps 1 --leaf {rng.choice([1, 1, 2])}"
        words[1:] = [["--seed", str(rng.choice(CLOSE))], f"{run} --mail {mail} --ranks {ranks}".split()]
    rng.shuffle(words)
    return Case("sample", ["sample", *(word for part in words for word in part)])
