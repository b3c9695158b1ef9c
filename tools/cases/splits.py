"""Random cases of the command `split`: trees cut on any number of ranks, by weights of several shapes."""

from cases import Case
from cases.calls import split_words
from cases.layouts import bounds, pick_file
from reference.rows import MAX_WORK

COUNTS = [0, 1, 2, 3, 5, 9, 17, 25, 40, 40, 80, 150]


def pick_weights(rng, count, most):
    """Weights that are all 0, mostly 0, one alone heavy, all heavy, all the same, or small."""
    kind = rng.randrange(6)
    if kind == 0:
        return [0] * count
    if kind == 1:
        return [rng.choice([0, 0, 0, 0, rng.randint(0, most)]) for _ in range(count)]
    if kind == 2:
        heavy = rng.randrange(count)
        return [most if k == heavy else rng.randint(0, 1) for k in range(count)]
    if kind == 3:
        return [rng.randint(most // 2, most) for _ in range(count)]
    if kind == 4:
        return [rng.randint(1, most)] * count
    return [rng.randint(0, min(most, 3)) for _ in range(count)]


def split_case(rng):
    file = pick_file(rng, 150, COUNTS, work=0.8)
    weighs = any(name == "work" and not length for name, _, length in file.columns)
    if weighs and file.rows and rng.random() < 0.8:
        _, size, signed = file.offset("work")
        most = min(MAX_WORK, bounds(size, signed)[1])
        for k, weight in enumerate(pick_weights(rng, len(file.rows), most)):
            file.put(k, "work", weight)
    return Case("split", split_words(rng), file.data(rng))
