"""The split over ranks, its branch cells and its top cells (docs/MODEL.md), as filters over the cells with bodies."""

from collections import Counter, defaultdict
from itertools import accumulate

from reference.keys import cells_of, key_of


def weights_of(bodies):
    """The weight of each body: its work, but 1 where the work of all is 0."""
    works = [b.work for b in bodies]
    return works if any(works) else [1 for _ in bodies]


def ranks_of(keys, weights, ranks):
    """The rank of each body, by the weight of all bodies with a smaller key."""
    whole = sum(weights)
    at = Counter()
    for key, weight in zip(keys, weights):
        at[key] += weight
    keys_up = sorted(at)
    below = dict(zip(keys_up, accumulate((at[key] for key in keys_up), initial=0)))
    return [min(ranks - 1, below[key] * ranks // whole) for key in keys]


def record(inside):
    """The printed record of a cell with these bodies."""
    mass = sum(b.mass for b in inside)
    sums = [sum(b.mass * b.place[axis] for b in inside) for axis in range(3)]
    return f"count {len(inside)} mass {mass} sum {sums[0]} {sums[1]} {sums[2]}"


class Split:
    """Bodies split over ranks."""

    def __init__(self, bodies, ranks):
        keys = [key_of(b.place) for b in bodies]
        self.weights = weights_of(bodies)
        self.ranks = ranks
        self.rank_of = ranks_of(keys, self.weights, ranks)  # of each body
        together = defaultdict(list)  # the bodies of each key, which are of one rank
        for key, body in zip(keys, bodies):
            together[key].append(body)
        rank_at = dict(zip(keys, self.rank_of))
        self.inside = defaultdict(list)  # the bodies of each cell that has any
        self.present = defaultdict(set)  # the ranks of these bodies
        for key, group in together.items():
            for cell in cells_of(key):
                self.inside[cell] += group
                self.present[cell].add(rank_at[key])
        self.tops = [cell for cell in sorted(self.inside) if len(self.present[cell]) > 1]
        self.branches = {  # by ascending key, with the rank of each
            cell: min(self.present[cell])
            for cell in sorted(self.inside)
            if len(self.present[cell]) == 1 and (cell == 1 or len(self.present[cell >> 3]) > 1)
        }

    def owner(self, cell):
        """The rank of the branch that a cell with bodies is or lies in; None of a top cell."""
        return min(self.present[cell]) if len(self.present[cell]) == 1 else None


def split_text(bodies, ranks):
    split = Split(bodies, ranks)
    weight = Counter()
    for rank, one in zip(split.rank_of, split.weights):
        weight[rank] += one
    lines = ["# hot split 1"]
    for rank in range(ranks):
        own = [cell for cell, owner in split.branches.items() if owner == rank]
        lines.append(f"rank {rank} bodies {split.rank_of.count(rank)} weight {weight[rank]} branches {len(own)}")
    lines += [f"branch {cell} rank {rank} {record(split.inside[cell])}" for cell, rank in split.branches.items()]
    lines += [f"top {cell} {record(split.inside[cell])}" for cell in split.tops]
    return "".join(f"{line}\n" for line in [*lines, "# end split"])
