"""The cells that the ranks open and those that they need of each other (docs/MODEL.md), as filters."""

from collections import defaultdict

from reference.keys import LEVELS, level_of


class Needs:
    """What the bodies of a split open, by the results of the recursive walk, with this leaf limit."""

    def __init__(self, split, results, leaf):
        self.split, self.leaf = split, leaf
        self.opened_by = defaultdict(set)  # of each cell the ranks that have a body that opens it
        self.opened = [0] * split.ranks  # of each rank the pairs of a body and a cell that it opens
        for rank, (_, cells) in zip(split.rank_of, results):
            self.opened[rank] += len(cells)
            for cell in cells:
                self.opened_by[cell].add(rank)

    def is_leaf(self, cell):
        return len(self.split.inside[cell]) <= self.leaf or level_of(cell) == LEVELS

    def needs(self, rank, cell):
        """Whether a rank needs a cell with bodies."""
        if self.split.owner(cell) in (None, rank):
            return False
        if rank in self.opened_by.get(cell, ()):
            return True
        above = [cell >> 3 * up for up in range(1, level_of(cell) + 1)]
        return cell in self.split.branches and any(
            rank in self.opened_by.get(other, ()) and self.is_leaf(other) for other in above
        )

    def needed(self, rank):
        return {cell for cell in self.split.inside if self.needs(rank, cell)}

    def cells(self):
        """The number of different cells that are opened by a body or are branches."""
        return len(self.opened_by.keys() | self.split.branches.keys())

    def bound(self):
        """What the number of rounds is at most."""
        return (self.split.ranks - 1) * (self.split.ranks + 2 * self.cells()) + 1
