"""The exchange of letters between ranks, round for round (docs/MODEL.md): who posts what when, and how a wire delivers.

Only senders, receivers, kinds and keys are kept, since the records and bodies of a true letter follow from its keys. A
rank asks for a cell that it needs as soon as it knows of it: of branches once it read the branch lists of all ranks, of
other cells once it read the answer for the parent.
"""

from collections import defaultdict
from dataclasses import dataclass

from reference.generator import Generator

BRANCHES, ASKS, ANSWERS = "branches", "asks", "answers"


@dataclass
class Letter:
    sender: int
    receiver: int
    kind: str
    keys: list


class Wire:
    """The pending letters, the oldest first, under a policy: `prompt`, `last`, `single` or a seed."""

    def __init__(self, mail):
        self.mail = mail
        self.generator = Generator(mail) if isinstance(mail, int) else None
        self.pending = []
        self.posted = 0

    def post(self, letter):
        self.pending.append(letter)
        self.posted += 1

    def take(self):
        if self.generator:
            return self.pending.pop(self.generator.draw() % len(self.pending))
        return self.pending.pop(-1 if self.mail == "last" else 0)

    def more(self):
        if self.generator:
            return self.generator.advanced() < 2**63
        return self.mail != "single"


class Rank:
    """One rank: what it has read so far and what it asked for."""

    def __init__(self, me, needs):
        self.me, self.needs = me, needs
        self.is_new = self.is_waiting = True  # before its first step; before the branch lists of all ranks were read
        self.listed = {me}  # the ranks whose branch lists were read
        self.asked = set()
        self.inbox = []

    def step(self):
        """Reads the inbox, and gives the letters to post in their order."""
        asks = defaultdict(set)
        known = []
        for letter in self.inbox:
            if letter.kind == BRANCHES:
                self.listed.add(letter.sender)
            elif letter.kind == ASKS:
                asks[letter.sender].update(letter.keys)
            else:
                known += self.children(letter.keys)
        self.inbox = []
        letters = self.branch_lists() if self.is_new else []
        self.is_new = False
        letters += [self.letter(other, ANSWERS, asks[other]) for other in sorted(asks)]
        if self.is_waiting and len(self.listed) == self.needs.split.ranks:
            self.is_waiting = False
            known += self.needs.split.branches
        return letters + self.new_asks(known)

    def branch_lists(self):
        own = [cell for cell, rank in self.needs.split.branches.items() if rank == self.me]
        return [self.letter(other, BRANCHES, own) for other in range(self.needs.split.ranks) if other != self.me]

    def children(self, keys):
        """The cells with bodies whose records stand in the answers for these keys."""
        inner = [key for key in keys if not self.needs.is_leaf(key)]
        return [8 * key + digit for key in inner for digit in range(8) if 8 * key + digit in self.needs.split.inside]

    def new_asks(self, known):
        """The letters that ask for the needed ones of the cells that this step came to know."""
        asks = defaultdict(set)
        for cell in known:
            if self.needs.needs(self.me, cell):
                assert cell not in self.asked
                self.asked.add(cell)
                asks[self.needs.split.owner(cell)].add(cell)
        return [self.letter(owner, ASKS, asks[owner]) for owner in sorted(asks)]

    def letter(self, receiver, kind, keys):
        return Letter(self.me, receiver, kind, sorted(keys))


def exchange(needs, mail):
    """The number of letters and of rounds, and the cells that each rank asked for."""
    wire = Wire(mail)
    ranks = [Rank(me, needs) for me in range(needs.split.ranks)]
    rounds, is_last = 0, False
    while not is_last:
        for rank in ranks:
            for letter in rank.step() if rank.inbox or rank.is_new else []:
                wire.post(letter)
        is_last = not wire.pending
        is_open = bool(wire.pending)
        while is_open:
            letter = wire.take()
            ranks[letter.receiver].inbox.append(letter)
            is_open = bool(wire.pending) and wire.more()
        rounds += 1
    return wire.posted, rounds, [rank.asked for rank in ranks]
