"""What is told of a run over ranks: the report, and the line of a sample."""

from reference.exchange import exchange
from reference.needed import Needs
from reference.split import Split

EAGER, MOST_ROUNDS = ("prompt", "last"), 44  # the mails by which a round takes all letters, and its rounds at most

class Run:
    """A run over ranks: what each opens and needs by the definitions, and the letters and rounds of the exchange."""

    def __init__(self, bodies, results, options):
        self.split = Split(bodies, options["--ranks"])
        self.needs = Needs(self.split, results, options["--leaf"])
        self.needed = [self.needs.needed(rank) for rank in range(self.split.ranks)]
        self.letters, self.rounds, asked = exchange(self.needs, options["--mail"])
        assert asked == self.needed, "the ranks did not ask for what they need"
        assert self.rounds <= self.needs.bound(), "the rounds are above the bound"
        assert self.rounds <= MOST_ROUNDS or options["--mail"] not in EAGER, "the rounds are above those of the levels"


def report_text(run):
    lines = ["# hot report 1"]
    for rank, needed in enumerate(run.needed):
        bodies = run.split.rank_of.count(rank)
        lines.append(f"rank {rank} bodies {bodies} opened {run.needs.opened[rank]} asks {len(needed)}")
    lines += [f"branch {cell} rank {rank}" for cell, rank in run.split.branches.items()]
    lines.append(f"letters {run.letters} rounds {run.rounds} cells {run.needs.cells()} bound {run.needs.bound()}")
    return "".join(f"{line}\n" for line in [*lines, "# end report"])


def sample_text(bodies, results, options):
    run = Run(bodies, results, options)
    opened, asks = sum(run.needs.opened), sum(len(needed) for needed in run.needed)
    sums = [sum(force[axis] for force, _ in results) for axis in range(3)]
    return (
        f"sample bodies {len(bodies)} seed {options['--seed']} ranks {options['--ranks']}"
        f" opened {opened} asks {asks} cells {run.needs.cells()} letters {run.letters} rounds {run.rounds}"
        f" sum {sums[0]} {sums[1]} {sums[2]}\n"
    )
