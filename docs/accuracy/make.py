#!/usr/bin/env python3
"""Makes the tables of docs/ACCURACY.md anew in their places, and the pictures beside this script.

usage: docs/accuracy/make.py [--program PATH --note TEXT] [--count N] [--most N] [PART..]

PART is a part of the page: ratio (with the table of second moments), leaf, scale, time, ranks, field; without one all
are made. The program is the one that `./hot` built; where another one is given, the note says on the page which. N
bodies of each system are taken for the errors (5000), and up to `--most` for the times (100000). Work is told in
instructions, which valgrind counts, and which other programs on the machine do not change; `time` alone takes seconds.
It wants NumPy, matplotlib and valgrind, and takes about half an hour of one processor.
"""

import argparse
import os
import re
import resource
import shutil
import subprocess
import sys
from concurrent.futures import ThreadPoolExecutor
from pathlib import Path

HERE = Path(__file__).resolve().parent
TOP = HERE.parents[1]
sys.path.insert(0, str(TOP / "python"))

import matplotlib
import numpy as np

import hotbodies
from hotbodies.bodies import body_bytes
from hotbodies.direct import Errors, direct_accelerations, relative_errors
from hotbodies.forces import read_forces
from hotbodies.limits import FINE_BITS, KEY_LEVELS
from hotbodies.run import file_forces, run_program
from hotbodies.samples import SAMPLES
from hotbodies.scale import Scale

matplotlib.use("Agg")
import matplotlib.pyplot as plt

PAGE = TOP / "docs" / "ACCURACY.md"
BUILT = TOP / "crates" / "hot" / "out" / "hot"
RATIOS = ("1/10", "2/10", "3/10", "4/10", "5/10", "6/10", "7/10", "8/10", "9/10", "1/1", "6/5")
SHOWN = ("1/10", "3/10", "5/10", "7/10", "9/10", "6/5")
LEAVES = (1, 4, 8, 16, 32, 64)
SIDES = range(29, 12, -1)  # of a box, as powers of two of units
SHOWN_SIDES = range(29, 12, -2)
MASSES = (2**28, 1_024)  # 2^28: the greatest power of two of which 2,500 are within the bound on all mass
COUNTS = (1_000, 2_000, 5_000, 10_000, 20_000, 50_000, 100_000, 200_000)
EPS = 0.01
RANKS = 8  # over which bodies are split and cells asked for
RUNS = 3  # of which the least time counts
plt.rcParams.update({"svg.hashsalt": "hot", "font.size": 9, "figure.constrained_layout.use": True})


def share(number):
    return "0" if number == 0 else f"{number:.1e}"


def table(names, rows):
    """The lines of a table: its names, and its rows of texts."""
    lines = [names, ["---"] + ["---:"] * (len(names) - 1), *rows]
    return ["| " + " | ".join(map(str, line)) + " |" for line in lines]


def save(figure, name):
    """Writes a picture beside this script: curves as SVG, points as PNG."""
    options = {"metadata": {"Date": None}} if name.endswith(".svg") else {"dpi": 110}
    figure.savefig(HERE / name, **options)
    plt.close(figure)
    print(f"  docs/accuracy/{name}: {(HERE / name).stat().st_size // 1024} KB", flush=True)


class Pages:
    """The parts of the page, each of which gives the lines of its table."""

    def __init__(self, program, count, most):
        self.program, self.count, self.most = program, count, most

    def forces(self, data, scale, theta=0.7, **options):
        options = {"softening": scale.softening(EPS), "program": self.program} | options
        return file_forces(data, scale, theta, **options).accelerations()

    def ratio(self):
        figure, axes = plt.subplots(2, len(SAMPLES), figsize=(10, 6.4), sharey=True)
        rows, quotients = [], []
        for (upper, lower), (name, make) in zip(axes.T, SAMPLES.items()):
            data, scale = body_bytes(*make(self.count, 1), eps=EPS)
            asked = [("0/1", 1), *((ratio, moments) for moments in (1, 2) for ratio in ratios_for(moments))]
            runs = self.counted(data, scale, [{"theta": ratio, "moments": moments} for ratio, moments in asked])
            (truth, most), *runs = runs
            found = {key: (Errors.of(relative_errors(it, truth)), count) for key, (it, count) in zip(asked[1:], runs)}
            lower.axvline(most, color="0.5", linestyle="--", label="all pairs")
            for moments in (1, 2):
                known = [(value_of(ratio), *found[ratio, moments]) for ratio in ratios_for(moments)]
                ratios, errors, counts = zip(*known)
                for axis, places in ((upper, ratios), (lower, counts)):
                    ways = {"color": f"C{moments - 1}", "ms": 3}
                    axis.semilogy(places, [it.most for it in errors], "o-", label=f"99 %, moments {moments}", **ways)
                    axis.semilogy(places, [it.median for it in errors], "s:", label=f"median, moments {moments}", **ways)
            upper.set(title=name, xlabel="opening ratio")
            lower.set(xlabel="million instructions", xscale="log")
            rows.append([name, "0", self.asks(data, scale, "0/1"), "0", "0", "0", f"{most:,.0f}", *[""] * 4])
            for ratio in SHOWN:
                rows.append([name, f"{value_of(ratio):g}", self.asks(data, scale, ratio), *cells_of(found, ratio)])
            quotients += quotients_of(name, found)
        for axis in axes.flat:
            axis.grid(alpha=0.3)
        for axis in axes[:, 0]:
            axis.set_ylabel("relative error")
        axes[0, 0].legend()
        axes[1, 0].legend(handles=axes[1, 0].lines[:1])
        save(figure, "ratio.svg")
        heads = ["median", "99 %", "largest", "work"]
        lines = table(["bodies", "ratio", "asks", *heads, *(f"{head}, moments 2" for head in heads)], rows)
        heads = ["bodies", "ratio, moments 2", "work over that of moments 1, same ratio", "99 %, moments 2"]
        heads += ["ratio, moments 1, of that error", "work over that of moments 1, same error"]
        return {"ratio": [*lines, "", how_counted()], "moments": [*table(heads, quotients), "", how_counted()]}

    def counted(self, data, scale, calls):
        """The accelerations of calls with these options, each with the million instructions that it took."""

        def run(options):
            words = ["forces", "--eps", scale.softening(EPS), *(it for key in options for it in (f"--{key}", options[key]))]
            command = ["valgrind", "--tool=callgrind", "--callgrind-out-file=/dev/null", self.program, *map(str, words)]
            got = subprocess.run(command, input=data, capture_output=True, check=True)
            count = int(re.search(rb"Collected\s*:\s*(\d+)", got.stderr)[1])
            print(f"  {' '.join(map(str, words))}: {count / 1e6:,.0f}", flush=True)
            return read_forces(got.stdout, scale).accelerations(), count / 1e6

        with ThreadPoolExecutor(os.cpu_count()) as pool:
            return list(pool.map(run, calls))

    def asks(self, data, scale, ratio):
        """How many cells the ranks ask of each other at a ratio."""
        words = ["forces", "--theta", ratio, "--eps", str(scale.softening(EPS)), "--ranks", str(RANKS), "--report"]
        report = subprocess.run([self.program, *words], input=data, capture_output=True, check=True).stderr.decode()
        return f"{sum(int(asks) for asks in re.findall(r'^rank .* asks (.*)$', report, re.M)):,}"

    def leaf(self):
        rows = []
        for name, make in SAMPLES.items():
            data, scale = body_bytes(*make(self.count, 1), eps=EPS)
            truth = self.forces(data, scale, theta=0)
            runs = self.counted(data, scale, [{"theta": "7/10", "leaf": leaf} for leaf in LEAVES])
            for leaf, (found, count) in zip(LEAVES, runs):
                rows.append([name, leaf, *map(share, numbers(Errors.of(relative_errors(found, truth)))), f"{count:,.0f}"])
        return [*table(["bodies", "leaf", "median", "99 %", "largest", "work"], rows), "", how_counted()]

    def scale(self):
        positions, _ = SAMPLES["uniform box"](self.count // 2, 1)
        truth = direct_accelerations(positions, 1.0, EPS)
        found = {}
        for side in SIDES:
            for mass in MASSES:
                scale = Scale(2.0**-side, 1 / mass, (-(2 ** (FINE_BITS - 1)),) * 3)
                data, _ = body_bytes(positions * (1 - 2.0**-20), 1.0, scale=scale)
                found[side, mass] = Errors.of(relative_errors(self.forces(data, scale, theta=0), truth))
        best, chosen = body_bytes(positions, 1.0, eps=EPS)
        errors = Errors.of(relative_errors(self.forces(best, chosen, theta=0), truth))
        width = np.log2(np.ptp(positions, axis=0).max() / chosen.length)
        figure, axis = plt.subplots(figsize=(6, 3.4))
        for mass in MASSES:
            axis.semilogy(SIDES, [found[side, mass].median for side in SIDES], "o-", ms=3, label=f"masses of {mass:,}")
        axis.semilogy([width], [errors.median], "*", ms=12, label="what the package chooses")
        axis.set(xlabel="side of the box, as a power of two of fine units", ylabel="median of the relative error")
        axis.grid(alpha=0.3)
        axis.legend()
        save(figure, "scale.svg")
        rows = [
            [f"2^{side}", *(share(number) for mass in MASSES for number in numbers(found[side, mass])[:2])]
            for side in SHOWN_SIDES
        ]
        rows.append([f"2^{width:.1f}, chosen", share(errors.median), share(errors.most), "", ""])
        heads = [f"{head}, masses {mass:,}" for mass in MASSES for head in ("median", "99 %")]
        return table(["side of the box", *heads], rows)

    def time(self):
        counts = [count for count in COUNTS if count <= self.most]
        taken = {}
        for name, make in SAMPLES.items():
            for count in counts:
                data, scale = body_bytes(*make(count, 1), eps=EPS)
                words = ["forces", "--theta", "7/10", "--eps", scale.softening(EPS)]
                _, taken[name, count] = timed(lambda: run_program(words, data, self.program))
                print(f"  {name}, {count} bodies: {taken[name, count]:.2f} s", flush=True)
        figure, axis = plt.subplots(figsize=(6, 3.4))
        for name in SAMPLES:
            axis.loglog(counts, [taken[name, count] for count in counts], "o-", ms=3, label=name)
        axis.set(xlabel="bodies", ylabel="processor seconds, ratio 0.7")
        axis.grid(alpha=0.3)
        axis.legend()
        save(figure, "time.svg")
        rows = [[f"{count:,}", *(f"{taken[name, count]:.2f}" for name in SAMPLES)] for count in counts]
        picture = "![Processor seconds against bodies](accuracy/time.svg)"
        return [*table(["bodies", *SAMPLES], rows), "", picture, "", how_timed()]

    def ranks(self):
        positions, masses = SAMPLES["two clusters"](self.count, 1)
        data, scale = body_bytes(positions, masses, eps=EPS)
        text = run_program(["split", "--ranks", RANKS], data, self.program).decode()
        owners = rank_of_bodies(text, data)
        figure, axis = plt.subplots(figsize=(7, 4.6))
        points = axis.scatter(*positions[:, :2].T, c=owners, s=3, cmap=plt.get_cmap("tab10", 10), vmin=-0.5, vmax=9.5)
        figure.colorbar(points, ax=axis, label="rank", ticks=range(RANKS), boundaries=np.arange(-0.5, RANKS))
        axis.set(xlim=(-4, 8), ylim=(-4, 5), aspect="equal", xlabel="x", ylabel="y")
        save(figure, "ranks.png")
        lines = [line.split() for line in text.splitlines() if line.startswith("rank ")]
        return table(["rank", "bodies", "branch cells"], [[line[1], line[3], line[7]] for line in lines])

    def field(self):
        bodies = hotbodies.read_bodies(TOP / "examples" / "cluster.sdf")
        data = (TOP / "examples" / "cluster.sdf").read_bytes()
        pulls = file_forces(data, bodies.scale, softening=1, program=self.program).accelerations()
        sizes = np.log10(np.linalg.norm(pulls, axis=1))
        ways = pulls[:, :2] / np.linalg.norm(pulls[:, :2], axis=1)[:, None]
        places = bodies.positions
        gaps = np.linalg.norm(places[:, None] - places[None], axis=2)
        in_clump = (gaps < gaps.max() / 20).sum(axis=1) > 5
        is_right = places[:, 0] > places[in_clump, 0].mean()
        parts = {
            "all, with arrows outside of the clumps": (slice(None), ~in_clump),
            "one clump": (in_clump & ~is_right,) * 2,
            "the other clump": (in_clump & is_right,) * 2,
        }
        figure, axes = plt.subplots(1, len(parts), figsize=(11, 3.6))
        for axis, (title, (part, shown)) in zip(axes, parts.items()):
            axis.scatter(*places[part, :2].T, s=4 + bodies.masses[part] / bodies.masses.max() * 30, color="0.6")
            low, high = places[part, :2].min(axis=0), places[part, :2].max(axis=0)
            middle, half = (low + high) / 2, 0.65 * (high - low).max()
            arrows = axis.quiver(
                *places[shown, :2].T, *ways[shown].T, sizes[shown], angles="xy", scale=9, width=0.008
            )
            arrows.set_clim(sizes.min(), sizes.max())
            axis.set(title=title, aspect="equal", xlabel="x, units of the file", ylabel="y")
            axis.set(xlim=middle[0] + half * np.array([-1, 1]), ylim=middle[1] + half * np.array([-1, 1]))
            axis.ticklabel_format(style="sci", scilimits=(0, 0))
        figure.colorbar(arrows, ax=axes, label="log10 of the acceleration, per unit mass, G = 1")
        save(figure, "field.svg")
        return []


def value_of(ratio):
    number, over = map(int, ratio.split("/"))
    return number / over


def ratios_for(moments):
    """The ratios that the program takes with so many moments."""
    return [ratio for ratio in RATIOS if moments == 1 or value_of(ratio) <= 1]


def numbers(errors):
    return [errors.median, errors.most, errors.largest]


def cells_of(found, ratio):
    """The cells of a row: errors and work with one moment and with two; empty where there are none."""
    cells = []
    for moments in (1, 2):
        if (ratio, moments) in found:
            errors, count = found[ratio, moments]
            cells += [*map(share, numbers(errors)), f"{count:,.0f}"]
        else:
            cells += [""] * 4
    return cells


def quotients_of(name, found):
    """The rows that compare the work of second moments with that of the first, at one ratio and at one error.

    Between two ratios the logarithms of ratio and work are taken to grow evenly with that of the error; beyond them
    nothing is told.
    """
    firsts = [(value_of(ratio), *found[ratio, 1]) for ratio in ratios_for(1)]
    logs = np.log([[errors.most, ratio, count] for ratio, errors, count in firsts])
    logs = logs[np.argsort(logs[:, 0])]
    rows = []
    for ratio in SHOWN:
        if (ratio, 2) not in found:
            continue
        errors, count = found[ratio, 2]
        row = [name, f"{value_of(ratio):g}", f"{count / found[ratio, 1][1]:.2f}", share(errors.most)]
        if logs[0, 0] <= np.log(errors.most) <= logs[-1, 0]:
            same, work = (np.exp(np.interp(np.log(errors.most), logs[:, 0], logs[:, k])) for k in (1, 2))
            row += [f"{same:.2f}", f"{count / work:.2f}"]
        else:
            row += ["", ""]
        rows.append(row)
    return rows


def timed(call):
    """What a call gives, and the processor seconds of the programs that it ran, the least of some runs."""
    used = lambda: sum(resource.getrusage(resource.RUSAGE_CHILDREN)[:2])  # user and system
    taken = []
    for _ in range(RUNS):
        begin = used()
        found = call()
        taken.append(used() - begin)
    return found, min(taken)


def how_counted():
    """A line on what work is."""
    return "Work is in millions of instructions of the program on one rank, from the body file to the output."


def how_timed():
    """A line on how times were taken, and where."""
    names = re.findall(r"^model name\s*: (.*)", Path("/proc/cpuinfo").read_text(encoding="utf-8"), re.M)
    machine = f"{os.cpu_count()} processors" + (f" ({names[0]})" if names else "")
    return (
        f"Seconds are processor seconds of the program, user and system, on one rank, the least of {RUNS} runs. The machine"
        f" has {machine}, and its load average was {os.getloadavg()[0]:.0f}."
    )


def body_keys(data):
    """The keys of the bodies of a file, uint64: 1, and then an octal digit 4 x + 2 y + z for each level."""
    bodies = hotbodies.read_bodies(data)
    places = np.stack([bodies.rows[axis].astype(np.int64) for axis in "xyz"], axis=1) - np.array(bodies.scale.corner)
    fine = places << FINE_BITS - bodies.scale.bits
    keys = np.ones(len(fine), dtype=np.uint64)
    for level in range(1, KEY_LEVELS + 1):
        bits = (fine >> FINE_BITS - level & 1).astype(np.uint64)
        keys = keys * np.uint64(8) + bits @ np.array([4, 2, 1], dtype=np.uint64)
    return keys


def rank_of_bodies(text, data):
    """The rank of each body of a file, by the branch cells that a split shows."""
    branches = {}
    for line in text.splitlines():
        words = line.split()
        if words[0] == "branch":
            branches[int(words[1])] = int(words[3])
    ranks = []
    for key in body_keys(data).tolist():
        while key not in branches:
            key >>= 3
        ranks.append(branches[key])
    return np.array(ranks)


def put(page, name, lines):
    """The page with the lines of a table between its two marks."""
    marks = re.compile(rf"(<!-- {name} -->\n).*?(<!-- end of {name} -->)", re.S)
    if not marks.search(page):
        sys.exit(f"docs/ACCURACY.md has no place for the table {name}")
    return marks.sub(lambda found: found[1] + "".join(f"{line}\n" for line in lines) + found[2], page)


def main():
    parts = ("ratio", "leaf", "scale", "time", "ranks", "field")
    parser = argparse.ArgumentParser()
    parser.add_argument("--program", default=str(BUILT))
    parser.add_argument("--note", default="of the proved program")
    parser.add_argument("--count", type=int, default=5_000)
    parser.add_argument("--most", type=int, default=100_000)
    parser.add_argument("parts", nargs="*", metavar="PART", help=" ".join(parts))
    options = parser.parse_args()
    if options.program != str(BUILT) and options.note == parser.get_default("note"):
        parser.error("--program wants a --note, which says on the page which program it is")
    if not shutil.which("valgrind"):
        parser.error("valgrind is missing")
    pages = Pages(options.program, options.count, options.most)
    for part in options.parts or parts:
        print(part, flush=True)
        made = getattr(pages, part)()
        for name, lines in (made if isinstance(made, dict) else {part: made}).items():
            if lines:
                lines = [*lines, "", f"These numbers are those {options.note}."]
                PAGE.write_text(put(PAGE.read_text(encoding="utf-8"), name, lines), encoding="utf-8")


if __name__ == "__main__":
    main()
