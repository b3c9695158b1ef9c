#!/usr/bin/env python3
"""Adds up the processor time of a gate, or of a build, by crate and by what it was spent on.

usage: tools/gate_times.py [--every SECONDS] COMMAND WORD..   runs the command, as `.ci/run` or `rt all check`
       tools/gate_times.py [--every SECONDS] --pid PID        watches a process that runs already, until it ends

It looks at /proc once a second, follows the processes that the command starts, and tells rattle's runs apart by their
words and their folder: the first check of a crate, its tests' check, its must-fail edits, and what compiles and links.
At the end it prints a table on standard error, the crate that takes most first. What a process took after it was last
seen is missing, so short runs count too little; the last line says how much was seen of all that was taken.
Memory is what a run and its copies held together, pages that they share counted for each. The exit status is that of
the command.
"""

import argparse
import collections
import os
import re
import signal
import subprocess
import sys
import time

TICKS = os.sysconf("SC_CLK_TCK")
PAGE = os.sysconf("SC_PAGE_SIZE")
KINDS = ("check", "tests", "edits", "build", "run", "quick")
Process = collections.namedtuple("Process", "pid parent own waited start resident")


class Run:
    """One top process of a crate with all that it starts: what it is, when it was seen, what it took."""

    def __init__(self, crate, kind, now):
        self.crate, self.kind, self.first, self.last = crate, kind, now, now
        self.seconds, self.memory = 0.0, 0

    def saw(self, seconds, memory, now):
        self.seconds, self.memory, self.last = max(self.seconds, seconds), max(self.memory, memory), now


def read(file):
    """The bytes of a file of /proc, or none where the process has gone."""
    try:
        with open(file, "rb") as it:
            return it.read()
    except OSError:
        return b""


def folder_of(pid):
    try:
        return os.readlink(f"/proc/{pid}/cwd")
    except OSError:
        return ""


def processes():
    """All processes of the machine by their number."""
    found = {}
    for name in os.listdir("/proc"):
        if name.isdigit():
            # (the name of a program stands in brackets and may hold any byte)
            said = read(f"/proc/{name}/stat").rpartition(b")")[2].split()
            if len(said) > 21:
                own, waited = int(said[11]) + int(said[12]), int(said[13]) + int(said[14])
                it = Process(int(name), int(said[1]), own / TICKS, waited / TICKS, int(said[19]), int(said[21]) * PAGE)
                found[it.pid] = it
    return found


def below(root, all_of_them):
    """The processes below this one, each behind the one that started it."""
    children = collections.defaultdict(list)
    for it in all_of_them.values():
        children[it.parent].append(it)
    found = list(children[root])
    for it in found:
        found += children[it.pid]
    return found


def kind_of(words, folder):
    """The crate of a command and what it does there, or None for one that only starts others."""
    program = os.path.basename(words[0]) if words else ""
    crate = re.search(r"/crates/([^/]+)", folder)
    if program == "rattle" and "--crate-name" in words[:-1]:
        name = words[words.index("--crate-name") + 1]
        if os.path.basename(folder).startswith("rt-edit-"):
            return name, "edits"
        if "--test" in words:
            return name, "tests"
        if "--crate-checked" in words:
            return name, "build"
        return name, "quick" if "--only" in words else "check"
    if program == "rattle-link" and crate:
        return crate[1], "build"
    ran = re.match(r".*/rt-run-[^/]*/bin/(\w+?)(_tests)?$", words[-1] if program == "rattle-test" else words[0] if words else "")
    return (ran[1], "run") if ran else None


def sample(root, runs, now):
    """Looks once at all processes below the root, and adds what they took to their runs."""
    found = processes()
    tops = {}
    for it in below(root, found):
        key = it.pid, it.start
        if it.parent in tops:
            tops[it.pid] = tops[it.parent]
        else:
            if key not in runs:
                words = read(f"/proc/{it.pid}/cmdline").decode(errors="replace").split("\0")[:-1]
                said = kind_of(words, folder_of(it.pid))
                if not said:
                    continue
                runs[key] = Run(*said, now)
            tops[it.pid] = key
    taken = collections.defaultdict(lambda: [0.0, 0])
    for pid, key in tops.items():
        taken[key][0] += found[pid].own + found[pid].waited
        taken[key][1] += found[pid].resident
    for key, (seconds, memory) in taken.items():
        runs[key].saw(seconds, memory, now)
    return root in found and found[root]


def table(runs, taken, passed):
    """The lines of the table, by crate, the one that takes most first."""
    crates = collections.defaultdict(lambda: collections.defaultdict(list))
    for it in runs.values():
        crates[it.crate][it.kind].append(it)
    total = lambda runs: sum(it.seconds for it in runs)
    whole = lambda kinds: sum(map(total, kinds.values()))
    yield "processor seconds (check and tests: wall seconds in brackets; memory: the most that one run held)"
    yield f"{'crate':16}{'check':>13}{'tests':>13}{'edits':>8}{'runs':>6}{'build':>7}{'run':>6}{'quick':>7}{'all':>8}{'memory':>9}"
    for name, kinds in sorted(crates.items(), key=lambda it: -whole(it[1])):
        wall = lambda kind: sum(it.last - it.first for it in kinds[kind])
        both = "".join(f"{total(kinds[it]):7.0f} ({wall(it):3.0f})" for it in ("check", "tests"))
        most = max(it.memory for each in kinds.values() for it in each) / 1e9
        rest = f"{total(kinds['edits']):8.0f}{len(kinds['edits']):6}{total(kinds['build']):7.0f}{total(kinds['run']):6.0f}{total(kinds['quick']):7.0f}"
        yield f"{name:16}{both}{rest}{whole(kinds):8.0f}{most:6.1f} GB"
    sums = {kind: sum(total(kinds[kind]) for kinds in crates.values()) for kind in KINDS}
    seen = sum(sums.values())
    yield f"all: {', '.join(f'{kind} {sums[kind]:.0f}' for kind in KINDS)}; together {seen:.0f} processor seconds"
    of = f" of {taken:.0f} taken" if taken else ""
    yield f"seen {seen:.0f}{of} processor seconds, in {passed / 60:.1f} minutes"


def main():
    parser = argparse.ArgumentParser(usage=__doc__.partition("usage: ")[2].partition("\n\n")[0])
    parser.add_argument("--every", type=float, default=1.0)
    parser.add_argument("--pid", type=int)
    parser.add_argument("command", nargs=argparse.REMAINDER)
    options = parser.parse_args()
    if bool(options.command) == bool(options.pid):
        parser.error("give a command, or --pid and the number of a process")
    runs, begin, taken, started = {}, time.monotonic(), 0, None
    if options.command:
        started = subprocess.Popen(options.command)
        # (the command gets these from the terminal or below, and the table still comes)
        signal.signal(signal.SIGINT, signal.SIG_IGN)
        signal.signal(signal.SIGTERM, lambda *_: started.terminate())
    root = started.pid if started else options.pid
    try:
        while not (started and started.poll() is not None):
            last = sample(root, runs, time.monotonic() - begin)
            if not last:
                break
            taken = last.own + last.waited
            time.sleep(options.every)
    except KeyboardInterrupt:
        pass
    if started:
        used = os.times()
        taken = used.children_user + used.children_system
    for line in table(runs, taken, time.monotonic() - begin):
        print(line, file=sys.stderr)
    if not started:
        return 0
    return started.returncode if started.returncode >= 0 else 128 - started.returncode


if __name__ == "__main__":
    sys.exit(main())
