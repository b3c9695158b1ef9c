#!/usr/bin/env python3
"""Proves the libraries below a crate side by side, and keeps what it proves, as `rt lib` in each of them does.

usage: tools/prove.py CRATE

`rt lib` locks all that lies below a crate, so two of them wait for each other; `rt all check` gives each crate one
processor, and starts first those with few crates below them. Here the crate with the longest chain of others above it may
use all processors, and the others fill what it leaves: as many crates at a time as there are processors and memory for.
RT_JOBS is the number at a time where it is set.

Of each crate that is done it writes a line `== NAME` and what rattle said, nothing where it was built already. It ends at
the first failure, with status 1. The status is 3 where the kit's `rt` has no such scheduler.
"""

import functools
import importlib.machinery
import importlib.util
import os
import re
import shutil
import sys
import tempfile
import threading
import time
import traceback

TOP = os.path.dirname(os.path.dirname(os.path.abspath(__file__)))
WANTED = {"rt": ("need", "processors", "free", "rtlib"), "rtlib": ("Crate", "guarded", "lock", "root_above", "stop_on_links", "stop_on_text", "files_of")}
NO_SCHEDULER = 3
QUICK = "quick"
printing = threading.Lock()


def load_rt():
    """The command `rt` as a module, or None where it is none, or lacks what is used here."""
    try:
        loader = importlib.machinery.SourceFileLoader("rt", os.path.realpath(shutil.which("rt")))
        made = importlib.util.module_from_spec(importlib.util.spec_from_loader("rt", loader))
        loader.exec_module(made)
        has_all = all(hasattr(made, it) for it in WANTED["rt"]) and all(hasattr(made.rtlib, it) for it in WANTED["rtlib"])
        return made if has_all else None
    except Exception:  # whatever a stranger's file does
        return None


def end_with(parent):
    """Ends this process, and with it all that rt started, once the process that started it is gone."""
    while os.getppid() == parent:
        time.sleep(1)
    os._exit(1)


def tell(name, said, status=0):
    """Writes the lines of a crate; a failure ends everything."""
    with printing:
        print(f"== {name}\n{said}", end="", flush=True)
        if status:
            print(f"== summary\n{name}: failed ({status})", flush=True)
            os._exit(1)


def work(crate, step, _given, jobs):
    """Does a step of the crate with so many processors, and tells what was said."""
    try:
        with tempfile.TemporaryFile("w+", errors="replace") as crate.out:
            status = step(jobs)
            crate.out.seek(0)
            said = crate.out.read()
        if status or not crate.is_program:
            tell(crate.name, said, status)
        return True
    except BaseException:
        traceback.print_exc()
        os._exit(2)


def noted_times():
    """The processor seconds of the check of each crate, as the table of CONTRIBUTING.md has them."""
    try:
        with open(os.path.join(TOP, "CONTRIBUTING.md"), encoding="utf-8") as file:
            return {name: int(check) for name, check in re.findall(r"^\| (\w+) \| (\d+) \| [^|]+ \| [^|]+ \| [\d.]+ \|$", file.read(), re.M)}
    except OSError:
        return {}


def weight(rtlib, crate, noted):
    """About how long a crate takes, in processor seconds: as noted, else by its lines: 28 of a proof, or 7 of code, a second."""
    proofs = sum(rtlib.text_of(it).count("\n") for it in rtlib.files_of(crate.folder) if it.endswith(".antt"))
    return noted.get(crate.name) or (4 * crate.count(rb"\n") + proofs) // 28


class Lanes:
    """Tasks side by side, each once those that it waits for have ended: first the one with the longest chain of others behind it."""

    # The most jobs that one proof can use, what each further one takes of its memory, and how much the others give way.
    MOST_JOBS, MORE_MEMORY, GIVE_WAY = 4, 0.6, 10

    def __init__(self, rt, tasks):
        number = os.environ.get("RT_JOBS", "")
        self.lanes = int(number) if number.isdigit() and int(number) > 0 else rt.processors()
        self.memory, self.tasks = 0.85 * rt.free(), tasks
        self.behind = self.chains()
        self.left, self.running, self.given = sorted(tasks, key=lambda it: -self.behind[it]), {}, {}
        self.changed = threading.Condition()

    def chains(self):
        """The work of a task with that of the longest chain behind it. Each task comes after those that it waits for."""
        behind = dict.fromkeys(self.tasks, 0)
        for key in reversed([*self.tasks]):
            behind[key] += self.tasks[key][1]
            for it in self.tasks[key][0]:
                behind[it] = max(behind[it], behind[key])
        return behind

    def jobs_of(self, key, ready):
        """How many processors a task may use: all where no other has a longer chain behind it, else what the others do not need."""
        is_first = all(self.behind[it] <= self.behind[key] for it in [*self.running, *ready] if it[1] != QUICK)
        wanted = self.lanes if is_first else (self.lanes - len(self.running)) // max(len(ready), 1)
        room = (self.memory - sum(self.running.values())) / self.tasks[key][2]
        return max(1, min(self.MOST_JOBS, wanted, 1 + int((room - 1) / self.MORE_MEMORY))), is_first

    def run_one(self, key, jobs, is_first):
        if not is_first and self.lanes > 1:
            # (what it starts has this thread's priority)
            os.setpriority(os.PRIO_PROCESS, threading.get_native_id(), self.GIVE_WAY)
        done = self.tasks[key][3](self.given, jobs)
        with self.changed:
            self.given[key] = done
            del self.running[key]
            self.changed.notify()

    def start(self):
        """Starts what may run now."""
        ready = [it for it in self.left if all(below in self.given for below in self.tasks[it][0])]
        while ready and len(self.running) < self.lanes:
            key, needs = ready[0], self.tasks[ready[0]][2]
            if self.running and needs > self.memory - sum(self.running.values()):
                return
            jobs, is_first = self.jobs_of(key, ready)
            self.left.remove(ready.pop(0))
            self.running[key] = needs * (1 + self.MORE_MEMORY * (jobs - 1))
            threading.Thread(target=self.run_one, args=(key, jobs, is_first), daemon=True).start()

    def run(self):
        with self.changed:
            while self.left or self.running:
                self.start()
                self.changed.wait()


def main():
    rt = load_rt()
    if not rt:
        return NO_SCHEDULER
    threading.Thread(target=end_with, args=(os.getppid(),), daemon=True).start()
    rtlib, folder = rt.rtlib, os.path.join(TOP, "crates", sys.argv[1])
    # (before other threads run, as rt asks)
    rtlib.guarded()
    top = rtlib.Crate(folder, rtlib.root_above(folder), {})
    crates = [*top.below(), top]
    _held = rtlib.lock(crates)
    for crate in crates:
        rtlib.stop_on_links(crate.folder)
        rtlib.stop_on_text(crate, "check")
    build = lambda crate: lambda jobs: crate.build_rlib(["--jobs", str(jobs)], anew=False)
    # a quick pass over all sources, for what needs no proof to find
    tasks = {(top.name, QUICK): ([], 10**6, 1_500_000_000, functools.partial(work, top, lambda _: top.front_end()))}
    noted = noted_times()
    for crate in top.below():
        waits = [(it.name, "proof") for it in crate.below()]
        tasks[crate.name, "proof"] = (waits, weight(rtlib, crate, noted), rt.need(crate), functools.partial(work, crate, build(crate)))
    Lanes(rt, tasks).run()
    return 0


if __name__ == "__main__":
    sys.exit(main())
