#!/usr/bin/env python3
"""Checks the documents: README.md, CONTRIBUTING.md, docs/, the README of each crate and that of python/.

usage: tools/check_docs.py [--program PATH]

- Each link resolves: the file is there, and the heading. Where a link goes to a source, each name in its text stands
  there.
- In the READMEs of the crates and in the documents of NAMED each name in code type is a word of the sources.
- Each crate has a README and a row in README.md; each must-fail edit has a row in its crate's README, and each row an
  edit. A time that stands in a README is that of the table in CONTRIBUTING.md. The picture is that of tools/house.
- A block ```console is run, line by line of those that begin with `$ `, with errors behind output, and what comes is
  compared; a line `...` stands for any lines. So is a command `./hot ..` in the text, which has to end with status 0.
  A block ```python runs before what stands behind it (one of ```py, which needs NumPy, does not run). All run in one
  folder for each document, that has what the repository has. They are left out where the program is not built from the source as it is; --program names another.
- Of a block ```sh, which may take long, no line is run: each command has to be there, each verb of `rt` too, and each
  path.
"""

import argparse
import glob
import os
import re
import shutil
import subprocess
import sys
import tempfile
from functools import cache

TOP = os.path.dirname(os.path.dirname(os.path.abspath(__file__)))
NAMED = ("docs/PROOFS.md", "docs/MODEL.md", "docs/ARCHITECTURE.md")
BUILTINS = ("cd", "export", "for", "source")
SECONDS = 60
TIME = r"\*\*Time:\*\* `rt check` from nothing takes (\d+) processor seconds"
ROW = r"^\| (\w+) \| (\d+) \| (\d+) \| (\d+) \|"
wrong = []


def tell(document, text):
    wrong.append(f"{document}: {text}")


def read(name):
    with open(os.path.join(TOP, name), encoding="utf-8") as file:
        return file.read()


def documents():
    """The documents by their names from the top."""
    named = lambda pattern: sorted(os.path.relpath(it, TOP) for it in glob.glob(os.path.join(TOP, pattern)))
    return ["README.md", "CONTRIBUTING.md", *named("docs/*.md"), *named("crates/*/README.md"), "python/README.md"]


def blocks(text):
    """The fenced blocks: their kind and their text."""
    return re.findall(r"^```(\w*)\n(.*?)^```$", text, re.M | re.S)


def prose(text):
    """The text without its fenced blocks."""
    return re.sub(r"^```.*?^```$", "", text, flags=re.M | re.S)


@cache
def headings(name):
    """The addresses of the headings of a document."""
    heads = re.findall(r"^#+ (.*)$", prose(read(name)), re.M)
    return {re.sub(r"[^\w\- ]", "", head.lower()).replace(" ", "-") for head in heads}


def check_links(name, text):
    for label, target in re.findall(r"\[([^\]]*)\]\(([^)\s]*)\)", prose(text)):
        path, _, place = target.partition("#")
        if re.match(r"\w+:", target):
            continue
        file = os.path.normpath(os.path.join(os.path.dirname(name), path)) if path else name
        if not os.path.exists(os.path.join(TOP, file)):
            tell(name, f"the link {target} leads nowhere")
        elif place and place not in headings(file):
            tell(name, f"the link {target} names no heading")
        elif file.endswith((".rt", ".antt")):
            words = set(re.findall(r"[\w']+", read(file)))
            for it in re.findall(r"`([\w:]+)`", label):
                if it.split("::")[-1] not in words:
                    tell(name, f"{it} does not stand in {file}")


@cache
def words():
    """All words of the sources, with those of crates.txt."""
    paths = glob.glob(os.path.join(TOP, "crates/*/s*c*/**/*"), recursive=True)
    paths += glob.glob(os.path.join(TOP, "crates/*/proofs/**/*"), recursive=True)
    paths += glob.glob(os.path.join(TOP, "tools/**/*.py"), recursive=True)
    paths += glob.glob(os.path.join(TOP, "python/**/*.py"), recursive=True)
    found = set()
    for path in [*paths, os.path.join(TOP, "crates.txt")]:
        found |= set(re.split(r"[^\w:.'-]+", os.path.basename(path).rpartition(".")[0]))
        if path.endswith((".rt", ".antt", ".py", ".txt")):
            found |= set(re.findall(r"[\w']+(?:-[\w']+)*", read(path)))
    return found


def check_names(name, text):
    for it in re.findall(r"`([A-Za-z_][\w:'-]*)`", prose(text)):
        for part in it.split("::"):
            if len(part) > 3 and part not in words() and not os.path.exists(os.path.join(TOP, it)):
                tell(name, f"`{it}` stands in no source")


def check_crates():
    crates = re.findall(r"^(\w+)(?: [^:]*)?:", read("crates.txt"), re.M)
    times = dict(re.findall(r"^\| (\w+) \| (\d+) \|", read("CONTRIBUTING.md"), re.M))
    for crate in crates:
        name = f"crates/{crate}/README.md"
        if f"| [{crate}]({name}) |" not in read("README.md"):
            tell("README.md", f"the table has no row for {crate}")
        if not os.path.exists(os.path.join(TOP, name)):
            tell(name, "is missing")
            continue
        rows = re.split(r"^\| Must-fail edit .*\n", read(name), flags=re.M)[1:]
        rows = re.findall(r"^\| (\w+) \|", rows[0], re.M) if rows else []
        edits = [os.path.basename(it)[:-5] for it in glob.glob(os.path.join(TOP, f"crates/{crate}/must-fail/*.edit"))]
        for it in sorted(set(edits) ^ set(rows)):
            tell(name, f"{it} has no row" if it in edits else f"there is no edit {it}")
        time = re.search(TIME, read(name))
        if time and time[1] != times.get(crate):
            tell(name, f"the time is {time[1]} here, and {times.get(crate)} in CONTRIBUTING.md")


def is_built():
    command = 'top=$1; . "$1/tools/parts.sh" && is_built'
    return subprocess.run(["bash", "-c", command, "-", TOP], check=False).returncode == 0


def furnish(folder, program):
    """Puts what the top of the repository has into a folder, with a program as `./hot` where one is named."""
    for it in os.listdir(TOP):
        if it != ".git" and not (program and it == "hot"):
            os.symlink(os.path.join(TOP, it), os.path.join(folder, it))
    if program:
        os.symlink(os.path.abspath(program), os.path.join(folder, "hot"))


def run(command, folder):
    """The status of a command, and its output with the errors behind it, as text."""
    got = subprocess.run(["bash", "-c", command], cwd=folder, capture_output=True, check=False, timeout=SECONDS,
                         stdin=subprocess.DEVNULL)
    return got.returncode, (got.stdout + got.stderr).decode(errors="replace")


def run_console(name, text, folder):
    """Runs the commands of a block, and compares what they write."""
    for part in re.split(r"^\$ ", text, flags=re.M)[1:]:
        command, _, wanted = part.partition("\n")
        status, got = run(command, folder)
        lines = ["(?:.*\n)*?" if it == "..." else re.escape(it) + "\n" for it in wanted.splitlines()]
        if not re.fullmatch("".join(lines), got):
            tell(name, f"`{command}` (status {status}) writes\n{got[:600]}")
        yield command


def run_python(name, text, folder):
    got = subprocess.run([sys.executable, "-c", text], cwd=folder, capture_output=True, check=False, timeout=SECONDS)
    if got.returncode and b"ModuleNotFoundError" not in got.stderr:
        tell(name, f"a block of Python fails: {got.stderr.decode()[-300:]}")


def run_document(name, text, program):
    """Runs what a document shows, and gives the commands."""
    with tempfile.TemporaryDirectory(prefix="hot-docs-") as folder:
        furnish(folder, program)
        for kind, block in blocks(text):
            if kind == "console":
                yield from run_console(name, block, folder)
            if kind == "python":
                run_python(name, block, folder)
        for command in re.findall(r"`(\./hot [^`]*)`", prose(text)):
            # (not a form, as of words in capitals)
            if not re.search(r"\.\.|\[|\||\b[A-Z]+\b", command):
                status, got = run(command.replace("\n", " "), folder)
                if status:
                    tell(name, f"`{command}` ends with status {status}: {got[-300:]}")
                yield command


@cache
def help_of_rt():
    """What `rt help` says, or None where there is no rt."""
    if not shutil.which("rt"):
        return None
    return subprocess.run(["rt", "help"], stdout=subprocess.PIPE, stderr=subprocess.STDOUT, check=False).stdout.decode()


def check_shell(name, text):
    """The commands of a block that is not run are there, and so are the files that they name."""
    folder = "."
    for line in text.splitlines():
        parts = line.split("#")[0].replace("&&", ";").split(";")
        for part in filter(None, (it.split() for it in parts)):
            first = part[0]
            if first == "cd":
                folder = os.path.normpath(os.path.join(folder, part[1]))
            at = os.path.join(TOP, folder)
            is_there = shutil.which(first) or first in BUILTINS or os.access(os.path.join(at, first), os.X_OK)
            if not is_there and not (first == "rt" and help_of_rt() is None):
                tell(name, f"there is no command {first}")
            if first == "rt" and help_of_rt() and not re.search(rf"\b{part[1]}\b", help_of_rt()):
                tell(name, f"rt knows no {part[1]}")
            for it in part[1:] if first != "cd" else []:
                is_path = re.match(r"(?:\.\./)*(?:crates|tools|docs|examples)/[\w./-]*$", it)
                if is_path and not os.path.exists(os.path.join(at, it)):
                    tell(name, f"there is no {it}")
    if not os.path.isdir(os.path.join(TOP, folder)):
        tell(name, f"there is no folder {folder}")


def main():
    parser = argparse.ArgumentParser()
    parser.add_argument("--program")
    options, _ = parser.parse_known_args()
    can_run = bool(options.program) or is_built()
    ran = []
    for name in documents():
        text = read(name)
        check_links(name, text)
        if name in NAMED or name.startswith("crates/"):
            check_names(name, text)
        for kind, block in blocks(text):
            if kind == "sh":
                check_shell(name, block)
        if can_run:
            ran += run_document(name, text, options.program)
    check_crates()
    if subprocess.run([os.path.join(TOP, "tools", "house"), "--check"], check=False).returncode:
        wrong.append("docs/house.svg: is not that of crates.txt")
    for it in wrong:
        print(f"tools/check: {it}", file=sys.stderr)
    commands = f"{len(ran)} commands ran" if can_run else "the program is not built, so no command was run"
    print(f"{len(documents())} documents: {commands}, {len(wrong)} faults")
    return 1 if wrong else 0


if __name__ == "__main__":
    sys.exit(main())
