"""Runs many cases through the program's source without proof, by one call of `rt try --cases`."""

import os
import re
import subprocess
import sys
import tempfile


def can_try(case):
    """Whether `rt try` can run a case: words that are lines of text, none of a file, an input that is not too long, not
    too many bodies, and an output of lines, since it ends the last one."""
    words = [word for word in case.words if isinstance(word, str)]
    plain = all(word.strip() == word != "" and "\n" not in word and "{}" not in word for word in words)
    if case.kind == "large" or case.files or case.room or case.broken or len(case.stdin) >= 1 << 19:
        return False
    prints_lines = words[:1] != ["make"] and "sdf" not in words
    return bool(words) and plain and len(words) == len(case.words) and prints_lines


def run_unproved(top, cases):
    """The status, output and error stream of each case."""
    with tempfile.TemporaryDirectory(prefix="hot-cases-") as folder:
        for k, case in enumerate(cases):
            name = os.path.join(folder, f"{k:06}")
            with open(name, "wb") as file:
                file.write(case.stdin)
            with open(f"{name}.args", "w", encoding="utf-8") as file:
                file.write("".join(f"{word}\n" for word in case.words))
        command = [os.environ.get("RT", "rt"), "try", "--cases", folder]
        got = subprocess.run(command, capture_output=True, check=False, cwd=os.path.join(top, "crates", "hot"))
    outs = re.split(rb"^== \d{6}\n", got.stdout, flags=re.M)[1:]
    errs = re.findall(rb"(.*?)^case=\d{6} run=ended status=(\d+) [^\n]*\n", got.stderr, re.S | re.M)
    if len(outs) != len(cases) or len(errs) != len(cases):
        sys.exit(f"tools/check: rt try answered {len(errs)} of {len(cases)} cases\n{got.stderr[-2000:].decode()}")
    return [(int(status), out, err) for out, (err, status) in zip(outs, errs)]
