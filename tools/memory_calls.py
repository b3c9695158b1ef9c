"""Which calls of which crates were under way where memory was refused, and which public calls may answer want of memory."""

import bisect
import glob
import os
import re
import subprocess
from collections import Counter, defaultdict

HEAD = re.compile(r"^( *)(pub(?:\([^)]*\))? )?fn (\w+)", re.MULTILINE)
BLOCK = re.compile(r"^(?:impl(?:<[^{]*?>)? (?:([\w:]+)(?:<[^{]*?>)? for )?|(?:pub )?trait )([\w:]+)", re.MULTILINE)
WANTS = re.compile(r"pub enum (\w+) \{(?:(?!\n\}).)*\n    Memory,|pub struct (\w*Refused)\b", re.DOTALL)  # (beside AllocError)


class Symbols:
    """The functions of a program, by their places."""

    def __init__(self, program):
        lines = subprocess.run(["nm", "-n", program], capture_output=True, check=True).stdout.decode(errors="replace").splitlines()
        parts = [line.split(" ", 2) for line in lines]
        found = [(int(place, 16), name) for place, kind, name in parts if place and kind in "tT"]
        self.places, self.names = [place for place, _ in found], [name for _, name in found]

    def called(self, stack):
        """The functions whose calls return to these places, without their type arguments."""
        names = (self.names[bisect.bisect_right(self.places, place - 1) - 1] for place in stack)
        return [re.split(r"::<|\+", name)[0] for name in names]


def source_of(folder):
    """The files of a crate, without its tests and without comments."""
    files = glob.glob(os.path.join(folder, "src", "**", "*.rt"), recursive=True)
    files = [it for it in sorted(files) if not re.search(r"/tests(/|\.rt$)", it)]
    return {os.path.relpath(it, os.path.join(folder, "src")): re.sub(r"//.*", "", open(it, encoding="utf-8").read()) for it in files}


def answer_type(text, at):
    """What a call answers whose name ends there."""
    depth = 0
    for at in range(at, len(text)):
        depth += {"(": 1, ")": -1}.get(text[at], 0)
        if text[at] == ")" and not depth:
            break
    return re.split(r"\n *(?:requires|ensures|where)\b|[{;]", text[at + 1 :], maxsplit=1)[0]


def public_calls(files, errors):
    """The calls that a crate offers and whose answer may be one of these errors, as `Type::name` or `name`."""
    root = files.get("lib.rt") or files["main.rt"]
    offered = set(re.findall(r"\w+", " ".join(re.findall(r"pub use ([^;]*);", root))))
    calls = set()
    for text in files.values():
        blocks = [(it.start(), it[1], it[2]) for it in BLOCK.finditer(text)]
        for head in HEAD.finditer(text):
            if head[3] == "from" or not re.search(rf"(Result<.*|-> )\b({'|'.join(errors)})\b", answer_type(text, head.end()), re.DOTALL):
                continue
            before = [it[1:] for it in blocks if it[0] < head.start()] or [(None, None)]
            trait, owner = before[-1] if head[1] else (None, head[3])
            if owner in offered and (head[2] or trait):
                calls.add(f"{owner}::{head[3]}" if head[1] else head[3])
    return calls


class Meetings:
    """The calls that were under way at refusals, and how the runs ended."""

    def __init__(self, crates):
        names = [it for it in sorted(os.listdir(crates)) if not it.endswith("_tests")]
        sources = {it: source_of(os.path.join(crates, it)) for it in names}
        errors = {"AllocError"} | {it[1] or it[2] for files in sources.values() for text in files.values() for it in WANTS.finditer(text)}
        self.offers = {it: public_calls(files, errors) for it, files in sources.items()}
        self.symbols, self.met, self.ended = None, defaultdict(set), defaultdict(Counter)

    def note(self, stack, how):
        own = [name.split("::", 1) for name in self.symbols.called(stack) if name.split("::")[0] in self.offers]
        own = [(crate, name) for crate, name in own if not name.startswith("tests::")]
        for crate, name in own:
            self.met[crate].add(name)
        for crate in {crate for crate, _ in own}:
            self.ended[crate][how] += 1

    def unmet(self, crate):
        """The public calls that may answer want of memory and met no refusal. A method of a trait is named by its type and its trait."""
        fits = lambda call, name: re.search("(^|::)" + r"\w*::".join(call.split("::")) + "$", name)
        return sorted(call for call in self.offers[crate] if not any(fits(call, name) for name in self.met[crate]))

    def table(self, ways):
        rows = ["| Crate | Public calls that may want memory | Runs refused in its calls | " + " | ".join(ways) + " |"]
        rows.append("|---" * (3 + len(ways)) + "|")
        for crate in sorted(self.offers):
            offers, unmet, ended = self.offers[crate], self.unmet(crate), self.ended[crate]
            if not offers and not ended:
                continue
            told = f"{len(offers) - len(unmet)} of {len(offers)}" + (f" (not {', '.join(unmet)})" if unmet else "")
            rows.append(f"| {crate} | {told} | {sum(ended.values())} | " + " | ".join(str(ended[way]) for way in ways) + " |")
        return "\n".join(rows)
