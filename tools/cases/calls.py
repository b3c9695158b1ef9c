"""Random lists of words, over a few files."""

import random

from cases import Case
from cases.layouts import pick_file
from reference.header import Refused
from reference.words import FILE_COMMANDS, read

MOST_SAMPLED = 200  # bodies of a sample, for the second computation's sake
COMMANDS = ["forces", "split", "make", "sample", "near"]
OPTIONS = ["--ranks", "--theta", "--eps", "--leaf", "--moments", "--mail", "--form", "--bodies", "--seed", "--report"]
OPTIONS += ["--radius"]
GOOD = {
    "--ranks": ["1", "01", "1", "1", "2", "64"],
    "--theta": ["0/1", "7/10", "1024/1024", "1/0001", "1/1024", "00/1", "3/2"],
    "--eps": ["1", "268435456", "256", "00000000000000000007"],
    "--leaf": ["1", "8", "64"],
    "--moments": ["1", "2", "2", "02"],
    "--mail": ["prompt", "prompt", "last", "single", "0", "18446744073709551615"],
    "--form": ["text", "text", "sdf"],
    "--bodies": ["0", "10", "33", "01", "262144"],
    "--seed": ["0", "18446744073709551615"],
    "--radius": ["0", "256", "1073741824", "00000000000000000768", "65536"],
}
BAD = """0 65 -1 +1 1.0 0x1 18446744073709551616 000000000000000000001 99999999999999999999 268435457 1073741825 262145 1025 1/0 1025/1
1/1025 1/1/1 /1 1/ / 1 Prompt prompts sdf text single -- - --eps --report forces ٣ １""".split()
NAMES = ["-", "bodies.sdf", "./bodies.sdf", "-x", "bad.sdf", "empty", "nowhere", "", ".", "bodies.sdf/", "é.sdf"]


def pick_value(rng, option):
    if rng.random() < 0.85:
        return rng.choice(GOOD[option])
    return rng.choice([*BAD, *rng.choice([*GOOD.values()]), "", " 1", "1 ", "a\nb"])


def split_words(rng):
    """The command `split`, mostly with a good number of ranks."""
    ranks = rng.choice([str(rng.randint(1, 64)), "1", "2", "2", "3", "4", "5", "64", "064", "00000000000000000007"])
    return ["split", "--ranks", ranks] if rng.random() < 0.95 else ["split"]


def good_words(rng, command="forces"):
    """Words of a good call, or nearly."""
    if command == "split":
        return split_words(rng)
    options = ["--theta", "--eps", "--leaf", "--ranks", "--mail", "--moments"]
    if command == "near":
        options = ["--ranks", "--leaf", "--mail", "--radius"]
    words = [[option, rng.choice(GOOD[option])] for option in rng.sample(options, rng.randint(0, 4))]
    if command == "forces" and rng.random() < 0.3:
        words.insert(rng.randint(0, len(words)), rng.choice([["--report"], ["--form", "text"], ["--form", "sdf"]]))
    return [command, *[word for option in words for word in option]]


def is_long(words):
    """Whether words ask for a sample of many bodies."""
    try:
        command, options, _ = read(words)
    except Refused:
        return False
    return command == "sample" and options["--bodies"] > MOST_SAMPLED


def random_words(rng):
    """A list of words, mostly right for its first part."""
    if rng.random() < 0.05:
        return rng.choice([[], [""], ["--help"], ["--version"], ["-"], ["Forces"], ["forces "], ["hot", "forces"], ["weigh"]])
    words = [rng.choice([*COMMANDS, "forces", "forces", "forces"])]
    pool, count = OPTIONS, rng.choice([0, 1, 1, 2, 2, 3, 5])
    if words[0] == "forces" and rng.random() < 0.8:
        pool = OPTIONS[:7] + OPTIONS[9:10]
    elif words[0] == "split" and rng.random() < 0.8:
        pool, count = ["--ranks"], rng.choice([0, 1, 1, 1, 2])
    elif words[0] == "make" and rng.random() < 0.8:
        pool, count = ["--bodies", "--seed"], rng.choice([0, 1, 1, 2, 2])
    elif words[0] == "sample" and rng.random() < 0.8:
        pool = [*OPTIONS[:6], "--bodies", "--bodies", "--seed"]
    elif words[0] == "near" and rng.random() < 0.8:
        pool = ["--ranks", "--leaf", "--mail", "--radius", "--radius"]
    for _ in range(count):
        option = rng.choice(pool)
        words.append(option)
        if option != "--report":
            words.append(pick_value(rng, option))
    if rng.random() < (0.5 if words[0] in FILE_COMMANDS else 0.1):
        words += [rng.choice(NAMES) for _ in range(rng.choice([1, 1, 1, 2, 3, 16, 17]))]
    if rng.random() < 0.3:
        at = rng.randrange(1, len(words) + 1)
        kind = rng.randrange(4)
        if kind == 0:
            words.insert(at, rng.choice([*BAD, *OPTIONS, *NAMES, "--unknown", "--eps=1", "-h"]))
        elif kind == 1:
            words = words[:at]
        elif kind == 2 and len(words) > 1:
            words.append(words[rng.randrange(1, len(words))])
        elif at < len(words):
            del words[at]
    return words


def random_call(rng):
    own = random.Random(rng.randrange(1000))
    files = {
        "bodies.sdf": pick_file(own, 9).data(own),
        "-x": pick_file(own, 2).data(own),
        "é.sdf": pick_file(own, 3).data(own),
        "bad.sdf": b"# SDF\nint x = ;\n# SDF-EOH\n",
        "empty": b"",
    }
    files["./bodies.sdf"] = files["bodies.sdf"]
    if rng.random() < 0.45:
        words = [*good_words(rng, rng.choice(["forces", "forces", "forces", "split", "near"]))]
        words += [rng.choice(NAMES) for _ in range(rng.choice([1, 1, 1, 1, 2]))]
    else:
        words = random_words(rng)
        while is_long(words):
            words = random_words(rng)
    return Case("words", words, pick_file(own, 5).data(own), files)
