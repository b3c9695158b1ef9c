"""The words of a call: its command and options, or the first refusal from the left."""

from reference.header import Refused

MAX_FILES = 16
MAX_GENERATED = 262144
COMMANDS = {
    "forces": ["--ranks", "--theta", "--eps", "--leaf", "--moments", "--mail", "--form", "--report"],
    "split": ["--ranks"],
    "make": ["--bodies", "--seed"],
    "sample": ["--bodies", "--seed", "--ranks", "--theta", "--eps", "--leaf", "--moments", "--mail"],
    "near": ["--ranks", "--leaf", "--mail", "--radius"],
}
FILE_COMMANDS = ["forces", "split", "near"]  # those that read files
LIMITS = {
    "--ranks": (1, 64),
    "--eps": (1, 268435456),
    "--leaf": (1, 64),
    "--moments": (1, 2),
    "--radius": (0, 2**30),
    "--bodies": (0, MAX_GENERATED),
    "--seed": (0, 2**64 - 1),
}
DEFAULTS = {
    "--ranks": 1,
    "--theta": (7, 10),
    "--eps": 256,
    "--leaf": 8,
    "--moments": 1,
    "--mail": "prompt",
    "--form": "text",
    "--report": False,
    "--radius": 256,
    "--bodies": 1000,
    "--seed": 0,
}


def number(word, least, most):
    """The number of a word within its limits, else None."""
    if not (1 <= len(word) <= 20 and all(c in "0123456789" for c in word)):
        return None
    value = int(word)
    return value if value < 2**64 and least <= value <= most else None


def value_of(option, word):
    """The value of an option, else None."""
    if option == "--theta":
        parts = word.split("/")
        if len(parts) != 2:
            return None
        ratio = number(parts[0], 0, 1024), number(parts[1], 1, 1024)
        return None if None in ratio else ratio
    if option == "--mail":
        return word if word in ("prompt", "last", "single") else number(word, 0, 2**64 - 1)
    if option == "--form":
        return word if word in ("text", "sdf") else None
    return number(word, *LIMITS[option])


def files_of(words):
    """The files that words name, from the first on that is no option."""
    files = []
    for word in words:
        if word.startswith("--") or len(files) == MAX_FILES or (word == "-" and "-" in files):
            raise Refused(f"A7 extra word {word}")
        files.append(word)
    return files


def read(words):
    """The command, its options, and its files."""
    if not words:
        raise Refused("A1 no command")
    command = words[0]
    if command not in COMMANDS:
        raise Refused(f"A2 unknown command {command}")
    options, files = {}, ["-"]
    at = 1
    while at < len(words):
        word = words[at]
        last = at == len(words) - 1
        at += 1
        if not word.startswith("--"):
            if command not in FILE_COMMANDS:
                raise Refused(f"A7 extra word {word}")
            files = files_of(words[at - 1 :])
            break
        if word not in COMMANDS[command]:
            raise Refused(f"A3 unknown option {word}")
        if word in options:
            raise Refused(f"A5 option given twice {word}")
        if word == "--report":
            options[word] = True
            continue
        if last:
            raise Refused(f"A4 no value for {word}")
        value = value_of(word, words[at])
        if value is None:
            raise Refused(f"A6 bad value {words[at]} for {word}")
        options[word] = value
        at += 1
    options = {**DEFAULTS, **options}
    num, den = options["--theta"]
    if options["--moments"] == 2 and num > den:
        raise Refused("A8 ratio above 1 with --moments 2")
    return command, options, files
