"""Spellings of header tokens."""

LETTERS = "abcdefghijklmnopqrstuvwxyzABCDEFGHIJKLMNOPQRSTUVWXYZ_"


def word(rng):
    return rng.choice(LETTERS) + "".join(rng.choice(LETTERS + "0123456789") for _ in range(rng.randint(0, 5)))


def spelled(rng, value):
    """A whole number in any of its spellings."""
    sign = "-" if value < 0 else rng.choice(["", "", "", "+"])
    if value == 0:
        sign = rng.choice(["", "", "+", "-"])
    zeros = "0" * rng.choice([0, 0, 0, 1, 5])
    if rng.random() < 0.25:
        digits = f"{abs(value):x}"
        return sign + rng.choice(["0x", "0X"]) + zeros + rng.choice([digits, digits.upper()])
    return f"{sign}{zeros}{abs(value)}"


def blank(rng, wanted):
    """What stands between two tokens; not nothing where it is wanted."""
    pieces = [" ", " ", "\n", "\t", "\r\n", "\f", "/**/", "/* = ; */", "# note ;\n", "/*\n#SDF-EO\n*/", "/*/ \x01*/"]
    if rng.random() < 0.6:
        return " " if wanted else ""
    return "".join(rng.choice(pieces) for _ in range(rng.randint(1, 2)))


def is_long(token):
    return token[0].isalnum() or token[0] in "_+-."


def joined(rng, tokens):
    """The tokens with blanks and comments between them, at least one where two would join."""
    text = ""
    before = ";"
    for token in tokens:
        text += blank(rng, is_long(before) and is_long(token)) + token
        before = token
    return text.encode("latin-1")
