"""Random lists of files: mixed layouts, orders and headers in one cube, some with faults; and files cut into several."""

from cases import Case
from cases.calls import split_words
from cases.faults import mutated_header, spoilt_rows
from cases.layouts import COUNTS, WHOLE, packed, pick_cube, pick_file
from cases.nears import near_words
from cases.runs import run_words
from reference.header import MAX_MASS
from reference.words import MAX_FILES

NAMES = [*"abcdefghijklmnop", "-x", "é.sdf", "b c", "bodies.sdf", "=", "1"]
MOST_BODIES = 96  # of a list, for the second computation's sake
MAX_BROKEN = 1024  # bytes that a terminal holds
HEAVY = 150  # bodies of the greatest mass in one file: two such files are too heavy


def list_words(rng):
    """A command that takes files, and its options."""
    kind = rng.random()
    if kind < 0.3:
        return split_words(rng)
    if kind < 0.45:
        return ["near", *near_words(rng)]
    words = [run_words(rng), rng.choice([[], ["--report"], ["--form", "sdf"]])]
    rng.shuffle(words)
    return ["forces", *(word for part in words for word in part)]


def pick_count(rng):
    return rng.choice([1, 2, 2, 2, 3, 3, 4, 5, 8, MAX_FILES, rng.randint(1, MAX_FILES)])


def heavy_file(rng, cube):
    """Bodies of the greatest mass at the corner of a cube, or as near as their types can spell."""
    kinds = [rng.choice(cube.types(axis)) for axis in range(3)]
    fields = "".join(f"{kind} {axis};" for kind, axis in zip(kinds, "xyz"))
    names = zip(["cube_bits", "cube_x0", "cube_y0", "cube_z0", "mass"], [cube.bits, *cube.corner, MAX_MASS])
    values = "".join(f"parameter {name} = {value};\n" for name, value in names)
    row = b"".join(
        packed(corner + cube.gaps(axis, kind)[0], *WHOLE[kind], False)
        for axis, (corner, kind) in enumerate(zip(cube.corner, kinds))
    )
    return f"# SDF\n{values}struct {{{fields}}}[];\n# SDF-EOH\n".encode() + row * HEAVY


def faulty_file(rng, cube, most):
    """A file that is likely to be refused behind others: of another cube, changed, spoilt, cut or too heavy."""
    kind = rng.randrange(7)
    if kind == 0:
        return pick_file(rng, most).data(rng)
    if kind == 1:
        return heavy_file(rng, cube)
    file = pick_file(rng, most, cube=cube)
    if kind == 2:
        return mutated_header(rng, file)
    if kind <= 4:
        return spoilt_rows(rng, file)
    data = file.data(rng)
    return data[: rng.randint(0, len(data))] if kind == 5 else data[:-1]


def pick_list(rng):
    """The bytes of some files."""
    count, cube = pick_count(rng), pick_cube(rng)
    most = MOST_BODIES // count
    files = [pick_file(rng, most, cube=cube).data(rng) for _ in range(count)]
    for _ in range(rng.choice([0, 0, 0, 1, 1, 2])):
        files[rng.randrange(count)] = faulty_file(rng, cube, most)
    if count > 1 and rng.random() < 0.1:
        files[:2] = [heavy_file(rng, cube) for _ in range(2)]
    return files


def odd_names(rng, names):
    """The names with a word among them that is no file, that is `-` once more, or that is one too many."""
    at = rng.randint(1, len(names))
    kind = rng.randrange(3)
    if kind == 0:
        return [*names[:at], rng.choice(["--ranks", "--", "--report", "--eps", "--x"]), *names[at:]]
    if kind == 1:
        return [*names[:at], "-", *names[at:], "-"]
    return (names * MAX_FILES)[: MAX_FILES + 1]


def list_case(rng):
    """A call with a list of files: `-` once, a name twice, one that is not there, or odd words among them."""
    files = pick_list(rng)
    names = rng.sample(NAMES, len(files))
    known = dict(zip(names, files))
    stdin, broken = files[-1], False
    if len(names) > 1 and rng.random() < 0.35:
        first, second = rng.sample(range(len(names)), 2)
        names[second] = names[first]
    if rng.random() < 0.45:
        at = rng.randrange(len(names))
        stdin = known[names[at]]
        names[at] = "-"
        broken = rng.random() < 0.3 and len(stdin) <= MAX_BROKEN
    if rng.random() < 0.06:
        known.pop(rng.choice(names), None)
    if rng.random() < 0.12:
        names = odd_names(rng, names)
    return Case("list", [*list_words(rng), *names], stdin, known, broken=broken)


def parts_of(rng, rows, count):
    """The rows in so many pieces, of which some may be empty."""
    cuts = sorted(rng.randint(0, len(rows)) for _ in range(count - 1))
    return [rows[low:high] for low, high in zip([0, *cuts], [*cuts, len(rows)])]


def cut_cases(rng):
    """The same bodies as one file and as several: the answers are the same."""
    file = pick_file(rng, 60, COUNTS, work=0.6)
    words, rows = list_words(rng), file.rows
    whole = Case("whole", words, file.data(rng))
    names = rng.sample(NAMES, pick_count(rng))
    known = {}
    for name, part in zip(names, parts_of(rng, rows, len(names))):
        known[name] = file.of_rows(rng, part).data(rng)
    stdin = b""
    if rng.random() < 0.4:
        at = rng.randrange(len(names))
        stdin = known.pop(names[at])
        names[at] = "-"
    return whole, Case("cut", [*words, *names], stdin, known)
