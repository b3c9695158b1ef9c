"""Compares the program, byte for byte, with a second, plain computation of the same answers (reference/).

Usage: tools/check [--program PATH | --try] [--cases N] [--seed S]

The cases are those worked by hand, files at the limits, streams that fail or have little room, a hundred random files
whose forces are written as SDF, two hundred of neighbours, two hundred random lists of files, of which some are cut, faulty, named twice or
standard input, forty files that are also given in several parts (the answer is the same), and N random ones: runs over ranks with weights, mails and reports, generated bodies
and samples, body files of every layout, trees cut on many ranks, changed headers, spoilt rows, and lists of words. Output, error stream and status are compared. The program
is the built one, which `./hot` builds where it is not built yet; with --try it is the same source without proof
(`rt try`), over N of all these cases that take no file, no stream that fails, no odd word and not too many bodies, and
print lines. N is 1300, and 60 with --try.
"""

import argparse
import collections
import contextlib
import os
import pty
import random
import subprocess
import sys
import tempfile
import time
import tty
from concurrent.futures import ProcessPoolExecutor, ThreadPoolExecutor

from cases import Case
from cases.calls import good_words, random_call
from cases.faults import long_header, mutated_header, plain_file, spoilt_rows, wide_header
from cases.large import large_cases, largest
from cases.layouts import pick_file
from cases.lists import MAX_BROKEN, cut_cases, list_case
from cases.nears import near_case
from cases.runs import make_case, run_case, sample_case, sdf_case
from cases.splits import split_case
from cases.worked import worked
from cases.worked_lists import worked_lists
from cases.worked_near import worked_near
from cases.worked_runs import worked_runs
from reference.header import MAX_ROWS
from reference.program import answer
from unproved import can_try, run_unproved

TOP = os.path.dirname(os.path.dirname(os.path.abspath(__file__)))
SDF_CASES = 100  # random files whose forces are written as SDF
NEAR_CASES = 200  # random files whose neighbours are told
LIST_CASES, CUT_CASES = 200, 40  # random lists of files; files that are also given in several parts
MOST_SHOWN = 10000  # bytes of a text that differs
STREAMS = ["out", "err"]
LIMITED = """import os, resource, sys
resource.setrlimit(resource.RLIMIT_FSIZE, (int(sys.argv[1]),) * 2)
os.execv(sys.argv[2], sys.argv[2:])"""  # runs a program whose files take no more bytes than this
BUILT = os.path.join(TOP, "crates", "hot", "out", "hot")


def random_case(rng):
    """A random case, of a kind by its share."""
    whole = {"run": run_case, "sample": sample_case, "make": make_case, "split": split_case, "words": random_call}
    kinds = {"run": 55, "sample": 18, "make": 5, "split": 45, "layout": 30, "header": 28, "wide": 4, "long": 3}
    kinds |= {"rows": 14, "words": 33}
    kind = rng.choices([*kinds], [*kinds.values()])[0]
    if kind in whole:
        return whole[kind](rng)
    make = {
        "layout": lambda rng: pick_file(rng).data(rng),
        "header": mutated_header,
        "wide": wide_header,
        "long": long_header,
        "rows": spoilt_rows,
    }[kind]
    command = "split" if kind != "layout" and rng.random() < 0.25 else "forces"
    return Case(kind, good_words(rng, command), make(rng))


def room_case(rng):
    """A call with a stream that fails within, or just behind, what is written to it."""
    case = rng.choices([run_case, sample_case, make_case, split_case, near_case], [6, 1, 1, 1, 1])[0](rng)
    stream = rng.choice(STREAMS)
    case.kind = "room"
    length = len(answer(case)[1 + STREAMS.index(stream)])
    case.room = {stream: max(0, length - rng.choice([-1, 0, 1, 2, length // 2, rng.randint(0, length)]))}
    return case


def stream_cases(rng):
    """Streams that take no byte or only a few, and inputs that fail behind their last byte."""
    good, cut = plain_file(rng, 3, "x,y,z", "3"), plain_file(rng, 3, "x,y,z", "4")
    words = [["forces"], ["forces", "-h"], ["force"], ["make"], ["make", "--seed"], ["split", "--ranks", "0"]]
    words += [["forces", "--ranks", "3", "--report"], ["split", "--ranks", "2"], ["sample", "--bodies", "9"]]
    words += [["near", "--ranks", "2"], ["near", "--radius"]]
    cases = [
        Case("full", call, data, room={stream: 0}, unread=unread)
        for call in words
        for data in (good, cut)
        for stream in STREAMS
        for unread in (False, True)
    ]
    cases += [room_case(rng) for _ in range(40)]
    whole = [*(case.stdin for case, _ in worked()), *(spoilt_rows(rng) for _ in range(20))]
    for data in [b"# SDX", good + b"\0", *(mutated_header(rng) for _ in range(20)), *whole]:
        if len(data) <= MAX_BROKEN:
            words = rng.choice([["split"], ["near"], ["forces"], ["forces", "--ranks", "2"], ["forces", "--report"]])
            cases.append(Case("broken", words, data, broken=True))
            cases.append(Case("broken", words, data[: rng.randint(0, len(data))], broken=True))
    return cases


def limit_cases(rng):
    """Files about the limit of rows, with a stated count and without."""
    most, more, less = MAX_ROWS, MAX_ROWS + 1, MAX_ROWS - 1
    files = [(more, ""), (more, most), (less, most), (more, more), (400, "")]
    cases = [Case("limit", ["forces"], plain_file(rng, rows, "x,y,z", count)) for rows, count in files]
    cases.append(Case("limit", ["forces"], cases[0].stdin[:-1]))
    head = b"# SDF\nint cube_bits = 4;\nstruct {int8_t x, y, z;}[];\n# SDF-EOH\n"
    spread = bytes(rng.randrange(16) for _ in range(3 * MAX_ROWS))
    return [*cases, Case("limit", ["split", "--ranks", "64"], head + spread)]


@contextlib.contextmanager
def failing_input(data):
    """An input that gives these bytes and then fails: the master of a terminal whose other end is closed."""
    master, slave = pty.openpty()
    tty.setraw(slave)
    os.write(slave, data)
    os.close(slave)
    try:
        yield master
    finally:
        os.close(master)


def without_room(unread):
    """A stream that takes no byte: a pipe that nobody reads, or a full device."""
    if not unread:
        return open("/dev/full", "wb")
    reader, writer = os.pipe()
    os.close(reader)
    return open(writer, "wb")


def put_files(folder, files):
    for name, data in files.items():
        with open(os.path.join(folder, name), "wb") as file:
            file.write(data)


def run(program, case):
    """What the program answers, in a folder that has the files of the case."""
    with contextlib.ExitStack() as stack:
        folder = stack.enter_context(tempfile.TemporaryDirectory(prefix="hot-check-"))
        put_files(folder, case.files)
        command = [program, *case.words]
        streams = {"stdout": subprocess.PIPE, "stderr": subprocess.PIPE, "input": case.stdin}
        for stream, room in case.room.items():
            file = tempfile.TemporaryFile() if room else without_room(case.unread)
            streams[f"std{stream}"] = stack.enter_context(file)
            if room:
                command = [sys.executable, "-c", LIMITED, str(room), *command]
        if case.broken:
            del streams["input"]
            streams["stdin"] = stack.enter_context(failing_input(case.stdin))
        got = subprocess.run(command, check=False, cwd=folder, **streams)
        texts = {"out": got.stdout or b"", "err": got.stderr or b""}
        for stream, room in case.room.items():
            if room:
                streams[f"std{stream}"].seek(0)
                texts[stream] = streams[f"std{stream}"].read()
    return got.returncode, texts["out"], texts["err"]


def all_agree(known, answers):
    """Ends where the second computation does not answer what is known."""
    for (case, wanted), got in zip(known, answers):
        if got != wanted:
            sys.exit(f"the second computation is wrong at {case.kind} {case.words}: {got} for {wanted}")


def gather(rng, count):
    """Pairs of a case and the answer wanted."""
    known = [*worked(), *worked_runs(), *worked_lists(), *worked_near()]
    cut = [pair for _ in range(CUT_CASES) for pair in cut_cases(rng)]
    cases = limit_cases(rng) + large_cases() + stream_cases(rng) + [sdf_case(rng) for _ in range(SDF_CASES)]
    cases += [near_case(rng) for _ in range(NEAR_CASES)]
    cases += [list_case(rng) for _ in range(LIST_CASES)] + [random_case(rng) for _ in range(count)]
    with ProcessPoolExecutor() as pool:
        later = pool.map(answer, cases)
        all_agree(known, pool.map(answer, [case for case, _ in known]))
        answers = list(pool.map(answer, cut))
        all_agree(zip(cut[1::2], answers[::2]), answers[1::2])  # of the parts and of the whole
        pairs = [*known, *zip(cut, answers), *zip(cases, later)]
    pairs += largest()
    pairs.append((Case("no text", ["forces", b"\xff"]), (2, b"", b"")))
    return pairs


def show(number, case, wanted, got):
    """Tells of a case that differs, and keeps its input."""
    name = f"/tmp/hot-case-{number}.sdf"
    with open(name, "wb") as file:
        file.write(case.stdin)
    if case.files:
        folder = f"/tmp/hot-case-{number}"
        os.makedirs(folder, exist_ok=True)
        put_files(folder, case.files)
    print(f"case {number} ({case.kind}) differs: {case.words} < {name} {case.room or ''}", file=sys.stderr)
    for who, (status, out, err) in (("wanted", wanted), ("got", got)):
        texts = (text[:MOST_SHOWN].decode(errors="backslashreplace") for text in (out, err))
        print(f"{who} {status}", *texts, sep="\n", file=sys.stderr)


def built_program():
    """The proved program, built by `./hot` where it is not built yet."""
    subprocess.run([os.path.join(TOP, "hot")], stdin=subprocess.DEVNULL, stderr=subprocess.DEVNULL, check=False)
    if not os.path.exists(BUILT):
        sys.exit("tools/check: ./hot did not build the program")
    return BUILT


def main():
    parser = argparse.ArgumentParser()
    parser.add_argument("--program")
    parser.add_argument("--try", dest="unproved", action="store_true")
    parser.add_argument("--cases", type=int)
    parser.add_argument("--seed", type=int, default=1)
    options = parser.parse_args()
    count = options.cases or (60 if options.unproved else 1300)
    begin = time.monotonic()
    print(f"seed {options.seed}", flush=True)
    pairs = gather(random.Random(options.seed), count)
    if options.unproved:
        pairs = [pair for pair in pairs if can_try(pair[0])]
        pairs = random.Random(options.seed).sample(pairs, min(count, len(pairs)))
        found = run_unproved(TOP, [case for case, _ in pairs])
    else:
        program = os.path.abspath(options.program) if options.program else built_program()
        with ThreadPoolExecutor(os.cpu_count()) as pool:
            found = list(pool.map(lambda pair: run(program, pair[0]), pairs))
    wrong = [k for k, (pair, got) in enumerate(zip(pairs, found)) if pair[1] != got]
    for k in wrong[:5]:
        show(k, *pairs[k], found[k])
    kinds = collections.Counter(f"{case.kind} {wanted[0]}" for case, wanted in pairs)
    print(", ".join(f"{kind}: {number}" for kind, number in sorted(kinds.items())))
    print(f"{len(pairs) - len(wrong)} of {len(pairs)} cases agree, in {time.monotonic() - begin:.1f} seconds")
    return 1 if wrong else 0


if __name__ == "__main__":
    sys.exit(main())
