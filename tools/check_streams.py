#!/usr/bin/env python3
"""Runs the program on real files and streams that fail, end early, or do not end.

Usage: tools/check_streams.py [--program PATH | --try]

Each case has its status, its output and its line. Where a stream would go on for gigabytes, the case also has the most
bytes that may be taken of it, and the program runs within an address space of 15 MB. The program is the built one,
which `./hot` builds where it is not built yet. With --try, which is for the others of tools/check, it does nothing.
"""

import argparse
import contextlib
import os
import subprocess
import sys
import tempfile
from dataclasses import dataclass, field

from check_program import built_program

PIECE = 4096  # the most bytes of one read
MAX_HEADER = 65536
MAX_ROWS = 1048576
MAX_GENERATED = 262144  # rows of `make`
WIDEST = 1024  # the most bytes of a row
LEAST_MEMORY = 15000  # KB of address space, in which gigabytes of input are read
GIGABYTES = 16 << 30
SECONDS = 60
HEAD = b"# SDF\nint cube_bits = 21;\nstruct { int32_t x, y, z; }[%s];\n# SDF-EOH\n"
ROWS = bytes(12) + b"\4" + bytes(11)  # at 0 0 0 and 4 0 0
TWO = HEAD % b"2" + ROWS
ONE, OTHER = (HEAD % b"1" + it for it in (ROWS[:12], ROWS[12:]))
FORCES = b"# hot forces 1\n0 1048575 0 0\n1 -1048575 0 0\n# end 2\n"
WORDS = ["forces", "--eps", "1", "--theta", "0/1"]
READ_FAULT, WRITE_FAULT = (4, b"", b"hot: read fault\n"), (5, b"", b"hot: write fault\n")
NOT_SDF = (3, b"", b"hot: H1 not an SDF file\n")
CUT_SHORT = (3, b"", b"hot: B1 row 1 is cut short\n")


@dataclass
class Trial:
    name: str
    words: list
    wanted: tuple  # status, output and lines
    streams: dict = field(default_factory=dict)  # of stdin, stdout and stderr: what opens one on a stack of contexts
    closed: tuple = ()  # descriptors that are closed when the program starts
    taken: int = None  # the most bytes that may be taken of standard input, which is a file then
    memory: int = None  # KB of address space


def given(data):
    """A file of these bytes, at its beginning."""

    def enter(stack):
        file = stack.enter_context(tempfile.TemporaryFile())
        file.write(data)
        file.seek(0)
        return file

    return enter


def endless(data):
    """A file of these bytes, behind which are gigabytes of zeros that take no room."""

    def enter(stack):
        file = given(data)(stack)
        file.truncate(GIGABYTES)
        return file

    return enter


def piped(command):
    """A pipe that a command writes to."""

    def enter(stack):
        writer = stack.enter_context(subprocess.Popen(command, stdout=subprocess.PIPE))
        stack.callback(writer.kill)
        return writer.stdout

    return enter


def in_bytes(data):
    """A pipe that gives one byte at a time."""
    text = f"import os\nfor byte in {data!r}: os.write(1, bytes([byte]))"
    return piped([sys.executable, "-c", text])


def device(name, mode):
    return lambda stack: stack.enter_context(open(name, mode))


def unread(stack):
    """A pipe that nobody reads."""
    reader, writer = os.pipe()
    os.close(reader)
    return stack.enter_context(open(writer, "wb"))


def without_waiting(stack):
    """A pipe that has no bytes yet, and does not let one wait for them."""
    reader, writer = os.pipe()
    os.set_blocking(reader, False)
    stack.callback(os.close, writer)
    return stack.enter_context(open(reader, "rb"))


def full_pipe(stack):
    """A pipe that takes no byte more, and does not let one wait for room."""
    reader, writer = os.pipe()
    os.set_blocking(writer, False)
    with contextlib.suppress(BlockingIOError):
        while True:
            os.write(writer, bytes(PIECE))
    stack.callback(os.close, reader)
    return stack.enter_context(open(writer, "wb"))


def output_trials():
    """Outputs and error streams that take nothing."""
    outputs = {"a full device": device("/dev/full", "wb"), "a pipe that nobody reads": unread}
    outputs["a full pipe"] = full_pipe
    outputs["a device that is read only"] = device("/dev/zero", "rb")
    calls = [WORDS, ["split"], ["near"], ["make"], ["sample"], [*WORDS, "--form", "sdf"], [*WORDS, "--ranks", "2", "--report"]]
    for name, out in outputs.items():
        for words in calls:
            yield Trial(f"{words[0]} to {name}", words, WRITE_FAULT, {"stdin": given(TWO), "stdout": out})
        yield Trial(f"refused words told to {name}", ["force"], (5, b"", b""), {"stderr": out})
        yield Trial(f"a bad file told to {name}", WORDS, (5, b"", b""), {"stdin": given(b""), "stderr": out})
        yield Trial(f"a read fault told to {name}", [*WORDS, "nowhere"], (5, b"", b""), {"stderr": out})
        report = [*WORDS, "--report"]
        yield Trial(f"a report to {name}", report, (5, FORCES, b""), {"stdin": given(TWO), "stderr": out})
        yield Trial(f"both streams to {name}", WORDS, (5, b"", b""), {"stdin": given(TWO), "stdout": out, "stderr": out})
    yield Trial("forces to a closed output", WORDS, WRITE_FAULT, {"stdin": given(TWO)}, closed=(1,))
    yield Trial("a named file and a closed output", [*WORDS, "two"], WRITE_FAULT, closed=(1,))
    yield Trial("refused words and a closed error stream", ["force"], (5, b"", b""), closed=(2,))
    yield Trial("a named file and a closed error stream", [*WORDS, "two"], (0, FORCES, b""), closed=(2,))
    yield Trial("no stream at all", WORDS, (5, b"", b""), closed=(0, 1, 2))


def input_trials():
    """Inputs that fail or end in mid-row."""
    yield Trial("a whole file", WORDS, (0, FORCES, b""), {"stdin": given(TWO)})
    yield Trial("a pipe of single bytes", WORDS, (0, FORCES, b""), {"stdin": in_bytes(TWO)})
    yield Trial("a pipe that ends in mid-row", WORDS, CUT_SHORT, {"stdin": in_bytes(TWO[:-1])})
    yield Trial("a file that ends in mid-row", WORDS, CUT_SHORT, {"stdin": given(TWO[:-1])})
    yield Trial("a named file that ends in mid-row", [*WORDS, "cut"], CUT_SHORT)
    yield Trial("a file that ends before the rows that it states", WORDS, CUT_SHORT, {"stdin": given(TWO[:-12])})
    yield Trial("standard input closed", WORDS, READ_FAULT, closed=(0,))
    yield Trial("standard input closed, a file named", [*WORDS, "two"], (0, FORCES, b""), closed=(0,))
    yield Trial("standard input that is open for writing alone", WORDS, READ_FAULT, {"stdin": device("sink", "wb")})
    yield Trial("standard input that gives nothing yet", WORDS, READ_FAULT, {"stdin": without_waiting})
    yield Trial("a folder as standard input", WORDS, READ_FAULT, {"stdin": lambda stack: os.open(".", os.O_RDONLY)})
    names = {"a folder as the file": "folder", "a name that is not there": "nowhere", "an empty name": ""}
    names |= {"a name below a file": "two/two", "a name that is too long": "n" * 5000, "a link to itself": "loop"}
    names |= {"a folder by a dot": ".", "memory that is not there": "/proc/self/mem"}
    for name, file in names.items():
        yield Trial(name, [*WORDS, file], READ_FAULT)
    yield Trial("an empty device", [*WORDS, "/dev/null"], NOT_SDF)


def endless_trials():
    """Inputs of gigabytes: each is left where its bytes decide a fault."""
    zeros, long = ["head", "-c", str(GIGABYTES), "/dev/zero"], b"hot: H2 header longer than 65536 bytes\n"
    yield Trial("16 GB of zeros in a pipe", WORDS, NOT_SDF, {"stdin": piped(zeros)}, memory=LEAST_MEMORY)
    yield Trial("a device of zeros", [*WORDS, "/dev/zero"], NOT_SDF, memory=LEAST_MEMORY)
    files = {"16 GB of zeros": (b"", NOT_SDF, PIECE)}
    files["a header of 16 GB"] = b"# SDF\n", (3, b"", long), MAX_HEADER + PIECE
    stated = HEAD % b"2" + ROWS, (3, b"", b"hot: B2 bytes after the last row\n"), len(TWO) + PIECE
    files["16 GB behind the stated rows"] = stated
    for name, (data, wanted, taken) in files.items():
        yield Trial(name, WORDS, wanted, {"stdin": endless(data)}, taken=taken, memory=LEAST_MEMORY)
    # (these bodies are kept until the row too many, so the limit of memory is not that of the others)
    for width in (3, WIDEST):
        more = b"" if width == 3 else b" char more[%d];" % (width - 3)
        head = b"# SDF\nstruct { int8_t x, y, z;%s }[];\n# SDF-EOH\n" % more
        most = len(head) + (MAX_ROWS + 1) * width + PIECE
        many = (3, b"", b"hot: B6 too many rows\n")
        yield Trial(f"16 GB of rows of {width} bytes", WORDS, many, {"stdin": endless(head)}, taken=most)


def list_trials():
    """Lists of files: each is opened once the one before ended well, and read to its end or to its first fault."""
    first = {"stdin": given(ONE)}
    yield Trial("two files", [*WORDS, "one", "other"], (0, FORCES, b""))
    yield Trial("a file and a pipe", [*WORDS, "one", "-"], (0, FORCES, b""), {"stdin": in_bytes(OTHER)})
    yield Trial("standard input and a file", [*WORDS, "-", "other"], (0, FORCES, b""), first)
    yield Trial("two files, standard input closed", [*WORDS, "one", "other"], (0, FORCES, b""), closed=(0,))
    yield Trial("standard input closed, named second", [*WORDS, "one", "-"], READ_FAULT, closed=(0,))
    yield Trial("a second file that is not there", [*WORDS, "one", "nowhere"], READ_FAULT)
    yield Trial("a folder as the second file", [*WORDS, "one", "folder"], READ_FAULT)
    many = [*["none"] * 14, "one", "other"]
    yield Trial("sixteen files", [*WORDS, *many], (0, FORCES, b""))
    yield Trial("two files to a closed output", [*WORDS, "one", "other"], WRITE_FAULT, closed=(1,))
    # (nobody writes to the pipe with a name: whoever opens it waits)
    cut, later = (3, b"", b"hot: B1 row 1 is cut short in file 1\n"), (3, b"", b"hot: H1 not an SDF file in file 2\n")
    yield Trial("a fault before a pipe that nobody writes to", [*WORDS, "cut", "pipe"], cut)
    yield Trial("a name that is not there before such a pipe", [*WORDS, "nowhere", "pipe"], READ_FAULT)
    yield Trial("refused words behind such a pipe", [*WORDS, "pipe", "--ranks"], (2, b"", b"hot: A7 extra word --ranks\n"))
    yield Trial("a fault in the second file", [*WORDS, "one", "sink", "pipe"], later)
    behind = (3, b"", b"hot: B2 bytes after the last row in file 2\n")
    taken = len(OTHER) + PIECE
    yield Trial("16 GB behind the rows of the second file", [*WORDS, "one", "-", "pipe"], behind,
                {"stdin": endless(OTHER)}, taken=taken, memory=LEAST_MEMORY)
    many = (3, b"", b"hot: B6 too many rows in file 2\n")
    taken = len(HEAD) + MAX_ROWS * 12 + PIECE
    yield Trial("16 GB of rows in the second file", [*WORDS, "one", "-", "pipe"], many,
                {"stdin": endless(HEAD % b"")}, taken=taken)


def furnish(folder):
    """Puts the files that words name into a folder."""
    files = {"two": TWO, "cut": TWO[:-1], "sink": b"", "one": ONE, "other": OTHER, "none": HEAD % b"0"}
    for name, data in files.items():
        with open(os.path.join(folder, name), "wb") as file:
            file.write(data)
    os.mkdir(os.path.join(folder, "folder"))
    os.mkfifo(os.path.join(folder, "pipe"))
    os.symlink("loop", os.path.join(folder, "loop"))


def prepare(trial):
    """What a child does before it becomes the program."""
    if trial.memory:
        import resource  # (a module of Unix alone)

        resource.setrlimit(resource.RLIMIT_AS, (trial.memory * 1024,) * 2)
    for descriptor in trial.closed:
        os.close(descriptor)


def run(program, trial):
    """What the program answers, and how many bytes it took of a file."""
    with contextlib.ExitStack() as stack:
        streams = {"stdin": subprocess.DEVNULL, "stdout": subprocess.PIPE, "stderr": subprocess.PIPE}
        streams |= {name: enter(stack) for name, enter in trial.streams.items()}
        got = subprocess.run([program, *trial.words], **streams, check=False, timeout=SECONDS,
                             preexec_fn=lambda: prepare(trial))
        taken = os.lseek(streams["stdin"].fileno(), 0, os.SEEK_CUR) if trial.taken else 0
    return (got.returncode, got.stdout or b"", got.stderr or b""), taken


def judge(program, trial):
    """What is wrong with a trial, or None."""
    try:
        got, taken = run(program, trial)
    except subprocess.TimeoutExpired:
        return f"does not end within {SECONDS} seconds"
    if got != trial.wanted:
        return f"answers {got}, wanted {trial.wanted}"
    if trial.taken and taken > trial.taken:
        return f"takes {taken} bytes, at most {trial.taken} wanted"
    return None


def closed_early(program):
    """What is wrong where the reader of a long output goes away in its midst, or None."""
    with subprocess.Popen([program, "make", "--bodies", str(MAX_GENERATED)], stdout=subprocess.PIPE, stderr=subprocess.PIPE) as made:
        front = made.stdout.read(100)
        made.stdout.close()
        line = made.stderr.read()
        status = made.wait(SECONDS)
    if (status, line) != WRITE_FAULT[::2] or not front.startswith(b"# SDF\n"):
        return f"answers {status}, {line}, and {front}"
    return None


def main():
    parser = argparse.ArgumentParser()
    parser.add_argument("--program")
    parser.add_argument("--try", dest="unproved", action="store_true")
    options, _ = parser.parse_known_args()
    if options.unproved:
        return 0
    program = os.path.abspath(options.program) if options.program else built_program()
    wrong, count = [], 1
    with tempfile.TemporaryDirectory(prefix="hot-streams-") as folder:
        furnish(folder)
        os.chdir(folder)
        for trial in [*output_trials(), *input_trials(), *list_trials(), *endless_trials()]:
            count += 1
            wrong += [(trial.name, fault)] if (fault := judge(program, trial)) else []
        wrong += [("an output that is closed in its midst", fault)] if (fault := closed_early(program)) else []
        os.chdir("/")
    for name, fault in wrong:
        print(f"streams: {name}: {fault}", file=sys.stderr)
    print(f"{count - len(wrong)} of {count} trials of files and streams agree")
    return 1 if wrong else 0


if __name__ == "__main__":
    sys.exit(main())
