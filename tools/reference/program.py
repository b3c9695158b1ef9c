"""What the program answers: its status, its output and its error stream."""

from functools import cache

from reference.forces import Walk, forces_sdf, forces_text
from reference.generator import made_bodies, made_file
from reference.header import Refused
from reference.near import near_results, near_text
from reference.report import Run, report_text, sample_text
from reference.rows import Bodies
from reference.split import split_text
from reference.words import read

FORCES = ["--eps", "--theta", "--leaf", "--moments"]  # the options by which the forces are


def line(text):
    return f"hot: {text}\n".encode()


READ_FAULT = 4, b"", line("read fault")


def is_decided(refused, data):
    """Whether these bytes show a fault, whatever comes behind them."""
    code = str(refused).split()[0]
    return code not in ("H3", "B1") and not (code == "H1" and b"# SDF".startswith(data))


def results_of(found, options):
    """The force on each body and the cells that it opens."""
    return Walk(found, *(options[name] for name in FORCES)).results()


@cache
def sampled(count, seed, *forces):
    """Generated bodies and their results."""
    found = made_bodies(count, seed)
    return found, Walk(found, *forces).results()


def without_file(command, options):
    """The answer of a command that reads no file."""
    count, seed = options["--bodies"], options["--seed"]
    if command == "make":
        return 0, made_file(count, seed), b""
    pair = sampled(count, seed, *(options[name] for name in FORCES))
    return 0, sample_text(*pair, options).encode(), b""


def with_bodies(command, options, found):
    """The answer of a command on the bodies of its files."""
    if command == "split":
        return 0, split_text(found, options["--ranks"]).encode(), b""
    if command == "near":
        results = near_results(found, options["--radius"], options["--leaf"])
        Run(found, results, options)  # (none of its numbers is printed, but it checks the exchange)
        return 0, near_text(found, results).encode(), b""
    results = results_of(found, options)
    report = report_text(Run(found, results, options)) if options["--report"] else ""
    if options["--form"] == "sdf":
        return 0, forces_sdf(found, results), report.encode()
    return 0, forces_text(found, results).encode(), report.encode()


def prepared(words, stdin, files, broken):
    """The answer where each stream takes all bytes; where `broken`, standard input fails behind its bytes."""
    try:
        command, options, names = read(words)
    except Refused as refused:
        return 2, b"", line(refused)
    if command in ("make", "sample"):
        return without_file(command, options)
    whole = Bodies()
    for number, name in enumerate(names, 1):
        data = stdin if name == "-" else files.get(name)
        fails = broken and name == "-"
        if data is None:
            return READ_FAULT
        try:
            whole.add_file(data)
        except Refused as refused:
            ending = f" in file {number}" if len(names) > 1 else ""
            return READ_FAULT if fails and not is_decided(refused, data) else (3, b"", line(f"{refused}{ending}"))
        if fails:
            return READ_FAULT
    return with_bodies(command, options, whole.found)


def answer(case):
    """The answer to a case (see cases/): each stream takes its bytes in their order, until it has no room."""
    status, out, err = prepared(case.words, case.stdin, case.files, case.broken)
    out_room, err_room = (case.room.get(stream, len(text)) for stream, text in (("out", out), ("err", err)))
    if len(out) > out_room:
        fault = line("write fault")
        return 5, out[:out_room], fault[: case.room.get("err", len(fault))]
    if len(err) > err_room:
        return 5, out, err[:err_room]
    return status, out, err
