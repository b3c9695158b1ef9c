"""Runs of the program `hot`, and accelerations from arrays to arrays."""

import os
import re
import shutil
import subprocess
import sys
import tempfile
import threading
from fractions import Fraction
from pathlib import Path

import numpy as np

from .bodies import body_bytes
from .checks import as_masses, as_vectors
from .forces import read_forces
from .limits import MAX_FILES, MAX_LEAF, MAX_MOMENTS, MAX_RANKS, MAX_RATIO_NUMBER
from .rounding import rounding_bounds

VARIABLE = "HOT_PROGRAM"  # names the program to run
FLOAT_LOSS = 2.0**-48  # the share that the way from whole numbers to physical units loses at most
STATUSES = {1: "not built", 2: "words refused", 3: "file refused", 4: "read fault", 5: "write fault", 6: "out of memory"}


class ProgramError(RuntimeError):
    """A call of the program that did not end with status 0.

    Attributes:
        status: 1 not proved or built, 2 words refused, 3 file refused, 4 read fault, 5 write fault, 6 out of memory.
        line: the program's own line, as `B3 row 0 outside the cube on x`.
        code: its first word where it is a code, as `B3`; else an empty text.
        file: the number, from 1, of the file that was refused where several were named; else None.
    """

    def __init__(self, status, text):
        lines = [line[5:] for line in text.splitlines() if line.startswith("hot: ")]
        self.status, self.line = status, lines[-1] if lines else text.strip()
        word = self.line.split(" ")[0]
        self.code = word if word[:1] in tuple("ABH") and word[1:].isdigit() else ""
        ending = re.search(r" in file (\d+)$", self.line)
        self.file = int(ending[1]) if status == 3 and ending else None
        super().__init__(f"hot: {self.line}" if self.line else f"hot ended with status {status}")


class ProgramMissing(RuntimeError):
    """There is no program to run."""


def find_program(program=None):
    """The program to run: the one given, that of HOT_PROGRAM, the `hot` of the repository, or `hot` on the PATH.

    The repository's `hot` is a script that proves and builds the program first where that has not been done, which takes
    about eighteen minutes on four processors and is told on the error stream.

    Args:
        program: a path, or None.

    Returns:
        str: the path of an executable file.

    Raises:
        ProgramMissing: there is none, or the one that was named is none.
    """
    named = program or os.environ.get(VARIABLE)
    if named:
        found = shutil.which(os.fspath(named))
        if not found:
            raise ProgramMissing(f"{named} is no program")
        return found
    script = Path(__file__).resolve().parents[2] / "hot"
    found = str(script) if os.access(script, os.X_OK) and script.is_file() else shutil.which("hot")
    if not found:
        raise ProgramMissing(f"no program hot was found: give its path as program=, or in {VARIABLE}")
    return found


def _follow(stream, lines):
    """Keeps the lines of a stream, and hands each on once another follows: the last is the program's own."""
    for line in stream:
        if lines:
            sys.stderr.write(lines[-1])
            sys.stderr.flush()
        lines.append(line)


def run_program(words, data=b"", program=None):
    """The output of one call of the program.

    What the script `hot` says while it proves and builds the program goes to the error stream as it comes.

    Args:
        words: the words behind the program's name; without a file at their end standard input is the one file.
        data: the bytes of its standard input.
        program: as `find_program`.

    Returns:
        bytes: what it wrote on its output.

    Raises:
        ProgramError: its status was not 0.
        ProgramMissing: there is no program.
    """
    with tempfile.TemporaryFile() as file:
        file.write(data)
        file.seek(0)
        command = [find_program(program), *map(str, words)]
        with subprocess.Popen(
            command, stdin=file, stdout=subprocess.PIPE, stderr=subprocess.PIPE
        ) as process:
            lines = []
            errors = (line.decode(errors="replace") for line in process.stderr)
            follower = threading.Thread(target=_follow, args=(errors, lines))
            follower.start()
            output = process.stdout.read()
            follower.join()
    if process.returncode != 0:
        raise ProgramError(process.returncode, "".join(lines[-1:]))
    return output


def file_words(paths):
    """The words that name files, which the program takes together as one list of bodies.

    Args:
        paths: 1 to 16 names of files. One that begins with `-` gets `./` before it.

    Returns:
        list: texts, to be the last words of a call.

    Raises:
        ValueError: there are none, or too many.
    """
    names = [os.fspath(path) for path in paths]
    if not 1 <= len(names) <= MAX_FILES:
        raise ValueError(f"files are {len(names)}: 1 to {MAX_FILES} are wanted")
    return [f"./{name}" if name.startswith("-") else name for name in names]


def ratio_words(theta):
    """The opening ratio as the program takes it: two whole numbers up to 1,024.

    Args:
        theta: a number of 0 or more and at most 1,024, or a text as `7/10`. Other than a text it is brought to the
            nearest ratio of such numbers; 0.7 is 7/10.

    Returns:
        str: as `7/10`.

    Raises:
        ValueError: it is no such number.
    """
    try:
        ratio = Fraction(theta)
    except (TypeError, ValueError, OverflowError, ZeroDivisionError):
        raise ValueError(f"theta is {theta}: a number from 0 to {MAX_RATIO_NUMBER} is wanted") from None
    if not 0 <= ratio <= MAX_RATIO_NUMBER:
        raise ValueError(f"theta is {theta}: a number from 0 to {MAX_RATIO_NUMBER} is wanted")
    if ratio > 1:
        ratio = 1 / (1 / ratio).limit_denominator(MAX_RATIO_NUMBER)
    else:
        ratio = ratio.limit_denominator(MAX_RATIO_NUMBER)
    return f"{ratio.numerator}/{ratio.denominator}"


def _number(name, value, most):
    if isinstance(value, bool) or not isinstance(value, int) or not 1 <= value <= most:
        raise ValueError(f"{name} is {value}: a whole number from 1 to {most} is wanted")
    return value


def file_forces(data, scale, theta=0.7, softening=256, leaf=8, ranks=1, program=None, *, moments=1, more=()):
    """The exact accelerations of the bodies of a body file, or of several files.

    Args:
        data: the bytes of the file, or a list of the paths of 1 to 16 files with one cube, whose bodies are taken together.
        scale: its Scale, which several files share (`write_bodies`); a physical unit for the whole numbers.
        theta: the opening ratio, as `ratio_words`; 0 takes every pair of bodies.
        softening: in fine units, a whole number from 1 to 2^28 (`Scale.softening`).
        leaf: the bodies up to which a cell is not parted, 1 to 64.
        ranks: the ranks over which the work is split, 1 to 64; they do not change the answer.
        program: as `find_program`.
        moments: 2 where a cell pulls with its second moments too, at a ratio of at most 1; else 1.
        more: further words for the program.

    Returns:
        Forces: in the order of the file, or of the files.

    Raises:
        ValueError: an option is out of its range, or the number of files.
        ProgramError: the program refused a file or failed; it has the number of the file.
        ProgramMissing: there is no program.
    """
    words = ["forces", "--theta", ratio_words(theta), "--eps", softening]
    words += ["--leaf", _number("leaf", leaf, MAX_LEAF), "--ranks", _number("ranks", ranks, MAX_RANKS)]
    words += ["--moments", _number("moments", moments, MAX_MOMENTS), *more]
    if isinstance(data, (list, tuple)):
        return read_forces(run_program([*words, *file_words(data)], program=program), scale)
    return read_forces(run_program(words, data, program), scale)


def accelerations(
    positions,
    masses,
    theta=0.7,
    eps=0.0,
    G=1.0,
    ranks=1,
    program=None,
    *,
    leaf=8,
    moments=1,
    loss=0.01,
    scale=None,
    exact=False,
    bound=False,
):
    """The accelerations of bodies by their gravity on each other, computed by the proved program `hot`.

    The pull of a mass m at a distance r is G m r / (r^2 + eps^2)^(3/2).

    Args:
        positions: numbers of shape (N, 3), in any unit.
        masses: numbers above 0, of shape (N,), in any unit; one number stands for all bodies.
        theta: the opening ratio: a cell is taken as one body where its side over its distance is below it. 0 takes every
            pair. 0 to 1,024; brought to the nearest ratio of two whole numbers up to 1,024.
        eps: the softening, in the unit of the positions. 0 gives the least that the program has, one unit of the scale,
            which is far below the distances of most bodies. Bodies at one place do not pull each other.
        G: the gravitational constant, in the units of positions, masses and of the answer.
        ranks: the ranks over which the work is split, 1 to 64; they do not change the answer.
        program: the path of the program; without one as `find_program`.
        leaf: the bodies up to which a cell is not parted, 1 to 64.
        moments: 2 where a cell that acts as one body acts with its second moments (quadrupole) too; else 1. With 2 the
            opening ratio is at most 1, and the program refuses others (`A8`).
        loss: the largest share of a mass, or by an estimate of the pull on a body, that whole numbers may lose.
        scale: a Scale to use in place of the one that loses least.
        exact: whether to give the program's whole numbers and their scale.
        bound: whether to give beside the answer how far each component is off by rounding at most, as it is proved. The
            work of it is a square of N. At theta 0 that is how far it is from the exact sum over all pairs, for bodies
            whose places, masses and softening are whole at the scale. At other ratios it bounds the rounding of pulls
            alone, and says nothing of what cells that are taken whole leave out, which is mostly far more.

    Returns:
        ndarray or Forces: float64 of shape (N, 3), in the order given, in G times the unit of mass over the squared unit
        of length; with `exact` a Forces, which has the whole numbers. With `bound` a pair of it and the bounds, float64
        of shape (N, 3) in the unit of the accelerations.

    Raises:
        ValueError: an array has another shape or an element out of its range (`write_bodies`), an option is out of its
            range, (LossError) more than `loss` would be lost, or `bound` is wanted of second moments, for which none is
            proved.
        ProgramError: the program refused the bodies (more than 1,048,576 are `H13`) or failed; it has the program's line.
        ProgramMissing: there is no program.
    """
    positions = as_vectors("positions", positions)
    masses = as_masses(masses, len(positions))
    ratio = ratio_words(theta)
    if bound and moments != 1 and Fraction(ratio):
        raise ValueError("bound: of second moments none is proved")
    data, scale = body_bytes(positions, masses, eps=eps, loss=loss, scale=scale)
    softened = scale.softening(eps)
    found = file_forces(data, scale, ratio, softened, leaf, ranks, program, moments=moments)
    answer = found if exact else found.accelerations(G)
    if not bound:
        return answer
    floats = np.abs(found.accelerations(G)) * FLOAT_LOSS
    return answer, rounding_bounds(data, softened, ratio) * scale.acceleration(G) * (1 + FLOAT_LOSS) + floats
