"""How far accelerations at an opening ratio are from those of all pairs."""

from fractions import Fraction

from .bodies import body_bytes, read_bodies
from .convert import Names, read_table
from .direct import Errors, relative_errors
from .header import bytes_of
from .run import file_forces

RATIOS = ("1/10", "3/10", "1/2", "7/10", "9/10", "6/5")


def ratios_for(moments):
    """Those of the ratios that the program takes with so many moments: with second moments those up to 1."""
    return [ratio for ratio in RATIOS if moments == 1 or Fraction(ratio) <= 1]


def errors_by_ratio(data, scale, ratios=RATIOS, **options):
    """The errors of a body file's accelerations at several ratios, against those at ratio 0.

    Args:
        data: the bytes of the body file.
        scale: its Scale.
        ratios: opening ratios, as `ratio_words`.
        options: softening, leaf, ranks, program and moments of `file_forces`.

    Yields:
        (str, Errors): the ratio, and the median, 99 in 100 and largest of the relative errors of the bodies.

    Raises:
        ProgramError, ProgramMissing, ValueError: as `file_forces`.
    """
    truth = file_forces(data, scale, theta=0, **options).accelerations()
    for ratio in ratios:
        found = file_forces(data, scale, theta=ratio, **options).accelerations()
        yield ratio, Errors.of(relative_errors(found, truth))


def prepared(path, eps, names=Names(), loss=0.01):
    """A file of any kind as a body file: its bytes, its scale, and the softening in fine units.

    A body file is taken as it is; without a softening it gets the program's own, 256 fine units. Other files are written
    at the scale that loses least, and get the least softening.
    """
    if path.lower().endswith(".sdf"):
        data = bytes_of(path)
        scale = read_bodies(data).scale
        return data, scale, 256 if eps is None else scale.softening(eps)
    table = read_table(path, names)
    data, scale = body_bytes(**vars(table), eps=eps or 0.0, loss=loss)
    return data, scale, scale.softening(eps or 0.0)


def table_lines(pairs):
    """The lines of a table of errors, one for each pair as it comes."""
    yield f"{'ratio':>8} {'median':>10} {'99 %':>10} {'largest':>10}"
    for ratio, errors in pairs:
        yield f"{ratio:>8} {errors.median:10.2e} {errors.most:10.2e} {errors.largest:10.2e}"
