"""The commands `python3 -m hotbodies convert` and `python3 -m hotbodies accuracy`."""

import argparse
import sys

from .accuracy import RATIOS, errors_by_ratio, prepared, ratios_for, table_lines
from .convert import Names, read_table, write_table
from .run import ProgramError, ProgramMissing

PARTS = ("positions", "masses", "velocities", "idents", "work")


def _add_names(parser):
    for part in PARTS:
        parser.add_argument(f"--{part}", default=part, metavar="NAME", help=f"the dataset of the {part} (.npz, HDF5)")


def _names(options):
    return Names(**{part: getattr(options, part) for part in PARTS})


def _parser():
    parser = argparse.ArgumentParser(prog="python3 -m hotbodies", description="Bodies for the gravity program hot.")
    commands = parser.add_subparsers(dest="command", required=True)
    convert = commands.add_parser("convert", help="reads a file of bodies and writes another")
    convert.add_argument("input", metavar="IN", help=".sdf .npy .npz .csv .hdf5 .h5")
    convert.add_argument("output", metavar="OUT", help="the same endings")
    convert.add_argument("--eps", type=float, default=0.0, help="the softening that will be used, for a body file")
    convert.add_argument("--loss", type=float, default=0.01, help="the largest share that whole numbers may lose (0.01)")
    convert.add_argument("--types", help="PartTypes of a GADGET file to read, as 0,1,4 (all)")
    convert.add_argument("--gadget", action="store_true", help="write an HDF5 file in GADGET's layout, as PartType1")
    _add_names(convert)
    accuracy = commands.add_parser("accuracy", help="prints the errors at several ratios against ratio 0")
    accuracy.add_argument("input", metavar="FILE", help=".sdf .npy .npz .csv .hdf5 .h5")
    accuracy.add_argument("--ratios", help=f"opening ratios ({','.join(RATIOS)}; with two moments those up to 1)")
    accuracy.add_argument("--eps", type=float, help="the softening, in the unit of the positions")
    accuracy.add_argument("--leaf", type=int, default=8, help="bodies of a cell that is not parted (8)")
    accuracy.add_argument("--moments", type=int, default=1, help="2 where cells pull with second moments too (1)")
    accuracy.add_argument("--ranks", type=int, default=1, help="ranks over which the work is split (1)")
    accuracy.add_argument("--program", help="the path of the program hot")
    _add_names(accuracy)
    return parser


def _convert(options):
    kinds = None if options.types is None else [int(it) for it in options.types.split(",")]
    table = read_table(options.input, _names(options), kinds)
    scale = write_table(
        options.output, table, _names(options), eps=options.eps, loss=options.loss, gadget=options.gadget
    )
    said = f"{len(table.positions)} bodies"
    print(f"{said}, a unit is {scale.length:.6g} long and {scale.mass:.6g} heavy" if scale else said)


def _accuracy(options):
    data, scale, softening = prepared(options.input, options.eps, _names(options))
    ratios = options.ratios.split(",") if options.ratios else ratios_for(options.moments)
    runs = {name: getattr(options, name) for name in ("leaf", "moments", "ranks", "program")}
    pairs = errors_by_ratio(data, scale, ratios, softening=softening, **runs)
    for line in table_lines(pairs):
        print(line, flush=True)


def main(words=None):
    """Runs a command; 0, or 1 with a line on the error stream where it cannot be done."""
    options = _parser().parse_args(words)
    try:
        {"convert": _convert, "accuracy": _accuracy}[options.command](options)
    except (ValueError, OSError, ProgramError, ProgramMissing) as error:
        print(f"hotbodies: {error}", file=sys.stderr)
        return 1
    return 0


if __name__ == "__main__":
    sys.exit(main())
