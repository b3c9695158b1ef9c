"""Accelerations and neighbours of bodies by the proved gravity program `hot`, from and to NumPy arrays.

    import hotbodies
    pulls = hotbodies.accelerations(positions, masses, theta=0.7, eps=0.01)
    near = hotbodies.neighbours(positions, 0.1)

`accelerations` chooses the scale between physical units and the program's whole numbers, runs it, and gives the answer in
physical units. `write_bodies`, `read_bodies` and `read_forces` do the parts of it with files.
"""

from .bodies import Bodies, read_bodies, write_bodies
from .direct import Errors, direct_accelerations, relative_errors
from .forces import Forces, read_forces
from .header import FormatError
from .near import Neighbours, file_neighbours, neighbours, read_neighbours
from .run import ProgramError, ProgramMissing, accelerations, file_forces, find_program
from .rounding import rounding_bounds
from .scale import LossError, Scale, choose_scale

__all__ = [
    "Bodies",
    "Errors",
    "Forces",
    "FormatError",
    "LossError",
    "Neighbours",
    "ProgramError",
    "ProgramMissing",
    "Scale",
    "accelerations",
    "choose_scale",
    "direct_accelerations",
    "file_forces",
    "file_neighbours",
    "find_program",
    "neighbours",
    "read_bodies",
    "read_forces",
    "read_neighbours",
    "relative_errors",
    "rounding_bounds",
    "write_bodies",
]
