"""The limits of the program `hot`, each of which has one name here (docs/MODEL.md, "Limits")."""

FINE_BITS = 29  # bits of a fine coordinate: the cube is 2^29 fine units wide
ACCELERATION_BITS = 40  # a printed acceleration is in units of 2^-40 of mass over squared fine distance
KEY_LEVELS = 21  # levels of cells below the root, so that the smallest cell is 2^8 fine units wide
MAX_BODIES = 1_048_576
MAX_FILES = 16
MAX_BODY_MASS = 2**32 - 1
MAX_ALL_MASS = 2**40
MAX_SOFTENING = 2**28  # in fine units; the least is 1
MAX_RATIO_NUMBER = 1024
MAX_RANKS = 64
MAX_LEAF = 64
MAX_MOMENTS = 2  # 1 for masses and centres alone
MAX_RADIUS = 2**30  # in fine units, which reaches across the cube
MAX_WORK = 2**32 - 1
MIN_IDENT, MAX_IDENT = -(2**63), 2**64 - 1
MAX_HEADER_BYTES = 65_536
MAX_TEXT_BYTES = 4_096
