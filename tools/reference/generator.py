"""The generator of numbers, and the bodies and the body file that it makes (docs/FORMATS.md)."""

import struct

from reference.keys import FINE_BITS
from reference.rows import Body

CUBE_BITS = 21
HEAD = """# SDF
parameter byteorder = 0x78563412;
int cube_bits = 21;
struct {{
  int32_t x, y, z;
}}[{count}];
# SDF-EOH
"""


class Generator:
    def __init__(self, seed):
        self.state = seed

    def advanced(self):
        """The next state."""
        self.state = (self.state * 6364136223846793005 + 1442695040888963407) % 2**64
        return self.state

    def draw(self):
        """The top 21 bits of the next state."""
        return self.advanced() >> 43


def made_places(count, seed):
    generator = Generator(seed)
    return [(generator.draw(), generator.draw(), generator.draw()) for _ in range(count)]


def made_file(count, seed):
    return HEAD.format(count=count).encode() + b"".join(struct.pack("<3i", *p) for p in made_places(count, seed))


def made_bodies(count, seed):
    """The same bodies, each with mass 1, weight 1 and its number as ident."""
    places = made_places(count, seed)
    return [Body(tuple(v << FINE_BITS - CUBE_BITS for v in p), 1, k, 1) for k, p in enumerate(places)]
