"""A list of cases as the programs read it: records in blocks of 65,536 bytes, none across an edge, with zeros up to the edge."""
import struct

BLOCK = 65_536


def record(kind, *numbers):
    """A kind, a byte, and signed little-endian numbers of 8 bytes."""
    return struct.pack(f"<B{len(numbers)}q", kind, *numbers)


class Blocks:
    def __init__(self):
        self.out = bytearray()
        self.again = b""  # what a block begins with

    def left(self):
        return -len(self.out) % BLOCK or BLOCK

    def add(self, new):
        if self.left() < len(new):
            self.out.extend(bytes(self.left()))
        if self.left() == BLOCK:
            self.out.extend(self.again)
        self.out.extend(new)
