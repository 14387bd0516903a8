"""Table sets and their images, for the tools that make tables (a module, not a program).

An image is what the console's command `table` reads. All numbers low byte first: page (2 bytes), default byte (1),
zero (1), default unit (2), zero (2), five sizes of 4 bytes (classes, singles, pairs, index, blocks: numbers of
elements), then the elements: classes and index 1 byte each, singles, pairs and blocks 2.
"""

import copy
import struct

NONE = 0xFFFF

NEVER = 0
SINGLE = 1
LEAD = 2
SECOND = 4  # added to one of the three above


class Tables:
    """A table set: three numbers and five lists. Nothing is checked, so that wrong ones can be made too."""

    def __init__(self, page, default_byte, default_unit):
        self.page = page
        self.default_byte = default_byte
        self.default_unit = default_unit
        self.classes = [NEVER] * 256
        self.singles = [NONE] * 256
        self.pairs = []
        self.index = [0] * 256
        self.blocks = [NONE] * 256

    def copy(self):
        return copy.deepcopy(self)

    def leads(self):
        """The lead bytes in rising order; the lead at place j uses pair block j."""
        return [byte for byte, byte_class in enumerate(self.classes) if byte_class in (LEAD, LEAD + SECOND)]

    def set_pair(self, code, unit):
        """Gives the pair its character; the classes must be set and pairs must have its block."""
        block = self.leads().index(code >> 8)
        self.pairs[256 * block + (code & 0xFF)] = unit

    def make_pair_blocks(self):
        """One empty block of pairs for each lead."""
        self.pairs = [NONE] * (256 * len(self.leads()))

    def set_codes(self, codes):
        """Makes index and blocks from a mapping of units to codes.

        Block 0 is the empty block, shared by every high half without a code; the others are numbered from 1 in the
        order of their high halves.
        """
        self.index = [0] * 256
        self.blocks = [NONE] * 256
        for high in sorted({unit >> 8 for unit in codes}):
            self.index[high] = len(self.blocks) // 256
            self.blocks += [codes.get(256 * high + low, NONE) for low in range(256)]
        if len(self.blocks) > 65536:
            raise ValueError("more than 256 blocks")

    def image(self):
        head = struct.pack("<HBBHH", self.page, self.default_byte, 0, self.default_unit, 0)
        tables = ((self.classes, "B"), (self.singles, "H"), (self.pairs, "H"), (self.index, "B"), (self.blocks, "H"))
        sizes = b"".join(struct.pack("<I", len(elements)) for elements, _ in tables)
        bodies = b"".join(struct.pack(f"<{len(elements)}{form}", *elements) for elements, form in tables)
        return head + sizes + bodies
