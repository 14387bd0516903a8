#!/usr/bin/env python3
"""Makes tables/sample.tbl: the little page of document 01, page 7.

    make_sample.py [FILE]
"""

import os
import sys

from table_image import LEAD, NEVER, NONE, SECOND, SINGLE, Tables

ROOT = os.path.dirname(os.path.dirname(os.path.abspath(__file__)))


def sample_tables():
    # "Page 7, default byte 3F, default unit 30FB."
    tables = Tables(7, 0x3F, 0x30FB)
    # "All others never."
    tables.classes = [NEVER] * 256
    # "00 to 7F single, same unit."
    for byte in range(0x00, 0x80):
        tables.classes[byte] = SINGLE
        tables.singles[byte] = byte
    # "80 single, none."
    tables.classes[0x80] = SINGLE
    tables.singles[0x80] = NONE
    # "81, 82 lead."
    tables.classes[0x81] = LEAD
    tables.classes[0x82] = LEAD
    # "A0 single, 00A0."
    tables.classes[0xA0] = SINGLE
    tables.singles[0xA0] = 0x00A0
    # "Second bytes: 40 to 7E."
    for byte in range(0x40, 0x7F):
        tables.classes[byte] += SECOND
    # "Pairs 8140 is 3000, 8141 is 3001, 827C is 4E00."
    tables.make_pair_blocks()
    tables.set_pair(0x8140, 0x3000)
    tables.set_pair(0x8141, 0x3001)
    tables.set_pair(0x827C, 0x4E00)
    # "Units: 0000 to 007F the same, 00A0 gives 20, 3000 gives 8140, 3001 gives 8141, 4E00 gives 827C."
    codes = {unit: unit for unit in range(0x0000, 0x0080)}
    codes.update({0x00A0: 0x20, 0x3000: 0x8140, 0x3001: 0x8141, 0x4E00: 0x827C})
    tables.set_codes(codes)
    return tables


def main():
    if len(sys.argv) > 2:
        sys.exit("usage: make_sample.py [FILE]")
    path = sys.argv[1] if len(sys.argv) == 2 else os.path.join(ROOT, "tables", "sample.tbl")
    with open(path, "wb") as file:
        file.write(sample_tables().image())


if __name__ == "__main__":
    main()
