#!/usr/bin/env python3
"""Makes the images of the real code pages, tables/cpNNN.tbl, from Microsoft's tables in NLS form.

    make_tables.py --source FOLDER            makes the images from FOLDER/c_NNN.nls and prints README's rows
    make_tables.py --source FOLDER --check    makes them anew in memory and compares them with tables/
    make_tables.py --check                    compares the images in tables/ with the sums in tables/README.md

tables/README.md says where the sources come from and how a table is read from them.
"""

import argparse
import hashlib
import os
import re
import struct
import sys

from table_image import LEAD, NEVER, NONE, SECOND, SINGLE, Tables

ROOT = os.path.dirname(os.path.dirname(os.path.abspath(__file__)))
PAGES = (932, 936, 949, 950, 437, 850, 874, 1252)


class SourceError(Exception):
    pass


class Nls:
    """A code page file in NLS form, taken apart but not judged."""

    def __init__(self, data, page):
        words = struct.unpack(f"<{len(data) // 2}H", data[: len(data) // 2 * 2])
        # header: its size in words, page, bytes a character, default byte, default unit, the default byte's unit,
        # the default unit's code, 12 bytes of lead ranges
        head = words[0]
        if head != 13 or words[1] != page:
            raise SourceError(f"not the NLS file of page {page}")
        self.page = page
        self.default_byte = words[3]
        self.default_unit = words[4]
        if self.default_byte > 0xFF:
            raise SourceError("default character of two bytes")
        ranges = data[14:26]
        # the word after the header is the way to the Unicode table; then 256 units, one a byte
        wide = head + words[head]
        self.units = words[head + 1 : head + 257]
        # then an optional table of glyphs, which is passed over, and the offsets of the pair tables
        place = head + 257
        place += 1 + (256 if words[place] != 0 else 0)
        if words[place] != 0:
            base = place + 1
            offsets = words[base : base + 256]
        else:
            base = place
            offsets = [0] * 256
        self.leads = [byte for byte in range(256) if offsets[byte] != 0]
        self.pairs = {}
        for lead in self.leads:
            for second in range(256):
                self.pairs[256 * lead + second] = words[base + offsets[lead] + second]
        listed = []
        for first, final in zip(ranges[0::2], ranges[1::2]):
            if first != 0:
                listed += range(first, final + 1)
        if listed != self.leads:
            raise SourceError("lead ranges and pair tables differ")
        # the code of every unit: one byte each, or two where the mark before them is set
        if words[wide] == 0:
            self.codes = list(data[2 * wide + 2 : 2 * wide + 2 + 65536])
        else:
            self.codes = list(words[wide + 1 : wide + 1 + 65536])
        if len(self.codes) != 65536:
            raise SourceError("the file is too short")


def is_placeholder(byte, unit):
    """A byte with no character of its own, to which Microsoft gives a C1 control or a private use unit."""
    return byte >= 0x80 and (0x0080 <= unit <= 0x009F or 0xE000 <= unit <= 0xF8FF)


def characters_of(nls):
    """The character of each code that has one: single bytes and pairs together."""
    characters = {}
    for byte in range(256):
        if byte not in nls.leads and not is_placeholder(byte, nls.units[byte]):
            characters[byte] = nls.units[byte]
    for code, unit in nls.pairs.items():
        # the default unit stands at each pair without a character, and at its own code
        if unit != nls.default_unit or nls.codes[unit] == code:
            characters[code] = unit
    return characters


def tables_of(nls):
    """The table set of a page: see tables/README.md for the reasons."""
    characters = characters_of(nls)
    tables = Tables(nls.page, nls.default_byte, nls.default_unit)
    seconds = {code & 0xFF for code in characters if code > 0xFF}
    for byte in range(256):
        if byte in nls.leads:
            tables.classes[byte] = LEAD
        elif byte in characters or not nls.leads:
            tables.classes[byte] = SINGLE
            tables.singles[byte] = characters.get(byte, NONE)
        else:
            tables.classes[byte] = NEVER
        if byte in seconds:
            tables.classes[byte] += SECOND
    tables.make_pair_blocks()
    for code, unit in characters.items():
        if code > 0xFF:
            tables.set_pair(code, unit)
    tables.set_codes({unit: code for unit, code in enumerate(nls.codes) if characters.get(code) == unit})
    return tables


def read_source(folder, page):
    path = os.path.join(folder, f"c_{page}.nls")
    try:
        with open(path, "rb") as file:
            data = file.read()
        return data, Nls(data, page)
    except OSError as error:
        sys.exit(f"make_tables: can't read {path}: {error.strerror}")
    except SourceError as error:
        sys.exit(f"make_tables: {path}: {error}")


def image_path(page):
    return os.path.join(ROOT, "tables", f"cp{page}.tbl")


def sum_of(data):
    return hashlib.sha256(data).hexdigest()


def read_file(path):
    try:
        with open(path, "rb") as file:
            return file.read()
    except OSError as error:
        sys.exit(f"make_tables: can't read {path}: {error.strerror}")


def readme_sums():
    """The sums that tables/README.md gives, by file name."""
    text = read_file(os.path.join(ROOT, "tables", "README.md")).decode("utf-8")
    return dict(re.findall(r"\| `([A-Za-z0-9_.]+)` \| [^|]*\| `([0-9a-f]{64})` \|", text))


def check(folder):
    """Compares sums, and the images made anew if the sources are given; answers the complaints."""
    complaints = []
    sums = readme_sums()
    for page in PAGES:
        image = read_file(image_path(page))
        if sums.get(f"cp{page}.tbl") != sum_of(image):
            complaints.append(f"cp{page}.tbl: the sum is not the one in README.md")
        if folder is not None:
            data, nls = read_source(folder, page)
            if sums.get(f"c_{page}.nls") != sum_of(data):
                complaints.append(f"c_{page}.nls: the sum is not the one in README.md")
            if tables_of(nls).image() != image:
                complaints.append(f"cp{page}.tbl: is not what the source gives")
    return complaints


def make(folder):
    for page in PAGES:
        data, nls = read_source(folder, page)
        image = tables_of(nls).image()
        with open(image_path(page), "wb") as file:
            file.write(image)
        print(f"| `c_{page}.nls` | {len(data):,} | `{sum_of(data)}` |")
        print(f"| `cp{page}.tbl` | {len(image):,} | `{sum_of(image)}` |")


def main():
    parser = argparse.ArgumentParser(description="Makes or checks the images of the real code pages.")
    parser.add_argument("--source", metavar="FOLDER", help="the folder that has c_932.nls and the others")
    parser.add_argument("--check", action="store_true", help="compare and write nothing")
    options = parser.parse_args()
    if options.check:
        complaints = check(options.source)
        for complaint in complaints:
            print(complaint)
        if complaints:
            sys.exit(1)
        compared = "sources, images and sums" if options.source else "images and sums (no sources given)"
        print(f"{len(PAGES)} tables checked: {compared} agree")
    elif options.source:
        make(options.source)
    else:
        parser.error("give --source FOLDER, or --check")


if __name__ == "__main__":
    main()
