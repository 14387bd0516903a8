#!/usr/bin/env python3
"""Compares the NLS sources of the tables with the text files that Microsoft publishes.

    compare_text_tables.py --source FOLDER --text ZIP

FOLDER has c_932.nls and the others. ZIP is Microsoft's 'Windows Supported Code Page Data Files.zip': the files NNN.txt that
source documents 000 and 001 read their mappings from. tables/README.md says where both are found. Prints each difference.
"""

import argparse
import re
import sys
import zipfile

import make_tables


class TextTable:
    """A text file: sections MBTABLE, DBCSTABLE (one for each lead) and WCTABLE, each with its number of lines."""

    def __init__(self, text):
        self.characters = {}
        self.codes = {}
        section, left, lead = None, 0, 0
        for line in text.split("\n"):
            words = line.split(";")[0].split()
            if not words:
                continue
            if words[0] == "CPINFO":
                self.default_byte, self.default_unit = int(words[2], 16), int(words[3], 16)
            elif words[0] in ("MBTABLE", "DBCSTABLE", "WCTABLE", "GLYPHTABLE"):
                section, left = words[0], int(words[1])
                if section == "DBCSTABLE":
                    lead = int(re.search(r"LeadByte = 0x([0-9a-fA-F]+)", line).group(1), 16)
            elif left > 0:
                left -= 1
                if section == "GLYPHTABLE":
                    continue
                key, value = int(words[0], 16), int(words[1], 16)
                if section == "MBTABLE":
                    self.characters[key] = value
                elif section == "DBCSTABLE":
                    self.characters[256 * lead + key] = value
                else:
                    self.codes[key] = value


def differences(nls, text):
    """The places where the two differ, as lines."""
    lines = []
    if (nls.default_byte, nls.default_unit) != (text.default_byte, text.default_unit):
        lines.append("the defaults differ")
    for code in range(0x10000):
        if code <= 0xFF:
            ours = None if code in nls.leads else nls.units[code]
        else:
            ours = nls.pairs.get(code)
            if ours == nls.default_unit and nls.codes[ours] != code:
                ours = None  # the default unit stands where there is no character
        theirs = text.characters.get(code)
        if ours != theirs:
            lines.append(f"code {code:04X}: {shown(ours)} here, {shown(theirs)} in the text")
    for unit in range(0x10000):
        # a unit that the text does not list has the default byte here
        theirs = text.codes.get(unit, text.default_byte)
        if nls.codes[unit] != theirs:
            lines.append(f"unit {unit:04X}: code {nls.codes[unit]:04X} here, {theirs:04X} in the text")
    return lines


def shown(unit):
    return "none" if unit is None else f"{unit:04X}"


def main():
    parser = argparse.ArgumentParser(description="Compares the NLS sources with Microsoft's text files.")
    parser.add_argument("--source", metavar="FOLDER", required=True, help="the folder that has c_932.nls and the others")
    parser.add_argument("--text", metavar="ZIP", required=True, help="'Windows Supported Code Page Data Files.zip'")
    options = parser.parse_args()
    try:
        archive = zipfile.ZipFile(options.text)
    except (OSError, zipfile.BadZipFile) as error:
        sys.exit(f"compare_text_tables: can't read {options.text}: {error}")
    for page in make_tables.PAGES:
        name = next((name for name in archive.namelist() if name.endswith(f"/{page}.txt")), None)
        if name is None:
            sys.exit(f"compare_text_tables: {options.text} has no file {page}.txt")
        text = TextTable(archive.read(name).decode("latin-1"))
        lines = differences(make_tables.read_source(options.source, page)[1], text)
        print(f"page {page}: {len(lines)} differences")
        for line in lines:
            print(f"  {line}")


if __name__ == "__main__":
    main()
