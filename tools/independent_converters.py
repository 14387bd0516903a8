#!/usr/bin/env python3
"""Compares the images in tables/ with converters of other makers and writes tables/DIFFERENCES.md.

    independent_converters.py --source FOLDER [--check]

FOLDER has the sources of the tables (c_932.nls and the others); they show which differences are Microsoft's best
fit. With --check nothing is written: the file is compared with what would be written.

As a module it gives the mapping of a converter (mappings_of) and the list of differences in tables/DIFFERENCES.md
(read_exceptions), from which page_scripts.py works out what to expect.

Needs java (JDK 17), perl, uconv and glibc.
"""

import argparse
import ctypes
import os
import re
import struct
import subprocess
import sys
import unicodedata

import make_tables

HERE = os.path.dirname(os.path.abspath(__file__))
ROOT = os.path.dirname(HERE)
PAGES = make_tables.PAGES
DIFFERENCES = os.path.join(ROOT, "tables", "DIFFERENCES.md")

JAVA_NAMES = {
    932: "windows-31j",
    936: "x-mswin-936",
    949: "x-windows-949",
    950: "x-windows-950",
    437: "IBM437",
    850: "IBM850",
    874: "x-windows-874",
    1252: "windows-1252",
}
ICU_NAMES = {
    932: "ibm-943_P15A-2003",
    936: "windows-936-2000",
    949: "windows-949-2000",
    950: "windows-950-2000",
    437: "ibm-437_P100-1995",
    850: "ibm-850_P100-1995",
    874: "windows-874-2000",
    1252: "ibm-5348_P100-1997",
}
PERL_NAMES = {page: f"cp{page}" for page in PAGES}
PYTHON_NAMES = {page: f"cp{page}" for page in PAGES}
GLIBC_NAMES = {page: f"CP{page}" for page in PAGES}
GLIBC_NAMES[874] = "WINDOWS-874"


class Mapping:
    """What a converter does: `characters` by code (one byte or a pair), `codes` by unit."""

    def __init__(self):
        self.characters = {}
        self.codes = {}


def output_of(command, text=b""):
    """Standard output of a program."""
    try:
        done = subprocess.run(command, input=text, stdout=subprocess.PIPE, stderr=subprocess.DEVNULL)
    except FileNotFoundError:
        sys.exit(f"independent_converters: the program {command[0]} is not on this machine")
    return done.stdout


def dumped_mappings(command, names):
    """Java and perl: one program that writes the lines of DumpCharset.java."""
    by_name = {}
    mapping = None
    for line in output_of(command + list(names.values())).decode("ascii").splitlines():
        words = line.split(" ")
        if words[0] == "C":
            mapping = by_name[words[1]] = Mapping()
        elif words[0] == "D":
            mapping.characters[int(words[1], 16)] = int(words[2], 16)
        else:
            mapping.codes[int(words[1], 16)] = int(words[2], 16)
    missing = [name for name in names.values() if name not in by_name or not by_name[name].codes]
    if missing:
        sys.exit(f"independent_converters: {command[0]} gives no mapping for {', '.join(missing)}")
    return {page: by_name[name] for page, name in names.items()}


def java_mappings():
    return dumped_mappings(["java", os.path.join(HERE, "DumpCharset.java")], JAVA_NAMES)


def perl_mappings():
    return dumped_mappings(["perl", os.path.join(HERE, "dump_encode.pl")], PERL_NAMES)


UNITS = [unit for unit in range(65536) if not 0xD800 <= unit <= 0xDFFF]


def python_mappings():
    mappings = {}
    for page, name in PYTHON_NAMES.items():
        mapping = mappings[page] = Mapping()
        for first in range(256):
            alone = bytes([first]).decode(name, "ignore")
            if len(alone) == 1:
                mapping.characters[first] = ord(alone)
                continue
            for second in range(256):
                try:
                    pair = bytes([first, second]).decode(name)
                except UnicodeDecodeError:
                    continue
                if len(pair) == 1:
                    mapping.characters[256 * first + second] = ord(pair)
        for unit in UNITS:
            code = chr(unit).encode(name, "ignore")
            if code:
                mapping.codes[unit] = int.from_bytes(code, "big")
    return mappings


def split_at(elements, end):
    parts = [[]]
    for element in elements:
        if element == end:
            parts.append([])
        else:
            parts[-1].append(element)
    return parts[:-1]


def icu_mappings():
    """uconv converts one stream: one code a line. What has no character or no code comes out as an escape."""
    mappings = {}
    for page, name in ICU_NAMES.items():
        mapping = mappings[page] = Mapping()
        mapping.characters[0x0A] = mapping.codes[0x0A] = 0x0A
        icu_decode(mapping, name, [bytes([byte]) for byte in range(256) if byte != 0x0A])
        firsts = [byte for byte in range(0x80, 256) if byte not in mapping.characters]
        icu_decode(mapping, name, [bytes([first, second]) for first in firsts for second in range(0x30, 256)])
        asked = [unit for unit in UNITS if unit != 0x0A]
        stream = b"".join(struct.pack(">HH", unit, 0x0A) for unit in asked)
        command = ["uconv", "-f", "UTF-16BE", "-t", name, "--no-fallback", "--to-callback", "escape-unicode"]
        parts = split_at(output_of(command, stream), 0x0A)
        if len(parts) != len(asked):
            sys.exit(f"independent_converters: {name}: {len(parts)} lines encoded for {len(asked)} units")
        for unit, part in zip(asked, parts):
            if len(part) in (1, 2):
                mapping.codes[unit] = int.from_bytes(bytes(part), "big")
    return mappings


def icu_decode(mapping, name, codes):
    """Each code on a line of its own, then an empty line and a label, so that a code that eats its line end shows."""
    labels = [f"={code.hex()}" for code in codes]
    stream = b"".join(code + b"\n\n" + label.encode("ascii") + b"\n" for code, label in zip(codes, labels))
    output = output_of(["uconv", "-f", name, "-t", "UTF-16BE", "--from-callback", "escape"], stream)
    lines = split_at(struct.unpack(f">{len(output) // 2}H", output), 0x0A)
    place = 0
    for code, label in zip(codes, labels):
        end = lines.index([ord(letter) for letter in label], place)
        if end == place + 2 and len(lines[place]) == 1 and lines[place + 1] == []:
            mapping.characters[int.from_bytes(code, "big")] = lines[place][0]
        place = end + 1


def glibc_mappings():
    """The C library's own iconv, one code a call."""
    library = ctypes.CDLL(None)
    library.iconv_open.restype = ctypes.c_void_p
    library.iconv.restype = ctypes.c_ssize_t
    library.iconv.argtypes = [ctypes.c_void_p] + 4 * [ctypes.c_void_p]

    def opened(target, source):
        descriptor = library.iconv_open(target.encode("ascii"), source.encode("ascii"))
        if descriptor == ctypes.c_void_p(-1).value:
            sys.exit(f"independent_converters: iconv has no conversion from {source} to {target}")
        return descriptor

    def converted(descriptor, data):
        source = ctypes.create_string_buffer(data, len(data))
        target = ctypes.create_string_buffer(16)
        source_place, source_left = ctypes.c_void_p(ctypes.addressof(source)), ctypes.c_size_t(len(data))
        target_place, target_left = ctypes.c_void_p(ctypes.addressof(target)), ctypes.c_size_t(16)
        library.iconv(descriptor, None, None, None, None)
        answer = library.iconv(descriptor, ctypes.byref(source_place), ctypes.byref(source_left),
                               ctypes.byref(target_place), ctypes.byref(target_left))
        return target.raw[: 16 - target_left.value] if answer >= 0 and source_left.value == 0 else b""

    mappings = {}
    for page, name in GLIBC_NAMES.items():
        mapping = mappings[page] = Mapping()
        decoder, encoder = opened("UTF-16BE", name), opened(name, "UTF-16BE")
        for first in range(256):
            alone = converted(decoder, bytes([first]))
            if len(alone) == 2:
                mapping.characters[first] = int.from_bytes(alone, "big")
                continue
            for second in range(256):
                pair = converted(decoder, bytes([first, second]))
                if len(pair) == 2:
                    mapping.characters[256 * first + second] = int.from_bytes(pair, "big")
        for unit in UNITS:
            code = converted(encoder, unit.to_bytes(2, "big"))
            if code:
                mapping.codes[unit] = int.from_bytes(code, "big")
    return mappings


CONVERTERS = (
    ("Java", java_mappings, JAVA_NAMES),
    ("perl", perl_mappings, PERL_NAMES),
    ("Python", python_mappings, PYTHON_NAMES),
    ("ICU", icu_mappings, ICU_NAMES),
    ("glibc", glibc_mappings, GLIBC_NAMES),
)


def table_mapping(tables):
    """What a table set says, as a mapping."""
    mapping = Mapping()
    for byte, unit in enumerate(tables.singles):
        if unit != make_tables.NONE:
            mapping.characters[byte] = unit
    for block, lead in enumerate(tables.leads()):
        for second, unit in enumerate(tables.pairs[256 * block : 256 * block + 256]):
            if unit != make_tables.NONE:
                mapping.characters[256 * lead + second] = unit
    for high, block in enumerate(tables.index):
        for low, code in enumerate(tables.blocks[256 * block : 256 * block + 256]):
            if code != make_tables.NONE:
                mapping.codes[256 * high + low] = code
    return mapping


def differing_keys(ours, theirs):
    return sorted(key for key in ours.keys() | theirs.keys() if ours.get(key) != theirs.get(key))


def counts_text(ours, theirs):
    """'missing / more / other' of a converter against the table."""
    missing = sum(1 for key in ours if key not in theirs)
    more = sum(1 for key in theirs if key not in ours)
    other = sum(1 for key in ours if key in theirs and theirs[key] != ours[key])
    return f"{missing} / {more} / {other}"


def code_text(code):
    if code is None:
        return "none"
    return f"{code:02X}" if code <= 0xFF else f"{code:04X}"


def unit_text(unit):
    return "none" if unit is None else f"{unit:04X}"


def name_of(unit):
    return unicodedata.name(chr(unit), "no name")


def ranges_text(keys, form, most=10):
    """Keys as ranges, at most `most` of them."""
    ranges = []
    for key in keys:
        if ranges and key == ranges[-1][1] + 1:
            ranges[-1][1] = key
        else:
            ranges.append([key, key])
    texts = [form(first) if first == final else f"{form(first)}-{form(final)}" for first, final in ranges[:most]]
    if len(ranges) > most:
        texts.append(f"and {len(ranges) - most} ranges more")
    return ", ".join(texts)


def exception_rows(page, ours, theirs, nls):
    """One row for each difference of the chosen converter."""
    rows = []
    for code in differing_keys(ours.characters, theirs.characters):
        unit = theirs.characters.get(code, ours.characters.get(code))
        published = nls.units[code] if code <= 0xFF else nls.pairs.get(code)
        rows.append((page, "decode", code_text(code), name_of(unit), unit_text(ours.characters.get(code)),
                     unit_text(published), unit_text(theirs.characters.get(code))))
    for unit in differing_keys(ours.codes, theirs.codes):
        published = nls.codes[unit]
        if published == nls.default_byte and unit != nls.units[nls.default_byte]:
            published = None
        rows.append((page, "encode", unit_text(unit), name_of(unit), code_text(ours.codes.get(unit)),
                     code_text(published), code_text(theirs.codes.get(unit))))
    return rows


def best_fit_counts(nls, ours):
    """How many placeholders and best fit units the source has beyond the table."""
    placeholders = sum(1 for byte in range(256) if byte not in nls.leads and byte not in ours.characters)
    best_fit = sum(1 for unit in range(65536)
                   if unit not in ours.codes and nls.codes[unit] != nls.default_byte)
    return placeholders, best_fit


def source_mapping(nls):
    """The source as it is, best fit and placeholders included."""
    mapping = Mapping()
    mapping.characters = dict(make_tables.characters_of(nls))
    for byte in range(256):
        if byte not in nls.leads:
            mapping.characters[byte] = nls.units[byte]
    for unit, code in enumerate(nls.codes):
        if code != nls.default_byte or nls.units[code] == unit:
            mapping.codes[unit] = code
    return mapping


def versions():
    java = subprocess.run(["java", "-version"], capture_output=True, text=True).stderr.splitlines()[1]
    perl = output_of(["perl", "-MEncode", "-e", "print \"$^V, Encode $Encode::VERSION\""]).decode("ascii")
    icu = output_of(["uconv", "--version"]).decode("ascii").strip()
    glibc = output_of(["iconv", "--version"]).decode("utf-8").splitlines()[0]
    return {
        "Java": java,
        "perl": perl,
        "Python": ".".join(str(number) for number in sys.version_info[:3]),
        "ICU": icu,
        "glibc": glibc,
    }


def differences_text(folder):
    sources = {page: make_tables.read_source(folder, page)[1] for page in PAGES}
    ours = {page: table_mapping(make_tables.tables_of(nls)) for page, nls in sources.items()}
    theirs = {name: mappings() for name, mappings, _ in CONVERTERS}
    version = versions()

    rows = []
    for page in PAGES:
        rows += exception_rows(page, ours[page], theirs["Java"][page], sources[page])
    lines = [
        "# Where other converters differ from the tables",
        "",
        "Made by `tools/independent_converters.py`, which asks every converter for every code and every unit.",
        "",
        "## Java, from which the page tests' expected output is made",
        "",
        f"{version['Java']}. Charsets: "
        + ", ".join(f"{page} `{name}`" for page, name in JAVA_NAMES.items()) + ".",
        "",
        f"It differs in {len(rows)} entries, all listed here. `tools/page_scripts.py` reads this list and changes",
        "each of these entries from the converter's value to the table's; it stops if Java's value is not the one",
        "listed. 'Source' is the value in the source with Microsoft's best fit, which the table leaves out.",
        "",
        "| Page | Direction | Code or unit | Name | Table | Source | Converter |",
        "|---|---|---|---|---|---|---|",
    ]
    lines += ["| " + " | ".join(str(word) for word in row) + " |" for row in rows]
    lines += [
        "",
        "## The sources themselves",
        "",
        "What the images leave out (see README.md): bytes whose unit is a placeholder, units whose code is best fit.",
        "",
        "| Page | Placeholder bytes | Best fit units |",
        "|---|---|---|",
    ]
    for page in PAGES:
        placeholders, best_fit = best_fit_counts(sources[page], ours[page])
        lines.append(f"| {page} | {placeholders} | {best_fit} |")
    lines += [
        "",
        "## All five, counted",
        "",
        "Entries of the converter against the table: missing / more / other than in the table. ICU was asked",
        "for second bytes from 30 on only.",
        "",
        "| Page | Converter | Decode | Encode |",
        "|---|---|---|---|",
    ]
    for page in PAGES:
        for name, _, names in CONVERTERS:
            mapping = theirs[name][page]
            lines.append(
                f"| {page} | {name} `{names[page]}` | {counts_text(ours[page].characters, mapping.characters)}"
                f" | {counts_text(ours[page].codes, mapping.codes)} |"
            )
    lines += ["", "Versions: " + "; ".join(f"{name}: {text}" for name, text in version.items()) + ".", ""]
    lines += [
        "perl against the sources as they are, best fit and placeholders included:",
        "",
        "| Page | Decode | Encode |",
        "|---|---|---|",
    ]
    for page in PAGES:
        source, mapping = source_mapping(sources[page]), theirs["perl"][page]
        lines.append(
            f"| {page} | {counts_text(source.characters, mapping.characters)}"
            f" | {counts_text(source.codes, mapping.codes)} |"
        )
    lines += ["", "## Which entries", ""]
    for page in PAGES:
        for name, _, _ in CONVERTERS:
            mapping = theirs[name][page]
            codes = differing_keys(ours[page].characters, mapping.characters)
            units = differing_keys(ours[page].codes, mapping.codes)
            if codes:
                lines.append(f"- {page}, {name}, decode: {ranges_text(codes, code_text)}")
            if units:
                lines.append(f"- {page}, {name}, encode: {ranges_text(units, unit_text)}")
    return "\n".join(lines) + "\n"


ROW = re.compile(r"\| (\d+) \| (decode|encode) \| ([0-9A-F]+) \| [^|]* \| (\w+) \| \w+ \| (\w+) \|")


def read_exceptions():
    """The listed differences: (page, direction, key, the table's value, the converter's value); none is None."""

    def value(word):
        return None if word == "none" else int(word, 16)

    try:
        with open(DIFFERENCES, encoding="utf-8") as file:
            text = file.read()
    except OSError as error:
        sys.exit(f"independent_converters: can't read {DIFFERENCES}: {error.strerror}")
    return [
        (int(page), direction, int(key, 16), value(table), value(converter))
        for page, direction, key, table, converter in ROW.findall(text)
    ]


def main():
    parser = argparse.ArgumentParser(description="Compares the tables with other converters.")
    parser.add_argument("--source", metavar="FOLDER", required=True, help="the folder that has c_932.nls and the others")
    parser.add_argument("--check", action="store_true", help="compare and write nothing")
    options = parser.parse_args()
    text = differences_text(options.source)
    if options.check:
        with open(DIFFERENCES, encoding="utf-8") as file:
            if file.read() != text:
                sys.exit("tables/DIFFERENCES.md is not what the converters on this machine give")
        print("tables/DIFFERENCES.md agrees")
    else:
        with open(DIFFERENCES, "w", encoding="utf-8") as file:
            file.write(text)


if __name__ == "__main__":
    main()
