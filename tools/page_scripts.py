#!/usr/bin/env python3
"""Makes the tests of the real code pages: a console script and its expected answers for each page.

    page_scripts.py            writes scripts/cpNNN.in and .out, scripts/undefined_units.in and .out, scripts/spell_pages.in and .out
    page_scripts.py --check    makes them in memory and compares them with the stored files

Either way each script is played on second_converter.py, which must give the expected answers.

A page's script decodes every single byte, every lead with every second byte 00 to FF, and every lead alone at the end
of the text; it encodes every unit that has a code and the units around those. The script undefined_units encodes all
other units on every page. So each unit 0000 to FFFF is encoded on each page. The script spell_pages has the standard spelling of every
code of every page (spell_scripts.py).

The expected answers come neither from our tables nor from second_converter.py. They are worked out from three things:
the mapping of Java's charsets, changed in the entries that tables/DIFFERENCES.md lists; the shape of each page as it
is published, written below; and the rules of documents 01 and 02. So a pair that is no code of the page is told by the
rules, and what Java makes of it plays no part. Needs java (JDK 17).
"""

import argparse
import os
import sys

import independent_converters
import second_converter
import spell_scripts

ROOT = os.path.dirname(os.path.dirname(os.path.abspath(__file__)))
SCRIPTS = os.path.join(ROOT, "scripts")
TABLES = os.path.join(ROOT, "tables")
PAGES = independent_converters.PAGES


def byte_set(text):
    """'81-9F E0' as a set of numbers."""
    numbers = set()
    for part in text.split():
        first, _, final = part.partition("-")
        numbers |= set(range(int(first, 16), int(final or first, 16) + 1))
    return numbers


class Shape:
    """What is published of a page beside its characters."""

    def __init__(self, leads, seconds, never, default_unit):
        self.leads = byte_set(leads)
        self.seconds = byte_set(seconds)
        self.never = byte_set(never)
        self.default_byte = 0x3F
        self.default_unit = default_unit


SHAPES = {
    932: Shape("81-9F E0-FC", "40-7E 80-FC", "80 A0 FD-FF", 0x30FB),
    936: Shape("81-FE", "40-7E 80-FE", "FF", 0x003F),
    949: Shape("81-FE", "41-5A 61-7A 81-FE", "80 FF", 0x003F),
    950: Shape("81-FE", "40-7E A1-FE", "80 FF", 0x003F),
    437: Shape("", "", "", 0x003F),
    850: Shape("", "", "", 0x003F),
    874: Shape("", "", "", 0x003F),
    1252: Shape("", "", "", 0x003F),
}

# Decoding policy: an undefined single is F100 plus the byte, an undefined pair is 5F, invalid is NUL.
DECODE_POLICY = "642"
UNDEFINED_PAIR_UNIT = 0x005F
INVALID_UNIT = 0x0000
# Encoding policies: an undefined unit is NUL in the dense part; where no unit has a code it is skipped, and so is a surrogate.
ENCODE_POLICY = "255"
UNDEFINED_UNIT_BYTES = [0x00]
SKIP_POLICY = "151"
SURROGATES = range(0xD800, 0xE000)
# A stretch of at least this many units without a code is left to the script undefined_units.
GAP = 12


class PageError(Exception):
    pass


def expected_mappings():
    """Java's mapping with the listed differences applied; each must be as listed."""
    mappings = independent_converters.java_mappings()
    for page, direction, key, table_value, converter_value in independent_converters.read_exceptions():
        mapping = mappings[page].characters if direction == "decode" else mappings[page].codes
        if mapping.get(key) != converter_value:
            raise PageError(f"page {page}, {direction} {key:04X}: Java gives another value than DIFFERENCES.md lists")
        if table_value is None:
            del mapping[key]
        else:
            mapping[key] = table_value
    for page, mapping in mappings.items():
        check_shape(page, mapping)
    return mappings


def check_shape(page, mapping):
    """Java's characters must lie where the published shape has them."""
    shape = SHAPES[page]
    for code in mapping.characters:
        if code <= 0xFF:
            fits = code not in shape.leads and code not in shape.never
        else:
            fits = code >> 8 in shape.leads and code & 0xFF in shape.seconds
        if not fits:
            raise PageError(f"page {page}: the code {code:04X} is not within the published shape")


class Script:
    """Commands and the answers that are expected to them, side by side."""

    def __init__(self):
        self.commands = []
        self.answers = []

    def note(self, text):
        self.commands.append(f"# {text}")

    def add(self, command, answer):
        self.commands.append(command)
        self.answers.append(answer)

    def files(self):
        """The two files as bytes."""
        return tuple(("\n".join(lines) + "\n").encode("ascii") for lines in (self.commands, self.answers))


def hex_bytes(numbers):
    return "".join(f"{number:02X}" for number in numbers) or "-"


def hex_units(numbers):
    return "".join(f"{number:04X}" for number in numbers) or "-"


def run_words(direction, page, policy, flags, read, written, word):
    return f"{direction} {page} {' '.join(policy)} - {flags} {read} {written} {word}"


def read_single(byte, shape, characters):
    """Document 01 on a byte that is no lead: its unit under DECODE_POLICY and the flag it sets."""
    if byte in shape.never:
        return INVALID_UNIT, 4
    if byte in characters:
        return characters[byte], 0
    return 0xF100 + byte, 1


def read_pair(lead, second, shape, characters):
    """Documents 01 and 02 (CR 2) on a lead and the byte after it: one code of both, or the lead alone and then the byte."""
    if second in shape.seconds:
        if 256 * lead + second in characters:
            return [(characters[256 * lead + second], 0)]
        return [(UNDEFINED_PAIR_UNIT, 2)]
    if second < 0x80:
        return [(INVALID_UNIT, 4), read_single(second, shape, characters)]
    return [(INVALID_UNIT, 4)]


def read_unit(unit, codes):
    """Document 01 on a unit that is no surrogate: its bytes under ENCODE_POLICY and the flag it sets."""
    if unit in SURROGATES:
        raise PageError(f"{unit:04X}, a surrogate, is near a unit that has a code")
    if unit not in codes:
        return UNDEFINED_UNIT_BYTES, 1
    code = codes[unit]
    return ([code] if code <= 0xFF else [code >> 8, code & 0xFF]), 0


def stretches(codes):
    """0000 to FFFF cut into dense stretches and stretches without a code: (is dense, first, count)."""
    units = sorted(codes)
    dense = []
    for unit in units:
        if dense and unit - dense[-1][1] <= GAP:
            dense[-1][1] = unit
        else:
            dense.append([unit, unit])
    parts = []
    place = 0
    for first, final in dense:
        if first > place:
            parts.append((False, place, first - place))
        parts.append((True, first, final - first + 1))
        place = final + 1
    if place <= 0xFFFF:
        parts.append((False, place, 0x10000 - place))
    return parts


def table_answer(page, mapping):
    """The image's numbers and sizes: one pair block a lead, one block a high half with codes and the empty one."""
    shape = SHAPES[page]
    blocks = 1 + len({unit >> 8 for unit in mapping.codes})
    return (
        f"table {page} {shape.default_byte:02X} {shape.default_unit:04X}"
        f" 256 256 {256 * len(shape.leads)} 256 {256 * blocks}"
    )


def counted(flags, output):
    """Document 02, CR 10, on a text whose every code writes something, with empty room: nothing is read or written, and need and
    flags are those of the whole reading."""
    return f"convert 2 {flags} 0 {len(output)} 0 - kept"


def add_decode(script, page, text, units_and_flags):
    """One run over the whole text, marked last, with just enough room, and the same counted with empty room."""
    units = [unit for unit, _ in units_and_flags]
    flags = 0
    for _, flag in units_and_flags:
        flags |= flag
    script.add(f"bytes {hex_bytes(text)}", f"bytes {len(text)}")
    script.add(
        f"start D {page} {DECODE_POLICY}", f"start 0 {run_words('D', page, DECODE_POLICY, 0, 0, 0, 'on')}"
    )
    script.add(
        f"decode 0 {len(text)} last {len(units)}",
        f"decode 0 {len(text)} {len(units)} {hex_units(units)} kept "
        + run_words("D", page, DECODE_POLICY, flags, len(text), len(units), "over"),
    )
    script.add(f"convert D {DECODE_POLICY} 0 {len(text)} 0", counted(flags, units))


def page_script(page, mapping):
    shape = SHAPES[page]
    script = Script()
    script.note(f"Page {page}: every code decoded; every unit with a code, and the units around, encoded.")
    script.add(f"table cp{page}.tbl", table_answer(page, mapping))
    script.add("shape", "shape good")
    script.note("every byte that is no lead")
    singles = [byte for byte in range(256) if byte not in shape.leads]
    add_decode(script, page, singles, [read_single(byte, shape, mapping.characters) for byte in singles])
    leads = sorted(shape.leads)
    if leads:
        script.note("every lead with every byte after it")
        pairs = [(lead, second) for lead in leads for second in range(256)]
        text = [byte for pair in pairs for byte in pair]
        add_decode(script, page, text, [code for pair in pairs for code in read_pair(*pair, shape, mapping.characters)])
        script.note("every lead at the end of the text")
        script.add(f"bytes {hex_bytes(leads)}", f"bytes {len(leads)}")
        for place in range(len(leads)):
            script.add(
                f"convert D {DECODE_POLICY} {place} 1 1", f"convert 0 4 1 1 1 {hex_units([INVALID_UNIT])} kept"
            )
    script.note("every unit with a code, and the units around")
    dense = [part for part in stretches(mapping.codes) if part[0]]
    units = [unit for _, first, count in dense for unit in range(first, first + count)]
    output, flags = [], 0
    for unit in units:
        code, flag = read_unit(unit, mapping.codes)
        output += code
        flags |= flag
    script.add(f"units {hex_units(units)}", f"units {len(units)}")
    script.add(
        f"start E {page} {ENCODE_POLICY}", f"start 0 {run_words('E', page, ENCODE_POLICY, 0, 0, 0, 'on')}"
    )
    script.add(
        f"encode 0 {len(units)} last {len(output)}",
        f"encode 0 {len(units)} {len(output)} {hex_bytes(output)} kept "
        + run_words("E", page, ENCODE_POLICY, flags, len(units), len(output), "over"),
    )
    script.add(f"convert E {ENCODE_POLICY} 0 {len(units)} 0", counted(flags, output))
    return script


def undefined_flags(first, count):
    """Document 02, CR 5, on a stretch of rising units without a code. Each of its surrogates is invalid (4), but DBFF and DC00,
    which are a pair: one undefined single (1), as is every other unit."""
    stretch = range(first, first + count)
    surrogates = [unit for unit in SURROGATES if unit in stretch]
    if not surrogates:
        return 1
    if len(surrogates) < len(SURROGATES):
        raise PageError(f"the stretch from {first:04X} on has some surrogates and not all of them")
    return 1 | 4


def undefined_script(mappings):
    script = Script()
    script.note("The units without a code, on every page: they are skipped, so that nothing is written.")
    script.add(f"units {hex_units(range(65536))}", "units 65536")
    for page, mapping in mappings.items():
        script.add(f"table cp{page}.tbl", table_answer(page, mapping))
        for is_dense, first, count in stretches(mapping.codes):
            if not is_dense:
                flags = undefined_flags(first, count)
                script.add(f"convert E {SKIP_POLICY} {first} {count} 1", f"convert 0 {flags} {count} 0 0 - kept")
    return script


def all_scripts():
    mappings = expected_mappings()
    scripts = {f"cp{page}": page_script(page, mappings[page]) for page in PAGES}
    scripts["undefined_units"] = undefined_script(mappings)
    scripts["spell_pages"] = spell_scripts.spell_pages_script(Script(), SHAPES, mappings, table_answer)
    return scripts


def first_difference(got, expected):
    """A short text on the first line that differs."""
    for number, (left, right) in enumerate(zip(got.splitlines(), expected.splitlines()), 1):
        if left != right:
            place = next((i for i, (a, b) in enumerate(zip(left, right)) if a != b), min(len(left), len(right)))
            return f"answer {number}, letter {place}: {left[place:place + 20]!r}, expected {right[place:place + 20]!r}"
    return f"{len(got.splitlines())} answers, expected {len(expected.splitlines())}"


def check_scripts(scripts, compare_files):
    """Plays each script; compares the stored files too if asked. Answers the complaints."""
    complaints = []
    for name, script in scripts.items():
        commands, expected = script.files()
        got = second_converter.play(commands, [TABLES])
        if got != expected:
            complaints.append(f"{name}: second_converter.py: {first_difference(got, expected)}")
        if compare_files:
            for ending, content in ((".in", commands), (".out", expected)):
                path = os.path.join(SCRIPTS, name + ending)
                if not os.path.exists(path):
                    complaints.append(f"{name}{ending} is missing")
                    continue
                with open(path, "rb") as file:
                    if file.read() != content:
                        complaints.append(f"{name}{ending} is not what page_scripts.py makes")
    return complaints


def main():
    parser = argparse.ArgumentParser(description="Makes the console scripts that test the real code pages.")
    parser.add_argument("--check", action="store_true", help="compare with the stored files and write nothing")
    options = parser.parse_args()
    try:
        scripts = all_scripts()
    except PageError as error:
        sys.exit(f"page_scripts: {error}")
    if not options.check:
        os.makedirs(SCRIPTS, exist_ok=True)
        for name, script in scripts.items():
            for ending, content in zip((".in", ".out"), script.files()):
                with open(os.path.join(SCRIPTS, name + ending), "wb") as file:
                    file.write(content)
    complaints = check_scripts(scripts, options.check)
    for complaint in complaints:
        print(complaint)
    if complaints:
        sys.exit(1)
    print(f"{len(scripts)} scripts: second_converter.py gives the expected answers")


if __name__ == "__main__":
    main()
