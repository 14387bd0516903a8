#!/usr/bin/env python3
"""Checks the tools, the tables and the stored scripts.

    python3 tools/test_tools.py [--source FOLDER]

FOLDER has the sources of the tables (c_932.nls and the others); with it the images are made anew too. The page scripts are
made anew if java is on the machine; else only the stored ones are played. Prints 'N passed, M failed'.
"""

import argparse
import glob
import itertools
import os
import random
import re
import shutil
import struct
import sys
import tempfile

import field_scripts
import fixed_scripts
import independent_converters
import join_scripts
import listing_scripts
import make_sample
import make_scripts
import make_tables
import page_scripts
import random_scripts
import second_converter as converter
import wrong_converters

ROOT = os.path.dirname(os.path.dirname(os.path.abspath(__file__)))
SCRIPTS = os.path.join(ROOT, "scripts")
DATA = os.path.join(SCRIPTS, "data")
TABLES = os.path.join(ROOT, "tables")
FOLDERS = [DATA, TABLES]


def read(path):
    with open(path, "rb") as file:
        return file.read()


def script_names():
    """The stored scripts, `initial` first."""
    names = sorted(os.path.basename(path)[:-3] for path in glob.glob(os.path.join(SCRIPTS, "*.in")))
    names.remove("initial")
    return ["initial"] + names


def load_table(name):
    table = converter.read_image_file(name, FOLDERS)
    if table is None:
        raise AssertionError(f"{name} is no table image")
    return table


def expect(condition, text):
    if not condition:
        raise AssertionError(text)


# ---------------------------------------------------------------------------------------------------------------
# Tables and stored files
# ---------------------------------------------------------------------------------------------------------------


def check_images(options):
    complaints = make_tables.check(options.source)
    expect(not complaints, "; ".join(complaints))


def check_sample(options):
    image = make_sample.sample_tables().image()
    for path in (os.path.join(TABLES, "sample.tbl"), os.path.join(DATA, "sample.tbl")):
        expect(read(path) == image, f"{path} is not what make_sample.py makes")


def check_differences(options):
    """Every listed difference is a row that can be read, and the number of rows is the one in the text."""
    text = read(independent_converters.DIFFERENCES).decode("utf-8")
    listed = int(re.search(r"It differs in (\d+) entries", text).group(1))
    expect(len(independent_converters.read_exceptions()) == listed, "rows and their number differ")


def check_stored_scripts(options):
    scripts, images, complaints = make_scripts.stored_scripts()
    complaints += make_scripts.compare_stored(scripts, images)
    expect(not complaints, "; ".join(complaints[:5]))


def check_page_scripts(options):
    complaints = page_scripts.check_scripts(page_scripts.all_scripts(), True)
    expect(not complaints, "; ".join(complaints[:5]))


def check_play(options):
    """Every stored script gives its stored answers."""
    for name in script_names():
        got = converter.play(read(os.path.join(SCRIPTS, name + ".in")), FOLDERS)
        expected = read(os.path.join(SCRIPTS, name + ".out"))
        expect(got == expected, f"{name}: {page_scripts.first_difference(got, expected)}")


def check_joined(options):
    """All scripts joined, in two orders, give their answers joined: none rests on what another left behind."""
    names = script_names()
    for order in (names, names[:1] + names[:0:-1]):
        script = b"".join(read(os.path.join(SCRIPTS, name + ".in")) for name in order)
        expected = b"".join(read(os.path.join(SCRIPTS, name + ".out")) for name in order)
        expect(converter.play(script, FOLDERS) == expected, "the joined scripts answer otherwise")


def check_console_copies(options):
    """The gate runs the console on all scripts joined, `initial` first, in a folder with their data and the tables."""
    complaints = join_scripts.check()
    expect(not complaints, "; ".join(complaints[:5]))


def check_long_lines(options):
    script = fixed_scripts.long_lines_script()
    complaints = script.complaints(converter.play(script.commands_file(), FOLDERS))
    expect(not complaints, "; ".join(complaints))


def check_last_line(options):
    """A last line without a line feed is a line; nothing after the last line feed is none."""
    expect(converter.play(b"shape", FOLDERS) == b"shape page\n", "a last line without a line feed")
    expect(converter.play(b"shape\nshape", FOLDERS) == b"shape page\nshape page\n", "a last line after another")
    expect(converter.play(b"", FOLDERS) == b"" and converter.play(b"\n\n#", FOLDERS) == b"", "a script with no command")


def check_coverage(options):
    """The stored answers have every number in every command that can give it."""
    wanted = {
        "decode": (0, 1, 2, 3, 10, 11, 12, 13, 14, 15, 16),
        "encode": (0, 1, 2, 3, 10, 11, 12, 13, 15, 16),
        "decodehere": (0, 1, 2, 3, 10, 11, 12, 13, 14, 15, 16),
        "encodehere": (0, 1, 2, 3, 10, 11, 12, 13, 15, 16),
        "start": (0, 17),
        "convert": (0, 2, 3, 10, 11, 17),
        "save": (0, 12, 19),
        "load": (0, 18),
        "field": ("bar", "line", "end", "held", 11, 20, 21, 27),
        "standard": (5,),
        "breaks": (0, 10, 11, 30),
        "propose": (0, 10, 11, 31, 32),
        "append": (0, 10, 11, 28, 33),
        "find": (0, 10, 11, 28, 29),
        "spell": (0, 10, 11, 24, 25),
        "inplace": (0, 3, 10, 11, 17, 26),
        "findings": (0, 10, 11, 17),
        "line": (0, 22, 23),
        "listed": (0, 22),
        "list": (0, 10, 19, "done"),
    }
    seen = {command: set() for command in wanted}
    shown = set()
    for name in script_names():
        for line in read(os.path.join(SCRIPTS, name + ".out")).decode("ascii").splitlines():
            words = line.split(" ", 4)
            if words[0] in seen:
                seen[words[0]].add(words[1])
            if words[0] == "field" and words[1] in ("bar", "line", "end"):
                shown.add((words[1], words[3]))
            expect("changed" not in line, f"{name}: an answer says 'changed'")
    for command, numbers in wanted.items():
        expect(seen[command] == set(map(str, numbers)), f"{command}: the numbers seen are {sorted(seen[command])}")
    expect(len(shown) == 6, f"field: bar, line and end, from hold and block: {sorted(shown)}")


def check_further_lists(options):
    """Other seeds give scripts too, the same each time."""
    with tempfile.TemporaryDirectory() as folder:
        tables = random_scripts.random_tables(99)
        make_scripts.write_images({name: table.image() for name, table in tables.items()}, folder)
        for kind in make_scripts.LISTS:
            first = random_scripts.random_script(kind, 99, 3, tables, folder)
            second = random_scripts.random_script(kind, 99, 3, random_scripts.random_tables(99), folder)
            expect(first == second, f"{kind}: not the same for the same seed")
            expect(converter.play(first[0], [folder]) == first[1], f"{kind}: answers differ when played again")
            expect(b"?\n" not in first[1], f"{kind}: a line is no command")


# ---------------------------------------------------------------------------------------------------------------
# The second converter against another way to put the documents' rules
# ---------------------------------------------------------------------------------------------------------------


def byte_reader(table):
    """The codes of a byte text as one regular expression: another way to say 'Reading one code from bytes', with CR 2."""

    def one_of(classes):
        members = [byte for byte in range(256) if table.classes[byte] in classes]
        return b"[" + b"".join(b"\\x%02x" % byte for byte in members) + b"]" if members else b"(?!)"

    lead, single, second = one_of((2, 6)), one_of((1, 5)), one_of((4, 5, 6))
    return re.compile(
        b"(?P<single>%s)|(?P<pair>%s%s)|(?P<broken>%s[\\x80-\\xff])|(?P<alone>%s)|(?P<never>.)" % (single, lead, second, lead, lead),
        re.DOTALL,
    )


# The codes of a unit text, in the same way: 'Reading one unit for bytes', with CR 5.
UNIT_READER = re.compile("(?P<pair>[\ud800-\udbff][\udc00-\udfff])|(?P<alone>[\ud800-\udfff])|(?P<unit>.)", re.DOTALL)


def whole_reading(table, direction, digits, text):
    """Document 01's uncut reading: output, flags, read."""
    steps = []  # (size, flag, unit or bytes or None, first byte)
    if direction == "D":
        leads = [byte for byte in range(256) if table.classes[byte] in (2, 6)]
        for match in byte_reader(table).finditer(bytes(text)):
            code = match.group()
            if match.lastgroup == "single":
                steps.append((1, 1, table.singles[code[0]], code[0]))
            elif match.lastgroup == "pair":
                steps.append((2, 2, table.pairs[256 * leads.index(code[0]) + code[1]], code[0]))
            else:
                steps.append((len(code), 4, 0xFFFF, code[0]))
    else:
        for match in UNIT_READER.finditer("".join(map(chr, text))):
            if match.lastgroup == "unit":
                high, low = divmod(ord(match.group()), 256)
                steps.append((1, 1, table.blocks[256 * table.index[high] + low], None))
            else:
                steps.append((len(match.group()), {"pair": 1, "alone": 4}[match.lastgroup], 0xFFFF, None))
    output, flags, total = [], 0, 0
    default = table.default_unit if direction == "D" else table.default_byte
    for size, flag, value, first in steps:
        total += size
        if value != 0xFFFF:
            output += [value] if direction == "D" or value < 0x100 else [value >> 8, value & 0xFF]
            continue
        flags |= flag
        digit = digits[{1: 0, 2: 1, 4: 2}[flag]]
        if digit == 0:
            return output, flags | 8, total
        output += [[], [0], [0x3F], [0x5F], [default], [0xF100 + (first or 0)]][digit - 1]
    return output, flags, total


def check_lists(options):
    """Demand 3 on random lists: joined output, totals, flags and end against the uncut reading; second readings."""
    chance = random.Random(3)
    all_tables = random_scripts.random_tables(1)
    good = [name for name in all_tables if not name.startswith("damaged")]
    for number in range(1500):
        tables = all_tables[chance.choice(good)]
        table = converter.read_image(tables.image())
        direction = chance.choice("DE")
        digits = tuple(chance.choice((0, 1, 2, 3, 4, 5, 5)) for _ in range(3))
        size = chance.randrange(25)
        makers = {
            "D": (random_scripts.random_bytes, random_scripts.random_halves),
            "E": (random_scripts.random_units, random_scripts.random_surrogates),
        }
        text = chance.choice(makers[direction])(chance, tables, size)
        whole = whole_reading(table, direction, digits, text)
        run = converter.start_call(direction, table.page, digits)
        position, joined, ended = 0, [], False
        notes = []
        for _ in range(40):
            if chance.random() < 0.2:
                line = [0] * 44
                length = converter.save_call(run, line)[1]
                notes.append((bytes(line[:length]), position, list(joined), ended))
            if notes and chance.random() < 0.15:
                line, position, joined, ended = chance.choice(notes)
                joined = list(joined)
                run = converter.load_call(line)
            count = chance.randrange(size - position + 1)
            last = position + count == size and chance.random() < 0.5
            room = chance.choice((0, 1, 2, 3, 9))
            out = [-1] * room
            outcome = converter.run_call(direction, run, table, text[position : position + count], last, out)
            expect((outcome.number == 15) == ended, f"list {number}: answer 15 exactly if ended")
            if ended:
                expect(outcome.run == run and out == [-1] * room, f"list {number}: a refused call changed something")
                continue
            expect(out[outcome.written :] == [-1] * (room - outcome.written), f"list {number}: beyond what was written")
            if count > 0 and room >= (1 if direction == "D" else 2):
                settled = run.carried is not None and outcome.run.carried is None
                expect(outcome.read >= 1 or settled, f"list {number}: room for one, and nothing is read or settled")
            position += outcome.read
            joined += out[: outcome.written]
            ended = outcome.number == 3 or (outcome.number == 0 and last)
            run = outcome.run
            expect(run.read == position and run.written == len(joined), f"list {number}: totals")
            expect(run.ended == ended, f"list {number}: ended")
            expect(joined == whole[0][: len(joined)], f"list {number}: output is no beginning of the uncut one")
            expect(converter.keeps_run_rules(run), f"list {number}: the run breaks the rules")
            if ended:
                expect((joined, run.flags, run.read) == whole, f"list {number}: ended otherwise than the uncut reading")
        # to the end, one element at a time, with just enough room: for a carried one that is a code alone, and one more code
        run = converter.start_call(direction, table.page, digits)
        joined = []
        for place in range(size + 1):
            out = [-1] * (2 if direction == "D" else 3)
            outcome = converter.run_call(direction, run, table, text[place : place + 1], place == size, out)
            if outcome.number == 15:
                break
            run, joined = outcome.run, joined + out[: outcome.written]
        expect((joined, run.flags, run.read) == whole, f"list {number}: element by element")
        check_one_go(table, direction, digits, text, whole, f"list {number}")


def check_one_go(table, direction, digits, text, whole, name):
    """CR 10, with every room up to the need and one more: need and flags are the uncut reading's, 2 exactly if the need is over the
    room; read and written are those of one call marked last on a fresh run, and so is the number."""
    output, flags, total = whole
    for room in range(len(output) + 2):
        out, same = [-1] * room, [-1] * room
        answer = converter.convert_call(direction, digits, table, text, out)
        outcome = converter.run_call(direction, converter.start_call(direction, table.page, digits), table, text, True, same)
        number = 2 if len(output) > room else 3 if flags & 8 else 0
        expect((answer.number, answer.need, answer.flags) == (number, len(output), flags), f"{name}: in one go, room {room}")
        expect((answer.number, answer.read, answer.written) == (outcome.number, outcome.read, outcome.written),
               f"{name}: in one go and by a run, room {room}")
        expect(out == same, f"{name}: output in one go and by a run, room {room}")
        expect(out == (output[: answer.written] + [-1] * room)[:room], f"{name}: output in one go, room {room}")
        expect(number == 2 or answer.read == total, f"{name}: read in one go, room {room}")


def fed_in_pieces(table, direction, digits, text, ends, room):
    """The run after a text is fed, each piece from the first unread element on, in calls that all have this room, until a call
    moves nothing; the joined output. Each call with room for a code keeps the reading promise, and each run has a line."""
    run, joined = converter.start_call(direction, table.page, digits), []
    for end in ends:
        while not run.ended:
            out = [-1] * room
            piece = text[run.read : end]
            after = converter.run_call(direction, run, table, piece, end == len(text), out)
            joined += out[: after.written]
            settled = run.carried is not None and after.run.carried is None
            has_room = room >= (1 if direction == "D" else 2)
            expect(after.read >= 1 or settled or not piece or not has_room, f"{text}: nothing is read or settled")
            expect(converter.load_call(converter.line_of(after.run)) == after.run, f"{text}: the run is not read back")
            moved = after.run != run
            run = after.run
            if not moved:
                break
    return run, joined


def check_cuttings(table, direction, elements, policies, ends_with_room):
    """Every cutting of every text of up to four of the elements, with rooms 0 to 3, against the uncut reading."""
    for count in range(5):
        places = range(1, count)
        cuttings = [(*cut, count) for number in range(max(count, 1)) for cut in itertools.combinations(places, number)]
        for text, digits in itertools.product(itertools.product(elements, repeat=count), policies):
            output, flags, total = whole_reading(table, direction, digits, text)
            for ends, room in itertools.product(cuttings, (0, 1, 2, 3)):
                run, joined = fed_in_pieces(table, direction, digits, text, ends, room)
                name = f"{text}, pieces up to {ends}, digits {digits}, room {room}"
                expect(joined == output[: len(joined)], f"{name}: output is no beginning of the uncut one")
                expect(run.ended or room < ends_with_room, f"{name}: not ended")
                if run.ended:
                    expect((joined, run.flags, run.read) == (output, flags, total), f"{name}: another end")


def check_cut_halves(options):
    """Every cutting of every short text of leads and bytes after them."""
    policies = ((5, 5, 0), (5, 5, 1), (5, 5, 5))
    check_cuttings(load_table("sample.tbl"), "D", (0x82, 0x0A, 0x7C, 0x80), policies, 1)


def check_cut_surrogates(options):
    """Every cutting of every short text of high and low surrogates and other units, with codes of one byte and of two."""
    policies = ((5, 5, 0), (5, 5, 1), (5, 5, 5), (0, 5, 5), (1, 5, 0))
    check_cuttings(load_table("surrogate_codes.tbl"), "E", (0xD83D, 0xDE00, 0xD7FF, 0xE000), policies, 2)


def check_return(options):
    """Texts of units and codes that belong together come back, on every page."""
    for page in (7,) + make_tables.PAGES:
        table = load_table("sample.tbl" if page == 7 else f"cp{page}.tbl")
        units, codes = [], []
        for unit in range(0x10000):
            encoded = converter.read_unit(table, unit, None)
            if encoded.kind != 0:
                continue
            decoded = converter.read_code(table, encoded.meaning[0], (encoded.meaning + [None])[1])
            if decoded.kind == 0 and decoded.meaning == [unit] and decoded.size == len(encoded.meaning):
                units.append(unit)
                codes += encoded.meaning
        expect(len(units) > 100, f"page {page}: too few units")
        if page != 7:
            known = sum(1 for unit in range(0x10000) if converter.read_unit(table, unit, None).kind == 0)
            expect(known == len(units), f"page {page}: a code does not come back")
        out = [0] * len(codes)
        expect(converter.convert_call("E", (0, 0, 0), table, units, out).number == 0 and out == codes, f"page {page}")
        out = [0] * len(units)
        expect(converter.convert_call("D", (0, 0, 0), table, codes, out).number == 0 and out == units, f"page {page}")


def check_lines(options):
    """Each run that keeps the rules has one line, each line one run; nothing else is read."""
    chance = random.Random(5)
    letters = b"0123456789DE-onver\tABCF\n"
    for _ in range(20000):
        words = random_scripts.random_run(chance).encode("ascii")
        console = converter.Console()
        console.answer(b"run " + words)
        run = console.run
        out = [0] * 44
        saved = converter.save_call(run, out)
        if saved == 12:
            continue
        line = bytes(out[: saved[1]])
        expect(converter.load_call(line) == run, f"{line!r} is read as another run")
        changed = bytearray(line)
        kind = chance.randrange(3)
        place = chance.randrange(len(line))
        if kind == 0:
            changed[place] = chance.choice(letters)
        elif kind == 1:
            del changed[place]
        else:
            changed.insert(place, chance.choice(letters))
        other = converter.load_call(bytes(changed))
        if other != 18:
            expect(converter.line_of(other) == bytes(changed), f"{bytes(changed)!r} is read but not written")


def whole_fields(text):
    """The fields of an uncut text as (units, what ended it): another way to say document 02's rule."""
    found = re.finditer("([^|\n]*)([|\n])|([^|\n]+)\\Z", "".join(map(chr, text)))
    names = {"|": "bar", "\n": "line", None: "end"}
    return [([ord(letter) for letter in match[1] or match[3] or ""], names[match[2]]) for match in found]


def check_fields(options):
    """Every cutting of every short text; random lists of calls, refused ones too, against the fields of the uncut text."""
    script = field_scripts.all_cuttings_script()
    complaints = script.complaints(converter.play(script.commands_file(), FOLDERS))
    expect(not complaints, "; ".join(complaints[:5]))
    chance = random.Random(13)
    for number in range(3000):
        text = random_scripts.random_fields_text(chance)
        whole = whole_fields(text)
        hold = [chance.randrange(0x10000) for _ in range(chance.choice((256, 256, 257, 300)))]
        position, held, given, finished = 0, 0, [], False
        for _ in range(40):
            count = chance.choice((len(text) - position, chance.randrange(len(text) - position + 1)))
            last = position + count == len(text) and chance.random() < 0.5
            block = text[position : position + count]
            before = list(hold)
            # the units of the next field that the call has, told from the uncut text
            units, end = whole[len(given)] if len(given) < len(whole) else ([], None)
            there = min(len(units), held + count)
            outcome = converter.field_call(held, hold, block, last)
            expect((outcome == 21) == (there > 256), f"list {number}: 21 exactly if the next field is too long")
            if outcome == 21:
                expect(hold == before, f"list {number}: a refused call changed the hold")
                continue
            expect(count == 0 or outcome.read > 0, f"list {number}: nothing is read of a block that has units")
            complete = end is not None and (last if end == "end" else held + count > len(units))
            expect((outcome.end is not None) == complete, f"list {number}: a field exactly if it is complete")
            if complete:
                given.append((outcome.units, outcome.end))
                expect(outcome.from_hold == (held > 0), f"list {number}: where the field is")
                expect(outcome.held == 0, f"list {number}: held after a field")
                size = len(units) if held > 0 else 0
            else:
                expect(outcome.read == count, f"list {number}: the whole block is held")
                expect(outcome.held == held + count, f"list {number}: held")
                size = held + count
            expect(hold == (units[:size] if size else []) + before[size:], f"list {number}: the hold after a call")
            expect(given == whole[: len(given)], f"list {number}: no beginning of the uncut text's fields")
            position, held = position + outcome.read, outcome.held
            finished = finished or (last and position == len(text))
            if finished:
                expect(given == whole, f"list {number}: not all fields at the end")


# ---------------------------------------------------------------------------------------------------------------
# Receipt lines against a search of all proposals
# ---------------------------------------------------------------------------------------------------------------

# Tables, the bytes of the texts, and how many texts of five bytes, and of six, are tried; of up to four bytes all are.
BREAK_TEXTS = (
    ("sample.tbl", (0x41, 0x81, 0x82, 0x40, 0x7C, 0x0A, 0x80, 0xA0), 2000),
    ("more_seconds.tbl", (0x41, 0x81, 0x83, 0x84, 0x0A), 200),
    ("low_bytes.tbl", (0x81, 0x0E, 0x7E, 0x7F, 0x80), 200),
    ("no_leads.tbl", (0x81, 0x40), 32),
)
MOST = 2**64 - 1


def lines_of(text, breaks):
    return [text[start:end] for start, end in zip((0, *breaks), (*breaks, len(text)))]


def codes_of(reader, lines):
    return [match.group() for line in lines for match in reader.finditer(line)]


def uncut_proposals(reader, text, places):
    """The proposals made of these places, in this order, whose lines are nowhere empty and have the codes of the text, each line
    read as a text of its own; each with the sizes of its lines. Another way to say that breaks rise, are inner places and cut no
    code."""
    found = {}
    codes = codes_of(reader, [text])
    for breaks in places:
        lines = lines_of(text, breaks)
        # an empty text has one empty line, and takes the empty proposal
        if not breaks or (all(lines) and codes_of(reader, lines) == codes):
            found[breaks] = tuple(map(len, lines))
    return found


def inner_places(size):
    """Every choice of inner places, in rising order."""
    return [breaks for number in range(max(size, 1)) for breaks in itertools.combinations(range(1, size), number)]


def check_our_breaks(table, text, width, uncut):
    """Ours is acceptable, no acceptable proposal has fewer lines, each line from the first on is as long as it can be, and there is
    none exactly if no proposal is acceptable."""
    acceptable = {breaks: sizes for breaks, sizes in uncut.items() if max(sizes) <= width}
    ours = converter.own_breaks(table, text, width)
    name = f"{text.hex()} at width {width}"
    expect((ours is None) == (not acceptable), f"{name}: none of ours exactly if none is acceptable")
    if ours is None:
        return acceptable
    ours = tuple(ours)
    expect(ours in acceptable, f"{name}: ours is not acceptable")
    expect(len(ours) == min(map(len, acceptable)), f"{name}: an acceptable proposal has fewer lines than ours")
    expect(acceptable[ours] == max(acceptable.values()), f"{name}: a line of ours can be longer")
    return acceptable


def check_break_calls(table, text, width, acceptable):
    """The call with lists of every size, and the checking call on ours."""
    name = f"{text.hex()} at width {width}"
    best = max(acceptable, key=acceptable.get, default=None)
    for size in range(len(text) + 2):
        out = [-1] * size
        answer = converter.propose_call(table, text, width, out)
        if best is None:
            expect((answer, out) == (31, [-1] * size), f"{name}: 31, the list untouched")
        elif size < len(best):
            expect((answer, out) == (32, [-1] * size), f"{name}: 32, the list untouched")
        else:
            expect(answer == ("breaks", len(best)) and out == [*best] + [-1] * (size - len(best)), f"{name}: ours in a list")
    expect(best is None or converter.breaks_call(table, text, width, best) == 0, f"{name}: ours is not accepted")


def check_breaks(options):
    """All proposals of short texts: the acceptable ones are accepted and no others, and ours is the best of them."""
    chance = random.Random(12)
    for name, members, longer in BREAK_TEXTS:
        table = load_table(name)
        reader = byte_reader(table)
        texts = [bytes(text) for size in range(5) for text in itertools.product(members, repeat=size)]
        texts += [bytes(chance.choices(members, k=size)) for size in (5, 6) for _ in range(longer)]
        for text in texts:
            places = inner_places(len(text))
            uncut = uncut_proposals(reader, text, places)
            by_width = {width: check_our_breaks(table, text, width, uncut) for width in (*range(8), MOST)}
            widths = by_width if len(text) < 4 else (chance.randrange(8),)
            for width, breaks in itertools.product(widths, places):
                expect(converter.is_acceptable(table, text, width, breaks) == (breaks in by_width[width]),
                       f"{text.hex()} at width {width}: the proposal {breaks}")
            if len(text) < 3 or chance.random() < 0.05:
                width = chance.randrange(len(text) + 2)
                check_break_calls(table, text, width, by_width[width])
    # any numbers in any order
    table = load_table("sample.tbl")
    reader = byte_reader(table)
    for text in (bytes(text) for size in range(4) for text in itertools.product((0x41, 0x81, 0x80, 0x0A), repeat=size)):
        numbers = (*range(len(text) + 2), MOST)
        places = [breaks for number in range(4) for breaks in itertools.product(numbers, repeat=number)]
        uncut = uncut_proposals(reader, text, places)
        for width, breaks in itertools.product((0, 1, 2, 3, MOST), places):
            wanted = breaks in uncut and max(uncut[breaks]) <= width
            expect(converter.is_acceptable(table, text, width, breaks) == wanted, f"{text.hex()} at width {width}: {breaks}")


# ---------------------------------------------------------------------------------------------------------------
# The index of a journal against all codes of the journal
# ---------------------------------------------------------------------------------------------------------------


def spans_of(reader, text, place=0):
    """The codes of a text from a place on, as (place, end)."""
    return [match.span() for match in reader.finditer(text, place)]


def index_of(spans, size):
    """The index made anew: for each block the codes that start before it, and whether one of them ends behind its first place."""
    found = []
    for begin in range(0, size, 512):
        before = [span for span in spans if span[0] < begin]
        found.append(converter.Entry(len(before), bool(before) and before[-1][1] > begin))
    return found


def found_by(reader, text, index, number):
    """Document 02's rule for any index."""
    blocks = [block for block in range(len(index)) if 512 * block < len(text) and index[block].count <= number]
    if not blocks:
        return 29
    entry = index[blocks[-1]]
    spans = spans_of(reader, text, 512 * blocks[-1] + entry.mark)[number - entry.count : number - entry.count + 1]
    return ("code", spans[0][0], spans[0][1] - spans[0][0]) if spans else 29


def check_index(options):
    """Journals that grow in random steps: the index is the one made anew, every code is found by it, and by a wrong one the code
    that the rule says."""
    chance = random.Random(14)
    all_tables = random_scripts.random_tables(1)
    for number in range(60):
        tables = all_tables[chance.choice([name for name in all_tables if not name.startswith("damaged")])]
        table = converter.read_image(tables.image())
        reader = byte_reader(table)
        make_text = chance.choice((random_scripts.random_bytes, random_scripts.random_halves))
        text = bytes(make_text(chance, tables, chance.choice((0, 1, 512, 513, 1025, chance.randrange(1700)))))
        index = [converter.ENTRY_FILL] * (converter.block_count(len(text)) + 1)
        former = 0
        while former < len(text):
            size = min(len(text), former + chance.choice((1, 2, 511, 512, 513, chance.randrange(1, 1700))))
            expect(converter.append_call(table, text[:size], former, index) == 0, f"journal {number}: not appended")
            wanted = index_of(spans_of(reader, text[:size]), size)
            expect(index == wanted + [converter.ENTRY_FILL] * (len(index) - len(wanted)), f"journal {number}: the index at {size}")
            former = size
        spans = spans_of(reader, text)
        for place in {*range(0, len(spans), 37), *range(len(spans) - 3, len(spans))} & set(range(len(spans))):
            wanted = ("code", spans[place][0], spans[place][1] - spans[place][0])
            expect(converter.find_call(table, text, index, place) == wanted, f"journal {number}: code {place}")
        expect(converter.find_call(table, text, index, len(spans)) == 29, f"journal {number}: one code more")
        for _ in range(20):
            index[chance.randrange(len(index))] = converter.Entry(chance.randrange(len(text) + 2), chance.random() < 0.5)
            asked = chance.randrange(len(text) + 2)
            wanted = found_by(reader, text, index, asked)
            expect(converter.find_call(table, text, index, asked) == wanted, f"journal {number}: code {asked} by a wrong index")


# ---------------------------------------------------------------------------------------------------------------
# The standard spelling against decoding and encoding
# ---------------------------------------------------------------------------------------------------------------


def spelled_again(table, text):
    """The units of a byte text and its spelling, by the uncut readings, with the digits 000: decoded, then encoded, then decoded unit by
    unit to see whether each reads back. None if that fails somewhere."""
    units, flags, _ = whole_reading(table, "D", (0, 0, 0), text)
    spelling, encoding_flags, _ = whole_reading(table, "E", (0, 0, 0), units)
    if flags or encoding_flags:
        return None
    for unit in units:
        own = whole_reading(table, "E", (0, 0, 0), [unit])[0]
        if whole_reading(table, "D", (0, 0, 0), own) != ([unit], 0, len(own)):
            return None
    return units, spelling


def check_spelling(options):
    """Random texts: accepted exactly if they are decoded and encoded and read back, else the first code at fault is told; two accepted
    texts have one spelling exactly if they mean the same units; a spelling is its own."""
    chance = random.Random(8)
    for name in ("double_codes.tbl", "sample.tbl", "cp932.tbl", "cp950.tbl", *(f"random_{number}.tbl" for number in range(10))):
        table = load_table(name)
        reader, meanings = byte_reader(table), {}
        codes = [bytes(code) for size in (1, 2) for code in itertools.product(range(256), repeat=size)]
        codes = [code for code in chance.sample(codes, 3000) + codes[:256] if spans_of(reader, code) == [(0, len(code))]]
        good = [code for code in codes if spelled_again(table, code)] or codes
        for _ in range(300):
            text = b"".join(chance.choices(good, k=chance.randrange(4)) + chance.choices(codes, k=chance.choice((0, 0, 0, 1))))
            wanted, out = spelled_again(table, text), [-1] * 9
            answer = converter.spell_call(table, text, out)
            if wanted is None:
                fault = next(start for start, end in spans_of(reader, text) if spelled_again(table, text[start:end]) is None)
                expect((answer, out) == (("fault", fault), [-1] * 9), f"{name}, {text.hex()}: the first fault")
                continue
            units, spelling = wanted
            expect(answer == ("length", len(spelling)), f"{name}, {text.hex()}: the length")
            expect(out == spelling + [-1] * (9 - len(spelling)), f"{name}, {text.hex()}: the spelling")
            again = [-1] * len(spelling)
            expect(converter.spell_call(table, spelling, again) == answer and again == spelling, f"{name}, {text.hex()}: spelled again")
            expect(converter.spell_call(table, text, [-1] * (len(spelling) - 1)) == 25 or not spelling, f"{name}, {text.hex()}: 25")
            expect(meanings.setdefault(tuple(units), spelling) == spelling, f"{name}, {text.hex()}: one meaning, two spellings")
        expect(len({tuple(spelling) for spelling in meanings.values()}) == len(meanings), f"{name}: one spelling, two meanings")


# ---------------------------------------------------------------------------------------------------------------
# Encoding in one buffer against the uncut reading
# ---------------------------------------------------------------------------------------------------------------


def check_in_place(options):
    """Random buffers: the result, counts and flags are those of the uncut reading and of one call with ample room; what is behind the
    result is as it was."""
    chance = random.Random(9)
    good = [tables for name, tables in random_scripts.random_tables(1).items() if not name.startswith("damaged")]
    pairs = [(tables, converter.read_image(tables.image())) for tables in good]
    for number in range(600):
        tables, table = chance.choice(pairs)
        digits = tuple(chance.choice((0, 1, 2, 3, 4, 5, 5)) for _ in range(3))
        make_text = chance.choice((random_scripts.random_units, random_scripts.random_surrogates))
        units = make_text(chance, tables, chance.randrange(12))
        buffer = list(struct.pack(f"<{len(units)}H", *units))
        before, out = list(buffer), [-1] * len(buffer)
        output, flags, read_count = whole_reading(table, "E", digits, units)
        taken = converter.in_place_call(digits, table, buffer)
        separate = converter.convert_call("E", digits, table, units, out)
        answer = (taken.number, taken.flags, taken.read, len(taken.output))
        expect(answer == (3 if flags & 8 else 0, flags, read_count, len(output)), f"buffer {number}: not as the uncut reading")
        expect(answer == (separate.number, separate.flags, separate.read, separate.written), f"buffer {number}: not as one call")
        expect(buffer == output + before[len(output) :], f"buffer {number}: the bytes")
        expect(out[: len(output)] == output, f"buffer {number}: not the bytes of one call")


# ---------------------------------------------------------------------------------------------------------------
# The two forms of a run call
# ---------------------------------------------------------------------------------------------------------------

LISTS_OF_CALLS = (
    "lists_sample", "lists_small", "lists_damaged", "lists_halves", "lists_surrogates", "lists_long", "runs", "refusals", "edges",
)


def check_forms(options):
    """Every stored list of calls, each call in one of the two forms by chance, has the answers that it has by value, but for the name."""
    chance = random.Random(13)
    for name in LISTS_OF_CALLS:
        commands, answers = (read(os.path.join(SCRIPTS, name + ending)).splitlines() for ending in (".in", ".out"))
        commands = [line for line in commands if line and not line.startswith(b"#")]
        console = converter.Console(FOLDERS)
        for line, answer in zip(commands, answers):
            call = line.split(b" ")[0]
            if call in (b"decode", b"encode") and answer != b"?" and chance.random() < 0.5:
                line, answer = (call + b"here" + words[len(call) :] for words in (line, answer))
            got = console.answer(line).encode("ascii")
            expect(got == answer, f"{name}: {line[:80]!r} is answered {got[:120]!r}, and by value {answer[:120]!r}")


# ---------------------------------------------------------------------------------------------------------------
# Findings against the uncut reading, and against the flags of one call with empty room
# ---------------------------------------------------------------------------------------------------------------

FINDINGS_POLICIES = ((5, 5, 5), (5, 5, 0), (0, 0, 0), (1, 1, 1), (0, 5, 1), (5, 0, 5), (6, 4, 3), (2, 1, 0))


def findings_again(table, digits, text):
    """The findings of a text by the regular expression of its codes."""
    kinds = {"single": (0, 1), "pair": (1, 2)}
    leads = [byte for byte in range(256) if table.classes[byte] in (2, 6)]
    found = []
    for match in byte_reader(table).finditer(bytes(text)):
        code = match.group()
        number, flag = kinds.get(match.lastgroup, (2, 4))
        if flag == 1 and table.singles[code[0]] != 0xFFFF:
            continue
        if flag == 2 and table.pairs[256 * leads.index(code[0]) + code[1]] != 0xFFFF:
            continue
        found.append(converter.Finding(match.start(), flag, tuple(code), digits[number]))
        if digits[number] == 0:
            break
    return found


def check_findings_of(table, digits, text, sizes, name):
    """One text under one policy: each list, the true number, and the flags of one call with empty room."""
    found = findings_again(table, digits, text)
    for size in sizes:
        out = [None] * size
        answer = converter.findings_call(digits, table, text, out)
        filled = found[:size]
        expect(answer == ("findings", len(found), len(filled)), f"{name}: the numbers, list of {size}")
        expect(out == filled + [None] * (size - len(filled)), f"{name}: the list of {size}")
    flags = converter.convert_call("D", digits, table, text, []).flags
    # "No findings exactly if flags 1, 2 and 4 are clear"; more: the flags are the kinds found, and 8 tells of a stop
    expect((not found) == (flags & 7 == 0), f"{name}: findings and flags")
    gathered = 0
    for finding in found:
        gathered |= finding.kind | (8 if finding.digit == 0 else 0)
    expect(gathered == flags, f"{name}: the kinds found are not the flags")


def stored_byte_texts():
    """Each byte text of the stored random scripts, with the table set in hand when it is set; each once."""
    seen = set()
    for name in make_scripts.LISTS:
        console, image = converter.Console(FOLDERS), None
        for line in read(os.path.join(SCRIPTS, name + ".in")).splitlines():
            words = line.split(b" ")
            if words[0] == b"table":
                console.answer(line)
                image = words[1]
            elif words[0] in (b"bytes", b"fillbytes") and (image, line) not in seen:
                console.answer(line)
                seen.add((image, line))
                if converter.text_refusal(console.table, console.byte_text) is None:
                    yield f"{name}, {image.decode('ascii')}, {line[:60].decode('ascii')}", console.table, console.byte_text


def check_findings(options):
    """The texts of all stored random scripts under policies of all kinds, and random texts on the real pages."""
    for number, (name, table, text) in enumerate(stored_byte_texts()):
        policies = FINDINGS_POLICIES if len(text) < 100 else FINDINGS_POLICIES[number % 8 :][:1]
        for digits in policies:
            check_findings_of(table, digits, text, (0, 1, 300) if len(text) < 100 else (300,), name)
    chance = random.Random(7)
    for page in (932, 936, 949, 950, 874, 1252):
        table = load_table(f"cp{page}.tbl")
        leads = [byte for byte in range(256) if table.classes[byte] in (2, 6)] or [0x81]
        for number in range(60):
            text = [chance.choice((chance.randrange(256), chance.choice(leads))) for _ in range(chance.randrange(40))]
            for digits in chance.sample(FINDINGS_POLICIES, 3):
                check_findings_of(table, digits, text, (0, 2, 300), f"page {page}, text {number}")


# ---------------------------------------------------------------------------------------------------------------
# Table listings against a grammar of whole listings, and written and read back
# ---------------------------------------------------------------------------------------------------------------

# A listing, or its first lines, as one regular expression; what it does not say is in beginning_of.
LISTING = re.compile(
    rb"(?:P\t(?P<page>[1-9][0-9]{0,4})\n"
    rb"(?:D\t[0-9A-F]{2}\t[0-9A-F]{4}\n"
    rb"(?P<S>(?:S\t[0-9A-F]{2}\t(?:-|(?!FFFF)[0-9A-F]{4})\n)*)"
    rb"(?P<L>(?:L\t[89A-F][0-9A-F]\n)*)"
    rb"(?P<T>(?:T\t[0-9A-F]{2}\n)*)"
    rb"(?P<M>(?:M\t[0-9A-F]{4}\t(?!FFFF)[0-9A-F]{4}\n)*)"
    rb"(?P<W>(?:W\t[0-9A-F]{4}\t(?!FFFF)[0-9A-F]{4}\n)*))?)?"
)


def keys_in(text, letter):
    return re.findall(rb"^%s\t([0-9A-F]+)" % letter.encode("ascii"), text, re.MULTILINE)


def beginning_of(text):
    """Whether a text is a listing, or its first lines."""
    match = LISTING.fullmatch(text)
    if match is None or int(match["page"] or 1) > 65535:
        return False
    keys = {letter: keys_in(match[letter] or b"", letter) for letter in "SLTMW"}
    # capital hex of one length: keys rise as texts do
    if any(members != sorted(set(members)) for members in keys.values()):
        return False
    pairs = {lead + second for lead in keys["L"] for second in keys["T"]}
    return not set(keys["S"]) & set(keys["L"]) and set(keys["M"]) <= pairs


def enough_for(text, sizes):
    """Whether tables of these sizes are large enough for the lines of a listing."""
    if not text:
        return True
    high_halves = {unit[:2] for unit in keys_in(text, "W")}
    needed = (256, 256, 256 * len(keys_in(text, "L")), 256, min(256 + 256 * len(high_halves), 65536))
    return all(size >= least for size, least in zip(sizes, needed))


def answers_by_grammar(lines, sizes):
    """What each line is answered, and the lines that are accepted."""
    accepted, answers = b"", []
    for line in lines:
        if line.find(b"\n") != len(line) - 1 or not line or not beginning_of(accepted + line):
            answers.append(22)
        elif not enough_for(accepted + line, sizes):
            answers.append(23)
        else:
            answers.append(0)
            accepted += line
    return answers, accepted


def check_read_listing(lines, sizes, name, again):
    """One listing, line by line, on the console; what its tables hold where it is accepted, and, if asked for, what is written of them."""
    console = converter.Console(FOLDERS)
    console.answer(b"lend " + b" ".join(b"%d" % size for size in sizes))
    answers, accepted = answers_by_grammar(lines, sizes)
    for line, wanted in zip(lines, answers):
        got = console.answer(b"line " + (line.hex().upper().encode("ascii") or b"-"))
        expect(got == f"line {wanted}", f"{name}: {line!r} is answered {got}, by the grammar {wanted}")
    texts = accepted.decode("ascii").replace("\t", ">").split("\n")[:-1]
    if len(texts) < 2:
        expect(console.answer(b"listed") == "listed 22", f"{name}: the end")
        return
    expect(console.answer(b"listed").startswith("listed 0 "), f"{name}: the end")
    tables = listing_scripts.tables_of(texts)
    expect(vars(tables) == vars(console.table), f"{name}: the tables")
    expect(converter.shape_is_good(console.table), f"{name}: the shape")
    for cut, table, fill in zip(listing_scripts.NAMES, console.lent, (0xEE, 0xEEEE, 0xEEEE, 0xEE, 0xEEEE)):
        size = len(getattr(tables, cut))
        expect(table[:size] == getattr(tables, cut) and set(table[size:]) <= {fill}, f"{name}: the rest of {cut}")
    written = []
    while again and (answer := console.answer(b"list 12")) != "list done kept":
        written.append(bytes.fromhex(answer.split(" ")[3]))
    expect(not again or b"".join(written) == accepted, f"{name}: written again it is another listing")


def stored_listings():
    """The listings of the stored random script, as they are given to the reader, with the sizes of the lent tables."""
    for part in read(os.path.join(SCRIPTS, "listing_damaged.in")).split(b"lend ")[1:]:
        sizes, *commands = part.splitlines()
        lines = [bytes(converter.hex_word(line[5:], 2)) for line in commands if line.startswith(b"line ")]
        yield lines, [int(size) for size in sizes.split()]


def check_damaged_listings(options):
    """Short listings, most of them damaged, those of the stored script and others: the answer to each line by a grammar of whole listings;
    the tables, made in another way; of one in twenty, written again, the lines that were accepted."""
    for number, (lines, sizes) in enumerate(stored_listings()):
        check_read_listing(lines, sizes, f"stored listing {number}", number % 20 == 0)
    chance = random.Random(3)
    for number in range(4000):
        lines, sizes = random_scripts.random_listing(chance)
        lines = [line + "\n" for line in lines]
        for _ in range(chance.choice((0, 1, 1, 2, 3))):
            lines = random_scripts.damaged_listing(chance, [line.removesuffix("\n") for line in lines]) or ["P\t9\n"]
        if chance.random() < 0.3:
            place = chance.randrange(5)
            sizes[place] = max(sizes[place] + chance.choice((-256, -1)), 0)
        elif chance.random() < 0.5:
            sizes = [size + chance.choice((0, 1, 44)) for size in sizes]
        check_read_listing([line.encode("ascii") for line in lines], sizes, f"listing {number}", number % 20 == 0)


def meaning_of(table):
    """Page, defaults, classes, characters and codes."""
    leads = [byte for byte in range(256) if table.classes[byte] in (2, 6)]
    seconds = [byte for byte in range(256) if table.classes[byte] & 4]
    return (
        table.page, table.default_byte, table.default_unit, table.classes,
        [table.singles[byte] for byte in range(256) if table.classes[byte] in (1, 5)],
        [table.pairs[256 * block + second] for block in range(len(leads)) for second in seconds],
        [table.blocks[256 * block + low] for block in table.index for low in range(256)],
    )


def check_whole_listings(options):
    """The listings of the real pages, of tables whose blocks are shared, and of random tables with a code in all 256 high halves: the lines
    are those that the tables have, and read back, into tables just large enough and into the largest, they mean the same."""
    random_ones = {name: tables.image() for name, tables in random_scripts.random_tables(1).items() if name in ("random_1.tbl", "random_4.tbl")}
    images = {**{f"cp{page}.tbl": image for page, image in make_scripts.page_images().items()}, **random_ones}
    for name in ("sample.tbl", "shared_block.tbl", "hidden.tbl", "double_codes.tbl", "all_leads.tbl", "plain.tbl"):
        images[name] = read(os.path.join(DATA, name))
    for name, image in images.items():
        table = converter.read_image(image)
        lines, place = [], converter.FIRST_LINE
        while (found := converter.next_record(table, place)) is not None:
            (letter, key), record = found
            lines.append(converter.record_line(record))
            place = (letter, key + 1)
        texts = [line.decode("ascii")[:-1].replace("\t", ">") for line in lines]
        expect(texts == listing_scripts.lines_of(listing_scripts.read_tables(image)), f"{name}: the lines")
        needed = listing_scripts.sizes_of(listing_scripts.tables_of(texts)) if len(lines) < 1000 or name in random_ones else None
        for sizes in filter(None, (needed, listing_scripts.LARGEST)):
            reader, lent = converter.Reader(), [[fill] * size for fill, size in zip((7, 7, 7, 7, 7), sizes)]
            for line in lines:
                reader = converter.line_call(reader, lent, line)
                expect(not isinstance(reader, int), f"{name}: {line!r} is refused with {reader}")
            back = converter.end_call(reader, lent)
            expect(converter.shape_is_good(back) and meaning_of(back) == meaning_of(table), f"{name}: read back it means something else")


def check_sums(options):
    """The check sum on texts whose sum is known (FNV-1a, 32 bits)."""
    for text, known in ((b"", "811C9DC5"), (b"a", "E40C292C"), (b"foobar", "BF9CF968")):
        expect(converter.check_sum(list(text), 1) == known, f"the check sum of {text!r}")
        expect(listing_scripts.sum_text(list(text), "B") == known, f"the expected check sum of {text!r}")
    expect(converter.check_sum([0x6F66, 0x626F, 0x7261], 2) == "BF9CF968", "the check sum of units, low byte first")


# ---------------------------------------------------------------------------------------------------------------
# The scripts against wrong converters
# ---------------------------------------------------------------------------------------------------------------


def wrong_base_converters():
    """Name, the function that is replaced, its wrong body. Document 01's 'Errors that look right' come first."""
    right = {name: getattr(converter, name) for name in dir(converter)}

    def line_without_carried(run):
        return right["line_of"](converter.replace(run, carried=None))

    def high_byte_in_last_place(direction, run, table, piece, last, out):
        outcome = right["run_call"](direction, run, table, piece, last, out)
        if outcome.number == 2 and direction == "E" and outcome.written == len(out) - 1:
            code = right["read_unit"](table, piece[outcome.read], None).meaning
            if len(code) == 2:
                out[-1] = code[0]
        return outcome

    def low_half_of_default_unit(direction, table, digit, first_byte):
        if direction == "E" and digit == 5:
            return [table.default_unit % 256]
        return right["policy_output"](direction, table, digit, first_byte)

    def blocks_by_distance(table, first, second):
        code = right["read_code"](table, first, second)
        if code.size == 2 and code.kind != 4:
            place = 256 * (first - 0x80) + second
            unit = table.pairs[place] if place < len(table.pairs) else 0xFFFF
            return converter.Code(2, 2, []) if unit == 0xFFFF else converter.Code(2, 0, [unit])
        return code

    def entry_before_class(table, first, second):
        if second is not None and table.classes[first] in (2, 6):
            below = sum(1 for lower in table.classes[:first] if lower in (2, 6))
            unit = table.pairs[256 * below + second]
            if unit != 0xFFFF:
                return converter.Code(2, 0, [unit])
        return right["read_code"](table, first, second)

    def default_is_undefined(table, first, second):
        code = right["read_code"](table, first, second)
        if code.kind == 0 and code.meaning == [table.default_unit]:
            return converter.Code(code.size, code.size, [])
        return code

    def never_takes_two(table, first, second):
        code = right["read_code"](table, first, second)
        if table.classes[first] in (0, 4) and second is not None:
            return converter.Code(2, 4, [])
        return code

    def weigh_what_is_read(run, direction, table, piece):
        refusal = right["run_call_refusal"](run, direction, table, piece)
        return None if refusal == 16 and run.digits[0] == 0 else refusal

    def ended_before_rules(run, direction, table, piece):
        refusal = right["run_call_refusal"](run, direction, table, piece)
        return 15 if refusal in (12, 13) and run.ended else refusal

    def limit_before_end(run, direction, table, piece):
        refusal = right["run_call_refusal"](run, direction, table, piece)
        return 16 if refusal == 15 and run.read + len(piece) > 4294967295 else refusal

    def shape_after_policy_last(direction, digits, table, text):
        refusal = right["one_go_refusal"](direction, digits, table, text)
        return 10 if refusal == 17 and right["shape_report"](table) != "good" else refusal

    def high_leads_only(table):
        changed = converter.replace(table, classes=[
            0 if place < 0x80 and byte_class in (2, 6) else byte_class
            for place, byte_class in enumerate(table.classes)])
        return right["shape_report"](changed) if len(table.classes) == 256 else right["shape_report"](table)

    def more_blocks(table):
        report = right["shape_report"](table)
        return "good" if report == "blocks" and len(table.blocks) > 65536 else report

    def written_below_limit(run):
        return right["keeps_run_rules"](run) and run.written <= 4294967295

    def carried_at_written(run):
        return right["keeps_run_rules"](converter.replace(run, written=max(run.written - 1, 0)))

    def page_one_refused(direction, page, digits):
        return 17 if page == 1 else right["start_call"](direction, page, digits)

    def six_for_encoding(direction, digits):
        return right["digits_allowed"]("D", digits)

    def first_digit_only(direction, digits):
        return right["digits_allowed"](direction, (digits[0], 5 if direction == "E" else digits[1], digits[2]))

    return (
        ("the carried byte is dropped when saved", "line_of", line_without_carried),
        ("the high byte goes into the last free place", "run_call", high_byte_in_last_place),
        ("the default unit's low half is the default byte", "policy_output", low_half_of_default_unit),
        ("pair blocks by the distance to 80", "read_code", blocks_by_distance),
        ("a table entry before the class", "read_code", entry_before_class),
        ("a character equal to the default unit is undefined", "read_code", default_is_undefined),
        ("a never byte takes a second one", "read_code", never_takes_two),
        ("16 weighs less than the piece", "run_call_refusal", weigh_what_is_read),
        ("15 before 12 and 13", "run_call_refusal", ended_before_rules),
        ("16 before 15", "run_call_refusal", limit_before_end),
        ("10 before 17", "one_go_refusal", shape_after_policy_last),
        ("pairs size counts high leads only", "shape_report", high_leads_only),
        ("257 blocks are good", "shape_report", more_blocks),
        ("written has 32 bits", "keeps_run_rules", written_below_limit),
        ("written may be one more", "keeps_run_rules", carried_at_written),
        *wrong_converters.wrong_numbers(),
        ("page 1 is refused", "start_call", page_one_refused),
        ("6 is allowed for encoding", "digits_allowed", six_for_encoding),
        ("the second digit of an encoding run is not checked", "digits_allowed", first_digit_only),
    )


def wrong_takings(direction):
    """The same for taking codes in one direction: what is carried, then what is settled alone and leaves the next one unread."""
    take_codes = converter.take_codes

    def may_be_carried(table, element):
        return converter.may_be_carried(direction, table, element)

    def changed(change):
        """Taking codes in this direction, with what was taken changed."""

        def wrong(asked, table, digits, carried, piece, last, room):
            taken = take_codes(asked, table, digits, carried, piece, last, room)
            return taken if asked != direction else change(taken, table, digits, carried, piece, last, room)

        return wrong

    def drop_on_empty_piece(taken, table, digits, carried, piece, last, room):
        return taken if piece else converter.replace(taken, carried=None)

    def flag_for_carried(taken, table, digits, carried, piece, last, room):
        return converter.replace(taken, flags=taken.flags | 4) if taken.number == 1 else taken

    def carry_with_room_only(taken, table, digits, carried, piece, last, room):
        if taken.number == 1 and room == len(taken.output) and carried is None:
            return converter.replace(taken, number=2, read=taken.read - 1, carried=None)
        return taken

    def carry_in_last_call(taken, table, digits, carried, piece, last, room):
        if last and taken.number == 2 and piece and taken.read == len(piece) - 1 and may_be_carried(table, piece[-1]):
            return converter.replace(taken, read=len(piece), carried=piece[-1])
        return taken

    def stop_needs_room(taken, table, digits, carried, piece, last, room):
        if taken.number == 3 and room == len(taken.output):
            return take_codes(direction, table, tuple(digit or 5 for digit in digits), carried, piece, last, room)
        return taken

    def settled_alone(taken, table, carried, piece):
        """What was carried is settled, and the next one is none of its code."""
        if carried is None or not piece or taken.carried is not None:
            return False
        return converter.read_next(direction, table, carried, piece[0]).size == 1

    def next_counted(taken, table, digits, carried, piece, last, room):
        if settled_alone(taken, table, carried, piece):
            return converter.replace(taken, read=min(taken.read + 1, len(piece)))
        return taken

    def stop_reads_next(taken, table, digits, carried, piece, last, room):
        if taken.number == 3 and taken.flags & 4 and taken.read < len(piece):
            first = piece[taken.read - 1] if taken.read else carried
            if first is not None and may_be_carried(table, first):
                return converter.replace(taken, read=taken.read + 1)
        return taken

    def nothing_read_nothing_done(taken, table, digits, carried, piece, last, room):
        if taken.number == 2 and taken.read == 0 and carried is not None:
            return converter.Taken(2, 0, [], 0, carried)
        return taken

    def kept_if_nothing_written(taken, table, digits, carried, piece, last, room):
        if taken.number == 2 and taken.read == 0 and not taken.output and carried is not None:
            return converter.Taken(2, 0, [], 0, carried)
        return taken

    def all_read_when_settled(taken, table, digits, carried, piece, last, room):
        if taken.number == 2 and taken.read == 0 and settled_alone(taken, table, carried, piece):
            return converter.replace(taken, number=0)
        return taken

    what = {"D": "lead", "E": "high surrogate"}[direction]
    carrying = (
        (f"a carried {what} is dropped at an empty piece", drop_on_empty_piece),
        (f"a carried {what} sets the invalid flag", flag_for_carried),
        (f"a {what} is carried only with room", carry_with_room_only),
        (f"a {what} is carried in a last call", carry_in_last_call),
        (f"stopping needs room, direction {direction}", stop_needs_room),
    )
    settling = (
        (f"the next one is counted as read when a carried {what} is settled alone", next_counted),
        (f"stopping at a {what} alone reads the next one too", stop_reads_next),
        (f"a call that reads nothing does nothing, direction {direction}", nothing_read_nothing_done),
        (f"a call that reads and writes nothing does nothing, direction {direction}", kept_if_nothing_written),
        (f"a {what} settled with nothing read is answered 0", all_read_when_settled),
    )
    return tuple(tuple((title, "take_codes", changed(change)) for title, change in part) for part in (carrying, settling))


def wrong_half_converters():
    """The same for a lead and a byte that may not be second (document 02, CR 2)."""
    read_code, take_codes = converter.read_code, converter.take_codes

    def sized(size_of):
        """Where a lead is followed by a byte that may not be second, the code has another size."""

        def wrong(table, first, second):
            code = read_code(table, first, second)
            if table.classes[first] in (2, 6) and second is not None and table.classes[second] not in (4, 5, 6):
                return converter.Code(size_of(table, second), 4, [])
            return code

        return wrong

    def any_low_byte(table, first, second):
        if table.classes[first] in (2, 6) and second is not None and second < 0x80:
            return converter.Code(1, 4, [])
        return read_code(table, first, second)

    def low_is_pair(table, first, second):
        code = read_code(table, first, second)
        alone = table.classes[first] in (2, 6) and second is not None and code.size == 1
        return converter.Code(1, 2, []) if alone else code

    def carried_takes_next(direction, table, digits, carried, piece, last, room):
        if direction == "D" and carried is not None and piece and read_code(table, carried, piece[0]).size == 1:
            # as after a byte of 80 or more, which may not be second on the sample page
            return take_codes(direction, table, digits, carried, [0x80] + piece[1:], last, room)
        return take_codes(direction, table, digits, carried, piece, last, room)

    on_sample = (
        ("a byte below 80 is taken with the lead", "read_code", sized(lambda table, second: 2)),
        ("any bad second byte is left unread", "read_code", sized(lambda table, second: 1)),
        ("80 is left unread too", "read_code", sized(lambda table, second: 1 if second <= 0x80 else 2)),
        ("7F is taken with the lead", "read_code", sized(lambda table, second: 1 if second < 0x7F else 2)),
        ("only control bytes are left unread", "read_code", sized(lambda table, second: 1 if second < 0x20 else 2)),
        ("only a line feed is left unread", "read_code", sized(lambda table, second: 1 if second == 0x0A else 2)),
        ("a byte that may be second is not asked for", "read_code", any_low_byte),
        ("a lead that is a code alone is an undefined pair", "read_code", low_is_pair),
        ("a carried lead takes the next byte", "take_codes", carried_takes_next),
    )
    on_other_tables = (
        ("only a single is left unread", "read_code",
         sized(lambda table, second: 1 if second < 0x80 and table.classes[second] == 1 else 2)),
        ("only a byte with a character is left unread", "read_code",
         sized(lambda table, second: 1 if second < 0x80 and table.singles[second] != 0xFFFF else 2)),
    )
    return on_sample, on_other_tables


def wrong_surrogate_converters():
    """The same for surrogates (document 02, CR 5)."""
    right = {name: getattr(converter, name) for name in dir(converter)}
    high, low = right["HIGH_SURROGATES"], right["LOW_SURROGATES"]
    surrogates = range(0xD800, 0xE000)

    def looked_up(table, unit):
        """Document 01's rule before CR 5."""
        code = table.blocks[256 * table.index[unit >> 8] + (unit & 0xFF)]
        if code == 0xFFFF:
            return converter.Code(1, 1, [])
        return converter.Code(1, 0, [code] if code < 0x100 else [code >> 8, code & 0xFF])

    def reading(wrong_code):
        """Reading a surrogate is wrong where wrong_code gives a code; it is told the right one."""

        def wrong(table, unit, following):
            code = right["read_unit"](table, unit, following)
            return (wrong_code(code, table, unit, following) if unit in surrogates else None) or code

        return wrong

    def pair_as(size, kind):
        return reading(lambda code, table, unit, following: converter.Code(size, kind, []) if code.size == 2 else None)

    def alone_as(size, kind, which):
        """A surrogate that is invalid by itself, and which asks for it and the unit after it, has another size or kind."""
        return reading(lambda code, table, unit, following: converter.Code(size, kind, [])
                       if code.size == 1 and which(unit, following) else None)

    def looked_up_if(which):
        return reading(lambda code, table, unit, following: looked_up(table, unit) if which(code, unit) else None)

    def looked_up_with_code(code, table, unit, following):
        found = looked_up(table, unit)
        return found if found.kind == 0 else None

    def with_digits(digits_of):
        def wrong(direction, table, digits, carried, piece, last, room):
            digits = digits_of(digits) if direction == "E" else digits
            return right["take_codes"](direction, table, digits, carried, piece, last, room)

        return wrong

    def carried_forgotten(direction, table, digits, carried, piece, last, room):
        """A carried unit is settled before the next one is looked at."""
        if direction == "D" or carried is None or not piece:
            return right["take_codes"](direction, table, digits, carried, piece, last, room)
        alone = right["take_codes"](direction, table, digits, carried, [], True, room)
        if alone.number != 0:
            return alone
        rest = right["take_codes"](direction, table, digits, None, piece, last, room - len(alone.output))
        return converter.replace(rest, output=alone.output + rest.output, flags=alone.flags | rest.flags)

    def carried_by(which):
        """In encoding, what is carried."""

        def wrong(direction, table, first):
            return which(first) if direction == "E" else right["may_be_carried"](direction, table, first)

        return wrong

    def carries_if(rule):
        """The run rule for a carried unit; the others are asked of the run without it."""

        def wrong(run):
            if run.direction == "D" or run.carried is None:
                return right["keeps_run_rules"](run)
            return right["keeps_run_rules"](converter.replace(run, carried=None)) and rule(run)

        return wrong

    def goes_on(run):
        return run.carried in high and not run.ended

    def no_lead_in_encoding(run, direction, table, piece):
        refusal = right["run_call_refusal"](run, direction, table, piece)
        if refusal in (None, 15, 16) and run.carried is not None and table.classes[run.carried & 0xFF] not in (2, 6):
            return 14
        return refusal

    def line_without_carried(run):
        return right["line_of"](converter.replace(run, carried=None) if run.direction == "E" else run)

    def low_half_carried(run):
        return f"00{run.carried & 0xFF:02X}" if run.direction == "E" and run.carried is not None else right["carried_field"](run)

    def any_digits(direction, field):
        return re.fullmatch(rb"-|[0-9A-F]{2}|[0-9A-F]{4}", field) is not None

    def small_letters(direction, field):
        return right["is_carried_field"](direction, field.upper())

    def need_of_units_alone(direction, digits, table, text, out):
        """The need takes each unit for a text of its own."""
        answer = right["convert_call"](direction, digits, table, text, out)
        if direction == "D" or isinstance(answer, int) or answer.flags & 8:
            return answer
        parts = [right["convert_call"](direction, digits, table, [unit], []) for unit in text]
        return converter.replace(answer, need=sum(part.need for part in parts))

    return (
        ("D7FF is a high surrogate", "HIGH_SURROGATES", range(0xD7FF, 0xDC00)),
        ("D800 is no high surrogate", "HIGH_SURROGATES", range(0xD801, 0xDC00)),
        ("DBFF is no high surrogate", "HIGH_SURROGATES", range(0xD800, 0xDBFF)),
        ("DC00 is a high surrogate", "HIGH_SURROGATES", range(0xD800, 0xDC01)),
        ("DBFF is a low surrogate", "LOW_SURROGATES", range(0xDBFF, 0xE000)),
        ("DC00 is no low surrogate", "LOW_SURROGATES", range(0xDC01, 0xE000)),
        ("DFFF is no low surrogate", "LOW_SURROGATES", range(0xDC00, 0xDFFF)),
        ("E000 is a low surrogate", "LOW_SURROGATES", range(0xDC00, 0xE001)),
        ("a pair is one unit", "read_unit", pair_as(1, 1)),
        ("a pair is invalid", "read_unit", pair_as(2, 4)),
        ("a pair is an undefined pair", "read_unit", pair_as(2, 2)),
        ("a pair is two invalid units", "read_unit", pair_as(1, 4)),
        ("a surrogate alone is undefined", "read_unit", alone_as(1, 1, lambda unit, following: True)),
        ("a high surrogate alone is undefined", "read_unit", alone_as(1, 1, lambda unit, following: unit in high)),
        ("a low surrogate alone is undefined", "read_unit", alone_as(1, 1, lambda unit, following: unit in low)),
        ("a high surrogate at the text's end is undefined", "read_unit",
         alone_as(1, 1, lambda unit, following: unit in high and following is None)),
        ("a high surrogate takes the next unit, whatever it is", "read_unit",
         alone_as(2, 4, lambda unit, following: unit in high and following is not None)),
        ("a high surrogate takes a high one", "read_unit",
         alone_as(2, 4, lambda unit, following: unit in high and following is not None and following in high)),
        ("two high surrogates are a pair", "read_unit",
         alone_as(2, 1, lambda unit, following: unit in high and following is not None and following in high)),
        ("a low surrogate and a high one are a pair", "read_unit",
         alone_as(2, 1, lambda unit, following: unit in low and following is not None and following in high)),
        ("surrogates are ordinary units, as before", "read_unit", looked_up_if(lambda code, unit: True)),
        ("a surrogate alone is looked up", "read_unit", looked_up_if(lambda code, unit: code.size == 1)),
        ("a high surrogate alone is looked up", "read_unit", looked_up_if(lambda code, unit: code.size == 1 and unit in high)),
        ("a low surrogate alone is looked up", "read_unit", looked_up_if(lambda code, unit: code.size == 1 and unit in low)),
        ("a surrogate that has a code in the table is written", "read_unit", reading(looked_up_with_code)),
        ("the first digit for every code", "take_codes", with_digits(lambda digits: (digits[0],) * 3)),
        ("the third digit for every code", "take_codes", with_digits(lambda digits: (digits[2],) * 3)),
        ("a carried unit is settled before the next is seen", "take_codes", carried_forgotten),
        ("any surrogate is carried", "may_be_carried", carried_by(lambda unit: unit in surrogates)),
        ("low surrogates are carried", "may_be_carried", carried_by(lambda unit: unit in low)),
        ("nothing is carried in encoding", "may_be_carried", carried_by(lambda unit: False)),
        ("any unit is carried", "may_be_carried", carried_by(lambda unit: True)),
        ("a carried unit asks for written plus 1", "keeps_run_rules",
         carries_if(lambda run: goes_on(run) and run.written + 1 <= 2 * run.read)),
        ("a carried unit asks for written plus 3", "keeps_run_rules",
         carries_if(lambda run: goes_on(run) and run.written + 3 <= 2 * run.read)),
        ("a carried unit asks for written below read", "keeps_run_rules",
         carries_if(lambda run: goes_on(run) and run.written < run.read)),
        ("a carried unit asks nothing of written", "keeps_run_rules", carries_if(goes_on)),
        ("no encoding run carries a unit", "keeps_run_rules", carries_if(lambda run: False)),
        ("any unit may be carried by the rules", "keeps_run_rules",
         carries_if(lambda run: not run.ended and run.written + 2 <= 2 * run.read)),
        ("any surrogate may be carried by the rules", "keeps_run_rules",
         carries_if(lambda run: run.carried in surrogates and not run.ended and run.written + 2 <= 2 * run.read)),
        ("an ended run may carry a unit", "keeps_run_rules",
         carries_if(lambda run: run.carried in high and run.written + 2 <= 2 * run.read)),
        ("14 in encoding too", "run_call_refusal", no_lead_in_encoding),
        ("two hex digits in an E line", "CARRIED_DIGITS", {"D": 2, "E": 2}),
        ("four hex digits in a D line", "CARRIED_DIGITS", {"D": 4, "E": 4}),
        ("two or four hex digits in any line", "is_carried_field", any_digits),
        ("small hex digits are read", "is_carried_field", small_letters),
        ("the carried unit is dropped when saved", "line_of", line_without_carried),
        ("the carried unit's low half is shown", "carried_field", low_half_carried),
        ("the need takes each unit alone", "convert_call", need_of_units_alone),
    )


def wrong_one_go_converters(directions):
    """The same for the one call that counts and converts (document 02, CR 10), wrong in the directions given."""
    convert_call, take_whole_text, ample = converter.convert_call, converter.take_whole_text, converter.NO_END_OF_ROOM

    def changed(change):
        """An accepted call that was answered otherwise; it is told what the conversion and the whole reading took."""

        def wrong(direction, digits, table, text, out):
            answer = convert_call(direction, digits, table, text, out)
            if isinstance(answer, int) or direction not in directions:
                return answer
            asked = (direction, digits, table, text)
            return converter.replace(answer, **change(answer, out, take_whole_text(*asked, len(out)), take_whole_text(*asked, ample)))

        return wrong

    def number(wrong_number):
        return changed(lambda answer, out, taken, whole: {"number": wrong_number(answer, len(out), whole)})

    def flags(wrong_flags):
        return changed(lambda answer, out, taken, whole: {"flags": wrong_flags(answer, taken, whole)})

    def room_rounded_up(direction, digits, table, text, out):
        """Empty room is not told from room for one."""
        lent = out or [0]
        return convert_call(direction, digits, table, text, lent if direction in directions else out)

    def refused(refusals):
        """With empty room, a refusal is left out: an accepted call that reads nothing."""

        def wrong(direction, digits, table, text, out):
            answer = convert_call(direction, digits, table, text, out)
            if answer in refusals and not out and direction in directions:
                return converter.OneGo(0, 0, 0, 0, 0)
            return answer

        return wrong

    def beyond_written(direction, digits, table, text, out):
        """Room that nothing was written to is cleared."""
        answer = convert_call(direction, digits, table, text, out)
        if direction in directions:
            written = 0 if isinstance(answer, int) else answer.written
            out[written:] = [0] * (len(out) - written)
        return answer

    def past_stop(direction, digits, table, text, out):
        """The need goes on behind a stop."""
        answer = convert_call(direction, digits, table, text, out)
        if isinstance(answer, int) or direction not in directions:
            return answer
        whole = take_whole_text(direction, tuple(digit or 1 for digit in digits), table, text, ample)
        return converter.replace(answer, need=len(whole.output))

    return tuple((f"{title}, directions {directions}", "convert_call", wrong) for title, wrong in (
        ("flags of the converted part", flags(lambda answer, taken, whole: taken.flags)),
        ("flag 8 only if the conversion stopped", flags(lambda answer, taken, whole: taken.flags & 8 | whole.flags & 7)),
        ("flag 8 is not of the whole reading's flags", flags(lambda answer, taken, whole: whole.flags & 7)),
        ("no flags with answer 2", flags(lambda answer, taken, whole: 0 if answer.number == 2 else answer.flags)),
        ("3 ahead of 2", number(lambda answer, room, whole: whole.number or answer.number)),
        ("empty room answers as counting did", number(lambda answer, room, whole: answer.number if room else whole.number)),
        ("3 ahead of 2 with empty room", number(lambda answer, room, whole: answer.number if room else whole.number or answer.number)),
        ("empty room is always 2", number(lambda answer, room, whole: answer.number if room else 2)),
        ("2 if the need is the room", number(lambda answer, room, whole: 2 if answer.need == room else answer.number)),
        ("2 only if the need is over the room by two",
         number(lambda answer, room, whole: answer.number if answer.need > room + 1 else whole.number)),
        ("the need is what is written", changed(lambda answer, out, taken, whole: {"need": answer.written})),
        ("the need is at most the room", changed(lambda answer, out, taken, whole: {"need": min(answer.need, len(out))})),
        ("the need is what did not fit", changed(lambda answer, out, taken, whole: {"need": answer.need - answer.written})),
        ("the need goes on behind a stop", past_stop),
        ("read is the whole reading's", changed(lambda answer, out, taken, whole: {"read": whole.read})),
        ("read is the whole reading's with empty room",
         changed(lambda answer, out, taken, whole: {"read": answer.read if out else whole.read})),
        ("nothing is read with empty room", changed(lambda answer, out, taken, whole: {"read": answer.read if out else 0})),
        ("written is the need", changed(lambda answer, out, taken, whole: {"written": answer.need})),
        ("empty room is room for one", room_rounded_up),
        ("10 is not asked with empty room", refused((10,))),
        ("11 is not asked with empty room", refused((11,))),
        ("17 is not asked with empty room", refused((17,))),
        ("the room beyond is cleared", beyond_written),
    ))


def wrong_standards():
    """The same for the standard policy (document 02, CR 4)."""
    right = {name: getattr(converter, name) for name in dir(converter)}
    standard = right["STANDARD"]

    def loaded(digits_of):
        """A line is read as a run of other digits."""

        def wrong(line):
            run = right["load_call"](line)
            return run if run == 18 else converter.replace(run, digits=digits_of(run.digits))

        return wrong

    def taken(digits_of):
        """Codes are taken under other digits than the run's, which says its own."""

        def wrong(direction, table, digits, carried, piece, last, room):
            digits = digits_of(direction, digits, carried)
            return right["take_codes"](direction, table, digits, carried, piece, last, room)

        return wrong

    def stopping(change):
        """A stop is taken otherwise."""

        def wrong(direction, table, digits, carried, piece, last, room):
            taken = right["take_codes"](direction, table, digits, carried, piece, last, room)
            return taken if taken.number != 3 else converter.replace(taken, **change(taken, direction, table, room))

        return wrong

    def replaced_and_stopped(taken, direction, table, room):
        default = table.default_unit if direction == "D" else table.default_byte
        return {"output": taken.output + [default] * (len(taken.output) < room)}

    def started_by_standard(direction, page, digits):
        return right["start_call"](direction, page, standard if digits == (5, 5, 5) else digits)

    def one_go_by_standard(direction, digits, table, text, out):
        return right["convert_call"](direction, standard if digits == (5, 5, 5) else digits, table, text, out)

    def saved_by_standard(run):
        return right["line_of"](converter.replace(run, digits=standard))

    class TellsTheRun(converter.Console):
        """The digits that are told are those of the run in hand."""

        def do_standard(self):
            return "standard " + " ".join(map(str, self.run.digits))

    class SetsTheRun(converter.Console):
        """Telling the standard gives it to the run in hand."""

        def do_standard(self):
            self.run = converter.replace(self.run, digits=standard)
            return super().do_standard()

    class TakesWords(converter.Console):
        """Words behind the command are not looked at."""

        def answer(self, line):
            return super().answer(b"standard" if line.startswith(b"standard ") else line)

    class GoesOnUnderTheFormer(converter.Console):
        """A line that is read goes on under the digits of the run that was in hand."""

        def do_load(self, line):
            former, answer = self.run, super().do_load(line)
            if answer != "load 18":
                self.run = converter.replace(self.run, digits=former.digits)
            return answer

    return (
        ("the standard is 505", "STANDARD", (5, 0, 5)),
        ("the standard is 555, the old one", "STANDARD", (5, 5, 5)),
        ("the standard is 055", "STANDARD", (0, 5, 5)),
        ("the standard is 500", "STANDARD", (5, 0, 0)),
        ("the standard is 551", "STANDARD", (5, 5, 1)),
        ("a line goes on under the standard", "load_call", loaded(lambda digits: standard)),
        ("a 555 line is an old standard one and goes on under the new", "load_call",
         loaded(lambda digits: standard if digits == (5, 5, 5) else digits)),
        ("a 550 line goes on under the old standard", "load_call",
         loaded(lambda digits: (5, 5, 5) if digits == standard else digits)),
        ("a line goes on under the digits of the run in hand", "Console", GoesOnUnderTheFormer),
        ("a line is saved under the standard", "line_of", saved_by_standard),
        ("every call is under the standard", "take_codes", taken(lambda direction, digits, carried: standard)),
        ("what is carried is settled under the standard", "take_codes",
         taken(lambda direction, digits, carried: digits if carried is None else standard)),
        ("the old standard when something is carried", "take_codes",
         taken(lambda direction, digits, carried: (5, 5, 5) if carried is not None and digits == standard else digits)),
        ("the standard stops in decoding only", "take_codes",
         taken(lambda direction, digits, carried: (5, 5, 5) if direction == "E" and digits == standard else digits)),
        ("the standard stops in encoding only", "take_codes",
         taken(lambda direction, digits, carried: (5, 5, 5) if direction == "D" and digits == standard else digits)),
        ("the standard stops at every code without a character", "take_codes",
         taken(lambda direction, digits, carried: (0, 0, 0) if digits == standard else digits)),
        ("a stop writes the default", "take_codes", stopping(replaced_and_stopped)),
        ("a stop is answered as a text that is read", "take_codes", stopping(lambda taken, direction, table, room: {"number": 0})),
        ("a stop sets no flag but 8", "take_codes", stopping(lambda taken, direction, table, room: {"flags": 8})),
        ("a stop does not set flag 8", "take_codes",
         stopping(lambda taken, direction, table, room: {"flags": taken.flags & 7})),
        ("555 is started as the standard", "start_call", started_by_standard),
        ("555 in one go is the standard", "convert_call", one_go_by_standard),
        ("the digits of the run in hand are told", "Console", TellsTheRun),
        ("telling the standard changes the run in hand", "Console", SetsTheRun),
        ("words behind the command are not looked at", "Console", TakesWords),
    )


class SeparatedByLowHalf(dict):
    """A unit parts fields by its low half alone."""

    def __contains__(self, unit):
        return super().__contains__(unit & 0xFF)

    def __getitem__(self, unit):
        return super().__getitem__(unit & 0xFF)


def wrong_field_converters():
    """The same for fields."""
    right = {name: getattr(converter, name) for name in dir(converter)}
    call, refusal, next_units = right["field_call"], right["field_refusal"], right["next_units"]

    def changed(change):
        """A call whose outcome is changed where it is accepted."""

        def wrong(held, hold, block, last):
            outcome = call(held, hold, block, last)
            return outcome if isinstance(outcome, int) else change(outcome, held, hold, block, last)

        return wrong

    def empty_field_at_end(outcome, held, hold, block, last):
        if last and not block and held == 0:
            return converter.FieldOutcome("end", 0, [], False, 0)
        return outcome

    def not_reset(outcome, held, hold, block, last):
        return converter.replace(outcome, held=len(outcome.units)) if outcome.from_hold else outcome

    def separator_unread(outcome, held, hold, block, last):
        return converter.replace(outcome, read=outcome.read - 1) if outcome.end in ("bar", "line") else outcome

    def shown_from_block_begin(outcome, held, hold, block, last):
        return converter.replace(outcome, units=outcome.units[held:]) if outcome.from_hold else outcome

    def copied_to_hold(outcome, held, hold, block, last):
        if outcome.end is not None and held == 0:
            hold[: len(outcome.units)] = outcome.units
        return outcome

    def refused_at(limit):
        def wrong(held, hold, block):
            number = refusal(held, hold, block)
            return 21 if number is None and held + len(next_units(block)) >= limit else number

        return wrong

    def longer_in_longer_hold(held, hold, block):
        number = refusal(held, hold, block)
        return None if number == 21 and held + len(next_units(block)) <= len(hold) else number

    def too_long_only_if_held(held, hold, block):
        number = refusal(held, hold, block)
        return None if number == 21 and held == 0 else number

    def held_not_counted(held, hold, block):
        number = refusal(held, hold, block)
        return None if number == 21 and len(next_units(block)) <= 256 else number

    def state_before_block(held, hold, block):
        number = refusal(held, hold, block)
        return 27 if number == 11 and held > 256 else number

    def block_before_hold(held, hold, block):
        number = refusal(held, hold, block)
        return 11 if number == 20 and len(block) > 65536 else number

    def field_before_state(held, hold, block):
        number = refusal(held, hold, block)
        return 21 if number == 27 and len(next_units(block)) > 0 else number

    def state_at_limit(held, hold, block):
        number = refusal(held, hold, block)
        return 27 if number in (None, 21) and held == 256 else number

    def wrapping_state(held, hold, block):
        return refusal((held + len(next_units(block))) % 2**64 if held > 256 else held, hold, block)

    def state_of_32_bits(held, hold, block):
        return refusal(held % 2**32, hold, block)

    def hold_of_255(held, hold, block):
        return refusal(held, hold + [0] if len(hold) == 255 else hold, block)

    def mark_ignored(held, hold, block, last):
        return call(held, hold, block, False)

    def always_last(held, hold, block, last):
        return call(held, hold, block, True)

    exchanged = {0x007C: "line", 0x000A: "bar"}
    return (
        ("bar and line feed exchanged", "SEPARATORS", exchanged),
        ("a carriage return ends a field", "SEPARATORS", {**right["SEPARATORS"], 0x000D: "line"}),
        ("a unit's low half ends a field", "SEPARATORS", SeparatedByLowHalf(right["SEPARATORS"])),
        ("an empty field at the text's end", "field_call", changed(empty_field_at_end)),
        ("the state is not reset after a held field", "field_call", changed(not_reset)),
        ("the separator is not read", "field_call", changed(separator_unread)),
        ("a held field is shown from where the block began", "field_call", changed(shown_from_block_begin)),
        ("a field of the block goes through the hold", "field_call", changed(copied_to_hold)),
        ("the mark is ignored", "field_call", mark_ignored),
        ("every call is marked last", "field_call", always_last),
        ("21 at 256", "field_refusal", refused_at(256)),
        ("21 goes by the hold's length", "field_refusal", longer_in_longer_hold),
        ("21 only for a field that was held", "field_refusal", too_long_only_if_held),
        ("21 does not count what is held", "field_refusal", held_not_counted),
        ("27 before 11", "field_refusal", state_before_block),
        ("11 before 20", "field_refusal", block_before_hold),
        ("21 before 27", "field_refusal", field_before_state),
        ("27 at 256", "field_refusal", state_at_limit),
        ("the state wraps", "field_refusal", wrapping_state),
        ("the state has 32 bits", "field_refusal", state_of_32_bits),
        ("a hold of 255 is long enough", "field_refusal", hold_of_255),
    )


def wrong_break_converters():
    """The same for receipt lines (document 02, CR 12)."""
    right = {name: getattr(converter, name) for name in dir(converter)}
    is_acceptable, own_breaks, code_ends = right["is_acceptable"], right["own_breaks"], right["code_ends"]
    propose_call = right["propose_call"]

    def judged(change):
        """Another proposal, or another width, is judged in place of the one given; None is not accepted."""

        def wrong(table, text, width, breaks):
            changed = change(text, width, list(breaks))
            return changed is not None and is_acceptable(table, text, *changed)

        return wrong

    def breaks_as(change):
        return judged(lambda text, width, breaks: (width, change(text, breaks)))

    def lines_judged(which):
        """Only some lines are measured: which of them, by their number from 0 and how many there are."""

        def wrong(table, text, width, breaks):
            if not is_acceptable(table, text, MOST, breaks):
                return False
            sizes = [len(line) for line in lines_of(text, breaks)]
            return all(size <= width for number, size in enumerate(sizes) if which(number, len(sizes)))

        return wrong

    def cut_accepted(which):
        """A break inside a code that which asks for, by the table and its bytes, is accepted."""

        def wrong(table, text, width, breaks):
            if not text or is_acceptable(table, text, width, breaks):
                return is_acceptable(table, text, width, breaks)
            if not all(1 <= end - start <= width for start, end in zip((0, *breaks), (*breaks, len(text)))):
                return False
            cut = set(breaks) - set(code_ends(table, text))
            return all(which(table, text[place - 1], text[place]) for place in cut)

        return wrong

    def wrapping(table, text, width, breaks):
        """The size of a line is taken modulo 2^64, and nothing else is asked of its ends."""
        sizes = [(end - start) % 2**64 for start, end in zip((0, *breaks), (*breaks, len(text)))]
        uncut = set(code_ends(table, text))
        return all(1 <= size <= width for size in sizes) and all(place in uncut for place in breaks) if text else not breaks

    def sum_wraps(table, text, width, breaks):
        """The farthest end of a line is its start and the width, modulo 2^64."""
        ends = zip((0, *breaks), (*breaks, len(text)))
        return is_acceptable(table, text, width, breaks) and all(end <= (start + width) % 2**64 for start, end in ends)

    def as_few_as_ours(table, text, width, breaks):
        return is_acceptable(table, text, width, breaks) and len(breaks) == len(own_breaks(table, text, width))

    def ours_with(change):
        """Our breaks, changed where there are some, or where none are needed."""

        def wrong(table, text, width):
            ours = own_breaks(table, text, width)
            return None if ours is None else change(table, text, width, ours)

        return wrong

    def greedy(line_end):
        """Line by line: line_end chooses from the ends of codes that a line may have, and gets the whole text's size too."""

        def wrong(table, text, width):
            if own_breaks(table, text, width) is None:
                return None
            breaks, start = [], 0
            while len(text) - start > 0:
                ends = [end for end in code_ends(table, text) if start < end <= start + width]
                start = line_end(ends, start, len(text), text)
                breaks.append(start)
            return breaks[:-1]

        return wrong

    def from_the_end(table, text, width):
        """The last line is the longest."""
        if own_breaks(table, text, width) is None:
            return None
        breaks, end = [], len(text)
        while end > width:
            end = min(place for place in code_ends(table, text) if place >= end - width)
            breaks.insert(0, end)
        return breaks

    def every_width(table, text, width):
        """At every multiple of the width, codes or not."""
        return None if own_breaks(table, text, width) is None else list(range(width, len(text), width)) if width else []

    def none_if(which):
        """No breaks exist exactly where which says so; a code that is too long is a line of its own."""

        def wrong(table, text, width):
            if which(table, text, width):
                return None
            breaks, line_start, code_start = [], 0, 0
            for end in code_ends(table, text):
                if end - line_start > width and code_start > line_start:
                    breaks.append(code_start)
                    line_start = code_start
                code_start = end
            return breaks

        return wrong

    def code_sizes(table, text):
        ends = code_ends(table, text)
        return [end - start for start, end in zip([0] + ends, ends)]

    def short_list(table, text, width, out):
        """The list is filled as the breaks are found: 32 where it is full, before a code that is too long is met."""
        answer = propose_call(table, text, width, out)
        if answer != 31:
            return answer
        sizes = code_sizes(table, text)
        first_long = next(number for number, size in enumerate(sizes) if size > width)
        before = propose_call(table, text[: sum(sizes[:first_long])], width, [0] * len(out))
        return 32 if before == 32 else 31

    def refused_with(change):
        """A refusal that touches the list."""

        def wrong(table, text, width, out):
            answer = propose_call(table, text, width, out)
            if isinstance(answer, int):
                change(answer, own_breaks(table, text, width) if answer == 32 else None, out)
            return answer

        return wrong

    def filled_before_refused(answer, ours, out):
        if answer == 32:
            out[:] = ours[: len(out)]

    def cleared_where_none_exists(answer, ours, out):
        if answer == 31 and out:
            out[0] = 0

    def answered(change):
        """Our breaks are written, and then something else is done with the list or the answer."""

        def wrong(table, text, width, out):
            answer = propose_call(table, text, width, out)
            return answer if isinstance(answer, int) else change(text, answer[1], out) or answer

        return wrong

    def rest_cleared(text, count, out):
        out[count:] = [0] * (len(out) - count)

    def end_behind_ours(text, count, out):
        if count < len(out):
            out[count] = len(text)

    def one_place_more(text, count, out):
        if count == len(out) and count > 0:
            out[:] = [right["UNIT_FILL"]] * count
            return 32
        return None

    def what_fits(table, text, width, out):
        """A list that is too short is filled, and accepted."""
        answer = propose_call(table, text, width, out)
        if answer == 32:
            out[:] = own_breaks(table, text, width)[: len(out)]
            return ("breaks", len(out))
        return answer

    def list_of_lines(table, text, width, out):
        """The list must have a place for the text's end too."""
        answer = propose_call(table, text, width, list(out))
        if isinstance(answer, tuple) and answer[1] + 1 > len(out) and text:
            return 32
        return propose_call(table, text, width, out)

    def width_first(call, refusal):
        """Width 0 is refused before the length."""

        def wrong(table, text, width, other):
            answer = right[call](table, text, width, other)
            return refusal if answer == 11 and width == 0 else answer

        return wrong

    def same_for_both(change):
        """A width that is read otherwise, in both calls: two wrong converters."""
        return (judged(lambda text, width, breaks: (change(width), breaks)),
                lambda table, text, width: own_breaks(table, text, change(width)))

    class CountsFromTheWhole(converter.Console):
        """Breaks are counted from the beginning of the whole text."""

        def do_breaks(self, width, start, count, *breaks):
            answer = super().do_breaks(width, start, count, *breaks)
            if answer == "?" or not breaks:
                return answer
            places = [b"%d" % ((int(place) - int(start)) % 2**64) for place in breaks]
            return super().do_breaks(width, start, count, *places)

    class StartsAnew(converter.Console):
        """A proposal gives up the run in hand."""

        def do_propose(self, *words):
            answer = super().do_propose(*words)
            self.run = converter.Run("D", self.table.page, (5, 5, 5), None, 0, 0, 0, False)
            return answer

    class HoldsNothing(converter.Console):
        """A proposal that is checked gives up what is held."""

        def do_breaks(self, *words):
            answer = super().do_breaks(*words)
            self.held = 0
            return answer

    class CutsTheText(converter.Console):
        """The part that was asked for is the text from then on."""

        def do_breaks(self, width, start, count, *breaks):
            answer = super().do_breaks(width, start, count, *breaks)
            self.byte_text = self.part_of(self.byte_text, start, count)
            return answer

    wide = [
        (f"the width has {title}", change)
        for title, change in (("8 bits", lambda width: width % 2**8), ("16 bits", lambda width: width % 2**16),
                              ("32 bits", lambda width: width % 2**32), ("a sign", lambda width: 0 if width >= 2**63 else width))
    ]
    widths = [(f"{title}, {call}", call, wrong) for title, change in wide
              for call, wrong in zip(("is_acceptable", "own_breaks"), same_for_both(change))]
    checking = (
        ("a line of width + 1 is accepted", judged(lambda text, width, breaks: (width + 1, breaks))),
        ("a line of width bytes is not accepted", judged(lambda text, width, breaks: (width - 1, breaks))),
        ("the first line is not measured", lines_judged(lambda number, lines: number > 0)),
        ("the last line is not measured", lines_judged(lambda number, lines: number < lines - 1)),
        ("lines between are not measured", lines_judged(lambda number, lines: number in (0, lines - 1))),
        ("only the last line is measured", lines_judged(lambda number, lines: number == lines - 1)),
        ("a cut inside a code is accepted", cut_accepted(lambda table, first, second: True)),
        ("a cut inside an undefined pair is accepted",
         cut_accepted(lambda table, first, second: right["read_code"](table, first, second).kind == 2)),
        ("a cut inside an invalid code is accepted",
         cut_accepted(lambda table, first, second: right["read_code"](table, first, second).kind == 4)),
        ("a cut inside a character is accepted",
         cut_accepted(lambda table, first, second: right["read_code"](table, first, second).kind == 0)),
        ("a break 0 is accepted", breaks_as(lambda text, breaks: breaks[breaks[:1] == [0] :] if text else breaks)),
        ("a break 0 is accepted for an empty text", breaks_as(lambda text, breaks: breaks if text or breaks != [0] else [])),
        ("an empty text takes any proposal", breaks_as(lambda text, breaks: breaks if text else [])),
        ("an empty text takes nothing at width 0", judged(lambda text, width, breaks: (width, breaks) if text or width else None)),
        ("an empty text takes nothing", judged(lambda text, width, breaks: (width, breaks) if text else None)),
        ("equal breaks are accepted", breaks_as(lambda text, breaks: [place for place, _ in itertools.groupby(breaks)])),
        ("falling breaks are accepted", breaks_as(lambda text, breaks: sorted(breaks))),
        ("only the first two breaks must rise", breaks_as(lambda text, breaks: sorted(breaks) if breaks[:2] == sorted(breaks[:2])
                                                          else breaks)),
        ("the text's end is accepted", breaks_as(lambda text, breaks: breaks[:-1] if text and breaks[-1:] == [len(text)] else breaks)),
        ("the text's end is asked for",
         judged(lambda text, width, breaks: (width, breaks[:-1]) if breaks[-1:] == [len(text)] else None if text else (width, breaks))),
        ("breaks beyond the text are passed over",
         breaks_as(lambda text, breaks: [place for place in breaks if place <= len(text)] if text else breaks)),
        ("a break has 8 bits", breaks_as(lambda text, breaks: [place % 2**8 for place in breaks] if len(text) < 256 else breaks)),
        ("a break has 16 bits", breaks_as(lambda text, breaks: [place % 2**16 for place in breaks])),
        ("a break has 32 bits", breaks_as(lambda text, breaks: [place % 2**32 for place in breaks])),
        ("a line's size wraps", wrapping),
        ("a line's farthest end wraps", sum_wraps),
        ("only the fewest lines are accepted", as_few_as_ours),
    )
    proposing = (
        ("a line is one code short", greedy(lambda ends, start, size, text: ends[-2] if len(ends) > 1 and ends[-1] < size else ends[-1])),
        ("every line has one code", greedy(lambda ends, start, size, text: ends[0])),
        ("a line feed ends a line", greedy(lambda ends, start, size, text: next((end for end in ends if text[end - 1] == 0x0A), ends[-1]))),
        ("the last code is a line of its own", greedy(lambda ends, start, size, text: ends[-2] if len(ends) > 1 and ends[-1] == size
                                                      else ends[-1])),
        ("the last line is the longest", from_the_end),
        ("a break at every multiple of the width", every_width),
        ("the text's end is listed", ours_with(lambda table, text, width, ours: ours + [len(text)])),
        ("the text's end is listed where it fills the line",
         ours_with(lambda table, text, width, ours: ours + [len(text)] if text and len(text) - ([0] + ours)[-1] == width else ours)),
        ("the text's beginning is listed", ours_with(lambda table, text, width, ours: [0] + ours)),
        ("lines have sizes in place of ends",
         ours_with(lambda table, text, width, ours: [end - start for start, end in zip([0] + ours, ours)])),
        ("31 at width 0 on an empty text", lambda table, text, width: own_breaks(table, text, width) if text or width else None),
        ("31 on an empty text", lambda table, text, width: own_breaks(table, text, width) if text else None),
        ("31 at width 0 only", none_if(lambda table, text, width: width == 0 and len(text) > 0)),
        ("31 at width 1 for any lead", none_if(lambda table, text, width: max(code_sizes(table, text), default=0) > width
                                               or (width == 1 and any(table.classes[byte] in (2, 6) for byte in text)))),
        ("31 for the first code only", none_if(lambda table, text, width: len(text) > 0 and code_sizes(table, text)[0] > width)),
        ("31 for the last code only", none_if(lambda table, text, width: len(text) > 0 and code_sizes(table, text)[-1] > width)),
        ("31 at odd widths with codes of two bytes alone",
         none_if(lambda table, text, width: max(code_sizes(table, text), default=0) > width
                 or (width % 2 == 1 and len(text) > width and set(code_sizes(table, text)) == {2}))),
    )
    calling = (
        ("32 before 31", short_list),
        ("an empty list is too short for any text", lambda table, text, width, out: propose_call(table, text, width, out) if out else 32),
        ("a list is filled before it is too short", refused_with(filled_before_refused)),
        ("a list is touched where none exists", refused_with(cleared_where_none_exists)),
        ("the list behind ours is cleared", answered(rest_cleared)),
        ("the text's end is written behind ours", answered(end_behind_ours)),
        ("a list that is just long enough is too short", answered(one_place_more)),
        ("a list must have a place for the text's end", list_of_lines),
        ("a list that is too short is filled and accepted", what_fits),
        ("31 before 11", width_first("propose_call", 31)),
    )
    playing = (
        ("breaks are counted from the whole text's beginning", CountsFromTheWhole),
        ("a proposal gives up the run in hand", StartsAnew),
        ("a check gives up what is held", HoldsNothing),
        ("a check cuts the text", CutsTheText),
    )
    return (
        *((title, "is_acceptable", wrong) for title, wrong in checking),
        *((title, "own_breaks", wrong) for title, wrong in proposing),
        *((title, "propose_call", wrong) for title, wrong in calling),
        *((title, "Console", wrong) for title, wrong in playing),
        *widths,
        ("30 before 11", "breaks_call", width_first("breaks_call", 30)),
        ("301 breaks are a command", "BREAKS_LIMIT", 301),
        ("300 breaks are no command", "BREAKS_LIMIT", 299),
        *wrong_converters.wrong_readings(),
        *wrong_converters.wrong_text_refusals(),
        *wrong_converters.wrong_numbers(),
    )


def answers_otherwise(commands, answers):
    """Whether the converter as it stands answers a script otherwise than it should; it is played up to the first such answer."""
    console, expected = converter.Console(FOLDERS), iter(answers.decode("ascii").splitlines())
    got = filter(None, map(console.answer, converter.script_lines(commands)))
    return any(left != right for left, right in itertools.zip_longest(got, expected))


def expect_found_out(wrong_ones, names):
    """Each wrong converter is found out by at least one of the named scripts."""
    scripts = [(read(os.path.join(SCRIPTS, name + ".in")), read(os.path.join(SCRIPTS, name + ".out"))) for name in names]
    for title, function, wrong in wrong_ones:
        right = getattr(converter, function)
        setattr(converter, function, wrong)
        try:
            found = any(answers_otherwise(commands, answers) for commands, answers in scripts)
        finally:
            setattr(converter, function, right)
        expect(found, f"no fixed script finds out: {title}")


def check_wrong_converters(options):
    """Each wrong converter is found out by at least one of the small fixed scripts."""
    expect_found_out(wrong_base_converters(), ("rows", "calls", "policies", "shapes", "lines", "refusals", "edges"))
    carrying, settling = wrong_takings("D")
    on_sample, on_other_tables = wrong_half_converters()
    expect_found_out(carrying + on_other_tables, ("calls",))
    for names in (("calls",), ("bad_halves",)):
        expect_found_out(settling + on_sample, names)
    carrying, settling = wrong_takings("E")
    expect_found_out(carrying + settling + wrong_surrogate_converters(), ("surrogates",))
    for directions in ("D", "E"):
        expect_found_out(wrong_one_go_converters(directions), ("one_call",))
    expect_found_out(wrong_standards(), ("standard",))
    expect_found_out(wrong_field_converters(), ("fields",))
    expect_found_out(wrong_break_converters(), ("breaks",))
    expect_found_out(wrong_converters.wrong_index_converters(), ("index",))
    expect_found_out(wrong_converters.wrong_spell_converters(), ("spell",))
    expect_found_out(wrong_converters.wrong_spell_calls()[:1], ("spell_pages",))
    expect_found_out(wrong_converters.wrong_in_place_converters(), ("inplace",))
    expect_found_out(wrong_converters.wrong_here_converters(), ("here",))
    expect_found_out(wrong_converters.wrong_findings_converters(), ("findings",))
    expect_found_out(wrong_converters.wrong_listing_converters(), ("listing",))
    readings = ("read_unit", "HIGH_SURROGATES", "LOW_SURROGATES")
    expect_found_out([wrong for wrong in wrong_surrogate_converters() if wrong[1] in readings], ("inplace",))


def check_standard_is_told(options):
    """With another standard only the answers to `standard` are others: every run, call and line has its own digits."""
    right, other = converter.STANDARD, (1, 2, 3)
    told, answer = (b"standard " + b"%d %d %d" % digits + b"\n" for digits in (right, other))
    for name in make_scripts.scripts_by_hand():
        commands, answers = (read(os.path.join(SCRIPTS, name + ending)) for ending in (".in", ".out"))
        converter.STANDARD = other
        try:
            got = converter.play(commands, FOLDERS)
        finally:
            converter.STANDARD = right
        expect(got == answers.replace(told, answer), f"{name}: {page_scripts.first_difference(got, answers)}")
        expect((got != answers) == (b"\nstandard\n" in commands), f"{name}: the standard is told or not")


def check_wrong_pages(options):
    """A page script finds out one changed entry of its table, wherever it is."""
    chance = random.Random(11)
    for page in (932, 950, 874):
        image = bytearray(read(os.path.join(TABLES, f"cp{page}.tbl")))
        commands = [read(os.path.join(SCRIPTS, f"cp{page}.in")), read(os.path.join(SCRIPTS, "undefined_units.in"))]
        answers = [read(os.path.join(SCRIPTS, f"cp{page}.out")), read(os.path.join(SCRIPTS, "undefined_units.out"))]
        table = load_table(f"cp{page}.tbl")
        sizes = struct.unpack("<5I", image[8:28])
        starts = [28, 28 + sizes[0]]
        starts += [starts[1] + 2 * sizes[1]]
        starts += [starts[2] + 2 * sizes[2]]
        starts += [starts[3] + sizes[3]]
        second = chance.choice([byte for byte in range(256) if table.classes[byte] & 4] or [0])
        single = chance.choice([byte for byte in range(0x20, 0x100) if table.classes[byte] in (1, 5)])
        places = [starts[0] + single, starts[1] + 2 * single, starts[4] + 2 * chance.randrange(sizes[4])]
        if sizes[2]:
            places.append(starts[2] + 2 * (256 * chance.randrange(sizes[2] // 256) + second))
        for place in places:
            changed = bytearray(image)
            changed[place] ^= 0x01
            with tempfile.TemporaryDirectory() as folder:
                with open(os.path.join(folder, f"cp{page}.tbl"), "wb") as file:
                    file.write(changed)
                found = any(
                    converter.play(script, [folder, TABLES]) != expected for script, expected in zip(commands, answers)
                )
            expect(found, f"page {page}: a changed byte at place {place} of the image is not found out")


CHECKS = (
    ("images agree with their sums, and their sources if given", check_images),
    ("sample page", check_sample),
    ("list of differences", check_differences),
    ("fixed and random scripts, made anew", check_stored_scripts),
    ("page scripts, made anew", check_page_scripts),
    ("stored scripts played", check_play),
    ("stored scripts joined", check_joined),
    ("the console's copies", check_console_copies),
    ("long lines", check_long_lines),
    ("last line", check_last_line),
    ("numbers covered", check_coverage),
    ("further random lists", check_further_lists),
    ("lists of calls against the uncut reading", check_lists),
    ("every cutting of leads and bytes after them", check_cut_halves),
    ("every cutting of surrogates and other units", check_cut_surrogates),
    ("texts that come back", check_return),
    ("one line a run, one run a line", check_lines),
    ("lists of calls against the fields of the uncut text", check_fields),
    ("receipt lines against a search of all proposals", check_breaks),
    ("the index of a journal against all its codes", check_index),
    ("the standard spelling against decoding and encoding", check_spelling),
    ("encoding in one buffer against the uncut reading", check_in_place),
    ("lists of calls of both forms", check_forms),
    ("findings against the uncut reading and the flags", check_findings),
    ("the check sum", check_sums),
    ("damaged listings against a grammar of whole listings", check_damaged_listings),
    ("whole listings read back", check_whole_listings),
    ("wrong converters are found out", check_wrong_converters),
    ("the standard policy is told and not used", check_standard_is_told),
    ("wrong page tables are found out", check_wrong_pages),
)


def main():
    parser = argparse.ArgumentParser(description="Checks the tools, the tables and the stored scripts.")
    parser.add_argument("--source", metavar="FOLDER", help="the folder that has c_932.nls and the others")
    options = parser.parse_args()
    passed = failed = 0
    for name, check in CHECKS:
        if check is check_page_scripts and shutil.which("java") is None:
            print(f"not run   {name}: java is not on this machine")
            continue
        try:
            check(options)
            passed += 1
            print(f"passed    {name}", flush=True)
        except AssertionError as error:
            failed += 1
            print(f"FAILED    {name}: {error}", flush=True)
        except Exception as error:
            failed += 1
            print(f"FAILED    {name}: {type(error).__name__}: {error}", flush=True)
    if options.source is None:
        print("note      without --source the images were compared with their sums only")
    print(f"{passed} passed, {failed} failed")
    sys.exit(1 if failed else 0)


if __name__ == "__main__":
    main()
