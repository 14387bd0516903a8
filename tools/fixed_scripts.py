"""The fixed console scripts, each command with its expected answer (a module of make_scripts.py).

The expected answers are written by hand from documents 01 and 02, docs/CONSOLE.md and docs/CONSOLE-NOTES.md, and never taken
from a program. Only what is the same everywhere (counts of elements, the words of a run, tabs of a line as hex) is put
together by code.

One call of a run is written in a short form:

    D{policy; carried; piece; last or more; room}    answer/read/output/flags/carried/ended

as in `D{555;82;7C;last;9}` and `0/1/4E00/0/-/yes`. A run that carries a byte or, in encoding, a unit has read 1 and written 0
before the call. A call marked last with nothing carried is asked for in one go too, with its room and with empty room (CR 10). What
that answers of the whole reading stands behind a space where the call does not tell it:

    flags/need            where the answer is 2
    flags/need/front      where something is written and a digit is 1: front is what is read with empty room

as in `2/1/0041/0/-/no 1/2`.
"""

import re

from make_sample import sample_tables
from table_image import LEAD, NEVER, NONE, SECOND, SINGLE, Tables

LIMIT = 4294967295

SAMPLE = "table 7 3F 30FB 256 256 512 256 1024"


class Script:
    """Lines and their expected answers; None for a line that is passed over."""

    def __init__(self):
        self.lines = []

    def note(self, text):
        self.lines.append((f"# {text}".encode("ascii"), None))

    def expect(self, command, answer):
        """One command and its answer. A command may be given as bytes."""
        self.lines.append((command if isinstance(command, bytes) else command.encode("ascii"), answer))

    def table(self, name, tables):
        """Reads an image that was made from `tables`."""
        sizes = [len(part) for part in (tables.classes, tables.singles, tables.pairs, tables.index, tables.blocks)]
        self.expect(
            f"table {name}",
            f"table {tables.page} {tables.default_byte:02X} {tables.default_unit:04X} {' '.join(map(str, sizes))}",
        )

    def sample(self):
        self.expect("table sample.tbl", SAMPLE)

    def bytes(self, text):
        self.expect(f"bytes {text}", f"bytes {0 if text == '-' else len(text) // 2}")

    def units(self, text):
        self.expect(f"units {text}", f"units {0 if text == '-' else len(text) // 4}")

    def start(self, direction, page, policy):
        self.expect(f"start {direction} {page} {policy}", f"start 0 {fresh(direction, page, policy)}")

    def run(self, words):
        self.expect(f"run {words}", f"run {words}")

    def call(self, asked, answered):
        """One run call on page 7 in the short form; in one go too, with this room and with empty room, where that answers alike."""
        direction, policy, carried, piece, mark, room = CALL.fullmatch(asked).groups()
        answered, *whole = answered.split(" ")
        answer, read, output, flags, carried_after, ended = answered.split("/")
        name, text, in_digits, out_digits = (
            ("decode", "bytes", 2, 4) if direction == "D" else ("encode", "units", 4, 2)
        )
        count = 0 if piece == "-" else len(piece) // in_digits
        written = 0 if output == "-" else len(output) // out_digits
        before = 0 if carried == "-" else 1
        digits = " ".join(policy)
        word = {"yes": "over", "no": "on"}[ended]
        self.expect(f"{text} {piece}", f"{text} {count}")
        if carried == "-":
            self.start(direction, 7, policy)
        else:
            self.run(f"{direction} 7 {digits} {carried} 0 1 0 on")
        self.expect(
            f"{name} 0 {count} {mark} {room}",
            f"{name} {answer} {read} {written} {output} kept"
            f" {direction} 7 {digits} {carried_after} {flags} {before + int(read)} {written} {word}",
        )
        if carried == "-" and mark == "last":
            # all is read or stopped: the call is the whole reading. What writes nothing at all reads alike with any room, and
            # where no digit is 1, nothing is read ahead of the first code that is written.
            flags, need, *front = whole[0].split("/") if whole or answer == "2" else (flags, written)
            front = read if output == "-" else front[0] if "1" in policy else "0"
            asked = f"convert {direction} {policy} 0 {count}"
            self.expect(f"{asked} {room}", f"convert {answer} {flags} {read} {need} {written} {output} kept")
            if room != "0":
                number = "2" if int(need) > 0 else answer
                self.expect(f"{asked} 0", f"convert {number} {flags} {front} {need} 0 - kept")

    def commands_file(self):
        return b"".join(line + b"\n" for line, _ in self.lines)

    def expected(self):
        return [answer for _, answer in self.lines if answer is not None]

    def complaints(self, answers):
        """Where the answers of a program are not the expected ones."""
        got = answers.decode("ascii").splitlines()
        commands = [line for line, answer in self.lines if answer is not None]
        expected = self.expected()
        found = []
        if len(got) != len(expected):
            found.append(f"{len(got)} answers, expected {len(expected)}")
        for command, left, right in zip(commands, got, expected):
            if left != right:
                found.append(f"{command[:100]!r}: got {left[:200]!r}, expected {right[:200]!r}")
        return found


CALL = re.compile(r"([DE])\{(\d{3});(-|[0-9A-F]{2}|[0-9A-F]{4});(-|[0-9A-F]+);(last|more);(\d+)\}")


def fresh(direction, page, policy):
    """The words of a fresh run."""
    return f"{direction} {page} {' '.join(policy)} - 0 0 0 on"


def line_hex(line):
    """A saved line, written with > for a tab and ; for the line feed, as hex."""
    return "".join(f"{byte:02X}" for byte in line.replace(">", "\t").replace(";", "\n").encode("ascii")) or "-"


def left_alone(script, answers):
    """These commands, with their answers, touch nothing that the console holds: the tables of the sample page, the texts (bytes
    81 40 41, units 0041 D83D), the run, the field buffer and its state."""
    script.note("all that the console holds stays as it is")
    script.bytes("814041")
    script.units("0041D83D")
    script.start("E", 9, "123")
    script.expect("hold 256", "hold 256")
    script.expect("field 0 1 more", f"field held 1 1 0041{'EEEE' * 255}")
    for command, answer in answers:
        script.expect(command, answer)
    script.expect("shape", "shape good")
    script.expect("save 44", f"save 0 19 {line_hex('E>9>123>->0>0>0>on;')} kept")
    script.expect("convert D 000 0 3 9", "convert 0 0 3 2 2 30000041 kept")
    script.expect("convert E 000 0 2 9", "convert 3 12 2 1 1 41 kept")
    script.expect("field 1 1 last", f"field end 1 hold 0041D83D 0 0041D83D{'EEEE' * 254}")


# ---------------------------------------------------------------------------------------------------------------
# Tables
# ---------------------------------------------------------------------------------------------------------------


def edited(change):
    """The sample page after a change."""
    tables = sample_tables()
    change(tables)
    return tables


def plain_tables(page):
    """00 to 7F single, same unit, all others never; no lead."""
    tables = Tables(page, 0x3F, 0x30FB)
    for byte in range(0x80):
        tables.classes[byte] = SINGLE
        tables.singles[byte] = byte
    tables.set_codes({unit: unit for unit in range(0x80)})
    return tables


def cut(name, size, fill):
    """A change that makes a table shorter or longer."""

    def change(tables):
        part = getattr(tables, name)
        setattr(tables, name, (part + [fill] * size)[:size])

    return change


def put(name, *places):
    """A change that puts values into a table: (place, value) each."""

    def change(tables):
        for place, value in places:
            getattr(tables, name)[place] = value

    return change


def both(*changes):
    def change(tables):
        for one in changes:
            one(tables)

    return change


def set_page(page):
    def change(tables):
        tables.page = page

    return change


def no_leads(tables):
    """81 and 82 never, no pairs."""
    tables.classes[0x81] = tables.classes[0x82] = NEVER
    tables.pairs = []


# Each damaged table, its change from the sample page and what the shape report must say.
SHAPES = (
    ("page_0", set_page(0), "page"),
    ("page_1", set_page(1), "good"),
    ("page_65001", set_page(65001), "good"),
    ("page_65535", set_page(65535), "good"),
    ("classes_0", cut("classes", 0, 0), "classes"),
    ("classes_255", cut("classes", 255, 0), "classes"),
    ("classes_257", cut("classes", 257, 0), "classes"),
    ("classes_300", cut("classes", 300, 0), "classes"),
    ("singles_0", cut("singles", 0, NONE), "singles"),
    ("singles_255", cut("singles", 255, NONE), "singles"),
    ("singles_257", cut("singles", 257, NONE), "singles"),
    ("singles_300", cut("singles", 300, NONE), "singles"),
    ("pairs_0", cut("pairs", 0, NONE), "pairs"),
    ("pairs_256", cut("pairs", 256, NONE), "pairs"),
    ("pairs_511", cut("pairs", 511, NONE), "pairs"),
    ("pairs_513", cut("pairs", 513, NONE), "pairs"),
    ("pairs_768", cut("pairs", 768, NONE), "pairs"),
    ("index_0", cut("index", 0, 0), "index"),
    ("index_255", cut("index", 255, 0), "index"),
    ("index_257", cut("index", 257, 0), "index"),
    ("index_300", cut("index", 300, 0), "index"),
    ("blocks_0", cut("blocks", 0, NONE), "blocks"),
    ("blocks_255", cut("blocks", 255, NONE), "blocks"),
    ("blocks_1023", cut("blocks", 1023, NONE), "blocks"),
    ("blocks_1025", cut("blocks", 1025, NONE), "blocks"),
    ("blocks_65536", both(cut("blocks", 65536, NONE), put("index", (3, 255))), "good"),
    ("blocks_65792", cut("blocks", 65792, NONE), "blocks"),
    # "leads are the classes 2 and 6": a low lead counts for the size of pairs, a bad class does not
    ("low_lead_41", both(put("classes", (0x41, 2)), cut("pairs", 768, NONE)), "lead 65"),
    ("low_lead_41_small", put("classes", (0x41, 2)), "pairs"),
    ("low_lead_7F", both(put("classes", (0x7F, 6)), cut("pairs", 768, NONE)), "lead 127"),
    ("lead_80", both(put("classes", (0x80, 6)), cut("pairs", 768, NONE)), "good"),
    ("class_3_at_81", put("classes", (0x81, 3)), "pairs"),
    ("class_3_at_81_small", both(put("classes", (0x81, 3)), cut("pairs", 256, NONE)), "class 129"),
    ("class_3_at_05", put("classes", (0x05, 3)), "class 5"),
    ("class_7_at_FF", put("classes", (0xFF, 7)), "class 255"),
    ("class_8_at_00", put("classes", (0x00, 8)), "class 0"),
    ("class_255_at_C0", put("classes", (0xC0, 255)), "class 192"),
    ("class_4_at_C0", put("classes", (0xC0, 4)), "good"),
    ("no_leads", no_leads, "good"),
    ("no_leads_pairs_256", both(no_leads, cut("pairs", 256, NONE)), "pairs"),
    ("no_leads_pairs_1", both(no_leads, cut("pairs", 1, NONE)), "pairs"),
    ("number_4_at_3_and_9", put("index", (3, 4), (9, 4)), "number 3"),
    ("number_4_at_FF", put("index", (0xFF, 4)), "number 255"),
    ("number_255_at_00", put("index", (0, 255)), "number 0"),
    ("number_3_at_FF", put("index", (0xFF, 3)), "good"),
    # the order of the report
    ("page_and_classes", both(set_page(0), cut("classes", 0, 0)), "page"),
    ("page_and_number", both(set_page(0), put("index", (0, 9))), "page"),
    ("classes_and_singles", both(cut("classes", 0, 0), cut("singles", 0, NONE)), "classes"),
    ("classes_and_pairs", both(cut("classes", 257, 2), cut("pairs", 0, NONE)), "classes"),
    ("singles_and_pairs", both(cut("singles", 255, NONE), cut("pairs", 0, NONE)), "singles"),
    ("pairs_and_index", both(cut("pairs", 0, NONE), cut("index", 0, 0)), "pairs"),
    ("index_and_blocks", both(cut("index", 0, 0), cut("blocks", 0, NONE)), "index"),
    ("blocks_and_class", both(cut("blocks", 1025, NONE), put("classes", (0, 9))), "blocks"),
    ("class_and_number", both(put("classes", (0xFE, 9)), put("index", (0, 9))), "class 254"),
    ("class_05_lead_10", both(put("classes", (5, 3), (0x10, 2)), cut("pairs", 768, NONE)), "class 5"),
    ("lead_05_class_10", both(put("classes", (5, 2), (0x10, 3)), cut("pairs", 768, NONE)), "lead 5"),
    ("lead_and_number", both(put("classes", (5, 6)), cut("pairs", 768, NONE), put("index", (0, 9))), "lead 5"),
)


def hidden_entries(tables):
    """Entries that the classes hide: a character at 81 0A, at the lead 81 and at the never byte 83."""
    tables.pairs[0x0A] = 0x3005
    tables.singles[0x81] = 0x3006
    tables.singles[0x83] = 0x3007


def more_seconds(tables):
    """83 lead and second, 84 never and second: 8383 is 6C34, 8184 is 6C35, 8283 is 6C36."""
    tables.classes[0x83] = LEAD + SECOND
    tables.classes[0x84] = NEVER + SECOND
    tables.pairs += [NONE] * 256
    tables.set_pair(0x8383, 0x6C34)
    tables.set_pair(0x8184, 0x6C35)
    tables.set_pair(0x8283, 0x6C36)


def low_bytes(tables):
    """0B never; 0C single, none; 0E never and second: 810E is 3007. 7E is no second byte; 7F and 80 are: 817F is 3008, 8180 is
    3009."""
    tables.classes[0x0B] = NEVER
    tables.singles[0x0C] = NONE
    tables.classes[0x0E] = NEVER + SECOND
    tables.classes[0x7E] = SINGLE
    tables.classes[0x7F] = tables.classes[0x80] = SINGLE + SECOND
    tables.set_pair(0x810E, 0x3007)
    tables.set_pair(0x817F, 0x3008)
    tables.set_pair(0x8180, 0x3009)


def default_as_character(tables):
    """41 and 8141 have the default unit as their character."""
    tables.singles[0x41] = 0x30FB
    tables.set_pair(0x8141, 0x30FB)


def odd_codes(tables):
    """Codes at the edge of one byte and two; FFFF has a code; a surrogate has one, which is not looked up."""
    tables.set_codes(
        {
            0x0100: 0x00FF,
            0x0101: 0x0100,
            0x0102: 0x0081,
            0x0103: 0xFFFE,
            0x0104: 0x0000,
            0xD83D: 0x0044,
            0xFFFF: 0x0041,
        }
    )


def surrogate_codes(tables):
    """The units around and at the ends of both ranges of surrogates have codes; only those of D7FF and E000 are looked up."""
    tables.set_codes(
        {
            0x0041: 0x0041,
            0xD7FF: 0x0042,
            0xD800: 0x0043,
            0xD83D: 0x0044,
            0xDBFF: 0x8140,
            0xDC00: 0x0045,
            0xDE00: 0x8141,
            0xDFFF: 0x0046,
            0xE000: 0x827C,
        }
    )


def double_codes(tables):
    """Characters with two codes, and characters whose own code does not read back (spell_scripts.py has the spelling of each)."""
    tables.singles[0x80] = 0x4E00
    for place, unit in enumerate((
        0x3000, 0x0041, 0x3002, 0x3003, 0xD83D, 0xD800, 0xDBFF, 0xDC00, 0xDFFF, 0xDE00, 0xD7FF, 0xE000, 0x3004, 0x3005, 0x3006, 0x3007,
        0x3008, 0x3009, 0x30FB, 0xFFFE, 0x300A, 0x300B,
    )):
        tables.set_pair(0x8142 + place, unit)
    codes = {unit: unit for unit in range(0x80) if unit != 0x0042}
    codes.update({
        0x0042: 0x4242, 0x00A0: 0x20, 0x3000: 0x8140, 0x3001: 0x8141, 0x4E00: 0x827C, 0x3003: 0x8141, 0xD83D: 0x8146, 0xD800: 0x8147,
        0xDBFF: 0x8148, 0xDC00: 0x8149, 0xDFFF: 0x814A, 0xD7FF: 0x814C, 0xE000: 0x814D, 0x3004: 0x0081, 0x3005: 0x4142, 0x3006: 0x0083,
        0x3007: 0x815A, 0x3008: 0x810A, 0x3009: 0xFFFE, 0x30FB: 0x8154, 0xFFFE: 0x8155, 0x300A: 0x8180, 0x300B: 0x0080,
    })
    tables.set_codes(codes)


def shared_block(tables):
    """The units 01xx and FFxx have the codes of 30xx: three high halves share a block."""
    tables.index[0x01] = tables.index[0xFF] = tables.index[0x30]


def odd_defaults(tables):
    tables.default_byte = 0x81
    tables.default_unit = 0xD800


def default_ffff(tables):
    tables.default_unit = 0xFFFF


def spread_leads(tables):
    """Leads 80, BF, C0, FF use blocks 0 to 3: 8040 is 5000, BF40 is 5001, C040 is 5002, FF40 is 5003."""
    no_leads(tables)
    for place, lead in enumerate((0x80, 0xBF, 0xC0, 0xFF)):
        tables.classes[lead] = LEAD
        tables.pairs += [NONE] * 256
        tables.pairs[256 * place + 0x40] = 0x5000 + place


def one_lead(tables):
    """Only 82 is a lead: its block is block 0; 827C is 4E00."""
    tables.classes[0x81] = NEVER
    tables.pairs = tables.pairs[256:]


def all_leads(tables):
    """80 to FF lead, all second too: 128 leads. Lead 80 + j with second FF is 5000 + j, with 40 is 6000 + j."""
    tables.singles[0x80] = tables.singles[0xA0] = NONE
    tables.pairs = []
    for place in range(128):
        tables.classes[0x80 + place] = LEAD + SECOND
        block = [NONE] * 256
        block[0xFF] = 0x5000 + place
        block[0x40] = 0x6000 + place
        tables.pairs += block


# Good tables for single points
OTHERS = {
    "hidden": hidden_entries,
    "more_seconds": more_seconds,
    "low_bytes": low_bytes,
    "default_character": default_as_character,
    "odd_codes": odd_codes,
    "surrogate_codes": surrogate_codes,
    "double_codes": double_codes,
    "shared_block": shared_block,
    "odd_defaults": odd_defaults,
    "default_ffff": default_ffff,
    "spread_leads": spread_leads,
    "one_lead": one_lead,
    "all_leads": all_leads,
    "page_9": set_page(9),
}


def damaged_images():
    """Files that are no images, or are images at the console's limits."""
    good = sample_tables().image()
    plain = plain_tables(7)

    def sized(name, size, fill):
        tables = plain.copy()
        cut(name, size, fill)(tables)
        return tables.image()

    return {
        "image_empty.tbl": b"",
        "image_27.tbl": good[:27],
        "image_28.tbl": good[:28],
        "image_short.tbl": good[:-1],
        "image_long.tbl": good + b"\x00",
        "image_line_feed.tbl": good + b"\n",
        "image_zero_3.tbl": good[:3] + b"\x01" + good[4:],
        "image_zero_6.tbl": good[:6] + b"\x01" + good[7:],
        "image_zero_7.tbl": good[:7] + b"\x80" + good[8:],
        "image_sizes_high.tbl": good[:8] + b"\xff" * 20 + good[28:],
        "image_sizes_0.tbl": good[:8] + b"\x00" * 20,
        "image_size_high_byte.tbl": good[:11] + b"\x01" + good[12:],
        "image_classes_301.tbl": sized("classes", 301, 0),
        "image_singles_301.tbl": sized("singles", 301, NONE),
        "image_index_301.tbl": sized("index", 301, 0),
        "image_pairs_33024.tbl": sized("pairs", 33024, NONE),
        "image_no_table.tbl": b"This is no table image, but it has more than twenty-eight bytes.\n",
    }


def images():
    """Every image that the fixed scripts name, by file name."""
    made = {"sample.tbl": sample_tables().image(), "plain.tbl": plain_tables(7).image()}
    for name, change, _ in SHAPES:
        made[f"{name}.tbl"] = edited(change).image()
    for name, change in OTHERS.items():
        made[f"{name}.tbl"] = edited(change).image()
    made.update(damaged_images())
    return made


# ---------------------------------------------------------------------------------------------------------------
# Scripts
# ---------------------------------------------------------------------------------------------------------------


def initial_script():
    script = Script()
    script.note("The console before anything is set. When scripts are joined, this one comes first.")
    script.expect("shape", "shape page")
    script.expect("save 44", "save 12 kept")
    script.expect("decode 0 0 last 3", "decode 10 0 0 - kept D 0 0 0 0 - 0 0 0 on")
    script.expect("encode 0 0 more 0", "encode 10 0 0 - kept D 0 0 0 0 - 0 0 0 on")
    script.expect("decode 0 1 last 3", "?")
    script.expect("encode 0 1 last 3", "?")
    script.expect("decodehere 0 0 last 3", "decodehere 10 0 0 - kept D 0 0 0 0 - 0 0 0 on")
    script.expect("encodehere 0 0 more 0", "encodehere 10 0 0 - kept D 0 0 0 0 - 0 0 0 on")
    script.expect("decodehere 0 1 last 3", "?")
    script.expect("convert D 555 0 0 0", "convert 10 kept")
    script.expect("convert D 755 0 0 0", "convert 17 kept")
    script.expect("convert E 555 0 0 5", "convert 10 kept")
    script.expect("standard", "standard 5 5 0")
    script.expect("breaks 0 0 0", "breaks 10")
    script.expect("breaks 1 0 1", "?")
    script.expect("propose 0 0 0 0", "propose 10 kept")
    script.expect("propose 1 0 1 5", "?")
    script.expect("append 0 0", "append 10 -")
    script.expect("find 0 0", "find 10")
    script.expect("spell 0 0 0", "spell 10 kept")
    script.expect("inplace 755 0 -", "inplace 17 kept")
    script.expect("inplace 555 0 -", "inplace 10 kept")
    script.expect("inplace 555 3 41", "inplace 10 kept")
    script.expect("findings 755 0 0 0", "findings 17 kept")
    script.expect("findings 555 0 0 3", "findings 10 kept")
    script.expect("findings 555 0 1 3", "?")
    script.note("lent tables of size 0, a fresh reader, the writer at the first line")
    empty = "811C9DC5"
    script.expect("lent", f"lent {' '.join([empty] * 5)}")
    script.expect(f"line {line_hex('P>9;')}", "line 23")
    script.expect(f"line {line_hex('D>3F>30FB;')}", "line 22")
    script.expect("listed", "listed 22")
    script.expect("list 12", "list 10 kept")
    script.expect("list 0", "list 10 kept")
    script.expect("spell 0 1 5", "?")
    script.expect("entry 0 0 0", "?")
    script.note("no field buffer, and nothing held")
    script.expect("field 0 0 more", "field 20 0 -")
    script.expect("field 0 0 last", "field 20 0 -")
    script.expect("field 0 1 last", "?")
    script.expect("held 257", "held 257")
    script.expect("field 0 0 last", "field 20 257 -")
    script.note("a run is set with no table")
    script.expect("start E 5 123", "start 0 E 5 1 2 3 - 0 0 0 on")
    script.expect("encode 0 0 more 0", "encode 10 0 0 - kept E 5 1 2 3 - 0 0 0 on")
    script.note("with a table the run and the texts stay")
    script.sample()
    script.expect("encode 0 0 more 0", "encode 13 0 0 - kept E 5 1 2 3 - 0 0 0 on")
    script.expect("convert D 555 0 0 0", "convert 0 0 0 0 0 - kept")
    script.expect("breaks 0 0 0", "breaks 0")
    script.expect("propose 0 0 0 0", "propose 0 0 kept")
    script.expect("append 0 0", "append 0 -")
    script.expect("find 0 0", "find 29")
    script.expect("spell 0 0 0", "spell 0 0 - kept")
    script.expect("inplace 555 0 -", "inplace 0 0 0 0 - kept")
    script.expect("findings 000 0 0 0", "findings 0 0 0 kept")
    script.expect("list 12", f"list 0 4 {line_hex('P>7;')} kept")
    return script


def rows_script():
    script = Script()
    script.note("The sixteen rows of document 01, the seventh as CR 2 of document 02 has it, the fifteenth as CR 5")
    script.sample()
    script.expect("shape", "shape good")
    rows = (
        (1, "D{555;-;-;last;9}", "0/0/-/0/-/yes"),
        (2, "D{555;-;41;last;9}", "0/1/0041/0/-/yes"),
        (3, "D{555;-;827C;last;9}", "0/2/4E00/0/-/yes"),
        (4, None, None),
        (5, "D{555;-;82;last;9}", "0/1/30FB/4/-/yes"),
        (6, "D{555;-;815A;last;9}", "0/2/30FB/2/-/yes"),
        (7, "D{555;-;810A41;last;9}", "0/3/30FB000A0041/4/-/yes"),
        (8, "D{555;-;8341;last;9}", "0/2/30FB0041/4/-/yes"),
        (9, "D{655;-;80;last;9}", "0/1/F180/1/-/yes"),
        (10, "D{555;-;4142;last;1}", "2/1/0041/0/-/no 0/2"),
        (11, "D{055;-;8041;last;9}", "3/1/-/9/-/yes"),
        (12, "E{555;-;3000;last;1}", "2/0/-/0/-/no 0/2"),
        (13, "E{555;-;3000;last;2}", "0/1/8140/0/-/yes"),
        (14, "E{555;-;00A0;last;9}", "0/1/20/0/-/yes"),
        (15, "E{555;-;D83DDE00;last;9}", "0/2/3F/1/-/yes"),
    )
    for number, asked, answered in rows:
        script.note(f"row {number}")
        if asked is not None:
            script.call(asked, answered)
            continue
        script.bytes("827C")
        script.start("D", 7, "555")
        script.expect("decode 0 1 more 9", "decode 1 1 0 - kept D 7 5 5 5 82 0 1 0 on")
        script.expect("decode 1 1 last 9", "decode 0 1 1 4E00 kept D 7 5 5 5 - 0 2 1 over")
    script.note("row 16")
    line = line_hex("D>932>555>83>0>512>300>on;")
    script.expect(f"load {line}", "load 0 D 932 5 5 5 83 0 512 300 on")
    script.expect("save 26", f"save 0 26 {line} kept")
    script.expect("save 44", f"save 0 26 {line} kept")
    script.expect("save 25", "save 19 kept")
    return script


def shapes_script():
    script = Script()
    script.note("The shape report: wrong sizes, bad classes, low leads, bad index numbers, and their order")
    script.sample()
    script.expect("shape", "shape good")
    for name, change, report in SHAPES:
        tables = edited(change)
        script.table(f"{name}.tbl", tables)
        script.expect("shape", f"shape {report}")
        # a bad shape is refused by every call that takes tables, and by no other
        page = tables.page or 7
        script.start("D", page, "555")
        answer = 0 if report == "good" else 10
        script.expect("decode 0 0 more 2", f"decode {answer} 0 0 - kept {fresh('D', page, '555')}")
        script.start("E", page, "555")
        script.expect("encode 0 0 more 2", f"encode {answer} 0 0 - kept {fresh('E', page, '555')}")
        answered = "convert 0 0 0 0 0 - kept" if answer == 0 else "convert 10 kept"
        script.expect("convert D 555 0 0 0", answered)
        script.expect("convert E 555 0 0 2", answered)
    return script


def images_script():
    script = Script()
    script.note("Files that are no table image; the table set stays as it was")
    script.sample()
    refused = "table -"
    for name in (
        "no_such_file.tbl", "image_empty.tbl", "image_27.tbl", "image_28.tbl", "image_short.tbl", "image_long.tbl",
        "image_line_feed.tbl", "image_zero_3.tbl", "image_zero_6.tbl", "image_zero_7.tbl", "image_sizes_high.tbl",
        "image_size_high_byte.tbl", "image_classes_301.tbl", "image_singles_301.tbl", "image_index_301.tbl",
        "image_no_table.tbl", ".", "no_such_folder/sample.tbl",
    ):
        script.expect(f"table {name}", refused)
        script.expect("shape", "shape good")
    script.call("D{555;-;827C;last;9}", "0/2/4E00/0/-/yes")
    script.expect("table image_sizes_0.tbl", "table 7 3F 30FB 0 0 0 0 0")
    script.expect("shape", "shape classes")
    script.expect("table image_pairs_33024.tbl", "table 7 3F 30FB 256 256 33024 256 512")
    script.expect("shape", "shape pairs")
    script.expect("table page_0.tbl", "table 0 3F 30FB 256 256 512 256 1024")
    script.expect("shape", "shape page")
    script.expect(f"table {'a' * 4000}", refused)
    script.expect(f"table {'a' * 4001}", "?")
    script.expect("table", "?")
    script.expect("table ", "?")
    script.expect("table sample.tbl sample.tbl", "?")
    script.expect(b"table sample.tbl\r", "?")
    script.expect(b"table sample\x7f.tbl", "?")
    script.expect(b"table s\xc3\xa4mple.tbl", "?")
    script.expect(b"table sample.tbl\x00", "?")
    script.sample()
    return script


def grammar_script():
    script = Script()
    script.note("What is no command, and limits of the words; nothing is changed by a line that is answered ?")
    script.sample()
    script.bytes("4182")
    script.units("00413000")
    script.start("D", 7, "555")
    run = fresh("D", 7, "555")
    not_commands = (
        # words and spaces
        " ", "  ", " shape", "shape ", "shape  ", "shape 0", "Shape", "SHAPE", "shap", "shapes", "?", "-", "0",
        " # not a comment", "bytes", "bytes ", "bytes  41", "bytes 41 ", " bytes 41", "bytes 41 42", "bytes\t41",
        # hex
        "bytes 4", "bytes 414", "bytes 4a", "bytes 4G", "bytes 0x41", "bytes --", "bytes -41", "bytes 41-",
        "units 41", "units 004", "units 00413", "units 004g", "units 00e9", "units 004100",
        # fills
        "fillbytes", "fillbytes 5", "fillbytes 41", "fillbytes 5 -", "fillbytes 0 -", "fillbytes 05 41",
        "fillbytes 66001 41", "fillbytes -1 41", "fillbytes +1 41", "fillbytes 5 4", "fillbytes 5 41 42",
        "fillbytes 4294967297 41", "fillbytes 18446744073709551617 41", f"fillbytes {'9' * 5000} 41",
        "fillunits 5 41", "fillunits 5 -", "fillunits 66001 0041", "fillunits 1.0 0041", "fillunits 0x5 0041",
        # start
        "start", "start D", "start D 7", "start D 7 55", "start D 7 5555", "start D 7 5 5 5", "start d 7 555",
        "start X 7 555", "start DE 7 555", "start D 65536 555", "start D 07 555", "start D 00 555", "start D - 555",
        "start D 7 -", "start D 7 55-", "start D 7 55a", "start D 7 555 on",
        # run
        "run", "run D 7 5 5 5 - 0 0 0", "run D 7 5 5 5 - 0 0 0 on on", "run D 7 555 - 0 0 0 on",
        "run D 7 256 5 5 - 0 0 0 on", "run D 7 5 256 5 - 0 0 0 on", "run D 7 5 5 256 - 0 0 0 on",
        "run D 65536 5 5 5 - 0 0 0 on", "run D 7 5 5 5 - 256 0 0 on", "run D 7 5 5 5 8 0 1 0 on",
        "run D 7 5 5 5 082 0 1 0 on", "run D 7 5 5 5 8a 0 1 0 on", "run D 7 5 5 5 -- 0 1 0 on",
        "run D 7 5 5 5 0082 0 1 0 on", "run D 7 5 5 5 D83D 0 1 0 on", "run E 7 5 5 5 82 0 1 0 on",
        "run E 7 5 5 5 D8 0 1 0 on", "run E 7 5 5 5 D83 0 1 0 on", "run E 7 5 5 5 0D83D 0 1 0 on",
        "run E 7 5 5 5 D83DDE00 0 2 0 on", "run E 7 5 5 5 d83d 0 1 0 on", "run E 7 5 5 5 D83G 0 1 0 on",
        "run E 7 5 5 5 -- 0 1 0 on", "run E 7 5 5 5 ---- 0 1 0 on",
        "run D 7 5 5 5 - 0 18446744073709551616 0 on", "run D 7 5 5 5 - 0 0 18446744073709551616 on",
        "run D 7 5 5 5 - 0 18446744073709551617 0 on", "run D 7 5 5 5 - 0 99999999999999999999 0 on",
        "run D 7 5 5 5 - 0 00 0 on", "run D 7 05 5 5 - 0 0 0 on", "run D 7 5 5 5 - 00 0 0 on",
        "run D 7 5 5 5 - 0 0 0 ON", "run D 7 5 5 5 - 0 0 0 o", "run D 7 5 5 5 - 0 0 0 overt",
        "run e 7 5 5 5 - 0 0 0 on", "run D 007 5 5 5 - 0 0 0 on", "run D 7 -1 5 5 - 0 0 0 on",
        f"run D 7 5 5 5 - 0 {'1' * 5000} 0 on",
        # run calls: outside the text, room over the limit, marks
        "decode 0 3 last 5", "decode 3 0 last 5", "decode 2 1 last 5", "decode 1 2 last 5", "decode 0 1 last 66001",
        "decode 0 1 Last 5", "decode 0 1 5", "decode 0 1 last", "decode 0 1 last 5 5", "decode 00 1 last 5",
        "decode 0 01 last 5", "decode 0 1 last 05", "decode 0 1 last -", "decode - 1 last 5", "decode 0 -1 last 5",
        "decode 18446744073709551615 2 last 5", "decode 1 18446744073709551615 last 5", "decode 0 1 last FF",
        "encode 0 3 last 5", "encode 3 0 last 5", "encode 0 1 last 140001", "encode 0 1 more", "encode 0 1 no 5",
        # save and load
        "save", "save 140001", "save -", "save 044", "save 44 44", "save 44.", "load", "load 4", "load 4x", "load on",
        # convert
        "convert", "convert D 555 0", "convert D 555 0 1", "convert D 555 0 1 66001", "convert E 555 0 1 140001",
        "convert D 555 0 3 5", "convert E 555 2 1 5", "convert D 555 0 1 5 5", "convert F 555 0 1 5", "convert D 5a5 0 1 5",
        "convert D 55 0 1 5", "convert D 5555 0 1 5", "convert 555 0 1 5", "convert d 555 0 1 5", "convert E 555 0 3 5",
        "convert E 555 3 0 5", "convert D 555 1 01 5", "convert D 555 0 1 05", "convert D 555 0 1 -", "convert E 555 0 1 -1",
        # count is no command any more (CR 10)
        "count", "count D 555 0 0", "count D 555 0 1", "count E 555 0 2", "count D 555 0 1 1",
        # standard
        "standard 550", "standard 5 5 0", "standard x", "standard ", " standard", "Standard", "standards",
        # breaks and propose
        "breaks", "breaks 1 0", "breaks 1 0 3", "breaks 1 3 0", "breaks 01 0 2", "breaks 1 0 2 01", "breaks 1 0 2 -",
        "breaks 18446744073709551616 0 2", "breaks 1 0 2 18446744073709551616", "propose", "propose 1 0 2", "propose 1 0 3 5",
        "propose 1 0 2 301", "propose 1 0 2 5 5", "propose 01 0 2 5", "propose 18446744073709551616 0 2 5",
        # index, entry, append and find
        "index", "index 301", "index 03", "index 3 3", "entry 0 0", "entry 300 0 0", "append 0", "append 0 3", "append 00 2", "append -1 2",
        "find 0", "find 0 3", "find 00 2", "find 18446744073709551616 2",
        # spell
        "spell", "spell 0 2", "spell 0 3 5", "spell 2 1 5", "spell 0 2 140001", "spell 0 2 05", "spell 00 2 5", "spell 0 2 5 5",
        "spell D 0 2 5",
        # inplace
        "inplace", "inplace 555 2", "inplace 55 2 4100", "inplace 555 02 4100", "inplace 555 140001 41", "inplace 555 2 -",
        "inplace 555 2 4",
        "inplace 555 2 4100 5", "inplace E 555 2 4100",
        # decodehere and encodehere
        "decodehere", "decodehere 0 3 last 5", "decodehere 0 1 last 66001", "decodehere 0 1 5", "decodehere 0 1 last 5 5",
        "decode here 0 1 last 5",
        "encodehere 0 3 last 5", "encodehere 0 1 last 140001", "encodehere 0 1 more", "here 0 1 last 5",
        # findings
        "findings", "findings 555 0 2", "findings 555 0 3 5", "findings 555 2 1 5", "findings 55 0 2 5", "findings 555 0 2 301",
        "findings 555 0 2 05", "findings 555 00 2 5", "findings 555 0 2 5 5", "findings D 555 0 2 5",
        # listings
        "lend", "lend 256 256 0 256", "lend 301 256 0 256 256", "lend 256 256 33025 256 256", "lend 256 256 0 256 66049",
        "lend 256 256 0 256 0256", "line", "line 5", "line 50093", "line 5009390a", "lent 0", "listed 0", "lister 0", "list", "list 301", "list 012",
        # nothing else is a command
        "quit", "help", "decodes 0 1 last 5", "tables sample.tbl", "policy 555", "shape\tgood",
    )
    for line in not_commands:
        script.expect(line, "?")
    for line in (b"\r", b"shape\r", b"\x00", b"shape\x00", b"bytes 41\x00", b"\xff", b"\xef\xbb\xbfshape", b"\t",
                 b"decode 0 1 last 5\r", b"shape\x0b"):
        script.expect(line, "?")
    script.note("all is as it was")
    script.expect("decode 0 2 more 5", "decode 1 2 1 0041 kept D 7 5 5 5 82 0 2 1 on")
    script.expect("convert E 555 0 2 5", "convert 0 0 2 3 3 418140 kept")
    script.expect(f"run {run}", f"run {run}")
    script.note("lines that are passed over, then words at their limits")
    script.lines.append((b"", None))
    script.lines.append((b"#", None))
    script.lines.append((b"# shape", None))
    script.lines.append((b"#shape\r", None))
    script.expect("fillbytes 66000 42", "bytes 66000")
    script.expect("convert D 555 65535 465 0", "convert 2 0 0 465 0 - kept")
    script.expect("convert D 555 65535 466 0", "?")
    script.expect("fillunits 66000 00413000", "units 66000")
    script.expect("convert E 555 65996 4 140000", "convert 0 0 4 6 6 418140418140 kept")
    script.expect("convert E 555 65999 1 2", "convert 0 0 1 2 2 8140 kept")
    script.expect("fillbytes 5 41427C", "bytes 5")
    script.expect("convert D 555 0 5 66000", "convert 0 0 5 5 5 00410042007C00410042 kept")
    script.expect("fillbytes 1 4142", "bytes 1")
    script.expect("fillbytes 0 41", "bytes 0")
    script.expect("convert D 555 0 0 0", "convert 0 0 0 0 0 - kept")
    script.expect("convert D 555 0 1 0", "?")
    script.expect("fillunits 0 0041", "units 0")
    script.expect("bytes -", "bytes 0")
    script.expect("units -", "units 0")
    script.expect("load -", "load 18")
    script.expect("decode 0 0 more 66000", f"decode 0 0 0 - kept {run}")
    script.expect("start E 65535 000", "start 0 E 65535 0 0 0 - 0 0 0 on")
    script.expect("start E 7 999", "start 17")
    most = "18446744073709551615"
    script.run(f"E 65535 255 255 255 FFFF 255 {most} {most} over")
    script.expect("encode 0 0 last 140000", f"encode 12 0 0 - kept E 65535 255 255 255 FFFF 255 {most} {most} over")
    script.expect("save 140000", "save 12 kept")
    script.run("D 0 0 0 0 00 0 0 0 over")
    script.expect("save 0", "save 12 kept")
    script.run("E 0 0 0 0 0000 0 0 0 over")
    script.expect("save 0", "save 12 kept")
    return script


def long_lines_script():
    """Lines and texts at the console's limits. It is long itself, so it is not stored."""
    script = Script()
    script.sample()
    script.bytes("41")
    for line in (f"bytes {'41' * 66001}", f"units {'0041' * 66001}", f"load {'41' * 66001}",
                 f"fillbytes 9 {'41' * 66001}", f"bytes {'4' * 399994}", f"bytes {'4' * 399995}", "#" * 400001,
                 " " * 400000, "a" * 500000):
        script.expect(line, "?")
        script.expect("convert D 555 0 1 1", "convert 0 0 1 1 1 0041 kept")
    script.lines.append((b"#" * 400000, None))
    script.expect(f"bytes {'42' * 66000}", "bytes 66000")
    script.expect("convert D 555 65999 1 1", "convert 0 0 1 1 1 0042 kept")
    script.expect(f"units {'3000' * 66000}", "units 66000")
    script.expect("convert E 555 65999 1 2", "convert 0 0 1 2 2 8140 kept")
    script.expect(f"fillunits 3 {'3001' * 66000}", "units 3")
    script.expect("convert E 555 0 3 6", "convert 0 0 3 6 6 814181418141 kept")
    script.expect(f"load {'41' * 66000}", "load 18")
    return script


def policies_script():
    script = Script()
    script.note("Every digit for every kind of code; the other two digits stop, so that the right one must be used")
    script.sample()
    writes = {1: "-", 2: "0000", 3: "003F", 4: "005F", 5: "30FB", 6: "F180"}
    kinds = (
        ("undefined single", 0, 1, "80"),
        ("undefined pair", 1, 2, "815A"),
        ("invalid: never", 2, 4, "83"),
        ("invalid: lead and a byte from 80 on that may not be second", 2, 4, "8180"),
        ("invalid: lead and lead", 2, 4, "8182"),
        ("invalid: lead at the end", 2, 4, "82"),
    )
    for name, place, flag, code in kinds:
        script.note(name)
        read = len(code) // 2
        for digit in range(7 if place == 0 else 6):
            policy = "".join(str(digit) if place == other else "0" for other in range(3))
            if digit == 0:
                script.call(f"D{{000;-;{code};last;3}}", f"3/{read}/-/{flag + 8}/-/yes")
                script.call(f"D{{000;-;{code};last;0}}", f"3/{read}/-/{flag + 8}/-/yes")
                continue
            script.call(f"D{{{policy};-;{code};last;3}}", f"0/{read}/{writes[digit]}/{flag}/-/yes")
            if digit == 1:
                script.call(f"D{{{policy};-;{code};last;0}}", f"0/{read}/-/{flag}/-/yes")
            else:
                script.call(f"D{{{policy};-;{code};last;0}}", f"2/0/-/0/-/no {flag}/1")
    script.note("invalid: lead before a byte below 80 that may not be second, which is read afresh")
    for answered in (
        ("D{000;-;810A;last;3}", "3/1/-/12/-/yes"),
        ("D{000;-;810A;last;0}", "3/1/-/12/-/yes"),
        ("D{001;-;810A;last;3}", "0/2/000A/4/-/yes 4/1/1"),
        ("D{001;-;810A;last;0}", "2/1/-/4/-/no 4/1"),
        ("D{002;-;810A;last;3}", "0/2/0000000A/4/-/yes"),
        ("D{002;-;810A;last;1}", "2/1/0000/4/-/no 4/2"),
        ("D{002;-;810A;last;0}", "2/0/-/0/-/no 4/2"),
        ("D{003;-;810A;last;3}", "0/2/003F000A/4/-/yes"),
        ("D{003;-;810A;last;1}", "2/1/003F/4/-/no 4/2"),
        ("D{003;-;810A;last;0}", "2/0/-/0/-/no 4/2"),
        ("D{004;-;810A;last;3}", "0/2/005F000A/4/-/yes"),
        ("D{004;-;810A;last;1}", "2/1/005F/4/-/no 4/2"),
        ("D{004;-;810A;last;0}", "2/0/-/0/-/no 4/2"),
        ("D{005;-;810A;last;3}", "0/2/30FB000A/4/-/yes"),
        ("D{005;-;810A;last;1}", "2/1/30FB/4/-/no 4/2"),
        ("D{005;-;810A;last;0}", "2/0/-/0/-/no 4/2"),
    ):
        script.call(*answered)
    script.note("encoding: the first digit for a unit without a code and for a surrogate pair, the third for any other surrogate")
    for digit, output in ((1, "-"), (2, "00"), (3, "3F"), (4, "5F"), (5, "3F")):
        script.call(f"E{{{digit}00;-;1234;last;3}}", f"0/1/{output}/1/-/yes")
        script.call(f"E{{{digit}00;-;D83DDE00;last;3}}", f"0/2/{output}/1/-/yes")
        script.call(f"E{{00{digit};-;D83D;last;3}}", f"0/1/{output}/4/-/yes")
        script.call(f"E{{00{digit};-;DE00;last;3}}", f"0/1/{output}/4/-/yes")
    script.call("E{055;-;D83DDE00;last;3}", "3/2/-/9/-/yes")
    script.call("E{055;-;D83DDE00;more;0}", "3/2/-/9/-/yes")
    script.call("E{550;-;D83D;last;0}", "3/1/-/12/-/yes")
    script.call("E{550;-;DE00;more;0}", "3/1/-/12/-/yes")
    script.call("E{500;-;D83DDE00;last;0}", "2/0/-/0/-/no 1/1")
    script.call("E{100;-;D83DDE00;last;0}", "0/2/-/1/-/yes")
    script.call("E{005;-;D83D;last;0}", "2/0/-/0/-/no 4/1")
    script.call("E{001;-;D83D;last;0}", "0/1/-/4/-/yes")
    script.call("E{055;-;1234;last;3}", "3/1/-/9/-/yes")
    script.call("E{055;-;12340041;more;0}", "3/1/-/9/-/yes")
    script.call("E{500;-;1234;last;0}", "2/0/-/0/-/no 1/1")
    script.call("E{100;-;1234;last;0}", "0/1/-/1/-/yes")
    script.table("odd_defaults.tbl", edited(odd_defaults))
    script.call("E{555;-;1234;last;3}", "0/1/81/1/-/yes")
    script.call("E{555;-;D83DDE00DE00;last;3}", "0/3/8181/5/-/yes")
    script.call("D{555;-;80815A83;last;3}", "0/4/D800D800D800/7/-/yes")
    script.table("default_ffff.tbl", edited(default_ffff))
    script.call("D{555;-;83;last;3}", "0/1/FFFF/4/-/yes")
    script.call("E{555;-;FFFF;last;3}", "0/1/3F/1/-/yes")
    script.note("flags gather over the run")
    script.sample()
    script.bytes("4180815A8341")
    script.start("D", 7, "111")
    script.expect("decode 0 1 more 9", "decode 0 1 1 0041 kept D 7 1 1 1 - 0 1 1 on")
    script.expect("decode 1 1 more 9", "decode 0 1 0 - kept D 7 1 1 1 - 1 2 1 on")
    script.expect("decode 2 2 more 9", "decode 0 2 0 - kept D 7 1 1 1 - 3 4 1 on")
    script.expect("decode 4 2 last 9", "decode 0 2 1 0041 kept D 7 1 1 1 - 7 6 2 over")
    script.note("start: page and digits")
    script.start("D", 7, "655")
    kept = "start 17"
    for command in ("D 0 555", "E 0 555", "D 7 755", "D 7 575", "D 7 557", "D 7 565", "D 7 556", "D 7 666", "D 7 855",
                    "D 7 955", "E 7 655", "E 7 565", "E 7 556", "E 7 557", "E 7 755", "D 0 655"):
        script.expect(f"start {command}", kept)
    script.expect("save 44", f"save 0 19 {line_hex('D>7>655>->0>0>0>on;')} kept")
    for direction, policy in (("D", "000"), ("D", "655"), ("D", "012"), ("D", "345"), ("E", "555"), ("E", "012"), ("E", "345")):
        script.start(direction, 1, policy)
        script.start(direction, 65535, policy)
    return script


def bad_halves(script):
    """Document 02, CR 2, and the readings of it."""
    script.note("a lead and a byte below 80 that may not be second: the lead alone is invalid")
    for asked, answered in (
        ("D{555;-;820A;last;9}", "0/2/30FB000A/4/-/yes"),
        ("D{555;-;8200;last;9}", "0/2/30FB0000/4/-/yes"),
        ("D{555;-;827F;last;9}", "0/2/30FB007F/4/-/yes"),
        # a byte of 80 or more is taken with the lead: single, lead or never, with a character or without
        ("D{555;-;8280;last;9}", "0/2/30FB/4/-/yes"),
        ("D{555;-;82A0;last;9}", "0/2/30FB/4/-/yes"),
        ("D{555;-;82FF;last;9}", "0/2/30FB/4/-/yes"),
        # what follows
        ("D{555;-;820A827C;last;9}", "0/4/30FB000A4E00/4/-/yes"),
        ("D{555;-;820A82;more;9}", "1/3/30FB000A/4/82/no"),
        ("D{555;-;8281400A;last;9}", "0/4/30FB0040000A/4/-/yes"),
        ("D{555;-;8181820A;last;9}", "0/4/30FB30FB000A/4/-/yes"),
        # room ends before and behind the lead
        ("D{555;-;820A41;last;0}", "2/0/-/0/-/no 4/3"),
        ("D{555;-;820A41;last;1}", "2/1/30FB/4/-/no 4/3"),
        ("D{555;-;820A41;last;2}", "2/2/30FB000A/4/-/no 4/3"),
        ("D{551;-;820A41;last;0}", "2/1/-/4/-/no 4/2"),
        ("D{551;-;820A41;last;1}", "2/2/000A/4/-/no 4/2/1"),
        ("D{550;-;820A41;more;0}", "3/1/-/12/-/yes"),
        # the lead was carried: it is settled, and the byte is read only if it fits
        ("D{555;82;0A;more;9}", "0/1/30FB000A/4/-/no"),
        ("D{555;82;0A;last;2}", "0/1/30FB000A/4/-/yes"),
        ("D{555;82;0A;more;1}", "2/0/30FB/4/-/no"),
        ("D{555;82;0A;last;1}", "2/0/30FB/4/-/no"),
        ("D{555;82;0A;more;0}", "2/0/-/0/82/no"),
        ("D{555;82;0A;last;0}", "2/0/-/0/82/no"),
        # nothing is read and nothing written, and yet the run is another
        ("D{551;82;0A;more;0}", "2/0/-/4/-/no"),
        ("D{551;82;0A;last;0}", "2/0/-/4/-/no"),
        ("D{551;82;0A;more;1}", "0/1/000A/4/-/no"),
        # the run ends with the byte unread
        ("D{550;82;0A;more;9}", "3/0/-/12/-/yes"),
        ("D{550;82;0A;last;0}", "3/0/-/12/-/yes"),
        ("D{550;82;80;last;0}", "3/1/-/12/-/yes"),
        ("D{555;82;0A81;more;2}", "1/2/30FB000A/4/81/no"),
        ("D{555;82;0A81;last;2}", "2/1/30FB000A/4/-/no"),
        ("D{555;82;7F;more;2}", "0/1/30FB007F/4/-/no"),
        ("D{555;82;80;more;1}", "0/1/30FB/4/-/no"),
    ):
        script.call(asked, answered)
    script.note("the lead is settled by a call that reads nothing; the run is saved, and the next calls read on")
    script.bytes("820A41")
    script.start("D", 7, "555")
    script.expect("decode 0 1 more 0", "decode 1 1 0 - kept D 7 5 5 5 82 0 1 0 on")
    script.expect("decode 1 2 more 1", "decode 2 0 1 30FB kept D 7 5 5 5 - 4 1 1 on")
    line = line_hex("D>7>555>->4>1>1>on;")
    script.expect("save 44", f"save 0 19 {line} kept")
    script.start("D", 7, "000")
    script.expect(f"load {line}", "load 0 D 7 5 5 5 - 4 1 1 on")
    script.expect("decode 1 2 last 1", "decode 2 1 1 000A kept D 7 5 5 5 - 4 2 2 on")
    script.expect("decode 2 1 last 1", "decode 0 1 1 0041 kept D 7 5 5 5 - 4 3 3 over")
    script.note("the same, skipped: read 0, written 0, and the lead is settled; once more, and nothing is left to settle")
    script.start("D", 7, "551")
    script.expect("decode 0 1 more 0", "decode 1 1 0 - kept D 7 5 5 1 82 0 1 0 on")
    line = line_hex("D>7>551>82>0>1>0>on;")
    script.expect("save 44", f"save 0 20 {line} kept")
    script.expect("decode 1 2 last 0", "decode 2 0 0 - kept D 7 5 5 1 - 4 1 0 on")
    script.expect("decode 1 2 last 0", "decode 2 0 0 - kept D 7 5 5 1 - 4 1 0 on")
    script.expect("decode 1 2 last 2", "decode 0 2 2 000A0041 kept D 7 5 5 1 - 4 3 2 over")
    script.note("the line that was saved before has the lead still")
    script.expect(f"load {line}", "load 0 D 7 5 5 1 82 0 1 0 on")
    script.expect("decode 1 2 last 1", "decode 2 1 1 000A kept D 7 5 5 1 - 4 2 1 on")
    script.note("stopped with the byte unread")
    script.start("D", 7, "550")
    script.expect("decode 0 1 more 0", "decode 1 1 0 - kept D 7 5 5 0 82 0 1 0 on")
    script.expect("decode 1 2 more 9", "decode 3 0 0 - kept D 7 5 5 0 - 12 1 0 over")
    script.expect("decode 1 2 more 9", "decode 15 0 0 - kept D 7 5 5 0 - 12 1 0 over")
    script.note("the byte is read by its own class; one below 80 that may be second is taken with the lead, and so is 80")
    script.table("low_bytes.tbl", edited(low_bytes))
    script.expect("shape", "shape good")
    for asked, answered in (
        ("D{555;-;810B;last;9}", "0/2/30FB30FB/4/-/yes"),
        ("D{550;-;810B;last;9}", "3/1/-/12/-/yes"),
        ("D{551;-;810B41;last;1}", "0/3/0041/4/-/yes 4/1/2"),
        ("D{555;81;0B;last;1}", "2/0/30FB/4/-/no"),
        ("D{551;81;0B;more;0}", "0/1/-/4/-/no"),
        ("D{555;-;810C;last;9}", "0/2/30FB30FB/5/-/yes"),
        ("D{655;-;810C;last;9}", "0/2/30FBF10C/5/-/yes"),
        ("D{055;-;810C41;last;9}", "3/2/30FB/13/-/yes"),
        ("D{055;81;0C41;more;1}", "3/1/30FB/13/-/yes"),
        ("D{055;81;0C41;more;0}", "2/0/-/0/81/no"),
        ("D{051;81;0C41;more;0}", "3/1/-/13/-/yes"),
        ("D{150;81;0C41;more;0}", "3/0/-/12/-/yes"),
        ("D{555;-;810E;last;9}", "0/2/3007/0/-/yes"),
        ("D{555;81;0E;last;1}", "0/1/3007/0/-/yes"),
        ("D{555;-;820E;last;9}", "0/2/30FB/2/-/yes"),
        ("D{555;-;0E;last;9}", "0/1/30FB/4/-/yes"),
        ("D{555;-;817E;last;9}", "0/2/30FB007E/4/-/yes"),
        ("D{555;-;817F;last;9}", "0/2/3008/0/-/yes"),
        ("D{555;-;8180;last;9}", "0/2/3009/0/-/yes"),
        ("D{555;-;8280;last;9}", "0/2/30FB/2/-/yes"),
        ("D{555;-;8181;last;9}", "0/2/30FB/4/-/yes"),
    ):
        script.call(asked, answered)
    script.sample()


def calls_script():
    """Document 01's 'One call of a run' and the readings of it, with document 02's CR 2."""
    script = Script()
    script.note("One call of a run, case by case")
    script.sample()
    cases = (
        # a lead that is the final byte of a call not marked last is carried, only when it is the next code
        ("D{555;-;82;more;0}", "1/1/-/0/82/no"),
        ("D{555;-;827C;more;0}", "2/0/-/0/-/no"),
        ("D{555;-;4182;more;1}", "1/2/0041/0/82/no"),
        ("D{555;-;4182;more;0}", "2/0/-/0/-/no"),
        ("D{555;-;8182;more;1}", "0/2/30FB/4/-/no"),
        ("D{555;-;818281;more;1}", "1/3/30FB/4/81/no"),
        ("D{551;-;8381;more;0}", "1/2/-/4/81/no"),
        # in a last call it is not carried
        ("D{555;-;82;last;0}", "2/0/-/0/-/no 4/1"),
        ("D{555;-;82;last;1}", "0/1/30FB/4/-/yes"),
        ("D{551;-;82;last;0}", "0/1/-/4/-/yes"),
        ("D{550;-;82;last;0}", "3/1/-/12/-/yes"),
        ("D{555;-;4182;last;1}", "2/1/0041/0/-/no 4/2"),
        # a carried byte and an empty piece
        ("D{555;82;-;more;0}", "1/0/-/0/82/no"),
        ("D{555;82;-;more;9}", "1/0/-/0/82/no"),
        ("D{555;82;-;last;1}", "0/0/30FB/4/-/yes"),
        ("D{555;82;-;last;0}", "2/0/-/0/82/no"),
        ("D{551;82;-;last;0}", "0/0/-/4/-/yes"),
        ("D{550;82;-;last;0}", "3/0/-/12/-/yes"),
        ("D{552;82;-;last;1}", "0/0/0000/4/-/yes"),
        # a carried byte and the byte after it
        ("D{555;82;7C;more;1}", "0/1/4E00/0/-/no"),
        ("D{555;82;7C;last;1}", "0/1/4E00/0/-/yes"),
        ("D{555;82;7C;more;0}", "2/0/-/0/82/no"),
        ("D{555;82;7C;last;0}", "2/0/-/0/82/no"),
        ("D{555;82;81;more;1}", "0/1/30FB/4/-/no"),
        ("D{555;82;81;more;0}", "2/0/-/0/82/no"),
        ("D{555;82;8140;more;2}", "0/2/30FB0040/4/-/no"),
        ("D{550;82;81;more;9}", "3/1/-/12/-/yes"),
        ("D{551;82;81;more;0}", "0/1/-/4/-/no"),
        ("D{515;82;5A;more;0}", "0/1/-/2/-/no"),
        ("D{505;82;5A41;more;0}", "3/1/-/10/-/yes"),
        ("D{555;82;7C81;more;1}", "1/2/4E00/0/81/no"),
        ("D{555;82;7C81;last;1}", "2/1/4E00/0/-/no"),
        # stopping reads past the code and ends the run in any call, with no room too
        ("D{055;-;8041;more;0}", "3/1/-/9/-/yes"),
        ("D{055;-;418041;more;1}", "3/2/0041/9/-/yes"),
        ("D{055;-;418041;more;0}", "2/0/-/0/-/no"),
        ("D{505;-;815A41;last;9}", "3/2/-/10/-/yes"),
        ("D{550;-;8341;last;9}", "3/1/-/12/-/yes"),
        ("D{550;-;810A41;last;9}", "3/1/-/12/-/yes"),
        ("D{550;-;818041;last;9}", "3/2/-/12/-/yes"),
        # flags are those of codes taken
        ("D{555;-;4180;last;1}", "2/1/0041/0/-/no 1/2"),
        ("D{155;-;4180;last;1}", "0/2/0041/1/-/yes 1/1/0"),
        # room: 2 only if something is unread; skipped codes go on at room 0
        ("D{555;-;41;last;1}", "0/1/0041/0/-/yes"),
        ("D{555;-;41;last;0}", "2/0/-/0/-/no 0/1"),
        ("D{551;-;418342;last;1}", "2/2/0041/4/-/no 4/2/0"),
        ("D{551;-;4183;last;1}", "0/2/0041/4/-/yes 4/1/0"),
        ("D{551;-;838383;more;0}", "0/3/-/4/-/no"),
        ("D{555;-;8140814141;last;2}", "2/4/30003001/0/-/no 0/3"),
        ("D{555;-;8140814141;last;3}", "0/5/300030010041/0/-/yes"),
        # 0 ends the run only in a call marked last
        ("D{555;-;41;more;1}", "0/1/0041/0/-/no"),
        ("D{555;-;-;more;0}", "0/0/-/0/-/no"),
        ("D{555;-;-;last;0}", "0/0/-/0/-/yes"),
        ("E{555;-;-;more;0}", "0/0/-/0/-/no"),
        ("E{555;-;-;last;0}", "0/0/-/0/-/yes"),
        # never: one byte only; class never beside a second byte
        ("D{555;-;838182;last;9}", "0/3/30FB30FB/4/-/yes"),
        ("D{555;-;A0FF7F;last;9}", "0/3/00A030FB007F/4/-/yes"),
        ("D{555;-;007F;last;9}", "0/2/0000007F/0/-/yes"),
        # second bytes are 40 to 7E
        ("D{555;-;817F;last;9}", "0/2/30FB007F/4/-/yes"),
        ("D{555;-;817E;last;9}", "0/2/30FB/2/-/yes"),
        ("D{555;-;813F;last;9}", "0/2/30FB003F/4/-/yes"),
        ("D{555;-;8140;last;9}", "0/2/3000/0/-/yes"),
        ("D{555;-;8240;last;9}", "0/2/30FB/2/-/yes"),
        # encoding: both bytes or none
        ("E{555;-;3000;last;1}", "2/0/-/0/-/no 0/2"),
        ("E{555;-;3000;last;0}", "2/0/-/0/-/no 0/2"),
        ("E{555;-;00413000;last;2}", "2/1/41/0/-/no 0/3"),
        ("E{555;-;004130000042;more;3}", "2/2/418140/0/-/no"),
        ("E{555;-;004130000042;more;4}", "0/3/41814042/0/-/no"),
        ("E{555;-;0041;last;1}", "0/1/41/0/-/yes"),
        ("E{155;-;12341234;more;0}", "0/2/-/1/-/no"),
        ("E{155;-;123430001234;last;1}", "2/1/-/1/-/no 1/2"),
        ("E{055;-;004112340042;last;9}", "3/2/41/9/-/yes"),
        ("E{555;-;FFFFD800DFFF00A0;last;9}", "0/4/3F3F20/1/-/yes"),
        ("E{555;-;007F0080;last;9}", "0/2/7F3F/1/-/yes"),
        ("E{555;-;4E003001;last;4}", "0/2/827C8141/0/-/yes"),
    )
    for asked, answered in cases:
        script.call(asked, answered)
    bad_halves(script)
    script.note("a call marked last that answers 2 may be followed by one that is not: nothing is remembered of the mark")
    script.bytes("827C")
    script.start("D", 7, "555")
    script.expect("decode 0 1 last 0", "decode 2 0 0 - kept D 7 5 5 5 - 0 0 0 on")
    script.expect("decode 0 1 more 0", "decode 1 1 0 - kept D 7 5 5 5 82 0 1 0 on")
    script.expect("decode 1 0 last 0", "decode 2 0 0 - kept D 7 5 5 5 82 0 1 0 on")
    script.expect("decode 1 1 last 1", "decode 0 1 1 4E00 kept D 7 5 5 5 - 0 2 1 over")
    script.note("an ended run is refused; its line read back is ended too; an older line goes on")
    over = line_hex("D>7>555>->0>2>1>over;")
    script.expect("decode 2 0 last 1", "decode 15 0 0 - kept D 7 5 5 5 - 0 2 1 over")
    script.expect("save 44", f"save 0 21 {over} kept")
    on = line_hex("D>7>555>82>0>1>0>on;")
    script.expect(f"load {on}", "load 0 D 7 5 5 5 82 0 1 0 on")
    script.expect("decode 1 1 more 1", "decode 0 1 1 4E00 kept D 7 5 5 5 - 0 2 1 on")
    script.expect(f"load {over}", "load 0 D 7 5 5 5 - 0 2 1 over")
    script.expect("decode 2 0 more 1", "decode 15 0 0 - kept D 7 5 5 5 - 0 2 1 over")
    script.note("the carried byte is kept over an empty piece and over saving")
    script.start("D", 7, "555")
    script.expect("decode 0 1 more 9", "decode 1 1 0 - kept D 7 5 5 5 82 0 1 0 on")
    script.expect("decode 1 0 more 9", "decode 1 0 0 - kept D 7 5 5 5 82 0 1 0 on")
    script.expect("save 44", f"save 0 20 {on} kept")
    script.start("D", 7, "000")
    script.expect(f"load {on}", "load 0 D 7 5 5 5 82 0 1 0 on")
    script.expect("decode 1 1 last 9", "decode 0 1 1 4E00 kept D 7 5 5 5 - 0 2 1 over")

    script.note("the class decides, never the presence of an entry")
    script.table("hidden.tbl", edited(hidden_entries))
    for asked, answered in (
        ("D{555;-;810A;last;9}", "0/2/30FB000A/4/-/yes"),
        ("D{555;-;81;last;9}", "0/1/30FB/4/-/yes"),
        ("D{555;-;83;last;9}", "0/1/30FB/4/-/yes"),
    ):
        script.call(asked, answered)
    script.note("a second byte that is lead or never by itself")
    script.table("more_seconds.tbl", edited(more_seconds))
    for asked, answered in (
        ("D{555;-;8383;last;9}", "0/2/6C34/0/-/yes"),
        ("D{555;-;838383;last;9}", "0/3/6C3430FB/4/-/yes"),
        ("D{555;-;838383;more;9}", "1/3/6C34/0/83/no"),
        ("D{555;83;83;more;9}", "0/1/6C34/0/-/no"),
        ("D{555;-;8184;last;9}", "0/2/6C35/0/-/yes"),
        ("D{555;-;8283;last;9}", "0/2/6C36/0/-/yes"),
        ("D{555;-;8484;last;9}", "0/2/30FB30FB/4/-/yes"),
        ("D{555;-;8384;last;9}", "0/2/30FB/2/-/yes"),
        ("D{555;-;8382;last;9}", "0/2/30FB/4/-/yes"),
    ):
        script.call(asked, answered)
    script.note("a character equal to the default unit is still a character")
    script.table("default_character.tbl", edited(default_as_character))
    script.call("D{155;-;41;last;1}", "0/1/30FB/0/-/yes 0/1/0")
    script.call("D{000;-;418141;last;2}", "0/3/30FB30FB/0/-/yes")
    script.note("codes up to 00FF are one byte, larger ones two; no class is looked at; FFFF is looked up, a surrogate is not")
    script.table("odd_codes.tbl", edited(odd_codes))
    for asked, answered in (
        ("E{555;-;0100;last;1}", "0/1/FF/0/-/yes"),
        ("E{555;-;0101;last;2}", "0/1/0100/0/-/yes"),
        ("E{555;-;0101;last;1}", "2/0/-/0/-/no 0/2"),
        ("E{555;-;0102;last;1}", "0/1/81/0/-/yes"),
        ("E{555;-;0103;last;2}", "0/1/FFFE/0/-/yes"),
        ("E{555;-;0104;last;1}", "0/1/00/0/-/yes"),
        ("E{555;-;FFFF;last;1}", "0/1/41/0/-/yes"),
        ("E{555;-;D83DDE00;last;2}", "0/2/3F/1/-/yes"),
        ("E{555;-;D83D;last;2}", "0/1/3F/4/-/yes"),
        ("E{555;-;D83DFFFF;last;2}", "0/2/3F41/4/-/yes"),
        ("E{555;-;0041;last;2}", "0/1/3F/1/-/yes"),
    ):
        script.call(asked, answered)
    script.note("pair blocks go by the leads below, not by the distance to 80")
    script.table("spread_leads.tbl", edited(spread_leads))
    script.call("D{000;-;8040BF40C040FF40;last;4}", "0/8/5000500150025003/0/-/yes")
    script.call("D{555;-;A0408140;last;9}", "0/4/00A0004030FB0040/4/-/yes")
    return script


def refusals_script():
    """Every refusal, alone and together with others: the first in the order is given."""
    script = Script()
    script.note("Run calls: every set of refusals 10 to 16 that can hold together; the lowest number is answered")
    script.expect("fillbytes 65537 41", "bytes 65537")
    script.expect("fillunits 65537 0041", "units 65537")
    bad = edited(cut("index", 255, 0))
    numbers = (10, 11, 12, 13, 14, 15, 16)
    for table_is_bad in (False, True):
        if table_is_bad:
            script.table("index_255.tbl", bad)
        else:
            script.sample()
        for direction, name in (("D", "decode"), ("E", "encode")):
            for chosen in range(2 ** len(numbers)):
                held = {number for place, number in enumerate(numbers) if chosen >> place & 1}
                if (10 in held) != table_is_bad or not held:
                    continue
                if 14 in held and (direction == "E" or 15 in held) and 12 not in held:
                    continue  # such a carried byte or unit breaks the run rules
                count = 65537 if 11 in held else 1
                page = 9 if 13 in held else 7
                carried = {"D": "41", "E": "0041"}[direction] if 14 in held else "-"
                flags = 16 if 12 in held else 0
                read = LIMIT if 16 in held else 5
                word = "over" if 15 in held else "on"
                mark = "last" if chosen % 3 == 0 else "more"
                run = f"{direction} {page} 5 5 5 {carried} {flags} {read} 2 {word}"
                script.run(run)
                script.expect(f"{name} 0 {count} {mark} {chosen % 5}", f"{name} {min(held)} 0 0 - kept {run}")
    script.sample()
    script.note("an encoding run that carries a high surrogate: 10, 11, 13 and 16, never 14")
    run = "E 7 5 5 5 D83D 0 5 2 on"
    script.run(run)
    script.expect("encode 0 65537 last 3", f"encode 11 0 0 - kept {run}")
    script.expect("encode 0 0 more 0", f"encode 1 0 0 - kept {run}")
    script.table("index_255.tbl", bad)
    script.expect("encode 0 65537 last 3", f"encode 10 0 0 - kept {run}")
    script.sample()
    script.expect("decode 0 65537 last 3", f"decode 11 0 0 - kept {run}")
    script.expect("decode 0 1 last 3", f"decode 13 0 0 - kept {run}")
    script.expect("decode 0 0 more 0", f"decode 13 0 0 - kept {run}")
    run = "E 9 5 5 5 D83D 0 5 2 on"
    script.run(run)
    script.expect("encode 0 1 last 3", f"encode 13 0 0 - kept {run}")
    run = f"E 7 5 5 5 D83D 0 {LIMIT} 2 on"
    script.run(run)
    script.expect("encode 0 1 last 3", f"encode 16 0 0 - kept {run}")
    run = f"E 9 5 5 5 D83D 0 {LIMIT} 2 on"
    script.run(run)
    script.expect("encode 0 1 last 3", f"encode 13 0 0 - kept {run}")
    script.note("13: a run of the other direction")
    for direction, name in (("D", "encode"), ("E", "decode")):
        run = f"{direction} 7 5 5 5 - 0 5 2 on"
        script.run(run)
        script.expect(f"{name} 0 1 last 3", f"{name} 13 0 0 - kept {run}")
    script.run("D 7 5 5 5 81 0 5 2 on")
    script.expect("encode 0 1 last 3", "encode 13 0 0 - kept D 7 5 5 5 81 0 5 2 on")
    script.note("13 by the table: the same run, another page")
    script.table("page_9.tbl", edited(set_page(9)))
    script.run("D 7 5 5 5 - 0 5 2 on")
    script.expect("decode 0 1 last 3", "decode 13 0 0 - kept D 7 5 5 5 - 0 5 2 on")
    script.run("D 9 5 5 5 - 0 5 2 on")
    script.expect("decode 0 1 last 3", "decode 0 1 1 0041 kept D 9 5 5 5 - 0 6 3 over")
    script.sample()
    script.note("14: a carried byte that is single or never here; leads are taken")
    for carried in ("41", "80", "A0", "83", "FF", "00"):
        run = f"D 7 5 5 5 {carried} 0 5 2 on"
        script.run(run)
        script.expect("decode 0 1 last 3", f"decode 14 0 0 - kept {run}")
        script.expect("decode 0 0 more 0", f"decode 14 0 0 - kept {run}")
    for carried in ("81", "82"):
        script.run(f"D 7 5 5 5 {carried} 0 5 2 on")
        script.expect("decode 0 0 more 0", f"decode 1 0 0 - kept D 7 5 5 5 {carried} 0 5 2 on")
    script.note("16 weighs the whole piece, also where less would be read")
    script.bytes("80418040")
    run = f"D 7 0 5 5 - 0 {LIMIT - 1} 0 on"
    script.run(run)
    script.expect("decode 0 2 last 3", f"decode 16 0 0 - kept {run}")
    script.expect("decode 0 1 last 3", f"decode 3 1 0 - kept D 7 0 5 5 - 9 {LIMIT} 0 over")
    script.run(f"D 7 0 5 5 - 9 {LIMIT} 0 over")
    script.expect("decode 0 1 last 3", f"decode 15 0 0 - kept D 7 0 5 5 - 9 {LIMIT} 0 over")
    script.run(f"D 7 5 5 5 - 0 {LIMIT - 3} 0 on")
    script.expect("decode 0 4 last 0", f"decode 16 0 0 - kept D 7 5 5 5 - 0 {LIMIT - 3} 0 on")
    script.expect("decode 0 3 last 0", f"decode 2 0 0 - kept D 7 5 5 5 - 0 {LIMIT - 3} 0 on")

    script.note("The one-go call: 17, 10, 11; empty room changes none of them")
    script.expect("fillbytes 65537 41", "bytes 65537")
    zero = edited(set_page(0))
    for table_is_bad in (False, True):
        if table_is_bad:
            script.table("page_0.tbl", zero)
        else:
            script.sample()
        for direction in ("D", "E"):
            for policy in ("555", "755", "575", "557", "565", "556", "666", "655", "999"):
                digit_is_bad = policy != "555" and not (direction == "D" and policy == "655")
                for count in (65536, 65537):
                    held = [number for number, holds in
                            ((17, digit_is_bad), (10, table_is_bad), (11, count > 65536)) if holds]
                    if held:
                        script.expect(f"convert {direction} {policy} 0 {count} 3", f"convert {held[0]} kept")
                        script.expect(f"convert {direction} {policy} 0 {count} 0", f"convert {held[0]} kept")
                    else:
                        output = "004100410041" if direction == "D" else "414141"
                        script.expect(f"convert {direction} {policy} 0 {count} 3", f"convert 2 0 3 65536 3 {output} kept")
                        script.expect(f"convert {direction} {policy} 0 {count} 0", "convert 2 0 0 65536 0 - kept")
    script.sample()
    script.note("it stops at the first stop, past it; it leaves the run in hand alone")
    script.bytes("8041")
    script.start("E", 9, "123")
    script.expect("convert D 055 0 2 0", "convert 3 9 1 0 0 - kept")
    script.expect("convert D 055 0 2 5", "convert 3 9 1 0 0 - kept")
    script.expect("convert D 155 0 2 0", "convert 2 1 1 1 0 - kept")
    script.expect("convert D 655 0 2 0", "convert 2 1 0 2 0 - kept")
    script.expect("save 44", f"save 0 19 {line_hex('E>9>123>->0>0>0>on;')} kept")

    script.note("A refused run call gives back what it was handed, also a run that breaks the rules")
    for run in BROKEN_RUNS:
        script.run(run)
        script.expect("decode 0 0 last 3", f"decode 12 0 0 - kept {run}")
        script.expect("encode 0 0 last 3", f"encode 12 0 0 - kept {run}")
        script.expect("save 44", "save 12 kept")
        script.expect("save 0", "save 12 kept")
    script.note("The rules at their edges: each of these runs keeps them")
    for run, line in KEPT_RUNS:
        hex_line = line_hex(line + ";")
        length = len(line) + 1
        script.run(run)
        script.expect("save 44", f"save 0 {length} {hex_line} kept")
        script.expect(f"save {length}", f"save 0 {length} {hex_line} kept")
        script.expect(f"save {length - 1}", "save 19 kept")
        script.expect("save 0", "save 19 kept")
        script.expect(f"load {hex_line}", f"load 0 {run}")
    return script


# Each run breaks one rule by the least that it can.
BROKEN_RUNS = (
    "D 0 5 5 5 - 0 0 0 on",
    "E 0 5 5 5 - 0 0 0 on",
    "D 7 7 5 5 - 0 0 0 on",
    "D 7 5 6 5 - 0 0 0 on",
    "D 7 5 5 6 - 0 0 0 on",
    "D 7 255 5 5 - 0 0 0 on",
    "E 7 6 5 5 - 0 0 0 on",
    "E 7 5 6 5 - 0 0 0 on",
    "E 7 5 5 6 - 0 0 0 on",
    "D 7 5 5 5 - 16 0 0 over",
    "D 7 5 5 5 - 255 0 0 over",
    "D 7 5 5 5 - 0 4294967296 0 on",
    "D 7 5 5 5 - 0 18446744073709551615 0 on",
    "E 7 5 5 5 - 0 4294967296 0 on",
    "D 7 5 5 5 - 0 0 1 on",
    "D 7 5 5 5 - 0 5 6 on",
    "D 7 5 5 5 - 0 4294967295 4294967296 over",
    "D 7 5 5 5 - 0 0 18446744073709551615 on",
    "E 7 5 5 5 - 0 0 1 on",
    "E 7 5 5 5 - 0 5 11 on",
    "E 7 5 5 5 - 0 4294967295 8589934591 on",
    "E 7 5 5 5 - 0 9223372036854775808 0 on",
    "D 7 5 5 5 - 8 1 0 on",
    "D 7 5 5 5 - 15 1 0 on",
    "E 7 5 5 5 - 9 1 0 on",
    "E 7 5 5 5 0081 0 1 0 on",
    "E 7 5 5 5 0000 0 1 0 on",
    "E 7 5 5 5 D7FF 0 1 0 on",
    "E 7 5 5 5 DC00 0 1 0 on",
    "E 7 5 5 5 DFFF 0 1 0 on",
    "E 7 5 5 5 FFFF 0 1 0 on",
    "E 7 5 5 5 D83D 0 1 0 over",
    "E 7 5 5 5 D83D 0 0 0 on",
    "E 7 5 5 5 D83D 0 1 1 on",
    "E 7 5 5 5 D83D 0 1 2 on",
    "E 7 5 5 5 D83D 0 5 9 on",
    "E 7 5 5 5 D83D 0 0 18446744073709551614 on",
    "E 7 5 5 5 D83D 0 1 18446744073709551615 on",
    "E 7 5 5 5 D83D 0 4294967295 8589934589 on",
    "E 7 5 5 5 D83D 8 5 4 on",
    "D 7 5 5 5 81 0 1 0 over",
    "D 7 5 5 5 81 0 0 0 on",
    "D 7 5 5 5 81 0 1 1 on",
    "D 7 5 5 5 81 0 5 5 on",
    "D 7 5 5 5 81 8 5 4 on",
)

# Each run keeps the rules, at an edge; beside it its line, with > for a tab and without the line feed.
KEPT_RUNS = (
    ("D 1 0 5 5 - 0 0 0 on", "D>1>055>->0>0>0>on"),
    ("D 65535 6 5 5 - 0 0 0 on", "D>65535>655>->0>0>0>on"),
    ("D 7 0 0 0 - 0 0 0 over", "D>7>000>->0>0>0>over"),
    ("E 7 0 1 2 - 0 0 0 on", "E>7>012>->0>0>0>on"),
    ("D 7 5 5 5 - 7 0 0 on", "D>7>555>->7>0>0>on"),
    ("D 7 5 5 5 - 15 0 0 over", "D>7>555>->15>0>0>over"),
    ("D 7 5 5 5 - 8 1 0 over", "D>7>555>->8>1>0>over"),
    ("D 7 5 5 5 - 0 5 5 on", "D>7>555>->0>5>5>on"),
    ("D 7 5 5 5 - 0 4294967295 4294967295 over", "D>7>555>->0>4294967295>4294967295>over"),
    ("D 7 5 5 5 81 0 1 0 on", "D>7>555>81>0>1>0>on"),
    ("D 7 5 5 5 41 0 1 0 on", "D>7>555>41>0>1>0>on"),
    ("D 7 5 5 5 00 0 5 4 on", "D>7>555>00>0>5>4>on"),
    ("D 7 5 5 5 FF 7 5 4 on", "D>7>555>FF>7>5>4>on"),
    ("D 65535 6 5 5 0A 7 4294967295 4294967294 on", "D>65535>655>0A>7>4294967295>4294967294>on"),
    ("E 7 5 5 5 - 2 1 2 on", "E>7>555>->2>1>2>on"),
    ("E 7 5 5 5 - 0 5 10 on", "E>7>555>->0>5>10>on"),
    ("E 7 5 5 5 D83D 0 1 0 on", "E>7>555>D83D>0>1>0>on"),
    ("E 7 0 1 0 D800 0 1 0 on", "E>7>010>D800>0>1>0>on"),
    ("E 7 5 5 5 DBFF 7 5 8 on", "E>7>555>DBFF>7>5>8>on"),
    ("E 65535 5 5 5 DABC 7 4294967295 8589934588 on", "E>65535>555>DABC>7>4294967295>8589934588>on"),
    ("E 65535 5 5 5 - 15 4294967295 8589934590 over", "E>65535>555>->15>4294967295>8589934590>over"),
    ("D 65535 5 5 5 - 15 4294967295 4294967295 over", "D>65535>555>->15>4294967295>4294967295>over"),
    ("D 932 5 5 5 83 0 512 300 on", "D>932>555>83>0>512>300>on"),
)

# None of these is a saved line. > is a tab, ; a line feed.
NOT_LINES = (
    "", ";", "D;", "D", "on;", "D>7>555>->0>0>0>on", "D>7>555>->0>0>0>on\r;", "D>7>555>->0>0>0>on;;",
    "D>7>555>->0>0>0>on;D>7>555>->0>0>0>on;", "D>7>555>->0>0>0>on;D", ";D>7>555>->0>0>0>on;",
    "D>7>555>->0>0>0>on>;", "D>7>555>->0>0>0;", "D>7>555>->0>0>0>;", ">7>555>->0>0>0>on;", "D>>555>->0>0>0>on;",
    "D>7>>->0>0>0>on;", "D>7>555>>0>0>0>on;", "D>7>555>->>0>0>on;", "D>7>555>->0>>0>on;", "D>7>555>->0>0>>on;",
    "D>7>555>->0>0>0>>on;", "D>>7>555>->0>0>0>on;", "D 7 555 - 0 0 0 on;", "D>7>555>->0>0>0 on;",
    " D>7>555>->0>0>0>on;", "D>7>555>->0>0>0>on ;", "D> 7>555>->0>0>0>on;",
    # numbers
    "D>07>555>->0>0>0>on;", "D>7>555>->00>0>0>on;", "D>7>555>->0>00>0>on;", "D>7>555>->0>0>00>on;",
    "D>7>555>->0>05>0>on;", "D>0>555>->0>0>0>on;", "D>65536>555>->0>0>0>on;", "D>65543>555>->0>0>0>on;",
    "D>4294967303>555>->0>0>0>on;", "D>18446744073709551623>555>->0>0>0>on;", "D>-7>555>->0>0>0>on;",
    "D>+7>555>->0>0>0>on;", "D>7>555>->+1>1>0>on;", "D>7>555>->0>+1>0>on;", "D>7>555>->0>1>+1>on;", "D>7.>555>->0>0>0>on;",
    "D>x>555>->0>0>0>on;", "D>A>555>->0>0>0>on;", "D>7>555>->A>1>0>over;", "D>7>555>->0>1e1>0>on;",
    # digits
    "D>7>55>->0>0>0>on;", "D>7>5555>->0>0>0>on;", "D>7>0555>->0>0>0>on;", "D>7>5 5>->0>0>0>on;", "D>7>5>->0>0>0>on;",
    "D>7>755>->0>0>0>on;", "D>7>565>->0>0>0>on;", "D>7>556>->0>0>0>on;", "E>7>655>->0>0>0>on;", "D>7>55A>->0>0>0>on;",
    "D>7>5>5>5>->0>0>0>on;", "E>7>557>->0>0>0>on;",
    # carried
    "D>7>555>8a>0>1>0>on;", "D>7>555>8>0>1>0>on;", "D>7>555>082>0>1>0>on;", "D>7>555>0082>0>1>0>on;",
    "D>7>555>G1>0>1>0>on;", "D>7>555>-->0>1>0>on;", "D>7>555>82>0>0>0>on;", "D>7>555>82>0>1>1>on;",
    "D>7>555>82>0>1>0>over;", "D>7>555> >0>1>0>on;", "D>7>555>D83D>0>1>0>on;",
    "E>7>555>82>0>1>0>on;", "E>7>555>D8>0>1>0>on;", "E>7>555>D83>0>1>0>on;", "E>7>555>0D83D>0>1>0>on;",
    "E>7>555>D83DDE00>0>2>0>on;", "E>7>555>d83d>0>1>0>on;", "E>7>555>D83d>0>1>0>on;", "E>7>555>D83G>0>1>0>on;",
    "E>7>555>-->0>1>0>on;", "E>7>555>---->0>1>0>on;", "E>7>555>>0>1>0>on;", "E>7>555>0082>0>1>0>on;",
    "E>7>555>D7FF>0>1>0>on;", "E>7>555>DC00>0>1>0>on;", "E>7>555>DFFF>0>1>0>on;", "E>7>555>E000>0>1>0>on;",
    "E>7>555>D83D>0>0>0>on;", "E>7>555>D83D>0>1>1>on;", "E>7>555>D83D>0>1>2>on;", "E>7>555>D83D>0>5>9>on;",
    "E>7>555>D83D>0>1>0>over;", "E>7>555>D83D>8>1>0>over;", "E>7>555>D83D>8>1>0>on;",
    "E>7>555>D83D>0>4294967295>8589934589>on;",
    # flags
    "D>7>555>->8>1>0>on;", "D>7>555>->15>1>0>on;", "D>7>555>->16>1>0>over;", "D>7>555>->256>1>0>over;",
    "D>7>555>->264>1>0>over;", "D>7>555>->18446744073709551617>1>0>over;",
    # totals
    "D>7>555>->0>4294967296>0>on;", "D>7>555>->0>18446744073709551615>0>on;", "D>7>555>->0>18446744073709551616>0>on;",
    "D>7>555>->0>18446744073709551617>0>on;", "D>7>555>->0>18446744073709551617>1>on;", "D>7>555>->0>1>2>on;",
    "D>7>555>->0>0>1>on;", "E>7>555>->0>1>3>on;", "E>7>555>->0>0>1>on;", "D>7>555>->0>5>18446744073709551617>on;",
    "D>7>555>->0>5>18446744073709551616>on;", "D>7>555>->0>99999999999999999999>0>on;",
    "D>7>555>->0>340282366920938463463374607431768211457>1>on;", "E>7>555>->0>4294967295>8589934591>on;",
    "D>7>555>->0>" + "1" * 300 + ">0>on;", "D>7>555>->0>5>" + "0" * 300 + ">on;",
    # words and letters
    "D>7>555>->0>0>0>ON;", "D>7>555>->0>0>0>On;", "D>7>555>->0>0>0>o;", "D>7>555>->0>0>0>onn;", "D>7>555>->0>0>0>ove;",
    "D>7>555>->0>0>0>overr;", "D>7>555>->0>0>0>ovex;", "D>7>555>->0>0>0>0n;", "d>7>555>->0>0>0>on;", "e>7>555>->0>0>0>on;",
    "F>7>555>->0>0>0>on;", "DE>7>555>->0>0>0>on;", "C>7>555>->0>0>0>on;",
)


def lines_script():
    script = Script()
    script.note("Reading and writing lines: lines of runs at the edges of the rules")
    script.sample()
    for run, line in KEPT_RUNS:
        hex_line = line_hex(line + ";")
        length = len(line) + 1
        script.start("D", 7, "000")
        script.expect(f"load {hex_line}", f"load 0 {run}")
        script.expect("save 44", f"save 0 {length} {hex_line} kept")
        script.expect("save 140000", f"save 0 {length} {hex_line} kept")
        script.expect(f"save {length - 1}", "save 19 kept")
    script.note("texts that are no lines; the run in hand stays")
    script.run("E 3 1 2 3 - 1 9 4 on")
    for text in NOT_LINES:
        script.expect(f"load {line_hex(text)}", "load 18")
    for line in ("D>932>555>83>0>512>300>on;", "E>932>555>D83D>0>512>300>on;"):
        for place in range(len(line)):
            script.expect(f"load {line_hex(line[:place])}", "load 18")
            script.expect(f"load {line_hex(line[:place] + '>' + line[place:])}", "load 18")
    script.expect(f"load {line_hex('D>7>555>8>0>0>0;')}", "load 18")
    script.expect(f"load {line_hex('D>7>555>->0>0>0>on')}00", "load 18")
    script.expect(f"load {line_hex('D>7>555>->0>0>0>on')}0D0A", "load 18")
    script.expect(f"load {line_hex('D>7>555>')}AD{line_hex('>0>0>0>on;')}", "load 18")
    script.expect("save 44", f"save 0 19 {line_hex('E>3>123>->1>9>4>on;')} kept")
    script.note("a carried byte that is no lead here: the line is read, the run call says 14")
    script.expect(f"load {line_hex('D>7>555>41>0>1>0>on;')}", "load 0 D 7 5 5 5 41 0 1 0 on")
    script.expect("decode 0 0 last 1", "decode 14 0 0 - kept D 7 5 5 5 41 0 1 0 on")
    script.note("a line of another page or direction: 13")
    script.expect(f"load {line_hex('D>932>555>83>0>512>300>on;')}", "load 0 D 932 5 5 5 83 0 512 300 on")
    script.expect("decode 0 0 last 1", "decode 13 0 0 - kept D 932 5 5 5 83 0 512 300 on")
    script.expect(f"load {line_hex('E>932>555>D83D>0>512>300>on;')}", "load 0 E 932 5 5 5 D83D 0 512 300 on")
    script.expect("encode 0 0 last 1", "encode 13 0 0 - kept E 932 5 5 5 D83D 0 512 300 on")
    script.expect("decode 0 0 last 1", "decode 13 0 0 - kept E 932 5 5 5 D83D 0 512 300 on")
    return script


def edges_script():
    script = Script()
    script.note("65,536 and 65,537 bytes and units")
    script.sample()
    script.expect("fillbytes 65537 41", "bytes 65537")
    script.start("D", 7, "555")
    script.expect("decode 0 65537 last 66000", f"decode 11 0 0 - kept {fresh('D', 7, '555')}")
    script.expect("decode 1 65536 last 66000",
                  f"decode 0 65536 65536 {'0041' * 65536} kept D 7 5 5 5 - 0 65536 65536 over")
    script.expect("convert D 555 0 65537 0", "convert 11 kept")
    script.expect("convert D 555 0 65536 0", "convert 2 0 0 65536 0 - kept")
    script.expect("convert D 555 0 65537 3", "convert 11 kept")
    script.expect("convert D 555 0 65536 3", "convert 2 0 3 65536 3 004100410041 kept")
    script.expect("fillunits 65537 3000", "units 65537")
    script.start("E", 7, "555")
    script.expect("encode 0 65537 last 140000", f"encode 11 0 0 - kept {fresh('E', 7, '555')}")
    script.expect("encode 0 65536 last 131072",
                  f"encode 0 65536 131072 {'8140' * 65536} kept E 7 5 5 5 - 0 65536 131072 over")
    script.expect("convert E 555 1 65536 0", "convert 2 0 0 131072 0 - kept")
    script.expect("convert E 555 0 65537 0", "convert 11 kept")
    script.expect("convert E 555 0 65537 3", "convert 11 kept")
    script.expect("convert E 555 0 65536 3", "convert 2 0 1 131072 2 8140 kept")
    script.note("the same with all skipped: nothing is written")
    script.expect("fillbytes 65537 83", "bytes 65537")
    script.start("D", 7, "551")
    script.expect("decode 0 65536 more 0", "decode 0 65536 0 - kept D 7 5 5 1 - 4 65536 0 on")
    script.expect("decode 0 65536 more 5", "decode 0 65536 0 - kept D 7 5 5 1 - 4 131072 0 on")
    script.expect("decode 0 65537 more 5", "decode 11 0 0 - kept D 7 5 5 1 - 4 131072 0 on")
    script.note("a lead at the end of 65,536 bytes")
    script.expect("fillbytes 65536 8381", "bytes 65536")
    script.start("D", 7, "551")
    script.expect("decode 1 65535 more 0", "decode 1 65535 0 - kept D 7 5 5 1 81 4 65535 0 on")
    script.expect("fillbytes 65536 83", "bytes 65536")
    script.expect("decode 0 65536 last 0", "decode 0 65536 0 - kept D 7 5 5 1 - 4 131071 0 over")

    script.note("a carried lead that is a code alone, then 65,536 bytes: one unit more is written than bytes are handed in")
    script.expect("fillbytes 65536 0A", "bytes 65536")
    script.run("D 7 5 5 5 82 0 1 0 on")
    script.expect("decode 0 65536 last 65537",
                  f"decode 0 65536 65537 30FB{'000A' * 65536} kept D 7 5 5 5 - 4 65537 65537 over")

    script.note("the read total at the limit: 0 more and 1 more")
    script.bytes("4182")
    at_limit = f"D 7 5 5 5 - 0 {LIMIT} 0 on"
    script.run(at_limit)
    script.expect("decode 0 0 more 3", f"decode 0 0 0 - kept {at_limit}")
    script.expect("decode 0 1 more 3", f"decode 16 0 0 - kept {at_limit}")
    script.expect("decode 0 0 last 3", f"decode 0 0 0 - kept D 7 5 5 5 - 0 {LIMIT} 0 over")
    script.run(f"D 7 5 5 5 - 0 {LIMIT - 1} 0 on")
    script.expect("decode 0 2 more 3", f"decode 16 0 0 - kept D 7 5 5 5 - 0 {LIMIT - 1} 0 on")
    script.expect("decode 0 1 more 3", f"decode 0 1 1 0041 kept D 7 5 5 5 - 0 {LIMIT} 1 on")
    script.run(f"D 7 5 5 5 - 0 {LIMIT - 1} {LIMIT - 1} on")
    script.expect("decode 0 1 last 3", f"decode 0 1 1 0041 kept D 7 5 5 5 - 0 {LIMIT} {LIMIT} over")
    script.run(f"D 7 5 5 5 - 0 {LIMIT - 1} 7 on")
    script.expect("decode 1 1 more 0", f"decode 1 1 0 - kept D 7 5 5 5 82 0 {LIMIT} 7 on")
    script.expect("decode 0 1 last 3", f"decode 16 0 0 - kept D 7 5 5 5 82 0 {LIMIT} 7 on")
    script.expect("decode 0 0 last 3", f"decode 0 0 1 30FB kept D 7 5 5 5 - 4 {LIMIT} 8 over")
    script.run(f"D 7 5 5 5 82 0 {LIMIT} {LIMIT - 1} on")
    script.expect("decode 0 0 last 3", f"decode 0 0 1 30FB kept D 7 5 5 5 - 4 {LIMIT} {LIMIT} over")
    script.note("the same with a carried lead and a byte that is none of its code; 16 weighs a byte that would stay unread too")
    script.bytes("0A")
    script.run(f"D 7 5 5 5 82 0 {LIMIT - 1} {LIMIT - 2} on")
    script.expect("decode 0 1 last 1", f"decode 2 0 1 30FB kept D 7 5 5 5 - 4 {LIMIT - 1} {LIMIT - 1} on")
    script.expect("decode 0 1 last 1", f"decode 0 1 1 000A kept D 7 5 5 5 - 4 {LIMIT} {LIMIT} over")
    script.run(f"D 7 5 5 5 82 0 {LIMIT - 1} {LIMIT - 2} on")
    script.expect("decode 0 1 last 2", f"decode 0 1 2 30FB000A kept D 7 5 5 5 - 4 {LIMIT} {LIMIT} over")
    script.run(f"D 7 5 5 0 82 0 {LIMIT} 0 on")
    script.expect("decode 0 1 more 2", f"decode 16 0 0 - kept D 7 5 5 0 82 0 {LIMIT} 0 on")
    script.run(f"D 7 5 5 0 82 0 {LIMIT - 1} 0 on")
    script.expect("decode 0 1 more 2", f"decode 3 0 0 - kept D 7 5 5 0 - 12 {LIMIT - 1} 0 over")
    script.note("the same in encoding")
    script.units("3000")
    script.run(f"E 7 5 5 5 - 0 {LIMIT - 1} 8589934588 on")
    script.expect("encode 0 1 last 2", f"encode 0 1 2 8140 kept E 7 5 5 5 - 0 {LIMIT} 8589934590 over")
    script.run(f"E 7 5 5 5 - 0 {LIMIT} 8589934590 on")
    script.expect("encode 0 1 last 2", f"encode 16 0 0 - kept E 7 5 5 5 - 0 {LIMIT} 8589934590 on")
    script.expect("encode 0 0 last 2", f"encode 0 0 0 - kept E 7 5 5 5 - 0 {LIMIT} 8589934590 over")
    script.note("the same with a carried high surrogate: a pair, one alone, and the last unit that can be carried")
    script.units("DE003000D83D")
    script.run(f"E 7 5 5 5 D83D 0 {LIMIT - 1} 8589934586 on")
    script.expect("encode 0 1 last 2", f"encode 0 1 1 3F kept E 7 5 5 5 - 1 {LIMIT} 8589934587 over")
    script.run(f"E 7 5 5 5 D83D 0 {LIMIT - 1} 8589934586 on")
    script.expect("encode 1 1 last 2", f"encode 2 0 1 3F kept E 7 5 5 5 - 4 {LIMIT - 1} 8589934587 on")
    script.expect("encode 1 1 last 2", f"encode 0 1 2 8140 kept E 7 5 5 5 - 4 {LIMIT} 8589934589 over")
    script.run(f"E 7 5 5 0 D83D 0 {LIMIT} 0 on")
    script.expect("encode 1 1 last 2", f"encode 16 0 0 - kept E 7 5 5 0 D83D 0 {LIMIT} 0 on")
    script.expect("encode 1 0 last 2", f"encode 3 0 0 - kept E 7 5 5 0 - 12 {LIMIT} 0 over")
    script.run(f"E 7 5 5 5 D83D 0 {LIMIT} 8589934588 on")
    script.expect("encode 1 0 more 0", f"encode 1 0 0 - kept E 7 5 5 5 D83D 0 {LIMIT} 8589934588 on")
    script.expect("encode 1 0 last 1", f"encode 0 0 1 3F kept E 7 5 5 5 - 4 {LIMIT} 8589934589 over")
    script.run(f"E 7 5 5 5 - 0 {LIMIT - 1} 8589934588 on")
    script.expect("encode 2 1 more 0", f"encode 1 1 0 - kept E 7 5 5 5 D83D 0 {LIMIT} 8589934588 on")
    script.note("65,536 units after a carried high surrogate, and one at their end")
    script.expect("fillunits 65536 DE00D83D", "units 65536")
    script.run("E 7 1 5 1 D83D 0 1 0 on")
    script.expect("encode 0 65536 more 0", "encode 1 65536 0 - kept E 7 1 5 1 D83D 1 65537 0 on")
    script.expect("encode 0 65535 last 0", "encode 0 65535 0 - kept E 7 1 5 1 - 1 131072 0 over")
    script.expect("convert E 151 1 65535 0", "convert 0 5 65535 0 0 - kept")
    script.expect("convert E 555 0 65536 0", "convert 2 5 0 32769 0 - kept")
    script.expect("fillbytes 65536 83", "bytes 65536")
    script.run("D 7 5 5 1 - 4 4294901759 0 on")
    script.expect("decode 0 65536 last 0", f"decode 0 65536 0 - kept D 7 5 5 1 - 4 {LIMIT} 0 over")
    script.run("D 7 5 5 1 - 4 4294901760 0 on")
    script.expect("decode 0 65536 last 0", "decode 16 0 0 - kept D 7 5 5 1 - 4 4294901760 0 on")

    script.note("no lead")
    script.table("no_leads.tbl", edited(no_leads))
    script.expect("shape", "shape good")
    script.call("D{555;-;41817C82;last;9}", "0/4/004130FB007C30FB/4/-/yes")
    script.call("D{555;-;82;more;9}", "0/1/30FB/4/-/no")
    script.call("E{555;-;3000;last;9}", "0/1/8140/0/-/yes")
    script.note("one lead")
    script.table("one_lead.tbl", edited(one_lead))
    script.expect("shape", "shape good")
    script.call("D{555;-;827C81408240;last;9}", "0/6/4E0030FB004030FB/6/-/yes")
    script.call("D{555;-;8182;more;9}", "1/2/30FB/4/82/no")
    script.note("128 leads")
    script.table("all_leads.tbl", edited(all_leads))
    script.expect("shape", "shape good")
    script.expect("bytes " + "".join(f"{lead:02X}FF" for lead in range(0x80, 0x100)), "bytes 256")
    script.start("D", 7, "000")
    script.expect(
        "decode 0 256 last 128",
        f"decode 0 256 128 {''.join(f'{0x5000 + place:04X}' for place in range(128))} kept D 7 0 0 0 - 0 256 128 over",
    )
    script.expect("bytes " + "".join(f"{lead:02X}40" for lead in range(0x80, 0x100)), "bytes 256")
    script.expect(
        "convert D 000 0 256 128", f"convert 0 0 256 128 128 {''.join(f'{0x6000 + place:04X}' for place in range(128))} kept"
    )
    script.call("D{555;-;80FFFFFF;last;9}", "0/4/5000507F/0/-/yes")
    script.call("D{555;-;808180FF;last;9}", "0/4/30FB5000/2/-/yes")
    script.call("D{555;-;800A80;more;9}", "1/3/30FB000A/4/80/no")

    script.note("room 0: nothing is written, the empty text and skipped codes pass")
    script.sample()
    for asked, answered in (
        ("D{555;-;-;last;0}", "0/0/-/0/-/yes"),
        ("D{555;-;41;more;0}", "2/0/-/0/-/no"),
        ("D{111;-;80815A83;more;0}", "0/4/-/7/-/no"),
        ("D{111;-;80815A8341;more;0}", "2/4/-/7/-/no"),
        ("D{000;-;80;more;0}", "3/1/-/9/-/yes"),
        ("E{555;-;-;last;0}", "0/0/-/0/-/yes"),
        ("E{555;-;0041;more;0}", "2/0/-/0/-/no"),
        ("E{111;-;1234;more;0}", "0/1/-/1/-/no"),
        ("E{000;-;1234;more;0}", "3/1/-/9/-/yes"),
    ):
        script.call(asked, answered)
    script.note("there and back")
    script.call("E{000;-;004130003001007F4E00;last;9}", "0/5/41814081417F827C/0/-/yes")
    script.call("D{000;-;41814081417F827C;last;9}", "0/8/004130003001007F4E00/0/-/yes")
    script.call("D{000;-;A0;last;9}", "0/1/00A0/0/-/yes")
    script.call("E{000;-;00A0;last;9}", "0/1/20/0/-/yes")
    return script


def scripts():
    return {
        "initial": initial_script(),
        "rows": rows_script(),
        "shapes": shapes_script(),
        "images": images_script(),
        "grammar": grammar_script(),
        "policies": policies_script(),
        "calls": calls_script(),
        "refusals": refusals_script(),
        "lines": lines_script(),
        "edges": edges_script(),
    }
