"""The console scripts listing and listing_pages: table listings read and written (a module of make_scripts.py).

Document 02, CR 3. A line is written with > for a tab, and its line feed is added. In `listing` every answer is written by hand; what the
lent tables hold after some lines is written by hand too, as the entries of each table, and its check sum is worked out from them. In
`listing_pages` the lines of a page are told from the tables of its image; only a part of each page is in it.

whole_page_script makes the same of a real page, all of it. It is long, so it is not stored: make_scripts.py --pages FOLDER.
"""

import struct

from break_scripts import BAD_TABLES, MOST
from fixed_scripts import (
    Script, default_ffff, edited, hidden_entries, left_alone, line_hex, more_seconds, odd_codes, odd_defaults, set_page, shared_block,
    spread_leads,
)
from table_image import LEAD, NONE, SECOND, SINGLE, Tables

NAMES = ("classes", "singles", "pairs", "index", "blocks")
FORMS = ("B", "H", "H", "B", "H")
LARGEST = (300, 300, 33024, 300, 66048)
LONGEST = 12  # the bytes of the longest line


def sum_text(elements, form):
    """The check sum of docs/CONSOLE.md, of elements of one byte (B) or two (H)."""
    total = 0x811C9DC5
    for byte in struct.pack(f"<{len(elements)}{form}", *elements):
        total = ((total ^ byte) * 0x01000193) & 0xFFFFFFFF
    return f"{total:08X}"


def sums_text(tables):
    """The answer to `lent`, if the five lent tables hold this."""
    return "lent " + " ".join(sum_text(elements, form) for elements, form in zip(tables, FORMS))


def tables_text(tables):
    """The answer to `lent`, if the lent tables are those of a table set."""
    return sums_text([getattr(tables, name) for name in NAMES])


class Lent:
    """The five lent tables, as they are by hand."""

    def __init__(self, *sizes):
        self.sizes = sizes
        self.tables = {name: [0xEE if form == "B" else 0xEEEE] * size for name, form, size in zip(NAMES, FORMS, sizes)}

    def put(self, **entries):
        """Puts entries by their places: classes={0x41: 1}."""
        for name, places in entries.items():
            for place, value in places.items():
                self.tables[name][place] = value
        return self

    def empty(self, name, number=0):
        """Empties 256 entries: of a block of pairs or of blocks, by its number."""
        value = 0 if name in ("classes", "index") else NONE
        return self.put(**{name: {256 * number + place: value for place in range(256)}})

    def page(self):
        """What an accepted `P` does."""
        return self.empty("classes").empty("singles").empty("index").empty("blocks")

    def text(self):
        return sums_text([self.tables[name] for name in NAMES])


class ListingScript(Script):
    def lend(self, *sizes):
        words = " ".join(map(str, sizes))
        self.expect(f"lend {words}", f"lend {words}")

    def line(self, text, number=0):
        self.expect(f"line {line_hex(text + ';')}", f"line {number}")

    def raw(self, text, number):
        """A line given byte by byte."""
        self.expect(f"line {text.hex().upper() or '-'}", f"line {number}")

    def give(self, texts):
        for text in texts:
            self.line(text)

    def read(self, texts, *sizes):
        """A fresh reader that has read these lines."""
        self.lend(*sizes)
        self.give(texts)

    def listed(self, text):
        self.expect("listed", f"listed {text}")

    def lists(self, texts, rooms=(LONGEST,)):
        """The writer's lines, each with one of the rooms in turn."""
        for number, text in enumerate(texts):
            line = line_hex(text + ";")
            self.expect(f"list {rooms[number % len(rooms)]}", f"list 0 {len(line) // 2} {line} kept")

    def whole_list(self, texts, rooms=(LONGEST,)):
        self.expect("lister", "lister")
        self.lists(texts, rooms)
        self.expect("list 0", "list done kept")


# Sizes that are enough for two leads and three high halves.
SIZES = (256, 256, 512, 256, 1024)

# ---------------------------------------------------------------------------------------------------------------
# The example of document 02, and the sample page
# ---------------------------------------------------------------------------------------------------------------

EXAMPLE = ("P>9", "D>3F>30FB", "S>00>0000", "L>81", "T>40", "M>8140>3000", "W>0000>0000", "W>3000>8140")


def example_in(*sizes):
    """What the lent tables hold after each line of the example: 3 blocks, index 00 is 1, index 30 is 2."""
    lent = Lent(*sizes)
    yield lent.page().text()
    yield lent.text()
    yield lent.put(classes={0x00: 1}, singles={0x00: 0x0000}).text()
    yield lent.put(classes={0x81: 2}).empty("pairs", 0).text()
    yield lent.put(classes={0x40: 4}).text()
    yield lent.put(pairs={0x40: 0x3000}).text()
    yield lent.put(index={0x00: 1}).empty("blocks", 1).put(blocks={256: 0x0000}).text()
    yield lent.put(index={0x30: 2}).empty("blocks", 2).put(blocks={512: 0x8140}).text()


def example(script):
    for title, sizes in (("just large enough", (256, 256, 256, 256, 768)), ("larger: the rest is unchanged", LARGEST),
                         ("larger by one", (257, 257, 257, 257, 769))):
        script.note(f"the example of document 02; lent tables {title}")
        script.lend(*sizes)
        script.expect("lent", Lent(*sizes).text())
        for text, sums in zip(EXAMPLE, example_in(*sizes)):
            script.line(text)
            script.expect("lent", sums)
        script.listed("0 9 3F 30FB 256 768")
        script.expect("lent", sums)
        script.expect("shape", "shape good")
        script.bytes("008140408141")
        script.expect("convert D 555 0 6 9", "convert 0 4 6 5 5 0000300030FB30FB30FB kept")
        script.units("000030000001")
        script.expect("convert E 555 0 3 9", "convert 0 1 3 4 4 0081403F kept")
        script.start("D", 9, "555")
        script.expect("decode 0 1 last 1", "decode 0 1 1 0000 kept D 9 5 5 5 - 0 1 1 over")
        script.whole_list(EXAMPLE)


SAMPLE_LISTING = (
    "P>7", "D>3F>30FB", *(f"S>{byte:02X}>{byte:04X}" for byte in range(0x80)), "S>80>-", "S>A0>00A0", "L>81", "L>82",
    *(f"T>{byte:02X}" for byte in range(0x40, 0x7F)), "M>8140>3000", "M>8141>3001", "M>827C>4E00",
    *(f"W>{unit:04X}>{unit:04X}" for unit in range(0x80)), "W>00A0>0020", "W>3000>8140", "W>3001>8141", "W>4E00>827C",
)


def sample(tables):
    """No change: the sample page."""


# ---------------------------------------------------------------------------------------------------------------
# The form of a line
# ---------------------------------------------------------------------------------------------------------------

# Lines that are refused where `P` must come.
NOT_PAGES = (
    "P", "P>", "P>0", "P>00", "P>01", "P>09", "P>009", "P>65536", "P>65537", "P>65545", "P>99999", "P>100000", "P>655350", "P>4294967305",
    "P>18446744073709551625", "P>+9", "P>-9", "P>-", "P> 9", "P>9 ", "P >9", " P>9", "P 9", "P9", "P>>9", "P>9>", "P>9>9", "P>9A", "P>A",
    "P>F", "P>0x9", "P>9.", "P>9,0", "p>9", "PP>9", "Q>9", "9", ">9", "", ">", "P>:", "P>/", "P>1:", "P>1/", "P>9;", "P>9;D>3F>30FB",
    ";P>9", "# P>9",
)
# Pages that are read.
PAGES = (1, 2, 9, 10, 19, 99, 100, 101, 437, 932, 999, 1000, 1252, 9999, 10000, 12345, 59999, 60000, 65001, 65499, 65529, 65530, 65535)

# One line of each letter.
BEFORE = ("P>9", "D>3F>30FB", "S>4A>00AB", "L>AB", "T>4C", "M>AB4C>30FB", "W>00AB>00CD")


def broken_forms(right):
    """Texts that are no line, each one change from a line whose fields have letters among their digits."""
    letter, *fields = right.split(">")
    first, last = right[: right.index(">")], right[right.index(">") + 1 :]
    texts = [
        # letter, tabs and blanks
        letter, letter + ">", f"{first} {last}", f"{first}{last}", f"{first}>>{last}", f" {right}", f"{right} ", f"{right}>", f">{right}",
        f"{first}> {last}", f"{letter.lower()}>{last}", f"{letter}{right}", f"X>{last}", f"{last}", f"{right}>{fields[-1]}", f"{right}>-",
        f"{first},{last}", f"#{right}", f"{letter}>-", f"{letter}>" + ">".join("-" for _ in fields),
        # two lines, and line feeds
        f"{right};", f";{right}", f"{right};{right}",
    ]
    for number, field in enumerate(fields):
        for wrong in (
            "", field[:-1], field[1:], field + "0", "0" + field, field + field, field.lower(), field[:-1] + field[-1].lower(),
            "+" + field[1:], "-" + field[1:], " " + field[1:], field[:-1] + " ", "0x" + field, "G" + field[1:], field[:-1] + "G", field[:-1] + ":",
            field[:-1] + "/", field[:-1] + "@", field[:-1] + "`", field[:-1] + "h", "--", "----",
        ):
            texts.append(">".join([letter, *fields[:number], wrong, *fields[number + 1 :]]))
    if letter in "DMW":
        # only a single may have none
        texts.append(f"{letter}>{fields[0]}>-")
    if letter == "S":
        texts += ["S>4A>--", "S>4A>- ", "S>4A>-0", "S>4A>0-", "S>->00AB", "S>4A>->00AB", "S>4A> -", "S>4A>\N{EN DASH}"]
    # each is another text, and none is the line itself
    return [text for text in dict.fromkeys(texts) if text != right]


def pages_of_lines(script):
    script.note("no page: each is refused, and the reader is as it was")
    script.lend(*SIZES)
    for text in NOT_PAGES:
        script.line(text, 22)
    for text in (b"", b"\n", b"\r\n", b"\x00", b"P\t9", b"P\t9\r\n", b"P\t9\r", b"P\t9\n\x00", b"P\t9\x00\n", b"P\t\xff\n",
                 b"\xef\xbb\xbfP\t9\n", b"\x00P\t9\n", b"P\t" + b"9" * 1000 + b"\n", b"P\t" + b"0" * 1000 + b"9\n", b"P\x0b9\n", b"P\t9\x0b", b"P\t9\x8a"):
        script.raw(text, 22)
    script.expect("lent", Lent(*SIZES).text())
    script.line("P>9")
    script.note("pages that are read, each told at the end")
    for page in PAGES:
        script.read((f"P>{page}", "D>3F>30FB"), 256, 256, 0, 256, 256)
        script.listed(f"0 {page} 3F 30FB 0 256")
        script.expect("lister", "lister")
        script.lists((f"P>{page}",))


def broken_lines(script):
    for number, right in enumerate(BEFORE[1:], 1):
        script.note(f"texts that are no line, where {right[0]} may come; then the line")
        script.read(BEFORE[:number], *SIZES)
        for text in broken_forms(right):
            script.raw((text.replace(">", "\t").replace(";", "\n") + "\n").encode("utf-8"), 22)
        plain = right.replace(">", "\t").encode("ascii")
        for text in (plain, plain + b"\r\n", plain + b"\r", plain + b"\x00\n", plain + b"\n\x00", b"\x00" + plain + b"\n",
                     plain[:-1] + b"\xc1\n", plain + b"\x8a", plain + b"\x0b", plain + b"\n" * 300, plain[:-1] + bytes([plain[-1] | 0x80]) + b"\n", b"\xd3" + plain[1:] + b"\n"):
            script.raw(text, 22)
        script.line(right)
    script.note("digits: all sixteen")
    script.read(("P>9", "D>01>2345", "S>67>89AB", "S>CD>EF01"), 256, 256, 0, 256, 256)
    script.expect("lent", Lent(256, 256, 0, 256, 256).page().put(classes={0x67: 1, 0xCD: 1}, singles={0x67: 0x89AB, 0xCD: 0xEF01}).text())
    script.listed("0 9 01 2345 0 256")


# ---------------------------------------------------------------------------------------------------------------
# The order of lines, keys, and what must be listed
# ---------------------------------------------------------------------------------------------------------------

IN_ORDER = ("P>9", "D>3F>30FB", "S>41>0041", "L>81", "T>40", "T>41", "M>8140>3000", "W>0041>0041")
# A line, and behind how many of the lines above it is accepted. An M needs its second byte, 41, listed.
WHERE = {
    "P>9": (0,), "P>8": (0,), "D>3F>30FB": (1,), "D>00>0000": (1,), "S>42>0042": (2, 3), "L>82": (2, 3, 4), "T>42": (2, 3, 4, 5, 6),
    "M>8141>3001": (6, 7), "W>0042>0042": (2, 3, 4, 5, 6, 7, 8),
    # keys that are not above that of the last line of their letter
    "S>41>0041": (2,), "S>40>0040": (2,), "L>81": (2, 3), "L>80": (2, 3), "T>40": (2, 3, 4), "T>3F": (2, 3, 4), "M>8140>3000": (5, 6),
    "W>0041>0041": (2, 3, 4, 5, 6, 7), "W>0040>0040": (2, 3, 4, 5, 6, 7),
}


def orders(script):
    for count in range(len(IN_ORDER) + 1):
        script.note(f"behind {count} lines: every letter")
        script.read(IN_ORDER[:count], *SIZES)
        for text, accepted in WHERE.items():
            if count not in accepted:
                script.line(text, 22)
        script.give(IN_ORDER[count : count + 1])
        for text, accepted in WHERE.items():
            if count in accepted:
                script.read(IN_ORDER[:count], *SIZES)
                script.line(text)
                # once is enough, for every letter
                script.line(text, 22)


# Lines that come first; then lines with their answers, one behind the other.
AFTER = (
    # keys rise: the same and a lower one are refused; the first may be 0
    ("keys of S", ("P>9", "D>3F>30FB"), (
        "S>00>0000", "S>00>0000 22", "S>00>- 22", "S>01>0001", "S>00>0000 22", "S>01>0002 22", "S>7F>-", "S>7F>007F 22", "S>80>-",
        "S>7F>007F 22", "S>FE>-", "S>FF>00FF", "S>FF>00FF 22", "S>FE>00FE 22", "S>00>0000 22", "S>81>- 22",
    )),
    ("keys of L", ("P>9", "D>3F>30FB"), (
        "L>80", "L>80 22", "L>81", "L>80 22", "L>81 22", "L>FF 23", "L>FF 23", "L>81 22", "L>7F 22", "T>00",
    )),
    ("keys of T", ("P>9", "D>3F>30FB"), (
        "T>00", "T>00 22", "T>01", "T>00 22", "T>01 22", "T>80", "T>7F 22", "T>80 22", "T>FF", "T>FF 22", "T>FE 22",
    )),
    ("keys of M", ("P>9", "D>3F>30FB", "L>80", "L>FF", "T>00", "T>40", "T>FF"), (
        "M>8000>0000", "M>8000>0000 22", "M>8040>3000", "M>8000>3001 22", "M>80FF>FFFE", "M>8040>3000 22", "M>FF00>3002",
        "M>80FF>3003 22", "M>FF40>3000", "M>FFFF>D800", "M>FFFF>D800 22", "M>FF40>3000 22",
    )),
    ("keys of W", ("P>9", "D>3F>30FB"), (
        "W>0000>0000", "W>0000>0000 22", "W>0041>0041", "W>0040>0040 22", "W>0041>0042 22", "W>00FF>00FF", "W>0100>0100",
        "W>00FF>00FF 22", "W>0001>0001 22", "W>01FF>FFFE", "W>FFFE>0001", "W>FFFF>0041", "W>FFFF>0041 22", "W>FFFE>0001 22",
        "W>0000>0000 22",
    )),
    ("a later letter begins its keys anew", ("P>9", "D>3F>30FB", "S>FF>00FF"), (
        "L>80", "T>00", "M>8000>0000", "W>0000>0000", "S>FF>00FF 22", "L>FE 22", "T>FF 22", "M>80FF>0001 22",
    )),
    # FFFF on the right is for none of S, M and W; on the left, and in D, it is a unit or a code as others
    ("FFFF on the right", ("P>9",), (
        "D>3F>FFFF", "S>80>FFFF 22", "S>80>FFFE", "S>81>-", "S>82>FFFF 22", "L>FE", "L>FF", "T>FE", "T>FF", "M>FEFE>FFFF 22",
        "M>FEFE>FFFE", "M>FFFF>FFFF 22", "M>FFFF>3000", "W>0041>FFFF 22", "W>0041>FFFE", "W>FFFF>FFFF 22", "W>FFFF>0041",
    )),
    ("no lead below 80", ("P>9", "D>3F>30FB"), ("L>00 22", "L>41 22", "L>7F 22", "L>80", "L>81")),
    ("not both S and L; both S and T, and L and T", ("P>9", "D>3F>30FB", "S>40>0040", "S>81>-", "S>83>0083"), (
        "L>81 22", "L>80", "L>81 22", "L>83 22", "L>82", "L>83 22", "T>40", "T>81", "T>82", "T>83", "T>84", "M>8081>3000", "M>8284>3001",
    )),
    # an M needs its lead and its second byte
    ("an M that has no lead or no second byte", ("P>9", "D>3F>30FB", "S>41>0041", "S>83>-", "L>81", "L>82", "T>40", "T>81"), (
        "M>0040>3000 22", "M>0041>3000 22", "M>4040>3000 22", "M>4081>3000 22", "M>8040>3000 22", "M>8082>3000 22", "M>8100>3000 22",
        "M>8141>3000 22", "M>8182>3000 22", "M>8140>3000", "M>8180>3000 22", "M>8181>3001", "M>8240>3002", "M>8281>3003",
        "M>8282>3004 22", "M>8340>3005 22", "M>FF40>3006 22",
    )),
    ("no lead, no second byte", ("P>9", "D>3F>30FB"), ("M>8140>3000 22", "T>40", "M>8140>3000 22", "W>3000>8140", "M>8140>3000 22")),
    ("a lead, no second byte", ("P>9", "D>3F>30FB", "L>81"), (
        "M>8140>3000 22", "M>8181>3000 22", "M>8100>3000 22", "T>00", "M>8140>3000 22", "M>8100>3000",
    )),
    # a code of W need be nothing that is listed
    ("codes of W", ("P>9", "D>3F>30FB"), (
        "W>0041>8140", "W>0042>0081", "W>0043>FFFE", "W>0044>0041", "W>0045>0041", "W>D800>0044", "W>DFFF>8140",
    )),
    # two characters of one code, one character of two codes
    ("the same right side twice", ("P>9", "D>3F>30FB", "L>81", "T>40", "T>41"), (
        "M>8140>3000", "M>8141>3000", "W>3000>8140", "W>3001>8140",
    )),
)


def rules(script):
    for title, before, texts in AFTER:
        script.note(title)
        script.read(before, *SIZES)
        for text in texts:
            line, _, number = text.partition(" ")
            script.line(line, int(number or 0))


def classes_of(script):
    """All six classes, characters and none, by what the lent tables hold."""
    script.note("all six classes; refused lines between, which leave all as it was")
    lent = Lent(*SIZES).page()
    script.read(("P>9", "D>3F>30FB", "S>20>0020", "S>40>0041", "S>41>-", "L>81", "L>90"), *SIZES)
    lent.put(classes={0x20: 1, 0x40: 1, 0x41: 1, 0x81: 2, 0x90: 2}, singles={0x20: 0x20, 0x40: 0x41}).empty("pairs", 0).empty("pairs", 1)
    script.expect("lent", lent.text())
    for text in ("L>90", "L>20", "S>42>0042", "P>9", "D>3F>30FB", "T>4", "M>8140>3000", "L>FF>"):
        script.line(text, 22)
    script.expect("lent", lent.text())
    script.give(("T>40", "T>90", "T>A0"))
    script.expect("lent", lent.put(classes={0x40: 5, 0x90: 6, 0xA0: 4}).text())
    for text in ("M>8141>3000", "M>4040>3000", "T>A0", "M>8140>FFFF"):
        script.line(text, 22)
    script.give(("M>8140>3000", "M>9090>3001", "M>90A0>3000"))
    script.expect("lent", lent.put(pairs={0x40: 0x3000, 0x190: 0x3001, 0x1A0: 0x3000}).text())
    script.give(("W>0041>0040", "W>00FF>8140"))
    script.expect("lent", lent.put(index={0: 1}).empty("blocks", 1).put(blocks={0x141: 0x40, 0x1FF: 0x8140}).text())
    script.give(("W>D800>9090", "W>D8FF>90A0", "W>FFFF>0020"))
    lent.put(index={0xD8: 2, 0xFF: 3}).empty("blocks", 2).empty("blocks", 3).put(blocks={0x200: 0x9090, 0x2FF: 0x90A0, 0x3FF: 0x20})
    script.expect("lent", lent.text())
    script.line("W>FFFF>0020", 22)
    script.expect("lent", lent.text())
    script.listed("0 9 3F 30FB 512 1024")
    script.expect("shape", "shape good")
    # A0 may be a second byte and is never a code; 41 is a single without a character, and no second byte
    script.bytes("20404181409090A090A08141")
    script.expect("convert D 555 0 12 20", "convert 0 5 12 9 9 0020004130FB3000300130FB300030FB30FB kept")
    script.units("004100FFFFFFD800")
    script.expect("convert E 555 0 4 20", "convert 0 4 4 5 5 408140203F kept")


def ends(script):
    script.note("the end before P and D, and the shortest listing")
    script.sample()
    script.lend(256, 256, 0, 256, 256)
    script.listed("22")
    script.line("D>3F>30FB", 22)
    script.listed("22")
    script.line("P>9")
    script.listed("22")
    script.line("S>41>0041", 22)
    script.listed("22")
    script.bytes("814041")
    script.expect("convert D 000 0 3 9", "convert 0 0 3 2 2 30000041 kept")
    script.line("D>81>D800")
    script.listed("0 9 81 D800 0 256")
    script.expect("convert D 555 0 3 9", "convert 0 4 3 3 3 D800D800D800 kept")
    script.units("00413000")
    script.expect("convert E 555 0 2 9", "convert 0 1 2 2 2 8181 kept")
    script.whole_list(("P>9", "D>81>D800"))
    script.note("the end is told again, and lines may still come; the table set in hand is as it was at the end")
    script.listed("0 9 81 D800 0 256")
    script.line("S>41>0041")
    script.expect("convert D 555 0 3 9", "convert 0 4 3 3 3 D800D800D800 kept")
    script.line("P>8", 22)
    script.listed("0 9 81 D800 0 256")
    script.expect("convert D 555 0 3 9", "convert 0 4 3 3 3 D800D8000041 kept")
    script.note("a fresh reader begins anew, and leaves the table set in hand alone")
    script.lend(0, 0, 0, 0, 0)
    script.listed("22")
    script.line("S>42>0042", 22)
    script.expect("shape", "shape good")
    script.expect("convert D 555 0 3 9", "convert 0 4 3 3 3 D800D8000041 kept")


# ---------------------------------------------------------------------------------------------------------------
# Tables that are too small
# ---------------------------------------------------------------------------------------------------------------

# Sizes, then lines with their answers.
SMALL = (
    # P: 22 before 23, whatever is too small
    ((0, 0, 0, 0, 0), ("P>9 23", "P>0 22", "P>65536 22", "D>3F>30FB 22", "S>41>0041 22", "P>9 23")),
    ((255, 256, 0, 256, 256), ("P>9 23", "P>0 22", "P>09 22", "D>3F>30FB 22", "P>9 23")),
    ((256, 255, 0, 256, 256), ("P>9 23", "P>0 22")),
    ((256, 256, 0, 255, 256), ("P>9 23", "P>0 22")),
    ((256, 256, 0, 256, 255), ("P>9 23", "P>0 22")),
    ((256, 256, 0, 256, 0), ("P>9 23",)),
    ((0, 300, 33024, 300, 66048), ("P>9 23",)),
    ((300, 0, 33024, 300, 66048), ("P>9 23",)),
    ((300, 300, 33024, 0, 66048), ("P>9 23",)),
    ((300, 300, 33024, 300, 255), ("P>9 23",)),
    # one block is the empty one: the first W needs a second
    ((256, 256, 0, 256, 256), (
        "P>9", "D>3F>30FB", "S>41>0041", "W>0041>0041 23", "W>0041>FFFF 22", "W>004>0041 22", "W>FFFF>0041 23", "T>41", "W>0041>0041 23",
    )),
    ((256, 256, 0, 256, 511), ("P>9", "D>3F>30FB", "W>0041>0041 23", "W>3000>8140 23")),
    ((256, 256, 0, 256, 512), (
        "P>9", "D>3F>30FB", "W>0041>0041", "W>0042>0042", "W>00FF>0043", "W>0100>0044 23", "W>0041>0041 22", "W>FFFF>0045 23",
    )),
    ((256, 256, 0, 256, 767), ("P>9", "D>3F>30FB", "W>0041>0041", "W>0141>0042 23", "W>0042>0042", "W>3000>8140 23")),
    ((256, 256, 0, 256, 768), ("P>9", "D>3F>30FB", "W>0041>0041", "W>0141>0042", "W>0142>0043", "W>0200>0044 23", "W>01FF>0044")),
    # a line that is refused does not count: the next of another high half may take its block
    ((256, 256, 0, 256, 512), ("P>9", "D>3F>30FB", "W>0041>FFFF 22", "W>0141>0041", "W>0041>0041 22", "W>0241>0041 23")),
    # pairs: 256 for each L
    ((256, 256, 0, 256, 256), ("P>9", "D>3F>30FB", "L>81 23", "L>41 22", "L>7F 22", "T>40", "M>8140>3000 22", "L>81 22")),
    ((256, 256, 0, 256, 256), ("P>9", "D>3F>30FB", "S>81>0081", "L>81 22", "L>82 23")),
    ((256, 256, 255, 256, 256), ("P>9", "D>3F>30FB", "L>81 23", "L>8 22", "L>FF 23")),
    ((256, 256, 256, 256, 256), ("P>9", "D>3F>30FB", "L>81", "L>82 23", "L>81 22", "T>40", "M>8140>3000", "M>8240>3001 22")),
    ((256, 256, 511, 256, 256), ("P>9", "D>3F>30FB", "L>81", "L>82 23", "L>81 22", "L>FF 23", "T>40", "M>8140>3000")),
    ((256, 256, 512, 256, 256), ("P>9", "D>3F>30FB", "L>81", "L>FF", "L>FF 22", "L>FE 22", "T>40", "M>FF40>3001")),
)


def small_tables(script):
    script.note("22, then 23: a lent table is too small")
    for sizes, texts in SMALL:
        script.lend(*sizes)
        for text in texts:
            line, _, number = text.partition(" ")
            script.line(line, int(number or 0))
    script.note("the tables stay as before a line that is refused with 23")
    for sizes in ((255, 256, 0, 256, 256), (256, 255, 0, 256, 256), (256, 256, 0, 255, 256), (256, 256, 0, 256, 255)):
        script.lend(*sizes)
        script.line("P>9", 23)
        script.expect("lent", Lent(*sizes).text())
        script.listed("22")
    lent = Lent(256, 256, 511, 256, 767).page().put(classes={0x81: 2}).empty("pairs", 0)
    script.read(("P>9", "D>3F>30FB", "L>81"), 256, 256, 511, 256, 767)
    script.line("L>82", 23)
    script.expect("lent", lent.text())
    script.line("W>0041>0041")
    script.expect("lent", lent.put(index={0: 1}).empty("blocks", 1).put(blocks={0x141: 0x41}).text())
    script.line("W>0141>0041", 23)
    script.expect("lent", lent.text())
    script.listed("0 9 3F 30FB 256 512")
    script.expect("shape", "shape good")
    script.note("no size is asked for before it is needed; larger tables are cut")
    script.read(("P>9", "D>3F>30FB", "S>41>0041"), 300, 299, 33024, 298, 66048)
    lent = Lent(300, 299, 33024, 298, 66048).page().put(classes={0x41: 1}, singles={0x41: 0x41})
    script.expect("lent", lent.text())
    script.listed("0 9 3F 30FB 0 256")
    script.expect("shape", "shape good")
    script.whole_list(("P>9", "D>3F>30FB", "S>41>0041"))


# ---------------------------------------------------------------------------------------------------------------
# High halves: 254, 255 and 256 of them
# ---------------------------------------------------------------------------------------------------------------


def high_lines(highs):
    """For each high half one unit, 41, whose code is the high half and 01."""
    return [f"W>{high:02X}41>{high:02X}01" for high in highs]


def with_blocks(lent, highs):
    """The blocks of high halves, numbered from 1 as they come; the 256th takes the empty one."""
    for number, high in enumerate(highs, 1):
        number %= 256
        if number:
            lent.empty("blocks", number)
        lent.put(index={high: number}, blocks={256 * number + 0x41: 256 * high + 1})
    return lent


HEAD = ("P>9", "D>3F>30FB")


def less_than_all(script):
    script.note("254 high halves: 255 blocks; the next wants one more, whichever it is")
    script.read((*HEAD, *high_lines(range(254))), 256, 256, 0, 256, 65280)
    script.line("W>FE41>FE01", 23)
    script.line("W>FF41>FF01", 23)
    script.line("W>FDFF>0002")
    script.expect("lent", with_blocks(Lent(256, 256, 0, 256, 65280).page(), range(254)).put(blocks={256 * 254 + 0xFF: 2}).text())
    script.listed("0 9 3F 30FB 0 65280")
    script.expect("shape", "shape good")


def all_high_halves(script):
    script.note("255 high halves: 256 blocks, and the empty one is empty; FF is not there")
    for size, number in ((65535, 23), (65536, 0)):
        script.read((*HEAD, *high_lines(range(254))), 256, 256, 0, 256, size)
        script.line("W>FE41>FE01", number)
    script.expect("lent", with_blocks(Lent(256, 256, 0, 256, 65536).page(), range(255)).text())
    script.listed("0 9 3F 30FB 0 65536")
    script.expect("shape", "shape good")
    script.units("0041FD41FE41FE42FF41FF42")
    script.expect("convert E 555 0 6 20", "convert 0 1 6 8 8 01FD01FE013F3F3F kept")
    script.note("256 high halves: FF takes the empty block, and no more are needed")
    script.line("W>FF41>FF01")
    lent = with_blocks(Lent(256, 256, 0, 256, 65536).page(), range(256))
    script.expect("lent", lent.text())
    script.note("further units of FF: the block is not emptied again")
    script.give(("W>FF42>0042", "W>FFFF>FFFE"))
    script.expect("lent", lent.put(blocks={0x42: 0x42, 0xFF: 0xFFFE}).text())
    script.line("W>FFFF>FFFE", 22)
    script.line("W>0041>0041", 22)
    script.expect("lent", lent.text())
    script.listed("0 9 3F 30FB 0 65536")
    script.expect("shape", "shape good")
    script.units("0041FE41FE42FF41FF42FFFFFF00")
    script.expect("convert E 555 0 7 20", "convert 0 1 7 10 10 01FE013FFF0142FFFE3F kept")
    script.whole_list((*HEAD, *high_lines(range(256)), "W>FF42>0042", "W>FFFF>FFFE"))


def other_high_halves(script):
    script.note("256 high halves in the largest tables: the rest is unchanged")
    script.read((*HEAD, *high_lines(range(256))), *LARGEST)
    script.expect("lent", with_blocks(Lent(*LARGEST).page(), range(256)).text())
    script.listed("0 9 3F 30FB 0 65536")
    script.note("FF as the 255th: it has a block of its own")
    without_80 = [high for high in range(256) if high != 0x80]
    script.read((*HEAD, *high_lines(without_80), "W>FF42>0042"), 256, 256, 0, 256, 65536)
    script.expect("lent", with_blocks(Lent(256, 256, 0, 256, 65536).page(), without_80).put(blocks={256 * 255 + 0x42: 0x42}).text())
    script.listed("0 9 3F 30FB 0 65536")
    script.note("a few high halves: blocks are numbered as they come, and FF is one as others")
    few = (0x00, 0x03, 0x30, 0x4E, 0xFF)
    script.read((*HEAD, *high_lines(few), "W>FFFF>0041"), 256, 256, 0, 256, 1536)
    script.expect("lent", with_blocks(Lent(256, 256, 0, 256, 1536).page(), few).put(blocks={256 * 5 + 0xFF: 0x41}).text())
    script.listed("0 9 3F 30FB 0 1536")


def most_leads(script):
    script.note("128 leads, all bytes second: 32,768 pairs")
    leads = [f"L>{byte:02X}" for byte in range(0x80, 0x100)]
    seconds = [f"T>{byte:02X}" for byte in range(0x100)]
    for size in (32512, 32767):
        script.read((*HEAD, *leads[:127]), 256, 256, size, 256, 256)
        script.line("L>FF", 23)
    script.lend(256, 256, 32768, 256, 256)
    script.give((*HEAD, *leads, *seconds, "M>8000>3000", "M>80FF>3001", "M>FF00>3002", "M>FFFF>3003"))
    lent = Lent(256, 256, 32768, 256, 256).page()
    for number in range(128):
        lent.empty("pairs", number)
    lent.put(classes={byte: 6 if byte >= 0x80 else 4 for byte in range(256)})
    lent.put(pairs={0: 0x3000, 255: 0x3001, 32512: 0x3002, 32767: 0x3003})
    script.expect("lent", lent.text())
    script.listed("0 9 3F 30FB 32768 256")
    script.expect("shape", "shape good")
    script.bytes("8000FFFF41")
    script.expect("convert D 555 0 5 9", "convert 0 4 5 3 3 3000300330FB kept")


# ---------------------------------------------------------------------------------------------------------------
# The writer
# ---------------------------------------------------------------------------------------------------------------

SAMPLE_W = SAMPLE_LISTING.index("W>0000>0000")
ODD_CODES = (
    *SAMPLE_LISTING[:SAMPLE_W], "W>0100>00FF", "W>0101>0100", "W>0102>0081", "W>0103>FFFE", "W>0104>0000", "W>D83D>0044", "W>FFFF>0041",
)
MORE_SECONDS = (
    *SAMPLE_LISTING[:SAMPLE_LISTING.index("L>82") + 1], "L>83", *(f"T>{byte:02X}" for byte in range(0x40, 0x7F)), "T>83", "T>84",
    "M>8140>3000", "M>8141>3001", "M>8184>6C35", "M>827C>4E00", "M>8283>6C36", "M>8383>6C34", *SAMPLE_LISTING[SAMPLE_W:],
)
SPREAD = (
    *SAMPLE_LISTING[:SAMPLE_LISTING.index("S>80>-")], "S>A0>00A0", "L>80", "L>BF", "L>C0", "L>FF",
    *(f"T>{byte:02X}" for byte in range(0x40, 0x7F)), "M>8040>5000", "M>BF40>5001", "M>C040>5002", "M>FF40>5003", *SAMPLE_LISTING[SAMPLE_W:],
)


# The block of 30 is that of 01 and FF too.
SHARED = (
    *SAMPLE_LISTING[: SAMPLE_LISTING.index("W>3000>8140")], "W>0100>8140", "W>0101>8141",
    *SAMPLE_LISTING[SAMPLE_LISTING.index("W>3000>8140") :], "W>FF00>8140", "W>FF01>8141",
)

# Whole listings.
WRITTEN = (("sample", sample, SAMPLE_LISTING), ("odd_codes", odd_codes, ODD_CODES), ("shared_block", shared_block, SHARED))
# The first lines of listings: where the codes begin, they are as on the sample page. What a class hides is not listed.
BEGUN = (
    ("hidden", hidden_entries, SAMPLE_LISTING[: SAMPLE_W + 1]),
     ("more_seconds", more_seconds, MORE_SECONDS[: -len(SAMPLE_LISTING) + SAMPLE_W + 1]),
    ("spread_leads", spread_leads, SPREAD[: -len(SAMPLE_LISTING) + SAMPLE_W + 1]), ("odd_defaults", odd_defaults, ("P>7", "D>81>D800",
     "S>00>0000")),
    ("default_ffff", default_ffff, ("P>7", "D>3F>FFFF")), ("page_1", set_page(1), ("P>1",)), ("page_65001", set_page(65001),
     ("P>65001",)),
    ("page_65535", set_page(65535), ("P>65535", "D>3F>30FB", "S>00>0000")),
)


def written(script):
    for name, change, texts in WRITTEN:
        script.note(f"the listing of the tables {name}")
        script.table(f"{name}.tbl", edited(change))
        script.whole_list(texts)
    for name, change, texts in BEGUN:
        script.note(f"the beginning of the listing of the tables {name}")
        script.table(f"{name}.tbl", edited(change))
        script.expect("lister", "lister")
        script.lists(texts)


def returned(script):
    """Listings read back: the same characters and codes, in tables whose blocks are numbered anew."""
    script.note("the listing of the sample page, read back: all five tables are those of its image")
    script.read(SAMPLE_LISTING, 256, 256, 512, 256, 1024)
    script.expect("lent", tables_text(edited(sample)))
    script.listed("0 7 3F 30FB 512 1024")
    script.whole_list(SAMPLE_LISTING)
    script.note("a block that two high halves share is two blocks, once it is read back; hidden entries are gone")
    script.read(SHARED, 256, 256, 512, 256, 1536)
    tables = edited(sample)
    tables.set_codes({
        **{unit: unit for unit in range(0x80)}, 0xA0: 0x20, 0x100: 0x8140, 0x101: 0x8141, 0x3000: 0x8140, 0x3001: 0x8141, 0x4E00: 0x827C,
        0xFF00: 0x8140, 0xFF01: 0x8141,
    })
    script.expect("lent", tables_text(tables))
    script.listed("0 7 3F 30FB 512 1536")
    script.units("0100010130003001FF00FF010102FF02")
    script.expect("convert E 155 0 8 20", "convert 0 1 8 12 12 814081418140814181408141 kept")


def rooms_of_lines(script):
    script.note("19: a line needs all its bytes; the writer stays, and nothing is written")
    script.read(("P>65535", "D>3F>30FB", "S>41>0041", "S>80>-", "L>81", "T>40", "M>8140>3000", "W>0041>0041"), 256, 256, 256, 256, 512)
    script.listed("0 65535 3F 30FB 256 512")
    script.expect("lister", "lister")
    for text in ("P>65535", "D>3F>30FB", "S>41>0041", "S>80>-", "L>81", "T>40", "M>8140>3000", "W>0041>0041"):
        size = len(text) + 1
        for room in (0, 1, size - 1, size - 1):
            script.expect(f"list {room}", "list 19 kept")
        script.lists((text,), (size,))
    for room in (0, 1, 12, 300):
        script.expect(f"list {room}", "list done kept")
    script.expect("lister", "lister")
    script.lists(("P>65535",), (300,))
    script.lists(("D>3F>30FB",), (11,))
    script.expect("lister", "lister")
    script.lists(("P>65535",), (9,))


def writer_stays(script):
    script.note("10, then done, then 19; the writer stays")
    script.sample()
    script.expect("lister", "lister")
    script.lists(SAMPLE_LISTING[:2])
    for name, change in BAD_TABLES:
        script.table(f"{name}.tbl", edited(change))
        for room in (0, 9, 12, 300):
            script.expect(f"list {room}", "list 10 kept")
    script.note("another table set: the writer goes on behind the line that it wrote last")
    script.table("page_9.tbl", edited(set_page(9)))
    script.lists(SAMPLE_LISTING[2:4])
    script.expect("list 9", "list 19 kept")
    script.lists(SAMPLE_LISTING[4:5])
    script.read(("P>9", "D>3F>30FB", "S>01>0001", "T>01"), 256, 256, 0, 256, 256)
    script.listed("0 9 3F 30FB 0 256")
    script.lists(("T>01",))
    script.expect("list 12", "list done kept")
    script.table("page_0.tbl", edited(set_page(0)))
    script.expect("list 12", "list 10 kept")
    script.expect("lister", "lister")
    script.expect("list 12", "list 10 kept")


# ---------------------------------------------------------------------------------------------------------------
# What is no command, and what stays
# ---------------------------------------------------------------------------------------------------------------

P9 = line_hex("P>9;")
NOT_COMMANDS = (
    "lend", "lend ", "lend 256", "lend 256 256 0 256", "lend 256 256 0 256 256 256", "lend 256 256 0 256 256 ", " lend 256 256 0 256 256",
    "lend  256 256 0 256 256", "Lend 256 256 0 256 256", "LEND 256 256 0 256 256", "lend 256,256,0,256,256", "lend 301 256 0 256 256",
    "lend 256 301 0 256 256", "lend 256 256 33025 256 256", "lend 256 256 0 301 256", "lend 256 256 0 256 66049",
    "lend 0256 256 0 256 256",
    "lend -1 256 0 256 256", "lend - 256 0 256 256", f"lend {MOST} 256 0 256 256", f"lend {MOST + 257} 256 0 256 256",
    f"lend {2**32 + 256} 256 0 256 256",
    "lend 256 256 0 256 x", f"lend 256 256 0 256 {'1' * 5000}",
    "line", "line ", "line 5", f"line {P9} ", f"line {P9} {P9}", f" line {P9}", f"line  {P9}", f"Line {P9}", f"LINE {P9}",
    f"lines {P9}", f"line {P9}0",
    f"line {P9.lower()}", f"line {P9[:-1]}", "line P>9", "line P\t9", f"line\t{P9}", f"line -{P9}", f"line {P9}-", "line --",
    "lent 0", "lent ", " lent", "Lent", "lents", "listed 0", "listed ", " listed", "Listed", "LISTED", "lister 0", "lister ", " lister",
    "Lister", "list", "list ", "list 301", "list -", "list 012", "list 12 12", "list 12 ", " list 12", "List 12", "list -1", "list +12",
    "list x",
    f"list {MOST}",
    f"list {MOST + 13}", f"list {2**32 + 12}", f"list {'1' * 5000}", "listing", "listing 12", "read", "write 12",
)


def commands(script):
    script.note("what is no command changes nothing: neither the reader nor the writer")
    script.sample()
    script.read(("P>9",), 256, 256, 0, 256, 256)
    script.expect("lister", "lister")
    script.lists(("P>7",))
    broken = (f"line {P9}\r".encode("ascii"), b"list 12\r", b"lent\r", b"listed\x00", b"lister\r", b"lend 256 256 0 256 256\r")
    for line in (*NOT_COMMANDS, *broken):
        script.expect(line, "?")
    script.line("D>3F>30FB")
    script.expect("lent", Lent(256, 256, 0, 256, 256).page().text())
    script.lists(("D>3F>30FB",), (300,))
    script.note("sizes at their limits; long lines and none")
    for sizes in ((0, 0, 0, 0, 0), LARGEST, (1, 2, 3, 4, 5)):
        script.lend(*sizes)
        script.expect("lent", Lent(*sizes).text())
    script.raw(b"P" * 1000, 22)
    script.raw(b"P\t9\n" * 500, 22)
    script.expect("line -", "line 22")


def left(script):
    script.sample()
    lent = Lent(256, 256, 256, 256, 512).page()
    left_alone(script, (
        ("lend 256 256 256 256 512", "lend 256 256 256 256 512"), (f"line {P9}", "line 0"), (f"line {P9}", "line 22"),
         ("lent", lent.text()),
        ("listed", "listed 22"), ("lister", "lister"), ("list 12", f"list 0 4 {line_hex('P>7;')} kept"), ("list 9", "list 19 kept"),
        (f"line {line_hex('D>3F>30FB;')}", "line 0"), (f"line {line_hex('L>81;')}", "line 0"),
    ))
    script.note("other commands leave the lent tables, the reader and the writer alone")
    script.bytes("41")
    script.units("0041")
    script.start("D", 7, "555")
    script.expect("decode 0 1 last 1", "decode 0 1 1 0041 kept D 7 5 5 5 - 0 1 1 over")
    script.expect("hold 300", "hold 300")
    script.expect("index 2", "index 2")
    script.expect("spell 0 1 9", "spell 0 1 41 kept")
    script.expect("findings 555 0 1 9", "findings 0 0 0 kept")
    script.table("more_seconds.tbl", edited(more_seconds))
    script.expect("table missing.tbl", "table -")
    script.expect("shape", "shape good")
    script.expect("lent", lent.put(classes={0x81: 2}).empty("pairs", 0).text())
    script.line("L>80", 22)
    script.line("T>40")
    script.lists(("D>3F>30FB", "S>00>0000"), (10,))
    script.line("M>8140>3000")
    script.expect("lent", lent.put(classes={0x40: 4}, pairs={0x40: 0x3000}).text())
    script.listed("0 9 3F 30FB 256 256")
    script.lists(("L>81", "T>40", "M>8140>3000"))
    script.expect("list 12", "list done kept")


def listing_script():
    script = ListingScript()
    script.note("Table listings (document 02, CR 3): read and written line by line, by hand")
    commands(script)
    example(script)
    pages_of_lines(script)
    broken_lines(script)
    orders(script)
    rules(script)
    classes_of(script)
    ends(script)
    small_tables(script)
    less_than_all(script)
    all_high_halves(script)
    other_high_halves(script)
    most_leads(script)
    written(script)
    returned(script)
    rooms_of_lines(script)
    writer_stays(script)
    left(script)
    return script


# ---------------------------------------------------------------------------------------------------------------
# The real pages
# ---------------------------------------------------------------------------------------------------------------

SOME = 60  # about so many lines of `S`, `M` and `W` are read of a page


def read_tables(image):
    """The table set of an image."""
    page, default_byte, _, default_unit, _ = struct.unpack_from("<HBBHH", image)
    tables, place = Tables(page, default_byte, default_unit), 28
    for name, form, size in zip(NAMES, FORMS, struct.unpack_from("<5I", image, 8)):
        setattr(tables, name, list(struct.unpack_from(f"<{size}{form}", image, place)))
        place += size * struct.calcsize(form)
    return tables


def lines_of(tables):
    """The listing of a table set of good shape."""
    classes, leads = tables.classes, tables.leads()
    singles = [(byte, tables.singles[byte]) for byte in range(256) if classes[byte] in (SINGLE, SINGLE + SECOND)]
    seconds = [byte for byte in range(256) if classes[byte] >= SECOND]
    pairs = [(256 * lead + second, tables.pairs[256 * block + second]) for block, lead in enumerate(leads) for second in seconds]
    codes = [(256 * high + low, tables.blocks[256 * block + low]) for high, block in enumerate(tables.index) for low in range(256)]
    return [
        f"P>{tables.page}", f"D>{tables.default_byte:02X}>{tables.default_unit:04X}",
        *(f"S>{byte:02X}>{'-' if unit == NONE else format(unit, '04X')}" for byte, unit in singles), *(f"L>{byte:02X}" for byte in leads),
        *(f"T>{byte:02X}" for byte in seconds), *(f"M>{code:04X}>{unit:04X}" for code, unit in pairs if unit != NONE),
        *(f"W>{unit:04X}>{code:04X}" for unit, code in codes if code != NONE),
    ]


def tables_of(texts):
    """The table set of a listing, each table of the size needed."""
    of = {letter: [text.split(">")[1:] for text in texts if text[0] == letter] for letter in "PDSLTMW"}
    tables = Tables(int(of["P"][0][0]), int(of["D"][0][0], 16), int(of["D"][0][1], 16))
    for byte, unit in of["S"]:
        tables.classes[int(byte, 16)] = SINGLE
        tables.singles[int(byte, 16)] = NONE if unit == "-" else int(unit, 16)
    for (byte,) in of["L"]:
        tables.classes[int(byte, 16)] = LEAD
    for (byte,) in of["T"]:
        tables.classes[int(byte, 16)] += SECOND
    tables.make_pair_blocks()
    for code, unit in of["M"]:
        tables.set_pair(int(code, 16), int(unit, 16))
    codes = {int(unit, 16): int(code, 16) for unit, code in of["W"]}
    # the 256th high half stands in the empty block
    last = {unit: code for unit, code in codes.items() if unit >= 0xFF00} if len({unit >> 8 for unit in codes}) == 256 else {}
    tables.set_codes({unit: code for unit, code in codes.items() if unit not in last})
    for unit, code in last.items():
        tables.blocks[unit & 0xFF] = code
    return tables


def sizes_of(tables):
    return [len(getattr(tables, name)) for name in NAMES]


def read_back(script, texts, tables, sizes=None):
    """A listing read into tables just large enough, or of these sizes; what they hold, and the end."""
    script.read(texts, *(sizes or sizes_of(tables)))
    if sizes is None:
        script.expect("lent", tables_text(tables))
    script.listed(f"0 {tables.page} {tables.default_byte:02X} {tables.default_unit:04X} {len(tables.pairs)} {len(tables.blocks)}")
    script.expect("shape", "shape good")


def whole_page_script(image_name, tables):
    """The listing of a page, written and read back: into tables just large enough, and into the largest."""
    script = ListingScript()
    script.note(f"The listing of {image_name}, all of it")
    script.table(image_name, tables)
    texts = lines_of(tables)
    script.whole_list(texts)
    read_back(script, texts, tables)
    read_back(script, texts, tables, LARGEST)
    return script


def in_part(texts):
    """A part of a listing: all lines but those of `S`, `M` and `W`, of which some are taken evenly, the first among them."""
    part = []
    for letter in "PDSLTMW":
        lines = [text for text in texts if text[0] == letter]
        part += lines[:: max(len(lines) // SOME, 1)] if letter in "SMW" else lines
    return part


def pages_script(images):
    """The listings of the real pages, from the tables of their images by page: their first lines written, and a part of each read."""
    script = ListingScript()
    script.note("Table listings (document 02, CR 3) of the real pages: told from the tables of their images")
    for page, image in images.items():
        tables = read_tables(image)
        texts = lines_of(tables)
        part = in_part(texts)
        script.note(f"page {page}")
        script.table(f"cp{page}.tbl", tables)
        script.expect("lister", "lister")
        script.lists(texts[:20])
        read_back(script, part, tables_of(part))
        script.whole_list(part)
    return script
