"""The console script index: the index of a journal, and the nth character by it (a module of make_scripts.py).

Document 02, CR 11. Of each journal the codes are written by hand. What a right index has and where code n is, is told from them: a
block is marked where no code starts at its first byte, and the codes that start before it are counted. Of a wrong index each answer
is written by hand.
"""

import itertools

from break_scripts import BAD_TABLES, HALF, MOST
from fixed_scripts import LIMIT, Script, edited, left_alone, low_bytes, more_seconds, no_leads, spread_leads

BLOCK = 512
FILL = "61166/1"
LARGEST = 2147483647  # the largest count of an entry


class Journal:
    """A journal by its codes: how many, and the code in hex, of each part."""

    def __init__(self, *parts):
        codes = [code for count, code in parts for _ in range(count)]
        self.text = "".join(codes)
        self.places = list(itertools.accumulate((len(code) // 2 for code in codes), initial=0))
        self.starts = set(self.places)
        self.size = self.places[-1]

    def entries(self, size):
        """The index of its first bytes, made anew. A code that they cut starts where it did."""
        begins = range(0, size, BLOCK)
        return [f"{sum(place < begin for place in self.places)}/{int(begin not in self.starts)}" for begin in begins]

    def code(self, number, size):
        """Code `number` of its first bytes; a lead that they end with is a code of one byte."""
        if number >= len(self.places) - 1 or self.places[number] >= size:
            return "find 29"
        return f"find 0 {self.places[number]} {min(self.places[number + 1], size) - self.places[number]}"

    def code_count(self, size):
        return sum(place < size for place in self.places)


def entries_text(entries):
    return " ".join(entries) or "-"


def lent(script, size, entries=()):
    """An index of this size; then its first entries are set, each as COUNT/MARK, those that are None stay the fill."""
    script.expect(f"index {size}", f"index {size}")
    for place, entry in enumerate(entries):
        if entry is not None:
            script.expect(f"entry {place} {entry.replace('/', ' ')}", f"entry {place}")


def filled(entries, size):
    """The entries of a lent index: these, then the fill."""
    return [FILL if entry is None else entry for entry in entries] + [FILL] * (size - len(entries))


# ---------------------------------------------------------------------------------------------------------------
# Right indexes, told from the codes
# ---------------------------------------------------------------------------------------------------------------

# Journals of the sample page, a little longer than two blocks: what stands at the ends of their blocks.
AT_BLOCK_ENDS = {
    "codes of one byte": Journal((1030, "41")),
    "codes of two bytes, none across": Journal((515, "8140")),
    "codes of two bytes across both ends": Journal((1, "41"), (515, "827C")),
    "a code across the first end only": Journal((511, "42"), (1, "8140"), (1, "8141"), (515, "43")),
    "a code across the second end only": Journal((1023, "42"), (1, "827C"), (5, "41")),
    "undefined pairs across": Journal((511, "41"), (1, "815A"), (510, "41"), (1, "825A"), (4, "41")),
    "a lead and a byte below 80 that may not be second": Journal((511, "41"), (1, "81"), (1, "0A"), (510, "42"), (1, "82"), (4, "0A")),
    "a lead and a byte of 80 or more that may not be second": Journal((511, "41"), (1, "8280"), (510, "41"), (1, "81A0"), (4, "41")),
    "leads alone": Journal((1, "41"), (515, "8181")),
    "bytes that are never a code, and undefined ones": Journal((400, "83"), (111, "80"), (1, "A0"), (300, "FF"), (211, "0A"), (9, "84")),
    "a code that begins at the block": Journal((512, "41"), (1, "8140"), (509, "41"), (1, "41"), (1, "8140"), (3, "41")),
}
EDGES = (0, 1, 510, 511, 512, 513, 1023, 1024, 1025)


def splits(script):
    """Every split of a journal at two of the edges: the index of the first bytes, gone on with, is the one made anew."""
    for title, journal in AT_BLOCK_ENDS.items():
        script.note(f"all splits around the ends of blocks: {title}")
        script.bytes(journal.text)
        for former, size in itertools.combinations_with_replacement((*EDGES, journal.size), 2):
            lent(script, 4)
            for before, after in ((0, former), (former, size)):
                script.expect(f"append {before} {after}", f"append 0 {entries_text(filled(journal.entries(after), 4))}")


def byte_by_byte(script):
    for title in ("codes of two bytes across both ends", "a lead and a byte below 80 that may not be second", "leads alone"):
        journal = AT_BLOCK_ENDS[title]
        script.note(f"byte by byte over the ends of blocks: {title}")
        script.bytes(journal.text)
        for first in (509, 1021):
            lent(script, 3)
            script.expect(f"append 0 {first}", f"append 0 {entries_text(filled(journal.entries(first), 3))}")
            for size in range(first + 1, first + 7):
                script.expect(f"append {size - 1} {size}", f"append 0 {entries_text(filled(journal.entries(size), 3))}")


def numbers_asked(journal, size):
    """Numbers about the counts of the entries and the number of codes, and large ones."""
    counts = [int(entry.split("/")[0]) for entry in journal.entries(size)] + [journal.code_count(size)]
    near = {count + step for count in counts for step in (-2, -1, 0, 1) if count + step >= 0}
    return sorted(near | {300, 2**32 - 1, 2**32, HALF, MOST})


def every_code(script):
    """Finding with a right index, at every edge, and with the whole journal every code about the ends of its blocks."""
    for title, journal in AT_BLOCK_ENDS.items():
        script.note(f"code n by a right index: {title}")
        script.bytes(journal.text)
        for size in (1, 511, 512, 513, 1024, 1025, journal.size):
            lent(script, 3)
            script.expect(f"append 0 {size}", f"append 0 {entries_text(filled(journal.entries(size), 3))}")
            for number in numbers_asked(journal, size):
                script.expect(f"find {number} {size}", journal.code(number, size))


ON_OTHER_TABLES = (
    # 83 is a lead and may be second, 84 is never a code and may be second
    ("more_seconds", more_seconds, (
        Journal((1, "41"), (300, "8383")), Journal((511, "84"), (1, "8184"), (2, "84")), Journal((511, "41"), (1, "8383"), (1, "84")),
    )),
    # 0E, 7F and 80 may be second; 7E may not; 0B is never a code
    ("low_bytes", low_bytes, (
        Journal((511, "0B"), (1, "810E"), (3, "41")), Journal((511, "41"), (1, "81"), (1, "7E"), (3, "41")),
        Journal((511, "41"), (1, "8180"), (3, "41")), Journal((511, "41"), (1, "81"), (1, "0B"), (3, "41")),
    )),
    ("no_leads", no_leads, (Journal((520, "81")), Journal((1, "41"), *((1, "81"), (1, "40")) * 260))),
    ("spread_leads", spread_leads, (Journal((511, "81"), (1, "8040"), (1, "FF40")), Journal((1, "BF"), (1, "00"), (260, "C040")))),
)


def other_tables(script):
    for name, change, journals in ON_OTHER_TABLES:
        script.note(f"with the tables {name}")
        script.table(f"{name}.tbl", edited(change))
        for journal in journals:
            script.bytes(journal.text)
            for former in (0, 511, 512):
                lent(script, 2)
                for before, after in ((0, former), (former, journal.size)):
                    script.expect(f"append {before} {after}", f"append 0 {entries_text(filled(journal.entries(after), 2))}")
            for number in numbers_asked(journal, journal.size):
                script.expect(f"find {number} {journal.size}", journal.code(number, journal.size))
    script.sample()


def long_journals(script):
    script.note("65,536 bytes: 128 entries, in an index that is just long enough; one byte more is refused")
    script.expect("fillbytes 65537 8140", "bytes 65537")
    lent(script, 128)
    even = [f"{256 * block}/0" for block in range(128)]
    script.expect("append 0 65535", f"append 0 {entries_text(even)}")
    script.expect("find 32767 65535", "find 0 65534 1")
    script.expect("append 65535 65536", f"append 0 {entries_text(even)}")
    for number, answer in ((0, "0 0 2"), (255, "0 510 2"), (256, "0 512 2"), (20000, "0 40000 2"), (32767, "0 65534 2"), (32768, "29")):
        script.expect(f"find {number} 65536", f"find {answer}")
    script.expect("append 65536 65537", f"append 11 {entries_text(even)}")
    script.expect("find 0 65537", "find 11")
    lent(script, 127)
    script.expect("append 0 65536", f"append 28 {entries_text([FILL] * 127)}")
    script.expect("append 0 65024", f"append 0 {entries_text(even[:127])}")
    script.expect("append 65024 65025", f"append 28 {entries_text(even[:127])}")
    script.expect("find 0 65025", "find 28")
    script.expect("find 0 65024", "find 0 0 2")
    script.note("65,536 codes of one byte; the longest index keeps what is behind the last block")
    script.expect("fillbytes 65536 41", "bytes 65536")
    lent(script, 300)
    entries = [f"{512 * block}/0" for block in range(128)]
    script.expect("append 0 65536", f"append 0 {entries_text(filled(entries, 300))}")
    for number in (0, 511, 512, 65023, 65024, 65535):
        script.expect(f"find {number} 65536", f"find 0 {number} 1")
    script.expect("find 65536 65536", "find 29")


# ---------------------------------------------------------------------------------------------------------------
# Wrong indexes, by hand
# ---------------------------------------------------------------------------------------------------------------

# The journal as count and pattern, the entries, then for each number its place and length, or 29.
FOUND = (
    # document 02: "the last block whose entry counts at most n"; counts that fall
    ("1536 41", "0/0 1100/0 1000/0", {1050: "1074 1", 999: "999 1", 1000: "1024 1", 1099: "1123 1", 1100: "1124 1", 0: "0 1",
                                      1511: "1535 1", 1512: 29}),
    ("1536 41", "0/0 1100/1 1000/1", {1050: "1075 1", 999: "999 1", 1000: "1025 1", 1510: "1535 1", 1511: 29}),
    ("1536 41", "0/0 100/0 1100/0", {99: "99 1", 100: "512 1", 1099: "1511 1", 1100: "1024 1", 1123: "1047 1", 1124: "1048 1"}),
    # reading on does not end with the block
    ("1536 41", "0/0 2000/0 2000/0", {600: "600 1", 1535: "1535 1", 1536: 29, 1999: 29, 2000: "1024 1", 2511: "1535 1", 2512: 29}),
    ("1536 41", "2000/0 0/0 2000/0", {0: "512 1", 600: "1112 1", 1023: "1535 1", 1024: 29}),
    ("1536 41", "2000/0 2000/0 0/0", {0: "1024 1", 511: "1535 1", 512: 29, 2000: 29}),
    # equal counts: the last
    ("1536 41", "0/0 0/0 0/0", {0: "1024 1", 511: "1535 1", 512: 29}),
    ("1536 41", "5/0 5/0 7/0", {4: 29, 5: "512 1", 6: "513 1", 7: "1024 1"}),
    # no block counts at most n
    ("1536 41", "1/0 2/0 3/0", {0: 29, 1: "0 1", 2: "512 1", 3: "1024 1"}),
    ("1536 41", "9/1 9/1 9/1", {0: 29, 8: 29, 9: "1025 1", 519: "1535 1", 520: 29}),
    ("1536 41", f"{LARGEST}/1 {LARGEST}/1 {LARGEST}/1", {0: 29, 65535: 29, LARGEST - 1: 29, LARGEST: "1025 1", LARGEST + 510: "1535 1",
                                                       LARGEST + 511: 29, LIMIT: 29, MOST: 29}),
    # a mark on block 0: the code from 1 on is counted
    ("1536 41", "0/1 511/0 1023/0", {0: "1 1", 510: "511 1", 511: "512 1", 1023: "1024 1", 1534: "1535 1", 1535: 29}),
    ("3 8140", "0/1", {0: "1 1", 1: "2 1", 2: 29}),
    ("2 8140", "0/1", {0: "1 1", 1: 29}),
    ("1 41", "0/1", {0: 29}),
    ("1 41", "1/0", {0: 29, 1: "0 1", 2: 29}),
    # a mark that is wrong cuts codes of two bytes; one that is missing reads their second byte
    ("1030 8140", "0/0 256/1 512/0", {255: "510 2", 256: "513 1", 257: "514 2", 511: "1022 2", 512: "1024 2", 514: "1028 2", 515: 29}),
    ("1030 8140", "0/1 256/1 513/1", {0: "1 1", 1: "2 2", 255: "510 2", 256: "513 1", 512: "1024 2", 513: "1025 1", 514: "1026 2"}),
    ("1030 4081", "0/0 257/0 513/1", {0: "0 1", 1: "1 2", 256: "511 2", 257: "512 1", 258: "513 2", 512: "1021 2", 513: "1025 2"}),
    # the last block has one byte, and its mark says that no code starts there
    ("1025 41", "0/0 512/0 1024/1", {1023: "1023 1", 1024: 29, 1025: 29}),
    ("513 41", "0/0 0/1", {0: 29, 1: 29, 511: 29}),
    # entries behind the journal's blocks are not asked
    ("1024 41", "0/0 512/0 700/0", {700: "700 1", 1023: "1023 1", 1024: 29}),
    ("512 41", "0/0 0/0 0/0", {0: "0 1", 511: "511 1", 512: 29}),
    ("1 41", "0/0 0/0 0/0", {0: "0 1", 1: 29}),
    # a number of 64 bits is not cut to its low bits
    ("600 41", "0/0 512/0", {5: "5 1", 256: "256 1", 2**16 + 5: 29, 2**31 + 5: 29, 2**32 + 5: 29, HALF + 5: 29, MOST: 29, MOST - 1: 29}),
    ("600 41", f"0/0 {LARGEST}/0", {599: "599 1", 600: 29, LARGEST: "512 1", LARGEST + 1: "513 1", LARGEST + 87: "599 1", LARGEST + 88: 29,
                                    LIMIT: 29, 2**32 + LARGEST: 29, MOST: 29}),
)


def found(script):
    for text, entries, answers in FOUND:
        size, pattern = text.split(" ")
        script.note(f"code n by a wrong index: {text}, entries {entries}")
        script.expect(f"fillbytes {text}", f"bytes {size}")
        entries = entries.split(" ")
        lent(script, len(entries), entries)
        for number, answer in answers.items():
            script.expect(f"find {number} {size}", f"find {answer if answer == 29 else f'0 {answer}'}")


# The journal, the entries before, former length and length, the number answered and the entries after (`=`: as before).
APPENDED = (
    # an index that is empty at first: nothing of it is asked
    ("1030 41", "9/1 9/1 9/1 9/1", "0 1030", 0, "0/0 512/0 1024/0 9/1"),
    ("1030 41", "9/1 9/1 9/1 9/1", "0 512", 0, "0/0 9/1 9/1 9/1"),
    ("1030 41", "9/1 9/1 9/1 9/1", "0 1", 0, "0/0 9/1 9/1 9/1"),
    ("1030 41", "9/1 9/1 9/1 9/1", "0 0", 0, "="),
    # the former last entry stays, and is gone on from by its count and mark
    ("1030 41", "0/1 9/0 9/0 9/1", "1 1030", 0, "0/1 511/0 1023/0 9/1"),
    ("1030 41", "0/1 9/0 9/0 9/1", "512 1030", 0, "0/1 511/0 1023/0 9/1"),
    ("1030 41", "7/1 9/0 9/0 9/1", "513 1030", 0, "7/1 9/0 521/0 9/1"),
    ("1030 41", "7/1 9/1 9/0 9/1", "513 1030", 0, "7/1 9/1 520/0 9/1"),
    ("1030 41", "7/1 9/1 9/0 9/1", "1024 1030", 0, "7/1 9/1 520/0 9/1"),
    ("1030 41", "7/1 9/1 8/0 9/1", "1025 1030", 0, "="),
    ("1030 41", "7/1 0/0 8/0 9/1", "513 1025", 0, "7/1 0/0 512/0 9/1"),
    # the same length: nothing is changed, and the entry is asked all the same
    ("1030 41", "7/1 9/1 8/0 9/1", "1030 1030", 0, "="),
    ("1030 41", "0/1 9/1 8/0 9/1", "512 512", 0, "="),
    ("1030 41", "1/0 9/1 8/0 9/1", "512 512", 28, "="),
    ("1030 41", "1/0 9/1 1025/0 9/1", "1030 1030", 28, "="),
    # as many codes as bytes before the block, and one more
    ("1030 41", "0/0 512/0 9/0 9/1", "600 1030", 0, "0/0 512/0 1024/0 9/1"),
    ("1030 41", "0/0 512/1 9/0 9/1", "600 1030", 0, "0/0 512/1 1023/0 9/1"),
    ("1030 41", "0/0 513/0 9/0 9/1", "600 1030", 28, "="),
    ("1030 41", "0/0 513/1 9/0 9/1", "513 1030", 28, "="),
    ("1030 41", "0/0 9/0 1024/1 9/1", "1025 1030", 0, "="),
    ("1030 41", "0/0 9/0 1025/1 9/1", "1025 1030", 28, "="),
    ("1030 41", "1/0 9/0 9/0 9/1", "1 1030", 28, "="),
    ("1030 41", "1/0 9/0 9/0 9/1", "512 1030", 28, "="),
    ("1030 41", f"{LARGEST}/1 9/0 9/0 9/1", "1 1030", 28, "="),
    ("1030 41", f"0/0 {LARGEST}/1 9/0 9/1", "513 1030", 28, "="),
    # other entries are not asked: of the former blocks before the last, and of those to come
    ("1030 41", f"{LARGEST}/1 512/0 {LARGEST}/1 {LARGEST}/1", "513 1030", 0, f"{LARGEST}/1 512/0 1024/0 {LARGEST}/1"),
    ("1030 41", f"{LARGEST}/1 {LARGEST}/0 1024/0 9/1", "1025 1030", 0, "="),
    ("1030 41", f"{LARGEST}/1 600/1 9/0 9/1", "0 513", 0, "0/0 512/0 9/0 9/1"),
    # codes of two bytes, gone on from a wrong mark
    ("1030 8140", "0/1 9/0 9/0 9/1", "2 1030", 0, "0/1 256/0 512/0 9/1"),
    ("1030 8140", "0/0 256/1 9/0 9/1", "600 1030", 0, "0/0 256/1 512/0 9/1"),
    ("1030 4081", "0/0 257/0 9/0 9/1", "600 1030", 0, "0/0 257/0 514/1 9/1"),
    ("1030 4081", "0/1 9/0 9/0 9/1", "600 600", 0, "="),
    ("1030 4081", "0/1 9/0 9/0 9/1", "500 600", 0, "0/1 256/1 9/0 9/1"),
    # a former length that ends a block is of that block: the entry behind it is not asked
    ("1030 8140", f"0/0 {LARGEST}/1 9/0 9/1", "512 513", 0, "0/0 256/0 9/0 9/1"),
    ("1030 8140", "0/0 256/0 700/1 9/1", "1024 1025", 0, "0/0 256/0 512/0 9/1"),
    # the index is just long enough, and too short by one
    ("1030 41", "9/1 9/1 9/1", "0 1030", 0, "0/0 512/0 1024/0"),
    ("1030 41", "9/1 9/1 9/1", "0 1025", 0, "0/0 512/0 1024/0"),
    ("1030 41", "9/1 9/1", "0 1024", 0, "0/0 512/0"),
    ("1030 41", "9/1 9/1", "0 1025", 28, "="),
    ("1030 41", "0/0 512/0", "1024 1025", 28, "="),
    ("1030 41", "0/0 512/0", "1024 1024", 0, "="),
    ("1030 41", "9/1", "0 512", 0, "0/0"),
    ("1030 41", "9/1", "0 513", 28, "="),
    ("1030 41", "0/0", "600 1030", 28, "="),
    # the former length is over the journal's: before all that is asked of the index
    ("1030 41", "0/0 512/0 1024/0", "1030 1029", 33, "="),
    ("1030 41", "0/0 512/0 1024/0", "1 0", 33, "="),
    ("1030 41", "1/0 513/0 1025/0", "1030 600", 33, "="),
    ("1030 41", "1/0", "1030 600", 33, "="),
    ("1030 41", "0/0 512/0 1024/0", f"{2**32} 1030", 33, "="),
    ("1030 41", "0/0 512/0 1024/0", f"{HALF} 1030", 33, "="),
    ("1030 41", "0/0 512/0 1024/0", f"{2**32 + 512} 1030", 33, "="),
    ("1030 41", "0/0 512/0 1024/0", f"{MOST} 1030", 33, "="),
    ("1030 41", "0/0 512/0 1024/0", f"{MOST} 0", 33, "="),
    # over 65,536 bytes: before 33 and 28
    ("66000 41", "0/0 512/0", "0 65537", 11, "="),
    ("66000 41", "1/0 512/0", "66000 65537", 11, "="),
    ("66000 41", "1/0 512/0", "1 66000", 11, "="),
)


def appended(script):
    script.note("going on from a former last entry, right or wrong; refusals")
    text = None
    for journal, before, lengths, number, after in APPENDED:
        if journal != text:
            script.expect(f"fillbytes {journal}", f"bytes {journal.split(' ')[0]}")
            text = journal
        entries = before.split(" ")
        lent(script, len(entries), entries)
        script.expect(f"append {lengths}", f"append {number} {before if after == '=' else after}")


def no_index(script):
    script.note("an index of no entry: only an empty journal has one")
    script.bytes("41")
    lent(script, 0)
    for asked, answer in (
        ("append 0 0", "append 0 -"), ("append 0 1", "append 28 -"), ("append 1 1", "append 28 -"), ("append 1 0", "append 33 -"),
        ("find 0 0", "find 29"), ("find 0 1", "find 28"), (f"find {MOST} 0", "find 29"), (f"find {MOST} 1", "find 28"),
        ("entry 0 0 0", "?"),
    ):
        script.expect(asked, answer)
    script.note("an index that is too short for finding: before 29; one with entries for an empty journal")
    script.expect("fillbytes 1030 41", "bytes 1030")
    lent(script, 2, ("0/0", "512/0"))
    for asked, answer in (
        ("find 0 1024", "find 0 0 1"), ("find 0 1025", "find 28"), ("find 5000 1025", "find 28"), ("find 5000 1024", "find 29"),
        ("find 0 0", "find 29"), ("append 0 0", "append 0 0/0 512/0"),
    ):
        script.expect(asked, answer)
    lent(script, 3, ("600/0", "600/0", "2000/0"))
    for asked, answer in (("find 599 1030", "find 29"), ("find 600 1030", "find 0 512 1"), ("find 1117 1030", "find 0 1029 1"),
                          ("find 1118 1030", "find 29")):
        script.expect(asked, answer)


# ---------------------------------------------------------------------------------------------------------------
# A lead at the journal's end, bad tables, what is no command, and what is left alone
# ---------------------------------------------------------------------------------------------------------------


def code_that_grows(script):
    """ "code n of the whole reading": the last code may have one byte now and two after appending; its entry is the same."""
    script.note("a lead at the journal's end grows when bytes are appended; a broken one does not")
    for text, after in (("8140", "0 1 2"), ("810A", "0 1 1"), ("8280", "0 1 2"), ("825A", "0 1 2")):
        script.bytes(f"41{text}")
        lent(script, 1)
        script.expect("append 0 2", "append 0 0/0")
        script.expect("find 1 2", "find 0 1 1")
        script.expect("find 2 2", "find 29")
        script.expect("append 2 3", "append 0 0/0")
        script.expect("find 1 3", f"find {after}")
        script.expect("find 2 3", "find 29" if after == "0 1 2" else "find 0 2 1")


def bad_tables(script):
    script.note("tables of a bad shape: 10, before all others")
    for name, change in BAD_TABLES:
        script.table(f"{name}.tbl", edited(change))
        script.expect("fillbytes 66000 41", "bytes 66000")
        lent(script, 1, ("1/0",))
        for asked in ("0 0", "0 1", "1 1", "1 0", "1 600", "66000 66000", "66000 65537"):
            script.expect(f"append {asked}", "append 10 1/0")
        for asked in ("0 0", "1 1", "0 600", "0 66000"):
            script.expect(f"find {asked}", "find 10")
    script.sample()
    script.expect("append 66000 65537", "append 11 1/0")
    script.expect("find 0 66000", "find 11")


NOT_COMMANDS = (
    # words and spaces
    "index", "index ", "index 3 ", " index 3", "index  3", "index 3 3", "Index 3", "indexes 3", "entry", "entry 0", "entry 0 0",
    "entry 0 0 0 0", "entry 0 0 0 ", "Entry 0 0 0", "entries 0 0 0", "entry\t0 0 0", "append", "append 0", "append 0 3 3", "append 0 3 ",
    "Append 0 3", "appends 0 3", "find", "find 0", "find 0 3 3", "find 0 3 ", "Find 0 3", "finds 0 3", "find\t0 3",
    # numbers
    "index -", "index -1", "index 03", "index 301", "index 4294967299", f"index {MOST + 4}", "index x", "entry -1 0 0", "entry 00 0 0",
    "entry 2 0 0", f"entry {MOST} 0 0", f"entry {2**32} 0 0", "entry 0 -1 0", "entry 0 00 0", f"entry 0 {LARGEST + 1} 0",
    f"entry 0 {LARGEST + 1} 1", f"entry 0 {LIMIT + 1} 0", f"entry 0 {MOST} 0", f"entry 0 {MOST + 1} 0", "entry 0 x 0", "entry 0 0 2",
    "entry 0 0 -", "entry 0 0 00", "entry 0 0 01", "entry 0 0 x", "entry 0 0/0", "append - 3", "append 00 3", "append 0 03", "append -1 3",
    f"append {MOST + 1} 3", f"append {'1' * 5000} 3", "append 0 -", "append x 3", "find - 3", "find 00 3", "find 0 03", "find -1 3",
    f"find {MOST + 1} 3", f"find {'1' * 5000} 3", "find 0 -", "find x 3",
    # outside the text
    "append 0 4", "append 4 4", f"append 0 {MOST}", f"append 0 {2**32 + 3}", "find 0 4", f"find 0 {MOST}", f"find 0 {2**32 + 3}",
)


def commands(script):
    script.note("what is no command changes nothing")
    script.sample()
    script.bytes("814041")
    lent(script, 2, ("0/0",))
    for line in (*NOT_COMMANDS, b"index 3\r", b"find 0 3\x00", b"append 0 3\r", b"entry 0 0 0\r"):
        script.expect(line, "?")
    script.expect("append 3 3", f"append 0 0/0 {FILL}")
    script.note("numbers at their limits")
    script.expect(f"entry 1 {LARGEST} 0", "entry 1")
    script.expect("append 3 3", f"append 0 0/0 {LARGEST}/0")
    script.expect(f"entry 1 {LARGEST} 1", "entry 1")
    script.expect(f"append {MOST} 3", f"append 33 0/0 {LARGEST}/1")
    script.expect(f"find {MOST} 3", "find 29")
    script.expect("entry 1 0 1", "entry 1")
    script.expect("append 3 3", "append 0 0/0 0/1")
    script.expect("index 300", "index 300")
    script.expect("entry 299 5 0", "entry 299")
    script.expect("entry 300 5 0", "?")
    script.expect("append 0 0", f"append 0 {entries_text([FILL] * 299 + ['5/0'])}")


LEFT_ALONE = (
    ("index 2", "index 2"), ("append 0 3", f"append 0 0/0 {FILL}"), ("append 4 3", f"append 33 0/0 {FILL}"), ("find 1 3", "find 0 2 1"),
    ("find 2 3", "find 29"),
)


def index_stays(script):
    script.note("another text, table, run or field buffer leaves the index as it is; a new one is filled anew")
    script.expect("entry 1 7 0", "entry 1")
    script.bytes("41")
    script.units("0041")
    script.expect("hold 300", "hold 300")
    script.start("D", 7, "555")
    script.expect("decode 0 1 last 1", "decode 0 1 1 0041 kept D 7 5 5 5 - 0 1 1 over")
    script.expect("propose 1 0 1 0", "propose 0 0 kept")
    script.expect("append 1 1", "append 0 0/0 7/0")
    script.expect("table page_9.tbl", "table 9 3F 30FB 256 256 512 256 1024")
    script.expect("append 1 1", "append 0 0/0 7/0")
    script.sample()
    lent(script, 2)
    script.expect("append 0 0", f"append 0 {FILL} {FILL}")


def index_script():
    script = Script()
    script.note("The index of a journal (document 02, CR 11): told from the codes, written by hand; with a wrong index by hand")
    commands(script)
    found(script)
    appended(script)
    no_index(script)
    code_that_grows(script)
    splits(script)
    byte_by_byte(script)
    every_code(script)
    other_tables(script)
    left_alone(script, LEFT_ALONE)
    index_stays(script)
    bad_tables(script)
    long_journals(script)
    return script
