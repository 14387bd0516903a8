"""The console script breaks: receipt lines, proposed and checked (a module of make_scripts.py).

Document 02, CR 12. What each call must answer is written by hand, from the rules of documents 01 and 02; of the long texts, where all
lines but the last have one length, this length and the number of breaks. In the last part the codes of each text are written by hand,
and the acceptable breaks are told from them: every way to put the codes into lines, of which ours is the one whose first line is the
longest, then its second, and so on.
"""

import itertools

from fixed_scripts import (
    LIMIT, Script, all_leads, both, cut, edited, left_alone, low_bytes, more_seconds, no_leads, put, set_page, spread_leads,
)
from table_image import NONE

HALF = 2**63
MOST = 2**64 - 1
NO_BREAKS = 31  # no acceptable breaks exist

# ---------------------------------------------------------------------------------------------------------------
# Our breaks, by hand
# ---------------------------------------------------------------------------------------------------------------

# Text, then for each width our breaks (`-`: none are needed).
ON_SAMPLE = (
    # document 02: "31 exactly if no acceptable breaks exist, as with two-byte codes at width 1"
    ("814041", {0: NO_BREAKS, 1: NO_BREAKS, 2: "2", 3: "-", 4: "-", HALF: "-", MOST: "-"}),
    ("8140", {0: NO_BREAKS, 1: NO_BREAKS, 2: "-"}),
    ("41", {0: NO_BREAKS, 1: "-", MOST: "-"}),
    # a width is a number of 64 bits: none is cut to its low bits, and none is below 0
    ("4142", {0: NO_BREAKS, 1: "1", 2: "-", 256: "-", 257: "-", 65536: "-", 65537: "-", LIMIT + 1: "-", LIMIT + 2: "-", HALF: "-",
              HALF + 1: "-", MOST: "-"}),
    # codes of one byte: every line but the last is full
    ("4142434445", {1: "1 2 3 4", 2: "2 4", 3: "3", 4: "4", 5: "-", 6: "-"}),
    # codes of two bytes: an odd width is the even one below it
    ("8140814081408140", {1: NO_BREAKS, 2: "2 4 6", 3: "2 4 6", 4: "4", 5: "4", 6: "6", 7: "6", 8: "-", 9: "-"}),
    ("41814081408140", {1: NO_BREAKS, 2: "1 3 5", 3: "3 5", 4: "3", 5: "5", 6: "5", 7: "-"}),
    ("81408140814042", {2: "2 4 6", 3: "2 4", 4: "4", 5: "4", 6: "6", 7: "-"}),
    # a code goes to the next line as a whole, and the line before it is not full
    ("41814042", {1: NO_BREAKS, 2: "1 3", 3: "3", 4: "-"}),
    ("414243814044", {1: NO_BREAKS, 2: "2 3 5", 3: "3", 4: "3", 5: "5", 6: "-"}),
    # the first line is as long as it can be, also where the lines could be even
    ("41428140827C", {3: "2 4", 4: "4", 5: "4"}),
    # one code is too long, wherever it is
    ("41424381", {1: "1 2 3"}),
    ("4142438140", {1: NO_BREAKS, 2: "2 3"}),
    ("8140414243", {1: NO_BREAKS, 2: "2 4"}),
    # a lead and a byte below 80 that may not be second: the lead is a code of one byte (CR 2)
    ("810A41", {0: NO_BREAKS, 1: "1 2", 2: "2", 3: "-"}),
    ("817F41", {1: "1 2", 2: "2"}),
    ("813F40", {1: "1 2", 2: "2"}),
    ("820A820A", {1: "1 2 3", 2: "2", 3: "3", 4: "-"}),
    ("81400A81", {2: "2", 3: "3"}),
    # a lead and a byte of 80 or more that may not be second: one code of two bytes
    ("8280", {0: NO_BREAKS, 1: NO_BREAKS, 2: "-"}),
    ("828041", {1: NO_BREAKS, 2: "2", 3: "-"}),
    ("81A0", {1: NO_BREAKS, 2: "-"}),
    ("82830A", {1: NO_BREAKS, 2: "2"}),
    ("8181810A", {1: NO_BREAKS, 2: "2", 3: "3", 4: "-"}),
    ("818182814041", {2: "2 4", 3: "2 5", 4: "4", 5: "5"}),
    # a lead at the text's end is a code of one byte
    ("81", {0: NO_BREAKS, 1: "-", 2: "-"}),
    ("4182", {1: "1", 2: "-"}),
    ("814082", {1: NO_BREAKS, 2: "2", 3: "-"}),
    ("828281", {1: NO_BREAKS, 2: "2", 3: "-"}),
    # undefined pairs have two bytes; undefined singles, bytes that are never a code, and line feeds have one
    ("815A41", {1: NO_BREAKS, 2: "2"}),
    ("8040", {1: "1"}),
    ("838340", {1: "1 2", 2: "2"}),
    ("410A0A42", {1: "1 2 3", 2: "2", 3: "3"}),
)

ON_OTHER_TABLES = (
    # 83 is a lead and may be second, 84 is never a code and may be second
    ("more_seconds", more_seconds, (
        ("838383", {1: NO_BREAKS, 2: "2", 3: "-"}),
        ("8383838341", {2: "2 4", 3: "2", 4: "4"}),
        ("8440", {1: "1"}),
        ("818441", {1: NO_BREAKS, 2: "2"}),
    )),
    # 0E, 7F and 80 may be second; 7E may not; 0B is never a code
    ("low_bytes", low_bytes, (
        ("810E41", {1: NO_BREAKS, 2: "2"}),
        ("817F8180", {1: NO_BREAKS, 2: "2", 3: "2"}),
        ("817E", {1: "1"}),
        ("810B", {1: "1"}),
    )),
    ("no_leads", no_leads, (("814041", {1: "1 2", 2: "2"}),)),
    ("spread_leads", spread_leads, (
        ("80408140", {1: NO_BREAKS, 2: "2", 3: "3"}),
        ("FF40BF40C0", {2: "2 4", 3: "2", 4: "4"}),
    )),
    ("all_leads", all_leads, (("FFFFFF", {1: NO_BREAKS, 2: "2"}), ("808041", {1: NO_BREAKS, 2: "2"}))),
)


def words_of(breaks):
    return [] if breaks == "-" else breaks.split(" ")


def answer_of(breaks):
    """Our breaks, told."""
    return " ".join(["propose 0", str(len(breaks)), *breaks, "kept"])


def proposed(script, text, widths):
    """Our breaks in a list that is just long enough; where there are some, in one that is too short, and ours are accepted."""
    script.bytes(text)
    size = len(text) // 2
    for width, breaks in widths.items():
        asked = f"propose {width} 0 {size}"
        if breaks == NO_BREAKS:
            # with no list at all: before 32
            script.expect(f"{asked} 0", "propose 31 kept")
            continue
        words = words_of(breaks)
        script.expect(f"{asked} {len(words)}", answer_of(words))
        if words:
            script.expect(f"{asked} {len(words) - 1}", "propose 32 kept")
            script.expect(f"breaks {width} 0 {size} {breaks}", "breaks 0")


def by_hand(script):
    script.note("our breaks on the sample page")
    for text, widths in ON_SAMPLE:
        proposed(script, text, widths)
    for name, change, texts in ON_OTHER_TABLES:
        script.note(f"our breaks with the tables {name}")
        script.table(f"{name}.tbl", edited(change))
        for text, widths in texts:
            proposed(script, text, widths)
    script.sample()


# ---------------------------------------------------------------------------------------------------------------
# Proposals, by hand
# ---------------------------------------------------------------------------------------------------------------

# Text, width, the proposals that are accepted, and those that are not.
CHECKED = (
    ("814041", 0, (), ("-", "1", "2", "0", "1 2")),
    ("814041", 1, (), ("-", "1", "2", "1 2", "0 2")),
    ("814041", 2, ("2",), ("-", "1", "1 2", "0", "3", "4", "0 2", "2 2", "2 3", "2 1", f"{MOST}", f"2 {MOST}")),
    ("814041", 3, ("-", "2"), ("1", "1 2", "0", "3", "0 2", "2 3", "2 2", "4")),
    ("814041", MOST, ("-", "2"), ("1", "1 2", "0", "3", "0 2", "2 3", "2 2", "4", f"{MOST}", f"2 {MOST}", f"{MOST} 2")),
    # a line of width bytes and one of one more: the first, one between, the last
    ("41424344454647", 3, ("3 6", "1 4", "2 5", "1 2 3 4 5 6", "2 4 6", "1 4 5"), ("4 6", "4", "1 5", "1 5 6", "3", "2 3", "-")),
    ("41424344454647", 2, ("2 4 6", "1 3 5", "1 2 4 6"), ("3 5", "2 5", "1 4 6", "2 4", "1 3 4")),
    ("41424344454647", 6, ("1", "6", "3"), ("-", "0", "7", "0 6", "1 7")),
    # not rising: equal, falling, at the ends and between
    ("41424344", 2, ("2", "1 3", "1 2", "2 3", "1 2 3"),
     ("2 2", "1 1 3", "1 3 3", "2 1", "3 1", "1 3 2", "2 1 3", "3 2 1", "0 0 2", "2 4", "2 4 4", "2 2 2")),
    ("41424344", 4, ("-", "1", "3", "1 2 3"), ("0", "0 1", "4", "4 4", "5", "1 4", "3 3", "2 1", "0 1 2 3", "1 2 3 4")),
    # nothing wraps: what is taken from a smaller number is no line, and a width is not added to a place
    ("41424344", MOST, ("-", "1", "3", "1 3", "1 2 3"),
     ("2 1", "3 2 1", "3 1", "0", "4", f"{MOST}", f"{MOST - 1}", f"1 {MOST}", f"{MOST} 1", f"{MOST - 1} {MOST}", f"{MOST} {MOST}",
      f"{HALF}", f"1 {HALF}", f"{HALF + 1}", f"{HALF} 1", "1 1")),
    ("41424344", MOST - 3, ("-", "1", "3"), ("2 1", "3 1", f"{MOST}", f"{MOST - 3}")),
    ("41424344", HALF, ("-", "1", "3", "1 2 3"), ("2 1", f"{HALF}", f"{HALF + 1}", f"1 {HALF + 1}")),
    # a break is a number of 64 bits: none is cut to its low bits
    ("41424344", 3, ("1", "2", "3"), ("257", "258", "65537", "65538", f"{LIMIT + 2}", f"{LIMIT + 3}", f"1 {LIMIT + 3}")),
    # codes of two bytes: only every other place is no cut
    ("8140827C815A", 2, ("2 4",), ("1 3 5", "1 3", "2 3 4", "2", "4", "2 5", "1 2 4", "-")),
    ("8140827C815A", 3, ("2 4",), ("3", "2 5", "1 4", "3 5", "2", "4", "-")),
    ("8140827C815A", 4, ("2", "4", "2 4"), ("1", "3", "5", "2 3", "1 4", "-")),
    ("8140827C815A", 5, ("2", "4", "2 4"), ("1", "5", "-")),
    # broken halves
    ("810A41", 1, ("1 2",), ("1", "2", "-")),
    ("810A41", 2, ("1", "2", "1 2"), ("-", "3", "0 2")),
    ("828041", 2, ("2",), ("1", "1 2", "-")),
    ("828041", 3, ("-", "2"), ("1", "1 2", "3")),
    ("4182", 1, ("1",), ("-", "2", "1 2")),
    ("4182", 2, ("-", "1"), ("2", "0")),
    ("828281", 2, ("2",), ("1", "1 2", "-")),
    ("8181810A", 3, ("2", "3", "2 3"), ("1", "1 3", "1 2 3", "-")),
)

def checked(script):
    script.note("proposals on the sample page")
    for text, width, accepted, refused in CHECKED:
        script.bytes(text)
        for number, proposals in ((0, accepted), (30, refused)):
            for breaks in proposals:
                script.expect(" ".join([f"breaks {width} 0 {len(text) // 2}", *words_of(breaks)]), f"breaks {number}")


def empty(script):
    """ "An empty text takes the empty proposal", at any width."""
    script.note("an empty text, and an empty part of a text")
    script.bytes("-")
    for width in (0, 1, 2, HALF, MOST):
        script.expect(f"breaks {width} 0 0", "breaks 0")
        for size in (0, 300):
            script.expect(f"propose {width} 0 0 {size}", "propose 0 0 kept")
    for width in (0, 1, MOST):
        for breaks in ("0", "1", f"{MOST}", "0 0", "0 1"):
            script.expect(f"breaks {width} 0 0 {breaks}", "breaks 30")
    script.bytes("814041")
    for place, width in ((0, 0), (1, 0), (1, 1), (3, 0), (3, MOST)):
        script.expect(f"breaks {width} {place} 0", "breaks 0")
        script.expect(f"breaks {width} {place} 0 {place}", "breaks 30")
        script.expect(f"propose {width} {place} 0 0", "propose 0 0 kept")


def parts(script):
    """A part of a text is a whole text of its own, and its places are counted from its own beginning."""
    script.note("parts of a text")
    script.bytes("4181408142")
    # 40 81 42 is the single 40, then the code 8142
    for part, width, breaks in (
        ("0 2", 1, "1"), ("0 2", 2, "-"), ("1 1", 1, "-"), ("0 4", 3, "3"), ("0 4", 2, "1 3"), ("1 2", 2, "-"), ("1 3", 2, "2"),
        ("2 1", 1, "-"), ("2 3", 2, "1"), ("2 3", 3, "-"), ("2 2", 1, "1"), ("4 1", 1, "-"), ("1 4", 3, "2"), ("0 5", 3, "3"),
    ):
        script.expect(f"propose {width} {part} 9", answer_of(words_of(breaks)))
        script.expect(" ".join([f"breaks {width} {part}", *words_of(breaks)]), "breaks 0")
    for part, width, breaks in (("2 3", 2, "2"), ("1 4", 3, "3"), ("1 4", 3, "1"), ("1 4", 3, "4"), ("2 1", 1, "1")):
        script.expect(f"breaks {width} {part} {breaks}", "breaks 30")
    for part, width in (("1 2", 1), ("2 3", 1), ("2 1", 0), ("4 1", 0)):
        script.expect(f"propose {width} {part} 9", "propose 31 kept")


# ---------------------------------------------------------------------------------------------------------------
# Long texts
# ---------------------------------------------------------------------------------------------------------------

# Bytes that are repeated, the text's size, the width, the bytes of each line but the last, and how many breaks that makes.
LONG = (
    ("41", 301, 1, 1, 300),
    ("41", 301, 255, 255, 1),
    ("41", 301, 256, 256, 1),
    ("41", 301, 300, 300, 1),
    ("8140", 602, 2, 2, 300),
    ("8140", 602, 3, 2, 300),
    ("8140", 602, 101, 100, 6),
    ("8140", 602, 257, 256, 2),
    ("8140", 602, 601, 600, 1),
    ("41", 65536, 218, 218, 300),
    ("41", 65536, 65536, 65536, 0),
    ("8140", 65536, 219, 218, 300),
    ("8140", 65536, 65535, 65534, 1),
    ("8140", 65536, MOST, 65536, 0),
)


def long_texts(script):
    script.note("long texts, all lines of one length: 255 and 256 bytes; 300 breaks; 65,536 bytes")
    for pattern, size, width, line, breaks in LONG:
        script.expect(f"fillbytes {size} {pattern}", f"bytes {size}")
        places = [str(number * line) for number in range(1, breaks + 1)]
        # the longest list keeps what is behind our breaks; one that is too short keeps all
        script.expect(f"propose {width} 0 {size} 300", answer_of(places))
        if places:
            script.expect(f"propose {width} 0 {size} {breaks - 1}", "propose 32 kept")
        script.expect(" ".join([f"breaks {width} 0 {size}", *places]), "breaks 0")
    script.note("one break more than the longest list has")
    script.expect("propose 217 0 65536 300", "propose 32 kept")
    script.expect("fillbytes 302 41", "bytes 302")
    script.expect("propose 1 0 302 300", "propose 32 kept")
    script.expect("propose 1 0 302 0", "propose 32 kept")
    script.expect("propose 0 0 302 300", "propose 31 kept")
    rising = [str(place) for place in range(1, 302)]
    script.expect(" ".join(["breaks 2 0 302", *rising[:300]]), "breaks 0")
    script.expect(" ".join(["breaks 1 0 302", *rising[:300]]), "breaks 30")
    script.expect(" ".join(["breaks 1 0 302", *rising]), "?")
    script.note("a code of two bytes behind more breaks than the list has: 31, with any list")
    script.expect(f"bytes {'41' * 302}8140", "bytes 304")
    for size in (0, 299, 300):
        script.expect(f"propose 1 0 304 {size}", "propose 31 kept")
    script.expect("propose 1 0 303 300", "propose 32 kept")
    script.note("proposals for 65,536 bytes; one byte more is refused, whatever else is asked")
    script.expect("fillbytes 65537 8140", "bytes 65537")
    for width, breaks, number in (
        (65536, "65534", 0), (65536, "65535", 30), (65536, "65536", 30), (65533, "2", 30), (65534, "2", 0), (1, "1", 30),
    ):
        script.expect(f"breaks {width} 0 65536 {breaks}", f"breaks {number}")
    script.expect("propose 1 0 65536 0", "propose 31 kept")
    # from the second byte on it is 40, then codes of two bytes, then a lead at the text's end
    script.expect("propose 65536 1 65536 0", "propose 0 0 kept")
    script.expect("propose 65535 1 65536 1", "propose 0 1 65535 kept")
    for width in (0, 1, 2, 65537, MOST):
        script.expect(f"propose {width} 0 65537 0", "propose 11 kept")
        script.expect(f"breaks {width} 0 65537", "breaks 11")
    script.expect("propose 65536 0 65537 300", "propose 11 kept")
    script.expect("breaks 65536 0 65537 65536", "breaks 11")
    script.expect("breaks 65536 0 65537 1 1", "breaks 11")


# ---------------------------------------------------------------------------------------------------------------
# Bad tables, what is no command, and what is left alone
# ---------------------------------------------------------------------------------------------------------------

BAD_TABLES = (
    ("page_0", set_page(0)),
    ("classes_0", cut("classes", 0, 0)),
    ("pairs_511", cut("pairs", 511, NONE)),
    ("blocks_0", cut("blocks", 0, NONE)),
    ("low_lead_41", both(put("classes", (0x41, 2)), cut("pairs", 768, NONE))),
    ("number_4_at_FF", put("index", (0xFF, 4))),
)


def bad_tables(script):
    script.note("tables of a bad shape: 10, before all others")
    for name, change in BAD_TABLES:
        script.table(f"{name}.tbl", edited(change))
        script.bytes("814041")
        for asked in ("2 0 3 2", "2 0 3 1", "0 0 0"):
            script.expect(f"breaks {asked}", "breaks 10")
        for asked in ("2 0 3 1", "2 0 3 0", "1 0 3 9", "0 0 0 0"):
            script.expect(f"propose {asked}", "propose 10 kept")
    script.expect("fillbytes 65537 41", "bytes 65537")
    script.expect("breaks 300 0 65537", "breaks 10")
    script.expect("propose 300 0 65537 300", "propose 10 kept")
    script.sample()
    script.expect("breaks 300 0 65537", "breaks 11")
    script.expect("propose 300 0 65537 300", "propose 11 kept")


NOT_COMMANDS = (
    # words and spaces
    "breaks", "breaks ", "breaks 2", "breaks 2 0", "breaks 2 0 ", "breaks 2 0 3 ", "breaks 2 0 3 2 ", "breaks 2 0 3  2",
    " breaks 2 0 3 2", "breaks  2 0 3 2", "Breaks 2 0 3 2", "BREAKS 2 0 3 2", "break 2 0 3 2", "breaks 2 0 3 2,", "breaks\t2 0 3 2",
    "propose", "propose 2", "propose 2 0", "propose 2 0 3", "propose 2 0 3 ", "propose 2 0 3 9 ", "propose 2 0 3 9 9",
    " propose 2 0 3 9", "Propose 2 0 3 9", "proposes 2 0 3 9",
    # numbers
    "breaks - 0 3", "breaks -1 0 3", "breaks +2 0 3 2", "breaks 02 0 3 2", "breaks 2 00 3 2", "breaks 2 0 03 2", "breaks 2 0 3 02",
    "breaks 2 0 3 00", "breaks 2 0 3 -", "breaks 2 0 3 -1", "breaks 2 0 3 2 x", "breaks 2 0 3 2 -", "breaks x 0 3 2",
    "propose - 0 3 9", "propose 02 0 3 9", "propose 2 0 3 09", "propose 2 0 3 -", "propose 2 0 3 x", "propose 2 0 03 9",
    # over 64 bits
    f"breaks {MOST + 1} 0 3", f"breaks {MOST + 3} 0 3 2", f"breaks 2 0 3 {MOST + 1}", f"breaks 2 0 3 {MOST + 3}",
    f"breaks 2 0 3 2 {MOST + 1}", f"breaks {'9' * 20} 0 3", f"breaks 2 0 3 {'1' * 5000}", f"propose {MOST + 1} 0 3 9",
    f"propose {MOST + 3} 0 3 9", f"propose {'1' * 5000} 0 3 9",
    # outside the text; a list over 300
    "breaks 2 0 4 2", "breaks 2 1 3 2", "breaks 2 4 0", f"breaks 2 {MOST} 2", f"breaks 2 1 {MOST}", "propose 2 0 4 9",
    "propose 2 1 3 9", "propose 2 4 0 9", f"propose 2 {MOST} 2 9", f"propose 2 0 {MOST} 9", "propose 2 0 3 301",
    "propose 2 0 3 65536", f"propose 2 0 3 {MOST}", f"propose 2 0 3 {MOST + 1}",
)
NOT_COMMANDS_OF_BYTES = (b"breaks 2 0 3 2\r", b"propose 2 0 3 9\r", b"breaks 2 0 3 2\x00", b"propose\t2 0 3 9")


def commands(script):
    script.note("what is no command")
    script.sample()
    script.bytes("814041")
    for line in NOT_COMMANDS + NOT_COMMANDS_OF_BYTES:
        script.expect(line, "?")
    script.note("300 breaks are a command, also where they are no proposal; 301 are none")
    for breaks in (["2"] * 300, ["0"] * 300, [str(MOST)] * 300, [str(place) for place in range(300)]):
        script.expect(" ".join(["breaks 2 0 3", *breaks]), "breaks 30")
        script.expect(" ".join(["breaks 2 0 3", *breaks, "1"]), "?")


LEFT_ALONE = (
    ("propose 2 0 3 1", "propose 0 1 2 kept"), ("propose 1 0 3 1", "propose 31 kept"), ("propose 2 0 3 0", "propose 32 kept"),
    ("breaks 2 0 3 2", "breaks 0"), ("breaks 2 0 3 1", "breaks 30"), ("breaks 2 0 4 1", "?"),
)


# ---------------------------------------------------------------------------------------------------------------
# Every width, and every proposal, told from the codes of a text
# ---------------------------------------------------------------------------------------------------------------

# Texts of the sample page, code by code: every proposal at every width; then longer ones, ours at every width.
EVERY_PROPOSAL = ("8140 41", "8280 82", "81 0A 827C")
EVERY_WIDTH = (
    "41 8140 42 827C 43", "8140 815A 41 8140", "82 0A 8140 81 20 8180", "82A0 82A0 82 0A 82", "41 8141 8141 42 43 8141",
)


def acceptable_ends(codes, width):
    """The ends of the lines, the text's end among them, of every way to put the codes into lines of at most so many bytes."""
    ends = list(itertools.accumulate(len(code) // 2 for code in codes))
    found = []
    for number in range(len(codes)):
        for chosen in itertools.combinations(ends[:-1], number):
            lines = (*chosen, ends[-1])
            if all(end - start <= width for start, end in zip((0, *chosen), lines)):
                found.append(lines)
    return found


def told_from_codes(script):
    for texts, title in ((EVERY_PROPOSAL, "every proposal"), (EVERY_WIDTH, "ours")):
        script.note(f"{title} at every width, told from the codes of the text")
        for text in texts:
            codes = text.split(" ")
            script.bytes("".join(codes))
            size = len("".join(codes)) // 2
            for width in range(size + 2):
                acceptable = acceptable_ends(codes, width)
                ours = answer_of([str(place) for place in max(acceptable)[:-1]]) if acceptable else "propose 31 kept"
                script.expect(f"propose {width} 0 {size} 9", ours)
                if texts is EVERY_WIDTH:
                    continue
                for number in range(size):
                    for places in itertools.combinations(range(1, size), number):
                        answer = 0 if (*places, size) in acceptable else 30
                        script.expect(" ".join([f"breaks {width} 0 {size}", *map(str, places)]), f"breaks {answer}")


def breaks_script():
    script = Script()
    script.note("Receipt lines (document 02, CR 12): by hand; in the last part from the codes of each text, by hand")
    commands(script)
    by_hand(script)
    checked(script)
    empty(script)
    parts(script)
    long_texts(script)
    bad_tables(script)
    left_alone(script, LEFT_ALONE)
    told_from_codes(script)
    return script
