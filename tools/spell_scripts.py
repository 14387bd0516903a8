"""The console script spell: the standard spelling of a byte text (a module of make_scripts.py).

Document 02, CR 8. The spelling of each code is written by hand, or that it is at fault and why; what a text of codes answers is told from
them. page_scripts.py makes the script spell_pages, of the codes of the real pages.
"""

import itertools

from break_scripts import BAD_TABLES, MOST
from fixed_scripts import Script, double_codes, edited, left_alone, more_seconds

FAULT = None
MOST_ROOM = 140000

# Each code of the sample page that is tried, with its spelling.
ON_SAMPLE = {
    "41": "41", "00": "00", "7F": "7F", "20": "20", "0A": "0A", "8140": "8140", "8141": "8141", "827C": "827C",
    # 00A0 has the code 20, which reads back as 0020
    "A0": FAULT,
    # no character: undefined single, undefined pair, never, a lead before a byte of 80 or more that may not be second
    "80": FAULT, "815A": FAULT, "83": FAULT, "FF": FAULT, "8280": FAULT, "81A0": FAULT,
}

# The same with the tables double_codes.
DOUBLE = {
    # 3000 has the codes 8140 and 8142; 4E00 has 827C and 80; 0041 has 41 and 8143
    "8140": "8140", "8142": "8140", "827C": "827C", "80": "827C", "41": "41", "8143": "41", "8141": "8141", "00": "00",
    # 0042 has the code 4242: the codes 42 and 42, of which each has this character, and not one code
    "42": FAULT,
    # 3002 has no code; 3003 has the code 8141, which reads back as 3001
    "8144": FAULT, "8145": FAULT,
    # surrogates, with a code that reads back as they are: D83D, D800, DBFF, DC00, DFFF; without a code: DE00
    "8146": FAULT, "8147": FAULT, "8148": FAULT, "8149": FAULT, "814A": FAULT, "814B": FAULT,
    # D7FF and E000 are none
    "814C": "814C", "814D": "814D",
    # 3004 has the code 81, a lead alone; 3005 has 4142, two codes; 3006 has 83, never a code; 3007 has 815A, an undefined pair
    "814E": FAULT, "814F": FAULT, "8150": FAULT, "8151": FAULT,
    # 3008 has the code 810A, a lead alone and a line feed; 3009 has FFFE, two bytes that are never a code
    "8152": FAULT, "8153": FAULT,
    # 30FB, the default unit, and FFFE are characters as others
    "8154": "8154", "8155": "8155",
    # 300A has the code 8180, one invalid code; 300B has 80, which reads back as 4E00
    "8156": FAULT, "8157": FAULT,
    # no character
    "815A": FAULT, "83": FAULT, "8280": FAULT, "A0": FAULT,
}


def size_of(text):
    return len(text) // 2


def spelling_of(spellings, codes):
    """The spelling of a text of codes as (place of the first fault, None) or (None, spelling)."""
    place, spelling = 0, ""
    for code in codes:
        if spellings[code] is FAULT:
            return place, None
        place += size_of(code)
        spelling += spellings[code]
    return None, spelling


def accepted(spelling):
    return f"spell 0 {size_of(spelling)} {spelling or '-'} kept"


def answer_of(spellings, codes, room):
    fault, spelling = spelling_of(spellings, codes)
    if fault is not None:
        return f"spell 24 {fault} kept"
    return accepted(spelling) if size_of(spelling) <= room else "spell 25 kept"


def asked_with_rooms(script, spellings, codes):
    """A text with room for its spelling, for one byte more, for one less, and with none."""
    text = "".join(codes)
    script.bytes(text or "-")
    spelling = spelling_of(spellings, codes)[1] or ""
    for room in sorted({0, max(size_of(spelling) - 1, 0), size_of(spelling), size_of(spelling) + 1}):
        script.expect(f"spell 0 {size_of(text)} {room}", answer_of(spellings, codes, room))
    if spelling:
        # "a spelling is itself accepted in that room and its spelling is itself"
        script.bytes(spelling)
        script.expect(f"spell 0 {size_of(spelling)} {size_of(spelling)}", accepted(spelling))


# Texts of several codes: growing and shrinking spellings, a fault at the front, between and at the end.
TEXTS = (
    (), ("80", "80", "80"), ("8143", "8143", "8143"), ("80", "8143", "41"), ("8142", "41", "80", "8143", "8140"), ("8143", "80", "8143"),
    ("41", "42"), ("80", "80", "83"), ("8143", "8143", "815A"), ("8140", "8144", "8145"), ("80", "8143", "8142", "8146", "41"),
    ("8142", "8142", "8280", "41"), ("42", "42"), ("814C", "814D", "8147"), ("00", "00", "8154", "8156"),
)


def by_codes(script, title, spellings):
    script.note(f"every code alone, {title}")
    for code in spellings:
        asked_with_rooms(script, spellings, (code,))


def every_two(script, title, spellings):
    """Every two codes behind each other, as parts of one text: places are counted from the part's beginning."""
    script.note(f"every two codes, {title}")
    for first in spellings:
        others = list(spellings)
        script.bytes("".join(first + second for second in others))
        place = 0
        for second in others:
            size = size_of(first + second)
            script.expect(f"spell {place} {size} 4", answer_of(spellings, (first, second), 4))
            place += size


def texts(script):
    script.note("texts of several codes")
    for codes in TEXTS:
        asked_with_rooms(script, DOUBLE, codes)


# Whole texts by hand, as what is no code may end one: a lead alone at the end, or before a byte below 80 that may not be second.
BY_HAND = (
    ("81", "24 0"), ("4181", "24 1"), ("814081", "24 2"), ("810A", "24 0"), ("41810A41", "24 1"), ("827F", "24 0"), ("41817F", "24 1"),
    ("0A810A", "24 1"), ("8182", "24 0"), ("41818141", "24 1"), ("418340", "24 1"), ("A041", "24 0"), ("41A0", "24 1"),
    ("8140A0", "24 2"), ("418140827C00", "0 6 418140827C00"), ("0A0A41", "0 3 0A0A41"), ("410D0A", "0 3 410D0A"),
)


def by_hand(script):
    script.note("whole texts on the sample page")
    for text, answer in BY_HAND:
        script.bytes(text)
        script.expect(f"spell 0 {size_of(text)} 9", f"spell {answer} kept")
        if answer.startswith("24"):
            # before 25
            script.expect(f"spell 0 {size_of(text)} 0", f"spell {answer} kept")
    script.note("parts of a text: a lead at the end of a part is a code alone")
    script.bytes("418140827C")
    for part, answer in (("0 1", "0 1 41"), ("0 2", "24 1"), ("0 3", "0 3 418140"), ("1 2", "0 2 8140"), ("2 1", "0 1 40"), ("2 2", "24 1"),
                         ("2 3", "0 3 40827C"), ("1 1", "24 0"), ("5 0", "0 0 -"), ("3 2", "0 2 827C"), ("4 1", "0 1 7C")):
        script.expect(f"spell {part} 5", f"spell {answer} kept")
    script.note("with the tables more_seconds: characters without a code")
    script.table("more_seconds.tbl", edited(more_seconds))
    script.bytes("414183838184")
    for part, answer in (("0 6", "24 2"), ("4 2", "24 0"), ("1 3", "24 1"), ("0 2", "0 2 4141")):
        script.expect(f"spell {part} 9", f"spell {answer} kept")


# How many bytes of which pattern, the room, and the answer with the tables double_codes.
LONG = (
    # 80 is spelled by two bytes: 65,536 bytes of spelling, and two more
    ("32768 80", 65536, accepted("827C" * 32768)),
    ("32768 80", 65535, "spell 25 kept"),
    ("32769 80", 65536, "spell 25 kept"),
    ("32769 80", 65538, "spell 25 kept"),
    ("32769 80", MOST_ROOM, "spell 25 kept"),
    ("65536 80", MOST_ROOM, "spell 25 kept"),
    # 8143 is spelled by one
    ("65536 8143", 32768, accepted("41" * 32768)),
    ("65536 8143", 32767, "spell 25 kept"),
    ("65536 41", 65535, "spell 25 kept"),
    ("65536 41", 0, "spell 25 kept"),
    # a fault at the end: before 25, and whatever is too long
    ("65536 8142", 5, "spell 25 kept"),
    ("65535 8142", 5, "spell 24 65534 kept"),
    ("65535 8142", MOST_ROOM, "spell 24 65534 kept"),
    ("65537 41", MOST_ROOM, "spell 11 kept"),
    ("65537 83", MOST_ROOM, "spell 11 kept"),
    ("66000 80", 0, "spell 11 kept"),
)


def long_texts(script):
    script.note("65,536 bytes of text and of spelling, and one more")
    script.table("double_codes.tbl", edited(double_codes))
    for text, room, answer in LONG:
        size = text.split(" ")[0]
        script.expect(f"fillbytes {text}", f"bytes {size}")
        script.expect(f"spell 0 {size} {room}", answer)
    script.note("a fault behind 65,536 bytes of spelling")
    script.bytes("80" * 32770 + "83")
    script.expect(f"spell 0 32771 {MOST_ROOM}", "spell 24 32770 kept")
    script.expect("spell 0 32771 65536", "spell 24 32770 kept")
    script.expect(f"spell 0 32770 {MOST_ROOM}", "spell 25 kept")


def bad_tables(script):
    script.note("tables of a bad shape: 10, before all others")
    for name, change in BAD_TABLES:
        script.table(f"{name}.tbl", edited(change))
        script.bytes("418341")
        for asked in ("0 1 9", "0 3 9", "0 1 0", "0 0 0"):
            script.expect(f"spell {asked}", "spell 10 kept")
    script.expect("fillbytes 65537 83", "bytes 65537")
    script.expect("spell 0 65537 9", "spell 10 kept")
    script.sample()
    script.expect("spell 0 65537 9", "spell 11 kept")
    script.expect("spell 0 65536 9", "spell 24 0 kept")


NOT_COMMANDS = (
    "spell", "spell ", "spell 0", "spell 0 3", "spell 0 3 ", "spell 0 3 9 ", "spell 0 3 9 9", " spell 0 3 9", "spell  0 3 9", "Spell 0 3 9",
    "SPELL 0 3 9", "spells 0 3 9", "spelling 0 3 9", "spell\t0 3 9", "spell 0 3,9", "spell - 3 9", "spell 0 - 9", "spell 0 3 -",
    "spell 00 3 9",
    "spell 0 03 9", "spell 0 3 09", "spell -1 3 9", "spell +0 3 9", "spell x 3 9", "spell 0 4 9", "spell 1 3 9", "spell 4 0 9",
    f"spell {MOST} 2 9", f"spell 1 {MOST} 9", f"spell {MOST + 1} 3 9", f"spell 0 {2**32 + 3} 9", "spell 0 3 140001",
    f"spell 0 3 {2**32 + 9}",
    f"spell 0 3 {MOST}", f"spell 0 3 {MOST + 10}", f"spell 0 3 {'1' * 5000}", "spell D 0 3 9", "spell 555 0 3 9",
)


def commands(script):
    script.note("what is no command")
    script.sample()
    script.bytes("814041")
    for line in (*NOT_COMMANDS, b"spell 0 3 9\r", b"spell 0 3 9\x00"):
        script.expect(line, "?")
    script.expect(f"spell 0 3 {MOST_ROOM}", accepted("814041"))
    script.expect("spell 3 0 0", accepted(""))


LEFT_ALONE = (
    ("spell 0 3 9", accepted("814041")), ("spell 0 3 2", "spell 25 kept"), ("spell 0 1 2", "spell 24 0 kept"), ("spell 0 4 9", "?"),
)


def spell_script():
    script = Script()
    script.note("The standard spelling (document 02, CR 8): told from the spelling of each code, by hand")
    commands(script)
    by_codes(script, "sample page", ON_SAMPLE)
    script.table("double_codes.tbl", edited(double_codes))
    by_codes(script, "tables double_codes", DOUBLE)
    texts(script)
    every_two(script, "tables double_codes", DOUBLE)
    script.sample()
    every_two(script, "sample page", ON_SAMPLE)
    left_alone(script, LEFT_ALONE)
    by_hand(script)
    bad_tables(script)
    long_texts(script)
    return script


# ---------------------------------------------------------------------------------------------------------------
# The real pages, for page_scripts.py
# ---------------------------------------------------------------------------------------------------------------


def code_hex(code):
    return f"{code:02X}" if code <= 0xFF else f"{code:04X}"


def page_spellings(mapping):
    """Each code that has a character, with its spelling: the character's own code, if that has the character too; no surrogate."""
    spellings = {}
    for code, unit in sorted(mapping.characters.items()):
        own = mapping.codes.get(unit)
        reads_back = own is not None and mapping.characters.get(own) == unit and not 0xD800 <= unit <= 0xDFFF
        spellings[code_hex(code)] = code_hex(own) if reads_back else FAULT
    return spellings


def faults_of(shape, spellings):
    """The bytes that are never a code or have no character, and of each lead the first pair, the last, and one between that have no
    spelling."""
    singles = [code_hex(byte) for byte in range(256) if byte not in shape.leads]
    found = [code for code in singles if spellings.get(code) is FAULT]
    for number, lead in enumerate(sorted(shape.leads)):
        pairs = [code_hex(256 * lead + second) for second in sorted(shape.seconds)]
        pairs = [code for code in pairs if spellings.get(code) is FAULT]
        found += sorted({pairs[0], pairs[number % len(pairs)], pairs[-1]}) if pairs else []
    return found


def add_page(script, shape, mapping):
    """Every code of a page that is accepted, in one text; those that are spelled by another code, each alone; then codes at fault, each
    alone and behind an accepted one."""
    spellings = page_spellings(mapping)
    good = [code for code, spelling in spellings.items() if spelling is not FAULT]
    text, spelling = "".join(good), "".join(spellings[code] for code in good)
    script.add(f"bytes {text}", f"bytes {size_of(text)}")
    script.add(f"spell 0 {size_of(text)} {size_of(spelling)}", accepted(spelling))
    script.add(f"spell 0 {size_of(text)} {size_of(spelling) - 1}", "spell 25 kept")
    changed = [code for code in good if spellings[code] != code]
    if changed:
        script.note(f"the {len(changed)} codes of it that are spelled by another, each alone")
        script.add(f"bytes {''.join(changed)}", f"bytes {2 * len(changed)}")
        for place, code in enumerate(changed):
            script.add(f"spell {2 * place} {size_of(code)} 2", accepted(spellings[code]))
    faults = faults_of(shape, spellings)
    if faults:
        script.note("codes at fault, alone and behind an accepted one")
        script.add(f"bytes {'41'.join(['', *faults])}", f"bytes {size_of('41'.join(['', *faults]))}")
        ends = itertools.accumulate(size_of("41" + fault) for fault in faults)
        for fault, end in zip(faults, ends):
            script.add(f"spell {end - size_of(fault)} {size_of(fault)} 9", "spell 24 0 kept")
            script.add(f"spell {end - size_of(fault) - 1} {size_of(fault) + 1} 9", "spell 24 1 kept")


def spell_pages_script(script, shapes, mappings, table_answer):
    script.note("The standard spelling (document 02, CR 8) of every code of the real pages")
    for page, mapping in mappings.items():
        script.note(f"page {page}")
        script.add(f"table cp{page}.tbl", table_answer(page, mapping))
        add_page(script, shapes[page], mapping)
    return script
