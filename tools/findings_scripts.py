"""The console script findings: the codes of a byte text that have no character, told one by one (a module of make_scripts.py).

Document 02, CR 7. Single calls are written by hand; then texts whose codes are written by hand, from which the answers are told: code
after code, each finding with its place, up to the first whose digit is 0.

A text is written code by code, as `41 80/1 815A/2 83/4`: the bytes of a code, and `/` and its kind where it has no character.
"""

import itertools

from break_scripts import BAD_TABLES, MOST
from fixed_scripts import (
    Script, all_leads, default_as_character, default_ffff, edited, hidden_entries, left_alone, low_bytes, more_seconds, no_leads,
    spread_leads,
)

MOST_ENTRIES = 300
# The digit that is applied to a kind: the first to 1, the second to 2, the third to 4.
DIGIT_OF = {"1": 0, "2": 1, "4": 2}


def asked(policy, start, count, size):
    return f"findings {policy} {start} {count} {size}"


def answered(entries, size):
    """The answer for a list of so many entries, of which as many are filled as there are findings or places."""
    filled = entries[:size]
    return " ".join(["findings 0", str(len(entries)), str(len(filled)), *filled, "kept"])


# ---------------------------------------------------------------------------------------------------------------
# By hand, call by call
# ---------------------------------------------------------------------------------------------------------------

# Text, policy, size of the list, and what is answered behind `findings 0`, on the sample page.
ON_SAMPLE = (
    # no findings: characters only, also the one that does not come back, and the empty text
    ("-", "000", 0, "0 0"), ("-", "555", 9, "0 0"), ("41", "000", 9, "0 0"), ("8140827C00A0", "000", 9, "0 0"),
    # each kind alone, and each digit that may be applied to it
    ("80", "055", 9, "1 1 0/1/80/0"), ("80", "155", 9, "1 1 0/1/80/1"), ("80", "255", 9, "1 1 0/1/80/2"),
    ("80", "355", 9, "1 1 0/1/80/3"), ("80", "455", 9, "1 1 0/1/80/4"), ("80", "500", 9, "1 1 0/1/80/5"),
    ("80", "600", 9, "1 1 0/1/80/6"), ("815A", "505", 9, "1 1 0/2/815A/0"), ("815A", "515", 9, "1 1 0/2/815A/1"),
    ("815A", "525", 9, "1 1 0/2/815A/2"), ("815A", "535", 9, "1 1 0/2/815A/3"), ("815A", "545", 9, "1 1 0/2/815A/4"),
    ("815A", "050", 9, "1 1 0/2/815A/5"), ("83", "550", 9, "1 1 0/4/83/0"), ("83", "551", 9, "1 1 0/4/83/1"),
    ("83", "552", 9, "1 1 0/4/83/2"), ("83", "553", 9, "1 1 0/4/83/3"), ("83", "554", 9, "1 1 0/4/83/4"),
    ("83", "005", 9, "1 1 0/4/83/5"), ("FF", "612", 9, "1 1 0/4/FF/2"),
    # a lead at the end, before a byte below 80 that may not be second (CR 2), and before one of 80 or more
    ("82", "555", 9, "1 1 0/4/82/5"), ("4182", "123", 9, "1 1 1/4/82/3"), ("8140828182", "555", 9, "2 2 2/4/8281/5 4/4/82/5"),
    ("820A", "555", 9, "1 1 0/4/82/5"), ("817F41", "555", 9, "1 1 0/4/81/5"), ("8280", "555", 9, "1 1 0/4/8280/5"),
    ("81A041", "555", 9, "1 1 0/4/81A0/5"), ("810A810A", "551", 9, "2 2 0/4/81/1 2/4/81/1"), ("8183", "555", 9, "1 1 0/4/8183/5"),
    ("82FF80", "123", 9, "2 2 0/4/82FF/3 2/1/80/1"), ("8200", "555", 9, "1 1 0/4/82/5"), ("813F80", "555", 9, "2 2 0/4/81/5 2/1/80/5"),
    # what stands behind a byte that is never a code is read afresh
    ("83815A", "555", 9, "2 2 0/4/83/5 1/2/815A/5"), ("8380", "123", 9, "2 2 0/4/83/3 1/1/80/1"),
    ("838341", "555", 9, "2 2 0/4/83/5 1/4/83/5"),
    # a finding at the last byte but one, and at the last
    ("41428044", "555", 9, "1 1 2/1/80/5"), ("41424380", "555", 9, "1 1 3/1/80/5"), ("4142815A", "555", 9, "1 1 2/2/815A/5"),
    # a stop is the last finding; what stands behind it is not read
    ("80810A82", "055", 9, "1 1 0/1/80/0"), ("80810A82", "555", 9, "3 3 0/1/80/5 1/4/81/5 3/4/82/5"),
    ("80810A82", "550", 9, "2 2 0/1/80/5 1/4/81/0"), ("80810A82", "555", 0, "3 0"), ("80810A82", "555", 1, "3 1 0/1/80/5"),
    ("80810A82", "555", 2, "3 2 0/1/80/5 1/4/81/5"), ("80810A82", "555", 3, "3 3 0/1/80/5 1/4/81/5 3/4/82/5"),
    ("80810A82", "055", 0, "1 0"), ("80810A82", "550", 1, "2 1 0/1/80/5"), ("4180418041", "055", 9, "1 1 1/1/80/0"),
    ("83808380", "055", 9, "2 2 0/4/83/5 1/1/80/0"), ("80808083", "550", 9, "4 4 0/1/80/5 1/1/80/5 2/1/80/5 3/4/83/0"),
    ("815A80815A83", "105", 9, "1 1 0/2/815A/0"), ("80815A83", "150", 9, "3 3 0/1/80/1 1/2/815A/5 3/4/83/0"),
    # each kind has a digit of its own, also what is skipped, and what is replaced by NUL
    ("80815A83", "123", 9, "3 3 0/1/80/1 1/2/815A/2 3/4/83/3"), ("80815A83", "645", 9, "3 3 0/1/80/6 1/2/815A/4 3/4/83/5"),
    ("83815A80", "321", 9, "3 3 0/4/83/1 1/2/815A/2 3/1/80/3"), ("80815A83", "111", 9, "3 3 0/1/80/1 1/2/815A/1 3/4/83/1"),
    ("80815A83", "222", 9, "3 3 0/1/80/2 1/2/815A/2 3/4/83/2"),
    # the same code over and over is a finding each time
    ("8080", "555", 9, "2 2 0/1/80/5 1/1/80/5"), ("815A815A", "555", 9, "2 2 0/2/815A/5 2/2/815A/5"),
)

# The same with other tables.
ON_OTHERS = (
    # a character equal to the default unit is a character; a default unit FFFF makes nothing a finding and nothing a character
    ("default_character", default_as_character, (("418141", "000", 9, "0 0"), ("41808141", "555", 9, "1 1 1/1/80/5"))),
    ("default_ffff", default_ffff, (("4180", "555", 9, "1 1 1/1/80/5"), ("8140", "000", 9, "0 0"))),
    # the class decides: entries that it hides are no characters
    ("hidden", hidden_entries, (("810A", "555", 9, "1 1 0/4/81/5"), ("83", "555", 9, "1 1 0/4/83/5"), ("81", "555", 9, "1 1 0/4/81/5"))),
    # 83 lead and second, 84 never and second
    ("more_seconds", more_seconds, (
        ("8383818482838483", "000", 9, "1 1 6/4/84/0"), ("8383818482838483", "555", 9, "2 2 6/4/84/5 7/4/83/5"),
        ("838441", "505", 9, "1 1 0/2/8384/0"), ("8284", "123", 9, "1 1 0/2/8284/2"), ("838083", "123", 9, "2 2 0/4/8380/3 2/4/83/3"),
    )),
    # 0B never, 0C single without a character, 7E no second byte, 7F and 80 are
    ("low_bytes", low_bytes, (
        ("0B0C810B810C", "123", 9, "6 6 0/4/0B/3 1/1/0C/1 2/4/81/3 3/4/0B/3 4/4/81/3 5/1/0C/1"), ("810E817F8180", "000", 9, "0 0"),
        ("817E827F8280", "555", 9, "3 3 0/4/81/5 2/2/827F/5 4/2/8280/5"), ("820E", "525", 9, "1 1 0/2/820E/2"),
        ("810B0C", "550", 9, "1 1 0/4/81/0"), ("0C0B", "650", 9, "2 2 0/1/0C/6 1/4/0B/0"),
    )),
    ("no_leads", no_leads, (("8140", "555", 9, "1 1 0/4/81/5"), ("8182", "555", 9, "2 2 0/4/81/5 1/4/82/5"))),
    ("spread_leads", spread_leads, (
        ("8040BF40C040FF40", "000", 9, "0 0"), ("8041BF41C041FF41", "525", 9, "4 4 0/2/8041/2 2/2/BF41/2 4/2/C041/2 6/2/FF41/2"),
        ("80FFBF0AFF", "553", 9, "3 3 0/4/80FF/3 2/4/BF/3 4/4/FF/3"),
    )),
    # 128 leads, all second bytes
    ("all_leads", all_leads, (
        ("80FFFFFF8040FF40", "000", 9, "0 0"), ("FFFEFF", "525", 9, "2 2 0/2/FFFE/2 2/4/FF/5"),
        ("A041FF", "143", 9, "2 2 0/2/A041/4 2/4/FF/3"),
    )),
)


def by_hand(script):
    for name, change, calls in (("sample", None, ON_SAMPLE), *ON_OTHERS):
        script.note(f"by hand, tables {name}")
        script.sample() if change is None else script.table(f"{name}.tbl", edited(change))
        for text, policy, size, answer in calls:
            script.bytes(text)
            script.expect(asked(policy, 0, 0 if text == "-" else len(text) // 2, size), f"findings 0 {answer} kept")
    script.sample()


# FROM, COUNT, policy, and the answer behind `findings 0` with room for all: parts of 41 80 81 5A 83 82 0A 81.
PARTS = (
    ("0 8", "555", "5 5 1/1/80/5 2/2/815A/5 4/4/83/5 5/4/82/5 7/4/81/5"),
    ("1 7", "555", "5 5 0/1/80/5 1/2/815A/5 3/4/83/5 4/4/82/5 6/4/81/5"), ("0 1", "000", "0 0"), ("0 2", "055", "1 1 1/1/80/0"),
    ("1 1", "555", "1 1 0/1/80/5"),
    # a lead at the end of a part is a code alone, and a second byte at its front is a byte as others
    ("0 3", "555", "2 2 1/1/80/5 2/4/81/5"), ("2 1", "555", "1 1 0/4/81/5"), ("2 2", "555", "1 1 0/2/815A/5"), ("3 1", "000", "0 0"),
    ("3 2", "555", "1 1 1/4/83/5"), ("2 3", "123", "2 2 0/2/815A/2 2/4/83/3"), ("5 1", "550", "1 1 0/4/82/0"),
    ("5 2", "551", "1 1 0/4/82/1"), ("5 3", "551", "2 2 0/4/82/1 2/4/81/1"), ("6 1", "000", "0 0"), ("7 1", "554", "1 1 0/4/81/4"),
    ("8 0", "000", "0 0"), ("4 0", "555", "0 0"),
)


def parts(script):
    script.note("parts of a text: each is a text of its own, and places count from its first byte")
    script.bytes("4180815A83820A81")
    for part, policy, answer in PARTS:
        script.expect(f"findings {policy} {part} 9", f"findings 0 {answer} kept")


# ---------------------------------------------------------------------------------------------------------------
# Texts told from their codes
# ---------------------------------------------------------------------------------------------------------------

TEXTS = (
    "", "41", "41 80/1 42", "80/1 41", "41 827C 8140", "815A/2 8140", "8140 815A/2 83/4", "83/4 80/1 815A/2 42", "82/4 0A 8141",
    "8280/4 41 82/4", "41 83/4 80/1 A0 815A/2 82/4", "80/1 80/1 80/1", "81/4 0A 81/4 0A 81/4", "815A/2 80/1 815A/2 83/4 815A/2",
    "827D/2 8283/4 83/4 83/4 7E", "8140 8141 827C 00", "FE/4 FF/4 80/1", "82A0/4 A0 82/4 20",
)
POLICIES = (*(a + b + c for a in "015" for b in "015" for c in "015"), "655", "610", "234", "342", "444", "600")
WORDS = ("41", "8140", "80/1", "815A/2", "83/4", "8280/4", "82/4 0A")


def findings_of(text, policy):
    """The bytes of a text of codes, and its findings."""
    entries, place, stopped, hexes = [], 0, False, ""
    for word in text.split():
        code, _, kind = word.partition("/")
        if kind and not stopped:
            digit = policy[DIGIT_OF[kind]]
            entries.append(f"{place}/{kind}/{code}/{digit}")
            stopped = digit == "0"
        place += len(code) // 2
        hexes += code
    return hexes, entries


def told(script, text, policy, sizes):
    hexes, entries = findings_of(text, policy)
    for size in sizes(len(entries)):
        script.expect(asked(policy, 0, len(hexes) // 2, size), answered(entries, size))


def about(number):
    """No entry, one, one less than needed, as many as needed, one more."""
    return sorted({0, 1, max(number - 1, 0), number, number + 1})


def told_from_codes(script):
    script.note("texts told from their codes, under many policies; lists without an entry, just long enough, shorter and longer by one")
    for text in TEXTS:
        script.bytes(findings_of(text, "555")[0] or "-")
        for policy in POLICIES:
            told(script, text, policy, about)
        told(script, text, "555", lambda number: (MOST_ENTRIES,))
    script.note("every text of up to three of seven codes")
    policies = itertools.cycle(POLICIES)
    for words in itertools.chain.from_iterable(itertools.product(WORDS, repeat=count) for count in (1, 2, 3)):
        text = " ".join(words)
        script.bytes(findings_of(text, "555")[0])
        for sizes in (lambda number: (number,), lambda number: (max(number - 1, 0),), lambda number: (MOST_ENTRIES,)):
            told(script, text, next(policies), sizes)
    script.note("a lead at the end of each of them, of up to two")
    for words in itertools.chain.from_iterable(itertools.product(WORDS, repeat=count) for count in (1, 2)):
        text = " ".join([*words, "81/4"])
        script.bytes(findings_of(text, "555")[0])
        told(script, text, next(policies), lambda number: (number + 1,))


# ---------------------------------------------------------------------------------------------------------------
# Each digit, refusals, long texts, and what is no command
# ---------------------------------------------------------------------------------------------------------------


def every_digit(script):
    """Digits 0 to 9 in each place: 7, 8 and 9 are 17 everywhere, 6 is where it is not the first; asked or not, the text does not matter."""
    script.note("each digit in each place: 17 for those that are not allowed, also where nothing is found, and no entry is touched")
    for text in ("80/1 815A/2 83/4", "41", ""):
        hexes = findings_of(text, "555")[0]
        script.bytes(hexes or "-")
        for place, digit in itertools.product(range(3), "0123456789"):
            policy = "555"[:place] + digit + "555"[place + 1 :]
            if digit in "789" or digit == "6" and place > 0:
                script.expect(asked(policy, 0, len(hexes) // 2, 5), "findings 17 kept")
            else:
                told(script, text, policy, lambda number: (5,))
    for policy in ("999", "666", "066", "706", "667"):
        script.expect(asked(policy, 0, 0, 0), "findings 17 kept")


def refused(script):
    script.note("refusals, each alone and with others, with an empty list and with entries, which are untouched")
    script.expect("fillbytes 65537 83", "bytes 65537")
    for size in (0, 1, 300):
        script.expect(asked("555", 0, 65537, size), "findings 11 kept")
        script.expect(asked("550", 0, 65537, size), "findings 11 kept")
        script.expect(asked("755", 0, 65537, size), "findings 17 kept")
        script.expect(asked("565", 0, 65537, size), "findings 17 kept")
    script.expect(asked("550", 0, 65536, 2), "findings 0 1 1 0/4/83/0 kept")
    script.expect(asked("550", 1, 65536, 2), "findings 0 1 1 0/4/83/0 kept")
    script.note("tables of a bad shape: 10, behind 17 and ahead of 11")
    for name, change in BAD_TABLES:
        script.table(f"{name}.tbl", edited(change))
        for count in (0, 1, 65537):
            script.expect(asked("555", 0, count, 3), "findings 10 kept")
            script.expect(asked("556", 0, count, 3), "findings 17 kept")
            script.expect(asked("655", 0, count, 0), "findings 10 kept")
    script.sample()


def entries_of(count, code, kind, digit):
    """As many findings of one code, one behind the other."""
    return [f"{number * len(code) // 2}/{kind}/{code}/{digit}" for number in range(count)]


def long_texts(script):
    script.note("lists about 300 entries, and 65,536 bytes")
    for count in (299, 300, 301, 65536):
        script.expect(f"fillbytes {count} 83", f"bytes {count}")
        for size in (0, 1, 299, 300):
            script.expect(asked("123", 0, count, size), answered(entries_of(count, "83", 4, 3), size))
    for pattern, kind in (("815A", 2), ("8280", 4)):
        script.expect(f"fillbytes 65536 {pattern}", "bytes 65536")
        script.expect(asked("124", 0, 65536, 2), answered(entries_of(32768, pattern, kind, 2 if kind == 2 else 4), 2))
        # an odd number of bytes: a lead is at the end
        script.expect(asked("122", 0, 65535, 1), answered([*entries_of(32767, pattern, kind, 2), f"65534/4/{pattern[:2]}/2"], 1))
    script.expect("fillbytes 65536 810A", "bytes 65536")
    script.expect(asked("555", 0, 65536, 2), "findings 0 32768 2 0/4/81/5 2/4/81/5 kept")
    script.expect("fillbytes 65536 41", "bytes 65536")
    script.expect(asked("000", 0, 65536, 300), "findings 0 0 0 kept")
    script.note("findings far apart, the last one at the last of 65,536 bytes; a stop behind 299 others")
    script.expect(f"fillbytes 65536 {'41' * 4095}80", "bytes 65536")
    for policy, count, found in (("655", 65536, 16), ("655", 65535, 15), ("055", 65536, 1), ("055", 4095, 0)):
        script.expect(asked(policy, 0, count, 20), answered([f"{4096 * number + 4095}/1/80/{policy[0]}" for number in range(found)], 20))
    script.bytes("80" * 299 + "83" + "80")
    entries = [*entries_of(299, "80", 1, 5), "299/4/83/0"]
    for size in (298, 299, 300):
        script.expect(asked("550", 0, 301, size), answered(entries, size))


NOT_COMMANDS = (
    "findings", "findings ", "findings 555", "findings 555 0", "findings 555 0 3", "findings 555 0 3 ", "findings 555 0 3 9 ",
    "findings 555 0 3 9 9", " findings 555 0 3 9", "findings  555 0 3 9", "Findings 555 0 3 9", "FINDINGS 555 0 3 9", "finding 555 0 3 9",
    "findings\t555 0 3 9", "findings D 555 0 3 9", "findings 55 0 3 9", "findings 5555 0 3 9", "findings 5 5 5 0 3 9", "findings 55a 0 3 9",
    "findings - 0 3 9", "findings 0 3 9", "findings 555 - 3 9", "findings 555 0 - 9", "findings 555 0 3 -", "findings 555 00 3 9",
    "findings 555 0 03 9", "findings 555 0 3 09", "findings 555 -1 3 9", "findings 555 +0 3 9", "findings 555 x 3 9", "findings 555 0 4 9",
    "findings 555 1 3 9", "findings 555 4 0 9", f"findings 555 {MOST} 2 9", f"findings 555 1 {MOST} 9", f"findings 555 {MOST + 1} 3 9",
    f"findings 555 0 {2**32 + 3} 9", "findings 555 0 3 301", f"findings 555 0 3 {2**32 + 9}", f"findings 555 0 3 {MOST}",
    f"findings 555 0 3 {MOST + 10}", f"findings 555 0 3 {'1' * 5000}", "findings 755 0 4 9", "findings 755 0 3 301", "why 555 0 3 9",
)


def commands(script):
    script.note("what is no command")
    script.sample()
    script.bytes("418083")
    for line in (*NOT_COMMANDS, b"findings 555 0 3 9\r", b"findings 555 0 3 9\x00"):
        script.expect(line, "?")
    script.expect("findings 555 0 3 300", "findings 0 2 2 1/1/80/5 2/4/83/5 kept")
    script.expect("findings 555 3 0 0", "findings 0 0 0 kept")


LEFT_ALONE = (
    ("findings 555 0 3 9", "findings 0 0 0 kept"), ("findings 555 0 1 9", "findings 0 1 1 0/4/81/5 kept"),
    ("findings 550 0 1 0", "findings 0 1 0 kept"), ("findings 755 0 1 9", "findings 17 kept"), ("findings 555 0 4 9", "?"),
)


def findings_script():
    script = Script()
    script.note("Findings (document 02, CR 7): by hand, and told from codes by hand")
    commands(script)
    by_hand(script)
    parts(script)
    told_from_codes(script)
    every_digit(script)
    left_alone(script, LEFT_ALONE)
    refused(script)
    long_texts(script)
    return script
