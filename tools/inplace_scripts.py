"""The console script inplace: units encoded in the buffer that holds them (a module of make_scripts.py).

Document 02, CR 9. A buffer's units are written by hand as four digits each, and put low byte first by code. Single calls are written
by hand; then texts whose codes are written by hand (as one_call_scripts.py has them), from which the answers are told: code after
code up to the first that stops.
"""

import itertools

from break_scripts import BAD_TABLES, MOST
from fixed_scripts import Script, edited, left_alone, surrogate_codes
from one_call_scripts import ENCODED_AS, ENCODING, ENCODING_POLICIES, codes_of

MOST_BYTES = 140000


def low_first(units):
    """Units of four digits each as the bytes of a buffer."""
    return "".join(units[place + 2 : place + 4] + units[place : place + 2] for place in range(0, len(units), 4)) or "-"


def asked(policy, units):
    return f"inplace {policy} {len(units) // 2} {low_first(units)}"


def answered(number, flags, read, output):
    return f"inplace {number} {flags} {read} {len(output) // 2} {output or '-'} kept"


# ---------------------------------------------------------------------------------------------------------------
# By hand, call by call
# ---------------------------------------------------------------------------------------------------------------

# Policy, units, then number, flags, units read and the result, on the sample page.
ON_SAMPLE = (
    ("555", "", "0 0 0 -"),
    ("555", "0041", "0 0 1 41"),
    # 4100 has no code, and 0041 has: the low byte is first
    ("555", "4100", "0 1 1 3F"),
    ("555", "3000", "0 0 1 8140"),
    ("555", "0030", "0 0 1 30"),
    ("555", "30000041", "0 0 2 814041"),
    ("555", "00413000", "0 0 2 418140"),
    # codes of two bytes all along: the result is as long as what was read
    ("555", "300030014E00", "0 0 3 81408141827C"),
    ("555", "4E004E004E004E004E00", "0 0 5 827C827C827C827C827C"),
    ("555", "3000300000413000", "0 0 4 81408140418140"),
    # 00A0 gives 20, and 0000 gives 00
    ("555", "00A0", "0 0 1 20"),
    ("555", "00000000", "0 0 2 0000"),
    # each digit for an undefined single
    ("055", "1234", "3 9 1 -"), ("155", "1234", "0 1 1 -"), ("255", "1234", "0 1 1 00"), ("355", "1234", "0 1 1 3F"),
    ("455", "1234", "0 1 1 5F"), ("555", "1234", "0 1 1 3F"), ("055", "FFFF", "3 9 1 -"),
    # and for an invalid code; the second digit is for nothing
    ("550", "DE00", "3 12 1 -"), ("551", "DE00", "0 4 1 -"), ("552", "DE00", "0 4 1 00"), ("553", "DE00", "0 4 1 3F"),
    ("554", "DE00", "0 4 1 5F"), ("555", "DE00", "0 4 1 3F"), ("505", "1234DE00", "0 5 2 3F3F"),
    # surrogate pairs: two units, one code
    ("555", "D83DDE00", "0 1 2 3F"), ("055", "D83DDE00", "3 9 2 -"), ("550", "D83DDE00", "0 1 2 3F"), ("155", "D83DDE000041", "0 1 3 41"),
    ("555", "D83DDE00D83DDE00", "0 1 4 3F3F"), ("555", "3000D83DDE003001", "0 1 4 81403F8141"), ("555", "D800DC00DBFFDFFF", "0 1 4 3F3F"),
    # a code of two bytes in front of a pair: the result reaches up to its first unit
    ("555", "30003001D83DDE00", "0 1 4 814081413F"), ("055", "30003001D83DDE000041", "3 9 4 81408141"),
    ("555", "4E00D83DDE004E00D83DDE00", "0 1 6 827C3F827C3F"),
    # surrogates alone, in the wrong order, at the end
    ("555", "D83D", "0 4 1 3F"), ("555", "0041D83D", "0 4 2 413F"), ("555", "D83D0041", "0 4 2 3F41"), ("555", "DE00D83D", "0 4 2 3F3F"),
    ("555", "D83DD83DDE00", "0 5 3 3F3F"), ("555", "D83DDE00DE00", "0 5 3 3F3F"), ("555", "D83D3000", "0 4 2 3F8140"),
    ("550", "3000D83D3000", "3 12 2 8140"), ("550", "3000D83DDE00DE000041", "3 13 4 81403F"), ("551", "D83D30003001", "0 4 3 81408141"),
    # stops in the middle: the result so far is at the front, and all behind it is as it was
    ("055", "004112340042", "3 9 2 41"), ("055", "300012343001", "3 9 2 8140"), ("055", "12343000", "3 9 1 -"),
    ("055", "00410042123412340043", "3 9 3 4142"), ("050", "30003000D83D1234", "3 12 3 81408140"),
    ("050", "30003000FFFFD83D", "3 9 3 81408140"),
    ("000", "004100423000D83DDE00", "3 9 5 41428140"),
    # what is skipped leaves the result shorter than ever
    ("151", "1234D83D1234DE00", "0 5 4 -"), ("151", "12341234123412343000", "0 1 5 8140"),
    ("151", "123430001234300112340041", "0 1 6 8140814141"),
)

# The same with the tables surrogate_codes: no surrogate is looked up, whatever the table has.
ON_SURROGATES = (
    ("555", "D7FFE0000041", "0 0 3 42827C41"), ("555", "D800", "0 4 1 3F"), ("555", "DC00", "0 4 1 3F"), ("555", "D83D", "0 4 1 3F"),
    ("555", "DBFF", "0 4 1 3F"), ("555", "DFFF", "0 4 1 3F"), ("555", "DE00", "0 4 1 3F"), ("555", "D83DDE00", "0 1 2 3F"),
    ("555", "DBFFDFFF", "0 1 2 3F"), ("555", "D800DC00", "0 1 2 3F"), ("555", "DBFFDC00E000", "0 1 3 3F827C"),
    ("555", "D7FFDC00", "0 4 2 423F"),
    ("555", "D800E000", "0 4 2 3F827C"), ("555", "D800D7FF", "0 4 2 3F42"), ("555", "DC00D800", "0 4 2 3F3F"),
    ("555", "DC00DC00", "0 4 2 3F3F"), ("555", "D800DBFF", "0 4 2 3F3F"),
    ("555", "DBFFDBFFDC00", "0 5 3 3F3F"), ("555", "E000E000DBFFDFFFE000", "0 1 5 827C827C3F827C"), ("055", "E000DBFF", "0 4 2 827C3F"),
    ("055", "E000DBFFDC00", "3 9 3 827C"), ("550", "DBFFDFFFDBFF", "3 13 3 3F"), ("151", "DBFFD800DC00DFFF", "0 5 4 -"),
)


def by_hand(script):
    for name, change, calls in (("sample", None, ON_SAMPLE), ("surrogate_codes", surrogate_codes, ON_SURROGATES)):
        script.note(f"by hand, tables {name}")
        script.sample() if change is None else script.table(f"{name}.tbl", edited(change))
        for policy, units, answer in calls:
            number, flags, read, output = answer.split(" ")
            script.expect(asked(policy, units), answered(number, flags, read, output.strip("-")))
    script.sample()


# ---------------------------------------------------------------------------------------------------------------
# Texts told from their codes
# ---------------------------------------------------------------------------------------------------------------

WORDS = ("0041>41", "3000>8140", "1234/1", "D83DDE00/1", "D83D/4", "DE00/4")


def told(script, text, policy):
    """Code after code, up to the first that stops."""
    flags, read, output, number = 0, "", "", 0
    for code, writes, flag in codes_of(text, policy, ENCODED_AS):
        flags, read = flags | flag, read + code
        if writes is None:
            flags, number = flags | 8, 3
            break
        output += writes
    units = "".join(code for code, _, _ in codes_of(text, policy, ENCODED_AS))
    script.expect(asked(policy, units), answered(number, flags, len(read) // 4, output))


def told_from_codes(script):
    script.note("texts told from their codes, under many policies")
    for text, policy in itertools.product(ENCODING, ENCODING_POLICIES):
        told(script, text, policy)
    script.note("every text of up to three of six codes")
    policies = itertools.cycle(ENCODING_POLICIES)
    for words in itertools.chain.from_iterable(itertools.product(WORDS, repeat=count) for count in (1, 2, 3)):
        # a high surrogate alone and a low one behind it would be a pair
        if ("D83D/4", "DE00/4") not in zip(words, words[1:]):
            for _ in range(2):
                told(script, " ".join(words), next(policies))


# ---------------------------------------------------------------------------------------------------------------
# Large buffers, refusals, and what is no command
# ---------------------------------------------------------------------------------------------------------------


def large(script):
    script.note("65,536 units: codes of two bytes all along, pairs all along, stops in the middle")
    script.expect("inplace 555 131072 0030", answered(0, 0, 65536, "8140" * 65536))
    script.expect("inplace 151 131072 3412", answered(0, 1, 65536, ""))
    script.expect("inplace 151 131072 3DD800DE", answered(0, 1, 65536, ""))
    script.expect("inplace 151 131070 3DD800DE", answered(0, 5, 65535, ""))
    script.expect("inplace 055 131072 3DD800DE", answered(3, 9, 2, ""))
    # 300 codes of two bytes, then one that stops
    script.expect(f"inplace 055 131072 {low_first('3000' * 300 + '1234')}", answered(3, 9, 301, "8140" * 300))
    script.expect(f"inplace 550 131072 {low_first('4E00' * 299 + 'D83DD83D')}", answered(3, 12, 300, "827C" * 299))
    # one code in a hundred writes something: 656 of them
    script.expect(f"inplace 155 131072 {low_first('3001' + '1234' * 99)}", answered(0, 1, 65536, "8141" * 656))
    script.note("buffers of 254 to 259 and of 510 to 515 bytes")
    for units in (127, 128, 129, 255, 256, 257):
        script.expect(f"inplace 555 {2 * units} 0030", answered(0, 0, units, "8140" * units))
        script.expect(f"inplace 555 {2 * units} 4100", answered(0, 0, units, "41" * units))
        script.expect(f"inplace 555 {2 * units + 1} 4100", "inplace 26 kept")


# Policy, bytes, pattern, and the refusal on the sample page.
REFUSED = (
    # 26: an odd number of bytes; ahead of 11, which is by units
    ("555", 1, "41", 26), ("555", 3, "4100", 26), ("555", 65535, "4100", 26), ("555", 65537, "4100", 26), ("555", 131071, "4100", 26),
    ("555", 131073, "4100", 26), ("555", 131074, "4100", 11), ("555", 131075, "4100", 26), ("555", 131076, "4100", 11),
    ("555", MOST_BYTES, "4100", 11), ("555", MOST_BYTES - 1, "4100", 26), ("055", 131074, "3412", 11), ("055", 131073, "3412", 26),
    # 17: ahead of both; 6 is not for encoding, in no digit
    *((policy, size, "4100", 17) for policy in ("655", "565", "556", "755", "575", "557", "999") for size in (0, 2, 3, 131073, 131074)),
)


def refused(script):
    script.note("refusals, each alone and with others: the buffer is untouched")
    for policy, size, pattern, number in REFUSED:
        script.expect(f"inplace {policy} {size} {pattern}", f"inplace {number} kept")
    script.note("65,536 bytes and a few more are no limit")
    for size in (65536, 65538):
        script.expect(f"inplace 155 {size} 3412", answered(0, 1, size // 2, ""))
    script.note("tables of a bad shape: 10, behind 17 and ahead of 26 and 11")
    for name, change in BAD_TABLES:
        script.table(f"{name}.tbl", edited(change))
        for size in (0, 2, 3, 131073, 131074):
            script.expect(f"inplace 555 {size} 4100", "inplace 10 kept")
            script.expect(f"inplace 655 {size} 4100", "inplace 17 kept")
    script.sample()


NOT_COMMANDS = (
    "inplace", "inplace ", "inplace 555", "inplace 555 2", "inplace 555 2 ", "inplace 555 2 4100 ", "inplace 555 2 4100 4100",
    " inplace 555 2 4100", "inplace  555 2 4100", "Inplace 555 2 4100", "INPLACE 555 2 4100", "inplaces 555 2 4100", "inplace\t555 2 4100",
    "inplace 55 2 4100", "inplace 5555 2 4100", "inplace 5 5 5 2 4100", "inplace 55a 2 4100", "inplace - 2 4100", "inplace E 555 2 4100",
    "inplace 555 - 4100", "inplace 555 02 4100", "inplace 555 -2 4100", "inplace 555 +2 4100", "inplace 555 x 4100",
    f"inplace 555 {MOST_BYTES + 1} 4100", f"inplace 555 {2**32 + 2} 4100", f"inplace 555 {MOST} 4100", f"inplace 555 {MOST + 3} 4100",
    f"inplace 555 {'1' * 5000} 4100", "inplace 555 2 4", "inplace 555 2 410", "inplace 555 2 4g", "inplace 555 2 4a", "inplace 555 2 0x41",
    # nothing, over and over, fills an empty buffer only
    "inplace 555 1 -", "inplace 555 2 -", f"inplace 555 {MOST_BYTES} -", "inplace 555 0 --", "inplace 555 0 4", "inplace 755 2 -",
)


def commands(script):
    script.note("what is no command")
    script.sample()
    for line in (*NOT_COMMANDS, b"inplace 555 2 4100\r", b"inplace 555 2 4100\x00"):
        script.expect(line, "?")
    script.note("empty buffers; a pattern is cut where the buffer ends")
    for pattern in ("-", "41", "4100", "34123412"):
        script.expect(f"inplace 055 0 {pattern}", answered(0, 0, 0, ""))
    script.expect("inplace 555 2 41004200", answered(0, 0, 1, "41"))
    script.expect("inplace 555 6 4100", answered(0, 0, 3, "414141"))
    # the units 3000, 0041 and 4130
    script.expect("inplace 555 6 003041", answered(0, 1, 3, "8140413F"))
    script.expect("inplace 555 1 41004200", "inplace 26 kept")


LEFT_ALONE = (
    ("inplace 555 4 00304100", answered(0, 0, 2, "814041")), ("inplace 055 2 3412", answered(3, 9, 1, "")),
    ("inplace 555 1 41", "inplace 26 kept"),
    ("inplace 755 2 4100", "inplace 17 kept"), ("inplace 555 2 4", "?"),
)


def inplace_script():
    script = Script()
    script.note("Units encoded in their own buffer (document 02, CR 9): by hand, and told from codes by hand")
    commands(script)
    by_hand(script)
    told_from_codes(script)
    left_alone(script, LEFT_ALONE)
    refused(script)
    large(script)
    return script
