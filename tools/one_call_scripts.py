"""The console script one_call: need and conversion by one call (a module of make_scripts.py).

Document 02, CR 10. Its first part is written by hand, call by call. Its second part has texts whose codes are written by hand
(DECODING, ENCODING), each under many policies and with every room from 0 to its need and one more; what a call must answer is told
from the codes: need and flags by going through all of them until one stops, the rest by going through them until one does not fit.

A text is written code by code, as `41>0041 815A/2 80/1`: what the code is read from, then `>` and what it writes, or `/` and its
flag where it has no character.
"""

from fixed_scripts import Script, cut, edited, fresh, line_hex

# ---------------------------------------------------------------------------------------------------------------
# By hand, call by call, on the sample page
# ---------------------------------------------------------------------------------------------------------------

# Text, policy, then for each room: number flags read need written output.
DECODED = (
    # a stop behind what did not fit: flags 1 and 8 are up, and 2 is ahead of 3
    ("418042", "055", {0: "2 9 0 1 0 -", 1: "3 9 2 1 1 0041", 2: "3 9 2 1 1 0041"}),
    ("8041", "055", {0: "3 9 1 0 0 -", 1: "3 9 1 0 0 -", 9: "3 9 1 0 0 -"}),
    ("80", "155", {0: "0 1 1 0 0 -", 1: "0 1 1 0 0 -"}),
    ("4180", "555", {0: "2 1 0 2 0 -", 1: "2 1 1 2 1 0041", 2: "0 1 2 2 2 004130FB", 3: "0 1 2 2 2 004130FB"}),
    # codes that write nothing are read up to the first that does not fit, and behind the last that fits
    ("8041", "155", {0: "2 1 1 1 0 -", 1: "0 1 2 1 1 0041"}),
    ("4180", "155", {0: "2 1 0 1 0 -", 1: "0 1 2 1 1 0041"}),
    ("80834180", "151", {0: "2 5 2 1 0 -", 1: "0 5 4 1 1 0041", 2: "0 5 4 1 1 0041"}),
    ("80418342", "151", {0: "2 5 1 2 0 -", 1: "2 5 3 2 1 0041", 2: "0 5 4 2 2 00410042"}),
    # one stop and another behind it: the reading ends at the first
    ("41804283", "050", {0: "2 9 0 1 0 -", 1: "3 9 2 1 1 0041"}),
    ("41834280", "050", {0: "2 12 0 1 0 -", 1: "3 12 2 1 1 0041"}),
    # each kind of code behind the end of room
    ("41815A", "555", {0: "2 2 0 2 0 -", 1: "2 2 1 2 1 0041", 2: "0 2 3 2 2 004130FB"}),
    ("41815A42", "505", {0: "2 10 0 1 0 -", 1: "3 10 3 1 1 0041"}),
    ("4183", "555", {0: "2 4 0 2 0 -", 1: "2 4 1 2 1 0041", 2: "0 4 2 2 2 004130FB"}),
    ("4182", "550", {0: "2 12 0 1 0 -", 1: "3 12 2 1 1 0041"}),
    ("418280", "550", {0: "2 12 0 1 0 -", 1: "3 12 3 1 1 0041"}),
    ("810A41", "555", {0: "2 4 0 3 0 -", 1: "2 4 1 3 1 30FB", 2: "2 4 2 3 2 30FB000A", 3: "0 4 3 3 3 30FB000A0041"}),
    ("810A41", "551", {0: "2 4 1 2 0 -", 1: "2 4 2 2 1 000A", 2: "0 4 3 2 2 000A0041"}),
    ("810A41", "550", {0: "3 12 1 0 0 -", 1: "3 12 1 0 0 -"}),
    ("4180815A83", "555", {0: "2 7 0 4 0 -", 3: "2 7 4 4 3 004130FB30FB", 4: "0 7 5 4 4 004130FB30FB30FB"}),
    ("4180815A8342", "550", {0: "2 15 0 3 0 -", 2: "2 15 2 3 2 004130FB", 3: "3 15 5 3 3 004130FB30FB"}),
    ("80", "655", {0: "2 1 0 1 0 -", 1: "0 1 1 1 1 F180"}),
    # nothing is amiss, and the empty text
    ("41827C", "000", {0: "2 0 0 2 0 -", 1: "2 0 1 2 1 0041", 2: "0 0 3 2 2 00414E00", 9: "0 0 3 2 2 00414E00"}),
    ("-", "000", {0: "0 0 0 0 0 -", 1: "0 0 0 0 0 -"}),
)
ENCODED = (
    ("004112340042", "055", {0: "2 9 0 1 0 -", 1: "3 9 2 1 1 41", 2: "3 9 2 1 1 41"}),
    ("12340041", "055", {0: "3 9 1 0 0 -", 1: "3 9 1 0 0 -", 9: "3 9 1 0 0 -"}),
    ("1234", "155", {0: "0 1 1 0 0 -", 1: "0 1 1 0 0 -"}),
    ("00411234", "555", {0: "2 1 0 2 0 -", 1: "2 1 1 2 1 41", 2: "0 1 2 2 2 413F", 3: "0 1 2 2 2 413F"}),
    # a code of two bytes needs both, and is written with both places or not at all
    ("3000", "000", {0: "2 0 0 2 0 -", 1: "2 0 0 2 0 -", 2: "0 0 1 2 2 8140", 3: "0 0 1 2 2 8140"}),
    ("00413000", "000", {0: "2 0 0 3 0 -", 1: "2 0 1 3 1 41", 2: "2 0 1 3 1 41", 3: "0 0 2 3 3 418140"}),
    ("30001234", "055", {0: "2 9 0 2 0 -", 1: "2 9 0 2 0 -", 2: "3 9 2 2 2 8140", 3: "3 9 2 2 2 8140"}),
    ("12343000", "155", {0: "2 1 1 2 0 -", 1: "2 1 1 2 0 -", 2: "0 1 2 2 2 8140"}),
    ("300000413001", "555", {1: "2 0 0 5 0 -", 2: "2 0 1 5 2 8140", 3: "2 0 2 5 3 814041", 4: "2 0 2 5 3 814041",
                             5: "0 0 3 5 5 8140418141"}),
    # a pair is one code: one byte, and two units that are read together
    ("D83DDE00", "555", {0: "2 1 0 1 0 -", 1: "0 1 2 1 1 3F", 2: "0 1 2 1 1 3F"}),
    ("D83DDE00", "055", {0: "3 9 2 0 0 -", 1: "3 9 2 0 0 -"}),
    ("D83DDE00", "155", {0: "0 1 2 0 0 -", 1: "0 1 2 0 0 -"}),
    ("0041D83DDE000042", "055", {0: "2 9 0 1 0 -", 1: "3 9 3 1 1 41"}),
    ("0041D83DDE00", "555", {0: "2 1 0 2 0 -", 1: "2 1 1 2 1 41", 2: "0 1 3 2 2 413F"}),
    ("D83DDE003000", "155", {0: "2 1 2 2 0 -", 1: "2 1 2 2 0 -", 2: "0 1 3 2 2 8140"}),
    # any other surrogate: the third digit, flag 4
    ("D83D0041", "555", {0: "2 4 0 2 0 -", 1: "2 4 1 2 1 3F", 2: "0 4 2 2 2 3F41"}),
    ("D83D0041", "551", {0: "2 4 1 1 0 -", 1: "0 4 2 1 1 41"}),
    ("D83D0041", "550", {0: "3 12 1 0 0 -", 1: "3 12 1 0 0 -"}),
    ("3000DE00", "550", {0: "2 12 0 2 0 -", 1: "2 12 0 2 0 -", 2: "3 12 2 2 2 8140"}),
    ("0041D83D", "551", {0: "2 4 0 1 0 -", 1: "0 4 2 1 1 41"}),
    ("D83DD83DDE001234", "550", {0: "3 12 1 0 0 -", 9: "3 12 1 0 0 -"}),
    ("D83DD83DDE001234", "055", {0: "2 13 0 1 0 -", 1: "3 13 3 1 1 3F"}),
    ("D83DD83DDE001234", "151", {0: "0 5 4 0 0 -", 1: "0 5 4 0 0 -"}),
    # nothing is amiss, and the empty text
    ("00414E00", "000", {0: "2 0 0 3 0 -", 2: "2 0 1 3 1 41", 3: "0 0 2 3 3 41827C", 9: "0 0 2 3 3 41827C"}),
    ("-", "000", {0: "0 0 0 0 0 -", 1: "0 0 0 0 0 -"}),
)


def by_hand(script):
    for direction, put, digits, rows in (("D", script.bytes, 2, DECODED), ("E", script.units, 4, ENCODED)):
        script.note(f"{'decoding' if direction == 'D' else 'encoding'}, call by call")
        for text, policy, rooms in rows:
            put(text)
            count = 0 if text == "-" else len(text) // digits
            for room, answer in rooms.items():
                script.expect(f"convert {direction} {policy} 0 {count} {room}", f"convert {answer} kept")


def parts_of_texts(script):
    """A part of a text is a whole text of its own."""
    script.note("parts of texts: what is around them is not read")
    script.bytes("8041804282")
    script.expect("convert D 055 1 2 0", "convert 2 9 0 1 0 - kept")
    script.expect("convert D 055 1 2 1", "convert 3 9 2 1 1 0041 kept")
    script.expect("convert D 055 1 1 0", "convert 2 0 0 1 0 - kept")
    script.expect("convert D 055 1 1 1", "convert 0 0 1 1 1 0041 kept")
    script.expect("convert D 550 3 1 0", "convert 2 0 0 1 0 - kept")
    script.expect("convert D 550 3 2 0", "convert 2 12 0 1 0 - kept")
    script.expect("convert D 550 5 0 0", "convert 0 0 0 0 0 - kept")
    script.units("0041D83DDE003000")
    script.expect("convert E 055 0 2 1", "convert 2 4 1 2 1 41 kept")
    script.expect("convert E 055 0 2 2", "convert 0 4 2 2 2 413F kept")
    script.expect("convert E 055 0 3 0", "convert 2 9 0 1 0 - kept")
    script.expect("convert E 550 2 2 0", "convert 3 12 1 0 0 - kept")
    script.expect("convert E 555 2 2 2", "convert 2 4 1 3 1 3F kept")
    script.expect("convert E 555 2 2 3", "convert 0 4 2 3 3 3F8140 kept")
    script.note("a stop behind 299 characters")
    script.expect(f"bytes {'41' * 299}80", "bytes 300")
    script.expect("convert D 055 0 300 0", "convert 2 9 0 299 0 - kept")
    script.expect("convert D 055 0 300 298", f"convert 2 9 298 299 298 {'0041' * 298} kept")
    script.expect("convert D 055 0 300 299", f"convert 3 9 300 299 299 {'0041' * 299} kept")
    script.expect("convert D 055 0 300 300", f"convert 3 9 300 299 299 {'0041' * 299} kept")
    script.note("need over 65,535: 65,536 units of two bytes each; all skipped; a stop at once")
    script.expect("fillunits 65537 3000", "units 65537")
    script.expect("convert E 000 0 65536 0", "convert 2 0 0 131072 0 - kept")
    script.expect("convert E 000 0 65536 1", "convert 2 0 0 131072 0 - kept")
    script.expect("convert E 000 0 65536 5", "convert 2 0 2 131072 4 81408140 kept")
    script.expect("fillunits 65536 1234", "units 65536")
    script.expect("convert E 155 0 65536 0", "convert 0 1 65536 0 0 - kept")
    script.expect("convert E 555 0 65536 0", "convert 2 1 0 65536 0 - kept")
    script.expect("convert E 555 0 65536 2", "convert 2 1 2 65536 2 3F3F kept")
    script.expect("convert E 055 0 65536 0", "convert 3 9 1 0 0 - kept")


# ---------------------------------------------------------------------------------------------------------------
# Refusals, and what is no command any more
# ---------------------------------------------------------------------------------------------------------------


def refusals(script):
    """17, 10, 11 in that order, with empty room and with room, which is untouched."""
    script.note("refusals: 17, 10, 11, with room and without; nothing is written")
    script.expect("fillbytes 65537 80", "bytes 65537")
    script.expect("fillunits 65537 1234", "units 65537")
    for direction, bad_policy in (("D", "756"), ("E", "655")):
        for room in (0, 1, 5):
            script.sample()
            script.expect(f"convert {direction} {bad_policy} 0 65537 {room}", "convert 17 kept")
            script.expect(f"convert {direction} {bad_policy} 0 1 {room}", "convert 17 kept")
            script.expect(f"convert {direction} {bad_policy} 0 0 {room}", "convert 17 kept")
            script.expect(f"convert {direction} 055 0 65537 {room}", "convert 11 kept")
            script.expect(f"convert {direction} 055 0 65536 {room}", "convert 3 9 1 0 0 - kept")
            script.table("index_255.tbl", edited(cut("index", 255, 0)))
            script.expect(f"convert {direction} {bad_policy} 0 65537 {room}", "convert 17 kept")
            script.expect(f"convert {direction} 055 0 65537 {room}", "convert 10 kept")
            script.expect(f"convert {direction} 055 0 1 {room}", "convert 10 kept")
            script.expect(f"convert {direction} 055 0 0 {room}", "convert 10 kept")
    script.sample()


def no_counting(script):
    """`count` is no command, and the call that took its place leaves the run in hand alone."""
    script.note("count is no command any more")
    script.bytes("418042")
    script.units("004112340042")
    script.start("E", 9, "123")
    for line in ("count D 055 0 3", "count E 055 0 3", "count D 555 0 0", "count D 755 0 1", "count D 055 0 3 0", "count"):
        script.expect(line, "?")
    script.expect("convert D 055 0 3 0", "convert 2 9 0 1 0 - kept")
    script.expect("convert E 055 0 3 1", "convert 3 9 2 1 1 41 kept")
    script.expect("save 44", f"save 0 19 {line_hex('E>9>123>->0>0>0>on;')} kept")
    script.expect("encode 0 0 more 0", f"encode 13 0 0 - kept {fresh('E', 9, '123')}")


# ---------------------------------------------------------------------------------------------------------------
# Texts told from their codes
# ---------------------------------------------------------------------------------------------------------------

DECODING = (
    "41>0041 80/1 42>0042",
    "80/1 41>0041",
    "41>0041 827C>4E00 8140>3000",
    "815A/2 8140>3000",
    "8140>3000 815A/2 83/4",
    "83/4 80/1 815A/2 42>0042",
    "82/4 0A>000A 8141>3001",
    "8280/4 41>0041 82/4",
    "41>0041 83/4 80/1 A0>00A0 815A/2 82/4",
)
ENCODING = (
    "0041>41 1234/1 0042>42",
    "1234/1 0041>41",
    "3000>8140 0041>41 4E00>827C",
    "0041>41 3000>8140 1234/1",
    "D83DDE00/1 3000>8140",
    "3000>8140 D83DDE00/1 00A0>20",
    "D83D/4 3001>8141",
    "0041>41 DE00/4 3000>8140 D83D/4",
    "D83D/4 D83DDE00/1 DE00/4 0041>41",
    "DE00/4 D83D/4",
    "1234/1 D83D/4 3000>8140 DE00/4 D83DDE00/1 FFFF/1",
)
# What a digit writes for a code without a character: 0 stops. 6 is for 80, the sample page's one undefined single.
DECODED_AS = {"0": None, "1": "", "2": "0000", "3": "003F", "4": "005F", "5": "30FB", "6": "F180"}
ENCODED_AS = {"0": None, "1": "", "2": "00", "3": "3F", "4": "5F", "5": "3F"}
# The digit that is asked for a flag.
DIGIT_OF = {1: 0, 2: 1, 4: 2}

DECODING_POLICIES = tuple(a + b + c for a in "015" for b in "015" for c in "015") + ("655", "610", "234", "342")
# no unit is an undefined pair: the second digit plays no part
ENCODING_POLICIES = ("000", "011", "055", "150", "101", "115", "510", "551", "505", "234", "402")


def codes_of(text, policy, written_as):
    """The codes of a text under a policy as (what it is read from, what it writes or None where it stops, its flag)."""
    codes = []
    for word in text.split():
        code, character, writes = word.partition(">")
        flag = 0
        if not character:
            code, _, flag = word.partition("/")
            flag = int(flag)
            writes = written_as[policy[DIGIT_OF[flag]]]
        codes.append((code, writes, flag))
    return codes


def every_room(script, direction, text, policy):
    """One text under one policy, with every room from 0 to its need and one more."""
    in_digits, out_digits, written_as = (2, 4, DECODED_AS) if direction == "D" else (4, 2, ENCODED_AS)
    codes = codes_of(text, policy, written_as)
    count = sum(len(code) for code, _, _ in codes) // in_digits
    # the whole reading
    need = flags = stops = 0
    for _, writes, flag in codes:
        flags |= flag
        if writes is None:
            flags, stops = flags | 8, 1
            break
        need += len(writes) // out_digits
    for room in range(need + 2):
        # the conversion: up to the first code that does not fit, or past the first that stops
        read, output = "", ""
        for code, writes, _ in codes:
            if writes is None:
                read += code
                break
            if len(output) + len(writes) > room * out_digits:
                break
            read, output = read + code, output + writes
        number = 2 if need > room else 3 if stops else 0
        script.expect(
            f"convert {direction} {policy} 0 {count} {room}",
            f"convert {number} {flags} {len(read) // in_digits} {need} {len(output) // out_digits} {output or '-'} kept",
        )


def told_from_codes(script):
    script.note("texts told from their codes, with every room from 0 to the need and one more")
    for direction, put, texts, policies in (
        ("D", script.bytes, DECODING, DECODING_POLICIES),
        ("E", script.units, ENCODING, ENCODING_POLICIES),
    ):
        for text in texts:
            put("".join(word.partition(">")[0].partition("/")[0] for word in text.split()))
            for policy in policies:
                every_room(script, direction, text, policy)


def one_call_script():
    script = Script()
    script.note("Need and conversion by one call (document 02, CR 10): by hand")
    script.sample()
    by_hand(script)
    parts_of_texts(script)
    refusals(script)
    no_counting(script)
    told_from_codes(script)
    return script
