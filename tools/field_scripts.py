"""The console scripts on fields, each command with its expected answer (a module of make_scripts.py).

In `fields` every answer is written by hand, from document 02 (CR 1) and the readings of it. In `field_cuttings` the fields of each
text are written by hand, and what each call of each cutting must answer is told from them: from where its field begins and ends in
the uncut text.

Texts are written in letters, with ; for the line feed and an empty one for none, as in `a|bc;`.
"""

import itertools

from fixed_scripts import Script, line_hex

FILL = "\uEEEE"


def units_hex(text):
    """A text as hex, or -."""
    return "".join(f"{ord(letter):04X}" for letter in text.replace(";", "\n")) or "-"


class FieldScript(Script):
    """A script with a field buffer, whose units are those of `front` and then the fill."""

    def text(self, text):
        self.units(units_hex(text))

    def hold(self, size):
        self.size = size
        self.expect(f"hold {size}", f"hold {size}")

    def held(self, count):
        self.expect(f"held {count}", f"held {count}")

    def field(self, asked, answer, held, front=""):
        """One call, as `FROM COUNT more`, and its answer, as `bar 2 block:a`, `held 2` or `21`: the field's units in letters behind a
        colon. Then the state and the buffer after it."""
        answer, colon, units = answer.partition(":")
        if colon:
            answer += f" {units_hex(units)}"
        buffer = units_hex(front + FILL * (self.size - len(front)))
        self.expect(f"field {asked}", f"field {answer} {held} {buffer}")


def ends(script):
    script.note("What ends a field, and where it is shown from")
    script.text("")
    script.hold(256)
    script.field("0 0 more", "held 0", 0)
    script.field("0 0 last", "held 0", 0)
    script.field("0 0 last", "held 0", 0)
    script.note("an empty field")
    script.text("|")
    script.field("0 1 more", "bar 1 block:", 0)
    script.field("1 0 last", "held 0", 0)
    script.field("0 1 last", "bar 1 block:", 0)
    script.field("1 0 last", "held 0", 0)
    script.note("two line feeds")
    script.text(";;")
    script.field("0 2 last", "line 1 block:", 0)
    script.field("1 1 last", "line 1 block:", 0)
    script.field("2 0 last", "held 0", 0)
    script.note("a field that the text's end ends, in one block and after it")
    script.text("a")
    script.field("0 1 last", "end 1 block:a", 0)
    script.field("1 0 last", "held 0", 0)
    script.field("0 1 more", "held 1", 1, "a")
    script.field("1 0 more", "held 0", 1, "a")
    script.field("1 0 last", "end 0 hold:a", 0, "a")
    script.field("1 0 last", "held 0", 0, "a")
    script.note("no empty field at the text's end, after a bar and after a line feed")
    script.hold(256)
    script.text("a|")
    script.field("0 2 last", "bar 2 block:a", 0)
    script.field("2 0 last", "held 0", 0)
    script.field("0 1 more", "held 1", 1, "a")
    script.field("1 1 last", "bar 1 hold:a", 0, "a")
    script.field("2 0 last", "held 0", 0, "a")
    script.text("a;")
    script.field("0 2 last", "line 2 block:a", 0, "a")
    script.field("2 0 last", "held 0", 0, "a")
    script.note("the next field is given, whatever follows it")
    script.hold(256)
    script.text("a|bc;d")
    script.field("0 6 last", "bar 2 block:a", 0)
    script.field("2 4 last", "line 3 block:bc", 0)
    script.field("5 1 last", "end 1 block:d", 0)
    script.field("6 0 last", "held 0", 0)
    script.note("a block that ends before the text's end")
    script.field("0 6 more", "bar 2 block:a", 0)
    script.field("2 4 more", "line 3 block:bc", 0)
    script.field("5 1 more", "held 1", 1, "d")
    script.field("6 0 last", "end 0 hold:d", 0, "d")


def held_fields(script):
    script.note("A field in several blocks; what a field leaves in the buffer stays there")
    script.hold(256)
    script.text("abc|de|f|;gh")
    script.field("0 1 more", "held 1", 1, "a")
    script.field("1 1 more", "held 1", 2, "ab")
    script.field("2 4 more", "bar 2 hold:abc", 0, "abc")
    script.field("4 2 more", "held 2", 2, "dec")
    script.field("6 1 more", "bar 1 hold:de", 0, "dec")
    script.field("7 3 more", "bar 2 block:f", 0, "dec")
    script.field("9 1 more", "line 1 block:", 0, "dec")
    script.field("10 1 more", "held 1", 1, "gec")
    script.field("11 1 last", "end 1 hold:gh", 0, "ghc")
    script.field("12 0 last", "held 0", 0, "ghc")
    script.note("the state and the buffer stay where a text, a table or a run is set")
    script.hold(256)
    script.text("ab")
    script.field("0 2 more", "held 2", 2, "ab")
    script.sample()
    script.bytes("41")
    script.start("D", 7, "555")
    script.text("c|")
    script.field("0 2 more", "bar 2 hold:abc", 0, "abc")
    script.note("hold makes all anew, and held says what it is told")
    script.text("ab|")
    script.field("0 2 more", "held 2", 2, "abc")
    script.hold(256)
    script.field("2 1 more", "bar 1 block:", 0)
    script.field("0 2 more", "held 2", 2, "ab")
    script.held(1)
    script.field("2 1 more", "bar 1 hold:a", 0, "ab")
    script.held(3)
    script.field("2 1 more", "bar 1 hold:ab\uEEEE", 0, "ab")
    script.held(0)
    script.field("2 1 more", "bar 1 block:", 0, "ab")


def ordinary_units(script):
    script.note("Only 007C and 000A part fields; every other unit is of a field")
    script.hold(256)
    for text in ("\r", "\t\v\f", "{}", "\x7f\x80", "\u7C00\u0A00", "\u017C\u010A", "\uFF7C\uFF0A", "\u7C7C\u0A0A", "\0", "\uFFFF",
                 "\uD83D\uDE00", "\u2028\u2029\x85", ",\"'", "\u00A6\uFF5C\u2502"):
        count = len(text)
        script.text(f"{text}|{text};{text}")
        script.field(f"0 {3 * count + 2} last", f"bar {count + 1} block:{text}", 0)
        script.field(f"{count + 1} {2 * count + 1} last", f"line {count + 1} block:{text}", 0)
        script.field(f"{2 * count + 2} {count} last", f"end {count} block:{text}", 0)


def longest(script):
    script.note("255, 256 and 257 units of a field in the block")
    script.hold(256)
    for word, mark in (("bar", "|"), ("line", ";")):
        script.text("a" * 257 + mark)
        script.field("2 256 more", f"{word} 256 block:{'a' * 255}", 0)
        script.field("1 257 more", f"{word} 257 block:{'a' * 256}", 0)
        script.field("0 258 more", "21", 0)
        script.field("0 258 last", "21", 0)
    script.text("a" * 257)
    script.field("0 255 last", f"end 255 block:{'a' * 255}", 0)
    script.field("0 256 last", f"end 256 block:{'a' * 256}", 0)
    script.field("0 257 last", "21", 0)
    script.note("held: a field that is not complete counts as far as it is there")
    script.field("0 257 more", "21", 0)
    script.field("0 255 more", "held 255", 255, "a" * 255)
    script.field("255 2 more", "21", 255, "a" * 255)
    script.field("255 2 last", "21", 255, "a" * 255)
    script.field("255 1 more", "held 1", 256, "a" * 256)
    script.field("256 1 more", "21", 256, "a" * 256)
    script.field("256 1 last", "21", 256, "a" * 256)
    script.field("256 0 more", "held 0", 256, "a" * 256)
    script.field("256 0 last", f"end 0 hold:{'a' * 256}", 0, "a" * 256)
    script.hold(256)
    script.field("0 256 more", "held 256", 256, "a" * 256)
    script.text("|")
    script.field("0 1 more", f"bar 1 hold:{'a' * 256}", 0, "a" * 256)
    script.note("256 held, another unit, then a bar: the refused call has changed nothing")
    script.hold(256)
    script.text("a" * 256 + "b|")
    script.field("0 256 more", "held 256", 256, "a" * 256)
    script.field("256 2 more", "21", 256, "a" * 256)
    script.field("257 1 more", f"bar 1 hold:{'a' * 256}", 0, "a" * 256)
    script.field("256 2 more", "bar 2 block:b", 0, "a" * 256)
    script.note("held and in the block")
    for before, within, word, mark in ((1, 255, "bar", "|"), (255, 1, "line", ";"), (128, 128, "bar", "|")):
        script.hold(256)
        script.text("a" * before + "b" * (within + 1) + mark)
        script.field(f"0 {before} more", f"held {before}", before, "a" * before)
        script.field(f"{before} {within + 2} last", "21", before, "a" * before)
        script.field(f"{before + 1} {within + 1} last", f"{word} {within + 1} hold:{'a' * before + 'b' * within}", 0,
                     "a" * before + "b" * within)
    script.note("254 and 255 units, held and in the block")
    script.hold(256)
    script.text("a" * 100 + "b" * 155 + ";")
    script.field("0 100 more", "held 100", 100, "a" * 100)
    script.field("100 156 more", f"line 156 hold:{'a' * 100 + 'b' * 155}", 0, "a" * 100 + "b" * 155)
    script.note("only the next field counts: a longer one behind it is refused when it is the next")
    script.hold(256)
    script.text("a|" + "b" * 257 + ";c")
    script.field("0 261 last", "bar 2 block:a", 0)
    script.field("2 259 last", "21", 0)
    script.field("259 2 last", "line 1 block:", 0)
    script.field("260 1 last", "end 1 block:c", 0)


def long_blocks(script):
    script.note("65,536 and 65,537 units")
    script.hold(256)
    script.expect("fillunits 65537 0061007C", "units 65537")
    script.field("0 65537 more", "11", 0)
    script.field("0 65537 last", "11", 0)
    script.field("0 65536 more", "bar 2 block:a", 0)
    script.field("1 65536 last", "bar 1 block:", 0)
    script.field("65536 1 more", "held 1", 1, "a")
    script.field("1 65536 more", "bar 1 hold:a", 0, "a")
    script.expect("fillunits 66000 0061", "units 66000")
    script.field("0 65536 last", "21", 0, "a")
    script.field("0 65537 last", "11", 0, "a")
    script.field("465 65535 more", "21", 0, "a")
    script.field("66000 0 last", "held 0", 0, "a")


# Size of the buffer, held, the pattern of the text, the call's number of units, and the refusal: the first of 20, 11, 27, 21 that
# holds.
REFUSALS = (
    # 20 alone, and before each set of the others
    (255, 0, "0061007C", 2, 20),
    (255, 0, "0061007C", 65537, 20),
    (255, 257, "0061007C", 0, 20),
    (255, 0, "0061", 257, 20),
    (255, 257, "0061007C", 65537, 20),
    (255, 0, "0061", 65537, 20),
    (255, 257, "0061", 257, 20),
    (255, 257, "0061", 65537, 20),
    (0, 0, "0061007C", 0, 20),
    (1, 0, "0061007C", 0, 20),
    (0, 18446744073709551615, "0061", 65537, 20),
    # 11 alone, and before the others
    (256, 0, "0061007C", 65537, 11),
    (256, 256, "007C0061", 65537, 11),
    (256, 257, "0061007C", 65537, 11),
    (256, 0, "0061", 65537, 11),
    (256, 257, "0061", 65537, 11),
    (300, 18446744073709551615, "0061", 65537, 11),
    # 27 alone, and before 21; a state of 64 bits, not one that wraps
    (256, 257, "007C", 1, 27),
    (256, 257, "0061", 0, 27),
    (256, 257, "0061", 257, 27),
    (256, 300, "0061", 0, 27),
    (300, 257, "007C", 1, 27),
    (300, 300, "007C", 1, 27),
    (256, 65536, "007C", 1, 27),
    (256, 4294967296, "0061", 1, 27),
    (256, 4294967297, "007C", 1, 27),
    (256, 18446744073709551359, "0061", 256, 27),
    (256, 18446744073709551360, "0061", 256, 27),
    (256, 18446744073709551615, "0061", 1, 27),
    (256, 18446744073709551615, "0061", 2, 27),
    (256, 18446744073709551615, "007C", 0, 27),
    # 21 alone
    (256, 0, "0061", 257, 21),
    (256, 256, "0061007C", 2, 21),
    (256, 256, "0061", 1, 21),
    (256, 1, "0061", 256, 21),
    (256, 0, "0061", 65536, 21),
    (300, 0, "0061", 257, 21),
    (300, 256, "0061", 1, 21),
    (300, 1, "0061", 299, 21),
)


def refusals(script):
    script.note("Refusals, alone and together: the first in the order is given; buffer and state stay")
    pattern = None
    for size, held, units, count, number in sorted(REFUSALS, key=lambda row: row[2]):
        if units != pattern:
            pattern = units
            script.expect(f"fillunits 65537 {pattern}", "units 65537")
        script.hold(size)
        script.held(held)
        script.field(f"0 {count} more", str(number), held)
        script.field(f"0 {count} last", str(number), held)
    script.note("a state that claims 256 is accepted, whatever the buffer has")
    script.text("|a")
    script.hold(256)
    script.held(256)
    script.field("0 1 more", f"bar 1 hold:{FILL * 256}", 0)
    script.held(256)
    script.field("2 0 last", f"end 0 hold:{FILL * 256}", 0)
    script.held(255)
    script.field("1 1 last", f"end 1 hold:{FILL * 255 + 'a'}", 0, FILL * 255 + "a")
    script.note("a refused call leaves a field that was begun")
    script.hold(256)
    script.text("ab|" + "c" * 256)
    script.field("0 2 more", "held 2", 2, "ab")
    script.field("3 256 more", "21", 2, "ab")
    script.field("2 1 more", "bar 1 hold:ab", 0, "ab")
    script.note("a longer buffer: no field is longer for it, and its units from 256 on never change")
    for size in (257, 300):
        script.hold(size)
        script.text("a" * 258 + "|")
        script.field("0 257 more", "21", 0)
        script.field("0 256 more", "held 256", 256, "a" * 256)
        script.field("256 1 more", "21", 256, "a" * 256)
        script.field("258 1 more", f"bar 1 hold:{'a' * 256}", 0, "a" * 256)
        script.field("2 257 more", f"bar 257 block:{'a' * 256}", 0, "a" * 256)


def not_commands(script):
    script.note("What is no command changes nothing")
    script.text("ab|")
    script.hold(257)
    script.field("0 2 more", "held 2", 2, "ab")
    for line in ("hold", "hold ", "hold -", "hold 301", "hold 0256", "hold 00", "hold +1", "hold -1", "hold 2 5", "hold 256 0", "hold x",
                 "hold 18446744073709551872", "Hold 256", "holds 256",
                 "held", "held ", "held -", "held 01", "held -1", "held 0x1", "held 1 1", "held 18446744073709551616", "held 1 more",
                 "held 99999999999999999999", "HELD 1",
                 "field", "field 0", "field 0 1", "field 0 1 ", "field 0 1 on", "field 0 1 MORE", "field 0 1 more 5", "field 0 1 last last",
                 "field more 0 1", "field 0 4 more", "field 3 1 more", "field 4 0 more", "field 2 2 last", "field -1 1 more",
                 "field 00 1 more", "field 0 01 more", "field 66001 0 last", "field 18446744073709551615 2 more",
                 "field D 0 1 more", "fields 0 1 more", "field 0 1 bar"):
        script.expect(line, "?")
    script.field("2 1 more", "bar 1 hold:ab", 0, "ab")
    script.note("words at their limits")
    script.hold(300)
    script.hold(0)
    script.expect("held 18446744073709551615", "held 18446744073709551615")
    script.field("3 0 last", "20", 18446744073709551615)
    script.expect("fillunits 66000 007C", "units 66000")
    script.hold(256)
    script.field("66000 0 more", "held 0", 0)
    script.field("65999 1 more", "bar 1 block:", 0)
    script.expect("field 65999 2 more", "?")


def journal(script):
    script.note("The mission's fault: 82 ends a block, the run is saved and read back, 7C 7C begins the next: one field, then a bar")
    script.sample()
    script.bytes("827C7C")
    script.start("D", 7, "555")
    script.hold(256)
    script.expect("decode 0 1 more 9", "decode 1 1 0 - kept D 7 5 5 5 82 0 1 0 on")
    script.text("")
    script.field("0 0 more", "held 0", 0)
    line = line_hex("D>7>555>82>0>1>0>on;")
    script.expect("save 44", f"save 0 20 {line} kept")
    script.start("D", 7, "555")
    script.expect(f"load {line}", "load 0 D 7 5 5 5 82 0 1 0 on")
    script.expect("decode 1 2 last 9", "decode 0 2 2 4E00007C kept D 7 5 5 5 - 0 3 2 over")
    script.text("\u4E00|")
    script.field("0 2 last", "bar 2 block:\u4E00", 0)
    script.field("2 0 last", "held 0", 0)
    script.note("the same with a field that was begun: A in the first block")
    script.bytes("41827C7C0A")
    script.start("D", 7, "555")
    script.expect("decode 0 2 more 9", "decode 1 2 1 0041 kept D 7 5 5 5 82 0 2 1 on")
    script.text("A")
    script.field("0 1 more", "held 1", 1, "A")
    script.expect("decode 2 3 last 9", "decode 0 3 3 4E00007C000A kept D 7 5 5 5 - 0 5 4 over")
    script.text("\u4E00|;")
    script.field("0 3 last", "bar 2 hold:A\u4E00", 0, "A\u4E00")
    script.field("2 1 last", "line 1 block:", 0, "A\u4E00")
    script.field("3 0 last", "held 0", 0, "A\u4E00")
    script.note("a bar that is no half of a character, between two blocks")
    script.bytes("417C7C42")
    script.start("D", 7, "555")
    script.expect("decode 0 2 more 9", "decode 0 2 2 0041007C kept D 7 5 5 5 - 0 2 2 on")
    script.text("A|")
    script.field("0 2 more", "bar 2 block:A", 0, "A\u4E00")
    script.expect("decode 2 2 last 9", "decode 0 2 2 007C0042 kept D 7 5 5 5 - 0 4 4 over")
    script.text("|B")
    script.field("0 2 last", "bar 1 block:", 0, "A\u4E00")
    script.field("1 1 last", "end 1 block:B", 0, "A\u4E00")
    script.note("nothing of the calls before is remembered but state and buffer: the text's fields are given once more")
    script.field("0 2 last", "bar 1 block:", 0, "A\u4E00")
    script.note("a broken first half before a line feed (CR 2): two records stay two, uncut and with the half at a block's end")
    script.bytes("810A417C")
    script.start("D", 7, "555")
    script.expect("decode 0 4 last 9", "decode 0 4 4 30FB000A0041007C kept D 7 5 5 5 - 4 4 4 over")
    script.start("D", 7, "555")
    script.expect("decode 0 1 more 9", "decode 1 1 0 - kept D 7 5 5 5 81 0 1 0 on")
    script.expect("decode 1 3 last 9", "decode 0 3 4 30FB000A0041007C kept D 7 5 5 5 - 4 4 4 over")
    script.text("\u30FB;A|")
    script.field("0 4 last", "line 2 block:\u30FB", 0, "A\u4E00")
    script.field("2 2 last", "bar 2 block:A", 0, "A\u4E00")
    script.field("4 0 last", "held 0", 0, "A\u4E00")


def fields_script():
    script = FieldScript()
    script.note("Fields (document 02, CR 1)")
    ends(script)
    held_fields(script)
    ordinary_units(script)
    longest(script)
    long_blocks(script)
    refusals(script)
    not_commands(script)
    journal(script)
    return script


# ---------------------------------------------------------------------------------------------------------------
# Every cutting
# ---------------------------------------------------------------------------------------------------------------

# Texts and their fields, each with what ended it.
CUT_TEXTS = (
    ("", ()),
    ("|", (("", "bar"),)),
    ("a", (("a", "end"),)),
    ("\u4E00|", (("\u4E00", "bar"),)),
    ("a|bc", (("a", "bar"), ("bc", "end"))),
    ("ab;|", (("ab", "line"), ("", "bar"))),
    ("|;;a", (("", "bar"), ("", "line"), ("", "line"), ("a", "end"))),
    ("ab|c;", (("ab", "bar"), ("c", "line"))),
)


def cuttings(count):
    """Every list of the ends of pieces, none of them empty, that `count` units can be cut into."""
    if count == 0:
        return [[]]
    inner = range(1, count)
    return [list(places) + [count] for number in range(count) for places in itertools.combinations(inner, number)]


class Cutting:
    """One text, cut into calls: what each must answer is told from the text's fields."""

    def __init__(self, script, text, fields):
        self.script, self.text, self.fields = script, text, list(fields)
        self.position = self.start = 0  # the first unread unit, and where the next field begins
        self.buffer = ""

    def lay(self, units):
        """The units from the next field's begin up to the first unread one stand in the buffer; these come behind them."""
        place = self.position - self.start
        self.buffer = self.buffer[:place] + units + self.buffer[place + len(units) :]

    def call(self, end, mark):
        """A call on the units from the first unread one up to `end`. Answers whether it gave a field."""
        asked = f"{self.position} {end - self.position} {mark}"
        units, ending = self.fields[0] if self.fields else (None, None)
        if units is None:
            self.script.field(asked, "held 0", 0, self.buffer)
            return False
        behind = self.start + len(units) + (0 if ending == "end" else 1)
        if end < behind or (ending == "end" and mark == "more"):
            read = end - self.position
            self.lay(self.text[self.position : end])
            self.position = end
            self.script.field(asked, f"held {read}", end - self.start, self.buffer)
            return False
        read = behind - self.position
        source = "block"
        if self.position > self.start:
            source = "hold"
            self.lay(units[self.position - self.start :])
        self.script.field(asked, f"{ending} {read} {source}:{units}", 0, self.buffer)
        self.position = self.start = behind
        self.fields.pop(0)
        return True


def play_cutting(script, text, fields, pieces, mark):
    """Each piece from the first unread unit on, until it is read; then, at the text's end, calls marked last until none gives a
    field. The last piece has the mark."""
    script.hold(256)
    cutting = Cutting(script, text, fields)
    for end in pieces:
        while cutting.position < end:
            cutting.call(end, mark if end == len(text) else "more")
    while cutting.call(len(text), "last"):
        pass


def cuttings_script(texts=CUT_TEXTS):
    script = FieldScript()
    script.note("Every cutting of some texts into calls, the last piece marked last or followed by an empty call that is")
    for text, fields in texts:
        script.text(text)
        for pieces in cuttings(len(text)):
            for mark in ("more", "last"):
                play_cutting(script, text, fields, pieces, mark)
    return script


def all_texts(letters, most):
    """Every text of these letters of at most so many units, with its fields: split at the separators."""
    for count in range(most + 1):
        for chosen in itertools.product(letters, repeat=count):
            text = "".join(chosen)
            fields, units = [], ""
            for letter in text:
                if letter in "|;":
                    fields.append((units, {"|": "bar", ";": "line"}[letter]))
                    units = ""
                else:
                    units += letter
            if units:
                fields.append((units, "end"))
            yield text, tuple(fields)


def all_cuttings_script(most=4):
    """Every cutting of every short text. It is long, so it is not stored."""
    return cuttings_script(all_texts("a|;", most))
