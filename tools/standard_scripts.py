"""The console script standard: the standard policy, 550, beside 555 (a module of make_scripts.py).

Document 02, CR 4. What each call must answer is written by hand, from the rules of documents 01 and 02. In the last part two texts are
cut in every place; there it is written by hand where a run stands after so many bytes or units of the text, and what it has written.
"""

from fixed_scripts import Script, cut, edited, line_hex

# ---------------------------------------------------------------------------------------------------------------
# The command
# ---------------------------------------------------------------------------------------------------------------

NOT_COMMANDS = (
    "standard x", "standard 550", "standard 5 5 0", "standard 0", "standard -", "standard D", "standard standard", "standard ",
    " standard", "standard  ", "  standard", "Standard", "STANDARD", "standar", "standards", "standard?", "replacing",
)
NOT_COMMANDS_OF_BYTES = (b"standard\r", b"standard\t", b"\tstandard", b"standard\x00", b"\xef\xbb\xbfstandard")


def command(script):
    """`standard` has no words, is the same whatever is in hand, and changes nothing."""
    script.note("the command, and what is no command")
    script.sample()
    script.bytes("4182")
    script.units("0041D83D")
    script.start("E", 9, "123")
    script.expect("standard", "standard 5 5 0")
    for line in NOT_COMMANDS + NOT_COMMANDS_OF_BYTES:
        script.expect(line, "?")
    script.expect("standard", "standard 5 5 0")
    script.expect("save 44", f"save 0 19 {line_hex('E>9>123>->0>0>0>on;')} kept")
    script.expect("convert D 000 0 2 2", "convert 3 12 2 1 1 0041 kept")
    script.expect("convert E 000 0 2 2", "convert 3 12 2 1 1 41 kept")
    script.note("whatever the run and the table in hand are")
    for direction in "DE":
        for policy in ("555", "550", "505", "000"):
            script.start(direction, 7, policy)
            script.expect("standard", "standard 5 5 0")
    script.expect("start D 7 557", "start 17")
    script.expect("standard", "standard 5 5 0")
    script.run("D 0 255 255 255 - 255 0 0 on")
    script.expect("standard", "standard 5 5 0")
    script.table("index_255.tbl", edited(cut("index", 255, 0)))
    script.expect("standard", "standard 5 5 0")
    script.sample()


# ---------------------------------------------------------------------------------------------------------------
# The row, and calls under both policies
# ---------------------------------------------------------------------------------------------------------------


def row(script):
    """ "on the little page `82`, last, under it gives 3, read 1, flags 12, nothing written" """
    script.note("the row of document 02: 82, last, under the standard; the same under 555, asked for by name")
    script.bytes("82")
    for room in (0, 1, 9):
        script.start("D", 7, "550")
        script.expect(f"decode 0 1 last {room}", "decode 3 1 0 - kept D 7 5 5 0 - 12 1 0 over")
        script.expect(f"decode 1 0 last {room}", "decode 15 0 0 - kept D 7 5 5 0 - 12 1 0 over")
    script.expect("save 44", f"save 0 22 {line_hex('D>7>550>->12>1>0>over;')} kept")
    script.expect("convert D 550 0 1 0", "convert 3 12 1 0 0 - kept")
    script.expect("convert D 550 0 1 9", "convert 3 12 1 0 0 - kept")
    for room in (1, 9):
        script.start("D", 7, "555")
        script.expect(f"decode 0 1 last {room}", "decode 0 1 1 30FB kept D 7 5 5 5 - 4 1 1 over")
    script.expect("save 44", f"save 0 21 {line_hex('D>7>555>->4>1>1>over;')} kept")
    script.expect("convert D 555 0 1 0", "convert 2 4 0 1 0 - kept")
    script.expect("convert D 555 0 1 9", "convert 0 4 1 1 1 30FB kept")


# What is asked, then the answers under 550 and under 555, in the short form of fixed_scripts.py.
DECODED = (
    # undefined singles and pairs are replaced under both, and the run goes on
    ("-;80;last;9", "0/1/30FB/1/-/yes", "0/1/30FB/1/-/yes"),
    ("-;8041;last;9", "0/2/30FB0041/1/-/yes", "0/2/30FB0041/1/-/yes"),
    ("-;815A;last;9", "0/2/30FB/2/-/yes", "0/2/30FB/2/-/yes"),
    ("-;815A80827C;last;9", "0/5/30FB30FB4E00/3/-/yes", "0/5/30FB30FB4E00/3/-/yes"),
    ("82;5A;more;9", "0/1/30FB/2/-/no", "0/1/30FB/2/-/no"),
    # an invalid code stops, behind what was written and read with it
    ("-;83;last;9", "3/1/-/12/-/yes", "0/1/30FB/4/-/yes"),
    ("-;83;more;0", "3/1/-/12/-/yes", "2/0/-/0/-/no"),
    ("-;418342;last;9", "3/2/0041/12/-/yes", "0/3/004130FB0042/4/-/yes"),
    ("-;80815A83;last;9", "3/4/30FB30FB/15/-/yes", "0/4/30FB30FB30FB/7/-/yes"),
    ("-;828042;last;9", "3/2/-/12/-/yes", "0/3/30FB0042/4/-/yes"),
    ("-;828142;last;9", "3/2/-/12/-/yes", "0/3/30FB0042/4/-/yes"),
    ("-;820A42;last;9", "3/1/-/12/-/yes", "0/3/30FB000A0042/4/-/yes"),
    # a lead is carried, and settled under the run's own digits
    ("-;82;more;0", "1/1/-/0/82/no", "1/1/-/0/82/no"),
    ("82;-;more;9", "1/0/-/0/82/no", "1/0/-/0/82/no"),
    ("82;7C;last;9", "0/1/4E00/0/-/yes", "0/1/4E00/0/-/yes"),
    ("82;-;last;9", "3/0/-/12/-/yes", "0/0/30FB/4/-/yes"),
    ("82;0A;more;9", "3/0/-/12/-/yes", "0/1/30FB000A/4/-/no"),
    ("82;80;more;9", "3/1/-/12/-/yes", "0/1/30FB/4/-/no"),
    # what does not fit is in front of the stop
    ("-;4183;last;0", "2/0/-/0/-/no 12/1", "2/0/-/0/-/no 4/2"),
    ("-;8083;last;1", "3/2/30FB/13/-/yes", "2/1/30FB/1/-/no 5/2"),
    # nothing is amiss
    ("-;41827C;last;9", "0/3/00414E00/0/-/yes", "0/3/00414E00/0/-/yes"),
    ("-;-;last;9", "0/0/-/0/-/yes", "0/0/-/0/-/yes"),
)
ENCODED = (
    # a pair and a unit without a code are undefined singles: replaced under both
    ("-;D83DDE00;last;9", "0/2/3F/1/-/yes", "0/2/3F/1/-/yes"),
    ("-;D83DDE000041;last;9", "0/3/3F41/1/-/yes", "0/3/3F41/1/-/yes"),
    ("-;12340041;last;9", "0/2/3F41/1/-/yes", "0/2/3F41/1/-/yes"),
    # a surrogate alone is invalid
    ("-;D83D;last;9", "3/1/-/12/-/yes", "0/1/3F/4/-/yes"),
    ("-;DE00;last;9", "3/1/-/12/-/yes", "0/1/3F/4/-/yes"),
    ("-;DE00;more;0", "3/1/-/12/-/yes", "2/0/-/0/-/no"),
    ("-;0041D83D0042;last;9", "3/2/41/12/-/yes", "0/3/413F42/4/-/yes"),
    ("-;D83DD83DDE00;last;9", "3/1/-/12/-/yes", "0/3/3F3F/5/-/yes"),
    ("-;12343000DE000042;last;9", "3/3/3F8140/13/-/yes", "0/4/3F81403F42/5/-/yes"),
    # a high surrogate is carried
    ("-;D83D;more;0", "1/1/-/0/D83D/no", "1/1/-/0/D83D/no"),
    ("D83D;DE00;last;9", "0/1/3F/1/-/yes", "0/1/3F/1/-/yes"),
    ("D83D;-;last;9", "3/0/-/12/-/yes", "0/0/3F/4/-/yes"),
    ("D83D;0041;more;9", "3/0/-/12/-/yes", "0/1/3F41/4/-/no"),
    ("D83D;D83D;more;9", "3/0/-/12/-/yes", "1/1/3F/4/D83D/no"),
    # what does not fit is in front of the stop
    ("-;3000D83D;last;1", "2/0/-/0/-/no 12/2", "2/0/-/0/-/no 4/3"),
    ("-;3000D83D;last;2", "3/2/8140/12/-/yes", "2/1/8140/0/-/no 4/3"),
)


def calls(script):
    for direction, name, rows in (("D", "decoding", DECODED), ("E", "encoding", ENCODED)):
        for place, policy in ((1, "550"), (2, "555")):
            script.note(f"{name} under {policy}")
            for asked in rows:
                script.call(f"{direction}{{{policy};{asked[0]}}}", asked[place])


# ---------------------------------------------------------------------------------------------------------------
# "Runs saved earlier carry their digits and go on under them"
# ---------------------------------------------------------------------------------------------------------------

# A line, then a call on the one byte or unit that is there, or on none, and what it answers.
SAVED = (
    ("D>7>555>82>0>1>0>on;", "decode 0 0 last 9", "0 0 1 30FB kept D 7 5 5 5 - 4 1 1 over"),
    ("D>7>550>82>0>1>0>on;", "decode 0 0 last 9", "3 0 0 - kept D 7 5 5 0 - 12 1 0 over"),
    ("D>7>555>82>0>1>0>on;", "decode 0 1 more 9", "0 1 1 30FB kept D 7 5 5 5 - 4 2 1 on"),
    ("D>7>550>82>0>1>0>on;", "decode 0 1 more 9", "3 1 0 - kept D 7 5 5 0 - 12 2 0 over"),
    ("D>7>555>->0>4>4>on;", "decode 0 1 last 9", "0 1 1 30FB kept D 7 5 5 5 - 4 5 5 over"),
    ("D>7>550>->0>4>4>on;", "decode 0 1 last 9", "3 1 0 - kept D 7 5 5 0 - 12 5 4 over"),
    ("D>7>555>->7>512>300>on;", "decode 0 1 more 9", "0 1 1 30FB kept D 7 5 5 5 - 7 513 301 on"),
    ("D>7>550>->3>512>300>on;", "decode 0 1 more 9", "3 1 0 - kept D 7 5 5 0 - 15 513 300 over"),
    ("D>7>551>->0>4>4>on;", "decode 0 1 last 9", "0 1 0 - kept D 7 5 5 1 - 4 5 4 over"),
    ("D>7>000>82>0>1>0>on;", "decode 0 0 last 9", "3 0 0 - kept D 7 0 0 0 - 12 1 0 over"),
    ("E>7>555>D83D>0>1>0>on;", "encode 0 0 last 9", "0 0 1 3F kept E 7 5 5 5 - 4 1 1 over"),
    ("E>7>550>D83D>0>1>0>on;", "encode 0 0 last 9", "3 0 0 - kept E 7 5 5 0 - 12 1 0 over"),
    ("E>7>555>D83D>0>1>0>on;", "encode 0 1 more 9", "0 1 1 3F kept E 7 5 5 5 - 1 2 1 on"),
    ("E>7>550>D83D>0>1>0>on;", "encode 0 1 more 9", "0 1 1 3F kept E 7 5 5 0 - 1 2 1 on"),
    ("E>7>555>->0>4>8>on;", "encode 0 1 last 9", "0 1 1 3F kept E 7 5 5 5 - 4 5 9 over"),
    ("E>7>550>->0>4>8>on;", "encode 0 1 last 9", "3 1 0 - kept E 7 5 5 0 - 12 5 8 over"),
)


def run_of(line):
    """The words of a line's run."""
    fields = line.rstrip(";").split(">")
    return " ".join([*fields[:2], *fields[2], *fields[3:]])


def saved(script):
    script.note("lines that were saved under 555 and under 550, gone on with; another policy was started before")
    script.bytes("83")
    script.units("DE00")
    for line, asked, answer in SAVED:
        script.start(line[0], 7, "555" if ">550>" in line else "550")
        script.expect(f"load {line_hex(line)}", f"load 0 {run_of(line)}")
        script.expect("save 44", f"save 0 {len(line)} {line_hex(line)} kept")
        script.expect(asked, f"{asked[:6]} {answer}")
    script.note("a line is read between two calls on others")
    script.bytes("82")
    script.start("D", 7, "550")
    script.expect("decode 0 1 more 9", "decode 1 1 0 - kept D 7 5 5 0 82 0 1 0 on")
    script.expect(f"load {line_hex('D>7>555>82>0>1>0>on;')}", "load 0 D 7 5 5 5 82 0 1 0 on")
    script.expect("standard", "standard 5 5 0")
    script.expect("decode 1 0 last 9", "decode 0 0 1 30FB kept D 7 5 5 5 - 4 1 1 over")
    script.expect(f"load {line_hex('D>7>550>82>0>1>0>on;')}", "load 0 D 7 5 5 0 82 0 1 0 on")
    script.expect("decode 1 0 last 9", "decode 3 0 0 - kept D 7 5 5 0 - 12 1 0 over")


# ---------------------------------------------------------------------------------------------------------------
# Cuts of two texts
# ---------------------------------------------------------------------------------------------------------------

# 41, an undefined single, an undefined pair, a character of two bytes, a lead alone before a line feed, 42; and units alike: 41, a
# pair, a unit without a code, a code of two bytes, a high surrogate alone, 42. A text's output under each policy, then for each number
# of bytes or units fed in calls not marked last: read, written, flags and what is carried, or `over`.
CUT_TEXTS = {
    "D": ("4180815A827C820A42", {
        "550": ("004130FB30FB4E00", (
            "0 0 0 -", "1 1 0 -", "2 2 1 -", "3 2 1 81", "4 3 3 -", "5 3 3 82", "6 4 3 -", "7 4 3 82", "7 4 15 over", "7 4 15 over",
        )),
        "555": ("004130FB30FB4E0030FB000A0042", (
            "0 0 0 -", "1 1 0 -", "2 2 1 -", "3 2 1 81", "4 3 3 -", "5 3 3 82", "6 4 3 -", "7 4 3 82", "8 6 7 -", "9 7 7 -",
        )),
    }),
    "E": ("0041D83DDE0012343000D83D0042", {
        "550": ("413F3F8140", (
            "0 0 0 -", "1 1 0 -", "2 1 0 D83D", "3 2 1 -", "4 3 1 -", "5 5 1 -", "6 5 1 D83D", "6 5 13 over",
        )),
        "555": ("413F3F81403F42", (
            "0 0 0 -", "1 1 0 -", "2 1 0 D83D", "3 2 1 -", "4 3 1 -", "5 5 1 -", "6 5 1 D83D", "7 7 5 -",
        )),
    }),
}
AMPLE = 9


class Fed:
    """A text under a policy, fed in calls with ample room: where the run in hand stands."""

    def __init__(self, script, direction, policy):
        self.script, self.direction, self.policy = script, direction, policy
        self.output, self.states = CUT_TEXTS[direction][1][policy]
        self.name, self.digits = ("decode", 4) if direction == "D" else ("encode", 2)
        self.set_state(self.states[0])
        script.start(direction, 7, policy)

    def set_state(self, state):
        read, written, self.flags, self.carried = state.split(" ")
        self.read, self.written = int(read), int(written)
        self.word = "on"
        if self.carried == "over":
            self.carried, self.word = "-", "over"

    def run(self):
        """The words of the run in hand."""
        digits = " ".join(self.policy)
        return f"{self.direction} 7 {digits} {self.carried} {self.flags} {self.read} {self.written} {self.word}"

    def call(self, end, mark):
        """A call on what is unread of the text up to a place."""
        asked = f"{self.name} {self.read} {end - self.read} {mark} {AMPLE}"
        if self.word == "over":
            self.script.expect(asked, f"{self.name} 15 0 0 - kept {self.run()}")
            return
        read, written = self.read, self.written
        self.set_state(self.states[end])
        if self.word == "over":
            number = 3
        else:
            number = 1 if self.carried != "-" else 0
            self.word = "over" if mark == "last" else "on"
        output = self.output[written * self.digits : self.written * self.digits] or "-"
        self.script.expect(asked, f"{self.name} {number} {self.read - read} {self.written - written} {output} kept {self.run()}")

    def save_and_load(self):
        """The run is saved, another is started, and the line is read back."""
        fields = [self.direction, "7", self.policy, self.carried, self.flags, str(self.read), str(self.written), self.word]
        line = ">".join(fields) + ";"
        self.script.expect("save 44", f"save 0 {len(line)} {line_hex(line)} kept")
        self.script.start(self.direction, 7, "555" if self.policy == "550" else "550")
        self.script.expect(f"load {line_hex(line)}", f"load 0 {self.run()}")


def cuts(script):
    """Each text in one call, element by element, and in two calls with the run saved and read back between them."""
    for direction, (text, policies) in CUT_TEXTS.items():
        put, width = (script.bytes, 2) if direction == "D" else (script.units, 4)
        size = len(text) // width
        script.note(f"cuts of a text, direction {direction}")
        put(text)
        for policy in policies:
            Fed(script, direction, policy).call(size, "last")
            fed = Fed(script, direction, policy)
            for end in range(1, size + 1):
                fed.call(end, "last" if end == size else "more")
        for policy, places in (("550", range(size + 1)), ("555", (size - 2, size - 1))):
            for place in places:
                fed = Fed(script, direction, policy)
                fed.call(place, "more")
                fed.save_and_load()
                fed.call(size, "last")


def standard_script():
    script = Script()
    script.note("The standard policy, 550, and 555 asked for by name (document 02, CR 4): by hand")
    command(script)
    row(script)
    calls(script)
    saved(script)
    cuts(script)
    return script
