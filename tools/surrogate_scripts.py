"""The console script surrogates: surrogates, pairs of them, and what may stand beside them (a module of make_scripts.py).

Document 02, CR 5. Its first part is written by hand, call by call. Its second part has every text of two and of three of the
units D7FF, D800, DBFF, DC00, DFFF and E000, cut in every way: the texts of two with every room of ROOMS, those of three with one
room for each cutting, which goes round, as the policies do in both; every third run is saved and read back where it carries a unit.
There the codes of each text are written by hand, for each kind of unit (CODES), and what a call must answer is told from them: a
code is taken once its last unit is known, and if what it writes fits.
"""

import itertools

from fixed_scripts import Script, edited, line_hex, surrogate_codes

# ---------------------------------------------------------------------------------------------------------------
# By hand, call by call, on the sample page
# ---------------------------------------------------------------------------------------------------------------

PAIRS = (
    # a high surrogate and a low one: one undefined single of two units
    ("E{555;-;D83DDE00;last;9}", "0/2/3F/1/-/yes"),
    ("E{555;-;D83DDE00;last;1}", "0/2/3F/1/-/yes"),
    ("E{555;-;D83DDE00;last;0}", "2/0/-/0/-/no 1/1"),
    ("E{555;-;D83DDE00;more;0}", "2/0/-/0/-/no"),
    ("E{550;-;D83DDE00;last;9}", "0/2/3F/1/-/yes"),
    ("E{155;-;D83DDE00;more;0}", "0/2/-/1/-/no"),
    ("E{055;-;D83DDE000041;more;9}", "3/2/-/9/-/yes"),
    ("E{555;-;0041D83DDE000042;last;9}", "0/4/413F42/1/-/yes"),
    ("E{555;-;D83DDE00D83DDE01;last;9}", "0/4/3F3F/1/-/yes"),
    ("E{555;-;D83DDE00D83DDE01;last;1}", "2/2/3F/1/-/no 1/2"),
)
ALONE = (
    # any other surrogate: invalid, one unit; the unit after it is read afresh
    ("E{555;-;D83D;last;9}", "0/1/3F/4/-/yes"),
    ("E{555;-;DE00;last;9}", "0/1/3F/4/-/yes"),
    ("E{555;-;DE00;more;9}", "0/1/3F/4/-/no"),
    ("E{555;-;DE00;more;0}", "2/0/-/0/-/no"),
    ("E{555;-;DE00D83D;last;9}", "0/2/3F3F/4/-/yes"),
    ("E{555;-;D83D0041;last;9}", "0/2/3F41/4/-/yes"),
    ("E{555;-;D83D000A0041;last;9}", "0/3/3F0A41/4/-/yes"),
    ("E{555;-;D83DD83DDE00;last;9}", "0/3/3F3F/5/-/yes"),
    ("E{555;-;D83DDE00DE00;last;9}", "0/3/3F3F/5/-/yes"),
    ("E{555;-;D83D3000;last;2}", "2/1/3F/4/-/no 4/3"),
    ("E{551;-;D83D3000;last;1}", "2/1/-/4/-/no 4/2"),
    ("E{550;-;D83D0041;last;9}", "3/1/-/12/-/yes"),
    ("E{550;-;0041DE000042;last;9}", "3/2/41/12/-/yes"),
    ("E{055;-;D83D0041;last;9}", "0/2/3F41/4/-/yes"),
    ("E{505;-;D83D0041;last;9}", "0/2/3F41/4/-/yes"),
)
CARRIED = (
    # a high surrogate that is the final unit of a call not marked last is carried, only when it is the next code
    ("E{555;-;D83D;more;0}", "1/1/-/0/D83D/no"),
    ("E{550;-;D83D;more;0}", "1/1/-/0/D83D/no"),
    ("E{555;-;0041D83D;more;1}", "1/2/41/0/D83D/no"),
    ("E{555;-;0041D83D;more;0}", "2/0/-/0/-/no"),
    ("E{555;-;D83DD83D;more;0}", "2/0/-/0/-/no"),
    ("E{555;-;D83DD83D;more;1}", "1/2/3F/4/D83D/no"),
    ("E{551;-;D83DD83D;more;0}", "1/2/-/4/D83D/no"),
    ("E{555;-;D83DDE00D83D;more;1}", "1/3/3F/1/D83D/no"),
    # in a last call it is not
    ("E{555;-;D83D;last;0}", "2/0/-/0/-/no 4/1"),
    ("E{551;-;D83D;last;0}", "0/1/-/4/-/yes"),
    ("E{550;-;D83D;last;0}", "3/1/-/12/-/yes"),
    # a carried unit and an empty piece; the low half of the unit is no byte that could be a lead or none
    ("E{555;D83D;-;more;0}", "1/0/-/0/D83D/no"),
    ("E{555;D841;-;more;9}", "1/0/-/0/D841/no"),
    ("E{555;D83D;-;last;1}", "0/0/3F/4/-/yes"),
    ("E{555;D83D;-;last;0}", "2/0/-/0/D83D/no"),
    ("E{551;D83D;-;last;0}", "0/0/-/4/-/yes"),
    ("E{550;D83D;-;last;0}", "3/0/-/12/-/yes"),
    ("E{552;D83D;-;last;1}", "0/0/00/4/-/yes"),
    # a carried unit and a low surrogate
    ("E{555;D83D;DE00;last;1}", "0/1/3F/1/-/yes"),
    ("E{555;D83D;DE00;more;1}", "0/1/3F/1/-/no"),
    ("E{555;D83D;DE00;more;0}", "2/0/-/0/D83D/no"),
    ("E{155;D83D;DE00;more;0}", "0/1/-/1/-/no"),
    ("E{055;D83D;DE000041;more;0}", "3/1/-/9/-/yes"),
    ("E{550;D83D;DE00;last;1}", "0/1/3F/1/-/yes"),
    ("E{555;D83D;DE00D83D;more;1}", "1/2/3F/1/D83D/no"),
    ("E{555;D83D;DE00D83D;last;1}", "2/1/3F/1/-/no"),
    ("E{555;D83D;DE00DE00;last;2}", "0/2/3F3F/5/-/yes"),
    # a carried unit and any other: it is settled, and the other is read only if it fits
    ("E{555;D83D;0041;last;2}", "0/1/3F41/4/-/yes"),
    ("E{555;D83D;0041;last;1}", "2/0/3F/4/-/no"),
    ("E{555;D83D;0041;more;0}", "2/0/-/0/D83D/no"),
    ("E{555;D83D;3000;last;2}", "2/0/3F/4/-/no"),
    ("E{555;D83D;3000;last;3}", "0/1/3F8140/4/-/yes"),
    ("E{555;D83D;D83D;more;1}", "1/1/3F/4/D83D/no"),
    ("E{555;D83D;D83D;more;0}", "2/0/-/0/D83D/no"),
    ("E{555;D83D;D83D;last;1}", "2/0/3F/4/-/no"),
    ("E{555;D83D;D83D;last;2}", "0/1/3F3F/4/-/yes"),
    ("E{555;D83D;D83DDE00;last;2}", "0/2/3F3F/5/-/yes"),
    ("E{551;D83D;D83D;more;0}", "1/1/-/4/D83D/no"),
    # nothing is read and nothing written, and yet the run is another
    ("E{551;D83D;0041;more;0}", "2/0/-/4/-/no"),
    ("E{551;D83D;0041;last;0}", "2/0/-/4/-/no"),
    ("E{551;D83D;0041;last;1}", "0/1/41/4/-/yes"),
    # the run ends with the other unit unread
    ("E{550;D83D;0041;more;9}", "3/0/-/12/-/yes"),
    ("E{550;D83D;0041;last;0}", "3/0/-/12/-/yes"),
    ("E{550;D83D;D83D;more;9}", "3/0/-/12/-/yes"),
    # or with it read: it has no code, and the digit for that is 0
    ("E{051;D83D;1234;more;0}", "3/1/-/13/-/yes"),
    ("E{055;D83D;1234;more;1}", "3/1/3F/13/-/yes"),
    ("E{055;D83D;1234;more;0}", "2/0/-/0/D83D/no"),
)
RANGES = (
    # the ends of both ranges, and the units beside them, which have no code
    ("E{555;-;D800DC00DBFFDFFF;last;9}", "0/4/3F3F/1/-/yes"),
    ("E{555;-;D800DFFFDBFFDC00;last;9}", "0/4/3F3F/1/-/yes"),
    ("E{555;-;D7FFDC00;last;9}", "0/2/3F3F/5/-/yes"),
    ("E{555;-;DBFFE000;last;9}", "0/2/3F3F/5/-/yes"),
    ("E{550;-;D7FFE000;last;9}", "0/2/3F3F/1/-/yes"),
    ("E{055;-;DC00DFFF;last;9}", "0/2/3F3F/4/-/yes"),
    ("E{055;-;D800DBFF;last;9}", "0/2/3F3F/4/-/yes"),
    ("E{555;-;D7FF;more;9}", "0/1/3F/1/-/no"),
    ("E{555;-;D800;more;9}", "1/1/-/0/D800/no"),
    ("E{555;-;DBFF;more;9}", "1/1/-/0/DBFF/no"),
    ("E{555;-;DC00;more;9}", "0/1/3F/4/-/no"),
    ("E{555;-;DFFF;more;9}", "0/1/3F/4/-/no"),
    ("E{555;-;E000;more;9}", "0/1/3F/1/-/no"),
)
# On the table surrogate_codes each of these surrogates has a code in the table.
NO_LOOKUP = (
    ("E{555;-;D83D;last;9}", "0/1/3F/4/-/yes"),
    ("E{555;-;DE00;last;9}", "0/1/3F/4/-/yes"),
    ("E{000;-;D800;last;9}", "3/1/-/12/-/yes"),
    ("E{000;-;DBFF;last;9}", "3/1/-/12/-/yes"),
    ("E{000;-;DC00;last;9}", "3/1/-/12/-/yes"),
    ("E{000;-;DFFF;last;9}", "3/1/-/12/-/yes"),
    ("E{000;-;D83DDE00;last;9}", "3/2/-/9/-/yes"),
    ("E{000;-;D7FFE000;last;9}", "0/2/42827C/0/-/yes"),
    ("E{555;D83D;-;last;9}", "0/0/3F/4/-/yes"),
    ("E{555;D83D;E000;last;2}", "2/0/3F/4/-/no"),
)

NOT_LINES = (
    "E>7>555>DC00>0>1>0>on;", "E>7>555>D7FF>0>1>0>on;", "E>7>555>E000>0>1>0>on;", "E>7>555>d83d>0>1>0>on;",
    "E>7>555>83>0>1>0>on;", "E>7>555>D83>0>1>0>on;", "E>7>555>0083>0>1>0>on;", "D>7>555>0083>0>1>0>on;",
    "D>7>555>D83D>0>1>0>on;", "E>7>555>D83D>0>1>1>on;", "E>7>555>D83D>0>1>2>on;", "E>7>555>D83D>0>0>0>on;",
    "E>7>555>D83D>0>1>0>over;", "E>7>555>D83D>8>1>0>on;", "E>7>655>D83D>0>1>0>on;",
)
# Lines with their runs: those of CR 5, then older ones.
LINES = (
    ("E>7>555>D83D>0>1>0>on;", "E 7 5 5 5 D83D 0 1 0 on"),
    ("E>7>555>D800>5>9>16>on;", "E 7 5 5 5 D800 5 9 16 on"),
    ("E>7>050>DBFF>0>2>2>on;", "E 7 0 5 0 DBFF 0 2 2 on"),
    ("E>7>555>->0>0>0>on;", "E 7 5 5 5 - 0 0 0 on"),
    ("E>7>555>->1>1>2>on;", "E 7 5 5 5 - 1 1 2 on"),
    ("E>7>055>->9>3>1>over;", "E 7 0 5 5 - 9 3 1 over"),
    ("D>7>555>83>0>1>0>on;", "D 7 5 5 5 83 0 1 0 on"),
    ("D>932>555>83>0>512>300>on;", "D 932 5 5 5 83 0 512 300 on"),
    ("D>7>555>->0>0>0>on;", "D 7 5 5 5 - 0 0 0 on"),
    ("D>7>550>->12>4>3>over;", "D 7 5 5 0 - 12 4 3 over"),
)
# Runs that break a rule for what is carried, each by the least that it can.
BROKEN_RUNS = (
    "E 7 5 5 5 D7FF 0 1 0 on",
    "E 7 5 5 5 DC00 0 1 0 on",
    "E 7 5 5 5 0083 0 1 0 on",
    "E 7 5 5 5 D83D 0 1 1 on",
    "E 7 5 5 5 D83D 0 2 3 on",
    "E 7 5 5 5 D83D 0 0 0 on",
    "E 7 5 5 5 D83D 0 1 0 over",
    "E 7 5 5 5 D83D 12 1 0 over",
)
# No command: the digits and the direction don't agree.
NOT_RUNS = (
    "run E 7 5 5 5 83 0 1 0 on", "run D 7 5 5 5 0083 0 1 0 on", "run D 7 5 5 5 D83D 0 1 0 on", "run E 7 5 5 5 d83d 0 1 0 on",
    "run E 7 5 5 5 D83 0 1 0 on",
)


def by_hand(script):
    for title, calls in (
        ("a pair", PAIRS),
        ("a surrogate otherwise", ALONE),
        ("a high surrogate is carried", CARRIED),
        ("the ends of the ranges", RANGES),
    ):
        script.note(title)
        for asked, answered in calls:
            script.call(asked, answered)
    script.note("saved lines, older ones too; texts that are none; runs that break the rules")
    script.run("E 3 1 2 3 - 1 9 4 on")
    for text in NOT_LINES:
        script.expect(f"load {line_hex(text)}", "load 18")
    for command in NOT_RUNS:
        script.expect(command, "?")
    script.expect("save 44", f"save 0 19 {line_hex('E>3>123>->1>9>4>on;')} kept")
    for line, run in LINES:
        script.expect(f"load {line_hex(line)}", f"load 0 {run}")
        script.expect("save 44", f"save 0 {len(line)} {line_hex(line)} kept")
        script.expect(f"save {len(line) - 1}", "save 19 kept")
        script.run(run)
        script.expect(f"save {len(line)}", f"save 0 {len(line)} {line_hex(line)} kept")
    for run in BROKEN_RUNS:
        script.run(run)
        script.expect("encode 0 0 more 3", f"encode 12 0 0 - kept {run}")
        script.expect("save 44", "save 12 kept")
    saved_between(script)
    script.note("no surrogate is looked up")
    script.table("surrogate_codes.tbl", edited(surrogate_codes))
    for asked, answered in NO_LOOKUP:
        script.call(asked, answered)


def saved_between(script):
    """A pair that is cut, its run saved and read back; the same line read again before another text."""
    line = line_hex("E>7>555>D83D>0>2>1>on;")
    script.note("a pair is cut, and the run is saved and read back")
    script.units("0041D83DDE000042")
    script.start("E", 7, "555")
    script.expect("encode 0 2 more 1", "encode 1 2 1 41 kept E 7 5 5 5 D83D 0 2 1 on")
    script.expect("encode 2 0 more 1", "encode 1 0 0 - kept E 7 5 5 5 D83D 0 2 1 on")
    script.expect("save 44", f"save 0 22 {line} kept")
    script.expect("save 21", "save 19 kept")
    script.start("D", 7, "000")
    script.expect(f"load {line}", "load 0 E 7 5 5 5 D83D 0 2 1 on")
    script.expect("encode 2 2 last 1", "encode 2 1 1 3F kept E 7 5 5 5 - 1 3 2 on")
    script.expect("encode 3 1 last 1", "encode 0 1 1 42 kept E 7 5 5 5 - 1 4 3 over")
    script.expect("encode 4 0 last 1", "encode 15 0 0 - kept E 7 5 5 5 - 1 4 3 over")
    script.note("the line is read again, and the text goes on otherwise: settled by a call that reads nothing")
    script.expect(f"load {line}", "load 0 E 7 5 5 5 D83D 0 2 1 on")
    script.expect("encode 3 1 more 0", "encode 2 0 0 - kept E 7 5 5 5 D83D 0 2 1 on")
    script.expect("encode 3 1 more 1", "encode 2 0 1 3F kept E 7 5 5 5 - 4 2 2 on")
    script.expect("save 44", f"save 0 19 {line_hex('E>7>555>->4>2>2>on;')} kept")
    script.expect("encode 3 1 last 1", "encode 0 1 1 42 kept E 7 5 5 5 - 4 3 3 over")
    script.note("and once more: the text ends there")
    script.expect(f"load {line}", "load 0 E 7 5 5 5 D83D 0 2 1 on")
    script.expect("encode 4 0 last 0", "encode 2 0 0 - kept E 7 5 5 5 D83D 0 2 1 on")
    script.expect("encode 4 0 last 1", "encode 0 0 1 3F kept E 7 5 5 5 - 4 2 2 over")
    script.note("a decoding call on a run that carries a unit")
    script.bytes("41")
    script.expect(f"load {line}", "load 0 E 7 5 5 5 D83D 0 2 1 on")
    script.expect("decode 0 1 last 9", "decode 13 0 0 - kept E 7 5 5 5 D83D 0 2 1 on")


# ---------------------------------------------------------------------------------------------------------------
# Every text of two and three units, cut in every way
# ---------------------------------------------------------------------------------------------------------------

# h is a high surrogate, l a low one, o any other unit: the first and the last of each range, and the units beside them
UNITS = {"h": (0xD800, 0xDBFF), "l": (0xDC00, 0xDFFF), "o": (0xD7FF, 0xE000)}

# The codes of each text of two and three units.
CODES = {
    "hh": "h h", "hl": "hl", "ho": "h o",
    "lh": "l h", "ll": "l l", "lo": "l o",
    "oh": "o h", "ol": "o l", "oo": "o o",
    "hhh": "h h h", "hhl": "h hl", "hho": "h h o",
    "hlh": "hl h", "hll": "hl l", "hlo": "hl o",
    "hoh": "h o h", "hol": "h o l", "hoo": "h o o",
    "lhh": "l h h", "lhl": "l hl", "lho": "l h o",
    "llh": "l l h", "lll": "l l l", "llo": "l l o",
    "loh": "l o h", "lol": "l o l", "loo": "l o o",
    "ohh": "o h h", "ohl": "o hl", "oho": "o h o",
    "olh": "o l h", "oll": "o l l", "olo": "o l o",
    "ooh": "o o h", "ool": "o o l", "ooo": "o o o",
}

# What the units that are no surrogates write on the table surrogate_codes: a code of one byte, and one of two.
OWN_CODES = {0xD7FF: "42", 0xE000: "827C"}

# What a digit writes for a code that has none: 0 stops, the default byte is 3F.
DIGITS = {"0": None, "1": "", "2": "00", "3": "3F", "4": "5F", "5": "3F"}

POLICIES = ("555", "550", "055", "551", "150", "151", "234", "405")
AMPLE = 9
ROOMS = (0, 1, 2, AMPLE)


class Text:
    """A text of two or three units under a policy: its codes as (first place, place behind it, what it writes, its flag)."""

    def __init__(self, units, policy):
        self.units, self.policy = units, policy
        pattern = "".join(next(kind for kind, members in UNITS.items() if unit in members) for unit in units)
        self.codes, place = [], 0
        for code in CODES[pattern].split():
            if code == "o":
                writes, flag = OWN_CODES[units[place]], 0
            elif code == "hl":
                writes, flag = DIGITS[policy[0]], 1
            else:
                writes, flag = DIGITS[policy[2]], 4
            self.codes.append((place, place + len(code), writes, flag))
            place += len(code)

    def may_wait(self, place):
        return self.units[place] in UNITS["h"]


class Feed:
    """A text fed in calls: what has been read and written so far, and the first code that is not taken."""

    def __init__(self, text):
        self.text = text
        self.next = self.read = self.written = self.flags = 0
        self.ended = False

    def carried(self):
        """The first unit of a code that is not taken, if it is read."""
        if self.next < len(self.text.codes):
            start = self.text.codes[self.next][0]
            if start < self.read:
                return f"{self.text.units[start]:04X}"
        return "-"

    def run(self):
        digits = " ".join(self.text.policy)
        return f"E 7 {digits} {self.carried()} {self.flags} {self.read} {self.written} {'over' if self.ended else 'on'}"

    def line(self):
        return "E>7>{}>{}>{}>{}>{}>on;".format(self.text.policy, self.carried(), self.flags, self.read, self.written)

    def take(self, end, last, room):
        """What a call on the units up to `end` answers: the number and the output."""
        output = ""
        while self.next < len(self.text.codes):
            start, stop, writes, flag = self.text.codes[self.next]
            if start >= end and start >= self.read:
                break
            if not last and start + 1 == end and self.text.may_wait(start):
                self.read = end
                return 1, output
            if writes is None:
                self.read, self.flags, self.ended = stop, self.flags | flag | 8, True
                self.next = len(self.text.codes)
                return 3, output
            if len(output) + len(writes) > 2 * room:
                return 2, output
            self.read, self.flags = stop, self.flags | flag
            self.next += 1
            output += writes
        self.ended = last
        return 0, output

    def call(self, script, end, last, room):
        """One call from the first unread unit on; its number."""
        asked = f"encode {self.read} {end - self.read} {'last' if last else 'more'} {room}"
        before = self.read
        number, output = self.take(end, last, room)
        written = len(output) // 2
        self.written += written
        script.expect(asked, f"encode {number} {self.read - before} {written} {output or '-'} kept {self.run()}")
        return number

    def save(self, script):
        """The run is saved and read back, another one in hand between."""
        line = self.line()
        script.expect("save 44", f"save 0 {len(line)} {line_hex(line)} kept")
        script.start("D", 7, "000")
        script.expect(f"load {line_hex(line)}", f"load 0 {self.run()}")

    def pieces(self, script, ends, room, saves):
        """Pieces up to each of the ends, the last marked last; where the room is too small, a second call with ample room."""
        script.start("E", 7, self.text.policy)
        for place, end in enumerate(ends):
            last = place == len(ends) - 1
            if self.call(script, end, last, room) == 2:
                self.call(script, end, last, AMPLE)
            if self.ended:
                return
            if saves and self.carried() != "-":
                self.save(script)


def one_go(script, text, room):
    """The whole text in one go, and counted with empty room: need and flags are those of ample room."""
    count = len(text.units)
    whole = Feed(text)
    _, output = whole.take(count, True, AMPLE)
    need = len(output) // 2
    for size in sorted({room, 0}, reverse=True):
        feed = Feed(text)
        number, output = feed.take(count, True, size)
        script.expect(
            f"convert E {text.policy} 0 {count} {size}",
            f"convert {number} {whole.flags} {feed.read} {need} {len(output) // 2} {output or '-'} kept",
        )


def cuttings(count):
    """The ends of the pieces of every cutting of a text; the last piece is the rest, or empty."""
    for number in range(count):
        for cut in itertools.combinations(range(1, count), number):
            yield (*cut, count)
            yield (*cut, count, count)


def texts(count):
    """Each text of so many units, with its place among those of the same kinds of units."""
    for kinds in itertools.product("hlo", repeat=count):
        yield from enumerate(itertools.product(*(UNITS[kind] for kind in kinds)))


def every_text(script, count, rooms):
    """Each text in each cutting; the policies go round, and the rooms where not all of them are asked for."""
    for turn, units in texts(count):
        script.units("".join(f"{unit:04X}" for unit in units))
        for way, ends in enumerate(cuttings(count)):
            # of the two that cut alike, every other text has the one or the other
            if rooms is None and way % 2 != turn % 2:
                continue
            for room in rooms or (ROOMS[(turn + way // 2) % 4],):
                policy = POLICIES[(turn + way + room) % 8]
                Feed(Text(units, policy)).pieces(script, ends, room, (turn + way) % 3 == 0)
        one_go(script, Text(units, POLICIES[turn % 8]), ROOMS[turn // 2 % 4])


def surrogates_script():
    script = Script()
    script.note("Surrogates (document 02, CR 5): by hand")
    script.sample()
    by_hand(script)
    script.note("every text of two units, cut in every way, with every room")
    every_text(script, 2, ROOMS)
    script.note("every text of three units, cut in every way")
    every_text(script, 3, None)
    return script
