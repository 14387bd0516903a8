"""The console script bad_halves: a lead and each byte that may follow it (a module of make_scripts.py).

On the sample page the leads 81 and 82 are followed by each byte 00 to FF and then by 42 (document 01, 'Reading one code from
bytes', and document 02, CR 2). These three bytes are fed in three ways:

    before     a cut before the lead: all three in one call marked last
    between    a cut between: the lead in a call of its own, which carries it, then the other two marked last
    behind     a cut behind the byte: lead and byte in a call not marked last, then what is left marked last, with room for all

What each call answers is written by hand below for every kind of byte, everything that the third policy digit may do and every
room 0 to 3. Only the units of the bytes themselves are put in by code.
"""

from fixed_scripts import Script, line_hex

LEADS = (0x81, 0x82)
NEXT = "0042"

# "Pairs 8140 is 3000, 8141 is 3001, 827C is 4E00"; every other pair is undefined and writes the default unit.
CHARACTERS = {0x8140: "3000", 0x8141: "3001", 0x827C: "4E00"}
DEFAULT_UNIT = "30FB"

# What the digits 2 to 5 write for an invalid code.
WRITES = {2: "0000", 3: "003F", 4: "005F", 5: DEFAULT_UNIT}

# Each answer is answer/read/output/flags/carried/ended, for the rooms 0, 1, 2, 3. In an output W is what the digit writes for the
# invalid code, B the unit of the byte, C what the pair writes and N the unit 0042; F is the pair's flag and L the lead.
#
# low       a byte below 80 that may not be second: the lead is invalid alone, the byte is read afresh
# high      a byte of 80 or more that may not be second: both are one invalid code
# second    a byte that may be second: both are one code, whatever the digit
BEFORE = {
    "low stop": ("3/1/-/12/-/yes", "3/1/-/12/-/yes", "3/1/-/12/-/yes", "3/1/-/12/-/yes"),
    "low skip": ("2/1/-/4/-/no", "2/2/B/4/-/no", "0/3/BN/4/-/yes", "0/3/BN/4/-/yes"),
    "low write": ("2/0/-/0/-/no", "2/1/W/4/-/no", "2/2/WB/4/-/no", "0/3/WBN/4/-/yes"),
    "high stop": ("3/2/-/12/-/yes", "3/2/-/12/-/yes", "3/2/-/12/-/yes", "3/2/-/12/-/yes"),
    "high skip": ("2/2/-/4/-/no", "0/3/N/4/-/yes", "0/3/N/4/-/yes", "0/3/N/4/-/yes"),
    "high write": ("2/0/-/0/-/no", "2/2/W/4/-/no", "0/3/WN/4/-/yes", "0/3/WN/4/-/yes"),
    "second": ("2/0/-/0/-/no", "2/2/C/F/-/no", "0/3/CN/F/-/yes", "0/3/CN/F/-/yes"),
}
BETWEEN = {
    "low stop": ("3/0/-/12/-/yes", "3/0/-/12/-/yes", "3/0/-/12/-/yes", "3/0/-/12/-/yes"),
    "low skip": ("2/0/-/4/-/no", "2/1/B/4/-/no", "0/2/BN/4/-/yes", "0/2/BN/4/-/yes"),
    "low write": ("2/0/-/0/L/no", "2/0/W/4/-/no", "2/1/WB/4/-/no", "0/2/WBN/4/-/yes"),
    "high stop": ("3/1/-/12/-/yes", "3/1/-/12/-/yes", "3/1/-/12/-/yes", "3/1/-/12/-/yes"),
    "high skip": ("2/1/-/4/-/no", "0/2/N/4/-/yes", "0/2/N/4/-/yes", "0/2/N/4/-/yes"),
    "high write": ("2/0/-/0/L/no", "2/1/W/4/-/no", "0/2/WN/4/-/yes", "0/2/WN/4/-/yes"),
    "second": ("2/0/-/0/L/no", "2/1/C/F/-/no", "0/2/CN/F/-/yes", "0/2/CN/F/-/yes"),
}
BEHIND = {
    "low stop": ("3/1/-/12/-/yes", "3/1/-/12/-/yes", "3/1/-/12/-/yes", "3/1/-/12/-/yes"),
    "low skip": ("2/1/-/4/-/no", "0/2/B/4/-/no", "0/2/B/4/-/no", "0/2/B/4/-/no"),
    "low write": ("2/0/-/0/-/no", "2/1/W/4/-/no", "0/2/WB/4/-/no", "0/2/WB/4/-/no"),
    "high stop": ("3/2/-/12/-/yes", "3/2/-/12/-/yes", "3/2/-/12/-/yes", "3/2/-/12/-/yes"),
    "high skip": ("0/2/-/4/-/no", "0/2/-/4/-/no", "0/2/-/4/-/no", "0/2/-/4/-/no"),
    "high write": ("2/0/-/0/-/no", "0/2/W/4/-/no", "0/2/W/4/-/no", "0/2/W/4/-/no"),
    "second": ("2/0/-/0/-/no", "0/2/C/F/-/no", "0/2/C/F/-/no", "0/2/C/F/-/no"),
}
# The call after BEHIND: what it left unread of the three bytes. A run that was stopped is refused.
LEFT = {
    "low stop": ("15/0/-/12/-/yes", "15/0/-/12/-/yes", "15/0/-/12/-/yes", "15/0/-/12/-/yes"),
    "low skip": ("0/2/BN/4/-/yes", "0/1/N/4/-/yes", "0/1/N/4/-/yes", "0/1/N/4/-/yes"),
    "low write": ("0/3/WBN/4/-/yes", "0/2/BN/4/-/yes", "0/1/N/4/-/yes", "0/1/N/4/-/yes"),
    "high stop": ("15/0/-/12/-/yes", "15/0/-/12/-/yes", "15/0/-/12/-/yes", "15/0/-/12/-/yes"),
    "high skip": ("0/1/N/4/-/yes", "0/1/N/4/-/yes", "0/1/N/4/-/yes", "0/1/N/4/-/yes"),
    "high write": ("0/3/WN/4/-/yes", "0/1/N/4/-/yes", "0/1/N/4/-/yes", "0/1/N/4/-/yes"),
    "second": ("0/3/CN/F/-/yes", "0/1/N/F/-/yes", "0/1/N/F/-/yes", "0/1/N/F/-/yes"),
}


def kind_of(byte):
    """ "Second bytes: 40 to 7E." """
    if 0x40 <= byte <= 0x7E:
        return "second"
    return "low" if byte < 0x80 else "high"


class Half:
    """A lead and the byte after it under a policy 55d, with the calls' room: what has been read and written so far."""

    def __init__(self, script, lead, byte, digit, room):
        self.script, self.lead, self.byte, self.digit, self.room = script, lead, byte, digit, room
        self.read = self.written = 0
        script.start("D", 7, f"55{digit}")

    def row(self, table):
        """The hand-written answer of a table."""
        name = kind_of(self.byte)
        if name != "second":
            name += " " + {0: "stop", 1: "skip"}.get(self.digit, "write")
        return table[name][self.room]

    def units(self, letters):
        """The hex of an output's letters."""
        pair = CHARACTERS.get(256 * self.lead + self.byte, DEFAULT_UNIT)
        units = {"W": WRITES.get(self.digit), "B": f"{self.byte:04X}", "C": pair, "N": NEXT, "-": ""}
        return "".join(units[letter] for letter in letters)

    def run(self, flags, carried, ended):
        word = {"yes": "over", "no": "on"}[ended]
        return f"D 7 5 5 {self.digit} {carried} {flags} {self.read} {self.written} {word}"

    def call(self, count, mark, room, row):
        """A call on `count` bytes from the first unread one on."""
        answer, read, letters, flags, carried, ended = row.split("/")
        output = self.units(letters)
        written = len(output) // 4
        if flags == "F":
            flags = 0 if 256 * self.lead + self.byte in CHARACTERS else 2
        if carried == "L":
            carried = f"{self.lead:02X}"
        asked = f"decode {self.read} {count} {mark} {room}"
        self.read += int(read)
        self.written += written
        run = self.run(flags, carried, ended)
        self.script.expect(asked, f"decode {answer} {read} {written} {output or '-'} kept {run}")

    def before(self):
        self.call(3, "last", self.room, self.row(BEFORE))

    def carry(self):
        """The lead is carried, even with no room."""
        self.call(1, "more", 0, "1/1/-/0/L/no")

    def between(self):
        self.carry()
        self.call(2, "last", self.room, self.row(BETWEEN))

    def between_saved(self):
        """The same with the run saved and read back before the other bytes."""
        self.carry()
        line = line_hex(f"D>7>55{self.digit}>{self.lead:02X}>0>1>0>on;")
        self.script.expect("save 44", f"save 0 20 {line} kept")
        self.script.start("D", 7, "555")
        self.script.expect(f"load {line}", f"load 0 {self.run(0, f'{self.lead:02X}', 'no')}")
        self.call(2, "last", self.room, self.row(BETWEEN))

    def behind(self):
        self.call(2, "more", self.room, self.row(BEHIND))
        self.call(3 - self.read, "last", 3, self.row(LEFT))


def each_byte(script):
    """Each lead with each byte, in each way; rooms and digits go round, so that every kind of byte meets all of them."""
    turns = {"low": 0, "high": 0, "second": 0}
    for lead in LEADS:
        for byte in range(256):
            script.bytes(f"{lead:02X}{byte:02X}42")
            turn = turns[kind_of(byte)]
            for way, feed in enumerate((Half.before, Half.between_saved, Half.behind)):
                digit, room = divmod((turn + 7 * way) % 24, 4)
                feed(Half(script, lead, byte, digit, room))
            turns[kind_of(byte)] += 1


def each_room_and_digit(script):
    """The line feed, and the bytes on both sides of 80: each room with each digit, in each way, nothing saved."""
    for byte in (0x0A, 0x7F, 0x80):
        script.bytes(f"82{byte:02X}42")
        for digit in range(6):
            for room in range(4):
                for feed in (Half.before, Half.between, Half.behind):
                    feed(Half(script, 0x82, byte, digit, room))


def bad_halves_script():
    script = Script()
    script.note("A lead, each byte 00 to FF, then 42: cut before, between and behind (document 02, CR 2)")
    script.sample()
    each_byte(script)
    script.note("82 with 0A, 7F and 80: every room 0 to 3 with every third digit")
    each_room_and_digit(script)
    return script
