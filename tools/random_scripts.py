"""Random console scripts, the same for the same seed (a module of make_scripts.py).

Kinds of script:

    lists_sample     lists of calls on the sample page: pieces cut anywhere, rooms of all sizes, lines saved and read back
    lists_small      the same on random small tables
    lists_damaged    the same on damaged tables, changing between them and good ones
    lists_halves     the same on texts of leads and bytes of every kind after them, decoded only
    lists_surrogates the same on texts of surrogates, in pairs and alone, and other units between, encoded only
    lists_long       lists on texts of up to 66,000 elements, with pieces over the limit
    runs             runs of random numbers, most of which break the rules, and the calls on them
    lists_fields     texts cut into fields: blocks cut anywhere, fields about the limit, buffers and states of all sizes
    lists_index      journals that grow, their index gone on with, and codes found by it, also by wrong entries
    lists_inplace    units encoded in their own buffer, with surrogates in pairs and alone, some buffers of an odd size
    lists_here       lists of calls of both forms on all tables: by value, and on the record where it stands
    lists_findings   the codes without a character of byte texts, lists of all sizes, some tables of a bad shape
    listing_damaged  short table listings, most of them damaged: a line dropped, doubled, exchanged, changed in one place

The generator plays each command on second_converter.py as it goes, only to know where the run stands, so that the next
piece begins there; the answers stored are those of that play.
"""

import random

import second_converter
from make_sample import sample_tables
from table_image import LEAD, NEVER, NONE, SECOND, SINGLE, Tables

LIMIT = 4294967295

# Surrogates, the first and the last of each range often.
HIGH = (0xD800, 0xDBFF, 0xD83D, *range(0xD800, 0xDC00, 0x55))
LOW = (0xDC00, 0xDFFF, 0xDE00, *range(0xDC00, 0xE000, 0x55))


# ---------------------------------------------------------------------------------------------------------------
# Tables
# ---------------------------------------------------------------------------------------------------------------


def random_good_tables(chance, page):
    """A small table set of good shape: few leads, holes everywhere."""
    tables = Tables(page, chance.choice((0x3F, 0x00, 0x5F, 0x81, 0xFF)), chance.choice((0x30FB, 0xFFFD, 0xFFFF, 0xD800, 0x003F)))
    lead_count = chance.choice((0, 1, 1, 2, 3, 4))
    leads = chance.sample(range(0x80, 0x100), lead_count)
    for byte in range(256):
        if byte in leads:
            tables.classes[byte] = LEAD
        else:
            tables.classes[byte] = chance.choice((NEVER, SINGLE, SINGLE))
        if chance.random() < 0.4:
            tables.classes[byte] += SECOND
        # characters stand at bytes of any class: the class decides
        tables.singles[byte] = chance.choice((NONE, chance.randrange(0x10000), byte))
    tables.make_pair_blocks()
    for place in range(len(tables.pairs)):
        if chance.random() < 0.5:
            tables.pairs[place] = chance.choice((chance.randrange(0x10000), 0x4E00 + place % 256, tables.default_unit))
    block_count = chance.choice((1, 2, 3, 4))
    tables.blocks = []
    for _ in range(256 * block_count):
        tables.blocks.append(
            chance.choice((NONE, chance.randrange(0x100), chance.randrange(0x10000), chance.choice((0xFF, 0x100, 0x81))))
        )
    tables.index = [chance.randrange(block_count) for _ in range(256)]
    return tables


def damage(chance, tables):
    """Makes one thing of the shape wrong."""
    part = chance.choice(("classes", "singles", "pairs", "index", "blocks"))
    elements = getattr(tables, part)
    kind = chance.choice(("short", "long", "page", "class", "low lead", "number", "pair block"))
    if kind == "short" and elements:
        elements.pop()
    elif kind == "page":
        tables.page = 0
    elif kind == "class":
        tables.classes[chance.randrange(256)] = chance.choice((3, 7, 8, 9, 10, 128, 255))
    elif kind == "low lead":
        place = chance.randrange(0x80)
        tables.classes[place] = chance.choice((LEAD, LEAD + SECOND))
        if chance.random() < 0.5:
            tables.pairs += [NONE] * 256
    elif kind == "number":
        tables.index[chance.randrange(256)] = chance.choice((len(tables.blocks) // 256, 255))
    elif kind == "pair block":
        tables.pairs = tables.pairs[256:] if tables.pairs and chance.random() < 0.5 else tables.pairs + [NONE] * 256
    else:
        elements.append(0)


def random_tables(seed):
    """The tables of a seed by file name: the sample page, good random ones and damaged ones."""
    chance = random.Random(f"tables {seed}")
    tables = {"sample.tbl": sample_tables()}
    for number in range(10):
        page = chance.choice((7, 1, 65535, chance.randrange(2, 65535)))
        tables[f"random_{number}.tbl"] = random_good_tables(chance, page)
    for number in range(14):
        base = chance.choice([sample_tables(), random_good_tables(chance, 7)])
        damage(chance, base)
        tables[f"damaged_{number}.tbl"] = base
    return tables


# ---------------------------------------------------------------------------------------------------------------
# Words
# ---------------------------------------------------------------------------------------------------------------


def byte_kinds(tables):
    """The bytes of each kind that a table set of good shape has."""
    kinds = {"lead": [], "second": [], "character": [], "none": [], "never": []}
    for byte, byte_class in enumerate(tables.classes[:256]):
        if byte_class in (LEAD, LEAD + SECOND):
            kinds["lead"].append(byte)
        elif byte_class in (SINGLE, SINGLE + SECOND) and byte < len(tables.singles):
            kinds["none" if tables.singles[byte] == NONE else "character"].append(byte)
        else:
            kinds["never"].append(byte)
        if byte_class in (SECOND, SINGLE + SECOND, LEAD + SECOND):
            kinds["second"].append(byte)
    return {kind: members for kind, members in kinds.items() if members}


def pair_characters(tables):
    """The pairs that have a character."""
    found = []
    for block, lead in enumerate(tables.leads()):
        for second, unit in enumerate(tables.pairs[256 * block : 256 * block + 256]):
            if unit != NONE and tables.classes[second] & SECOND:
                found.append((lead, second))
    return found


def random_bytes(chance, tables, count):
    """A byte text: whole pairs, and bytes of every kind in any order."""
    kinds = byte_kinds(tables)
    pairs = pair_characters(tables) if len(tables.classes) == 256 else []
    text = []
    while len(text) < count:
        if pairs and chance.random() < 0.35:
            text += chance.choice(pairs)
        elif "lead" in kinds and chance.random() < 0.2:
            text.append(chance.choice(kinds["lead"]))
        else:
            text.append(chance.choice(kinds[chance.choice(sorted(kinds))]))
    return text[:count]


def random_halves(chance, tables, count):
    """A byte text of leads, each followed by a byte below 80 or from 80 on, that may be second or not."""
    leads = byte_kinds(tables).get("lead", [0x81])
    low_or_high = {"low": range(0x80), "high": range(0x80, 0x100)}
    followers = {}
    for name, members in low_or_high.items():
        followers[name + " second"] = [byte for byte in members if tables.classes[byte] & SECOND]
        followers[name] = [byte for byte in members if not tables.classes[byte] & SECOND]
    kinds = [kind for kind in ("low", "low", "low", "high", "low second", "high second") if followers[kind]]
    text = []
    while len(text) < count:
        if chance.random() < 0.8:
            text.append(chance.choice(leads))
        if chance.random() < 0.9:
            text.append(chance.choice(followers[chance.choice(kinds)]))
    return text[:count]


def random_units(chance, tables, count):
    """A unit text: units with codes of one and two bytes, units without, surrogates in pairs and alone."""
    known = []
    for high, block in enumerate(tables.index):
        codes = tables.blocks[256 * block : 256 * block + 256]
        known += [256 * high + low for low, code in enumerate(codes) if code != NONE]
    long_ones = []
    for unit in known:
        code = tables.blocks[256 * tables.index[unit >> 8] + (unit & 0xFF)]
        if code > 0xFF:
            long_ones.append(unit)
    text = []
    while len(text) < count:
        turn = chance.random()
        if known and turn < 0.45:
            text.append(chance.choice(known))
        elif long_ones and turn < 0.7:
            text.append(chance.choice(long_ones))
        elif turn < 0.85:
            text += chance.choice(([], [chance.choice(HIGH)])) + chance.choice(([], [chance.choice(LOW)]))
        elif turn < 0.9:
            text.append(0xFFFF)
        else:
            text.append(chance.randrange(0x10000))
    return text[:count]


def random_surrogates(chance, tables, count):
    """A unit text of surrogates, in pairs, alone and in the wrong order, and other units between them."""
    text = []
    while len(text) < count:
        kind = chance.choice(("pair", "pair", "high", "high", "high", "low", "edge", "unit", "unit"))
        if kind in ("pair", "high"):
            text.append(chance.choice(HIGH))
        if kind in ("pair", "low"):
            text.append(chance.choice(LOW))
        if kind == "edge":
            text.append(chance.choice((0xD7FF, 0xD800, 0xDBFF, 0xDC00, 0xDFFF, 0xE000)))
        if kind == "unit":
            text += random_units(chance, tables, 1)
    return text[:count]


def random_policy(chance, direction):
    """Mostly allowed digits; the digit 0 often enough."""
    digits = [chance.choice("1234555550") for _ in range(3)]
    if direction == "D" and chance.random() < 0.2:
        digits[0] = "6"
    if chance.random() < 0.02:
        digits[chance.randrange(3)] = chance.choice("6789")
    return "".join(digits)


def random_room(chance, left):
    """Rooms 0, 1, 2, few and many."""
    return chance.choice((0, 1, 2, 3, chance.randrange(8), chance.randrange(8), left, 2 * left, 2 * left + 3))


def damaged_line(chance, line):
    """A saved line made wrong in one of the forms of the readings; some forms need other fields to be so too."""
    fields = line[:-1].split(b"\t")
    direction, page, digits, carried, flags, read, written, word = fields

    def joined(*parts):
        return b"\t".join(parts) + b"\n"

    forms = (
        b"",
        line[:-1],
        line[:-1] + b"\r\n",
        line + b"\n",
        line + line,
        line[:-1] + b"\t\n",
        line.replace(b"\t", b" "),
        joined(direction, b"0" + page, digits, carried, flags, read, written, word),
        joined(direction, page, digits, carried, b"0" + flags, read, written, word),
        joined(direction, page, digits, carried, flags, b"0" + read, written, word),
        joined(direction, page, digits, carried, flags, read, b"0" + written, word),
        joined(direction, b"0", digits, carried, flags, read, written, word),
        joined(direction, b"65536", digits, carried, flags, read, written, word),
        joined(direction, page, digits[:2], carried, flags, read, written, word),
        joined(direction, page, digits + b"5", carried, flags, read, written, word),
        joined(direction, page, b"575", carried, flags, read, written, word),
        joined(direction, page, digits, b"8a", b"0", b"1", b"0", b"on"),
        joined(b"D", page, b"555", b"82", b"0", b"0", b"0", b"on"),
        joined(b"D", page, b"555", b"82", b"0", b"5", b"5", b"on"),
        joined(b"D", page, b"555", b"82", b"0", b"5", b"4", b"over"),
        joined(b"E", page, b"555", b"82", b"0", b"5", b"4", b"on"),
        joined(b"E", page, b"555", b"0082", b"0", b"5", b"4", b"on"),
        joined(b"E", page, b"555", b"DC00", b"0", b"5", b"4", b"on"),
        joined(b"E", page, b"555", b"D7FF", b"0", b"5", b"4", b"on"),
        joined(b"E", page, b"555", b"d83d", b"0", b"5", b"4", b"on"),
        joined(b"E", page, b"555", b"D83", b"0", b"5", b"4", b"on"),
        joined(b"E", page, b"555", b"D83D", b"0", b"0", b"0", b"on"),
        joined(b"E", page, b"555", b"D83D", b"0", b"5", b"9", b"on"),
        joined(b"E", page, b"555", b"D83D", b"0", b"5", b"4", b"over"),
        joined(b"D", page, b"555", b"D83D", b"0", b"5", b"4", b"on"),
        joined(b"D", page, b"555", b"0082", b"0", b"5", b"4", b"on"),
        joined(direction, page, digits, b"-", b"8", read, written, b"on"),
        joined(direction, page, digits, b"-", b"16", read, written, b"over"),
        joined(direction, page, digits, b"-", flags, b"4294967296", b"0", b"over"),
        joined(direction, page, digits, b"-", b"0", b"18446744073709551617", b"0", b"on"),
        joined(b"D", page, b"555", b"-", b"0", read, str(int(read) + 1).encode("ascii"), b"on"),
        joined(b"E", page, b"555", b"-", b"0", read, str(2 * int(read) + 1).encode("ascii"), b"on"),
        joined(direction, page, digits, carried, flags, b"+" + read, written, word),
        joined(direction, page, digits, carried, flags, read, b"", word),
        joined(direction, page, b"", carried, flags, read, written, word),
        joined(direction, page, digits, carried, flags, read, written, word.upper()),
        joined(direction.lower(), page, digits, carried, flags, read, written, word),
        joined(direction, page, digits, carried, flags, read, written, word, b""),
        joined(direction, page, digits, carried, flags, read, written),
    )
    if chance.random() < 0.15:
        # one byte changed somewhere: most often no line, now and then another good one
        place = chance.randrange(len(line))
        return line[:place] + bytes([chance.randrange(256)]) + line[place + 1 :]
    return chance.choice(forms)


def hex_text(elements, digits):
    return "".join(f"{element:0{digits}X}" for element in elements) or "-"


# ---------------------------------------------------------------------------------------------------------------
# Lists of calls
# ---------------------------------------------------------------------------------------------------------------


class Player:
    """Plays each command as it is made and keeps the lines of both files."""

    def __init__(self, folder):
        self.console = second_converter.Console([folder])
        self.commands = []
        self.answers = []

    def note(self, text):
        self.commands.append(f"# {text}")

    def do(self, command):
        answer = self.console.answer(command.encode("ascii"))
        self.commands.append(command)
        self.answers.append(answer)
        return answer

    @property
    def run(self):
        return self.console.run

    def files(self):
        return tuple(("\n".join(lines) + "\n").encode("ascii") for lines in (self.commands, self.answers))


# The directions of a list's run, each with what makes its text.
PLAIN = (("D", random_bytes), ("D", random_bytes), ("E", random_units))
HALVES = (("D", random_halves),)
SURROGATES = (("E", random_surrogates),)


# The forms of a run call: what follows its name.
BY_VALUE = ("",)
BOTH_FORMS = ("", "here")


def play_list(player, chance, names, tables, text_size, call_count, makers=PLAIN, forms=BY_VALUE):
    """One list: a start, then calls that go on from the run's own position, lines saved and read back."""
    direction, make_text = chance.choice(makers)
    name = chance.choice(names)
    player.do(f"table {name}")
    text, digits = {"D": ("bytes", 2), "E": ("units", 4)}[direction]
    player.do(f"{text} {hex_text(make_text(chance, tables[name], text_size), digits)}")
    page = tables[name].page or 7
    if chance.random() < 0.03:
        page = chance.choice((1, 7, 9, 65535))
    started = player.do(f"start {direction} {page} {random_policy(chance, direction)}")
    if started == "start 17":
        player.do(f"start {direction} {page} 555")
    saved = []
    for _ in range(call_count):
        turn = chance.random()
        if player.run.ended and turn < 0.8:
            # an ended run: read an earlier line back, or leave it at one refused call
            if not saved or chance.random() < 0.3:
                play_run_call(player, chance, direction, text_size, forms)
                return
            player.do(f"load {hex_text(chance.choice(saved), 2)}")
        elif turn < 0.68:
            play_run_call(player, chance, direction, text_size, forms)
        elif turn < 0.82:
            answer = player.do(f"save {chance.choice((44, 44, 44, 44, 60, 18, 19, 20, 26, chance.randrange(50)))}")
            words = answer.split(" ")
            if words[1] == "0":
                saved.append(bytes.fromhex(words[3]))
        elif turn < 0.89:
            if saved:
                player.do(f"load {hex_text(chance.choice(saved), 2)}")
        elif turn < 0.95:
            line = chance.choice(saved) if saved else second_converter.line_of(player.run)
            player.do(f"load {hex_text(damaged_line(chance, line), 2)}")
        else:
            play_one_go(player, chance, direction, text_size)
        if len(names) > 1 and chance.random() < 0.15:
            player.do(f"table {chance.choice(names)}")
            player.do("shape")


def formed(chance, name, forms):
    """The name of a run call in one of the forms."""
    return name + (chance.choice(forms) if len(forms) > 1 else forms[0])


def play_run_call(player, chance, direction, text_size, forms):
    """A run call from the run's position on; now and then from anywhere, or of the other direction."""
    position = player.run.read if player.run.read <= text_size else text_size
    if chance.random() < 0.03:
        position = chance.randrange(text_size + 1)
    left = text_size - position
    small = (0, 1, 1, 2, 3, chance.randrange(7))
    count = chance.choice((left, chance.randrange(left + 1), *(min(left, number) for number in small)))
    reaches_end = count == left
    mark = "last" if reaches_end and chance.random() < 0.5 else "more"
    if chance.random() < 0.01:
        mark = "last"
    name = {"D": "decode", "E": "encode"}[direction]
    if chance.random() < 0.015:
        # of the other direction, on an empty piece
        player.do(f"{formed(chance, 'encode' if name == 'decode' else 'decode', forms)} 0 0 {mark} 2")
        return
    player.do(f"{formed(chance, name, forms)} {position} {count} {mark} {random_room(chance, count)}")


def play_one_go(player, chance, direction, text_size):
    start = chance.randrange(text_size + 1)
    count = chance.randrange(text_size - start + 1)
    policy = random_policy(chance, direction)
    player.do(f"convert {direction} {policy} {start} {count} 0")
    player.do(f"convert {direction} {policy} {start} {count} {random_room(chance, count)}")


def sparse_text(chance, tables, direction):
    """A pattern that writes little when codes without a character are skipped: one character among many others."""
    count = chance.randrange(300, 900)
    if direction == "D":
        kinds = byte_kinds(tables)
        others = kinds.get("never", []) + kinds.get("none", [])
        text = [chance.choice(others) for _ in range(count)] + [chance.choice(kinds["character"])]
        if "lead" in kinds:
            text += [chance.choice(kinds["lead"]) for _ in range(chance.randrange(4))]
        return hex_text(text, 2)
    unknown = [unit for unit in range(0x10000)
               if tables.blocks[256 * tables.index[unit >> 8] + (unit & 0xFF)] == NONE]
    return hex_text([chance.choice(unknown) for _ in range(count)] + random_units(chance, tables, 2), 4)


def play_long_list(player, chance, names, tables):
    """A text of up to 66,000 elements that writes little, cut into large pieces; some pieces are over the limit."""
    direction = chance.choice("DE")
    name = chance.choice(names)
    player.do(f"table {name}")
    size = chance.choice((66000, 65536, 65537, 65538, chance.randrange(30000, 66000)))
    player.do(f"{'fillbytes' if direction == 'D' else 'fillunits'} {size} {sparse_text(chance, tables[name], direction)}")
    player.do(f"start {direction} {tables[name].page} 111")
    call = {"D": "decode", "E": "encode"}[direction]
    for _ in range(8):
        position = min(player.run.read, size)
        left = size - position
        count = chance.choice((left, left, min(left, 65536), min(left, 65537), chance.randrange(left + 1)))
        mark = "last" if count == left and chance.random() < 0.5 else "more"
        room = chance.choice((0, 1, 2, 40, 200, 1000))
        player.do(f"{call} {position} {count} {mark} {room}")
        if chance.random() < 0.3:
            player.do(f"convert {direction} 111 {position} {count} 0")
        if chance.random() < 0.2:
            player.do("save 44")
        if player.run.ended:
            return


def random_total(chance):
    return chance.choice(
        (0, 1, 2, 3, chance.randrange(100), LIMIT - 1, LIMIT, LIMIT + 1, 2 * LIMIT, 2 * LIMIT + 1, 2**32 + 1, 2**63,
         2**64 - 1, chance.randrange(LIMIT), chance.randrange(2**64))
    )


# What a run may carry by the run rules, and what else is tried.
CARRIED = {"D": ("-", "81", "82", "41"), "E": ("-", "D83D", "D800", "DBFF")}
OTHERS_CARRIED = {"D": ("83", "00", "FF"), "E": ("D7FF", "DC00", "0082")}


def random_run(chance):
    """The ten words of a run: one that keeps the rules, then at most two fields changed to anything."""
    direction = chance.choice("DE")
    read = chance.choice((0, 1, 2, 9, chance.randrange(1000), LIMIT - 2, LIMIT - 1, LIMIT, chance.randrange(LIMIT)))
    most = read if direction == "D" else 2 * read
    carried = chance.choice(CARRIED[direction]) if most > 0 else "-"
    word = chance.choice(("on", "on", "over")) if carried == "-" else "on"
    least_left = 1 if direction == "D" else 2
    written = chance.choice((0, most, most // 2)) if carried == "-" else chance.choice((0, most - least_left))
    digits = [chance.choice("1234505") for _ in range(3)]
    flags = chance.choice((0, 1, 4, 7)) if word == "on" else chance.choice((0, 7, 9, 15))
    words = [direction, "7", *digits, carried, str(flags), str(read), str(written), word]
    changes = (
        (0, chance.choice("DE")),
        (1, chance.choice(("0", "9", "65535"))),
        (2 + chance.randrange(3), chance.choice(("6", "7", "255"))),
        (5, chance.choice(CARRIED[direction] + OTHERS_CARRIED[direction])),
        (6, chance.choice(("8", "12", "15", "16", "255"))),
        (7, str(random_total(chance))),
        (8, str(min(chance.choice((read + 1, 2 * read + 1, max(read - 1, 0), random_total(chance))), 2**64 - 1))),
        (9, chance.choice(("on", "over"))),
    )
    for _ in range(chance.choice((0, 0, 1, 1, 1, 2))):
        place, word = chance.choice(changes)
        words[place] = word
    # a byte in a decoding run, a unit in an encoding one: a run with another number of digits is no command
    if words[5] != "-":
        words[5] = words[5][-2:] if words[0] == "D" else words[5].rjust(4, "0")
    return " ".join(words)


def play_runs(player, chance, forms=BY_VALUE):
    """Runs of random numbers, and what each call says to them."""
    player.do("table sample.tbl")
    player.do("bytes 4182807C81408341815A")
    player.do("units 0041DE003000D83DDE001234D83D4E00")
    for _ in range(6):
        player.do(f"run {random_run(chance)}")
        before = player.do("save 44")
        name, size = {"D": ("decode", 10), "E": ("encode", 8)}[player.run.direction]
        for _ in range(2):
            start = chance.randrange(size + 1)
            count = chance.choice((0, 1, 2, chance.randrange(size + 1)))
            count = min(count, size - start)
            player.do(f"{formed(chance, name, forms)} {start} {count} {chance.choice(('more', 'last'))} {chance.randrange(6)}")
        words = before.split(" ")
        if words[1] == "0":
            player.do(f"load {words[3]}")


def play_here(player, chance, names, damaged_names, tables, text_size, call_count):
    """A list of calls of both forms, on good tables, or changing between damaged and good ones; or runs of random numbers."""
    turn = chance.random()
    if turn < 0.2:
        play_runs(player, chance, BOTH_FORMS)
    elif turn < 0.35:
        play_list(player, chance, [chance.choice(damaged_names), "sample.tbl"], tables, text_size, call_count, PLAIN, BOTH_FORMS)
    else:
        makers = chance.choice((PLAIN, HALVES, SURROGATES))
        play_list(player, chance, [chance.choice(names)], tables, text_size, call_count, makers, BOTH_FORMS)


def random_fields_text(chance):
    """Units of fields and separators: short fields, empty ones, some about the limit, a last one that nothing ends."""
    text = []
    for _ in range(chance.randrange(6)):
        count = chance.choice((0, 0, 1, 1, 2, 3, chance.randrange(8), chance.randrange(250, 260), chance.randrange(300)))
        # 7C and 0A as one half of a unit, and their neighbours
        units = [chance.choice((0x61, 0x7B, 0x7D, 0x09, 0x0B, 0x0D, 0x7C00, 0x0A00, 0x017C, 0x010A, 0xFF7C, chance.randrange(0x10000)))
                 for _ in range(count)]
        text += [unit for unit in units if unit not in (0x7C, 0x0A)]
        text.append(chance.choice((0x7C, 0x0A)))
    if text and chance.random() < 0.6:
        text.pop()
    return text


def play_fields(player, chance):
    """A list of calls on one text, each from the first unread unit on; now and then another state, place or mark."""
    size = chance.choice((256, 256, 256, 256, 257, 300, 255, chance.randrange(256, 301), chance.randrange(256)))
    if chance.random() < 0.08:
        pattern = random_fields_text(chance)[:300] or [0x7C]
        length = chance.choice((65536, 65537, 66000))
        player.do(f"fillunits {length} {hex_text(pattern, 4)}")
    else:
        text = random_fields_text(chance)
        length = len(text)
        player.do(f"units {hex_text(text, 4)}")
    player.do(f"hold {size}")
    position = 0
    for _ in range(chance.randrange(4, 16)):
        if chance.random() < 0.05:
            player.do(f"held {chance.choice((0, 1, 255, 256, 257, 300, 2**32, 2**64 - 1, chance.randrange(300)))}")
        if chance.random() < 0.03:
            position = chance.randrange(length + 1)
        left = length - position
        small = (0, 1, 1, 2, 3, 255, 256, 257, chance.randrange(7), chance.randrange(300))
        count = chance.choice((left, left, chance.randrange(left + 1), *(min(left, number) for number in small)))
        last = count == left and chance.random() < 0.6 or chance.random() < 0.02
        words = player.do(f"field {position} {count} {'last' if last else 'more'}").split(" ")
        if words[1] in ("bar", "line", "end", "held"):
            position += int(words[2])


def random_journal(player, chance, names, tables):
    """A journal of a few blocks, a short pattern over and over; answers its size."""
    name = chance.choice(names)
    player.do(f"table {name}")
    make_text = chance.choice((random_bytes, random_halves))
    pattern = make_text(chance, tables[name], chance.choice((1, 2, 3, 3, chance.randrange(1, 40))))
    size = chance.choice((511, 512, 513, 1024, 1025, chance.randrange(1, 600), chance.randrange(1, 1700), chance.randrange(1, 1700)))
    player.do(f"fillbytes {size} {hex_text(pattern, 2)}")
    return size


def random_count(chance, size):
    """How many codes an entry counts: mostly at most as many as there are bytes."""
    return chance.choice((0, 1, 511, 512, 513, chance.randrange(size + 1), chance.randrange(size + 1), chance.randrange(2**31), 2**31 - 1))


def play_index(player, chance, names, tables):
    """A journal that grows, its index gone on with, and codes found; now and then a wrong entry or a wrong former length."""
    size = random_journal(player, chance, names, tables)
    needed = second_converter.block_count(size)
    entries = chance.choice((needed, needed, needed, needed + 1, needed + 2, needed - 1))
    player.do(f"index {entries}")
    former = 0
    for _ in range(chance.randrange(5, 25)):
        turn = chance.random()
        if turn < 0.06 and entries > 0:
            player.do(f"entry {chance.randrange(entries)} {random_count(chance, size)} {chance.choice('01')}")
        elif turn < 0.45:
            length = chance.choice((size, chance.randrange(former, size + 1), min(size, former + chance.randrange(4))))
            asked = former if chance.random() < 0.9 else chance.choice((0, chance.randrange(size + 3), 2**64 - 1))
            if player.do(f"append {asked} {length}").startswith("append 0"):
                former = length
        else:
            number = chance.choice((random_count(chance, size), *(chance.randrange(size // 2 + 1) for _ in range(5)), 2**64 - 1))
            player.do(f"find {number} {chance.choice((former, former, size, chance.randrange(size + 1)))}")


def play_in_place(player, chance, names, tables):
    """A few buffers of units, low byte first, under random policies; now and then a byte is missing."""
    name = chance.choice(names)
    player.do(f"table {name}")
    for _ in range(6):
        make_text = chance.choice((random_units, random_surrogates))
        text = make_text(chance, tables[name], chance.choice((0, 1, 2, 3, chance.randrange(30), chance.randrange(30))))
        buffer = [byte for unit in text for byte in (unit & 0xFF, unit >> 8)]
        size = max(len(buffer) - (chance.random() < 0.05), 0)
        player.do(f"inplace {random_policy(chance, 'E')} {size} {hex_text(buffer, 2)}")


def play_findings(player, chance, names, damaged_names, tables):
    """A byte text with many codes without a character: the whole of it and parts, under random policies, lists of all sizes."""
    name = chance.choice(names) if chance.random() < 0.95 else chance.choice(damaged_names)
    player.do(f"table {name}")
    # a damaged table set says nothing of bytes: the text is the sample page's
    good = tables[name] if name in names else tables["sample.tbl"]
    for _ in range(3):
        size = chance.choice((0, 1, 2, 3, chance.randrange(30), chance.randrange(30)))
        text = chance.choice((random_bytes, random_halves))(chance, good, size)
        player.do(f"bytes {hex_text(text, 2)}")
        for _ in range(2):
            start = chance.choice((0, 0, 0, chance.randrange(size + 1)))
            count = chance.choice((size - start, size - start, chance.randrange(size - start + 1)))
            room = chance.choice((0, 1, 2, 3, count, count, 300, chance.randrange(10)))
            player.do(f"findings {random_policy(chance, 'D')} {start} {count} {room}")


def some(chance, members, most):
    """A few of the members, in their order."""
    return sorted(chance.sample(members, chance.randrange(min(most, len(members)) + 1)))


def random_listing(chance):
    """The lines of a short listing, without their line feeds, and the sizes that it needs."""
    page = chance.choice((1, 9, 10, 932, 65535, chance.randrange(1, 65536)))
    lines = [f"P\t{page}", f"D\t{chance.randrange(256):02X}\t{chance.choice((0x30FB, 0xFFFF, 0xD800)):04X}"]
    near = (0x00, 0x01, 0x40, 0x41, 0x7F, 0x80, 0x81, 0x9F, 0xE0, 0xFE, 0xFF)
    singles = some(chance, near, 5)
    leads = some(chance, [byte for byte in near if byte >= 0x80 and byte not in singles], 3)
    seconds = some(chance, near, 4)
    units = [256 * high + low for high in (0x00, 0x01, 0x30, 0x4E, 0xD8, 0xFF) for low in (0x00, 0x01, 0x40, 0xFE, 0xFF)]
    codes = [256 * lead + second for lead in leads for second in seconds]
    right = [*units[:-1], 0x8140, 0xFFFE]
    written = some(chance, units, 6)
    lines += [f"S\t{byte:02X}\t{chance.choice(('-', format(chance.choice(right), '04X')))}" for byte in singles]
    lines += [f"L\t{byte:02X}" for byte in leads]
    lines += [f"T\t{byte:02X}" for byte in seconds]
    lines += [f"M\t{code:04X}\t{chance.choice(right):04X}" for code in some(chance, codes, 5)]
    lines += [f"W\t{unit:04X}\t{chance.choice(right):04X}" for unit in written]
    return lines, [256, 256, 256 * len(leads), 256, 256 * (1 + len({unit >> 8 for unit in written}))]


def damaged_listing(chance, lines):
    """The lines of a listing, each with its line feed, after one damage."""
    lines = [line + "\n" for line in lines]
    place, other = chance.randrange(len(lines)), chance.randrange(len(lines))
    line = lines[place]
    inside = chance.randrange(len(line))
    kind = chance.choice((
        "drop", "double", "exchange", "move", "digit", "digit", "digit", "field", "letter", "byte gone", "byte more", "joined", "copy",
    ))
    if kind == "drop":
        del lines[place]
    elif kind == "double":
        lines.insert(place, line)
    elif kind == "exchange":
        lines[place], lines[other] = lines[other], line
    elif kind == "move":
        lines.insert(other, lines.pop(place))
    elif kind == "digit":
        digits = [number for number, letter in enumerate(line) if number > 0 and letter in "0123456789ABCDEF"]
        inside = chance.choice(digits)
        lines[place] = line[:inside] + chance.choice("0123456789ABCDEFF-af") + line[inside + 1 :]
    elif kind == "field":
        fields = line[:-1].split("\t")
        fields[chance.randrange(1, len(fields))] = chance.choice(("FFFF", "-", "00", "FF", "0000", "7F", "80", "8140", "65536", ""))
        lines[place] = "\t".join(fields) + "\n"
    elif kind == "letter":
        lines[place] = chance.choice("PDSLTMWXs") + line[1:]
    elif kind == "byte gone":
        lines[place] = line[:inside] + line[inside + 1 :]
    elif kind == "byte more":
        lines[place] = line[:inside] + chance.choice("\t\n\r 0F-") + line[inside:]
    elif kind == "joined":
        lines[place : place + 2] = ["".join(lines[place : place + 2])]
    else:
        lines[place] = lines[other]
    return lines


def listing_line(player, line):
    return player.do(f"line {hex_text(line.encode('ascii'), 2)}")


def play_listing(player, chance):
    """A listing line by line, mostly damaged, into tables that are large enough or not; then its end, and what is written of it."""
    lines, sizes = random_listing(chance)
    if chance.random() < 0.85:
        lines = damaged_listing(chance, lines)
    else:
        lines = [line + "\n" for line in lines]
    if chance.random() < 0.3:
        place = chance.randrange(5)
        sizes[place] = max(sizes[place] + chance.choice((-256, -1, -1, 1)), 0)
    elif chance.random() < 0.6:
        sizes = [size + chance.choice((0, 0, 1, 44)) for size in sizes]
    player.do("lend " + " ".join(map(str, sizes)))
    for line in lines:
        listing_line(player, line)
    player.do("lent")
    if player.do("listed").startswith("listed 0"):
        player.do("shape")
        player.do("lister")
        for _ in range(chance.choice((2, 3, 5, len(lines) + 1))):
            player.do(f"list {chance.choice((12, 12, 12, 12, 10, 300, chance.randrange(13)))}")


def random_script(kind, seed, count, tables, folder):
    """The two files of a random script; folder has the images of the tables."""
    chance = random.Random(f"{kind} {seed}")
    player = Player(folder)
    player.note(f"Random: {kind}, seed {seed}")
    random_names = [name for name in tables if name.startswith("random")]
    damaged_names = [name for name in tables if name.startswith("damaged")]
    for number in range(count):
        player.note(f"list {number}")
        size = chance.choice((0, 1, 2, chance.randrange(10), chance.randrange(30), chance.randrange(30)))
        calls = chance.randrange(4, 20)
        if kind == "lists_sample":
            play_list(player, chance, ["sample.tbl"], tables, size, calls)
        elif kind == "lists_small":
            play_list(player, chance, [chance.choice(random_names)], tables, size, calls)
        elif kind == "lists_damaged":
            names = [chance.choice(damaged_names), chance.choice(damaged_names), chance.choice(random_names), "sample.tbl"]
            play_list(player, chance, names, tables, size, calls)
        elif kind == "lists_halves":
            name = chance.choice(["sample.tbl", "sample.tbl", *random_names])
            play_list(player, chance, [name], tables, size, calls, HALVES)
        elif kind == "lists_surrogates":
            name = chance.choice(["sample.tbl", "sample.tbl", *random_names])
            play_list(player, chance, [name], tables, size, calls, SURROGATES)
        elif kind == "lists_long":
            play_long_list(player, chance, random_names + ["sample.tbl"], tables)
        elif kind == "lists_fields":
            play_fields(player, chance)
        elif kind == "lists_here":
            play_here(player, chance, [*random_names, "sample.tbl"], damaged_names, tables, size, calls)
        elif kind == "lists_inplace":
            play_in_place(player, chance, random_names + ["sample.tbl"], tables)
        elif kind == "listing_damaged":
            play_listing(player, chance)
        elif kind == "lists_findings":
            play_findings(player, chance, random_names + ["sample.tbl"], damaged_names, tables)
        elif kind == "lists_index":
            play_index(player, chance, random_names + ["sample.tbl"], tables)
        else:
            play_runs(player, chance)
    return player.files()
