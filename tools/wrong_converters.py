"""Wrong converters that the scripts must find out (a module of test_tools.py).

Each is a title, the name of what is replaced in second_converter.py, and what stands there instead. First those that any call on a
whole text may be, then those of a request of document 02.
"""

import re

import second_converter as converter

RIGHT = {name: getattr(converter, name) for name in dir(converter)}


def named(name, wrong_ones):
    """Wrong ones of one function."""
    return tuple((title, name, wrong) for title, wrong in wrong_ones)


def ahead(name, number, later, holds):
    """A function that gives a refusal ahead of others: where the right one is among them, and holds says so of what it is asked."""
    right = RIGHT[name]

    def wrong(*asked):
        refusal = right(*asked)
        return number if refusal in later and holds(*asked) else refusal

    return wrong


def without(name, number):
    """A function that never gives a refusal."""
    return lambda *asked: None if RIGHT[name](*asked) == number else RIGHT[name](*asked)


# ---------------------------------------------------------------------------------------------------------------
# Words, codes and refusals of any call on a whole text
# ---------------------------------------------------------------------------------------------------------------


def wrong_numbers():
    """Readers of a decimal number."""

    def wrapping_number(field):
        value = RIGHT["plain_number"](field)
        if value is None and re.fullmatch(rb"[1-9][0-9]*", field):
            value = int(field[:4000])
        return None if value is None else value % 2**64

    def spare_zeros(field):
        return int(field) if re.fullmatch(rb"[0-9]{1,20}", field) else None

    return named("plain_number", (("numbers wrap at 64 bits", wrapping_number), ("spare zeros are read", spare_zeros)))


def is_lead(table, byte):
    return table.classes[byte] in (2, 6)


def read_as(size_of):
    """The codes of a text, if codes have other sizes: size_of gets the code, the table and its bytes."""

    def wrong(table, text, place):
        while place < len(text):
            second = text[place + 1] if place + 1 < len(text) else None
            code = RIGHT["read_code"](table, text[place], second)
            code = converter.replace(code, size=size_of(code, table, text[place], second))
            yield place, code
            place += code.size

    return wrong


def wrong_readings():
    """Other sizes of codes."""
    return named("codes_from", (
        ("CR 2 is forgotten",
         read_as(lambda code, table, first, second: 2 if is_lead(table, first) and second is not None else code.size)),
        ("any bad second byte is left unread",
         read_as(lambda code, table, first, second: 1 if is_lead(table, first) and code.kind == 4 else code.size)),
        ("an undefined pair is two codes", read_as(lambda code, table, first, second: 1 if code.kind == 2 else code.size)),
        ("only characters have codes of two bytes", read_as(lambda code, table, first, second: code.size if code.kind == 0 else 1)),
        ("every code is one byte", read_as(lambda code, table, first, second: 1)),
        ("a lead at the text's end is a code of two bytes",
         read_as(lambda code, table, first, second: 2 if is_lead(table, first) and second is None else code.size)),
        ("a byte that is never a code takes the next",
         read_as(lambda code, table, first, second: 2 if table.classes[first] in (0, 4) and second is not None else code.size)),
        ("a byte of 80 or more begins a code of two bytes",
         read_as(lambda code, table, first, second: 2 if first >= 0x80 and second is not None else code.size)),
    ))


def wrong_text_refusals():
    """10 and 11."""
    text_refusal = RIGHT["text_refusal"]
    return named("text_refusal", (
        ("11 before 10", ahead("text_refusal", 11, (10,), lambda table, text: len(text) > 65536)),
        ("11 at 65,536 bytes", ahead("text_refusal", 11, (None,), lambda table, text: len(text) == 65536)),
        ("no text is too long", without("text_refusal", 11)),
        ("an empty text asks nothing of the tables", lambda table, text: text_refusal(table, text) if text else None),
        ("page 0 is good", lambda table, text: text_refusal(converter.replace(table, page=table.page or 1), text)),
        ("index and blocks are not asked for",
         lambda table, text: text_refusal(converter.replace(table, index=[0] * 256, blocks=[0] * 256), text)),
    ))


def after(command, change):
    """A console that does something else after a command: change gets the console and the command's words."""

    class Wrong(converter.Console):
        def __init__(self, folders=(".",)):
            super().__init__(folders)
            count, right = self.commands[command]

            def wrong(*words):
                answer = right(*words)
                change(self, words)
                return answer

            self.commands[command] = (count, wrong)

    return Wrong


def give_up_run(console, words):
    console.run = converter.Run("E", console.table.page, (5, 5, 5), None, 0, 0, 0, False)


# ---------------------------------------------------------------------------------------------------------------
# The index of a journal (CR 11)
# ---------------------------------------------------------------------------------------------------------------

BLOCK = 512
FRONT = RIGHT["FIRST_ENTRY"]


def blocks_of(journal):
    return RIGHT["block_count"](len(journal))


def wrong_finders():
    find_call = RIGHT["find_call"]

    def from_block(choose):
        """Reads on from another block: choose gets the counts of the journal's blocks and n, and answers a block or None."""

        def wrong(table, journal, index, number):
            found = find_call(table, journal, index, number)
            if found in (10, 11, 28) or not journal:
                return found
            block = choose([entry.count for entry in index[: blocks_of(journal)]], number)
            # only this block counts at most n
            only = [entry if place == block else converter.Entry(number + 1, False) for place, entry in enumerate(index)]
            return find_call(table, journal, only, number)

        return wrong

    def at_most(counts, number):
        return [block for block, count in enumerate(counts) if count <= number]

    def bisected(counts, number):
        first, behind = 0, len(counts)
        while behind - first > 1:
            middle = (first + behind) // 2
            first, behind = (middle, behind) if counts[middle] <= number else (first, middle)
        return first

    def until_more(counts, number):
        """The blocks are looked at from the front, up to the first that counts more."""
        before = next((block for block, count in enumerate(counts) if count > number), len(counts)) - 1
        return before if before >= 0 else None

    def nearest(counts, number):
        return max(at_most(counts, number), key=lambda block: (counts[block], block), default=None)

    def with_index(change):
        """Finds by another index."""
        return lambda table, journal, index, number: find_call(table, journal, change(index, journal, number), number)

    def with_number(change):
        return lambda table, journal, index, number: find_call(table, journal, index, change(number))

    def answered(change):
        """Another answer where a code is found: change gets its place and length, the journal and the block's number and entry."""

        def wrong(table, journal, index, number):
            found = find_call(table, journal, index, number)
            if isinstance(found, int):
                return found
            block = at_most([entry.count for entry in index[: blocks_of(journal)]], number)[-1]
            changed = change(found[1], found[2], journal, block, index[block])
            return changed if isinstance(changed, int) else ("code", *changed)

        return wrong

    def refused(change):
        """Another number where a call is refused."""

        def wrong(table, journal, index, number):
            found = find_call(table, journal, index, number)
            return change(found, table, journal, index, number) if isinstance(found, int) else found

        return wrong

    def every_entry_asked(table, journal, index, number):
        """Entries behind the journal's last block are asked too."""
        found = find_call(table, journal, index, number)
        behind = [block for block, entry in enumerate(index) if entry.count <= number and BLOCK * block >= len(journal)]
        return found if isinstance(found, int) or not behind else 29

    def last_entry_checked(table, journal, index, number):
        found = find_call(table, journal, index, number)
        last = blocks_of(journal) - 1
        return 28 if found not in (10, 11, 28) and last >= 0 and index[last].count > BLOCK * last else found

    return named("find_call", (
        ("from the first block that counts at most n", from_block(lambda counts, number: min(at_most(counts, number), default=None))),
        ("from a block that counts less than n",
         from_block(lambda counts, number: max(at_most(counts, number - 1), default=0 if counts[0] <= number else None))),
        ("blocks are bisected", from_block(bisected)),
        ("blocks are looked at up to the first that counts more", from_block(until_more)),
        ("from the block that counts most", from_block(nearest)),
        ("from block 0 always", from_block(lambda counts, number: 0)),
        ("from the first of equal counts",
         from_block(lambda counts, number: counts.index(counts[at_most(counts, number)[-1]]) if at_most(counts, number) else None)),
        ("from the block before", from_block(lambda counts, number: max(max(at_most(counts, number), default=0) - 1, 0))),
        ("from block n / 512", from_block(lambda counts, number: min(number // BLOCK, len(counts) - 1))),
        ("the mark is ignored", with_index(lambda index, journal, number: [converter.Entry(entry.count, False) for entry in index])),
        ("every block is marked", with_index(lambda index, journal, number: [converter.Entry(entry.count, True) for entry in index])),
        ("entry 0 is not asked", with_index(lambda index, journal, number: [FRONT, *index[1:]] if index else index)),
        ("the count of entry 0 is not asked",
         with_index(lambda index, journal, number: [converter.Entry(0, index[0].mark), *index[1:]] if index else index)),
        ("the mark of entry 0 is not asked",
         with_index(lambda index, journal, number: [converter.Entry(index[0].count, False), *index[1:]] if index else index)),
        ("an index that is too short is read from the front",
         with_index(lambda index, journal, number: [FRONT] * blocks_of(journal) if len(index) < blocks_of(journal) else index)),
        ("where no block counts at most n, from the front",
         with_index(lambda index, journal, number: index if any(entry.count <= number for entry in index[: blocks_of(journal)])
                    else [FRONT] * len(index))),
        ("counts have 16 bits",
         with_index(lambda index, journal, number: [converter.Entry(entry.count % 2**16, entry.mark) for entry in index])),
        ("n has 16 bits", with_number(lambda number: number % 2**16)),
        ("n has 31 bits", with_number(lambda number: number % 2**31)),
        ("n has 32 bits", with_number(lambda number: number % 2**32)),
        ("n has a sign", with_number(lambda number: number % 2**63)),
        ("codes are counted from 1", with_number(lambda number: max(number - 1, 0))),
        ("the place is counted from the block", answered(lambda place, size, journal, block, entry: (place - BLOCK * block, size))),
        ("the place is the code's last byte", answered(lambda place, size, journal, block, entry: (place + size - 1, size))),
        ("the place is the code's end", answered(lambda place, size, journal, block, entry: (place + size, size))),
        ("the length is always 1", answered(lambda place, size, journal, block, entry: (place, 1))),
        ("reading ends with the block",
         answered(lambda place, size, journal, block, entry: 29 if place >= BLOCK * (block + 1) else (place, size))),
        ("a code across the block's end is not found",
         answered(lambda place, size, journal, block, entry: 29 if place // BLOCK != (place + size - 1) // BLOCK else (place, size))),
        ("the journal's last code is not found",
         answered(lambda place, size, journal, block, entry: 29 if place + size == len(journal) else (place, size))),
        ("29 before 28", refused(lambda found, table, journal, index, number: 29 if found == 28 and number >= len(journal) else found)),
        ("28 before 11", refused(lambda found, table, journal, index, number: 28 if found == 11 and len(index) < 129 else found)),
        ("28 for an empty journal", refused(lambda found, table, journal, index, number: 28 if found == 29 and not journal else found)),
        ("28 for an index that is longer than needed",
         lambda table, journal, index, number: 28 if journal and len(index) > blocks_of(journal)
         else find_call(table, journal, index, number)),
        ("every entry of the index is asked", every_entry_asked),
        ("the last entry's count is checked", last_entry_checked),
        ("n behind the end is the last code",
         refused(lambda found, table, journal, index, number: ("code", len(journal) - 1, 1) if found == 29 and journal else found)),
    ))


def wrong_appenders():
    append_call, entries_behind = RIGHT["append_call"], RIGHT["entries_behind"]

    def accepted(change):
        """Where bytes are appended, something else is done: change gets the index before and after, which it changes."""

        def wrong(table, journal, former, index):
            before = list(index)
            number = append_call(table, journal, former, index)
            if number == 0:
                change(table, journal, former, before, index)
            return number

        return wrong

    def made_anew(table, journal, former, before, index):
        append_call(table, journal, 0, index)

    def from_entry_0(table, journal, former, before, index):
        for block, entry in enumerate(entries_behind(table, journal, 0, index[0]) if journal else [], 1):
            if block >= RIGHT["block_count"](former):
                index[block] = entry

    def last_made_anew(table, journal, former, before, index):
        last = RIGHT["block_count"](former) - 1
        if last >= 0:
            index[last] = entries_behind(table, journal, last - 1, index[last - 1])[0] if last else FRONT

    def rest_cleared(table, journal, former, before, index):
        index[blocks_of(journal) :] = [FRONT] * (len(index) - blocks_of(journal))

    def one_entry_more(table, journal, former, before, index):
        if journal and len(journal) % BLOCK == 0 and blocks_of(journal) < len(index):
            last = blocks_of(journal) - 1
            codes = list(RIGHT["codes_of_block"](table, journal, last, index[last]))
            index[last + 1] = converter.Entry(index[last].count + len(codes), False)

    def full_blocks_only(table, journal, former, before, index):
        if len(journal) % BLOCK and former <= BLOCK * (len(journal) // BLOCK):
            index[len(journal) // BLOCK] = before[len(journal) // BLOCK]

    def nothing_done(table, journal, former, before, index):
        index[:] = before

    def former_block_by_length(table, journal, former, before, index):
        """A former length that ends a block is taken for one of the next block."""
        last = former // BLOCK
        if former and former % BLOCK == 0 and last < blocks_of(journal):
            index[:] = before
            index[last + 1 : blocks_of(journal)] = entries_behind(table, journal, last, before[last])

    def from_former_length(table, journal, former, before, index):
        """Going on reads from the first new byte, not from the block's first."""
        last = RIGHT["block_count"](former) - 1
        if last < 0 or former % BLOCK == 0:
            return
        starts = [place for place, _ in RIGHT["codes_from"](table, journal, former)]
        for block in range(last + 1, blocks_of(journal)):
            count = before[last].count + sum(place < BLOCK * block for place in starts)
            index[block] = converter.Entry(count, index[block].mark)

    def touched_if(numbers, change):
        """A refusal that touches the index."""

        def wrong(table, journal, former, index):
            number = append_call(table, journal, former, index)
            if number in numbers:
                change(table, journal, former, index)
            return number

        return wrong

    def first_cleared(table, journal, former, index):
        index[:1] = [FRONT] * len(index[:1])

    def what_fits(table, journal, former, index):
        """The blocks that the index has room for."""
        return append_call(table, journal[: BLOCK * len(index)], min(former, BLOCK * len(index)), index)

    def short_is_filled(table, journal, former, index):
        number = append_call(table, journal, former, index)
        if number == 28 and len(index) < blocks_of(journal):
            return what_fits(table, journal, former, index)
        return number

    return named("append_call", (
        ("the index is made anew", accepted(made_anew)),
        ("going on from entry 0", accepted(from_entry_0)),
        ("the former last entry is made anew", accepted(last_made_anew)),
        ("entries behind the last are cleared", accepted(rest_cleared)),
        ("a block that is not begun has an entry", accepted(one_entry_more)),
        ("only full blocks have entries", accepted(full_blocks_only)),
        ("nothing is appended", accepted(nothing_done)),
        ("a former length that ends a block is of the next", accepted(former_block_by_length)),
        ("going on reads from the first new byte", accepted(from_former_length)),
        ("33 touches the index", touched_if((33,), first_cleared)),
        ("28 touches the index", touched_if((28,), first_cleared)),
        ("28 fills what there is", touched_if((28,), what_fits)),
        ("an index that is too short is filled and accepted", short_is_filled),
        ("the former length has 32 bits",
         lambda table, journal, former, index: append_call(table, journal, former % 2**32, index)),
        ("the former length has a sign",
         lambda table, journal, former, index: append_call(table, journal, 0 if former >= 2**63 else former, index)),
    ))


def wrong_entries():
    """Other entries, told from a block's."""
    entries_behind, codes_of_block = RIGHT["entries_behind"], RIGHT["codes_of_block"]

    def counted(is_before):
        """Another count: which codes are before a block, by their place, size and the block's begin."""

        def wrong(table, journal, block, entry):
            codes = [(place, code.size) for place, code in codes_of_block(table, journal, block, entry)]
            found = []
            for number, right in enumerate(entries_behind(table, journal, block, entry), block + 1):
                count = sum(is_before(place, size, BLOCK * number) for place, size in codes)
                found.append(converter.Entry(entry.count + count, right.mark))
            return found

        return wrong

    def marked(is_marked):
        """Another mark, by the table, the byte before the block and its first byte, and the right one."""

        def wrong(table, journal, block, entry):
            found = []
            for number, right in enumerate(entries_behind(table, journal, block, entry), block + 1):
                first, second = journal[BLOCK * number - 1 : BLOCK * number + 1]
                found.append(converter.Entry(right.count, is_marked(table, first, second, right.mark)))
            return found

        return wrong

    def gone_on(change):
        """Going on from another entry."""
        return lambda table, journal, block, entry: entries_behind(table, journal, block, change(entry))

    def kind_of(table, first, second):
        return RIGHT["read_code"](table, first, second).kind

    return named("entries_behind", (
        ("a code that starts at the block is counted", counted(lambda place, size, begin: place <= begin)),
        ("a code across the block's end is not counted", counted(lambda place, size, begin: place + size <= begin)),
        ("bytes are counted", counted(lambda place, size, begin: size if place < begin else 0)),
        ("nothing is marked", marked(lambda table, first, second, right: False)),
        ("a block behind a lead is marked", marked(lambda table, first, second, right: is_lead(table, first))),
        ("a block that begins with a byte that may be second is marked",
         marked(lambda table, first, second, right: is_lead(table, first) and table.classes[second] in (4, 5, 6))),
        ("only a character across the end marks a block",
         marked(lambda table, first, second, right: right and kind_of(table, first, second) == 0)),
        ("an invalid code across the end marks no block",
         marked(lambda table, first, second, right: right and kind_of(table, first, second) != 4)),
        ("the mark is of the code that starts at the block", marked(lambda table, first, second, right: is_lead(table, second))),
        ("going on ignores the mark", gone_on(lambda entry: converter.Entry(entry.count, False))),
        ("going on counts from 0", gone_on(lambda entry: converter.Entry(0, entry.mark))),
        ("going on counts the marked code again", gone_on(lambda entry: converter.Entry(entry.count + entry.mark, entry.mark))),
    ))


def wrong_append_refusals():
    append_refusal = RIGHT["append_refusal"]

    def over(index, former, most):
        """Whether the former last entry counts more than most says of its block and the former length."""
        last = RIGHT["block_count"](former) - 1
        return 0 <= last < len(index) and index[last].count > most(last, former)

    def counted(most):
        """28 by another most."""

        def wrong(table, journal, former, index):
            right = append_refusal(table, journal, former, [FRONT] * len(index))
            return 28 if right is None and over(index, former, most) else right

        return wrong

    def first_if(number, later, holds):
        return ahead("append_refusal", number, later, holds)

    def some_entry_over(table, journal, former, index):
        return any(index[block].count > BLOCK * block for block in range(RIGHT["block_count"](former)))

    def former_over(table, journal, former, index):
        return former > len(journal)

    def too_short(table, journal, former, index):
        return len(index) < blocks_of(journal)

    return named("append_refusal", (
        ("28 for as many codes as bytes before", counted(lambda last, former: BLOCK * last - 1 if last else 0)),
        ("28 goes by the former length", counted(lambda last, former: former)),
        ("28 goes by the block's end", counted(lambda last, former: BLOCK * (last + 1))),
        ("the former last entry is not asked", counted(lambda last, former: 2**32)),
        ("entry 0 is not asked", counted(lambda last, former: BLOCK * last if last else 2**32)),
        ("every former entry is asked", first_if(28, (None,), some_entry_over)),
        ("33 for an equal length",
         lambda table, journal, former, index: append_refusal(table, journal, former + 1 if former else 0, index)),
        ("28 before 33", first_if(28, (33,), too_short)),
        ("33 before 11", first_if(33, (11,), former_over)),
        ("28 before 11", first_if(28, (11,), too_short)),
        ("33 before 10", first_if(33, (10,), former_over)),
        ("28 before 10", first_if(28, (10,), too_short)),
        ("nothing new asks nothing", first_if(None, (28,), lambda table, journal, former, index: former == len(journal)
                                              and not too_short(table, journal, former, index))),
    ))


def wrong_index_consoles():
    def fill_index(console, words):
        console.index = [RIGHT["ENTRY_FILL"]] * len(console.index)

    def cut_text(console, words):
        console.byte_text = console.byte_text[: int(words[1])]

    class KeepsTheIndex(converter.Console):
        """A new index has the former one's entries."""

        def do_index(self, size):
            before = self.index
            answer = super().do_index(size)
            self.index[: len(before)] = before[: len(self.index)]
            return answer

    return (
        ("a new text gives up the index", "Console", after(b"bytes", fill_index)),
        ("a new index has the former entries", "Console", KeepsTheIndex),
        ("finding gives up the run in hand", "Console", after(b"find", give_up_run)),
        ("appending cuts the text", "Console", after(b"append", cut_text)),
        ("301 entries are a command", "INDEX_LIMIT", 301),
        ("300 entries are no command", "INDEX_LIMIT", 299),
        ("an entry counts up to 32 bits", "ENTRY_LIMIT", 2**32 - 1),
        ("an entry counts one less", "ENTRY_LIMIT", 2**31 - 2),
        ("blocks of 511 bytes", "BLOCK_SIZE", 511),
        ("blocks of 513 bytes", "BLOCK_SIZE", 513),
        ("blocks of 256 bytes", "BLOCK_SIZE", 256),
        ("there is always one block more", "block_count", lambda size: size // BLOCK + 1),
    )


def wrong_index_converters():
    """The index of a journal (document 02, CR 11)."""
    return (
        *wrong_finders(), *wrong_appenders(), *wrong_entries(), *wrong_append_refusals(), *wrong_index_consoles(), *wrong_readings(),
        *wrong_text_refusals(), *wrong_numbers(),
    )


# ---------------------------------------------------------------------------------------------------------------
# The standard spelling (CR 8)
# ---------------------------------------------------------------------------------------------------------------


def looked_up(table, unit):
    """The bytes that the encoding table has for a unit, surrogate or not; empty if none."""
    code = table.blocks[256 * table.index[unit >> 8] + (unit & 0xFF)]
    return [] if code == 0xFFFF else [code] if code < 0x100 else [code >> 8, code & 0xFF]


def read_back(table, code):
    return RIGHT["read_code"](table, code[0], code[1] if len(code) == 2 else None)


def wrong_own_codes():
    """Other rules for a character's own code."""

    def accepted_if(rule):
        """The code is taken where rule accepts what is read back from it: it gets this code, its bytes and the unit."""

        def wrong(table, unit):
            code = RIGHT["read_unit"](table, unit, None).meaning
            return code if code and rule(read_back(table, code), code, unit) else None

        return wrong

    def second_code(choose):
        """Of all codes of a character one is chosen by another rule."""

        def wrong(table, unit):
            own = RIGHT["own_code"](table, unit)
            if own is None:
                return None
            codes = [[byte] for byte in range(256) if table.classes[byte] in (1, 5) and table.singles[byte] == unit]
            leads = [byte for byte in range(256) if is_lead(table, byte)]
            codes += [[leads[place // 256], place % 256] for place, other in enumerate(table.pairs)
                      if other == unit and table.classes[place % 256] in (4, 5, 6)]
            return choose(codes)

        return wrong

    return named("own_code", (
        ("nothing is read back", accepted_if(lambda back, code, unit: True)),
        ("what is read back has any character", accepted_if(lambda back, code, unit: back.kind == 0)),
        ("what is read back has all bytes", accepted_if(lambda back, code, unit: back.size == len(code))),
        ("what is read back has all bytes and any character",
         accepted_if(lambda back, code, unit: back.kind == 0 and back.size == len(code))),
        ("the first code that is read back is asked only", accepted_if(lambda back, code, unit: back.meaning == [unit])),
        ("a code of two bytes is not read back", accepted_if(lambda back, code, unit: len(code) == 2 or back.meaning == [unit])),
        ("a code of one byte is not read back",
         accepted_if(lambda back, code, unit: len(code) == 1 or (back.size == 2 and back.meaning == [unit]))),
        ("the first code of a character", second_code(min)),
        ("the last code of a character", second_code(max)),
        ("the shortest code of a character", second_code(lambda codes: min(codes, key=len))),
    ))


def wrong_spelled():
    """Other spellings of a code."""
    spelled = RIGHT["spelled"]

    def surrogates_in(which):
        """Surrogates that which asks for are spelled by what the encoding table has, if it reads back."""

        def wrong(table, code):
            if code.kind == 0 and code.meaning[0] in which:
                own = looked_up(table, code.meaning[0])
                return own if own and read_back(table, own).meaning == code.meaning else None
            return spelled(table, code)

        return wrong

    def faults_too(units):
        return lambda table, code: None if code.kind == 0 and code.meaning[0] in units(table) else spelled(table, code)

    def default_for(kinds):
        return lambda table, code: [table.default_byte] if code.kind in kinds else spelled(table, code)

    def default_if_no_code(table, code):
        if code.kind == 0 and not RIGHT["read_unit"](table, code.meaning[0], None).meaning:
            return [table.default_byte]
        return spelled(table, code)

    return named("spelled", (
        ("a surrogate that has a code is accepted", surrogates_in(range(0xD800, 0xE000))),
        ("a high surrogate that has a code is accepted", surrogates_in(range(0xD800, 0xDC00))),
        ("a low surrogate that has a code is accepted", surrogates_in(range(0xDC00, 0xE000))),
        ("D800 is accepted", surrogates_in((0xD800,))),
        ("DBFF is accepted", surrogates_in((0xDBFF,))),
        ("DC00 is accepted", surrogates_in((0xDC00,))),
        ("DFFF is accepted", surrogates_in((0xDFFF,))),
        ("D7FF is a surrogate", faults_too(lambda table: (0xD7FF,))),
        ("E000 is a surrogate", faults_too(lambda table: (0xE000,))),
        ("the default unit is at fault", faults_too(lambda table: (table.default_unit,))),
        ("00 is at fault", faults_too(lambda table: (0,))),
        ("FFFE is at fault", faults_too(lambda table: (0xFFFE,))),
        ("a code without a character is spelled by the default", default_for((1, 2, 4))),
        ("an undefined single is spelled by the default", default_for((1,))),
        ("an undefined pair is spelled by the default", default_for((2,))),
        ("an invalid code is spelled by the default", default_for((4,))),
        ("a character without a code is spelled by the default", default_if_no_code),
        ("a code without a character is left out", lambda table, code: [] if code.kind else spelled(table, code)),
    ))


def code_starts(table, text):
    return [place for place, _ in RIGHT["codes_from"](table, text, 0)]


def wrong_spell_calls():
    spell_call = RIGHT["spell_call"]

    def spelling_of(table, text):
        """The codes of a text as (place, spelling or None)."""
        return [(place, RIGHT["spelled"](table, code)) for place, code in RIGHT["codes_from"](table, text, 0)]

    def fault_at(place_of):
        """Another place of a fault."""

        def wrong(table, text, out):
            answer = spell_call(table, text, out)
            if not isinstance(answer, tuple) or answer[0] == "length":
                return answer
            return ("fault", place_of(table, text, answer[1]))

        return wrong

    def last_fault(table, text, place):
        return [fault for fault, spelling in spelling_of(table, text) if spelling is None][-1]

    def spelling_before(table, text, place):
        return [byte for at, spelling in spelling_of(table, text) if at < place for byte in spelling]

    def with_room(change):
        """The length is asked of otherwise: change gets text, spelling, room and the right answer."""

        def wrong(table, text, out):
            answer = spell_call(table, text, out)
            if answer in (10, 11) or (isinstance(answer, tuple) and answer[0] == "fault"):
                return answer
            spelling = [byte for _, part in spelling_of(table, text) for byte in part]
            if change(len(text), len(spelling), len(out)):
                out[:] = [RIGHT["BYTE_FILL"]] * len(out)
                return 25
            out[: len(spelling)] = spelling[: len(out)]
            return ("length", len(spelling))

        return wrong

    def first_if(number, holds):
        """25, or a fault, is found ahead of the right refusal."""

        def wrong(table, text, out):
            answer = spell_call(table, text, out)
            return number if holds(answer, table, text, out) else answer

        return wrong

    def room_ends(answer, table, text, out):
        """The room ends before the fault."""
        return isinstance(answer, tuple) and answer[0] == "fault" and len(spelling_before(table, text, answer[1])) > len(out)

    def limit_ends(answer, table, text, out):
        return isinstance(answer, tuple) and answer[0] == "fault" and len(spelling_before(table, text, answer[1])) > 65536

    def touched(numbers, change):
        """A call that touches more than it should: numbers are refusals, 'fault' or 'length'."""

        def wrong(table, text, out):
            answer = spell_call(table, text, out)
            if (answer if isinstance(answer, int) else answer[0]) in numbers:
                change(table, text, answer, out)
            return answer

        return wrong

    def written_before(table, text, answer, out):
        part = spelling_before(table, text, answer[1] if isinstance(answer, tuple) else len(text))
        out[: len(part)] = part[: len(out)]

    def cleared_behind(table, text, answer, out):
        out[answer[1] :] = [0] * (len(out) - answer[1])

    def zero_behind(table, text, answer, out):
        out[answer[1] : answer[1] + 1] = [0] * len(out[answer[1] : answer[1] + 1])

    def own_spelling(table, text, out):
        answer = spell_call(table, text, list(out))
        if not isinstance(answer, tuple) or answer[0] == "fault" or len(text) > len(out):
            return answer
        out[: len(text)] = text
        return ("length", len(text))

    return named("spell_call", (
        ("an accepted text is its own spelling", own_spelling),
        ("the place counts codes", fault_at(lambda table, text, place: code_starts(table, text).index(place))),
        ("the place is counted in the spelling", fault_at(lambda table, text, place: len(spelling_before(table, text, place)))),
        ("the place is the code's end", fault_at(lambda table, text, place: [*code_starts(table, text), len(text)][
            code_starts(table, text).index(place) + 1])),
        ("the place is counted from 1", fault_at(lambda table, text, place: place + 1)),
        ("the last fault is told", fault_at(last_fault)),
        ("the place is always 0", fault_at(lambda table, text, place: 0)),
        ("the limit is the room only", with_room(lambda size, length, room: length > room)),
        ("the limit is 65,535", with_room(lambda size, length, room: length > room or length > 65535)),
        ("the spelling must leave a byte of room", with_room(lambda size, length, room: length >= room and length > 0)),
        ("the room goes by the text", with_room(lambda size, length, room: max(size, length) > room or length > 65536)),
        ("the room goes by the text only", with_room(lambda size, length, room: size > room or length > 65536)),
        ("a longer spelling is too long", with_room(lambda size, length, room: length > size or length > room)),
        ("an empty spelling needs room", with_room(lambda size, length, room: length > min(room, 65536) or room == 0)),
        ("25 where the room ends before the fault", first_if(25, room_ends)),
        ("25 where the limit is passed before the fault", first_if(25, limit_ends)),
        ("24 before 11", first_if(("fault", 0), lambda answer, table, text, out: answer == 11 and RIGHT["spelled"](
            table, RIGHT["read_code"](table, text[0], text[1])) is None)),
        ("25 before 11", first_if(25, lambda answer, table, text, out: answer == 11)),
        ("25 before 10", first_if(25, lambda answer, table, text, out: answer == 10 and len(text) > len(out))),
        ("the spelling is written up to the fault", touched(("fault",), written_before)),
        ("the spelling is written up to the room's end", touched((25,), written_before)),
        ("the room behind the spelling is cleared", touched(("length",), cleared_behind)),
        ("a zero ends the spelling", touched(("length",), zero_behind)),
    ))


def wrong_spell_consoles():
    class CountsFromTheWhole(converter.Console):
        """The place of a fault is counted from the beginning of the whole text."""

        def do_spell(self, start, count, room):
            words = super().do_spell(start, count, room).split(" ")
            return " ".join([*words[:2], str(int(words[2]) + int(start)), *words[3:]]) if words[1:2] == ["24"] else " ".join(words)

    class TakesTheSpelling(converter.Console):
        """The spelling is the byte text from then on."""

        def do_spell(self, start, count, room):
            words = super().do_spell(start, count, room).split(" ")
            if words[1:2] == ["0"]:
                self.byte_text = RIGHT["hex_word"](words[3].encode("ascii"), 2)
            return " ".join(words)

    return (
        ("the place is counted from the whole text's beginning", "Console", CountsFromTheWhole),
        ("the spelling becomes the text", "Console", TakesTheSpelling),
        ("spelling gives up the run in hand", "Console", after(b"spell", give_up_run)),
        ("140,001 bytes of room are a command", "BYTES_ROOM_LIMIT", 140001),
        ("140,000 bytes of room are no command", "BYTES_ROOM_LIMIT", 139999),
    )


def wrong_spell_converters():
    """The standard spelling (document 02, CR 8). What is no character is at fault, whatever its size; index and blocks are needed."""
    return (
        *wrong_own_codes(), *wrong_spelled(), *wrong_spell_calls(), *wrong_spell_consoles(),
        ("every code is one byte", "codes_from", read_as(lambda code, table, first, second: 1)), *wrong_text_refusals()[:-1],
        *wrong_numbers(),
    )


# ---------------------------------------------------------------------------------------------------------------
# Encoding in one buffer (CR 9)
# ---------------------------------------------------------------------------------------------------------------


def wrong_in_place_calls():
    in_place_call = RIGHT["in_place_call"]

    def with_buffer(change):
        """The bytes of the buffer are read otherwise."""

        def wrong(digits, table, buffer):
            other = change(list(buffer))
            taken = in_place_call(digits, table, other)
            if not isinstance(taken, int):
                buffer[: len(taken.output)] = taken.output[: len(buffer)]
            return taken

        return wrong

    def high_first(buffer):
        return [byte for low, high in zip(buffer[0::2], buffer[1::2]) for byte in (high, low)] + buffer[len(buffer) // 2 * 2 :]

    def answered(change):
        """Where it is accepted, something else is answered or done: change gets what was taken, the buffer before and after."""

        def wrong(digits, table, buffer):
            before = list(buffer)
            taken = in_place_call(digits, table, buffer)
            return taken if isinstance(taken, int) else change(taken, before, buffer) or taken

        return wrong

    def behind(size_of, value):
        """Bytes beyond the result are set."""

        def change(taken, before, buffer):
            first = len(taken.output)
            size = len(buffer[first : first + size_of(taken, buffer)])
            buffer[first : first + size] = [value] * size

        return answered(change)

    def stop_leaves_all(taken, before, buffer):
        if taken.number == 3:
            buffer[:] = before

    def stop_writes_nothing(taken, before, buffer):
        if taken.number == 3:
            buffer[:] = before
            return converter.replace(taken, output=[])
        return None

    def stop_reads(change):
        return answered(lambda taken, before, buffer: converter.replace(taken, read=change(taken, before)) if taken.number == 3 else None)

    def stop_flags(change):
        return answered(lambda taken, before, buffer: converter.replace(taken, flags=change(taken.flags)) if taken.number == 3 else None)

    def end_at_back(taken, before, buffer):
        """The result stands at the buffer's end."""
        size = len(taken.output)
        buffer[:] = before[: len(before) - size] + taken.output

    def as_words(taken, before, buffer):
        """Each byte of the result has two bytes of the buffer."""
        words = [byte for code in taken.output for byte in (code, 0)]
        buffer[: len(words)] = words[: len(buffer)]

    def with_room(room_of):
        """The room ends: what fits is taken, with the answer 2."""

        def wrong(digits, table, buffer):
            taken = in_place_call(digits, table, list(buffer))
            if isinstance(taken, int):
                return taken
            units = [low + 256 * high for low, high in zip(buffer[0::2], buffer[1::2])]
            taken = RIGHT["take_codes"]("E", table, digits, None, units, True, room_of(len(buffer)))
            buffer[: len(taken.output)] = taken.output
            return taken

        return wrong

    def each_alone(digits, table, buffer):
        """The unit behind is not looked at: each unit is a text of its own."""
        taken = in_place_call(digits, table, list(buffer))
        if isinstance(taken, int):
            return taken
        whole = RIGHT["Taken"](0, 0, [], 0, None)
        for place in range(0, len(buffer), 2):
            part = in_place_call(digits, table, buffer[place : place + 2])
            whole = RIGHT["Taken"](part.number, whole.read + 1, whole.output + part.output, whole.flags | part.flags, None)
            if part.number == 3:
                break
        buffer[: len(whole.output)] = whole.output
        return whole

    def result_first(digits, table, buffer):
        """A unit that is looked at ahead has what the code in front of it has written over it: two bytes a code."""
        taken = in_place_call(digits, table, list(buffer))
        if isinstance(taken, int):
            return taken
        place, whole = 0, RIGHT["Taken"](0, 0, [], 0, None)
        while 2 * place < len(buffer):
            rest = buffer[2 * place :]
            if whole.output and len(whole.output) == 2 * place:
                rest[0] = whole.output[-1]
            units = [low + 256 * high for low, high in zip(rest[0::2], rest[1::2])]
            code = RIGHT["read_unit"](table, units[0], units[1] if len(units) > 1 else None)
            part = RIGHT["take_codes"]("E", table, digits, None, units[: code.size], True, 2)
            whole = RIGHT["Taken"](part.number, place + code.size, whole.output + part.output, whole.flags | part.flags, None)
            place += code.size
            if part.number == 3:
                break
        buffer[: len(whole.output)] = whole.output
        return whole

    def refusal_touches(digits, table, buffer):
        taken = in_place_call(digits, table, buffer)
        if isinstance(taken, int) and buffer:
            buffer[0] ^= 1
        return taken

    return named("in_place_call", (
        ("the high byte is first", with_buffer(high_first)),
        ("the buffer is read from its second byte", with_buffer(lambda buffer: buffer[1:] + buffer[:1])),
        ("only the low bytes are read", with_buffer(lambda buffer: [0 if place % 2 else byte for place, byte in enumerate(buffer)])),
        ("the last unit is not read", with_buffer(lambda buffer: buffer[:-2] if len(buffer) % 2 == 0 and len(buffer) < 131073 else buffer)),
        ("a zero unit ends the text", with_buffer(lambda buffer: buffer[: next(
            (place for place in range(0, len(buffer) - 1, 2) if buffer[place] == buffer[place + 1] == 0), len(buffer))])),
        ("an odd byte is left alone", with_buffer(lambda buffer: buffer[: len(buffer) // 2 * 2])),
        ("all behind the result is cleared", behind(lambda taken, buffer: len(buffer), 0)),
        ("a zero ends the result", behind(lambda taken, buffer: 1, 0)),
        ("a code of one byte is written with its high half", behind(lambda taken, buffer: 1 if taken.output else 0, 0)),
        ("what was read is cleared", behind(lambda taken, buffer: 2 * taken.read - len(taken.output), 0)),
        ("what is behind the result is filled with blanks", behind(lambda taken, buffer: len(buffer), 0x20)),
        ("a stop leaves the buffer as it was", answered(stop_leaves_all)),
        ("a stop writes nothing", answered(stop_writes_nothing)),
        ("a stop does not read its code", stop_reads(lambda taken, before: taken.read - 1)),
        ("a stop reads all", stop_reads(lambda taken, before: len(before) // 2)),
        ("a stop does not set flag 8", stop_flags(lambda flags: flags - 8)),
        ("a stop does not set its code's flag", stop_flags(lambda flags: 8)),
        ("what was read is counted in bytes", answered(lambda taken, before, buffer: converter.replace(taken, read=2 * taken.read))),
        ("the result stands at the end", answered(end_at_back)),
        ("each byte of the result has two bytes", answered(as_words)),
        ("room for one byte a unit", with_room(lambda size: size // 2)),
        ("room for one byte less than the buffer", with_room(lambda size: max(size - 1, 0))),
        ("the unit behind is not looked at", each_alone),
        ("a unit is read after it was written over", result_first),
        ("a refusal touches the buffer", refusal_touches),
    ))


def wrong_in_place_refusals():
    in_place_refusal = RIGHT["in_place_refusal"]

    def first_if(number, later, holds):
        return ahead("in_place_refusal", number, later, holds)

    def odd(digits, table, buffer):
        return len(buffer) % 2 == 1

    def too_long(digits, table, buffer):
        return len(buffer) // 2 > 65536

    def bad(digits, table, buffer):
        return not RIGHT["shape_is_good"](table)

    return named("in_place_refusal", (
        ("10 before 17", first_if(10, (17,), bad)),
        ("26 before 17", first_if(26, (17,), odd)),
        ("11 before 17", first_if(11, (17,), too_long)),
        ("26 before 10", first_if(26, (10,), odd)),
        ("11 before 10", first_if(11, (10,), too_long)),
        ("11 before 26", first_if(11, (26,), lambda digits, table, buffer: len(buffer) > 131072)),
        ("11 before 26, by whole units", first_if(11, (26,), too_long)),
        ("11 by bytes", first_if(11, (None,), lambda digits, table, buffer: len(buffer) > 65536)),
        ("11 at 65,536 units", first_if(11, (None,), lambda digits, table, buffer: len(buffer) == 131072)),
        ("no buffer is too long", without("in_place_refusal", 11)),
        ("26 for an empty buffer", first_if(26, (None,), lambda digits, table, buffer: not buffer)),
        ("an empty buffer asks nothing", lambda digits, table, buffer: in_place_refusal(digits, table, buffer) if buffer else None),
        ("17 by the rule of decoding", lambda digits, table, buffer: in_place_refusal((5 if digits[0] == 6 else digits[0], *digits[1:]),
                                                                                     table, buffer)),
        ("17 by the first digit only", lambda digits, table, buffer: in_place_refusal((digits[0], 5, 5), table, buffer)),
        ("17 not by the second digit", lambda digits, table, buffer: in_place_refusal((digits[0], 5, digits[2]), table, buffer)),
        ("page 0 is good", lambda digits, table, buffer: in_place_refusal(digits, converter.replace(table, page=table.page or 1), buffer)),
        ("classes and pairs are not asked for", lambda digits, table, buffer: in_place_refusal(
            digits, converter.replace(table, classes=[0] * 256, pairs=[]), buffer)),
    ))


def wrong_in_place_converters():
    """Encoding in one buffer (document 02, CR 9)."""

    def give_up_units(console, words):
        console.unit_text = []

    return (
        *wrong_in_place_calls(), *wrong_in_place_refusals(), ("the unit text is given up", "Console", after(b"inplace", give_up_units)),
        ("the run in hand is given up", "Console", after(b"inplace", give_up_run)),
        ("140,001 bytes are a command", "BYTES_ROOM_LIMIT", 140001),
        ("140,000 bytes are no command", "BYTES_ROOM_LIMIT", 139999), *wrong_numbers(),
    )


# ---------------------------------------------------------------------------------------------------------------
# A record updated where it stands (CR 13)
# ---------------------------------------------------------------------------------------------------------------


def wrong_here_calls():
    run_call, run_call_here = RIGHT["run_call"], RIGHT["run_call_here"]

    def stored(change):
        """What is stored: change gets the run before, the outcome and the piece, and answers the record after the call."""

        def wrong(direction, record, table, piece, last, out):
            before = record[0]
            outcome = run_call(direction, before, table, piece, last, out)
            record[0] = change(before, outcome, piece)
            return outcome.number, outcome.read, outcome.written

        return wrong

    def stored_if(which):
        return stored(lambda before, outcome, piece: outcome.run if which(before, outcome) else before)

    def accepted_as(change):
        """An accepted call stores the new run with a field changed: change gets the runs before and after."""
        return stored(lambda before, outcome, piece: converter.replace(outcome.run, **change(before, outcome.run))
                      if outcome.number < 10 else before)

    def refused_as(change, numbers=range(10, 17)):
        """A refused call stores something: change gets the run before."""
        return stored(lambda before, outcome, piece: converter.replace(before, **change(before))
                      if outcome.number in numbers else outcome.run)

    def asked_as(change):
        """The call is made with another mark, piece or output."""

        def wrong(direction, record, table, piece, last, out):
            piece, last, lent = change(piece, last, out)
            answer = run_call_here(direction, record, table, piece, last, lent)
            out[: len(lent)] = lent
            return answer

        return wrong

    def with_record(change):
        """The call is made on another record."""
        return lambda direction, record, table, *rest: run_call_here(direction, change(record, direction, table), table, *rest)

    def other_direction(record, direction, table):
        record[0] = converter.replace(record[0], direction=direction)
        return record

    def own_page(record, direction, table):
        record[0] = converter.replace(record[0], page=table.page)
        return record

    def rest_cleared(direction, record, table, piece, last, out):
        answer = run_call_here(direction, record, table, piece, last, out)
        out[answer[2] :] = [0] * (len(out) - answer[2])
        return answer

    def low_bits(run, bits):
        return {"read": run.read % 2**bits, "written": run.written % 2**bits}

    return named("run_call_here", (
        ("nothing is stored", stored_if(lambda before, outcome: False)),
        ("a stop is not stored", stored_if(lambda before, outcome: outcome.number != 3)),
        ("only what is all read is stored", stored_if(lambda before, outcome: outcome.number == 0)),
        ("what does not fit is not stored", stored_if(lambda before, outcome: outcome.number != 2)),
        ("what is carried is not stored", stored_if(lambda before, outcome: outcome.number != 1)),
        ("a call that reads nothing is not stored", stored_if(lambda before, outcome: outcome.read > 0)),
        ("a call that reads and writes nothing is not stored", stored_if(lambda before, outcome: outcome.read + outcome.written > 0)),
        ("a call that writes nothing is not stored", stored_if(lambda before, outcome: outcome.written > 0)),
        ("the end is not stored", accepted_as(lambda before, run: {"ended": before.ended})),
        ("the carried one is not stored", accepted_as(lambda before, run: {"carried": before.carried})),
        ("the carried one is dropped", accepted_as(lambda before, run: {"carried": None})),
        ("a settled one stays carried",
         accepted_as(lambda before, run: {"carried": run.carried if before.carried is None else before.carried})),
        ("flags are not stored", accepted_as(lambda before, run: {"flags": before.flags})),
        ("flags are those of the call", accepted_as(lambda before, run: {"flags": run.flags & ~before.flags})),
        ("flag 8 is not stored", accepted_as(lambda before, run: {"flags": run.flags & 7})),
        ("the read total is not stored", accepted_as(lambda before, run: {"read": before.read})),
        ("the read total is that of the call", accepted_as(lambda before, run: {"read": run.read - before.read})),
        ("the written total is not stored", accepted_as(lambda before, run: {"written": before.written})),
        ("the written total is that of the call", accepted_as(lambda before, run: {"written": run.written - before.written})),
        ("digits are the standard's", accepted_as(lambda before, run: {"digits": (5, 5, 0)})),
        ("the whole piece is counted as read",
         stored(lambda before, outcome, piece: converter.replace(outcome.run, read=before.read + len(piece))
                if outcome.number < 10 else before)),
        ("a refusal ends the run", refused_as(lambda run: {"ended": True})),
        ("a refusal sets flag 8", refused_as(lambda run: {"flags": run.flags | 8})),
        ("a refusal drops what is carried", refused_as(lambda run: {"carried": None})),
        ("a refusal clears the flags", refused_as(lambda run: {"flags": 0})),
        ("a refusal clears the totals", refused_as(lambda run: {"read": 0, "written": 0})),
        ("a refusal clears the digits", refused_as(lambda run: {"digits": (0, 0, 0)})),
        ("a refusal sets the page of the call", refused_as(lambda run: {"page": 7})),
        ("a refusal cuts the flags to what is allowed", refused_as(lambda run: {"flags": run.flags & 15})),
        ("a refusal cuts the totals to 32 bits", refused_as(lambda run: low_bits(run, 32))),
        ("a refusal cuts the totals to 63 bits", refused_as(lambda run: low_bits(run, 63))),
        ("a refusal cuts the digits to what is allowed",
         refused_as(lambda run: {"digits": tuple(min(digit, 9) for digit in run.digits)})),
        *((f"the refusal {number} ends the run", refused_as(lambda run: {"ended": not run.ended}, (number,))) for number in range(10, 17)),
        ("every call is marked last", asked_as(lambda piece, last, out: (piece, True, out))),
        ("no call is marked last", asked_as(lambda piece, last, out: (piece, False, out))),
        ("one place of the room is not used", asked_as(lambda piece, last, out: (piece, last, out[:-1]))),
        ("a call on an empty piece does nothing", lambda direction, record, table, piece, last, out:
         run_call_here(direction, record if piece else list(record), table, piece, last, out)),
        ("a run of the other direction is taken", with_record(other_direction)),
        ("a run of another page is taken", with_record(own_page)),
        ("the call is made on a copy", with_record(lambda record, direction, table: list(record))),
        ("the rest of the output is cleared", rest_cleared),
    ))


def wrong_here_consoles():
    class RecordApart(converter.Console):
        """The form on a record has a record of its own, which `start`, `run` and `load` do not set."""

        apart = None

        def where_it_stands(self, direction, piece, last, out):
            before, self.run = self.run, self.apart or self.run
            answer = super().where_it_stands(direction, piece, last, out)
            self.apart, self.run = self.run, before
            return answer

    class RecordSetByTheOtherForm(converter.Console):
        """What the form on a record leaves is not seen by the other form."""

        hidden = None

        def by_value(self, direction, piece, last, out):
            self.run = self.hidden or self.run
            return super().by_value(direction, piece, last, out)

        def where_it_stands(self, direction, piece, last, out):
            self.hidden = self.run
            return super().where_it_stands(direction, piece, last, out)

    class NamesTheOther(converter.Console):
        def do_decodehere(self, *words):
            return super().do_decode(*words)

    class OneDirection(converter.Console):
        """encodehere is the form by value."""

        def do_encodehere(self, *words):
            before = self.run
            answer = super().do_encodehere(*words)
            self.run = before
            return answer

    return tuple((title, "Console", wrong) for title, wrong in (
        ("the record is not the run in hand", RecordApart),
        ("the form by value does not see the record", RecordSetByTheOtherForm),
        ("the answer has the other form's name", NamesTheOther),
        ("encodehere leaves the record alone behind its answer", OneDirection),
        ("decodehere gives up the text", after(b"decodehere", lambda console, words: console.byte_text.clear())),
    ))


def wrong_here_converters():
    """A record updated where it stands (document 02, CR 13)."""
    return (
        *wrong_here_calls(), *wrong_here_consoles(), ("66,001 units of room are a command", "UNITS_ROOM_LIMIT", 66001),
        ("66,000 units of room are no command", "UNITS_ROOM_LIMIT", 65999),
        ("140,001 bytes of room are a command", "BYTES_ROOM_LIMIT", 140001),
        ("140,000 bytes of room are no command", "BYTES_ROOM_LIMIT", 139999), *wrong_numbers(),
    )


# ---------------------------------------------------------------------------------------------------------------
# Findings (CR 7)
# ---------------------------------------------------------------------------------------------------------------


def wrong_findings():
    """Which codes are findings, and what each says."""
    findings_of = RIGHT["findings_of"]

    def each(change):
        """Each finding says something else: change gets it, the digits, the table and the text."""

        def wrong(digits, table, text):
            return [change(finding, digits, table, text) for finding in findings_of(digits, table, text)]

        return wrong

    def field(name, value_of):
        return each(lambda finding, digits, table, text: converter.replace(finding, **{name: value_of(finding, digits, table, text)}))

    def only(keep):
        """Some codes are no findings."""
        return lambda digits, table, text: [finding for finding in findings_of(digits, table, text) if keep(finding)]

    def stopping_at(stops):
        """The reading ends behind the first finding of which this holds."""

        def wrong(digits, table, text):
            found = []
            for finding in findings_of((5, 5, 5), table, text):
                finding = converter.replace(finding, digit=RIGHT["digit_for"](digits, finding.kind))
                found.append(finding)
                if stops(finding, digits):
                    break
            return found

        return wrong

    def ends_before_stop(digits, table, text):
        found = findings_of(digits, table, text)
        return found[:-1] if found and found[-1].digit == 0 else found

    def code_number(finding, digits, table, text):
        return [place for place, _ in RIGHT["codes_from"](table, text, 0)].index(finding.place)

    def two_bytes(finding, digits, table, text):
        return tuple((*text[finding.place : finding.place + 2], 0)[:2])

    def default_is_none(digits, table, text):
        """A character equal to the default unit is a finding too."""
        found = []
        for place, code in RIGHT["codes_from"](table, text, 0):
            kind = code.size if code.meaning == [table.default_unit] else code.kind
            if kind:
                digit = RIGHT["digit_for"](digits, kind)
                found.append(converter.Finding(place, kind, tuple(text[place : place + code.size]), digit))
                if digit == 0:
                    break
        return found

    def each_byte(digits, table, text):
        """A code of two bytes is told byte by byte."""
        return [converter.Finding(finding.place + number, finding.kind, (byte,), finding.digit)
                for finding in findings_of(digits, table, text) for number, byte in enumerate(finding.code)]

    def once(digits, table, text):
        seen = {}
        for finding in findings_of(digits, table, text):
            seen.setdefault(finding.code, finding)
        return list(seen.values())

    def runs_joined(digits, table, text):
        """Findings of one kind, one behind the other, are told once."""
        found = []
        for finding in findings_of(digits, table, text):
            if not (found and found[-1][1] == finding.place and found[-1][0].kind == finding.kind):
                found.append([finding, 0])
            found[-1][1] = finding.place + len(finding.code)
        return [finding for finding, _ in found]

    def told_with_the_next(digits, table, text):
        """A lead is told with the byte behind it that may not be second, and that is read afresh."""
        return [converter.replace(finding, code=two_bytes(finding, digits, table, text))
                if finding.kind == 4 and table.classes[finding.code[0]] in (2, 6) and finding.place + 1 < len(text) else finding
                for finding in findings_of(digits, table, text)]

    digits_of = {
        "the digit is always the third": lambda finding, digits, table, text: digits[2],
        "the digit is always the first": lambda finding, digits, table, text: digits[0],
        "the digit of a pair is that of a single": lambda finding, digits, table, text: digits[{1: 0, 2: 0, 4: 2}[finding.kind]],
        "the digit of a pair is that of an invalid code": lambda finding, digits, table, text: digits[{1: 0, 2: 2, 4: 2}[finding.kind]],
        "the digit is that of the code's size": lambda finding, digits, table, text: digits[len(finding.code) - 1],
        "6 is told as 5": lambda finding, digits, table, text: min(finding.digit, 5),
        "the digit is what it writes": lambda finding, digits, table, text: {0: 0, 1: 0}.get(finding.digit, 1),
    }
    places_of = {
        "the place of the last byte": lambda finding, digits, table, text: finding.place + len(finding.code) - 1,
        "the place behind the code": lambda finding, digits, table, text: finding.place + len(finding.code),
        "the place from 1": lambda finding, digits, table, text: finding.place + 1,
        "the place counted in codes": code_number,
        "the place in a byte": lambda finding, digits, table, text: finding.place % 256,
        "the place from the end": lambda finding, digits, table, text: len(text) - finding.place,
    }
    codes_of = {
        "always two bytes": two_bytes,
        "always two bytes, the second of one is 0": lambda finding, digits, table, text: (*finding.code, 0)[:2],
        "the first byte only": lambda finding, digits, table, text: finding.code[:1],
        "the second byte first": lambda finding, digits, table, text: finding.code[::-1],
        "a lead at the end has a second byte 0": lambda finding, digits, table, text: (
            (*finding.code, 0) if finding.kind == 4 and finding.place + 1 == len(text) and table.classes[finding.code[0]] in (2, 6)
            else finding.code),
    }
    kinds_of = {
        "the kind by its number": lambda finding, digits, table, text: {1: 1, 2: 2, 4: 3}[finding.kind],
        "an undefined pair is invalid": lambda finding, digits, table, text: {1: 1, 2: 4, 4: 4}[finding.kind],
        "an undefined pair is an undefined single": lambda finding, digits, table, text: {1: 1, 2: 1, 4: 4}[finding.kind],
        "an invalid code of two bytes is an undefined pair":
            lambda finding, digits, table, text: 2 if len(finding.code) == 2 else finding.kind,
        "a stop's kind has flag 8": lambda finding, digits, table, text: finding.kind + (8 if finding.digit == 0 else 0),
        "a lead alone is an undefined single":
            lambda finding, digits, table, text: 1 if finding.kind == 4 and table.classes[finding.code[0]] in (2, 6)
            and len(finding.code) == 1 else finding.kind,
    }
    return named("findings_of", (
        *((title, field("digit", value_of)) for title, value_of in digits_of.items()),
        *((title, field("place", value_of)) for title, value_of in places_of.items()),
        *((title, field("code", value_of)) for title, value_of in codes_of.items()),
        *((title, field("kind", value_of)) for title, value_of in kinds_of.items()),
        ("a stop is no finding", ends_before_stop),
        ("nothing stops", stopping_at(lambda finding, digits: False)),
        ("the first finding stops, if a digit is 0", stopping_at(lambda finding, digits: 0 in digits)),
        ("what is skipped stops", stopping_at(lambda finding, digits: finding.digit < 2)),
        ("the third digit alone stops", stopping_at(lambda finding, digits: digits[2] == 0 and finding.kind == 4)),
        ("the third digit stops every kind", stopping_at(lambda finding, digits: digits[2] == 0)),
        ("what is skipped is no finding", only(lambda finding: finding.digit != 1)),
        ("what is replaced is no finding", only(lambda finding: finding.digit < 2)),
        ("undefined singles are no findings", only(lambda finding: finding.kind != 1)),
        ("undefined pairs are no findings", only(lambda finding: finding.kind != 2)),
        ("invalid codes are no findings", only(lambda finding: finding.kind != 4)),
        ("a finding at place 0 is none", only(lambda finding: finding.place > 0)),
        ("the last byte is not looked at",
         lambda digits, table, text: [finding for finding in findings_of(digits, table, text) if finding.place + 1 < len(text)]),
        ("a byte that a digit replaces by itself is no finding", only(lambda finding: finding.digit != 6)),
        ("a code of two bytes is two findings", each_byte),
        ("a code is told once", once),
        ("findings of one kind side by side are one", runs_joined),
        ("a bad half is told with the byte behind it", told_with_the_next),
        ("a character equal to the default is a finding", default_is_none),
        ("the last finding is first", lambda digits, table, text: findings_of(digits, table, text)[::-1]),
        ("findings in order of kind",
         lambda digits, table, text: sorted(findings_of(digits, table, text), key=lambda finding: finding.kind)),
        ("the table of the sample page is asked", lambda digits, table, text: findings_of(digits, converter.replace(
            table, classes=[5 if 0x40 <= byte < 0x7F else 1 if byte <= 0x80 or byte == 0xA0 else 2 if byte in (0x81, 0x82) else 0
                            for byte in range(256)], pairs=(table.pairs + [0xFFFF] * 512)[:512]), text)),
    ))


def wrong_findings_calls():
    """The list, and the numbers that are reported."""
    findings_call, findings_of = RIGHT["findings_call"], RIGHT["findings_of"]
    empty = RIGHT["FINDING_FILL"]

    def answered(change):
        """Where it is accepted, the list is filled otherwise, or other numbers are told: change gets all findings and the list."""

        def wrong(digits, table, text, out):
            right = findings_call(digits, table, text, list(out))
            if isinstance(right, int):
                return right
            found = findings_of(digits, table, text)
            numbers = change(found, out)
            return ("findings", *numbers)

        return wrong

    def fill(out, entries, first=0):
        entries = entries[: max(len(out) - first, 0)]
        out[first : first + len(entries)] = entries
        return len(entries)

    def numbers(total_of, filled_of=lambda found, filled: filled):
        def change(found, out):
            filled = fill(out, found)
            return total_of(found, filled), filled_of(found, filled)

        return answered(change)

    def last_ones(found, out):
        """The list has the last findings."""
        return len(found), fill(out, found[-len(out) :] if out else [])

    def last_place_again(found, out):
        """What does not fit is written over the last entry."""
        filled = fill(out, found)
        if out and len(found) > len(out):
            out[-1] = found[-1]
        return len(found), filled

    def one_place_free(found, out):
        return len(found), fill(out, found[: max(len(out) - 1, 0)])

    def at_the_end(found, out):
        filled = found[: len(out)]
        out[len(out) - len(filled) :] = filled
        return len(found), len(filled)

    def closed(found, out):
        """An entry of zeros behind the last."""
        filled = fill(out, found)
        if filled < len(out):
            out[filled] = converter.Finding(0, 0, (), 0)
        return len(found), filled

    def cleared(found, out):
        filled = fill(out, found)
        out[filled:] = [converter.Finding(0, 0, (), 0)] * (len(out) - filled)
        return len(found), filled

    def a_field_cleared(name, value):
        """One field of the entry behind the last is touched."""

        def change(found, out):
            filled = fill(out, found)
            if filled < len(out):
                out[filled] = converter.replace(empty, **{name: value})
            return len(found), filled

        return answered(change)

    def full_list_is_refused(digits, table, text, out):
        answer = findings_call(digits, table, text, list(out))
        if not isinstance(answer, int) and answer[1] > len(out):
            return 11
        return findings_call(digits, table, text, out)

    def refusal_touches(digits, table, text, out):
        answer = findings_call(digits, table, text, out)
        if isinstance(answer, int) and out:
            out[0] = converter.Finding(0, 0, (), 0)
        return answer

    def second_byte_kept(found, out):
        """The second place of a code of one byte keeps what stood there, and is told."""
        filled = fill(out, [converter.replace(finding, code=(*finding.code, 0xEE)[:2]) for finding in found])
        return len(found), filled

    return named("findings_call", (
        ("the number of filled entries for the true number", numbers(lambda found, filled: filled)),
        ("the true number for the number of filled entries", numbers(lambda found, filled: len(found), lambda found, filled: len(found))),
        ("one entry more than the list is counted", numbers(lambda found, filled: min(len(found), filled + 1))),
        ("at most 300 are counted", numbers(lambda found, filled: min(len(found), 300))),
        ("the number in 15 bits", numbers(lambda found, filled: len(found) % 32768)),
        ("the number in 16 bits", numbers(lambda found, filled: len(found) % 65536)),
        ("a stop is not counted", numbers(lambda found, filled: len([finding for finding in found if finding.digit != 0]))),
        ("different codes are counted", numbers(lambda found, filled: len({finding.code for finding in found}))),
        ("bytes are counted", numbers(lambda found, filled: sum(len(finding.code) for finding in found))),
        ("an empty list counts nothing", answered(lambda found, out: (len(found) if out else 0, fill(out, found)))),
        ("the list has the last findings", answered(last_ones)),
        ("the last entry is written over", answered(last_place_again)),
        ("the last entry is left free", answered(one_place_free)),
        ("the list is filled at its end", answered(at_the_end)),
        ("the list is filled from its second entry", answered(lambda found, out: (len(found), fill(out, found, 1)))),
        ("an entry closes the list", answered(closed)),
        ("all behind the findings is cleared", answered(cleared)),
        ("the place behind the last is touched", a_field_cleared("place", 0)),
        ("the kind behind the last is touched", a_field_cleared("kind", 0)),
        ("the bytes behind the last are touched", a_field_cleared("code", (0, 0xEE))),
        ("the digit behind the last is touched", a_field_cleared("digit", 0)),
        ("the second byte of one is what stood there", answered(second_byte_kept)),
        ("a list that is too short is refused", full_list_is_refused),
        ("a refusal touches the list", refusal_touches),
    ))


def wrong_one_go_refusals(direction):
    """17, 10, 11 of a call on a whole text in one go."""
    one_go_refusal = RIGHT["one_go_refusal"]

    def with_digits(change):
        return lambda direction, digits, table, text: one_go_refusal(direction, change(digits), table, text)

    def asked_if(holds):
        """17 only where this holds of the text."""
        return lambda direction, digits, table, text: one_go_refusal(
            direction, digits if holds(digits, table, text) else (5, 5, 5), table, text)

    return named("one_go_refusal", (
        ("10 before 17", ahead("one_go_refusal", 10, (17,), lambda direction, digits, table, text: not RIGHT["shape_is_good"](table))),
        ("11 before 17", ahead("one_go_refusal", 11, (17,), lambda direction, digits, table, text: len(text) > 65536)),
        ("17 by the other direction's rule",
         lambda _, digits, table, text: one_go_refusal("E" if direction == "D" else "D", digits, table, text)),
        ("6 in any digit", with_digits(lambda digits: tuple(5 if digit == 6 else digit for digit in digits))),
        ("6 in the third digit", with_digits(lambda digits: (*digits[:2], 5 if digits[2] == 6 else digits[2]))),
        ("7 is allowed", with_digits(lambda digits: tuple(5 if digit == 7 else digit for digit in digits))),
        ("17 by the first digit only", with_digits(lambda digits: (digits[0], 5, 5))),
        ("17 not by the second digit", with_digits(lambda digits: (digits[0], 5, digits[2]))),
        ("17 not for an empty text", asked_if(lambda digits, table, text: len(text) > 0)),
        ("17 not where all are characters",
         asked_if(lambda digits, table, text: not RIGHT["shape_is_good"](table) or len(text) > 65536 or not text
                  or RIGHT["findings_of"]((5, 5, 5), table, text))),
        ("no policy is refused", lambda direction, digits, table, text: RIGHT["text_refusal"](table, text)),
    ))


def wrong_findings_consoles():
    class CountsFromTheWhole(converter.Console):
        """Places are counted from the whole text's beginning."""

        def do_findings(self, policy, start, count, size):
            words = super().do_findings(policy, start, count, size).split(" ")
            for number, word in enumerate(words):
                place, slash, rest = word.partition("/")
                if slash:
                    words[number] = f"{int(place) + int(start)}/{rest}"
            return " ".join(words)

    class ReadsOn(converter.Console):
        """A lead at a part's end is read with the byte behind the part."""

        def part_of(self, text, start, count):
            part = super().part_of(text, start, count)
            behind = int(start) + len(part)
            if part and RIGHT["shape_is_good"](self.table) and len(part) < 300 and behind < len(text):
                *_, (place, code) = RIGHT["codes_from"](self.table, part, 0)
                if self.table.classes[part[place]] in (2, 6) and place + 1 == len(part):
                    part = part + text[behind : behind + 1]
            return part

    def cut_text(console, words):
        console.byte_text = console.byte_text[: int(words[2])]

    return (
        ("places count from the whole text's beginning", "Console", CountsFromTheWhole),
        ("a part's last lead is read with the byte behind the part", "Console", ReadsOn),
        ("findings cut the text", "Console", after(b"findings", cut_text)),
        ("findings give up the run in hand", "Console", after(b"findings", give_up_run)),
        ("301 entries are a command", "FINDINGS_LIMIT", 301),
        ("300 entries are no command", "FINDINGS_LIMIT", 299),
    )


def wrong_findings_converters():
    """Findings (document 02, CR 7)."""
    # the size of a lead at the text's end is not told; wrong_findings has one that tells a second byte
    readings = [wrong for wrong in wrong_readings() if "at the text's end" not in wrong[0]]
    return (
        *wrong_findings(), *wrong_findings_calls(), *wrong_one_go_refusals("D"), *wrong_findings_consoles(), *readings,
        *wrong_text_refusals(), *wrong_numbers(),
    )


# ---------------------------------------------------------------------------------------------------------------
# Table listings (CR 3)
# ---------------------------------------------------------------------------------------------------------------


def wrong_records():
    """The form of a line."""
    record_of, Record = RIGHT["record_of"], RIGHT["Record"]

    def otherwise(change):
        """A line is read as another: change gets it."""
        return lambda line: record_of(change(line))

    def only(keep):
        """Some records are refused."""
        return lambda line: record_of(line) if record_of(line) is None or keep(record_of(line)) else None

    def also(form, make):
        """Other lines are records too: make gets the fields of a form."""

        def wrong(line):
            fields = re.fullmatch(form, line)
            return record_of(line) or (make(*fields.groups()) if fields else None)

        return wrong

    def page_in(low, high):
        return also(rb"P\t([0-9]{1,20})\n", lambda page: Record("P", int(page) % 65536) if low <= int(page) <= high else None)

    def right_ffff(letter, digits):
        return also(rb"%s\t([0-9A-F]{%d})\t(FFFF)\n" % (letter, digits), lambda key, right: Record(letter.decode(), int(key, 16), 0xFFFF))

    def none_for(letter, digits):
        return also(rb"%s\t([0-9A-F]{%d})\t(-)\n" % (letter, digits), lambda key, right: Record(letter.decode(), int(key, 16), 0xFFFF))

    return named("record_of", (
        ("small letters are digits", otherwise(lambda line: line[:1] + line[1:].upper())),
        ("small letters are letters", otherwise(lambda line: line[:1].upper() + line[1:])),
        ("a line needs no line feed", otherwise(lambda line: line if line.endswith(b"\n") else line + b"\n")),
        ("CR LF ends a line", otherwise(lambda line: line.replace(b"\r\n", b"\n"))),
        ("blanks part fields", otherwise(lambda line: line.replace(b" ", b"\t"))),
        ("several tabs part fields", otherwise(lambda line: re.sub(rb"\t+", b"\t", line))),
        ("a tab may end a line", otherwise(lambda line: line.replace(b"\t\n", b"\n"))),
        ("blanks at the ends are passed over", otherwise(lambda line: line.strip(b" ") if line[:1] == b" " else line)),
        ("what follows the line feed is passed over", otherwise(lambda line: line[: line.find(b"\n") + 1])),
        ("further fields are passed over", otherwise(lambda line: b"\t".join(line.split(b"\t")[:3]) + b"\n" if line.count(b"\t") > 2 else line)),
        ("the high bit is passed over", otherwise(lambda line: bytes(byte & 0x7F for byte in line))),
        ("a first line feed is passed over", otherwise(lambda line: line.lstrip(b"\n"))),
        ("page 0", page_in(0, 65535)), ("page 65536", page_in(1, 65536)), ("pages wrap at 16 bits", page_in(1, 2**32)),
        ("pages wrap at 32 bits", also(rb"P\t([0-9]{10})\n", lambda page: Record("P", int(page) % 2**32)
                                       if 1 <= int(page) % 2**32 <= 65535 else None)),
        ("pages with spare zeros", also(rb"P\t0+([1-9][0-9]{0,3})\n", lambda page: Record("P", int(page)))),
        ("pages of four digits at most", only(lambda record: record.letter != "P" or record.key <= 9999)),
        ("pages up to 65534", only(lambda record: record.letter != "P" or record.key < 65535)),
        ("hex pages", also(rb"P\t([0-9A-F]{1,4})\n", lambda page: Record("P", int(page, 16)) if int(page, 16) else None)),
        ("FFFF in an S", right_ffff(b"S", 2)), ("FFFF in an M", right_ffff(b"M", 4)), ("FFFF in a W", right_ffff(b"W", 4)),
        ("- in a D", none_for(b"D", 2)), ("- in an M", none_for(b"M", 4)), ("- in a W", none_for(b"W", 4)),
        ("no FFFF in a D", only(lambda record: record.letter != "D" or record.right != 0xFFFF)),
        ("no FFFF on the left of a W", only(lambda record: record.letter != "W" or record.key != 0xFFFF)),
        ("no FFFF on the left of an M", only(lambda record: record.letter != "M" or record.key != 0xFFFF)),
        ("no - in an S", only(lambda record: record.letter != "S" or record.right != 0xFFFF)),
        ("no surrogate on the left", only(lambda record: record.letter != "W" or not 0xD800 <= record.key <= 0xDFFF)),
        ("no code 0000", only(lambda record: record.letter != "W" or record.right != 0)),
        ("a byte without leading zeros", also(rb"([SLT])\t([0-9A-F])((?:\t[0-9A-F]{4})?)\n", lambda letter, key, right: Record(
            letter.decode(), int(key, 16), int(right, 16) if right else None))),
    ))


def wrong_orders():
    """Which records may come."""
    may_come = RIGHT["may_come"]
    rank = "PDSLTMW".index

    def also(holds):
        return lambda reader, record: may_come(reader, record) or holds(reader, record)

    def but(holds):
        return lambda reader, record: may_come(reader, record) and not holds(reader, record)

    def behind(reader, record):
        """In its place but for what must be listed."""
        return reader.letter not in (None, "P") and (rank(record.letter), record.key) > (rank(reader.letter), reader.key)

    return named("may_come", (
        ("a key may come twice", also(lambda reader, record: (record.letter, record.key) == (reader.letter, reader.key)
                                      and record.letter not in "PD")),
        ("keys need not rise", also(lambda reader, record: record.letter == reader.letter and record.letter in "SLTW")),
        ("keys rise over all letters", but(lambda reader, record: reader.letter in ("S", "L", "T") and record.letter in "LT"
                                          and record.key <= reader.key)),
        ("the first key is not 0", but(lambda reader, record: record.letter in "STW" and record.key == 0)),
        ("keys of W rise within a high half only", also(lambda reader, record: record.letter == reader.letter == "W"
                                                       and record.key // 256 != reader.key // 256)),
        ("keys of M rise by the second byte only", but(lambda reader, record: record.letter == reader.letter == "M"
                                                      and record.key % 256 <= reader.key % 256)),
        ("letters in any order", also(lambda reader, record: record.letter in "STW" and reader.letter in ("D", "L", "T", "M", "W")
                                     and record.letter != reader.letter)),
        ("P twice", also(lambda reader, record: record.letter == "P" and reader.letter == "P")),
        ("P anywhere", also(lambda reader, record: record.letter == "P")),
        ("D twice", also(lambda reader, record: record.letter == "D" and reader.letter == "D")),
        ("D before P", also(lambda reader, record: record.letter == "D" and reader.letter is None)),
        ("no D", also(lambda reader, record: record.letter in "STW" and reader.letter == "P")),
        ("no P", also(lambda reader, record: record.letter in "STW" and reader.letter is None)),
        ("T before L", also(lambda reader, record: record.letter == "L" and reader.letter == "T" and record.key >= 0x80)),
        ("W before M", also(lambda reader, record: record.letter == "M" and reader.letter == "W" and record.key // 256 in reader.leads
                           and record.key % 256 in reader.seconds)),
        ("both S and L", also(lambda reader, record: record.letter == "L" and behind(reader, record) and record.key >= 0x80)),
        ("not both S and T", but(lambda reader, record: record.letter == "T" and record.key in reader.singles)),
        ("not both L and T", but(lambda reader, record: record.letter == "T" and record.key in reader.leads)),
        ("leads from 7F on", also(lambda reader, record: record.letter == "L" and record.key == 0x7F and behind(reader, record))),
        ("any lead", also(lambda reader, record: record.letter == "L" and behind(reader, record) and record.key not in reader.singles)),
        ("leads from 81 on", but(lambda reader, record: record.letter == "L" and record.key == 0x80)),
        ("no lead FF", but(lambda reader, record: record.letter == "L" and record.key == 0xFF)),
        ("an M needs no second byte", also(lambda reader, record: record.letter == "M" and behind(reader, record)
                                          and record.key // 256 in reader.leads)),
        ("an M needs a single as its second byte", but(lambda reader, record: record.letter == "M" and record.key % 256 not in reader.singles)),
        ("a W needs a code that is listed", but(lambda reader, record: record.letter == "W" and record.right > 0xFF
                                               and record.right // 256 not in reader.leads)),
        ("a W needs a single that is listed", but(lambda reader, record: record.letter == "W" and record.right <= 0xFF
                                                 and record.right not in reader.singles)),
    ))


def wrong_sizes():
    """What the lent tables must hold."""
    sizes_needed, too_small = RIGHT["sizes_needed"], RIGHT["too_small"]

    def needs(change):
        """Other sizes: change gets the five sizes as a list, and the reader."""

        def wrong(reader):
            sizes = list(sizes_needed(reader))
            change(sizes, reader)
            return tuple(sizes)

        return wrong

    def set_size(place, value_of):
        return needs(lambda sizes, reader: sizes.__setitem__(place, value_of(sizes[place], reader)))

    return (
        ("a 256th high half needs a 257th block", "sizes_needed", set_size(4, lambda size, reader: 256 * (1 + len(reader.high_halves)))),
        ("a 255th high half takes the empty block", "sizes_needed", set_size(4, lambda size, reader: min(size, 65280))),
        ("blocks for units, not for high halves", "sizes_needed", set_size(4, lambda size, reader: size + (
            256 if reader.letter == "W" and reader.key % 256 == 0x42 else 0))),
        ("no empty block", "sizes_needed", set_size(4, lambda size, reader: max(size - 256, 0))),
        ("one more block", "sizes_needed", set_size(4, lambda size, reader: size + 256)),
        ("256 blocks at once", "sizes_needed", set_size(4, lambda size, reader: 65536)),
        ("pairs for 128 leads at once", "sizes_needed", set_size(2, lambda size, reader: 32768)),
        ("one more block of pairs", "sizes_needed", set_size(2, lambda size, reader: size + 256)),
        ("pairs by the last lead", "sizes_needed", set_size(2, lambda size, reader: 256 * (max(reader.leads, default=0x7F) - 0x7F))),
        ("pairs are asked for with M only", "sizes_needed", set_size(2, lambda size, reader: size if reader.letter == "M" else 0)),
        ("larger tables are too small", "too_small", lambda reader, lent: too_small(reader, lent) or len(lent[0]) > 256),
        ("larger pairs are too small", "too_small",
         lambda reader, lent: too_small(reader, lent) or len(lent[2]) > sizes_needed(reader)[2] + 300),
        ("tables as large as needed are too small", "too_small", lambda reader, lent: any(
            len(table) <= size for table, size in zip(lent, sizes_needed(reader)) if size)),
        ("no table is too small", "too_small", lambda reader, lent: False),
        *((f"{name} are not asked for", "too_small", lambda reader, lent, place=place: any(
            len(table) < size for number, (table, size) in enumerate(zip(lent, sizes_needed(reader))) if number != place))
          for place, name in enumerate(("classes", "singles", "pairs", "index numbers", "blocks"))),
    )


def wrong_puts():
    """What an accepted line does to the lent tables."""
    put_record = RIGHT["put_record"]

    def then(letter, change):
        """More is done after a letter: change gets the reader before, the record and the five tables."""

        def wrong(reader, after, record, lent):
            put_record(reader, after, record, lent)
            if record.letter == letter:
                change(reader, record, *lent)

        return wrong

    def instead(letter, change):
        def wrong(reader, after, record, lent):
            if record.letter == letter:
                change(reader, after, record, *lent)
            else:
                put_record(reader, after, record, lent)

        return wrong

    def keeps(letter, place):
        """One table is left as it was."""

        def wrong(reader, after, record, lent):
            before = list(lent[place])
            put_record(reader, after, record, lent)
            if record.letter == letter:
                lent[place][:] = before

        return wrong

    def fills(place, value):
        return then("P", lambda reader, record, *lent: lent[place].__setitem__(slice(256), [value] * 256))

    def all_of(place, value):
        return then("P", lambda reader, record, *lent: lent[place].__setitem__(slice(None), [value] * len(lent[place])))

    def second_replaces(reader, after, record, classes, singles, pairs, index, blocks):
        classes[record.key] = 4

    def second_is_set(reader, after, record, classes, singles, pairs, index, blocks):
        classes[record.key] = {0: 4, 1: 5}.get(classes[record.key], 4)

    def pair_by_distance(reader, after, record, classes, singles, pairs, index, blocks):
        place = 256 * (record.key // 256 - 0x80) + record.key % 256
        if place < len(pairs):
            pairs[place] = record.right

    def pair_in_first_block(reader, after, record, classes, singles, pairs, index, blocks):
        pairs[record.key % 256] = record.right

    def pair_in_last_block(reader, after, record, classes, singles, pairs, index, blocks):
        pairs[256 * (len(reader.leads) - 1) + record.key % 256] = record.right

    def lead_below(reader, after, record, classes, singles, pairs, index, blocks):
        """The block is emptied by the lead's distance to 80."""
        classes[record.key] = 2
        first = 256 * (record.key - 0x80)
        if first + 256 <= len(pairs):
            pairs[first : first + 256] = [0xFFFF] * 256

    def code(number_of, empties):
        """A code is put into another block, which is emptied where this says so."""

        def change(reader, after, record, classes, singles, pairs, index, blocks):
            high, low = divmod(record.key, 256)
            new = high not in reader.high_halves
            block = number_of(after, high)
            if 256 * block + 256 > len(blocks):
                block = 0
            if empties(new, block, index[high], reader):
                blocks[256 * block : 256 * block + 256] = [0xFFFF] * 256
            index[high] = block
            blocks[256 * block + low] = record.right

        return instead("W", change)

    right_number = RIGHT["block_number"]
    return named("put_record", (
        ("P fills classes with EE", keeps("P", 0)), ("P leaves singles", keeps("P", 1)), ("P leaves index", keeps("P", 3)),
        ("P leaves the empty block", keeps("P", 4)),
        ("P fills singles with 0", fills(1, 0)), ("P fills the empty block with 0", fills(4, 0)), ("P fills classes with 1", fills(0, 1)),
        ("P fills index with 1", fills(3, 1)), ("P fills index with FF", fills(3, 0xFF)),
        ("P empties all classes", all_of(0, 0)), ("P empties all singles", all_of(1, 0xFFFF)), ("P empties all index numbers", all_of(3, 0)),
        ("P empties all pairs", all_of(2, 0xFFFF)), ("P empties all blocks", all_of(4, 0xFFFF)),
        ("D empties classes too", then("D", lambda reader, record, classes, *others: classes.__setitem__(slice(None), [0] * len(classes)))),
        ("a single is no class", keeps("S", 0)), ("a single has no character", keeps("S", 1)),
        ("a single without a character is never", then("S", lambda reader, record, classes, *others: classes.__setitem__(
            record.key, 0 if record.right == 0xFFFF else 1))),
        ("a lead is no class", keeps("L", 0)), ("an L leaves its pairs", keeps("L", 2)),
        ("an L empties all pairs", then("L", lambda reader, record, classes, singles, pairs, *others: pairs.__setitem__(
            slice(None), [0xFFFF] * len(pairs)))),
        ("an L empties the block by its distance to 80", instead("L", lead_below)),
        ("a second byte is nothing else", instead("T", second_replaces)), ("a lead that may be second is no lead", instead("T", second_is_set)),
        ("a T does nothing", keeps("T", 0)), ("an M does nothing", keeps("M", 2)),
        ("pairs by the lead's distance to 80", instead("M", pair_by_distance)), ("pairs in the first block", instead("M", pair_in_first_block)),
        ("pairs in the last block", instead("M", pair_in_last_block)),
        ("an M is a W too", then("M", lambda reader, record, classes, singles, pairs, index, blocks: blocks.__setitem__(
            record.right % 256, record.key))),
        ("new blocks are not emptied", code(right_number, lambda new, block, index, reader: False)),
        ("each W of FF empties its block", code(right_number, lambda new, block, index, reader: new and block != 0 or block == 0)),
        ("index 0 means a new block", code(right_number, lambda new, block, index, reader: index == 0)),
        ("each W empties its block", code(right_number, lambda new, block, index, reader: block != 0)),
        ("blocks are numbered from 0", code(lambda after, high: after.high_halves.index(high), lambda new, block, index, reader: new)),
        ("blocks are numbered by the high half", code(lambda after, high: high, lambda new, block, index, reader: new)),
        ("blocks are numbered by the high half from 1",
         code(lambda after, high: (high + 1) % 256, lambda new, block, index, reader: new and block != 0)),
        ("FF takes the empty block always", code(lambda after, high: 0 if high == 0xFF else right_number(after, high),
                                                 lambda new, block, index, reader: new and block != 0)),
        ("all codes in one block", code(lambda after, high: 1, lambda new, block, index, reader: new and len(reader.high_halves) == 0)),
        ("index is not set", keeps("W", 3)), ("codes are not set", keeps("W", 4)),
        ("a surrogate's code is not set", lambda reader, after, record, lent: None if record.letter == "W" and 0xD8 <= record.key // 256 <= 0xDF
         else put_record(reader, after, record, lent)),
    ))


def wrong_line_calls():
    """A line, and the end."""
    line_call, end_call = RIGHT["line_call"], RIGHT["end_call"]

    def size_first(reader, lent, line):
        answer = line_call(reader, lent, line)
        needed = RIGHT["sizes_needed"](reader)
        if answer == 22 and any(len(table) < max(size, 256 if place != 2 else 0) for place, (table, size) in enumerate(zip(lent, needed))):
            return 23
        return answer

    def lead_size_first(reader, lent, line):
        """23 before a lead is looked at."""
        answer, record = line_call(reader, lent, line), RIGHT["record_of"](line)
        if answer == 22 and record is not None and record.letter == "L" and len(lent[2]) < 256 * (len(reader.leads) + 1):
            return 23
        return answer

    def empties_first(reader, lent, line):
        """A `P` that is refused with 23 has emptied the tables that are large enough."""
        answer, record = line_call(reader, lent, line), RIGHT["record_of"](line)
        if answer == 23 and record.letter == "P":
            for table, value in zip(lent, (0, 0xFFFF, None, 0, 0xFFFF)):
                if value is not None and len(table) >= 256:
                    table[:256] = [value] * 256
        return answer

    def class_first(reader, lent, line):
        """An `L` that is refused with 23 has set its class."""
        answer, record = line_call(reader, lent, line), RIGHT["record_of"](line)
        if answer == 23 and record.letter == "L":
            lent[0][record.key] = 2
        return answer

    def index_first(reader, lent, line):
        """A `W` that is refused with 23 has set its index number."""
        answer, record = line_call(reader, lent, line), RIGHT["record_of"](line)
        if answer == 23 and record.letter == "W":
            lent[3][record.key // 256] = len(reader.high_halves) + 1
        return answer

    def without_lead(reader, lent, line):
        """An `M` needs its second byte only; where its lead is not listed, it does nothing."""
        answer, record = line_call(reader, lent, line), RIGHT["record_of"](line)
        if answer == 22 and record is not None and record.letter == "M" and reader.letter in ("T", "M"):
            rises = reader.letter == "T" or record.key > reader.key
            if rises and record.key % 256 in reader.seconds and record.key // 256 not in reader.leads:
                return converter.replace(reader, letter="M", key=record.key)
        return answer

    def not_cut(reader, lent):
        table = end_call(reader, lent)
        return table if table in (22, 23) else converter.replace(table, classes=list(lent[0]), pairs=list(lent[2]), blocks=list(lent[4]))

    def cut_to(name, size_of):
        def wrong(reader, lent):
            table = end_call(reader, lent)
            return table if table in (22, 23) else converter.replace(table, **{name: getattr(table, name)[: size_of(len(getattr(table, name)))]})

        return wrong

    def with_numbers(**change):
        def wrong(reader, lent):
            table = end_call(reader, lent)
            return table if table in (22, 23) else converter.replace(table, **{name: value_of(table) for name, value_of in change.items()})

        return wrong

    return (
        ("23 before 22", "line_call", size_first), ("23 before a bad lead", "line_call", lead_size_first),
        ("a P that is refused empties", "line_call", empties_first), ("an L that is refused sets its class", "line_call", class_first),
        ("a W that is refused sets its index number", "line_call", index_first), ("an M needs no lead", "line_call", without_lead),
        ("every line is accepted", "line_call", lambda reader, lent, line: reader if line_call(reader, lent, line) in (22, 23)
         else line_call(reader, lent, line)),
        ("the end needs no D", "end_call", lambda reader, lent: end_call(converter.replace(reader, letter="D") if reader.letter == "P"
                                                                         else reader, lent)),
        ("the end needs no P", "end_call", lambda reader, lent: end_call(converter.replace(reader, letter="D") if reader.letter is None
                                                                         and len(lent[4]) else reader, lent)),
        ("the end needs a W", "end_call", lambda reader, lent: end_call(reader, lent) if reader.letter == "W" else 22),
        ("tables are not cut", "end_call", not_cut), ("a block too few", "end_call", cut_to("blocks", lambda size: max(size - 256, 256))),
        ("a block of pairs too few", "end_call", cut_to("pairs", lambda size: max(size - 256, 0))),
        ("the default byte is the default unit's low half", "end_call", with_numbers(default_byte=lambda table: table.default_unit % 256)),
        ("page 9 always", "end_call", with_numbers(page=lambda table: 9)),
        ("the default unit is its low half", "end_call", with_numbers(default_unit=lambda table: table.default_unit % 256)),
    )


def wrong_writers():
    """The writer."""
    record_at, record_line, list_call, next_record = (RIGHT[name] for name in ("record_at", "record_line", "list_call", "next_record"))
    Record = RIGHT["Record"]

    def at(letter, change):
        """Other records of a letter: change gets the table and the key."""
        return lambda table, asked, key: change(table, key) if asked == letter else record_at(table, asked, key)

    def pair_without_second(table, key):
        lead, second = divmod(key, 256)
        if table.classes[lead] not in (2, 6):
            return None
        unit = table.pairs[256 * sum(1 for lower in table.classes[:lead] if lower in (2, 6)) + second]
        return None if unit == 0xFFFF else Record("M", key, unit)

    def pair_by_distance(table, key):
        lead, second = divmod(key, 256)
        place = 256 * (lead - 0x80) + second
        if table.classes[lead] not in (2, 6) or table.classes[second] not in (4, 5, 6) or place >= len(table.pairs):
            return None
        return None if table.pairs[place] == 0xFFFF else Record("M", key, table.pairs[place])

    def written(change):
        return lambda record: change(record_line(record), record)

    def room(fits):
        def wrong(table, place, out):
            answer = list_call(table, place, list(out))
            if isinstance(answer, tuple) and not fits(answer[1], len(out)):
                return 19
            return list_call(table, place, out)

        return wrong

    def room_first(table, place, out):
        return 19 if not RIGHT["shape_is_good"](table) and len(out) < 12 else list_call(table, place, out)

    def done_first(table, place, out):
        """An empty room asks nothing."""
        return "done" if len(out) == 0 and place != ("P", 0) and place[0] != "S" else list_call(table, place, out)

    def half_written(table, place, out):
        """What fits of a line is written."""
        answer = list_call(table, place, out)
        if answer == 19:
            line = record_line(next_record(table, place)[1])
            out[:] = list(line[: len(out)])
        return answer

    def closed(table, place, out):
        """A zero stands behind the line."""
        answer = list_call(table, place, out)
        if isinstance(answer, tuple) and answer[1] < len(out):
            out[answer[1]] = 0
        return answer

    def shape_once(table, place, out):
        """The shape is asked for at the first line only."""
        if place != ("P", 0) and not RIGHT["shape_is_good"](table):
            return "done"
        return list_call(table, place, out)

    def each_one(change):
        """The next place is another: change gets the place of the line written and the next one."""

        def wrong(table, place, out):
            answer = list_call(table, place, out)
            return answer if not isinstance(answer, tuple) else ("line", answer[1], change(place, answer[2]))

        return wrong

    return (
        *named("record_at", (
            ("pairs without a second byte", at("M", pair_without_second)), ("pairs by the lead's distance to 80", at("M", pair_by_distance)),
            ("singles of every byte that has a character", at("S", lambda table, key: Record("S", key, table.singles[key])
                                                              if table.singles[key] != 0xFFFF else record_at(table, "S", key))),
            ("singles without a character are none", at("S", lambda table, key: record_at(table, "S", key)
                                                        if table.singles[key] != 0xFFFF else None)),
            ("a single that may be second is none", at("S", lambda table, key: record_at(table, "S", key) if table.classes[key] == 1 else None)),
            ("a lead that may be second is none", at("L", lambda table, key: record_at(table, "L", key) if table.classes[key] == 2 else None)),
            ("a byte that is never a code is no second byte", at("T", lambda table, key: record_at(table, "T", key)
                                                                 if table.classes[key] != 4 else None)),
            ("a lead is no second byte", at("T", lambda table, key: record_at(table, "T", key) if table.classes[key] != 6 else None)),
            ("surrogates have no code", at("W", lambda table, key: None if 0xD800 <= key <= 0xDFFF else record_at(table, "W", key))),
            ("FFFF has no code", at("W", lambda table, key: None if key == 0xFFFF else record_at(table, "W", key))),
            ("block 0 has no code", at("W", lambda table, key: None if table.index[key // 256] == 0 else record_at(table, "W", key))),
            ("a block is listed once", at("W", lambda table, key: None if table.index[key // 256] in table.index[: key // 256]
                                          else record_at(table, "W", key))),
            ("codes that do not read back are none", at("W", lambda table, key: record_at(table, "W", key)
                                                        if RIGHT["own_code"](table, key) else None)),
            ("defaults are those of the sample page", at("D", lambda table, key: Record("D", 0x3F, 0x30FB))),
        )),
        *named("record_line", (
            ("no line feed", written(lambda line, record: line[:-1])), ("CR LF", written(lambda line, record: line[:-1] + b"\r\n")),
            ("small hex", written(lambda line, record: line[:1] + line[1:].lower())), ("blanks part fields", written(
                lambda line, record: line.replace(b"\t", b" "))),
            ("a single without a character has FFFF", written(lambda line, record: line.replace(b"-", b"FFFF"))),
            ("the page in hex", written(lambda line, record: b"P\t%X\n" % record.key if record.letter == "P" else line)),
            ("the page with four digits", written(lambda line, record: b"P\t%04d\n" % record.key if record.letter == "P" else line)),
            ("codes without leading zeros", written(lambda line, record: b"W\t%04X\t%02X\n" % (record.key, record.right)
                                                    if record.letter == "W" else line)),
            ("units on the left", written(lambda line, record: b"M\t%04X\t%04X\n" % (record.right, record.key)
                                          if record.letter == "M" else line)),
            ("a default unit FFFF is none", written(lambda line, record: line.replace(b"FFFF", b"-") if record.letter == "D" else line)),
        )),
        *named("list_call", (
            ("19 before 10", room_first), ("done before 10 and 19", done_first), ("a line just as long as the room does not fit", room(
                lambda size, space: size < space)),
            ("every line needs 12 bytes", room(lambda size, space: space >= 12)), ("a part of a line is written", half_written),
            ("a zero closes the line", closed), ("the shape is asked for once", shape_once),
            ("the writer stays", each_one(lambda place, next_place: place)),
            ("every second key is left out", each_one(lambda place, next_place: (next_place[0], next_place[1] + 1)
                                                      if next_place[0] in "STMW" else next_place)),
            ("T before L", lambda table, place, out: list_call(table, place, out) if place[0] != "S" or next_record(table, place)[0][0] != "L"
             else list_call(table, ("T", 0), out)),
        )),
    )


def wrong_listing_consoles():
    def fresh_reader(console, words):
        console.reader = RIGHT["Reader"]()

    def first_line(console, words):
        console.writer = RIGHT["FIRST_LINE"]

    def lent_empty(console, words):
        console.lent = [[] for _ in console.lent]

    def as_before(command, names):
        """A command does nothing to some of what the console holds."""

        class Wrong(converter.Console):
            def __init__(self, folders=(".",)):
                super().__init__(folders)
                count, right = self.commands[command]

                def wrong(*words):
                    before = {name: getattr(self, name) for name in names}
                    answer = right(*words)
                    for name, value in before.items():
                        setattr(self, name, value)
                    return answer

                self.commands[command] = (count, wrong)

        return Wrong

    class SharesTables(converter.Console):
        """The table set in hand is the lent tables themselves."""

        def do_line(self, line):
            answer = super().do_line(line)
            if answer == "line 0" and getattr(self, "shared", False):
                RIGHT["Console"].do_listed(self)
            return answer

        def do_listed(self):
            self.shared = True
            return super().do_listed()

        def do_table(self, file):
            self.shared = False
            return super().do_table(file)

        def do_lend(self, *sizes):
            self.shared = False
            return super().do_lend(*sizes)

    room = RIGHT["IMAGE_ROOM"]
    return (
        ("lend keeps the reader", "Console", as_before(b"lend", ("reader",))),
        ("lister does nothing", "Console", as_before(b"lister", ("writer",))),
        ("the end leaves the table set in hand", "Console", as_before(b"listed", ("table",))),
        ("the end begins a new listing", "Console", after(b"listed", fresh_reader)),
        ("the end gives the lent tables up", "Console", after(b"listed", lent_empty)),
        ("the end puts the writer at the first line", "Console", after(b"listed", first_line)),
        ("a table puts the writer at the first line", "Console", after(b"table", first_line)),
        ("a table begins a new listing", "Console", after(b"table", fresh_reader)),
        ("lend puts the writer at the first line", "Console", after(b"lend", first_line)),
        ("lister begins a new listing", "Console", after(b"lister", fresh_reader)),
        ("a listing gives up the run in hand", "Console", after(b"line", give_up_run)),
        ("writing gives up the run in hand", "Console", after(b"list", give_up_run)),
        ("the table set in hand goes on with the lines", "Console", SharesTables),
        ("301 bytes of room are a command", "LISTED_LINE_LIMIT", 301), ("300 bytes of room are no command", "LISTED_LINE_LIMIT", 299),
        *((f"one more of table {place} is a command", "IMAGE_ROOM", (*room[:place], room[place] + 1, *room[place + 1 :])) for place in range(5)),
        *((f"one less of table {place} is the most", "IMAGE_ROOM", (*room[:place], room[place] - 1, *room[place + 1 :])) for place in range(5)),
        ("units with the high byte first", "check_sum", lambda elements, width: RIGHT["check_sum"](
            [int.from_bytes(element.to_bytes(width, "little"), "big") for element in elements], width)),
        ("units as two numbers of four bytes", "check_sum", lambda elements, width: RIGHT["check_sum"](elements, 2 * width)),
        ("times, then exclusive or", "check_sum", lambda elements, width: f"{fnv_1(elements, width):08X}"),
    )


def fnv_1(elements, width):
    value = 0x811C9DC5
    for element in elements:
        for byte in element.to_bytes(width, "little"):
            value = value * 0x01000193 % 2**32 ^ byte
    return value


def wrong_listing_converters():
    """Table listings (document 02, CR 3)."""
    return (
        *wrong_records(), *wrong_orders(), *wrong_sizes(), *wrong_puts(), *wrong_line_calls(), *wrong_writers(), *wrong_listing_consoles(),
        *wrong_numbers(),
    )
