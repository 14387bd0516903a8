#!/usr/bin/env python3
"""The second converter: plays a console script by the rules of documents 01 and 02.

    second_converter.py [--folder FOLDER]... [SCRIPT]

Reads the script from the file SCRIPT, or from standard input, and writes one answer line for each command to
standard output. A FILE in the script is looked for in the folders given, in their order, or in the current
folder if none is given.

It is written from the documents alone and shares no code with the converter that it checks. Its sections follow
them, and the comments name the paragraph. It is meant to be plain, not fast.
"""

import argparse
import bisect
import os
import re
import struct
import sys
from dataclasses import dataclass, replace
from typing import Optional

# ---------------------------------------------------------------------------------------------------------------
# The table set
# ---------------------------------------------------------------------------------------------------------------

NONE = 0xFFFF  # "FFFF means none": in singles, pairs and blocks


@dataclass
class TableSet:
    """Three numbers and five lent tables, in the order of document 01."""

    page: int
    default_byte: int
    default_unit: int
    classes: list
    singles: list
    pairs: list
    index: list
    blocks: list


# "0 never, 1 single, 2 lead; plus 4 if the byte may be a second byte"
GOOD_CLASSES = (0, 1, 2, 4, 5, 6)
SINGLES = (1, 5)
LEADS = (2, 6)
SECONDS = (4, 5, 6)


def shape_report(table):
    """'good', or the first bad place, in the words of the console."""
    # "page, then table sizes in the order above"
    if table.page == 0:
        return "page"
    if len(table.classes) != 256:
        return "classes"
    if len(table.singles) != 256:
        return "singles"
    # "(leads are the classes 2 and 6)": a low lead counts too
    leads = sum(1 for byte_class in table.classes if byte_class in LEADS)
    if len(table.pairs) != 256 * leads:
        return "pairs"
    if len(table.index) != 256:
        return "index"
    # "1 to 256 blocks of 256"
    if len(table.blocks) not in range(256, 65536 + 1, 256):
        return "blocks"
    # "then the first bad class or low lead"
    for place, byte_class in enumerate(table.classes):
        if byte_class not in GOOD_CLASSES:
            return f"class {place}"
        if byte_class in LEADS and place < 0x80:
            return f"lead {place}"
    # "then the first bad index number": it names a block that is not there
    for place, number in enumerate(table.index):
        if number >= len(table.blocks) // 256:
            return f"number {place}"
    return "good"


def shape_is_good(table):
    return shape_report(table) == "good"


# ---------------------------------------------------------------------------------------------------------------
# Reading one code from bytes
# ---------------------------------------------------------------------------------------------------------------

# The three kinds of code without a character, each named by its flag ("Flags gather over the run").
UNDEFINED_SINGLE = 1
UNDEFINED_PAIR = 2
INVALID = 4
STOPPED = 8


@dataclass
class Code:
    """One code as read: how many units of input it takes, its kind, what it means."""

    size: int
    kind: int  # 0: it has a character; else one of the three kinds above
    meaning: list  # decoding: the unit of its character; encoding: the bytes of its code; else empty


def read_code(table, first, second):
    """The code that begins with the byte first; second is the byte after it, None at the end of the whole text."""
    byte_class = table.classes[first]
    # "Class single: one byte. Its character, or undefined single if none."
    if byte_class in SINGLES:
        unit = table.singles[first]
        if unit == NONE:
            return Code(1, UNDEFINED_SINGLE, [])
        return Code(1, 0, [unit])
    # "Class never: invalid, one byte."
    if byte_class not in LEADS:
        return Code(1, INVALID, [])
    # "Lead at the end of the whole text: invalid, one byte."
    if second is None:
        return Code(1, INVALID, [])
    if table.classes[second] not in SECONDS:
        # Document 02, CR 2: "When a lead is followed by a byte below 80 that may not be second, only the lead is the
        # invalid code; the next byte is read afresh. A byte of 80 or more is still taken with it."
        return Code(1 if second < 0x80 else 2, INVALID, [])
    # "Lead followed by a byte that may be second: two bytes. Its character, or undefined pair."
    # "the lead with j leads below it uses block j, at the second byte"
    leads_below = sum(1 for lower in table.classes[:first] if lower in LEADS)
    unit = table.pairs[256 * leads_below + second]
    if unit == NONE:
        return Code(2, UNDEFINED_PAIR, [])
    return Code(2, 0, [unit])


def codes_from(table, text, place):
    """The codes of a whole text from a place on, each with its place; no policy is asked."""
    while place < len(text):
        second = text[place + 1] if place + 1 < len(text) else None
        code = read_code(table, text[place], second)
        yield place, code
        place += code.size


# ---------------------------------------------------------------------------------------------------------------
# Reading one unit for bytes
# ---------------------------------------------------------------------------------------------------------------


HIGH_SURROGATES = range(0xD800, 0xDBFF + 1)
LOW_SURROGATES = range(0xDC00, 0xDFFF + 1)


def read_unit(table, unit, following):
    """The code that begins with a unit; following is the unit after it, None at the end of the whole text."""
    # Document 02, CR 5: "A high surrogate (D800 to DBFF) followed by a low one (DC00 to DFFF) is one undefined single of two
    # units."
    if unit in HIGH_SURROGATES and following is not None and following in LOW_SURROGATES:
        return Code(2, UNDEFINED_SINGLE, [])
    # "A surrogate otherwise is invalid, one unit, under the third digit, flag 4, and the unit after it is read afresh. No
    # surrogate is looked up."
    if unit in HIGH_SURROGATES or unit in LOW_SURROGATES:
        return Code(1, INVALID, [])
    # "Each unit alone is looked up"
    block = table.index[unit // 256]
    code = table.blocks[256 * block + unit % 256]
    # "No code: undefined single."
    if code == NONE:
        return Code(1, UNDEFINED_SINGLE, [])
    # "A code up to 00FF is one byte; a larger one is its high half, then its low half."
    if code <= 0x00FF:
        return Code(1, 0, [code])
    return Code(1, 0, [code // 256, code % 256])


# ---------------------------------------------------------------------------------------------------------------
# Policies and flags
# ---------------------------------------------------------------------------------------------------------------

DECODING = "D"
ENCODING = "E"


# Document 02, CR 4: "The standard policy changes from 555 to 550". It is told by the command `standard` and used nowhere: each
# start, each call in one go and each saved line has its own digits.
STANDARD = (5, 5, 0)


def digits_allowed(direction, digits):
    """ "6 is allowed only in the first digit of a decoding run"; the others are 0 to 5."""
    first_limit = 6 if direction == DECODING else 5
    return digits[0] <= first_limit and digits[1] <= 5 and digits[2] <= 5


def digit_for(digits, kind):
    """ "A run has three digits: undefined single, undefined pair, invalid." """
    return {UNDEFINED_SINGLE: digits[0], UNDEFINED_PAIR: digits[1], INVALID: digits[2]}[kind]


STOP = None  # what policy_output answers for the digit 0


def policy_output(direction, table, digit, first_byte):
    """What a digit has written in place of a code without a character, or STOP."""
    if digit == 0:  # stop with error
        return STOP
    if digit == 1:  # skip
        return []
    if digit == 2:  # write NUL
        return [0x00]
    if digit == 3:  # write 3F
        return [0x3F]
    if digit == 4:  # write 5F
        return [0x5F]
    if digit == 5:  # write the default: the table set's own unit or byte
        return [table.default_unit if direction == DECODING else table.default_byte]
    return [0xF100 + first_byte]  # 6: only an undefined single of a decoding run comes here


# ---------------------------------------------------------------------------------------------------------------
# One call of a run
# ---------------------------------------------------------------------------------------------------------------

PIECE_LIMIT = 65536  # 11: "input over 65,536 units"
READ_LIMIT = 4294967295  # 16: "read total plus this input exceeds 4,294,967,295"

ALL_READ = 0
CARRIED = 1
DOES_NOT_FIT = 2
STOPPED_BY_POLICY = 3

NO_END_OF_ROOM = float("inf")


@dataclass
class Taken:
    """What a call takes from its input: the answer 0 to 3 and all that the codes taken read, write and set."""

    number: int
    read: int
    output: list
    flags: int
    carried: Optional[int]


def read_next(direction, table, first, second):
    """The code that begins with first; second is the byte or unit after it, None at the end of the whole text."""
    if direction == DECODING:
        return read_code(table, first, second)
    return read_unit(table, first, second)


def may_be_carried(direction, table, first):
    """A lead; in encoding a high surrogate: "Encoding runs now carry a high surrogate between pieces as decoding runs a lead"."""
    if direction == DECODING:
        return table.classes[first] in LEADS
    return first in HIGH_SURROGATES


def take_codes(direction, table, digits, carried, piece, last, room):
    """Takes code after code from what is carried and the piece."""
    read, output, flags = 0, [], 0
    while carried is not None or read < len(piece):
        if carried is not None:
            before = 1  # the first byte or unit of the code was read by an earlier call
            first = carried
        else:
            before = 0
            first = piece[read]
        next_place = read + 1 - before
        second = piece[next_place] if next_place < len(piece) else None
        # "In a call not marked last, a lead that is the final byte is read and carried, even with no room."
        if not last and second is None and may_be_carried(direction, table, first):
            return Taken(CARRIED, len(piece), output, flags, first)
        code = read_next(direction, table, first, second)
        if code.kind == 0:
            writes = code.meaning
        else:
            writes = policy_output(direction, table, digit_for(digits, code.kind), first)
        # "Stopping reads past the code, sets its flag and 8, writes nothing and ends the run." A byte or unit after a code
        # that is a lead or a high surrogate alone is not of that code (CR 2, CR 5): "Under policy 0 the run ends with that
        # next byte unread."
        if writes is STOP:
            return Taken(STOPPED_BY_POLICY, read + code.size - before, output, flags | code.kind | STOPPED, None)
        # "A code is taken only if everything it writes fits; otherwise none of it is written and its unread input
        # stays unread."
        if len(output) + len(writes) > room:
            return Taken(DOES_NOT_FIT, read, output, flags, carried)
        # "If the lead was carried, a call may now settle it and read nothing" (CR 2; "The reading promise of CR 2 covers it",
        # CR 5): then nothing is added here
        read += code.size - before
        output += writes
        flags |= code.kind
        carried = None
    return Taken(ALL_READ, read, output, flags, None)


def run_call_refusal(run, direction, table, piece):
    """ "A run call checks 10 to 16 in that order": the first that holds, or None."""
    if not shape_is_good(table):
        return 10
    if len(piece) > PIECE_LIMIT:
        return 11
    if not keeps_run_rules(run):
        return 12
    if run.direction != direction or run.page != table.page:
        return 13
    # "14 is for decoding" (CR 5)
    if direction == DECODING and run.carried is not None and table.classes[run.carried] not in LEADS:
        return 14
    if run.ended:
        return 15
    if run.read + len(piece) > READ_LIMIT:
        return 16
    return None


@dataclass
class Outcome:
    number: int
    read: int
    written: int
    run: "Run"


def run_call(direction, run, table, piece, last, out):
    """One call of a run. Writes to the front of out and leaves the rest as it was."""
    refusal = run_call_refusal(run, direction, table, piece)
    # "A refused run call returns the run it was handed, read 0, written 0."
    if refusal is not None:
        return Outcome(refusal, 0, 0, run)
    taken = take_codes(direction, table, run.digits, run.carried, piece, last, len(out))
    for place, element in enumerate(taken.output):
        out[place] = element
    # "In a call marked last the run ends when all is read and no byte is carried"; stopping ends it too
    ended = taken.number == STOPPED_BY_POLICY or (last and taken.number == ALL_READ)
    after = replace(
        run,
        carried=taken.carried,
        flags=run.flags | taken.flags,
        read=run.read + taken.read,
        written=run.written + len(taken.output),
        ended=ended,
    )
    return Outcome(taken.number, taken.read, len(taken.output), after)


def run_call_here(direction, record, table, piece, last, out):
    """Document 02, CR 13: "that record updated where it stands"; record is a list of one run. Answers number, read and written."""
    outcome = run_call(direction, record[0], table, piece, last, out)
    # "with equal answers, output and new run; on refusal the record holds what it held"
    if outcome.number in (ALL_READ, CARRIED, DOES_NOT_FIT, STOPPED_BY_POLICY):
        record[0] = outcome.run
    return outcome.number, outcome.read, outcome.written


def text_refusal(table, text):
    """The refusals of every call on a whole text: "after 10 and 11" (document 02)."""
    if not shape_is_good(table):
        return 10
    if len(text) > PIECE_LIMIT:
        return 11
    return None


def one_go_refusal(direction, digits, table, text):
    """The one-go call checks 17 (policy), 10, 11 ("No refusal changes", CR 10)."""
    if not digits_allowed(direction, digits):
        return 17
    return text_refusal(table, text)


def take_whole_text(direction, digits, table, text, room):
    """ "as one call marked last on a fresh run of the set's page" """
    return take_codes(direction, table, digits, None, text, True, room)


@dataclass
class OneGo:
    number: int
    flags: int
    read: int
    need: int
    written: int


def one_go_number(whole, room):
    """CR 10: "answer 2, ahead of 3, is given exactly if something did not fit, with empty room too": what the whole reading writes
    is more than the room. Otherwise the conversion is the whole reading."""
    return DOES_NOT_FIT if len(whole.output) > room else whole.number


def convert_call(direction, digits, table, text, out):
    """Document 02, CR 10: "one call reports the units or bytes the text needs and those written; empty room means just counting".
    A refusal is the number alone, with the output untouched."""
    refusal = one_go_refusal(direction, digits, table, text)
    if refusal is not None:
        return refusal
    # "The need and flags are always those of the whole reading, also when room ends": "as if room never ended" (document 01)
    whole = take_whole_text(direction, digits, table, text, NO_END_OF_ROOM)
    # "the written part and the input read are the conversion's as before"
    taken = take_whole_text(direction, digits, table, text, len(out))
    for place, element in enumerate(taken.output):
        out[place] = element
    number = one_go_number(whole, len(out))
    return OneGo(number, whole.flags, taken.read, len(whole.output), len(taken.output))


# ---------------------------------------------------------------------------------------------------------------
# The run and its saved line
# ---------------------------------------------------------------------------------------------------------------


@dataclass(frozen=True)
class Run:
    direction: str
    page: int
    digits: tuple
    carried: Optional[int]  # "the run's carried field holds a byte or a unit" (CR 5): a byte in decoding, a unit in encoding
    flags: int
    read: int
    written: int
    ended: bool


def start_call(direction, page, digits):
    """ "An accepted start gives a fresh one"; 17: "start numbers not allowed (page 0, a policy digit)". """
    if page == 0 or not digits_allowed(direction, digits):
        return 17
    return Run(direction, page, digits, None, 0, 0, 0, False)


def keeps_run_rules(run):
    # "page not 0; digits allowed; flags at most 15; read within the limit"
    if run.page == 0:
        return False
    if not digits_allowed(run.direction, run.digits):
        return False
    if run.flags > 15:
        return False
    if run.read > READ_LIMIT:
        return False
    # "written at most read (decoding) or twice read (encoding)"
    most_written = run.read if run.direction == DECODING else 2 * run.read
    if run.written > most_written:
        return False
    # "flag 8 only if ended"
    if run.flags & STOPPED and not run.ended:
        return False
    if run.carried is None:
        return True
    # "a carried byte only if decoding, not ended, written below read"
    if run.direction == DECODING:
        return not run.ended and run.written < run.read
    # CR 5: "a carried unit is also allowed in an encoding run if it is a high surrogate, the run is not ended, and written
    # plus 2 is at most 2 x read"
    return run.carried in HIGH_SURROGATES and not run.ended and run.written + 2 <= 2 * run.read


# "carried byte as two capital hex digits or `-`"; CR 5: "an `E` line has four hex digits or `-` there"
CARRIED_DIGITS = {DECODING: 2, ENCODING: 4}


def carried_field(run):
    return "-" if run.carried is None else f"{run.carried:0{CARRIED_DIGITS[run.direction]}X}"


def is_carried_field(direction, field):
    return re.fullmatch(rb"-|[0-9A-F]{%d}" % CARRIED_DIGITS[direction], field) is not None


def line_of(run):
    """The saved line of a run that keeps the rules."""
    fields = [
        run.direction,
        str(run.page),
        "".join(str(digit) for digit in run.digits),
        carried_field(run),
        str(run.flags),
        str(run.read),
        str(run.written),
        "over" if run.ended else "on",
    ]
    return ("\t".join(fields) + "\n").encode("ascii")


def plain_number(field):
    """A decimal number with no spare zeros, or None. Every number of a line has at most 20 digits."""
    if len(field) > 20 or not re.fullmatch(rb"0|[1-9][0-9]*", field):
        return None
    return int(field)


def load_call(line):
    """The run of a saved line; "nothing else is read (18)"."""
    if not line.endswith(b"\n"):
        return 18
    fields = line[:-1].split(b"\t")
    if len(fields) != 8:
        return 18
    direction, page, digits, carried, flags, read, written, word = fields
    if direction not in (b"D", b"E") or word not in (b"on", b"over"):
        return 18
    if not re.fullmatch(rb"[0-9]{3}", digits):
        return 18
    direction = direction.decode("ascii")
    if not is_carried_field(direction, carried):
        return 18
    numbers = [plain_number(field) for field in (page, flags, read, written)]
    if None in numbers:
        return 18
    page, flags, read, written = numbers
    if page > 65535:  # "page (1 to 65,535)"
        return 18
    run = Run(
        direction,
        page,
        tuple(int(digit) for digit in digits.decode("ascii")),
        None if carried == b"-" else int(carried, 16),
        flags,
        read,
        written,
        word == b"over",
    )
    # "Each run that keeps the rules has one line and each line one run"
    return run if keeps_run_rules(run) else 18


def save_call(run, out):
    """Writes the line to the front of out and answers its length as ('length', n), or refuses: "12, then 19"."""
    if not keeps_run_rules(run):
        return 12
    line = line_of(run)
    if len(line) > len(out):
        return 19
    for place, byte in enumerate(line):
        out[place] = byte
    return ("length", len(line))


# ---------------------------------------------------------------------------------------------------------------
# Fields (document 02, CR 1)
# ---------------------------------------------------------------------------------------------------------------

# "The bar is unit 007C, the line feed 000A"; each with the console's word for a field that it ended
SEPARATORS = {0x007C: "bar", 0x000A: "line"}
TEXT_END = "end"

HOLD_SIZE = 256  # "a lent hold of 256 units", and the most units of a field


@dataclass
class FieldOutcome:
    """What an accepted call gives. Where no field is complete, end and units are None."""

    end: Optional[str]
    read: int
    units: Optional[list]
    from_hold: bool
    held: int  # the state after the call


def field_refusal(held, hold, block):
    """ "Refusals, in this order": the first that holds, or None."""
    # "20 hold shorter than 256; 11; 27 a state that claims over 256 held units"
    if len(hold) < HOLD_SIZE:
        return 20
    if len(block) > PIECE_LIMIT:
        return 11
    if held > HOLD_SIZE:
        return 27
    # "21 the next field's units, held and in the block, are over 256"
    if held + len(next_units(block)) > HOLD_SIZE:
        return 21
    return None


def next_units(block):
    """The units of the block that belong to the next field."""
    units = []
    for unit in block:
        if unit in SEPARATORS:
            break
        units.append(unit)
    return units


def field_call(held, hold, block, last):
    """One call. Answers a refusal's number, with hold and state unchanged, or the outcome; hold is changed in place."""
    refusal = field_refusal(held, hold, block)
    if refusal is not None:
        return refusal
    units = next_units(block)
    if len(units) < len(block):
        # "A bar ends a field, a line feed a field and a record": the separator is read with its field
        end, read = SEPARATORS[block[len(units)]], len(units) + 1
    elif last and held + len(units) > 0:
        # "the text's end, told by marking a call last, a field that has units"
        end, read = TEXT_END, len(block)
    else:
        # "or, none being complete, holds the whole block and says so"
        hold[held : held + len(block)] = block
        return FieldOutcome(None, len(block), None, False, held + len(block))
    # "a field wholly inside the block is shown from the block"
    if held == 0:
        return FieldOutcome(end, read, units, False, 0)
    # "A field that began in an earlier block is completed in a lent hold"
    size = held + len(units)
    hold[held:size] = units
    return FieldOutcome(end, read, hold[:size], True, 0)


# ---------------------------------------------------------------------------------------------------------------
# Receipt lines (document 02, CR 12)
# ---------------------------------------------------------------------------------------------------------------


def code_ends(table, text):
    """Where the codes of a whole text end, in rising order."""
    return [place + code.size for place, code in codes_from(table, text, 0)]


def is_acceptable(table, text, width, breaks):
    """A proposal is accepted "exactly if the breaks rise strictly, each line has 1 to width bytes, and no code is cut"."""
    # "An empty text takes the empty proposal."
    if len(text) == 0:
        return len(breaks) == 0
    if any(first >= second for first, second in zip(breaks, breaks[1:])):
        return False
    # "Breaks are inner places; the text's end is not listed."
    if any(place <= 0 or place >= len(text) for place in breaks):
        return False
    starts, ends = [0, *breaks], [*breaks, len(text)]
    if any(not 1 <= end - start <= width for start, end in zip(starts, ends)):
        return False
    uncut = set(code_ends(table, text))
    return all(place in uncut for place in breaks)


def own_breaks(table, text, width):
    """ "acceptable ones, each line from the first on as long as it can be"; None if no acceptable breaks exist: a code is longer
    than a line."""
    breaks = []
    line_start = code_start = 0
    for end in code_ends(table, text):
        if end - code_start > width:
            return None
        if end - line_start > width:
            breaks.append(code_start)
            line_start = code_start
        code_start = end
    return breaks


def breaks_call(table, text, width, breaks):
    """Checks a proposal: 0, or a refusal, of which "30 proposal not acceptable" is the last."""
    refusal = text_refusal(table, text)
    if refusal is not None:
        return refusal
    return 0 if is_acceptable(table, text, width, breaks) else 30


def propose_call(table, text, width, out):
    """Writes our breaks to the front of out and answers their number as ('breaks', n), or refuses: "31 none exists; 32 the lent
    break list is too short for ours, untouched"."""
    refusal = text_refusal(table, text)
    if refusal is not None:
        return refusal
    breaks = own_breaks(table, text, width)
    if breaks is None:
        return 31
    if len(breaks) > len(out):
        return 32
    for number, place in enumerate(breaks):
        out[number] = place
    return ("breaks", len(breaks))


# ---------------------------------------------------------------------------------------------------------------
# The index of a journal (document 02, CR 11)
# ---------------------------------------------------------------------------------------------------------------

BLOCK_SIZE = 512


@dataclass(frozen=True)
class Entry:
    """ "how many codes start before it, and whether its first byte is the second byte of a code" """

    count: int
    mark: bool


FIRST_ENTRY = Entry(0, False)


def block_count(size):
    """ "for each full or begun block of 512 bytes" """
    return (size + BLOCK_SIZE - 1) // BLOCK_SIZE


def codes_of_block(table, journal, block, entry):
    """The codes from a block on, "by that entry's count and mark": a marked block's first byte is of an earlier code."""
    return codes_from(table, journal, BLOCK_SIZE * block + (1 if entry.mark else 0))


def entries_behind(table, journal, block, entry):
    """The entries of all blocks behind one, told from its entry."""
    sizes = {place: code.size for place, code in codes_of_block(table, journal, block, entry)}
    starts = list(sizes)
    found = []
    for begin in range(BLOCK_SIZE * (block + 1), len(journal), BLOCK_SIZE):
        count = entry.count + bisect.bisect_left(starts, begin)
        found.append(Entry(count, sizes.get(begin - 1) == 2))
    return found


def append_refusal(table, journal, former, index):
    """ "Refusals, after 10 and 11: 33 .. 28": the first that holds, or None."""
    refusal = text_refusal(table, journal)
    if refusal is not None:
        return refusal
    # "33 former length over the journal's"
    if former > len(journal):
        return 33
    # "28 index too short, or a former last entry counting more codes than bytes before it"
    if len(index) < block_count(len(journal)):
        return 28
    last = block_count(former) - 1
    if last >= 0 and index[last].count > BLOCK_SIZE * last:
        return 28
    return None


def append_call(table, journal, former, index):
    """ "Appending bytes goes on from the former last entry and touches nothing before it". Answers 0 or a refusal's number; the
    index is changed in place, and a refusal leaves it untouched."""
    refusal = append_refusal(table, journal, former, index)
    if refusal is not None:
        return refusal
    if not journal:
        return 0
    if former == 0:
        last, index[0] = 0, FIRST_ENTRY
    else:
        last = block_count(former) - 1
    for block, entry in enumerate(entries_behind(table, journal, last, index[last]), last + 1):
        index[block] = entry
    return 0


def find_call(table, journal, index, number):
    """Code `number`, from 0, as ('code', place, length), or a refusal's number."""
    refusal = text_refusal(table, journal)
    if refusal is not None:
        return refusal
    if len(index) < block_count(len(journal)):
        return 28
    # "reads on from the last block whose entry counts at most n": the last by its place, in a wrong index too
    blocks = [block for block in range(block_count(len(journal))) if index[block].count <= number]
    if blocks:
        entry = index[blocks[-1]]
        for count, (place, code) in enumerate(codes_of_block(table, journal, blocks[-1], entry), entry.count):
            if count == number:
                return ("code", place, code.size)
    # "29 no such character or no such block"
    return 29


# ---------------------------------------------------------------------------------------------------------------
# The standard spelling (document 02, CR 8)
# ---------------------------------------------------------------------------------------------------------------


def own_code(table, unit):
    """The bytes of a unit's own code in the encoding table, if it "reads back as it"; else None."""
    code = read_unit(table, unit, None).meaning
    if not code:
        return None
    back = read_code(table, code[0], code[1] if len(code) == 2 else None)
    return code if back == Code(len(code), 0, [unit]) else None


def spelled(table, code):
    """The bytes of a code's standard spelling, or None if it is at fault."""
    # "every code has a character, no character is a surrogate, each character's own code in the encoding table reads back as it"
    if code.kind != 0 or code.meaning[0] in HIGH_SURROGATES or code.meaning[0] in LOW_SURROGATES:
        return None
    return own_code(table, code.meaning[0])


def spell_call(table, text, out):
    """ "decode, then encode": writes the spelling to the front of out and answers its length as ('length', n), or refuses: a number, or
    ('fault', place)."""
    refusal = text_refusal(table, text)
    if refusal is not None:
        return refusal
    spelling = []
    for place, code in codes_from(table, text, 0):
        part = spelled(table, code)
        # "24 with the place of the first code at fault"
        if part is None:
            return ("fault", place)
        spelling += part
    # "the spelling has at most 65,536 bytes and fits the room"; "25 the spelling is too long"
    if len(spelling) > PIECE_LIMIT or len(spelling) > len(out):
        return 25
    out[: len(spelling)] = spelling
    return ("length", len(spelling))


# ---------------------------------------------------------------------------------------------------------------
# Encoding in one buffer (document 02, CR 9)
# ---------------------------------------------------------------------------------------------------------------


def in_place_refusal(digits, table, buffer):
    """ "Checks: 17, 10, then 26 odd number of bytes, then 11 by units": the first that holds, or None."""
    if not digits_allowed(ENCODING, digits):
        return 17
    if not shape_is_good(table):
        return 10
    if len(buffer) % 2 != 0:
        return 26
    if len(buffer) // 2 > PIECE_LIMIT:
        return 11
    return None


def in_place_call(digits, table, buffer):
    """ "Encode inside it, result at the front": answers what was taken, or a refusal's number; the buffer is changed in place."""
    refusal = in_place_refusal(digits, table, buffer)
    if refusal is not None:
        return refusal
    # "a single lent buffer holding units as two bytes each, low byte first"
    units = [low + 256 * high for low, high in zip(buffer[0::2], buffer[1::2])]
    # "The result, counts and flags equal encoding from a separate buffer of ample room"
    taken = take_whole_text(ENCODING, digits, table, units, NO_END_OF_ROOM)
    # "bytes beyond the result are unchanged. Stopping leaves the result so far at the front."
    for place, byte in enumerate(taken.output):
        buffer[place] = byte
    return taken


# ---------------------------------------------------------------------------------------------------------------
# Findings (document 02, CR 7)
# ---------------------------------------------------------------------------------------------------------------


@dataclass(frozen=True)
class Finding:
    """ "place (of the first byte, from 0 ..), kind, the bytes, and the policy digit that was applied" """

    place: int
    kind: int  # the kind's flag: 1, 2 or 4
    code: tuple  # its one or two bytes
    digit: int


def findings_of(digits, table, text):
    """The codes of a byte text that have no character, "in order of place, until .. the reading ends"."""
    found = []
    for place, code in codes_from(table, text, 0):
        if code.kind == 0:
            continue
        digit = digit_for(digits, code.kind)
        found.append(Finding(place, code.kind, tuple(text[place : place + code.size]), digit))
        # "Stopping reads past the code, sets its flag and 8, writes nothing and ends the run" (document 01): it is the last finding
        if digit == 0:
            break
    return found


def findings_call(digits, table, text, out):
    """ "the tool fills a lent list of findings" and "reports the true number": answers ('findings', number, filled), or a refusal's
    number: "Checks: 17, 10, 11"."""
    refusal = one_go_refusal(DECODING, digits, table, text)
    if refusal is not None:
        return refusal
    found = findings_of(digits, table, text)
    # "until the list is full"; "Entries beyond those filled do not change"
    filled = found[: len(out)]
    out[: len(filled)] = filled
    return ("findings", len(found), len(filled))


# ---------------------------------------------------------------------------------------------------------------
# Table listings (document 02, CR 3)
# ---------------------------------------------------------------------------------------------------------------

LETTERS = "PDSLTMW"  # "Letters come in this order"


@dataclass(frozen=True)
class Record:
    """ "one record a line": its letter, the key, and what stands right of the key, if anything does"""

    letter: str
    key: int  # of `P` the page, of `D` the default byte
    right: Optional[int] = None


# "closed by a line feed, fields parted by tabs, capital hex"; "Bytes have two digits, units and codes four"
LISTED_BYTE = rb"\t([0-9A-F]{2})"
LISTED_UNIT = rb"\t([0-9A-F]{4})"
LINE_FORMS = {
    "P": rb"P\t([0-9]+)\n",
    "D": rb"D" + LISTED_BYTE + LISTED_UNIT + rb"\n",
    # "a single without a character has `-` for its unit"
    "S": rb"S" + LISTED_BYTE + rb"\t([0-9A-F]{4}|-)\n",
    "L": rb"L" + LISTED_BYTE + rb"\n",
    "T": rb"T" + LISTED_BYTE + rb"\n",
    "M": rb"M" + LISTED_UNIT + LISTED_UNIT + rb"\n",
    "W": rb"W" + LISTED_UNIT + LISTED_UNIT + rb"\n",
}


def record_of(line):
    """The record of a line, or None if it breaks the form."""
    letter = line[:1].decode("latin-1")
    fields = re.fullmatch(LINE_FORMS[letter], line) if letter in LINE_FORMS else None
    if fields is None:
        return None
    if letter == "P":
        # "the page as in a saved line": decimal with no spare zeros, 1 to 65,535
        page = plain_number(fields[1])
        return Record("P", page) if page is not None and 1 <= page <= 65535 else None
    key = int(fields[1], 16)
    if letter in "LT":
        return Record(letter, key)
    if fields[2] == b"-":
        return Record(letter, key, NONE)
    right = int(fields[2], 16)
    # "No `S`, `M` or `W` has FFFF on the right."
    return None if letter in "SMW" and right == NONE else Record(letter, key, right)


@dataclass(frozen=True)
class Reader:
    """What has been read of a listing."""

    letter: Optional[str] = None  # of the last line; None before the first
    key: int = 0  # of the last line
    page: int = 0
    default_byte: int = 0
    default_unit: int = 0
    singles: frozenset = frozenset()
    leads: tuple = ()
    seconds: frozenset = frozenset()
    high_halves: tuple = ()  # of the `W` units


def may_come(reader, record):
    """Whether a record keeps the order and the rules, by what has been read."""
    # "`P` and `D` once each": `P` is the first line and `D` the second
    if record.letter in "PD" or reader.letter in (None, "P"):
        return (reader.letter, record.letter) in ((None, "P"), ("P", "D"))
    # "Letters come in this order .. and keys rise within a letter"
    if LETTERS.index(record.letter) < LETTERS.index(reader.letter):
        return False
    if record.letter == reader.letter and record.key <= reader.key:
        return False
    # "a byte is not both `S` and `L`; no lead is below 80"
    if record.letter == "L":
        return record.key not in reader.singles and record.key >= 0x80
    # "An `M` needs its lead and second byte listed"
    if record.letter == "M":
        return record.key // 256 in reader.leads and record.key % 256 in reader.seconds
    return True


def reader_after(reader, record):
    """What has been read once the record is accepted."""
    after = replace(reader, letter=record.letter, key=record.key)
    if record.letter == "P":
        return replace(after, page=record.key)
    if record.letter == "D":
        return replace(after, default_byte=record.key, default_unit=record.right)
    if record.letter == "S":
        return replace(after, singles=reader.singles | {record.key})
    if record.letter == "L":
        return replace(after, leads=(*reader.leads, record.key))
    if record.letter == "T":
        return replace(after, seconds=reader.seconds | {record.key})
    if record.letter == "W" and record.key // 256 not in reader.high_halves:
        return replace(after, high_halves=(*reader.high_halves, record.key // 256))
    return after


def sizes_needed(reader):
    """ "classes, singles and index whole, 256 pairs for each `L`, one empty block and one more for each high half among the `W` units
    (a 256th takes the empty one)"; in the order of the tables."""
    blocks = min(1 + len(reader.high_halves), 256)
    return 256, 256, 256 * len(reader.leads), 256, 256 * blocks


def too_small(reader, lent):
    """23: "a lent table is too small for the line or the place reached". """
    return any(len(table) < size for table, size in zip(lent, sizes_needed(reader)))


def block_number(after, high):
    """The block of a high half: "new blocks .. are numbered from 1 as they come"; the 256th is the empty one, 0."""
    return (1 + after.high_halves.index(high)) % 256


def put_record(reader, after, record, lent):
    """What an accepted record does to the lent tables."""
    classes, singles, pairs, index, blocks = lent
    if record.letter == "P":
        # "An accepted `P` empties classes, singles, index (all 0) and the empty block, which is block 0"
        classes[:256], singles[:256], index[:256], blocks[:256] = [0] * 256, [NONE] * 256, [0] * 256, [NONE] * 256
    elif record.letter == "S":
        classes[record.key] = 1
        singles[record.key] = record.right
    elif record.letter == "L":
        # ".. an `L` its pairs": the lead with j leads below it uses block j
        first = 256 * len(reader.leads)
        classes[record.key] = 2
        pairs[first : first + 256] = [NONE] * 256
    elif record.letter == "T":
        classes[record.key] += 4
    elif record.letter == "M":
        pairs[256 * reader.leads.index(record.key // 256) + record.key % 256] = record.right
    elif record.letter == "W":
        high, low = divmod(record.key, 256)
        block = block_number(after, high)
        # "new blocks start empty"; the 256th is none: it stands in the empty one
        if high not in reader.high_halves and block != 0:
            blocks[256 * block : 256 * block + 256] = [NONE] * 256
        index[high] = block
        blocks[256 * block + low] = record.right


def line_call(reader, lent, line):
    """One line: the reader after it, with the tables changed in place; or 22, then 23: "the tables stay as before it"."""
    record = record_of(line)
    if record is None or not may_come(reader, record):
        return 22
    after = reader_after(reader, record)
    if too_small(after, lent):
        return 23
    put_record(reader, after, record, lent)
    return after


def end_call(reader, lent):
    """The end of a listing: the table set, each table cut to the size needed; or 22: "the end comes before `P` and `D`", then 23."""
    if reader.letter in (None, "P"):
        return 22
    if too_small(reader, lent):
        return 23
    tables = [table[:size] for table, size in zip(lent, sizes_needed(reader))]
    return TableSet(reader.page, reader.default_byte, reader.default_unit, *tables)


KEYS = {"P": 1, "D": 1, "S": 256, "L": 256, "T": 256, "M": 65536, "W": 65536}
FIRST_LINE = ("P", 0)


def record_at(table, letter, key):
    """The record of a letter and a key in a table set of good shape, or None."""
    if letter == "P":
        return Record("P", table.page)
    if letter == "D":
        return Record("D", table.default_byte, table.default_unit)
    if letter == "S":
        return Record("S", key, table.singles[key]) if table.classes[key] in SINGLES else None
    if letter == "L":
        return Record("L", key) if table.classes[key] in LEADS else None
    if letter == "T":
        return Record("T", key) if table.classes[key] in SECONDS else None
    if letter == "M":
        # the class decides: an entry that no lead and second byte reach is no record
        if table.classes[key // 256] not in LEADS or table.classes[key % 256] not in SECONDS:
            return None
        unit = read_code(table, key // 256, key % 256).meaning
        return Record("M", key, unit[0]) if unit else None
    # every unit is looked up, surrogates too
    code = table.blocks[256 * table.index[key // 256] + key % 256]
    return Record("W", key, code) if code != NONE else None


def next_record(table, place):
    """The first record from a place on as (place, record), or None; a place is a letter and a key."""
    for letter in LETTERS[LETTERS.index(place[0]) :]:
        for key in range(place[1] if letter == place[0] else 0, KEYS[letter]):
            record = record_at(table, letter, key)
            if record is not None:
                return (letter, key), record
    return None


def record_line(record):
    """The line of a record."""
    fields = [record.letter]
    if record.letter == "P":
        fields.append(str(record.key))
    else:
        fields.append(f"{record.key:0{4 if record.letter in 'MW' else 2}X}")
    if record.right is not None:
        fields.append("-" if record.letter == "S" and record.right == NONE else f"{record.right:04X}")
    return ("\t".join(fields) + "\n").encode("ascii")


def list_call(table, place, out):
    """The writer's next line, from a place on: writes it to the front of out and answers ('line', length, next place), or 'done' behind
    the last line. "The writer: 10, then 19." """
    if not shape_is_good(table):
        return 10
    found = next_record(table, place)
    if found is None:
        return "done"
    (letter, key), record = found
    line = record_line(record)
    if len(line) > len(out):
        return 19
    out[: len(line)] = line
    return ("line", len(line), (letter, key + 1))


# ---------------------------------------------------------------------------------------------------------------
# The console: the command language of docs/CONSOLE.md, and the decisions of docs/CONSOLE-NOTES.md
# ---------------------------------------------------------------------------------------------------------------

LINE_LIMIT = 400000
TEXT_LIMIT = 66000
UNITS_ROOM_LIMIT = 66000
BYTES_ROOM_LIMIT = 140000
FILE_NAME_LIMIT = 4000
HOLD_LIMIT = 300
BREAKS_LIMIT = 300
INDEX_LIMIT = 300
FINDINGS_LIMIT = 300
LISTED_LINE_LIMIT = 300
ENTRY_LIMIT = 2**31 - 1  # an entry in memory is one number of 32 bits, twice the count plus the mark
NUMBER_LIMIT = 2**64 - 1

BYTE_FILL = 0xEE
UNIT_FILL = 0xEEEE
ENTRY_FILL = Entry(UNIT_FILL, True)
# "Lent entries hold place 61,166, kind EE, two bytes EE EE (a count of EE), digit EE"
FINDING_FILL = Finding(UNIT_FILL, BYTE_FILL, (BYTE_FILL, BYTE_FILL), BYTE_FILL)


class NotACommand(Exception):
    """The line is answered '?' and changes nothing."""


def number_word(word, most):
    """A count: decimal, no spare zeros, at most `most`."""
    value = plain_number(word)
    if value is None or value > most:
        raise NotACommand
    return value


def hex_word(word, digits):
    """A run of hex with `digits` capital digits an element; '-' is the empty one."""
    if word == b"-":
        return []
    if not re.fullmatch(rb"[0-9A-F]+", word) or len(word) % digits != 0:
        raise NotACommand
    if len(word) // digits > TEXT_LIMIT:
        raise NotACommand
    return [int(word[place : place + digits], 16) for place in range(0, len(word), digits)]


def choice_word(word, choices):
    if word not in choices:
        raise NotACommand
    return choices[word]


def direction_word(word):
    return choice_word(word, {b"D": DECODING, b"E": ENCODING})


def policy_word(word):
    if not re.fullmatch(rb"[0-9]{3}", word):
        raise NotACommand
    return tuple(int(digit) for digit in word.decode("ascii"))


def carried_word(direction, word):
    """ "CARRIED in `run` and in RUN has four digits in an encoding run." """
    if not is_carried_field(direction, word):
        raise NotACommand
    return None if word == b"-" else int(word, 16)


def hex_text(elements, digits):
    if len(elements) == 0:
        return "-"
    return "".join(f"{element:0{digits}X}" for element in elements)


def run_text(run):
    """RUN: ten words."""
    digits = " ".join(str(digit) for digit in run.digits)
    word = "over" if run.ended else "on"
    return f"{run.direction} {run.page} {digits} {carried_field(run)} {run.flags} {run.read} {run.written} {word}"


def finding_text(finding):
    """ "each ENTRY as `PLACE/KIND/BYTES/DIGIT` (KIND the flag's number 1, 2, 4; BYTES hex)" """
    return f"{finding.place}/{finding.kind}/{hex_text(finding.code, 2)}/{finding.digit}"


def check_sum(elements, width):
    """ "start with 811C9DC5; for each element, for each of its bytes, the low one first: exclusive or with the byte, then times 01000193,
    modulo 2^32" """
    value = 0x811C9DC5
    for element in elements:
        for byte in element.to_bytes(width, "little"):
            value = (value ^ byte) * 0x01000193 % 2**32
    return f"{value:08X}"


def kept_text(out, written, fill):
    """'kept' if every element of the room beyond the first `written` is still the fill."""
    return "kept" if all(element == fill for element in out[written:]) else "changed"


# A table image: room of the console for each of the five tables, and bytes an element
IMAGE_ROOM = (300, 300, 33024, 300, 66048)
IMAGE_WIDTH = (1, 2, 2, 1, 2)
IMAGE_HEAD = 28


def read_image(image):
    """The table set of an image, or None if the bytes are no image."""
    if len(image) < IMAGE_HEAD:
        return None
    page, default_byte, zero1, default_unit, zero2 = struct.unpack("<HBBHH", image[:8])
    sizes = struct.unpack("<5I", image[8:IMAGE_HEAD])
    if zero1 != 0 or zero2 != 0:
        return None
    if any(size > room for size, room in zip(sizes, IMAGE_ROOM)):
        return None
    if len(image) != IMAGE_HEAD + sum(size * width for size, width in zip(sizes, IMAGE_WIDTH)):
        return None
    tables = []
    place = IMAGE_HEAD
    for size, width in zip(sizes, IMAGE_WIDTH):
        part = image[place : place + size * width]
        tables.append(list(part) if width == 1 else list(struct.unpack(f"<{size}H", part)))
        place += size * width
    return TableSet(page, default_byte, default_unit, *tables)


def read_image_file(name, folders):
    for folder in folders:
        path = os.path.join(folder, name)
        if not os.path.exists(path):
            continue
        try:
            with open(path, "rb") as file:
                return read_image(file.read())
        except OSError:
            return None
    return None


class Console:
    """Holds a table set, a byte text, a unit text, the run in hand, a field buffer (the hold) and the number of units that
    are held in it, a journal index, the lent tables and the reader of a listing, and the place of a listing's writer; answers one line
    at a time."""

    def __init__(self, folders=(".",)):
        self.folders = list(folders)
        self.table = TableSet(0, 0, 0, [], [], [], [], [])
        self.byte_text = []
        self.unit_text = []
        self.run = Run(DECODING, 0, (0, 0, 0), None, 0, 0, 0, False)
        self.hold = []
        self.held = 0
        self.index = []
        self.lent = [[], [], [], [], []]
        self.reader = Reader()
        self.writer = FIRST_LINE
        # each command with the number of words after its name, or the numbers that it may have
        self.commands = {
            b"table": (1, self.do_table),
            b"shape": (0, self.do_shape),
            b"bytes": (1, self.do_bytes),
            b"units": (1, self.do_units),
            b"fillbytes": (2, self.do_fillbytes),
            b"fillunits": (2, self.do_fillunits),
            b"start": (3, self.do_start),
            b"run": (10, self.do_run),
            b"decode": (4, self.do_decode),
            b"encode": (4, self.do_encode),
            b"decodehere": (4, self.do_decodehere),
            b"encodehere": (4, self.do_encodehere),
            b"save": (1, self.do_save),
            b"load": (1, self.do_load),
            b"convert": (5, self.do_convert),
            b"hold": (1, self.do_hold),
            b"held": (1, self.do_held),
            b"field": (3, self.do_field),
            b"standard": (0, self.do_standard),
            b"breaks": (range(3, 3 + BREAKS_LIMIT + 1), self.do_breaks),
            b"propose": (4, self.do_propose),
            b"index": (1, self.do_index),
            b"entry": (3, self.do_entry),
            b"append": (2, self.do_append),
            b"find": (2, self.do_find),
            b"spell": (3, self.do_spell),
            b"inplace": (3, self.do_inplace),
            b"findings": (4, self.do_findings),
            b"lend": (5, self.do_lend),
            b"line": (1, self.do_line),
            b"lent": (0, self.do_lent),
            b"listed": (0, self.do_listed),
            b"lister": (0, self.do_lister),
            b"list": (1, self.do_list),
        }

    def answer(self, line):
        """The answer to one line without its line feed; None for a line that is passed over."""
        if len(line) > LINE_LIMIT:
            return "?"
        if line == b"" or line.startswith(b"#"):
            return None
        words = line.split(b" ")
        try:
            if words[0] not in self.commands or b"" in words:
                raise NotACommand
            count, command = self.commands[words[0]]
            if len(words) - 1 not in (count if isinstance(count, range) else (count,)):
                raise NotACommand
            return command(*words[1:])
        except NotACommand:
            return "?"

    def do_table(self, file):
        if len(file) > FILE_NAME_LIMIT or not re.fullmatch(rb"[\x21-\x7E]+", file):
            raise NotACommand
        table = read_image_file(file.decode("ascii"), self.folders)
        if table is None:
            return "table -"
        self.table = table
        tables = (table.classes, table.singles, table.pairs, table.index, table.blocks)
        sizes = " ".join(str(len(elements)) for elements in tables)
        return f"table {table.page} {table.default_byte:02X} {table.default_unit:04X} {sizes}"

    def do_shape(self):
        return f"shape {shape_report(self.table)}"

    def do_bytes(self, text):
        self.byte_text = hex_word(text, 2)
        return f"bytes {len(self.byte_text)}"

    def do_units(self, text):
        self.unit_text = hex_word(text, 4)
        return f"units {len(self.unit_text)}"

    def fill(self, count, pattern, digits, most=TEXT_LIMIT):
        count = number_word(count, most)
        pattern = hex_word(pattern, digits)
        if not pattern:
            raise NotACommand
        return [pattern[place % len(pattern)] for place in range(count)]

    def do_fillbytes(self, count, pattern):
        self.byte_text = self.fill(count, pattern, 2)
        return f"bytes {len(self.byte_text)}"

    def do_fillunits(self, count, pattern):
        self.unit_text = self.fill(count, pattern, 4)
        return f"units {len(self.unit_text)}"

    def do_start(self, direction, page, policy):
        direction = direction_word(direction)
        page = number_word(page, 65535)
        digits = policy_word(policy)
        started = start_call(direction, page, digits)
        if started == 17:
            return "start 17"
        self.run = started
        return f"start 0 {run_text(self.run)}"

    def do_run(self, direction, page, single, pair, invalid, carried, flags, read, written, word):
        direction = direction_word(direction)
        self.run = Run(
            direction,
            number_word(page, 65535),
            (number_word(single, 255), number_word(pair, 255), number_word(invalid, 255)),
            carried_word(direction, carried),
            number_word(flags, 255),
            number_word(read, NUMBER_LIMIT),
            number_word(written, NUMBER_LIMIT),
            choice_word(word, {b"on": False, b"over": True}),
        )
        return f"run {run_text(self.run)}"

    def part_of(self, text, start, count):
        start = number_word(start, TEXT_LIMIT)
        count = number_word(count, TEXT_LIMIT)
        if start + count > len(text):
            raise NotACommand
        return text[start : start + count]

    def lent_for(self, direction):
        """The text that is read, the hex digits and the fill of an element of the output, and the most elements that it may have."""
        if direction == DECODING:
            return self.byte_text, 4, UNIT_FILL, UNITS_ROOM_LIMIT
        return self.unit_text, 2, BYTE_FILL, BYTES_ROOM_LIMIT

    def by_value(self, direction, piece, last, out):
        outcome = run_call(direction, self.run, self.table, piece, last, out)
        self.run = outcome.run
        return outcome.number, outcome.read, outcome.written

    def where_it_stands(self, direction, piece, last, out):
        record = [self.run]
        answer = run_call_here(direction, record, self.table, piece, last, out)
        self.run = record[0]
        return answer

    def run_call_text(self, direction, form, start, count, mark, room):
        text, digits, fill, most = self.lent_for(direction)
        piece = self.part_of(text, start, count)
        last = choice_word(mark, {b"more": False, b"last": True})
        out = [fill] * number_word(room, most)
        number, read, written = form(direction, piece, last, out)
        return f"{number} {read} {written} {hex_text(out[:written], digits)} {kept_text(out, written, fill)} {run_text(self.run)}"

    def do_decode(self, *words):
        return "decode " + self.run_call_text(DECODING, self.by_value, *words)

    def do_encode(self, *words):
        return "encode " + self.run_call_text(ENCODING, self.by_value, *words)

    def do_decodehere(self, *words):
        return "decodehere " + self.run_call_text(DECODING, self.where_it_stands, *words)

    def do_encodehere(self, *words):
        return "encodehere " + self.run_call_text(ENCODING, self.where_it_stands, *words)

    def do_save(self, room):
        out = [BYTE_FILL] * number_word(room, BYTES_ROOM_LIMIT)
        saved = save_call(self.run, out)
        if saved in (12, 19):
            return f"save {saved} {kept_text(out, 0, BYTE_FILL)}"
        length = saved[1]
        return f"save 0 {length} {hex_text(out[:length], 2)} {kept_text(out, length, BYTE_FILL)}"

    def do_load(self, line):
        loaded = load_call(bytes(hex_word(line, 2)))
        if loaded == 18:
            return "load 18"
        self.run = loaded
        return f"load 0 {run_text(self.run)}"

    def do_convert(self, direction, policy, start, count, room):
        direction = direction_word(direction)
        digits = policy_word(policy)
        text, width, fill, most = self.lent_for(direction)
        text = self.part_of(text, start, count)
        out = [fill] * number_word(room, most)
        converted = convert_call(direction, digits, self.table, text, out)
        if converted in (17, 10, 11):
            return f"convert {converted} {kept_text(out, 0, fill)}"
        written = hex_text(out[: converted.written], width)
        kept = kept_text(out, converted.written, fill)
        numbers = f"{converted.number} {converted.flags} {converted.read} {converted.need} {converted.written}"
        return f"convert {numbers} {written} {kept}"

    def do_hold(self, size):
        self.hold = [UNIT_FILL] * number_word(size, HOLD_LIMIT)
        self.held = 0
        return f"hold {len(self.hold)}"

    def do_held(self, count):
        self.held = number_word(count, NUMBER_LIMIT)
        return f"held {self.held}"

    def do_field(self, start, count, mark):
        block = self.part_of(self.unit_text, start, count)
        last = choice_word(mark, {b"more": False, b"last": True})
        outcome = field_call(self.held, self.hold, block, last)
        if outcome in (20, 11, 27, 21):
            answer = str(outcome)
        else:
            self.held = outcome.held
            if outcome.end is None:
                answer = f"held {outcome.read}"
            else:
                source = "hold" if outcome.from_hold else "block"
                answer = f"{outcome.end} {outcome.read} {source} {hex_text(outcome.units, 4)}"
        return f"field {answer} {self.held} {hex_text(self.hold, 4)}"

    def do_standard(self):
        """CR 4: "the digits of the standard policy". """
        return "standard " + " ".join(str(digit) for digit in STANDARD)

    def do_breaks(self, width, start, count, *breaks):
        width = number_word(width, NUMBER_LIMIT)
        text = self.part_of(self.byte_text, start, count)
        breaks = [number_word(place, NUMBER_LIMIT) for place in breaks]
        return f"breaks {breaks_call(self.table, text, width, breaks)}"

    def do_propose(self, width, start, count, size):
        width = number_word(width, NUMBER_LIMIT)
        text = self.part_of(self.byte_text, start, count)
        out = [UNIT_FILL] * number_word(size, BREAKS_LIMIT)
        proposed = propose_call(self.table, text, width, out)
        if proposed in (10, 11, 31, 32):
            return f"propose {proposed} {kept_text(out, 0, UNIT_FILL)}"
        total = proposed[1]
        words = [total, *out[:total], kept_text(out, total, UNIT_FILL)]
        return "propose 0 " + " ".join(str(word) for word in words)

    def do_index(self, size):
        self.index = [ENTRY_FILL] * number_word(size, INDEX_LIMIT)
        return f"index {len(self.index)}"

    def do_entry(self, place, count, mark):
        place = number_word(place, len(self.index) - 1)
        self.index[place] = Entry(number_word(count, ENTRY_LIMIT), choice_word(mark, {b"0": False, b"1": True}))
        return f"entry {place}"

    def do_append(self, former, count):
        former = number_word(former, NUMBER_LIMIT)
        journal = self.part_of(self.byte_text, b"0", count)
        number = append_call(self.table, journal, former, self.index)
        entries = " ".join(f"{entry.count}/{int(entry.mark)}" for entry in self.index)
        return f"append {number} {entries or '-'}"

    def do_find(self, number, count):
        number = number_word(number, NUMBER_LIMIT)
        journal = self.part_of(self.byte_text, b"0", count)
        found = find_call(self.table, journal, self.index, number)
        if found in (10, 11, 28, 29):
            return f"find {found}"
        return f"find 0 {found[1]} {found[2]}"

    def do_spell(self, start, count, room):
        text = self.part_of(self.byte_text, start, count)
        out = [BYTE_FILL] * number_word(room, BYTES_ROOM_LIMIT)
        answer = spell_call(self.table, text, out)
        if answer in (10, 11, 25):
            return f"spell {answer} {kept_text(out, 0, BYTE_FILL)}"
        kind, number = answer
        if kind == "fault":
            return f"spell 24 {number} {kept_text(out, 0, BYTE_FILL)}"
        return f"spell 0 {number} {hex_text(out[:number], 2)} {kept_text(out, number, BYTE_FILL)}"

    def do_inplace(self, policy, count, pattern):
        digits = policy_word(policy)
        # "COUNT 0 takes `-`"
        before = [] if (count, pattern) == (b"0", b"-") else self.fill(count, pattern, 2, BYTES_ROOM_LIMIT)
        buffer = list(before)
        taken = in_place_call(digits, self.table, buffer)
        written = 0 if isinstance(taken, int) else len(taken.output)
        kept = "kept" if buffer[written:] == before[written:] else "changed"
        if isinstance(taken, int):
            return f"inplace {taken} {kept}"
        return f"inplace {taken.number} {taken.flags} {taken.read} {written} {hex_text(buffer[:written], 2)} {kept}"

    def do_findings(self, policy, start, count, size):
        digits = policy_word(policy)
        text = self.part_of(self.byte_text, start, count)
        out = [FINDING_FILL] * number_word(size, FINDINGS_LIMIT)
        answer = findings_call(digits, self.table, text, out)
        if answer in (17, 10, 11):
            return f"findings {answer} {kept_text(out, 0, FINDING_FILL)}"
        _, total, filled = answer
        words = [total, filled, *map(finding_text, out[:filled]), kept_text(out, filled, FINDING_FILL)]
        return "findings 0 " + " ".join(str(word) for word in words)

    def do_lend(self, *sizes):
        sizes = [number_word(size, most) for size, most in zip(sizes, IMAGE_ROOM)]
        self.lent = [[BYTE_FILL if width == 1 else UNIT_FILL] * size for size, width in zip(sizes, IMAGE_WIDTH)]
        self.reader = Reader()
        return "lend " + " ".join(str(size) for size in sizes)

    def do_line(self, line):
        answer = line_call(self.reader, self.lent, bytes(hex_word(line, 2)))
        if answer in (22, 23):
            return f"line {answer}"
        self.reader = answer
        return "line 0"

    def do_lent(self):
        return "lent " + " ".join(check_sum(table, width) for table, width in zip(self.lent, IMAGE_WIDTH))

    def do_listed(self):
        answer = end_call(self.reader, self.lent)
        if answer in (22, 23):
            return f"listed {answer}"
        self.table = answer
        numbers = f"{answer.page} {answer.default_byte:02X} {answer.default_unit:04X}"
        return f"listed 0 {numbers} {len(answer.pairs)} {len(answer.blocks)}"

    def do_lister(self):
        self.writer = FIRST_LINE
        return "lister"

    def do_list(self, room):
        out = [BYTE_FILL] * number_word(room, LISTED_LINE_LIMIT)
        answer = list_call(self.table, self.writer, out)
        if answer in (10, 19, "done"):
            return f"list {answer} {kept_text(out, 0, BYTE_FILL)}"
        _, length, self.writer = answer
        return f"list 0 {length} {hex_text(out[:length], 2)} {kept_text(out, length, BYTE_FILL)}"


def script_lines(script):
    """The lines of a script: each ends at a line feed; what follows the last one, if anything, is a line too."""
    lines = script.split(b"\n")
    if lines[-1] == b"":
        lines.pop()
    return lines


def play(script, folders=(".",)):
    """The answers to a whole script (bytes in, bytes out)."""
    console = Console(folders)
    answers = (console.answer(line) for line in script_lines(script))
    return "".join(answer + "\n" for answer in answers if answer is not None).encode("ascii")


def main():
    parser = argparse.ArgumentParser(description="Plays a console script by the rules of documents 01 and 02.")
    parser.add_argument("--folder", action="append", help="where the script's table images are (may be repeated)")
    parser.add_argument("script", nargs="?", help="the script; standard input if not given")
    options = parser.parse_args()
    if options.script is None:
        script = sys.stdin.buffer.read()
    else:
        try:
            with open(options.script, "rb") as file:
                script = file.read()
        except OSError as error:
            sys.exit(f"second_converter: can't read the script {options.script}: {error.strerror}")
    sys.stdout.buffer.write(play(script, options.folder or ["."]))


if __name__ == "__main__":
    main()
