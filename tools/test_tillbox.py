#!/usr/bin/env python3
"""Tests of tillbox on files: what it says, what it leaves untouched, where it goes on.

    test_tillbox.py [--tillbox PROGRAM]

Each test works in a folder of its own. Expected texts and lines are written by hand, from documents 01 and 02 and README.md.
Prints 'N passed, M failed'; the exit status is 0 exactly if none failed.
"""

import argparse
import csv
import io
import os
import random
import re
import resource
import shutil
import signal
import struct
import subprocess
import sys
import tempfile
import time

import second_converter
import slow_clock
import table_image
from fixed_scripts import double_codes, edited

ROOT = os.path.dirname(os.path.dirname(os.path.abspath(__file__)))
TABLES = os.path.join(ROOT, "tables")
SAMPLES = os.path.join(ROOT, "samples")
PROGRAM = os.path.join(ROOT, "target", "tillbox")


def write(name, content):
    with open(name, "wb") as file:
        file.write(content)


def read(name):
    with open(name, "rb") as file:
        return file.read()


def line(text):
    """A saved line, written with blanks for its tabs."""
    return text.replace(" ", "\t").encode() + b"\n"


def equal(got, wanted, what):
    if got != wanted:
        raise AssertionError(f"{what}: got {got!r}, wanted {wanted!r}")


COUNTED = "tillbox: replaced or skipped: "
STATUS = {"done": 0, "failed": 1, "stopped": 2}


# What a program is run with whose clock shows another second at each look: a line is saved after every 128 blocks.
SLOW = None


def tillbox(*words, word="done", says=None, limit=None, status=None, env=None):
    """Runs tillbox; its last word, the exit status that belongs to it, and what it says if that is given, must be as expected. The
    line that counts codes by kind is looked at by its own tests."""

    def prepare():
        if limit is not None:
            resource.setrlimit(resource.RLIMIT_FSIZE, (limit, limit))

    got = subprocess.run([PROGRAM, *words], capture_output=True, preexec_fn=prepare, restore_signals=False, timeout=60, env=env)
    equal(got.stdout.decode(), word + "\n" if word else "", f"last word of {words}")
    if word:
        equal(got.returncode, STATUS[word.split("\n")[-1]] if status is None else status, f"exit status of {words}")
    if says is not None:
        said = "".join(text for text in got.stderr.decode().splitlines(True) if not text.startswith(COUNTED))
        equal(said, "".join(f"tillbox: {text}\n" if not text.startswith("  ") else text + "\n" for text in says), f"words of {words}")
    return got.stderr.decode()


def refused(*words, says):
    """A call that fails leaves every file as it was."""
    before = {name: read(name) for name in os.listdir(".") if os.path.isfile(name) and name != "huge"}
    tillbox(*words, word="failed", says=says)
    after = {name: read(name) for name in os.listdir(".") if os.path.isfile(name) and name != "huge"}
    equal(after, before, f"files after {words}")


def units_text(*units):
    """Units as a file has them."""
    return struct.pack(f"<{len(units)}H", *units)


def remove(*names):
    for name in names:
        if os.path.exists(name):
            os.remove(name)


FLAG_NAMES = ("undefined single", "undefined pair", "invalid", "stopped")


def flags_text(flags):
    return ", ".join(name for place, name in enumerate(FLAG_NAMES) if flags >> place & 1) or "none"


def flags_line(names):
    """The flags by name, and their number behind them."""
    number = 0 if names == "none" else sum(1 << FLAG_NAMES.index(name) for name in names.split(", "))
    return f"flags: {names} ({number})"


def summary(
    read_total, written, flags="none", pending="nothing", state="the run has ended", units=("bytes", "units"), stop=()
):
    totals = f"read {read_total} {units[0]}, written {written} {units[1]}"
    return [totals, flags_line(flags), f"pending: {pending}", *stop, state]


SINGLE, PAIR, INVALID = "an undefined single", "an undefined pair", "an invalid code"
# The flags of a run that was stopped by such a code, the first one without a character.
STOPPED_BY = {SINGLE: 9, PAIR: 10, INVALID: 12}


def how_to_go_on(checkpoint=None):
    lines = ["to go on, mend the input there, or call again with policy 555, which writes the table's default for such a code"]
    if checkpoint is not None:
        lines.append(f"the run of the checkpoint has ended: remove {checkpoint} before you call again")
    return lines


def stopped(policy, place, code, kind, where="byte", checkpoint=None):
    """What is said of a run that stopped in this call: the place of its code's first byte or unit, the code and its kind."""
    return [f"stopped by policy {policy} at {where} {place}, counted from 0: {code}, {kind}", *how_to_go_on(checkpoint)]


def other_run(what, asked):
    """What is said of a line of another direction or page."""
    return [
        "error 13: the run is of the other direction or of another page (checkpoint)",
        f"  the line is of a run {what}; asked for is {asked}",
        "  Name the command and the table that the checkpoint was begun with, or another checkpoint.",
    ]


def more_input(read_total, total, where="byte"):
    """What is said of a run that has ended where there is more input."""
    return f"  it has read {read_total} of the {total} {where}s that are there now"


def stopped_before(policy, place, where="byte", checkpoint="checkpoint"):
    """The same where the run of the checkpoint had stopped in an earlier call."""
    return [f"stopped by policy {policy}; the next unread {where} is at {place}, counted from 0", *how_to_go_on(checkpoint)]


# ---------------------------------------------------------------------------------------------------------------
# The words of a call
# ---------------------------------------------------------------------------------------------------------------


def test_help_goes_to_standard_output():
    got = subprocess.run([PROGRAM, "help"], capture_output=True)
    equal(got.stderr, b"", "standard error")
    text = got.stdout.decode()
    for part in (
        "tillbox decode [last] [policy DDD] TABLE JOURNAL LEDGER [CHECKPOINT]\n",
        "tillbox encode [last] [policy DDD] TABLE LEDGER RECEIPT [CHECKPOINT]\n",
        "tillbox import [policy DDD] TABLE JOURNAL RECORDS\n",
        "  tillbox why [policy DDD] [context] TABLE JOURNAL\n",
        "  tillbox preview [width N] TABLE LEDGER RECEIPT\n",
        "  tillbox spell TABLE NAMES SPELLINGS\n",
        "tillbox shape TABLE\n",
        "  tillbox listing TABLE LISTING\n",
        "  tillbox table LISTING TABLE\n",
        # the standard, and what gets through
        "550",
        "555",
        "done (all is read)",
        "The exit status is 0 done, 1 failed, 2 stopped, 64 wrong words.\n",
    ):
        if part not in text:
            raise AssertionError(f"help without {part!r}")


def test_man_page_has_the_calls_of_help():
    """The synopsis of man/tillbox.1 is, line by line, the list of calls that `tillbox help` begins with."""
    help_text = subprocess.run([PROGRAM, "help"], capture_output=True).stdout.decode()
    calls = [line[2:] for line in help_text.split("\n\n")[1].split("\n")]
    with open(os.path.join(ROOT, "man", "tillbox.1"), encoding="utf-8") as page:
        text = page.read()
    synopsis = text.split(".SH SYNOPSIS\n.nf\n")[1].split("\n.fi\n")[0].split("\n")
    equal(synopsis, calls, "the synopsis of the man page")
    for command in ("decode", "encode", "import", "why", "preview", "spell", "shape", "listing", "table"):
        if f".B {command}\n" not in text:
            raise AssertionError(f"the man page does not tell of {command}")


def test_other_words_for_help_and_the_version():
    help_text = subprocess.run([PROGRAM, "help"], capture_output=True).stdout
    for word in ("--help", "-h"):
        got = subprocess.run([PROGRAM, word], capture_output=True)
        equal((got.stdout, got.stderr), (help_text, b""), word)
    got = subprocess.run([PROGRAM, "--version"], capture_output=True)
    equal(got.stdout, b"tillbox, by document 01 with the change requests 1, 2, 3, 4, 5, 6, 7, 8, 10 and 12\n", "the version")


def test_a_byte_order_mark_is_told():
    """It is a character of the text: page 932 has none for it, so it is replaced. In the middle it is not told."""
    note = "note: the ledger begins with a byte order mark (FEFF), which is encoded as a character"
    write("units", units_text(0xFEFF, 0x41))
    tillbox("encode", "cp932.tbl", "units", "receipt", says=[note, *encoded(2, 2, flags="undefined single")])
    equal(read("receipt"), b"?A", "the receipt")
    tillbox("preview", "cp932.tbl", "units", "receipt", says=[note, *previewed(2, 2, 1, flags="undefined single")])
    said = tillbox("preview", "width", "9", "cp932.tbl", "units", "receipt")
    equal((said.count(note), read("receipt")), (1, b"?A\n"), "the note, and the receipt in lines")
    write("units", units_text(0x41, 0xFEFF))
    tillbox("encode", "cp932.tbl", "units", "receipt", says=encoded(2, 2, flags="undefined single"))


def test_closed_descriptors():
    """No message is written into a file of the job, whichever of the three descriptors are closed."""
    write("journal", b"A\x93\xfa\n")
    wanted = "A\u65e5\n".encode("utf-16le")
    for closed in ((1,), (2,), (0,), (1, 2), (0, 1), (0, 2), (0, 1, 2)):
        words = " ".join(f"{n}<&-" for n in closed)
        for names, checkpoint in (("ledger", None), ("ledger checkpoint", "checkpoint")):
            for name in ("ledger", "checkpoint"):
                if os.path.exists(name):
                    os.remove(name)
            subprocess.run(["bash", "-c", f'exec "$0" decode last cp932.tbl journal {names} {words}', PROGRAM], stdout=subprocess.DEVNULL, stderr=subprocess.DEVNULL)
            equal(read("ledger"), wanted, f"the ledger with {closed} closed")
            if checkpoint:
                equal(read("checkpoint"), line("D 932 550 - 0 4 3 over"), f"the line with {closed} closed")
            equal(read("journal"), b"A\x93\xfa\n", f"the journal with {closed} closed")


NO_WORDS = "preview takes no policy and no last: it encodes the whole ledger, under policy 555"
NO_WIDTH = "a width is a number of 1 to 65,536"


def misused(words, text):
    """A call that fails for its words says what is wrong with them, and how to call."""
    said = tillbox(*words, word="failed", status=64)
    equal(said.split("\n")[0], f"tillbox: error: {text}", f"first line of {words}")
    equal(said.split("\n")[1:], ["tillbox: the words of a call: tillbox help", ""], f"the lines after it of {words}")


def test_misuse_says_how_to_call():
    for words, text in [
        ([], "a command is asked for"),
        (["convert"], "no such command"),
        (["decode", "a.tbl", "journal"], "three or four names of files are asked for"),
        (["decode", "last", "a", "b", "c", "d", "e"], "three or four names of files are asked for"),
        (["decode", "policy", "55", "a", "b", "c"], "a policy is three digits"),
        (["decode", "policy", "5555", "a", "b", "c"], "a policy is three digits"),
        (["encode", "last", "policy", "5x5", "a", "b", "c"], "a policy is three digits"),
        (["shape"], "one name of a file is asked for"),
        (["import", "a.tbl", "journal"], "three names of files are asked for"),
        (["import", "a.tbl", "journal", "records", "checkpoint"], "three names of files are asked for"),
        (["import", "policy", "55", "a.tbl", "journal", "records"], "a policy is three digits"),
        (["import", "last", "a.tbl", "journal", "records"], "import has no word last: the journal is complete"),
        (["why"], "two names of files are asked for"),
        (["why", "a.tbl"], "two names of files are asked for"),
        (["why", "a.tbl", "journal", "findings"], "two names of files are asked for"),
        (["why", "last", "a.tbl", "journal"], "two names of files are asked for"),
        (["why", "context", "policy", "55", "a.tbl", "journal"], "a policy is three digits"),
        (["why", "policy", "5x5", "context", "a.tbl", "journal"], "a policy is three digits"),
        (["spell"], "three names of files are asked for"),
        (["spell", "a.tbl", "names"], "three names of files are asked for"),
        (["spell", "a.tbl", "names", "spellings", "checkpoint"], "three names of files are asked for"),
        (["spell", "policy", "555", "a.tbl", "names", "spellings"], "three names of files are asked for"),
        (["listing"], "two names of files are asked for"),
        (["listing", "a.tbl"], "two names of files are asked for"),
        (["listing", "a.tbl", "listing", "checkpoint"], "two names of files are asked for"),
        (["table"], "two names of files are asked for"),
        (["table", "listing"], "two names of files are asked for"),
        (["table", "policy", "555", "listing", "a.tbl"], "two names of files are asked for"),
        (["preview"], "three names of files are asked for"),
        (["preview", "a.tbl", "ledger"], "three names of files are asked for"),
        (["preview", "a.tbl", "ledger", "receipt", "checkpoint"], "three names of files are asked for"),
        (["preview", "last", "a.tbl", "ledger", "receipt"], NO_WORDS),
        (["preview", "policy", "555", "a.tbl", "ledger", "receipt"], NO_WORDS),
        (["preview", "policy", "550", "a.tbl", "ledger", "receipt"], NO_WORDS),
        (["preview", "last", "policy", "555", "a.tbl", "ledger", "receipt"], NO_WORDS),
        (["preview", "policy", "555", "last", "a.tbl", "ledger", "receipt"], NO_WORDS),
        (["preview", "width", "5", "policy", "555", "a.tbl", "ledger", "receipt"], NO_WORDS),
        (["preview", "width", "5", "last", "a.tbl", "ledger", "receipt"], NO_WORDS),
    ]:
        misused(words, text)


def test_misuse_of_width():
    for words, text in [
        (["preview", "width", "5", "a.tbl", "ledger"], "three names of files are asked for"),
        (["preview", "width", "5", "a.tbl", "ledger", "receipt", "checkpoint"], "three names of files are asked for"),
        (["preview", "width", "a.tbl", "ledger", "receipt"], NO_WIDTH),
        *((["preview", "width", width, "a.tbl", "ledger", "receipt"], NO_WIDTH) for width in (
            "0", "65537", "01", "00", "065536", "+1", "-1", "1x", "x1", "", " 1", "1 ", "1.0", "0x5", "65,536", "655360", "99999",
            "4294967297", "18446744073709551617", "9" * 40, "\uff15",
        )),
    ]:
        misused(words, text)


def test_exit_status():
    """For scripts: 0 done, 1 failed, 2 stopped, 64 wrong words."""
    for words, status in (
        (["help"], 0),
        (["--help"], 0),
        (["-h"], 0),
        (["--version"], 0),
        ([], 64),
        (["convert"], 64),
        (["decode", "cp932.tbl", "journal"], 64),
        (["preview", "width", "0", "cp932.tbl", "journal", "receipt"], 64),
        (["shape", "cp932.tbl"], 0),
        (["shape", "journal"], 1),
        (["decode", "cp932.tbl", "journal", "ledger"], 0),
        (["decode", "cp932.tbl", "none", "ledger"], 1),
        (["decode", "cp932.tbl", "broken", "ledger"], 2),
        (["decode", "last", "cp932.tbl", "broken", "ledger", "checkpoint"], 2),
        # the run has ended, and there is more to read
        (["decode", "last", "cp932.tbl", "broken", "ledger", "checkpoint"], 1),
        (["import", "policy", "550", "cp932.tbl", "broken", "records"], 2),
        (["import", "cp932.tbl", "broken", "records"], 0),
        (["import", "cp932.tbl", "long", "records"], 1),
        (["why", "cp932.tbl", "broken"], 0),
        (["why", "policy", "550", "cp932.tbl", "broken"], 2),
        (["why", "policy", "557", "cp932.tbl", "broken"], 1),
        (["listing", "cp932.tbl", "listing"], 0),
        (["listing", "journal", "listing"], 1),
        (["table", "listing", "made.tbl"], 0),
        (["table", "broken", "made.tbl"], 1),
        (["table", "listing"], 64),
    ):
        write("broken", b"tea \x82\n")
        write("long", b"x" * 300)
        equal(subprocess.run([PROGRAM, *words], capture_output=True).returncode, status, f"exit status of {words}")


def test_a_small_stack():
    """128 KiB of stack are enough for every command and every table; the list of breaks of a preview with a width needs some more."""
    units = "茶 tea (green) 表ソ能\n".encode("utf-16le") * 3000 + b"a\0" * 70000
    write("units", units)
    write("journal", "茶|tea|表ソ能\n".encode("cp932") * 3000)
    write("names", "茶|tea|表ソ能\n".encode("cp932") * 3000 + OTHER * 32768)
    write("damaged", "茶|tea|\n".encode("cp932") * 8000 + b"\x82|" * 2000)

    def small(size):
        resource.setrlimit(resource.RLIMIT_STACK, (size * 1024, size * 1024))

    for words in (
        ["decode", "cp932.tbl", "journal", "ledger"],
        ["decode", "last", "cp932.tbl", "journal", "ledger", "checkpoint"],
        ["encode", "cp932.tbl", "units", "receipt"],
        ["import", "cp932.tbl", "journal", "records"],
        ["preview", "cp932.tbl", "units", "receipt"],
        ["preview", "width", "9", "cp932.tbl", "units", "receipt"],
        ["spell", "cp932.tbl", "names", "spellings"],
        ["why", "cp932.tbl", "damaged"],
        ["why", "context", "cp932.tbl", "damaged"],
        ["listing", "cp932.tbl", "listing"],
        ["table", "listing", "made.tbl"],
        *(["shape", os.path.join(TABLES, name)] for name in sorted(os.listdir(TABLES)) if name.endswith(".tbl")),
    ):
        size = 128
        got = subprocess.run([PROGRAM, *words], capture_output=True, preexec_fn=lambda: small(size), env={})
        equal((got.returncode, got.stdout.endswith(b"done\n")), (0, True), f"{words} with a stack of {size} KiB: {got.stderr[-300:]}")


def test_empty_name():
    refused("decode", "cp932.tbl", "", "ledger", says=["error: the name of a file is empty or too long"])


# ---------------------------------------------------------------------------------------------------------------
# Files and tables
# ---------------------------------------------------------------------------------------------------------------


def test_missing_files():
    write("ledger", b"kept")
    missing = "No such file or directory"
    refused("decode", "none.tbl", "journal", "ledger", says=[f"error: cannot open none.tbl: {missing}"])
    refused("decode", "cp932.tbl", "none", "ledger", says=[f"error: cannot open none: {missing}"])
    refused("decode", "cp932.tbl", "journal", "none/ledger", says=[f"error: cannot make none/ledger: {missing}"])
    refused("shape", "none.tbl", says=[f"error: cannot open none.tbl: {missing}"])


def test_names_that_are_no_text():
    """The library takes a name as UTF-8 text: one that is none is refused in words, and nothing is made."""
    write("journal", b"tea\n")
    for words, text in (
        ((b"t\xff.tbl", b"journal", b"ledger"), b"open t\xff.tbl"),
        ((b"cp932.tbl", b"in\xff", b"ledger"), b"open in\xff"),
        ((b"cp932.tbl", b"journal", b"out\xff"), b"make out\xff"),
    ):
        before = sorted(os.listdir(b"."))
        got = subprocess.run([os.fsencode(PROGRAM), b"decode", *words], capture_output=True, timeout=60)
        equal((got.returncode, got.stdout), (1, b"failed\n"), f"the end of {words}")
        equal(got.stderr, b"tillbox: error: cannot " + text + b": the name is no text in UTF-8\n", f"what {words} says")
        equal(sorted(os.listdir(b".")), before, f"the files after {words}")


NO_PLAIN_FILE = "it is no plain file, but a folder, a pipe or a device"


def test_what_is_no_plain_file():
    """It is refused by its name before it is opened: a pipe would wait for ever. What takes everything can be an output."""
    os.mkdir("folder")
    os.mkfifo("pipe")
    write("ledger", b"kept")
    for name in ("folder", "pipe", "/dev/zero", "/dev/full"):
        says = [f"error: {name}: {NO_PLAIN_FILE}"]
        refused("decode", "cp932.tbl", name, "ledger", says=says)
        refused("decode", name, "journal", "ledger", says=says)
        refused("decode", "cp932.tbl", "journal", name, says=says)
        refused("decode", "cp932.tbl", "journal", "ledger", name, says=says)
        refused("import", "cp932.tbl", "journal", name, says=says)
        refused("preview", "cp932.tbl", name, "receipt", says=says)
        refused("shape", name, says=says)
    for name in ("checkpoint.new", "checkpoint.lock"):
        os.mkfifo(name)
        refused("decode", "cp932.tbl", "journal", "ledger", "checkpoint", says=[f"error: {name}: {NO_PLAIN_FILE}"])
        os.remove(name)
    refused("decode", "cp932.tbl", "/dev/null", "ledger", says=[f"error: /dev/null: {NO_PLAIN_FILE}"])
    write("journal", b"tea\n")
    tillbox("decode", "cp932.tbl", "journal", "/dev/null", says=summary(4, 4))
    os.symlink("/dev/null", "nothing")
    tillbox("decode", "cp932.tbl", "journal", "nothing", says=summary(4, 4))


def test_no_table_image():
    write("bad.tbl", b"no table")
    write("long.tbl", read("cp932.tbl") + b"\0")
    for name in ("bad.tbl", "long.tbl"):
        refused("decode", name, "journal", "ledger", says=[f"error: {name}: it is not a table image"])
        refused("shape", name, says=[f"error: {name}: it is not a table image"])


def test_bad_shape():
    image = bytearray(read("cp932.tbl"))
    image[28 + 0x41] = 2
    write("lead.tbl", image)
    image = bytearray(read("cp932.tbl"))
    image[28 + 0xFF] = 3
    write("class.tbl", image)
    image = bytearray(read("cp1252.tbl"))
    image[0:2] = b"\0\0"
    write("page.tbl", image)
    write("ledger", b"kept")
    for name, place in [
        ("page.tbl", "the page is 0"),
        ("lead.tbl", "the table of pairs has another size than 256 for each lead byte"),
        ("class.tbl", "the class at FF is none of 0, 1, 2, 4, 5, 6"),
    ]:
        refused("decode", name, "journal", "ledger", says=[f"error 10: the shape of the tables is not good ({name})", f"  the first bad place: {place}"])
    tillbox("shape", "class.tbl", word="page 932: the class at FF is none of 0, 1, 2, 4, 5, 6\nfailed", says=[])
    tillbox("shape", "cp932.tbl", word=f"page 932: good\n{held('cp932.tbl')}\ndone", says=[])


def held(name):
    """How much a table set holds, counted by the rules of document 01."""
    table = second_converter.read_image_file(name, [""])
    single = sum(1 for byte in range(256) if table.classes[byte] in (1, 5) and table.singles[byte] != 0xFFFF)
    pairs = sum(1 for place, unit in enumerate(table.pairs) if table.classes[place % 256] >= 4 and unit != 0xFFFF)
    units = [unit for unit in range(65536) if not 0xD800 <= unit <= 0xDFFF and table.blocks[256 * table.index[unit // 256] + unit % 256] != 0xFFFF]
    return f"codes with a character: {single} of one byte, {pairs} of two bytes; characters with a code: {len(units)}"


def test_what_a_table_holds():
    for name in sorted(os.listdir(TABLES)):
        if name.endswith(".tbl"):
            path = os.path.join(TABLES, name)
            page = struct.unpack("<H", read(path)[:2])[0]
            tillbox("shape", path, word=f"page {page}: good\n{held(path)}\ndone", says=[])


def test_names_are_apart():
    twice = "two of the files have this name"
    refused("decode", "cp932.tbl", "journal", "journal", says=[f"error: journal: {twice}"])
    refused("decode", "cp932.tbl", "journal", "cp932.tbl", says=[f"error: cp932.tbl: {twice}"])
    refused("decode", "cp932.tbl", "journal", "ledger", "journal", says=[f"error: journal: {twice}"])
    refused("decode", "cp932.tbl", "journal", "ledger", "ledger", says=[f"error: ledger: {twice}"])
    refused("decode", "cp932.tbl", "journal", "ledger.new", "ledger", says=[f"error: ledger.new: {twice}"])


def test_two_names_of_one_file():
    """Files are told apart by device and number, not by name: nothing is emptied, cut or removed."""
    os.mkdir("folder")
    os.link("journal", "hard")
    os.symlink("journal", "soft")
    for name in ("./journal", "folder/../journal", os.path.abspath("journal"), "hard", "soft"):
        says = [f"error: {name}: it is the same file as journal"]
        refused("decode", "cp932.tbl", "journal", name, says=says)
        refused("decode", "cp932.tbl", "journal", name, "checkpoint", says=says)
        refused("import", "cp932.tbl", "journal", name, says=says)
        refused("preview", "cp932.tbl", "journal", name, says=says)
        refused("spell", "cp932.tbl", "journal", name, says=says)
        refused("decode", "cp932.tbl", name, "journal", says=[f"error: journal: it is the same file as {name}"])
        if name != "soft":
            refused("decode", "cp932.tbl", "journal", "ledger", name, says=says)
    refused("decode", "cp932.tbl", "journal", "./cp932.tbl", says=["error: ./cp932.tbl: it is the same file as cp932.tbl"])
    refused("import", "cp932.tbl", "journal", "./cp932.tbl", says=["error: ./cp932.tbl: it is the same file as cp932.tbl"])
    refused("decode", "cp932.tbl", "journal", "ledger", "./cp932.tbl", says=["error: ./cp932.tbl: it is the same file as cp932.tbl"])


def test_two_names_of_a_file_that_is_not_there_yet():
    os.mkdir("folder")
    os.symlink("folder", "way")
    for output, checkpoint in (("ledger", "./ledger"), ("./ledger", "ledger"), ("folder/ledger", "way/ledger"), ("folder/ledger", "folder//ledger")):
        refused("decode", "cp932.tbl", "journal", output, checkpoint, says=[f"error: {checkpoint}: it is the same file as {output}"])
        equal(os.path.exists(output), False, f"{output} is there")
    # the same name in two folders is of two files
    tillbox("decode", "cp932.tbl", "journal", "folder/ledger", "ledger")
    remove("ledger", "folder/ledger")
    # a link to nothing can't be told apart from what it names
    os.symlink("ledger", "soft")
    refused("decode", "cp932.tbl", "journal", "soft", says=["error: soft: it is a link to a file that is not there"])
    refused("decode", "cp932.tbl", "journal", "ledger", "soft", says=["error: soft: it is a link; name the file itself"])
    equal(os.path.exists("ledger"), False, "the ledger is there")


def test_files_beside_the_checkpoint():
    """The new file that takes the checkpoint's place, and the lock, are made and removed: they are no other files of the job."""
    for name in ("checkpoint.new", "checkpoint.lock"):
        shutil.copy("journal", name)
        says = [f"error: {name}: it is the same file as ./{name}"]
        refused("decode", "cp932.tbl", "./" + name, "ledger", "checkpoint", says=says)
        refused("decode", "cp932.tbl", "journal", "./" + name, "checkpoint", says=says)
        shutil.copy("cp932.tbl", name)
        refused("decode", "./" + name, "journal", "ledger", "checkpoint", says=says)
        remove(name)
        os.link("journal", name)
        refused("decode", "cp932.tbl", "journal", "ledger", "checkpoint", says=[f"error: {name}: it is the same file as journal"])
        remove(name)
        refused("decode", "cp932.tbl", "journal", "./" + name, "checkpoint", says=says)
    tillbox("decode", "cp932.tbl", "journal", "ledger", "checkpoint")
    os.rename("checkpoint", "line")
    os.symlink("line", "checkpoint")
    refused("decode", "cp932.tbl", "journal", "ledger", "checkpoint", says=["error: checkpoint: it is a link; name the file itself"])


# ---------------------------------------------------------------------------------------------------------------
# One job at a time
# ---------------------------------------------------------------------------------------------------------------


def at_work(process):
    return [f"error: checkpoint: another job (process {process}) is at work on this checkpoint"]


def halted(*words):
    """A job that is halted after its first lines, its checkpoint's lock in its hands."""
    job = subprocess.Popen([PROGRAM, *words], stdout=subprocess.DEVNULL, stderr=subprocess.DEVNULL, env=SLOW)
    while not os.path.exists("checkpoint") and job.poll() is None:
        time.sleep(0.001)
    job.send_signal(signal.SIGSTOP)
    equal(job.poll(), None, "a long job has ended")
    return job


JOB = ("decode", "last", "cp932.tbl", "journal", "ledger", "checkpoint")


def test_one_job_at_a_time():
    """A job whose checkpoint another one works on changes nothing; a job that was killed is not in the way."""
    write("journal", b"tea \x93\xfa\n" * 3000000)
    for waited in (True, False):
        job = halted(*JOB)
        refused(*JOB, says=at_work(job.pid))
        job.kill()
        if waited:
            job.wait()
        # a killed process keeps its number until somebody asks how it ended
        tillbox(*JOB, says=None)
        job.wait()
        equal(len(read("ledger")), 2 * 6 * 3000000, "the ledger's length")
        equal(read("checkpoint"), line("D 932 550 - 0 21000000 18000000 over"), "the line")
        equal(os.path.exists("checkpoint.lock"), False, "a lock is left")
        remove("ledger", "checkpoint")


def test_locks_that_are_left():
    """An entry counts only while its process has the lock open on its descriptor; what is no entry is passed over."""
    write("journal", b"tea\n")
    process = subprocess.Popen(["sleep", "60"])
    try:
        entry = b"\n%d 3\n" % process.pid
        for entries in (b"", entry, entry + b"\n99999999 3\n", b"no lock\n", b"\n%d 0\n" % os.getpid(), b"\n%d" % os.getpid(), b"\n" * 500):
            write("checkpoint.lock", entries)
            tillbox(*JOB, says=summary(4, 4))
            equal(os.path.exists("checkpoint.lock"), False, f"the lock of {entries!r} is left")
            remove("checkpoint")
    finally:
        process.kill()
        process.wait()
    with open("checkpoint.lock", "ab", buffering=0) as lock:
        for before in (b"", b"99999999 3\n", b"12 34 5\n", b"tea", b"123456789012345678901234567890 5\n", b"1"):
            os.truncate("checkpoint.lock", 0)
            lock.write(before + b"\n%d %d\n" % (os.getpid(), lock.fileno()))
            refused(*JOB, says=at_work(os.getpid()))
    write("checkpoint.lock", b"\n99999999 3\n" * 400)
    refused_once = tillbox(*JOB, word="failed")
    equal(refused_once, "tillbox: error: checkpoint.lock: it has the entries of too many jobs; where none of them is at work, remove it\n", "a long lock")


def grow(chance, text, size):
    """The journal with some bytes more of the text; how many it has then."""
    more = chance.randrange(1, 3000)
    with open("journal", "ab") as file:
        file.write(text[size : size + more])
    return min(len(text), size + more)


def overlapping(chance, pairs, kills):
    """Pairs of jobs that begin at once while the journal grows: each is done, refused or killed, and the ledger is right."""
    text = ("茶 tea 表ソ能 1,234\n" * 60000).encode("cp932")
    size = 0
    write("journal", b"")
    refusals = 0
    for _ in range(pairs):
        size = grow(chance, text, size)
        words = [PROGRAM, "decode", "cp932.tbl", "journal", "ledger", "checkpoint"]
        jobs = [subprocess.Popen(words, stdout=subprocess.PIPE, stderr=subprocess.PIPE) for _ in range(2)]
        size = grow(chance, text, size)
        if kills:
            time.sleep(0.004 * chance.random())
            for job in jobs[: chance.randrange(3)]:
                job.kill()
        for job in jobs:
            said, errors = job.communicate()
            if job.returncode == -9:
                continue
            if said == b"failed\n":
                refusals += 1
                if b"is at work on this checkpoint" not in errors:
                    raise AssertionError(f"a job failed: {errors.decode()}")
            else:
                equal(said, b"done\n", "last word of one of two jobs")
    last_word = subprocess.run([PROGRAM, *JOB], capture_output=True).stdout
    equal(last_word in (b"done\n", b"stopped\n"), True, "the last word")
    # under 550 the run stops at a first half that the journal ends with; before it all is right
    right = text[:size].decode("cp932", "ignore").encode("utf-16le")
    equal(len(read("ledger")), len(right), "the ledger's length")
    equal(read("ledger") == right, True, "the ledger is right")
    equal(os.path.exists("checkpoint.lock"), False, "a lock is left")
    return refusals


def test_overlapping_jobs():
    chance = random.Random(19)
    if overlapping(chance, 500, kills=False) == 0:
        raise AssertionError("no two jobs of 500 pairs overlapped")
    remove("ledger", "checkpoint")
    overlapping(chance, 250, kills=True)


# ---------------------------------------------------------------------------------------------------------------
# What the system can not do
# ---------------------------------------------------------------------------------------------------------------


def can_trace():
    if shutil.which("strace") is None:
        return False
    return subprocess.run(["strace", "-o", "/dev/null", "true"], stderr=subprocess.DEVNULL).returncode == 0


def injected(call, path, *words, when="1", error="EIO", says):
    """A call of the system on a file fails, and the job says so in the system's words."""
    if not can_trace():
        return
    trace = ["strace", "-o", "/dev/null", "-P", os.path.abspath(path), "-e", f"trace={call}", "-e", f"inject={call}:error={error}:when={when}"]
    got = subprocess.run([*trace, PROGRAM, *words], capture_output=True, timeout=60)
    said = got.stderr.decode().splitlines()[-1:]
    equal((got.stdout.decode(), said), ("failed\n", [f"tillbox: error: {says}"]), f"{call} of {path} failed in {words}")


def safe_when_closed(path, *words):
    """All that was written to a file is made safe before it is closed: the library does not tell whether a file could be closed."""
    if not can_trace():
        return
    trace = ["strace", "-o", "calls", "-P", os.path.abspath(path), "-e", "trace=write,fsync,close"]
    got = subprocess.run([*trace, PROGRAM, *words], capture_output=True, timeout=60)
    equal(got.stdout, b"done\n", f"the last word of {words}")
    calls = [text.split("(")[0] for text in read("calls").decode().splitlines() if not text.startswith("+++")]
    equal(calls[-2:], ["fsync", "close"], f"the last calls on {path} in {words}")


def test_read_errors():
    """They are told as such, wherever they come."""
    write("journal", b"tea\n" * 4000)
    write("units", "tea\n".encode("utf-16le") * 4000)
    broken = "Input/output error"
    for name, words in (
        ("journal", ("decode", "cp932.tbl", "journal", "ledger")),
        ("journal", ("import", "cp932.tbl", "journal", "records")),
        ("units", ("encode", "cp932.tbl", "units", "receipt")),
        ("units", ("preview", "width", "9", "cp932.tbl", "units", "receipt")),
    ):
        for when in ("1", "3"):
            injected("read", name, *words, when=when, says=f"cannot read {name}: {broken}")
    for words in (("decode", "cp932.tbl", "journal", "ledger"), ("shape", "cp932.tbl")):
        injected("read", "cp932.tbl", *words, says=f"cannot read cp932.tbl: {broken}")
    tillbox(*JOB)
    injected("read", "checkpoint", *JOB, says=f"cannot read checkpoint: {broken}")


def test_outputs_that_are_not_safe():
    """What fails at the end of an output is told, and the last word is not done."""
    write("journal", b"tea\n")
    for words in (("decode", "cp932.tbl", "journal", "ledger"), JOB, ("import", "cp932.tbl", "journal", "ledger"), ("preview", "cp932.tbl", "journal", "ledger")):
        injected("fsync", "ledger", *words, says="cannot sync ledger: Input/output error")
        remove("checkpoint")
    for words in (("decode", "cp932.tbl", "journal", "ledger"), JOB, ("import", "cp932.tbl", "journal", "ledger")):
        safe_when_closed("ledger", *words)
        remove("checkpoint")


def test_a_checkpoint_that_can_not_be_made():
    """An old ledger is not touched before it is known that a line can be put into the checkpoint's folder."""
    write("ledger", b"kept")
    refused("decode", "cp932.tbl", "journal", "ledger", "none/checkpoint", says=["error: cannot make none/checkpoint.lock: No such file or directory"])
    os.mkdir("folder")
    os.mkdir("folder/checkpoint.new")
    refused("decode", "cp932.tbl", "journal", "ledger", "folder/checkpoint", says=[f"error: folder/checkpoint.new: {NO_PLAIN_FILE}"])
    if can_trace():
        trace = ["strace", "-o", "/dev/null", "-P", "checkpoint.new", "-e", "trace=openat", "-e", "inject=openat:error=EROFS"]
        got = subprocess.run([*trace, PROGRAM, *JOB], capture_output=True, timeout=60)
        equal((got.stdout, got.stderr), (b"failed\n", b"tillbox: error: cannot make checkpoint.new: Read-only file system\n"), "a folder that can't be written")
        equal(read("ledger"), b"kept", "the ledger")


# ---------------------------------------------------------------------------------------------------------------
# Refusals by number
# ---------------------------------------------------------------------------------------------------------------


def test_policies_that_are_not_allowed():
    write("ledger", b"A\0")
    text = "error 17: the page is 0, or a policy digit is not allowed (policy)"
    encoding = [text, "  the digits are 600; each is 0 to 5"]
    refused("encode", "policy", "600", "cp932.tbl", "ledger", "receipt", says=encoding)
    refused("encode", "policy", "600", "cp932.tbl", "ledger", "receipt", "checkpoint", says=encoding)
    for digits in ("565", "755"):
        refused("decode", "policy", digits, "cp932.tbl", "journal", "ledger", says=[text, f"  the digits are {digits}; each is 0 to 5, and the first may be 6"])


def test_checkpoint_of_another_page_or_direction():
    write("ledger", b"kept")
    for text, what in (("D 936 555 - 0 4 2 on", "decoding page 936"), ("E 932 555 - 0 1 2 on", "encoding page 932")):
        write("checkpoint", line(text))
        refused("decode", "cp932.tbl", "journal", "ledger", "checkpoint", says=other_run(what, "decoding page 932"))


def test_checkpoint_beyond_the_end():
    size = len(read("journal"))
    beyond = "error: checkpoint: the checkpoint is beyond the end of the input"
    for state in ("on", "over"):
        write("checkpoint", line(f"D 932 555 - 0 {size + 1} 2 {state}"))
        write("ledger", b"kept")
        refused("decode", "cp932.tbl", "journal", "ledger", "checkpoint", says=[beyond])


def test_damaged_checkpoint():
    write("ledger", b"kept")
    good = line("D 932 555 83 0 512 300 on")
    for damaged in (b"", good[:-1], good + b"\n", good * 3, good.replace(b"512", b"0512"), good.replace(b"300", b"600"), good.replace(b"83", b"8"), good.replace(b"D", b"d")):
        write("checkpoint", damaged)
        refused("decode", "cp932.tbl", "journal", "ledger", "checkpoint", says=["error 18: not a saved line (checkpoint)"])


def test_carried_byte_that_is_no_lead():
    write("ledger", b"kept")
    write("checkpoint", line("D 932 555 41 0 2 1 on"))
    refused("decode", "cp932.tbl", "journal", "ledger", "checkpoint", says=["error 14: the pending byte is no lead byte in these tables (checkpoint)"])


def test_ended_run():
    write("journal", b"total")
    tillbox("decode", "last", "cp932.tbl", "journal", "ledger", "checkpoint", says=summary(5, 5))
    equal(read("checkpoint"), line("D 932 550 - 0 5 5 over"), "the line")
    nothing = "nothing to do: the run of the checkpoint has ended"
    tillbox("decode", "last", "cp932.tbl", "journal", "ledger", "checkpoint", says=[nothing] + summary(5, 5))
    equal(read("ledger"), "total".encode("utf-16le"), "the ledger")
    # its ledger is looked at as that of a run that goes on
    for damaged, text in ((b"t\0o\0t\0a\0l", "error: ledger: it is shorter than the checkpoint says"), (None, "error: cannot open ledger: No such file or directory")):
        write("ledger", damaged) if damaged is not None else remove("ledger")
        refused("decode", "last", "cp932.tbl", "journal", "ledger", "checkpoint", says=[text])
    write("ledger", "total".encode("utf-16le") + b"more")
    tillbox("decode", "last", "cp932.tbl", "journal", "ledger", "checkpoint", says=[nothing] + summary(5, 5))
    equal(read("ledger"), "total".encode("utf-16le"), "the ledger, cut to its line")
    write("journal", b"total!")
    says = ["error 15: the run has ended (checkpoint)", more_input(5, 6), "  To convert all of them, remove checkpoint and call again."]
    refused("decode", "last", "cp932.tbl", "journal", "ledger", "checkpoint", says=says + summary(5, 5))


def test_ledger_shorter_than_its_checkpoint():
    write("checkpoint", line("D 932 555 - 0 4 3 on"))
    write("ledger", b"12345")
    refused("decode", "cp932.tbl", "journal", "ledger", "checkpoint", says=["error: ledger: it is shorter than the checkpoint says"])
    os.remove("ledger")
    refused("decode", "cp932.tbl", "journal", "ledger", "checkpoint", says=["error: cannot open ledger: No such file or directory"])


def test_input_over_the_limit():
    write("ledger", b"kept")
    over = "error 16: the input has over 4,294,967,295 units (huge)"
    for command, size in (("decode", 4294967296), ("encode", 2 * 4294967296)):
        with open("huge", "wb") as file:
            file.truncate(size)
        refused(command, "cp932.tbl", "huge", "ledger", says=[over])
        refused(command, "last", "cp932.tbl", "huge", "ledger", "checkpoint", says=[over])
    with open("huge", "wb") as file:
        file.truncate(4294967296)
    for state, flags in (("on", 0), ("over", 8)):
        write("checkpoint", line(f"D 932 555 - {flags} 4294967295 0 {state}"))
        refused("decode", "cp932.tbl", "huge", "ledger", "checkpoint", says=[over])


def test_read_total_at_the_limit():
    with open("huge", "wb") as file:
        file.truncate(4294967295)
    with open("ledger", "wb") as file:
        file.truncate(2 * 4294967000)
    write("checkpoint", line("D 932 155 - 0 4294967000 4294967000 on"))
    tillbox("decode", "last", "cp932.tbl", "huge", "ledger", "checkpoint", says=summary(4294967295, 4294967295))
    equal(os.path.getsize("ledger"), 2 * 4294967295, "the ledger's length")
    equal(read("checkpoint"), line("D 932 155 - 0 4294967295 4294967295 over"), "the line")
    remove("ledger")


# ---------------------------------------------------------------------------------------------------------------
# What is written and said
# ---------------------------------------------------------------------------------------------------------------


def test_sample_both_ways():
    ledger = read(os.path.join(SAMPLES, "ledger.utf16le"))
    equal(ledger.decode("utf-16le"), read("journal").decode("cp932"), "Java's and Python's reading of the sample")
    tillbox("decode", "cp932.tbl", "journal", "ledger", says=summary(2819, 1980))
    equal(read("ledger"), ledger, "the ledger")
    tillbox("encode", "cp932.tbl", "ledger", "receipt", says=summary(1980, 2819, units=("units", "bytes")))
    equal(read("receipt"), read("journal"), "the receipt")


def test_an_old_ledger_is_made_anew():
    write("journal", b"ab")
    write("ledger", b"a longer ledger of another day")
    tillbox("decode", "cp932.tbl", "journal", "ledger")
    equal(read("ledger"), b"a\0b\0", "the ledger")


def test_empty_journal():
    write("journal", b"")
    tillbox("decode", "cp932.tbl", "journal", "ledger", says=summary(0, 0))
    equal(read("ledger"), b"", "the ledger")
    tillbox("decode", "cp932.tbl", "journal", "ledger", "checkpoint", says=summary(0, 0, state="the run goes on"))
    equal(read("checkpoint"), line("D 932 550 - 0 0 0 on"), "the line")


def test_first_half_waits():
    half = "the byte 94, the first half of a character"
    write("journal", b"a\x94")
    tillbox("decode", "cp932.tbl", "journal", "ledger", "checkpoint", says=summary(2, 1, pending=half, state="the run goes on"))
    equal(read("checkpoint"), line("D 932 550 94 0 2 1 on"), "the line")
    equal(read("ledger"), b"a\0", "the ledger")
    # a second call on the same journal changes nothing
    tillbox("decode", "cp932.tbl", "journal", "ledger", "checkpoint", says=summary(2, 1, pending=half, state="the run goes on"))
    equal(read("checkpoint"), line("D 932 550 94 0 2 1 on"), "the line")
    shutil.copy("ledger", "ledger2")
    shutil.copy("checkpoint", "checkpoint2")
    # the second half comes
    write("journal", b"a\x94\x4e")
    tillbox("decode", "last", "cp932.tbl", "journal", "ledger", "checkpoint", says=summary(3, 2))
    equal(read("ledger"), "a年".encode("utf-16le"), "the ledger")
    # or the text ends there, and the half is invalid
    write("journal", b"a\x94")
    stop = stopped("550", 1, "94", INVALID, checkpoint="checkpoint2")
    says = summary(2, 1, flags="invalid, stopped", stop=stop)
    tillbox("decode", "last", "cp932.tbl", "journal", "ledger2", "checkpoint2", word="stopped", says=says)
    equal(read("ledger2"), b"a\0", "the ledger")
    equal(read("checkpoint2"), line("D 932 550 - 12 2 1 over"), "the line")


def test_a_broken_half_before_a_line_feed():
    # two records stay two: the default of page 932, 30FB, for the half alone, then the line feed
    write("journal", b"tea\x94\n120\n")
    tillbox("decode", "policy", "555", "cp932.tbl", "journal", "ledger", says=summary(9, 9, flags="invalid"))
    equal(read("ledger"), "tea\u30fb\n120\n".encode("utf-16le"), "the ledger")
    # a byte of 80 or more that may not be second is taken with the half: FD, and A0 on page 7
    write("journal", b"tea\x94\xfd\n")
    tillbox("decode", "policy", "555", "cp932.tbl", "journal", "ledger", says=summary(6, 5, flags="invalid"))
    equal(read("ledger"), "tea\u30fb\n".encode("utf-16le"), "the ledger")
    write("journal", b"tea\x82\xa0\n")
    tillbox("decode", "policy", "555", "sample.tbl", "journal", "ledger", says=summary(6, 5, flags="invalid"))
    equal(read("ledger"), "tea\u30fb\n".encode("utf-16le"), "the ledger")


def test_a_waiting_half_before_a_line_feed():
    half = "the byte 94, the first half of a character"
    whole = b"tea\x94\n120\n"
    for policy, units, flags in (("555", "tea\u30fb\n120\n", "4 9 9"), ("551", "tea\n120\n", "4 9 8"), ("553", "tea?\n120\n", "4 9 9")):
        remove("ledger", "checkpoint")
        write("journal", whole[:4])
        goes = summary(4, 3, pending=half, state="the run goes on")
        tillbox("decode", "policy", policy, "cp932.tbl", "journal", "ledger", "checkpoint", says=goes)
        equal(read("checkpoint"), line(f"D 932 {policy} 94 0 4 3 on"), "the line")
        write("journal", whole)
        tillbox("decode", "last", "policy", policy, "cp932.tbl", "journal", "ledger", "checkpoint", says=summary(9, len(units), flags="invalid"))
        equal(read("ledger"), units.encode("utf-16le"), f"the ledger under {policy}")
        equal(read("checkpoint"), line(f"D 932 {policy} - {flags} over"), "the line")


def test_a_broken_half_at_the_end_of_a_block():
    # the half is the last byte of the first block (part), and the second one gives a unit more than it has bytes
    for size in (512, 2048):
        front = size - 1
        text = b"a" * front + b"\x94" + b"\n" + b"b" * front + b"c"
        wanted = "a" * front + "\u30fb\n" + "b" * front + "c"
        says = summary(2 * size + 1, 2 * size + 1, flags="invalid")
        remove("ledger", "checkpoint")
        write("journal", text)
        tillbox("decode", "policy", "555", "cp932.tbl", "journal", "ledger", says=says)
        equal(read("ledger"), wanted.encode("utf-16le"), "the ledger")
        write("journal", text[:size])
        tillbox("decode", "policy", "555", "cp932.tbl", "journal", "ledger", "checkpoint")
        equal(read("checkpoint"), line(f"D 932 555 94 0 {size} {front} on"), "the line")
        write("journal", text)
        tillbox("decode", "last", "cp932.tbl", "journal", "ledger", "checkpoint", says=says)
        equal(read("ledger"), wanted.encode("utf-16le"), "the ledger")


def test_flags_by_name():
    # page 7: 80 is an undefined single, 81 5A an undefined pair, 83 invalid
    write("journal", b"\x80\x81\x5a\x83A")
    names = "undefined single, undefined pair, invalid"
    tillbox("decode", "policy", "555", "sample.tbl", "journal", "ledger", says=summary(5, 4, flags=names))
    equal(read("ledger"), "\u30fb\u30fb\u30fbA".encode("utf-16le"), "the ledger")
    tillbox("decode", "policy", "631", "sample.tbl", "journal", "ledger", says=summary(5, 3, flags=names))
    equal(read("ledger"), "\uf180?A".encode("utf-16le"), "the ledger")


def counted(*words, word="done"):
    """The line that counts codes by kind, without its first words; empty where there is none."""
    return "".join(text[len(COUNTED) : -1] for text in tillbox(*words, word=word).splitlines(True) if text.startswith(COUNTED))


def test_codes_by_kind():
    # page 7: 80 is an undefined single, 81 5A an undefined pair, 83 invalid
    for policy in ("555", "111", "234", "531"):
        for single, pair, invalid in ((0, 0, 0), (1, 0, 0), (0, 2, 0), (0, 0, 3), (1, 1, 1), (700, 0, 1200), (301, 302, 303)):
            for space in (b"", b"a", b"b" * 255):
                parts = [b"\x80"] * single + [b"\x81\x5a"] * pair + [b"\x83"] * invalid
                random.Random(7).shuffle(parts)
                write("journal", space.join(parts) + space)
                numbers = ((single, "undefined single"), (pair, "undefined pair"), (invalid, "invalid"))
                wanted = ", ".join(f"{number} {name}" for number, name in numbers if number)
                equal(counted("decode", "policy", policy, "sample.tbl", "journal", "ledger"), wanted, f"codes of {single, pair, invalid} under {policy}")
    write("journal", (b"\x80a" * 600 + b"|\x83\n") * 3)
    equal(counted("import", "sample.tbl", "journal", "records", word="failed"), "", "a field that is too long")
    write("journal", (b"\x80a" * 100 + b"|\x83\n") * 30)
    equal(counted("import", "sample.tbl", "journal", "records"), "3000 undefined single, 30 invalid", "codes of an import")
    write("units", units_text(*[0xD83D, 0xDE00, 0x41, 0xDE00, 0x1234] * 700))
    for command in (("encode", "policy", "555"), ("preview",), ("preview", "width", "9"), ("preview", "width", "1000")):
        equal(counted(*command, "cp932.tbl", "units", "receipt"), "1400 undefined single, 700 invalid", f"codes of {command}")


def test_codes_by_kind_of_printed_lines():
    # halves and pairs at the ends of lines and of blocks of 512 units; the numbers are those of the whole ledger, cut into lines or not
    for before in (0, 1, 509, 510, 511, 512, 1023):
        for middle, single, invalid in (((0xD83D, 0xDE00), 1, 0), ((0xD83D,), 0, 1), ((0xDE00, 0xD83D), 0, 2), ((0x1234, 0xD83D, 0x1234), 2, 1), ((0x41,), 0, 0)):
            for end in ((), (0x0A,), (0x0A, 0x0A), (0x42, 0x0A, *middle)):
                times = 2 if len(end) > 2 else 1
                write("units", units_text(*[0x61] * before, *middle, *end))
                numbers = ((times * single, "undefined single"), (times * invalid, "invalid"))
                wanted = ", ".join(f"{number} {name}" for number, name in numbers if number)
                for width in ("1", "7", "65536"):
                    equal(counted("preview", "width", width, "cp932.tbl", "units", "receipt"), wanted, f"codes of {middle} behind {before}, then {end}")
    # a line that is too long to be broken
    write("units", units_text(*[0x1234, 0xDE00] * 35000, 0x0A, 0x1234))
    equal(counted("preview", "width", "9", "cp932.tbl", "units", "receipt"), "35001 undefined single, 35000 invalid", "codes of a long line")


def test_codes_by_kind_before_a_stop():
    # what comes behind the code that stops a run is not counted, nor is that code
    for front in FRONTS:
        for code in (b"\x83", b"\x82\x80", b"\x82\n"):
            write("journal", b"\x80" * front + code + b"\x80\x83" * 300)
            wanted = f"{front} undefined single" if front else ""
            equal(counted("decode", "sample.tbl", "journal", "ledger", word="stopped"), wanted, f"codes before {code!r} behind {front}")
    # a call counts its own codes
    write("journal", b"\x80\x80\x81")
    words = ("decode", "policy", "555", "sample.tbl", "journal", "ledger", "checkpoint")
    equal(counted(*words), "2 undefined single", "codes of the first call")
    write("journal", b"\x80\x80\x81\x5a\x80")
    equal(counted(*words), "1 undefined single, 1 undefined pair", "codes of the second call")
    equal(counted(*words), "", "codes of a third call")


# ---------------------------------------------------------------------------------------------------------------
# Another journal under the old name
# ---------------------------------------------------------------------------------------------------------------


def other(name="journal", output="ledger"):
    return [
        f"error: {name}: it is not the input that the run of the checkpoint has read",
        f"  Up to the place where the run goes on it is not what {output} was made of. A checkpoint is of one",
        "  input and one output: name these, or remove the checkpoint to begin anew.",
    ]


def test_another_journal():
    day, next_day = "10 茶 tea 表ソ能\n", "11 茶 tea 表ソ能\n"
    words = ("decode", "cp932.tbl", "journal", "ledger", "checkpoint")
    for lines in (1, 20, 5000):
        for cut in (0, 1, 2, 3, 4):
            remove("ledger", "checkpoint")
            first, second = (day * lines).encode("cp932"), (next_day * (lines + 3)).encode("cp932")
            end = len(first) - cut
            write("journal", first[:end])
            tillbox(*words)
            before = read("checkpoint")
            write("journal", second)
            refused(*words, says=other())
            refused("decode", "last", *words[1:], says=other())
            # the journal itself goes on
            write("journal", first + second)
            tillbox(*words)
            equal(read("ledger"), (day * lines + next_day * (lines + 3)).encode("utf-16le"), f"the ledger behind {before!r}")
            tillbox("decode", "last", *words[1:])
            write("journal", second + first)
            refused("decode", "last", *words[1:], says=other())
    # another ledger
    write("journal", first + second)
    write("ledger", read("ledger")[:-2] + b"x\0")
    refused("decode", "last", *words[1:], says=other())


def test_another_pending_half():
    """What is pending stands before the place where the run goes on, whatever comes before it."""
    words = ("decode", "cp932.tbl", "journal", "ledger", "checkpoint")
    write("journal", b"\x94\x4e" * 600 + b"\x94")
    tillbox(*words)
    write("journal", b"\x94\x4e" * 600 + b"\x95\x4e")
    refused(*words, says=other())
    write("journal", b"\x94\x4e" * 601)
    tillbox(*words)
    equal(read("ledger"), "年".encode("utf-16le") * 601, "the ledger")
    words = ("encode", "cp932.tbl", "units", "receipt", "checkpoint2")
    write("units", units_text(0x41, 0xD83D))
    tillbox(*words)
    write("units", units_text(0x41, 0xD83C, 0xDE00))
    refused(*words, says=other("units", "receipt"))
    write("units", units_text(0x42, 0xD83D, 0xDE00))
    refused(*words, says=other("units", "receipt"))
    write("units", units_text(0x41, 0xD83D, 0xDE00))
    tillbox(*words)
    equal(read("receipt"), b"A?", "the receipt")


def test_another_ledger_text():
    words = ("encode", "policy", "555", "cp932.tbl", "units", "receipt", "checkpoint")
    for size in (1, 511, 512, 513, 1500):
        for unit in ((0x41,), (0x5E74,), (0xD83D, 0xDE00), (0xDE00,)):
            remove("receipt", "checkpoint")
            first = units_text(*(unit * size))
            write("units", first)
            tillbox(*words)
            write("units", units_text(*([0x42] * (2 * size + 1))))
            refused(*words, says=other("units", "receipt"))
            write("units", first + first)
            tillbox(*words)


# ---------------------------------------------------------------------------------------------------------------
# Runs that stop
# ---------------------------------------------------------------------------------------------------------------


def test_the_standard_stops():
    # document 02's row, on page 7
    write("journal", b"\x82")
    says = summary(1, 0, flags="invalid, stopped", stop=stopped("550", 0, "82", INVALID))
    tillbox("decode", "sample.tbl", "journal", "ledger", word="stopped", says=says)
    equal(read("ledger"), b"", "the ledger")
    # a name of a till, by no policy, by the standard's digits, and by 555, which gets through
    write("journal", b"tea \x82\n120\n")
    says = summary(5, 4, flags="invalid, stopped", stop=stopped("550", 4, "82", INVALID))
    for words in ((), ("policy", "550")):
        tillbox("decode", *words, "cp932.tbl", "journal", "ledger", word="stopped", says=says)
        equal(read("ledger"), "tea ".encode("utf-16le"), "the ledger")
    tillbox("decode", "policy", "555", "cp932.tbl", "journal", "ledger", says=summary(10, 10, flags="invalid"))
    equal(read("ledger"), "tea \u30fb\n120\n".encode("utf-16le"), "the ledger")
    # undefined singles and pairs are replaced
    write("journal", b"\x80\x81\x5aA")
    tillbox("decode", "sample.tbl", "journal", "ledger", says=summary(4, 3, flags="undefined single, undefined pair"))
    equal(read("ledger"), "\u30fb\u30fbA".encode("utf-16le"), "the ledger")


def test_how_to_go_on_after_a_stop():
    # the file of the line has another name than others
    write("journal", b"tea \x82")
    stop = stopped("550", 4, "82", INVALID, checkpoint="tea.line")
    words = ("cp932.tbl", "journal", "ledger", "tea.line")
    says = summary(5, 4, flags="invalid, stopped", stop=stop)
    tillbox("decode", "last", *words, word="stopped", says=says)
    equal(read("ledger"), "tea ".encode("utf-16le"), "the ledger")
    equal(read("tea.line"), line("D 932 550 - 12 5 4 over"), "the line")
    # the code that stopped the run is not known any more; nothing is changed, whatever policy is asked for
    says = summary(5, 4, flags="invalid, stopped", stop=stopped_before("550", 5, checkpoint="tea.line"))
    nothing = "nothing to do: the run of the checkpoint has ended"
    for policy in ((), ("policy", "555")):
        tillbox("decode", "last", *policy, *words, word="stopped", says=[nothing, *says])
    write("journal", b"tea \x82\n120\n")
    for policy in ((), ("policy", "555")):
        refused("decode", "last", *policy, *words, says=["error 15: the run has ended (tea.line)", more_input(5, 10), *says])
    # what the program said: without the line, under 555
    remove("tea.line")
    tillbox("decode", "last", "policy", "555", *words, says=summary(10, 10, flags="invalid"))
    equal(read("ledger"), "tea \u30fb\n120\n".encode("utf-16le"), "the ledger")
    # or the input is mended
    remove("tea.line")
    write("journal", b"tea  \n120\n")
    tillbox("decode", "last", *words, says=summary(10, 10))
    # the same for a ledger text
    write("units", units_text(0x41, 0xDE00))
    words = ("encode", "last", "cp932.tbl", "units", "receipt", "checkpoint")
    stop = stopped("550", 1, "DE00", INVALID, "unit", "checkpoint")
    tillbox(*words, word="stopped", says=encoded(2, 1, flags="invalid, stopped", stop=stop))
    says = encoded(2, 1, flags="invalid, stopped", stop=stopped_before("550", 2, "unit"))
    tillbox(*words, word="stopped", says=[nothing, *says])
    write("units", units_text(0x41, 0xDE00, 0x42))
    refused(*words, says=["error 15: the run has ended (checkpoint)", more_input(2, 3, "unit"), *says])
    remove("checkpoint")
    tillbox("encode", "last", "policy", "555", *words[2:], says=encoded(3, 3, flags="invalid"))
    equal(read("receipt"), b"A?B", "the receipt")


# Numbers of bytes or units before a code: 512 are a block, 2,048 a part, and a line is saved after 32 parts.
FRONTS = (0, 1, 511, 512, 1023, 2046, 2047, 2048, 4095, 65535)


def every_front(command, policy, code, shown, kind, rest, waits=False):
    """A run stops at a code of page 7 behind each number of characters: without a checkpoint, and with one, where the text is cut
    before each byte or unit of the code, and behind it if that is a half that waits. What follows the code, rest, is not read."""
    letter, where, width, says_of = ("D", "byte", 1, summary) if command == "decode" else ("E", "unit", 2, encoded)
    size, flags = len(shown.split(" ")), STOPPED_BY[kind]
    for front in FRONTS:
        whole = units_text(*[0x61] * front) if width == 2 else b"a" * front
        wanted = b"a" * front if width == 2 else b"a\0" * front
        whole += code + rest
        write("input", whole)
        says = says_of(front + size, front, flags=flags_text(flags), stop=stopped(policy, front, shown, kind, where))
        tillbox(command, "policy", policy, "sample.tbl", "input", "output", word="stopped", says=says)
        equal(read("output"), wanted, f"the output of {front} and {shown}")
        stop = stopped(policy, front, shown, kind, where, "checkpoint")
        says = says_of(front + size, front, flags=flags_text(flags), stop=stop)
        for cut in range(size + waits):
            remove("output", "checkpoint")
            write("input", whole[: (front + cut) * width])
            tillbox(command, "policy", policy, "sample.tbl", "input", "output", "checkpoint")
            write("input", whole)
            tillbox(command, "last", "sample.tbl", "input", "output", "checkpoint", word="stopped", says=says)
            equal(read("output"), wanted, f"the output of {front} and {shown}, cut at {cut}")
            over = line(f"{letter} 7 {policy} - {flags} {front + size} {front} over")
            equal(read("checkpoint"), over, f"the line of {front} and {shown}, cut at {cut}")


def test_where_decoding_stops():
    every_front("decode", "550", b"\x83", "83", INVALID, b"more")
    every_front("decode", "550", b"\x82\x80", "82 80", INVALID, b"more")
    every_front("decode", "550", b"\x81\x82", "81 82", INVALID, b"\x7cmore")
    every_front("decode", "055", b"\x80", "80", SINGLE, b"more")
    every_front("decode", "505", b"\x81\x5a", "81 5A", PAIR, b"more")
    every_front("decode", "000", b"\x81\x5a", "81 5A", PAIR, b"\x80\x83")
    # at the end of the text, where nothing follows
    every_front("decode", "550", b"\x82", "82", INVALID, b"", waits=True)
    every_front("decode", "505", b"\x81\x5a", "81 5A", PAIR, b"")
    every_front("decode", "055", b"\x80", "80", SINGLE, b"")


def test_where_encoding_stops():
    every_front("encode", "550", units_text(0xDE00), "DE00", INVALID, units_text(0x62))
    every_front("encode", "055", units_text(0xD83D, 0xDE00), "D83D DE00", SINGLE, units_text(0x62))
    every_front("encode", "055", units_text(0x1234), "1234", SINGLE, units_text(0x62))
    every_front("encode", "000", units_text(0xDBFF, 0xDFFF), "DBFF DFFF", SINGLE, units_text(0xD83D))
    # at the end of the text, where nothing follows
    every_front("encode", "550", units_text(0xD83D), "D83D", INVALID, b"", waits=True)
    every_front("encode", "055", units_text(0xD83D, 0xDE00), "D83D DE00", SINGLE, b"")


def test_a_stop_leaves_what_is_no_part_of_the_code():
    # a first half alone: what follows it is unread, whether the half waited, was the last of a block, or did not
    for front in FRONTS:
        for command, half, shown, follows in (
            ("decode", b"\x94", "94", (b"\n", b"0", b"\x7f")),
            ("encode", units_text(0xD83D), "D83D", (units_text(0x0A), units_text(0xD83D), units_text(0x5E74))),
        ):
            letter, where, width, says_of = ("D", "byte", 1, summary) if command == "decode" else ("E", "unit", 2, encoded)
            begin = (b"a" if width == 1 else b"a\0") * front
            wanted = (b"a\0" if width == 1 else b"a") * front
            for after in follows:
                whole = begin + half + after + begin[:8]
                write("input", whole)
                says = says_of(front + 1, front, flags="invalid, stopped", stop=stopped("550", front, shown, INVALID, where))
                tillbox(command, "cp932.tbl", "input", "output", word="stopped", says=says)
                equal(read("output"), wanted, "the output")
                remove("output", "checkpoint")
                write("input", whole[: (front + 1) * width])
                tillbox(command, "cp932.tbl", "input", "output", "checkpoint")
                equal(read("checkpoint"), line(f"{letter} 932 550 {shown} 0 {front + 1} {front} on"), "the line of the half")
                write("input", whole)
                stop = stopped("550", front, shown, INVALID, where, "checkpoint")
                says = says_of(front + 1, front, flags="invalid, stopped", stop=stop)
                tillbox(command, "cp932.tbl", "input", "output", "checkpoint", word="stopped", says=says)
                equal(read("output"), wanted, "the output")
                equal(read("checkpoint"), line(f"{letter} 932 550 - 12 {front + 1} {front} over"), "the line")


def test_a_stop_behind_other_codes():
    # the flags are those of the whole run; the place and the kind are of the code that stopped it
    write("journal", b"\x80\x81\x5aA\x83\x80")
    names = "undefined single, undefined pair, invalid, stopped"
    says = summary(5, 3, flags=names, stop=stopped("550", 4, "83", INVALID))
    tillbox("decode", "sample.tbl", "journal", "ledger", word="stopped", says=says)
    equal(read("ledger"), "\u30fb\u30fbA".encode("utf-16le"), "the ledger")
    # skipped codes write nothing, and are counted in the place
    names = "undefined single, undefined pair, stopped"
    says = summary(3, 0, flags=names, stop=stopped("105", 1, "81 5A", PAIR))
    tillbox("decode", "policy", "105", "sample.tbl", "journal", "ledger", word="stopped", says=says)
    equal(read("ledger"), b"", "the ledger")
    # page 932: FF may not be second, and FA FF is one invalid code of two bytes
    write("journal", "緑茶".encode("cp932") + b"\xfa\xff\n")
    says = summary(6, 2, flags="invalid, stopped", stop=stopped("550", 4, "FA FF", INVALID))
    tillbox("decode", "cp932.tbl", "journal", "ledger", word="stopped", says=says)
    equal(read("ledger"), "緑茶".encode("utf-16le"), "the ledger")
    # units: a code of two bytes is one unit, an emoji is two
    write("units", "緑茶\U0001f375a".encode("utf-16le") + units_text(0xD800, 0x62))
    says = encoded(6, 6, flags="undefined single, invalid, stopped", stop=stopped("550", 5, "D800", INVALID, "unit"))
    tillbox("encode", "cp932.tbl", "units", "receipt", word="stopped", says=says)
    equal(read("receipt"), "緑茶?a".encode("cp932"), "the receipt")
    says = encoded(4, 4, flags="undefined single, stopped", stop=stopped("055", 2, "D83C DF75", SINGLE, "unit"))
    tillbox("encode", "policy", "055", "cp932.tbl", "units", "receipt", word="stopped", says=says)
    equal(read("receipt"), "緑茶".encode("cp932"), "the receipt")


def test_runs_saved_earlier_keep_their_digits():
    # lines as an older tillbox left them under 555, its standard; no policy is named
    for policy, ends in (("555", "replaced"), ("550", "stopped")):
        for text, carried, read_before, place, shown, read_total in (
            # 82 at the end; 94 that waits before a line feed; 94 FF cut between
            (b"tea \x82", "-", 4, 4, "82", 5),
            (b"tea \x94\n", "94", 5, 4, "94", 5),
            (b"tea \x94\xff", "94", 5, 4, "94 FF", 6),
        ):
            write("journal", text)
            write("ledger", "tea ".encode("utf-16le"))
            write("checkpoint", line(f"D 932 {policy} {carried} 0 {read_before} 4 on"))
            if ends == "replaced":
                wanted = "tea \u30fb" + ("\n" if text.endswith(b"\n") else "")
                says = summary(len(text), len(wanted), flags="invalid")
                tillbox("decode", "last", "cp932.tbl", "journal", "ledger", "checkpoint", says=says)
                over = f"D 932 555 - 4 {len(text)} {len(wanted)} over"
            else:
                wanted = "tea "
                stop = stopped("550", place, shown, INVALID, checkpoint="checkpoint")
                says = summary(read_total, 4, flags="invalid, stopped", stop=stop)
                tillbox("decode", "last", "cp932.tbl", "journal", "ledger", "checkpoint", word="stopped", says=says)
                over = f"D 932 550 - 12 {read_total} 4 over"
            equal(read("ledger"), wanted.encode("utf-16le"), f"the ledger of {text!r} under {policy}")
            equal(read("checkpoint"), line(over), f"the line of {text!r} under {policy}")
        for units, carried, read_before, receipt in (
            # DE00 alone; D83D that waits before B
            ((0x41, 0xDE00, 0x42), "-", 1, b"A?B"),
            ((0x41, 0xD83D, 0x42), "D83D", 2, b"A?B"),
        ):
            write("units", units_text(*units))
            write("receipt", b"A")
            write("checkpoint", line(f"E 932 {policy} {carried} 0 {read_before} 1 on"))
            words = ("encode", "last", "cp932.tbl", "units", "receipt", "checkpoint")
            if ends == "replaced":
                tillbox(*words, says=encoded(3, 3, flags="invalid"))
                equal(read("receipt"), receipt, f"the receipt of {units} under {policy}")
                equal(read("checkpoint"), line("E 932 555 - 4 3 3 over"), f"the line of {units} under {policy}")
            else:
                stop = stopped("550", 1, f"{units[1]:04X}", INVALID, "unit", "checkpoint")
                tillbox(*words, word="stopped", says=encoded(2, 1, flags="invalid, stopped", stop=stop))
                equal(read("receipt"), b"A", f"the receipt of {units} under {policy}")
                equal(read("checkpoint"), line("E 932 550 - 12 2 1 over"), f"the line of {units} under {policy}")


def test_a_run_keeps_its_policy():
    write("journal", b"\x80")
    tillbox("decode", "policy", "255", "sample.tbl", "journal", "ledger", "checkpoint")
    write("journal", b"\x80\x80")
    note = "note: the run goes on under its own policy, 255"
    says = [note] + summary(2, 2, flags="undefined single")
    tillbox("decode", "policy", "355", "last", "sample.tbl", "journal", "ledger", "checkpoint", says=says)
    equal(read("ledger"), bytes(4), "the ledger")


def test_half_a_unit():
    write("units", "年".encode("utf-16le") + b"A")
    odd = "error: units: an odd number of bytes is no text of UTF-16 units"
    refused("encode", "cp932.tbl", "units", "receipt", says=[odd])
    refused("encode", "last", "cp932.tbl", "units", "receipt", "checkpoint", says=[odd])
    goes = summary(1, 2, state="the run goes on", units=("units", "bytes"))
    tillbox("encode", "cp932.tbl", "units", "receipt", "checkpoint", says=goes)
    write("units", "年A".encode("utf-16le"))
    tillbox("encode", "last", "cp932.tbl", "units", "receipt", "checkpoint", says=summary(2, 3, units=("units", "bytes")))
    equal(read("receipt"), b"\x94\x4eA", "the receipt")


def test_a_line_after_every_128_blocks():
    # while the journal comes slowly: the ledger may not grow over 300,000 bytes: the block that does so fails, and the line of block 256 stands
    write("journal", b"0123456789" * 20000)
    says = ["error: cannot write ledger: File too large"]
    tillbox("decode", "last", "cp932.tbl", "journal", "ledger", "checkpoint", word="failed", says=says, limit=300000, env=SLOW)
    equal(read("checkpoint"), line("D 932 550 - 0 131072 131072 on"), "the line")
    # what is behind the line in the ledger is written over
    write("ledger", read("ledger")[: 2 * 131072] + b"no part of it" * 30000)
    tillbox("decode", "last", "cp932.tbl", "journal", "ledger", "checkpoint", says=summary(200000, 200000))
    equal(read("ledger"), ("0123456789" * 20000).encode("utf-16le"), "the ledger")


def test_a_fast_journal_is_saved_once_a_second():
    """Not after every 128 blocks: a save syncs the ledger and the new file of the checkpoint."""
    if not can_trace():
        return
    write("journal", b"tea \x93\xfa\n" * 600000)
    begin = time.time()
    got = subprocess.run(["strace", "-o", "trace", "-e", "trace=fsync", PROGRAM, *JOB], capture_output=True, timeout=60)
    took = time.time() - begin
    equal(got.stdout, b"done\n", "the last word")
    syncs = read("trace").count(b"fsync(")
    # the folders, the last line, and one save for each second that the clock showed
    if not 2 <= syncs <= 2 * (took + 1) + 4:
        raise AssertionError(f"{syncs} syncs in {took:.1f} seconds")
    equal(read("checkpoint"), line("D 932 550 - 0 4200000 3600000 over"), "the line")


def test_progress_on_long_input():
    write("journal", b"a" * (9 * 1024 * 1024))
    progress = ["read 4194304 of 9437184 bytes", "read 8388608 of 9437184 bytes"]
    tillbox("decode", "cp932.tbl", "journal", "ledger", says=progress + summary(9437184, 9437184))
    equal(read("ledger"), b"a\0" * (9 * 1024 * 1024), "the ledger")


def test_a_left_over_new_file():
    write("journal", b"ab")
    write("checkpoint.new", b"left by a job that was killed")
    tillbox("decode", "cp932.tbl", "journal", "ledger", "checkpoint")
    equal(read("checkpoint"), line("D 932 550 - 0 2 2 on"), "the line")
    equal(os.path.exists("checkpoint.new"), False, "the new file is there")


def every_cut(text, units):
    """Every cut of a text of page 7, in two calls, gives the same ledger."""
    for place in range(len(text) + 1):
        remove("ledger", "checkpoint")
        write("journal", text[:place])
        tillbox("decode", "policy", "555", "sample.tbl", "journal", "ledger", "checkpoint")
        write("journal", text)
        says = summary(len(text), len(units), flags="invalid")
        tillbox("decode", "last", "sample.tbl", "journal", "ledger", "checkpoint", says=says)
        equal(read("ledger"), units.encode("utf-16le"), f"the ledger of the cut at {place}")


def test_every_cut_of_a_text():
    every_cut(b"a\x81\x40\x82\x7c\x83b", "a\u3000\u4e00\u30fbb")


def test_every_cut_of_a_text_with_broken_halves():
    # 81 before 0A, 82 before 7F and 82 at the end are codes alone; 81 82 and 82 80 are one code each
    every_cut(b"\x81\n\x82\x7fa\x81\x82\x82\x80b\x82", "\u30fb\n\u30fb\x7fa\u30fb\u30fbb\u30fb")


# ---------------------------------------------------------------------------------------------------------------
# Surrogates
# ---------------------------------------------------------------------------------------------------------------

HALF = "the unit D83D, the first half of a character"


def encoded(read_total, written, flags="none", pending="nothing", state="the run has ended", stop=()):
    return summary(read_total, written, flags, pending, state, units=("units", "bytes"), stop=stop)


def test_emoji_in_a_shop_name():
    # one question mark for each character that the page has not
    write("ledger", "喫茶\U0001f375みどり\U0001f33f\n緑茶 120円\n".encode("utf-16le"))
    tillbox("encode", "cp932.tbl", "ledger", "receipt", says=encoded(18, 24, flags="undefined single"))
    equal(read("receipt"), "喫茶?みどり?\n緑茶 120円\n".encode("cp932"), "the receipt")
    tillbox("encode", "policy", "155", "cp932.tbl", "ledger", "receipt", says=encoded(18, 22, flags="undefined single"))
    equal(read("receipt"), "喫茶みどり\n緑茶 120円\n".encode("cp932"), "the receipt")
    # the default byte of page 1252 is 3F too; the third digit is not asked
    write("ledger", "Café \U0001f600 Ölberg\n".encode("utf-16le"))
    tillbox("encode", "policy", "550", "cp1252.tbl", "ledger", "receipt", says=encoded(15, 14, flags="undefined single"))
    equal(read("receipt"), "Café ? Ölberg\n".encode("cp1252"), "the receipt")


def test_surrogates_alone():
    for units, receipt, flags in (
        ((0x41, 0xD83D, 0x42), b"A?B", "invalid"),
        ((0x41, 0xDE00, 0x42), b"A?B", "invalid"),
        ((0xDE00, 0xD83D), b"??", "invalid"),
        ((0xD83D, 0xD83D, 0xDE00), b"??", "undefined single, invalid"),
        ((0xD83D, 0xDE00, 0xDE00), b"??", "undefined single, invalid"),
        ((0xD83D, 0x0A, 0x42), b"?\nB", "invalid"),
        ((0x41, 0xD83D), b"A?", "invalid"),
        ((0xD7FF, 0xDC00), b"??", "undefined single, invalid"),
        ((0xDBFF, 0xE000), b"?\xf0\x40", "invalid"),
    ):
        write("ledger", units_text(*units))
        says = encoded(len(units), len(receipt), flags=flags)
        tillbox("encode", "policy", "555", "cp932.tbl", "ledger", "receipt", says=says)
        equal(read("receipt"), receipt, f"the receipt of {units}")


def test_the_first_half_of_a_pair_waits():
    goes = encoded(2, 1, pending=HALF, state="the run goes on")
    for after, units, receipt, last_line in (
        ("its other half", (0x41, 0xD83D, 0xDE00), b"A?", "- 1 3 2 over"),
        ("another unit", (0x41, 0xD83D, 0x42), b"A?B", "- 4 3 3 over"),
        ("another first half", (0x41, 0xD83D, 0xD83D), b"A??", "- 4 3 3 over"),
        ("the end of the text", (0x41, 0xD83D), b"A?", "- 4 2 2 over"),
    ):
        remove("receipt", "checkpoint")
        write("ledger", units_text(0x41, 0xD83D))
        # a second call on the same ledger changes nothing
        for _ in range(2):
            tillbox("encode", "policy", "555", "cp932.tbl", "ledger", "receipt", "checkpoint", says=goes)
            equal(read("checkpoint"), line("E 932 555 D83D 0 2 1 on"), "the line")
            equal(read("receipt"), b"A", "the receipt")
        write("ledger", units_text(*units))
        says = encoded(len(units), len(receipt), flags=flags_text(int(last_line.split(" ")[1])))
        tillbox("encode", "last", "cp932.tbl", "ledger", "receipt", "checkpoint", says=says)
        equal(read("receipt"), receipt, f"the receipt before {after}")
        equal(read("checkpoint"), line(f"E 932 555 {last_line}"), f"the line before {after}")


def test_half_a_unit_after_the_first_half_of_a_pair():
    # three bytes of a pair: the first half waits, the byte after it is not read
    pair = "\U0001f600".encode("utf-16le")
    write("ledger", pair[:3])
    goes = encoded(1, 0, pending=HALF, state="the run goes on")
    tillbox("encode", "cp932.tbl", "ledger", "receipt", "checkpoint", says=goes)
    write("ledger", pair)
    tillbox("encode", "last", "cp932.tbl", "ledger", "receipt", "checkpoint", says=encoded(2, 1, flags="undefined single"))
    equal(read("receipt"), b"?", "the receipt")


def test_a_pair_at_the_end_of_a_block():
    # the first half is the last unit of the first block (512 units) or part (2,048), or stands around that place
    for before in (510, 511, 512, 1023, 2046, 2047, 2048, 4095):
        a, b = [0x61] * before, [0x62] * 600
        for middle, receipt, flags in (
            ([0xD83D, 0xDE00], b"?", "undefined single"),
            ([0xD83D], b"?", "invalid"),
            ([0xD83D, 0xD83D, 0xDE00], b"??", "undefined single, invalid"),
            ([0xDE00], b"?", "invalid"),
        ):
            for end in (b, []):
                wanted = b"a" * before + receipt + b"b" * len(end)
                count = before + len(middle) + len(end)
                write("ledger", units_text(*a, *middle, *end))
                says = encoded(count, len(wanted), flags=flags)
                tillbox("encode", "policy", "555", "cp932.tbl", "ledger", "receipt", says=says)
                equal(read("receipt"), wanted, f"the receipt of {before} units, then {middle}")
    # a half alone, then a block (part) of two-byte codes: one byte more is written than two for each of its units
    for size in (512, 2048):
        write("ledger", units_text(*[0x61] * (size - 1), 0xD83D, *[0x5E74] * size, 0x62))
        says = encoded(2 * size + 1, 3 * size + 1, flags="invalid")
        tillbox("encode", "policy", "555", "cp932.tbl", "ledger", "receipt", says=says)
        equal(read("receipt"), b"a" * (size - 1) + b"?" + b"\x94\x4e" * size + b"b", "the receipt")


def test_a_pair_cut_by_a_saved_line():
    # the ledger has the first block and the first half of a pair; the other half comes the day after
    whole = units_text(*[0x61] * 511, 0xD83D, 0xDE00, *[0x62] * 511)
    write("ledger", whole[: 2 * 512])
    tillbox("encode", "cp932.tbl", "ledger", "receipt", "checkpoint", says=encoded(512, 511, pending=HALF, state="the run goes on"))
    equal(read("checkpoint"), line("E 932 550 D83D 0 512 511 on"), "the line")
    write("ledger", whole)
    tillbox("encode", "last", "cp932.tbl", "ledger", "receipt", "checkpoint", says=encoded(1024, 1023, flags="undefined single"))
    equal(read("receipt"), b"a" * 511 + b"?" + b"b" * 511, "the receipt")


def test_a_pair_cut_by_the_line_of_128_blocks():
    # the receipt may not grow over 65,800 bytes: the job fails behind the line of block 128, whose last unit is a first half
    wanted = b"a" * 65535 + b"?" + b"b" * 2000
    write("ledger", units_text(*[0x61] * 65535, 0xD83D, 0xDE00, *[0x62] * 2000))
    says = ["error: cannot write receipt: File too large"]
    tillbox("encode", "last", "cp932.tbl", "ledger", "receipt", "checkpoint", word="failed", says=says, limit=65800, env=SLOW)
    equal(read("checkpoint"), line("E 932 550 D83D 0 65536 65535 on"), "the line")
    # what is behind the line in the receipt is written over
    write("receipt", read("receipt")[:65535] + b"no part of it" * 1000)
    says = encoded(67537, 67536, flags="undefined single")
    tillbox("encode", "last", "cp932.tbl", "ledger", "receipt", "checkpoint", says=says)
    equal(read("receipt"), wanted, "the receipt")
    equal(read("checkpoint"), line("E 932 550 - 1 67537 67536 over"), "the line")


def test_checkpoints_with_a_unit():
    write("ledger", units_text(0x41, 0xD83D, 0xDE00))
    write("receipt", b"A, and what no line speaks of")
    for text in (
        "83 0 2 1 on", "DC00 0 2 1 on", "D7FF 0 2 1 on", "d83d 0 2 1 on", "D83 0 2 1 on", "D83D 0 2 3 on", "D83D 0 0 0 on",
        "D83D 0 2 1 over",
    ):
        write("checkpoint", line("E 932 555 " + text))
        refused("encode", "cp932.tbl", "ledger", "receipt", "checkpoint", says=["error 18: not a saved line (checkpoint)"])
    for text in ("0083 0 2 1 on", "D83D 0 2 1 on"):
        write("checkpoint", line("D 932 555 " + text))
        refused("decode", "cp932.tbl", "journal", "ledger", "checkpoint", says=["error 18: not a saved line (checkpoint)"])
    write("checkpoint", line("E 932 555 D83D 0 2 1 on"))
    refused("encode", "cp1252.tbl", "ledger", "receipt", "checkpoint", says=other_run("encoding page 932", "encoding page 1252"))
    refused("decode", "cp932.tbl", "journal", "receipt", "checkpoint", says=other_run("encoding page 932", "decoding page 932"))
    # a unit whose halves are no lead bytes of the page, and a line that an older tillbox saved
    write("ledger", units_text(0x41, 0xD841, 0xDE00))
    write("checkpoint", line("E 932 555 D841 0 2 1 on"))
    tillbox("encode", "last", "cp932.tbl", "ledger", "receipt", "checkpoint", says=encoded(3, 2, flags="undefined single"))
    equal(read("receipt"), b"A?", "the receipt")
    write("checkpoint", line("E 932 555 - 0 1 1 on"))
    tillbox("encode", "last", "cp932.tbl", "ledger", "receipt", "checkpoint", says=encoded(3, 2, flags="undefined single"))
    equal(read("receipt"), b"A?", "the receipt")


def test_every_cut_of_a_text_with_surrogates():
    # a pair, A, a first half alone, B, a second half alone, a first half before a pair, a first half at the end
    units = (0xD83D, 0xDE00, 0x41, 0xD83D, 0x42, 0xDE00, 0xD83D, 0xD83D, 0xDE01, 0xDBFF)
    whole = units_text(*units)
    # every second cut is in the middle of a unit
    for place in range(len(whole) + 1):
        remove("receipt", "checkpoint")
        write("ledger", whole[:place])
        tillbox("encode", "policy", "555", "sample.tbl", "ledger", "receipt", "checkpoint")
        write("ledger", whole)
        says = encoded(len(units), 8, flags="undefined single, invalid")
        tillbox("encode", "last", "sample.tbl", "ledger", "receipt", "checkpoint", says=says)
        equal(read("receipt"), b"?A?B????", f"the receipt of the cut at {place}")


def random_ledger(rng, size):
    """Words of a ledger with emoji in them, and halves of pairs; size units."""
    words = [
        "喫茶\U0001f375みどり", "\U0001f363寿司\U0001f363", "total 1,234\n", "緑茶　120円\n", "Café \U0001f600\n", "\u2603", "\ue000",
    ]
    units = []
    while len(units) < size:
        if rng.random() < 0.9:
            word = rng.choice(words).encode("utf-16le")
            units += struct.unpack(f"<{len(word) // 2}H", word)
        else:
            units.append(rng.choice([0xD800, 0xD83D, 0xDBFF, 0xDC00, 0xDE00, 0xDFFF, rng.randrange(65536)]))
    return units[:size]


def test_encoding_of_random_ledgers():
    # encoded by the second converter, at most 65,536 units at once; uncut, and cut in two places
    rng = random.Random(9)
    for name, page in (("cp932.tbl", 932), ("cp1252.tbl", 1252), ("sample.tbl", 7)):
        table = second_converter.read_image_file(name, ["."])
        for size in (1, 2, 511, 512, 513, 514, 1025, 2047, 2048, 2049, 20000):
            units = random_ledger(rng, size)
            policy = rng.choice(["555", "551", "155", "151", "234", "543"])
            out = [0] * (2 * size)
            answer = second_converter.convert_call(second_converter.ENCODING, tuple(map(int, policy)), table, units, out)
            receipt = bytes(out[: answer.written])
            says = encoded(size, len(receipt), flags=flags_text(answer.flags))
            write("ledger", units_text(*units))
            tillbox("encode", "policy", policy, name, "ledger", "receipt", says=says)
            equal(read("receipt"), receipt, f"the receipt of {size} units on page {page}")
            remove("receipt", "checkpoint")
            for place in sorted(rng.randrange(2 * size + 1) for _ in range(2)):
                write("ledger", units_text(*units)[:place])
                tillbox("encode", "policy", policy, name, "ledger", "receipt", "checkpoint")
            write("ledger", units_text(*units))
            tillbox("encode", "last", "policy", policy, name, "ledger", "receipt", "checkpoint", says=says)
            equal(read("receipt"), receipt, f"the receipt of {size} units on page {page}, cut")
            over = line(f"E {page} {policy} - {answer.flags} {size} {len(receipt)} over")
            equal(read("checkpoint"), over, "the line")


# ---------------------------------------------------------------------------------------------------------------
# Import
# ---------------------------------------------------------------------------------------------------------------


def imported(read_total, records, fields, flags="none", stop=()):
    return [f"read {read_total} bytes, written {records} records with {fields} fields", flags_line(flags), *stop]


def stopped_in(policy, record, field, place, code, kind):
    """What is said of an import that stopped."""
    where = f"in record {record}, field {field}, at byte {place}, counted from 0: {code}, {kind}"
    return [f"stopped by policy {policy} {where}", *how_to_go_on()]


def records_text():
    """The records file's text; the mark is its first unit and stands once."""
    content = read("records")
    equal(content[:2], b"\xff\xfe", "the mark")
    return content[2:].decode("utf-16le")


def test_import_of_a_journal():
    write("journal", b"no|item|price\n0001|tea, green|300\n0002|\x22best\x22 rice|1200\n")
    tillbox("import", "cp932.tbl", "journal", "records", says=imported(56, 3, 9))
    equal(records_text(), 'no,item,price\r\n0001,"tea, green",300\r\n0002,"""best"" rice",1200\r\n', "the records")


def test_import_keeps_carriage_returns():
    write("journal", b"a|b\r\n\r\nc\rd|e\r")
    tillbox("import", "sample.tbl", "journal", "records", says=imported(13, 3, 5))
    equal(records_text(), 'a,"b\r"\r\n"\r"\r\n"c\rd","e\r"\r\n', "the records")


def test_import_of_ends():
    # every journal, its records, and how many records and fields these are
    for journal, text, records, fields in [
        (b"", "", 0, 0),
        (b"a", "a\r\n", 1, 1),
        (b"a\n", "a\r\n", 1, 1),
        (b"a|", "a\r\n", 1, 1),
        (b"a|\n", "a,\r\n", 1, 2),
        (b"|", "\r\n", 1, 1),
        (b"||", ",\r\n", 1, 2),
        (b"|a", ",a\r\n", 1, 2),
        (b"\n", "\r\n", 1, 1),
        (b"\n\n", "\r\n\r\n", 2, 2),
        (b"a\n|", "a\r\n\r\n", 2, 2),
        (b"a|b\n\nc", "a,b\r\n\r\nc\r\n", 3, 4),
        (b'"', '""""\r\n', 1, 1),
        (b",", '","\r\n', 1, 1),
    ]:
        write("journal", journal)
        tillbox("import", "sample.tbl", "journal", "records", says=imported(len(journal), records, fields))
        equal(records_text(), text, f"the records of {journal!r}")


def test_import_of_a_character_with_a_bar_in_it():
    # page 7: 82 7C is 4E00. Byte 511, the last of the first block, is 82; the next block begins with 7C 7C
    journal = (b"x" * 63 + b"\n") * 7 + b"y" * 63 + b"\x82\x7c\x7cz\n"
    equal(journal[511:514], b"\x82\x7c\x7c", "the place of the cut")
    write("journal", journal)
    tillbox("import", "sample.tbl", "journal", "records", says=imported(516, 8, 9))
    equal(records_text(), ("x" * 63 + "\r\n") * 7 + "y" * 63 + "\u4e00,z\r\n", "the records")
    # page 932: 83 7C is the second character of this word
    write("journal", "0001|レポート|300\n".encode("cp932"))
    tillbox("import", "cp932.tbl", "journal", "records", says=imported(18, 1, 3))
    equal(records_text(), "0001,レポート,300\r\n", "the records")


def test_import_makes_the_records_anew():
    write("journal", b"a\n")
    write("records", b"older and longer records")
    tillbox("import", "sample.tbl", "journal", "records")
    equal(records_text(), "a\r\n", "the records")


def too_long(record, field, place):
    return [
        "error 21: a field has over 256 units (journal)",
        f"  record {record}, field {field}: its 257th unit is read from the byte at {place} of the journal, counted from 0",
        "  A bar or a line feed is missing before it, or the table is not this journal's. Mend the journal or",
        "  name its table, and import it again.",
    ]


def test_import_of_256_units():
    # within a block, over a block's end, as the last field, and all of them quotes
    for front in (b"a|", b"x\n" * 200, b"x\n" * 255):
        for unit, text in ((b"b", "b"), (b"\x82\x7c", "\u4e00"), (b'"', '""')):
            for end in (b"|c\n", b""):
                write("journal", front + unit * 256 + end)
                tillbox("import", "sample.tbl", "journal", "records")
                field = text * 256 if text != '""' else '"' + text * 256 + '"'
                before = front.decode().replace("|", ",").replace("\n", "\r\n")
                equal(records_text(), before + field + (",c" if end else "") + "\r\n", f"the records of {front!r}, {unit!r}, {end!r}")


def test_import_of_257_units():
    # where it begins, and the unit that is too many: in the first block, in the second, in a pair that is cut by a block's end
    for front, record, field, unit, place, whole in [
        (b"a\nb|", 2, 2, b"c", 4 + 256, b"a\n"),
        (b"", 1, 1, b"c", 256, b""),
        (b"x\n" * 200, 201, 1, b"\x82\x7c", 400 + 512, b"x\n" * 200),
        ((b"y" * 50 + b"\n") * 10 + b"\n", 12, 1, b"\x82\x7c", 511 + 512, (b"y" * 50 + b"\n") * 10 + b"\n"),
        (b"x|z\n" * 1000 + b"1|2|3|", 1001, 4, b"c", 4006 + 256, b"x|z\n" * 1000),
    ]:
        fields = whole.count(b"|") + whole.count(b"\n")
        for end in (b"|d\n", b"\n", b""):
            journal = front + unit * 257 + end
            # the block is read that has the last byte of the unit
            read_total = min(len(journal), (place + len(unit) - 1) // 512 * 512 + 512)
            write("journal", journal)
            says = too_long(record, field, place) + imported(read_total, record - 1, fields)
            tillbox("import", "sample.tbl", "journal", "records", word="failed", says=says)
            equal(records_text(), whole.decode().replace("|", ",").replace("\n", "\r\n"), "the records before it")


def test_import_under_skipped_codes():
    # page 7: 80 is an undefined single. Skipped, it is no unit of the field: 256 are left, or the 257th is at the end
    write("journal", b"a|" + b"\x80b" * 256 + b"\x80\n")
    tillbox("import", "policy", "155", "sample.tbl", "journal", "records", says=imported(516, 1, 2, flags="undefined single"))
    equal(records_text(), "a," + "b" * 256 + "\r\n", "the records")
    write("journal", b"a|" + b"\x80b" * 257 + b"\n")
    tillbox("import", "policy", "155", "sample.tbl", "journal", "records", word="failed", says=too_long(1, 2, 2 + 513) + imported(517, 0, 0, flags="undefined single"))
    equal(records_text(), "", "the records")


def test_import_of_a_damaged_night():
    # page 7: 80 is an undefined single, 81 5A an undefined pair, 83 invalid; a lead at the end is invalid too
    names = "undefined single, undefined pair, invalid"
    # import asks for 555 itself: it gets through
    for policy in ((), ("policy", "555")):
        write("journal", b"a|\x80\n\x81\x5a|b\x83\nc\x82")
        tillbox("import", *policy, "sample.tbl", "journal", "records", says=imported(12, 3, 5, flags=names))
        equal(records_text(), "a,\u30fb\r\n\u30fb,b\u30fb\r\nc\u30fb\r\n", "the records")
    # under 550 the run stops behind 83, in the second field of record 2
    says = imported(9, 1, 2, flags=names + ", stopped", stop=stopped_in("550", 2, 2, 8, "83", INVALID))
    tillbox("import", "policy", "550", "sample.tbl", "journal", "records", word="stopped", says=says)
    equal(records_text(), "a,\u30fb\r\n", "the records")
    # under 505 behind 81 5A, in its first field; under 055 in record 1
    says = imported(6, 1, 2, flags="undefined single, undefined pair, stopped", stop=stopped_in("505", 2, 1, 4, "81 5A", PAIR))
    tillbox("import", "policy", "505", "sample.tbl", "journal", "records", word="stopped", says=says)
    says = imported(3, 0, 0, flags="undefined single, stopped", stop=stopped_in("055", 1, 2, 2, "80", SINGLE))
    tillbox("import", "policy", "055", "sample.tbl", "journal", "records", word="stopped", says=says)
    equal(records_text(), "", "the records")
    # and at the end of the text, behind a lead that stands alone
    write("journal", b"a|b\nc\x82")
    says = imported(6, 1, 2, flags="invalid, stopped", stop=stopped_in("550", 2, 1, 5, "82", INVALID))
    tillbox("import", "policy", "550", "sample.tbl", "journal", "records", word="stopped", says=says)
    equal(records_text(), "a,b\r\n", "the records")
    # a stop where a record ends: it is whole
    write("journal", b"a|b\n\x83c\n")
    says = imported(5, 1, 2, flags="invalid, stopped", stop=stopped_in("550", 2, 1, 4, "83", INVALID))
    tillbox("import", "policy", "550", "sample.tbl", "journal", "records", word="stopped", says=says)
    equal(records_text(), "a,b\r\n", "the records")


def test_import_stops_at_a_block():
    # byte 511, the last of the first block, begins the code
    front = (b"x" * 63 + b"\n") * 7 + b"y" * 63
    for policy, code, shown, kind, read_total in (
        ("550", b"\x82\x80", "82 80", INVALID, 513),
        ("550", b"\x82\n", "82", INVALID, 512),
        ("550", b"\x82", "82", INVALID, 512),
        ("550", b"\x83\n", "83", INVALID, 512),
        ("505", b"\x81\x5a\n", "81 5A", PAIR, 513),
        ("055", b"\x80\n", "80", SINGLE, 512),
    ):
        write("journal", front + code)
        says = imported(read_total, 7, 7, flags=flags_text(STOPPED_BY[kind]), stop=stopped_in(policy, 8, 1, 511, shown, kind))
        tillbox("import", "policy", policy, "sample.tbl", "journal", "records", word="stopped", says=says)
        equal(records_text(), ("x" * 63 + "\r\n") * 7, f"the records before {shown}")


def test_import_stops_late():
    # what was written of the record that is broken off is cut away again: it has more fields than the output block holds
    write("journal", b"kept|whole\n" + b"field|" * 5000 + b"\x83\n")
    says = imported(30012, 1, 2, flags="invalid, stopped", stop=stopped_in("550", 2, 5001, 30011, "83", INVALID))
    tillbox("import", "policy", "550", "sample.tbl", "journal", "records", word="stopped", says=says)
    equal(records_text(), "kept,whole\r\n", "the records")


def names_refused(words, source, target, *more):
    """What is refused of the names of a command with a table, an input and an output, behind its own words: all before a file is touched."""
    missing = "No such file or directory"
    twice = "two of the files have this name"
    os.mkdir("folder")
    write(target, b"kept")
    write("bad.tbl", b"no table")
    image = bytearray(read("cp932.tbl"))
    image[28 + 0xFF] = 3
    write("class.tbl", image)
    for names, says in [
        (["none.tbl", source, target], [f"error: cannot open none.tbl: {missing}"]),
        (["cp932.tbl", "none", target], [f"error: cannot open none: {missing}"]),
        (["cp932.tbl", source, f"none/{target}"], [f"error: cannot make none/{target}: {missing}"]),
        (["cp932.tbl", "folder", target], [f"error: folder: {NO_PLAIN_FILE}"]),
        (["cp932.tbl", source, "/dev/full"], [f"error: /dev/full: {NO_PLAIN_FILE}"]),
        (["bad.tbl", source, target], ["error: bad.tbl: it is not a table image"]),
        (["cp932.tbl", source, source], [f"error: {source}: {twice}"]),
        (["cp932.tbl", source, "cp932.tbl"], [f"error: cp932.tbl: {twice}"]),
        (["cp932.tbl", "", target], ["error: the name of a file is empty or too long"]),
        (
            ["class.tbl", source, target],
            ["error 10: the shape of the tables is not good (class.tbl)", "  the first bad place: the class at FF is none of 0, 1, 2, 4, 5, 6"],
        ),
        *more,
    ]:
        refused(*words, *names, says=says)


def test_import_refused():
    names_refused(["import"], "journal", "records")
    says = ["error 17: the page is 0, or a policy digit is not allowed (policy)", "  the digits are 565; each is 0 to 5, and the first may be 6"]
    refused("import", "policy", "565", "cp932.tbl", "journal", "records", says=says)
    with open("huge", "wb") as file:
        file.truncate(4294967296)
    refused("import", "cp932.tbl", "huge", "records", says=["error 16: the input has over 4,294,967,295 units (huge)"])


def test_import_that_can_not_write():
    write("journal", b"field|" * 5000)
    tillbox("import", "cp932.tbl", "journal", "records", word="failed", says=["error: cannot write records: File too large"], limit=20000)


def model_of(text):
    """The records of a decoded text, by Python's own means: a list of lists of fields."""
    records = [record.split("|") for record in text.split("\n")]
    # the end of the text ends a field that has units, and closes a record that has a field
    if records[-1][-1] == "":
        records[-1].pop()
    if not records[-1]:
        records.pop()
    return records


def csv_of(records):
    """The records as Python's csv module writes them; it would quote an empty record."""
    file = io.StringIO(newline="")
    writer = csv.writer(file, lineterminator="\r\n")
    for record in records:
        if record == [""]:
            file.write("\r\n")
        else:
            writer.writerow(record)
    return file.getvalue()


def compare_import(table, text, *policy, flags="none", read_total):
    records = model_of(text)
    tillbox("import", *policy, table, "journal", "records", says=imported(read_total, len(records), sum(map(len, records)), flags))
    # units, not characters: a text of random units may have surrogates that stand alone
    content = read("records")[2:].decode("utf-16le", "surrogatepass")
    equal(content, csv_of(records), "the records file")
    back = [record or [""] for record in csv.reader(io.StringIO(content, newline=""), strict=True)]
    equal(back, records, "the records that Python reads")


def test_import_of_a_long_journal():
    # some 300 blocks, decoded by Python's codec
    rng = random.Random(7)
    words = ["レポート", "ソーセージ", "tea, green", 'the "best"', "", "x" * 250, "\r", "価格,十円", "ﾎﾟｲﾝﾄ", "100"]
    text = "".join(rng.choice(words) + rng.choice(["|", "|", "|", "\n", "\r\n"]) for _ in range(8000)) + "no line feed"
    journal = text.encode("cp932")
    write("journal", journal)
    compare_import("cp932.tbl", text, read_total=len(journal))


def test_import_of_random_bytes():
    # decoded by the second converter, at most 65,536 bytes at once; separators are frequent, so that no field is too long
    rng = random.Random(8)
    for name in ("cp932.tbl", "cp1252.tbl", "sample.tbl"):
        table = second_converter.read_image_file(name, ["."])
        for size in (1, 511, 512, 513, 1024, 60000):
            journal = bytes(rng.choice(b'|\n",\r\x82\x7c\x81') if rng.random() < 0.3 else rng.randrange(256) for _ in range(size))
            out = [0] * (2 * size)
            answer = second_converter.convert_call(second_converter.DECODING, (5, 5, 5), table, list(journal), out)
            text = struct.pack(f"<{answer.written}H", *out[: answer.written]).decode("utf-16le", "surrogatepass")
            write("journal", journal)
            compare_import(name, text, flags=flags_text(answer.flags), read_total=size)


# ---------------------------------------------------------------------------------------------------------------
# Preview
# ---------------------------------------------------------------------------------------------------------------


def previewed(read_total, written, replaced, flags="none"):
    return [f"read {read_total} units, written {written} bytes", f"characters replaced: {replaced}", flags_line(flags)]


def test_preview_of_a_receipt():
    # an emoji is one character; a question mark of the ledger is none that was replaced
    write("ledger", "日本 \U0001f600\n".encode("utf-16le"))
    tillbox("preview", "cp932.tbl", "ledger", "receipt", says=previewed(6, 7, 1, flags="undefined single"))
    equal(read("receipt"), "日本 ?\n".encode("cp932"), "the receipt")
    write("ledger", "日本?\n".encode("utf-16le"))
    tillbox("preview", "cp932.tbl", "ledger", "receipt", says=previewed(4, 6, 0))
    equal(read("receipt"), "日本?\n".encode("cp932"), "the receipt")


def test_preview_gets_through():
    for units, receipt, replaced, flags in (
        ((), b"", 0, "none"),
        ((0x41,), b"A", 0, "none"),
        ((0x1234,), b"?", 1, "undefined single"),
        ((0xD83D, 0xDE00), b"?", 1, "undefined single"),
        ((0xD83D,), b"?", 1, "invalid"),
        ((0xDE00, 0xD83D), b"??", 2, "invalid"),
        ((0xD83D, 0xD83D, 0xDE00, 0x41), b"??A", 2, "undefined single, invalid"),
        ((0x41, 0xD83D, 0x42, 0x1234, 0x3000), b"A?B?\x81\x40", 2, "undefined single, invalid"),
        ((0x3F, 0x3F, 0xFFFF), b"???", 1, "undefined single"),
    ):
        write("ledger", units_text(*units))
        # an older receipt is made anew
        write("receipt", b"an older and longer receipt")
        says = previewed(len(units), len(receipt), replaced, flags)
        tillbox("preview", "sample.tbl", "ledger", "receipt", says=says)
        equal(read("receipt"), receipt, f"the receipt of {units}")


def test_preview_over_blocks():
    # a pair that is cut by the end of a block is one character, a half alone there is one, and so is each half behind another
    for before in (510, 511, 512, 1023):
        for middle, receipt, replaced, flags in (
            ((0xD83D, 0xDE00), b"?", 1, "undefined single"),
            ((0xD83D,), b"?", 1, "invalid"),
            ((0xD83D, 0xD83D, 0xDE00, 0xDE00), b"???", 3, "undefined single, invalid"),
        ):
            for end in ((), (0x62,) * 600):
                write("ledger", units_text(*[0x61] * before, *middle, *end))
                wanted = b"a" * before + receipt + b"b" * len(end)
                says = previewed(before + len(middle) + len(end), len(wanted), replaced, flags)
                tillbox("preview", "sample.tbl", "ledger", "receipt", says=says)
                equal(read("receipt"), wanted, f"the receipt of {before} units, then {middle}")
    # every character is replaced: 70,000 units, half of them pairs
    write("ledger", units_text(*(0xD83D, 0xDE00, 0x1234, 0xFFFF) * 17500))
    tillbox("preview", "sample.tbl", "ledger", "receipt", says=previewed(70000, 52500, 52500, flags="undefined single"))
    equal(read("receipt"), b"?" * 52500, "the receipt")


def receipt_of(table, units):
    """By Python, from documents 01 and 02: the receipt under 555, how many characters were replaced, the flags."""
    receipt, replaced, flags = b"", 0, 0
    for match in re.finditer("[\ud800-\udbff][\udc00-\udfff]|.", "".join(map(chr, units)), re.DOTALL):
        unit = ord(match.group()[0])
        code = table.blocks[256 * table.index[unit >> 8] + (unit & 0xFF)]
        surrogate = 0xD800 <= unit <= 0xDFFF
        if surrogate or code == 0xFFFF:
            receipt += bytes([table.default_byte])
            replaced += 1
            flags |= 4 if surrogate and len(match.group()) == 1 else 1
        else:
            receipt += bytes([code]) if code < 0x100 else bytes([code >> 8, code & 0xFF])
    return receipt, replaced, flags


def test_preview_of_random_ledgers():
    # beside what encode writes under 555; question marks of the ledger's own are spread over it, also between the halves of pairs
    rng = random.Random(10)
    for name in ("cp932.tbl", "cp1252.tbl", "sample.tbl"):
        table = second_converter.read_image_file(name, ["."])
        for size in (1, 2, 511, 512, 513, 1025, 5000, 70000):
            units = [0x3F if rng.random() < 0.05 else unit for unit in random_ledger(rng, size)]
            wanted, replaced, flags = receipt_of(table, units)
            write("ledger", units_text(*units))
            says = previewed(size, len(wanted), replaced, flags_text(flags))
            tillbox("preview", name, "ledger", "receipt", says=says)
            equal(read("receipt"), wanted, f"the receipt of {size} units on {name}")
            says = encoded(size, len(wanted), flags_text(flags))
            tillbox("encode", "policy", "555", name, "ledger", "encoded", says=says)
            equal(read("encoded"), wanted, f"what encode makes of {size} units on {name}")


def preview_refused(*width):
    """What is refused of a preview, with the words before the names."""
    write("ledger", units_text(0x41))
    write("odd", b"A\0B")
    odd = (["cp932.tbl", "odd", "receipt"], ["error: odd: an odd number of bytes is no text of UTF-16 units"])
    names_refused(["preview", *width], "ledger", "receipt", odd)
    with open("huge", "wb") as file:
        file.truncate(2 * 4294967296)
    refused("preview", *width, "cp932.tbl", "huge", "receipt", says=["error 16: the input has over 4,294,967,295 units (huge)"])


def test_preview_refused():
    preview_refused()


def test_preview_that_can_not_write():
    write("ledger", units_text(*[0x61] * 30000))
    says = ["error: cannot write receipt: File too large"]
    tillbox("preview", "cp932.tbl", "ledger", "receipt", word="failed", says=says, limit=20000)


# ---------------------------------------------------------------------------------------------------------------
# Preview with a width
# ---------------------------------------------------------------------------------------------------------------

TOO_MANY_BYTES = "it has over 65,536 bytes"
TOO_MANY_LINES = "it would be over 4,097 printed lines"


def too_wide(width):
    return f"it has a code of over {width} bytes"


def broken(read_total, written, lines, replaced=0, flags="none", whole=()):
    """What a preview with a width says; whole has the lines that are not broken, each as its number, from 1, and why."""
    totals, *rest = previewed(read_total, written, replaced, flags)
    told = [f"line {number} is not broken: {why}" for number, why in whole]
    return [*told, totals, f"printed lines: {lines}", f"lines not broken: {len(whole)}", *rest]


def preview_lines(width, table, text, lines, replaced=0, flags="none", whole=()):
    """Previews a text of units or letters at a width; `lines` has the printed lines by hand, each without the line feed that
    closes it."""
    units = units_text(*text) if isinstance(text, tuple) else text.encode("utf-16le")
    receipt = b"".join(line + b"\n" for line in lines)
    write("ledger", units)
    # an older receipt is made anew
    write("receipt", b"an older and longer receipt" * 3)
    says = broken(len(units) // 2, len(receipt), len(lines), replaced, flags, whole)
    tillbox("preview", "width", str(width), table, "ledger", "receipt", says=says)
    equal(read("receipt"), receipt, f"the receipt of {text[:20]!r} at width {width}")


WIDE = b"\x81\x40"  # 3000 on the sample page


def test_preview_breaks_lines():
    # one byte and two bytes a character, at every width from 1 to what needs no break
    text = "A\u3000B\u3000\n"
    preview_lines(1, "sample.tbl", text, [b"A" + WIDE + b"B" + WIDE], whole=[(1, too_wide(1))])
    preview_lines(2, "sample.tbl", text, [b"A", WIDE, b"B", WIDE])
    preview_lines(3, "sample.tbl", text, [b"A" + WIDE, b"B" + WIDE])
    preview_lines(4, "sample.tbl", text, [b"A" + WIDE + b"B", WIDE])
    preview_lines(5, "sample.tbl", text, [b"A" + WIDE + b"B", WIDE])
    for width in (6, 7, 65536):
        preview_lines(width, "sample.tbl", text, [b"A" + WIDE + b"B" + WIDE])
    text = "\u3000\u3000\u3000A\nBC\u3000\n"
    preview_lines(2, "sample.tbl", text, [WIDE, WIDE, WIDE, b"A", b"BC", WIDE])
    preview_lines(3, "sample.tbl", text, [WIDE, WIDE, WIDE + b"A", b"BC", WIDE])
    preview_lines(4, "sample.tbl", text, [WIDE + WIDE, WIDE + b"A", b"BC" + WIDE])
    preview_lines(5, "sample.tbl", text, [WIDE + WIDE, WIDE + b"A", b"BC" + WIDE])
    # by Python's codec
    text = "日本 \U0001f600\n"
    preview_lines(4, "cp932.tbl", text, ["日本".encode("cp932"), b" ?"], replaced=1, flags="undefined single")
    preview_lines(5, "cp932.tbl", text, ["日本 ".encode("cp932"), b"?"], replaced=1, flags="undefined single")
    preview_lines(3, "cp1252.tbl", "Caf\u00e9 12\n", [b"Caf", b"\xe9 1", b"2"])


def test_preview_closes_every_line():
    for text, lines in (
        ("", []),
        ("\n", [b""]),
        ("\n\n", [b"", b""]),
        ("A", [b"A"]),
        ("A\n", [b"A"]),
        ("AB", [b"A", b"B"]),
        ("AB\n", [b"A", b"B"]),
        ("A\nB", [b"A", b"B"]),
        ("A\n\nB\n", [b"A", b"", b"B"]),
        ("\nA", [b"", b"A"]),
        ("AB\n\n", [b"A", b"B", b""]),
        ("AB\n\nCD\n\n\nE", [b"A", b"B", b"", b"C", b"D", b"", b"", b"E"]),
        # a carriage return is a character of its line, and so is a bar
        ("A\r\nB|", [b"A", b"\r", b"B", b"|"]),
    ):
        preview_lines(1, "sample.tbl", text, lines)
    # a line that fills its width is closed once
    preview_lines(2, "sample.tbl", "ABCD\nEF\n\nG", [b"AB", b"CD", b"EF", b"", b"G"])
    preview_lines(4, "sample.tbl", "ABCD\nEF\n\nG", [b"ABCD", b"EF", b"", b"G"])


def test_preview_of_surrogates_at_line_ends():
    feed = 0x0A
    for text, width, lines, replaced, flags in (
        ((0x41, 0xD83D, 0xDE00, feed, 0x42), 1, [b"A", b"?", b"B"], 1, "undefined single"),
        ((0x41, 0xD83D, 0xDE00, feed, 0x42), 2, [b"A?", b"B"], 1, "undefined single"),
        ((0x41, 0xD83D, feed, 0x42), 1, [b"A", b"?", b"B"], 1, "invalid"),
        ((0x41, 0xD83D, feed, 0x42), 2, [b"A?", b"B"], 1, "invalid"),
        ((0x41, 0xDE00, feed, 0x42, feed), 2, [b"A?", b"B"], 1, "invalid"),
        ((0xD83D, feed, 0xDE00), 1, [b"?", b"?"], 2, "invalid"),
        ((0xD83D, feed, feed, 0xDE00, feed), 9, [b"?", b"", b"?"], 2, "invalid"),
        ((0x41, feed, 0xD83D), 1, [b"A", b"?"], 1, "invalid"),
        ((0x41, feed, 0xD83D, 0xDE00), 1, [b"A", b"?"], 1, "undefined single"),
        ((0xD83D, 0xD83D, 0xDE00, feed, 0x1234, feed), 1, [b"?", b"?", b"?"], 3, "undefined single, invalid"),
    ):
        preview_lines(width, "sample.tbl", text, lines, replaced, flags)


def test_preview_tells_lines_that_are_not_broken():
    text = "A\n\n\u3000\nAB\nC\u3000\u3000D\nE"
    lines = [b"A", b"", WIDE, b"A", b"B", b"C" + WIDE + WIDE + b"D", b"E"]
    preview_lines(1, "sample.tbl", text, lines, whole=[(3, too_wide(1)), (5, too_wide(1))])
    # the last line, with no line feed behind it; one of many
    preview_lines(1, "sample.tbl", "A\n\u3000", [b"A", WIDE], whole=[(2, too_wide(1))])
    preview_lines(1, "sample.tbl", "\n" * 1233 + "\u3000\n" + "AB\n", [b""] * 1233 + [WIDE, b"A", b"B"], whole=[(1234, too_wide(1))])
    # what is replaced in such a line counts, and is one byte
    text = "A\U0001f600\u3000\n\u2603\u2603\n"
    lines = [b"A?" + WIDE, b"?", b"?"]
    preview_lines(1, "sample.tbl", text, lines, replaced=3, flags="undefined single", whole=[(1, too_wide(1))])


def test_preview_of_long_lines():
    a = b"a" * 65536
    # 65,536 bytes are broken; one more is not, at any width
    preview_lines(65536, "sample.tbl", "a" * 65536 + "\nb", [a, b"b"])
    preview_lines(65535, "sample.tbl", "a" * 65536 + "\nb", [a[1:], b"a", b"b"])
    preview_lines(65536, "sample.tbl", "\u3000" * 32768 + "\n", [WIDE * 32768])
    preview_lines(65535, "sample.tbl", "\u3000" * 32768 + "\n", [WIDE * 32767, WIDE])
    for width in (1, 100, 65536):
        preview_lines(width, "sample.tbl", "A\n" + "a" * 65537 + "\nb\n", [b"A", a + b"a", b"b"], whole=[(2, TOO_MANY_BYTES)])
        preview_lines(width, "sample.tbl", "\u3000" * 32769, [WIDE * 32769], whole=[(1, TOO_MANY_BYTES)])
    preview_lines(50, "sample.tbl", "a" * 200000 + "\nb", [a * 3 + a[:3392], b"b"], whole=[(1, TOO_MANY_BYTES)])
    # 65,537 units that are fewer bytes: each pair is one
    preview_lines(65536, "sample.tbl", "a" * 65535 + "\U0001f600", [a[1:] + b"?"], replaced=1, flags="undefined single")
    # 4,096 breaks are 4,097 printed lines; one more is not broken
    preview_lines(1, "sample.tbl", "a" * 4097 + "\nb", [b"a"] * 4097 + [b"b"])
    preview_lines(1, "sample.tbl", "a" * 4098 + "\nbc\n", [a[:4098], b"b", b"c"], whole=[(1, TOO_MANY_LINES)])
    preview_lines(16, "sample.tbl", "a" * 65536, [b"a" * 16] * 4096)
    preview_lines(15, "sample.tbl", "a" * 61455, [b"a" * 15] * 4097)
    preview_lines(15, "sample.tbl", "a" * 61456, [a[:61456]], whole=[(1, TOO_MANY_LINES)])
    preview_lines(3, "sample.tbl", "\u3000" * 4097 + "\n", [WIDE] * 4097)
    preview_lines(3, "sample.tbl", "\u3000" * 4098 + "\n", [WIDE * 4098], whole=[(1, TOO_MANY_LINES)])
    # a code that is too long behind more breaks than are broken, and in a line of too many bytes
    preview_lines(1, "sample.tbl", "a" * 9000 + "\u3000\nb", [a[:9000] + WIDE, b"b"], whole=[(1, too_wide(1))])
    preview_lines(1, "sample.tbl", "\u3000" + "a" * 65536, [WIDE + a], whole=[(1, TOO_MANY_BYTES)])


def test_preview_of_lines_over_blocks():
    # lines that end before, at and behind the ends of blocks of 512 units
    for size in (510, 511, 512, 513, 1023, 1024, 1025, 5000):
        for end in ("", "\n", "\n\n", "\nbc"):
            rest = {"": [], "\n": [], "\n\n": [b""], "\nbc": [b"bc"]}[end]
            lines = [b"a" * 100] * (size // 100) + [b"a" * (size % 100)] * (size % 100 > 0)
            preview_lines(100, "sample.tbl", "a" * size + end, lines + rest)
            lines = [WIDE * 50] * (size // 50) + [WIDE * (size % 50)] * (size % 50 > 0)
            preview_lines(101, "sample.tbl", "\u3000" * size + end, lines + rest)
            preview_lines(1, "sample.tbl", "\u3000" * size + end, [WIDE * size] + ([b"b", b"c"] if "b" in end else rest),
                          whole=[(1, too_wide(1))])
    # a pair that is cut by the end of a block, and a half alone there, in front of a line feed and of a letter
    for before in (510, 511, 512, 1023):
        for middle, written, replaced, flags in (
            ((0xD83D, 0xDE00), b"?", 1, "undefined single"),
            ((0xD83D,), b"?", 1, "invalid"),
            ((0xDE00, 0xD83D), b"??", 2, "invalid"),
        ):
            front = b"a" * before + written
            text = (*[0x61] * before, *middle)
            preview_lines(len(front), "sample.tbl", (*text, 0x0A, 0x62), [front, b"b"], replaced, flags)
            preview_lines(len(front), "sample.tbl", (*text, 0x62, 0x0A), [front, b"b"], replaced, flags)
            preview_lines(len(front), "sample.tbl", text, [front], replaced, flags)


def test_preview_breaks_lines_of_units():
    # a line ends at the unit 000A, whatever bytes are written: here the table's default byte is 0A
    image = bytearray(read("sample.tbl"))
    image[2] = 0x0A
    write("feeds.tbl", image)
    preview_lines(3, "feeds.tbl", "A\u2603BC\nD", [b"A\nB", b"C", b"D"], replaced=1, flags="undefined single")
    preview_lines(1, "feeds.tbl", "A\u2603\nD", [b"A", b"\n", b"D"], replaced=1, flags="undefined single")


def printed_lines(table, units, width):
    """By the rules in Python: the ledger is split at 000A, each line is encoded by the second converter under 555 and broken by the
    rule; the printed lines, those that are not broken, how many characters were replaced, and the flags."""
    text = "".join(map(chr, units))
    lines, whole, replaced, flags = [], [], 0, 0
    for number, part in enumerate((text[:-1] if text.endswith("\n") else text).split("\n") if text else [], 1):
        part = [ord(unit) for unit in part]
        out = [0] * (2 * len(part))
        answer = second_converter.convert_call(second_converter.ENCODING, (5, 5, 5), table, part, out)
        line = bytes(out[: answer.written])
        replaced += receipt_of(table, part)[1]
        flags |= answer.flags
        breaks = second_converter.own_breaks(table, line, width)
        if breaks is None:
            whole.append((number, too_wide(width)))
            breaks = []
        elif len(breaks) > 4096:
            whole.append((number, TOO_MANY_LINES))
            breaks = []
        lines += [line[start:end] for start, end in zip([0] + breaks, breaks + [len(line)])]
    return lines, whole, replaced, flags


def test_preview_of_random_ledgers_with_a_width():
    rng = random.Random(12)
    for name in ("cp932.tbl", "cp1252.tbl", "sample.tbl"):
        table = second_converter.read_image_file(name, ["."])
        for size in (0, 1, 2, 511, 512, 513, 1025, 5000, 20000):
            units = random_ledger(rng, size)
            # fewer line feeds, and then more of them, also behind the halves of pairs
            few, many = rng.choice((0.0, 0.5, 1.0)), rng.choice((0.0, 0.02, 0.3))
            units = [0x20 if unit == 0x0A and rng.random() < few else 0x0A if rng.random() < many else unit for unit in units]
            for width in (1, rng.choice((2, 3)), rng.choice((4, 5, 7, 16)), rng.choice((31, 32, 80, 513, 65536))):
                lines, whole, replaced, flags = printed_lines(table, units, width)
                preview_lines(width, name, tuple(units), lines, replaced, flags_text(flags), whole)


def test_preview_with_a_width_refused():
    preview_refused("width", "32")


def test_preview_with_a_width_that_can_not_write():
    write("ledger", units_text(*[0x61] * 30000))
    says = ["error: cannot write receipt: File too large"]
    tillbox("preview", "width", "32", "cp932.tbl", "ledger", "receipt", word="failed", says=says, limit=20000)


# ---------------------------------------------------------------------------------------------------------------
# Spell
# ---------------------------------------------------------------------------------------------------------------

TOO_LONG_SPELLED = "its spelling would have over 65,536 bytes"
# Two codes of page 932 for one character, U+9AD9; the first is its own, by the page's table.
OWN, OTHER = bytes.fromhex("FBFC"), bytes.fromhex("EEE0")


def no_spelling(place, code):
    return f"the code at byte {place}, counted from 0, has no standard spelling: {code}"


def spelled(read_total, written, lines, changed, untold=()):
    """What is said of a list; untold has the lines that are not spelled, each as its number, from 1, and why."""
    told = [f"line {number} is not spelled: {why}" for number, why in untold]
    return [*told, f"read {read_total} bytes, written {written} bytes", f"lines: {lines}", f"lines changed: {changed}", f"lines refused: {len(untold)}"]


def spell(table, names, spellings, lines, changed=0, untold=()):
    write("names", names)
    tillbox("spell", table, "names", "spellings", says=spelled(len(names), len(spellings), lines, changed, untold))
    equal(read("spellings") == spellings, True, f"the spellings of {names[:60]!r} with {table}")


def test_spell_names():
    # each code of a character that has more than one, and its own: U+9AD9, U+00AC, U+2235, U+2170, U+2160
    for code, own in (
        ("FBFC", "FBFC"), ("EEE0", "FBFC"), ("81CA", "81CA"), ("EEF9", "81CA"), ("FA54", "81CA"), ("879A", "81E6"), ("FA5B", "81E6"),
        ("81E6", "81E6"), ("EEEF", "FA40"), ("FA40", "FA40"), ("FA4A", "8754"), ("8754", "8754"),
    ):
        code, own = bytes.fromhex(code), bytes.fromhex(own)
        spell("cp932.tbl", b"A" + code + b"\n", b"A" + own + b"\n", 1, changed=int(code != own))
    bridge = bytes.fromhex("8BB4")
    spell("cp932.tbl", OTHER + bridge + b"\n" + OWN + bridge + b"\n", (OWN + bridge + b"\n") * 2, 2, changed=1)
    # a line is one change, however many codes of it are
    spell("cp932.tbl", OTHER * 3 + b"\nA\n" + OTHER + b"\n", OWN * 3 + b"\nA\n" + OWN + b"\n", 3, changed=2)
    # bytes of a line feed are none inside a character: no second byte of the page is 0A
    spell("cp932.tbl", b"tea\r\n\t|\n", b"tea\r\n\t|\n", 2)


def test_spell_makes_the_output_anew():
    write("spellings", b"x" * 5000)
    spell("cp932.tbl", OTHER + b"\n", OWN + b"\n", 1, changed=1)
    os.remove("spellings")
    spell("cp932.tbl", OTHER + b"\n", OWN + b"\n", 1, changed=1)


def test_spell_of_ends():
    spell("cp932.tbl", b"", b"", 0)
    spell("cp932.tbl", b"\n", b"\n", 1)
    spell("cp932.tbl", b"\n\n\n", b"\n\n\n", 3)
    spell("cp932.tbl", b"A", b"A", 1)
    spell("cp932.tbl", OTHER, OWN, 1, changed=1)
    spell("cp932.tbl", b"A\n" + OTHER, b"A\n" + OWN, 2, changed=1)
    spell("cp932.tbl", b"\n\n" + OTHER + b"\n\n" + OTHER, b"\n\n" + OWN + b"\n\n" + OWN, 5, changed=2)


def test_spell_of_refused_lines():
    for code, shown in (
        (b"\x80", "80"), (b"\xa0", "A0"), (b"\xfd", "FD"),
        # a lead at the line's end, one before a byte below 80 that may not be second, and one before another byte
        (b"\x82", "82"), (b"\x82 ", "82"), (b"\x82\xff", "82 FF"),
        # a pair without a character
        (b"\x85\x40", "85 40"),
    ):
        for end in (b"", b"\n"):
            # alone, behind a character of two bytes, in front of another fault, and at the list's end
            spell("cp932.tbl", code + end, code + end, 1, untold=[(1, no_spelling(0, shown))])
            text = b"A\n" + OTHER + code + b"\n" + OTHER + b"\n" + code + b" \xfd" + end
            wanted = text.replace(b"\n" + OTHER + b"\n", b"\n" + OWN + b"\n")
            spell("cp932.tbl", text, wanted, 4, changed=1, untold=[(2, no_spelling(2, shown)), (4, no_spelling(0, shown))])
    # a character whose own code reads back as another one
    spell("sample.tbl", b"A\xa0B\n\x81\x40\x81\x5a\n", b"A\xa0B\n\x81\x40\x81\x5a\n", 2, untold=[(1, no_spelling(1, "A0")), (2, no_spelling(2, "81 5A"))])


def test_spell_of_long_lines():
    a = b"a" * 65536
    long = "it has over 65,536 bytes"
    for size in (65534, 65535, 65536):
        spell("cp932.tbl", a[:size] + b"\nA", a[:size] + b"\nA", 2)
        spell("cp932.tbl", a[: size - 2] + OTHER, a[: size - 2] + OWN, 1, changed=1)
        spell("cp932.tbl", OTHER + a[: size - 2] + b"\n", OWN + a[: size - 2] + b"\n", 1, changed=1)
        spell("cp932.tbl", a[: size - 1] + b"\x82\n", a[: size - 1] + b"\x82\n", 1, untold=[(1, no_spelling(size - 1, "82"))])
    for size in (65537, 65538, 66048, 200000):
        text = OTHER + b"a" * (size - 2)
        spell("cp932.tbl", text, text, 1, untold=[(1, long)])
        spell("cp932.tbl", text + b"\n", text + b"\n", 1, untold=[(1, long)])
        # the lines around it are spelled, and numbered with it
        around = OTHER + b"\n" + text + b"\n" + OTHER + b"\n\xfd"
        spell("cp932.tbl", around, OWN + b"\n" + text + b"\n" + OWN + b"\n\xfd", 4, changed=2, untold=[(2, long), (4, no_spelling(0, "FD"))])
    # a spelling that is longer than its line: 80 is spelled 827C
    write("double.tbl", edited(double_codes).image())
    spell("double.tbl", b"\x80" * 32768 + b"\n", b"\x82\x7c" * 32768 + b"\n", 1, changed=1)
    spell("double.tbl", b"\x80" * 32768, b"\x82\x7c" * 32768, 1, changed=1)
    spell("double.tbl", b"\x80" * 32769 + b"\n\x80", b"\x80" * 32769 + b"\n\x82\x7c", 2, changed=1, untold=[(1, TOO_LONG_SPELLED)])
    for size in (511, 512, 513, 514, 1024):
        for end in (b"", b"\n"):
            spell("double.tbl", b"\x80" * size + end, b"\x82\x7c" * size + end, 1, changed=1)
    # one that is shorter: 8143 is spelled 41
    spell("double.tbl", b"\x81\x43" * 32768 + b"\n\n", b"\x41" * 32768 + b"\n\n", 2, changed=1)


def test_spell_over_blocks():
    # characters and line feeds at the ends of blocks of 512 bytes
    for size in (*range(507, 516), 1022, 1023, 1024, 1025, 5000):
        for end in (b"", b"\n", b"\n\n"):
            lines = 1 + (end == b"\n\n")
            spell("cp932.tbl", b"a" * size + OTHER + end, b"a" * size + OWN + end, lines, changed=1)
            spell("cp932.tbl", b"a" * size + b"\n" + OTHER + end, b"a" * size + b"\n" + OWN + end, lines + 1, changed=1)
            text = b"a" * size + b"\x82\n" + OTHER + end
            spell("cp932.tbl", text, text.replace(OTHER, OWN), lines + 1, changed=1, untold=[(1, no_spelling(size, "82"))])


def list_of(table, names):
    """By the rules in Python: the bytes are split at 0A, and each line is spelled by the second converter."""
    written, changed, untold = [], 0, []
    parts = names.split(b"\n")
    for number, part in enumerate(parts, 1):
        out = [0] * 65536
        answer = second_converter.spell_call(table, list(part), out)
        kind, value = answer
        if kind == "fault":
            code = next(code for place, code in second_converter.codes_from(table, list(part), 0) if place == value)
            untold.append((number, no_spelling(value, " ".join(f"{byte:02X}" for byte in part[value : value + code.size]))))
            written.append(part)
        else:
            written.append(bytes(out[:value]))
            changed += written[-1] != part
    return b"\n".join(written), len(parts) - (parts[-1] == b""), changed, untold


def test_spell_of_random_lists():
    rng = random.Random(8)
    write("double.tbl", edited(double_codes).image())
    for name, parts in (
        ("cp932.tbl", [OWN, OTHER, b"a", b"\n", b"\n", b"\x81\xca", b"\xfa\x54", b"\xb1", b"\x82\xa0"]),
        ("double.tbl", [b"\x80", b"\x82\x7c", b"A", b"\n", b"\n", b"\x81\x40", b"\x81\x42", b"\x81\x43"]),
    ):
        table = second_converter.read_image(read(name))
        for turn in range(40):
            faults = [bytes([rng.randrange(256)]) for _ in range(turn % 4)]
            names = b"".join(rng.choice(parts + parts + faults) for _ in range(rng.choice((5, 50, 700, 3000))))
            spell(name, names, *list_of(table, names))
            if not list_of(table, names)[3]:
                # a spelling is its own
                again = read("spellings")
                spell(name, again, again, list_of(table, names)[1])


def test_spell_with_a_line_feed_as_second_byte():
    image = bytearray(read("sample.tbl"))
    image[28 + 0x0A] += 4
    write("feeds.tbl", image)
    write("names", b"A\n")
    write("spellings", b"kept")
    refused("spell", "feeds.tbl", "names", "spellings", says=[
        "error: feeds.tbl: the line feed (0A) may be a second byte in it, so that the lines of a list can not be told apart"
    ])


def test_spell_refused():
    write("names", b"A\n")
    names_refused(["spell"], "names", "spellings")


def test_spell_that_can_not_write():
    for text in (b"tea\n" * 10000, b"a" * 60000, b"a" * 70000, b"\xfd\n" * 15000):
        write("names", text)
        said = tillbox("spell", "cp932.tbl", "names", "spellings", word="failed", limit=20000)
        equal(said.splitlines()[-1], "tillbox: error: cannot write spellings: File too large", "the last line")
    write("names", b"tea\n" * 1000)
    injected("read", "names", "spell", "cp932.tbl", "names", "spellings", when="3", says="cannot read names: Input/output error")
    injected("fsync", "spellings", "spell", "cp932.tbl", "names", "spellings", says="cannot sync spellings: Input/output error")
    safe_when_closed("spellings", "spell", "cp932.tbl", "names", "spellings")
    tillbox("spell", "cp932.tbl", "names", "/dev/null", says=spelled(4000, 4000, 1000, 0))


# ---------------------------------------------------------------------------------------------------------------
# Why
# ---------------------------------------------------------------------------------------------------------------

KIND_WORDS = {1: "undefined single", 2: "undefined pair", 4: "invalid code"}
DIGIT_WORDS = {0: "stopped here", 1: "skipped", 2: "replaced by NUL", 3: "replaced by ?", 4: "replaced by _", 5: "replaced by the table's default"}
DEFAULT = DIGIT_WORDS[5]


def said_of(read_total, single=0, pair=0, invalid=0, is_stopped=False):
    """The summary of a journal's findings."""
    numbers = ((single, "undefined single"), (pair, "undefined pair"), (invalid, "invalid"))
    flags = (single > 0) + 2 * (pair > 0) + 4 * (invalid > 0) + 8 * is_stopped
    by_kind = ["by kind: " + ", ".join(f"{number} {name}" for number, name in numbers if number)]
    found = f"read {read_total} bytes, found {single + pair + invalid} codes without a character"
    return [found, f"flags: {flags_text(flags)} ({flags})", *(by_kind if flags % 8 else [])]


def why(table, journal, lines, says, *words, word="done"):
    """The lines that `why` writes on standard output before its last word, and what it says."""
    write("journal", journal)
    tillbox("why", *words, table, "journal", word="\n".join([*lines, word]), says=says)


def test_why_names_each_finding():
    # page 7: 80 is an undefined single, 81 5A an undefined pair, 83 invalid, 82 a lead byte
    text = b"A\x80\x81\x40\x81\x5a\x83B\x82\n\x81\x82\x82"
    codes = [(1, "undefined single 80"), (4, "undefined pair 81 5A"), (6, "invalid code 83"), (8, "invalid code 82"), (10, "invalid code 81 82"), (12, "invalid code 82")]
    for words in ((), ("policy", "555")):
        why("sample.tbl", text, [f"byte {place}: {code}, {DEFAULT}" for place, code in codes], said_of(13, 1, 1, 4), *words)
    why("cp932.tbl", b"tea \x82\n", [f"byte 4: invalid code 82, {DEFAULT}"], said_of(6, invalid=1))
    for text in (b"", b"A", b"\n", "毎度ありがとう\n".encode("cp932"), b"a" * 70000):
        why("cp932.tbl", text, [], said_of(len(text)))


def test_why_names_what_is_done():
    text = b"\x80\x81\x5a\x83"
    for digit in range(1, 6):
        done = DIGIT_WORDS[digit]
        lines = [f"byte 0: undefined single 80, {done}", f"byte 1: undefined pair 81 5A, {DEFAULT}", "byte 3: invalid code 83, skipped"]
        why("sample.tbl", text, lines, said_of(4, 1, 1, 1), "policy", f"{digit}51")
        lines = ["byte 0: undefined single 80, replaced by F180", f"byte 1: undefined pair 81 5A, {done}", f"byte 3: invalid code 83, {done}"]
        why("sample.tbl", text, lines, said_of(4, 1, 1, 1), "policy", f"6{digit}{digit}")
    # a digit 0 ends the reading, and its code is told
    first, second, third = ("byte 0: undefined single 80, ", "byte 1: undefined pair 81 5A, ", "byte 3: invalid code 83, ")
    why("sample.tbl", text + b"\x80", [first + "stopped here"], said_of(1, 1, is_stopped=True), "policy", "055", word="stopped")
    why("sample.tbl", text + b"\x80", [first + "skipped", second + "stopped here"], said_of(3, 1, 1, is_stopped=True), "policy", "105", word="stopped")
    lines = [first + DEFAULT, second + DEFAULT, third + "stopped here"]
    why("sample.tbl", text + b"\x80", lines, said_of(4, 1, 1, 1, is_stopped=True), "policy", "550", word="stopped")
    why("sample.tbl", b"AB", [], said_of(2), "policy", "000")
    for policy in ("755", "565", "556", "955"):
        says = ["error 17: the page is 0, or a policy digit is not allowed (policy)", f"  the digits are {policy}; each is 0 to 5, and the first may be 6"]
        for text in (b"", b"A"):
            write("journal", text)
            refused("why", "policy", policy, "sample.tbl", "journal", says=says)


def test_why_with_context():
    def shown(table, text, *lines):
        write("journal", text)
        got = subprocess.run([PROGRAM, "why", "context", table, "journal"], capture_output=True)
        equal(got.stdout.decode().split("\n")[1:-2:2], ["    " + line for line in lines], f"the lines around the findings of {text!r}")

    shown("cp932.tbl", b"tea \x82\n", "tea [82]")
    shown("cp932.tbl", b"\x82", "[82]")
    shown("cp932.tbl", b"\n\x82\n\n", "[82]")
    japanese = "緑茶　１２０円 ｵﾁｬ".encode("cp932")
    shown("cp932.tbl", b"no|" + japanese + b"\x85\x40" + japanese + b"|300\nnext\n", "no|緑茶　１２０円 ｵﾁｬ[85 40]緑茶　１２０円 ｵﾁｬ|300")
    # other findings of the line, and NUL, are shown by the replacement character; control characters by points
    shown("cp932.tbl", b"a\x82\nb\x80c\xfdd\xa0e\0f\n\xa0", "a[82]", "b[80]c\ufffdd\ufffde\ufffdf", "b\ufffdc[FD]d\ufffde\ufffdf", "b\ufffdc\ufffdd[A0]e\ufffdf", "[A0]")
    shown("cp932.tbl", b"\x1b[2J\t\xfd|\r\n\x7f", ".[2J.[FD]|.")
    # at most 64 bytes before a finding and behind it: the line is cut where a code begins
    shown("cp932.tbl", b"a" * 64 + b"\xfd" + b"b" * 64 + b"\n", "a" * 64 + "[FD]" + "b" * 64)
    shown("cp932.tbl", b"a" * 65 + b"\xfd" + b"b" * 65, "..." + "a" * 64 + "[FD]" + "b" * 64 + "...")
    shown("cp932.tbl", b"x" + b"\x93\xfa" * 40 + b"\xfd" + b"\x93\xfa" * 40, "..." + "日" * 32 + "[FD]" + "日" * 32 + "...")
    shown("cp932.tbl", b"\x93\xfa" * 40 + b"x\xfdx" + b"\x93\xfa" * 40, "..." + "日" * 31 + "x[FD]x" + "日" * 32 + "...")
    shown("cp1252.tbl", "caf\u00e9 \u20ac".encode("cp1252") + b"\x81", "caf\u00e9 \u20ac[81]")


def findings_of(table, text, digits):
    """By the rules, in the second converter's reading: the lines of the findings, their numbers by kind, what was read, and whether it
    stopped."""
    lines, numbers = [], {1: 0, 2: 0, 4: 0}
    for place, code in second_converter.codes_from(table, text, 0):
        if code.kind == 0:
            continue
        numbers[code.kind] += 1
        digit = digits[(1, 2, 4).index(code.kind)]
        shown = " ".join(f"{byte:02X}" for byte in text[place : place + code.size])
        lines.append(f"byte {place}: {KIND_WORDS[code.kind]} {shown}, " + (DIGIT_WORDS[digit] if digit < 6 else f"replaced by F1{text[place]:02X}"))
        if digit == 0:
            return lines, numbers, place + code.size, True
    return lines, numbers, len(text), False


def compare_why(table, name, text, policy):
    lines, numbers, read_total, is_stopped = findings_of(table, text, [int(digit) for digit in policy])
    says = said_of(read_total, numbers[1], numbers[2], numbers[4], is_stopped)
    why(name, text, lines, says, "policy", policy, word="stopped" if is_stopped else "done")
    write("journal", text)
    got = subprocess.run([PROGRAM, "why", "policy", policy, "context", name, "journal"], capture_output=True)
    equal(got.stdout.decode().split("\n")[0:-2:2], lines, "the findings between the lines around them")


def test_why_of_random_journals():
    rng = random.Random(7)
    for name in ("cp932.tbl", "cp1252.tbl", "sample.tbl"):
        table = second_converter.read_image_file(name, ["."])
        for size in (1, 2, 3, 511, 512, 513, 1025, 5000):
            for damage in (0.01, 0.2, 1.0):
                parts = ["日本茶 tea|300\n".encode("cp932"), b"a", b"\n", b"\x93\xfa"]
                text = b"".join(bytes([rng.randrange(256)]) if rng.random() < damage else rng.choice(parts) for _ in range(size))[:size]
                compare_why(table, name, text, rng.choice(("555", "555", "111", "645", "550", "505", "055")))


def test_why_over_parts():
    # a journal is read in parts of at most 65,536 bytes that begin at codes: findings and pairs at their ends, with and without lines
    table = second_converter.read_image_file("sample.tbl", ["."])
    for before in (65534, 65535, 65536, 131071):
        for fill in (b"a" * before, (b"a" * 99 + b"\n") * 1400, b"\n" + b"a" * before, b"\x81\x40" * 66000, b"b" + b"\x81\x40" * 66000):
            for code in (b"\x81\x5a", b"\x82\n", b"\x81\x40\x80"):
                compare_why(table, "sample.tbl", fill[:before] + code + b"\x83\x80|\n\x82", "555")
    compare_why(table, "sample.tbl", b"\x83" * 70000, "555")
    compare_why(table, "sample.tbl", b"\x81" * 70001, "555")


def test_why_of_a_long_file():
    # places are those of the whole file; NUL is a character of every page
    with open("journal", "wb") as file:
        file.truncate(200000)
        file.seek(200000)
        file.write(b"\x83")
    tillbox("why", "sample.tbl", "journal", word=f"byte 200000: invalid code 83, {DEFAULT}\ndone", says=said_of(200001, invalid=1))


def test_why_refused():
    write("journal", b"A\n")
    missing = "No such file or directory"
    refused("why", "none.tbl", "journal", says=[f"error: cannot open none.tbl: {missing}"])
    refused("why", "cp932.tbl", "none", says=[f"error: cannot open none: {missing}"])
    os.mkfifo("pipe")
    for name in ("pipe", "/dev/zero", "."):
        refused("why", "cp932.tbl", name, says=[f"error: {name}: {NO_PLAIN_FILE}"])
        refused("why", name, "journal", says=[f"error: {name}: {NO_PLAIN_FILE}"])
    refused("why", "journal", "journal", says=["error: journal: it is not a table image"])
    image = bytearray(read("cp932.tbl"))
    image[28 + 0xFF] = 3
    write("class.tbl", image)
    says = ["error 10: the shape of the tables is not good (class.tbl)", "  the first bad place: the class at FF is none of 0, 1, 2, 4, 5, 6"]
    refused("why", "class.tbl", "journal", says=says)
    for when in ("1", "2"):
        write("journal", b"tea\n" * 30000)
        injected("read", "journal", "why", "cp932.tbl", "journal", when=when, says="cannot read journal: Input/output error")
    # what can't be written is told
    write("journal", b"\xfd\n" * 1000)
    with open("/dev/full", "wb") as full:
        got = subprocess.run([PROGRAM, "why", "cp932.tbl", "journal"], stdout=full, stderr=subprocess.PIPE)
    equal((got.returncode, got.stderr), (1, b"tillbox: error: cannot write standard output: No space left on device\n"), "findings that can't be written")


# ---------------------------------------------------------------------------------------------------------------
# Table listings (CR 3)
# ---------------------------------------------------------------------------------------------------------------
# The whole example of document 02, tabs as blanks.
EXAMPLE = ("P 9", "D 3F 30FB", "S 00 0000", "L 81", "T 40", "M 8140 3000", "W 0000 0000", "W 3000 8140")


def records(*lines):
    """Records, written with blanks for their tabs, as a listing has them."""
    return b"".join(line(text) for text in lines)


def example_image():
    """The table set of the example, by hand."""
    tables = table_image.Tables(9, 0x3F, 0x30FB)
    tables.classes[0x00] = table_image.SINGLE
    tables.classes[0x40] = table_image.SECOND
    tables.classes[0x81] = table_image.LEAD
    tables.singles[0x00] = 0x0000
    tables.make_pair_blocks()
    tables.set_pair(0x8140, 0x3000)
    tables.set_codes({0x0000: 0x0000, 0x3000: 0x8140})
    return tables.image()


def parts(image):
    """The numbers of an image, and its tables."""
    page, byte, _, unit, _, *sizes = struct.unpack("<HBBHH5I", image[:28])
    place, tables = 28, []
    for size, form in zip(sizes, "BHHBH"):
        width = struct.calcsize(form)
        tables.append(struct.unpack(f"<{size}{form}", image[place : place + size * width]))
        place += size * width
    equal(place, len(image), "the length of an image")
    return (page, byte, unit), *tables


def entries(image):
    """What an image means: its numbers, the bytes by class, the characters and the codes, in rising order."""
    numbers, classes, singles, pairs, index, blocks = parts(image)
    leads = [byte for byte in range(256) if classes[byte] & 3 == 2]
    seconds = [byte for byte in range(256) if classes[byte] & 4]
    chars = [(byte, singles[byte]) for byte in range(256) if classes[byte] & 3 == 1]
    twos = [(256 * lead + byte, pairs[256 * place + byte]) for place, lead in enumerate(leads) for byte in seconds]
    codes = [(unit, blocks[256 * index[unit >> 8] + (unit & 255)]) for unit in range(65536)]
    twos, codes = ([pair for pair in table if pair[1] != 0xFFFF] for table in (twos, codes))
    return numbers, chars, leads, seconds, twos, codes


def listing_of(image):
    """The listing of an image, from document 02."""
    (page, byte, unit), chars, leads, seconds, twos, codes = entries(image)
    lines = [f"P {page}", f"D {byte:02X} {unit:04X}"]
    lines += [f"S {key:02X} " + ("-" if char == 0xFFFF else f"{char:04X}") for key, char in chars]
    lines += [f"L {key:02X}" for key in leads] + [f"T {key:02X}" for key in seconds]
    return records(*lines, *(f"M {key:04X} {right:04X}" for key, right in twos), *(f"W {key:04X} {right:04X}" for key, right in codes))


def listed(text, page):
    return [f"page {page}, lines: {text.count(bytes([10]))}, written {len(text)} bytes"]


def taken(text, page):
    return [f"read {len(text)} bytes, lines: {text.count(bytes([10]))}, page {page}"]


def test_the_example_of_listings():
    text = records(*EXAMPLE)
    write("listing", text)
    tillbox("table", "listing", "made.tbl", says=taken(text, 9))
    equal(read("made.tbl") == example_image(), True, "the image of the example")
    tillbox("listing", "made.tbl", "again", says=listed(text, 9))
    equal(read("again"), text, "the example written again")
    equal(os.path.exists("made.tbl.new"), False, "no new file is left")


def test_listings_of_every_page():
    """Each page there and back: its listing is the one of document 02, and the image that comes back means the same."""
    for name in sorted(os.listdir(TABLES)):
        if not name.endswith(".tbl"):
            continue
        image = read(os.path.join(TABLES, name))
        page = parts(image)[0][0]
        wanted = listing_of(image)
        tillbox("listing", os.path.join(TABLES, name), "listing", says=listed(wanted, page))
        equal(read("listing") == wanted, True, f"the listing of {name}")
        tillbox("table", "listing", "made.tbl", says=taken(wanted, page))
        made = read("made.tbl")
        equal(entries(made) == entries(image), True, f"the meaning of {name} behind its listing")
        # the tables of this folder have their blocks numbered as a listing's
        equal(made == image, True, f"the image of {name} behind its listing")
        tillbox("shape", "made.tbl", word=f"page {page}: good\n{held(os.path.join(TABLES, name))}\ndone", says=[])


def test_an_edited_listing():
    """One line is mended, and just that character is another one."""
    image = read("cp932.tbl")
    tillbox("listing", "cp932.tbl", "listing")
    text = read("listing")
    old, new = records("M 8140 3000"), records("M 8140 2003")
    equal(text.count(old), 1, "lines to be mended")
    write("listing", text.replace(old, new))
    tillbox("table", "listing", "cp932.tbl", says=taken(text, 932))
    before, after = entries(image), entries(read("cp932.tbl"))
    equal([place for place in range(6) if before[place] != after[place]], [4], "which part changed")
    equal(sorted(set(before[4]) ^ set(after[4])), [(0x8140, 0x2003), (0x8140, 0x3000)], "what changed")
    # a journal is decoded by it
    write("journal", b"\x81\x40")
    tillbox("decode", "cp932.tbl", "journal", "ledger")
    equal(read("ledger"), units_text(0x2003), "the mended character")


def test_listings_without_pairs_and_codes():
    for lines in (EXAMPLE[:2], EXAMPLE[:3], (*EXAMPLE[:2], "S FF -"), (*EXAMPLE[:2], "L 80", "L FF"), (*EXAMPLE[:2], "T 00", "T FF"), (*EXAMPLE[:2], "W FFFF 0000")):
        text = records(*lines)
        write("listing", text)
        tillbox("table", "listing", "made.tbl", says=taken(text, 9))
        equal(listing_of(read("made.tbl")), text, f"the listing of {lines}")


def test_a_listing_of_every_high_half():
    """256 high halves have codes: the 256th takes the empty block."""
    text = records(*EXAMPLE[:2], "S 41 0041", *(f"W {high:02X}41 0041" for high in range(256)))
    write("listing", text)
    tillbox("table", "listing", "made.tbl", says=taken(text, 9))
    equal(listing_of(read("made.tbl")), text, "256 high halves")
    equal(parts(read("made.tbl"))[4], (*range(1, 256), 0), "the index")
    tillbox("listing", "made.tbl", "again", says=listed(text, 9))
    equal(read("again"), text, "256 high halves written again")


AS_IT_WAS = "made.tbl is as it was: mend the listing and call again"
S_FORM = "its form is S>BYTE>UNIT, a byte of two hex digits and a unit of four, or - for the unit"
M_FORM = "its form is M>CODE>UNIT, a code and a unit of four hex digits each"
W_FORM = "its form is W>UNIT>CODE, a unit and a code of four hex digits each"
P_FORM = "its form is P>PAGE, a decimal number of 1 to 65,535 with no spare zero"
D_FORM = "its form is D>BYTE>UNIT, a byte of two hex digits and a unit of four"
NO_LETTER = "it begins with none of the letters P, D, S, L, T, M, W"
FFFF_RIGHT = "FFFF on the right: a byte S without a character has -, and an M or W without one is left out"
TOO_LATE = "its letter comes too late: the letters come in the order P, D, S, L, T, M, W"
TWICE = "the line before it has the same left side: each is listed once"
FALLING = "its left side is below that of the line before: they rise within a letter"
SPACE = "it has a space: tabs part the fields, and nothing follows the last one"
SMALL = "it has a small letter: letters and hex digits are capital"


def listing_refused(text, number, shown, why):
    """A listing is refused at a line, which is shown; the table is as it was."""
    write("listing", text)
    write("made.tbl", b"kept")
    refused("table", "listing", "made.tbl", says=[f"error 22: line {number} of listing: {why}", f"  {shown}", AS_IT_WAS])


def test_lines_that_break_the_form():
    for bad, why in [
        (b"\n", "it is empty: each line is a record"),
        (line("X 41"), NO_LETTER),
        (b"\tS\t41\n", NO_LETTER),
        (line("s 41 0041"), SMALL),
        (line("S 41 004a"), SMALL),
        (b"S 41 0041\n", SPACE),
        (b"S\t41\t0041 \n", SPACE),
        (b"S\t41\t0041\r\n", "it has a carriage return: a line feed alone closes a line"),
        (line("S 41 FFFF"), FFFF_RIGHT),
        (line("M 8140 FFFF"), FFFF_RIGHT),
        (line("W 0041 FFFF"), FFFF_RIGHT),
        (line("S 41 041"), S_FORM),
        (line("S 41 00041"), S_FORM),
        (line("S 4 0041"), S_FORM),
        (line("S 41"), S_FORM),
        (line("S 41 --"), S_FORM),
        (line("S 41 0041 "), S_FORM),
        (line("L 8"), "its form is L>BYTE, a byte of two hex digits"),
        (line("T 4G"), "its form is T>BYTE, a byte of two hex digits"),
        (line("M 40 3000"), M_FORM),
        (line("M 8140 -"), M_FORM),
        (line("W 41 0041"), W_FORM),
        (line("W 0041 41"), W_FORM),
        (line("D 3F"), D_FORM),
        (b"S\t41\t00\x8141\n", S_FORM),
        (b"M" * 79 + b"\n", M_FORM),
        (b"M" * 80 + b"\n", "it has more bytes than any record"),
    ]:
        shown = "".join(">" if byte == 9 else chr(byte) if 32 <= byte < 127 else f"\\x{byte:02X}" for byte in bad[:-1])
        listing_refused(records(*EXAMPLE[:2]) + bad + records("W 0000 0000"), 3, shown + ("..." if len(bad) > 80 else ""), why)
    for page in ("0", "01", "65536", "100000", "-1", "A", ""):
        listing_refused(records(f"P {page}", *EXAMPLE[1:]), 1, f"P>{page}", P_FORM)
    # a last line without a line feed, and a long one
    listing_refused(records(*EXAMPLE)[:-1], 8, "W>3000>8140", "no line feed closes it")
    listing_refused(records(*EXAMPLE) + b"A" * 5000, 9, "A" * 80 + "...", "it has more bytes than any record")
    listing_refused(b"A" * 5000 + b"\n", 1, "A" * 80 + "...", "it has more bytes than any record")


def test_lines_that_break_the_order():
    page, defaults, single, lead, second, pair, code, other = EXAMPLE
    for lines, number, why in [
        ((defaults, page), 1, "P is missing: the first line is the page"),
        ((single,), 1, "P is missing: the first line is the page"),
        ((page, single), 2, "D is missing: the second line has the default byte and the default unit"),
        ((page, code), 2, "D is missing: the second line has the default byte and the default unit"),
        ((page, page), 2, "P again: it comes once, first"),
        ((page, defaults, page), 3, "P again: it comes once, first"),
        ((page, defaults, defaults), 3, "D again: it comes once, second"),
        ((page, defaults, single, defaults), 4, "D again: it comes once, second"),
        ((page, defaults, lead, single), 4, TOO_LATE),
        ((page, defaults, second, lead), 4, TOO_LATE),
        ((page, defaults, code, second), 4, TOO_LATE),
        ((*EXAMPLE, pair), 9, TOO_LATE),
        ((page, defaults, single, single), 4, TWICE),
        ((page, defaults, lead, lead), 4, TWICE),
        ((page, defaults, second, second), 4, TWICE),
        ((page, defaults, lead, second, pair, pair), 6, TWICE),
        ((*EXAMPLE, other), 9, TWICE),
        ((page, defaults, "S 41 0041", single), 4, FALLING),
        ((page, defaults, "L 82", lead), 4, FALLING),
        ((page, defaults, "T 41", second), 4, FALLING),
        ((page, defaults, lead, second, "T 41", "M 8141 3001", pair), 7, FALLING),
        ((*EXAMPLE, code), 9, FALLING),
    ]:
        listing_refused(records(*lines), number, lines[number - 1].replace(" ", ">"), why)


def test_lines_that_lack_what_they_need():
    page, defaults, single, lead, second, pair, code, _ = EXAMPLE
    for lines, number, why in [
        ((page, defaults, "L 7F"), 3, "no lead byte is below 80"),
        ((page, defaults, "L 00"), 3, "no lead byte is below 80"),
        ((page, defaults, "S 81 -", lead), 4, "its byte is listed as S: a byte is not both S and L"),
        ((page, defaults, second, pair), 4, "the first byte of its code is not listed as L"),
        ((page, defaults, lead, second, "M 8240 3000"), 5, "the first byte of its code is not listed as L"),
        ((page, defaults, lead, second, "M 0040 3000"), 5, "the first byte of its code is not listed as L"),
        ((page, defaults, lead, pair), 4, "the second byte of its code is not listed as T"),
        ((page, defaults, lead, second, "M 8141 3000"), 5, "the second byte of its code is not listed as T"),
    ]:
        listing_refused(records(*lines), number, lines[number - 1].replace(" ", ">"), why)


def test_a_listing_that_ends_early():
    write("made.tbl", b"kept")
    for lines in ((), EXAMPLE[:1]):
        write("listing", records(*lines))
        refused("table", "listing", "made.tbl", says=[f"error 22: listing: it ends behind line {len(lines)}, before P and D have come", AS_IT_WAS])


def test_a_late_line_is_refused():
    """A line is counted over blocks, and nothing of what came before it is kept."""
    tillbox("listing", "cp932.tbl", "listing")
    lines = read("listing").split(b"\n")[:-1]
    for place in (40, 5000, len(lines) - 1):
        bad = lines[:place] + [lines[place].lower()] + lines[place + 1 :]
        listing_refused(b"\n".join(bad) + b"\n", place + 1, lines[place].lower().decode().replace("\t", ">"), SMALL)


def test_names_of_listings():
    missing, twice = "No such file or directory", "two of the files have this name"
    write("listing", records(*EXAMPLE))
    write("made.tbl", b"kept")
    write("bad.tbl", b"no table")
    os.mkdir("folder")
    os.symlink("made.tbl", "link.tbl")
    os.link("listing", "hard")
    image = bytearray(read("cp932.tbl"))
    image[28 + 0xFF] = 3
    write("class.tbl", image)
    for words, says in [
        (["listing", "none.tbl", "listing"], [f"error: cannot open none.tbl: {missing}"]),
        (["listing", "bad.tbl", "listing"], ["error: bad.tbl: it is not a table image"]),
        (["listing", "cp932.tbl", "cp932.tbl"], [f"error: cp932.tbl: {twice}"]),
        (["listing", "made.tbl", "link.tbl"], ["error: link.tbl: it is the same file as made.tbl"]),
        (["listing", "folder", "listing"], [f"error: folder: {NO_PLAIN_FILE}"]),
        (["listing", "cp932.tbl", "folder"], [f"error: folder: {NO_PLAIN_FILE}"]),
        (["listing", "cp932.tbl", "none/listing"], [f"error: cannot make none/listing: {missing}"]),
        (["listing", "cp932.tbl", ""], ["error: the name of a file is empty or too long"]),
        (
            ["listing", "class.tbl", "listing"],
            ["error 10: the shape of the tables is not good (class.tbl)", "  the first bad place: the class at FF is none of 0, 1, 2, 4, 5, 6"],
        ),
        (["table", "none", "made.tbl"], [f"error: cannot open none: {missing}"]),
        (["table", "listing", "listing"], [f"error: listing: {twice}"]),
        (["table", "listing", "hard"], ["error: hard: it is the same file as listing"]),
        (["table", "listing", "link.tbl"], ["error: link.tbl: it is a link; name the file itself"]),
        (["table", "listing", "folder"], [f"error: folder: {NO_PLAIN_FILE}"]),
        (["table", "folder", "made.tbl"], [f"error: folder: {NO_PLAIN_FILE}"]),
        (["table", "listing", "/dev/null"], [f"error: /dev/null: {NO_PLAIN_FILE}"]),
        (["table", "listing", "none/made.tbl"], [f"error: cannot make none/made.tbl.new: {missing}"]),
        (["table", "", "made.tbl"], ["error: the name of a file is empty or too long"]),
    ]:
        refused(*words, says=says)
    # the file beside the table, by way of which it is replaced
    os.rename("listing", "made.tbl.new")
    refused("table", "made.tbl.new", "made.tbl", says=[f"error: made.tbl.new: {twice}"])
    write("listing", records(*EXAMPLE))
    there = "it is there already: another call is making it, or one was cut; remove it and call again"
    refused("table", "listing", "made.tbl", says=[f"error: made.tbl.new: {there}"])


def test_a_table_that_can_not_be_replaced():
    """The table is as it was, and no new file is left, whatever fails."""
    text = records(*EXAMPLE)
    write("listing", text)
    write("made.tbl", b"kept")
    tillbox("table", "listing", "made.tbl", word="failed", limit=1000, says=["error: cannot write made.tbl: File too large"])
    equal((read("made.tbl"), os.path.exists("made.tbl.new")), (b"kept", False), "the files after a limit")
    for call, what in (("write", "write"), ("fsync", "sync")):
        injected(call, "made.tbl.new", "table", "listing", "made.tbl", says=f"cannot {what} made.tbl: Input/output error")
        equal((read("made.tbl"), os.path.exists("made.tbl.new")), (b"kept", False), f"the files after {call} failed")
    if can_trace():
        trace = ["strace", "-o", "/dev/null", "-P", "made.tbl.new", "-e", "trace=rename", "-e", "inject=rename:error=EIO"]
        got = subprocess.run([*trace, PROGRAM, "table", "listing", "made.tbl"], capture_output=True, timeout=60)
        equal((got.stdout, got.stderr), (b"failed\n", b"tillbox: error: cannot rename made.tbl.new: Input/output error\n"), "a file that can't be renamed")
        equal((read("made.tbl"), os.path.exists("made.tbl.new")), (b"kept", False), "the files after rename failed")
    injected("read", "listing", "table", "listing", "made.tbl", says="cannot read listing: Input/output error")
    equal(read("made.tbl"), b"kept", "the table")
    safe_when_closed("made.tbl.new", "table", "listing", "made.tbl")
    write("made.tbl", b"kept")
    tillbox("table", "listing", "made.tbl", says=taken(text, 9))
    equal(read("made.tbl") == example_image(), True, "the table that was replaced")
    tillbox("listing", "cp932.tbl", "listing", word="failed", limit=1000, says=["error: cannot write listing: File too large"])
    injected("fsync", "listing", "listing", "cp932.tbl", "listing", says="cannot sync listing: Input/output error")


def main():
    global PROGRAM, SLOW
    parser = argparse.ArgumentParser(description=__doc__.splitlines()[0])
    parser.add_argument("--tillbox", default=PROGRAM)
    PROGRAM = os.path.abspath(parser.parse_args().tillbox)
    os.environ["LC_ALL"] = "C"
    clock = tempfile.TemporaryDirectory()
    SLOW = slow_clock.environment(clock.name)
    passed = failed = 0
    for name, test in list(globals().items()):
        if not name.startswith("test_"):
            continue
        with tempfile.TemporaryDirectory() as folder:
            os.chdir(folder)
            for table in ("cp932.tbl", "cp1252.tbl", "sample.tbl"):
                shutil.copy(os.path.join(TABLES, table), table)
            shutil.copy(os.path.join(SAMPLES, "journal.cp932"), "journal")
            try:
                test()
                passed += 1
            except AssertionError as error:
                print(f"{name}: {error}")
                failed += 1
            os.chdir(ROOT)
    print(f"{passed} passed, {failed} failed")
    sys.exit(1 if failed else 0)


if __name__ == "__main__":
    main()
