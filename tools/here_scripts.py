"""The console script here: run calls on a record that is updated where it stands (a module of make_scripts.py).

Document 02, CR 13: "with equal answers, output and new run". So what is written by hand for a call that takes and gives a run is what
this form must answer: the other scripts' calls are asked in this form alone, then in both in turn. Then texts whose codes are written by
hand are fed code by code, in every choice of the two forms; where the run stands after each call is told from the codes.
"""

import itertools

import bad_half_scripts
import fixed_scripts
import standard_scripts
import surrogate_scripts
from break_scripts import MOST
from fixed_scripts import LIMIT, Script, left_alone, line_hex
from one_call_scripts import DECODED_AS, DECODING, ENCODED_AS, ENCODING, codes_of

# ---------------------------------------------------------------------------------------------------------------
# The calls of other scripts, in this form and in both
# ---------------------------------------------------------------------------------------------------------------

TEXTS = (b"bytes", b"units", b"fillbytes", b"fillunits")
ABOUT_RUNS = (*TEXTS, b"table", b"start", b"run", b"save", b"load")
RUN_CALLS = (b"decode", b"encode")

HERE = ("here",)
IN_TURN = ("here", "", "here", "here", "")


def about_runs(lines):
    """The lines of a script that are about runs; a line and an answer that are too long for a small script are left out."""
    words = [(line.split(b" ")[0], line, answer) for line, answer in lines]
    return [(name, line, answer) for name, line, answer in words if name in (*ABOUT_RUNS, *RUN_CALLS) and len(line) + len(answer) < 1000]


def every_text(lines, step):
    """Every so many texts of a script, each with all that is done with it; tables are set all the same."""
    number = -1
    for name, line, answer in lines:
        number += name in TEXTS
        if number % step == 0 or name == b"table":
            yield name, line, answer


def asked_in(script, lines, forms):
    """The lines, with their run calls in these forms in turn."""
    forms = itertools.cycle(forms)
    for name, line, answer in lines:
        if name in RUN_CALLS:
            form = next(forms)
            line = name + form.encode("ascii") + line[len(name) :]
            # a line that is no command is none in any form
            answer = answer if answer == "?" else name.decode("ascii") + form + answer[len(name) :]
        script.expect(line, answer)


def other_scripts(script):
    for title, other, forms, step in (
        ("the sixteen rows", fixed_scripts.rows_script(), HERE, 1),
        ("the sixteen rows, both forms in turn", fixed_scripts.rows_script(), IN_TURN, 1),
        ("one call of a run, case by case", fixed_scripts.calls_script(), HERE, 1),
        ("every digit for every kind of code", fixed_scripts.policies_script(), HERE, 2),
        ("every refusal alone and with others", fixed_scripts.refusals_script(), HERE, 1),
        ("the standard policy, both forms in turn", standard_scripts.standard_script(), IN_TURN, 1),
        ("leads and bytes after them, both forms in turn", bad_half_scripts.bad_halves_script(), IN_TURN, 25),
        ("surrogates, both forms in turn", surrogate_scripts.surrogates_script(), IN_TURN, 25),
    ):
        script.note(title)
        script.sample()
        asked_in(script, every_text(about_runs(other.lines), step), forms)


# ---------------------------------------------------------------------------------------------------------------
# Texts fed code by code, in every choice of forms
# ---------------------------------------------------------------------------------------------------------------


class Fed:
    """A run on page 7 that is fed a text code by code: where it stands."""

    def __init__(self, script, direction, policy):
        self.script, self.direction, self.policy = script, direction, policy
        self.name, self.in_digits, self.out_digits = ("decode", 2, 4) if direction == "D" else ("encode", 4, 2)
        self.read = self.written = self.flags = 0
        script.start(direction, 7, policy)

    def call(self, form, code, writes, flag, mark):
        """One code in one call, with room for it; answers whether the run goes on."""
        count, output = len(code) // self.in_digits, writes or ""
        asked = f"{self.name}{form} {self.read} {count} {mark} 9"
        self.flags |= flag if writes is not None else flag | 8
        self.read += count
        self.written += len(output) // self.out_digits
        number, word = (3, "over") if writes is None else (0, "over" if mark == "last" else "on")
        run = f"{self.direction} 7 {' '.join(self.policy)} - {self.flags} {self.read} {self.written} {word}"
        self.script.expect(asked, f"{self.name}{form} {number} {count} {len(output) // self.out_digits} {output or '-'} kept {run}")
        return number == 0


def in_every_choice(script, direction, text, policy):
    codes = codes_of(text, policy, DECODED_AS if direction == "D" else ENCODED_AS)
    put = script.bytes if direction == "D" else script.units
    put("".join(code for code, _, _ in codes))
    for forms in itertools.product(("", "here"), repeat=len(codes)):
        fed = Fed(script, direction, policy)
        for number, (form, (code, writes, flag)) in enumerate(zip(forms, codes), 1):
            if not fed.call(form, code, writes, flag, "last" if number == len(codes) else "more"):
                break


def is_short(text):
    """At most four codes, none of them a lead or a high surrogate alone: such a one would be carried to the next call."""
    words = text.split()
    return len(words) <= 4 and not {"81/4", "82/4", "D83D/4"} & set(words)


def fed_code_by_code(script):
    script.note("texts fed code by code, in every choice of the two forms")
    script.sample()
    for direction, texts, policies in (("D", DECODING, ("555", "055", "151")), ("E", ENCODING, ("555", "055", "150"))):
        for text, policy in itertools.product(filter(is_short, texts), policies):
            in_every_choice(script, direction, text, policy)


# ---------------------------------------------------------------------------------------------------------------
# The record itself, by hand
# ---------------------------------------------------------------------------------------------------------------

# A text and calls on one run, each with its answer: both forms go on from where the other left the record.
MIXED = (
    # a lead is carried from one form to the other
    ("D 7 555", "bytes 41827C8142", (
        ("decodehere 0 2 more 9", "decodehere 1 2 1 0041 kept D 7 5 5 5 82 0 2 1 on"),
        ("decode 2 0 more 9", "decode 1 0 0 - kept D 7 5 5 5 82 0 2 1 on"),
        ("decodehere 2 0 more 0", "decodehere 1 0 0 - kept D 7 5 5 5 82 0 2 1 on"),
        ("decode 2 1 more 0", "decode 2 0 0 - kept D 7 5 5 5 82 0 2 1 on"),
        ("decodehere 2 1 more 1", "decodehere 0 1 1 4E00 kept D 7 5 5 5 - 0 3 2 on"),
        ("decode 3 1 more 9", "decode 1 1 0 - kept D 7 5 5 5 81 0 4 2 on"),
        ("encodehere 0 0 more 9", "encodehere 13 0 0 - kept D 7 5 5 5 81 0 4 2 on"),
        ("decodehere 4 1 last 9", "decodehere 0 1 1 30FB kept D 7 5 5 5 - 2 5 3 over"),
        ("decode 5 0 last 9", "decode 15 0 0 - kept D 7 5 5 5 - 2 5 3 over"),
        ("decodehere 5 0 last 9", "decodehere 15 0 0 - kept D 7 5 5 5 - 2 5 3 over"),
    )),
    # a carried lead is skipped alone: nothing is read, nothing is written, and the record is another
    ("D 7 551", "bytes 820A", (
        ("decode 0 1 more 0", "decode 1 1 0 - kept D 7 5 5 1 82 0 1 0 on"),
        ("decodehere 1 1 more 0", "decodehere 2 0 0 - kept D 7 5 5 1 - 4 1 0 on"),
        ("decodehere 1 1 last 1", "decodehere 0 1 1 000A kept D 7 5 5 1 - 4 2 1 over"),
    )),
    # the call that does not fit takes what fits, and the record has it
    ("D 7 555", "bytes 414243", (
        ("decodehere 0 3 last 1", "decodehere 2 1 1 0041 kept D 7 5 5 5 - 0 1 1 on"),
        ("decodehere 1 2 last 0", "decodehere 2 0 0 - kept D 7 5 5 5 - 0 1 1 on"),
        ("decode 1 2 last 1", "decode 2 1 1 0042 kept D 7 5 5 5 - 0 2 2 on"),
        ("decodehere 2 1 last 5", "decodehere 0 1 1 0043 kept D 7 5 5 5 - 0 3 3 over"),
    )),
    # a stop is no refusal: the record has ended
    ("D 7 055", "bytes 418042", (
        ("decodehere 0 3 more 9", "decodehere 3 2 1 0041 kept D 7 0 5 5 - 9 2 1 over"),
        ("decodehere 2 1 more 9", "decodehere 15 0 0 - kept D 7 0 5 5 - 9 2 1 over"),
        ("decode 2 1 more 9", "decode 15 0 0 - kept D 7 0 5 5 - 9 2 1 over"),
    )),
    # a high surrogate is carried from one form to the other
    ("E 7 555", "units 3000D83DDE00D83D0041", (
        ("encodehere 0 2 more 9", "encodehere 1 2 2 8140 kept E 7 5 5 5 D83D 0 2 2 on"),
        ("encode 2 1 more 0", "encode 2 0 0 - kept E 7 5 5 5 D83D 0 2 2 on"),
        ("encodehere 2 1 more 1", "encodehere 0 1 1 3F kept E 7 5 5 5 - 1 3 3 on"),
        ("encode 3 1 more 0", "encode 1 1 0 - kept E 7 5 5 5 D83D 1 4 3 on"),
        ("decodehere 0 0 last 0", "decodehere 13 0 0 - kept E 7 5 5 5 D83D 1 4 3 on"),
        ("encodehere 4 1 last 1", "encodehere 2 0 1 3F kept E 7 5 5 5 - 5 4 4 on"),
        ("encodehere 4 1 last 1", "encodehere 0 1 1 41 kept E 7 5 5 5 - 5 5 5 over"),
        ("encodehere 5 0 last 1", "encodehere 15 0 0 - kept E 7 5 5 5 - 5 5 5 over"),
    )),
)

# Records that a refused call must leave as they are, in every field, with the call's number on the sample page.
HELD = (
    ("D 7 255 254 253 FF 255 18446744073709551615 18446744073709551615 over", 12),
    ("D 0 5 5 5 - 0 0 0 on", 12), ("D 7 5 5 5 82 0 5 5 on", 12), ("D 7 5 5 5 - 8 5 5 on", 12), ("D 7 6 5 6 - 0 0 0 on", 12),
    ("D 9 5 5 5 81 3 7 2 on", 13), ("E 7 5 5 5 D83D 3 7 2 on", 13), ("E 7 1 2 3 - 15 7 2 over", 13), ("D 7 5 5 5 83 1 7 2 on", 14),
    ("D 7 1 2 3 - 15 7 2 over", 15), ("D 7 1 2 3 - 7 0 0 over", 15), (f"D 7 5 5 5 81 5 {LIMIT} 2 on", 16),
    (f"D 7 5 5 5 - 0 {LIMIT} {LIMIT} on", 16), (f"D 7 6 4 3 82 7 {LIMIT - 1} 2 on", 16),
)


def record_by_hand(script):
    for run, text, calls in MIXED:
        script.note("both forms on one record, by hand")
        direction, page, policy = run.split(" ")
        name, content = text.split(" ")
        (script.bytes if name == "bytes" else script.units)(content)
        script.start(direction, page, policy)
        for command, answer in calls:
            script.expect(command, answer)
    script.note("saved and read back between: the record is the run in hand")
    script.bytes("82827C")
    script.start("D", 7, "555")
    script.expect("decodehere 0 1 more 9", "decodehere 1 1 0 - kept D 7 5 5 5 82 0 1 0 on")
    script.expect("save 44", f"save 0 20 {line_hex('D>7>555>82>0>1>0>on;')} kept")
    script.expect("decodehere 1 2 last 9", "decodehere 0 2 2 30FB007C kept D 7 5 5 5 - 4 3 2 over")
    script.expect(f"load {line_hex('D>7>555>82>0>1>0>on;')}", "load 0 D 7 5 5 5 82 0 1 0 on")
    script.expect("decode 2 1 last 9", "decode 0 1 1 4E00 kept D 7 5 5 5 - 0 2 1 over")
    script.note("a refused call leaves the record as it was, in every field")
    script.bytes("4142")
    for run, number in HELD:
        script.run(run)
        for room in (0, 2):
            script.expect(f"decodehere 0 2 last {room}", f"decodehere {number} 0 0 - kept {run}")
    script.expect("fillbytes 65537 41", "bytes 65537")
    script.expect("fillunits 65537 0041", "units 65537")
    for name, run in (("decodehere", "D 7 5 5 5 82 3 5 2 on"), ("encodehere", "E 7 5 5 5 D83D 3 5 2 on"),
    ("decodehere", "E 7 5 5 5 - 3 5 2 on")):
        script.run(run)
        script.expect(f"{name} 0 65537 more 3", f"{name} 11 0 0 - kept {run}")
        script.expect("table page_0.tbl", "table 0 3F 30FB 256 256 512 256 1024")
        script.expect(f"{name} 0 1 more 3", f"{name} 10 0 0 - kept {run}")
        script.expect(f"{name} 0 65537 last 0", f"{name} 10 0 0 - kept {run}")
        script.sample()


NOT_COMMANDS = tuple(
    line.replace("NAME", name)
    for name in ("decodehere", "encodehere")
    for line in (
        "NAME", "NAME 0", "NAME 0 1", "NAME 0 1 last", "NAME 0 1 last ", "NAME 0 1 last 5 ", "NAME 0 1 last 5 5", " NAME 0 1 last 5",
        "NAME  0 1 last 5", "NAME 0 1 Last 5", "NAME 0 1 5 last", "NAME 0 1 no 5", "NAME 00 1 last 5", "NAME 0 01 last 5",
        "NAME 0 1 last 05",
        "NAME 0 1 last -", "NAME - 1 last 5", "NAME 0 3 last 5", "NAME 3 0 last 5", "NAME 2 1 last 5", f"NAME {MOST} 2 last 5",
        f"NAME 0 {MOST} last 5", "NAME 0 1 last 140001", f"NAME 0 1 last {2**32 + 5}", f"NAME 0 1 last {MOST + 6}", "NAMES 0 1 last 5",
    )
) + ("decodehere 0 1 last 66001", "decode here 0 1 last 5", "decodeHere 0 1 last 5", "Decodehere 0 1 last 5", "here 0 1 last 5",
     "decode 0 1 last 5 here", "encode here 0 1 last 5", "savehere 44", "herestart D 7 555")


def commands(script):
    script.note("what is no command changes nothing")
    script.sample()
    script.bytes("4182")
    script.units("00413000")
    script.start("D", 7, "555")
    for line in (*NOT_COMMANDS, b"decodehere 0 1 last 5\r", b"encodehere 0 1 last 5\x00"):
        script.expect(line, "?")
    script.note("room at its limits")
    script.expect("decodehere 0 2 more 66000", "decodehere 1 2 1 0041 kept D 7 5 5 5 82 0 2 1 on")
    script.start("E", 7, "555")
    script.expect("encodehere 0 2 last 140000", "encodehere 0 2 3 418140 kept E 7 5 5 5 - 0 2 3 over")


LEFT_ALONE = (
    ("encodehere 0 0 more 5", "encodehere 13 0 0 - kept E 9 1 2 3 - 0 0 0 on"),
    ("decodehere 0 3 last 5", "decodehere 13 0 0 - kept E 9 1 2 3 - 0 0 0 on"),
    ("decodehere 0 4 last 5", "?"),
)


def here_script():
    script = Script()
    script.note("Run calls on a record where it stands (document 02, CR 13): by hand")
    commands(script)
    record_by_hand(script)
    left_alone(script, LEFT_ALONE)
    fed_code_by_code(script)
    other_scripts(script)
    return script
