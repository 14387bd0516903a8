#!/usr/bin/env python3
"""Cuts journals, kills tillbox at random moments, and resumes it until it is done.

    kill_test.py [--tillbox PROGRAM] [--rounds N] [--seed N] [--size BYTES]

Each round makes a random input: text of code page 932 mixed with damaged bytes (decode), or units of that text mixed with
emoji, halves of them and random units (encode). The input grows in steps of random length; at each step tillbox is started with
a checkpoint and killed (SIGKILL) at a random moment, several times. After each kill the saved line must be a whole one, and the
output up to its written total must be the beginning of the right one. The last step is marked `last` and repeated until it is not killed. Then output,
saved line, and uncut runs with and without a checkpoint are compared with the second converter's answer (second_converter.py).
Where a line is saved, about every other call names no policy: the run goes on under the digits of its line.
Then, if strace can be used, a fresh and a resumed job that decode, and a resumed one that encodes, are killed at their system
calls, one after the other: at each call that opens, syncs, cuts, renames or closes a file, and at those that read and write blocks
around a checkpoint. A resumed job begins in the middle of a character: between the bytes of a pair, or between two surrogates.
The jobs have a clock that shows another second at each look (slow_clock.py), so that there are many lines to be killed at.
Prints 'N passed, M failed'; the exit status is 0 exactly if none failed.
"""

import argparse
import os
import random
import shutil
import struct
import subprocess
import sys
import tempfile
import time

import second_converter as converter
import slow_clock

ROOT = os.path.dirname(os.path.dirname(os.path.abspath(__file__)))
TABLE = os.path.join(ROOT, "tables", "cp932.tbl")
TEXT = "毎度ありがとうございます。緑茶　１２０円 ｵﾁｬ 表ソ能 total 1,234 yen\r\n①②Ⅲ㈱纊黑"


# What a job is run with: its clock.
SLOW = None


class Wrong(Exception):
    pass


def random_journal(chance, size):
    """Text of the code page with damaged bytes in it."""
    parts, length = [], 0
    while length < size:
        kind = chance.random()
        if kind < 0.85:
            start = chance.randrange(len(TEXT))
            part = TEXT[start : start + chance.randrange(1, 30)].encode("cp932")
        elif kind < 0.92:
            part = bytes(chance.randrange(256) for _ in range(chance.randrange(1, 6)))
        elif kind < 0.95:
            # a broken first half before a line's end
            part = bytes([chance.choice([0x81, 0x94, 0xFC])]) + b"\r\n"
        else:
            part = bytes([chance.choice([0x81, 0x83, 0x94, 0xE0, 0xFC, 0x80, 0xA0, 0xFF])])
        parts.append(part)
        length += len(part)
    return b"".join(parts)[:size]


def random_units(chance, size):
    """Units of the text with emoji, halves of surrogate pairs and random units in between."""
    units = []
    text = struct.unpack(f"<{len(TEXT)}H", TEXT.encode("utf-16le"))
    while len(units) < size:
        kind = chance.random()
        if kind < 0.8:
            start = chance.randrange(len(text))
            units += text[start : start + chance.randrange(1, 30)]
        elif kind < 0.9:
            units += [0xD83D, chance.randrange(0xDE00, 0xDE50)]
        elif kind < 0.95:
            units.append(chance.choice([0xD800, 0xD83D, 0xDBFF, 0xDC00, 0xDE00, 0xDFFF]))
        else:
            units.append(chance.randrange(65536))
    return units[:size]


class Job:
    """One direction on one input: what is right, and the files of a run."""

    def __init__(self, chance, program, table, direction, size):
        self.chance, self.program = chance, program
        self.decodes = direction == "decode"
        self.command = direction
        self.policy = "".join(chance.choice("12345") for _ in range(3))
        if chance.random() < 0.3:
            self.policy = "555"
        self.set_text(table, random_journal(chance, size) if self.decodes else random_units(chance, size // 2))
        self.kills = self.unfinished = 0

    def set_text(self, table, text):
        """The text, bytes or units, and what is right for it."""
        self.text = list(text)
        letter = converter.DECODING if self.decodes else converter.ENCODING
        digits = tuple(int(digit) for digit in self.policy)
        taken = converter.take_whole_text(letter, digits, table, self.text, converter.NO_END_OF_ROOM)
        if self.decodes:
            self.input = bytes(self.text)
            self.right = struct.pack(f"<{len(taken.output)}H", *taken.output)
        else:
            self.input = struct.pack(f"<{len(self.text)}H", *self.text)
            self.right = bytes(taken.output)
        fields = [letter, "932", self.policy, "-", str(taken.flags), str(len(self.text)), str(len(taken.output)), "over"]
        self.last_line = "\t".join(fields) + "\n"

    def words(self, *names, last=False):
        """The words of a call. A run that is saved has its policy, which need not be named."""
        saved = len(names) == 3 and os.path.exists(names[2])
        policy = [] if saved and self.chance.random() < 0.5 else ["policy", self.policy]
        return [self.program, self.command] + (["last"] if last else []) + policy + [TABLE, *names]

    def check_saved(self):
        """What holds at every moment: a whole line, and a right beginning of the output behind it."""
        if not os.path.exists("checkpoint"):
            return
        with open("checkpoint") as file:
            line = file.read()
        fields = line.split("\t")
        if len(fields) != 8 or not line.endswith(("\ton\n", "\tover\n")):
            raise Wrong(f"the checkpoint is no whole line: {line!r}")
        written = int(fields[6]) * (2 if self.decodes else 1)
        with open("output", "rb") as file:
            output = file.read()
        if len(output) < written:
            raise Wrong(f"the output has {len(output)} bytes, the checkpoint says {written}")
        if output[:written] != self.right[:written]:
            raise Wrong("the output is no beginning of the right one")

    def start(self, last, longest):
        """Runs tillbox once and kills it at a random moment, or not at all if there is none. True: it came to its end."""
        words = self.words("input", "output", "checkpoint", last=last)
        process = subprocess.Popen(words, stdout=subprocess.PIPE, stderr=subprocess.PIPE, env=SLOW)
        if longest is not None:
            time.sleep(longest * self.chance.random() ** 2)
            process.kill()
        said, errors = process.communicate()
        if process.returncode == -9:
            self.kills += 1
            self.check_saved()
            if os.path.exists("checkpoint"):
                self.unfinished += 1
            return False
        if said != b"done\n":
            raise Wrong(f"tillbox said {said!r}: {errors.decode()}")
        self.check_saved()
        return True

    def uncut(self, *checkpoint):
        """The whole input in one run that nobody kills; how long it took."""
        with open("input", "wb") as file:
            file.write(self.input)
        begin = time.time()
        done = subprocess.run(self.words("input", "whole", *checkpoint, last=True), stdout=subprocess.PIPE, stderr=subprocess.PIPE, env=SLOW)
        took = time.time() - begin
        if done.stdout != b"done\n":
            raise Wrong(f"the uncut run said {done.stdout!r}: {done.stderr.decode()}")
        with open("whole", "rb") as file:
            if file.read() != self.right:
                raise Wrong("the uncut run gives another output than the second converter")
        return took

    def cut(self, longest):
        """The same input in steps, killed and resumed."""
        places = sorted(self.chance.randrange(len(self.input) + 1) for _ in range(self.chance.randrange(1, 6)))
        for place in places:
            with open("input", "wb") as file:
                file.write(self.input[:place])
            for _ in range(self.chance.randrange(4)):
                self.start(False, longest)
            if self.chance.random() < 0.6:
                self.start(False, None)
        with open("input", "wb") as file:
            file.write(self.input)
        for _ in range(self.chance.randrange(4, 12)):
            self.start(True, longest)
        self.start(True, None)
        with open("output", "rb") as file:
            if file.read() != self.right:
                raise Wrong("the cut and killed runs give another output than the uncut one")
        with open("checkpoint") as file:
            line = file.read()
        if line != self.last_line:
            raise Wrong(f"the last line is {line!r}, not {self.last_line!r}")


def play(chance, program, table, direction, size, totals):
    job = Job(chance, program, table, direction, size)
    with tempfile.TemporaryDirectory() as folder:
        os.chdir(folder)
        try:
            job.uncut()
            job.cut(job.uncut("whole.checkpoint"))
        finally:
            os.chdir(ROOT)
            totals[0] += job.kills
            totals[1] += job.unfinished


# ---------------------------------------------------------------------------------------------------------------
# Killed at each system call
# ---------------------------------------------------------------------------------------------------------------

CALLS = ["openat", "pread64", "lseek", "ftruncate", "fsync", "unlink", "rename", "close", "read", "write"]
# 130 blocks and a half, and the first half of a character at its end
PART = 66304 + 255
CUT_CHARACTER = {"decode": (0x61, 0x94, 0x4E), "encode": (0x61, 0xD83D, 0xDE00)}


def can_trace():
    if shutil.which("strace") is None:
        return False
    return subprocess.run(["strace", "-o", "/dev/null", "true"], stderr=subprocess.DEVNULL).returncode == 0


def call_job(chance, program, table, direction):
    """A job of two such parts; how many bytes the first has."""
    width = {"decode": 1, "encode": 2}[direction]
    job = Job(chance, program, table, direction, 2 * PART * width)
    job.set_text(table, job.text[: PART - 2] + list(CUT_CHARACTER[direction]) + job.text[PART + 1 :])
    return job, PART * width


def killed_at(job, call, number, last):
    """Kills the job at the number-th such call. False: there is none."""
    words = ["strace", "-o", "trace", "-e", f"trace={call}", "-e", f"inject={call}:signal=SIGKILL:when={number}"]
    done = subprocess.run(words + job.words("input", "output", "checkpoint", last=last), stdout=subprocess.PIPE, stderr=subprocess.PIPE, env=SLOW)
    if done.returncode not in (0, -9):
        raise Wrong(f"strace ended with {done.returncode}: {done.stderr.decode()}")
    return done.returncode == -9


def kill_and_resume(job, call, number, part):
    """One kill of a fresh job, or of one resumed behind a part, and the job called again. False: it was not killed."""
    for name in ("output", "checkpoint", "checkpoint.new"):
        if os.path.exists(name):
            os.remove(name)
    with open("input", "wb") as file:
        file.write(job.input if part is None else job.input[:part])
    if part is not None:
        job.start(False, None)
        with open("input", "wb") as file:
            file.write(job.input)
    if not killed_at(job, call, number, True):
        return False
    job.check_saved()
    job.start(True, None)
    with open("output", "rb") as file:
        if file.read() != job.right:
            raise Wrong(f"killed at {call} {number}: another output")
    with open("checkpoint") as file:
        if file.read() != job.last_line:
            raise Wrong(f"killed at {call} {number}: another last line")
    return True


def at_each_call(chance, program, table, call, direction, resumed):
    """Kills a job at each call of a kind, or at those around the start, the checkpoint and the end. How many kills there were."""
    job, part = call_job(chance, program, table, direction)
    kills, number = 0, 1
    with tempfile.TemporaryDirectory() as folder:
        os.chdir(folder)
        try:
            while kill_and_resume(job, call, number, part if resumed else None):
                kills += 1
                number = 126 if number == 5 and call in ("read", "write") else number + 1
                if number == 140 and call in ("read", "write"):
                    number = 254
        finally:
            os.chdir(ROOT)
    return kills


def every_call(chance, program, table):
    """A test for each kind of call and each job."""
    passed = failed = kills = 0
    for direction, resumed in (("decode", False), ("decode", True), ("encode", True)):
        for call in CALLS:
            try:
                kills += at_each_call(chance, program, table, call, direction, resumed)
                passed += 1
            except Wrong as wrong:
                print(f"{'resumed' if resumed else 'fresh'} job, {direction}, {call}: {wrong}")
                failed += 1
    print(f"killed at {kills} system calls")
    return passed, failed


def main():
    global SLOW
    parser = argparse.ArgumentParser(description=__doc__.splitlines()[0])
    parser.add_argument("--tillbox", default=os.path.join(ROOT, "target", "tillbox"))
    parser.add_argument("--rounds", type=int, default=30)
    parser.add_argument("--seed", type=int, default=None)
    parser.add_argument("--size", type=int, default=400000)
    arguments = parser.parse_args()
    program = os.path.abspath(arguments.tillbox)
    seed = random.randrange(10**9) if arguments.seed is None else arguments.seed
    print(f"seed {seed}")
    chance = random.Random(seed)
    table = converter.read_image_file(TABLE, [""])
    clock = tempfile.TemporaryDirectory()
    SLOW = slow_clock.environment(clock.name)
    passed = failed = 0
    totals = [0, 0]
    for number in range(arguments.rounds):
        direction = "encode" if number % 3 == 2 else "decode"
        size = chance.randrange(2, arguments.size)
        try:
            play(chance, program, table, direction, size, totals)
            passed += 1
        except Wrong as wrong:
            print(f"round {number} ({direction}, {size} bytes): {wrong}")
            failed += 1
    print(f"killed {totals[0]} times, {totals[1]} of these with a checkpoint behind it")
    if can_trace():
        more = every_call(chance, program, table)
        passed, failed = passed + more[0], failed + more[1]
    else:
        print("strace is not to be had here: no job was killed at each system call")
    print(f"{passed} passed, {failed} failed")
    sys.exit(1 if failed else 0)


if __name__ == "__main__":
    main()
