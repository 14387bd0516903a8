#!/usr/bin/env python3
"""Converts the benchmark's texts by the second converter: FOLDER/NAME.decoded and NAME.encoded (`emoji` is encoded only); and cuts
those of the cutter: NAME.cut.

Use: expected.py FOLDER. Pieces of 65,536 units, policy 555, the last one marked last.
"""
import os
import struct
import sys

HERE = os.path.dirname(os.path.abspath(__file__))
sys.path.insert(0, os.path.join(HERE, "..", "tools"))
sys.dont_write_bytecode = True
import second_converter as second  # noqa: E402


def convert(direction, table, text):
    run = second.start_call(direction, table.page, (5, 5, 5))
    output = []
    for place in range(0, len(text), second.PIECE_LIMIT):
        piece = text[place : place + second.PIECE_LIMIT]
        out = [0] * (2 * len(piece) + 2)
        outcome = second.run_call(direction, run, table, piece, place + len(piece) == len(text), out)
        if outcome.number not in (0, 1):
            sys.exit("expected.py: a call answered %d" % outcome.number)
        run = outcome.run
        output += out[: outcome.written]
    return output


def cut(text):
    """How many fields and records a text of units has, and a sum over all units of fields and what ends them (1 bar, 2 line feed,
    3 the text's end): sum * 31 + element, in 64 bits."""
    fields = records = total = 0
    field = []
    for unit in text + [None]:
        end = {0x7C: 1, 0x0A: 2, None: 3}.get(unit)
        if end is None:
            field.append(unit)
            continue
        if end == 3 and not field:
            break
        for element in field + [end]:
            total = (total * 31 + element) % 2**64
        fields += 1
        records += end == 2
        field = []
    return fields, records, total


def main():
    folder = sys.argv[1]

    def units_of(name):
        with open("%s/%s.units" % (folder, name), "rb") as f:
            data = f.read()
        return list(struct.unpack("<%dH" % (len(data) // 2), data))

    for name in ("journal", "figures", "notes"):
        with open("%s/%s.cut" % (folder, name), "w") as f:
            f.write("%d %d %d\n" % cut(units_of(name)))
    for name, page in (("ascii", "cp932"), ("japanese", "cp932"), ("latin", "cp1252"), ("damaged", "cp932"), ("journal", "cp932"),
                       ("kana", "cp932"), ("chinese", "cp936"), ("korean", "cp949"), ("taiwan", "cp950"), ("thai", "cp874"), ("western", "cp850"),
                       ("dos", "cp437"), ("emoji", "cp932")):
        table = second.read_image_file(page + ".tbl", [os.path.join(HERE, "..", "tables")])
        if name != "emoji":
            with open("%s/%s.bytes" % (folder, name), "rb") as f:
                units = convert(second.DECODING, table, list(f.read()))
            with open("%s/%s.decoded" % (folder, name), "wb") as f:
                f.write(struct.pack("<%dH" % len(units), *units))
        with open("%s/%s.encoded" % (folder, name), "wb") as f:
            f.write(bytes(convert(second.ENCODING, table, units_of(name))))


main()
