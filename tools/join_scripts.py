#!/usr/bin/env python3
"""Joins the stored scripts for the gate: crates/console/stdin has all commands, crates/console/stdout all answers.

    join_scripts.py             writes both files, and copies the images of scripts/data and tables to crates/console/data
    join_scripts.py --check     compares them with the stored scripts and images and writes nothing

The order is that of scripts/README.md.
"""

import argparse
import glob
import os
import sys

ROOT = os.path.dirname(os.path.dirname(os.path.abspath(__file__)))
SCRIPTS = os.path.join(ROOT, "scripts")
CONSOLE = os.path.join(ROOT, "crates", "console")
IMAGES = (os.path.join(SCRIPTS, "data"), os.path.join(ROOT, "tables"))

# `initial`, on the console before anything is set, comes first.
ORDER = (
    "initial", "rows", "calls", "bad_halves", "surrogates", "one_call", "standard", "policies", "shapes", "refusals", "lines",
    "edges", "grammar", "images", "fields", "field_cuttings", "breaks", "index", "spell", "inplace", "here",
    "findings", "listing", "listing_pages",
    "lists_sample", "lists_small", "lists_damaged", "lists_halves", "lists_surrogates", "lists_long", "runs", "lists_fields",
    "lists_index", "lists_inplace", "lists_here", "lists_findings", "listing_damaged", "cp437", "cp850", "cp874", "cp1252", "cp932",
    "cp936", "cp949", "cp950", "undefined_units", "spell_pages",
)


def read(path):
    with open(path, "rb") as file:
        return file.read()


def joined(ending):
    return b"".join(read(os.path.join(SCRIPTS, name + ending)) for name in ORDER)


def wanted():
    """Every file of the console's folder that comes from the scripts, by path, with its contents."""
    files = {os.path.join(CONSOLE, "stdin"): joined(".in"), os.path.join(CONSOLE, "stdout"): joined(".out")}
    for folder in IMAGES:
        for path in sorted(glob.glob(os.path.join(folder, "*.tbl"))):
            files[os.path.join(CONSOLE, "data", os.path.basename(path))] = read(path)
    return files


def check():
    """What is missing, different or left over."""
    stored = {os.path.basename(path)[:-3] for path in glob.glob(os.path.join(SCRIPTS, "*.in"))}
    complaints = [f"the script {name} is not joined" for name in sorted(stored - set(ORDER))]
    files = wanted()
    for path, content in files.items():
        if not os.path.exists(path) or read(path) != content:
            complaints.append(f"{os.path.relpath(path, ROOT)} is not what join_scripts.py makes")
    for path in glob.glob(os.path.join(CONSOLE, "data", "*")):
        if path not in files:
            complaints.append(f"{os.path.relpath(path, ROOT)} is left over")
    return complaints


def main():
    parser = argparse.ArgumentParser(description="Joins the stored scripts for the console.")
    parser.add_argument("--check", action="store_true", help="compare and write nothing")
    options = parser.parse_args()
    if not options.check:
        for path, content in wanted().items():
            with open(path, "wb") as file:
                file.write(content)
    complaints = check()
    for complaint in complaints:
        print(complaint)
    if complaints:
        sys.exit(1)
    print(f"{len(ORDER)} scripts joined")


if __name__ == "__main__":
    main()
