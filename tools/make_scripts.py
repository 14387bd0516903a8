#!/usr/bin/env python3
"""Makes the console scripts that are not about real pages: scripts/NAME.in, NAME.out and scripts/data/*.tbl.

    make_scripts.py                                       writes the stored scripts
    make_scripts.py --check                               makes them in memory and compares them with the stored files
    make_scripts.py --seed N --lists M --out FOLDER       writes M further lists of each random kind, from seed N, into FOLDER
    make_scripts.py --pages FOLDER                        writes the listings of all real pages, whole, into FOLDER

NAME.out has the answers of second_converter.py. In the fixed scripts (fixed_scripts.py, bad_half_scripts.py,
surrogate_scripts.py, one_call_scripts.py, standard_scripts.py, field_scripts.py, break_scripts.py, index_scripts.py, spell_scripts.py,
inplace_scripts.py, here_scripts.py, findings_scripts.py, listing_scripts.py) an expected answer is written by hand, from the documents
and the readings of them, for every command, and making the scripts fails where second_converter.py answers otherwise. The random scripts
(random_scripts.py) are the same for the same seed. join_scripts.py joins all scripts for the console.
"""

import argparse
import os
import sys
import tempfile

import bad_half_scripts
import break_scripts
import field_scripts
import findings_scripts
import fixed_scripts
import here_scripts
import index_scripts
import inplace_scripts
import listing_scripts
import one_call_scripts
import random_scripts
import second_converter
import spell_scripts
import standard_scripts
import surrogate_scripts

ROOT = os.path.dirname(os.path.dirname(os.path.abspath(__file__)))
SCRIPTS = os.path.join(ROOT, "scripts")
DATA = os.path.join(SCRIPTS, "data")
TABLES = os.path.join(ROOT, "tables")
PAGES = (437, 850, 874, 1252, 932, 936, 949, 950)

SEED = 7
LISTS = {
    "lists_sample": 500,
    "lists_small": 800,
    "lists_damaged": 150,
    "lists_halves": 200,
    "lists_surrogates": 150,
    "lists_long": 20,
    "runs": 120,
    "lists_fields": 25,
    "lists_index": 80,
    "lists_inplace": 60,
    "lists_here": 120,
    "lists_findings": 80,
    "listing_damaged": 150,
}


def write_images(images, folder):
    os.makedirs(folder, exist_ok=True)
    for name, image in images.items():
        with open(os.path.join(folder, name), "wb") as file:
            file.write(image)


def page_images():
    """The images of the real pages, by page."""
    images = {}
    for page in PAGES:
        with open(os.path.join(TABLES, f"cp{page}.tbl"), "rb") as file:
            images[page] = file.read()
    return images


def scripts_by_hand():
    """The scripts whose expected answers stand beside their commands, by name."""
    return {
        **fixed_scripts.scripts(),
        "bad_halves": bad_half_scripts.bad_halves_script(),
        "surrogates": surrogate_scripts.surrogates_script(),
        "one_call": one_call_scripts.one_call_script(),
        "standard": standard_scripts.standard_script(),
        "fields": field_scripts.fields_script(),
        "field_cuttings": field_scripts.cuttings_script(),
        "breaks": break_scripts.breaks_script(),
        "index": index_scripts.index_script(),
        "spell": spell_scripts.spell_script(),
        "inplace": inplace_scripts.inplace_script(),
        "here": here_scripts.here_script(),
        "findings": findings_scripts.findings_script(),
        "listing": listing_scripts.listing_script(),
        "listing_pages": listing_scripts.pages_script(page_images()),
    }


def stored_scripts():
    """All stored scripts by name as (commands, answers), their images by file name, and the complaints."""
    images = dict(fixed_scripts.images())
    tables = random_scripts.random_tables(SEED)
    images.update({name: table.image() for name, table in tables.items()})
    scripts = {}
    complaints = []
    with tempfile.TemporaryDirectory() as folder:
        write_images(images, folder)
        for name, script in scripts_by_hand().items():
            commands = script.commands_file()
            answers = second_converter.play(commands, [folder, TABLES])
            complaints += [f"{name}: {complaint}" for complaint in script.complaints(answers)]
            scripts[name] = (commands, answers)
        for kind, count in LISTS.items():
            scripts[kind] = random_scripts.random_script(kind, SEED, count, tables, folder)
    return scripts, images, complaints


def write_stored(scripts, images):
    write_images(images, DATA)
    for name, contents in scripts.items():
        for ending, content in zip((".in", ".out"), contents):
            with open(os.path.join(SCRIPTS, name + ending), "wb") as file:
                file.write(content)


def compare_stored(scripts, images):
    """Answers what is missing, different or left over in the stored files."""
    complaints = []
    wanted = {os.path.join(DATA, name): image for name, image in images.items()}
    for name, contents in scripts.items():
        for ending, content in zip((".in", ".out"), contents):
            wanted[os.path.join(SCRIPTS, name + ending)] = content
    for path, content in wanted.items():
        if not os.path.exists(path):
            complaints.append(f"{os.path.relpath(path, ROOT)} is missing")
            continue
        with open(path, "rb") as file:
            if file.read() != content:
                complaints.append(f"{os.path.relpath(path, ROOT)} is not what make_scripts.py makes")
    for name in os.listdir(DATA):
        if name not in images:
            complaints.append(f"scripts/data/{name} is left over")
    return complaints


def write_more(seed, lists, folder):
    """Further random lists, and the scripts long_lines and all_cuttings, which are too long to be stored."""
    tables = random_scripts.random_tables(seed)
    write_images({name: table.image() for name, table in tables.items()}, folder)
    scripts = {kind: random_scripts.random_script(kind, seed, lists, tables, folder) for kind in LISTS}
    for name, script in (
        ("long_lines", fixed_scripts.long_lines_script()),
        ("all_cuttings", field_scripts.all_cuttings_script()),
    ):
        commands = script.commands_file()
        scripts[name] = (commands, second_converter.play(commands, [folder]))
    for name, contents in scripts.items():
        for ending, content in zip((".in", ".out"), contents):
            with open(os.path.join(folder, name + ending), "wb") as file:
                file.write(content)


def write_pages(folder):
    """The listings of the real pages, whole, written and read back: too long to be stored. Answers the complaints."""
    os.makedirs(folder, exist_ok=True)
    complaints = []
    for page, image in page_images().items():
        name = f"listing_{page}"
        script = listing_scripts.whole_page_script(f"cp{page}.tbl", listing_scripts.read_tables(image))
        commands = script.commands_file()
        answers = second_converter.play(commands, [TABLES])
        complaints += [f"{name}: {complaint}" for complaint in script.complaints(answers)]
        for ending, content in ((".in", commands), (".out", answers)):
            with open(os.path.join(folder, name + ending), "wb") as file:
                file.write(content)
    return complaints


def main():
    parser = argparse.ArgumentParser(description="Makes the console scripts that are not about real pages.")
    parser.add_argument("--check", action="store_true", help="compare with the stored files and write nothing")
    parser.add_argument("--seed", type=int, help="seed of further random lists")
    parser.add_argument("--lists", type=int, default=100, help="how many further lists of each kind (100)")
    parser.add_argument("--out", metavar="FOLDER", help="where the further lists and their images go")
    parser.add_argument("--pages", metavar="FOLDER", help="where the whole listings of the real pages go")
    options = parser.parse_args()
    if (options.seed is None) != (options.out is None):
        parser.error("--seed and --out go together")
    if options.seed is not None:
        write_more(options.seed, options.lists, options.out)
        return
    if options.pages is not None:
        complaints = write_pages(options.pages)
        for complaint in complaints:
            print(complaint)
        sys.exit(1 if complaints else 0)
    scripts, images, complaints = stored_scripts()
    if options.check:
        complaints += compare_stored(scripts, images)
    elif not complaints:
        write_stored(scripts, images)
    for complaint in complaints:
        print(complaint)
    if complaints:
        sys.exit(1)
    print(f"{len(scripts)} scripts, {len(images)} images: every expected answer is given")


if __name__ == "__main__":
    main()
