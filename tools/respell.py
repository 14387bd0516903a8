#!/usr/bin/env python3
"""Brings the names of this repository's own definitions and lemmas to today's spelling: words in snake case.

usage: tools/respell.py           in the repository, once: rewrites the .antt, .rt and .edit files below crates/
       tools/respell.py --check   writes nothing; lists the names that would fall together or hide one another

`isLead` becomes `is_lead`, `every-trace` becomes `every_trace`. Types, modules and the names of Rust items keep their
spelling, and so do strings. It was run once, right after the kit's port.py.
"""
import collections
import os
import re
import sys

ROOT = os.path.dirname(os.path.dirname(os.path.abspath(__file__)))
TOKEN = re.compile(r"[A-Za-zμ_][A-Za-z0-9_'₀-₉′μ]*(?:-[A-Za-z0-9_'₀-₉′]+)*")
FIELD = re.compile(r"^ +(?:pub )?([\w'₀-₉-]+) :(?: |$)")
DEFINED = re.compile(r"^(?:abbrev |unfoldable )*(?:pub )?([^\s:(){}]+)(?: \{[^}]*\})* :(?: |$)")
STRING = re.compile(r'b?"(?:\\.|[^"\\\n])*"')
HUMP = re.compile(r"[a-z0-9][A-Z]")
# Lemmas in plain snake case whose name a definition gets: they end in _lem from now on, in the proofs of these crates.
LEMMAS = {"digit_value": ("checkpoint",), "in_order": ("csv",), "ones_below": ("codepage_lookup",), "same_bytes": ("traces",)}
USED = re.compile(r"(?ms)^\s*(?:pub )?use ([\w.+'-]+)\.\{([^}]*)\}")


def files():
    for folder, dirs, names in os.walk(os.path.join(ROOT, "crates")):
        dirs[:] = sorted(d for d in dirs if d != "out")
        for name in sorted(names):
            if name.endswith((".antt", ".rt", ".edit")):
                yield os.path.join(folder, name)


def read(path):
    with open(path, encoding="utf-8") as f:
        return f.read()


def snake(part):
    """A name part without a dash: humps become underscores."""
    if not part[:1].islower() or not HUMP.search(part) or re.fullmatch(r"x[0-9A-F]+", part):
        return part
    part = re.sub(r"([a-z0-9])([A-Z])", r"\1_\2", part)
    return re.sub(r"([A-Z])([A-Z][a-z])", r"\1_\2", part).lower()


def own_names(paths):
    names = collections.defaultdict(set)
    for path in paths:
        folder = os.path.basename(os.path.dirname(path))
        if path.endswith(".antt") and folder in ("specs", "proofs"):
            for line in read(path).splitlines():
                m = DEFINED.match(line)
                if m:
                    names[m.group(1)].add(path)
    return names


def own_fields(paths):
    """The dashed names of fields and local definitions."""
    names = set()
    for path in paths:
        if path.endswith(".antt") and os.path.basename(os.path.dirname(path)) in ("specs", "proofs"):
            names.update(m.group(1) for m in map(FIELD.match, read(path).splitlines()) if m and "-" in m.group(1))
    return names


def plain(name):
    return "_".join(p if len(p) == 1 else snake(p) for p in name.split("-"))


def table(names):
    """The new name of each dashed name of this repository: one that would have a definition's name gets _lem."""
    others = {turned(name, {}) for name in names if "-" not in name}
    return {name: plain(name) + ("_lem" if plain(name) in others else "") for name in names if "-" in name}


def turned(word, dashed):
    if word in dashed:
        return dashed[word]
    return "-".join(snake(p) for p in word.split("-"))


def foreign(text):
    """The dashed names that a file imports from the kit."""
    names = set()
    for m in USED.finditer(text):
        if not re.match(r"Rattle\.(?!std\b|core\b|std_)", m.group(1)):
            names.update(n.strip().split(" as ")[0] for n in m.group(2).split(","))
    return names


def turn(path, text, dashed, fields, keep_strings):
    folder, crate = os.path.basename(os.path.dirname(path)), path.split("/crates/")[1].split("/")[0]
    laws = path.endswith(".antt") and folder in ("specs", "proofs")
    kept = foreign(text) if laws else set()

    def word(m):
        w = m.group()
        if path.endswith(".antt") and w in LEMMAS and crate in LEMMAS[w] and text[m.start() - 1 : m.start()] != ".":
            return w + "_lem"
        behind_dot = text[m.start() - 1 : m.start()] == "."
        if laws and "-" in w and w not in kept and w not in dashed and (w in fields or not behind_dot):
            return plain(w)
        return turned(w, dashed)

    def words(t):
        return TOKEN.sub(word, t)
    if not keep_strings:
        return words(text)
    out, at = [], 0
    for m in STRING.finditer(text):
        out += [words(text[at : m.start()]), m.group()]
        at = m.end()
    return "".join(out) + words(text[at:])


def check(paths, names, dashed):
    new = collections.defaultdict(set)
    for name, where in names.items():
        for path in where:
            new[(turned(name, dashed), path.split("/crates/")[1].split("/")[0])].add(name)
    for (name, crate), old in sorted(new.items()):
        if len(old) > 1:
            print(f"{crate}: {', '.join(sorted(old))} would both be {name}")
    for path in paths:
        if path.endswith(".edit"):
            continue
        words = {m.group() for m in TOKEN.finditer(STRING.sub("", read(path)))}
        for w in sorted(words):
            t = turned(w, dashed)
            if t != w and t in words:
                print(f"{path.split('/crates/')[1]}: {w} becomes {t}, which stands there already")


def main():
    paths = list(files())
    names = own_names(paths)
    dashed, fields = table(names), own_fields(paths)
    if sys.argv[1:] == ["--check"]:
        check(paths, names, dashed)
        return
    for path in paths:
        old = read(path)
        new = turn(path, old, dashed, fields, path.endswith(".rt"))
        if new != old:
            with open(path, "w", encoding="utf-8") as f:
                f.write(new)


main()
