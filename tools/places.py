#!/usr/bin/env python3
"""Counts the places in src/ that docs/DESIGN-PASS.md speaks of, by its points 1 to 8.

usage: tools/places.py [--list POINT] [FOLDER]     FOLDER is a checkout, by default this one

It goes by text: what it finds is where to look, and the page says what each place is.
"""
import collections
import glob
import os
import re
import sys

NO_VALUE = {"Refused", "NoRoom", "Nothing", "Good", "Lacking", "NotAnImage", "NoRecord", "Failed", "Free", "InvalidRun", "Done", "NoneExists", "BadPolicy"}
BY_HAND = re.compile(
    r"^(hex_digit|hex_byte|hex_value|digit_value|digit_of|letter_byte|nibble|copy|copied|larger|smaller|sum|front|front_\w+|same\w*|is_same\w*|find"
    r"|low_half|high_half|end_out|place_out|flag_out|direction_out|direction_in|checked_out|number_of|kind_number|status_of|size_of|rank_of)$"
)
TABLES = ("numbers", "classes", "singles", "pairs", "index", "blocks")


def files(root, ending):
    return sorted(p for p in glob.glob(f"{root}/crates/*/{'src' if ending == 'rt' else '*'}/**/*.{ending}", recursive=True) if "/out/" not in p)


def functions(text):
    """Yields name, parameters, head (with clauses) and body of each function, and its line."""
    for m in re.finditer(r"^( *)(?:pub(?:\([a-z]+\))? )?(?:const )?fn (\w+)", text, re.M):
        head = re.compile(r"^%s\{$|\{$" % m.group(1), re.M)
        at = None
        for k in head.finditer(text, m.start()):
            line = text[text.rfind("\n", 0, k.end()) + 1 : k.end()]
            if line == m.group(1) + "{" or not line.strip().startswith(("requires", "ensures")):
                at = k.end()
                break
        end = at and re.compile(r"^%s\}" % m.group(1), re.M).search(text, at)
        if not end:
            continue
        start = text[m.start() : at]
        inside = re.search(r"\((.*?)\)\s*(?:->|\n|\{)", start, re.S)
        params = re.findall(r"(\w+): ([^,]+?)(?:,|$)", re.sub(r"\s+", " ", inside.group(1) if inside else ""))
        yield m.group(2), params, start, text[at : end.start()], text.count("\n", 0, m.start()) + 1


def shape(body):
    """The body with its names, numbers and texts numbered by their first place, so that twins are equal."""
    body = re.sub(r"//.*", "", body)
    seen = {}
    out = []
    for t in re.findall(r'b?"(?:[^"\\]|\\.)*"|b?\'(?:[^\'\\]|\\.)\'|\w+|[^\w\s]', body):
        if re.match(r"\w|b?[\"']", t) and t not in ("let", "mut", "if", "else", "return", "match", "while", "for", "in", "loop", "as", "true", "false", "break"):
            out.append(seen.setdefault(t, f"n{len(seen)}"))
        else:
            out.append(t)
    return " ".join(out)


def places(root):
    found = collections.defaultdict(list)
    groups = collections.Counter()
    clauses = collections.defaultdict(list)
    shapes = collections.defaultdict(list)
    for path in files(root, "rt"):
        text = open(path).read()
        short = path[len(root) + 1 :]
        for m in re.finditer(r"^(?:pub )?enum (\w+)[^{;]*\{(.*?)^\}", text, re.M | re.S):
            variants = set(re.findall(r"^    (\w+)", re.sub(r"//.*", "", m.group(2)), re.M))
            if variants & NO_VALUE and len(variants) <= 12:
                found["1 enums with a variant for no value or a refusal"].append(f"{short} {m.group(1)}")
        for m in re.finditer(r"^(?:pub )?struct (\w+)[^{;]*\{(.*?)^\}", text, re.M | re.S):
            fields = re.findall(r"^\s+(?:pub )?(\w+): ([^,\n]+),", m.group(2), re.M)
            if any(t == "bool" for _, t in fields):
                found["1 structs with a flag beside values"].append(f"{short} {m.group(1)}")
            if any(re.match(r"\[\w+; ", t) for _, t in fields) and any(t in ("usize", "u64") for _, t in fields):
                found["6 structs with a fixed buffer and a length"].append(f"{short} {m.group(1)}")
        for name, params, head, body, line in functions(text):
            here = f"{short}:{line} {name}"
            names = [n for n, _ in params]
            if re.search(r"-> (u8|i32|i64)\b", head) and name != "number":
                found["1 functions that give a number in a byte or with a sign"].append(here)
            if re.search(r"\b(status|number|answer)\w* (!=|==) 0\b|\.answer (!=|==) \d|\b(refused|refusal)\(1\d", re.sub(r"//.*", "", body)):
                found["1 functions that compare a number that stands for a refusal or a kind"].append(here)
            if BY_HAND.match(name):
                found["4 functions for order, copies, conversions, digits by hand"].append(here)
            if len([n for n in names if n in TABLES]) >= 2:
                found["5 functions that take two or more parts of a table set"].append(here)
            if re.search(r"&mut \[u8\], at: usize|\bout: &mut \[\w+\]", " ".join(f"{n}: {t}," for n, t in params)) and "at" in names:
                found["6 functions that take a buffer and a place beside it"].append(here)
            flags = [n for n, t in params if t == "bool"]
            if any(re.match(r"\s*if !?%s \{" % n, body) for n in flags):
                found["7 functions that begin by a switch on a flag"].append(here)
            key = shape(body)
            if len(re.findall(r";|\{", body)) >= 3 and key.count(" ") >= 25:
                shapes[key].append(here)
            for c in re.findall(r"^\s+requires \w* ?\{(.*)\}$", head, re.M):
                clauses[c.strip()].append(here)
        for i, line in enumerate(text.split("\n"), 1):
            code = line.split("//")[0]
            if re.search(r"\b(while|loop)\b", code) and not re.match(r"\s*(requires|ensures|ghost|use|invariant)", code):
                found["3 loops by while or loop"].append(f"{short}:{i}")
    for key, where in shapes.items():
        if len(where) > 1:
            found["2 functions of the same shape as another"] += where
    for clause, where in clauses.items():
        if len(where) >= 3:
            found["5 requires clauses that stand in three or more contracts"] += [f"{w}: {clause[:60]}" for w in where]
    for path in files(root, "antt"):
        if os.path.basename(path) == "Answers.antt":
            text = open(path).read()
            for m in re.finditer(r"^(\S+) (?:c|g c|l) = (?:search rules|omega arith|refl)$", text, re.M):
                found["8 answers of one word"].append(f"{path[len(root)+1:]} {m.group(1)}")
            terms = collections.Counter(re.findall(r"[(=] ?((?:sym|ap|omega|rw|subst) [^\n]{60,}?)$", text, re.M))
            found["8 long terms repeated in one file"] += [f"{path[len(root)+1:]}: {t[:50]}" for t, n in terms.items() if n > 1]
    return found


def main():
    words = sys.argv[1:]
    point = None
    if "--list" in words:
        at = words.index("--list")
        point = words[at + 1] if at + 1 < len(words) else ""
        del words[at : at + 2]
    if len(words) > 1 or any(w.startswith("-") for w in words):
        sys.exit(__doc__)
    root = os.path.abspath(words[0] if words else os.path.join(os.path.dirname(__file__), ".."))
    if not glob.glob(f"{root}/crates/*/src"):
        sys.exit(f"places: {root} has no crates/*/src: name a checkout of the repository")
    found = places(root)
    for key in sorted(found):
        if point is None:
            print(f"{len(found[key]):5}  {key}")
        elif key.startswith(point):
            print(f"{key}: {len(found[key])}")
            print("".join(f"  {x}\n" for x in found[key]), end="")


main()
