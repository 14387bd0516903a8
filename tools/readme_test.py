#!/usr/bin/env python3
"""Runs the examples of README.md and compares what they write, on both streams, with what stands there.

    python3 tools/readme_test.py            uses target/tillbox

An example is an indented line that begins with `$ `, and the indented lines below it. They run in a new folder, one after the other."""
import os
import subprocess
import sys
import tempfile

ROOT = os.path.dirname(os.path.dirname(os.path.abspath(__file__)))


def examples(text):
    """The commands of a text, each with the lines that it is to write."""
    found = []
    for line in text.split("\n"):
        if line.startswith("    $ "):
            found.append((line[6:], []))
        elif line.startswith("    ") and found and found[-1][1] is not None:
            found[-1][1].append(line[4:])
        elif found:
            found.append((None, None))
    return [(command, lines) for command, lines in found if command is not None]


def main():
    program = os.path.join(ROOT, "target")
    if not os.path.exists(os.path.join(program, "tillbox")):
        sys.exit("readme_test: no target/tillbox: run tools/build.sh first")
    with open(os.path.join(ROOT, "README.md"), encoding="utf-8") as file:
        found = examples(file.read())
    wrong = 0
    with tempfile.TemporaryDirectory() as folder:
        os.symlink(os.path.join(ROOT, "tables"), os.path.join(folder, "tables"))
        for command, lines in found:
            ran = subprocess.run(["bash", "-c", command], cwd=folder, stdout=subprocess.PIPE, stderr=subprocess.STDOUT,
                                 env=dict(os.environ, PATH=program + os.pathsep + os.environ["PATH"]), check=False)
            got = ran.stdout.decode("utf-8").replace("\r", "")
            if got != "".join(line + "\n" for line in lines):
                wrong += 1
                print(f"readme_test: {command}\n  wrote:\n{got}  README.md has:\n" + "".join(line + "\n" for line in lines))
    print(f"{len(found) - wrong} passed, {wrong} failed")
    sys.exit(1 if wrong or not found else 0)


main()
