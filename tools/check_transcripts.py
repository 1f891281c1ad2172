#!/usr/bin/env python3
"""Makes the runs that a page shows, and compares what they print.

    check_transcripts.py PAGE..            says where a page is out of date; status 1 where one is
    check_transcripts.py --write PAGE..    writes what the runs print into the pages

A transcript is an indented block whose lines begin with `$ ./elide`, each with what it prints behind it: standard output and
then standard error. A line that ends in `..` stands for any line that begins so, and a line `..` alone for all that is left.
Files that a transcript writes lie in a folder of their own, and last to the page's end.
"""
import pathlib
import re
import shlex
import subprocess
import sys
import tempfile

ROOT = pathlib.Path(__file__).resolve().parent.parent


def printed(command, folder):
    """What a command prints, run at the top of the repository; names that end in .trace, .cert, .image, .html or .order lie in the folder."""
    words = [f"{folder}/{word}" if re.fullmatch(r"\w+\.(trace|cert|image|html|order)", word) else word
             for word in shlex.split(command)]
    done = subprocess.run(words, cwd=ROOT, capture_output=True, text=True)
    return (done.stdout + done.stderr).splitlines()


def fits(shown, lines):
    """Whether these lines are what is shown of them."""
    if shown[-1:] == [".."]:
        shown, lines = shown[:-1], lines[:len(shown) - 1]
    return len(shown) == len(lines) and all(
        line.startswith(part[:-2]) if part.endswith("..") else line == part for part, line in zip(shown, lines))


def checked(text, folder):
    """The text with what its runs print, and the commands that print something else than it shows."""
    wrong = []
    lines = text.split("\n")
    renewed = []
    while lines:
        renewed.append(line := lines.pop(0))
        command = re.fullmatch(r"( {4,})\$ (\./elide.*)", line)
        if command is None:
            continue
        indent = command[1]
        shown = []
        while lines and lines[0].startswith(indent) and not lines[0].startswith(indent + "$"):
            shown.append(lines.pop(0)[len(indent):])
        found = printed(command[2], folder)
        if not fits(shown, found):
            wrong.append(command[2])
            shown = found
        renewed += [indent + part for part in shown]
    return "\n".join(renewed), wrong


def main():
    pages = [pathlib.Path(name) for name in sys.argv[1:] if name != "--write"]
    differ = False
    for page in pages:
        with tempfile.TemporaryDirectory() as folder:
            text, wrong = checked(page.read_text(), folder)
        if "--write" in sys.argv:
            page.write_text(text)
            continue
        for command in wrong:
            print(f"{page}: prints something else: {command}")
        differ = differ or bool(wrong)
    return int(differ)


if __name__ == "__main__":
    sys.exit(main())
