#!/usr/bin/env python3
"""Names each line of a definition or proof (.antt) that has more than 120 characters. The last line counts the files."""
import pathlib
import sys

CRATES = pathlib.Path(__file__).resolve().parent.parent / "crates"
LIMIT = 120


def long_lines(file):
    """The numbers of the file's lines that are too long."""
    return [number for number, line in enumerate(file.read_text().splitlines(), 1) if len(line) > LIMIT]


def main():
    files = [file for part in ("specs", "proofs") for file in CRATES.glob(f"*/{part}/**/*.antt")]
    failed = 0
    for file in sorted(files):
        numbers = long_lines(file)
        failed += bool(numbers)
        for number in numbers:
            print(f"long_lines: {file.relative_to(CRATES.parent)}:{number} has more than {LIMIT} characters")
    print(f"long_lines: {len(files) - failed} passed, {failed} failed")
    return 1 if failed or not files else 0


if __name__ == "__main__":
    sys.exit(main())
