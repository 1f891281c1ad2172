#!/usr/bin/env python3
"""Compares the numbers of docs/STUDY.md with those of study/results/study.jsonl, or writes them anew.

    page.py            says what differs; status 1 where something does
    page.py --write    puts the numbers and tables of the results into the page

A number of the page that comes from a run has a comment behind it that says which, as 2.31<!-- gain apart-tas 8 tlr -->;
a table stands between <!-- table NAME --> and <!-- end -->. It takes Python's standard library alone.
"""
import pathlib
import re
import sys

from results import HARTS, HERE, KINDS, LOCKS, MODES, WORKS, Results

PAGE = HERE.parent / "docs/STUDY.md"
NUMBER = re.compile(r"([\w.,]+)<!-- (rounds|gain|count|share|events|units|runs|unended) ?(.*?) -->")
TABLE = re.compile(r"<!-- table (\w+) -->\n.*?<!-- end -->", re.DOTALL)


def grouped(number):
    return "none" if number is None else f"{number:,}"


def as_gain(gain):
    return "none" if gain is None else f"{gain:.2f}"


def number(results, what, words):
    """The text of a number: what it is, and the words of its run, as apart-tas 8 tlr lines=4."""
    if what == "runs":
        return grouped(len(results.all))
    if what == "unended":
        return grouped(sum(result["status"] == 3 for result in results.all))
    plain = [word for word in words.split() if "=" not in word]
    others = {word: int(value) if value.isdigit() else value
              for word, value in (word.split("=") for word in words.split() if "=" in word)}
    image, harts, mode, *rest = plain
    if what == "rounds":
        return grouped(results.rounds(image, int(harts), mode, **others))
    if what == "gain":
        return as_gain(results.gain(image, int(harts), mode, **others))
    if what == "share":
        return f"{results.share(image, int(harts), mode, *rest, **others):.0f}"
    if what == "count":
        return grouped(results.count(image, int(harts), mode, *rest, **others))
    return grouped(results.of(image, int(harts), mode, **others)[what])


def row(cells):
    return "| " + " | ".join(cells) + " |"


def table_of(head, rows):
    return "\n".join([row(head), "|" + "---|" * len(head), *map(row, rows)])


def gains(results, compiler, mode):
    """The gain over plain on 8 harts, of each lock over each program."""
    return table_of(["lock", *WORKS],
                    [[f"`{lock}`", *(as_gain(results.gain(f"{compiler}/{work}-{lock}", 8, mode)) for work in WORKS)]
                     for lock in LOCKS])


def kinds(results):
    """The gain over plain of the images that `elide gen` writes."""
    return table_of(["kind", *(f"{mode}, {harts} harts" for mode in MODES[1:] for harts in HARTS)],
                    [[f"`{kind.split(':')[0]}`", *(as_gain(results.gain(f"gen:{kind}", harts, mode))
                                                  for mode in MODES[1:] for harts in HARTS)] for kind in KINDS])


def unended(results):
    """The runs that came to no end."""
    return table_of(["image", "harts", "mode", "schedule", "harts that still run", "events"],
                    [[f"`{result['image']}`", str(result["harts"]), result["mode"], result["schedule"],
                      str(result["running"]), grouped(result["events"])]
                     for result in results.all if result["status"] == 3])


def tables(results):
    """The tables of the page, by their names."""
    return {"gcc_tlr": lambda: gains(results, "gcc", "tlr"), "gcc_sle": lambda: gains(results, "gcc", "sle"),
            "clang_tlr": lambda: gains(results, "clang", "tlr"), "kinds": lambda: kinds(results),
            "unended": lambda: unended(results)}


def renewed(text, results):
    """The page with its numbers and tables as the results have them."""
    known = tables(results)
    text = TABLE.sub(lambda found: f"<!-- table {found[1]} -->\n{known[found[1]]()}\n<!-- end -->", text)
    return NUMBER.sub(lambda found: f"{number(results, found[2], found[3])}"
                                    f"<!-- {found[2]}{' ' + found[3] if found[3] else ''} -->", text)


def main():
    text = PAGE.read_text()
    new = renewed(text, Results())
    if sys.argv[1:] == ["--write"]:
        PAGE.write_text(new)
        return 0
    for old_line, new_line in zip(text.splitlines(), new.splitlines()):
        if old_line != new_line:
            print(f"page: {old_line}\npage: has to be: {new_line}")
    print(f"study: {len(NUMBER.findall(text))} numbers and {len(TABLE.findall(text))} tables of the page",
          "are those of its runs" if text == new else "are not all those of its runs")
    return int(text != new)


if __name__ == "__main__":
    sys.exit(main())
