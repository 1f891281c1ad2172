#!/usr/bin/env python3
"""Gives every command of the laboratory traces of the example images and of each workload, in each mode, by the round robin and by
a schedule that is drawn, and looks at what comes: objects of JSON and rows of CSV are read back, pages are parsed as XML, the rows
of all locks sum to the counts of the report, and instructions are spelled as GNU objdump spells them, where it is there. The last
line counts the runs."""
import collections
import csv
import io
import itertools
import json
import pathlib
import re
import shutil
import subprocess
import sys
import tempfile
import xml.dom.minidom

ROOT = pathlib.Path(__file__).resolve().parent.parent
KINDS = ("counter", "bank", "buckets", "locks", "overflow", "pairs")
COUNTS = ("began", "committed", "instr", "conflict", "room", "lines", "long", "call", "mixed")
PAGE_LIMIT = 3_000_000
OBJDUMP = shutil.which("riscv64-linux-gnu-objdump") or shutil.which("riscv64-unknown-elf-objdump")

passed = 0
failed = 0


def expect(holds, *words):
    """Counts a run, and says what is wrong with one that fails."""
    global passed, failed
    if holds:
        passed += 1
    else:
        failed += 1
        print("lab:", *words)


def ran(*words):
    """A run of one of both programs, by its name and its words."""
    return subprocess.run([str(ROOT / words[0]), *map(str, words[1:])], capture_output=True, text=True)


def put(*words):
    """What a command of the laboratory puts, which must end well and say nothing else."""
    done = ran("elide-lab", *words)
    expect(done.returncode == 0 and done.stderr == "", *words, done.stderr.strip())
    return done.stdout


def report_of(text):
    """The sum over the harts of each count of a report."""
    sums = collections.Counter()
    for line in text.splitlines():
        if line.startswith("hart "):
            words = line.split()
            sums.update({name: int(words[words.index(name) + 1]) for name in COUNTS})
    return sums


def check_tables(image, trace, report):
    rows = [json.loads(line) for line in put("locks", image, trace, "--json").splitlines()]
    sums = {name: sum(row[name] for row in rows) for name in COUNTS}
    expect(all(sums[name] == report[name] for name in COUNTS), "locks", image, trace, "sums differ")
    for command in ("locks", "lines"):
        objects = put(command, image, trace, "--json").splitlines()
        table = list(csv.DictReader(io.StringIO(put(command, image, trace, "--csv"))))
        expect(len(table) == len(objects), command, image, trace, "rows differ")
        put(command, image, trace)


def check_events(image, trace, events, spelled):
    shown = put("show", image, trace, "--json").splitlines()
    kinds = collections.Counter(json.loads(line)["kind"] for line in shown)
    expect(set(kinds) <= {"step", "order", "serve", "deliver"}, "show", image, trace, kinds)
    text = put("show", image, trace)
    expect(len(text.splitlines()) == len(shown), "show", image, trace, "lines differ")
    for pc, insn in re.findall(r" step ([0-9a-f]{8})(?: <[^>]*>)? ([a-z.]+ ?[^:\n]*?)(?=:|$)", text, re.M):
        if int(pc, 16) in spelled and spelled[int(pc, 16)] != re.sub(r"\s+<.*", "", insn).strip():
            expect(False, "spelled", image, pc, insn, spelled[int(pc, 16)])
            break
    for place in {0, events // 2, events}:
        put("state", image, trace, place)


def check_page(image, trace, folder):
    page = folder / "page.html"
    put("page", image, trace, page)
    xml.dom.minidom.parse(str(page))
    expect(page.stat().st_size <= PAGE_LIMIT, "page", image, trace, page.stat().st_size)


def spelling_of(image):
    """Instructions by their addresses, as objdump spells them, without its comments and symbols."""
    if OBJDUMP is None:
        return {}
    listing = subprocess.run([OBJDUMP, "-d", str(image)], capture_output=True, text=True).stdout
    found = re.findall(r"^ *([0-9a-f]+):\t[0-9a-f]+ +\t(.*)$", listing, re.M)
    return {int(at, 16): re.sub(r"\s*(<.*|#.*)$", "", insn.replace("\t", " ")).strip() for at, insn in found}


def check(image, mode, schedule, folder):
    trace = folder / "run.trace"
    words = [image, "--mode", mode, "--harts", 2, "--steps", 20000, "--trace", trace]
    done = ran("elide", "run", *words) if schedule is None else ran("elide-lab", "run", *words, "--random", schedule)
    expect(done.returncode in (0, 1, 3), "run", image, mode, schedule, done.stderr.strip())
    replayed = ran("elide", "replay", image, trace)
    expect(replayed.returncode in (0, 1, 3), "replay", image, mode, schedule, replayed.stderr.strip())
    events = int(re.search(r"events (\d+)", replayed.stderr)[1])
    expect(f"events {events}" in put("info", trace), "info", image, mode, schedule)
    check_tables(image, trace, report_of(replayed.stderr))
    check_events(image, trace, events, spelling_of(image))
    check_page(image, trace, folder)


def check_picture(folder):
    """The picture on the laboratory's page is that of the run that the page names."""
    image, trace, page = ROOT / "examples/locks/accounts.elf", folder / "run.trace", folder / "page.html"
    ran("elide", "run", image, "--harts", 2, "--steps", 2600, "--trace", trace)
    put("page", image, trace, page)
    expect(ran("tools/page_picture.py", page, ROOT / "docs/lab/accounts.svg").returncode == 0, "docs/lab/accounts.svg is old")


def main():
    with tempfile.TemporaryDirectory() as name:
        folder = pathlib.Path(name)
        images = sorted(ROOT.glob("examples/*/*.elf"))
        for kind in KINDS:
            images.append(folder / f"{kind}.elf")
            ran("elide", "gen", kind, 1, images[-1])
        for image, mode, schedule in itertools.product(images, ("plain", "sle", "tlr"), (None, 1)):
            check(image, mode, schedule, folder)
        check_picture(folder)
    print(f"laboratory: {passed} passed, {failed} failed")
    sys.exit(failed > 0)


main()
