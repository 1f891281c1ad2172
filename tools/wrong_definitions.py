#!/usr/bin/env python3
"""Tries wrong definitions of the machine: each must be refused by the worked run or row that its file names.

    tools/wrong_definitions.py [NAME..]
    tools/wrong_definitions.py --check

Each file crates/el_model/wrong/NAME.edit has a line 'file:', pairs of lines 'old:' and 'new:', and a line 'run:' with
the file of crates/computed_runs/proofs that must refuse it, such as Rows/ChainOfTwo. The definitions and that one run
are copied to a scratch folder as one crate, without any law. As they stand the copy must be proved; with the edit the
prover must find that the run does not come to what it should, and nothing else wrong in the copy. What other runs and
the laws say of the edit is not tried. The last line is 'N refused, M failed'. With --check nothing is proved: each old
text must stand once in its file of crates/el_model.

The crates below el_model are those that build_program.py keeps, which proves first what it has not kept. Then a check
takes some ten seconds, and as many run side by side as there are processors and memory holds.
"""
import pathlib
import re
import shutil
import subprocess
import sys
import tempfile
from concurrent.futures import ThreadPoolExecutor

import build_program

MODEL = build_program.ROOT / "crates" / "el_model"
RUNS = build_program.ROOT / "crates" / "computed_runs" / "proofs"
LIMIT = 120  # seconds for one check


def fields(path):
    """The file, the run, and the pairs of texts of an edit."""
    file, run, pairs = None, None, []
    for line in path.read_text().splitlines():
        key, _, text = line.partition(": ")
        if key == "file":
            file = text
        elif key == "run":
            run = text
        elif key == "old":
            pairs.append([text, None])
        elif key == "new":
            pairs[-1][1] = text
    return file, run, pairs


def place(folder, run):
    """Puts into a folder the definitions and one run."""
    group, name = run.split("/")
    proofs = folder / "proofs"
    for part in ("specs", "src", "proofs"):
        shutil.rmtree(folder / part, ignore_errors=True)
    shutil.copytree(MODEL / "specs", folder / "specs")
    (folder / "src").mkdir()
    (folder / "src" / "lib.rt").write_text("//! The definitions alone.\n#![tactic(auto)]\n")
    (proofs / group).mkdir(parents=True)
    modules = [name]
    if (RUNS / group / "Given.antt").exists():
        modules.insert(0, "Given")
    (proofs / "Lib.antt").write_text(f"pub mod Computing\npub mod Given\npub mod {group}\n")
    (proofs / f"{group}.antt").write_text("".join(f"pub mod {module}\n" for module in modules))
    for file in ("Computing", "Given", *(f"{group}/{module}" for module in modules)):
        text = (RUNS / f"{file}.antt").read_text()
        (proofs / f"{file}.antt").write_text(text.replace("Rattle.computed_runs.", "Rattle.el_model."))


def checked(folder, libraries):
    """Whether what is in a folder is proved, and what the prover says."""
    check = [build_program.KIT / "bin" / "rattle", "check", "--crate-name", MODEL.name, "src/lib.rt"]
    try:
        done = subprocess.run(
            [*check, *libraries, *build_program.LOGIC],
            cwd=folder,
            text=True,
            stdin=subprocess.DEVNULL,
            stdout=subprocess.PIPE,
            stderr=subprocess.STDOUT,
            timeout=LIMIT,
        )
    except subprocess.TimeoutExpired:
        return None, "no answer in time"
    return done.returncode == 0, done.stdout


def edited(text, pairs):
    """The text with each old text replaced, or None where one does not stand in it exactly once."""
    for old, new in pairs:
        if text.count(old) != 1:
            return None
        text = text.replace(old, new)
    return text


def applied(folder, file, pairs):
    """Whether the edit could be made in the copy."""
    path = folder / file
    text = edited(path.read_text(), pairs)
    if text is not None:
        path.write_text(text)
    return text is not None


def where_refused(out, run):
    """The lines of the run's file at which the prover says no, or None where it says no anywhere else."""
    places = re.findall(r"^\S*?((?:specs|proofs|src)/\S+?):(\d+):\d+: error", out, re.MULTILINE)
    if not places or any(file != f"proofs/{run}.antt" for file, _ in places):
        return None
    return sorted({int(line) for _, line in places})


def tried(folder, libraries, run, edit):
    """Whether an edit is refused by its run, and a line that says so."""
    place(folder, run)
    file, _, pairs = fields(edit)
    if not applied(folder, file, pairs):
        return False, f"BAD EDIT {edit.stem}: an old text does not stand exactly once in {file}"
    proved, out = checked(folder, libraries)
    if proved is None:
        return False, f"NOT TRIED {edit.stem}: {out}"
    if proved:
        return False, f"NOT REFUSED {edit.stem}: {run} is proved of the wrong definition"
    lines = where_refused(out, run)
    if lines is None:
        return False, f"BAD EDIT {edit.stem}: not refused by {run} alone\n{out}"
    return True, f"refused {edit.stem}: {run}, line {lines[0]}"


def tried_by_run(libraries, run, edits):
    """Of the edits that a run must refuse, how many are refused and how many are not."""
    with tempfile.TemporaryDirectory() as name:
        folder = pathlib.Path(name)
        place(folder, run)
        proved, out = checked(folder, libraries)
        if not proved:
            print(f"NOT PROVED {run} with no edit\n{out}", flush=True)
            return 0, len(edits)
        refused = 0
        for edit in edits:
            is_refused, line = tried(folder, libraries, run, edit)
            print(line, flush=True)
            refused += is_refused
        return refused, len(edits) - refused


def check(edits):
    """Tells how many edits can be made in the definitions as they stand, and names those that cannot."""
    stale = []
    for edit in edits:
        file, _, pairs = fields(edit)
        if edited((MODEL / file).read_text(), pairs) is None:
            stale.append(edit.stem)
            print(f"wrong_definitions: an old text of {edit.stem} does not stand exactly once in {file}")
    print(f"wrong_definitions: {len(edits) - len(stale)} passed, {len(stale)} failed")
    return 1 if stale or not edits else 0


def main():
    edits = sorted((MODEL / "wrong").glob("*.edit"))
    if sys.argv[1:] == ["--check"]:
        return check(edits)
    by_run = {}
    for edit in edits:
        if len(sys.argv) == 1 or edit.stem in sys.argv[1:]:
            by_run.setdefault(fields(edit)[1], []).append(edit)
    model = build_program.crates()[MODEL.name]
    # A run's file names crates whose words el_model has from others.
    model.uses = [*model.below.values()]
    build_program.CACHE.mkdir(parents=True, exist_ok=True)
    if not build_program.build_all(model.uses):
        return 1
    libraries = [*model.libraries()]
    with ThreadPoolExecutor(build_program.as_many_as_fit()) as pool:
        counts = [*pool.map(lambda run: tried_by_run(libraries, run, by_run[run]), sorted(by_run))]
    refused, failed = sum(it[0] for it in counts), sum(it[1] for it in counts)
    print(f"{refused} refused, {failed} failed")
    return 1 if failed or not refused else 0


if __name__ == "__main__":
    sys.exit(main())
