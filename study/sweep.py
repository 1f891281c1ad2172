#!/usr/bin/env python3
"""Runs of elide by a grid: which there are, what came of each, and how they are divided among machines.

    sweep.py list GRID                          prints the runs, one object of JSON a line
    sweep.py run GRID --to FILE [--jobs N]      makes those that FILE has not, each result one line of it
    sweep.py one RUN                            makes one run, an object as `list` prints it, and prints its result
    sweep.py jobs GRID --jobs-file FOLDER       writes the list, and a Slurm array that makes it in parts
    sweep.py join FILE.. --to FILE              puts results together, by their names

GRID is a file of blocks (study/grids), or a list as `list` prints it, or - for such a list on standard input. Where a
run is cut off, the next one goes on behind the last whole line. It takes Python's standard library alone.
"""
import argparse
import concurrent.futures
import hashlib
import itertools
import json
import os
import pathlib
import subprocess
import sys
import tempfile

HERE = pathlib.Path(__file__).resolve().parent
ROOT = HERE.parent

# The words of a run, in the order of its name, with what stands where a block says nothing.
USUAL = {"harts": 1, "mode": "tlr", "sets": 16, "ways": 4, "lines": 16, "long": 2000, "steps": 4000000,
         "schedule": "round"}
MODES = ["plain", "sle", "tlr"]

# What a program of study/work prints on so many harts, and one that `elide gen` writes.
WORKS = {"counter": lambda harts: 64 * harts, "apart": lambda harts: 64 * harts, "beside": lambda harts: 64 * harts,
         "table": lambda harts: 64 * harts, "accounts": lambda harts: 10000 - 64 * (harts % 2),
         "overflow": lambda harts: 320 * harts, "readers": lambda harts: 32 * harts}
KINDS = {"counter": lambda harts: 100 * harts, "bank": lambda harts: 64000, "buckets": lambda harts: 200 * harts,
         "locks": lambda harts: 200 * harts, "overflow": lambda harts: 400 * harts, "pairs": lambda harts: 100 * harts}


def program():
    """The built program, or the script that builds it first."""
    built = ROOT / "crates/elide/out/elide"
    return os.environ.get("ELIDE") or str(built if built.exists() else ROOT / "elide")


def name_of(run):
    return " ".join([run["image"]] + [f"{word} {run[word]}" for word in USUAL])


def expected(run):
    """What the run prints where it comes to its end."""
    image, harts = run["image"], run["harts"]
    if image.startswith("gen:"):
        return f"{KINDS[image.split(':')[1]](harts):08x}\n"
    if image == "examples/courtesy/courtesy.elf":
        return "both\n" * harts
    return f"{WORKS[pathlib.Path(image).stem.split('-')[0]](harts)}\n"


def images_of(pattern):
    """The images of a block's pattern: gen:KIND:NUMBER, or files below the repository."""
    if pattern.startswith("gen:"):
        return [pattern]
    found = sorted(str(path.relative_to(ROOT)) for path in ROOT.glob(pattern))
    if not found:
        sys.exit(f"sweep: no image is {pattern}")
    return found


def block_runs(block):
    images = [image for pattern in block["image"] for image in images_of(pattern)]
    choices = [block.get(word, [usual]) for word, usual in USUAL.items()]
    for image, *values in itertools.product(images, *choices):
        yield dict(zip(["image", *USUAL], [image, *values]))


def runs_of(source):
    """The runs of a grid or of a list, each name once."""
    text = sys.stdin.read() if source == "-" else pathlib.Path(source).read_text()
    if source.endswith(".json"):
        runs = [run for block in json.loads(text) for run in block_runs(block)]
    else:
        runs = [json.loads(line) for line in text.splitlines()]
    return list({name_of(run): run for run in runs}.values())


# Making one run

def make(image, run, files):
    """Runs the image by the run's schedule, and gives the status, the output and the report."""
    if run["schedule"].startswith("random:"):
        return at_random(image, run, files)
    words = ["run", image, "--times"]
    for word in ["harts", "mode", "sets", "ways", "lines", "long", "steps"]:
        words += [f"--{word}", str(run[word])]
    if run["schedule"].startswith("threads:"):
        words += ["--threads", run["schedule"].split(":")[1], "--trace", os.path.join(files, "trace")]
    elif run["schedule"] != "round":
        sys.exit(f"sweep: no schedule is {run['schedule']}")
    return called(words)


def called(words):
    done = subprocess.run([program(), *words], capture_output=True, text=True)
    return done.returncode, done.stdout, done.stderr


def drawn_events(seed, harts, first, count):
    """The bytes of a trace for these places of the sequence of SplitMix64 that a seed begins: each number modulo four
    times the harts, of which the quotient by four is the hart and the rest the kind."""
    mask = 2**64 - 1
    choices = [16 * (choice % 4) + choice // 4 for choice in range(4 * harts)]
    events = bytearray()
    for place in range(first + 1, first + count + 1):
        state = (seed + 0x9E3779B97F4A7C15 * place) & mask
        state = ((state ^ (state >> 30)) * 0xBF58476D1CE4E5B9) & mask
        state = ((state ^ (state >> 27)) * 0x94D049BB133111EB) & mask
        events.append(choices[(state ^ (state >> 31)) % (4 * harts)])
    return events


def at_random(image, run, files):
    """Replays a trace of drawn events that is just long enough, which is found by doubling and halving."""
    seed, harts, steps = int(run["schedule"].split(":")[1]), run["harts"], run["steps"]
    trace = os.path.join(files, "trace")
    header = (b"ELTR" + bytes([1, harts, MODES.index(run["mode"]), run["sets"], run["ways"], run["lines"]])
              + run["long"].to_bytes(4, "little") + steps.to_bytes(4, "little"))
    events = bytearray()

    def replayed(count):
        if len(events) < count:
            events.extend(drawn_events(seed, harts, len(events), count - len(events)))
        pathlib.Path(trace).write_bytes(header + count.to_bytes(4, "little") + events[:count])
        return called(["replay", image, trace, "--times"])

    short, enough = 0, min(4096, steps)
    while (last := replayed(enough))[0] == 3 and enough < steps:
        short, enough = enough, min(2 * enough, steps)
    if last[0] == 3:
        return last
    while enough - short > 1:
        middle = (short + enough) // 2
        if replayed(middle)[0] == 3:
            short = middle
        else:
            enough = middle
    return replayed(enough)


def report_of(text):
    """The numbers of a report: its events, the sums of the harts' counts, units and instructions lost."""
    told = {"events": None, "counts": {}, "running": 0, "serial": None, "units": None, "lost": 0}
    for words in map(str.split, text.splitlines()):
        if words[:1] == ["elide"]:
            told["events"] = int(words[-1])
        elif words[:1] == ["hart"]:
            for word, number in zip(words[2:28:2], words[3:28:2]):
                told["counts"][word] = told["counts"].get(word, 0) + int(number)
            told["running"] += words[28:] == ["running"]
        elif words[:1] == ["serial"]:
            told["serial"] = int(words[1])
        elif words[:2] == ["time", "total"]:
            told["units"] = int(words[2])
        elif words[:1] == ["lost"]:
            told["lost"] += int(words[7])
    return told


def result_of(run):
    """Makes a run, and tells it: its words, whether it printed what its formula gives, and its numbers."""
    with tempfile.TemporaryDirectory() as files:
        image = str(ROOT / run["image"])
        if run["image"].startswith("gen:"):
            image = os.path.join(files, "image")
            _, kind, number = run["image"].split(":")
            if called(["gen", kind, number, image])[0] != 0:
                sys.exit(f"sweep: no image is {run['image']}")
        digest = hashlib.sha256(pathlib.Path(image).read_bytes()).hexdigest()[:12]
        status, out, err = make(image, run, files)
    told = report_of(err)
    # Where harts still run there is nothing to compare yet.
    right = None if status == 3 else status == 0 and out == expected(run)
    rounds = -(-told["events"] // (4 * run["harts"])) if status in (0, 1) else None
    result = {"name": name_of(run), **run, "digest": digest, "status": status, "right": right, "rounds": rounds, **told}
    return result if status in (0, 1, 3) else {**result, "said": err.strip()}


# Results in files

def whole_lines(path):
    """The results of a file, which loses a last line that is not whole."""
    if not path.exists():
        return {}
    text = path.read_bytes()
    whole = text[:text.rfind(b"\n") + 1]
    if len(whole) < len(text):
        os.truncate(path, len(whole))
    return {result["name"]: result for result in map(json.loads, whole.splitlines())}


def line_of(result):
    return json.dumps(result, separators=(",", ":")) + "\n"


def put(results, path):
    """Writes results in the order of their names, into a file that then takes the place of the old one."""
    new = path.with_name(path.name + ".new")
    new.write_text("".join(line_of(results[name]) for name in sorted(results)))
    os.replace(new, path)


def progress(done, all_of, wrong):
    """A bar on a terminal, and else a line at each tenth."""
    if sys.stderr.isatty():
        full = 40 * done // all_of
        print(f"\r[{'#' * full}{'.' * (40 - full)}] {done} of {all_of}, {wrong} wrong", end="", file=sys.stderr)
        if done == all_of:
            print(file=sys.stderr)
    elif done == all_of or done * 10 // all_of > (done - 1) * 10 // all_of:
        print(f"sweep: {done} of {all_of}, {wrong} wrong", file=sys.stderr)


def sweep(runs, path, jobs):
    """Makes the runs that the file has not of the same image. The status is 1 where one went wrong."""
    there = whole_lines(path)
    left = [run for run in runs if not is_there(there.get(name_of(run)), run)]
    wrong = 0
    with open(path, "a") as file, concurrent.futures.ThreadPoolExecutor(jobs) as pool:
        made = [pool.submit(result_of, run) for run in left]
        try:
            for done, future in enumerate(concurrent.futures.as_completed(made), 1):
                result = future.result()
                wrong += result["right"] is False
                file.write(line_of(result))
                file.flush()
                progress(done, len(left), wrong)
        except BaseException:
            pool.shutdown(cancel_futures=True)
            raise
    results = whole_lines(path)
    put(results, path)
    wrong = [name for name in map(name_of, runs) if results[name]["right"] is False]
    for name in wrong:
        print(f"sweep: went wrong: {name}", file=sys.stderr)
    return bool(wrong)


def is_there(result, run):
    """Whether this is a result of the run, of the image as it is now."""
    if result is None or run["image"].startswith("gen:"):
        return result is not None
    return result["digest"] == hashlib.sha256((ROOT / run["image"]).read_bytes()).hexdigest()[:12]


def join(paths, to):
    """Puts results together. Two of one name have to be alike, but where threads made them."""
    joined = {}
    for path in paths:
        for name, result in whole_lines(pathlib.Path(path)).items():
            if joined.setdefault(name, result) != result and not result["schedule"].startswith("threads:"):
                sys.exit(f"sweep: two results differ: {name}")
    put(joined, to)


ARRAY = """#!/bin/sh
#SBATCH --array=1-{parts}
#SBATCH --cpus-per-task=1
#SBATCH --output={folder}/part-%a.log
# Part N of the list, {each} runs of it. Behind the last: study/sweep.py join {folder}/part-*.jsonl --to FILE
cd {root} || exit 2
last=$((SLURM_ARRAY_TASK_ID * {each}))
sed -n "$((last - {each} + 1)),${{last}}p" {folder}/runs.jsonl |
    python3 study/sweep.py run - --jobs 1 --to {folder}/part-$SLURM_ARRAY_TASK_ID.jsonl
"""


def write_jobs(runs, folder, each):
    folder.mkdir(parents=True, exist_ok=True)
    (folder / "runs.jsonl").write_text("".join(map(line_of, runs)))
    parts = -(-len(runs) // each)
    (folder / "array.sh").write_text(ARRAY.format(parts=parts, each=each, folder=folder.resolve(), root=ROOT))
    print(f"{len(runs)} runs in {parts} parts: sbatch {folder}/array.sh")


def main():
    parser = argparse.ArgumentParser(description=__doc__, formatter_class=argparse.RawDescriptionHelpFormatter)
    commands = parser.add_subparsers(dest="command", required=True)
    for name in ["list", "run", "jobs"]:
        command = commands.add_parser(name)
        command.add_argument("grid")
    commands.choices["run"].add_argument("--to", type=pathlib.Path, required=True)
    commands.choices["run"].add_argument("--jobs", type=int, default=os.cpu_count())
    commands.choices["jobs"].add_argument("--jobs-file", type=pathlib.Path, required=True, metavar="FOLDER")
    commands.choices["jobs"].add_argument("--each", type=int, default=50, help="runs in a part")
    commands.add_parser("one").add_argument("run")
    joining = commands.add_parser("join")
    joining.add_argument("files", nargs="+")
    joining.add_argument("--to", type=pathlib.Path, required=True)
    asked = parser.parse_args()
    if asked.command == "list":
        sys.stdout.write("".join(map(line_of, runs_of(asked.grid))))
    elif asked.command == "run":
        return sweep(runs_of(asked.grid), asked.to, asked.jobs)
    elif asked.command == "jobs":
        write_jobs(runs_of(asked.grid), asked.jobs_file, asked.each)
    elif asked.command == "one":
        sys.stdout.write(line_of(result_of(json.loads(asked.run))))
    else:
        join(asked.files, asked.to)
    return 0


if __name__ == "__main__":
    sys.exit(main())
