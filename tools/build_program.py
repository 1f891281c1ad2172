#!/usr/bin/env python3
"""Proves and builds a program of this repository, its libraries side by side: build_program.py NAME.

`rt run` proves one library after another, each over the proofs of those below it. Here the kit's compiler is called as the gate calls
it, but for the gate's search for contracts that no call can meet: it proves a library from nothing, and reads of those below their
statements alone. A library is begun once those that it stands on are built, and of these first the one with the most work on its
longest way up. One that holds up nearly all the rest does not wait for a processor, and is proved by two processes where one is free.
Where processors would be idle a library is proved by more: each process beyond the first does some work again.

What is built is kept in the user's cache, under a sum of all that it stands on, so it is taken as it is where nothing of that has
changed, in other checkouts too; of each crate what was built or taken last, four times over.

It ends with status 1 where a crate is not proved or built, behind what was said of it.
"""

import hashlib
import os
import shutil
import signal
import subprocess
import sys
import tempfile
from concurrent.futures import FIRST_COMPLETED, ThreadPoolExecutor, wait
from contextlib import suppress
from dataclasses import dataclass
from functools import cached_property
from graphlib import TopologicalSorter
from pathlib import Path

ROOT = Path(__file__).resolve().parent.parent
if not shutil.which("rt"):
    sys.exit("rt is not found: README.md names the kit that it is of")
# `rt doc` names a page at the top of the kit.
KIT = Path(subprocess.run(["rt", "doc"], stdout=subprocess.PIPE, text=True, check=True).stdout.strip()).parent
CACHE = Path(os.environ.get("XDG_CACHE_HOME") or Path.home() / ".cache") / "elide"
# The compiler's words for the program logic.
LOGIC = ("--antt-project", KIT / "rattle" / "logic" / "antt-project.json", "--logic-built", KIT / "logic_built")
KEPT_OF_EACH = 4
PROCESSORS = len(os.sched_getaffinity(0))
# What the proof of a library takes, in bytes: less has been seen of each.
MEMORY_OF_ONE = 2_500_000_000
# A library whose way up is this part of the longest one that is left holds up nearly all the rest.
NEAR_LONGEST = 0.8
# How many processes such libraries may have beyond the number of processors.
BEYOND = 2
# What runs, to be stopped where this script is.
RUNNING = set()


@dataclass(eq=False)
class Crate:
    """A crate of this repository."""

    name: str
    line: str  # of crates.txt
    uses: list  # of libraries of this repository

    @cached_property
    def below(self):
        """The libraries that it stands on, by name."""
        return {name: it for use in self.uses for name, it in [(use.name, use), *use.below.items()]}

    @cached_property
    def folder(self):
        return ROOT / "crates" / self.name

    @cached_property
    def sum(self):
        """A sum of all that it stands on."""
        found = hashlib.sha256(repr(((KIT / "KIT-ID").read_text(), self.line, [it.sum for it in self.uses])).encode())
        for part in ("src", "specs", "proofs"):
            for file in sorted(it for it in (self.folder / part).rglob("*") if it.is_file()):
                found.update(repr((str(file.relative_to(self.folder)), file.read_bytes())).encode())
        return found.hexdigest()

    @cached_property
    def kept(self):
        """Where it is kept once it is built."""
        return CACHE / f"{self.name}-{self.sum}"

    @cached_property
    def library(self):
        return self.kept / f"{self.name}.rlib"

    @cached_property
    def work(self):
        """What its proof takes, as bytes of code: that of its functions, and of what is loaded first."""
        return 5_000 + sum(it.stat().st_size for it in (self.folder / "src").rglob("*.rt"))

    def libraries(self):
        """The compiler's words for the libraries that the crate names, and for where those below these are found."""
        of_kit = ["std", *(it for it in self.line.split(":")[1].split() if it not in self.below)]
        named = {**{name: KIT / "rlibs" / f"{name}.rlib" for name in of_kit}, **{it.name: it.library for it in self.uses}}
        folders = [KIT / "rlibs", *(it.kept for it in self.below.values())]
        yield from (word for name, path in named.items() for word in ("--extern", f"{name}={path}"))
        yield from (word for path in folders for word in ("-L", f"dependency={path}"))

    def build(self, made, jobs, *words):
        """Has the crate proved and kept as `made`: says whether that is done now, or was before. It says nothing where it fails."""
        if self.kept.is_dir():
            self.kept.touch()
            return "kept"
        compiler = [KIT / "bin" / "rattle", "build", "--crate-name", self.name]
        with tempfile.TemporaryDirectory(dir=CACHE) as room:
            new = Path(room) / self.name
            new.mkdir()
            if not self.call(*compiler, *words, *self.libraries(), *LOGIC, "--jobs", str(jobs), "-o", new / made):
                return None
            # Where another build was faster, what it made is as good.
            with suppress(OSError):
                new.rename(self.kept)
        for it in sorted(CACHE.glob(f"{self.name}-*"), key=lambda it: -it.stat().st_mtime)[KEPT_OF_EACH:]:
            shutil.rmtree(it, ignore_errors=True)
        return "proved"

    def build_library(self, jobs):
        return self.build(self.library.name, jobs, "src/lib.rt", "--statements")

    def build_program(self):
        code, toolchain = f"{self.name}.o", ["--toolchain", KIT / "toolchain"]
        if not self.build(code, PROCESSORS, "src/main.rt", *toolchain, "--backend", "llvm"):
            return False
        program = self.folder / "out" / self.name
        program.parent.mkdir(exist_ok=True)
        linker = [KIT / "bin" / "rattle-link", "--target", "x86_64-unknown-linux-gnu", *toolchain]
        return self.call(*linker, "-o", program, self.kept / code, KIT / "c" / "libos_c.a", KIT / "c" / "liblibc_c.a")

    def call(self, *words):
        """Whether a command of the kit ends well. What it says is shown where it does not, unless it was stopped here."""
        with tempfile.TemporaryFile("w+", errors="replace") as said:
            with subprocess.Popen(words, cwd=self.folder, stdin=subprocess.DEVNULL, stdout=said, stderr=subprocess.STDOUT) as process:
                RUNNING.add(process)
            stopped = process not in RUNNING
            RUNNING.discard(process)
            if process.returncode and not stopped:
                said.seek(0)
                print(f"{said.read()}{self.name}: not built", flush=True)
            return process.returncode == 0


def crates():
    """The crates of crates.txt by their names, each with those below it."""
    lines = {it.split(":")[0]: it for it in (ROOT / "crates.txt").read_text().splitlines() if it and it[0] != "#"}
    known = {}

    def crate_of(name):
        if name not in known:
            used = [it for it in lines[name].split(":")[1].split() if it in lines]
            known[name] = Crate(name, lines[name], [crate_of(it) for it in used])
        return known[name]

    return {name: crate_of(name) for name in lines}


def ways_up(libraries):
    """How much work lies on the longest way from each library up to the last one above it, its own included."""
    ways = {}
    for it in sorted(libraries, key=lambda it: -len(it.below)):
        above = [ways[other] for other in ways if it in other.uses]
        ways[it] = it.work + max(above, default=0)
    return ways


def build_all(libraries):
    """Whether all are proved and built."""
    ways, order = ways_up(libraries), TopologicalSorter({it: it.uses for it in libraries})
    order.prepare()
    ready, running, left, at_once = [], {}, {*libraries}, as_many_as_fit()
    with ThreadPoolExecutor(at_once) as pool:
        while order.is_active():
            ready = sorted([*ready, *order.get_ready()], key=ways.get)
            while ready and len(running) < at_once:
                free = PROCESSORS - sum(jobs for _, jobs in running.values())
                holds_up = ways[ready[-1]] >= NEAR_LONGEST * max(ways[it] for it in left)
                if free + BEYOND * holds_up < 1:
                    break
                library = ready.pop()
                jobs = max(1, min(2, free + 1) if holds_up else 1, min(free - len(ready), PROCESSORS))
                running[pool.submit(library.build_library, jobs)] = library, jobs
            for it in wait(running, return_when=FIRST_COMPLETED).done:
                library, _ = running.pop(it)
                if not it.result():
                    stop_running()
                    return False
                left.remove(library)
                print(f"{library.name}: {it.result()}, {len(libraries) - len(left)} of {len(libraries)}", flush=True)
                order.done(library)
    return True


def as_many_as_fit():
    """How many libraries are proved at once: as many as processes may run, and as free memory holds."""
    free = next(int(it.split()[1]) << 10 for it in open("/proc/meminfo", encoding="ascii") if it.startswith("MemAvailable:"))
    return max(min(PROCESSORS + BEYOND, free // MEMORY_OF_ONE), 1)


def stop_running():
    while RUNNING:
        RUNNING.pop().kill()


def stop(*_):
    stop_running()
    sys.exit(1)


def main():
    if len(sys.argv) != 2 or not (ROOT / "crates" / sys.argv[1] / "src" / "main.rt").is_file():
        sys.exit("usage: build_program.py NAME, of a program's folder in crates")
    signal.signal(signal.SIGTERM, stop)
    CACHE.mkdir(parents=True, exist_ok=True)
    program = crates()[sys.argv[1]]
    return 0 if build_all([*program.below.values()]) and program.build_program() else 1


if __name__ == "__main__":
    sys.exit(main())
