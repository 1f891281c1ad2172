"""The processor seconds of programs, and what their reports tell."""
import resource
import subprocess
import sys

ELIDE = "crates/elide/out/elide"


def processor_seconds():
    """Those of all processes that have ended and were waited for. User time alone is 0 for a run of a few milliseconds."""
    usage = resource.getrusage(resource.RUSAGE_CHILDREN)
    return usage.ru_utime + usage.ru_stime


def best(words, runs=5, statuses=(0,)):
    """The least processor seconds of so many runs, and what the last one wrote to standard error. Another status ends this script."""
    least = None
    for _ in range(runs):
        before = processor_seconds()
        run = subprocess.run(words, capture_output=True, text=True)
        taken = processor_seconds() - before
        if run.returncode not in statuses:
            sys.exit(run.stderr)
        least = taken if least is None else min(least, taken)
    return least, run.stderr


def by_turns(commands, runs=15, statuses=(0,)):
    """The least processor seconds of each of some commands, which are run by turns, so that a slow while of the machine
    falls on all of them; and what each last wrote to standard error."""
    taken = [best(words, runs=1, statuses=statuses) for words in commands]
    for _ in range(runs - 1):
        again = [best(words, runs=1, statuses=statuses) for words in commands]
        taken = [(min(before[0], now[0]), now[1]) for before, now in zip(taken, again)]
    return taken


def events(report):
    """How many events the run of a report had."""
    return int(report.split("events ")[1].split()[0])
