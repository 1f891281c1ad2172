#!/usr/bin/env python3
"""Writes the runs of crates/elide/src/tests/spelled.rt, whose traces spell every outcome.

    tools/spelled_rows.py >crates/elide/src/tests/spelled.rt
    tools/spelled_rows.py --check

The runs are short ones of crates/worked_runs/data, worked by hand from the rules of docs/MODEL.md (tools/rule_rows.py). Here
their memory lies a page higher, behind the file's head, and their outcomes are spelled by the format of a trace of
version 2. A hart that waits steps once more in the first of them, and is stalled. With --check the file is compared with that.
"""
import json
import pathlib
import sys

CRATES = pathlib.Path(__file__).resolve().parent.parent / "crates"
DATA = CRATES / "worked_runs/data"
RUNS = [
    ("elided-pair-sle", "A hart stalls; an armed section elides, and commits."),
    ("armed-at-the-shortest-sle", "An armed section is let go by its own hart."),
    ("let-go-by-a-write-sle", "One is let go as another hart's write is ordered."),
    ("let-go-by-the-next-head-sle", "One is let go as another's request is served; requests are behind, and locked out."),
    ("chain-of-two-sle", "A section loses as a request is ordered."),
    ("chain-of-two-tlr", "A section keeps its line."),
    ("chain-of-four", "Sections lose as messages are delivered, and as a request is served."),
    ("set-full-of-bits-sle", "A section has no room."),
    ("seventeen-lines-sle", "A section writes too many lines."),
    ("shortest-limit-sle", "A section is too long."),
    ("call-inside-sle", "A section calls."),
    ("lock-word-added-to-sle", "A section adds to its lock's word."),
]
MODES = {"Plain": 0, "Sle": 1, "Tlr": 2}
KINDS = {"Step": 0, "Order": 1, "Serve": 2, "Deliver": 3}
CAUSES = ["Room", "Lines", "Long", "Call", "Mixed"]
WHYS = ["Behind", "Retained", "Locked"]
PLAIN = {"Idle": 0, "Stalled": 1, "Ran": 4, "Began": 5, "Buffered": 6, "Armed": 13}
PAGE = 0x1000
WIDTH = 100


def little(value, count=4):
    return list(value.to_bytes(count, "little"))


def nibbles(pairs, add):
    """Four bits a hart, that of hart 0 lowest."""
    return little(sum((other + add) << 4 * hart for hart, other in pairs))


def spelled(outcome):
    name, *rest = outcome
    if name in PLAIN:
        return [PLAIN[name]]
    if name == "Missed":
        return [2 if rest[1] == "Read" else 3, *little(rest[0] + PAGE // 64)]
    if name == "Committed":
        return [7, *little(rest[0])]
    if name == "RolledBack":
        return [8, CAUSES.index(rest[0])]
    if name in ("Ordered", "Served"):
        freed = rest[1] if len(rest) == 2 else []
        return [9 if name == "Ordered" else 10, *nibbles(rest[0], 1), *nibbles(freed, 0)]
    if name == "Blocked":
        return [11, 16 * WHYS.index(rest[0]) + rest[1]]
    if name == "Delivered":
        return [12, *nibbles(rest[0], 1)]
    assert name == "LetGo", name
    return [14, rest[0]]


def moved(word):
    """An instruction, where it loads the page of memory that of the page behind it."""
    return word + (PAGE >> 12 << 12) if word & 0x7F == 0x37 and word >> 12 == 0x10 else word


def trace(config, events):
    head = [*b"ELTR", 2, config["harts"], MODES[config["mode"]], config["sets"], config["ways"], config["lines"]]
    head += [*little(config["long"]), *little(len(events)), *little(len(events))]
    return head + [byte for kind, hart, outcome in events for byte in [16 * KINDS[kind] + hart, *spelled(outcome)]]


def rows(values, text):
    """Values by comma, as many a line as the formatter allows."""
    lines, line = [], " " * 11
    for value in map(text, values):
        if len(line) + len(value) + 2 > WIDTH:
            lines.append(line)
            line = " " * 11
        line += f" {value},"
    return "\n" + "\n".join([*lines, line]) + "\n        " if lines or len(line.strip()) > 59 else line.strip().rstrip(",")


def text():
    """The text of the file."""
    parts = ["""//! Traces that spell every outcome, over programs of a few instructions. `tools/spelled_rows.py` writes this file, from
//! runs that were worked by hand.

use crate::tests::asserts::same_at;
use crate::tests::support::{answer, image_of};
use std::test::Fail;

/// A program, and the trace of a run of it with what came of each event.
struct Run {
    what: &'static str,
    code: &'static [u32],
    trace: &'static [u8],
}

const RUNS: &[Run] = &["""]
    codes = set()
    for name, what in RUNS:
        run = json.loads((DATA / f"row-{name}.json").read_text())
        events = run["events"]
        if name == RUNS[0][0]:
            missed = [event[2][0] for event in events].index("Missed")
            events.insert(missed + 1, ["Step", events[missed][1], ["Stalled"]])
        codes |= {spelled(outcome)[0] for _, _, outcome in events}
        parts.append(f"""    Run {{
        what: "{what}",
        code: &[{rows([moved(word) for word in run["code"]["words"]], lambda word: f"0x{word:08x}")}],
        trace: &[{rows(trace(run["config"], events), lambda byte: f"0x{byte:02x}")}],
    }},""")
    parts.append("""];

// A replay finds each outcome as it is spelled, and spells it so again; none of these programs ends.
#[test]
fn every_outcome_is_spelled(rt: HostRuntime) -> Result<(), Fail> {
    let words = ["replay", "a", "t", "--trace", "t"];
    for run in RUNS {
        let image = image_of(rt.alloc(), run.code)?;
        let played = answer(&rt, rt.alloc(), &words, &image, run.trace)?;
        same_at(&rt, run.what, played.status.number(), 3);
        same_at(&rt, run.what, played.written.as_slice(), run.trace);
    }
    Ok(())
}""")
    assert codes == set(range(15)), codes
    return "\n".join(parts) + "\n"


def main():
    if sys.argv[1:] != ["--check"]:
        print(text(), end="")
        return 0
    agrees = (CRATES / "elide/src/tests/spelled.rt").read_text() == text()
    print(f"spelled_rows: {int(agrees)} passed, {int(not agrees)} failed")
    return 0 if agrees else 1


sys.exit(main())
