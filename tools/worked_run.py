#!/usr/bin/env python3
"""Makes a proof file of computed_runs from a run of the machine that another program has computed.

    tools/worked_run.py RUN.json 'What the run shows.' >crates/computed_runs/proofs/Runs/NAME.antt
    tools/worked_run.py --check

The file states that the definition gives the run's outcomes and its last state, and proves it by computation.
A line `pub mod NAME` in crates/computed_runs/proofs/Runs.antt makes the check read it. With --check each file there is
compared with what its run of crates/worked_runs/data makes, but for layout and imports. RUN.json has

    config  harts, mode (Plain, Sle, Tlr), sets, ways, lines, long
    memory  base and length, in bytes; all bytes are 0 at first
    code    start and words; it lies outside of memory, and each hart begins at its start
    events  a list of [kind, hart, outcome]; an outcome is its name and then its numbers
    end     bytes_unlike_0, order, harts: the state after the last event
"""
import itertools
import json
import pathlib
import re
import sys
import textwrap

CRATES = pathlib.Path(__file__).resolve().parent.parent / "crates"

USES = """use Rattle.std.proofs.Common.{◌≡◌, ℕ, true, false, List, [], ◌∷◌, Some, None, replicate, refl}
use Rattle.el_base.specs.HartId.{hart_id}
use Rattle.el_base.specs.LineAddr.{line_addr}
use Rattle.el_base.specs.declared.config.Config.{Config}
use Rattle.el_base.specs.declared.config.Mode.TheVariants.{Plain, Sle, Tlr}
use Rattle.el_base.specs.declared.events.Event.{Event}
use Rattle.el_base.specs.declared.events.Kind.TheVariants.{Step, Order, Serve, Deliver}
use Rattle.el_base.specs.declared.outcomes.Cause.TheVariants.{Room, Lines, Long, Call, Mixed}
use Rattle.el_base.specs.declared.outcomes.Need.TheVariants.{Read, Write}
use Rattle.el_base.specs.declared.outcomes.Outcome.{Outcome}
use Rattle.el_base.specs.declared.outcomes.Outcome.TheVariants.{Idle, Stalled, Missed, Ran, Began, Buffered, Committed}
use Rattle.el_base.specs.declared.outcomes.Outcome.TheVariants.{RolledBack, Blocked, Delivered, Armed, LetGo}
use Rattle.el_base.specs.declared.outcomes.Why.TheVariants.{Behind, Retained, Locked}
use Rattle.computed_runs.proofs.Computing.{computing}
use Rattle.computed_runs.proofs.Given.{Ending, armed, ending_of, event, first_state, lost, ordered_with, patched}
use Rattle.computed_runs.proofs.Given.{request, section, served_with, stamp, watch, way}
use Rattle.el_model.specs.Next.{outcomes_from, state_after}
use Rattle.el_model.specs.State.{Hart, ModelState}
use Rattle.mail.specs.Mailbox.{Marker, Probe}
use Rattle.moesi.specs.declared.letter.Letter.TheVariants.{M, O, E, S}
"""


def items(texts):
    """A list of these elements."""
    return "".join(f"{text} ∷ " for text in texts) + "[]"


def wrapped(texts, indent="    ", width=120):
    """A list of these elements, over lines of no more than some width."""
    lines, line = [], indent
    for text in [*[f"{text} ∷ " for text in texts], "[]"]:
        if len(line) + len(text) > width:
            lines.append(line.rstrip())
            line = indent
        line += text
    return "\n".join([*lines, line])


def option(value, text):
    return "None" if value is None else f"(Some {text(value)})"


def boolean(value):
    return "true" if value else "false"


def outcome(parts):
    name, *rest = parts
    if name == "Missed":
        return f"Missed (line_addr {rest[0]}) {rest[1]}"
    if name == "Committed":
        return f"Committed {rest[0]}"
    if name == "RolledBack":
        return f"RolledBack {rest[0]}"
    if name == "Blocked":
        return f"Blocked {rest[0]} (hart_id {rest[1]})"
    if name == "LetGo":
        return f"LetGo {rest[0]}"
    if name == "Delivered":
        return f"Delivered (lost {pairs(rest[0])})"
    if name in ("Ordered", "Served"):
        losers, freed = rest if len(rest) == 2 else (rest[0], [])
        return f"{name.lower()}_with {pairs(losers)} {pairs(freed)}"
    return name


def pairs(pairs_of_harts):
    """Pairs as a list: of losers and winners, or of freed harts and their numbers of instructions."""
    if not pairs_of_harts:
        return "[]"
    return "(" + items(f"({hart}, {other})" for hart, other in pairs_of_harts) + ")"


def stamp(value):
    return option(value, lambda s: f"(stamp {s[0]} {s[1]})")


def request(value):
    return f"(request {value['hart']} {value['line']} {value['need']} {stamp(value['stamp'])})"


def way(value):
    line, letter, read, write = value
    return f"way {line} {letter} {boolean(read)} {boolean(write)}"


def section(value):
    return f"(section {value['count']} {value['word']} {value['old']} {value['new']})"


def armed(value):
    return f"(armed {value['count']} {value['word']})"


def watch(value):
    return f"(watch {value['pc']} {value['word']} {value['old']} {value['count']})"


def message(value):
    return f"{value[0]} {value[1]}"


def counters(values):
    return "(patched (replicate 64 2) (" + items(f"({i}, {v})" for i, v in values) + "))"


def hart(value):
    return f"""record {{
      section = {option(value['section'], section)};
      armed = {option(value.get('armed'), armed)};
      last_lr = {option(value.get('last_lr'), str)};
      cache =
{wrapped(('(' + items(map(way, ways)) + ')' for ways in value['cache']), indent="        ")};
      raised = {option(value['raised'], request)};
      held_line = {option(value['held'], str)};
      mail = {items(map(message, value['mail']))};
      told = {items(map(str, sorted(value['told'])))};
      upstream = {items(map(str, sorted(value['upstream'])))};
      fallback = {boolean(value['fallback'])};
      tries = {value['tries']};
      clock = {value['clock']};
      seen = {value['seen']};
      attempt = {stamp(value['attempt'])};
      predictor = record {{
        counters = {counters(value['counters_unlike_2'])};
        watch = {option(value['watch'], watch)};
      }};
    }}"""


def given(run):
    """The configuration, the first state and the events of a run."""
    config, memory, code, events = run["config"], run["memory"], run["code"], run["events"]
    return f"""abbrev config : Config
config = record {{
  harts = {config['harts']};
  mode = {config['mode']};
  sets = {config['sets']};
  ways = {config['ways']};
  lines = {config['lines']};
  long = {config['long']};
  steps = {len(events)};
}}

abbrev words : List ℕ
words =
{wrapped(map(str, code['words']))}

abbrev first : ModelState
first = first_state config {memory['base']} {memory['length']} {code['start']} words

abbrev events : List Event
events =
{wrapped(f"event {kind} {h}" for kind, h, _ in events)}
"""


def expected(events):
    """What comes of a run's events, and the proof that the definition gives it."""
    return f"""abbrev expected : List Outcome
expected =
{wrapped(outcome(parts) for _, _, parts in events)}

outcomes : outcomes_from first events ≡ expected
unfolding computing
outcomes = refl
"""


def registers(harts):
    """The list of each hart's registers, on lines of its own."""
    lists = [wrapped(map(str, value["registers"]), indent="     ", width=100).strip() for value in harts]
    return "\n".join([*[f"    ({numbers}) ∷" for numbers in lists], "    []"])


def ending(end, length):
    """The last state of a run with so many bytes of memory, and the proof that the definition comes to it."""
    harts = end["harts"]
    return f"""abbrev last : Ending
last = record {{
  harts =
    {items(map(hart, harts))};
  order = {items(map(request, end['order']))};
  pcs = {items(str(value['pc']) for value in harts)};
  registers =
{registers(harts)};
  bytes = patched (replicate {length} 0) ({items(f"({i}, {b})" for i, b in end['bytes_unlike_0'])});
}}

ending : ending_of (state_after first events) ≡ last
unfolding computing
ending = refl"""


def commented(title):
    """A title as comment lines."""
    return textwrap.fill(title, 118, initial_indent="-- ", subsequent_indent="-- ")


def title_of(text):
    """The title that stands in a proof file's first comment."""
    return " ".join(line.removeprefix("-- ") for line in itertools.takewhile(lambda line: line.startswith("-- "), text.splitlines()))


def proof_file(title, run):
    """The text of a run's proof file."""
    parts = [commented(title), USES, given(run), expected(run["events"]), ending(run["end"], run["memory"]["length"])]
    return "\n".join(parts)


def bare(text):
    """A proof file's text without its imports and its layout; a record over several lines ends in one more `;`."""
    words = " ".join(line for line in text.splitlines() if not line.startswith("use ")).split()
    return " ".join(words).replace("; }", " }")


def check():
    """Compares each proof file with what its run makes. Tells how many agree, and names those that do not."""
    agree, differ = 0, []
    for file in sorted((CRATES / "computed_runs/proofs/Runs").glob("*.antt")):
        text = file.read_text()
        name = "-".join(re.findall("[A-Z][a-z]+|[0-9]+", file.stem)).lower()
        run = json.loads((CRATES / f"worked_runs/data/{name}.json").read_text())
        if bare(text) == bare(proof_file(title_of(text), run)):
            agree += 1
        else:
            differ.append(file.stem)
    for name in differ:
        print(f"computed_runs: {name} is not what its run makes")
    print(f"computed_runs: {agree} passed, {len(differ)} failed")
    return 1 if differ or not agree else 0


def main():
    if sys.argv[1:] == ["--check"]:
        return check()
    run = json.loads(pathlib.Path(sys.argv[1]).read_text())
    title = sys.argv[2] if len(sys.argv) > 2 else "A run of the machine."
    print(proof_file(title, run))
    return 0


if __name__ == "__main__":
    sys.exit(main())
