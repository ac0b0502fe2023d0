"""What the proved programs print, read line by line."""
import collections
import re

HORIZON = re.compile(r"; horizon (\d+) (refuted|plan|open|dropped)(?: conflicts (\d+))?\Z")
STEPS = re.compile(r"; plan of (\d+) steps with (\d+) actions\Z")
STEP = re.compile(r"; step \d+\Z")
ACTIONS = re.compile(r"; plan of (\d+) actions(, the least)?\Z")
STATES = re.compile(r"; states (\d+) of (\d+)\Z")
LIMIT = re.compile(r"; limit (\w+)(?: .*)?\Z")
LITERALS = re.compile(r"; limit literals (\d+) horizon (\d+)\Z")
REFUTED = re.compile(r"; refuted horizon (\d+) entries (\d+)\Z")
NEVER = re.compile(r"; no plan of any length(?:[:,] .*)?\Z")

# What a report says: its lines; its lines on horizons as (number, word, line); the lines of its plan with comments; the calls;
# the number of steps, None where it tells none; whether it says that no plan has fewer actions; the states that were entered;
# the line of a limit.
Report = collections.namedtuple("Report", "lines horizons plan calls steps least states limit")


def lines_of(output):
    """The lines of what a program has printed."""
    return bytes(output).decode("latin-1").split("\n")[:-1]


def first_line(output):
    """The first of these lines, or an empty text."""
    return (lines_of(output) or [""])[0]


def report(output):
    """What a planner's report says."""
    lines = lines_of(output)
    horizons, steps, least, states, limit, begun = [], None, False, None, None, None
    for place, line in enumerate(lines):
        if line.startswith("("):
            continue
        if found := HORIZON.match(line):
            horizons.append((int(found[1]), found[2], line))
        elif found := STEPS.match(line):
            steps, begun = int(found[1]), place
        elif found := ACTIONS.match(line):
            least, begun = bool(found[2]), place
        elif found := STATES.match(line):
            states = int(found[1])
        elif LIMIT.match(line):
            limit = line
    plan, steps = without_empty(lines[begun:] if begun is not None else [], steps)
    calls = [line for line in plan if line.startswith("(")]
    return Report(lines, horizons, plan, calls, steps, least, states, limit)


def without_empty(plan, steps):
    """The lines of a plan, and its number of steps, without the steps that have no action: what is left is a plan in so many steps."""
    parts = []
    for line in plan:
        if STEP.match(line):
            parts.append([])
        elif parts:
            parts[-1].append(line)
    full = [it for it in parts if any(line.startswith("(") for line in it)]
    if len(full) == len(parts):
        return plan, steps
    left, calls = len(parts) - len(full), sum(line.startswith("(") for line in plan)
    lines = [f"; plan of {len(full)} steps with {calls} actions", f"; left out: {left} {'step' if left == 1 else 'steps'} without an action"]
    for number, part in enumerate(full, 1):
        lines += [f"; step {number}", *part]
    return lines, len(full)


def calls_of(text):
    """The calls of a plan file, a text each, with single blanks; comments are left out."""
    plain = re.sub(rb";[^\n]*", b"", text)
    return [" ".join(it.decode("latin-1").split()) for it in re.findall(rb"\([^()]*\)", plain)]


def said(line):
    """A line of a program as a part of a sentence."""
    return line[2:] if line.startswith("; ") else line or "nothing"
