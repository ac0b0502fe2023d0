"""Reports of the planner, read line by line. Exactly what it prints is taken. Reports of scripts that drive it, and plan files, are
calls among comments, of which nothing follows by itself."""
import re

NUMBER = r"(0|[1-9][0-9]*)"
KIND = r"(syntax|deep|shape|unknown|arity|duplicate|unsupported|type)"
FILE = r"(domain|problem|plan|proof)"
HORIZON = re.compile(rf"; horizon {NUMBER} (refuted|dropped|open|plan) conflicts {NUMBER}\Z")
CONFLICTS = re.compile(rf"; conflicts {NUMBER} of {NUMBER}\Z")
FOUND = re.compile(rf"; plan of {NUMBER} steps with {NUMBER} actions\Z")
EXHAUSTED = re.compile(rf"; exhausted at horizon {NUMBER}\Z")
UNFINISHED = re.compile(r"; unfinished\Z")
STEP = re.compile(rf"; step {NUMBER}\Z")
CALL = re.compile(r"\(([!-'*-:<-~]+(?: [!-'*-:<-~]+)*)\)\Z")
GENERATED = re.compile(rf"; generated (corridor|gripper) {NUMBER}\Z")
PROBLEM = re.compile(rf"; problem {NUMBER}\Z")
PROVED = re.compile(rf"horizon {NUMBER}\Z")
ENTRY = re.compile(rf"(?:learn(?: {NUMBER})* by(?: {NUMBER})+|drop {NUMBER})\Z")
LAST = re.compile(rf"learn by(?: {NUMBER})+\Z")
ANSWERS = {
    "reaches": re.compile(r"; reaches the goal\Z"),
    "blocked": re.compile(r"; blocked at action ([1-9][0-9]*)\Z"),
    "short": re.compile(r"; goal not reached\Z"),
    "accepted": re.compile(rf"; accepted horizon {NUMBER} entries {NUMBER}\Z"),
    "rejected": re.compile(rf"; rejected entry {NUMBER}\Z"),
    "not empty": re.compile(r"; not empty\Z"),
    "left": re.compile(rf"; horizon {NUMBER} (plan|open) conflicts {NUMBER}\Z"),
    "refused": re.compile(rf"; refused {KIND} {FILE} {NUMBER}\Z"),
    "limit file": re.compile(rf"; limit file {FILE}\Z"),
    "limit": re.compile(rf"; limit (tuples|facts|actions|effects) {NUMBER}\Z"),
    "limit literals": re.compile(rf"; limit literals {NUMBER} horizon {NUMBER}\Z"),
    "read fault": re.compile(rf"; read fault {FILE}\Z"),
    "usage": re.compile(r"; usage: [ -~]+\Z"),
}
DRIVER = re.compile(r"; known: (.+)\Z")
PLANNERS = re.compile(r"; (horizon [0-9]+ [a-z]+ conflicts|conflicts|problem|generated) |horizon [0-9]")
OF_PROBLEM = ("refused", "limit file", "limit", "limit literals")
MOST_PARTS = 16


class NoReport(Exception):
    """Why the input is no whole report, with the line, from 1."""


class Lines:
    """The lines of a report, read from the first one on."""

    def __init__(self, text):
        self.lines = text.split("\n")
        self.at = 0
        if self.lines.pop() != "":
            raise NoReport(f"line {len(self.lines) + 1} is not ended")

    def more(self):
        """Whether a line is left."""
        return self.at < len(self.lines)

    def take(self, form):
        """The next line as a match of this form, or nothing where it is none."""
        found = form.match(self.lines[self.at]) if self.more() else None
        self.at += found is not None
        return found

    def fail(self, why):
        """Says why the line at which the reading stands is not as it has to be."""
        what = "the report ends too early" if not self.more() else f"line {self.at + 1}"
        raise NoReport(f"{what}: {why}")

    def need(self, form, why):
        """The next line as a match of this form, which it has to be."""
        return self.take(form) or self.fail(why)


class Part:
    """What became of one problem: the lines of a search, or an answer of one line."""

    def __init__(self, end=None):
        self.generated = None
        self.horizons = []
        self.spent = self.budget = None
        self.end = end
        self.steps = None
        self.notes = []


class Certificate:
    """A certificate: its horizon, and how many clauses its entries add and drop."""

    def __init__(self, horizon, entries):
        self.horizon = horizon
        self.dropped = sum(1 for line in entries if line.startswith("drop "))
        self.learned = len(entries) - self.dropped


class Report:
    """A whole report: its parts, of which there are several in a batch; or the certificate that it is."""

    def __init__(self, parts, is_batch=False, certificate=None):
        self.parts = parts
        self.is_batch = is_batch
        self.certificate = certificate


def answer(line):
    """What a line tells that is a whole answer: its name and its words, or nothing."""
    for name, form in ANSWERS.items():
        if found := form.match(line):
            return (name, *found.groups())
    return None


def read_end(lines, part):
    """Reads how the search ended, with the steps of a plan."""
    if found := lines.take(FOUND):
        part.end = ("plan", int(found[1]), int(found[2]))
        if part.generated is None:
            read_steps(lines, part)
    elif ended := lines.take(EXHAUSTED):
        part.end = ("exhausted", int(ended[1]))
    elif lines.take(UNFINISHED):
        part.end = ("unfinished",)
    else:
        lines.fail("it should tell a plan, that the last horizon is refuted, or that the search is unfinished")


def read_steps(lines, part):
    """Reads the steps of a plan with their calls."""
    part.steps = []
    for number in range(1, part.end[1] + 1):
        head = lines.need(STEP, f"it should begin step {number}")
        if int(head[1]) != number:
            lines.at -= 1
            lines.fail(f"it should begin step {number}")
        calls = []
        while call := lines.take(CALL):
            calls.append(call[1].split(" "))
        part.steps.append(calls)
    if sum(map(len, part.steps)) != part.end[2]:
        lines.fail(f"the steps do not have {part.end[2]} actions")


def read_horizons(lines, part):
    """Reads the lines of the horizons, which rise."""
    while line := lines.take(HORIZON):
        if part.horizons and part.horizons[-1][0] >= int(line[1]):
            lines.at -= 1
            lines.fail("the horizons do not rise")
        part.horizons.append((int(line[1]), line[2], int(line[3])))


def check_sums(lines, part):
    """Whether the numbers of a part fit together."""
    if part.generated is None and sum(line[2] for line in part.horizons) != part.spent:
        lines.fail("the conflicts of the horizons do not add up")
    if part.spent > part.budget or (part.end == ("unfinished",) and part.spent != part.budget):
        lines.fail("the conflicts do not fit the budget")
    if part.generated is not None:
        return
    found = [line[0] for line in part.horizons if line[1] == "plan"]
    if part.end[0] == "plan" and found[:1] != [part.end[1]]:
        lines.fail("the plan is not that of the least horizon with one")
    if part.end[0] != "plan" and found:
        lines.fail("a horizon has a plan, and none is told")
    if part.end[0] == "exhausted" and part.horizons[-1:] != [(part.end[1], "refuted", part.horizons[-1][2])]:
        lines.fail("the last horizon is not refuted")


def read_part(lines):
    """Reads the report of one problem: a refusal, a limit, or a search."""
    told = answer(lines.lines[lines.at]) if lines.more() else None
    if told and told[0] in OF_PROBLEM and "plan" not in told and "proof" not in told:
        lines.at += 1
        return Part(told)
    part = Part()
    generated = lines.take(GENERATED)
    part.generated = generated and (generated[1], int(generated[2]))
    read_horizons(lines, part)
    spent = lines.need(CONFLICTS, "it should tell the conflicts")
    part.spent, part.budget = int(spent[1]), int(spent[2])
    read_end(lines, part)
    check_sums(lines, part)
    return part


def read_batch(lines):
    """The parts of a report on several problems, each of which a line numbers."""
    parts = []
    while lines.more():
        head = lines.take(PROBLEM)
        if head is None or int(head[1]) != len(parts) + 1:
            lines.at -= head is not None
            lines.fail(f"it should begin problem {len(parts) + 1}")
        parts.append(read_part(lines))
    if len(parts) > MOST_PARTS:
        raise NoReport(f"it has more than {MOST_PARTS} problems")
    if any(part.generated for part in parts):
        raise NoReport("one of several problems is generated")
    if len({part.budget for part in parts if part.budget is not None}) > 1:
        raise NoReport("the problems have different budgets")
    return Report(parts, is_batch=True)


def read_certificate(lines):
    """Reads a certificate, which ends with the empty clause."""
    horizon = int(lines.need(PROVED, "it should tell a horizon")[1])
    if horizon > 255:
        raise NoReport("line 1: the horizon is over 255")
    entries = lines.lines[1:]
    while lines.more():
        lines.need(ENTRY, "it should be an entry of a certificate")
    if not entries or not LAST.match(entries[-1]):
        lines.fail("its last entry should learn the empty clause")
    return Report([], certificate=Certificate(horizon, entries))


def read_calls(lines):
    """The part that a plan file is: its calls, each a step or parted by comments that begin steps, and its other comments."""
    part, known, at = Part(), None, 0
    part.steps, has_steps = [], any(STEP.match(line) for line in lines.lines)
    for at, line in enumerate(lines.lines):
        call, driver = CALL.match(line.strip()), DRIVER.match(line)
        if call and not has_steps or STEP.match(line):
            part.steps.append([])
        if call and part.steps:
            part.steps[-1].append(call[1].lower().split(" "))
        elif driver:
            known = driver[1]
        elif line.startswith(";") and not STEP.match(line):
            part.notes.append(line.lstrip("; "))
        elif line.strip() and not STEP.match(line):
            lines.at = at
            lines.fail("it should be a call or a comment")
    part.end = ("calls", len(part.steps), sum(map(len, part.steps)), known)
    part.steps = part.steps or None
    return Report([part])


def read_report(text, is_task=False):
    """The report that a text is; of a task that is there, also a plan file."""
    lines = Lines(text)
    is_planners = not lines.lines or PLANNERS.match(lines.lines[0]) or answer(lines.lines[0])
    if not is_planners and (is_task or any(DRIVER.match(it) for it in lines.lines[-2:])):
        return read_calls(lines)
    first = lines.lines[0] if lines.more() else ""
    if PROBLEM.match(first):
        return read_batch(lines)
    if PROVED.match(first):
        return read_certificate(lines)
    told = answer(first) if len(lines.lines) == 1 else None
    if told:
        return Report([Part(told)])
    part = read_part(lines)
    if lines.more():
        lines.fail("there is more than one report")
    return Report([part])
