"""What a report of plan says is known, in one sentence; and the command to try next."""
import re
import shlex

HORIZON = re.compile(r"; horizon ([0-9]+) (refuted|plan|open|dropped) conflicts ([0-9]+)\Z")
SPENT = re.compile(r"; conflicts ([0-9]+) of ([0-9]+)\Z")
FOUND = re.compile(r"; plan of ([0-9]+) steps with ([0-9]+) actions\Z")
GROWING = (250, 1000, 4000, 16000, 64000, 256000)


class Known:
    """The greatest refuted horizon of a report, the least one with a plan, those that are open, and the conflicts."""

    def __init__(self, report):
        self.refuted, self.plan, self.open, self.spent, self.steps = -1, None, [], None, None
        for line in report.splitlines():
            found = HORIZON.match(line)
            if found and found[2] == "refuted":
                self.refuted = max(self.refuted, int(found[1]))
            elif found and found[2] == "plan":
                self.plan = min(self.plan or 256, int(found[1]))
            elif found and found[2] == "open":
                self.open.append(int(found[1]))
            found = SPENT.match(line)
            self.spent = int(found[1]) if found else self.spent
            found = FOUND.match(line)
            self.steps = int(found[1]) if found else self.steps

    def told(self):
        """What is known, in words; nothing where nothing is."""
        parts = []
        if self.refuted >= 0:
            parts.append(f"horizon {self.refuted} is refuted, so no plan has at most {self.refuted} actions or steps")
        if self.steps is not None:
            parts.append(f"there is a plan of {self.steps} steps")
        elif self.plan is not None:
            parts.append(f"there is a plan of at most {self.plan} steps")
        undecided = [it for it in self.open if it > self.refuted]
        if undecided and self.plan is None:
            span = f"{undecided[0]} to {undecided[-1]}" if len(undecided) > 1 else f"{undecided[0]}"
            parts.append(f"horizon{'s' if len(undecided) > 1 else ''} {span} {'are' if len(undecided) > 1 else 'is'} open")
        return ", ".join(parts)


def without(words, *names):
    """Words without these options."""
    left, at = [], 0
    while at < len(words):
        if words[at] == "--":
            return left + words[at:]
        name = words[at].partition("=")[0]
        if name not in names:
            left.append(words[at])
        elif "=" not in words[at]:
            at += 1
        at += 1
    return left


def value_of(words, name, default):
    """What stands for an option among words."""
    for at, word in enumerate(words):
        if word == "--":
            break
        if word == name and at + 1 < len(words):
            return words[at + 1]
        if word.startswith(name + "="):
            return word[len(name) + 1 :]
    return default


def joined(words):
    """Words as a shell takes them."""
    return " ".join(map(shlex.quote, words))


def next_command(called, has_solve, command, words, files, status, horizon=None):
    """The command to try after a report that has not decided; horizon is the one whose formula is past the limit."""
    if has_solve and command in ("plan", "search") and len(files) == 2:
        return f"next: {called} solve {joined(files)}   goes on until there is an answer"
    if command in ("never", "never-search"):
        tool = "./never-by" if called.startswith("./") else "never-by"
        return f"next: {tool} all {joined(files)}   searches for a certificate"
    if command == "search":
        more = without(words, "--states", "--memory") + ["--memory", str(min(1048576, 4 * int(value_of(words, "--memory", "1024"))))]
        return f"next: {called} {joined([command, *more])}   enters more states"
    budget, last = value_of(words, "--budget", "100000"), value_of(words, "--max-horizon", "64")
    if horizon is not None:
        if not horizon:
            return ""
        more = without(words, "--max-horizon") + ["--max-horizon", str(horizon - 1)]
        return f"next: {called} {joined([command, *more])}   ends before that limit"
    if status == 1 and last.isdigit() and int(last) < 255:
        more = without(words, "--max-horizon") + ["--max-horizon", str(min(255, max(16, 2 * int(last))))]
        return f"next: {called} {joined([command, *more])}   looks for longer plans"
    if status in (2, 124) and value_of(words, "--alg", "a") != "c":
        more = without(words, "--alg", "--quota", "--percent") + ["--alg", "c"]
        return f"next: {called} {joined([command, *more])}   often finds a plan sooner, with growing horizons"
    if status == 2 and budget.isdigit() and int(budget) < 1000000:
        more = without(words, "--budget") + ["--budget", str(min(1000000, 10 * int(budget)))]
        return f"next: {called} {joined([command, *more])}   searches ten times as long"
    return ""
