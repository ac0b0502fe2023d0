"""What each step of a plan makes true and false, as the planner's command check says of the beginnings of the plan.

For the calls of a step the atoms that their effects can name are put together, whatever their conditions. Of these, check
tells which hold before the step and which after it: it is called on the beginning of the plan and on the problem with another
goal, which asks for some of them to hold and for others not to. Which are expected to hold is guessed from the effects, so
that one call is mostly enough; what the page shows is what check answered.
"""
import hashlib
import itertools
import os
import pathlib
import subprocess
import tempfile

from pddl import Action, File, Kinds, NoTree


class NoTask(Exception):
    """Why a report is not one of a task."""


class NoPlanner(Exception):
    """Why the planner does not run."""


class Task:
    """A domain and a problem, of which the plan is asked about in a folder of its own."""

    def __init__(self, words, room, launcher):
        self.words = words
        self.room = pathlib.Path(room)
        self.launcher = launcher
        self.sums = [hashlib.sha256(pathlib.Path(it).read_bytes()).hexdigest() for it in words]
        self.ready = False

    def begin(self):
        """Reads both files, which a report of a plan says are a task."""
        try:
            domain, self.problem = map(File, self.words)
            self.kinds = Kinds(domain, self.problem)
            self.actions = {it.items[1].word: Action(it) for it in domain.sections(":action")}
            self.goal = self.problem.sections(":goal")[0]
        except (NoTree, IndexError, TypeError, AttributeError, KeyError) as fault:
            raise NoTask("the files are none of which a plan can be printed") from fault
        self.ready = True

    def asked(self, calls, problem):
        """What check answers of some calls and a problem: whether the goal is reached."""
        front = self.room / "front"
        front.write_text("".join(f"({' '.join(call)})\n" for call in calls))
        words = [self.launcher, "check", self.words[0], problem, str(front)]
        try:
            ran = subprocess.run(words, capture_output=True, text=True, check=False)
        except OSError as fault:
            raise NoPlanner(str(fault)) from fault
        if ran.returncode == 70:
            raise NoPlanner(ran.stderr.strip())
        if ran.stdout not in ("; reaches the goal\n", "; goal not reached\n"):
            told = ran.stdout.strip() or f"status {ran.returncode}"
            raise NoTask(f"check says of the first {len(calls)} calls: {told}")
        return ran.returncode == 0

    def is_plan(self, steps):
        """Whether the calls are a plan of this task."""
        if not self.ready:
            self.begin()
        return self.asked(list(itertools.chain(*steps)), self.words[1])

    def holds(self, calls, wanted):
        """Whether each of these atoms holds after these calls, or does not, as it is wanted."""
        goal = "".join(f" {atom}" if holds else f" (not {atom})" for atom, holds in wanted.items())
        text = self.problem.text
        changed = f"{text[: self.goal.at]}(:goal (and{goal})){text[self.goal.end :]}"
        path = self.room / "problem"
        path.write_bytes(changed.encode("latin-1"))
        return self.asked(calls, str(path))

    def values(self, calls, expected):
        """Which of these atoms hold after these calls, where some are expected to: a half at a time where it is otherwise."""
        if not expected or self.holds(calls, expected):
            return expected
        if len(expected) == 1:
            return {atom: not holds for atom, holds in expected.items()}
        pairs = list(expected.items())
        half = len(pairs) // 2
        return {**self.values(calls, dict(pairs[:half])), **self.values(calls, dict(pairs[half:]))}

    def expected(self, call, guess):
        """The atoms that effects of a call can name, each with whether it should hold after it, where a guess holds before."""
        action = self.actions[call[0]]
        stands = dict(zip((it.word for it, _ in action.parameters), call[1:]))
        told = {}
        for literal in action.deletes + action.adds:
            free = {name: kind for it in reversed(literal.scope.maps[:-1]) for name, kind in it.items()}
            for objects in itertools.product(*(self.kinds.fitting(kind) for kind in free.values())):
                here = {**stands, **dict(zip(free, objects))}
                text = instance(literal.atom, here)
                told.setdefault(text, text in guess)
                if all((instance(it.atom, here) in guess) == it.wanted for it in literal.under if it.atom.head() != "="):
                    told[text] = literal.wanted
        return told

    def changes(self, steps):
        """For each step the atoms that it makes true and those that it makes false, each list in order."""
        before, told = [], []
        guess = {it.text() for section in self.problem.sections(":init") for it in section.items[1:]}
        for calls in steps:
            expected = {}
            for call in calls:
                for atom, holds in self.expected(call, guess).items():
                    expected[atom] = holds if holds != (atom in guess) else expected.get(atom, holds)
            after = self.values(before + calls, expected)
            first = self.values(before, {atom: atom in guess for atom in after})
            before = before + calls
            guess = guess - set(after) | {atom for atom, holds in after.items() if holds}
            told.append(tuple(sorted(it for it in after if after[it] == holds != first[it]) for holds in (True, False)))
        return told


def instance(atom, stands):
    """An atom with objects for its variables, as a text."""
    return "(" + " ".join([atom.head()] + [stands.get(it.word, it.word) for it in atom.items[1:]]) + ")"


def asked(words, report):
    """The sums of a domain and a problem and, where a report has a plan, what each of its steps changes."""
    launcher = os.environ.get("DOKYREVA_PROGRAM") or str(pathlib.Path(__file__).resolve().parent.parent.parent / "dokyreva")
    with tempfile.TemporaryDirectory() as room:
        task = Task(words, room, launcher)
        part = report.parts[0] if report.parts else None
        if part is None or part.steps is None:
            return task.sums, None
        if not task.is_plan(part.steps):
            raise NoTask("check says that these calls do not reach the goal")
        return task.sums, task.changes(part.steps)
