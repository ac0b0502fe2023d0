"""Reads two files, takes costs away, rewrites what the fragment does not take, and gives calls back."""
import os
import re
import sys

sys.path.append(os.path.dirname(os.path.dirname(os.path.abspath(__file__))))
import evaluate
import write
from pddl import File, Kinds
from rewrite import REACHED, Rewritten
from task import Refused, Task
from without_costs import Costs


class Plain:
    """Two files as they are, and what stands for them in the fragment. `told` has a line for each thing that was rewritten."""

    def __init__(self, domain, problem):
        files = File(domain), File(problem)
        self.told, self.costs = [], None
        self.leave_out_times(files[1])
        if files[0].sections(":functions") or files[1].sections(":metric"):
            self.costs = Costs(*files)
            self.told += [line.replace("took away ", "costs: ", 1) for line in self.costs.told()]
            for file in files:
                file.replace(self.costs.left(file))
        self.task = Task(*files)
        self.told += self.task.told
        self.texts = files[0].text, files[1].text
        self.rewritten = None
        if self.task.told:
            self.rewritten = Rewritten(self.task)
            self.texts = write.texts(self.task, self.rewritten)

    def leave_out_times(self, problem):
        """Leaves the metric of the time out, as domains without times were published with it: which plan is a plan does not rest on it."""
        for section in problem.sections(":metric"):
            if section.text() == "(:metric minimize (total-time))":
                self.told.append(f"{problem.place(section.at)}: metric")
                blanks = re.sub(r"[^\n]", " ", problem.text[section.at : section.end])
                problem.replace(problem.text[: section.at] + blanks + problem.text[section.end :])

    def is_longer(self):
        """Whether an auxiliary call reaches the goal of the rewritten files."""
        return self.rewritten is not None and self.rewritten.goal == [(True, (REACHED,))]

    def has_auxiliaries(self):
        """Whether plans of the rewritten files have auxiliary calls before others, of no number that is known."""
        return self.rewritten is not None and bool(self.rewritten.auxiliaries)

    def back(self, calls):
        """Calls of the rewritten files as calls of the files, and why these are no plan, or None."""
        given = self.rewritten.given_back(calls) if self.rewritten else calls
        return given, evaluate.fault_of(self.task, given, self.lacking if self.costs else None)

    def lacking(self, name, names):
        """The first function of the cost of a call that has no value, or None."""
        kinds = Kinds(self.task.domain, self.task.problem)
        for by, action, scope in self.costs.increases:
            if by.word is not None or action.items[1].word != name:
                continue
            inner = [(it.word, kind) for it, kind in scope[len(names):]]
            for objects in product(kinds, inner):
                here = {**names, **dict(zip((it for it, _ in inner), objects))}
                value = f"({' '.join([by.head(), *[here.get(it.word, it.word) for it in by.items[1:]]])})"
                if value not in self.costs.values:
                    return value
        return None


def product(kinds, inner):
    """The objects that the variables of `forall` may stand for."""
    import itertools
    return itertools.product(*(kinds.fitting(kind) for _, kind in inner))


__all__ = ["Plain", "Refused"]
