#!/usr/bin/env python3
"""lint.py [--quiet] DOMAIN PROBLEM, run by dokyreva as its command lint

Warns of what the planner takes as it stands though its writer hardly meant it: an answer "no plan" is right of such files too.
The variable DOKYREVA_PROGRAM is the path of the planner, whose `ground` tells what can be reached. Each warning is a line
`path:line:column: warning: ..` on standard output, those of the domain first, and then how many there are.

Warned of are: a problem of another domain; an object that stands twice; an atom in :init or :goal whose objects have other
types than its predicate declares, and one in an action whose terms no object can fit; an empty :goal; a goal that no action
can make true; an action that can never be executed; a predicate that is never used, or that is asked for and never true; an
effect that adds and deletes one atom; a parameter that nothing uses; a requirement that there is nowhere in PDDL. A missing :goal is a refusal, of which a warning is printed too. Past a limit of the planner what is reached is not known, and
only what the texts tell is warned of.

PDDL that plan does not take and that solve and plain rewrite is warned of too, with its places; of such files, but for costs, that is
all, and what their names tell.

Statuses: 0 no warning; 1 some; 3, 5 the planner refuses a file or cannot read it, and its line is printed; 4 a file is too
long; 7 the words are not taken; 70 the planner does not run. With --quiet only warnings are printed, and the status is 0.
"""
import os
import pathlib
import sys
import tempfile

sys.dont_write_bytecode = True
from messages.text import called, meant
from pddl import Action, File, Ground, Kinds, Literal, NoTree, listed, literals, typed


REQUIREMENTS = frozenset(
    ":strips :typing :negative-preconditions :disjunctive-preconditions :equality :existential-preconditions "
    ":universal-preconditions :quantified-preconditions :conditional-effects :fluents :numeric-fluents :object-fluents :adl "
    ":durative-actions :duration-inequalities :continuous-effects :derived-predicates :timed-initial-literals :preferences "
    ":constraints :action-costs :goal-utilities".split()
)
NEVER = f"the goal is never reached, as {called('never')} can show"


class Task(Kinds):
    """What a domain and a problem say, with the places."""

    def __init__(self, domain, problem):
        super().__init__(domain, problem)
        self.domain, self.problem = domain, problem
        self.predicates = {
            it.head(): (it.items[0], [kind for _, kind in typed(it.items[1:])])
            for section in domain.sections(":predicates")
            for it in section.items[1:]
        }
        self.actions = [Action(it) for it in domain.sections(":action")]
        self.init = [it for section in problem.sections(":init") for it in section.items[1:] if it.head() != "not"]
        self.goals = problem.sections(":goal")
        self.goal = list(literals(self.goals[0].items[1], {})) if self.goals else []


def of_names(task):
    """Warnings of names: another domain, an object that stands twice."""
    meant = [it.items[1] for it in task.problem.sections(":domain")]
    name = task.domain.name().word
    if not meant:
        yield task.problem, task.problem.tree.at, f"the problem names no :domain; it is taken as one of {name}"
    for it in meant:
        if it.word != name:
            yield task.problem, it.at, f"the problem is one of the domain {it.word}, and the domain's name is {name}"
    seen = set()
    for file, head in ((task.domain, ":constants"), (task.problem, ":objects")):
        for it, _ in listed(file, head):
            if it.word in seen:
                yield file, it.at, f"the object {it.word} stands twice"
            seen.add(it.word)


def of_types(task):
    """Warnings of atoms whose terms do not fit what their predicate declares."""
    outside = [Literal(it, True, {}) for it in task.init] + task.goal
    inside = [it for action in task.actions for it in action.conditions + action.adds + action.deletes]
    for file, uses in ((task.problem, outside), (task.domain, inside)):
        for atom, _, scope, _ in uses:
            if atom.head() == "=":
                continue
            kinds = task.predicates[atom.head()][1]
            for term, declared in zip(atom.items[1:], kinds):
                kind = scope.get(term.word) or task.objects.get(term.word, "object")
                fits = task.is_under(kind, declared) or (term.word in scope and task.is_under(declared, kind))
                if not fits:
                    why = f"{term.word} has the type {kind}, and {atom.head()} declares {declared}"
                    yield file, term.at, f"{atom.text()}: {why}"


def of_goal(task, ground):
    """Warnings of goals: none, or one that cannot come true."""
    if not task.goal:
        yield task.problem, task.goals[0].at, "the :goal is empty: every state is one"
    first = {it.text() for it in task.init}
    added = {it.atom.head() for action in task.actions for it in action.adds}
    deleted = {it.atom.head() for action in task.actions for it in action.deletes}
    for atom, wanted, *_ in task.goal:
        if atom.head() == "=":
            if (atom.items[1].word == atom.items[2].word) != wanted:
                yield task.problem, atom.at, f"the goal {atom.text()} is never as it is wanted"
            continue
        if (atom.text() in first) == wanted:
            continue
        word = "adds" if wanted else "deletes"
        if atom.head() not in (added if wanted else deleted):
            yield task.problem, atom.at, f"no action {word} {atom.text()}: {NEVER}"
        elif ground.is_known and atom.text() not in ground.facts:
            yield task.problem, atom.at, f"no action that can be executed {word} {atom.text()}: {NEVER}"


def held(task):
    """The predicates that are true of something at first or by an action."""
    return {it.head() for it in task.init} | {it.atom.head() for action in task.actions for it in action.adds}


def why_never(task, action, true):
    """Why an action can never be executed, where one of its parts tells it, else nothing; with the predicates that are held."""
    for it, kind in action.parameters:
        if not task.has_object(kind):
            return f"there is no object of the type {kind} for {it.word}"
    for atom, wanted, *_ in action.before:
        if wanted and atom.head() not in true and atom.head() != "=":
            return f"nothing makes {atom.text()} true"
    return None


def of_actions(task, ground):
    """Warnings of actions that can never be executed, and of predicates that do nothing."""
    executed = {call[0] for call in ground.calls}
    true = held(task)
    for action in task.actions:
        why = why_never(task, action, true)
        if why or (ground.is_known and action.name.word not in executed):
            because = f": {why}" if why else ""
            yield task.domain, action.name.at, f"the action {action.name.word} can never be executed in this problem{because}"
    asked = {it.atom.head() for action in task.actions for it in action.conditions if it.wanted}
    used = {it.atom.head() for action in task.actions for it in action.conditions + action.adds + action.deletes}
    wanted = {it.atom.head() for it in task.goal}
    for name, (at, _) in task.predicates.items():
        if name not in used and name not in wanted:
            yield task.domain, at.at, f"the predicate {name} stands in no action and not in the goal"
        elif name in asked and name not in true:
            why = "it is not in :init, and no action adds it"
            yield task.domain, at.at, f"the predicate {name} is asked for, and never true: {why}"


def of_requirements(task):
    """Warnings of requirements that are misspelt."""
    for file in (task.domain, task.problem):
        for it in (word for section in file.sections(":requirements") for word in section.words()[1:]):
            if it.word not in REQUIREMENTS:
                yield file, it.at, f"PDDL has no requirement {it.word}{meant(it.word, REQUIREMENTS, 'did you mean {}?')}"


def of_effects(task):
    """Warnings of effects that add and delete one atom, and of parameters that nothing uses."""
    for action in task.actions:
        gone = {kind_of(it) for it in action.deletes}
        for it in action.adds:
            if kind_of(it) in gone:
                yield task.domain, it.atom.at, f"the action {action.name.word} deletes and adds {it.atom.text()}: it is true then"
        used = {term.word for it in action.conditions + action.adds + action.deletes for term in it.atom.items[1:]}
        for it, _ in action.parameters:
            if it.word not in used:
                yield task.domain, it.at, f"nothing uses the parameter {it.word} of {action.name.word}: each object makes another call"


def kind_of(effect):
    """What an effect is about: its atom, the variables of its forall, and its conditions."""
    inner = tuple(sorted((name, kind) for it in effect.scope.maps[:-1] for name, kind in it.items()))
    return effect.atom.text(), inner, tuple((it.atom.text(), it.wanted) for it in effect.under)


def warnings(task, ground):
    """All warnings as lines, by file and place."""
    return as_lines(task, [*of_names(task), *of_types(task), *of_goal(task, ground), *of_actions(task, ground), *of_effects(task),
                           *of_requirements(task)])


def as_lines(task, found):
    """Warnings as lines, by file and place."""
    found.sort(key=lambda it: (it[0] is task.problem, it[1]))
    return [f"{file.place(at)}: warning: {text}" for file, at, text in found]


def of_rewritten(words):
    """The warnings of files that the planner does not take, but that can be rewritten; None where they cannot."""
    sys.path.append(os.path.join(os.path.dirname(os.path.abspath(__file__)), "plain"))
    from plainly import Plain, Refused
    from rewrite import TooMany
    from without_costs import OtherForm
    try:
        it = Plain(*words)
    except (Refused, OtherForm, TooMany, NoTree, OSError, LookupError, AttributeError):
        return None
    kinds = {}
    for line in it.told:
        place, what, *_ = line.split(": ")
        kinds.setdefault(what, []).append(place)
    lines = [f"{where[0]}: warning: plan does not take this ({what}{f', {len(where)} places' if len(where) > 1 else ''}): "
             f"{called('solve')} and {called('plain')} rewrite it" for what, where in kinds.items()]
    files = list(map(File, words))
    if it.rewritten is not None:
        return lines + as_lines(Names(*files), [*of_names(Names(*files)), *of_requirements(Names(*files))]) if it.told else None
    with tempfile.TemporaryDirectory() as room:
        paths = [os.path.join(room, name) for name in ("domain", "problem")]
        for path, file, text in zip(paths, files, it.texts):
            pathlib.Path(path).write_bytes(text.encode("latin-1"))
            file.replace(text)
        ground = Ground(*paths)
    return lines + warnings(Task(*files), ground) if it.told and ground.status in (0, 4) else None


class Names:
    """The names of two files, without what stands in actions and in the goal."""

    def __init__(self, domain, problem):
        self.domain, self.problem = domain, problem


def of_refused(ground, problem):
    """The warning of a problem without a :goal, where the planner refuses it for that."""
    try:
        file = File(problem) if ground.text.startswith("; refused shape problem ") else None
    except NoTree:
        file = None
    if file and not file.sections(":goal") and ground.text.split()[-1] == str(file.tree.at):
        print(f"{file.place(file.tree.at)}: warning: the :goal is missing")


def main(words):
    """Prints the warnings; answers the exit status."""
    is_quiet = words[:1] == ["--quiet"]
    words = words[is_quiet:]
    if len(words) != 2:
        print("lint: the words are: DOMAIN PROBLEM", file=sys.stderr)
        return 7
    try:
        ground = Ground(*words)
    except OSError as fault:
        print(f"lint: the planner does not run: {fault}", file=sys.stderr)
        return 0 if is_quiet else 70
    lines = of_rewritten(words) if ground.text.startswith(("; refused unsupported ", "; refused duplicate ")) and not is_quiet else None
    if lines is None and (ground.status not in (0, 4) or ground.text.startswith("; limit file ")):
        of_refused(ground, words[1])
        if is_quiet:
            return 0
        ground.tell()
        return ground.status
    lines = warnings(Task(*map(File, words)), ground) if lines is None else lines
    for line in lines:
        print(line)
    if is_quiet:
        return 0
    print(f"{len(lines)} warning{'' if len(lines) == 1 else 's'}")
    return 1 if lines else 0


if __name__ == "__main__":
    sys.exit(main(sys.argv[1:]))
