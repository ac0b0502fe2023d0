"""Why the calls of a plan are none: which literal of which precondition is false at which call, which goals are not reached, and
which call made each false last. It is worked out here, from the files, and told only where it agrees with the planner's answer."""
import itertools
import re

from messages.fault import calls_of
from messages.text import say, tell
from pddl import Action, Kinds, literals

BLOCKED = re.compile(r"; blocked at action ([0-9]+)\Z")


class Run:
    """The states that calls lead through: the atoms that hold, and the call that made each true or false last, from 1."""

    def __init__(self, files):
        self.domain, self.problem, self.plan = (files.get(it) for it in ("domain", "problem", "plan"))
        self.kinds = Kinds(self.domain, self.problem)
        self.actions = {it.items[1].word: Action(it) for it in self.domain.sections(":action")}
        self.calls = calls_of(self.plan.text).items
        self.state = {it.text() for section in self.problem.sections(":init") for it in section.items[1:] if it.head() != "not"}
        self.changed = {}

    def bound(self, call):
        """The objects that stand for the parameters in a call."""
        parameters = self.actions[call.head()].parameters
        return {it.word: term.word for (it, _), term in zip(parameters, call.items[1:])}

    def holds(self, literal, bound):
        """Whether a literal is as it is wanted, with objects for its variables."""
        atom, words = literal.atom, [bound.get(it.word, it.word) for it in literal.atom.items[1:]]
        if atom.head() == "=":
            return (words[0] == words[1]) == literal.wanted
        return (atom_text(atom, bound) in self.state) == literal.wanted

    def false_ones(self, call):
        """The literals of the precondition of a call that are false."""
        bound = self.bound(call)
        return [(it, atom_text(it.atom, bound)) for it in self.actions[call.head()].before if not self.holds(it, bound)]

    def execute(self, number):
        """Makes the call with this number, from 1, true and false what its effects say."""
        call = self.calls[number - 1]
        action, bound = self.actions[call.head()], self.bound(call)
        gone = {it for effect in action.deletes for it in self.named(effect, bound)}
        come = {it for effect in action.adds for it in self.named(effect, bound)}
        for atom in (gone - come) & self.state | come - self.state:
            self.changed[atom] = number
        self.state = self.state - gone | come

    def named(self, effect, bound):
        """The atoms that an effect names in this state, for all objects of its forall."""
        inner = [pair for scope in effect.scope.maps[:-1] for pair in scope.items()]
        for objects in itertools.product(*(self.kinds.fitting(kind) for _, kind in inner)):
            stands = {**bound, **{name: it for (name, _), it in zip(inner, objects)}}
            if all(self.holds(it, stands) for it in effect.under):
                yield atom_text(effect.atom, stands)

    def last(self, atom, wanted):
        """Which call made an atom other than it is wanted."""
        if atom not in self.changed:
            return "it is so from the beginning" if not wanted else "no call before makes it true"
        number = self.changed[atom]
        line = self.plan.place(self.calls[number - 1].at)[0]
        return f"call {number}, {self.calls[number - 1].text()} in line {line}, made it {'false' if wanted else 'true'} last"


def atom_text(atom, bound):
    """An atom with objects for its variables."""
    return "(" + " ".join([atom.head(), *(bound.get(it.word, it.word) for it in atom.items[1:])]) + ")"


def told(atom, wanted):
    """A literal that is not as it is wanted."""
    return f"{atom} is false" if wanted else f"{atom} is true, and has to be false"


def tell_advice(files, line):
    """Tells why the calls are no plan, after the planner's line. Whether that agrees with what is worked out here."""
    run = Run(files)
    found = BLOCKED.match(line)
    end = int(found[1]) - 1 if found else len(run.calls)
    for number in range(1, end + 1):
        if run.false_ones(run.calls[number - 1]):
            return False
        run.execute(number)
    return tell_blocked(run, end + 1) if found else tell_goals(run)


def tell_blocked(run, number):
    """The call that cannot be executed, and the literals of its precondition that are false."""
    call = run.calls[number - 1]
    false = run.false_ones(call)
    for literal, atom in false:
        why = "" if literal.atom.head() == "=" else ": " + run.last(atom, literal.wanted)
        tell(run.plan, call.at, "blocked", f"call {number}, {call.text()}, cannot be executed, since {told(atom, literal.wanted)}{why}")
        tell(run.domain, literal.atom.at, "note", "its precondition asks for that here")
    return bool(false)


def tell_goals(run):
    """The goals that are not reached after the last call."""
    goal = run.problem.sections(":goal")[0].items[1]
    missed = [(it, atom_text(it.atom, {})) for it in literals(goal, {}) if not run.holds(it, {})]
    for literal, atom in missed:
        why = "" if literal.atom.head() == "=" else ": " + run.last(atom, literal.wanted)
        tell(run.problem, literal.atom.at, "goal", f"{told(atom, literal.wanted)} after the last call{why}")
    if missed and len(run.calls) == 0:
        say("dokyreva: the plan has no calls")
    return bool(missed)
