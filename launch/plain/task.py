"""A task of PDDL with the conditions of ADL, as it is written: types, objects, predicates, actions, initial state and goal.

A condition is a tuple: ("atom", name, argument..), ("not", it), ("and", it..), ("or", it..), ("forall", variables, it) or
("exists", variables, it); `=` is a name of an atom. Variables are pairs of a name and a set of types."""
import collections

from pddl import keys

# An effect: the variables over which it goes, the condition under which it comes, the atom, and whether it is added.
Effect = collections.namedtuple("Effect", "variables condition atom adds")
Action = collections.namedtuple("Action", "name variables condition effects")

TRUE = ("and",)
FACTS, ACTIONS = "actions can add and delete these facts", "an :action without times says what comes before and after"
LEFT_OUT = {":derived": ("derived predicates", FACTS), ":axiom": ("derived predicates", FACTS), ":durative-action": ("actions that take time", ACTIONS),
            ":constraints": ("constraints", "without them a plan may break them"), ":process": ("processes", ACTIONS), ":event": ("events", ACTIONS)}


class Refused(Exception):
    """What can not be rewritten, with its place."""

    def __init__(self, file, tree, why):
        super().__init__(f"{file.place(tree.at)}: {why}")


def typed(items):
    """The words of a typed list, each with the set of its types; `object` where none is told."""
    pairs, waiting, at = [], [], 0
    while at < len(items):
        if items[at].word == "-" and at + 1 < len(items):
            kind = items[at + 1]
            kinds = {it.word for it in kind.items[1:]} if kind.head() == "either" else {kind.text()}
            pairs += [(it.word, frozenset(kinds)) for it in waiting]
            waiting, at = [], at + 2
        else:
            waiting.append(items[at])
            at += 1
    return pairs + [(it.word, frozenset({"object"})) for it in waiting]


class Task:
    """What both files say. `told` has a line for each thing that is to be rewritten."""

    def __init__(self, domain, problem):
        self.domain, self.problem, self.told, self.found = domain, problem, [], {}
        for file in (domain, problem):
            for section in file.tree.items[2:]:
                if section.head() in LEFT_OUT:
                    raise Refused(file, section, "{} are not rewritten: {}".format(*LEFT_OUT[section.head()]))
        self.read_types()
        self.constants = self.read_objects(domain, ":constants", {})
        self.objects = self.read_objects(problem, ":objects", self.constants)
        self.predicates = {it.head(): typed(it.items[1:]) for section in domain.sections(":predicates") for it in section.items[1:]}
        for section in domain.sections(":predicates"):
            for it in section.items[1:]:
                self.note_either(domain, it)
        self.actions = [self.read_action(it) for it in domain.sections(":action")]
        self.init = {tuple(word.word for word in it.items) for section in problem.sections(":init") for it in section.items[1:]
                     if it.head() != "not"}
        goals = problem.sections(":goal")
        self.goal = self.read_condition(problem, goals[0].items[1], True) if goals else TRUE

    def note(self, file, tree, what):
        """Something has to be rewritten."""
        self.told.append(f"{file.place(tree.at)}: {what}")

    def note_either(self, file, tree):
        """The types of a typed list that are several."""
        for it in tree.items or []:
            if it.head() == "either":
                self.note(file, it, "either")

    def read_types(self):
        """The types that stand above each."""
        self.above = {}
        for section in self.domain.sections(":types"):
            self.note_either(self.domain, section)
            seen = set()
            for word, kinds in typed(section.items[1:]):
                if word in self.above and word in seen:
                    self.note(self.domain, section, f"type {word} is declared twice")
                seen.add(word)
                self.above.setdefault(word, set()).update(kinds)

    def read_objects(self, file, head, others):
        """Objects with their types, and the other ones: one that is declared twice is of all types that are told of it."""
        found = {word: set(kinds) for word, kinds in others.items()}
        for section in file.sections(head):
            self.note_either(file, section)
            for word, kinds in typed(section.items[1:]):
                if word in found:
                    self.note(file, section, f"object {word} is declared twice")
                found.setdefault(word, set()).update(kinds)
        return found

    def kinds_above(self, kind):
        """A type with all that stand above it."""
        found, left = {"object"}, [kind]
        while left:
            it = left.pop()
            if it not in found:
                found.add(it)
                left += self.above.get(it, ())
        return found

    def fitting(self, kinds):
        """The objects that are of one of these types."""
        if kinds not in self.found:
            self.found[kinds] = [name for name, its in self.objects.items() if any(kinds & self.kinds_above(it) for it in its)]
        return self.found[kinds]

    def read_action(self, section):
        """One action."""
        parts = keys(section)
        parameters = parts.get(":parameters")
        if parameters is not None:
            self.note_either(self.domain, parameters)
        variables = typed(parameters.items) if parameters is not None else []
        condition = self.read_condition(self.domain, parts[":precondition"]) if ":precondition" in parts else TRUE
        effects = list(self.read_effect(parts.get(":effect"), (), TRUE)) if ":effect" in parts else []
        return Action(section.items[1].word, variables, condition, effects)

    def read_condition(self, file, tree, is_goal=False, under_not=False):
        """A condition."""
        head, rest = tree.head(), tree.items[1:] if tree.items else []
        if not tree.items:
            return TRUE
        if head == "preference":
            raise Refused(file, tree, "preferences are not rewritten")
        if under_not and head in ("and", "not") or head in ("or", "imply", "exists", "forall"):
            self.note(file, tree, f"not over {head}" if under_not else head)
        if head == "and" or head == "or":
            return (head, *[self.read_condition(file, it) for it in rest])
        if head == "not":
            return ("not", self.read_condition(file, rest[0], under_not=True))
        if head == "imply":
            return ("or", ("not", self.read_condition(file, rest[0])), self.read_condition(file, rest[1]))
        if head in ("forall", "exists"):
            return (head, tuple(typed(rest[0].items)), self.read_condition(file, rest[1]))
        if any(it.word is None for it in tree.items):
            raise Refused(file, tree, f"'{head}' is not rewritten")
        return ("atom", *[it.word for it in tree.items])

    def read_effect(self, tree, variables, condition):
        """The effects of an action, one for each atom."""
        if tree is None or not tree.items:
            return
        head, rest = tree.head(), tree.items[1:]
        if head == "and":
            for it in rest:
                yield from self.read_effect(it, variables, condition)
        elif head == "forall":
            self.note_either(self.domain, rest[0])
            if condition != TRUE:
                self.note(self.domain, tree, "forall under when")
            yield from self.read_effect(rest[1], (*variables, *typed(rest[0].items)), condition)
        elif head == "when":
            if condition != TRUE:
                self.note(self.domain, tree, "when under when")
            more = self.read_condition(self.domain, rest[0])
            yield from self.read_effect(rest[1], variables, more if condition == TRUE else ("and", condition, more))
        elif head == "not":
            yield Effect(variables, condition, tuple(it.word for it in rest[0].items), False)
        else:
            if any(it.word is None for it in tree.items):
                raise Refused(self.domain, tree, f"'{head}' is not rewritten")
            yield Effect(variables, condition, tuple(it.word for it in tree.items), True)
