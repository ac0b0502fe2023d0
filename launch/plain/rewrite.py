"""Rewrites a task into the fragment that the planner takes: conditions that are conjunctions of literals, and types in a tree.

`or` makes several actions of one, `exists` a parameter, `forall` a conjunction over the objects; in conditions of effects several
`when`, and variables of `forall`. Where that is less, an action is rewritten for each object of some parameters: then what is known of them
by static predicates needs no alternatives. Where there would still be too many, a part of a condition becomes an auxiliary fact, which an
auxiliary action adds where the part holds, and which each action deletes that may change it. A goal that is no conjunction is reached by an
auxiliary action."""
import itertools
import math
import typing

from evaluate import instances
from task import Action, Effect

# Alternatives of a condition that may be, without and with auxiliary facts; instances of an action or of a quantifier.
MOST, MOST_WITH_HELP = 512, 16
MOST_INSTANCES = 4096
REACHED = "the-goal-is-reached"


class TooMany(Exception):
    """There are more alternatives than may be."""


class Place(typing.NamedTuple):
    """Where a condition stands: the types of the variables, what stands for them, whether auxiliary facts may be made, and for a condition
    of an effect the facts that have to be known before (else None)."""

    kinds: dict
    names: dict
    may_help: bool = False
    needs: list | None = None

    def within(self, variables, names):
        """The place under a quantifier, with what stands for its variables."""
        return self._replace(kinds={**self.kinds, **dict(variables)}, names={**self.names, **names})


class Version(typing.NamedTuple):
    """One way to rewrite an action: the parameters that stay, the objects of the others, the alternatives of the condition, the effects."""

    variables: list
    fixed: dict
    alternatives: list
    effects: list


class Rewritten:
    """The actions, the goal and the types of a task in the fragment, and how calls are given back."""

    def __init__(self, task):
        self.task, self.uses_objects, self.new_kinds = task, False, {}
        self.fluents = {it.atom[0] for action in task.actions for it in action.effects}
        self.tree_of_types()
        self.guards, self.names, self.back, self.actions = {}, {it.name for it in task.actions}, {}, []
        self.auxiliaries, self.deletes, self.predicates = {}, [], set(task.predicates)
        for action in task.actions:
            self.rewrite_action(action)
        self.rewrite_goal()
        self.delete_auxiliaries()

    def fresh(self, name, taken):
        """A name that is not taken, which is taken now."""
        for number in itertools.count(1):
            if (new := f"{name}--{number}") not in taken:
                taken.add(new)
                return new

    def tree_of_types(self):
        """One type above each: the first of those that are under no other one of them."""
        task, self.parents = self.task, {}
        for kind, above in task.above.items():
            left = sorted(it for it in above if not any(it != other and it in task.kinds_above(other) for other in above))
            self.parents[kind] = (left or ["object"])[0]
        self.kind_of = {name: sorted(kinds)[0] for name, kinds in task.objects.items()}

    def under(self, kind):
        """The objects of a type in the tree."""
        def is_under(it):
            while it != kind and it in self.parents and it != "object":
                it = self.parents[it]
            return it == kind
        return {name for name, its in self.kind_of.items() if kind == "object" or is_under(its)}

    def guard(self, kinds):
        """A type that has the objects of these types, and a predicate that is to hold besides, or None."""
        wanted = set(self.task.fitting(kinds))
        if len(kinds) == 1 and self.under(next(iter(kinds))) == wanted:
            return next(iter(kinds)), None
        if wanted == set(self.task.objects):
            return "object", None
        name = "is-" + "-or-".join(sorted(kinds))
        while name in self.predicates:
            name += "-"
        self.guards[name] = sorted(wanted)
        return "object", name

    def bound(self, variables):
        """Variables with types of the tree, and the literals that hold them to what they may stand for."""
        pairs, literals = [], []
        for name, kinds in variables:
            kind, guard = self.guard(kinds)
            pairs.append((name, kind))
            if guard:
                literals.append((True, (guard, name)))
        return pairs, literals

    def alternatives(self, condition, wanted, place):
        """A condition as alternatives, each some variables and literals."""
        head = condition[0]
        if head == "atom":
            return self.literal(wanted, (condition[1], *[place.names.get(it, it) for it in condition[2:]]))
        if head == "not":
            return self.alternatives(condition[1], not wanted, place)
        if head in ("and", "or"):
            parts = [(it, wanted, place) for it in condition[1:]]
            return self.product(parts) if (head == "and") == wanted else self.sum(parts)
        if (head == "exists") == wanted:
            new = [(self.variable(kinds), kinds) for _, kinds in condition[1]]
            inner = place.within(condition[1], {old: it for (old, _), (it, _) in zip(condition[1], new)})
            return [([*new, *variables], literals) for variables, literals in self.alternatives(condition[2], wanted, inner)]
        self.uses_objects = True
        self.see_count(kinds for _, kinds in condition[1])
        return self.product([(condition[2], wanted, place.within(condition[1], it)) for it in instances(self.task, condition[1])])

    def see_count(self, kinds):
        """Refuses variables of these types that have too many instances."""
        count = math.prod(len(self.task.fitting(it)) for it in kinds)
        if count > MOST_INSTANCES:
            raise TooMany(f"a quantifier has {count} instances, and {MOST_INSTANCES} may be")

    def sum(self, parts):
        """The alternatives of any part: each is a condition, whether it is wanted, and its place."""
        found = [it for part in parts for it in self.alternatives(*part)]
        most = MOST_INSTANCES if parts and parts[0][2].may_help else MOST
        if len(found) > most:
            raise TooMany(f"a condition has {len(found)} alternatives, and {most} may be")
        return simplified(found)

    def product(self, parts):
        """All ways to take an alternative of each part; where these are too many, a part with several becomes an auxiliary fact."""
        found = [None] * len(parts)
        for at in sorted(range(len(parts)), key=lambda it: parts[it][0][0] != "atom"):
            found[at] = self.alternatives(*parts[at])
            if not found[at]:
                return []
        count = math.prod(map(len, found))
        may_help = bool(parts) and parts[0][2].may_help
        if count > (MOST_WITH_HELP if may_help else MOST):
            if not may_help:
                raise TooMany(f"a condition has {count if count < 10**9 else 'many'} alternatives, and {MOST} may be")
            found = [its if len(its) < 2 else [([], [self.auxiliary(*part)])] for its, part in zip(found, parts)]
        return simplified([(sum((it[0] for it in chosen), []), sum((it[1] for it in chosen), [])) for chosen in itertools.product(*found)])

    def variable(self, kinds):
        """A variable of these types that stands nowhere else."""
        self.new_kinds[name := f"?v--{len(self.new_kinds) + 1}"] = kinds
        return name

    def literal(self, wanted, atom):
        """The alternatives of a literal: itself, or what is known of it by itself."""
        is_ground = not any(it.startswith("?") for it in atom[1:])
        if atom[0] == "=" and (is_ground or atom[1] == atom[2]):
            return [([], [])] if (atom[1] == atom[2]) == wanted else []
        if is_ground and atom[0] not in self.fluents:
            return [([], [])] if (atom in self.task.init) == wanted else []
        return [([], [(wanted, atom)])]

    def auxiliary(self, condition, wanted, place):
        """The literal that a part of a condition was seen to hold. In a condition of an effect it has to be known whether it does."""
        free = sorted(free_variables(condition))
        is_exact = place.needs is not None
        key = condition, wanted, is_exact, tuple(place.kinds[it] for it in free)
        if key not in self.auxiliaries:
            self.auxiliaries[key] = self.add_auxiliary(condition, wanted, [(it, place.kinds[it]) for it in free], is_exact)
        fact, known = self.auxiliaries[key]
        words = [place.names.get(it, it) for it in free]
        if is_exact:
            quantified = {it: self.new_kinds[it] for it in words if it in self.new_kinds}
            self.see_count(quantified.values())
            for objects in instances(self.task, list(quantified.items())):
                place.needs.append((True, (known, *[objects.get(it, it) for it in words])))
        return True, (fact, *words)

    def add_auxiliary(self, condition, wanted, free, is_exact):
        """The names of an auxiliary fact over the free variables, and of one that says that it is known; with the actions that add them."""
        words, predicates = [name for name, _ in free], predicates_in(condition)
        names = [self.fresh(it, self.predicates) for it in (("holds", "known") if is_exact else ("holds",))]
        self.deletes.append((predicates, names, free))
        atoms = [(name, *words) for name in names]
        place = Place(dict(free), {}, True)
        for is_true in (True, False) if is_exact else (True,):
            for variables, literals in self.alternatives(condition, wanted == is_true, place):
                pairs, guards = self.bound([*free, *variables])
                name = self.fresh("see", self.names)
                self.back[name] = None, []
                self.actions.append(Action(name, pairs, guards + literals, [Effect([], [], it, True) for it in (atoms if is_true else atoms[1:])]))
        return names[0], names[-1]

    def delete_auxiliaries(self):
        """Each action that may change whether a part of a condition holds deletes the auxiliary facts of this part."""
        for at, action in enumerate(self.actions):
            changed = {it.atom[0] for it in action.effects if self.back[action.name][0]}
            more = []
            for predicates, names, free in self.deletes:
                if changed & predicates:
                    new = [(self.variable(kinds), kinds) for _, kinds in free]
                    pairs = self.bound(new)[0]
                    more += [Effect(pairs, [], (name, *[it for it, _ in new]), False) for name in names]
            self.actions[at] = action._replace(effects=action.effects + more)

    def rewrite_action(self, action):
        """The actions that stand for one, in the way that is the smallest, and what their calls are."""
        try:
            best = [self.version(action, {})]
        except TooMany:
            best = None
        if best is None or size(best) > 1 + len(action.effects):
            try:
                best = self.by_instances(action, MOST_INSTANCES if best is None else size(best))
            except TooMany:
                best = best or [self.version(action, {}, True)]
        for it in best:
            self.add_version(action, it, len(best) > 1)

    def version(self, action, fixed, may_help=False):
        """An action with these objects for some of its parameters."""
        place, needs = Place(dict(action.variables), fixed, may_help), []
        found = self.alternatives(action.condition, True, place)
        effects = list(self.rewrite_effects(action, place._replace(needs=needs))) if found else []
        needs = list(dict.fromkeys(needs))
        return Version([it for it in action.variables if it[0] not in fixed], fixed, [(its, literals + needs) for its, literals in found], effects)

    def by_instances(self, action, most):
        """A version for each way to put objects for the parameters of which static predicates say something under a quantifier or a
        choice. They have fewer actions and effects than there may be at most."""
        names = set().union(*(self.decided(it) for it in (action.condition, *(it.condition for it in action.effects))))
        chosen = [it for it in action.variables if it[0] in names]
        if not chosen:
            raise TooMany
        self.see_count(kinds for _, kinds in chosen)
        versions, count = [], 0
        for fixed in instances(self.task, chosen):
            it = self.version(action, fixed)
            count += size([it])
            if count >= most:
                raise TooMany
            if it.alternatives:
                versions.append(it)
        return versions

    def decided(self, condition, is_inner=False):
        """The free variables of static atoms in the parts of a condition that are no literals."""
        head = condition[0]
        if head == "atom":
            is_static = condition[1] not in self.fluents
            return {it for it in condition[2:] if it.startswith("?")} if is_inner and is_static else set()
        inner = set().union(*(self.decided(it, is_inner or head in ("or", "forall", "exists")) for it in parts_of(condition)))
        return inner - {name for name, _ in condition[1]} if head in ("forall", "exists") else inner

    def add_version(self, action, version, is_one_of_many):
        """The actions of a version."""
        self.uses_objects |= bool(version.fixed)
        for variables, literals in version.alternatives:
            is_only = len(version.alternatives) == 1 and not is_one_of_many
            name = action.name if is_only else self.fresh(action.name, self.names)
            pairs, guards = self.bound([*version.variables, *variables])
            stay = [it for it, _ in version.variables]
            self.back[name] = action.name, [version.fixed.get(it, stay.index(it) if it in stay else None) for it, _ in action.variables]
            self.actions.append(Action(name, pairs, guards + literals, version.effects))

    def rewrite_effects(self, action, place):
        """The effects of an action, each under a conjunction."""
        for effect in action.effects:
            old = [name for name, _ in effect.variables]
            new = [(self.variable(kinds), kinds) for _, kinds in effect.variables]
            inner = place.within(effect.variables, dict(zip(old, (it for it, _ in new))))
            atom = (effect.atom[0], *[inner.names.get(it, it) for it in effect.atom[1:]])
            for variables, literals in self.alternatives(effect.condition, True, inner):
                pairs, guards = self.bound([*new, *variables])
                yield Effect(pairs, guards + literals, atom, effect.adds)

    def rewrite_goal(self):
        """The goal as a conjunction; else one fact, which an auxiliary action of each alternative adds."""
        try:
            found = self.alternatives(self.task.goal, True, Place({}, {}))
        except TooMany:
            found = self.alternatives(self.task.goal, True, Place({}, {}, True))
        if len(found) == 1 and not found[0][0]:
            self.goal = found[0][1]
            return
        fact = (REACHED,)
        self.goal = [(True, fact)]
        for variables, literals in found:
            pairs, guards = self.bound(variables)
            name = self.fresh("reach-goal", self.names)
            self.back[name] = None, [REACHED]
            self.actions.append(Action(name, pairs, guards + literals, [Effect([], [], fact, True)]))

    def given_back(self, calls):
        """Calls of the rewritten task as calls of the files: up to the first one that reaches the goal, without auxiliary ones."""
        found = []
        for name, *arguments in calls:
            old, words = self.back.get(name, (name, list(range(len(arguments)))))
            if old:
                found.append([old, *[it if isinstance(it, str) else arguments[it] for it in words]])
            elif words:
                break
        return found


def simplified(alternatives):
    """Alternatives without those that can never hold, and those that hold only where another one does."""
    found = {}
    for variables, literals in alternatives:
        its = dict.fromkeys(literals)
        if not any((not wanted, atom) in its for wanted, atom in its):
            found.setdefault((frozenset(its), tuple(variables)), (variables, list(its)))
    if len(found) < 2:
        return list(found.values())
    weak = [literals for literals, variables in found if not variables]
    return [it for (literals, variables), it in found.items() if not any(other < literals or other == literals and variables for other in weak)]


def parts_of(condition):
    """The conditions that stand in one."""
    return condition[2:] if condition[0] in ("forall", "exists") else () if condition[0] == "atom" else condition[1:]


def free_variables(condition):
    """The variables of a condition that no quantifier in it binds."""
    if condition[0] == "atom":
        return {it for it in condition[2:] if it.startswith("?")}
    inner = set().union(*map(free_variables, parts_of(condition)))
    return inner - {name for name, _ in condition[1]} if condition[0] in ("forall", "exists") else inner


def predicates_in(condition):
    """The predicates of a condition."""
    return {condition[1]} if condition[0] == "atom" else set().union(*map(predicates_in, parts_of(condition)))


def size(versions):
    """How many actions and effects versions have."""
    return sum(len(it.alternatives) * (1 + len(it.effects)) for it in versions)
