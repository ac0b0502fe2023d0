"""Small tasks, drawn at random, with negative preconditions and conditional effects, and all states that can be reached, by a plain reading of
PDDL 2.1: effects read the state before, and an add wins over a delete."""
import collections, itertools
from typing import NamedTuple

OBJECTS = ("o1", "o2", "o3")

class Literal(NamedTuple):
    """An atom, as a predicate and its arguments (objects or variables), and whether it is negated."""
    negated: bool
    atom: tuple

    def text(self):
        """As PDDL."""
        atom = f"({' '.join(self.atom)})"
        return f"(not {atom})" if self.negated else atom

    def put(self, values):
        """With objects for its variables."""
        return Literal(self.negated, (self.atom[0], *(values.get(it, it) for it in self.atom[1:])))

    def holds(self, state):
        return (self.atom in state) != self.negated

class Effect(NamedTuple):
    """A literal, the variables over which it is quantified, and its condition."""
    over: tuple
    condition: tuple
    literal: Literal

    def text(self):
        text = self.literal.text()
        if self.condition:
            text = f"(when {both(self.condition)} {text})"
        return f"(forall ({' '.join(self.over)}) {text})" if self.over else text

class Schema(NamedTuple):
    """An action with parameters, some of which have to differ."""
    name: str
    parameters: tuple
    differ: bool
    condition: tuple
    effects: tuple

    def text(self):
        differ = [f"(not (= {' '.join(self.parameters)}))"] if self.differ else []
        condition = f"(and {' '.join(differ + [it.text() for it in self.condition])})"
        effects = f"(and {' '.join(it.text() for it in self.effects)})"
        return f"(:action {self.name} :parameters ({' '.join(self.parameters)}) :precondition {condition} :effect {effects})"

class Call(NamedTuple):
    """A ground action: its name, its condition, and its effects as a condition and a literal each."""
    name: str
    condition: tuple
    effects: tuple

    def after(self, state):
        """The state after it; none where it does not run."""
        if not all(it.holds(state) for it in self.condition):
            return None
        active = [literal for condition, literal in self.effects if all(it.holds(state) for it in condition)]
        return state - {it.atom for it in active if it.negated} | {it.atom for it in active if not it.negated}

class Task(NamedTuple):
    predicates: dict
    objects: tuple
    schemas: tuple
    initial: frozenset
    goal: tuple

    def domain(self):
        predicates = " ".join(f"({name}{''.join(f' ?x{it}' for it in range(arity))})" for name, arity in self.predicates.items())
        head = ["(define (domain drawn)", "(:requirements :adl)", f"(:constants {' '.join(self.objects)})", f"(:predicates {predicates})"]
        return "\n".join(head + [it.text() for it in self.schemas]) + ")\n"

    def problem(self):
        initial = " ".join(f"({' '.join(it)})" for it in sorted(self.initial))
        return f"(define (problem p) (:domain drawn)\n(:init {initial})\n(:goal {both(self.goal)}))\n"

    def calls(self):
        """All ground actions."""
        for schema in self.schemas:
            for objects in itertools.product(self.objects, repeat=len(schema.parameters)):
                if schema.differ and len(set(objects)) < len(objects):
                    continue
                values = dict(zip(schema.parameters, objects))
                effects = []
                for effect in schema.effects:
                    for more in itertools.product(self.objects, repeat=len(effect.over)):
                        every = values | dict(zip(effect.over, more))
                        effects.append((tuple(it.put(every) for it in effect.condition), effect.literal.put(every)))
                yield Call(f"({' '.join((schema.name, *objects))})", tuple(it.put(values) for it in schema.condition), tuple(effects))

    def reached(self):
        """Each state that can be reached, with the least number of actions that lead there."""
        calls, depth, queue = list(self.calls()), {self.initial: 0}, collections.deque([self.initial])
        while queue:
            state = queue.popleft()
            for after in {call.after(state) for call in calls} - {None}:
                if after not in depth:
                    depth[after] = depth[state] + 1
                    queue.append(after)
        return depth

    def is_goal(self, state):
        return all(it.holds(state) for it in self.goal)

    def is_plan(self, names):
        """Whether the calls of these names lead to the goal."""
        calls, state = {it.name: it for it in self.calls()}, self.initial
        for name in names:
            state = calls[name].after(state) if name in calls else None
            if state is None:
                return False
        return self.is_goal(state)

def both(literals):
    """A conjunction, as PDDL."""
    return f"(and {' '.join(it.text() for it in literals)})"

def literal(r, predicates, terms, negative):
    """A literal over some of these objects and variables."""
    name = r.choice([it for it, arity in predicates.items() if terms or not arity])
    return Literal(r.random() < negative, (name, *(r.choice(terms) for _ in range(predicates[name]))))

def some(r, most, predicates, terms, negative=0.4):
    """At most so many literals, of atoms that differ."""
    drawn = (literal(r, predicates, terms, negative) for _ in range(r.randint(0, most)))
    return tuple({it.atom: it for it in drawn}.values())

def effect(r, predicates, terms):
    over = ("?z",) if r.random() < 0.2 else ()
    terms = terms + over
    condition = some(r, 2, predicates, terms) if r.random() < 0.5 else ()
    return Effect(over, condition, literal(r, predicates, terms, 0.5))

def schema(r, number, predicates, objects):
    parameters = ("?x", "?y")[:r.choice((0, 0, 1, 1, 2))]
    terms = parameters or objects
    differ = len(parameters) == 2 and r.random() < 0.7
    effects = tuple(effect(r, predicates, terms) for _ in range(r.randint(1, 3)))
    return Schema(f"act{number}", parameters, differ, some(r, 2, predicates, terms), effects)

def parted(r, task):
    """A goal that no state has, but each pair of its literals has one; none where none was found."""
    states = list(task.reached())
    changing = sorted({it for state in states for it in state ^ task.initial})
    for _ in range(200 if len(changing) > 2 else 0):
        goal = [Literal(r.random() < 0.3, atom) for atom in r.sample(changing, r.randint(3, min(4, len(changing))))]
        alone = [[it.holds(state) for it in goal] for state in states]
        if not any(map(all, alone)) and all(any(it[a] and it[b] for it in alone) for a, b in itertools.combinations(range(len(goal)), 2)):
            return tuple(goal)
    return None

def any_task(r):
    """A task of at most 12 atoms."""
    objects = OBJECTS[:r.choice((1, 2, 2, 3))]
    names = [f"p{it}" for it in range(r.randint(3, 4))]
    predicates = {it: r.choice((0, 1)) for it in names}
    atoms = [(it, *of) for it, arity in predicates.items() for of in itertools.product(objects, repeat=arity)]
    schemas = tuple(schema(r, it, predicates, objects) for it in range(r.randint(2, 6)))
    initial = frozenset(it for it in atoms if r.random() < 0.4)
    goal = some(r, 3, predicates, objects) or (Literal(False, r.choice(atoms)),)
    return Task(predicates, objects, schemas, initial, goal)

def draw(r):
    """A task, mostly of some states. Of those that have one, most have a goal that no pair of its literals shows to be out of reach."""
    for _ in range(r.choice((1, 4, 4))):
        task = any_task(r)
        if len(task.reached()) > 5:
            break
    hard = parted(r, task) if r.random() < 0.7 else None
    return task._replace(goal=hard) if hard else task
