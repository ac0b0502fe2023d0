"""Executes calls by the files as they are written, with all conditions: what a plan that is given back has to pass."""
import itertools


def holds(task, condition, state, names):
    """Whether a condition holds in a state, with objects for variables."""
    head = condition[0]
    if head == "atom":
        atom = (condition[1], *[names.get(it, it) for it in condition[2:]])
        return atom[1] == atom[2] if atom[0] == "=" else atom in state
    if head == "not":
        return not holds(task, condition[1], state, names)
    if head == "and":
        return all(holds(task, it, state, names) for it in condition[1:])
    if head == "or":
        return any(holds(task, it, state, names) for it in condition[1:])
    every = (holds(task, condition[2], state, {**names, **it}) for it in instances(task, condition[1]))
    return all(every) if head == "forall" else any(every)


def instances(task, variables):
    """The objects that variables may stand for."""
    for objects in itertools.product(*(task.fitting(kinds) for _, kinds in variables)):
        yield dict(zip((name for name, _ in variables), objects))


def after(task, action, names, state):
    """The state after an action: what is deleted goes, and then what is added comes."""
    adds, deletes = set(), set()
    for effect in action.effects:
        for more in instances(task, effect.variables):
            here = {**names, **more}
            if holds(task, effect.condition, state, here):
                atom = (effect.atom[0], *[here.get(it, it) for it in effect.atom[1:]])
                (adds if effect.adds else deletes).add(atom)
    return (state - deletes) | adds


def names_of(task, action, arguments):
    """The variables of an action with the objects of a call; None where these are not as many, or of other types."""
    if len(arguments) != len(action.variables):
        return None
    if any(it not in task.fitting(kinds) for it, (_, kinds) in zip(arguments, action.variables)):
        return None
    return dict(zip((name for name, _ in action.variables), arguments))


def fault_of(task, calls, costs=None):
    """Why calls are no plan; None where they are one."""
    actions, state = {it.name: it for it in task.actions}, frozenset(task.init)
    for number, (name, *arguments) in enumerate(calls, 1):
        action = actions.get(name)
        names = names_of(task, action, arguments) if action else None
        text = f"call {number}, ({' '.join([name, *arguments])}),"
        if names is None:
            return f"{text} is none of an action"
        if not holds(task, action.condition, state, names):
            return f"{text} has a condition that does not hold"
        if costs and (lacks := costs(name, names)):
            return f"{text} has no cost: {lacks} has no value"
        state = after(task, action, names, state)
    return None if holds(task, task.goal, state, {}) else "the goal does not hold after the last call"
