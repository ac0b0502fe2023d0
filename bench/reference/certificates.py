"""A plain reading of the definitions of `never`: when a set of clauses or weights show that no actions lead to the goal, by what follows from
literals, clause by clause and action by action. A literal of fact f is 2f where it is true and 2f + 1 where it is false; an action has
`before`, its precondition, and `effects`, each a literal and its condition."""
import itertools

def follows(clauses, given):
    """All literals that follow from some by unit propagation; none where two of them are opposite or no literal of a clause is left."""
    found, size = set(given), -1
    while size < len(found):
        size = len(found)
        for clause in clauses:
            left = {it for it in clause if it ^ 1 not in found}
            if not left:
                return None
            found |= left if len(left) == 1 else set()
        if any(it ^ 1 in found for it in found):
            return None
    return found

def conditions(action, literal):
    """Those under which an action makes a literal true."""
    return [under for made, under in action.effects if made == literal]

def none_makes(action, literal):
    """Clauses which say that no effect makes it true."""
    return [[it ^ 1 for it in under] for under in conditions(action, literal)]

def ways(action, literal):
    """How a literal can have come to hold after an action: what held before, and clauses that were true there. It held and was not undone, or an
    effect made it true, and where that is a delete none adds its fact."""
    if_made = none_makes(action, literal ^ 1) if literal % 2 else []
    if [] in conditions(action, literal):
        return [([], if_made)]
    return [([literal], none_makes(action, literal ^ 1))] + [(under, if_made) for under in conditions(action, literal)]

def is_kept(task, clauses, action, clause):
    """Each way in which a clause can be false after an action is refuted."""
    for chosen in itertools.product(*(ways(action, it ^ 1) for it in clause)):
        given = [it for way in chosen for it in way[0]]
        more = [it for way in chosen for it in way[1]]
        if follows(more + clauses + task.known, action.before + given) is not None:
            return False
    return True

def makes(found, action, literal):
    """Whether an action surely makes a literal true where these hold, and whether it may."""
    under = conditions(action, literal)
    return any(found >= set(it) for it in under), any(not any(m ^ 1 in found for m in it) for it in under)

def is_sure(found, action, literal):
    """A literal surely holds after an action; an add wins."""
    sure, may = makes(found, action, literal)[0], makes(found, action, literal ^ 1)[1]
    return sure or (literal in found and not may) if literal % 2 == 0 else (literal in found or sure) and not may

def comes(found, action, literal):
    """A literal may come true."""
    return literal not in found and makes(found, action, literal)[1] and (literal % 2 == 0 or not makes(found, action, literal ^ 1)[0])

def is_closed(task, clauses, action, clause):
    """Where a clause is false before an action, what surely holds after it is refuted."""
    found = follows(task.known, action.before + [it ^ 1 for it in clause])
    if found is None:
        return True
    after = [it for it in range(2 * task.facts) if is_sure(found, action, it)]
    return follows(clauses + task.known, after) is None

def is_true(task, clause):
    """A clause is true in the initial state."""
    return any((it // 2 in task.initial) != (it % 2 == 1) for it in clause)

def pairs(task, clauses, touched, passes):
    """The first clause and action that do not pass, by the actions and, of each, by its effects."""
    for number, action in enumerate(task.actions):
        for made in sorted({it for it, _ in action.effects}):
            for place, clause in enumerate(clauses):
                if made ^ touched in clause and not passes(task, clauses, action, clause):
                    return "pair", place, number
    return ("accepted",)

def forward(task, clauses):
    """What is told of a set that is to hold in all states that can be reached."""
    false = [place for place, clause in enumerate(clauses) if not is_true(task, clause)]
    if false:
        return "initial", false[0]
    if not task.is_hopeless and follows(clauses + task.known, task.goal) is not None:
        return ("goal",)
    return pairs(task, clauses, 1, is_kept)

def backward(task, clauses):
    """What is told of a set that is to hold in all states from which the goal can be reached."""
    if all(is_true(task, it) for it in clauses):
        return ("initial",)
    for place, clause in enumerate(clauses):
        if not task.is_hopeless and follows(task.known, task.goal + [it ^ 1 for it in clause]) is not None:
            return "goal", place
    return pairs(task, clauses, 0, is_closed)

def weights(task, weighed):
    """What is told of weights, a number for each fact; one below zero is its absolute value for the fact's negation."""
    each = [(2 * fact + (weight < 0), abs(weight)) for fact, weight in weighed.items()]
    found = None if task.is_hopeless else follows(task.known, task.goal)
    if found is not None:
        first = sum(weight for it, weight in each if is_true(task, [it]))
        if first >= sum(weight for it, weight in each if it in found):
            return ("goal",)
    for number, action in enumerate(task.actions):
        found = follows(task.known, action.before)
        if found is None:
            continue
        more = sum(weight for it, weight in each if comes(found, action, it))
        less = sum(weight for it, weight in each if it in found and is_sure(found, action, it ^ 1))
        if more > less:
            return "action", number
    return ("accepted",)
