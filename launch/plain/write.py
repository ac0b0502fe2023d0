"""The texts of a rewritten task."""
import rewrite


def literal(it):
    """A literal as text."""
    wanted, atom = it
    text = f"({' '.join(atom)})"
    return text if wanted else f"(not {text})"


def conjunction(literals):
    """Literals as a condition."""
    return f"(and {' '.join(map(literal, literals))})" if literals else "(and)"


def listed(pairs):
    """A typed list."""
    return " ".join(f"{name} - {kind}" for name, kind in pairs)


def effect(it):
    """An effect as text."""
    text = literal((it.adds, it.atom))
    if it.condition:
        text = f"(when {conjunction(it.condition)} {text})"
    return f"(forall ({listed(it.variables)}) {text})" if it.variables else text


def action(it):
    """An action as text."""
    effects = " ".join(map(effect, it.effects))
    return (f"  (:action {it.name}\n    :parameters ({listed(it.variables)})\n    :precondition {conjunction(it.condition)}\n"
            f"    :effect (and {effects}))\n")


def texts(task, it):
    """The texts of the domain and the problem."""
    named = [(name, it.kind_of[name]) for name in task.objects]
    constants = named if it.uses_objects else [pair for pair in named if pair[0] in task.constants]
    objects = [pair for pair in named if pair not in constants]
    predicates = [f"({name}{''.join(f' ?x{n}' for n in range(len(pairs)))})" for name, pairs in task.predicates.items()]
    predicates += [f"({name} ?x)" for name in it.guards]
    predicates += [f"({name}{''.join(f' {variable}' for variable, _ in free)})" for _, names, free in it.deletes for name in names]
    if it.goal == [(True, (rewrite.REACHED,))]:
        predicates.append(f"({rewrite.REACHED})")
    domain = [f"(define (domain {task.domain.name().word})\n",
              "  (:requirements :strips :typing :negative-preconditions :equality :conditional-effects)\n"]
    types = [(kind, above) for kind, above in it.parents.items() if kind != "object"]
    if types:
        domain.append(f"  (:types {listed(types)})\n")
    if constants:
        domain.append(f"  (:constants {listed(constants)})\n")
    domain += [f"  (:predicates {' '.join(predicates)})\n", *map(action, it.actions), ")\n"]
    init = [f"({' '.join(atom)})" for atom in sorted(task.init)]
    init += [f"({name} {thing})" for name, things in it.guards.items() for thing in things]
    problem = [f"(define (problem {task.problem.name().word}) (:domain {task.domain.name().word})\n"]
    if objects:
        problem.append(f"  (:objects {listed(objects)})\n")
    problem += [f"  (:init {' '.join(init)})\n", f"  (:goal {conjunction(it.goal)}))\n"]
    return "".join(domain), "".join(problem)
