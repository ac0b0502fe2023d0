"""Weights of facts, such that no action raises the sum over the true facts and each goal state has a greater sum than the initial one, by
linear programming (dead-end potentials; Seipp, Pommerening, Sievers and Helmert).

    weights.py program LISTING FORMULA           a linear program, in the form of CPLEX
    weights.py certificate LISTING FORMULA PROGRAM SOLUTION  the certificate, of what glpsol has written with -w

LISTING is what `ground` prints, FORMULA what `formula` prints of horizon 1. What is not known before an action counts at its worst, and so do
facts that the goal leaves open. Status 1: there is none."""
import fractions
import math
import pathlib
import re
import sys

from ground_task import GroundTask

# The greatest denominator of a value, and the bound of the sum of all weights.
FINEST, MOST = 100000, 1 << 63

# How a fact's weight counts where it comes perhaps or goes perhaps: w, -w, or the greatest that may be.
SIGNS = {"comes": ("+", "w"), "goes": ("-", "w"), "may come": ("+", "p"), "may go": ("+", "n")}


def rise(action, closed):
    """How the sum rises at worst by an action, as pairs of a fact and how it counts; None where the action is never executed."""
    before = closed(action.before)
    if before is None:
        return None
    comes, may_come, goes, may_go = set(), set(), set(), set()
    for literal, under in action.effects:
        if any(it ^ 1 in before for it in under):
            continue
        is_sure = all(it in before for it in under)
        kinds = (comes, may_come) if literal % 2 == 0 else (goes, may_go)
        kinds[not is_sure].add(literal // 2)
    found = []
    for fact in comes | may_come | goes | may_go:
        is_true, is_false = 2 * fact in before, 2 * fact + 1 in before
        if fact in comes:
            found += [] if is_true else [(fact, "comes" if is_false else "may come")]
        elif fact in goes and fact not in may_come:
            found += [] if is_false else [(fact, "goes" if is_true else "may go")]
        else:
            found += [(fact, "may come")] if fact in may_come and not is_true else []
            found += [(fact, "may go")] if fact in goes | may_go and not is_false else []
    return found


def program(task):
    """The linear program."""
    closed = task.closure()
    goal = closed(task.goal)
    if goal is None:
        return None
    rows = {tuple(sorted(it)) for it in (rise(action, closed) for action in task.actions) if it}
    lines = ["Minimize", " obj: " + " + ".join(f"p{fact} + n{fact}" for fact in range(task.facts)), "Subject To"]
    for number, row in enumerate(sorted(rows)):
        lines.append(f" a{number}: " + " ".join(f"{SIGNS[how][0]} {SIGNS[how][1]}{fact}" for fact, how in row) + " <= 0")
    # A variable may stand once in a row: a fact that is true at first and in each goal state counts nothing.
    terms = {f"+ w{fact}" if 2 * fact in goal else f"- n{fact}" for fact in range(task.facts) if 2 * fact + 1 not in goal}
    terms ^= {f"{'+' if f'+ w{fact}' in terms else '-'} w{fact}" for fact in task.initial}
    if not terms:
        return None
    lines.append(" goal: " + " ".join(sorted(terms, key=lambda it: int(it[3:]))) + " >= 1")
    for fact in range(task.facts):
        lines += [f" p{fact}a: p{fact} - w{fact} >= 0", f" n{fact}a: n{fact} + w{fact} >= 0"]
    return "\n".join([*lines, "Bounds", *(f" w{fact} free" for fact in range(task.facts)), "End", ""])


def certificate(task, text, solution):
    """The certificate of a solution: whole numbers, of the values of its columns, which come in the order of their first use."""
    columns = list(dict.fromkeys(re.findall(r"\b[wpn]\d+\b", text.split("\n", 1)[1])))
    values = [line.split()[3] for line in solution.split("\n") if line.startswith("j ")]
    if len(values) != len(columns):
        return None
    found = {name: fractions.Fraction(value).limit_denominator(FINEST) for name, value in zip(columns, values)}
    weights = [found.get(f"w{fact}", fractions.Fraction(0)) for fact in range(task.facts)]
    scale = math.lcm(*(it.denominator for it in weights))
    weights = [int(it * scale) for it in weights]
    if sum(map(abs, weights)) >= MOST or not any(weights):
        return None
    return "weights\n" + "".join(f"{fact + 1} {it}\n" for fact, it in enumerate(weights) if it)


def main(words):
    """Prints what is asked for; answers the status."""
    texts = [pathlib.Path(it).read_text(encoding="latin-1") for it in words[1:]]
    task = GroundTask(*texts[:2])
    try:
        text = program(task) if words[0] == "program" else certificate(task, *texts[2:])
    except (ValueError, IndexError, ZeroDivisionError):
        text = None
    if text is None:
        return 1
    sys.stdout.write(text)
    return 0


if __name__ == "__main__":
    sys.exit(main(sys.argv[1:]))
