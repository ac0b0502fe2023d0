"""What a call of `solve` prints: comments and the calls of a plan, or one object of JSON; and its status."""
from known import sentence, steps_of
from rewriting import places, told

PROVES = {"check": "check: the calls, executed in turn from the initial state, lead to the goal",
          "model": "model: the calls, executed in turn from the initial state, lead to the goal, in so many steps",
          "search": "search: there is no plan of any length", "never": "never: there is no plan of any length",
          "never-judge": "never-judge: there is no plan of any length",
          "plan": "plan: the horizon is refuted", "judge": "judge: the horizon is refuted"}


def status_of(call, driver):
    """The status of what is known."""
    known = call.known
    if known.plan():
        return 0
    if known.none_within():
        return 1
    if call.signal:
        return 130
    if call.refusal:
        return call.refusal[0]
    if driver.is_late:
        return 124
    if known.limits and known.refuted < 0 and not known.states:
        return 4
    return 8 if call.is_short else 2


def bounds(known):
    """What is known of the lengths of plans, as parts of a sentence."""
    parts = []
    if known.few_steps and known.few_steps.steps is not None and known.few_steps is not known.plan():
        parts.append(f"there is a plan of {sentence(steps_of(known.few_steps), 'step')}")
    if known.refuted >= 0:
        parts.append(f"no plan has at most {sentence(known.refuted, 'action')}, and no step plan has at most "
                     f"{sentence(known.refuted, 'step')} ({known.refuted_word})")
    if known.states:
        parts.append(f"{sentence(known.states, 'state')} were entered (search)")
    return parts or ["no horizon is refuted"]


def known_line(known):
    """The comment that tells what is known."""
    plan = known.plan()
    if plan is None and known.none_within() and not known.never:
        return "; known: " + "; ".join(bounds(known))
    if plan is None:
        return "; known: there is no plan of any length" if known.never else "; known: " + "; ".join(bounds(known))
    parts = [f"the plan has {sentence(len(plan.calls), 'action')}" +
             ("" if plan.steps is None else f" in {sentence(plan.steps, 'step')}")]
    least = []
    if known.fewest() == len(plan.calls):
        least.append("no plan has fewer actions")
    if plan.steps is not None and known.refuted >= plan.steps - 1:
        least.append("no step plan has fewer steps")
    return "; known: " + "; ".join(parts + (least or bounds(known)))


def accepted_line(known):
    """The last comment: which word accepted the answer, and what that proves."""
    plan = known.plan()
    if plan:
        line = f"; accepted by {PROVES[plan.word]}"
        if known.wish.least and known.is_least():
            word = known.refuted_word
            if known.wish.least == "actions" and known.refuted < len(plan.calls) - 1:
                word = known.least_actions[1]
            line += f"; by {word}: no plan has fewer {known.wish.least}" if word else f"; no plan has fewer {known.wish.least}"
        return line
    if known.never:
        return f"; accepted by {PROVES[known.never_word]}"
    if known.none_within():
        if known.refuted >= min(it for it in (known.wish.steps, known.wish.actions) if it is not None):
            return f"; accepted by {known.refuted_word}: there is no plan within horizon {known.refuted}"
        return f"; accepted by {known.least_actions[1] if known.least_actions else known.refuted_word}: " \
               f"no plan has fewer than {known.fewest()} actions"
    return "; accepted by no word: neither a plan nor that there is none is shown"


def lines(call, driver, calls):
    """The report."""
    known = call.known
    if call.refusal and not known.plan() and not known.none_within():
        return [call.refusal[1]]
    found = []
    for engine in driver.engines:
        if engine.begun or engine.seconds:
            found.append(f"; {engine.row.name}: {engine.told or 'no answer'}; {engine.seconds:.1f} s")
    if known.refuted_line:
        found.append(known.refuted_line)
    if known.never:
        found.append(known.never)
    plan = known.plan()
    if plan:
        found += [f"; plan of {len(calls)} actions", *calls] if call.plain else plan.lines
    accepted = accepted_line(known)
    if call.plain:
        accepted = accepted.replace(":", ", on the rewritten files:", 1)
        accepted += "; an evaluator of plain, of which nothing is proved, accepts the calls on the files as they are" if plan else ""
    return [*found, *told(call), known_line(known), accepted]


def as_json(call, driver, status, calls, versions):
    """The same as one object."""
    import json  # (it takes longer to read than a short call)
    known, plan = call.known, call.known.plan()
    answer = "plan" if plan else "none" if known.none_within() else "refused" if call.refusal else "open"
    return json.dumps({
        "status": status, "answer": answer, "plan": calls if plan else None, "actions": len(calls) if plan else None,
        "steps": plan.steps if plan else None, "engine": plan.engine if plan else known.never_word or None,
        "accepted_by": accepted_line(known)[2:], "any_length": bool(known.never),
        "bounds": {"refuted_horizon": known.refuted if known.refuted >= 0 else None, "refuted_by": known.refuted_word,
                   "least_steps_known": known.upper(), "least_actions_known": len(known.few_actions.calls) if known.few_actions else None,
                   "states": known.states or None, "is_least": bool(plan and known.wish.least and known.is_least())},
        "rewritten": places(call), "refusal": call.refusal[1] if call.refusal else None, "limits": known.limits,
        "engines": [{"name": it.row.name, "came_to": it.told, "seconds": round(it.seconds, 3)} for it in driver.engines],
        "seconds": round(driver.spent(), 3), "versions": versions})


def advice(call, driver, there):
    """What to do next, after an end without an answer; nothing where there is an answer."""
    if call.signal or call.refusal:
        return None
    missing = [it for it, needs in (("a SAT solver (the package cadical)", "solver"), ("search", "search"), ("never", "never"))
               if needs not in there]
    left = "not installed here: " + ", ".join(missing) if missing else "all engines were tried"
    if driver.is_late:
        return f"{call.seconds} seconds are over: more of them (--seconds) may tell more; {left}"
    if call.is_short:
        return f"memory is short: more of it (--memory) may tell more; {left}"
    return f"no engine has anything left to try; {left}"
