"""What a report says, in sentences."""

KINDS = {
    "syntax": "it is no list of words and lists from there on",
    "deep": "a list stands in more than 64 others",
    "shape": "something stands there where it may not, or is missing",
    "unknown": "the name is declared nowhere",
    "arity": "it has another number of objects",
    "duplicate": "it is declared twice",
    "unsupported": "this is PDDL that the planner does not take",
    "type": "the object has another type than the parameter",
}
LIMITS = {
    "tuples": ("tuples of objects for parameters", 4_000_000),
    "facts": ("facts", 2_048),
    "actions": ("actions", 16_384),
    "effects": ("effects with a condition", 65_536),
    "literals": ("literals", 4_000_000),
}
FILES = {"domain": "domain", "problem": "problem", "plan": "plan file", "proof": "certificate"}
SENTENCES = {
    "reaches": ("The calls are a plan.", "Executed in turn from the initial state, they lead to the goal."),
    "short": ("The calls are no plan.", "They can be executed in turn, and the goal does not hold after the last of them."),
    "not empty": ("The certificate is rejected.", "Its last entry is not the empty clause, so it refutes nothing."),
    "usage": ("The words were not taken.", "Nothing was read."),
}


def count(number, word, words=""):
    """A number with its word, or the word for more than one."""
    return f"{number:,} {word if number == 1 else words or word + 's'}"


def used_steps(part):
    """How many steps of a plan have an action: without the others it is a plan still."""
    return part.end[1] if part.steps is None else sum(1 for calls in part.steps if calls)


def tell_end(part):
    """How it ended, in words."""
    kind = part.end[0]
    if kind == "plan":
        used = used_steps(part)
        empty = f" ({part.end[1] - used} of {count(part.end[1], 'step')} are empty)" if used != part.end[1] else ""
        return f"A plan of {count(used, 'step')} with {count(part.end[2], 'action')}{empty}."
    if kind == "exhausted":
        return f"There is no plan of {count(part.end[1], 'step')} or fewer." if part.end[1] else "There is no plan of no step."
    if kind == "unfinished":
        return "Not decided: the budget of conflicts is spent."
    return tell_answer(part.end)[0]


def tell_more(part):
    """What follows from it, a sentence each."""
    return tell_search(part) if part.spent is not None else list(tell_answer(part.end)[1:])


def tell_answer(end):
    """An answer of one line in sentences, of which the first says how it ended."""
    kind = end[0]
    if kind == "calls":
        return tell_calls(*end[1:])
    if kind in SENTENCES:
        return SENTENCES[kind]
    if kind == "blocked":
        return f"The calls are no plan: call {int(end[1]):,} cannot be executed.", "What it asks for does not hold before it."
    if kind == "accepted":
        return tell_accepted(int(end[1]), int(end[2]))
    if kind == "rejected":
        return "The certificate is rejected.", f"Entry {int(end[1]):,}, counted from 0, does not follow from those before it."
    if kind == "left":
        return tell_left(int(end[1]), end[2], int(end[3]))
    if kind == "refused":
        kind = "it is no certificate from there on" if end[2] == "proof" else KINDS[end[1]]
        return f"The {FILES[end[2]]} is refused at the byte with offset {int(end[3]):,}.", f"Kind {end[1]}: {kind}."
    if kind == "read fault":
        return f"The {FILES[end[1]]} could not be read.", "Nothing is known of it."
    return tell_limit(end)


def tell_calls(steps, actions, known):
    """A plan file, or a report of a script that drives the planner: what it says is known."""
    first = f"A plan file with {count(actions, 'call')}." if actions or not known else "No plan is told."
    told = f"It says: {known}." if known else "It says nothing of horizons."
    return first, told


def tell_accepted(horizon, entries):
    """What an accepted certificate says."""
    return (
        f"The certificate is accepted: there is no plan of {count(horizon, 'step')} or fewer.",
        f"Nor is there one of {count(horizon, 'action')} or fewer.",
        f"The certificate has {count(entries, 'entry', 'entries')}.",
    )


def tell_left(horizon, word, conflicts):
    """A horizon of which there is no certificate."""
    if word == "plan":
        why, more = "has a plan", f"It was found after {count(conflicts, 'conflict')}."
    else:
        why, more = "is not decided", f"The budget of {count(conflicts, 'conflict')} is spent."
    return f"There is no certificate: horizon {horizon} {why}.", more


def tell_limit(end):
    """A limit that is passed."""
    if end[0] == "limit file":
        most = 16_777_216 if end[1] == "proof" else 1_048_576
        return f"The {FILES[end[1]]} is past a limit.", f"It has, or would have, more than {most:,} bytes."
    if end[0] == "limit literals":
        what, most = LIMITS["literals"]
        return "The task is past a limit.", f"The formula of horizon {end[2]} has {int(end[1]):,} {what}; the limit is {most:,}."
    what, most = LIMITS[end[1]]
    return "The task is past a limit.", f"It has {int(end[2]):,} {what}; the limit is {most:,}."


def tell_certificate(certificate):
    """What a certificate says, in sentences."""
    return (
        f"A certificate of horizon {certificate.horizon}, which was not verified here.",
        f"Where verify accepts it, there is no plan of {count(certificate.horizon, 'step')} or fewer.",
        f"It adds {count(certificate.learned, 'clause')} and drops {certificate.dropped:,}; the last is the empty clause.",
    )


def tell_search(part):
    """What follows from the lines of a search, a sentence each."""
    refuted = [line[0] for line in part.horizons if line[1] == "refuted"]
    said = []
    if refuted:
        said.append(
            f"No plan has {count(refuted[-1], 'action')} or fewer: horizon {refuted[-1]} is refuted."
            if refuted[-1]
            else "The goal does not hold at first: horizon 0 is refuted."
        )
    if part.end[0] == "plan" and part.generated is None:
        low, steps = (refuted[-1] + 1 if refuted else 0), used_steps(part)
        if low == steps:
            said.append(f"No plan of this kind has fewer than {count(steps, 'step')}.")
        elif low == steps - 1:
            said.append(f"Whether {count(low, 'step')} would do is not known.")
        elif low < steps:
            said.append(f"Whether {low} to {steps - 1} steps would do is not known.")
    if part.end[0] == "plan":
        is_least = part.end[2] == (refuted[-1] + 1 if refuted else 0)
        said.append("No plan has fewer actions." if is_least else "A plan with fewer actions may exist.")
    if part.end[0] == "exhausted":
        said.append("A longer plan may exist, or none.")
    said.append(f"{part.spent:,} of {count(part.budget, 'conflict')} spent.")
    return said
