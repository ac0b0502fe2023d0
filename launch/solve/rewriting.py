"""PDDL that the planner does not take, rewritten by launch/plain: the engines then work on the rewritten files, and the plan is given back."""
import os
import sys

from known import Known, Wish

KINDS = ("; refused unsupported ", "; refused duplicate ")


def try_plain(call):
    """Where the planner has refused the files for what can be rewritten, puts rewritten ones in their place. Answers whether it did."""
    if not call.refusal or not call.refusal[1].startswith(KINDS) or call.plain:
        return False
    sys.path.append(os.path.join(call.root, "launch/plain"))
    from plainly import Plain, Refused  # (it takes longer to read than a short call)
    from pddl import NoTree
    from rewrite import TooMany
    from without_costs import OtherForm
    try:
        it = Plain(call.domain, call.problem)
    except (Refused, OtherForm, TooMany) as why:
        call.say("plan does not take these files, and they cannot be rewritten:", as_told(call, str(why)))
        call.is_told = True
        return False
    except (NoTree, OSError, LookupError, AttributeError):
        return False
    if not it.told:
        return False
    wish = call.known.wish
    if it.has_auxiliaries() and (wish.least or wish.steps is not None or wish.actions is not None):
        call.say("the files were not rewritten: auxiliary calls would be counted; leave --least, --max-steps and --max-actions out")
        call.is_told = True
        return False
    call.plain, call.refusal = it, None
    call.domain_text, call.problem_text = (text.encode("latin-1") for text in it.texts)
    call.domain, call.problem = call.rooms.keep(call.domain_text), call.rooms.keep(call.problem_text)
    more = int(it.is_longer())
    call.known = Known(Wish(wish.least, *(None if most is None else most + more for most in (wish.steps, wish.actions))), call.known.kind)
    return True


def as_told(call, line):
    """A line on a private copy as one on the user's file."""
    for private, path in zip((call.rooms.first_domain, call.rooms.first_problem), call.paths):
        line = line.replace(private, path)
    return line


def give_back(call, plan):
    """The calls of a plan as calls of the user's files, and why they are no plan of these, or None."""
    if not call.plain:
        return plan.calls, None
    given, fault = call.plain.back([it.strip("()").split() for it in plan.calls])
    return [f"({' '.join(it)})" for it in given], fault


def places(call):
    """What was rewritten, with its places in the user's files; None where nothing was."""
    return [as_told(call, line) for line in call.plain.told] if call.plain else None


def told(call):
    """The comment on what was rewritten; nothing where nothing was."""
    if not call.plain:
        return []
    whats = dict.fromkeys(line.split(": ", 1)[1].split(": ")[0] for line in call.plain.told)
    more = "; a call more than in the files ends each plan there" if call.plain.is_longer() else ""
    more += "; auxiliary calls stand in plans there" if call.plain.has_auxiliaries() else ""
    return [f"; rewritten: {', '.join(whats)}; what is known is of the rewritten files{more}"]
