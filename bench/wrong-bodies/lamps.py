"""Inputs for the clauses of the top call that tell of two runs, and of parts of a batch: `prove` by as many conflicts as `plan` took,
`verify` of what `prove` wrote, checks and batches over lamps, files that are too long, and a formula past the limit in a batch."""
import re

LONG = " " * 1_048_576
LAMP = ("(define (domain l) (:requirements :negative-preconditions) (:predicates (on) (z)) "
        "(:action flip :precondition (not (on)) :effect (on)))")
WITH_HUM = LAMP.replace("(z))", "(h)) (:action hum :effect (h))")
OFF = "(define (problem q) (:domain l) (:goal (on)))"
ON = "(define (problem q) (:domain l) (:init (on)) (:goal (on)))"
NEVER = "(define (problem q) (:domain l) (:goal (z)))"
TASKS = ("gripper/p04 4", "pegsol/p03 7", "openstacks/p03 7")

def proofs(make):
    """What `prove` comes to on a lamp, and what `verify` says of it and of a certificate without entries."""
    for horizon in ("0", "1", "2"):
        yield make.input(f"prove {horizon} of the lamp", ["prove", "d", "p", horizon], {"d": LAMP, "p": OFF})
    yield make.input("prove 0 with no budget", ["prove", "d", "p", "0", "--budget", "0"], {"d": LAMP, "p": OFF})
    for horizon in ("0", "9", "10", "255"):
        files = {"d": LAMP, "p": NEVER}
        yield make.input(f"verify of no entry, horizon {horizon}", ["verify", "d", "p", "c"], files | {"c": f"horizon {horizon}\n"}, due=(b"; not empty\n", 1))
        text, _ = make.told(["prove", "d", "p", horizon], make.room(files))
        yield make.input(f"verify what prove wrote, horizon {horizon}", ["verify", "d", "p", "c"], files | {"c": text})

def as_many(make, tasks):
    """`prove` with exactly the conflicts after which `plan` tells that the horizon is refuted."""
    for name, most in (it.split() for it in TASKS):
        domain, problem, _ = tasks[name]
        files = {"d": domain, "p": problem}
        words = ["plan", "d", "p", "--max-horizon", most, "--budget", "4000", "--alg", "a", "--width", "1"]
        told, _ = make.told(words, make.room(files))
        for horizon, conflicts in re.findall(rb"; horizon (\d+) refuted conflicts (\d+)", told):
            words = ["prove", "d", "p", horizon.decode(), "--budget", conflicts.decode()]
            yield make.input(f"prove by as many conflicts as plan took, {name} {horizon.decode()}", words, files)

def checks(make):
    """Plans of a lamp: none, one that runs, one that is blocked, and two calls in a task whose goal holds at first."""
    for shows, domain, problem, calls in [
        ("check of no call", LAMP, ON, ""),
        ("check of one call", LAMP, OFF, "(flip)\n"),
        ("check of a call that is blocked", LAMP, ON, "(flip)\n"),
        ("check of a last call that is blocked", LAMP, OFF, "(flip)\n(flip)\n"),
        ("check of two calls whose goal holds at first", WITH_HUM, ON, "(hum)\n(hum)\n"),
    ]:
        yield make.input(shows, ["check", "d", "p", "l"], {"d": domain, "p": problem, "l": calls})

def batches(make, limit):
    """Batches of lamps in both orders, of files that are too long, and of a task whose formula is past the limit."""
    files = {"d": LAMP, "p": OFF, "q": ON, "r": NEVER}
    for order in ([], ["--turns", "backward"]):
        for names in ("p", "p q r", "q p", "p q p r"):
            yield make.input(f"batch of lamps {names} {' '.join(order)}".strip(), ["batch", "d", *names.split(), *order], files)
    for shows, longs in (("the domain and a problem", "dp"), ("the first problem", "p"), ("the domain and the second problem", "dq")):
        these = {name: text + (LONG if name in longs else "") for name, text in files.items()}
        yield make.input(f"batch of files that are too long: {shows}", ["batch", "d", "p", "q"], these)
    refused = {"d": LAMP[:-1], "p": OFF + LONG, "q": ON}
    yield make.input("batch of a refused domain and a problem that is too long", ["batch", "d", "p", "q"], refused)
    words = ["batch", "d", "p", "p", "--alg", "c", "--start", "255", "--max-horizon", "255"]
    yield make.input("batch past the limit on literals", words, {"d": limit[0], "p": limit[1]})

def plain_words(make, tasks):
    """Words without options, and with one: certificates, a plan that has steps without actions, and a horizon without a plan."""
    domain, problem, _ = tasks["gripper/p04"]
    for horizon in ("0", "1", "2", "3"):
        yield make.input(f"prove gripper/p04 {horizon} by the words alone", ["prove", "d", "p", horizon], {"d": domain, "p": problem})
    yield make.input("plan of the lamp in three steps", ["plan", "d", "p", "--alg", "c", "--start", "3"], {"d": LAMP, "p": OFF})
    yield make.input("plan of no horizon, with one option", ["plan", "d", "p", "--max-horizon", "0"], {"d": LAMP, "p": NEVER})

def by_clauses(make, tasks, limit):
    """All of them."""
    for some in (proofs(make), as_many(make, tasks), checks(make), batches(make, limit), plain_words(make, tasks)):
        yield from some
