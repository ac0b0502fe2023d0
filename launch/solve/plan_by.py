"""`plan-by SOLVER DOMAIN PROBLEM`: a SAT solver searches, horizon by horizon, and the proved program judges.

Our own planner looks first, with few conflicts. Then the solver has the horizons that are named, from the lowest on, or walks by
itself. The report has the lines of the proved programs and the plan, and else comments."""
import os
import sys
import time

import options
import rooms
import solvers
import solve
from call import Call, block_signals, put_out, say, tell_unread
from driver import Driver
from engine import Engine, accept
from jobs import Job
from known import MOST, Wish, steps_of
from sat import Sat
from table import Row
from texts import first_line, report, said

TOOL, CONFLICTS = "plan-by", 1000
USAGE = "the words are SOLVER DOMAIN PROBLEM [OPTION ..]; --help tells the options"


class First(Engine):
    """A look with our own planner at each horizon, from the lowest on."""

    def jobs(self):
        call, known = self.call, self.call.known
        word = "plan" if known.kind == "exists" else "plan-all"
        came = yield Job(self.planner(word, "--alg", "c", "--growth", "101", "--start", str(self.first), "--max-horizon",
                                      str(known.wish.steps), "--budget", str(CONFLICTS), "--workers", str(min(16, call.jobs))))
        it = report(came.output)
        if came.status in (3, 5):
            call.refuse(came.status, first_line(came.output))
        elif came.status in (0, 1, 2):
            for horizon, state, line in it.horizons:
                if state == "refuted":
                    known.refute(horizon, line, word)
            if came.status == 0:
                yield from accept(self, it.calls, it.plan, it.steps)
        self.is_over = True


def engines(call, given, name, first):
    """The planner's look, where there is a planner, and the solver."""
    look = First(call, Row("plan", None, 0.0, 1e9, 1, 1, 0.5, [], "plan"))
    look.first = first
    turn = 2.0 if call.walks else 1e9
    sat = Sat(call, Row("sat", None, 0.0, turn, 1, 4096, max(0.25, 1 / call.jobs), [], "solver"), name)
    sat.seconds_each, sat.first = given["solver_seconds"], first
    return look, sat


def find_solver(call, name):
    """Sees how the solver is called, before anything else is done."""
    room = call.rooms.outer()
    search, job = solvers.look(name, call.path, room), None
    try:
        job = next(search)
        while True:
            job.begin()
            until = time.monotonic() + 10
            while not job.hear() and time.monotonic() < until and not call.signal:
                time.sleep(0.005)
            job.end("time")
            job = search.send(job.ended())
    except StopIteration as end:
        call.rooms.leave(room)
        return end.value


def run(root, programs, words):
    """The whole call; answers its status."""
    try:
        plain, given = options.read(words, 3, os.path.join(root, "launch/help/plan-by.txt"))
        first, last = options.range_of(given["horizons"]) if given["horizons"] else (0, MOST)
        call = Call(TOOL, root, programs, Wish("steps", last, None), given, given["steps"])
        call.walks, name = given["horizons"] is None, plain[0]
        solvers.parted(name, call.path)
        call.take_files(*plain[1:])
        call.open_rooms()
    except options.Usage as error:
        return refuse(7, str(error), USAGE)
    except solvers.NoSolver as error:
        return refuse(70, str(error))
    except rooms.Unread as error:
        return tell_unread(root, error)
    except OSError as error:
        return refuse(6, f"{error.filename or ''}: {error.strerror}")
    try:
        return search(call, given, name, first, last)
    finally:
        block_signals()
        call.rooms.remove()


def search(call, given, name, first, last):
    """Looks, searches, and tells."""
    look, sat = engines(call, given, name, first)
    sat.solver = find_solver(call, name)
    if sat.solver.lacks:
        call.say(sat.solver.lacks)
    tell = solve.tell_progress if sys.stderr.isatty() else None
    driver = Driver(call, [look] if call.planner else [], tell)
    driver.run()
    if not call.signal and not call.refusal and not driver.is_late:
        begun, driver = driver.begun, Driver(call, [sat], tell)
        driver.begun = begun
        driver.run()
    block_signals()
    if tell:
        print("\033[K", end="", file=sys.stderr)
    status = status_of(call, driver, sat, last)
    try:
        put_out(lines(call, driver, sat, given))
    except OSError as error:
        return refuse(6, f"the report could not be written: {error.strerror}")
    if call.refusal or status == 4:
        call.tell_place(call.refusal[1] if call.refusal else call.known.limits["sat"])
    return status


def status_of(call, driver, sat, last):
    """The status of what is known."""
    known = call.known
    if call.refusal:
        return call.refusal[0]
    if call.signal:
        return 130
    if known.few_steps:
        return 0
    if known.refuted >= last:
        return 1
    if known.limits and known.refuted < 0 and not any(state == "open" for state, _ in sat.came.values()):
        return 4
    return 124 if driver.is_late else 2


def lines(call, driver, sat, given):
    """The report: a line for each horizon that was looked at, the plan, and what is known."""
    known = call.known
    if call.refusal:
        return [call.refusal[1]]
    told = {n: line for n, (state, _) in sat.came.items() if (line := horizon_line(n, sat, given, driver))}
    if known.refuted_word != "judge" and known.refuted_line:
        told[known.refuted] = known.refuted_line
    if known.few_steps:
        told[steps_of(known.few_steps)] = f"; horizon {steps_of(known.few_steps)} has a plan"
    plan = known.few_steps.lines if known.few_steps else []
    return [*(told[n] for n in sorted(told)), *plan, known_line(known)]


def horizon_line(n, sat, given, driver):
    """The line of a horizon, the judge's own where it is refuted; nothing where others decide of it."""
    state, line = sat.came[n]
    name = sat.name
    if state == "refuted":
        return line
    if n <= sat.call.known.refuted or state in ("needless", "live"):
        return None
    if state == "limit":
        return f"; horizon {n} open: {said(line)}" if n <= max(0, sat.lowest_limit) else None
    if state == "plan":
        return f"; horizon {n} has a plan"
    if state == "rejected":
        return f"; horizon {n} open: what {name} said is not accepted ({line})"
    if state == "open" and line == "time":
        return f"; horizon {n} open after {min(given['solver_seconds'], round(driver.spent()))} s of {name}"
    if state in ("open", "unjudged"):
        return f"; horizon {n} open: {line or name + ' has ended without an answer'}"
    return f"; horizon {n} open: its run has ended without an answer ({line})"


def known_line(known):
    """The last sentence."""
    kind = "step plan" if known.kind == "exists" else "step plan whose steps run in every order"
    refuted = f"no plan has at most {known.refuted} actions, and no {kind} has at most {known.refuted} steps" \
        if known.refuted >= 0 else "no horizon is refuted"
    if not known.few_steps:
        return f"; known: {refuted}"
    steps = steps_of(known.few_steps)
    if steps == 0:
        return "; known: the goal holds at first"
    if known.refuted == steps - 1:
        return f"; known: the plan has {steps} steps, and no {kind} has fewer"
    return f"; known: the plan has {steps} steps; {refuted}"


def refuse(status, *whys):
    """Says why nothing is done."""
    for why in whys:
        if why:
            say(TOOL, why)
    return status
