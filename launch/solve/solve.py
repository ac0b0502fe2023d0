"""`solve DOMAIN PROBLEM`: goes on until a proved word has accepted an answer."""
import os
import sys

import certificates
import options
import planfile
import report
import rewriting
import rooms
import solvers
import table
from call import Call, block_signals, put_out, say, tell_unread
from driver import Driver
from known import Wish

TOOL = "solve"


def read_words(root, words):
    """The files and the options."""
    plain, given = options.read(words, 2, os.path.join(root, "launch/help/solve.txt"))
    if given["any"] and given["least"]:
        raise options.Usage("--any and --least are contraries")
    names = {it.name.replace(" ", "-") for it in table.ROWS}
    given["engines"] = given["engines"].split(",") if given["engines"] else []
    for name in given["engines"]:
        if name not in names:
            raise options.Usage(f"there is no engine {name}; there are {', '.join(sorted(names))}")
    return plain, given


def find_others(call, given):
    """The outside programs: those that are named have to be there, a solver that is not named may be."""
    if not call.planner:
        raise solvers.NoSolver("there is no planner to check plans")
    there = {"plan"} | {it for it in ("search", "never", "never-search") if it in call.programs}
    there |= {it for it in certificates.NAMED if not certificates.lacking(call, it)}
    if given["planner"]:
        call.planner_words = options.command(given["planner"], call.path)
        if call.planner_words is None:
            raise solvers.NoSolver(f"there is no command {given['planner'].split()[0]}: --planner names it")
        there.add("planner")
    name = given["solver"]
    if name == "none" or not call.judge:
        if name not in (None, "none"):
            raise solvers.NoSolver("there is no program here to judge what a solver says")
        return there
    if name:
        solvers.parted(name, call.path)
    call.solver_name = name or solvers.first_there(call.path)
    return there | {"solver"} if call.solver_name else there


def tell_progress(driver):
    """On a terminal, one line that is written over."""
    known = driver.call.known
    names = ", ".join(f"{it.engine.row.name}" + (f" {it.horizon}" if hasattr(it, "horizon") else "") for it in driver.running)
    found = f"a plan of {len(known.few_actions.calls)} actions; " if known.few_actions else ""
    refuted = f"refuted to {known.refuted}; " if known.refuted >= 0 else ""
    states = f"{known.states} states; " if known.states else ""
    print(f"\033[K{driver.spent():.0f} s: {found}{refuted}{states}{names}", end="\r", file=sys.stderr, flush=True)


def versions(call, root, engines):
    """What answered, by number."""
    try:
        with open(os.path.join(root, "VERSION"), encoding="utf-8") as file:
            found = {"dokyreva": file.readline().strip()}
    except OSError:
        found = {}
    for engine in engines:
        solver = getattr(engine, "solver", None)
        if solver:
            found[solver.name] = solver.version
    return found


def end(call, driver, there, target, root):
    """Prints what is known, puts the plan into its file, and gives the status."""
    block_signals()
    status = report.status_of(call, driver)
    calls, fault = rewriting.give_back(call, call.known.plan()) if status == 0 else ([], None)
    if fault:
        call.say(f"the plan of the rewritten files is none of the files: {fault}")
        call.known.forget()
        status = 2
    if sys.stderr.isatty():
        print("\033[K", end="", file=sys.stderr)
    try:
        put_out([report.as_json(call, driver, status, calls, versions(call, root, driver.engines))] if call.given["json"]
                else report.lines(call, driver, calls))
    except OSError as error:
        call.say(f"the report could not be written: {error.strerror}")
        status = 6
    try:
        if status == 0:
            target.put(calls)
    except OSError as error:
        call.say(f"the plan could not be written to {target.path}: {error.strerror}")
        status = 6
    if status in (3, 4, 5) and (call.refusal or call.known.limits) and not call.is_told:
        call.tell_place(call.refusal[1] if call.refusal else next(iter(call.known.limits.values())))
    line = report.advice(call, driver, there) if status in (2, 4, 8, 124) else None
    if line:
        call.say(line)
    return status


def run(root, programs, words):
    """The whole call; answers its status."""
    try:
        plain, given = read_words(root, words)
        wish = Wish(given["least"], given["max_steps"], given["max_actions"])
        call = Call(TOOL, root, programs, wish, given)
        there = find_others(call, given)
        call.take_files(*plain)
        target = planfile.PlanFile(given["plan_file"], plain)
        target.begin()
        call.open_rooms()
    except (options.Usage, planfile.Refused) as error:
        return refuse(7, str(error), "the words are DOMAIN PROBLEM [OPTION ..]; --help tells the options")
    except solvers.NoSolver as error:
        return refuse(70, str(error))
    except rooms.Unread as error:
        return tell_unread(root, error)
    except OSError as error:
        return refuse(6, f"{error.filename or ''}: {error.strerror}")
    engines = table.made(call, there, given["engines"])
    driver = Driver(call, engines, tell_progress if sys.stderr.isatty() else None)
    try:
        driver.run()
        if rewriting.try_plain(call):
            begun, driver = driver.begun, Driver(call, table.made(call, there, given["engines"]), driver.tell)
            driver.begun = begun
            driver.run()
        return end(call, driver, there, target, root)
    finally:
        block_signals()
        call.rooms.remove()


def refuse(status, *whys):
    """Says why nothing is done."""
    for why in whys:
        if why:
            say(TOOL, why)
    return status
