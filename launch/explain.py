#!/usr/bin/env python3
"""explain.py STATUS SECONDS WORD.., run by dokyreva after a call that did not succeed: tells on standard error what it comes from.

STATUS and SECONDS are what the call came to and took, the words those that the program was given. The variables DOKYREVA_PROGRAM,
DOKYREVA_TIED (yes where a process can be bound to its caller), DOKYREVA_MEMORY (of --memory), DOKYREVA_CALLED (how the launcher is
called), DOKYREVA_COMMANDS (the commands there are), DOKYREVA_REPORT (a file with the report, where one was kept), DOKYREVA_WARNED
(yes where lint has run already) and DOKYREVA_ALL (yes with --all-faults) come from the launcher. Nothing is told on standard
output, and the status is always 0."""
import os
import pathlib
import sys

sys.dont_write_bytecode = True
from messages.advice import tell_advice
from messages.calls import LITERALS, Call, Planner, launcher_says
from messages.every import tell_every
from messages.fault import Files
from messages.known import GROWING, Known, next_command, value_of, without
from messages.words import tell_refused

ROOT = pathlib.Path(__file__).resolve().parent.parent
OF_PLAN = ("plan", "plan-all")


def variable(name):
    """What the launcher says of this call."""
    return os.environ.get(f"DOKYREVA_{name}", "")


def tell_next(call, horizon=None):
    """The command to try next."""
    commands = variable("COMMANDS").split()
    text = next_command(variable("CALLED"), "solve" in commands, call.command, call.words, call.files, call.status, horizon)
    if text:
        launcher_says(text)


def tell_warnings(call):
    """What lint finds in the files of a plan that was not found."""
    if variable("WARNED") == "yes" or len(call.files) != 2:
        return
    done = call.planner.script(5, ROOT / "launch" / "lint.py", "--quiet", *call.files)
    if done:
        sys.stderr.write(done.stdout)


def tell_below(call, horizon):
    """What is known below a horizon whose formula is past the limit: a run that ends before it is made, with growing budgets."""
    words = without(call.words, "--max-horizon", "--budget")
    most = value_of(call.words, "--budget", "100000")
    best, seconds = None, max(5, 2 * call.seconds)
    for budget in [it for it in GROWING if it < int(most)] + [int(most)]:
        done = call.planner.run(seconds, call.command, *words, f"--max-horizon={horizon - 1}", f"--budget={budget}")
        if done is None or done.returncode not in (0, 1, 2):
            break
        best = budget, Known(done.stdout).told()
        if done.returncode != 2:
            break
    if best and best[1]:
        launcher_says(f"known below it, by a run with --max-horizon {horizon - 1} --budget {best[0]}: {best[1]}")


def tell_limit(call):
    """Of a search that met the limit on literals: what is known below, and what to try."""
    done = call.planner.run(30, call.command, *call.words) if call.seconds < 20 else None
    lines = [LITERALS.match(it) for it in done.stdout.splitlines()] if done and done.returncode == 4 else []
    found = next(filter(None, lines), None)
    if not found:
        return
    if int(found[2]) > 0:
        tell_below(call, int(found[2]))
    tell_next(call, int(found[2]))


def tell_report(call):
    """What a report that was kept says is known, of a run whose time was over."""
    path = variable("REPORT")
    text = pathlib.Path(path).read_text() if path and os.path.isfile(path) else ""
    known = Known(text).told()
    launcher_says(f"known so far: {known}" if known else "nothing is known so far")
    tell_next(call)


def explain(call):
    """Tells it, by the status."""
    if call.status == 7:
        tell_refused([call.command, *call.words] if call.command else [], variable("COMMANDS").split(), variable("CALLED"))
    elif call.status in (3, 4, 5):
        if not (variable("ALL") == "yes" and call.status == 3 and tell_every(call)):
            call.tell()
        if call.status == 4 and call.command in OF_PLAN:
            tell_limit(call)
    elif call.status == 1 and call.command == "check":
        answer = call.planner.ask(10, "check", *call.words)
        if answer and answer[1] == 1:
            tell_advice(Files(call.paths(), call.called()), answer[0])
    elif call.status in (1, 2) and call.command in OF_PLAN:
        tell_warnings(call)
        tell_next(call)
    elif call.status == 2 and call.command in ("search", "never", "never-search"):
        tell_next(call)
    elif call.status == 124 and call.command in OF_PLAN:
        tell_report(call)


def main(words):
    """Tells it; answers the exit status."""
    planner = Planner(variable("PROGRAM"), variable("TIED") == "yes", variable("MEMORY"))
    try:
        explain(Call(planner, int(words[0]), int(words[1]), words[2:]))
    except (KeyboardInterrupt, OSError, BrokenPipeError):
        pass
    return 0


if __name__ == "__main__":
    sys.exit(main(sys.argv[1:]))
