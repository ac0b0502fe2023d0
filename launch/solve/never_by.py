"""`never-by SEARCH DOMAIN PROBLEM`: outside programs search for a certificate that there is no plan of any length, and `never` judges it."""
import os
import sys

import certificates
import options
import planfile
import rooms
import solve
import solvers
from call import Call, block_signals, put_out, say, tell_unread
from driver import Driver
from known import Wish
from nevers import Never, NeverSearch
from report import PROVES
from table import Row

TOOL = "never-by"
USAGE = "the words are SEARCH DOMAIN PROBLEM [OPTION ..]; --help tells the options"
OWN = "never-search"


def row(name, after, memory):
    """A row of the table of engines."""
    return Row(name, None, after, 2.0, 1, 1, memory, [], "never")


def engines(call, name):
    """The engines of a search that is named: `never` without a certificate, then the search, or all of them."""
    prover, made = certificates.prover(call, solvers.first_there(call.path)), [Never(call, row("never", 0.0, 0.2))]
    names = [it for it in (OWN, *certificates.NAMED) if not lacking(call, it)] if name == "all" else [name]
    for it in names:
        if why := lacking(call, it):
            raise solvers.NoSolver(why)
        if it == OWN:
            made.append(NeverSearch(call, row(it, 0.1, 0.3)))
        elif it in certificates.NAMED:
            made.append(certificates.NAMED[it][0](call, row(it, 0.1, 0.4), [certificates.found(it, call.path)], prover))
        else:
            words = options.command(it, call.path)
            made.append(certificates.Other(call, row(os.path.basename(words[0]), 0.1, 0.4), words, prover))
    return made


def lacking(call, name):
    """What a search lacks, in words; nothing where it lacks nothing."""
    if name == OWN:
        return certificates.without(call, OWN)
    if name in certificates.NAMED:
        return certificates.lacking(call, name)
    if options.command(name, call.path) is None:
        names = ", ".join([*certificates.NAMED, OWN, "all"])
        return f"there is no command {name.split()[0]}; the searches are {names}, or a program, called as WORDS SYSTEM CERTIFICATE"
    return certificates.without(call, "system")


def run(root, programs, words):
    """The whole call; answers its status."""
    try:
        plain, given = options.read(words, 3, os.path.join(root, "launch/help/never-by.txt"))
        call = Call(TOOL, root, programs, Wish(None, None, None), given)
        if why := certificates.without(call, "never"):
            raise solvers.NoSolver(why)
        made = engines(call, plain[0])
        call.take_files(*plain[1:])
        target = planfile.CertificateFile(given["certificate"], plain[1:])
        target.begin()
        call.open_rooms()
    except (options.Usage, planfile.Refused) as error:
        return refuse(7, str(error), USAGE)
    except solvers.NoSolver as error:
        return refuse(70, str(error))
    except rooms.Unread as error:
        return tell_unread(root, error)
    except OSError as error:
        return refuse(6, f"{error.filename or ''}: {error.strerror}")
    driver = Driver(call, made, solve.tell_progress if sys.stderr.isatty() else None)
    try:
        driver.run()
        return end(call, driver, target)
    finally:
        block_signals()
        call.rooms.remove()


def status_of(call, driver):
    """The status of what is known."""
    known = call.known
    if known.never:
        return 0
    if known.plan():
        return 1
    if call.signal:
        return 130
    if call.refusal:
        return call.refusal[0]
    if driver.is_late:
        return 124
    return 4 if known.limits else 8 if call.is_short else 2


def lines(call, driver):
    """The report."""
    known, plan = call.known, call.known.plan()
    if call.refusal and not known.never and not plan:
        return [call.refusal[1]]
    told = [f"; {it.row.name}: {it.told or 'no answer'}; {it.seconds:.1f} s" for it in driver.engines if it.begun or it.seconds]
    if known.never:
        return [*told, known.never, f"; accepted by {PROVES[known.never_word]}"]
    if plan:
        return [*told, *plan.lines, f"; accepted by {PROVES[plan.word]}"]
    return [*told, "; open: no certificate was accepted"]


def end(call, driver, target):
    """Prints what is known, puts the certificate into its file, and gives the status."""
    block_signals()
    status = status_of(call, driver)
    if sys.stderr.isatty():
        print("\033[K", end="", file=sys.stderr)
    try:
        put_out(lines(call, driver))
    except OSError as error:
        return refuse(6, f"the report could not be written: {error.strerror}")
    if status == 0 and target.path:
        if call.certificate is None:
            call.say("no certificate is needed, and none was written")
            return status
        try:
            with open(call.certificate, "rb") as file:
                target.put(file.read().decode("latin-1").split("\n")[:-1])
        except OSError as error:
            return refuse(6, f"the certificate could not be written to {target.path}: {error.strerror}")
    if status in (3, 4, 5):
        call.tell_place(call.refusal[1] if call.refusal else next(iter(call.known.limits.values())))
    return status


def refuse(status, *whys):
    """Says why nothing is done."""
    for why in whys:
        if why:
            say(TOOL, why)
    return status
