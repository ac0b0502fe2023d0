"""SAT solvers: which are there, and how each is called."""
import collections
import os
import re

import options
from groups import part
from jobs import Job
from rooms import environment

# A solver: its name for the report, its words before the formula, how it tells that there is no model (lrat: a proof in LRAT; drat:
# a proof that drat-trim makes LRAT of; none: no proof, so that it can find plans alone), its version, and what it lacks.
Solver = collections.namedtuple("Solver", "name words way version lacks")

KNOWN = ("cadical", "kissat", "minisat")
WANTS = {"cadical": "the package cadical has it", "kissat": "the package kissat has it (Debian 13)", "minisat": "the package minisat has it"}
TRIM = "drat-trim (a package of Debian 13); cadical from 1.7 on needs none"


class NoSolver(Exception):
    """There is no such solver, and why."""


def first_there(path):
    """The first of the solvers that are taken by themselves, or None."""
    return next((it for it in KNOWN[:2] if options.which(it, path)), None)


def parted(text, path):
    """How a solver's proof is told, and its words, of what the user says."""
    way, colon, rest = text.partition(":")
    if not (colon and way in ("lrat", "drat", "model")):
        way, rest = None, text
    words = options.command(rest, path)
    name = os.path.basename(rest.split()[0]) if rest.split() else ""
    if way is None and name not in KNOWN:
        raise options.Usage("the solver is cadical, kissat, minisat (perhaps with words), or lrat:WORDS, drat:WORDS or model:WORDS")
    if words is None:
        raise NoSolver(f"there is no command {rest.split()[0]}: {WANTS.get(name, text + ' names it') if way is None else text + ' names it'}")
    return way, name, words


def look(text, path, room):
    """Finds out how a solver is called: a generator of jobs. Answers the solver."""
    way, name, words = parted(text, path)
    trim, version = options.which("drat-trim", path), ""
    def ask(word):
        came = yield Job(part([words[0], word], folder=room, environment=environment(room), most=1 << 20, outside=True), brief=True)
        return came.output.decode("latin-1")
    if way is None and name != "minisat":
        version = ((yield from ask("--version")).split("\n") or [""])[0][:40]
    if name == "cadical" and way is None:
        words, way = [*words, "-q", "--no-binary"], "drat"
        if numbers(version) >= [1, 7]:
            words, way = [*words, "--lrat"], "lrat"
    elif name == "kissat" and way is None:
        words, way = [*words, "-q", "--no-binary"], "drat"
        if "--factor" in (yield from ask("--help")):
            words.append("--factor=false")
    elif name == "minisat" and way is None:
        way = "minisat"
    lacks = f"it finds plans alone: a proof of it needs {TRIM}" if way == "drat" and not trim else ""
    return Solver(text, words, "model" if lacks else way, version, lacks)


def numbers(version):
    """The first two numbers of a version."""
    found = re.match(r"(\d+)\.(\d+)", version)
    return [int(it) for it in found.groups()] if found else [0]


def as_model(output, made):
    """What minisat has written as a model in the lines that others print."""
    lines = (made or b"").decode("latin-1").split("\n")
    if lines[0] == "SAT" and len(lines) > 1:
        return f"s SATISFIABLE\nv {lines[1]}\n".encode("latin-1")
    return bytes(output)
