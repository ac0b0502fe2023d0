"""Searches for certificates that there is no plan of any length, by outside programs. What they find is judged by `never`.

Clauses that `never` does not take, since unit propagation does not show that they are kept, are given to a SAT solver with the formula of
`never-formula`, and its proof to `never-judge`."""
import os
import sys

import options
import rooms
import solvers
from engine import Engine, why_ended
from groups import part
from jobs import Job
from nevers import judge
from sat import Sat
from texts import NEVER, first_line, said

FORMULA, LONGEST = 1 << 28, 1 << 24
SECONDS = 100000


class Search(Engine):
    """An outside program in a folder of its own, of what it finds a certificate is made."""

    def __init__(self, call, row, words, proof=None):
        super().__init__(call, row)
        self.words, self.proof = words, proof

    def jobs(self):
        room = self.call.rooms.outer()
        try:
            text = yield from self.search(room)
            if text is not None:
                yield from self.see(text, room)
        finally:
            self.call.rooms.leave(room)
        self.is_over = True

    def search(self, room):
        """The jobs of the search, which answer the text of a certificate or None."""
        raise NotImplementedError

    def see(self, text, room):
        """Has `never` judge a certificate, and a solver where that is not enough."""
        path = self.call.rooms.keep(text)
        good, line = yield from judge(self, path)
        if not good and line.startswith("; rejected clause ") and self.proof:
            good, line = yield from self.proof(self.call, self.row).prove(path, room)
        if line == "needless":
            self.tell("a certificate that was not judged any more")
        else:
            self.tell(said(line) if good else f"its certificate is not accepted: {said(line)}")

    def run(self, words, room):
        """A run of the outside program."""
        return part([*self.words, *words], folder=room, environment=rooms.environment(room), memory=self.memory(), size=self.call.disk,
                    outside=True)

    def ask(self, program, *words):
        """A private file with what a proved program prints of the task; None where it does not."""
        call = self.call
        came = yield Job(part([program, words[0], call.domain, call.problem, *words[1:]], memory=self.memory(), most=FORMULA))
        if came.status == 0:
            return call.rooms.keep(came.output)
        if came.status == 4:
            call.known.limits[self.row.name] = first_line(came.output)
        if came.status in (3, 5):
            call.refuse(came.status, first_line(came.output))
        self.tell(f"{words[0]} has no answer: {said(first_line(came.output)) if came.status in (1, 3, 4, 5) else why_ended(came)}")
        return None

    def script(self, *words):
        """What a script makes of texts; None where it makes nothing of them."""
        here = os.path.dirname(os.path.abspath(__file__))
        came = yield Job(part([sys.executable, "-I", "-S", "-B", here, *words], memory=self.memory(), most=FORMULA))
        return bytes(came.output) if came.status == 0 else None

    def seconds_left(self):
        """The seconds that the program is told."""
        return str(min(SECONDS, max(1, int(self.call.seconds or SECONDS))))


class Glpk(Search):
    """Weights, by glpsol."""

    def search(self, room):
        call, texts = self.call, []
        for program, words in ((call.planner, ["ground"]), (call.judge, ["formula", "1"])):
            text = yield from self.ask(program, *words)
            if text is None:
                return None
            texts.append(text)
        program = yield from self.script("weights", "program", *texts)
        if program is None:
            self.tell("the goal and what is known exclude one another, or the formula is none of horizon 1")
            return None
        rooms.write(os.path.join(room, "program"), program)
        came = yield Job(self.run(["--lp", "program", "--tmlim", self.seconds_left(), "-w", "solution"], room))
        solution = rooms.read_made(os.path.join(room, "solution"), FORMULA)
        if solution is None or b"OPTIMAL LP SOLUTION FOUND" not in came.output:
            self.tell("there are no weights" if b"NO PRIMAL FEASIBLE SOLUTION" in came.output else f"no weights ({why_ended(came)})")
            return None
        text = yield from self.script("weights", "certificate", *texts, call.rooms.keep(program), call.rooms.keep(solution))
        if text is None:
            self.tell("its solution can not be read, or has weights that are too great")
        return text


class Abc(Search):
    """Clauses, by the property-directed reachability of ABC."""

    def search(self, room):
        system = yield from self.ask(self.call.programs["system"], "system")
        zeros = (yield from self.script("invariants", "zeros", system)) if system else None
        if zeros is None:
            return None
        rooms.write(os.path.join(room, "system.blif"), zeros)
        came = yield Job(self.run(["-c", f"read_blif system.blif; strash; pdr -T {self.seconds_left()} -d"], room))
        found = invariant(room)
        if found is None:
            asserted = b"was asserted in frame" in came.output
            self.tell("it says that there is a plan" if asserted else f"no clauses ({why_ended(came)})")
            return None
        text = yield from self.script("invariants", "certificate", system, self.call.rooms.keep(found))
        if text is None:
            self.tell("its invariant can not be read")
        return text


def invariant(room):
    """The invariant that ABC has written; None where there is none, or more than one."""
    try:
        names = [it for it in os.listdir(room) if it.endswith("inv.pla")]
    except OSError:
        return None
    return rooms.read_made(os.path.join(room, names[0]), FORMULA) if len(names) == 1 else None


class Other(Search):
    """Any program that is called as WORDS SYSTEM CERTIFICATE."""

    def search(self, room):
        form = self.call.given["format"]
        system = yield from self.ask(self.call.programs["system"], "system", *([] if form == "blif" else ["--format", form]))
        if system is None:
            return None
        with open(system, "rb") as file:
            files = [rooms.write(os.path.join(room, f"system.{form}"), file.read()), os.path.join(room, "certificate")]
        came = yield Job(self.run(files, room))
        text = rooms.read_made(files[1], LONGEST)
        if text is None:
            self.tell(f"no certificate ({why_ended(came)})")
        return text


class Proof(Sat):
    """A SAT solver on the formula of clauses; its proof is judged by `never-judge`."""

    WORDS = {"formula": "never-formula", "judge": "never-judge"}

    def judge(self, word, n, *more, **how):
        call = self.call
        return part([call.programs["never-formula"], self.WORDS[word], call.domain, call.problem, self.path, *more], memory=self.memory(), **how)

    def is_accepted(self, n, line):
        return NEVER.match(line)

    def take_model(self, n, text):
        self.set(n, "open", "; the solver says that an action does not keep the clauses")
        yield from ()

    def prove(self, path, room):
        """The jobs. They answer whether there is no plan, and a line."""
        self.path, self.came[0] = path, ("live", "")
        if self.solver is None:
            self.solver = yield from solvers.look(self.name, self.call.path, room)
        if (yield from self.write_formula(0, room)):
            yield from self.ask_solver(0, room)
        state, line = self.came[0]
        if state == "refuted":
            self.call.known.none(line, "never-judge")
            self.call.certificate = path
        return state == "refuted", line or state

    def set(self, n, state, line=""):
        self.came[n] = (state, line)


# The searches by their names: what makes each, its program, the package of Debian that has it, and what it asks of the task.
NAMED = {"glpk": (Glpk, "glpsol", "glpk-utils", ("planner", "judge")), "abc": (Abc, "berkeley-abc", "berkeley-abc", ("system",))}
OF_TASK = {"planner": "the planner", "judge": "the program that judges", "system": "a program that writes the task as a system",
           "never": "a program that judges certificates", "never-search": "a program that searches for certificates"}


def found(name, path):
    """The path of the program of a search, or None."""
    return options.which(NAMED[name][1], path)


def lacking(call, name):
    """What a search lacks, in words; nothing where it lacks nothing."""
    _, program, package, needs = NAMED[name]
    if not found(name, call.path):
        return f"there is no command {program}: the package {package} has it"
    return without(call, *needs, "never")


def without(call, *needs):
    """Which of these words of the proved programs is not there, in words; nothing where all are."""
    return next((f"missing here: {OF_TASK[it]}" for it in needs if it not in call.programs), "")


def prover(call, name):
    """What makes a solver for clauses that `never` does not take, where one is named and the formula can be had."""
    return (lambda call, row: Proof(call, row, name)) if name and "never-formula" in call.programs else None
