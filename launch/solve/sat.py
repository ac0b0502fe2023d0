"""A SAT solver on the formulas of horizons; what it says is judged by the proved program `judge`, and believed in nothing.

The proof goes from the solver into `judge` through a pipe while it is written. The solver is told of a folder of its own with the
formula in it; what `judge` says is read from its own standard output."""
import os
import time

import options
import rooms
import solvers
from engine import Engine, why_ended
from groups import part
from jobs import Job, Strand
from known import Plan
from texts import LITERALS, REFUTED, calls_of, first_line, lines_of, report, said

# Seconds that a solver has to end in once its proof was judged.
GRACE = 3
MODEL = 1 << 28

# After so many horizons one after another that end by themselves without an answer that is accepted, a solver is given up.
FAILURES = 5


class Sat(Engine):
    """A SAT solver on a window of horizons that walks: consecutive and growing ones in turn, each for its share of the time, so
    that a hard one keeps none waiting."""

    def __init__(self, call, row, name):
        super().__init__(call, row)
        self.name, self.solver, self.lookers = name, None, 0
        self.came, self.lowest_limit, self.count, self.hint = {}, 256, 0, -1
        self.grown, self.seconds_each, self.first, self.failures = 0, None, 0, 0

    def next(self):
        """The strand of a new horizon."""
        n = self.choose()
        if n is None:
            self.is_over = not self.strands
            return None
        self.count += 1
        self.came[n] = ("live", "")
        strand = Strand(self, f"horizon {n}", self.horizon(n))
        strand.horizon, strand.limit = n, self.seconds_each
        return strand

    def choose(self):
        """The next horizon to look at: in turn the lowest one, and one of those that grow, or the highest below a known plan."""
        known = self.call.known
        first, last = max(self.first, known.refuted + 1, self.hint + 1), min(known.last(), self.lowest_limit - 1)
        left = [n for n in range(first, last + 1) if n not in self.came]
        if not left or self.is_over or self.solver is None and self.strands:
            return None
        if self.count % 2 == 0 or not self.call.walks:
            return left[0]
        if known.upper() is not None:
            return left[-1]
        self.grown = max(self.grown, first) + max(1, (max(self.grown, first) - first + 1) // 2)
        return min((n for n in left if n >= self.grown), default=left[0])

    def is_needless(self, strand):
        """Another horizon decides of this one."""
        known = self.call.known
        return strand.horizon <= known.refuted or strand.horizon > known.last() or strand.horizon >= self.lowest_limit

    def set(self, n, state, line=""):
        """What a horizon has come to."""
        state = "needless" if line == "needless" else state
        self.came[n] = (state, line)
        known = self.call.known
        if state == "refuted":
            known.refute(n, line, "judge")
        if state in ("refuted", "plan", "unjudged"):
            self.failures = 0
        elif state in ("rejected", "lost") or state == "open" and line != "time":
            self.failures += 1
        told = [f"refuted to {known.refuted}" if known.refuted >= 0 else "no horizon is refuted"]
        if state == "rejected":
            told.append(f"what {self.name} said of horizon {n} is not accepted ({line})")
        if self.failures >= FAILURES and self.call.walks:
            told.append(f"given up after {FAILURES} horizons without an answer" + (f" ({line})" if state != "rejected" and line else ""))
            self.lowest_limit = 0
        self.tell("; ".join(told))

    def horizon(self, n):
        """The jobs of a horizon, in a folder of its own."""
        room = self.call.rooms.outer()
        try:
            if self.solver is None:
                self.solver = yield from solvers.look(self.name, self.call.path, room)
            if (yield from self.write_formula(n, room)):
                yield from self.ask_solver(n, room)
        finally:
            if self.came[n][0] == "live":
                self.set(n, "open")
            self.call.rooms.leave(room)

    def judge(self, word, n, *more, **how):
        """A run of the judge on the task."""
        call = self.call
        return part([call.judge, word, call.domain, call.problem, str(n), *more, "--steps", call.known.kind], memory=self.memory(), **how)

    def write_formula(self, n, room):
        """Has the judge write the formula into the folder. Answers whether it is there."""
        path = os.path.join(room, "cnf")
        number = os.open(path, os.O_WRONLY | os.O_CREAT | os.O_EXCL, 0o600)
        came = yield Job(self.judge("formula", n, out=number), closes=[number])
        if came.status == 0:
            return True
        line = first_line(rooms.read_made(path, 1 << 16) or b"")
        if came.status == 4:
            self.call.known.limits[self.row.name] = line
            found = LITERALS.match(line)
            self.lowest_limit = min(self.lowest_limit, n if found else 0)
            self.set(n, "limit", line)
        elif came.status in (3, 5, 7):
            self.call.refuse(came.status, line)
            self.set(n, "refused", line)
        else:
            self.set(n, "lost", why_ended(came))
        return False

    def run(self, words, room, *files):
        """A run of an outside program in its folder."""
        return part(words, folder=room, environment=rooms.environment(room), memory=self.memory(), size=self.call.disk,
                    most=MODEL, files=files, outside=True)

    def ask_solver(self, n, room):
        """Runs the solver, and the judge behind it."""
        way, words, cnf = self.solver.way, self.solver.words, os.path.join(room, "cnf")
        judged = None
        if way == "lrat":
            came, judged = yield from self.judge_behind(n, room, lambda proof: [*words, cnf, proof])
        else:
            proof = {"drat": [os.path.join(room, "proof")], "minisat": [os.path.join(room, "model")]}.get(way, [])
            came = yield Job(self.run([*words, cnf, *proof], room))
            if came.status == 20 and way == "drat":
                trim = options.which("drat-trim", self.call.path)
                came, judged = yield from self.judge_behind(
                    n, room, lambda lrat: [trim, cnf, proof[0], "-L", lrat, "-t", "1000000"])
        if judged is not None and judged[0] == 0:
            self.set(n, "refuted", judged[1])
        elif came.status == 10:
            model = solvers.as_model(came.output, rooms.read_made(proof[0], MODEL)) if way == "minisat" else came.output
            yield from self.take_model(n, model)
        elif judged is not None and came.why is None and judged[0] in (1, 3) and (came.status in (20, None) or came.status > 128):
            self.set(n, "rejected", said(judged[1]))
        elif came.status == 20:
            self.hint = max(self.hint, n) if judged is None else self.hint
            self.set(n, "unjudged", "it says that there is no model, and what it says was not judged")
        else:
            self.set(n, "open", why_ended(came))

    def judge_behind(self, n, room, words):
        """Runs an outside program that writes a proof, with the judge behind it. Answers what the program came to, and the
        judge's status and line, where it has ended by itself."""
        read, write = os.pipe()
        came = yield Job(self.run(words(f"/dev/fd/{write}"), room, write), self.judge("judge", n, "-", given=read),
                         over=Behind(), closes=[read, write])
        status, line = came.statuses[1], first_line(came.outputs[1])
        if status is None:
            return came, None
        good = status == 0 and self.is_accepted(n, line) and len(lines_of(came.outputs[1])) == 1
        return came, (0 if good else status or 6, line)

    def is_accepted(self, n, line):
        """Whether the judge's line says that a proof was accepted."""
        found = REFUTED.match(line)
        return found and int(found[1]) == n

    def take_model(self, n, text):
        """Has the judge make a plan of a model."""
        given = os.open(self.call.rooms.keep(text), os.O_RDONLY)
        came = yield Job(self.judge("model", n, "-", given=given), closes=[given], brief=True)
        if came.status == 0:
            it = report(came.output)
            self.call.known.add(Plan(calls_of(came.output), it.plan, it.steps, self.row.name, "model"))
            self.set(n, "plan")
        elif came.status in (1, 3):
            self.set(n, "rejected", said(first_line(came.output)))
        else:
            self.set(n, "lost", why_ended(came))


class Behind:
    """Tells when a program and the judge behind it may be ended: where the proof was accepted; where the program has said other
    than that there is no model; where the proof was not accepted and the program goes on for some seconds."""

    def __init__(self):
        self.since = None

    def __call__(self, groups):
        program, judge = groups
        if judge.has_ended():
            self.since = self.since or time.monotonic()
            return program.has_ended() or judge.status == 0 or time.monotonic() - self.since > GRACE
        return program.has_ended() and program.status not in (0, 20)
