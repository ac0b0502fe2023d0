"""What engines have in common, and how a plan is accepted."""
from groups import part
from jobs import Job, Strand
from known import Plan, sentence
from texts import first_line, said


class Engine:
    """One way to look for an answer. It has one strand, unless it says otherwise."""

    def __init__(self, call, row):
        self.call, self.row, self.seconds = call, row, 0.0
        self.strands, self.begun, self.told, self.is_over = [], False, "", False

    def next(self):
        """A new strand, or None where there is nothing to begin."""
        if self.begun:
            return None
        self.begun = True
        return Strand(self, self.row.name, self.jobs())

    def jobs(self):
        """The jobs of its strand."""
        raise NotImplementedError

    def memory(self):
        """The bytes that one of its programs may have."""
        return int(self.call.memory * self.row.memory)

    def tell(self, what):
        """What it has come to, for the report."""
        self.told = what

    def add(self, came):
        """The same, of a job without an answer: what was known before stays."""
        why = why_ended(came)
        if came.status == 8:
            self.call.want_memory()
        if why != "needless" or not self.told:
            self.told = "; ".join(filter(None, [self.told, why]))

    def planner(self, *words, **more):
        """A run of the planner on the task."""
        call = self.call
        return part([call.planner, words[0], call.domain, call.problem, *words[1:]], memory=self.memory(), **more)


def accept(engine, calls, lines, steps):
    """Has `check` accept the calls of a plan: a generator of one job. Tells it in the report, and answers whether it was accepted."""
    call = engine.call
    path = call.rooms.keep("".join(f"{it}\n" for it in calls).encode("latin-1"))
    came = yield Job(part([call.planner, "check", call.domain, call.problem, path], memory=engine.memory()), brief=True)
    line = first_line(came.output)
    if came.status == 0 and line == "; reaches the goal":
        call.known.add(Plan(calls, lines, steps, engine.row.name, "check"))
        engine.tell(f"a plan of {sentence(len(calls), 'action') if steps is None else sentence(steps, 'step')}")
        return True
    engine.tell("a plan that was not checked any more" if came.status is None else f"its plan is not accepted: {said(line)}")
    return False


def why_ended(came):
    """Why a job has no answer."""
    if came.why:
        return came.why
    if came.status is None:
        return "it was ended"
    if came.status == 8:
        return "want of memory"
    if came.status > 128:
        return f"it was ended by signal {came.status - 128}"
    return f"it ended with status {came.status}"
