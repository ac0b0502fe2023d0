"""The planner's own race over horizons, with growing budgets, so that what was found is known while it goes on."""
from engine import Engine, accept
from jobs import Job
from known import MOST
from texts import LITERALS, first_line, report, said

BUDGETS = [250, 1000, 4000, 16000, 64000, 256000, 1000000]
REFUSALS = {3, 5, 6, 7, 9}


class Race(Engine):
    """`plan --alg c`, from the greatest refuted horizon on: with growing horizons, or with each one."""

    def jobs(self):
        last = self.call.known.wish.steps
        last = MOST if last is None else min(last, MOST)
        for budget in BUDGETS:
            while True:
                known, came = self.call.known, None
                first = known.refuted + 1
                last = min(last, known.last())
                if first > last:
                    self.is_over = True
                    return
                came = yield Job(self.planner("plan", "--alg", "c", *self.row.words, "--start", str(first), "--max-horizon",
                                              str(last), "--budget", str(budget), "--workers", str(self.call.workers)))
                lower = yield from self.take(came, budget, last)
                if lower is None:
                    break
                last = lower
            if self.is_over or self.call.known.is_over():
                return
        self.is_over = True

    def take(self, came, budget, last):
        """What a report says. Answers a lower last horizon where another run has to stay below a limit."""
        it, known = report(came.output), self.call.known
        if came.status in REFUSALS:
            self.call.refuse(came.status, first_line(came.output))
            self.is_over = True
        elif came.status == 4:
            return self.take_limit(it)
        elif came.status in (0, 1, 2):
            for horizon, word, line in it.horizons:
                if word == "refuted":
                    known.refute(horizon, line, "plan")
            if came.status == 0:
                yield from accept(self, it.calls, it.plan, it.steps)
            else:
                self.tell(f"refuted to {known.refuted}, with {budget} conflicts" if known.refuted >= 0
                          else f"nothing is refuted with {budget} conflicts")
            self.is_over = self.is_over or came.status == 1 and last == MOST
        else:
            self.add(came)
            self.is_over = True
        return None

    def take_limit(self, it):
        """A limit of the task ends it; one of a horizon's formula leaves those below."""
        line = it.limit or "; limit"
        found = LITERALS.match(line)
        self.call.known.limits[self.row.name] = line
        if found and int(found[2]) > self.call.known.refuted + 1:
            return int(found[2]) - 1
        self.tell("; ".join(filter(None, [self.told, f"past a limit ({said(line)})"])))
        self.is_over = True
        return None
