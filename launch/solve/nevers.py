"""`never`: that no plan of any length exists, at once or by a certificate that `never-search` or an outside program finds."""
from engine import Engine, accept, why_ended
from groups import part
from jobs import Job
from texts import NEVER, first_line, report, said

BUDGETS = [10000 * 8 ** it for it in range(6)]


def judge(engine, path=None):
    """Has `never` judge the task, or a certificate: a generator of one job. Answers whether there is no plan, and the line."""
    call = engine.call
    came = yield Job(part([call.judge_of_never, "never", call.domain, call.problem, *([path] if path else [])],
                          memory=engine.memory()), brief=True)
    line = first_line(came.output)
    if came.status == 0 and NEVER.match(line):
        call.known.none(line, "never")
        call.certificate = path
        return True, line
    if came.status in (3, 5) and not path:
        call.refuse(came.status, line)
    if came.status == 4:
        call.known.limits[engine.row.name] = line
    return False, line or why_ended(came)


class Never(Engine):
    """`never` without a certificate."""

    def jobs(self):
        _, line = yield from judge(self)
        self.tell(said(line))
        self.is_over = True


class NeverSearch(Engine):
    """`never-search`, with growing budgets; what it prints is judged by `never`."""

    def jobs(self):
        call = self.call
        for budget in BUDGETS:
            came = yield Job(part([call.programs["never-search"], "never-search", call.domain, call.problem, "--budget", str(budget)],
                                  memory=self.memory()))
            if came.status == 2:
                self.tell(f"open after {budget} obligations")
                continue
            if came.status == 0:
                good, line = yield from judge(self, call.rooms.keep(came.output))
                self.tell(said(line) if good else f"its certificate is not accepted: {said(line)}")
            elif came.status == 1:
                it = report(came.output)
                yield from accept(self, it.calls, it.plan, it.steps)
            else:
                if came.status == 4:
                    call.known.limits[self.row.name] = first_line(came.output)
                self.add(came)
            break
        self.is_over = True
