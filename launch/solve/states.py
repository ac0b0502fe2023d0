"""`search`: walks through states, with growing numbers of states, so that what was entered is known while it goes on."""
from engine import Engine, accept
from groups import part
from jobs import Job
from texts import NEVER, first_line, report, said

STATES = [100000 * 8 ** it for it in range(5)] + [4294967295]


class Search(Engine):
    """`search --how greedy` or `--how least`."""

    def jobs(self):
        for states in STATES:
            call = self.call
            came = yield Job(part([call.searcher, "search", call.domain, call.problem, *self.row.words, "--states", str(states),
                                   "--memory", str(max(16, self.memory() >> 20))], memory=self.memory() * 2))
            if (yield from self.take(came)):
                break
        self.is_over = True

    def take(self, came):
        """What a report says. Answers whether that is all that it can say."""
        it, known = report(came.output), self.call.known
        if it.states is not None and came.status in (0, 1, 2):
            known.states = max(known.states, it.states)
        if came.status == 0:
            if (yield from accept(self, it.calls, it.plan, it.steps)) and it.least:
                known.shortest(len(it.calls), "search")
        elif came.status == 1 and (line := next(filter(NEVER.match, it.lines), None)):
            known.none(line, "search")
            self.tell(said(line))
        elif came.status == 2:
            self.tell(f"{it.states} states, and there are more")
            return False
        elif came.status in (3, 5):
            self.call.refuse(came.status, first_line(came.output))
        elif came.status == 4:
            known.limits[self.row.name] = it.limit or "; limit"
            self.tell(f"past a limit ({said(it.limit or '')})")
        else:
            self.add(came)
        return True
