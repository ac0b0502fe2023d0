"""Any other planner, called as WORDS DOMAIN PROBLEM PLANFILE in a folder of its own, and its plan given to `check`."""
import os
import re

import rooms
from engine import Engine, accept, why_ended
from groups import part
from jobs import Job
from texts import calls_of

LONGEST = 1 << 20


class Planner(Engine):
    """The planner of --planner. It gets copies of the files, so that it cannot change what is checked."""

    def jobs(self):
        call, room = self.call, self.call.rooms.outer()
        files = [rooms.write(os.path.join(room, f"{name}.pddl"), text)
                 for name, text in (("domain", call.domain_text), ("problem", call.problem_text))]
        came = yield Job(part([*call.planner_words, *files, os.path.join(room, "plan")], folder=room, most=1 << 30,
                              environment=rooms.environment(room), memory=self.memory(), size=call.disk, outside=True))
        text = made(room)
        call.rooms.leave(room)
        if text is None:
            self.tell(f"no plan ({why_ended(came)})")
        else:
            calls = calls_of(text)
            yield from accept(self, calls, [f"; plan of {len(calls)} actions", *calls], None)
        self.is_over = True


def made(room):
    """The text of the plan file; of planners that number their plans, that of the last one."""
    def number(name):
        return int(name[5:] or 0) if re.fullmatch(r"plan(\.\d{1,9})?", name) else -1
    try:
        names = [it for it in os.listdir(room) if number(it) >= 0]
    except OSError:
        names = []
    for name in sorted(names, key=number, reverse=True):
        text = rooms.read_made(os.path.join(room, name), LONGEST)
        if text is not None:
            return text
    return None
