"""A job: programs that run together, one of them perhaps behind another; and a strand: jobs one after another."""
import os
import time

from groups import Group


class Ended:
    """What a job has come to: the status of each program, None where it was ended; what each printed; its seconds; why it was
    ended, or nothing."""

    def __init__(self, groups, why, seconds):
        self.statuses = [it.status if it.had_ended else None for it in groups]
        self.outputs = [bytes(it.output) for it in groups]
        self.seconds, self.why = seconds, why
        self.status, self.output = self.statuses[0], self.outputs[0]


class Job:
    """Programs that are begun together. `over` tells from those that have ended whether the others may be ended; `closes` are
    files that are not needed here once all have begun. A brief one is run to its end, for some seconds, also where time is over."""

    def __init__(self, *parts, over=None, closes=(), brief=False):
        self.parts, self.over, self.closes, self.brief = parts, over, closes, brief
        self.groups, self.seconds, self.since, self.why = [], 0.0, None, None

    def begin(self):
        """Begins all of them."""
        self.since = time.monotonic()
        self.groups = [Group(it) for it in self.parts]
        for group in self.groups:
            group.had_ended = True
        self.leave()

    def leave(self):
        """Closes what only the programs need."""
        for number in self.closes:
            os.close(number)
        self.closes = ()

    def spent(self):
        """The seconds for which it has run."""
        return self.seconds + (time.monotonic() - self.since if self.since is not None else 0)

    def pause(self):
        """All of it stands still."""
        self.seconds, self.since = self.spent(), None
        for group in self.groups:
            group.pause()

    def resume(self):
        """Goes on."""
        self.since = time.monotonic()
        for group in self.groups:
            group.resume()

    def hear(self):
        """Takes what the programs have printed; True where all has ended."""
        for group in self.groups:
            if not group.has_ended():
                group.hear()
                if group.overflow:
                    self.end("it prints without end")
        left = [it for it in self.groups if not it.has_ended()]
        if left and self.over and self.over(self.groups):
            self.end(None)
            left = []
        return not left

    def end(self, why):
        """Ends all that still runs, for this reason."""
        self.leave()
        for group in self.groups:
            if not group.has_ended():
                group.had_ended = False
                self.why = self.why or why
                group.end()

    def numbers(self):
        """The files on which it is heard."""
        return [number for group in self.groups if not group.has_ended() for number in group.numbers()]

    def uses(self, rows):
        """Its bytes of memory, and the most processes that one of its outside programs has."""
        both = [(group.part, group.uses(rows)) for group in self.groups if not group.has_ended()]
        return sum(it[0] for _, it in both), max([it[1] for part, it in both if part.outside], default=0)

    def ended(self):
        """What it has come to."""
        return Ended(self.groups, self.why, self.spent())


class Strand:
    """Jobs of an engine, one after another: a generator that gives jobs and takes what each has come to."""

    def __init__(self, engine, name, jobs):
        self.engine, self.name, self.jobs = engine, name, jobs
        self.job, self.is_over, self.turns = None, False, 0
        self.seconds, self.turn_since = 0.0, None

    def begin_turn(self):
        """Runs from now on."""
        self.turn_since = time.monotonic()
        self.turns += 1
        if self.job is None:
            self.step(None)
        else:
            self.job.resume()

    def step(self, came):
        """Begins the next job."""
        try:
            self.job = next(self.jobs) if came is None else self.jobs.send(came)
            self.job.begin()
        except StopIteration:
            self.job, self.is_over = None, True

    def end_turn(self):
        """Stands still."""
        self.job.pause()
        self.take_seconds()

    def take_seconds(self):
        """The seconds of the turn that ends are the engine's."""
        if self.turn_since is not None:
            spent = time.monotonic() - self.turn_since
            self.seconds, self.turn_since = self.seconds + spent, None
            self.engine.seconds += spent

    def turn(self):
        """The seconds of the turn so far."""
        return 0.0 if self.turn_since is None else time.monotonic() - self.turn_since

    def hear(self):
        """Takes what has come; True where the strand is over."""
        while not self.is_over and self.job.hear():
            self.step(self.job.ended())
        return self.is_over

    def hurry(self):
        """What runs begins to end, but for a brief job."""
        if self.job is not None and not self.job.brief:
            for group in self.job.groups:
                group.hurry()

    def stop(self, why, seconds):
        """Ends what runs. The jobs behind it are told, so that what is known is kept; brief ones have so many seconds more."""
        until = time.monotonic() + seconds
        while self.job is not None:
            if self.job.brief and time.monotonic() < until:
                while not self.job.hear() and time.monotonic() < until:
                    time.sleep(0.002)
            self.job.end(why)
            try:
                self.job = self.jobs.send(self.job.ended())
            except StopIteration:
                break
            if not self.job.brief:
                self.job.leave()
                break
            self.job.begin()
        self.job, self.is_over = None, True
        self.jobs.close()
        self.take_seconds()
