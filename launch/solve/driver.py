"""Runs engines side by side, each for its share of the time, until there is an answer, or the time, the memory or the user ends it."""
import select
import time

import processes

# Seconds between two looks at memory and disk, and seconds for what has to be judged yet where time is over.
LOOK, LAST = 0.5, 2


class Driver:
    """The engines, and which of their strands run."""

    def __init__(self, call, engines, tell=None):
        self.call, self.engines, self.tell = call, engines, tell
        self.running, self.begun, self.looked = [], time.monotonic(), 0.0
        self.is_late = False

    def spent(self):
        """The seconds so far."""
        return time.monotonic() - self.begun

    def run(self):
        """Goes on to the end."""
        try:
            while not self.is_over():
                self.stop_needless()
                self.fill()
                if not self.running:
                    if not self.begin_next():
                        break
                    continue
                self.wait()
                self.take()
                self.look()
                self.take_turns()
        finally:
            self.stop_all()

    def is_over(self):
        """Whether the run is at its end."""
        seconds = self.call.seconds
        self.is_late = seconds is not None and self.spent() >= seconds
        return self.call.signal or self.is_late or self.call.refusal or self.call.known.is_over()

    def live(self):
        """All strands that are not over."""
        return [strand for engine in self.engines for strand in engine.strands]

    def stop_needless(self):
        """Ends what can tell nothing more."""
        for strand in self.live():
            needless = getattr(strand.engine, "is_needless", None)
            limit = getattr(strand, "limit", None)
            if needless and needless(strand):
                self.stop(strand, "needless", 0)
            elif limit and strand.seconds + strand.turn() >= limit:
                self.stop(strand, "time", LAST)

    def stop(self, strand, why, seconds):
        """Ends a strand."""
        strand.stop(why, seconds)
        self.forget(strand)

    def forget(self, strand):
        """A strand is over."""
        strand.take_seconds()
        strand.engine.strands.remove(strand)
        if strand in self.running:
            self.running.remove(strand)

    def fill(self):
        """Has as many strands run as may."""
        while len(self.running) < self.call.jobs:
            strand = self.pick()
            if strand is None:
                return
            self.running.append(strand)
            strand.begin_turn()
            if strand.is_over:
                self.forget(strand)

    def pick(self, only_due=True):
        """The strand whose turn it is: of the engine that has had the least for its share."""
        def had(engine):
            return (engine.seconds + sum(it.turn() for it in engine.strands)) / engine.row.weight
        for engine in sorted(self.engines, key=had):
            if engine.is_over or only_due and self.spent() < engine.row.after:
                continue
            if sum(it in self.running for it in engine.strands) >= engine.row.most:
                continue
            waiting = [it for it in engine.strands if it not in self.running]
            strand = engine.next() if len(engine.strands) < self.window(engine) else None
            if strand is not None:
                engine.strands.append(strand)
                return strand
            if waiting:
                return min(waiting, key=lambda it: it.seconds)
        return None

    def window(self, engine):
        """How many strands of an engine may be begun and not over."""
        return 1 if engine.row.most == 1 else 2 * self.call.jobs + 2 if self.call.walks else self.call.jobs

    def begin_next(self):
        """Where nothing runs any more, the next engine begins before its time. Answers whether there is one."""
        strand = self.pick(only_due=False)
        if strand is None:
            return False
        self.running.append(strand)
        strand.begin_turn()
        if strand.is_over:
            self.forget(strand)
        return True

    def wait(self):
        """Waits for something to read, or for the next thing to do."""
        poll = select.poll()
        for strand in self.running:
            for number in strand.job.numbers():
                poll.register(number, select.POLLIN)
        due = [it.row.after - self.spent() for it in self.engines if not it.begun and it.row.after > self.spent()]
        if self.call.seconds is not None:
            due.append(self.call.seconds - self.spent())
        poll.poll(1000 * max(0.001, min([0.25, *due])))

    def take(self):
        """Takes what has come."""
        for strand in list(self.running):
            if strand.hear():
                self.forget(strand)

    def take_turns(self):
        """Where others wait, a strand whose turn is over stands still."""
        for strand in list(self.running):
            turn = strand.engine.row.turn * 2 ** min(strand.turns - 1, 10)
            if strand.turn() >= turn and self.others_wait(strand):
                strand.end_turn()
                self.running.remove(strand)

    def others_wait(self, strand):
        """Whether another strand could run in the place of this one."""
        if len(self.running) < self.call.jobs:
            return False
        for engine in self.engines:
            if engine.is_over or self.spent() < engine.row.after:
                continue
            busy = sum(it in self.running for it in engine.strands) - (strand.engine is engine)
            if busy >= engine.row.most:
                continue
            if any(it not in self.running for it in engine.strands):
                return True
            if not engine.begun and engine.row.most == 1:
                return True
            if engine.row.most > 1 and len(engine.strands) < self.window(engine) and engine.choose() is not None:
                return True
        return False

    def look(self):
        """From time to time, at what all of it uses."""
        if self.spent() - self.looked < LOOK:
            return
        self.looked = self.spent()
        rows, used = processes.table(), []
        for strand in self.live():
            memory, count = strand.job.uses(rows)
            if count > self.call.processes:
                self.stop(strand, f"it has started more than {self.call.processes} processes", LAST)
            elif memory > 1.2 * strand.engine.memory():
                self.call.want_memory()
                self.stop(strand, f"it wants more than its {strand.engine.memory() >> 20} MB", LAST)
            else:
                used.append((memory, strand))
        if sum(memory for memory, _ in used) > self.call.memory:
            self.call.want_memory()
            self.stop(max(used, key=lambda it: it[0])[1], "memory is short", LAST)
        self.look_at_disk()
        if self.tell:
            self.tell(self)

    def look_at_disk(self):
        """Ends what fills the disk."""
        rooms, disk = self.call.rooms, self.call.disk
        if rooms.told and rooms.free() < disk:
            for strand in self.live():
                if any(it.outside for it in strand.job.parts):
                    self.stop(strand, "the disk is nearly full", LAST)
        for strand in self.live():
            for it in strand.job.parts:
                if it.outside and it.folder in rooms.told and rooms.size(it.folder) > disk:
                    self.stop(strand, f"it has written more than {disk >> 20} MB", LAST)
                    break

    def stop_all(self):
        """Ends all that runs."""
        why = "time" if self.is_late else "interrupted" if self.call.signal else "needless"
        for strand in self.live():
            strand.hurry()
        for strand in self.live():
            self.stop(strand, why, LAST if self.is_late else 0)
