#!/usr/bin/env python3
"""progress.py PROCESS ROOM SCOUTS WORD.., run by dokyreva where standard error is a terminal: shows what a run has used, and what is
known so far.

From two seconds on it writes one line over and over: seconds, and what PROCESS has used of processors and memory. The program
prints its report at its end alone; so that something is known before, a second run with a small budget of conflicts, one worker
and the lowest priority is made beside it, and then one with four times the budget, and so on. Its report is a front of what the
run itself will find. With SCOUTS no there is none; then ROOM/report is read, which is there where the launcher asks for growing
budgets itself. What is known stands in ROOM/known too. The variables DOKYREVA_PROGRAM and DOKYREVA_TIED are those of explain.py."""
import os
import pathlib
import subprocess
import sys
import time

sys.dont_write_bytecode = True
from messages.known import GROWING, Known, value_of, without

TICKS = os.sysconf("SC_CLK_TCK")


class Scout:
    """Runs with growing budgets beside the run itself, one after another."""

    def __init__(self, room, words):
        self.room, self.words = room, words
        self.most = int(value_of(words, "--budget", "100000"))
        self.left = [it for it in GROWING if it < self.most]
        self.run, self.budget, self.text = None, 0, ""

    def look(self):
        """Begins the next run where none runs, and takes in what one that has ended has found."""
        if self.run and self.run.poll() is not None:
            if self.run.returncode in (0, 1, 2):
                self.take()
            else:
                self.left = []
            self.run = None
        if self.run is None and self.left:
            self.begin(self.left.pop(0))

    def begin(self, budget):
        """Begins a run."""
        self.budget = budget
        words = [*without(self.words, "--budget", "--workers"), f"--budget={budget}", "--workers=1"]
        with open(self.room / "scout", "wb") as out:
            self.run = subprocess.Popen(["setpriv", "--pdeathsig", "KILL", os.environ["DOKYREVA_PROGRAM"], *words], stdout=out,
                                        stdin=subprocess.DEVNULL, stderr=subprocess.DEVNULL, preexec_fn=lambda: os.nice(19))

    def take(self):
        """What the run that has ended has found."""
        known = Known((self.room / "scout").read_text())
        self.text = f"{known.told() or 'nothing is refuted'} (after {known.spent} conflicts of {self.most})"
        if known.told():
            keep(self.room, f"{known.told()} (by a search with --budget {self.budget})")


def keep(room, text):
    """Puts what is known into a file, whole."""
    (room / "known.new").write_text(text + "\n")
    (room / "known.new").replace(room / "known")


def of_report(room):
    """What the last report says that the launcher has kept."""
    try:
        known = Known((room / "report").read_text())
    except OSError:
        return ""
    if known.told():
        keep(room, known.told())
    return f"{known.told() or 'nothing is refuted'} (after {known.spent} conflicts)"


def used_by(process):
    """The seconds of processors and the megabytes of memory that a process has used; nothing where it is gone."""
    try:
        fields = pathlib.Path(f"/proc/{process}/stat").read_text().rsplit(") ", 1)[1].split()
        lines = pathlib.Path(f"/proc/{process}/status").read_text().splitlines()
    except (OSError, IndexError):
        return None
    peak = next((int(it.split()[1]) // 1024 for it in lines if it.startswith("VmHWM")), 0)
    return f"{(int(fields[11]) + int(fields[12])) // TICKS} s of processors, {peak} MB"


def main(words):
    """Shows it until the process is gone."""
    process, room, words = words[0], pathlib.Path(words[1]), words[2:]
    scout = Scout(room, words[1:]) if words[0] == "yes" else None
    begun = time.monotonic()
    time.sleep(2)
    used = used_by(process)
    while used:
        if scout:
            scout.look()
        text = scout.text if scout else of_report(room)
        sys.stderr.write(f"\033[K{int(time.monotonic() - begun)} s, {used}{'; ' + text if text else ''}\r")
        sys.stderr.flush()
        time.sleep(1)
        used = used_by(process)
    return 0


if __name__ == "__main__":
    sys.exit(main(sys.argv[1:]))
