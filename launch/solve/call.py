"""A call: the programs, the files, what may be used, and what is known."""
import os
import signal
import sys

import processes
import rooms
from groups import PROCESSES
from known import Known

SIGNALS = (signal.SIGINT, signal.SIGTERM, signal.SIGHUP, signal.SIGQUIT)

# The share of the memory that is free that a call takes where it is told none.
SHARE = 0.75


class Call:
    """What all engines of a call have in common."""

    def __init__(self, tool, root, programs, wish, given, kind="exists"):
        self.tool, self.root = tool, root
        self.planner, self.judge = programs.get("planner"), programs.get("judge")
        self.searcher, self.judge_of_never, self.programs = programs.get("search"), programs.get("never"), programs
        self.known, self.refusal = Known(wish, kind), None
        self.jobs = given["jobs"] or processes.processors()
        self.seconds, self.workers, self.walks = given["seconds"], 1, True
        free = processes.free_memory()
        self.memory = given["memory"] << 20 if given["memory"] else int(free * SHARE)
        self.path, self.processes = os.environ.get("PATH", os.defpath), PROCESSES
        self.solver_name, self.planner_words = None, None
        self.rooms, self.disk, self.given, self.signal, self.is_short = None, None, given, None, False
        self.plain, self.certificate, self.is_told = None, None, False

    def take_files(self, domain, problem):
        """Reads both files once, and puts what all programs read where no outside program is told of."""
        self.paths = domain, problem
        self.domain_text, self.problem_text = rooms.read_input(domain, "domain"), rooms.read_input(problem, "problem")

    def note(self, number, _):
        """A signal ends the call, with what is known."""
        self.signal = self.signal or number

    def open_rooms(self):
        """Makes the folders. From here on a signal ends nothing at once, so that they are removed."""
        for number in SIGNALS:
            signal.signal(number, self.note)
        self.rooms = rooms.Rooms(os.environ.get("TMPDIR") or "/tmp")
        self.disk = self.given["disk"] << 20 if self.given.get("disk") else self.rooms.free() // 4
        self.domain = self.rooms.first_domain = self.rooms.keep(self.domain_text, "domain")
        self.problem = self.rooms.first_problem = self.rooms.keep(self.problem_text, "problem")

    def refuse(self, status, line):
        """The files are refused, by a line of a proved program; the first one counts."""
        self.refusal = self.refusal or (status, line)

    def want_memory(self):
        """An engine was ended for want of memory: with more of it there may be an answer."""
        self.is_short = True

    def say(self, *words):
        """A line on standard error."""
        say(self.tool, *words)

    def tell_place(self, line):
        """On standard error where in the user's files a fault is, or which limit is passed."""
        sys.path.append(os.path.join(self.root, "launch"))
        from messages.calls import tell_line  # (it takes longer to read than a short call)
        tell_line(line, dict(zip(("domain", "problem"), self.paths)), "plan")


def tell_unread(root, error):
    """Why a file was not read; the status that says so."""
    sys.path.append(os.path.join(root, "launch"))
    from messages.calls import tell_unread as tell
    tell(error.path, error.which)
    return 5


def say(tool, *words):
    """A line on standard error."""
    print(f"{tool}:", *words, file=sys.stderr, flush=True)


def put_out(lines):
    """Writes lines on standard output, whole; OSError where that cannot be."""
    text = memoryview("".join(f"{it}\n" for it in lines).encode("latin-1", "replace"))
    while text:
        text = text[os.write(1, text):]


def block_signals():
    """From here on no signal ends the call: what is being written is written whole."""
    for number in SIGNALS:
        signal.signal(number, signal.SIG_IGN)
