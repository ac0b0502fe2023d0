"""A program with all that it starts: begun, paused, and ended whole.

Each program has a keeper, a process of this script between the driver and it. What the program starts stays below the keeper,
also where it leaves its session or its parent ends, since the system hands orphans to it. The keeper ends all of it where the
program ends, where the driver says so, and where the driver is gone."""
import collections
import os
import resource
import select
import signal
import time

import processes

SUBREAPER, DEATH_SIGNAL = 36, 1
LOST = 127

# The signals that a keeper waits for: they are blocked in it, so that none comes in the middle of what it does.
KEPT = {signal.SIGTERM, signal.SIGCHLD}

# How many processes an outside program may have at once.
PROCESSES = 512

# How a program is to be run: its words; what its standard input is (a file's number; nothing where None); where standard output
# goes (a file's number; to the driver where None) and how many bytes of it are taken; further files that it is given by their
# numbers; its folder; its environment; bytes of memory for one process and of one file; whether it is an outside program.
Part = collections.namedtuple("Part", "words given out most files folder environment memory size outside")


def part(words, given=None, out=None, most=1 << 26, files=(), folder="/", environment=None, memory=None, size=None, outside=False):
    """How a program is to be run, with what is mostly so."""
    return Part(list(map(os.fspath, words)), given, out, most, files, folder, environment, memory, size, outside)


def system_call():
    """The call prctl of the system, or None where it cannot be had."""
    try:
        import ctypes
        return ctypes.CDLL(None).prctl
    except (ImportError, OSError, AttributeError):
        return None


PRCTL = system_call()


class Group:
    """A program that runs under its keeper."""

    def __init__(self, it):
        self.part, self.begun = it, time.monotonic()
        self.output, self.overflow = bytearray(), False
        self.status, self.own, self.paused = None, 0.0, False
        self.told, status = os.pipe()
        self.reads = None
        out = it.out
        if out is None:
            self.reads, out = os.pipe()
        driver = os.getpid()
        before = signal.pthread_sigmask(signal.SIG_BLOCK, KEPT)
        self.keeper = os.fork()
        if self.keeper == 0:
            try:
                keep(it, out, status, driver)
            finally:
                os._exit(1)
        signal.pthread_sigmask(signal.SIG_SETMASK, before)
        os.close(status)
        if it.out is None:
            os.close(out)
            os.set_blocking(self.reads, False)

    def numbers(self):
        """The files on which it is heard."""
        return [it for it in (self.told, self.reads) if it is not None]

    def hear(self):
        """Takes what it has written, and its status where it has ended."""
        self.read_output()
        if self.told is not None and select.select([self.told], [], [], 0)[0]:
            self.take_status()

    def read_output(self):
        """Takes what is there of its output, up to what may be."""
        while self.reads is not None and not self.overflow:
            try:
                some = os.read(self.reads, 1 << 16)
            except BlockingIOError:
                return
            self.output += some
            self.overflow = len(self.output) > self.part.most
            if not some:
                os.close(self.reads)
                self.reads = None

    def take_status(self):
        """The keeper has ended: all that the program wrote is in the pipe by now."""
        words = os.read(self.told, 100).split()
        os.close(self.told)
        self.told = None
        self.read_output()
        if self.reads is not None:
            os.close(self.reads)
            self.reads = None
        try:
            os.waitpid(self.keeper, 0)
        except ChildProcessError:
            pass
        self.status, self.own = (int(words[0]), float(words[1])) if len(words) == 2 else (LOST, 0.0)

    def has_ended(self):
        """Nothing of it runs any more."""
        return self.told is None

    def uses(self, rows):
        """Its bytes of memory and its number of processes, by the table of processes."""
        these = processes.below(self.keeper, rows)
        return sum(rows[it].memory for it in these), len(these)

    def pause(self):
        """All of it stands still until it is resumed."""
        if not self.has_ended():
            processes.signal_below(self.keeper, signal.SIGSTOP)
        self.paused = True

    def resume(self):
        """Goes on."""
        if not self.has_ended():
            processes.signal_below(self.keeper, signal.SIGCONT)
        self.paused = False

    def hurry(self):
        """The keeper begins to end all of it."""
        if not self.has_ended():
            processes.send(self.keeper, signal.SIGTERM)

    def end(self):
        """Ends all of it, and takes what it has come to."""
        if self.has_ended():
            return
        self.hurry()
        if not select.select([self.told], [], [], 10)[0]:
            processes.end_below(self.keeper)
            processes.send(self.keeper, signal.SIGKILL)
        self.take_status()


def keep(it, out, status, driver):
    """The keeper: begins the program, waits for it or for the end that the driver asks for, and ends what is left."""
    for number in (signal.SIGINT, signal.SIGQUIT, signal.SIGHUP, signal.SIGUSR1):
        signal.signal(number, signal.SIG_IGN)
    signal.signal(signal.SIGCHLD, signal.SIG_DFL)
    os.setsid()
    close_others({0, 1, 2, out, status, it.given, *it.files})
    if PRCTL:
        PRCTL(SUBREAPER, 1, 0, 0, 0)
        PRCTL(DEATH_SIGNAL, signal.SIGTERM, 0, 0, 0)
    code, own, child = None, 0.0, None
    if os.getppid() == driver:
        child = os.fork()
        if child == 0:
            begin(it, out)
        nothing = os.open(os.devnull, os.O_RDWR)
        for number in range(3):
            os.dup2(nothing, number)
        close_others({0, 1, 2, status})
        code, own = wait_for(child)
    if it.outside:
        processes.end_below(os.getpid(), reap)
    elif child and code is None:
        end_own(child)
    os.write(status, f"{LOST if code is None else code} {own:.3f}".encode())


def end_own(child):
    """Ends a proved program, which starts no others: to look through all processes would take longer than many a task."""
    for end in (os.killpg, os.kill):
        try:
            end(child, signal.SIGKILL)
        except (ProcessLookupError, PermissionError):
            pass
    os.waitpid(child, 0)


def close_others(kept):
    """Closes all files but these."""
    for name in os.listdir("/proc/self/fd"):
        if int(name) not in kept:
            try:
                os.close(int(name))
            except OSError:
                pass


def wait_for(child):
    """The status of the program, and its seconds of the processor; other processes that end meanwhile are taken up. Where the driver
    asks for the end, or is gone, that is None."""
    while signal.sigwait(KEPT) != signal.SIGTERM:
        process = 1
        while process:
            process, ended, used = os.wait4(-1, os.WNOHANG)
            if process == child:
                return as_shell(ended), used.ru_utime + used.ru_stime
    return None, 0.0


def as_shell(ended):
    """A status as shells tell it."""
    code = os.waitstatus_to_exitcode(ended)
    return code if code >= 0 else 128 - code


def reap():
    """Takes up all that has ended."""
    try:
        while os.waitpid(-1, os.WNOHANG)[0]:
            pass
    except ChildProcessError:
        pass


def begin(it, out):
    """Becomes the program."""
    try:
        os.setpgid(0, 0)
        nothing = os.open(os.devnull, os.O_RDWR)
        os.dup2(nothing if it.given is None else it.given, 0)
        os.dup2(out, 1)
        os.dup2(nothing, 2)
        close_others({0, 1, 2, *it.files})
        for number in it.files:
            os.set_inheritable(number, True)
        for number in range(1, 32):
            if number not in (signal.SIGKILL, signal.SIGSTOP):
                signal.signal(number, signal.SIG_DFL)
        signal.pthread_sigmask(signal.SIG_SETMASK, ())
        limit(it)
        os.chdir(it.folder)
        os.execvpe(it.words[0], it.words, os.environ if it.environment is None else it.environment)
    finally:
        os._exit(LOST)


def limit(it):
    """Sets what one process of the program may have."""
    wanted = [(resource.RLIMIT_CORE, 0), (resource.RLIMIT_DATA, it.memory), (resource.RLIMIT_FSIZE, it.size)]
    if it.outside:
        wanted.append((resource.RLIMIT_NPROC, len(processes.table()) + PROCESSES))
    for what, most in wanted:
        if most is not None:
            hard = resource.getrlimit(what)[1]
            most = most if hard == resource.RLIM_INFINITY else min(most, hard)
            resource.setrlimit(what, (most, most))
