"""Runs of a program, measured: what scripts of all folders share."""
import ctypes, os, pathlib, re, signal, subprocess, sys, tempfile, threading, time
from typing import NamedTuple

CRATES = pathlib.Path(__file__).resolve().parents[2] / "crates"
BECOME_PARENT_OF_ORPHANS = 36
START = '{ read go <"$GATE"; exec "$@"; } >"$OUT" 2>"$ERR" </dev/null & echo $!'

class Run(NamedTuple):
    """How a run ended: its exit status (below 0 a signal, none where it had no time left), what it wrote, its seconds by
    the clock and of the processor, and the greatest memory that it held, in MB."""
    status: int | None
    text: bytes
    errors: bytes
    seconds: float
    own: float
    memory: float

    def short(self):
        return f"{self.seconds:.2f} s, of which {self.own:.2f} s its own, {self.memory:.0f} MB"

def measured(words, folder=".", limit=None, processors=None, rules=None):
    """Runs the words, for at most `limit` seconds, on these processors alone where some are given, with variables of the
    environment besides. A shell starts the program, hands it over to this script and ends before it begins: what a child of
    this script used at most would begin with the script's own memory."""
    ctypes.CDLL(None).prctl(BECOME_PARENT_OF_ORPHANS, 1, 0, 0, 0)
    with tempfile.TemporaryDirectory() as room:
        out, err, gate = (pathlib.Path(room, name) for name in ("out", "err", "gate"))
        os.mkfifo(gate)
        env = dict(os.environ, **(rules or {}), OUT=str(out), ERR=str(err), GATE=str(gate))
        narrow = (lambda: os.sched_setaffinity(0, processors)) if processors else None
        shell = ["sh", "-c", START, "sh", *map(str, words)]
        child = int(subprocess.run(shell, cwd=folder, env=env, stdout=subprocess.PIPE, check=True, preexec_fn=narrow).stdout)
        late = threading.Event()
        def stop():
            late.set()
            os.kill(child, signal.SIGKILL)
        timer = threading.Timer(limit, stop) if limit else None
        if timer:
            timer.start()
        begun = time.monotonic()
        gate.write_text("go\n")
        _, ended, used = os.wait4(child, 0)
        if timer:
            timer.cancel()
        took = time.monotonic() - begun
        status = None if late.is_set() else os.waitstatus_to_exitcode(ended)
        return Run(status, out.read_bytes(), err.read_bytes(), took, used.ru_utime + used.ru_stime, used.ru_maxrss * 1024 / 1e6)

def planner(name=None, program="plan_prog"):
    """The program with this name, or the one that ./plan-build makes, else that of the release, where ./dokyreva has unpacked it."""
    places = [pathlib.Path(name).resolve()] if name else [CRATES.parent / "out" / it / program for it in ("proved", "release")]
    found = next((it for it in places if it.exists()), None)
    if not found:
        sys.exit(f"no program {places[0]}: ./plan-build makes one")
    return found

def judge(name=None):
    """The same of the program that judges."""
    return planner(name, "judge_prog")

def searcher(name=None):
    """The same of the program that walks through states."""
    return planner(name, "search_prog")

def launched():
    """The variables for the C library that the launcher sets for the program."""
    line = re.search(r"export (MALLOC_.*)", (CRATES.parent / "launch/ready.sh").read_text())
    return dict(word.split("=") for word in line[1].split())

def built(crate, *words):
    """The program of a crate, which is proved and built where it is not; it is run with the words."""
    done = subprocess.run(["rt", "run", "--", *words], cwd=CRATES / crate, stdout=subprocess.PIPE, stderr=subprocess.STDOUT, text=True)
    if done.returncode:
        sys.exit(done.stdout)
    return CRATES / crate / "out" / crate

def domain_of(problem):
    """The domain of a problem pNN.pddl: pNN-domain.pddl, or domain.pddl, of its folder."""
    own = problem.with_name(problem.stem + "-domain.pddl")
    return own if own.exists() else problem.with_name("domain.pddl")

def tasks(folder):
    """The tasks of a folder and of those in it: name, domain and problem."""
    for problem in sorted(pathlib.Path(folder).rglob("p[0-9]*.pddl")):
        domain = domain_of(problem)
        if domain.exists() and not problem.stem.endswith("-domain"):
            yield f"{problem.parent.name} {problem.stem}", domain.resolve(), problem.resolve()
