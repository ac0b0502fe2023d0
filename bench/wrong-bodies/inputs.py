"""The inputs on which wrong bodies are run, each with what is due of it: the rows of bench/check, cases, random inputs of which an
ordinary program tells what is due, inputs that are written for single bodies (aimed.py), and runs in which an allocation fails."""
import contextlib, importlib.machinery, importlib.util, os, pathlib, random, select, subprocess, sys, tempfile, threading
from typing import NamedTuple

sys.path.append(str(pathlib.Path(__file__).resolve().parent.parent / "shared"))
import aimed
import rows as kept_rows
from combined import all_tests

CHECK = pathlib.Path(__file__).resolve().parent.parent / "check"
PLANNER, JUDGE, TEST, LAYERS = "planner", "judge", "test", ""
GROUPS = "reader words order check ground plan prove verify batch plan-all formula".split()
MOST_RUNS = 24
LOOKS = 5
FORMULA = "compare formula"
# Runs in each of which some allocation fails: the words, and tasks of the corpus whose files they name.
WANTING = [
    (PLANNER, "plan d p --max-horizon 5 --width 3 --workers 1", "gripper/p05"), (PLANNER, "plan d p --max-horizon 5 --width 3 --workers 3", "gripper/p05"),
    (PLANNER, "plan d p --max-horizon 9 --width 2 --workers 1", "pegsol/p03"), (PLANNER, "batch d p q --max-horizon 5 --width 3", "gripper/p05 gripper/p04"),
    (PLANNER, "batch d p q --max-horizon 7", "openstacks/p04 openstacks/p04"), (PLANNER, "prove d p 5", "gripper/p05"),
    (PLANNER, "prove d p 9", "pegsol/p03"), (PLANNER, "plan-all d p --max-horizon 4", "gripper/p04"), (PLANNER, "gen corridor 4", "gripper/p04"),
    (PLANNER, "order d p", "briefcaseworld/p01"), (PLANNER, "ground d p", "briefcaseworld/p01"), (PLANNER, "check d p l", "gripper/p04"),
    (PLANNER, "verify d p c", "gripper/p05"), (JUDGE, "formula d p 3", "gripper/p04"), (JUDGE, "formula d p 2 --steps all", "gripper/p04"),
]
MOST_REFUSED = 24

class Input(NamedTuple):
    """A run of the program: what shows it, the words, the folder, what is due on its output and as its status, how many bytes it may
    write where that is bounded, what comes through a pipe on its input, the number of an allocation that fails, what is run, and
    whether its input is a pipe that stays open. A run without a folder has an empty one of its own."""
    shows: str
    words: tuple
    folder: pathlib.Path | None
    text: bytes
    status: int
    room: int | None = None
    fed: bytes = b""
    refused: int = 0
    kind: str = PLANNER
    held: bool = False

    def command(self, program, seconds, memory):
        """The words of a run that is held to so many seconds of the processor and bytes of memory."""
        room = [f"--fsize={self.room}"] if self.room is not None and self.room >= 0 else []
        return ["prlimit", f"--cpu={seconds}", f"--as={memory}", *room, str(program), *([self.kind] if self.kind else []), *self.words]

    def input(self, room):
        """What the run reads from: a pipe with what it is fed or that stays open, or the device that is empty."""
        if self.held:
            os.mkfifo(f"{room}/held")
            return open(os.open(f"{room}/held", os.O_RDWR), "rb", buffering=0)
        if not self.fed:
            return open("/dev/null", "rb")
        out, into = os.pipe()
        threading.Thread(target=feed, args=(into, self.fed)).start()
        return open(out, "rb")

    def out(self):
        """What the run writes into: a file, or a device that is full where the room is below 0."""
        return open("/dev/full", "w+b") if self.room is not None and self.room < 0 else tempfile.TemporaryFile()

    def differs(self, program, number, seconds=60, memory=3 << 30, hits=None):
        """Whether a run with the body of a number comes to something else than what is due. A write past the room sends no signal, since
        Python leaves that one ignored."""
        return self.ended(program, number, seconds, memory, hits) != (self.text, self.status)

    def ended(self, program, number, seconds=60, memory=3 << 30, hits=None):
        """What a run with the body of a number writes, and its status; nothing where it does not end."""
        env = {"WRONG_BODY": str(number), "WRONG_ALLOCATION": str(self.refused)} | ({"WRONG_HITS": str(hits)} if hits else {})
        with tempfile.TemporaryDirectory() as own, self.out() as out, self.input(own) as fed:
            given = {"cwd": self.folder or own, "stdin": fed, "stderr": subprocess.DEVNULL, "restore_signals": False, "env": env}
            with subprocess.Popen(self.command(program, seconds, memory), stdout=out, **given) as run:
                if not ends(run):
                    return None
                text = b"" if self.room == -1 else told(out)
        return (without_comments(text) if self.shows.startswith(FORMULA) else text), run.returncode

def feed(into, text):
    """Writes a text into a pipe, whose reader may end before it is whole."""
    with contextlib.suppress(BrokenPipeError), open(into, "wb") as out:
        out.write(text)

def ends(run):
    """Whether a run ends; one whose threads all sleep at each of some looks is ended."""
    asleep, watch = 0, os.pidfd_open(run.pid)
    while not select.select([watch], [], [], 2)[0] and asleep < LOOKS:
        asleep = asleep + 1 if sleeps(run.pid) else 0
    os.close(watch)
    if asleep == LOOKS:
        run.kill()
    run.wait()
    return asleep < LOOKS

def sleeps(process):
    """Whether each thread of a process waits for something."""
    try:
        stats = [it.read_text() for it in pathlib.Path(f"/proc/{process}/task").glob("*/stat")]
    except OSError:
        return False
    return all(it.rpartition(")")[2].split()[0] == "S" for it in stats)

def told(out):
    """All that stands in a file."""
    out.seek(0)
    return out.read()

def without_comments(text):
    """The lines of a formula that are no comments."""
    return b"".join(it for it in text.splitlines(True) if not it.startswith(b"c"))

def script(path):
    """A script as a module."""
    name = f"script_{path.name.replace('-', '_')}"
    loader = importlib.machinery.SourceFileLoader(name, str(path))
    sys.dont_write_bytecode = True
    made = sys.modules[name] = importlib.util.module_from_spec(importlib.util.spec_from_loader(name, loader))
    loader.exec_module(made)
    return made

def rows(program, folder):
    """The runs of bench/check/rows of both programs that need no changed files and no process that is made otherwise, and of a row of very
    many some."""
    programs = {}
    for kind in (PLANNER, JUDGE):
        programs[kind] = folder.parent / kind
        programs[kind].write_text(f'#!/bin/sh\nexec {program} {kind} "$@"\n')
        programs[kind].chmod(0o755)
    kept_rows.make_files(programs[PLANNER], folder, lambda run: subprocess.run(run.command(programs), cwd=folder, stdout=subprocess.PIPE).stdout)
    for shows, runs in kept_rows.rows(folder):
        for run in runs[:: 1 + len(runs) // MOST_RUNS]:
            plain = run.changes is None and run.shut is None and not run.due.more and not run.due.made
            if plain and run.program in programs and (run.room is None or run.room >= 0) and (run.first is None or run.room is not None):
                words = tuple(run.command(programs)[1:])
                yield Input(f"row {shows}", words, folder, run.text, run.status, run.room, run.fed or b"", kind=run.program, held=run.held)

def tests():
    """Each test, which is due to end well; one of them prints."""
    for it in all_tests(CHECK.parent.parent / "crates"):
        yield Input(f"test {'::'.join(it)}", ("/".join(it),), None, b"; written\n" if "standard_output" in it[-1] else b"", 0, kind=TEST)

def cases(folder):
    """The cases of a folder, each a folder with the files words, stdout and status."""
    for here in sorted(it.parent for it in folder.rglob("words") if it.is_file()):
        words = tuple((here / "words").read_text().splitlines())
        yield Input(f"case {here.relative_to(folder)}", words, here, (here / "stdout").read_bytes(), int((here / "status").read_text()))

def compared(shared, group, count, folder):
    """So many random inputs of a group of the tool compare, with what the reference answers."""
    made, luck = script(shared / "tools/compare"), random.Random(1)
    reference = str(shared / "tools/reference")
    tasks = [it for it in made.corpus() if int(it[0][-2:]) <= 2]
    for at in range(count):
        words, files = made.case(luck, group, tasks)
        here = folder / f"{group}{at}"
        here.mkdir()
        for name, text in files.items():
            (here / name).write_bytes(text)
        if group == "verify":
            text, status = made.go([reference, *words], here)
            if status:
                continue
            (here / "c").write_bytes(luck.choice([lambda: text, lambda: made.spoil(luck, text), lambda: made.mutate(luck, text)])())
            words = ["verify", "d", "p", "c"]
        asked = ["dimacs", *words[1:4], *["all"] * ("all" in words)] if group == "formula" else words
        text, status = made.go([reference, *asked], here)
        due = without_comments(text) if group == "formula" else text
        yield Input(f"compare {group}", tuple(words), here, due, status, kind=JUDGE if group == "formula" else PLANNER)

def greatest_refused(run, program):
    """About the greatest number of an allocation without which a run tells of want of memory; some of the first have no effect."""
    low = max((1 << it for it in range(MOST_REFUSED) if run._replace(refused=1 << it).ended(program, 0) == (b"", 8)), default=0)
    high = 2 * low
    while low + 1 < high:
        middle = (low + high) // 2
        low, high = (middle, high) if run._replace(refused=middle).ended(program, 0) == (b"", 8) else (low, middle)
    return low

def wanting(program, shared, count, folder):
    """Runs in which so many allocations fail, one in each: status 8 is due, and nothing written."""
    made, luck = script(shared / "tools/compare"), random.Random(4)
    tasks = {task: files for task, *files in made.corpus()}
    for at, (kind, words, names) in enumerate(WANTING):
        here = folder / f"wanting{at}"
        here.mkdir()
        names = names.split()
        for file, text in zip("dpl", tasks[names[0]]):
            (here / file).write_bytes(text)
        (here / "q").write_bytes(tasks[names[-1]][1])
        if words.startswith("verify"):
            (here / "c").write_bytes(made.go([str(shared / "tools/reference"), "prove", "d", "p", "5"], here)[0])
        run = Input(f"want of memory {words} on {' '.join(names)}", tuple(words.split()), here, b"", 8, kind=kind)
        last = greatest_refused(run, program)
        chosen = {luck.randrange(1, last + 1) for _ in range(count)} | set(range(max(1, last - count // 4), last + 1)) if last else set()
        for number in sorted(chosen):
            one = run._replace(shows=f"{run.shows}: allocation {number} fails", refused=number)
            if not one.differs(program, 0):
                yield one
        if kind == PLANNER:
            text, status = made.go([str(shared / "tools/reference"), *run.words], here)
            yield run._replace(shows=f"{run.shows}: no allocation after {last}", refused=last + 1, text=text, status=status)

def listed(program, shared, count, folder):
    """All inputs: rows, tests, cases, random ones, those that are written for bodies, and those in which memory is wanting."""
    for name in ("rows", "aimed"):
        (folder / name).mkdir()
    found = [*rows(program, folder / "rows"), *tests(), *aimed.layers(Input, folder)]
    if shared:
        made = script(shared / "tools/compare")
        found += cases(shared / "cases")
        for group in GROUPS:
            found += compared(shared, group, count, folder)
        found += aimed.aimed(Input, made, shared, folder / "aimed")
        found += wanting(program, shared, count, folder)
    return found
