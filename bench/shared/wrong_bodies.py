"""Reads and writes the files of wrong bodies: bench/wrong-bodies/CRATE has all of a crate.

A line `== NAME` begins a body. Its edits follow, each in lines `file:`, `old:` and `new:` as the must-fail edits of a crate have them: the
old text stands exactly once in the file of the crate. A line `clause: NAME` names the clause that the body is written against; a line
`wrong:`, `equal:` or `stays:` has what a reader says of it: what it breaks, that it does the same, or why no clause can refuse it. The last
lines are its verdict: `prover: WORD (SECONDS s): GOAL` and `seen by: RUN`, as `Row` tells of them. A body without them is new."""
import pathlib, re
from typing import NamedTuple

ROOT = pathlib.Path(__file__).resolve().parent.parent.parent
BODIES = ROOT / "bench/wrong-bodies"
ABSENT = "not in the program"
UNSEEN = ("-", "nothing", "not called", ABSENT)
VERDICTS = ("countermodel", "negation proved", "seen", "unproved", "proved", "equal")
HEAD = "Wrong bodies of the crate {}, in the form that bench/shared/wrong_bodies.py tells.\n"
PROVER = re.compile(r"prover: (\w[\w ]*?)(?: \((\d+) s\))?(?:: (.*))?$")

class Row(NamedTuple):
    """What is known of a body. The prover's word: `countermodel` (it says that the known facts allow values at which the goal is
    false), `negation proved`, `refused` (no proof was found, which a right body may meet too), `proved` or `untried`; then the goal; the
    seconds of that check; and the first run that a program with this body fails, `nothing` where it fails none of those that reach
    the body, `not called` where none does, or a dash where none was made."""
    prover: str = "untried"
    goal: str = ""
    seconds: int = 0
    seen: str = "-"

    def lines(self):
        """The lines of a verdict, without what says nothing."""
        if self.prover != "untried" or self.goal:
            yield f"prover: {self.prover} ({self.seconds} s)" + (f": {self.goal}" if self.goal else "")
        if self.seen != "-":
            yield f"seen by: {self.seen}"

class Body(NamedTuple):
    """A wrong body: its crate, its name, and the lines of its edits and of what a reader says."""
    crate: str
    name: str
    text: str

    def pairs(self):
        """The file and the old and new texts of each edit."""
        file, old, found = None, None, []
        for line in self.text.split("\n"):
            if line.startswith("file: "):
                file = line[6:].strip()
            elif line.startswith("old: "):
                old = line[5:]
            elif line.startswith("new:"):
                found.append((file, old, line[4:].removeprefix(" ")))
        return found

    def said(self, words):
        """What a line that begins with one of some words says, and the word."""
        found = re.search(rf"^({words}): (.*)$", self.text, re.M)
        return found.groups() if found else ("", "")

    def clause(self):
        """The clause that it is written against, where one is named."""
        return self.said("clause")[1]

    def stays(self):
        """Why no clause can refuse it, where a reader says so."""
        return self.said("stays")[1]

    def verdict(self, row):
        """One of VERDICTS, of which the last three are no evidence. A body that no clause can refuse counts as proved; one of which a
        reader says that it does the same is equal."""
        if row.prover in VERDICTS[:2]:
            return row.prover
        if row.seen not in UNSEEN:
            return "seen"
        if row.prover == "proved" or self.stays():
            return "proved"
        return "equal" if self.said("equal")[0] else "unproved"

def row_of(lines):
    """The verdict of some lines."""
    prover = next((PROVER.match(it) for it in lines if it.startswith("prover: ")), None)
    seen = next((it[9:] for it in lines if it.startswith("seen by: ")), "-")
    return Row(prover[1], prover[3] or "", int(prover[2] or 0), seen) if prover else Row(seen=seen)

def read_text(crate, text):
    """The bodies of a file's text with their verdicts, by name."""
    found = {}
    for part in re.split(r"^== ", text, flags=re.M)[1:]:
        name, *lines = part.rstrip("\n").split("\n")
        verdict = [it for it in lines if it.startswith(("prover: ", "seen by: "))]
        found[name] = Body(crate, name, "\n".join(it for it in lines if it not in verdict)), row_of(verdict)
    return found

def text_of(crate, bodies):
    """The text of a file with these bodies and their verdicts."""
    parts = ["\n".join([f"== {name}", bodies[name][0].text, *bodies[name][1].lines()]) for name in sorted(bodies)]
    return "\n\n".join([HEAD.format(crate).rstrip("\n"), *parts]) + "\n"

def crates():
    """The crates that have wrong bodies: each file of the folder that begins as such a file does."""
    return sorted(it.name for it in BODIES.iterdir() if it.is_file() and it.read_text().startswith(HEAD.format(it.name)))

def read(crate):
    """The bodies of a crate with their verdicts, by name."""
    path = BODIES / crate
    return read_text(crate, path.read_text()) if path.is_file() else {}

def read_all():
    """All bodies with their verdicts, by crate and name."""
    return {(crate, name): it for crate in crates() for name, it in read(crate).items()}

def write(crate, bodies):
    """Puts these bodies into a crate's file, which is whole at each time."""
    made = (BODIES / crate).with_name(f".{crate}.new")
    made.write_text(text_of(crate, bodies))
    made.replace(BODIES / crate)
