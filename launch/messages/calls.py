"""Why a call of the planner did not come to an answer: files that are refused or not read, and limits. The planner is asked again
where its line is not at hand, and only for some seconds."""
import os
import pathlib
import re
import resource
import subprocess

from messages.fault import Files, tell_fault
from messages.text import as_bytes, path_shown, say

REFUSED = re.compile(r"; refused (\w+) (\w+) ([0-9]+)\Z")
UNREAD = re.compile(r"; read fault (\w+)\Z")
KIND = "; refused kind certificate"
FILE_LIMIT = re.compile(r"; limit file (\w+)\Z")
LIMIT = re.compile(r"; limit (tuples|facts|actions|effects) ([0-9]+)\Z")
LINE = re.compile(r"; limit line ([0-9]+)\Z")
LITERALS = re.compile(r"; limit literals ([0-9]+) horizon ([0-9]+)\Z")
FILE_BYTES = {"proof": 16777216, "certificate": 16777216}
LONG_PROOF = "the proof has more than the 16777216 bytes that a line may have: is it a proof in text (CaDiCaL writes one with --no-binary)?"
LINES = {
    "judge": LONG_PROOF,
    "never-judge": LONG_PROOF,
    "model": "the model has more than the 268435456 bytes that a line may have: is it what a solver printed?",
}
PROOFS = {"judge": "LRAT", "never": "certificate", "never-judge": "LRAT"}
LITERALS_OF = {"formula": 16000000, "judge": 16000000, "model": 16000000, "never-formula": 16000000, "never-judge": 16000000}
# The files behind the task, each with its place among the words and its names in a report.
MORE = {"check": {"plan": 2}, "verify": {"proof": 2}, "judge": {"proof": 3}, "model": {"model": 3}, "never": {"proof": 2},
        "never-formula": {"certificate": 2, "proof": 2}, "never-judge": {"certificate": 2, "proof": 3}}
BY_HORIZON = ("plan", "plan-all", "batch", "gen")
ADVICE = {
    "domain": "comments and blanks count too, and objects that no action needs can go",
    "problem": "comments and blanks count too, and objects that no action needs can go",
    "plan": "comments and blanks count too",
    "proof": "certificates that prove writes are within it",
}


def launcher_says(text):
    """A line of the launcher on standard error."""
    say(f"dokyreva: {as_bytes(text)}")


def files_of(words):
    """The words behind a command that are no options."""
    files, at = [], 0
    while at < len(words):
        if words[at] == "--":
            return files + words[at + 1 :]
        if not words[at].startswith("--") or words[at] == "":
            files.append(words[at])
        elif "=" not in words[at]:
            at += 1
        at += 1
    return files


class Planner:
    """The program that is asked again: by its path, bound to the life of this process where that can be, and within a memory in
    megabytes where one is told."""

    def __init__(self, path, is_tied=False, memory=""):
        self.path = path
        self.tie = ["setpriv", "--pdeathsig", "KILL"] if is_tied else []
        self.memory = int(memory) << 20 if memory else None

    def ask(self, seconds, *words):
        """The first line that it prints on these words, and its status; nothing where that takes longer."""
        done = self.run(seconds, *words)
        return (done.stdout.split("\n", 1)[0], done.returncode) if done else None

    def run(self, seconds, *words):
        """The whole call, or nothing where it takes longer than so many seconds."""
        return self.script(seconds, self.path, *words)

    def script(self, seconds, *words):
        """The call of a script."""
        try:
            return subprocess.run([*self.tie, *words], stdin=subprocess.DEVNULL, capture_output=True, timeout=seconds,
                                  encoding="utf-8", errors="surrogateescape", check=False, preexec_fn=self.narrow)
        except (OSError, subprocess.TimeoutExpired):
            return None

    def narrow(self):
        """Keeps to the memory."""
        if self.memory:
            most = resource.getrlimit(resource.RLIMIT_DATA)[1]
            least = self.memory if most == resource.RLIM_INFINITY else min(self.memory, most)
            resource.setrlimit(resource.RLIMIT_DATA, (least, most))


def can_be_read(path):
    """Whether a file can be read twice."""
    return os.path.isfile(path) and os.access(path, os.R_OK)


def tell_at(path, text):
    """A line on a file as a whole."""
    say(f"{as_bytes(path_shown(path))}: {as_bytes(text)}")


def tell_unread(path, which):
    """Why a file was not read."""
    if os.path.isdir(path):
        why = f"the {which} is a folder"
    elif not os.path.lexists(path):
        why = f"the {which} is not there"
    elif not os.path.exists(path):
        why = f"the {which} is a link to what is not there"
    elif not os.access(path, os.R_OK):
        why = f"you have no leave to read the {which}"
    else:
        why = f"the {which} could not be read"
    tell_at(path, why)


def tell_line(line, paths, command, called=None):
    """What a line of a report comes from that tells a refusal, a file that was not read, or a limit. Whether it is such a line.
    A file may be called otherwise than by its path."""
    found = REFUSED.match(line)
    if found:
        return tell_fault(Files(paths, called), found[1], found[2], int(found[3]), PROOFS.get(command, "proof"))
    if line == KIND:
        tell_at(paths.get("certificate", ""), "kind: only a certificate that begins with the line `clauses forward` has a formula")
        return True
    found = UNREAD.match(line)
    if found:
        tell_unread(paths.get(found[1], ""), found[1])
        return True
    found = FILE_LIMIT.match(line)
    if found:
        tell_length(paths.get(found[1], ""), found[1], command)
        return True
    return tell_limit(line, command)


def tell_length(path, which, command):
    """A file that is too long."""
    most = FILE_BYTES.get(which, 1048576)
    if command == "prove":
        launcher_says(f"the certificate would have more than the {most} bytes that one may have: what there is then is the "
                      "report of plan with --alg c --width 1 and with --start and --max-horizon at that horizon")
        return
    size = pathlib.Path(path).stat().st_size
    tell_at(path, f"limit: the file has {size} bytes, and a {which} may have {most}: "
            f"{'is it a certificate of never?' if command == 'never' and which == 'proof' else ADVICE.get(which, '')}")


def tell_limit(line, command):
    """A limit of a task or of a formula."""
    found = LITERALS.match(line)
    if found:
        tell_literals(int(found[1]), int(found[2]), command)
        return True
    found = LINE.match(line)
    if found:
        launcher_says(f"limit: line {found[1]} of {LINES[command]}")
        return True
    found = LIMIT.match(line)
    if found:
        launcher_says(f"limit: {limit_told(found[1], found[2])}")
    return bool(found)


def limit_told(what, count):
    """A limit of a task, with what can be done."""
    return {
        "tuples": f"{count} tuples of objects for the parameters of actions and of forall, and 4000000 may be: give parameters "
                  "types with fewer objects, or part an action into several with fewer parameters",
        "facts": f"{count} facts that actions can change, and 2048 may be: leave out objects that the goal does not need, "
                 "or predicates with many arguments",
        "actions": f"{count} actions, and 16384 may be: give parameters types with fewer objects, or preconditions that "
                   "never change",
        "effects": f"{count} effects with a condition, and 65536 may be: give the variables of forall types with fewer objects",
    }[what]


def tell_literals(count, horizon, command):
    """The formula of a horizon is too large."""
    most = LITERALS_OF.get(command, 4000000)
    advice = "horizons below it can be asked for"
    if command in BY_HORIZON:
        advice = f"--max-horizon {horizon - 1} ends before it, with what is known by then" if horizon else \
            "no horizon is 0 steps short of it"
    launcher_says(f"limit: the formula of horizon {horizon} has {count} literals, and {most} may be: {advice}")


def tell_some_horizon(command):
    """A limit of a formula that is not at hand."""
    launcher_says(f"limit: the formula of a horizon has more than the {LITERALS_OF.get(command, 4000000)} literals that one may "
                  "have; the report names it: a smaller --max-horizon ends before it")


class Call:
    """A call that ended: the program, its status and its words, and whether it was short enough to be made again."""

    def __init__(self, planner, status, seconds, words):
        self.planner, self.status, self.seconds = planner, status, seconds
        self.command, self.words = (words[0], words[1:]) if words else ("", [])
        self.files = files_of(self.words)

    def paths(self):
        """The files of the call by the names that reports have for them."""
        paths = dict(zip(("domain", "problem"), self.files))
        paths.update((name, self.files[place]) for name, place in MORE.get(self.command, {}).items() if len(self.files) > place)
        return paths

    def called(self):
        """Names of files under which they were given, where these are other ones than their paths."""
        timed = os.environ.get("DOKYREVA_TIMED")
        return {"plan": timed} if timed else {}

    def tell_task(self, domain, problem):
        """Tells why two files, or their task, are not taken; the line that says so, or nothing where they are taken."""
        for path, which in ((domain, "domain"), (problem, "problem")):
            if not can_be_read(path):
                if self.status == 5:
                    tell_unread(path, which)
                return f"; read fault {which}"
        answer = self.planner.ask(10, "check", domain, problem, "/dev/null")
        if answer is None:
            return None
        line = answer[0]
        if not line.startswith(("; refused ", "; read fault ", "; limit file ")):
            again = self.planner.ask(10, "ground", domain, problem) if self.status == 4 else None
            if again is None or again[1] != 4:
                return None
            line = again[0]
        tell_line(line, {"domain": domain, "problem": problem}, self.command)
        return line

    def tell_batch(self):
        """Tells it of each problem that is named, once."""
        told = set()
        for problem in self.files[1:]:
            if problem in told:
                continue
            told.add(problem)
            line = self.tell_task(self.files[0], problem) or ""
            if line.endswith("read fault domain") or " domain" in line and not line.startswith("; read fault"):
                return

    def tell_run(self):
        """Tells what the run itself has printed, by the same run, where that is short."""
        paths = self.paths()
        for name in MORE.get(self.command, {}):
            if name in paths and not can_be_read(paths[name]):
                if self.status == 5:
                    tell_unread(paths[name], name)
                return
        answer = self.planner.ask(30, self.command, *self.words) if self.seconds < 20 else None
        if answer and answer[1] == self.status:
            tell_line(answer[0], paths, self.command, self.called())
        elif self.status == 4:
            tell_some_horizon(self.command)

    def tell(self):
        """Tells of statuses 3, 4 and 5 what they come from."""
        if self.command == "batch" and self.files:
            self.tell_batch()
        elif len(self.files) < 2 or self.tell_task(*self.files[:2]) is None:
            self.tell_run()
