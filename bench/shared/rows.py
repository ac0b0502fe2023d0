"""Reads the rows of bench/check/rows.d: a file for each subject, which begins with a line that names it. What they name as files of the
runs is there for the rows of all subjects. They are parts that begin with a `%`, of fields that are each ended by a `|`. In a field
that is called a TEXT, Python's escapes stand for bytes. These parts make files:

    %file|NAME|TEXT..|                   a file; its text is as it stands
    %bytes|NAME|TEXT|                    a file of bytes
    %many|NAME|HEAD|WORD|COUNT|TAIL|     a file with `WORD0`, `WORD1`, .. between HEAD and TAIL, a blank before each
    %long|NAME|HEAD|END|LENGTH|          a file with HEAD and then the byte END up to a length
    %again|NAME|TEXT|TEXT|COUNT|TEXT|    a file with the second TEXT so many times between the others
    %of|NAME|PATH|                       a file of the repository
    %less|NAME|OTHER|LINE|               a file of above without a line, which is counted from 1, or from the end where it is below 0
    %front|NAME|OTHER|COUNT|             the front of a file of above, or all but so many bytes where that is below 0
    %folder|NAME|                        a folder in the place of a file, which opens and cannot be read
    %link|NAME|TARGET|                   a link to another name
    %hidden|NAME|TEXT..|                 a file that its owner alone may read
    %kept|NAME|WORDS|                    a file with what the planner prints on these words

These are rows, each of one or more runs. The runs below `%program|PATH|` are of a script of the repository, to which the variable
DOKYREVA_PROGRAM tells the planner, or of the `planner` or the `judge`; without that part a file is of the planner.

    %run|SHOWS|WORDS|MORE|..|            a run: what it shows, and its words, with a blank between each two
    %instead|SHOWS|WORDS|NAME|OTHER|..|  a run for each OTHER, which stands in the place of NAME among the words
    %given|SHOWS|WORDS|TEXT|             runs on TEXT in the place of the word GIVEN: as a file, as `-` through a pipe, and byte by byte
    %pipe|SHOWS|WORDS|NAME|              a run to which the file NAME comes through a pipe as standard input, in pieces
    %with|SHOWS|WORDS|NAME|TEXT|TEXT|..| a run on changed files: in NAME the first TEXT, or all where it is empty, is the second
    %cut|SHOWS|WORDS|NAME|               a run for each front of the file NAME, which stands in its place
    %full|SHOWS|WORDS|COUNT|..|          runs whose output fails after so many bytes of the report, or at each of them, with status 6
    %closed|SHOWS|WORDS|                 runs with an output that is full, that nobody reads, that is open for reading, and with none
    %unfed|SHOWS|WORDS|                  a run without a standard input
    %held|SHOWS|WORDS|                   a run whose standard input is a pipe that stays open, and into which nothing is written
    %within|SHOWS|WORDS|MEGABYTES|       a run that is held to so much memory
    %nobody|SHOWS|WORDS|                 a run by a user who may not read the files that are hidden
    %shut|SHOWS|WORDS|COUNT|             a run whose output is a pipe that is closed after so many bytes

After the last field of a row stands what is due: the bytes on standard output, and last a line with the status. Between them may stand

    ..COUNT           so many more lines follow on standard output
    ! LINE            all lines of standard error are these; `!` alone is that there is none
    ? FRONT           a line of standard error begins so; several stand in this order, not side by side
    - FRONT           none of the lines behind that one begins so
    made NAME         and the bytes that this file has after the run
    gone NAME         no file has this name after the run

Words in front of the form NAME=VALUE are variables of the environment. Each MORE is words to be added to those of the run, with which it has to come to the same. What is due of a file that is cut off has
LENGTH where the length of the front stands. A run on changed files, or of which files are told, has a folder of its own with the files
that its words name; after it the folder has no others than these and those that are told."""
import functools, os, pathlib, re, resource, shutil, sys
from typing import NamedTuple
from runs import CRATES

ROWS = CRATES.parent / "bench/check/rows.d"
NOBODY = 65534
OPEN = "planner-of-all"
PIECE = 1 << 16
VARIABLES = re.compile(r"(?:[A-Z_]+=\S* )*")
FULL, UNREAD, FOR_READING, NONE = range(-4, 0)

class Due(NamedTuple):
    """What is due of a run: the bytes on standard output and how many lines more, the status, lines of standard error with their marks (none
    where these are not looked at), and the bytes of files that are there after it, or none where a file may not be there."""
    text: bytes
    status: int
    more: int = 0
    errors: tuple | None = None
    made: tuple = ()

class Run(NamedTuple):
    """A run: the words, and what is due; what is run; the bytes that come through a pipe, in pieces of a length; and, where it has a folder
    of its own, the changes of files. The output has room for so many bytes, or is one of those that fail where the room is below 0, or a
    pipe that is closed after so many bytes. And what else is done in the process before it begins."""
    words: str
    due: Due
    program: str = ""
    fed: bytes | None = None
    piece: int = PIECE
    changes: tuple | None = None
    room: int | None = None
    shut: int | None = None
    first: functools.partial | None = None
    held: bool = False

    @property
    def text(self):
        return self.due.text

    @property
    def status(self):
        return self.due.status

    def command(self, programs):
        """The words of the process, behind those that are variables."""
        path = programs.get(self.program or "planner", str(CRATES.parent / self.program))
        words = VARIABLES.sub("", self.words)
        return [path, *(bytes_of(it) if "\\" in it else it for it in words.split(" "))] if words else [path]

    def variables(self, programs):
        """The variables of the process."""
        own = dict(it.split("=", 1) for it in VARIABLES.match(self.words)[0].split())
        return os.environ | {"DOKYREVA_PROGRAM": programs["planner"]} | own

def bytes_of(text):
    """The bytes of a text with Python's escapes."""
    return text.encode("latin-1", "backslashreplace").decode("unicode_escape").encode("latin-1") if "\\" in text else text.encode()

@functools.cache
def parts():
    """The fields of each part with what stands after the last of them, before them its subject and what its runs are of."""
    found = []
    for path in sorted(ROWS.iterdir()):
        program = "planner"
        for part in path.read_bytes().decode().split("%")[1:]:
            kind, *fields = part.split("|")
            program = fields[0] if kind == "program" else program
            found.append((path.name, program, kind, *fields))
    return found

def content(folder, kind, text="", word="", count="0", tail="", *_):
    """The bytes of a file."""
    if kind == "many":
        return (text + "".join(f" {word}{number}" for number in range(int(count))) + tail).encode()
    if kind == "long":
        return (text + word * (int(count) - len(text))).encode()
    if kind == "bytes":
        return bytes_of(text)
    if kind == "again":
        return bytes_of(text) + bytes_of(word) * int(count) + bytes_of(tail)
    if kind == "of":
        return (CRATES.parent / text).read_bytes()
    if kind == "front":
        return (folder / text).read_bytes()[:int(word)]
    if kind == "less":
        lines, line = (folder / text).read_bytes().splitlines(True), int(word)
        del lines[line - (line > 0)]
        return b"".join(lines)
    return text.encode()

def due_of(last):
    """What stands after a row."""
    lines = last.split("\n")[1:]
    end = next(at for at, line in enumerate(lines) if line.startswith("status "))
    first = next((at for at, line in enumerate(lines[:end]) if re.match(r"[!?-]( |$)|\.\.|made |gone ", line)), end)
    more, errors, made = 0, [], []
    for line in lines[first:end]:
        if line.startswith("made "):
            made.append([line[5:], b""])
        elif line.startswith("gone "):
            made.append([line[5:], None])
        elif made:
            made[-1][1] += line.encode() + b"\n"
        elif line.startswith(".."):
            more = int(line[2:])
        else:
            errors.append((line[0], line[2:]))
    text = "".join(f"{line}\n" for line in lines[:first]).encode()
    return Due(text, int(lines[end].split()[1]), more, tuple(errors) or None, tuple(map(tuple, made)))

def at_most(kind, most):
    """Holds the process that is about to begin to so much."""
    resource.setrlimit(kind, (most, most))

def as_nobody():
    """Makes the process that is about to begin one of a user who is not root."""
    if os.geteuid() == 0:
        os.setgroups([])
        os.setgid(NOBODY)
        os.setuid(NOBODY)

def replaced(words, name, other):
    """Words in which one is another."""
    return " ".join(other if word == name else word for word in words.split(" "))

def plain(folder, words, due, *more):
    return [Run(it, due) for it in (words, *(f"{words} {added}" for added in more))]

def instead(folder, words, due, name, *others):
    return [Run(replaced(words, name, other), due) for other in others]

def given(folder, words, due, text):
    data = bytes_of(text)
    path = folder / f"given{sum(1 for _ in folder.glob('given*'))}"
    path.write_bytes(data)
    piped = [Run(replaced(words, "GIVEN", "-"), due, fed=data, piece=piece) for piece in (len(data) or 1, 1)]
    return [Run(replaced(words, "GIVEN", path.name), due), *piped]

def piped(folder, words, due, name):
    return [Run(words, due, fed=(folder / name).read_bytes())]

def changed(folder, words, due, *changes):
    return [Run(words, due, changes=tuple(zip(changes[::3], changes[1::3], changes[2::3])))]

def fronts(folder, words, due, name):
    """A run for each front of a file."""
    whole = (folder / name).read_bytes()
    for length in range(len(whole)):
        front = f"{name}-to-{length}"
        (folder / front).write_bytes(whole[:length])
        yield Run(replaced(words, name, front), due._replace(text=due.text.replace(b"LENGTH", str(length).encode())))

def full(folder, words, due, *counts):
    for room in map(int, counts) if counts else range(len(due.text)):
        yield Run(words, due._replace(text=due.text[:room]), room=room, first=functools.partial(at_most, resource.RLIMIT_FSIZE, room))
    yield Run(words, due._replace(text=b""), room=FULL)

def closed(folder, words, due):
    runs = [Run(words, due, room=room) for room in (FULL, UNREAD, FOR_READING)]
    return [*runs, Run(words, due, room=NONE, first=functools.partial(os.close, 1))]

def held(folder, words, due):
    return [Run(words, due, held=True)]

def unfed(folder, words, due):
    return [Run(words, due, first=functools.partial(os.close, 0))]

def within(folder, words, due, megabytes):
    return [Run(words, due, first=functools.partial(at_most, resource.RLIMIT_AS, int(megabytes) << 20))]

def nobody(folder, words, due):
    return [Run(words, due, program=str(folder / OPEN), first=functools.partial(as_nobody))]

def shut(folder, words, due, count):
    return [Run(words, due._replace(text=due.text[:int(count)]), shut=int(count))]

FILES = ("file", "bytes", "many", "long", "again", "of", "less", "front", "folder", "link", "hidden")
RUNS = {"run": plain, "instead": instead, "given": given, "pipe": piped, "with": changed, "cut": fronts, "full": full, "closed": closed,
        "unfed": unfed, "held": held, "within": within, "nobody": nobody, "shut": shut}

def make_files(planner, folder, printed):
    """Writes all files of the runs; those that hold what the planner prints, as `printed` tells of a run, come last."""
    kept = []
    folder.chmod(0o755)
    for _, _, kind, name, *rest in parts():
        path = folder / name
        if kind == "kept":
            kept.append((path, Run(rest[0], Due(b"", 0))))
        elif kind in FILES:
            if path.exists() or path.is_symlink():
                sys.exit(f"two files have the name {name}")
            if kind == "folder":
                path.mkdir()
            elif kind == "link":
                path.symlink_to(rest[0])
            else:
                path.write_bytes(content(folder, kind, *rest))
                path.chmod(0o600 if kind == "hidden" else 0o644)
    shutil.copy(planner, folder / OPEN)
    (folder / OPEN).chmod(0o755)
    for path, run in kept:
        path.write_bytes(printed(run))

def rows(folder, subjects=()):
    """Each row: what it shows, and its runs."""
    for subject, program, kind, *fields in parts():
        if kind in RUNS and (not subjects or subject in subjects):
            shows, words, *more, last = fields
            yield shows, [it if it.program else it._replace(program=program) for it in RUNS[kind](folder, words, due_of(last), *more)]
        elif kind not in (*FILES, *RUNS, "kept", "program"):
            sys.exit(f"{subject}: there is no part {kind}")

