"""The wrong bodies of the bench, as edits of the sources, and what is known of each: what the scripts of this folder share."""
import functools, pathlib, re, sys

sys.path.append(str(pathlib.Path(__file__).resolve().parent.parent / "shared"))
import wrong_bodies
from wrong_bodies import ROOT, UNSEEN, VERDICTS, Row, read_all

def edited(crate, bodies):
    """The files that bodies of a crate change, with their texts then, and why that can not be made, if it can not."""
    texts = {}
    for file, old, new in [it for body in bodies for it in body.pairs()]:
        path = ROOT / "crates" / crate / file
        if file not in texts:
            if not path.exists():
                return {}, f"no file {file}"
            texts[file] = path.read_text()
        if texts[file].count(old) != 1:
            return {}, f"{texts[file].count(old)} times in {file}: {old[:60]}"
        texts[file] = texts[file].replace(old, new)
    return texts, ""

def whole(crate, bodies):
    """The texts of a crate's files with bodies put in."""
    here = ROOT / "crates" / crate
    return {str(it.relative_to(here)): it.read_text() for it in here.glob("src/**/*.rt")} | edited(crate, bodies)[0]

class Place:
    """A function of a file: its name, the cycle of calls that it is in, and its first and last line, as rt fmt lays it out."""
    def __init__(self, file, lines, at, indent, name):
        self.file, self.name, self.first, self.last = file, name, at, at
        while self.first and lines[self.first - 1].lstrip().startswith(("#[", "//")):
            self.first -= 1
        cycle = re.search(r"#\[cycle\((\w+)\)", "\n".join(lines[self.first : at]))
        self.cycle = cycle[1] if cycle else None
        if not lines[at].rstrip().endswith(("}", ";")):
            while self.last + 1 < len(lines) and lines[self.last] != indent + "}":
                self.last += 1

    def path(self):
        """The path of its module, or where that is the root its own."""
        module = re.sub(r"/?(lib|main|mod)$", "", self.file.removeprefix("src/").removesuffix(".rt"))
        return module.replace("/", "::") or self.name

    def is_of(self, file, line):
        """Whether what is told of a line of a file of src/ or proofs/ is of this function."""
        if not file.startswith("proofs/"):
            return file == self.file and self.first < line <= self.last + 1
        stem = re.sub(r"/?(lib|main|mod)$", "", self.file.removeprefix("src/").removesuffix(".rt"))
        base, parts = "proofs/" + (stem and stem + "/"), file.split("/")[:-1]
        return file.startswith(base) and (self.name in parts or self.cycle is not None and "+" + self.cycle in parts)

def functions(file, text):
    """The functions of a file."""
    lines = text.split("\n")
    starts = [(at, re.match(r"(\s*)(?:pub(?:\([^)]*\))? )?(?:const )?(?:async )?(?:unsafe )?fn (\w+)", line)) for at, line in enumerate(lines)]
    return [Place(file, lines, at, it[1], it[2]) for at, it in starts if it]

@functools.cache
def places(body):
    """The functions that a body changes, or none where it changes anything else."""
    found = []
    for file, old, _ in body.pairs():
        text = (ROOT / "crates" / body.crate / file).read_text()
        line = text[: text.index(old)].count("\n")
        here = [it for it in functions(file, text) if it.first <= line <= it.last] if file.startswith("src/") else []
        if not here:
            return []
        found.append(here[-1])
    return found

def rounds(crate, bodies):
    """The bodies of a crate in lists that are tried in one check each: no two of one change the same function, or functions of one cycle
    of calls."""
    made = []
    for body in bodies:
        here = places(body)
        keys = {(it.file, it.cycle or it.name) for it in here}
        fits = next((it for it in made if keys and it[1] and not it[1] & keys and not edited(crate, [*it[0], body])[1]), None)
        if fits:
            fits[0].append(body)
            fits[1].update(keys)
        else:
            made.append(([body], keys))
    return [it[0] for it in made]

def names(words):
    """The bodies that words name, by crate: those of a crate, CRATE/BODY, or all."""
    found = {}
    for word in words or wrong_bodies.crates():
        crate, _, name = word.partition("/")
        these = [body for body, _ in wrong_bodies.read(crate).values() if name in ("", body.name)]
        if not these:
            raise SystemExit(f"no such bodies: {word}")
        found.setdefault(crate, []).extend(these)
    return found

def read_table():
    """What is known of each body, by crate and name."""
    return {key: row for key, (_, row) in read_all().items()}

def keep_rows(found):
    """Puts verdicts into the files, in the place of the old ones."""
    for crate in {it[0] for it in found}:
        bodies = wrong_bodies.read(crate)
        changed = {name: (body, found.get((crate, name), row)) for name, (body, row) in bodies.items()}
        if changed != bodies:
            wrong_bodies.write(crate, changed)

def sums():
    """How many bodies have each verdict, as a sentence."""
    table = read_all().values()
    words = [body.verdict(row) for body, row in table]
    rest = [it for it, word in zip(table, words) if word == "unproved"]
    run, told = sum(row.seen == "nothing" for _, row in rest), sum(body.said("stays|wrong|equal")[0] != "" for body, _ in rest)
    counts = ", ".join(f"{words.count(it)} {it}" for it in VERDICTS)
    return f"{len(words)} bodies: {counts}; of the {len(rest)} unproved {run} were run and seen by nothing, and of {told} a reader says why."
