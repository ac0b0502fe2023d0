"""The making of a quick program of these sources with wrong bodies beside the right functions."""
import concurrent.futures, json, pathlib, re, shutil, subprocess, tempfile

from bodies import ROOT, edited, places
from combined import MAINS, ROOT_CRATE, TESTS, WAITS, combine
from variants import Module, Program, compiled, linked, same_numbers
from wrong_bodies import ABSENT

PARTS = 4
# So many modules are made at once, at most.
AT_ONCE = 2
REFUSED = re.compile(r"crates/(\w+)/(src/[\w/]+\.rt):(\d+):\d+: error")

def in_program():
    """The crates that the program holds."""
    return set().union(*map(below, (ROOT_CRATE, *MAINS, *TESTS)))

def below(program):
    """The crates that a program stands on, and itself."""
    listed = [line.split(":", 1) for line in (ROOT / "crates.txt").read_text().split("\n") if ":" in line.split("#")[0]]
    lines = {name.split()[0]: names.split() for name, names in listed}
    found, left = set(), [program]
    while left:
        name = left.pop()
        if name in lines and name not in found:
            found.add(name)
            left += lines[name]
    return found

def is_code(body):
    """Whether a body can be made, and changes code."""
    return not edited(body.crate, [body])[1] and any(it[0].startswith("src/") for it in body.pairs())

def batches(bodies):
    """The bodies in lists of which each is made in one module: no two of a list change functions of one name, or one text."""
    made = []
    for key, edit in bodies.items():
        spots = {(key[0], it.name) for it in places(edit)} or {(key[0],)}
        fits = next((it for it in made if goes_with(it, key, edit, spots)), None)
        if fits:
            fits[0][key] = edit
            fits[1].update(spots)
        else:
            made.append(({key: edit}, set(spots)))
    return [it[0] for it in made]

def goes_with(batch, key, edit, spots):
    """Whether a body can be made in the module of a batch: none of it changes a function of the same name, or, where one of them changes
    more than functions, anything of the same crate."""
    edits, taken = batch
    of_crate = {it for it in taken if it[0] == key[0]}
    if taken & spots or of_crate and (key[0],) in of_crate | spots:
        return False
    return not edited(key[0], [*[it for other, it in edits.items() if other[0] == key[0]], edit])[1]

def checkout(room, edits):
    """A copy of the sources with edits made."""
    shutil.copy(ROOT / "HANDLES", room)
    shutil.copy(ROOT / "crates.txt", room)
    shutil.copytree(ROOT / "crates", room / "crates", ignore=shutil.ignore_patterns("out", "must-fail"), dirs_exist_ok=True)
    for crate in {key[0] for key in edits}:
        for file, text in edited(crate, [edit for key, edit in edits.items() if key[0] == crate])[0].items():
            (room / "crates" / crate / file).write_text(text)
    subprocess.run(["git", "init", "-q", room], check=True)

def built(edits):
    """The module of the program with edits made."""
    with tempfile.TemporaryDirectory() as folder:
        checkout(pathlib.Path(folder), edits)
        combine(pathlib.Path(folder))
        text = compiled(pathlib.Path(folder), ROOT_CRATE, WAITS)
    module = Module(text)
    shutil.rmtree(text.parent)
    return module

def is_of(symbol, key, edit):
    """Whether a function of a module is one that a body changes, or stands in it; any of its crate where it changes more than functions."""
    here, crate = places(edit), stands_as(key[0])
    return any(re.match(rf'"?{crate}::(.*::)?{it.name}(::|\+|<|"|$)', symbol) for it in here) if here else is_in(symbol, crate)

def stands_as(crate):
    """The name under which a crate stands in the program."""
    return f"{ROOT_CRATE}::{MAINS[crate]}" if crate in MAINS else crate

class Making:
    """The making of the program with all bodies."""
    def __init__(self, right):
        self.right = right
        self.program, self.numbers, self.bad, self.left, self.batch = Program(self.right), {}, {}, {}, 0

    def take(self, edits, made):
        """Takes the bodies of a batch, as it is made, without those that the compiler refuses."""
        try:
            module = made()
        except RuntimeError as error:
            refused = {key for key in edits if refuses(key, edits, str(error))} or set(edits)
            self.bad |= {key: str(error).strip().split("\n")[-2:][0] for key in refused}
            rest = {key: it for key, it in edits.items() if key not in refused}
            if rest:
                self.take(rest, lambda: built(rest))
            return
        if not same_numbers(module, self.right):
            raise SystemExit("the modules number their attributes apart")
        self.batch += 1
        self.share(module, edits)

    def share(self, module, edits):
        """Gives each body the functions that it changed; one whose functions are not in the module, since another body no longer calls
        them, is to be made again. What else the compiler made otherwise stays as in the right module, since a body changes no type."""
        changed = {it for it in module.changed(self.right) if it in self.right.functions}
        for key, edit in edits.items():
            mine = sorted(it for it in changed if is_of(it, key, edit))
            if mine:
                self.numbers[key] = len(self.numbers) + 1
                self.program.take(module, self.numbers[key], mine, self.batch)
            elif any(is_of(it, key, edit) for it in self.right.functions if it not in module.functions):
                self.left[key] = edit
            else:
                self.bad[key] = ABSENT

    def written(self, folder):
        """Writes the program into a folder, and what its numbers mean."""
        chosen, parts = list(self.program.variants), [folder / f"part{it}.ll" for it in range(PARTS)]
        self.program.written(parts)
        linked(parts, folder / "program", len(chosen))
        spots = {number: [at for at, it in enumerate(chosen) if number in self.program.variants[it]] for number in self.numbers.values()}
        told = {"/".join(key): [number, spots[number]] for key, number in self.numbers.items()}
        (folder / "numbers.json").write_text(json.dumps({"bodies": told, "bad": {"/".join(key): why for key, why in self.bad.items()}, "count": len(chosen)}))

def is_in(symbol, crate):
    """Whether a function of a module is one of a crate."""
    return symbol.lstrip('"').startswith(crate + "::")

def refuses(key, edits, said):
    """Whether the compiler refuses what a body puts in, or a line beside it."""
    texts = edited(key[0], [edit for other, edit in edits.items() if other[0] == key[0]])[0]
    for crate, file, line in REFUSED.findall(said):
        for name, _, new in edits[key].pairs():
            if (crate, file) == (key[0], name) and new in texts[file]:
                first = texts[file][: texts[file].index(new)].count("\n")
                if first <= int(line) <= first + new.count("\n") + 2:
                    return True
    return False

def make(bodies, folder, jobs):
    """Makes the program of some bodies in a folder, by so many jobs."""
    with concurrent.futures.ThreadPoolExecutor(min(jobs, AT_ONCE)) as pool:
        right, listed = pool.submit(built, {}), batches(bodies)
        begun = [pool.submit(built, it) for it in listed]
        making = Making(right.result())
        while listed:
            for batch, module in zip(listed, begun):
                making.take(batch, module.result)
                print(f"{len(making.numbers)} of {len(bodies)} bodies are in the program, {len(making.bad)} are not", flush=True)
            these, making.left = making.left, {}
            listed = batches(these)
            begun = [pool.submit(built, it) for it in listed]
    making.written(folder)
