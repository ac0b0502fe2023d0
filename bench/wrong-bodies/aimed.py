"""Inputs written for wrong bodies that no row, case or small random task tells: searches of hundreds of conflicts, formulas at the
limits, certificates that cite what was dropped, large reports, words and files that a row can not give. What is due is what the
reference says of the same files, or stands here by the rules of the formats."""
import os, random, re

from bodies import ROOT
from lamps import by_clauses

# Tasks of the corpus with a horizon that has no plan, which a search refutes by so many conflicts, from some twenty to a thousand.
REFUTED = """
openstacks/p03 7|pegsol/p03 7|tile/p05 10|blocks-typed/p04 11|briefcaseworld/p06 5|freecell/p04 4|gripper/p04 4|hiking/p03 8|barman/p03 9
childsnack/p06 3|mystery-untyped/p04 5|satellite/p04 4|visitall/p02 8|storage/p04 7|ferry/p05 9|miconic-simpleadl/p04 7|gripper/p05 5
openstacks/p06 7|pegsol/p04 9|visitall/p03 11|pegsol/p05 9|pegsol/p06 9|openstacks/p04 8|openstacks/p03 8|pegsol/p03 9|openstacks/p04 9
openstacks/p05 8|ferry/p06 10|openstacks/p06 8|driverlog/p06 9|barman/p02 7|storage/p05 6|hiking/p03 10|pegsol/p03 10|gripper/p06 6
openstacks/p05 9|openstacks/p04 10|openstacks/p03 9|pegsol/p06 11|ferry/p05 11|openstacks/p03 10|openstacks/p06 9|storage/p04 8
"""
# The facts and the preconditions of a task whose formula of horizon 255 has a number of literals exactly: an action with k preconditions
# and one effect has 2 k + 3, a fact that one action adds and another deletes 10, one that is added alone 4, and 1 at the beginning.
EXACT = [
    ("4,000,000 literals", 69, [69] * 106 + [10, 10], 4_000_000),
    ("4,000,001 literals", 70, [70] * 104 + [26, 26], 4_000_001),
]
EXACT_OF_JUDGE = [("16,000,001 literals", 25, [25] * 1178 + [8, 8, 8], 16_000_001)]

def exact(facts, sizes):
    """The domain and the problem of such a task, whose goal is never reached."""
    names = [f"g{it}" for it in range(facts)]
    kept = " ".join(f"(:action s{it} :effect ({it})) (:action u{it} :effect (not ({it})))" for it in names)
    wanted = [" ".join(f"({it})" for it in names[:size]) for size in sizes]
    long = " ".join(f"(:action b{at} :precondition (and {it}) :effect (h))" for at, it in enumerate(wanted))
    return f"(define (domain d) (:predicates {' '.join(f'({it})' for it in [*names, 'h', 'z'])}) {kept} {long})", "(define (problem p) (:goal (z)))"

def with_more(domain, more=215, facts=40):
    """A domain with so many actions more, each with as many preconditions as there are facts of theirs."""
    names = [f"zg{it}" for it in range(facts)]
    kept = " ".join(f"(:action s{it} :effect ({it})) (:action u{it} :effect (not ({it})))" for it in names)
    long = " ".join(f"(:action zb{at} :precondition (and {' '.join(f'({it})' for it in names)}) :effect (zh))" for at in range(more))
    at = domain.index("(:predicates ") + len("(:predicates ")
    return f"{domain[:at]}{' '.join(f'({it})' for it in [*names, 'zh'])} {domain[at:-1]} {kept} {long})"

def long_clause(actions):
    """A task in which so many actions add one fact, of which none can run, and another is wanted."""
    objects = " ".join(f"o{it}" for it in range(actions))
    domain = ("(define (domain d) (:predicates (ok ?x) (q) (r)) (:action make :parameters (?x) :precondition (r) :effect (ok ?x)) "
              "(:action use :parameters (?x) :precondition (ok ?x) :effect (q)) (:action end :effect (r)) (:action take :effect (not (q))))")
    return domain, f"(define (problem p) (:objects {objects}) (:goal (r)))"

def long_names(actions):
    """A task of so many actions with long names."""
    objects = " ".join(f"{'o' * 80}{it}" for it in range(actions))
    return "(define (domain d) (:predicates (q)) (:action a :parameters (?x) :effect (q)))", f"(define (problem p) (:objects {objects}) (:goal (q)))"

class Making:
    """Makes inputs in folders of their own, with what the reference says of them."""
    def __init__(self, made, compare, reference, folder):
        self.made, self.compare, self.reference, self.folder, self.count = made, compare, reference, folder, 0

    def room(self, files):
        """A new folder with files."""
        here = self.folder / f"aimed{self.count}"
        self.count += 1
        here.mkdir()
        for name, text in files.items():
            (here / name).write_bytes(text if isinstance(text, bytes) else text.encode())
        return here

    def told(self, words, here):
        """What the reference says."""
        return self.compare.go([self.reference, *words], here)

    def input(self, shows, words, files, due=None, told=None):
        """An input, with what is due, or what the reference says, perhaps of other words."""
        here = self.room(files)
        text, status = due or self.told(told or words, here)
        return self.made(f"aimed {shows}", tuple(words), here, text, status)

def searches(make, tasks):
    """Certificates of horizons that take many conflicts, and races that come to such."""
    for at, (name, horizon) in enumerate(it.split() for it in REFUTED.replace("\n", "|").split("|") if it):
        domain, problem, _ = tasks[name]
        files = {"d": domain, "p": problem}
        yield make.input(f"prove {name} {horizon}", ["prove", "d", "p", horizon, "--budget", "4000"], files)
        options = "--alg a --width 2|--alg b --width 5 --percent 70|--alg c --growth 130 --quota 20".split("|")[at % 3].split()
        words = ["d", "p", "--max-horizon", horizon, "--budget", "600", *options]
        yield make.input(f"plan {name} to {horizon}", ["plan", *words], files)
        yield make.input(f"plan-all {name} to {horizon}", ["plan-all", *words], files)

def generated(make):
    """Races on the tasks that the planner makes itself."""
    for kind, most in (("corridor", 14), ("gripper", 9)):
        for number in range(1, most):
            for options in ([], ["--alg", "c", "--start", "3"], ["--alg", "b", "--width", "7"]):
                yield make.input(f"gen {kind} {number}", ["gen", kind, str(number), "--budget", "500", *options], {})
                files = {it[0]: make.told(["gen", kind, str(number), "--show", it], make.folder)[0] for it in ("domain", "problem")}
                yield make.input(f"plan of {kind} {number}", ["plan", "d", "p", "--budget", "500", *options], files)

def cited(luck, lines):
    """A certificate in which a clause that was dropped is cited, or stands again."""
    drops = [at for at, it in enumerate(lines) if it.startswith(b"drop ")]
    at = luck.choice(drops)
    number = lines[at].split()[1]
    again = luck.choice([b"learn by " + number, lines[at], b"drop %d" % (int(number) + 1), b"learn 0 by " + number])
    return lines[: at + 1 + luck.randrange(3)] + [again] + lines[at + 1 :]

def certificates(make, tasks, compare):
    """Certificates of searches as they are, and with what was dropped cited, and with other faults of sense."""
    luck = random.Random(2)
    for name, horizon in [it.split() for it in REFUTED.replace("\n", "|").split("|") if it][:36]:
        domain, problem, _ = tasks[name]
        here = make.room({"d": domain, "p": problem})
        text, _ = make.told(["prove", "d", "p", horizon, "--budget", "4000"], here)
        lines = text.split(b"\n")[:-1]
        spoilt = [text, compare.spoil(luck, text), compare.spoil(luck, text)]
        if b"\ndrop " in text:
            spoilt += [b"\n".join(cited(luck, lines)) + b"\n" for _ in range(4)]
        for it in spoilt:
            yield make.input(f"verify {name} {horizon}", ["verify", "d", "p", "c"], {"d": domain, "p": problem, "c": it})

def limits(make, compare, count):
    """Tasks past the limit on literals, and at it, and large files and reports."""
    luck = random.Random(3)
    for _ in range(count):
        domain, problem = compare.random_task(luck)
        for more in (["--start", "255"], ["--start", "250", "--growth", "101"]):
            yield make.input("formula past the limit", ["plan", "d", "p", "--alg", "c", "--max-horizon", "255", *more], {"d": with_more(domain), "p": problem})
    for horizon in ("254", "255"):
        yield make.input("certificate past the limit", ["prove", "d", "p", horizon], {"d": with_more(domain, 900), "p": problem})
    for shows, facts, sizes, _ in EXACT:
        domain, problem = exact(facts, sizes)
        yield make.input(shows, ["plan", "d", "p", "--alg", "c", "--start", "255", "--max-horizon", "255"], {"d": domain, "p": problem})
    domain, problem = long_clause(1100)
    for words in (["plan", "d", "p", "--max-horizon", "2"], ["prove", "d", "p", "0"]):
        yield make.input("a clause of over 1,000 literals", words, {"d": domain, "p": problem})
    domain, problem = long_names(10_000)
    for word in ("ground", "order"):
        yield make.input(f"{word} of over 1,000,000 bytes", [word, "d", "p"], {"d": domain, "p": problem})
    lamp = "(define (domain lamp) (:predicates (on)) (:action flip :precondition (not (on)) :effect (on)))"
    full = {"d": lamp.ljust(1_048_576), "p": "(define (problem p) (:goal (on)))", "l": "(flip)".ljust(1_048_576), "c": "horizon 0\n".ljust(1_100_000, "x")}
    yield make.input("files of the greatest length", ["check", "d", "p", "l"], full)
    yield make.input("a certificate longer than other files", ["verify", "d", "p", "c"], full)

def outside(make):
    """Words and files that a row can not give."""
    lamp = "(define (domain lamp) (:predicates (on)) (:action flip :precondition (not (on)) :effect (on)))"
    dark = "(define (problem p) (:goal (on)))"
    for name in (" p", "p ", "\tp"):
        yield make.input("a name with a blank at an end", ["plan", "d", name], {"d": lamp, name: dark})
    # no text: the system's words can not be given
    yield make.input("a word that is no text", ["plan", b"\xff", "p"], {"d": lamp, "p": dark}, due=(b"", 9))
    found = make.input("no other file is read", ["plan", "d", "p"], {"d": lamp, "p": dark})
    os.mkfifo(found.folder / "plan")
    yield found
    yield make.input("a file that comes once", ["plan", "/dev/stdin", "p"], {"d": lamp, "p": dark}, told=["plan", "d", "p"])._replace(fed=lamp.encode())

def told_to_judge(text, clauses, gap):
    """A certificate as a proof in the form LRAT: each clause that is learned has the id that comes `gap` after the last one."""
    ids, lines = list(range(1, clauses + 1)), []
    def literal(code):
        return b"%d" % (code // 2 + 1 if code % 2 == 0 else -(code // 2 + 1))
    for line in text.split(b"\n")[1:-1]:
        if line.startswith(b"drop "):
            lines.append(b"%d d %d 0" % (ids[-1], ids[int(line[5:])]))
        else:
            clause, hints = line[5:].split(b" by")
            ids.append(ids[-1] + gap)
            lits, by = [literal(int(it)) for it in clause.split()], [b"%d" % ids[int(it)] for it in hints.split()]
            lines.append(b" ".join([b"%d" % ids[-1], *lits, b"0", *by, b"0"]))
    return lines

def judged(make, tasks, compare):
    """Proofs of searches, as they are, without a line that later ones cite, and with a line that cites what was deleted."""
    luck = random.Random(6)
    for name, horizon in [it.split() for it in REFUTED.replace("\n", "|").split("|") if it]:
        domain, problem, _ = tasks[name]
        files = {"d": domain, "p": problem}
        here = make.room(files)
        text, _ = make.told(["prove", "d", "p", horizon, "--budget", "4000"], here)
        formula, _ = make.told(["dimacs", "d", "p", horizon], here)
        clauses = formula.count(b" 0\n") + formula.startswith(b"0\n") + formula.count(b"\n0\n")
        for gap in (1, 3):
            lines = told_to_judge(text, clauses, gap)
            words = ["judge", "d", "p", horizon, "c"]
            refuted = b"; refuted horizon %s entries %d\n" % (horizon.encode(), len(lines))
            yield make.input(f"judge {name} {horizon}", words, files | {"c": b"\n".join(lines) + b"\n"}, due=(refuted, 0))
            yield make.input(f"judge {name} {horizon} cut", words, files | {"c": b"\n".join(lines[:-1]) + b"\n"}, due=(b"; not empty\n", 1))
            drops = [at for at, it in enumerate(lines) if b" d " in it]
            for at in luck.sample(drops, min(len(drops), 3)):
                last, _, gone, _ = lines[at].split()
                cites = b"%d 0 %s 0" % (int(last) + 1, gone)
                more = lines[: at + 1] + [cites] + lines[at + 1 :]
                due = b"; rejected line %d\n" % (at + 2)
                yield make.input(f"judge {name} {horizon} cites what was deleted", words, files | {"c": b"\n".join(more) + b"\n"}, due=(due, 1))

def small_proofs(make):
    """Proofs and models of a lamp that is off at first, whose formula of horizon 0 is -1 and 1, and of horizon 1 the values 1 -2 3."""
    lamp = "(define (domain lamp) (:predicates (on)) (:action flip :precondition (not (on)) :effect (on)))"
    files = {"d": lamp, "p": "(define (problem p) (:goal (on)))"}
    rejected, syntax = b"; rejected line %d\n", b"; refused syntax model %d\n"
    plan = b"; plan of 1 steps with 1 actions\n; step 1\n(flip)\n"
    for shows, text, due in [
        ("an id that does not rise after a gap", b"9 1 0 2 0\n9 0 9 1 0\n", (rejected % 2, 1)),
        ("an id between the last of the formula and a gap", b"9 1 0 2 0\n5 0 9 1 0\n", (rejected % 2, 1)),
        ("over a million lines", b"".join(b"%d 1 0 2 0\n" % it for it in range(3, 1_000_010)), (b"; not empty\n", 1)),
        ("a line that comes in two pieces", b"3 1 0 2 0\n" + b"".join(b"%d 1 0 2 0\n" % it for it in range(4, 20_000)), (b"; not empty\n", 1)),
    ]:
        yield make.input(shows, ["judge", "d", "p", "0", "c"], files | {"c": text}, due=due)
    here = make.room(files)
    yield make.made("compare formula of the last horizon", ("formula", "d", "p", "255"), here, *without_comments(make.told(["dimacs", "d", "p", "255"], here)))
    for shows, text, due in [
        ("a long line of values", b"v 1 -2" + b" 1" * 2_000 + b" 3 0\n", (plan, 0)),
        ("a long line with a wrong value at its end", b"v 1 -2" + b" 1" * 2_000 + b" -3 0\n", (b"; no model clause 2\n", 1)),
        ("a last variable without a value", b"v 1 -2 0\n", (b"; no model clause 2\n", 1)),
        ("a value after the end", b"v 1 -2 3 0\nv 1\n", (syntax % 11, 3)),
        ("a second end", b"v 1 -2 3 0\nv 0\n", (syntax % 11, 3)),
    ]:
        yield make.input(shows, ["model", "d", "p", "1", "c"], files | {"c": text}, due=due)

def clauses_of(formula):
    """The clauses of a formula in the DIMACS form, and its number of variables."""
    lines = [it.split() for it in formula.splitlines() if it and not it.startswith(b"c")]
    return [[int(it) for it in line[:-1]] for line in lines[1:]], int(lines[0][2])

def filled(clauses, values):
    """Values with all that they force, each other variable false."""
    values, moved = set(values), True
    while moved:
        moved = False
        for clause in clauses:
            left = [it for it in clause if -it not in values]
            if len(left) == 1 and left[0] not in values:
                values.add(left[0])
                moved = True
    return values

def first_false(clauses, values):
    """The number, from 1, of the first clause that is false where each variable without a value is false."""
    return next((at + 1 for at, clause in enumerate(clauses) if not any(it in values or it < 0 and -it not in values for it in clause)), None)

def models(make):
    """Plans of many steps as models, and models of the formula of one kind of steps told to be of the other."""
    burn = ("(define (domain d) (:predicates (p) (q) (r)) (:action burn :effect (and (r) (not (p)))) (:action use :precondition (p) :effect (q)))",
            "(define (problem x) (:init (p)) (:goal (and (q) (r))))", 1, 2, 3, [[0, 1]], b"; plan of 1 steps with 2 actions\n; step 1\n(use)\n(burn)\n")
    made = [burn]
    for size in (3, 12):
        domain, problem = (make.told(["gen", "corridor", str(size), "--show", it], make.folder)[0] for it in ("domain", "problem"))
        walks = sorted((a, b) for a in range(size + 1) for b in (a - 1, a + 1) if 0 <= b <= size)
        text = b"".join(b"; step %d\n(walk r%d r%d)\n" % (it + 1, it, it + 1) for it in range(size))
        steps = [[walks.index((it, it + 1))] for it in range(size)]
        made.append((domain, problem, size, len(walks), size + 1, steps, b"; plan of %d steps with %d actions\n" % (size, size) + text))
    for domain, problem, horizon, actions, facts, steps, plan in made:
        here = make.room({"d": domain, "p": problem})
        for kind in ([], ["all"]):
            clauses, count = clauses_of(make.told(["dimacs", "d", "p", str(horizon), *kind], here)[0])
            width = (count - (horizon + 1) * facts) // horizon
            chosen = {step * width + at + 1 if at in steps[step] else -(step * width + at + 1) for step in range(horizon) for at in range(actions)}
            values = filled(clauses, chosen)
            false = first_false(clauses, values)
            due = (b"; no model clause %d\n" % false, 1) if false else (plan, 0)
            text = b"v " + b" ".join(b"%d" % it for it in sorted(values, key=abs)) + b" 0\n"
            words = ["model", "d", "p", str(horizon), "c", *(["--steps", "all"] if kind else [])]
            yield make.input(f"model of {horizon} steps", words, {"d": domain, "p": problem, "c": text}, due=due)

def without_comments(told):
    """A formula that was told, without its lines of comment."""
    return b"".join(it for it in told[0].splitlines(True) if not it.startswith(b"c")), told[1]

def formulas(make, tasks):
    """Formulas of tasks of the corpus, some of over 100,000 clauses, and of one literal past the limit."""
    for name in sorted(tasks):
        if int(name[-2:]) in (1, 3):
            domain, problem, _ = tasks[name]
            here = make.room({"d": domain, "p": problem})
            for horizon, kind in (("2", []), ("4", ["all"])):
                due = without_comments(make.told(["dimacs", "d", "p", horizon, *kind], here))
                if due[1] == 0:
                    yield make.made(f"compare formula of {name}", ("formula", "d", "p", horizon, *(["--steps", "all"] if kind else [])), here, *due)
    domain, problem = long_clause(1100)
    here = make.room({"d": domain, "p": problem})
    for horizon, shows in (("2", "with a clause of over 1,000 literals"), ("20", "of over 100,000 clauses")):
        due = without_comments(make.told(["dimacs", "d", "p", horizon], here))
        yield make.made(f"compare formula {shows}", ("formula", "d", "p", horizon), here, *due)
    for shows, facts, sizes, count in EXACT_OF_JUDGE:
        domain, problem = exact(facts, sizes)
        yield make.input(shows, ["formula", "d", "p", "255"], {"d": domain, "p": problem}, due=(b"; limit literals %d horizon 255\n" % count, 4))

def random_formula(luck):
    """A formula in the DIMACS form: pigeons in holes, or random clauses, most of three literals, some of up to twelve."""
    if luck.random() < 0.2:
        birds = luck.randrange(5, 9)
        holes = birds - 1
        clauses = [[bird * holes + hole + 1 for hole in range(holes)] for bird in range(birds)]
        clauses += [[-(one * holes + hole + 1), -(other * holes + hole + 1)] for hole in range(holes) for one in range(birds) for other in range(one)]
        luck.shuffle(clauses)
        return birds * holes, clauses
    count = luck.randrange(20, 140)
    sizes = luck.choice([[3], [3], [2, 3, 4], [2, 3, 3, 4, 5, 9, 12]])
    many = int(count * luck.choice([3.8, 4.3, 4.6, 5.2]))
    return count, [[luck.choice([-1, 1]) * it for it in luck.sample(range(1, count + 1), min(luck.choice(sizes), count))] for _ in range(many)]

def solved(make, count):
    """Runs of the solver with the plain chooser on random formulas, whole and in pieces, with what the reference says of each."""
    luck = random.Random(7)
    for at in range(count):
        variables, clauses = random_formula(luck)
        text = f"p cnf {variables} {len(clauses)}\n" + "".join(" ".join(map(str, it)) + " 0\n" for it in clauses)
        conflicts = luck.choice([1, 8, 63, 64, 65, 130, 400, 1000])
        here = make.room({"f": text})
        told, _ = make.told(["solve", "f", str(conflicts)], here)
        yield make.made(f"aimed solve {at} for {conflicts} conflicts", ("solve", "f", str(conflicts)), here, told, 0)
        refuted = told.startswith(b"standing refuted")
        answer = b"check: accepted, entries %d\n" % (told.count(b"learn") + told.count(b"drop")) if refuted else b"check: not empty\n"
        pieces = b"".join(b"in pieces of %d: the same\n" % it for it in (1, 7, 64))
        fed = f"c formula\nc conflicts {conflicts}\n{text}%\n".encode()
        yield make.made(f"aimed solve {at} in pieces", ("solve",), here, b"formula\n" + told + pieces + answer, 0)._replace(fed=fed)

def layers(made, folder):
    """All runs of layers, and each of them, with the output that stands beside the program."""
    crate = ROOT / "crates/layer_runs"
    fed, whole = (crate / "stdin").read_bytes(), (crate / "stdout").read_bytes()
    all_of_them = re.search(r'const ALL: &str =\s*"([^"]*)"', (crate / "src/main.rt").read_text())[1]
    yield made("row of layer_runs", ("all",), folder, whole, 0)._replace(fed=fed, kind="")
    for words, part in zip(all_of_them.split("|"), re.split(rb"^== .*\n", whole, flags=re.M)[1:]):
        yield made(f"row of layer_runs, {words}", tuple(words.split()), folder, part, 0)._replace(fed=fed, kind="")

def aimed(made, compare, shared, folder):
    """The inputs that are written for single bodies."""
    make = Making(made, compare, str(shared / "tools/reference"), folder)
    tasks = {name: rest for name, *rest in compare.corpus()}
    yield from outside(make)
    yield from generated(make)
    yield from searches(make, tasks)
    yield from certificates(make, tasks, compare)
    yield from limits(make, compare, 40)
    yield from by_clauses(make, tasks, exact(*EXACT[1][1:3]))
    for it in solved(make, 80):
        yield it._replace(kind="")
    for it in (*small_proofs(make), *judged(make, tasks, compare), *models(make), *formulas(make, tasks)):
        yield it._replace(kind="judge")
