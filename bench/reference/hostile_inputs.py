"""Inputs that someone who means harm might send: spoilt files of tasks, random tasks, nearly right words, spoilt certificates,
and small tasks that cost more than they ask for. For bench/reference/hostile."""
import itertools, re
from typing import NamedTuple

TOKEN = re.compile(rb"[()]|[^\s()]+|\s+")
WORDS = [b"(", b")", b"-", b"=", b"not", b"and", b"or", b"when", b"forall", b"exists", b"object", b"either", b":types", b":objects",
         b":init", b":goal", b":action", b":parameters", b":precondition", b":effect", b":predicates", b":constants", b"?x", b"?",
         b":requirements", b":metric", b":functions", b":length", b"()", b"(and)", b"(not ())", b"(= a b)", b"; c\n", b"\x00",
         b"\xff", b"imply", b"increase", b"define", b"domain", b"problem", b"99999999999999999999", b"()" * 70, b"(" * 70]
RANGES = {"--width": (1, 16), "--quota": (1, 10000), "--percent": (1, 99), "--growth": (101, 400), "--start": (0, 255),
          "--max-horizon": (0, 255), "--budget": (0, 1000000), "--slice": (1, 10000), "--workers": (1, 16)}

class Task(NamedTuple):
    """The bytes of a domain and of a problem, and of a plan, empty where none is known."""
    domain: bytes
    problem: bytes
    plan: bytes

class Input(NamedTuple):
    """What is handed over: the kind of input, the words, and the files by name."""
    kind: str
    words: list[str]
    files: dict[str, bytes]

def bytes_changed(r, text):
    """A text with up to four bytes set to others, one bit turned, or a run of bytes taken out, doubled or put elsewhere."""
    text = bytearray(text or b"(")
    for _ in range(r.randint(1, 4)):
        at = r.randrange(len(text) or 1)
        run = text[at:at + r.choice([1, 2, 8, 64])]
        how = r.randrange(5)
        if how == 0:
            text[at:at + 1] = bytes([r.randrange(256)])
        elif how == 1 and text:
            text[at] ^= 1 << r.randrange(8)
        elif how == 2:
            del text[at:at + len(run)]
        else:
            to = at if how == 3 else r.randrange(len(text) + 1)
            text[to:to] = run
    return bytes(text)

def words_changed(r, text):
    """A text with words taken out, put in, exchanged or cut short."""
    tokens = TOKEN.findall(text)
    for _ in range(r.choice([1, 1, 1, 2, 3])):
        if not tokens:
            break
        at, how = r.randrange(len(tokens)), r.randrange(6)
        if how == 0:
            del tokens[at]
        elif how == 1:
            tokens[at:at] = [r.choice(WORDS), b" "]
        elif how == 2:
            tokens[at] = r.choice(WORDS)
        elif how == 3:
            other = r.randrange(len(tokens))
            tokens[at], tokens[other] = tokens[other], tokens[at]
        elif how == 4:
            tokens[at] = r.choice(tokens)
        else:
            tokens[at] = tokens[at].upper() if tokens[at].islower() else tokens[at][:-1]
    return b"".join(tokens)

def spoilt(r, text, others):
    """A text that was changed, cut off, or spliced with another one."""
    how = r.random()
    if how < 0.4:
        return words_changed(r, text)
    if how < 0.7:
        return bytes_changed(r, text)
    if how < 0.85:
        return text[:r.randrange(len(text) + 1)]
    other = r.choice(others)
    return text[:r.randrange(len(text) + 1)] + other[r.randrange(len(other) + 1):]

def certificate_spoilt(r, text):
    """A certificate with lines or numbers taken out, exchanged, doubled or changed."""
    lines = text.split(b"\n")[:-1]
    for _ in range(r.choice([1, 1, 1, 2, 3])):
        if not lines:
            break
        at, how = r.randrange(len(lines)), r.randrange(7)
        words = lines[at].split(b" ")
        place = r.randrange(len(words))
        if how == 0:
            del lines[at]
        elif how == 1:
            other = r.randrange(len(lines))
            lines[at], lines[other] = lines[other], lines[at]
        elif how == 2:
            lines.insert(at, r.choice(lines))
        elif how == 3:
            del words[place]
        elif how == 4:
            words.insert(place, r.choice(words))
        elif how == 5 and words[place].isdigit():
            words[place] = b"%d" % max(0, int(words[place]) + r.choice([-2, -1, 1, 2, 64, 4294967295]))
        else:
            words[0] = r.choice([b"drop", b"learn", b"horizon", b"by"])
        if how > 2:
            lines[at] = b" ".join(words)
    return b"".join(line + b"\n" for line in lines)

class Sketch:
    """A random task: few predicates, objects and actions, conditions and effects of every form."""
    def __init__(self, r):
        self.r = r
        self.types = r.choice([[], ["ta", "tb"]])
        self.predicates = [(f"p{i}", r.choice([0, 0, 1, 1, 2])) for i in range(r.randint(2, 4))]
        self.constants = ["c0"] if r.random() < 0.4 else []
        self.objects = [f"o{i}" for i in range(r.randint(1, 2))]

    def typed(self, names):
        """Names, some with a type."""
        kinds = self.types + ["object"]
        return " ".join(name + (f" - {self.r.choice(kinds)}" if self.types and self.r.random() < 0.6 else "") for name in names)

    def atom(self, names):
        name, places = self.r.choice(self.predicates)
        if places and not names:
            return f"({self.predicates[0][0]})"
        return "(" + " ".join([name] + [self.r.choice(names) for _ in range(places)]) + ")"

    def literal(self, names, equal=0.1):
        if names and self.r.random() < equal:
            atom = f"(= {self.r.choice(names)} {self.r.choice(names)})"
        else:
            atom = self.atom(names)
        return f"(not {atom})" if self.r.random() < 0.35 else atom

    def condition(self, names):
        literals = [self.literal(names) for _ in range(self.r.randint(0, 2))]
        return literals[0] if len(literals) == 1 and self.r.random() < 0.5 else "(and " + " ".join(literals) + ")"

    def effect(self, scope, depth=0):
        names, how = scope + self.constants, self.r.random()
        if how < 0.5 or depth > 2:
            return self.literal(names, 0)
        if how < 0.7:
            return f"(when {self.condition(names)} (and {self.literal(names, 0)} {self.literal(names, 0)}))"
        if how < 0.8:
            variable = self.r.choice(["?x", "?y", "?z"])
            return f"(forall ({self.typed([variable])}) {self.effect(scope + [variable], depth + 1)})"
        return "(and " + " ".join(self.effect(scope, depth + 1) for _ in range(self.r.randint(0, 3))) + ")"

    def action(self, number):
        scope = self.r.choice([[], [], ["?x"], ["?x"], ["?x", "?y"]])
        return (f"(:action a{number} :parameters ({self.typed(scope)}) :precondition {self.condition(scope + self.constants)}"
                f" :effect (and {' '.join(self.effect(scope) for _ in range(self.r.randint(1, 3)))}))")

    def domain(self):
        declared = " ".join("(" + " ".join([name] + [f"?v{i}" for i in range(places)]) + ")" for name, places in self.predicates)
        types = "(:types ta - tb tb)" if self.types else ""
        constants = f"(:constants {self.typed(self.constants)})" if self.constants else ""
        actions = " ".join(self.action(i) for i in range(self.r.randint(1, 4)))
        return f"(define (domain d) {types} {constants} (:predicates {declared}) {actions})"

    def problem(self):
        names = self.constants + self.objects
        atoms = ["(" + " ".join([name, *terms]) + ")" for name, places in self.predicates
                 for terms in itertools.product(names, repeat=places) if self.r.random() < 0.35]
        goals = " ".join(self.literal(names, 0.03) for _ in range(self.r.randint(1, 3)))
        return f"(define (problem x) (:objects {self.typed(self.objects)}) (:init {' '.join(atoms)}) (:goal (and {goals})))"

def random_task(r):
    sketch = Sketch(r)
    return Task(sketch.domain().encode(), sketch.problem().encode(), b"(a0)\n")

def named(letter, count):
    return " ".join(f"{letter}{i}" for i in range(count))

def repeated(r):
    """A condition or an effect that stands many times."""
    count, objects = r.choice([2, 30, 200]), r.choice([1, 4, 8])
    condition, effect = r.choice([("(q)" * count, "(p)"), ("", "(q)" * count), ("(q)" * count, "(p)" * count)])
    return (f"(define (domain d) (:predicates (q) (p)) (:action a :parameters (?x ?y) :precondition (and {condition})"
            f" :effect (and {effect})) (:action u :effect (not (q))))",
            f"(define (problem x) (:objects {named('o', objects)}) (:init (q)) (:goal (p)))")

def joined(r):
    """A join of three conditions over a whole graph."""
    names = [f"o{i}" for i in range(r.randint(1, 9))]
    edges = " ".join(f"(e {a} {b})" for a in names for b in names)
    return ("(define (domain d) (:predicates (e ?a ?b) (q)) (:action a :parameters (?a ?b ?c)"
            " :precondition (and (e ?a ?b) (e ?b ?c) (e ?c ?a)) :effect (q)))",
            f"(define (problem x) (:objects {' '.join(names)}) (:init {edges}) (:goal (q)))")

def nested(r):
    """Many variables in nested `forall`, and an effect that uses none of them, or the outermost alone."""
    depth, variables = r.randint(1, 5), r.randint(1, 3)
    heads = "".join(f"(forall ({' '.join(f'?z{i}_{j}' for j in range(variables))}) " for i in range(depth))
    return (f"(define (domain d) (:predicates (p ?x) (q)) (:action a :effect {heads}{r.choice(['(q)', '(p ?z0_0)'])}{')' * depth}))",
            f"(define (problem x) (:objects {named('o', r.randint(0, 2))}) (:init) (:goal (q)))")

def conditional(r):
    """Many conditional effects on one fact, some that add it and some that delete it."""
    return ("(define (domain d) (:predicates (g ?x) (h ?x) (f) (goal)) (:action big :effect (and (goal)"
            " (forall (?x ?y) (when (and (g ?x) (g ?y)) (f))) (forall (?x ?y) (when (and (h ?x) (h ?y)) (not (f))))))"
            " (:action sg :parameters (?x) :effect (g ?x)) (:action sh :parameters (?x) :effect (h ?x)))",
            f"(define (problem x) (:objects {named('o', r.randint(1, 7))}) (:init (f)) (:goal (and (goal))))")

def chained(r):
    """A chain of facts beside further actions."""
    links, others = r.randint(1, 12), r.randint(1, 4)
    edges = " ".join(f"(next c{i} c{i + 1})" for i in range(links - 1))
    return ("(define (domain d) (:types c x) (:predicates (f ?i - c) (next ?i ?j - c) (g ?x - x) (h ?x - x) (done))"
            " (:action step :parameters (?i ?j - c) :precondition (and (f ?i) (next ?i ?j)) :effect (f ?j))"
            " (:action w :parameters (?x ?y - x) :precondition (g ?x) :effect (and (when (h ?x) (g ?y)) (when (g ?y) (h ?x))))"
            " (:action ask :effect (forall (?i - c) (when (f ?i) (done)))))",
            f"(define (problem p) (:objects {named('c', links)} - c {named('x', others)} - x)"
            f" (:init (f c0) (g x0) {edges}) (:goal (done)))")

FAMILIES = [repeated, joined, nested, conditional, chained]

def family_task(r):
    domain, problem = r.choice(FAMILIES)(r)
    return Task(domain.encode(), problem.encode(), r.choice([b"(a)\n", b"(big)\n", b"(ask)\n(ask)\n"]))

def options(r):
    """Options of a race, in their ranges, small enough for a short run."""
    return ["--max-horizon", str(r.choice([0, 2, 4, 6])), "--alg", r.choice("abc"), "--width", str(r.randint(1, 16)),
            "--quota", str(r.choice([1, 2, 5, 50])), "--percent", str(r.randint(1, 99)), "--growth", str(r.randint(101, 400)),
            "--start", str(r.randint(0, 3)), "--budget", str(r.choice([0, 1, 3, 10, 200])), "--slice", str(r.choice([1, 3, 50]))]

def command(r):
    """The words of some command on a task."""
    how = r.random()
    if how < 0.35:
        return ["plan", "d", "p", *options(r), "--workers", str(r.choice([1, 1, 2, 16]))]
    if how < 0.45:
        return ["plan-all", "d", "p", *options(r), "--workers", "1"]
    if how < 0.55:
        return ["batch", "d", "p", "p", *options(r)]
    if how < 0.65:
        return ["prove", "d", "p", str(r.randint(0, 4)), "--budget", str(r.choice([0, 1, 5, 300]))]
    return r.choice([["ground", "d", "p"], ["order", "d", "p"], ["check", "d", "p", "l"]])

def number(r, low, high):
    return str(r.choice([r.randint(low, high), low, high, low - 1, high + 1, f"0{low}", f"+{low}", "", "-1", "1e2", "0x5", " 3"]))

def words_nearly_right(r):
    """Words of a command: options in any place, given twice, with `=`, cut off, without a value, after `--`."""
    name = r.choice(["plan", "plan", "check", "ground", "order", "gen", "Plan", "help", "", "prove", "verify", "plan-all", "batch"])
    given = {"check": ["d", "p", "l"], "verify": ["d", "p", "l"], "prove": ["d", "p", "1"], "gen": ["gripper", number(r, 1, 3)]}
    words = [[it] for it in given.get(name, ["d", "p"])]
    words = words[:-1] if r.random() < 0.1 else words + [[r.choice(["x", "-", "--", ""])]] if r.random() < 0.1 else words
    for _ in range(r.choice([0, 0, 1, 1, 2, 3])):
        option = r.choice([*RANGES, "--alg", "--show", "--turns", "--help", "-h", "--version", "--max", "-w", "--unknown"])
        value = number(r, *RANGES[option]) if option in RANGES else r.choice(["a", "b", "A", "", "none", "domain", "forward"])
        value = "500" if option == "--budget" and value.isdigit() and int(value) > 500 else value
        words.insert(r.randint(0, len(words)), r.choice([[option, value], [f"{option}={value}"], [option], [option + value]]))
    return [name] * (r.random() > 0.02) + [it for part in words for it in part]
