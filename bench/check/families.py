"""Families of lawful tasks that ask for little and can cost much: what `bench/check/large` measures beside the reference. Each family
is a name, the words of a command on the files d, p and l, and their texts."""

def words(pattern, count, first=0):
    return " ".join(pattern.replace("#", str(number)) for number in range(first, first + count))

def objects(count, kind="", letter="o"):
    return words(f"{letter}#", count) + (f" - {kind}" if kind else "")

def task(objects_of, init="", goal="(q)"):
    return f"(define (problem p) (:objects {objects_of}) (:init {init}) (:goal {goal}))"

def same_conditions(times, count):
    domain = f"(define (domain d) (:predicates (q) (p)) (:action a :parameters (?x ?y) :precondition (and {'(q)' * times}) :effect (p)) (:action u :effect (not (q))))"
    return ["ground", "d", "p"], [domain, task(objects(count), "(q)", "(p)")]

def same_effects(times, count):
    domain = f"(define (domain d) (:predicates (q) (p)) (:action a :parameters (?x ?y) :effect (and {'(q)' * times})) (:action u :effect (not (q))))"
    return ["ground", "d", "p"], [domain, task(objects(count), "(q)")]

def triangles(count):
    domain = "(define (domain d) (:predicates (e ?a ?b) (q)) (:action a :parameters (?a ?b ?c) :precondition (and (e ?a ?b) (e ?b ?c) (e ?c ?a)) :effect (q)))"
    return ["ground", "d", "p"], [domain, task(objects(count), " ".join(f"(e o{i} o{j})" for i in range(count) for j in range(count)))]

def conditional_effects(count, calls):
    effects = words("(when (r e#) (p e#))", count)
    domain = f"""(define (domain d) (:types e x) (:constants {objects(count, 'e', 'e')}) (:predicates (p ?e) (r ?e) (q))
 (:action a :parameters (?x - x) :effect (and (q) {effects}))
 (:action s :parameters (?e - e) :effect (r ?e)) (:action u :parameters (?e - e) :effect (and (not (p ?e)) (not (r ?e)))))"""
    return ["ground", "d", "p"], [domain, task(objects(calls, "x", "x"))]

def changes(count):
    return " ".join(f"(p e{i})" if i % 2 else f"(not (p e{i}))" for i in range(count))

def many_effects(command, side, count):
    domain = f"""(define (domain d) (:types e x) (:constants {objects(count, 'e', 'e')}) (:predicates (p ?e) (q))
 (:action a :parameters (?x ?y - x) :effect (and (q) {changes(count)}))
 (:action s :parameters (?e - e) :effect (p ?e)) (:action u :parameters (?e - e) :effect (not (p ?e))))"""
    return command, [domain, task(objects(side, "x", "x"))]

def many_conditions(side, count):
    domain = f"""(define (domain d) (:types e x) (:constants {objects(count, 'e', 'e')}) (:predicates (p ?e) (q))
 (:action a :parameters (?x ?y - x) :precondition (and {changes(count)}) :effect (q))
 (:action s :parameters (?e - e) :effect (p ?e)) (:action u :parameters (?e - e) :effect (not (p ?e))))"""
    return ["plan", "d", "p", "--max-horizon", "0"], [domain, task(objects(side, "x", "x"))]

def one_wide_action(conditions, side):
    domain = f"""(define (domain d) (:types k j) (:constants {objects(side, 'k')} {words('o#', conditions - side, side)} - j) (:predicates (p ?x) (q) (g))
 (:action big :parameters () :precondition (and {words('(p o#)', conditions)}) :effect (and (g) (forall (?x ?y - k) (when (and (p ?x) (not (p ?y))) (q)))))
 (:action s :parameters (?x) :effect (p ?x)) (:action u :parameters (?x) :effect (not (p ?x))))"""
    return ["plan", "d", "p", "--max-horizon", "1"], [domain, "(define (problem p) (:domain d) (:init) (:goal (g)))"]

def adds_and_deletes(side):
    domain = """(define (domain d) (:predicates (g ?x) (h ?x) (f) (goal))
 (:action big :parameters () :precondition () :effect (and (goal) (forall (?x ?y) (when (and (g ?x) (g ?y)) (f))) (forall (?x ?y) (when (and (h ?x) (h ?y)) (not (f))))))
 (:action sg :parameters (?x) :effect (g ?x)) (:action sh :parameters (?x) :effect (h ?x)))"""
    return ["order", "d", "p"], [domain, task(objects(side), "(f)", "(goal)")]

def long_chain(facts, side):
    domain = """(define (domain d) (:types c x) (:predicates (f ?i - c) (next ?i ?j - c) (g ?x - x) (h ?x - x) (done))
 (:action step :parameters (?i ?j - c) :precondition (and (f ?i) (next ?i ?j)) :effect (f ?j))
 (:action w :parameters (?x ?y - x) :precondition (g ?x) :effect (and (when (h ?x) (g ?y)) (when (g ?y) (h ?x)) (when (not (h ?y)) (not (g ?x)))))
 (:action ask :effect (forall (?i - c) (when (f ?i) (done)))))"""
    steps = " ".join(f"(next c{i} c{i + 1})" for i in range(facts - 1))
    return ["order", "d", "p"], [domain, task(f"{objects(facts, 'c', 'c')} {objects(side, 'x', 'x')}", f"(f c0) (g x0) {steps}", "(done)")]

def unused_variables(count):
    domain = f"(define (domain d) (:predicates (q)) (:action a :effect (forall ({words('?v#', count)}) (q))))"
    return ["check", "d", "p", "l"], [domain, task("a b"), "(a)\n"]

def many_under_when(count, same):
    literals, predicates = ("(q)" * count, "(q)") if same else (words("(q#)", count), words("(q#)", count))
    domain = f"(define (domain d) (:predicates (p ?x) {predicates}) (:action a :parameters (?x) :effect (when (and {'(p ?x)' * count}) (and {literals}))))"
    return ["ground", "d", "p"], [domain, task("o", "(p o)", "(p o)")]

def nested(levels, variables, literals):
    effect = "".join(f"(forall ({words(f'?z{level}_#', variables)}) (and " for level in range(levels)) + "(p ?0)" * literals + "))" * levels
    domain = f"(define (domain d) (:predicates (p ?x)) (:action a :parameters ({words('?#', 2 * levels * variables)}) :effect {effect}))"
    return ["ground", "d", "p"], [domain, "(define (problem x) (:init) (:goal ()))"]

def many_terms(count):
    domain = f"(define (domain d) (:constants c) (:predicates (p {words('?#', count)})) (:action a :parameters (?x) :effect (p {'?x ' * count})))"
    return ["ground", "d", "p"], [domain, "(define (problem x) (:init) (:goal ()))"]

def many_parameters(count):
    domain = f"(define (domain d) (:predicates (p ?x)) (:action a :parameters ({words('?#', count)}) :precondition (and {' '.join(f'(p ?{count - 1 - i % 7})' for i in range(count))}) :effect (p ?0)))"
    return ["ground", "d", "p"], [domain, "(define (problem x) (:init) (:goal ()))"]

def corridor(rooms, robots):
    domain = """(define (domain d) (:types r k) (:predicates (at ?k - k ?r - r) (door ?a ?b - r))
 (:action go :parameters (?k - k ?a ?b - r) :precondition (and (at ?k ?a) (door ?a ?b)) :effect (and (at ?k ?b) (not (at ?k ?a)))))"""
    doors = " ".join(f"(door r{i} r{i + 1}) (door r{i + 1} r{i})" for i in range(rooms - 1))
    init, goal = words("(at k# r0)", robots), words(f"(at k# r{rooms - 1})", robots)
    return ["plan", "d", "p"], [domain, task(f"{objects(rooms, 'r', 'r')} {objects(robots, 'k', 'k')}", f"{doors} {init}", f"(and {goal})")]

def wide_clauses(count):
    domain = """(define (domain d) (:types x) (:predicates (q) (done) (p ?x - x))
 (:action a :parameters (?x ?y - x) :precondition (and (p ?x) (not (p ?y))) :effect (and (q) (not (p ?x)) (p ?y))) (:action f :precondition (q) :effect (done)))"""
    return ["plan", "d", "p"], [domain, task(objects(count, "x", "x"), words("(p x#)", count // 2), "(done)")]

def long_name(length, count):
    domain = "(define (domain d) (:predicates (q)) (:action a :parameters (?x ?y) :effect (q)))"
    return ["ground", "d", "p"], [domain, task("o" * length + " " + objects(count))]

def long_plan(calls, count):
    domain = f"(define (domain d) (:constants {objects(count)}) (:predicates (p ?x) (q)) (:action a :effect (and (q) {words('(p o#)', count)})))"
    return ["check", "d", "p", "l"], [domain, task("o"), "(a)\n" * calls]

def atoms_of(predicate, arguments, count, atoms, step=2654435761):
    """So many atoms over so many objects, no two equal, in an order that is none of their own: the digits of the multiples of a prime."""
    numbers = [number * step % count**arguments for number in range(atoms)]
    return " ".join(f"({predicate} {' '.join(f'o{number // count**place % count}' for place in range(arguments))})" for number in numbers)

def wide_relation(arguments, count, atoms):
    terms = words("?v#", arguments)
    domain = f"(define (domain d) (:predicates (p {terms}) (q)) (:action a :parameters ({terms}) :precondition (p {terms}) :effect (q)))"
    return ["ground", "d", "p"], [domain, task(objects(count), atoms_of("p", arguments, count, atoms))]

def wide_relations(arguments, shared, count, atoms):
    terms, others = words("?v#", arguments), words("?v#", arguments, arguments - shared)
    every = words("?v#", 2 * arguments - shared)
    domain = f"""(define (domain d) (:predicates (p {terms}) (r {terms}) (q))
 (:action a :parameters ({every}) :precondition (and (p {terms}) (r {others})) :effect (q)))"""
    init = f"{atoms_of('p', arguments, count, atoms)} {atoms_of('r', arguments, count, atoms, 1000000007)}"
    return ["ground", "d", "p"], [domain, task(objects(count), init)]

def grid_of_cubes(side):
    domain = """(define (domain d) (:predicates (at ?x ?y ?z) (next ?x ?y ?z ?a ?b ?c))
 (:action go :parameters (?x ?y ?z ?a ?b ?c) :precondition (and (at ?x ?y ?z) (next ?x ?y ?z ?a ?b ?c)) :effect (and (not (at ?x ?y ?z)) (at ?a ?b ?c))))"""
    places = [(x, y, z) for x in range(side) for y in range(side) for z in range(side)]
    sides = [(1, 0, 0), (-1, 0, 0), (0, 1, 0), (0, -1, 0), (0, 0, 1), (0, 0, -1)]
    others = [(place, tuple(p + s for p, s in zip(place, by))) for place in places for by in sides]
    doors = " ".join(f"(next {' '.join(f'o{p}' for p in place + other)})" for place, other in others if all(0 <= p < side for p in other))
    last = f"o{side - 1}"
    return ["ground", "d", "p"], [domain, task(objects(side), f"(at o0 o0 o0) {doors}", f"(at {last} {last} {last})")]

def unused_objects(calls, count):
    domain = "(define (domain d) (:predicates (p ?x) (q)) (:action a :effect (forall (?x ?y) (when (p ?x) (q)))))"
    return ["check", "d", "p", "l"], [domain, task(objects(count), words("(p o#)", count)), "(a)\n" * calls]

# The name of each family, its sizes from the least, which is a row of the gate, to the one that is measured.
FAMILIES = [
    ("a condition that stands again and again", same_conditions, [(30, 3), (1000, 40)]),
    ("an effect that stands again and again", same_effects, [(30, 3), (3000, 16)]),
    ("a join of three conditions", triangles, [(4,), (120,)]),
    ("effects with a condition, past the limit", conditional_effects, [(260, 260), (400, 2000)]),
    ("actions with many effects, ground", lambda *size: many_effects(["ground", "d", "p"], *size), [(3, 12), (60, 600)]),
    ("actions with many effects, order", lambda *size: many_effects(["order", "d", "p"], *size), [(3, 12), (110, 60)]),
    ("actions with many conditions", many_conditions, [(3, 12), (30, 500)]),
    ("an action with many conditions and effects", one_wide_action, [(12, 6), (1000, 200)]),
    ("conditional adds and deletes of one fact", adds_and_deletes, [(4,), (24,)]),
    ("a chain of facts beside other actions", long_chain, [(12, 4), (400, 40)]),
    ("variables that no effect uses", unused_variables, [(6,), (20,)]),
    ("conditions and literals under when", lambda count: many_under_when(count, False), [(12,), (3000,)]),
    ("the same under when", lambda count: many_under_when(count, True), [(12,), (3000,)]),
    ("forall in forall", nested, [(3, 4, 12), (25, 400, 10000)]),
    ("an atom of many terms", many_terms, [(40,), (60000,)]),
    ("an action of many parameters", many_parameters, [(40,), (30000,)]),
    ("robots in a corridor", corridor, [(6, 2), (40, 2)]),
    ("wide clauses", wide_clauses, [(6,), (60,)]),
    ("a long name", long_name, [(300, 4), (10000, 60)]),
    ("a long plan", long_plan, [(20, 20), (20000, 400)]),
    ("a relation of two objects and many places", wide_relation, [(4, 2, 6), (20, 2, 9000)]),
    ("a relation of many places", wide_relation, [(3, 4, 12), (8, 6, 16000)]),
    ("a relation of some places and many objects", wide_relation, [(2, 5, 9), (4, 44, 16000)]),
    ("two relations of many places", wide_relations, [(3, 2, 3, 8), (6, 3, 5, 1200)]),
    ("a grid of cubes", grid_of_cubes, [(2,), (12,)]),
    ("a variable over many objects that no effect uses", unused_objects, [(4, 6), (300, 1999)]),
]

def members(which):
    """Of each family the least member (0) or the one that is measured (1)."""
    for name, of, sizes in FAMILIES:
        command, texts = of(*sizes[which])
        yield f"{name}, {sizes[which]}", command, texts
