"""What a formula of a horizon has to be, by a plain reading of the definitions and nothing of the code that is proved.

Facts, actions and effects are numbered from 0. Fact literal 2f says that fact f is true, 2f + 1 that it is false. A
literal of the formula is 2v for variable v, 2v + 1 for its negation. A task is (facts, initial values, goal literals,
whether the goal is hopeless, actions), an action (precondition, effects), an effect (condition, literal). Known pairs are
pairs of literals of which one holds in every state, the smaller first; one literal by itself stands twice.
"""


def opposite(lit):
    return lit ^ 1


def sure_gains(a):
    return {lit // 2 for condition, lit in a[1] if lit % 2 == 0 and not condition}


def sure_losses(a):
    added = {lit // 2 for _, lit in a[1] if lit % 2 == 0}
    return {lit // 2 for condition, lit in a[1] if lit % 2 == 1 and not condition} - added


def exclusive(pairs, p, q):
    """Two literals never hold together, as far as is known."""
    p, q = opposite(p), opposite(q)
    return p == opposite(q) or (min(p, q), max(p, q)) in pairs or (p, p) in pairs or (q, q) in pairs


def together(pairs, a, b):
    """Two actions may share a step, as far as is known."""
    if any(exclusive(pairs, p, q) for p in a[0] for q in b[0]):
        return False
    return not (sure_gains(a) & sure_losses(b)) and not (sure_gains(b) & sure_losses(a))


def edges(actions, pairs):
    """For each action, as the bits of a number, those that it disables and that may share a step with it: an effect of it
    takes a precondition of the other, or has the fact of a literal in an effect condition of the other."""
    need, ask = {}, {}
    for b, (pre, effects) in enumerate(actions):
        for p in pre:
            need.setdefault(p, set()).add(b)
        for condition, _ in effects:
            for c in condition:
                ask.setdefault(c // 2, set()).add(b)
    leads = []
    for a, action in enumerate(actions):
        disabled = set()
        for _, lit in action[1]:
            disabled |= need.get(opposite(lit), set()) | ask.get(lit // 2, set())
        leads.append(sum(1 << b for b in disabled if b != a and together(pairs, action, actions[b])))
    return leads


def members(bits):
    found = []
    while bits:
        least = bits & -bits
        found.append(least.bit_length() - 1)
        bits ^= least
    return found


def reached(leads, start):
    seen = new = 1 << start
    while new:
        after = 0
        for a in members(new):
            after |= leads[a]
        new = after & ~seen
        seen |= new
    return seen


def turned(leads):
    back = [0] * len(leads)
    for a, bits in enumerate(leads):
        for b in members(bits):
            back[b] |= 1 << a
    return back


def published(actions, pairs):
    """Classes of mutual reachability; again and again the one of least name all of whose targets were taken."""
    leads = edges(actions, pairs)
    back = turned(leads)
    classes, classed = [], 0
    for a in range(len(actions)):
        if not classed >> a & 1:
            one = reached(leads, a) & reached(back, a)
            classes.append(one)
            classed |= one
    targets = []
    for one in classes:
        led = 0
        for a in members(one):
            led |= leads[a]
        targets.append(led & ~one)
    taken, order, left = 0, [], list(range(len(classes)))
    while left:
        k = next(k for k in left if targets[k] & ~taken == 0)
        left.remove(k)
        taken |= classes[k]
        order.append(members(classes[k]))
    return order


def links(actions, facts, members):
    """For two or more actions in an order and each literal that has them: the literal, its takers, and its readers after a
    taker, both with their places in the order."""
    found = []
    if len(members) < 2:
        return found
    takers, readers = {}, {}
    for place, a in enumerate(members):
        pre, effects = actions[a]
        for m in {opposite(lit) for _, lit in effects}:
            takers.setdefault(m, []).append((place, a))
        asked = {c // 2 for condition, _ in effects for c in condition}
        for m in set(pre) | {2 * f for f in asked} | {2 * f + 1 for f in asked}:
            readers.setdefault(m, []).append((place, a))
    for m in range(2 * facts):
        taking = takers.get(m, [])
        later = [r for r in readers.get(m, []) if taking and taking[0][0] < r[0]]
        if later:
            found.append((m, taking, later))
    return found


def chains(actions, facts, order):
    """Those of exists-steps: of each component, by literal."""
    return [(taking, later) for component in order for _, taking, later in links(actions, facts, component)]


def both_ways(actions, facts, order):
    """Those of all-steps: by literal, of all actions in their order and then in its reverse."""
    whole = [a for component in order for a in component]
    found = [(m, way, taking, later) for way, members in enumerate((whole, whole[::-1])) for m, taking, later in links(actions, facts, members)]
    return [(taking, later) for _, _, taking, later in sorted(found, key=lambda f: f[:2])]


def counts(task, order, chained=chains):
    """How many actions, conditional effects, chain variables and facts there are."""
    facts, _, _, _, actions = task
    conditional = sum(1 for _, es in actions for c, _ in es if c)
    return len(actions), conditional, sum(len(later) for _, later in chained(actions, facts, order)), facts


def clauses(task, order, pairs, n, chained=chains):
    """How many variables the formula of horizon n has, and its clauses in order, each sorted."""
    facts, init, goal, hopeless, actions = task
    chain_links = chained(actions, facts, order)
    A, C, X, _ = counts(task, order, chained)
    W = A + C + X
    numbered, made, j = [], {}, 0
    for a, (_, es) in enumerate(actions):
        for condition, lit in es:
            numbered.append((a, condition, lit, A + j if condition else a))
            j += 1 if condition else 0
    of_action = {}
    for effect in numbered:
        of_action.setdefault(effect[0], []).append(effect)
        made.setdefault(effect[2], []).append(effect[3])

    def at(lit, t):
        return 2 * (n * W + t * facts + lit // 2) + lit % 2

    def listed():
        yield from ([at(2 * f if init[f] else 2 * f + 1, 0)] for f in range(facts))
        if hopeless:
            yield []
        yield from ([at(l, n)] for l in goal)
        for t in range(n):
            yield from step(t, t * W)
        for t in range(n + 1):
            for l, m in sorted(pairs):
                if l == m:
                    yield [at(l, t)]
                elif (l, l) not in pairs and (m, m) not in pairs:
                    yield [at(l, t), at(m, t)]

    def step(t, first):
        for a, (pre, _) in enumerate(actions):
            yield from ([2 * (first + a) + 1, at(p, t)] for p in pre)
        for a in range(A):
            for _, condition, lit, own in of_action.get(a, []):
                yes, no = 2 * (first + own), 2 * (first + own) + 1
                if condition:
                    yield [no, 2 * (first + a)]
                    yield from ([no, at(c, t)] for c in condition)
                    yield [yes, 2 * (first + a) + 1] + [at(opposite(c), t) for c in condition]
                adds = [2 * (first + e[3]) for e in of_action[a] if e[2] == opposite(lit)] if lit % 2 else []
                yield [no, at(lit, t + 1)] + adds
        for f in range(facts):
            yield [at(2 * f + 1, t), at(2 * f, t + 1)] + [2 * (first + v) for v in made.get(2 * f + 1, [])]
            yield [at(2 * f, t), at(2 * f + 1, t + 1)] + [2 * (first + v) for v in made.get(2 * f, [])]
        chain = first + A + C
        for takers, later in chain_links:
            for place, e in takers:
                after = [i for i, r in enumerate(later) if r[0] > place][:1]
                yield from ([2 * (first + e) + 1, 2 * (chain + i)] for i in after)
            for i, (_, r) in enumerate(later):
                yield [2 * (chain + i) + 1, 2 * (first + r) + 1]
                if i + 1 < len(later):
                    yield [2 * (chain + i) + 1, 2 * (chain + i + 1)]
            chain += len(later)

    def kept():
        for clause in listed():
            lits = set(clause)
            if not any(opposite(l) in lits for l in lits):
                yield sorted(lits)

    return n * W + (n + 1) * facts, kept()
