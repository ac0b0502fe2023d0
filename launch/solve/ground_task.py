"""A ground task, read from what the proved programs print: the listing of `ground`, and the formula of horizon 1, in which all of it stands.

A literal of a fact is a number: 2f says that fact f is true, 2f + 1 that it is false. Nothing here is believed: what is found by it is
judged from the files."""
import re
import typing


class Action(typing.NamedTuple):
    """What has to hold before, and the effects, each a literal and the literals under which it comes."""

    before: list
    effects: list


class GroundTask:
    """The facts by their number, the initial state as the facts that are true, the goal, what is known of all states, and the actions."""

    def __init__(self, listing, formula):
        counts = [int(re.search(rf"(?m)^; {it} (\d+)$", listing)[1]) for it in ("facts", "actions", "effects")]
        self.facts, self.count, self.conditional = counts
        clauses = [[int(it) for it in line.split()[:-1]] for line in formula.split("\n") if line and line[0] not in "cp"]
        variables = int(re.search(r"(?m)^p cnf (\d+) ", formula)[1])
        self.first = variables - 2 * self.facts
        self.is_hopeless = [] in clauses
        self.initial = {clause[0] - 1 - self.first for clause in clauses[: self.facts] if clause[0] > 0}
        self.goal, self.known = [], []
        rest = self.read_goal([it for it in clauses[self.facts :] if it])
        self.actions = [Action([], []) for _ in range(self.count)]
        self.read_steps(rest)

    def kind(self, variable):
        """What a variable is: an action, a conditional effect, a link of a chain, a fact now or a fact next."""
        ends = (self.count, self.count + self.conditional, self.first, self.first + self.facts)
        return next((it for it, end in zip("aexn", ends) if variable <= end), "t")

    def literal(self, number):
        """The literal of a fact, now or next."""
        return 2 * ((abs(number) - 1 - self.first) % self.facts) + (number < 0)

    def read_goal(self, clauses):
        """Takes the goal: clauses of one fact at the end, the first ones behind the initial state. Answers the others."""
        for at, clause in enumerate(clauses):
            if len(clause) > 1 or self.kind(abs(clause[0])) != "t":
                return clauses[at:]
            self.goal.append(self.literal(clause[0]))
        return []

    def read_steps(self, clauses):
        """Takes the actions, and what is known of all states."""
        conditions, owners = [[] for _ in range(self.conditional)], {}
        for clause in clauses:
            for one, other in (clause, clause[::-1]) if len(clause) == 2 else ():
                if one < 0 and self.kind(-one) == "e":
                    effect = -one - 1 - self.count
                    if other > 0 and self.kind(other) == "a":
                        owners[effect] = other - 1
                    elif self.kind(abs(other)) == "n":
                        conditions[effect].append(self.literal(other))
        for clause in clauses:
            kinds = [self.kind(abs(it)) for it in clause]
            begins = [it for it, kind in zip(clause, kinds) if kind in "ae" and it < 0]
            if not set(kinds) & set("aex"):
                if "t" not in kinds:
                    self.known.append([self.literal(it) for it in clause])
            elif "x" in kinds or len(begins) != 1 or {"n", "t"} <= set(kinds):
                continue
            elif kinds.count("t") == 1:
                effect, made = -begins[0] - 1 - self.count, self.literal(clause[kinds.index("t")])
                owner, under = (effect + self.count, []) if effect < 0 else (owners[effect], conditions[effect])
                self.actions[owner].effects.append((made, under))
            elif len(clause) == 2 and self.kind(-begins[0]) == "a" and "n" in kinds:
                self.actions[-begins[0] - 1].before.append(self.literal(clause[kinds.index("n")]))

    def closure(self):
        """A function that tells all literals that hold where some do, by what is known; None where these never hold together."""
        follows, always = {}, []
        for clause in self.known:
            if len(clause) == 1:
                always += clause
            elif len(clause) == 2:
                for one, other in (clause, clause[::-1]):
                    follows.setdefault(one ^ 1, []).append(other)

        def closed(literals):
            found, left = set(), [*literals, *always]
            while left:
                it = left.pop()
                if it not in found:
                    found.add(it)
                    left += follows.get(it, ())
            return None if any(it ^ 1 in found for it in found) else found
        return closed
